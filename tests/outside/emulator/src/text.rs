//! Lists as text (docs/TEXT.md): the text of a list, the list of a text, and how many words each store reaches.
//!
//! A text is cut into lines, a line into words with their columns, and the words of an instruction are taken one after
//! the other: each place says what may stand there and the number for what may not. Nothing here runs.

use crate::machine::{fault, modes_of, register_of, Modes, REGISTERS};

/// The longest text, in characters, and the longest list, in bytes.
pub const LONGEST_TEXT: usize = 1_048_576;
pub const LONGEST_LIST: usize = 32_768;

/// What show and reach give: the number, and how many bytes are written at the front of the buffer.
#[derive(Clone, Copy, PartialEq, Eq, Debug, Default)]
pub struct Written {
    pub number: u32,
    pub count: u32,
}

/// What make gives: the number, line and column of a refusal, both from 1, and how many bytes the list has. Line and
/// column are 0 where nothing is refused, and for 50, 3 and 33.
#[derive(Clone, Copy, PartialEq, Eq, Debug, Default)]
pub struct Made {
    pub number: u32,
    pub line: u32,
    pub column: u32,
    pub count: u32,
}

const REGISTER: [&str; 4] = ["m", "x", "y", "outside"];
const CHOICE: [&str; 5] = ["x", "y", "both", "x-if-y", "x-if-y+y"];
const FUNCTION: [&str; 16] = [
    "zero", "nor", "2", "not", "clear", "loadnot", "xor", "nand", "and", "xnor", "load", "11", "keep", "ornot", "or", "one",
];
/// The powers of 2 as words; the place in the row is the exponent.
const POWER: [&str; 9] = ["1", "2", "4", "8", "16", "32", "64", "128", "256"];

/// A kind 6 gives the register that its tag names the mode in byte 3, for what stands behind it, whatever its other bytes
/// are and whether or not a run refuses it.
pub(crate) fn follow(modes: &mut Modes, b: &[u8]) {
    if b[0] == 6 {
        if let Some(which) = register_of(b[2]) {
            modes[which] = Some(b[3] as usize);
        }
    }
}

pub(crate) fn stores(b: &[u8]) -> bool {
    b[0] == 2 || b[0] == 3
}

/// The words that a store reaches under a mode: each zero bit of the mode lets the line choose one digit of the word.
fn reached(mode: usize) -> u32 {
    let zero_bits = (0..8).filter(|bit| mode >> bit & 1 == 0).count();
    1 << zero_bits
}

/// What a store reaches where the mode registers are these; none if its register is unset.
pub(crate) fn reach_of(b: &[u8], modes: &Modes) -> Option<u32> {
    let mode = match register_of(b[2]) {
        Some(which) => modes[which],
        None => Some(b[3] as usize),
    };
    mode.map(reached)
}

fn put(buffer: &mut [u8], bytes: &[u8]) -> Written {
    if buffer.len() < bytes.len() {
        return Written { number: 27, count: 0 };
    }
    buffer[..bytes.len()].copy_from_slice(bytes);
    Written { number: 0, count: bytes.len() as u32 }
}

fn no_list(list: &[u8]) -> bool {
    list.len() % 8 != 0 || list.len() > LONGEST_LIST
}

// ---- the text of a list

fn place_words(b: &[u8]) -> String {
    let address = b[4];
    match (b[2], b[3]) {
        (1, 0) => format!("slice {}", address),
        (1, 255) => format!("word {}", address),
        (1, mode) => format!("mode {} address {}", mode, address),
        (2, _) => format!("mode a address {}", address),
        _ => format!("mode b address {}", address),
    }
}

fn source_words(b: &[u8]) -> String {
    match b[1] {
        0 => place_words(b),
        register => REGISTER[register as usize - 1].to_string(),
    }
}

/// Flip and shift with the blank before each, or nothing.
fn move_words(b: &[u8]) -> String {
    let flip = if b[5] == 0 { String::new() } else { format!(" flip {}", b[5]) };
    let (p, m) = (b[6] as usize / 16, b[6] as usize % 16);
    let shift = if b[6] == 0 { String::new() } else { format!(" shift {} mod {}", POWER[m], POWER[p]) };
    flip + &shift
}

/// An instruction that stands, in words; without a comment.
fn words(b: &[u8]) -> String {
    match b[0] {
        0 => {
            let (choice, function) = (CHOICE[b[7] as usize / 16], FUNCTION[b[7] as usize % 16]);
            format!("logic {} {} {}{}", choice, function, source_words(b), move_words(b))
        }
        1 => format!("setm {}{}", source_words(b), move_words(b)),
        2 => format!("store {} from {}{}", place_words(b), source_words(b), move_words(b)),
        3 => format!("mstore {} from {}{}", place_words(b), source_words(b), move_words(b)),
        4 => format!("deliver {}{}", source_words(b), move_words(b)),
        5 => "resolve".to_string(),
        _ => format!("set {} {}", if b[2] == 2 { "a" } else { "b" }, b[3]),
    }
}

/// The line of an instruction, without its line feed, where the mode registers are these.
fn line(b: &[u8], modes: &Modes) -> String {
    // by itself: as if both mode registers were set
    if let Some((number, byte)) = fault(b, &[true; 2]) {
        let digits: Vec<String> = b.iter().map(|byte| format!("{:02X}", byte)).collect();
        return format!("bytes {} ; refused {} byte {}", digits.join(" "), number, byte);
    }
    if !stores(b) {
        return words(b);
    }
    let reaches = match reach_of(b, modes) {
        Some(1) => "1 word".to_string(),
        Some(count) => format!("{} words", count),
        None => "? words".to_string(),
    };
    format!("{} ; reaches {}", words(b), reaches)
}

/// The text of a list: 3, then 27; or the text at the front of the buffer.
pub fn show(list: &[u8], buffer: &mut [u8]) -> Written {
    if no_list(list) {
        return Written { number: 3, count: 0 };
    }
    let mut modes = [None; 2];
    let mut text = String::new();
    for b in list.chunks(8) {
        text.push_str(&line(b, &modes));
        text.push('\n');
        follow(&mut modes, b);
    }
    put(buffer, text.as_bytes())
}

// ---- the list of a text

/// What a line is refused with: the number and the column.
pub(crate) type Refusal = (u32, usize);

/// The words of a line that have not been taken yet, with their columns, and the column of the line's end.
struct Words<'a> {
    left: std::vec::IntoIter<(usize, &'a str)>,
    end: usize,
}

/// A word as it is compared with others. One that no place takes, as it has over eight characters or one outside 33 to
/// 126, is the empty word here, which is nothing either.
fn readable(bytes: &[u8]) -> &str {
    let short = bytes.len() <= 8 && bytes.iter().all(|byte| (33..=126).contains(byte));
    if short { std::str::from_utf8(bytes).unwrap_or("") } else { "" }
}

impl<'a> Words<'a> {
    /// What stands before the first `;` of a line, cut at blanks, tabs and carriage returns.
    fn of(line: &'a [u8]) -> Words<'a> {
        let code = line.split(|&byte| byte == b';').next().unwrap_or(line);
        let mut column = 1;
        let mut words = vec![];
        for piece in code.split(|byte| b" \t\r".contains(byte)) {
            if !piece.is_empty() {
                words.push((column, readable(piece)));
            }
            column += piece.len() + 1;
        }
        Words { left: words.into_iter(), end: code.len() + 1 }
    }

    fn peek(&self) -> Option<(usize, &'a str)> {
        self.left.as_slice().first().copied()
    }

    /// The next word by its meaning; the number if it has none here, 69 if there is no word.
    fn need<T>(&mut self, number: u32, meaning: impl Fn(&str) -> Option<T>) -> Result<T, Refusal> {
        let (column, word) = self.peek().ok_or((69, self.end))?;
        let meant = meaning(word).ok_or((number, column))?;
        self.left.next();
        Ok(meant)
    }

    /// The next word must be this one.
    fn must(&mut self, word: &str) -> Result<(), Refusal> {
        self.need(65, |next| (next == word).then_some(()))
    }

    /// Takes the next word if it is this one.
    fn may(&mut self, word: &str) -> bool {
        let is = self.peek().is_some_and(|(_, next)| next == word);
        if is {
            self.left.next();
        }
        is
    }

    fn number(&mut self) -> Result<u8, Refusal> {
        self.need(64, number)
    }

    /// Nothing may follow.
    fn end(&self) -> Result<(), Refusal> {
        self.peek().map_or(Ok(()), |(column, _)| Err((67, column)))
    }
}

/// The number of a word in a row of words.
fn place_in(row: &[&str], word: &str) -> Option<u8> {
    row.iter().position(|&one| one == word).map(|place| place as u8)
}

/// One to three digits, 0 to 255; zeros in front are allowed.
fn number(word: &str) -> Option<u8> {
    let digits = (1..=3).contains(&word.len()) && word.bytes().all(|byte| byte.is_ascii_digit());
    if digits { word.parse().ok() } else { None }
}

fn function(word: &str) -> Option<u8> {
    place_in(&FUNCTION, word).or_else(|| number(word).filter(|&function| function < 16))
}

fn two_digits(word: &str) -> Option<u8> {
    let digits = word.len() == 2 && word.bytes().all(|byte| byte.is_ascii_hexdigit());
    if digits { u8::from_str_radix(word, 16).ok() } else { None }
}

/// The first word of a place, which is also one of a source.
#[derive(Clone, Copy)]
enum Place {
    Slice,
    Word,
    Mode,
}

fn place(word: &str) -> Option<Place> {
    match word {
        "slice" => Some(Place::Slice),
        "word" => Some(Place::Word),
        "mode" => Some(Place::Mode),
        _ => None,
    }
}

/// Tag and mode behind `mode`.
fn tag_and_mode(word: &str) -> Option<(u8, u8)> {
    match word {
        "a" => Some((2, 0)),
        "b" => Some((3, 0)),
        _ => number(word).map(|mode| (1, mode)),
    }
}

/// Bytes 2 to 4 of an access whose first word has been taken.
fn take_place(words: &mut Words, first: Place, b: &mut [u8; 8]) -> Result<(), Refusal> {
    (b[2], b[3]) = match first {
        Place::Slice => (1, 0),
        Place::Word => (1, 255),
        Place::Mode => {
            let both = words.need(64, tag_and_mode)?;
            words.must("address")?;
            both
        }
    };
    b[4] = words.number()?;
    Ok(())
}

fn take_source(words: &mut Words, b: &mut [u8; 8]) -> Result<(), Refusal> {
    enum Source {
        Register(u8),
        Memory(Place),
    }
    let source = words.need(63, |word| match place_in(&REGISTER, word) {
        Some(which) => Some(Source::Register(which + 1)),
        None => place(word).map(Source::Memory),
    })?;
    match source {
        Source::Register(which) => b[1] = which,
        Source::Memory(first) => take_place(words, first, b)?,
    }
    Ok(())
}

fn take_flip(words: &mut Words, b: &mut [u8; 8]) -> Result<(), Refusal> {
    if words.may("flip") {
        b[5] = words.number()?;
    }
    Ok(())
}

fn take_shift(words: &mut Words, b: &mut [u8; 8]) -> Result<(), Refusal> {
    if words.may("shift") {
        let m = words.need(66, |word| place_in(&POWER[..8], word))?;
        words.must("mod")?;
        let p = words.need(66, |word| place_in(&POWER, word).filter(|&p| p > m))?;
        b[6] = 16 * p + m;
    }
    Ok(())
}

fn take_passed(words: &mut Words, b: &mut [u8; 8]) -> Result<(), Refusal> {
    take_source(words, b)?;
    take_flip(words, b)?;
    take_shift(words, b)
}

fn take_store(words: &mut Words, b: &mut [u8; 8]) -> Result<(), Refusal> {
    let first = words.need(63, place)?;
    take_place(words, first, b)?;
    words.must("from")?;
    b[1] = 1 + words.need(63, |word| place_in(&REGISTER, word))?;
    take_flip(words, b)
}

/// The instruction of a line; none if it has no words.
pub(crate) fn instruction(line: &[u8]) -> Result<Option<[u8; 8]>, Refusal> {
    let mut words = Words::of(line);
    let Some((column, first)) = words.left.next() else { return Ok(None) };
    let mut b = [0u8; 8];
    match first {
        "logic" => {
            let choice = words.need(61, |word| place_in(&CHOICE, word))?;
            let function = words.need(62, function)?;
            b[7] = 16 * choice + function;
            take_passed(&mut words, &mut b)?;
        }
        "setm" => {
            b[0] = 1;
            take_passed(&mut words, &mut b)?;
        }
        "store" => {
            b[0] = 2;
            take_store(&mut words, &mut b)?;
        }
        "mstore" => {
            b[0] = 3;
            take_store(&mut words, &mut b)?;
        }
        "deliver" => {
            b[0] = 4;
            take_passed(&mut words, &mut b)?;
        }
        "resolve" => b[0] = 5,
        "set" => {
            b[0] = 6;
            b[2] = 2 + words.need(63, |word| place_in(&["a", "b"], word))?;
            b[3] = words.number()?;
        }
        "bytes" => {
            for byte in &mut b {
                *byte = words.need(68, two_digits)?;
            }
        }
        _ => return Err((60, column)),
    }
    words.end()?;
    Ok(Some(b))
}

fn unmade(number: u32) -> Made {
    Made { number, ..Made::default() }
}

/// The list of a text: 50; the first line that is refused; 3; 33; or the list at the front of the buffer. What stands
/// behind the last line feed is a line like any other.
pub fn make(text: &[u8], buffer: &mut [u8]) -> Made {
    if text.len() > LONGEST_TEXT {
        return unmade(50);
    }
    let mut list = vec![];
    for (above, line) in text.split(|&byte| byte == b'\n').enumerate() {
        match instruction(line) {
            Ok(one) => list.extend(one.into_iter().flatten()),
            Err((number, column)) => return Made { number, line: above as u32 + 1, column: column as u32, count: 0 },
        }
    }
    if list.len() > LONGEST_LIST {
        return unmade(3);
    }
    if buffer.len() < list.len() {
        return unmade(33);
    }
    buffer[..list.len()].copy_from_slice(&list);
    Made { count: list.len() as u32, ..Made::default() }
}

// ---- what a store reaches

/// 2, 3 and 15 as in a run, then 27; or two bytes for each instruction at the front of the buffer: 0 for one that stores
/// nothing or that the rules for one instruction refuse where the mode registers are as they then are.
pub fn reach(registers: &[u8], list: &[u8], buffer: &mut [u8]) -> Written {
    let refused = |number| Written { number, count: 0 };
    if registers.len() != REGISTERS {
        return refused(2);
    }
    if no_list(list) {
        return refused(3);
    }
    let mut modes = match modes_of(registers) {
        Ok(modes) => modes,
        Err(refusal) => return refused(refusal.number),
    };
    let mut counts = vec![];
    for b in list.chunks(8) {
        let stands = fault(b, &modes.map(|mode| mode.is_some())).is_none();
        let count = if stores(b) && stands { reach_of(b, &modes).unwrap_or(0) } else { 0 };
        counts.extend([(count % 256) as u8, (count / 256) as u8]);
        follow(&mut modes, b);
    }
    put(buffer, &counts)
}
