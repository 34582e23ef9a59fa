//! Texts with fields, statements and a limit (docs/TEXT.md, "Fields by name, and the builders as statements"): the list
//! and the items of such a text. The bytes that a statement makes are those of docs/LISTS.md, "Bytes".
//!
//! A line that begins with the name of a statement is taken here, word by word; every other line is an instruction of
//! `text`, with its refusals. Of what is above a line only this is kept: the fields, the limit, what the mode registers
//! hold, and whether an instruction takes from outside.

use crate::lists::{difference_list, sum_list, Built};
use crate::machine::Modes;
use crate::text::{follow, instruction, reach_of, stores, Refusal, LONGEST_LIST, LONGEST_TEXT};

/// The most items, in bytes, and the most fields.
pub const LONGEST_ITEMS: usize = 32_768;
pub const MOST_FIELDS: usize = 256;

/// The longest name of a field, and the most digits of a value.
const LONGEST_NAME: usize = 8;
const MOST_DIGITS: usize = 20;
/// How many words the store of a slice reaches.
const OF_A_SLICE: u32 = 256;

/// What assemble gives: the number, line and column of a refusal, both from 1, and how many bytes the list and the items
/// have. Line and column are 0 where nothing is refused, and for 50, 3, 4 and 33.
#[derive(Clone, Copy, PartialEq, Eq, Debug, Default)]
pub struct Assembled {
    pub number: u32,
    pub line: u32,
    pub column: u32,
    pub list: u32,
    pub items: u32,
}

// ---- the words of a statement

/// The words of a line that have not been taken yet, with their columns, as they stand; and the column of the line's end.
struct Words<'a> {
    left: std::vec::IntoIter<(usize, &'a [u8])>,
    end: usize,
}

impl<'a> Words<'a> {
    /// What stands before the first `;` of a line, cut at blanks, tabs and carriage returns.
    fn of(line: &'a [u8]) -> Words<'a> {
        let end = line.iter().position(|&byte| byte == b';').unwrap_or(line.len());
        let mut words = vec![];
        let mut from = None;
        for at in 0..=end {
            let parts = at == end || matches!(line[at], b' ' | b'\t' | b'\r');
            match from {
                None if !parts => from = Some(at),
                Some(start) if parts => {
                    words.push((start + 1, &line[start..at]));
                    from = None;
                }
                _ => {}
            }
        }
        Words { left: words.into_iter(), end: end + 1 }
    }

    /// The next word and its column; 69 if there is none.
    fn next(&mut self) -> Result<(usize, &'a [u8]), Refusal> {
        self.left.next().ok_or((69, self.end))
    }

    /// The next word must be one of these.
    fn must(&mut self, one_of: &[&str]) -> Result<(), Refusal> {
        let (column, word) = self.next()?;
        let is = one_of.iter().any(|one| one.as_bytes() == word);
        if is { Ok(()) } else { Err((65, column)) }
    }

    /// The next word must be a number of one to three digits between these two.
    fn number(&mut self, least: u64, most: u64) -> Result<usize, Refusal> {
        let (column, word) = self.next()?;
        match digits(word, 3) {
            Some(value) if least <= value && value <= most => Ok(value as usize),
            _ => Err((64, column)),
        }
    }

    /// Nothing may follow.
    fn end(&mut self) -> Result<(), Refusal> {
        self.left.next().map_or(Ok(()), |(column, _)| Err((67, column)))
    }
}

/// The number of one to so many digits, with zeros in front or not; none if it is 2^64 or more.
fn digits(word: &[u8], most: usize) -> Option<u64> {
    if word.is_empty() || word.len() > most {
        return None;
    }
    let mut value = 0u64;
    for &digit in word {
        if !digit.is_ascii_digit() {
            return None;
        }
        value = value.checked_mul(10)?.checked_add((digit - b'0') as u64)?;
    }
    Some(value)
}

// ---- the lists of the searches

fn logic(source: u8, logic: u8) -> [u8; 8] {
    [0, source, 0, 0, 0, 0, 0, logic]
}

fn logic_slice(slice: usize, logic: u8) -> [u8; 8] {
    [0, 0, 1, 0, slice as u8, 0, 0, logic]
}

const X: u8 = 2;
const OUTSIDE: u8 = 4;

/// The list of equal or of less.
pub fn search_list(less: bool, start: usize, width: usize) -> Vec<u8> {
    let mut list = vec![logic(X, if less { 0x00 } else { 0x0F })];
    for bit in start..start + width {
        list.push(logic(OUTSIDE, 0x1A));
        list.push(logic_slice(bit, 0x16));
        list.push(if less { logic_slice(bit, 0x35) } else { logic(X, 0x30) });
    }
    list.push(logic(X, 0x1A));
    list.concat()
}

/// The items of equal or of less: item k has bit k of the value on every line.
pub fn search_items(value: u64, width: usize) -> Vec<u8> {
    (0..width).flat_map(|bit| [if value >> bit & 1 == 1 { 0xFF } else { 0x00 }; 32]).collect()
}

/// The list of greatest, from the highest bit down.
pub fn greatest_list(start: usize, width: usize) -> Vec<u8> {
    let mut list = vec![logic(X, 0x00)];
    for bit in (start..start + width).rev() {
        list.push(logic_slice(bit, 0x3A));
        for digit in 0..8 {
            let mut or_flipped = logic(X, 0x0E);
            or_flipped[5] = 1 << digit;
            list.push(or_flipped);
        }
        list.push(logic_slice(bit, 0x04));
        list.push(logic(X, 0x24));
    }
    list.concat()
}

// ---- lines

#[derive(Clone, Copy)]
struct Field<'a> {
    name: &'a [u8],
    start: usize,
    width: usize,
}

impl Field<'_> {
    /// Whether they have a bit in common without having the same start.
    fn crosses(&self, other: &Field) -> bool {
        let meets = self.start < other.start + other.width && other.start < self.start + self.width;
        meets && self.start != other.start
    }
}

/// The lines above.
#[derive(Default)]
struct Assembly<'a> {
    fields: Vec<Field<'a>>,
    limit: Option<u32>,
    modes: Modes,
    /// An instruction line takes from outside.
    takes: bool,
    /// The list and the items; nothing more is put in when they are too long already.
    list: Vec<u8>,
    items: Vec<u8>,
}

impl<'a> Assembly<'a> {
    fn line(&mut self, line: &'a [u8]) -> Result<(), Refusal> {
        let mut words = Words::of(line);
        let Ok((first, name)) = words.next() else { return Ok(()) };
        match name {
            b"field" => self.field(words),
            b"sum" => self.sum(first, words, sum_list),
            b"difference" => self.sum(first, words, difference_list),
            b"equal" => self.search(first, words, false),
            b"less" => self.search(first, words, true),
            b"greatest" => {
                let a = self.named(&mut words)?;
                words.end()?;
                self.put(&greatest_list(a.start, a.width));
                Ok(())
            }
            b"reach" => {
                words.must(&["at"])?;
                words.must(&["most"])?;
                let count = words.number(1, 256)?;
                words.must(&["word", "words"])?;
                words.end()?;
                self.limit = Some(count as u32);
                Ok(())
            }
            _ => self.instruction(first, line),
        }
    }

    fn put(&mut self, list: &[u8]) {
        if self.list.len() <= LONGEST_LIST {
            self.list.extend(list);
        }
    }

    /// Whether a store that reaches so many words may stand here; none if nobody knows how many.
    fn within(&self, reached: Option<u32>) -> bool {
        self.limit.is_none_or(|limit| reached.is_some_and(|reached| reached <= limit))
    }

    fn instruction(&mut self, first: usize, line: &[u8]) -> Result<(), Refusal> {
        let Some(b) = instruction(line)? else { return Ok(()) };
        if stores(&b) && !self.within(reach_of(&b, &self.modes)) {
            return Err((75, first));
        }
        follow(&mut self.modes, &b);
        self.takes |= b[1] == OUTSIDE;
        self.put(&b);
        Ok(())
    }

    fn find(&self, name: &[u8]) -> Option<Field<'a>> {
        self.fields.iter().find(|field| field.name == name).copied()
    }

    /// The next word is the name of a field.
    fn named(&self, words: &mut Words) -> Result<Field<'a>, Refusal> {
        let (column, word) = words.next()?;
        self.find(word).ok_or((73, column))
    }

    /// The next word is the name of a field of A's width; and its column.
    fn named_as_wide(&self, words: &mut Words, a: &Field) -> Result<(usize, Field<'a>), Refusal> {
        let (column, word) = words.next()?;
        let field = self.find(word).ok_or((73, column))?;
        if field.width == a.width { Ok((column, field)) } else { Err((74, column)) }
    }

    fn field(&mut self, mut words: Words<'a>) -> Result<(), Refusal> {
        let (column, name) = words.next()?;
        if name.len() > LONGEST_NAME || name.iter().any(|byte| !(33..=126).contains(byte)) {
            return Err((70, column));
        }
        if self.find(name).is_some() {
            return Err((71, column));
        }
        if self.fields.len() == MOST_FIELDS {
            return Err((72, column));
        }
        let start = words.number(0, 255)?;
        let (column, width) = words.next()?;
        let width = match digits(width, 3) {
            Some(width @ 1..=64) => width as usize,
            _ => return Err((30, column)),
        };
        if start + width > 256 {
            return Err((31, column));
        }
        words.end()?;
        self.fields.push(Field { name, start, width });
        Ok(())
    }

    fn sum(&mut self, first: usize, mut words: Words, build: fn(u32, u32, u32, u32, &mut [u8]) -> Built) -> Result<(), Refusal> {
        let a = self.named(&mut words)?;
        let (_, b) = self.named_as_wide(&mut words, &a)?;
        words.must(&["into"])?;
        let (column, s) = self.named_as_wide(&mut words, &a)?;
        if s.crosses(&a) || s.crosses(&b) {
            return Err((32, column));
        }
        words.end()?;
        if !self.within(Some(OF_A_SLICE)) {
            return Err((75, first));
        }
        let mut list = vec![0; 8 * (2 + 5 * a.width)];
        let built = build(a.start as u32, b.start as u32, s.start as u32, a.width as u32, &mut list);
        assert_eq!(built.number, 0, "such fields have no other refusal");
        self.put(&list[..built.count as usize]);
        Ok(())
    }

    fn search(&mut self, first: usize, mut words: Words, less: bool) -> Result<(), Refusal> {
        let a = self.named(&mut words)?;
        let (column, word) = words.next()?;
        let value = digits(word, MOST_DIGITS).ok_or((76, column))?;
        if value as u128 >= 1 << a.width {
            return Err((34, column));
        }
        words.end()?;
        if self.takes {
            return Err((77, first));
        }
        self.put(&search_list(less, a.start, a.width));
        if self.items.len() <= LONGEST_ITEMS {
            self.items.extend(search_items(value, a.width));
        }
        Ok(())
    }
}

/// The list and the items of a text: 50; the first line that is refused; 3; 4; 33; or the list and the items at the
/// fronts of their buffers. What stands behind the last line feed is a line like any other.
pub fn assemble(text: &[u8], list: &mut [u8], items: &mut [u8]) -> Assembled {
    let refused = |number| Assembled { number, ..Assembled::default() };
    if text.len() > LONGEST_TEXT {
        return refused(50);
    }
    let mut made = Assembly::default();
    for (above, line) in text.split(|&byte| byte == b'\n').enumerate() {
        if let Err((number, column)) = made.line(line) {
            return Assembled { line: above as u32 + 1, column: column as u32, ..refused(number) };
        }
    }
    if made.list.len() > LONGEST_LIST {
        return refused(3);
    }
    if made.items.len() > LONGEST_ITEMS {
        return refused(4);
    }
    if list.len() < made.list.len() || items.len() < made.items.len() {
        return refused(33);
    }
    list[..made.list.len()].copy_from_slice(&made.list);
    items[..made.items.len()].copy_from_slice(&made.items);
    Assembled { list: made.list.len() as u32, items: made.items.len() as u32, ..Assembled::default() }
}
