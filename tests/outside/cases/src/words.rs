//! A case, an answer and a difference in words.

use crate::case::*;
use crate::closings;
use crate::isolations;
use crate::pictures;
use crate::searches::{room, values};
use std::collections::{BTreeMap, BTreeSet};
use std::fmt::Write;

const DID: [&str; 7] = ["logic", "set M", "store", "masked store", "deliver", "resolve", "set mode register"];
/// How many instructions of a list are shown, how many lines of a text, and how many characters of a line.
const SHOWN: usize = 24;
const LINE: usize = 120;
const FROM: [&str; 5] = ["memory", "M", "X", "Y", "outside"];

pub fn hex(bytes: &[u8]) -> String {
    bytes.iter().map(|b| format!("{:02x}", b)).collect::<Vec<_>>().join(" ")
}

pub fn instruction(b: &[u8]) -> String {
    let kind = DID.get(b[0] as usize).copied().unwrap_or("?");
    let source = FROM.get(b[1] as usize).copied().unwrap_or("?");
    let mut text = match (b[0], b[1]) {
        (5 | 6, 0) => kind.to_string(),
        _ => format!("{} from {}", kind, source),
    };
    if b[2] != 0 || b[3] != 0 || b[4] != 0 {
        let which = match b[2] {
            2 => " (A)",
            3 => " (B)",
            _ => "",
        };
        write!(text, ", tag {}{} mode {} address {}", b[2], which, b[3], b[4]).unwrap();
    }
    if b[5] != 0 {
        write!(text, ", flip {}", b[5]).unwrap();
    }
    if b[6] != 0 {
        write!(text, ", byte 6 = {} (2^{} mod 2^{})", b[6], b[6] % 16, b[6] / 16).unwrap();
    }
    if b[0] == 0 || b[7] != 0 {
        write!(text, ", choice {} function {}", b[7] / 16, b[7] % 16).unwrap();
    }
    text
}

pub fn describe(case: &Case) -> String {
    let mut t = String::new();
    let p = case.p;
    writeln!(t, "kind {}: {}; seed {}", case.kind, KINDS[case.kind as usize], case.seed).unwrap();
    match case.kind {
        PASS | WIRED => writeln!(t, "flip {}, byte 6 = {} (2^{} mod 2^{}, 0 for none)", p[0], p[1], p[1] % 16, p[1] / 16).unwrap(),
        SUM | DIFFERENCE | SUM_RUN | DIFFERENCE_RUN => {
            let first = if case.kind == SUM || case.kind == SUM_RUN { 1 } else { 2 };
            writeln!(t, "A starts at {}, B at {}, S at {}, width {}", p[0], p[1], p[2], p[3]).unwrap();
            if p[3] <= 64 {
                writeln!(t, "the list wants {} bytes", 8 * (first + 5 * p[3])).unwrap();
            }
        }
        _ if case.has_file() => {
            if case.kind == READ_PLAIN || case.kind == READ_ASKED {
                writeln!(t, "kind asked {}", p[0]).unwrap();
            }
            if p[3] == 1 {
                let blocks = case.lengths[FILE] / 512;
                writeln!(t, "file formatted as {} blocks of kind {}, the last using {}", blocks, p[1], p[2]).unwrap();
            } else {
                writeln!(t, "file not formatted").unwrap();
            }
        }
        WRITE_PLAIN | WRITE_ASKED => writeln!(t, "kind asked {}", p[0]).unwrap(),
        EQUAL_RUN | LESS_RUN | GREATEST_RUN => describe_search(&mut t, case),
        CLOSE_RUN | SPREAD_RUN => describe_closing(&mut t, case),
        MAKE | ASSEMBLE => t.push_str(&lines_of(&case.make()[TEXT])),
        _ => {}
    }
    for k in 0..COUNT {
        if case.lengths[k] != 0 {
            let filled = if (case.zeros >> k) % 2 == 1 || case.seed == 0 { "zeros" } else { "from the seed" };
            writeln!(t, "buffer {} ({}): {} bytes, {}", k, BUFFERS[k], case.lengths[k], filled).unwrap();
        }
    }
    let buffers = case.make();
    if case.has_modes() {
        writeln!(t, "mode registers: {}", modes(&buffers[REGISTERS][MODES..])).unwrap();
    }
    if pictures::about(case) {
        describe_picture(&mut t, case, &buffers);
    }
    if case.has_list() {
        if case.shape != 0 {
            writeln!(t, "the list is shaped ({})", case.shape).unwrap();
        }
        // the first ones, and of the others those that are written in
        let written = |k: usize| case.patches.iter().any(|patch| {
            let at = patch.offset as usize;
            patch.target as usize == LIST && at < 8 * k + 8 && 8 * k < at + patch.bytes.len()
        });
        let shown = |k: usize| k < SHOWN || [ISOLATED, REACH].contains(&case.kind) && written(k);
        for (k, b) in buffers[LIST].chunks(8).enumerate() {
            if k == SHOWN {
                writeln!(t, "  ... {} instructions in all", buffers[LIST].len() / 8).unwrap();
            }
            if !shown(k) {
                continue;
            }
            if b.len() == 8 {
                writeln!(t, "  {:>4}: {}   {}", k, hex(b), instruction(b)).unwrap();
            } else {
                writeln!(t, "  {:>4}: {}   (not whole)", k, hex(b)).unwrap();
            }
        }
    }
    if case.kind == PASS || case.kind == WIRED {
        writeln!(t, "item {}", hex(&buffers[ITEMS])).unwrap();
    }
    for patch in &case.patches {
        let at = patch.offset as usize;
        match patch.target {
            SEAL => writeln!(t, "then block {} is sealed", at).unwrap(),
            REPEAT => writeln!(t, "then the memory repeats its first {} bytes", at).unwrap(),
            REPEAT_FILE => writeln!(t, "then the file repeats its first {} bytes", at).unwrap(),
            k if k as usize == LIST && case.has_list() && at % 8 == 0 => {
                writeln!(t, "patch: list from instruction {} on, {} bytes", at / 8, patch.bytes.len()).unwrap()
            }
            k if k as usize == MARKS && case.way().is_some() => {
                writeln!(t, "patch: marks byte {}: {}", at, hex(&patch.bytes)).unwrap()
            }
            k if k as usize == TEXT && [MAKE, ASSEMBLE].contains(&case.kind) => {
                writeln!(t, "patch: text from character {} on, {} characters", at, patch.bytes.len()).unwrap()
            }
            k if k as usize == FILE => {
                writeln!(t, "patch: file byte {} (block {}, byte {}): {}", at, at / 512, at % 512, hex(&patch.bytes)).unwrap()
            }
            k => writeln!(t, "patch: {} byte {}: {}", BUFFERS[k as usize], at, hex(&patch.bytes)).unwrap(),
        }
    }
    t
}

/// The lines of a text with their numbers; what is no character of a text stands as its hex digits.
fn lines_of(text: &[u8]) -> String {
    let lines: Vec<&[u8]> = text.split(|&byte| byte == b'\n').collect();
    let mut t = format!("the text has {} characters, {} lines\n", text.len(), lines.len());
    for (k, line) in lines.iter().enumerate().take(SHOWN) {
        let cut = &line[..line.len().min(LINE)];
        writeln!(t, "  {:>4}: {}{}", k + 1, cut.escape_ascii(), if line.len() > LINE { " .." } else { "" }).unwrap();
    }
    t
}

/// Both mode registers.
fn modes(bytes: &[u8]) -> String {
    let said = |pair: &[u8]| match pair {
        [0, 0] => "unset".to_string(),
        [1, mode] => format!("mode {}", mode),
        _ => format!("bad (flag {}, mode {})", pair[0], pair[1]),
    };
    format!("A {}, B {}", said(&bytes[..2]), said(&bytes[2..]))
}

/// What stands in the file or in the registers of a picture, where kinds 17 to 20 look at it.
fn describe_picture(t: &mut String, case: &Case, buffers: &Buffers) {
    if case.kind == WRITE_ASKED {
        if let Some(four) = buffers[REGISTERS].get(MODES..MODES + 4) {
            writeln!(t, "mode registers: {}", modes(four)).unwrap();
        }
        return;
    }
    let file = &buffers[FILE];
    let blocks: Vec<&[u8]> = file.chunks(512).filter(|block| block.len() == 512).collect();
    let field = |block: &[u8], at: usize| block[at] as u32 + 256 * block[at + 1] as u32;
    let kinds: BTreeSet<u32> = blocks.iter().map(|block| field(block, 0)).collect();
    let kinds: Vec<String> = kinds.iter().take(5).map(|kind| kind.to_string()).collect();
    if let Some(last) = blocks.last() {
        writeln!(t, "{} whole blocks of kind {}, the last using {}", blocks.len(), kinds.join(" and "), field(last, 6)).unwrap();
    }
    match file.get(pictures::FLAGS..pictures::FLAGS + 4) {
        Some(four) if case.kind == TO_OLD || case.p[0] == 4 => writeln!(t, "mode registers: {}", modes(four)).unwrap(),
        _ => {}
    }
}

fn describe_search(t: &mut String, case: &Case) {
    let p = case.p;
    writeln!(t, "the field starts at {}, width {}", p[0], p[1]).unwrap();
    if case.kind != GREATEST_RUN {
        writeln!(t, "the number is {}", p[2] as u64 + ((p[3] as u64) << 32)).unwrap();
    }
    if p[1] < 1 || p[1] > 64 {
        return;
    }
    let (list, items) = room(case.kind, p[1]);
    writeln!(t, "the list wants {} bytes, the items {}", list, items).unwrap();
    if p[0] > 256 - p[1] || case.lengths[MEMORY] != 8192 || case.lengths[REGISTERS] as usize != RECORD {
        return;
    }
    let marked = emulator::bits::unpack(&case.make()[REGISTERS][64..96]);
    let mut words: BTreeMap<u64, (usize, usize)> = BTreeMap::new();
    for (word, value) in values(case).into_iter().enumerate() {
        let count = words.entry(value).or_default();
        count.0 += 1;
        count.1 += marked[word] as usize;
    }
    writeln!(t, "{} different values, the greatest first:", words.len()).unwrap();
    for (value, (all, marked)) in words.into_iter().rev().take(20) {
        writeln!(t, "  {} in {} words, {} of them marked in Y", value, all, marked).unwrap();
    }
}

/// Numbers that follow each other as one, "3 to 7".
fn runs(words: &[usize]) -> Vec<String> {
    let mut all: Vec<(usize, usize)> = vec![];
    for &word in words {
        match all.last_mut() {
            Some(run) if run.1 + 1 == word => run.1 = word,
            _ => all.push((word, word)),
        }
    }
    let said = |(first, last): (usize, usize)| if first == last { first.to_string() } else { format!("{} to {}", first, last) };
    all.into_iter().map(said).collect()
}

fn describe_closing(t: &mut String, case: &Case) {
    let [a, s, n, _] = case.p;
    writeln!(t, "A starts at {}, S at {}, width {}", a, s, n).unwrap();
    if 1 <= n && n <= 32 {
        let (list, items) = closings::room(case.kind, n);
        writeln!(t, "the list wants {} bytes, the items {}", list, items).unwrap();
    }
    let buffers = case.make();
    if buffers[MARKS].len() != 32 {
        writeln!(t, "the marks have {} bytes", buffers[MARKS].len()).unwrap();
        return;
    }
    let marked = emulator::closing::marked(&buffers[MARKS]);
    let runs = runs(&marked);
    let more = if runs.len() > 30 { ", .." } else { "" };
    writeln!(t, "marked words, {} in all: {}{}", marked.len(), runs[..runs.len().min(30)].join(", "), more).unwrap();
    if case.number_and_place(&case.answer()).0 != 0 {
        return;
    }
    let table = emulator::memory::Table::from_chips(&buffers[MEMORY]);
    let value = |start: u32, word| emulator::searches::values(&table, start as usize, n as usize)[word];
    for (k, &word) in marked.iter().enumerate().take(20) {
        if case.kind == CLOSE_RUN {
            writeln!(t, "  A of word {} is {}: into S of word {}, which is {}", word, value(a, word), k, value(s, k)).unwrap();
        } else {
            writeln!(t, "  S of word {} is {}: into A of word {}, which is {}", k, value(s, k), word, value(a, word)).unwrap();
        }
    }
    if marked.len() > 20 {
        writeln!(t, "  and so on").unwrap();
    }
    if case.kind == CLOSE_RUN && marked.len() < 256 {
        writeln!(t, "  zero into S of the words from {} on", marked.len()).unwrap();
    }
}

/// What a number says.
fn meaning(number: u32) -> &'static str {
    match number {
        1 => "memory not 8,192 bytes",
        2 => "registers not 100 bytes",
        3 => "list of no right length",
        4 => "items of no right length",
        5 => "kind over 6",
        6 => "source that this kind has not",
        7 => "memory touched or mode register set, and tag 0",
        8 => "memory touched and tag over 3, or mode register set and tag 1 or over 3",
        9 => "not 0 where memory is not touched, behind tag 2 or 3, or in byte 4 of kind 6",
        11 => "choice over 4, or not 0 without logic",
        12 => "items too few",
        13 => "out too short",
        14 => "mode from a register that is unset",
        15 => "set-flag over 1, or a mode that is not 0 with flag 0",
        16 => "group over 256 lines",
        17 => "m not below p",
        18 => "a move that this kind may not make",
        20 => "file of no right length",
        21 => "sums differ",
        22 => "kind not the one asked",
        23 => "number not its place, or count not that of the blocks there",
        24 => "used wrong, or a byte not 0 that must be",
        25 => "size unfit for the kind",
        26 => "target or content of wrong size",
        27 => "output too short",
        28 => "a mode register set, which an old picture has not",
        40 => "not isolated",
        30 => "no width 1 to 64",
        31 => "start and width are over 256 together",
        32 => "S overlaps A or B without having its start",
        34 => "a value of 2 to the width or more",
        60 => "no instruction has this name, and no statement where there are any",
        61 => "no such choice",
        62 => "no such function",
        63 => "no such source, place or mode register",
        64 => "no number 0 to 255, behind mode none, a or b, or no count 1 to 256",
        65 => "address, from, mod, into, at, most or word has to stand here",
        66 => "no such shift",
        67 => "more than the line takes",
        68 => "no byte of two hex digits",
        69 => "the line ends too early",
        70 => "a name of over eight characters, or with one outside 33 to 126",
        71 => "a field above has this name",
        72 => "256 fields have names already",
        73 => "no field above has this name",
        74 => "not as wide as A",
        75 => "a store reaches over the limit, or is by a mode register that nothing above sets",
        76 => "no number below 2^64 in one to twenty digits",
        77 => "an instruction above takes from outside",
        _ => "the builder's",
    }
}

/// The answer of a run or step, also of one that was built before, of reading, writing and making new or old, of
/// isolation and of lists as text, in words; of other entries nothing.
pub fn answered(case: &Case, reply: &Reply) -> String {
    if case.kind == ISOLATED {
        return answered_of_isolation(case, reply);
    }
    if [SHOW, MAKE, REACH, ASSEMBLE].contains(&case.kind) {
        return answered_of_text(case, reply);
    }
    let Some(at) = case.run_numbers() else { return answered_by_blocks(case, reply) };
    let (before, run) = (&reply.words[..at.start], &reply.words[at]);
    if before.first().is_some_and(|&number| number != 0) {
        return format!("refused with {} by the builder\n", before[0]);
    }
    let (number, place, byte) = (run[0], run[1] as usize, run[2] as usize);
    let why = meaning(number);
    match number {
        0 => format!("done: steps {}, taken {}, given {}\n", run[3], run[4], run[5]),
        5..=11 | 14 | 16..=18 => {
            let value = case.make()[LIST][8 * place + byte];
            format!("refused with {} at instruction {}, byte {} (it is {}): {}\n", number, place, byte, value, why)
        }
        12 | 13 => format!("refused with {} at instruction {}, no byte: {}\n", number, place, why),
        _ => format!("refused with {}: {}\n", number, why),
    }
}

fn answered_by_blocks(case: &Case, reply: &Reply) -> String {
    let (number, place, bytes) = (reply.words[0], reply.words[1], reply.words[2]);
    let none = !(1..=4).contains(&case.p[0]);
    match (case.kind, number) {
        (PASS | WIRED | SUM | DIFFERENCE, _) => String::new(),
        (READ_PLAIN | WRITE_PLAIN | READ_ASKED | WRITE_ASKED, 22) if none => "refused with 22: no such kind to ask for\n".to_string(),
        (_, 0) => format!("done: {} bytes put out\n", bytes),
        (_, 21..=24) if case.has_file() => format!("refused with {} at block {}: {}\n", number, place, meaning(number)),
        _ => format!("refused with {}: {}\n", number, meaning(number)),
    }
}

/// Where a list is not isolated, and all that its instruction there is said to be wrong for.
fn answered_of_isolation(case: &Case, reply: &Reply) -> String {
    let (number, place) = (reply.words[0], reply.words[1] as usize);
    if number == 0 {
        return "isolated: no instruction breaks the condition\n".to_string();
    }
    if number != 40 {
        return format!("refused with {}: {}\n", number, meaning(number));
    }
    let buffers = case.make();
    let b = &buffers[LIST][8 * place..8 * place + 8];
    let why = isolations::why(&buffers[LIST], &buffers[REGISTERS], place).join(", ");
    format!("{} at instruction {}: {}   {}: {}\n", meaning(number), place, hex(b), instruction(b), why)
}

/// The text that is shown; where a text is refused and what stands there; how many words the stores reach.
fn answered_of_text(case: &Case, reply: &Reply) -> String {
    let mut buffers = case.make();
    let numbers = case.call(&mut buffers);
    assert_eq!(numbers, reply.words[..NUMBERS]);
    match (case.kind, numbers[0]) {
        (SHOW, 0) => format!("shown: {}", lines_of(&buffers[TEXT][..numbers[1] as usize])),
        (REACH, 0) => {
            let mut t = format!("done: {} bytes\n", numbers[1]);
            for (k, pair) in buffers[OUT][..numbers[1] as usize].chunks(2).enumerate().filter(|(_, pair)| pair != &[0, 0]).take(SHOWN) {
                writeln!(t, "  {:>4}: reaches {}", k, pair[0] as u32 + 256 * pair[1] as u32).unwrap();
            }
            t
        }
        (MAKE | ASSEMBLE, 0) => {
            let list = &buffers[LIST][..numbers[3] as usize];
            let mut t = format!("made: {} instructions\n", list.len() / 8);
            for (k, b) in list.chunks(8).enumerate().take(SHOWN) {
                writeln!(t, "  {:>4}: {}   {}", k, hex(b), instruction(b)).unwrap();
            }
            if case.kind == ASSEMBLE {
                let items = &buffers[ITEMS][..numbers[4] as usize];
                writeln!(t, "and {} items", items.len() / 32).unwrap();
                for (k, item) in items.chunks(32).enumerate().take(SHOWN) {
                    writeln!(t, "  {:>4}: {} on every line", k, item[0] % 2).unwrap();
                }
            }
            t
        }
        (ASSEMBLE, 4) => "refused with 4: over 1,024 items\n".to_string(),
        (ASSEMBLE, 33) => "refused with 33: the list buffer is shorter than the list, or the items buffer than the items\n".to_string(),
        (MAKE | ASSEMBLE, 3) => "refused with 3: over 4,096 instructions\n".to_string(),
        (MAKE, 33) => "refused with 33: the list buffer is shorter than the list\n".to_string(),
        (MAKE | ASSEMBLE, number) => {
            let line = buffers[TEXT].split(|&byte| byte == b'\n').nth(numbers[1] as usize - 1).unwrap_or(&[]);
            let behind = &line[line.len().min(numbers[2] as usize - 1)..];
            let cut = &behind[..behind.len().min(LINE)];
            let there = if cut.is_empty() { "the line's end".to_string() } else { cut.escape_ascii().to_string() };
            format!("refused with {} at line {}, column {}: {}; there stands {}\n", number, numbers[1], numbers[2], meaning(number), there)
        }
        (_, number) => format!("refused with {}: {}\n", number, meaning(number)),
    }
}

pub fn differences(one: &str, x: Option<&str>, other: &str, y: Option<&str>) -> String {
    let mut t = String::new();
    writeln!(t, "{}: {}", one, x.unwrap_or("(no line)")).unwrap();
    writeln!(t, "{}: {}", other, y.unwrap_or("(no line)")).unwrap();
    let parsed = (x.and_then(Reply::from_line), y.and_then(Reply::from_line));
    let (a, b) = match parsed {
        (Some(a), Some(b)) if a.words.len() == b.words.len() && a.words.len() >= COUNT => (a.words, b.words),
        _ => {
            writeln!(t, "one of them is no answer, or they have not as many words").unwrap();
            return t;
        }
    };
    const OTHER_NAMES: [&str; NUMBERS] = ["number", "place, line, or count of show or reach", "count, bytes or column", "count of the list made", "count of the items"];
    const RUN_NAMES: [&str; OF_RUN] = ["number", "place", "byte", "steps", "taken", "given"];
    const BUILDER_NAMES: [&str; OF_BUILDER] = ["builder's number", "bytes of the list", "bytes of the items"];
    let numbers = a.len() - COUNT;
    let names = match numbers {
        NUMBERS => OTHER_NAMES.to_vec(),
        OF_RUN => RUN_NAMES.to_vec(),
        _ => [&BUILDER_NAMES[..], &RUN_NAMES[..]].concat(),
    };
    for k in 0..a.len() {
        if a[k] != b[k] {
            if k < numbers {
                let name = names.get(k).copied().unwrap_or("a further number");
                writeln!(t, "{}: {} against {}", name, a[k], b[k]).unwrap();
            } else {
                writeln!(t, "buffer {} ({}) differs afterwards", k - numbers, BUFFERS[k - numbers]).unwrap();
            }
        }
    }
    t
}
