//! Lists as text (docs/TEXT.md): the page's example and tables, each number with its line and column, the way from a list
//! to its text and back, what is made in words against what a run refuses, and what a store reaches against what a run
//! of it changes.

mod common;

use common::*;
use emulator::text::{LONGEST_LIST, LONGEST_TEXT};
use emulator::*;

/// The lines of the page's example, and the list that they make.
const EXAMPLE: [(&str, [u8; 8]); 7] = [
    ("set a 13", [6, 0, 2, 13, 0, 0, 0, 0]),
    ("store mode a address 255 from outside ; reaches 32 words", [2, 4, 2, 0, 255, 0, 0, 0]),
    ("logic x-if-y+y xor slice 7 flip 1 shift 1 mod 8", [0, 0, 1, 0, 7, 1, 0x30, 0x46]),
    ("mstore word 9 from m flip 128 ; reaches 1 word", [3, 1, 1, 255, 9, 128, 0, 0]),
    ("deliver word 9", [4, 0, 1, 255, 9, 0, 0, 0]),
    ("resolve", [5, 0, 0, 0, 0, 0, 0, 0]),
    ("bytes 02 04 00 0D 00 00 00 00 ; refused 7 byte 2", [2, 4, 0, 13, 0, 0, 0, 0]),
];

/// The text of a list, which has room; and behind it nothing is written.
fn shown(list: &[u8]) -> String {
    let mut buffer = vec![0xA5; 71 * (list.len() / 8) + 3];
    let answer = show(list, &mut buffer);
    assert_eq!(answer.number, 0);
    assert!(buffer[answer.count as usize..].iter().all(|&byte| byte == 0xA5));
    buffer.truncate(answer.count as usize);
    String::from_utf8(buffer).expect("characters")
}

/// The list of a text that stands, with room; and behind it nothing is written.
fn listed(text: &[u8]) -> Vec<u8> {
    let mut buffer = vec![0xA5; LONGEST_LIST + 3];
    let made = make(text, &mut buffer);
    assert_eq!((made.number, made.line, made.column), (0, 0, 0), "{:?}", String::from_utf8_lossy(text));
    assert!(buffer[made.count as usize..].iter().all(|&byte| byte == 0xA5));
    buffer.truncate(made.count as usize);
    buffer
}

/// The text must be refused with this number, line and column, into a buffer of any length, which stays.
fn refused(text: &[u8], number: u32, line: u32, column: u32) {
    for room in [0, 8, 100] {
        let mut buffer = vec![0x5A; room];
        let made = make(text, &mut buffer);
        assert_eq!(made, Made { number, line, column, count: 0 }, "{:?}", String::from_utf8_lossy(text));
        assert!(buffer.iter().all(|&byte| byte == 0x5A));
    }
}

/// Two bytes for each instruction as numbers.
fn reached(registers: &[u8], list: &[u8]) -> Vec<u32> {
    let mut buffer = vec![0xA5; list.len() / 4 + 5];
    let answer = reach(registers, list, &mut buffer);
    assert_eq!(answer, Written { number: 0, count: list.len() as u32 / 4 });
    assert_eq!(buffer[list.len() / 4..], [0xA5; 5]);
    buffer[..list.len() / 4].chunks(2).map(|pair| pair[0] as u32 + 256 * pair[1] as u32).collect()
}

fn registers(modes: [u8; 4]) -> Vec<u8> {
    [&[0; 96][..], &modes].concat()
}

/// An instruction that stands where both registers are set: kind, source, place and moves of every sort.
fn good(random: &mut Random) -> [u8; 8] {
    let kind = random.below(7) as u8;
    if kind == 5 {
        return [5, 0, 0, 0, 0, 0, 0, 0];
    }
    if kind == 6 {
        return [6, 0, 2 + random.below(2) as u8, random.byte(), 0, 0, 0, 0];
    }
    let store = kind == 2 || kind == 3;
    let source = if store { 1 + random.below(4) as u8 } else { random.below(5) as u8 };
    let mut b = [kind, source, 0, 0, 0, 0, 0, 0];
    if store || source == 0 {
        b[2] = 1 + random.below(3) as u8;
        if b[2] == 1 {
            b[3] = [0, 255, random.byte()][random.below(3) as usize];
        }
        b[4] = random.byte();
    }
    b[5] = random.byte() * random.below(2) as u8;
    if !store {
        let codes = network::codes();
        b[6] = codes[random.below(codes.len() as u64) as usize];
    }
    if kind == 0 {
        b[7] = random.below(80) as u8;
    }
    assert_eq!(by_the_tables(&b, [true; 2]), (0, 0));
    b
}

#[test]
fn the_page_s_example() {
    let text: String = EXAMPLE.iter().map(|line| line.0.to_string() + "\n").collect();
    let list: Vec<u8> = EXAMPLE.iter().flat_map(|line| line.1).collect();
    assert_eq!(shown(&list), text);
    assert_eq!(listed(text.as_bytes()), list);
    assert_eq!(reached(&registers([0; 4]), &list), [0, 32, 0, 1, 0, 0, 0]);
}

/// The names of the page's tables, the other way round.
#[test]
fn choices_and_functions_by_their_meaning() {
    let bit = |function: u8, r: u8, f: u8| function >> (2 * r + f) & 1;
    let meanings: [(&str, fn(u8, u8) -> u8); 16] = [
        ("zero", |_, _| 0),
        ("nor", |r, f| 1 - (r | f)),
        ("2", |r, f| f & (1 - r)),
        ("not", |r, _| 1 - r),
        ("clear", |r, f| r & (1 - f)),
        ("loadnot", |_, f| 1 - f),
        ("xor", |r, f| r ^ f),
        ("nand", |r, f| 1 - (r & f)),
        ("and", |r, f| r & f),
        ("xnor", |r, f| 1 - (r ^ f)),
        ("load", |_, f| f),
        ("11", |r, f| f | (1 - r)),
        ("keep", |r, _| r),
        ("ornot", |r, f| r | (1 - f)),
        ("or", |r, f| r | f),
        ("one", |_, _| 1),
    ];
    for (choice, name) in ["x", "y", "both", "x-if-y", "x-if-y+y"].into_iter().enumerate() {
        for (word, meaning) in meanings {
            let line = format!("logic {} {} m\n", name, word);
            let b = listed(line.as_bytes());
            assert_eq!((b[0], b[1], &b[2..7], b[7] as usize / 16), (0, 1, &[0u8; 5][..], choice));
            for (r, f) in [(0, 0), (0, 1), (1, 0), (1, 1)] {
                assert_eq!(bit(b[7] % 16, r, f), meaning(r, f), "{}", word);
            }
            assert_eq!(shown(&b), line);
        }
        // by number, with zeros in front or not
        for function in 0..16u8 {
            for form in [format!("{}", function), format!("{:02}", function), format!("{:03}", function)] {
                assert_eq!(listed(format!("logic {} {} m", name, form).as_bytes())[7], 16 * choice as u8 + function);
            }
        }
    }
}

#[test]
fn numbers_and_places() {
    for number in 0..=255u8 {
        for form in [format!("{}", number), format!("{:02}", number), format!("{:03}", number)] {
            let line = |text: &str| listed(text.replace('N', &form).as_bytes());
            assert_eq!(line("setm slice N"), [1, 0, 1, 0, number, 0, 0, 0]);
            assert_eq!(line("setm word N"), [1, 0, 1, 255, number, 0, 0, 0]);
            assert_eq!(line("setm mode N address N"), [1, 0, 1, number, number, 0, 0, 0]);
            assert_eq!(line("setm mode a address N"), [1, 0, 2, 0, number, 0, 0, 0]);
            assert_eq!(line("setm mode b address N"), [1, 0, 3, 0, number, 0, 0, 0]);
            assert_eq!(line("setm y flip N"), [1, 3, 0, 0, 0, number, 0, 0]);
            assert_eq!(line("store slice 3 from outside flip N"), [2, 4, 1, 0, 3, number, 0, 0]);
            assert_eq!(line("set a N"), [6, 0, 2, number, 0, 0, 0, 0]);
            assert_eq!(line("set b N"), [6, 0, 3, number, 0, 0, 0, 0]);
        }
        let hex = [format!("{:02x}", number), format!("{:02X}", number)];
        for form in hex {
            let text = format!("bytes 00 {} ff {} 00 00 00 {}", form, form, form);
            assert_eq!(listed(text.as_bytes()), [0, number, 255, number, 0, 0, 0, number]);
        }
    }
    for number in (256..2000u64).chain([9999, 10_000, 99_999_999, 4_294_967_296, 4_294_967_303]) {
        refused(format!("setm slice {}", number).as_bytes(), 64, 1, 12);
    }
    for word in ["", "0000", "0255", "+1", "-1", "1.", "1_", "١", "0x1", "a", "1e1"] {
        if !word.is_empty() {
            refused(format!("set b {}", word).as_bytes(), 64, 1, 7);
        }
    }
    // every two characters that are no hex digits
    for high in 33..127u8 {
        for low in 33..127u8 {
            let text = [b"bytes ", &[high, low][..], b" 00 00 00 00 00 00 00"].concat();
            let comment = high == b';' || low == b';';
            if high.is_ascii_hexdigit() && low.is_ascii_hexdigit() {
                listed(&text);
            } else if comment {
                let number = if high == b';' { 69 } else { 68 };
                refused(&text, number, 1, 7);
            } else {
                refused(&text, 68, 1, 7);
            }
        }
    }
}

/// Each amount and group of the words 0 to 300, and with zeros in front: the 36 shifts and no others.
#[test]
fn shifts() {
    let mut stand = vec![];
    for m in 0..=300u32 {
        for p in [0u32, 1, 2, 3, 4, 7, 8, 16, 31, 32, 64, 100, 128, 255, 256, 512] {
            let text = format!("deliver x flip 3 shift {} mod {}", m, p);
            let power = |value: u32, from: u32, to: u32| (from..=to).contains(&value) && value.is_power_of_two();
            if !power(m, 1, 128) {
                refused(text.as_bytes(), 66, 1, 24);
            } else if !power(p, 2, 256) || p <= m {
                refused(text.as_bytes(), 66, 1, 29 + m.to_string().len() as u32);
            } else {
                let b = listed(text.as_bytes());
                assert_eq!(b[..6], [4, 2, 0, 0, 0, 3]);
                assert_eq!(b[6] as u32, 16 * p.ilog2() + m.ilog2());
                stand.push(b[6]);
                refused(text.replace("shift ", "shift 0").as_bytes(), 66, 1, 24);
                refused(text.replace("mod ", "mod 0").as_bytes(), 66, 1, 29 + m.to_string().len() as u32);
            }
        }
    }
    stand.sort();
    assert_eq!(stand, network::codes()[1..]);
}

/// The instruction is cut off behind each of its words, and each of its words is put wrong.
#[test]
fn each_place_has_its_number() {
    // a whole instruction, and the numbers of its words; 0 where any word may be left out
    let lines: [(&str, &[u32]); 14] = [
        ("logic x-if-y loadnot outside flip 3 shift 1 mod 2", &[60, 61, 62, 63, 67, 64, 67, 66, 65, 66]),
        ("logic both 7 slice 9 shift 4 mod 8", &[60, 61, 62, 63, 64, 67, 66, 65, 66]),
        ("logic y 15 mode 3 address 4", &[60, 61, 62, 63, 64, 65, 64]),
        ("setm word 9 flip 4", &[60, 63, 64, 67, 64]),
        ("setm mode a address 4 shift 2 mod 256", &[60, 63, 64, 65, 64, 67, 66, 65, 66]),
        ("deliver m", &[60, 63]),
        ("deliver mode 255 address 0 flip 1", &[60, 63, 64, 65, 64, 67, 64]),
        ("store slice 3 from x", &[60, 63, 64, 65, 63]),
        ("store mode b address 3 from outside flip 3", &[60, 63, 64, 65, 64, 65, 63, 67, 64]),
        ("mstore word 3 from y flip 3", &[60, 63, 64, 65, 63, 67, 64]),
        ("mstore mode 7 address 3 from m", &[60, 63, 64, 65, 64, 65, 63]),
        ("set b 9", &[60, 63, 64]),
        ("bytes 00 01 02 03 04 05 06 07", &[60, 68, 68, 68, 68, 68, 68, 68, 68]),
        ("resolve", &[60]),
    ];
    for (line, numbers) in lines {
        let words: Vec<&str> = line.split(' ').collect();
        assert_eq!(words.len(), numbers.len());
        listed(line.as_bytes());
        for k in 0..=words.len() {
            let column = words[..k].iter().map(|word| word.len() as u32 + 1).sum::<u32>() + 1;
            let number = if k < words.len() { numbers[k] } else { 67 };
            for wrong in ["?", "Logic", "x-if-y+yy", "\u{1}", "é", "ÿ"] {
                let mut other: Vec<&str> = words[..k].to_vec();
                other.push(wrong);
                let cut = other.join(" ");
                other.extend(&words[k.min(words.len() - 1)..]);
                for text in [cut, other.join(" ")] {
                    refused(text.as_bytes(), number, 1, column);
                    refused(format!("; x\n\n\tresolve;\n {}\nbad", text).as_bytes(), number, 4, column + 1);
                }
            }
            // the line ends here: it may before a flip or a shift, and when it is whole
            let cut = words[..k].join(" ");
            if k > 0 && k < words.len() && numbers[k] != 67 {
                let end = cut.len() as u32 + 1;
                refused(cut.as_bytes(), 69, 1, end);
                refused(format!("{}\n", cut).as_bytes(), 69, 1, end);
                refused(format!("{};{}", cut, &line[cut.len()..]).as_bytes(), 69, 1, end);
                refused(format!("{} \t\r\n", cut).as_bytes(), 69, 1, end + 3);
                refused(format!("{}\n{}\n", cut, &line[cut.len()..]).as_bytes(), 69, 1, end);
                refused(format!("resolve\r\n\n {} ; {}", cut, line).as_bytes(), 69, 3, end + 2);
            } else if k > 0 {
                listed(cut.as_bytes());
                listed(format!("{};{}", cut, line).as_bytes());
            }
        }
    }
}

/// What may stand behind a source, behind its flip and behind a store: the order of the moves.
#[test]
fn moves_in_their_order() {
    refused(b"setm m shift 1 mod 2 flip 3", 67, 1, 22);
    refused(b"setm m flip 3 flip 3", 67, 1, 15);
    refused(b"setm m shift 1 mod 2 shift 1 mod 2", 67, 1, 22);
    refused(b"store slice 1 from m shift 1 mod 2", 67, 1, 22);
    refused(b"mstore slice 1 from m flip 3 shift 1 mod 2", 67, 1, 30);
    refused(b"mstore slice 1 from m flip 3 flip 3", 67, 1, 30);
    refused(b"set a 3 flip 1", 67, 1, 9);
    refused(b"resolve flip 1", 67, 1, 9);
    refused(b"bytes 00 01 02 03 04 05 06 07 08", 67, 1, 31);
    refused(b"bytes 00 01 02 03 04 05 06 07 x", 67, 1, 31);
    refused(b"store m from x", 63, 1, 7);
    refused(b"store slice 3 from slice 3", 63, 1, 20);
    refused(b"store flip 3", 63, 1, 7);
    refused(b"setm flip 3", 63, 1, 6);
    refused(b"set m 3", 63, 1, 5);
    refused(b"setm a", 63, 1, 6);
}

/// Blanks, lines, comments, and the bytes that are part of a word.
#[test]
fn words_and_lines() {
    for text in [&b""[..], b"\n", b" \t\r\n\r\n ", b";", b";\n;\n", b"; \x00\xff ; x", b"\r"] {
        assert!(listed(text).is_empty());
    }
    for byte in 0..=255u8 {
        let resolve = [5, 0, 0, 0, 0, 0, 0, 0];
        let behind = [b"resolve", &[byte][..]].concat();
        let before = [&[byte][..], b"resolve"].concat();
        let between = [b"set", &[byte][..], b"a 3"].concat();
        let apart = [b"set a", &[byte][..], b" 3"].concat();
        match byte {
            b' ' | b'\t' | b'\r' => {
                assert_eq!(listed(&behind), resolve);
                assert_eq!(listed(&before), resolve);
                assert_eq!(listed(&between), [6, 0, 2, 3, 0, 0, 0, 0]);
                assert_eq!(listed(&apart), [6, 0, 2, 3, 0, 0, 0, 0]);
            }
            b'\n' => {
                assert_eq!(listed(&behind), resolve);
                assert_eq!(listed(&before), resolve);
                refused(&between, 69, 1, 4);
                refused(&apart, 69, 1, 6);
            }
            b';' => {
                assert_eq!(listed(&behind), resolve);
                assert!(listed(&before).is_empty());
                refused(&between, 69, 1, 4);
                refused(&apart, 69, 1, 6);
            }
            _ => {
                refused(&behind, 60, 1, 1);
                refused(&before, 60, 1, 1);
                refused(&between, 60, 1, 1);
                refused(&apart, 63, 1, 5);
            }
        }
        // any byte in a comment
        let comment = [b"resolve ;", &[byte][..], b"x\nresolve"].concat();
        if byte == b'\n' {
            refused(&comment, 60, 2, 1);
        } else {
            assert_eq!(listed(&comment).len(), 16);
        }
    }
    // words of eight characters and of more
    refused(b"resolves", 60, 1, 1);
    refused(b"resolveresolve", 60, 1, 1);
    assert_eq!(listed(b"logic x-if-y+y zero m")[7], 0x40);
    for more in ["y", " y", "+y", "x-if-y+y"] {
        let text = format!("logic x-if-y+y{} zero m", more);
        let (number, column) = if more == " y" { (62, 16) } else { (61, 7) };
        refused(text.as_bytes(), number, 1, column);
    }
    refused(&[b'x'; 100_000], 60, 1, 1);
    refused(&[&[b' '; 99_999][..], b"x"].concat(), 60, 1, 100_000);
    refused(&[&[b'\n'; 99_999][..], b"x"].concat(), 60, 100_000, 1);
}

/// The first word that may not stand, line by line; then 3; then 33; and 50 before all.
#[test]
fn the_order_of_refusals() {
    refused(b"resolve\nset c 256\nxyz\n", 63, 2, 5);
    refused(b"set a\nxyz", 69, 1, 6);
    refused(b"logic z 16 q flip 256 shift 3 mod 1 x", 61, 1, 7);
    let many = b"resolve\n".repeat(4096);
    assert_eq!(listed(&many), [5, 0, 0, 0, 0, 0, 0, 0].repeat(4096));
    let more = [&many[..], b"; x\n\n \t"].concat();
    assert_eq!(listed(&more).len(), LONGEST_LIST);
    let over = [&many[..], b"resolve"].concat();
    refused(&over, 3, 0, 0);
    refused(&[&over[..], b"\nresolv"].concat(), 60, 4098, 1);
    refused(&[&over[..], b" x"].concat(), 67, 4097, 9);
    for room in [LONGEST_LIST - 1, 8, 0] {
        assert_eq!(make(&many, &mut vec![0; room]), Made { number: 33, ..Made::default() });
        assert_eq!(make(&over, &mut vec![0; room]).number, 3);
    }
    assert_eq!(make(b"resolve\nresolve", &mut [0; 15]), Made { number: 33, ..Made::default() });
    assert_eq!(make(b"resolve\nresolve", &mut [0; 16]), Made { count: 16, ..Made::default() });
    let longest = vec![b'\n'; LONGEST_TEXT];
    assert!(listed(&longest).is_empty());
    let mut longer = vec![b'x'; LONGEST_TEXT + 1];
    refused(&longer, 50, 0, 0);
    longer.pop();
    refused(&longer, 60, 1, 1);
}

#[test]
fn show_s_refusals_and_room() {
    let list: Vec<u8> = EXAMPLE.iter().flat_map(|line| line.1).collect();
    let wanted = shown(&list).len();
    for room in 0..wanted + 3 {
        let mut buffer = vec![0x5A; room];
        let answer = show(&list, &mut buffer);
        if room < wanted {
            assert_eq!(answer, Written { number: 27, count: 0 });
            assert!(buffer.iter().all(|&byte| byte == 0x5A));
        } else {
            assert_eq!(answer, Written { number: 0, count: wanted as u32 });
            assert!(buffer[wanted..].iter().all(|&byte| byte == 0x5A));
        }
    }
    for length in [1, 7, 9, 55, LONGEST_LIST - 1, LONGEST_LIST + 1, LONGEST_LIST + 8] {
        assert_eq!(show(&vec![0; length], &mut []), Written { number: 3, count: 0 });
        assert_eq!(show(&vec![0; length], &mut vec![0; 3_000_000]), Written { number: 3, count: 0 });
    }
    assert_eq!(show(&[], &mut []), Written::default());
    // the longest list, and the longest line of its text: it fits the longest text that make takes
    let list = [2, 4, 1, 100, 100, 100, 0, 0].repeat(4096);
    let text = shown(&list);
    assert!(text.starts_with("store mode 100 address 100 from outside flip 100 ; reaches 32 words\n"));
    assert_eq!(listed(text.as_bytes()), list);
}

/// No line has more than 71 characters with its line feed, so no text of show is longer than make takes.
#[test]
fn every_shown_text_can_be_made() {
    let mut random = Random(3);
    // the longest line that there is
    let longest = shown(&[0, 0, 1, 100, 100, 100, 0x87, 0x45]);
    assert_eq!(longest, "logic x-if-y+y loadnot mode 100 address 100 flip 100 shift 128 mod 256\n");
    for _ in 0..200_000 {
        let mut b = good(&mut random);
        if random.below(4) == 0 {
            b.copy_from_slice(&random.bytes(8));
        }
        for byte in &mut b[3..6] {
            if *byte > 0 && random.below(2) == 0 {
                *byte |= 200;
            }
        }
        let line = shown(&b);
        assert!(line.len() <= longest.len());
        assert_eq!(listed(line.as_bytes()), b);
    }
    assert_eq!(longest.len(), 71);
    assert!(longest.len() * 4096 < LONGEST_TEXT);
}

/// Lists of all sorts, shown and made again; with the comments taken off, moved or made wrong.
#[test]
fn shown_and_made_again() {
    let mut random = Random(11);
    for round in 0..1500 {
        let count = random.below(if round % 50 == 0 { 2000 } else { 30 }) as usize;
        let mut list = vec![];
        for _ in 0..count {
            let mut b = good(&mut random);
            match random.below(if round % 3 == 0 { 1000 } else { 4 }) {
                0 => b.copy_from_slice(&random.bytes(8)),
                1 => b[random.below(8) as usize] = random.byte(),
                _ => {}
            }
            list.extend(b);
        }
        let text = shown(&list);
        assert_eq!(listed(text.as_bytes()), list);
        assert_eq!(text.lines().count(), count);
        let no_comments: String = text.lines().map(|line| line.split(" ;").next().unwrap().to_string() + "\n").collect();
        assert_eq!(listed(no_comments.as_bytes()), list);
        let glued = text.replace(" ; ", ";");
        assert_eq!(listed(glued.as_bytes()), list);
        let other = text.replace("reaches", "refused 7 byte 2 ; reaches").replace(' ', " \t \r").replace('\n', "\r\n\r\n; x\n");
        assert_eq!(listed(other.as_bytes()), list);
        let last = text.strip_suffix('\n').unwrap_or(&text);
        assert_eq!(listed(last.as_bytes()), list);
        // one form: what is made of any form is shown in it
        let small: String = text.lines().map(|line| if line.starts_with("bytes") { line.to_lowercase() } else { line.to_string() } + "\n").collect();
        assert_eq!(shown(&listed(small.as_bytes())), text);
    }
    // lists of any bytes, and of every value in every byte of each kind
    for round in 0..300 {
        let list = random.bytes(8 * (round % 40));
        assert_eq!(listed(shown(&list).as_bytes()), list);
    }
    for kind in 0..=8u8 {
        for at in 0..8 {
            let mut list = vec![];
            for value in 0..=255u8 {
                let mut b = good(&mut random);
                b[0] = kind;
                b[at] = value;
                list.extend(b);
            }
            assert_eq!(listed(shown(&list).as_bytes()), list);
        }
    }
}

/// What is shown as bytes is what the tables refuse where both registers are set, with that number and byte.
#[test]
fn refused_by_itself() {
    let mut random = Random(5);
    let mut numbers = std::collections::BTreeSet::new();
    for _ in 0..200_000 {
        let mut b = good(&mut random);
        for _ in 0..random.below(3) {
            b[random.below(8) as usize] = if random.below(2) == 0 { random.byte() } else { random.below(8) as u8 };
        }
        let line = shown(&b);
        let (number, byte) = by_the_tables(&b, [true; 2]);
        numbers.insert((number, byte));
        if number == 0 {
            assert!(!line.starts_with("bytes"), "{:?}", line);
        } else {
            let hex: Vec<String> = b.iter().map(|byte| format!("{:02X}", byte)).collect();
            assert_eq!(line, format!("bytes {} ; refused {} byte {}\n", hex.join(" "), number, byte));
        }
        // a run of it alone, with both registers set, says the same
        let mut bench = Bench::zero();
        bench.registers[96..].copy_from_slice(&[1, 7, 1, 9]);
        (bench.items, bench.out) = (vec![0; 32], vec![0; 32]);
        if random.below(20) == 0 {
            let answer = bench.run(&b);
            assert_eq!((answer.number, answer.byte), (number, byte));
        }
    }
    println!("{:?}", numbers);
    let all = [(0, 0), (5, 0), (6, 1), (7, 2), (8, 2), (9, 2), (9, 3), (9, 4), (18, 5), (18, 6), (16, 6), (17, 6), (11, 7)];
    assert_eq!(numbers.into_iter().collect::<Vec<_>>(), { let mut all = all; all.sort(); all });
}

/// Texts in words, of random words of the language: what is made of them without `bytes` is never refused by itself.
#[test]
fn words_make_nothing_that_is_refused() {
    const NEXT: [&str; 40] = [
        "m", "x", "y", "outside", "slice", "word", "mode", "address", "from", "flip", "shift", "mod", "a", "b", "0", "1", "2", "4", "8", "16", "32", "64",
        "128", "256", "255", "7", "both", "x-if-y", "x-if-y+y", "xor", "load", "one", "11", "15", "16", "3", "200", "007", "zero", "keep",
    ];
    let kinds = ["logic", "setm", "store", "mstore", "deliver", "resolve", "set"];
    let mut random = Random(17);
    let (mut stood, mut seen) = (0, std::collections::BTreeSet::new());
    for _ in 0..40_000 {
        // the words grow one by one, each the first that is not refused where it stands
        let mut text = kinds[random.below(7) as usize].to_string();
        loop {
            let mut list = [0; 8];
            let made = make(text.as_bytes(), &mut list);
            if made.number == 0 {
                assert_eq!(by_the_tables(&list, [true; 2]), (0, 0), "{}", text);
                assert_eq!(made.count, 8);
                seen.insert((list[0], list[1], list[2], list[6] != 0, list[5] != 0));
                stood += 1;
                if random.below(3) == 0 || text.starts_with("resolve") || text.starts_with("set ") {
                    break;
                }
            } else {
                assert_eq!((made.number, made.column), (69, text.len() as u32 + 1), "{}", text);
            }
            let mut tries = 0;
            loop {
                let longer = format!("{} {}", text, NEXT[random.below(40) as usize]);
                let made = make(longer.as_bytes(), &mut list);
                if made.number == 0 || made.number == 69 {
                    text = longer;
                    break;
                }
                assert_eq!(made.column, text.len() as u32 + 2, "{}", longer);
                tries += 1;
                if tries > 500 {
                    break;
                }
            }
            if tries > 500 {
                // whole, and nothing more may stand
                assert_eq!(make(text.as_bytes(), &mut list).number, 0, "{}", text);
                break;
            }
        }
    }
    println!("{} stood, {} sorts", stood, seen.len());
    assert!(stood > 40_000);
    for tag in 1..=3 {
        for kind in 0..5 {
            assert!(seen.iter().any(|sort| sort.0 == kind && sort.2 == tag), "{} {}", kind, tag);
        }
    }
    assert!([0, 1, 4].iter().all(|&kind| seen.iter().any(|sort| sort.0 == kind && sort.3 && sort.4)));
}

/// Which words of the memory a store changes: of ones over zeros or of zeros over ones.
fn changed(b: &[u8; 8], modes: [u8; 4]) -> Vec<usize> {
    let mut words = vec![];
    for (before, item) in [(0u8, 255u8), (255, 0)] {
        let mut bench = Bench::zero();
        bench.memory.fill(before);
        bench.registers[..32].fill(255);
        bench.registers[96..].copy_from_slice(&modes);
        bench.items = vec![item; 32];
        let old = bench.table();
        assert_eq!(bench.run(b), ok(1, 1, 0));
        let new = bench.table();
        words.extend((0..256).filter(|&word| (0..256).any(|bit| old.bit(word, bit) != new.bit(word, bit))));
    }
    words.sort();
    words.dedup();
    words
}

/// The reach is the number of words that a store changes, under every mode, given and by each register, masked and not.
#[test]
fn reach_is_what_a_store_changes() {
    let mut random = Random(23);
    for mode in 0..=255u8 {
        let address = random.byte();
        for (sort, (tag, modes)) in [(1u8, [0u8; 4]), (2, [1, mode, 0, 0]), (3, [1, !mode, 1, mode])].into_iter().enumerate() {
            let kind = 2 + (mode as usize + sort) as u8 % 2;
            let b = [kind, 4, tag, if tag == 1 { mode } else { 0 }, address, random.byte(), 0, 0];
            let words = changed(&b, modes);
            assert_eq!(reached(&registers(modes), &b), [words.len() as u32], "{}", mode);
            // they are those that agree with the address where the mode has ones, and no others
            let agree: Vec<usize> = (0..256).filter(|word| word & mode as usize == (address & mode) as usize).collect();
            assert_eq!(words, agree);
            // and the comment says so, where show knows the mode
            let said = match words.len() {
                _ if tag > 1 => "? words".to_string(),
                1 => "1 word".to_string(),
                count => format!("{} words", count),
            };
            assert!(shown(&b).ends_with(&format!(" ; reaches {}\n", said)));
            if tag > 1 {
                let known = shown(&[[6, 0, tag, mode, 0, 0, 0, 0], b].concat());
                assert_eq!(known.contains("reaches 1 word\n"), words.len() == 1);
                assert_eq!(known.contains(&format!("reaches {} words\n", words.len())), words.len() > 1);
            }
        }
    }
}

/// Whole runs: no word changes but those that one of the stores reaches, and a run that is done has no store of reach 0.
#[test]
fn a_run_changes_no_other_words() {
    let mut random = Random(29);
    let mut stores = 0;
    for _ in 0..300 {
        let mut bench = Bench::random(&mut random, 32 * 20, 32 * 20);
        let mut list = vec![];
        let mut held: Vec<Option<u8>> = bench.registers[96..].chunks(2).map(|pair| (pair[0] == 1).then_some(pair[1])).collect();
        let mut reachable = [false; 256];
        let mut counts = vec![];
        for _ in 0..1 + random.below(8) {
            let b = good(&mut random);
            let which = b[2] as usize % 2;
            if b[2] > 1 && b[0] != 6 && held[which].is_none() {
                continue;
            }
            if b[0] == 6 {
                held[which] = Some(b[3]);
            }
            let mut count = 0;
            if b[0] == 2 || b[0] == 3 {
                let mode = if b[2] == 1 { b[3] } else { held[which].unwrap() };
                for (word, reachable) in reachable.iter_mut().enumerate() {
                    let meets = (0..256).any(|line| memory::met(mode as usize, b[4] as usize, line).1 == word);
                    count += meets as u32;
                    *reachable |= meets;
                }
                stores += 1;
            }
            counts.push(count);
            list.extend(b);
        }
        assert_eq!(reached(&bench.registers, &list), counts);
        let old = bench.table();
        assert_eq!(bench.run(&list).number, 0);
        let new = bench.table();
        for word in (0..256).filter(|&word| !reachable[word]) {
            assert!((0..256).all(|bit| old.bit(word, bit) == new.bit(word, bit)));
        }
    }
    assert!(stores > 200);
}

/// The mode registers are followed from those given, by every kind 6 with tag 2 or 3, refused or not; all else that is
/// refused changes nothing and reaches nothing.
#[test]
fn reach_follows_the_registers() {
    let mut random = Random(31);
    let mut zeros = 0;
    for _ in 0..3000 {
        let modes: [u8; 4] = good_modes(&mut random).try_into().unwrap();
        let mut list = vec![];
        for _ in 0..random.below(12) {
            let mut b = good(&mut random);
            match random.below(4) {
                0 => b[random.below(8) as usize] = random.below(8) as u8,
                1 => b[random.below(8) as usize] = random.byte(),
                _ => {}
            }
            list.push(b);
        }
        let said = reached(&registers(modes), &list.concat());
        let (mut shows, mut held) = ([None; 2], [(modes[0] == 1).then_some(modes[1]), (modes[2] == 1).then_some(modes[3])]);
        let text = shown(&list.concat());
        for ((b, count), line) in list.iter().zip(said).zip(text.lines()) {
            let store = b[0] == 2 || b[0] == 3;
            let stands = by_the_tables(b, held.map(|mode| mode.is_some())).0 == 0;
            let mode = |held: [Option<u8>; 2]| match b[2] {
                2 => held[0],
                3 => held[1],
                _ => Some(b[3]),
            };
            let right = if store && stands { 1 << mode(held).unwrap().count_zeros() } else { 0 };
            assert_eq!(count, right, "{:?} {:?}", modes, list);
            zeros += (store && count == 0) as usize;
            if store && by_the_tables(b, [true; 2]).0 == 0 {
                let said = match mode(shows).map(|mode| 1u32 << mode.count_zeros()) {
                    None => "? words".to_string(),
                    Some(1) => "1 word".to_string(),
                    Some(count) => format!("{} words", count),
                };
                assert!(line.ends_with(&format!(" ; reaches {}", said)), "{:?} {}", b, line);
            } else {
                assert!(!line.contains("reaches"));
            }
            if b[0] == 6 && (b[2] == 2 || b[2] == 3) {
                held[b[2] as usize - 2] = Some(b[3]);
                shows[b[2] as usize - 2] = Some(b[3]);
            }
        }
    }
    assert!(zeros > 300);
    // where a run of the whole list is done, no store has 0, and where it is refused for a store, that one has 0
    for _ in 0..2000 {
        let modes: [u8; 4] = good_modes(&mut random).try_into().unwrap();
        let list: Vec<[u8; 8]> = (0..5).map(|_| good(&mut random)).collect();
        let mut bench = Bench::zero();
        bench.registers[96..].copy_from_slice(&modes);
        (bench.items, bench.out) = (vec![0; 256], vec![0; 256]);
        let answer = bench.run(&list.concat());
        let said = reached(&registers(modes), &list.concat());
        let last = if answer.number == 0 { 5 } else { answer.place as usize };
        for place in 0..last {
            assert_eq!(said[place] > 0, [2, 3].contains(&list[place][0]), "{:?}", list);
        }
        if answer.number == 14 {
            assert_eq!(said[last], 0);
        }
    }
}

#[test]
fn reach_s_refusals_and_their_order() {
    let list = [[2, 3, 1, 0, 0, 0, 0, 0], [5, 0, 0, 0, 0, 0, 0, 0], [3, 3, 2, 0, 0, 0, 0, 0]].concat();
    let asked = |registers: &[u8], list: &[u8], room: usize| {
        let mut out = vec![0x5A; room];
        let answer = reach(registers, list, &mut out);
        assert!(out[answer.count as usize..].iter().all(|&byte| byte == 0x5A));
        (answer.number, out[..answer.count as usize].to_vec())
    };
    assert_eq!(asked(&registers([0; 4]), &list, 6), (0, vec![0, 1, 0, 0, 0, 0]));
    assert_eq!(asked(&registers([1, 255, 0, 0]), &list, 9), (0, vec![0, 1, 0, 0, 1, 0]));
    assert_eq!(asked(&registers([0; 4]), &[], 0), (0, vec![]));
    for room in 0..6 {
        assert_eq!(asked(&registers([0; 4]), &list, room).0, 27);
    }
    // each beside all that come behind it
    let bad = registers([0, 1, 0, 0]);
    for length in (0..110).filter(|&length| length != 100) {
        assert_eq!(asked(&vec![3; length], &list[..7], 0).0, 2);
        assert_eq!(asked(&vec![0; length], &list, 100).0, 2);
    }
    for length in [1, 7, 9, LONGEST_LIST + 1, LONGEST_LIST + 8] {
        assert_eq!(asked(&bad, &vec![0; length], 0).0, 3);
        assert_eq!(asked(&registers([0; 4]), &vec![0; length], 10_000).0, 3);
    }
    for modes in [[2, 0, 0, 0], [0, 0, 2, 0], [0, 9, 1, 0], [1, 0, 0, 255], [255, 255, 255, 255]] {
        assert_eq!(asked(&registers(modes), &list, 0).0, 15);
        assert_eq!(asked(&registers(modes), &[], 0).0, 15);
    }
    let most = [2, 3, 1, 254, 0, 0, 0, 0].repeat(4096);
    assert_eq!(asked(&registers([0; 4]), &most, 8191).0, 27);
    assert_eq!(asked(&registers([0; 4]), &most, 8192), (0, [2, 0].repeat(4096)));
}
