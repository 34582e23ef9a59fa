//! Texts with fields, statements and a limit (docs/TEXT.md): each number with its line and column, the order of two
//! refusals in one word and along the line, the bytes of docs/LISTS.md, what runs of them leave, the limit by modes, by
//! registers and in bytes, what takes from outside above a search, 256 fields and one more, and lists, items and buffers
//! that are as long as can be and one too long or too short.

mod common;

use common::*;
use emulator::assembly::{LONGEST_ITEMS, MOST_FIELDS};
use emulator::text::{LONGEST_LIST, LONGEST_TEXT};
use emulator::*;

/// Fields of 8, 8, 8, 16, 64 and 1 bits, one a line.
const FIELDS: &str = "field a 0 8\nfield b 8 8\nfield s 20 8\nfield w 40 16\nfield long 192 64\nfield eightchr 255 1\n";

/// The list and the items of a text that stands, with room; and behind them nothing is written.
fn made(text: impl AsRef<[u8]>) -> (Vec<u8>, Vec<u8>) {
    let text = text.as_ref();
    let (mut list, mut items) = (vec![0xA5; LONGEST_LIST + 3], vec![0x5A; LONGEST_ITEMS + 3]);
    let answer = assemble(text, &mut list, &mut items);
    assert_eq!((answer.number, answer.line, answer.column), (0, 0, 0), "{:?}", String::from_utf8_lossy(text));
    assert!(list[answer.list as usize..].iter().all(|&byte| byte == 0xA5));
    assert!(items[answer.items as usize..].iter().all(|&byte| byte == 0x5A));
    list.truncate(answer.list as usize);
    items.truncate(answer.items as usize);
    (list, items)
}

/// The text must be refused with this number, line and column, into buffers of any length, which stay.
fn refused(text: impl AsRef<[u8]>, number: u32, line: u32, column: u32) {
    let text = text.as_ref();
    for (room, other) in [(0, 0), (40, 0), (0, 40), (LONGEST_LIST + 8, LONGEST_ITEMS + 32)] {
        let (mut list, mut items) = (vec![0xA5; room], vec![0x5A; other]);
        let answer = assemble(text, &mut list, &mut items);
        assert_eq!(answer, Assembled { number, line, column, list: 0, items: 0 }, "{:?}", String::from_utf8_lossy(text));
        assert!(list.iter().all(|&byte| byte == 0xA5) && items.iter().all(|&byte| byte == 0x5A));
    }
}

/// A line below the fields is refused with this number at this column.
fn line(line: impl AsRef<[u8]>, number: u32, column: u32) {
    let line = line.as_ref();
    for (before, lines, columns) in [("", 0, 0), ("\n", 1, 0), ("; x\n\r\n\t", 2, 1), ("resolve\nset a 3 ; y\n  ", 2, 2)] {
        for behind in ["", "\n", ";x", "; y\nxyz\n", "\nresolve"] {
            let text = [FIELDS.as_bytes(), before.as_bytes(), line, behind.as_bytes()].concat();
            refused(text, number, 7 + lines, column + columns);
        }
    }
}

/// The bytes that hex digits say.
fn hex(text: &str) -> Vec<u8> {
    let digits: Vec<u8> = text.bytes().filter(|byte| byte.is_ascii_hexdigit()).collect();
    digits.chunks(2).map(|pair| u8::from_str_radix(std::str::from_utf8(pair).unwrap(), 16).unwrap()).collect()
}

// ---- the page

#[test]
fn the_page_s_example() {
    let text = "field height 0 32\nfield shift 32 32\nfield new 64 32\nsum height shift into new ; 161 instructions\nless new 20000 ; 98 instructions, and 32 items\ngreatest new\n";
    let (list, items) = made(text);
    assert_eq!(list.len(), 8 * (161 + 98 + 353));
    assert_eq!(items.len(), 32 * 32);
    let mut sum = vec![0; 8 * 161];
    assert_eq!(sum_list(0, 32, 64, 32, &mut sum).number, 0);
    assert_eq!(list[..8 * 161], sum);
    for (bit, item) in items.chunks(32).enumerate() {
        assert!(item.iter().all(|&byte| byte == if 20000 >> bit & 1 == 1 { 255 } else { 0 }));
    }
}

/// The tables of docs/LISTS.md, "Bytes", written out for fields of two bits.
#[test]
fn the_bytes_of_each_statement() {
    let fields = "field a 5 2\nfield b 254 2\nfield s 9 2\n";
    let of = |line: &str| made(format!("{}{}", fields, line));
    let one = |x: &str, a: u8, b: u8, s: u8, read: &str| {
        format!("{} 00000100{:02x}000046 00000100{:02x}0000{} 02030100{:02x}000000 0002000000000033 0002000000000026", x, a, b, read, s)
    };
    let sum = one("0002000000000020", 5, 254, 9, "46") + &one("", 6, 255, 10, "46");
    assert_eq!(of("sum a b into s"), (hex(&sum), vec![]));
    let difference = one("0002000000000020 000200000000001f", 5, 254, 9, "49") + &one("", 6, 255, 10, "49");
    assert_eq!(of("difference a b into s"), (hex(&difference), vec![]));
    let item = |bit: bool| [if bit { 255 } else { 0 }; 32];
    let equal = "000200000000000f 000400000000001a 0000010005000016 0002000000000030 000400000000001a 0000010006000016 0002000000000030 000200000000001a";
    assert_eq!(of("equal a 2"), (hex(equal), [item(false), item(true)].concat()));
    let less = "0002000000000000 000400000000001a 0000010005000016 0000010005000035 000400000000001a 0000010006000016 0000010006000035 000200000000001a";
    assert_eq!(of("less a 1"), (hex(less), [item(true), item(false)].concat()));
    let flips = "000200000001000e 000200000002000e 000200000004000e 000200000008000e 000200000010000e 000200000020000e 000200000040000e 000200000080000e";
    let greatest = format!(
        "0002000000000000 000001000600003a {f} 0000010006000004 0002000000000024 000001000500003a {f} 0000010005000004 0002000000000024",
        f = flips
    );
    assert_eq!(of("greatest a"), (hex(&greatest), vec![]));
    assert_eq!(of(""), (vec![], vec![]));
    assert_eq!(of("reach at most 1 word"), (vec![], vec![]));
    // one behind the other, lists and items, and instructions among them
    let (list, items) = of("setm m\nequal a 2\nresolve\nless a 1\nsum a b into s");
    assert_eq!(list, [&[1, 1, 0, 0, 0, 0, 0, 0][..], &hex(equal), &[5, 0, 0, 0, 0, 0, 0, 0], &hex(less), &hex(&sum)].concat());
    assert_eq!(items, [item(false), item(true), item(true), item(false)].concat());
}

#[test]
fn lengths_are_formulas_of_the_width() {
    for width in 1..=64 {
        let text = |line: &str| format!("field a {} {}\n{}", 256 - width, width, line);
        for (line, instructions, items) in [
            ("sum a a into a", 1 + 5 * width, 0),
            ("difference a a into a", 2 + 5 * width, 0),
            ("equal a 1", 2 + 3 * width, width),
            ("less a 0", 2 + 3 * width, width),
            ("greatest a", 1 + 11 * width, 0),
        ] {
            let (list, brought) = made(text(line));
            assert_eq!((list.len(), brought.len()), (8 * instructions, 32 * items), "{} {}", width, line);
        }
    }
}

// ---- runs of what is made

/// Sums and differences leave what they say in every word, and searches mark the right words.
#[test]
fn runs_leave_what_the_statements_say() {
    let mut random = Random(77);
    for round in 0..24 {
        let width = [1, 2, 3, 8, 13, 32, 63, 64][round % 8];
        let starts: Vec<usize> = (0..3).map(|k| k * 64 + random.below(65 - width as u64) as usize).collect();
        let fields: String = ["a", "b", "s"].iter().zip(&starts).map(|(name, start)| format!("field {} {} {}\n", name, start, width)).collect();
        let mask = if width == 64 { u64::MAX } else { (1 << width) - 1 };
        let mut bench = Bench::random(&mut random, 0, 0);
        let mut table = bench.table();
        let few: Vec<u64> = (0..5).map(|_| random.next() & mask).collect();
        for word in 0..256 {
            let value = if random.below(4) == 0 { random.next() & mask } else { few[random.below(5) as usize] };
            set_field(&mut table, word, starts[0], width, value);
        }
        bench.load(&table);
        let value = few[0];
        let of = |start: usize| (0..256).map(|word| field_of(&table, word, start, width)).collect::<Vec<u64>>();
        let (a, b) = (of(starts[0]), of(starts[1]));
        for (line, with) in [("sum a b into s", false), ("difference a b into s", true), ("sum a b into a", false), ("difference b a into a", true)] {
            let mut one = bench.clone();
            let (list, items) = made(fields.clone() + line);
            assert!(items.is_empty());
            assert_eq!(one.run(&list).number, 0);
            let into = if line.ends_with('s') { starts[2] } else { starts[0] };
            for word in 0..256 {
                let (x, y) = if line.contains("b a") { (b[word], a[word]) } else { (a[word], b[word]) };
                let wanted = if with { x.wrapping_sub(y) } else { x.wrapping_add(y) } & mask;
                assert_eq!(field_of(&one.table(), word, into, width), wanted, "{} width {}", line, width);
            }
        }
        for (line, marks) in [(format!("equal a {}", value), false), (format!("less a {}", value), true)] {
            let mut one = bench.clone();
            let (list, items) = made(fields.clone() + &line);
            one.items = items;
            let answer = one.run(&list);
            assert_eq!((answer.number, answer.taken), (0, width as u32));
            for word in 0..256 {
                assert_eq!(one.row(2)[word], if marks { a[word] < value } else { a[word] == value }, "{}", line);
            }
        }
        // the greatest of those below the value, in one text; and an item of one's own behind those of the text
        let (list, items) = made(format!("{}less a {}\ngreatest a\nsetm outside", fields, value));
        let mut one = bench.clone();
        let own = random.item();
        one.items = [items, own.to_vec()].concat();
        assert_eq!(one.run(&list).number, 0);
        let greatest = a.iter().filter(|&&one| one < value).max();
        for word in 0..256 {
            assert_eq!(one.row(2)[word], Some(&a[word]) == greatest);
        }
        assert_eq!(one.registers[..32], own);
    }
}

/// The searches' lists do what the emulator says of searches without any list.
#[test]
fn the_lists_are_those_of_the_searches() {
    let mut random = Random(5);
    for round in 0..12 {
        let width = 1 + random.below(64) as u32;
        let start = random.below(257 - width as u64) as u32;
        let value = if width == 64 { random.next() } else { random.next() % (1 << width) };
        let mut bench = Bench::random(&mut random, 0, 0);
        // few words in turn, so that there are equal ones
        let period = 32 << (round % 3);
        for at in period..8192 {
            bench.memory[at] = bench.memory[at - period];
        }
        for (line, search) in [(format!("equal f {}", value), Search::Equal(value)), (format!("less f {}", value), Search::Less(value)), ("greatest f".to_string(), Search::Greatest)] {
            let (list, items) = made(format!("field f {} {}\n{}", start, width, line));
            let mut brought = vec![0; items.len()];
            assert_eq!(prepare(search, start, width, list.len(), &mut brought), Prepared { number: 0, list: list.len() as u32, items: items.len() as u32 });
            assert_eq!(brought, items);
            let (mut one, mut other) = (bench.clone(), bench.clone());
            one.items = items.clone();
            let answer = one.run(&list);
            let wanted = run_prepared(search, start, width, &mut other.memory, &mut other.registers, &items);
            assert_eq!(answer, wanted, "{}", line);
            assert!(one.memory == other.memory && one.registers == other.registers, "{}", line);
        }
    }
}

// ---- each number

#[test]
fn what_is_no_statement() {
    for word in ["Field", "fields", "fiel", "sums", "differenc", "differences", "Difference", "equals", "less-", "greatestt", "reaches", "into", "a", "at"] {
        line(format!("{} a b into s", word), 60, 1);
    }
    for word in [&b"difference\x00"[..], b"\x00sum", b"sum\x80", b"less\x7f", b"\xe6ield", b"field\x0b"] {
        line([word, b" a 3"].concat(), 60, 1);
    }
    // in make no statement is known
    for word in ["field a 0 8", "sum a b into s", "difference a b into s", "equal a 3", "less a 3", "greatest a", "reach at most 1 word"] {
        assert_eq!(make(word.as_bytes(), &mut []), Made { number: 60, line: 1, column: 1, count: 0 });
    }
}

#[test]
fn names() {
    line("field ninechars 0 8", 70, 7);
    line("field ninechars", 70, 7);
    line("field eightchrs 0 8", 70, 7);
    for byte in (0..=255u8).filter(|byte| !b" \t\r\n;".contains(byte)) {
        for name in [vec![byte], vec![b'q', byte], vec![byte, b'q', b'q', b'q', b'q', b'q', b'q', b'q'], b"qqqqqqq".iter().copied().chain([byte]).collect()] {
            if name == b"a" || name == b"b" || name == b"s" || name == b"w" {
                continue;
            }
            let text = [FIELDS.as_bytes(), b"field ", &name, b" 100 9\ngreatest ", &name].concat();
            if (33..=126).contains(&byte) {
                assert_eq!(made(text).0, assembly::greatest_list(100, 9));
            } else {
                refused(text, 70, 7, 7);
            }
        }
    }
    line("field a 0 8", 71, 7);
    line("field eightchr", 71, 7);
    line("field s 256 0 x", 71, 7);
    // a name of one's own is no other's
    for name in ["A", "aa", "eightch", "lon", "longs", "ab", "field", "sum", "into", "difference"[..8].as_ref(), "7", "at"] {
        assert_eq!(made(format!("{}field {} 9 9\ngreatest {}", FIELDS, name, name)).0, assembly::greatest_list(9, 9));
    }
}

/// 256 names are given, and no more; 71 comes before 72, and 72 before what is wrong behind the name.
#[test]
fn fields_at_most_256() {
    let all: String = (0..MOST_FIELDS).map(|k| format!("field n{} {} 1\n", k, k)).collect();
    made(&all);
    let (list, _) = made(all.clone() + "greatest n0\ngreatest n255");
    assert_eq!(list, [assembly::greatest_list(0, 1), assembly::greatest_list(255, 1)].concat());
    refused(all.clone() + "field more 0 1", 72, 257, 7);
    refused(all.clone() + "field more", 72, 257, 7);
    refused(all.clone() + "field more 256 65 x", 72, 257, 7);
    refused(all.clone() + "field n255 0 1", 71, 257, 7);
    refused(all.clone() + "field n0", 71, 257, 7);
    refused(all.clone() + "field ninechars 0 1", 70, 257, 7);
    refused(all.clone() + "field", 69, 257, 6);
    refused(all + "greatest more", 73, 257, 10);
}

#[test]
fn starts_and_widths() {
    for start in ["256", "999", "0000", "0255", "x", "-1", "+1", "1.", "4294967296", "99999999999999999999999"] {
        line(format!("field x {} 8", start), 64, 9);
        line(format!("field x {}", start), 64, 9);
    }
    line(&b"field x 0\x00 8"[..], 64, 9);
    for width in ["0", "00", "000", "65", "065", "099", "256", "320", "0008", "0064", "x", "-1", "+8", "8.", "18446744073709551624"] {
        line(format!("field x 0 {}", width), 30, 11);
        line(format!("field x 255 {} y", width), 30, 13);
    }
    for start in 0..256 {
        for width in 1..=64 {
            let text = format!("field x {} {}\ngreatest x", start, width);
            if start + width > 256 {
                refused(text, 31, 1, 9 + start.to_string().len() as u32 + 1);
            } else {
                assert_eq!(made(text).0.len(), 8 * (1 + 11 * width));
            }
        }
    }
    line("field x 255 2 x", 31, 13);
    line("field x 0 8 x", 67, 13);
    // zeros in front
    assert_eq!(made("field x 007 02\ngreatest x").0, assembly::greatest_list(7, 2));
    assert_eq!(made("field x 00 064\ngreatest x").0, assembly::greatest_list(0, 64));
}

#[test]
fn sums_word_by_word() {
    for (name, wide) in [("sum", 4), ("difference", 11)] {
        let at = |text: &str, number: u32, column: u32| line(format!("{} {}", name, text), number, wide + column);
        for none in ["x", "A", "aa", "lon", "longs", "eightch", "eightchrs", "ninechars", "into", "0"] {
            at(none, 73, 1);
            at(&format!("{} b into s", none), 73, 1);
            at(&format!("a {}", none), 73, 3);
            at(&format!("a {} into s", none), 73, 3);
            at(&format!("a b into {}", none), 73, 10);
            at(&format!("a b into {} x", none), 73, 10);
        }
        at("a w", 74, 3);
        at("a w into s", 74, 3);
        at("w a into w", 74, 3);
        at("a eightchr s", 74, 3);
        at("a b into w", 74, 10);
        at("a b into long x", 74, 10);
        for other in ["s", "INTO", "int", "intoo", "from", "intointointo", "=", "a"] {
            at(&format!("a b {}", other), 65, 5);
            at(&format!("a b {} s", other), 65, 5);
        }
        at("a b into s s", 67, 12);
        at("a b into s into", 67, 12);
        for (text, end) in [("a", 2), ("a b", 4), ("a b into", 9), ("a b into ", 10)] {
            at(text, 69, end);
        }
        line(name, 69, wide);
        made(format!("{}{} a b into s\n{} s s into s\n{} w w into w", FIELDS, name, name, name));
    }
}

/// S may have the start of A or of B, or lie apart from it; every distance, of every width and at each side.
#[test]
fn s_crosses_neither_a_nor_b() {
    for width in [1, 2, 3, 8, 40, 64] {
        for s in 0..=256 - width {
            for (a, b) in [(100, 100), (100, 0), (0, 100), (100, 190), (190, 100)] {
                let text = format!("field a {} {w}\nfield b {} {w}\nfield s {} {w}\nsum a b into s", a, b, s, w = width);
                let meets = |other: usize| s != other && (s..s + width).any(|bit| (other..other + width).contains(&bit));
                if meets(a) || meets(b) {
                    refused(text, 32, 4, 14);
                } else {
                    assert_eq!(made(text).0.len(), 8 * (1 + 5 * width));
                }
            }
        }
    }
    // A and B may cross each other
    made("field a 0 8\nfield b 4 8\nfield s 12 8\nsum a b into s\ndifference b a into s");
    refused("field a 0 8\nfield b 4 8\nsum a b into a", 32, 3, 14);
    refused("field a 0 8\nfield b 4 8\nsum a b into b x", 32, 3, 14);
    // the width is judged before
    refused("field a 0 8\nfield b 4 9\nsum a a into b", 74, 3, 14);
}

#[test]
fn values() {
    for (name, column) in [("equal", 9), ("less", 8)] {
        for value in ["x", "-1", "+1", "0x1", "1,0", "1.", "a", "18446744073709551616", "18446744073709551617", "36893488147419103232", "99999999999999999999", "000000000000000000001", "018446744073709551615", "ninechars", "100000000000000000000"] {
            for field in ["a", "w"] {
                line(format!("{} {} {}", name, field, value), 76, column);
                line(format!("{} {} {} x", name, field, value), 76, column);
            }
            line(format!("{} long {}", name, value), 76, column + 3);
        }
        line([name.as_bytes(), b" a 3\x00"].concat(), 76, column);
        line([name.as_bytes(), b" a \xb3"].concat(), 76, column);
        for value in ["256", "257", "0256", "00000000000000000256", "65536", "4294967296", "4294967299", "18446744073709551615"] {
            line(format!("{} a {}", name, value), 34, column);
            line(format!("{} a {} 3", name, value), 34, column);
        }
        line(format!("{} a 3 3", name), 67, column + 2);
        line(format!("{} a", name), 69, column - 1);
        line(name, 69, column - 3);
        for none in ["x", "A", "ninechars", "3"] {
            line(format!("{} {}", name, none), 73, column - 2);
            line(format!("{} {} 3", name, none), 73, column - 2);
        }
    }
    // each width: the greatest value stands, one more does not
    for width in 1..=64u32 {
        let most = if width == 64 { u64::MAX } else { (1 << width) - 1 };
        for form in [format!("{}", most), format!("{:020}", most)] {
            let (_, items) = made(format!("field f 9 {}\nequal f {}", width, form));
            assert_eq!(items, vec![255; 32 * width as usize]);
        }
        let over = most as u128 + 1;
        refused(format!("field f 9 {}\nless f {}", width, over), if width == 64 { 76 } else { 34 }, 2, 8);
        let (_, items) = made(format!("field f 9 {}\nless f 00000000000000000000", width));
        assert_eq!(items, vec![0; 32 * width as usize]);
    }
    let mut random = Random(9);
    for _ in 0..200 {
        let width = 1 + random.below(64) as usize;
        let value = random.next() >> (64 - width);
        let (_, items) = made(format!("field f 0 {}\nless f {}", width, value));
        let back = items.chunks(32).enumerate().fold(0u64, |sum, (bit, item)| sum + ((item[31] as u64 & 1) << bit));
        assert_eq!(back, value);
    }
}

#[test]
fn greatest_and_reach_word_by_word() {
    line("greatest", 69, 9);
    line("greatest ", 69, 10);
    for none in ["x", "A", "ninechars", "greatest"] {
        line(format!("greatest {}", none), 73, 10);
    }
    line("greatest x y", 73, 10);
    line("greatest a b", 67, 12);
    line("reach", 69, 6);
    line("reach at", 69, 9);
    line("reach at most", 69, 14);
    line("reach at most 1", 69, 16);
    for other in ["most", "At", "a", "att", "atatatatat", "1"] {
        line(format!("reach {} most 1 word", other), 65, 7);
        line(format!("reach {}", other), 65, 7);
    }
    for other in ["least", "Most", "mos", "mosts", "1", "word"] {
        line(format!("reach at {} 1 word", other), 65, 10);
        line(format!("reach at {}", other), 65, 10);
    }
    for count in ["0", "00", "000", "257", "300", "999", "0256", "0001", "1000", "x", "-1", "+1", "word", "1.", "99999999999"] {
        line(format!("reach at most {} words", count), 64, 15);
        line(format!("reach at most {}", count), 64, 15);
    }
    for other in ["Word", "wor", "wordss", "slice", "1", "bits", "wordswordswords"] {
        line(format!("reach at most 1 {}", other), 65, 17);
    }
    line("reach at most 1 word x", 67, 22);
    line("reach at most 256 words x", 67, 25);
    for count in 1..=256 {
        for form in [format!("{}", count), format!("{:03}", count)] {
            for last in ["word", "words"] {
                assert_eq!(made(format!("reach at most {} {}", form, last)), (vec![], vec![]));
            }
        }
    }
}

/// Blanks, comments and line ends stand in statements as in instructions.
#[test]
fn blanks_and_comments() {
    let (list, items) = made("field a 3 4\nfield b 7 4\nsum a b into a\nequal a 5\ngreatest b");
    for text in [
        "\tfield\ra  3\t4;x\r\n;\n\n field b 7 4 ; field\n\rsum a\tb\rinto   a;into\nequal a 5;\r\ngreatest b ",
        "field a 3 4;\nfield b 7 4;;\nreach at most 256 words;1\nsum a b into a;\nequal a 5\r\ngreatest b\r\n",
    ] {
        assert_eq!(made(text), (list.clone(), items.clone()));
    }
    refused("field a;3 4", 69, 1, 8);
    refused("field a 3 ;4", 69, 1, 11);
    refused("field a 3 4\nsum a a into;a", 69, 2, 13);
    refused("field a 3 \r\n", 69, 1, 12);
    refused("\n\nfield;", 69, 3, 6);
}

/// A line that is refused changes nothing, and the first of them is the answer.
#[test]
fn the_first_refused_line() {
    refused("sum a b into s\nfield a 0 8", 73, 1, 5);
    refused("field a 0 8\nsum a b into a\nfield b 8 8", 73, 2, 7);
    refused("field a 0 8\nfield b 300 1\ngreatest", 64, 2, 9);
    refused("field a 0 8\nfield a 0 8\nxyz", 71, 2, 7);
    refused("logic\nfield", 69, 1, 6);
    refused("field a 0 8\nstore slice 256 from m\nfield a 0 8", 64, 2, 13);
    refused("field a 0 8\nbytes 00 01 02 03 04 05 06\nequal", 69, 2, 27);
}

// ---- the limit

/// Every mode against every limit, in words and in bytes, by a mode in the line and by a register.
#[test]
fn each_mode_against_limits() {
    for mode in 0..256u32 {
        let reached = 1 << (8 - (mode as u8).count_ones());
        for limit in [1, 2, 3, 4, 7, 8, 16, 31, 32, 64, 127, 128, 129, 255, 256] {
            for store in [
                format!("store mode {} address 3 from m", mode),
                format!("mstore mode {} address 3 from outside flip 3", mode),
                format!("set a {}\nstore mode a address 7 from x", mode),
                format!("set a 255\nset b {}\nmstore mode b address 7 from y", mode),
                format!("bytes 02 01 01 {:02X} 00 00 00 00", mode),
                format!("bytes 03 00 00 {:02x} 09 FF FF FF", mode),
                format!("bytes 02 FF {:02x} {:02x} 09 90 90 90", 4 + mode % 200, mode),
                format!("bytes 06 07 02 {:02x} 01 01 01 01\nbytes 03 09 02 01 09 90 90 90", mode),
            ] {
                let text = format!("reach at most {} words\n{}", limit, store);
                let lines = text.lines().count();
                if reached > limit {
                    refused(&text, 75, lines as u32, 1);
                } else {
                    assert_eq!(made(&text).0.len(), 8 * (lines - 1));
                }
                // no limit, and one that comes too late
                assert_eq!(made(&store).0.len(), 8 * (lines - 1));
                assert_eq!(made(format!("{}\nreach at most 1 word", store)).0.len(), 8 * (lines - 1));
            }
        }
    }
}

#[test]
fn the_limit_and_the_registers() {
    for (name, tag) in [("a", 2), ("b", 3)] {
        let other = if name == "a" { "b" } else { "a" };
        let store = format!("store mode {} address 3 from m", name);
        // unset: refused under the widest limit, by a later kind 6, by the other's
        refused(format!("reach at most 256 words\n{}", store), 75, 2, 1);
        refused(format!("reach at most 256 words\n  {}\nset {} 255", store, name), 75, 2, 3);
        refused(format!("set {} 255\nreach at most 256 words\n{}", other, store), 75, 3, 1);
        refused(format!("reach at most 256 words\nbytes 02 01 {:02} FF 00 00 00 00", tag), 75, 2, 1);
        // set above the limit, or below it
        made(format!("set {} 255\nreach at most 1 word\n{}", name, store));
        made(format!("reach at most 1 word\nset {} 255\n{}", name, store));
        // by what a run refuses
        made(format!("bytes 06 05 {:02} FF 01 01 01 01\nreach at most 1 word\n{}", tag, store));
        // by no other tag, by no other kind, by no store and by no statement
        for none in ["bytes 06 00 00 FF 00 00 00 00", "bytes 06 00 01 FF 00 00 00 00", "bytes 06 00 04 FF 00 00 00 00", "bytes 05 00 02 FF 00 00 00 00", "bytes 86 00 03 FF 00 00 00 00", "bytes 02 01 01 FF 00 00 00 00", "field f 0 64\nequal f 3\ngreatest f"] {
            let text = format!("{}\nreach at most 256 words\n{}", none, store);
            refused(&text, 75, text.lines().count() as u32, 1);
        }
        // the last one counts
        refused(format!("set {n} 255\nset {n} 254\nreach at most 1 word\n{}", store, n = name), 75, 4, 1);
        made(format!("set {n} 0\nset {n} 255\nset {} 0\nreach at most 1 word\n{}", other, store, n = name));
    }
    // reads are not asked
    made("reach at most 1 word\nsetm slice 3\ndeliver mode a address 3\nlogic x load mode b address 3\nresolve\nbytes 04 00 01 00 00 00 00 00\nbytes 82 01 01 00 00 00 00 00");
}

#[test]
fn the_limit_and_the_statements() {
    for name in ["sum", "difference"] {
        for limit in [1, 128, 255] {
            refused(format!("field a 0 8\nreach at most {} words\n{} a a into a", limit, name), 75, 3, 1);
            refused(format!("field a 0 8\nreach at most {} words\n \t{} a a into a ; x", limit, name), 75, 3, 3);
        }
        made(format!("field a 0 8\nreach at most 256 words\n{} a a into a", name));
        made(format!("field a 0 8\nreach at most 1 word\nreach at most 256 words\n{} a a into a", name));
        refused(format!("field a 0 8\nreach at most 256 words\nreach at most 255 words\n{} a a into a", name), 75, 4, 1);
        // behind all else of the line
        let wide = name.len() as u32;
        for (line, number, column) in [(" a x into a", 73, 4), (" a a into", 69, 10), (" a a into a a", 67, 13), (" a a a", 65, 6), (" a a into b", 32, 11), (" a a into c", 74, 11)] {
            refused(format!("field a 0 8\nfield b 7 8\nfield c 0 9\nreach at most 1 word\n{}{}", name, line), number, 5, wide + column);
        }
    }
    made("field a 0 8\nreach at most 1 word\nequal a 3\nless a 3\ngreatest a");
    refused("reach at most 1 word\nstore slice 3 from m x", 67, 2, 22);
    refused("reach at most 1 word\nstore slice 3 from", 69, 2, 19);
    refused("reach at most 1 word\nbytes 02 01 01 00 00 00 00 0", 68, 2, 28);
}

// ---- items of one's own

#[test]
fn what_takes_from_outside_above_a_search() {
    let fields = "field a 0 8\nfield b 8 8\n";
    for search in ["equal a 3", "less a 3"] {
        for taking in ["setm outside", "deliver outside flip 3", "logic both xor outside", "store slice 3 from outside", "mstore word 3 from outside", "bytes 05 04 00 00 00 00 00 00", "bytes 06 04 02 00 00 00 00 00", "bytes ff 04 ff ff ff ff ff ff"] {
            refused(format!("{}{}\n{}", fields, taking, search), 77, 4, 1);
            refused(format!("{}\nsum b b into b\n{}\n  {} ; x", taking, fields, search), 73, 2, 5);
            refused(format!("{}{}\nsum b b into b\nresolve\n\t{}", fields, taking, search), 77, 6, 2);
            refused(format!("{}less b 4\n{}\n{}", fields, taking, search), 77, 5, 1);
            made(format!("{}{}\n{}", fields, search, taking));
            made(format!("{}{}\ngreatest a\nsum a a into b\ndifference a a into b\nreach at most 256 words", fields, taking));
        }
        for none in ["setm m ; outside", "setm slice 4", "set a 4", "bytes 04 00 04 04 04 04 04 04", "bytes 00 14 00 00 00 00 00 00", "bytes 00 84 00 00 00 00 00 00", "bytes 04 05 00 00 00 00 00 00", "field outside 4 4", "less b 4", "equal b 4"] {
            made(format!("{}{}\n{}", fields, none, search));
        }
        // behind all else of the line
        let wide = search.len() as u32;
        refused(format!("{}setm outside\n{} 3", fields, search), 67, 4, wide + 2);
        refused(format!("{}setm outside\n{}999", fields, search), 34, 4, wide);
        refused(format!("{}setm outside\n{}x", fields, search), 76, 4, wide);
        refused(format!("setm outside\n{}", search), 73, 2, wide - 2);
    }
    refused("field a 0 8\nreach at most 1 word\nstore slice 3 from outside\nequal a 3", 75, 3, 1);
}

// ---- lengths

#[test]
fn texts_lists_and_items_as_long_as_can_be() {
    let long = vec![b'\n'; LONGEST_TEXT + 1];
    refused(&long, 50, 0, 0);
    made(&long[1..]);
    let fields = "field a 0 64\nfield b 64 2\nfield c 0 57\n";
    // 4,096 instructions: five times 705 by the greatest, 571 by other lines
    let most = format!("{}{}sum a a into a\nsum b b into b\n", fields, "greatest a\n".repeat(5)) + &"resolve\n".repeat(4096 - 5 * 705 - 321 - 11);
    assert_eq!(made(&most).0.len(), LONGEST_LIST);
    refused(most.clone() + "resolve", 3, 0, 0);
    refused(most.clone() + "greatest b", 3, 0, 0);
    refused(format!("{}{}", fields, "greatest a\n".repeat(6)), 3, 0, 0);
    refused(format!("{}{}", fields, "greatest a\n".repeat(90_000)), 3, 0, 0);
    refused(format!("{}{}sum", fields, "greatest a\n".repeat(90_000)), 69, 90_004, 4);
    // 1,024 items
    let sixteen = format!("{}{}", fields, "equal a 9\n".repeat(16));
    let (list, items) = made(&sixteen);
    assert_eq!((list.len(), items.len()), (8 * 16 * 194, LONGEST_ITEMS));
    refused(sixteen.clone() + "less b 0", 4, 0, 0);
    refused(format!("{}{}", fields, "less a 0\n".repeat(17)), 4, 0, 0);
    refused(format!("{}{}", fields, "less a 0\n".repeat(10_000)), 3, 0, 0);
    refused(format!("{}{}less", fields, "less a 0\n".repeat(17)), 69, 21, 5);
    // both as long as can be, and both too long
    assert_eq!(made(format!("{}greatest a\nsum c c into c\nresolve", sixteen)), {
        let (mut list, _) = made(format!("{}greatest a\nsum c c into c\nresolve", fields));
        list.splice(..0, made(&sixteen).0);
        assert_eq!(list.len(), LONGEST_LIST);
        (list, items)
    });
    let (list, items) = made(format!("{}{}", fields, "equal b 2\n".repeat(512)));
    assert_eq!((list.len(), items.len()), (LONGEST_LIST, LONGEST_ITEMS));
    refused(format!("{}{}", fields, "equal b 2\n".repeat(513)), 3, 0, 0);
}

/// 33 by either buffer, behind 3 and 4; just as long is long enough.
#[test]
fn buffers_too_short() {
    let texts = ["", "resolve", "field a 0 5\nless a 7", "field a 0 5\ngreatest a", "field a 0 5\nequal a 7\nsetm outside", "field a 0 1\nequal a 1\nless a 0\nsum a a into a"];
    for text in texts {
        let (list, items) = made(text);
        for room in [0, list.len().saturating_sub(8), list.len().saturating_sub(1), list.len(), list.len() + 1, list.len() + 100] {
            for other in [0, items.len().saturating_sub(32), items.len().saturating_sub(1), items.len(), items.len() + 1, items.len() + 100] {
                let (mut into, mut behind) = (vec![0xA5; room], vec![0x5A; other]);
                let answer = assemble(text.as_bytes(), &mut into, &mut behind);
                if room < list.len() || other < items.len() {
                    assert_eq!(answer, Assembled { number: 33, ..Assembled::default() });
                    assert!(into.iter().all(|&byte| byte == 0xA5) && behind.iter().all(|&byte| byte == 0x5A));
                } else {
                    assert_eq!(answer, Assembled { list: list.len() as u32, items: items.len() as u32, ..Assembled::default() });
                    assert!(into.starts_with(&list) && into[list.len()..].iter().all(|&byte| byte == 0xA5));
                    assert!(behind.starts_with(&items) && behind[items.len()..].iter().all(|&byte| byte == 0x5A));
                }
            }
        }
    }
}

// ---- beside make

/// A text without statements is made as `make` makes it, whatever it is.
#[test]
fn instructions_as_make_has_them() {
    let mut random = Random(31);
    let words = ["logic", "setm", "store", "mstore", "deliver", "resolve", "set", "bytes", "slice", "word", "mode", "address", "from", "m", "x", "outside", "a", "b", "flip", "shift", "mod", "1", "8", "255", "256", "xor", "both", "0A", ";", "\n", "ninechars"];
    for _ in 0..4000 {
        let mut text = String::new();
        for _ in 0..random.below(14) {
            text += words[random.below(words.len() as u64) as usize];
            text += ["", " ", "\t", "\n", " ", " "][random.below(6) as usize];
        }
        let (mut one, mut other) = (vec![7; 64], vec![7; 64]);
        let (by_make, answer) = (make(text.as_bytes(), &mut one), assemble(text.as_bytes(), &mut other, &mut []));
        assert_eq!((by_make.number, by_make.line, by_make.column, by_make.count, 0), (answer.number, answer.line, answer.column, answer.list, answer.items), "{:?}", text);
        assert_eq!(one, other);
    }
    for line in ["resolve", "set a 13", "store mode a address 255 from outside", "bytes 02 04 00 0D 00 00 00 00"] {
        let mut list = [0; 8];
        make(line.as_bytes(), &mut list);
        assert_eq!(made(line).0, list);
        // and where it stands among statements
        assert_eq!(made(format!("field f 0 8\n{}\ngreatest f", line)).0, [&list[..], &assembly::greatest_list(0, 8)].concat());
    }
}
