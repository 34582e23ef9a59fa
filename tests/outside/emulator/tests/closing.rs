mod common;
use common::*;
use emulator::closing::{prepare, run_prepared};
use emulator::memory::Table;
use emulator::*;

const BOTH: [Way; 2] = [Way::Close, Way::Spread];
/// More than the longest list and the most items.
const ROOM: (usize, usize) = (5000, 8300);

fn fields(a: u32, s: u32, width: u32) -> Fields {
    Fields { a, s, width }
}

fn built(way: Way, a: u32, s: u32, n: u32, marks: usize, list: usize, items: usize) -> Prepared {
    let answer = prepare(way, fields(a, s, n), &vec![0x5A; marks], list, items);
    if answer.number != 0 {
        assert_eq!((answer.list, answer.items), (0, 0));
    }
    answer
}

/// With good marks and much room, both ways.
fn number(a: u32, s: u32, n: u32) -> u32 {
    let one = built(Way::Close, a, s, n, 32, ROOM.0, ROOM.1).number;
    assert_eq!(built(Way::Spread, a, s, n, 32, ROOM.0, ROOM.1).number, one);
    one
}

#[test]
fn refusal_35() {
    for way in BOTH {
        for marks in [0, 1, 8, 31, 33, 64, 96, 8192] {
            assert_eq!(built(way, 0, 100, 8, marks, ROOM.0, ROOM.1).number, 35);
        }
        assert_eq!(built(way, 0, 100, 8, 32, ROOM.0, ROOM.1).number, 0);
    }
}

#[test]
fn refusals_30_and_31() {
    for n in [0, 33, 34, 64, 65, 256, (1 << 16) + 8, 1 << 31, u32::MAX] {
        assert_eq!(number(0, 100, n), 30);
        assert_eq!(number(u32::MAX, u32::MAX, n), 30);
    }
    for n in 1..=32u32 {
        assert_eq!(number(0, 256 - n, n), 0);
        assert_eq!(number(256 - n, 0, n), 0);
        for start in [257 - n, 256, 1 << 16, 1 << 31, u32::MAX, 0u32.wrapping_sub(n)] {
            assert_eq!(number(start, 0, n), 31);
            assert_eq!(number(0, start, n), 31);
            assert_eq!(number(start, start, n), 31);
        }
    }
}

#[test]
fn refusal_32() {
    for n in 1..=32u32 {
        for a in 0..=256 - n {
            for s in 0..=256 - n {
                let apart = s >= a + n || a >= s + n;
                assert_eq!(prepare(Way::Close, fields(a, s, n), &[0; 32], ROOM.0, ROOM.1).number, if apart { 0 } else { 32 });
            }
        }
        // the same start is refused too, touching is not
        assert_eq!((number(64, 64, n), number(64, 64 + n, n), number(64, 64 - n, n)), (32, 0, 0));
        assert_eq!((number(64, 63 + n, n), number(63 + n, 64, n)), (32, 32));
    }
}

#[test]
fn refusal_33_and_the_lengths() {
    for n in 1..=32u32 {
        for (way, list, items) in [(Way::Close, 8 * (10 + 19 * n), 288), (Way::Spread, 8 * (1 + 18 * n), 32 * (1 + 8 * n))] {
            let done = Prepared { number: 0, list, items };
            let (l, i) = (list as usize, items as usize);
            // a formula in the width alone: no marks, some and all
            for marks in [[0u8; 32], [0x5A; 32], [255; 32]] {
                assert_eq!(prepare(way, fields(0, n, n), &marks, l, i), done);
                assert_eq!(prepare(way, fields(256 - n, 3, n), &marks, l + 1, i + 40), done);
                assert_eq!(prepare(way, fields(0, n, n), &marks, l - 1, 9000).number, 33);
                assert_eq!(prepare(way, fields(0, n, n), &marks, 9000, i - 1).number, 33);
                assert_eq!(prepare(way, fields(0, n, n), &marks, 0, 0).number, 33);
            }
        }
    }
}

#[test]
fn order_35_30_31_32_33() {
    for way in BOTH {
        assert_eq!(built(way, 300, 300, 33, 31, 0, 0).number, 35);
        assert_eq!(built(way, 300, 300, 33, 32, 0, 0).number, 30);
        assert_eq!(built(way, 300, 300, 32, 32, 0, 0).number, 31);
        assert_eq!(built(way, 30, 30, 32, 32, 0, 0).number, 32);
        assert_eq!(built(way, 30, 62, 32, 32, 0, 0).number, 33);
    }
}

fn marks_of(marked: impl Fn(usize) -> bool) -> [u8; 32] {
    let mut marks = [0u8; 32];
    for word in (0..256).filter(|&word| marked(word)) {
        marks[word / 8] |= 1 << (word % 8);
    }
    marks
}

/// Runs what was built; out stays, and so do the marks. Gives the memory before and after.
fn gone(way: Way, a: u32, s: u32, n: u32, marks: &[u8; 32], bench: &mut Bench) -> (Table, Table) {
    let f = fields(a, s, n);
    let answer = prepare(way, f, marks, ROOM.0, ROOM.1);
    assert_eq!(answer.number, 0);
    bench.items.resize(answer.items as usize, 0x77);
    let before = bench.clone();
    let (steps, taken) = if way == Way::Close { (10 + 19 * n, 9) } else { (1 + 18 * n, 1 + 8 * n) };
    assert_eq!(run_prepared(way, f, marks, &mut bench.memory, &mut bench.registers, &bench.items), ok(steps, taken, 0));
    assert!(bench.items == before.items && bench.out == before.out && bench.registers[96..] == before.registers[96..]);
    (before.table(), bench.table())
}

/// Every bit but those of this field is the same in both.
fn same_but(one: &Table, other: &Table, start: u32, n: u32) {
    for word in 0..256 {
        for bit in (0..256).filter(|&bit| bit < start as usize || bit >= (start + n) as usize) {
            assert_eq!(one.bit(word, bit), other.bit(word, bit));
        }
    }
}

fn value(table: &Table, word: usize, start: u32, n: u32) -> u64 {
    field_of(table, word, start as usize, n as usize)
}

/// None, all, one, every second, halves, runs with gaps, and any.
fn many_marks(random: &mut Random) -> Vec<[u8; 32]> {
    let mut all = vec![
        marks_of(|_| false),
        marks_of(|_| true),
        marks_of(|word| word % 2 == 0),
        marks_of(|word| word % 2 == 1),
        marks_of(|word| word < 128),
        marks_of(|word| word >= 128),
        marks_of(|word| word != 0),
        marks_of(|word| word % 7 < 4),
        marks_of(|word| word.count_ones() % 2 == 1),
    ];
    for one in [0, 1, 127, 128, 254, 255] {
        all.push(marks_of(|word| word == one));
    }
    for _ in 0..6 {
        all.push(random.item());
    }
    all
}

#[test]
fn an_example_by_hand() {
    let mut bench = Bench::random(&mut Random(8), 0, 40);
    let mut table = bench.table();
    for (word, value) in [(3, 11), (7, 22), (250, 33)] {
        set_field(&mut table, word, 16, 8, value);
    }
    bench.load(&table);
    let marks = marks_of(|word| [3, 7, 250].contains(&word));
    let (_, closed) = gone(Way::Close, 16, 40, 8, &marks, &mut bench);
    let s = |word| value(&closed, word, 40, 8);
    assert_eq!((s(0), s(1), s(2)), (11, 22, 33));
    assert!((3..256).all(|word| s(word) == 0));
    let mut table = bench.table();
    set_field(&mut table, 1, 40, 8, 99);
    set_field(&mut table, 3, 40, 8, 77); // beyond the count
    bench.load(&table);
    let (before, after) = gone(Way::Spread, 16, 40, 8, &marks, &mut bench);
    let a = |word| value(&after, word, 16, 8);
    assert_eq!((a(3), a(7), a(250)), (11, 99, 33));
    assert!((0..256).filter(|word| ![3, 7, 250].contains(word)).all(|word| a(word) == value(&before, word, 16, 8)));
    assert_eq!(value(&after, 3, 40, 8), 77);
}

/// Word by word, from the other side: which marked word a word's S should come from is found by counting.
#[test]
fn closing_and_spreading_of_any_words() {
    let mut random = Random(9);
    for (k, marks) in many_marks(&mut random).into_iter().enumerate() {
        let marked = |word: usize| marks[word / 8] >> (word % 8) & 1 == 1;
        let before_it = |word: usize| (0..word).filter(|&other| marked(other)).count();
        let n = [1u32, 2, 7, 8, 31, 32, 13][k % 7];
        for (a, s) in [(0, 256 - n), (256 - n, 0), (100, 100 + n), (100, 100 - n)] {
            let mut bench = Bench::random(&mut random, 0, 40);
            let (before, after) = gone(Way::Close, a, s, n, &marks, &mut bench.clone());
            same_but(&before, &after, s, n);
            for word in 0..256 {
                let from = (0..256).find(|&other| marked(other) && before_it(other) == word);
                assert_eq!(value(&after, word, s, n), from.map_or(0, |other| value(&before, other, a, n)));
            }
            let (before, after) = gone(Way::Spread, a, s, n, &marks, &mut bench);
            same_but(&before, &after, a, n);
            for word in 0..256 {
                let now = if marked(word) { value(&before, before_it(word), s, n) } else { value(&before, word, a, n) };
                assert_eq!(value(&after, word, a, n), now);
            }
        }
    }
}

#[test]
fn no_marks_is_a_good_request() {
    let mut random = Random(10);
    for n in [1u32, 8, 32] {
        let mut bench = Bench::random(&mut random, 0, 40);
        let (before, after) = gone(Way::Spread, 100, 150, n, &[0; 32], &mut bench);
        assert_eq!(before, after);
        let (_, after) = gone(Way::Close, 100, 150, n, &[0; 32], &mut bench);
        assert!((0..256).all(|word| value(&after, word, 150, n) == 0));
    }
}

/// Closing, then everything but S overwritten, then spreading: each marked word has its old A.
#[test]
fn closing_then_spreading_gives_the_old_a() {
    let mut random = Random(11);
    for (k, marks) in many_marks(&mut random).into_iter().enumerate() {
        let n = [32u32, 1, 8, 31, 2, 7][k % 6];
        let (a, s) = [(0, 256 - n), (60, 60 + n), (256 - n, 100)][k % 3];
        let mut bench = Bench::random(&mut random, 0, 40);
        let (old, closed) = gone(Way::Close, a, s, n, &marks, &mut bench);
        // other words and registers, but S as closing left it
        let mut other = Bench::random(&mut random, 0, 40);
        let mut table = other.table();
        for word in 0..256 {
            set_field(&mut table, word, s as usize, n as usize, value(&closed, word, s, n));
        }
        other.load(&table);
        let (before, after) = gone(Way::Spread, a, s, n, &marks, &mut other);
        for word in 0..256 {
            let marked = marks[word / 8] >> (word % 8) & 1 == 1;
            assert_eq!(value(&after, word, a, n), value(if marked { &old } else { &before }, word, a, n));
        }
        same_but(&before, &after, a, n);
    }
}

/// Document 001: the shift values' digits one after the other, the highest first in spreading, the lowest first in
/// closing. Each value comes to its place and no two meet on the way.
#[test]
fn rounds_of_document_001_come_to_the_same_places() {
    let mut random = Random(12);
    for marks in many_marks(&mut random) {
        let marked = closing::marked(&marks);
        for way in BOTH {
            let mut places: Vec<usize> = if way == Way::Close { marked.clone() } else { (0..marked.len()).collect() };
            for round in 0..8 {
                let digit = if way == Way::Close { round } else { 7 - round };
                for (k, place) in places.iter_mut().enumerate() {
                    let shift = (marked[k] - k) & 1 << digit;
                    *place = if way == Way::Close { *place - shift } else { *place + shift };
                }
                assert!(places.windows(2).all(|two| two[0] < two[1]), "{:?}", marks);
            }
            let right: Vec<usize> = if way == Way::Close { (0..marked.len()).collect() } else { marked.clone() };
            assert_eq!(places, right);
        }
    }
}

/// A list and its items that close by document 001: A into S; for each digit, the lowest first, the places that take a
/// value set in M and each slice of S moved towards word 0 by mirror, shift and mirror; then zeros beyond the count.
fn closing_list(f: Fields, marks: &[u8; 32]) -> (Vec<u8>, Vec<u8>) {
    let marked = closing::marked(marks);
    let (mut list, mut items): (Vec<[u8; 8]>, Vec<[u8; 32]>) = (vec![], vec![]);
    let slices = 0..f.width as u8;
    let (a, s) = (f.a as u8, f.s as u8);
    for k in slices.clone() {
        list.extend([[0, 0, 1, 0, a + k, 0, 0, 0x0A], [2, 2, 1, 0, s + k, 0, 0, 0]]);
    }
    let mut places = marked.clone();
    for digit in 0..8 {
        let moves = |k: usize| (marked[k] - k) >> digit & 1 == 1;
        (0..marked.len()).filter(|&k| moves(k)).for_each(|k| places[k] -= 1 << digit);
        items.push(marks_of(|word| places.iter().position(|&place| place == word).is_some_and(moves)));
        list.push([1, 4, 0, 0, 0, 0, 0, 0]);
        for k in slices.clone() {
            list.extend([[0, 0, 1, 0, s + k, 255, 128 + digit as u8, 0x0A], [3, 2, 1, 0, s + k, 255, 0, 0]]);
        }
    }
    items.push(marks_of(|word| word >= marked.len()));
    list.extend([[1, 4, 0, 0, 0, 0, 0, 0], [0, 2, 0, 0, 0, 0, 0, 0]]);
    list.extend(slices.map(|k| [3, 2, 1, 0, s + k, 0, 0, 0]));
    (list.concat(), items.concat())
}

/// A list and its items that spread by document 001: the marks in M; each slice of S into X, and for each digit, the
/// highest first, the places that take a value in Y and X moved there; then X into the marked words' A.
fn spreading_list(f: Fields, marks: &[u8; 32]) -> (Vec<u8>, Vec<u8>) {
    let marked = closing::marked(marks);
    let (mut list, mut items): (Vec<[u8; 8]>, Vec<[u8; 32]>) = (vec![[1, 4, 0, 0, 0, 0, 0, 0]], vec![*marks]);
    for k in 0..f.width as u8 {
        list.push([0, 0, 1, 0, f.s as u8 + k, 0, 0, 0x0A]);
        let mut places: Vec<usize> = (0..marked.len()).collect();
        for digit in (0..8).rev() {
            let moves = |k: usize| (marked[k] - k) >> digit & 1 == 1;
            (0..marked.len()).filter(|&k| moves(k)).for_each(|k| places[k] += 1 << digit);
            items.push(marks_of(|word| places.iter().position(|&place| place == word).is_some_and(moves)));
            list.extend([[0, 4, 0, 0, 0, 0, 0, 0x1A], [0, 2, 0, 0, 0, 0, 128 + digit as u8, 0x3A]]);
        }
        list.push([3, 2, 1, 0, f.a as u8 + k, 0, 0, 0]);
    }
    (list.concat(), items.concat())
}

/// No document fixes these lists; but lists of just these lengths can do it on the machine, and leave the same.
#[test]
fn lists_of_these_lengths_do_it() {
    let mut random = Random(13);
    for (k, marks) in many_marks(&mut random).into_iter().enumerate() {
        let n = [1u32, 8, 32, 2, 31, 7][k % 6];
        let f = fields([0, 256 - n, 70][k % 3], [256 - n, 100, 70 + n][k % 3], n);
        for way in BOTH {
            let (list, items) = if way == Way::Close { closing_list(f, &marks) } else { spreading_list(f, &marks) };
            let answer = prepare(way, f, &marks, list.len(), items.len());
            assert_eq!(answer, Prepared { number: 0, list: list.len() as u32, items: items.len() as u32 });
            let mut bench = Bench::random(&mut random, 0, 40);
            bench.items = items;
            let mut other = bench.clone();
            let said = run_prepared(way, f, &marks, &mut bench.memory, &mut bench.registers, &bench.items);
            assert_eq!(other.run(&list), said);
            assert!(other.memory == bench.memory && other.out == bench.out);
        }
    }
}

#[test]
fn runs_that_are_refused() {
    for way in BOTH {
        let f = fields(3, 200, 1);
        let wanted = prepare(way, f, &[255; 32], ROOM.0, ROOM.1).items as usize;
        let lengths = [
            (8191usize, 99usize, wanted + 1, 1u32),
            (8192, 99, wanted + 1, 2),
            (8192, 96, wanted, 2),
            (8192, 101, wanted, 2),
            (8192, 100, wanted + 1, 4),
            (8192, 100, 32800, 4),
            (8192, 100, 32768, 15),
            (8192, 100, wanted + 32, 15),
            (8192, 100, 32768, 0),
            (8192, 100, wanted + 32, 0),
        ];
        for (memory, registers, items, number) in lengths {
            let (mut m, mut r, i) = (vec![7; memory], vec![7; registers], vec![7; items]);
            if number == 0 {
                // both mode registers are unset; else they are bad ones, but for other lengths
                r[96..].fill(0);
            }
            let answer = run_prepared(way, f, &[255; 32], &mut m, &mut r, &i);
            assert_eq!((answer.number, answer.place), (number, 0));
            if number != 0 {
                assert_eq!((answer.steps, answer.taken, answer.given), (0, 0, 0));
                assert!(m.iter().chain(&r).all(|&b| b == 7));
            }
        }
    }
}
