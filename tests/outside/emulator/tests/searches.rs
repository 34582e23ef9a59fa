mod common;
use common::*;
use emulator::bits::{unpack, Row};
use emulator::*;

const LARGEST: usize = 8 * (1 + 11 * 64);

/// Builds with buffers of these lengths; a refusal leaves the items, and bytes behind them stay.
fn built(search: Search, start: u32, n: u32, list: usize, items: usize) -> (Prepared, Vec<u8>) {
    let mut buffer = vec![0x77; items];
    let answer = prepare(search, start, n, list, &mut buffer);
    if answer.number != 0 {
        assert_eq!((answer.list, answer.items), (0, 0));
    }
    assert!(buffer[answer.items as usize..].iter().all(|&b| b == 0x77));
    (answer, buffer)
}

fn number(search: Search, start: u32, n: u32) -> u32 {
    built(search, start, n, LARGEST, 2048).0.number
}

const ALL: [Search; 3] = [Search::Equal(0), Search::Less(0), Search::Greatest];

#[test]
fn refusals_30_and_31() {
    for search in ALL {
        for n in [0, 65, 66, 256, (1 << 16) + 8, 1 << 31, u32::MAX] {
            assert_eq!(number(search, 0, n), 30);
            assert_eq!(number(search, u32::MAX, n), 30);
        }
        for n in 1..=64u32 {
            assert_eq!(number(search, 0, n), 0);
            assert_eq!(number(search, 256 - n, n), 0);
            for start in [257 - n, 256, 1 << 16, 1 << 31, u32::MAX, 0u32.wrapping_sub(n)] {
                assert_eq!(number(search, start, n), 31);
            }
        }
    }
}

#[test]
fn refusal_34() {
    for n in 1..=64u32 {
        for search in [Search::Equal, Search::Less] {
            assert_eq!(number(search(u64::MAX >> (64 - n)), 0, n), 0);
            if n < 64 {
                assert_eq!(number(search(1 << n), 0, n), 34);
                assert_eq!(number(search(u64::MAX), 0, n), 34);
                assert_eq!(number(search(1 << 63), 0, n), 34);
            }
        }
    }
}

#[test]
fn refusal_33_and_the_lengths() {
    for n in 1..=64u32 {
        for search in [Search::Equal(1), Search::Less(1)] {
            let (list, items) = (8 * (2 + 3 * n), 32 * n);
            let done = Prepared { number: 0, list, items };
            assert_eq!(built(search, 0, n, list as usize, items as usize).0, done);
            assert_eq!(built(search, 0, n, list as usize + 1, items as usize + 40).0, done);
            assert_eq!(built(search, 0, n, list as usize - 1, 4000).0.number, 33);
            assert_eq!(built(search, 0, n, 9000, items as usize - 1).0.number, 33);
        }
        let list = 8 * (1 + 11 * n);
        assert_eq!(built(Search::Greatest, 0, n, list as usize, 0).0, Prepared { number: 0, list, items: 0 });
        assert_eq!(built(Search::Greatest, 0, n, list as usize - 1, 4000).0.number, 33);
    }
}

#[test]
fn order_30_31_34_33() {
    for search in [Search::Equal, Search::Less] {
        assert_eq!(built(search(u64::MAX), 300, 65, 0, 0).0.number, 30);
        assert_eq!(built(search(u64::MAX), 300, 8, 0, 0).0.number, 31);
        assert_eq!(built(search(256), 0, 8, 0, 0).0.number, 34);
        assert_eq!(built(search(255), 0, 8, 0, 0).0.number, 33);
    }
    assert_eq!(built(Search::Greatest, 300, 0, 0, 0).0.number, 30);
    assert_eq!(built(Search::Greatest, 300, 8, 0, 0).0.number, 31);
    assert_eq!(built(Search::Greatest, 0, 8, 0, 0).0.number, 33);
}

#[test]
fn item_k_has_bit_k_on_every_line() {
    for search in [Search::Equal(0b1011), Search::Less(0b1011)] {
        let (answer, items) = built(search, 0, 5, 200, 170);
        assert_eq!(answer.number, 0);
        for (k, byte) in [255u8, 255, 0, 255, 0].into_iter().enumerate() {
            assert!(items[32 * k..32 * k + 32].iter().all(|&b| b == byte));
        }
        assert!(items[160..].iter().all(|&b| b == 0x77));
    }
    let (_, items) = built(Search::Equal(1 << 63), 192, 64, LARGEST, 2048);
    assert!(items[..63 * 32].iter().all(|&b| b == 0) && items[63 * 32..].iter().all(|&b| b == 255));
}

/// Runs what was built; memory, M and out stay. Gives Y.
fn searched(search: Search, start: u32, n: u32, bench: &mut Bench) -> Row {
    let mut items = vec![0; 2048];
    assert_eq!(prepare(search, start, n, LARGEST, &mut items).number, 0);
    let before = bench.clone();
    let answer = run_prepared(search, start, n, &mut bench.memory, &mut bench.registers, &items);
    let (steps, taken) = if search == Search::Greatest { (1 + 11 * n, 0) } else { (2 + 3 * n, n) };
    assert_eq!(answer, ok(steps, taken, 0));
    assert!(bench.memory == before.memory && bench.out == before.out && bench.registers[..32] == before.registers[..32]);
    assert_eq!(bench.registers[96..], before.registers[96..]);
    let (x, y) = (bench.row(1), bench.row(2));
    assert!(if search == Search::Greatest { x == [false; 256] } else { x == y });
    y
}

/// A bench whose words hold these values in the field, over and over, and anything elsewhere.
fn holding(random: &mut Random, start: usize, n: usize, values: &[u64]) -> Bench {
    let mut bench = Bench::random(random, 0, 40);
    let mut table = bench.table();
    for word in 0..256 {
        set_field(&mut table, word, start, n, values[word % values.len()]);
    }
    bench.load(&table);
    bench
}

#[test]
fn equal_and_less_over_all_words() {
    let mut random = Random(5);
    for (start, n) in [(0usize, 8usize), (248, 8), (100, 8), (192, 64), (0, 33)] {
        let top = u64::MAX >> (64 - n);
        let values = [0, 1, 99, 100, 101, top, top - 1];
        for number in [0, 1, 2, 99, 100, 101, 102, top - 1, top] {
            for marks in [0u8, 255, 0x5A] {
                let mut bench = holding(&mut random, start, n, &values);
                bench.registers[32..96].fill(marks);
                let equal = searched(Search::Equal(number), start as u32, n as u32, &mut bench.clone());
                let less = searched(Search::Less(number), start as u32, n as u32, &mut bench);
                for word in 0..256 {
                    assert_eq!(equal[word], values[word % 7] == number);
                    assert_eq!(less[word], values[word % 7] < number);
                }
            }
        }
    }
}

#[test]
fn greatest_among_the_marked() {
    let mut random = Random(6);
    let marked = |bench: &mut Bench, marks: &dyn Fn(usize) -> bool| {
        bench.registers[64..96].fill(0);
        for word in (0..256).filter(|&w| marks(w)) {
            bench.registers[64 + word / 8] |= 1 << (word % 8);
        }
    };
    for (start, n) in [(0usize, 8usize), (248, 8), (192, 64), (3, 31)] {
        let values = [5u64, 9, 9, 3];
        let mut bench = holding(&mut random, start, n, &values);
        let mut left = |marks: &dyn Fn(usize) -> bool| {
            marked(&mut bench, marks);
            let y = searched(Search::Greatest, start as u32, n as u32, &mut bench);
            (0..256).filter(|&w| y[w]).collect::<Vec<usize>>()
        };
        // none, one, all; every equal one; a word not marked never wins
        assert!(left(&|_| false).is_empty());
        assert_eq!(left(&|w| w == 203), [203]);
        assert_eq!(left(&|_| true), (0..256).filter(|w| w % 4 == 1 || w % 4 == 2).collect::<Vec<_>>());
        assert_eq!(left(&|w| w % 4 == 0 || w % 4 == 3), (0..256).filter(|w| w % 4 == 0).collect::<Vec<_>>());
        assert_eq!(left(&|w| w == 3 || w == 255), [3, 255]);
        assert_eq!(left(&|w| w == 3 || w == 100 || w == 255), [100]);
    }
}

/// Found against an order that looks at bits alone, from the highest down.
#[test]
fn random_fields_by_bits() {
    let mut random = Random(7);
    for n in 1..=64usize {
        let start = random.below(257 - n as u64) as usize;
        let few: Vec<u64> = (0..5).map(|_| random.next() & u64::MAX >> (64 - n)).collect();
        let bench = holding(&mut random, start, n, &few);
        let table = bench.table();
        let number = few[random.below(5) as usize];
        let bits = |word: usize| (0..n).rev().map(|k| table.bit(word, start + k)).collect::<Vec<bool>>();
        let aim: Vec<bool> = (0..n).rev().map(|k| (number >> k) % 2 == 1).collect();
        let equal = searched(Search::Equal(number), start as u32, n as u32, &mut bench.clone());
        let less = searched(Search::Less(number), start as u32, n as u32, &mut bench.clone());
        let marked = unpack(&bench.registers[64..96]);
        let greatest = searched(Search::Greatest, start as u32, n as u32, &mut bench.clone());
        for word in 0..256 {
            assert_eq!(equal[word], bits(word) == aim);
            assert_eq!(less[word], bits(word) < aim);
            let beaten = (0..256).any(|other| marked[other] && bits(other) > bits(word));
            assert_eq!(greatest[word], marked[word] && !beaten);
        }
    }
}

#[test]
fn runs_that_are_refused() {
    let lengths = [(8191usize, 99usize, 33usize, 1u32), (8192, 96, 33, 2), (8192, 100, 33, 4), (8192, 100, 32800, 4), (8192, 100, 32768, 15), (8192, 100, 64, 15), (8192, 100, 32768, 0), (8192, 100, 64, 0)];
    for (memory, registers, items, number) in lengths {
        let (mut m, mut r, mut i) = (vec![7; memory], vec![7; registers], vec![7; items]);
        if number == 0 {
            // both mode registers are unset; else they are bad ones, but for other lengths
            r[96..].fill(0);
        }
        assert_eq!(prepare(Search::Less(1), 0, 1, 40, &mut i).number, 0);
        let answer = run_prepared(Search::Less(1), 0, 1, &mut m, &mut r, &i);
        assert_eq!((answer.number, answer.place), (number, 0));
        if number != 0 {
            assert_eq!((answer.steps, answer.taken, answer.given), (0, 0, 0));
            assert!(m.iter().chain(&r).all(|&b| b == 7));
        }
    }
}
