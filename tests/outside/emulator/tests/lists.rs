mod common;
use common::*;
use emulator::*;

fn built(difference: bool, a: u32, b: u32, s: u32, n: u32, length: usize) -> (Built, Vec<u8>) {
    let mut buffer = vec![0x77; length];
    let answer = if difference { difference_list(a, b, s, n, &mut buffer) } else { sum_list(a, b, s, n, &mut buffer) };
    if answer.number != 0 {
        assert_eq!(answer.count, 0);
    }
    assert!(buffer[answer.count as usize..].iter().all(|&b| b == 0x77));
    (answer, buffer)
}

fn number(a: u32, b: u32, s: u32, n: u32) -> u32 {
    let one = built(false, a, b, s, n, 4000).0.number;
    assert_eq!(built(true, a, b, s, n, 4000).0.number, one);
    one
}

#[test]
fn example_of_six_instructions() {
    let (answer, list) = built(false, 0, 1, 2, 1, 48);
    assert_eq!(answer, Built { number: 0, count: 48 });
    let expected: [[u8; 8]; 6] = [
        [0, 2, 0, 0, 0, 0, 0, 0x20],
        [0, 0, 1, 0, 0, 0, 0, 0x46],
        [0, 0, 1, 0, 1, 0, 0, 0x46],
        [2, 3, 1, 0, 2, 0, 0, 0],
        [0, 2, 0, 0, 0, 0, 0, 0x33],
        [0, 2, 0, 0, 0, 0, 0, 0x26],
    ];
    assert_eq!(list, expected.concat());
    let (answer, list) = built(true, 0, 1, 2, 1, 60);
    assert_eq!(answer, Built { number: 0, count: 56 });
    assert_eq!(list[8..16], [0, 2, 0, 0, 0, 0, 0, 0x1F]);
    assert_eq!(list[24..32], [0, 0, 1, 0, 1, 0, 0, 0x49]);
}

#[test]
fn examples_of_refusals() {
    assert_eq!(number(0, 16, 4, 4), 0);
    assert_eq!(number(0, 16, 4, 5), 32);
    assert_eq!(number(192, 0, 64, 64), 0);
    assert_eq!(number(193, 0, 64, 64), 31);
}

#[test]
fn refusals_30_to_33() {
    for n in [0, 65, 66, 256, 1 << 31, u32::MAX] {
        assert_eq!(number(0, 0, 0, n), 30);
        assert_eq!(number(u32::MAX, u32::MAX, u32::MAX, n), 30);
    }
    for n in [1u32, 2, 17, 63, 64] {
        let edge = 256 - n;
        for wild in [edge + 1, 256, 257, 1 << 31, u32::MAX, u32::MAX - n + 1, (1 << 16) + 3] {
            assert_eq!(number(wild, 0, 0, n), 31);
            assert_eq!(number(0, wild, 0, n), 31);
            assert_eq!(number(0, 0, wild, n), 31);
        }
        assert_eq!(number(edge, 0, 0, n), 0);
        assert_eq!(number(0, edge, 0, n), 0);
        assert_eq!(number(0, 0, edge, n), 0);
    }
    // the same start, the whole field
    assert_eq!(number(10, 100, 10, 8), 0);
    assert_eq!(number(100, 10, 10, 8), 0);
    assert_eq!(number(10, 10, 10, 8), 0);
    // one off, below and above, on A and on B
    for off in 1..8u32 {
        assert_eq!(number(50, 150, 50 + off, 8), 32);
        assert_eq!(number(50, 150, 50 - off, 8), 32);
        assert_eq!(number(150, 50, 50 + off, 8), 32);
        assert_eq!(number(150, 50, 50 - off, 8), 32);
        // S is A, but meets B elsewhere (reading C1)
        assert_eq!(number(50, 50 + off, 50, 8), 32);
        assert_eq!(number(50 + off, 50, 50, 8), 32);
        // A and B may overlap in any way
        assert_eq!(number(50, 50 + off, 150, 8), 0);
    }
    assert_eq!(number(50, 150, 58, 8), 0);
    assert_eq!(number(50, 150, 42, 8), 0);
    for n in 1..=64u32 {
        let need = 8 * (1 + 5 * n) as usize;
        assert_eq!(built(false, 0, 64, 128, n, need - 1).0, Built { number: 33, count: 0 });
        assert_eq!(built(false, 0, 64, 128, n, need).0, Built { number: 0, count: need as u32 });
        assert_eq!(built(true, 0, 64, 128, n, need + 7).0, Built { number: 33, count: 0 });
        assert_eq!(built(true, 0, 64, 128, n, need + 8).0, Built { number: 0, count: need as u32 + 8 });
        assert_eq!(built(true, 0, 64, 128, n, 4000).0.number, 0);
    }
    // order
    assert_eq!(built(false, 256, 1, 0, 65, 0).0.number, 30);
    assert_eq!(built(false, 256, 1, 0, 4, 0).0.number, 31);
    assert_eq!(built(false, 0, 1, 0, 4, 0).0.number, 32);
    assert_eq!(built(false, 0, 0, 0, 4, 0).0.number, 33);
}

fn calculate(difference: bool, a: usize, b: usize, s: usize, n: usize, bench: &mut Bench) {
    let (answer, list) = built(difference, a as u32, b as u32, s as u32, n as u32, 2600);
    assert_eq!(answer.number, 0);
    let before = bench.table();
    let m = bench.row(0);
    let run = bench.run(&list[..answer.count as usize]);
    assert_eq!(run, ok(answer.count / 8, 0, 0));
    let after = bench.table();
    let mut expected = before.clone();
    for word in 0..256 {
        let (va, vb) = (field_of(&before, word, a, n) as u128, field_of(&before, word, b, n) as u128);
        let whole = 1u128 << n;
        let (result, y) = if difference { ((va + whole - vb) % whole, va >= vb) } else { ((va + vb) % whole, va + vb >= whole) };
        set_field(&mut expected, word, s, n, result as u64);
        assert_eq!(bench.row(2)[word], y);
        assert!(!bench.row(1)[word]);
    }
    assert_eq!(after, expected);
    assert_eq!(bench.row(0), m);
}

#[test]
fn examples_of_sums() {
    let mut bench = Bench::zero();
    let mut table = bench.table();
    for word in 0..256 {
        set_field(&mut table, word, 0, 8, 200);
        set_field(&mut table, word, 8, 8, 100);
        set_field(&mut table, word, 32, 8, 44);
    }
    bench.load(&table);
    calculate(false, 0, 8, 16, 8, &mut bench);
    for word in 0..256 {
        assert_eq!(field_of(&bench.table(), word, 16, 8), 44);
        assert!(bench.row(2)[word]);
    }
    calculate(true, 32, 8, 16, 8, &mut bench);
    for word in 0..256 {
        assert_eq!(field_of(&bench.table(), word, 16, 8), 200);
        assert!(!bench.row(2)[word]);
    }
}

#[test]
fn sums_and_differences_of_random_fields() {
    let mut random = Random(61);
    for n in 1..=64usize {
        for difference in [false, true] {
            let top = (257 - n) as u64;
            let (a, b) = (random.below(top) as usize, random.below(top) as usize);
            let mut s = random.below(top) as usize;
            while number(a as u32, b as u32, s as u32, n as u32) != 0 {
                s = random.below(top) as usize;
                if random.below(5) == 0 && number(a as u32, b as u32, a as u32, n as u32) == 0 {
                    s = a;
                }
            }
            calculate(difference, a, b, s, n, &mut Bench::random(&mut random, 0, 0));
        }
        calculate(n % 2 == 0, 0, 128, 0, n, &mut Bench::random(&mut random, 0, 0));
        calculate(n % 2 == 0, 0, 128, 128, n, &mut Bench::random(&mut random, 0, 0));
        calculate(n % 2 == 1, 192, 192, 192, n, &mut Bench::random(&mut random, 0, 0));
    }
}
