//! The two mode registers (document 02, Seven): registers of 100 bytes, 15 and its place, kind 6 and its faults, tags 2
//! and 3, 14 and what counts as set, what a run leaves in the registers, steps, and the lists that use none of it.

mod common;
use common::*;
use emulator::*;
use std::collections::BTreeMap;

const NOTHING: [u8; 8] = [0, 2, 0, 0, 0, 0, 0, 0x0C];
const TAKE: [u8; 8] = [1, 4, 0, 0, 0, 0, 0, 0];
const GIVE: [u8; 8] = [4, 1, 0, 0, 0, 0, 0, 0];
const RESOLVE: [u8; 8] = [5, 0, 0, 0, 0, 0, 0, 0];
const SET_A: [u8; 8] = [6, 0, 2, 170, 0, 0, 0, 0];
const SET_B: [u8; 8] = [6, 0, 3, 85, 0, 0, 0, 0];
/// Kinds and sources that touch memory.
const ACCESSES: [(u8, u8); 11] = [(0, 0), (1, 0), (4, 0), (2, 1), (2, 2), (2, 3), (2, 4), (3, 1), (3, 2), (3, 3), (3, 4)];

/// A run and, for one instruction, a step must answer alike; with items and room for eight and these mode registers.
fn judged(list: &[[u8; 8]], modes: [u8; 4]) -> Answer {
    let mut bench = Bench::random(&mut Random(9), 256, 256);
    bench.registers[96..].copy_from_slice(&modes);
    let mut other = bench.clone();
    let answer = bench.run(&list.concat());
    if let [one] = list {
        let mut record = <[u8; REGISTERS]>::try_from(&other.registers[..]).unwrap();
        assert_eq!(step(&mut other.memory, &mut record, one, &other.items, &mut other.out), answer);
        other.registers = record.to_vec();
        assert!(other == bench);
    }
    answer
}

/// What a run leaves, which must be done.
fn left(list: &[[u8; 8]], modes: [u8; 4]) -> Bench {
    let mut bench = Bench::random(&mut Random(10), 256, 256);
    bench.registers[96..].copy_from_slice(&modes);
    assert_eq!(bench.run(&list.concat()).number, 0, "{:?}", list);
    bench
}

#[test]
fn any_length_but_100_is_2() {
    for length in 0..=130 {
        let mut bench = Bench::zero();
        bench.registers = vec![0; length];
        if length == 100 {
            assert_eq!(bench.run(&[]), ok(0, 0, 0));
        } else {
            bench.refused(&[7; 8], 2, 0);
        }
    }
}

#[test]
fn each_flag_and_mode_of_15() {
    for which in 0..2 {
        for flag in 0..=255u8 {
            for mode in 0..=255u8 {
                let stands = flag == 1 || (flag == 0 && mode == 0);
                if !stands && flag > 3 && mode % 17 != 0 {
                    continue;
                }
                for other in [[0, 0], [1, 0], [1, 200]] {
                    let mut bytes = [other[0], other[1], other[0], other[1]];
                    bytes[2 * which..2 * which + 2].copy_from_slice(&[flag, mode]);
                    let mut registers = [7u8; 100];
                    registers[96..].copy_from_slice(&bytes);
                    let before = registers;
                    let answer = run(&mut [0; 8192], &mut registers, &[], &[], &mut []);
                    assert_eq!(answer, if stands { ok(0, 0, 0) } else { no(15, 0, 0) }, "{:?}", bytes);
                    assert_eq!(registers, before);
                }
            }
        }
    }
    assert_eq!(judged(&[NOTHING], [2, 0, 0, 0]), no(15, 0, 0));
    assert_eq!(judged(&[NOTHING], [0, 0, 0, 1]), no(15, 0, 0));
}

/// 15 comes after 1 to 4 and before each instruction, and so before 12 and 13.
#[test]
fn the_place_of_15() {
    let lent = |memory: usize, registers: usize, list: &[u8], items: usize, out: usize| {
        run(&mut vec![0; memory], &mut vec![9; registers], list, &vec![0; items], &mut vec![0; out])
    };
    let bad = [7u8; 8];
    assert_eq!(lent(8191, 100, &bad, 31, 0), no(1, 0, 0));
    assert_eq!(lent(8192, 101, &bad, 31, 0), no(2, 0, 0));
    assert_eq!(lent(8192, 100, &bad[..7], 31, 0), no(3, 0, 0));
    assert_eq!(lent(8192, 100, &bad, 31, 0), no(4, 0, 0));
    assert_eq!(lent(8192, 100, &bad, 32, 0), no(15, 0, 0));
    assert_eq!(lent(8192, 100, &[NOTHING, bad].concat(), 32, 0), no(15, 0, 0));
    assert_eq!(lent(8192, 100, &SET_A, 0, 0), no(15, 0, 0));
    assert_eq!(lent(8192, 100, &TAKE, 0, 0), no(15, 0, 0));
    assert_eq!(lent(8192, 100, &GIVE, 0, 0), no(15, 0, 0));
    assert_eq!(lent(8192, 100, &[], 0, 0), no(15, 0, 0));
    let stepped = |memory: usize, instruction: &[u8], items: usize| {
        step(&mut vec![0; memory], &mut [9; REGISTERS], instruction, &vec![0; items], &mut [])
    };
    assert_eq!(stepped(8191, &bad, 31), no(1, 0, 0));
    assert_eq!(stepped(8192, &bad[..7], 31), no(3, 0, 0));
    assert_eq!(stepped(8192, &bad, 31), no(4, 0, 0));
    for b in [bad, NOTHING, SET_A, TAKE, GIVE, [2, 1, 2, 0, 0, 0, 0, 0]] {
        assert_eq!(stepped(8192, &b, 0), no(15, 0, 0));
    }
}

/// Kind 6 sets flag and mode of the register that it names and moves nothing else.
#[test]
fn kind_6_sets_one_register() {
    for mode in 0..=255u8 {
        for (tag, at) in [(2u8, 96usize), (3, 98)] {
            for modes in [[0, 0, 0, 0], [1, 9, 0, 0], [0, 0, 1, 8], [1, 255, 1, 0]] {
                let mut bench = Bench::random(&mut Random(20), 32, 32);
                bench.registers[96..].copy_from_slice(&modes);
                let mut expected = bench.clone();
                expected.registers[at..at + 2].copy_from_slice(&[1, mode]);
                assert_eq!(bench.run(&[6, 0, tag, mode, 0, 0, 0, 0]), ok(1, 0, 0));
                assert!(bench == expected);
            }
        }
    }
    assert_eq!(judged(&[SET_A], [0; 4]), ok(1, 0, 0));
    // the last one counts; one that is set stays set
    assert_eq!(left(&[SET_A, [6, 0, 2, 0, 0, 0, 0, 0], SET_B, [6, 0, 2, 3, 0, 0, 0, 0]], [0; 4]).registers[96..], [1, 3, 1, 85]);
    assert_eq!(left(&[[6, 0, 2, 0, 0, 0, 0, 0]], [1, 9, 0, 0]).registers[96..], [1, 0, 0, 0]);
}

#[test]
fn the_faults_of_kind_6() {
    for modes in [[0; 4], [1, 1, 1, 1]] {
        let refused = |b: [u8; 8], number: u32, byte: u32| {
            assert_eq!(judged(&[b], modes), no(number, 0, byte), "{:?}", b);
            assert_eq!(judged(&[SET_B, b, [7; 8]], modes), no(number, 1, byte), "{:?}", b);
        };
        for kind in [7, 8, 22, 128, 134, 255] {
            refused([kind, 0, 2, 0, 0, 0, 0, 0], 5, 0);
        }
        for source in [1, 2, 3, 4, 5, 255] {
            refused([6, source, 2, 0, 0, 0, 0, 0], 6, 1);
            refused([6, source, 0, 9, 9, 9, 9, 9], 6, 1);
        }
        refused([6, 0, 0, 0, 0, 0, 0, 0], 7, 2);
        refused([6, 0, 0, 5, 9, 9, 9, 9], 7, 2);
        for tag in [1, 4, 5, 6, 128, 130, 131, 255] {
            refused([6, 0, tag, 0, 0, 0, 0, 0], 8, 2);
            refused([6, 0, tag, 7, 9, 9, 9, 9], 8, 2);
        }
        for tag in [2, 3] {
            for byte4 in [1, 128, 255] {
                refused([6, 0, tag, 0, byte4, 0, 0, 0], 9, 4);
                refused([6, 0, tag, 255, byte4, 9, 9, 9], 9, 4);
            }
            // whatever byte 6 says it is 18, not 16 or 17
            for value in [1, 16, 0x87, 136, 0x90, 255] {
                refused([6, 0, tag, 0, 0, value, 0, 0], 18, 5);
                refused([6, 0, tag, 0, 0, value, value, 1], 18, 5);
                refused([6, 0, tag, 0, 0, 0, value, 0], 18, 6);
                refused([6, 0, tag, 0, 0, 0, value, 1], 18, 6);
                refused([6, 0, tag, 0, 0, 0, 0, value], 11, 7);
            }
        }
    }
}

/// Tags 2 and 3 in every access: done exactly as with tag 1 and the register's mode.
#[test]
fn tags_take_the_mode_from_a_or_b() {
    let mut random = Random(30);
    for (kind, source) in ACCESSES {
        for round in 0..40 {
            let (a, b) = (random.byte(), random.byte());
            let (address, flip) = (random.byte(), random.byte());
            let (byte6, byte7) = (if kind == 2 || kind == 3 { 0 } else { 0x31 }, if kind == 0 { random.below(80) as u8 } else { 0 });
            let with = |tag: u8, mode: u8| [kind, source, tag, mode, address, flip, byte6, byte7];
            let modes = [1, a, 1, b];
            let by_a = left(&[with(1, a)], modes);
            let by_b = left(&[with(1, b)], modes);
            assert!(left(&[with(2, 0)], modes) == by_a, "{} {} {}", kind, source, round);
            assert!(left(&[with(3, 0)], modes) == by_b);
            // set by the list and not at the start: only the mode bytes differ before it
            for (list, expected) in [([SET_A, with(2, 0)], with(1, 170)), ([SET_B, with(3, 0)], with(1, 85))] {
                let mut one = left(&list, [0; 4]);
                let other = left(&[NOTHING, expected], [0; 4]);
                one.registers[96..].fill(0);
                assert!(one == other);
            }
        }
    }
}

#[test]
fn register_unset_is_14() {
    for (kind, source) in ACCESSES {
        let with = |tag: u8| [kind, source, tag, 0, 200, 7, 0, 0];
        for (tag, mine, other) in [(2u8, [1, 9, 0, 0], [0, 0, 1, 9]), (3, [0, 0, 1, 9], [1, 9, 0, 0])] {
            let (set, set_other) = if tag == 2 { (SET_A, SET_B) } else { (SET_B, SET_A) };
            for modes in [[0; 4], other] {
                assert_eq!(judged(&[with(tag)], modes), no(14, 0, 2));
                assert_eq!(judged(&[NOTHING, NOTHING, with(tag)], modes), no(14, 2, 2));
                assert_eq!(judged(&[set_other, with(tag)], modes), no(14, 1, 2));
                // set only later in the list
                assert_eq!(judged(&[with(tag), set], modes), no(14, 0, 2));
                assert_eq!(judged(&[set_other, with(tag), set, with(tag)], modes), no(14, 1, 2));
                // set by an earlier one
                assert_eq!(judged(&[set, with(tag)], modes).number, 0);
                assert_eq!(judged(&[set, NOTHING, set_other, with(tag)], modes).number, 0);
                // an earlier kind 6 that is refused comes first
                assert_eq!(judged(&[[6, 0, tag, 1, 1, 0, 0, 0], with(tag)], modes), no(9, 0, 4));
            }
            assert_eq!(judged(&[with(tag)], mine).number, 0);
            assert_eq!(judged(&[with(tag)], [1, 1, 1, 1]).number, 0);
        }
    }
}

/// 14 stands between 9 and 18; 6, 7, 8 and 9 come before it, 18, 16, 17 and 11 after it.
#[test]
fn the_place_of_14() {
    let refused = |b: [u8; 8], number: u32, byte: u32| assert_eq!(judged(&[b], [0; 4]), no(number, 0, byte), "{:?}", b);
    for tag in [2u8, 3] {
        refused([7, 0, tag, 0, 0, 0, 0, 0], 5, 0);
        refused([2, 0, tag, 0, 0, 0, 0, 0], 6, 1);
        refused([3, 5, tag, 1, 0, 0, 16, 1], 6, 1);
        for (kind, source) in ACCESSES {
            refused([kind, source, tag, 1, 0, 0, 0, 0], 9, 3);
            refused([kind, source, tag, 255, 9, 0, 0x90, 0x50], 9, 3);
            for byte6 in [0x90, 0xFF, 1, 136] {
                refused([kind, source, tag, 0, 9, 0, byte6, 0], 14, 2);
            }
            refused([kind, source, tag, 0, 9, 0, 0, 0x50], 14, 2);
            // with the register set, the later ones
            let store = kind == 2 || kind == 3;
            for (byte6, byte7, number, byte) in [(0x90, 0, 16, 6), (136, 0x50, 17, 6), (0, 0x50, 11, 7)] {
                let number = if store && byte6 != 0 { 18 } else { number };
                assert_eq!(judged(&[[kind, source, tag, 0, 9, 0, byte6, byte7]], [1, 1, 1, 1]), no(number, 0, byte));
            }
            assert_eq!(judged(&[[kind, source, tag, 1, 9, 0, 0, 0]], [1, 1, 1, 1]), no(9, 0, 3));
        }
        for kind in [0, 1, 4] {
            for source in 1..=4 {
                // no memory: 9 at byte 2, set or not
                for modes in [[0; 4], [1, 1, 1, 1]] {
                    assert_eq!(judged(&[[kind, source, tag, 0, 0, 0, 0, 0]], modes), no(9, 0, 2));
                    assert_eq!(judged(&[[kind, source, tag, 5, 5, 0, 0x90, 0]], modes), no(9, 0, 2));
                }
            }
        }
        refused([5, 0, tag, 0, 0, 0, 0, 0], 9, 2);
    }
    for (kind, source) in ACCESSES {
        for tag in [4, 5, 130, 255] {
            refused([kind, source, tag, 1, 0, 0, 0, 0], 8, 2);
        }
        refused([kind, source, 0, 0, 0, 0, 0, 0], 7, 2);
    }
}

/// A kind 6 in a list that is refused later counts for judging and moves nothing; Bench::run looks at the buffers.
#[test]
fn nothing_moves_where_a_later_one_is_refused() {
    let by_a = [2, 1, 2, 0, 7, 0, 0, 0];
    for modes in [[0; 4], [1, 1, 1, 2]] {
        assert_eq!(judged(&[SET_A, by_a, SET_B, [7; 8]], modes), no(5, 3, 0));
        assert_eq!(judged(&[SET_A, by_a, [6, 0, 1, 0, 0, 0, 0, 0]], modes), no(8, 2, 2));
    }
    assert_eq!(judged(&[SET_A, by_a, [2, 1, 3, 0, 7, 0, 0, 0]], [0; 4]), no(14, 2, 2));
    let mut bench = Bench::random(&mut Random(41), 32, 32);
    bench.refused(&[SET_A, TAKE, SET_B, TAKE].concat(), 12, 3);
    bench.refused(&[SET_A, GIVE, SET_B, RESOLVE].concat(), 13, 3);
}

/// Kind 6 is a step and takes and gives nothing.
#[test]
fn the_counts() {
    for count in 0..6 {
        let mut bench = Bench::zero();
        assert_eq!(bench.run(&[SET_A, SET_B].concat().repeat(count)), ok(2 * count as u32, 0, 0));
    }
    let list = [SET_A, TAKE, SET_B, GIVE, SET_A, RESOLVE, SET_B].concat();
    let mut bench = Bench::random(&mut Random(42), 32, 64);
    assert_eq!(bench.run(&list), ok(7, 1, 2));
    let mut bench = Bench::random(&mut Random(42), 32, 63);
    bench.refused(&list, 13, 5);
    let mut bench = Bench::random(&mut Random(42), 0, 0);
    bench.refused(&list, 12, 1);
}

/// Any list against the same list with each mode written out: tag 1 and the mode that its register then has.
#[test]
fn lists_against_modes_written_out() {
    let mut random = Random(50);
    let mut seen: BTreeMap<u32, usize> = BTreeMap::new();
    for _ in 0..600 {
        let modes = good_modes(&mut random);
        let mut now = [(modes[0] == 1).then_some(modes[1]), (modes[2] == 1).then_some(modes[3])];
        let (mut list, mut plain) = (vec![], vec![]);
        let mut expected = 0;
        for place in 0..1 + random.below(12) {
            let which = random.below(2) as usize;
            let mut b = [random.below(7) as u8, 0, 0, 0, 0, 0, 0, 0];
            if b[0] == 6 {
                (b[2], b[3]) = (2 + which as u8, random.byte());
                now[which] = Some(b[3]);
                plain.extend(NOTHING);
            } else {
                if b[0] != 5 {
                    b[1] = if b[0] == 2 || b[0] == 3 { 1 + random.below(4) as u8 } else { random.below(5) as u8 };
                    b[5] = random.byte();
                }
                if ACCESSES.contains(&(b[0], b[1])) {
                    b[4] = random.byte();
                    if random.below(3) == 0 {
                        (b[2], b[3]) = (1, random.byte());
                        plain.extend(b);
                    } else {
                        b[2] = 2 + which as u8;
                        if now[which].is_none() && expected == 0 {
                            expected = place as u32 + 1;
                        }
                        plain.extend([b[0], b[1], 1, now[which].unwrap_or(0), b[4], b[5], 0, 0]);
                    }
                } else {
                    plain.extend(b);
                }
            }
            list.extend(b);
        }
        let mut bench = Bench::random(&mut random, 32 * 12, 32 * 12);
        bench.registers[96..].copy_from_slice(&modes);
        let mut other = bench.clone();
        let answer = bench.run(&list);
        *seen.entry(answer.number).or_default() += 1;
        if expected != 0 {
            assert_eq!(answer, no(14, expected - 1, 2));
            continue;
        }
        assert_eq!(other.run(&plain), answer);
        for (which, mode) in now.into_iter().enumerate() {
            other.registers[96 + 2 * which] = mode.is_some() as u8;
            other.registers[97 + 2 * which] = mode.unwrap_or(0);
        }
        assert!(bench == other);
    }
    assert!(seen[&0] > 100 && seen[&14] > 100, "{:?}", seen);
}

/// Step by step on the one record as in one run.
#[test]
fn steps_one_after_the_other() {
    let list = [
        [4, 0, 3, 0, 9, 0, 0, 0],
        SET_A,
        [0, 0, 2, 0, 3, 1, 0x31, 0x46],
        [2, 3, 3, 0, 4, 9, 0, 0],
        [6, 0, 3, 240, 0, 0, 0, 0],
        [3, 2, 3, 0, 5, 3, 0, 0],
        [6, 0, 2, 1, 0, 0, 0, 0],
        [1, 0, 2, 0, 6, 0, 0, 0],
        [4, 0, 2, 0, 7, 0, 0, 0],
    ];
    let whole = left(&list, [0, 0, 1, 15]);
    let mut bench = Bench::random(&mut Random(10), 256, 256);
    bench.registers[96..].copy_from_slice(&[0, 0, 1, 15]);
    let mut record = <[u8; REGISTERS]>::try_from(&bench.registers[..]).unwrap();
    let mut given = 0;
    for b in list {
        let answer = step(&mut bench.memory, &mut record, &b, &[], &mut bench.out[given..]);
        assert_eq!(answer.number, 0);
        given += 32 * answer.given as usize;
    }
    bench.registers = record.to_vec();
    assert!(bench == whole);
}

/// Lists of sums and differences, searches, closing and spreading leave the four bytes and are refused with 15.
#[test]
fn built_lists_use_no_mode_register() {
    let mut random = Random(60);
    for modes in [[0, 0, 0, 0], [1, 0, 0, 0], [0, 0, 1, 255], [1, 7, 1, 90]] {
        for (kind, bad) in (0..7).flat_map(|kind| [(kind, None), (kind, Some([2, 0, 0, 0])), (kind, Some([1, 1, 0, 1]))]) {
            let mut bench = Bench::random(&mut random, 0, 0);
            bench.registers[96..].copy_from_slice(&bad.unwrap_or(modes));
            let before = bench.clone();
            let Bench { memory, registers, .. } = &mut bench;
            let mut list = vec![0; 400];
            let number = match kind {
                0 | 1 => {
                    let built = if kind == 0 { sum_list(0, 8, 16, 8, &mut list) } else { difference_list(0, 8, 16, 8, &mut list) };
                    run(memory, registers, &list[..built.count as usize], &[], &mut []).number
                }
                2..=4 => {
                    let search = [Search::Equal(9), Search::Less(9), Search::Greatest][kind - 2];
                    run_prepared(search, 3, 6, memory, registers, &[0; 192]).number
                }
                _ => {
                    let way = [Way::Close, Way::Spread][kind - 5];
                    emulator::closing::run_prepared(way, Fields { a: 0, s: 8, width: 8 }, &[0x55; 32], memory, registers, &[]).number
                }
            };
            assert_eq!(number, if bad.is_some() { 15 } else { 0 });
            assert_eq!(bench.registers[96..], before.registers[96..]);
            if bad.is_some() {
                assert!(bench == before);
            }
        }
    }
}
