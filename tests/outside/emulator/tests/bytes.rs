//! The offending byte (document 02, Six): each number with each byte that it names, which of several wrong bytes and
//! of several numbers it is, each value of byte 6, and 0 where no instruction is at fault.

mod common;
use common::*;
use emulator::network::codes;
use emulator::*;
use std::collections::BTreeMap;

const NOTHING: [u8; 8] = [0, 2, 0, 0, 0, 0, 0, 0x0C];

/// What a step and a run of the one instruction answer, with an item and room for one; both must agree. Run behind
/// good instructions, and before a bad one, only the place differs.
fn judged(b: &[u8; 8]) -> Answer {
    let (mut memory, mut record, mut out) = (vec![0; 8192], [0; REGISTERS], [0; 32]);
    let alone = step(&mut memory, &mut record, b, &[0; 32], &mut out);
    assert_eq!(run(&mut memory, &mut record, b, &[0; 32], &mut out), alone);
    if alone.number != 0 {
        let behind = [NOTHING, NOTHING, *b, [7; 8]].concat();
        let answer = run(&mut memory, &mut record, &behind, &[0; 32], &mut out);
        assert_eq!(answer, Answer { place: 2, ..alone });
        assert!(memory.iter().chain(&record).chain(&out).all(|&byte| byte == 0));
    }
    alone
}

fn refused(b: [u8; 8], number: u32, byte: u32) {
    assert_eq!(judged(&b), no(number, 0, byte), "{:?}", b);
}

/// Each number alone, with each byte that it can name.
#[test]
fn each_number_and_its_bytes() {
    for kind in [7u8, 8, 128, 255] {
        refused([kind, 1, 0, 0, 0, 0, 0, 0], 5, 0);
    }
    for (kind, source) in [(0u8, 5u8), (1, 5), (4, 255), (2, 0), (3, 0), (2, 5), (3, 128), (5, 1), (5, 4), (5, 5)] {
        let tag = (kind == 2 || kind == 3) as u8;
        refused([kind, source, tag, 0, 0, 0, 0, 0], 6, 1);
    }
    for (kind, source) in [(0u8, 0u8), (1, 0), (4, 0), (2, 1), (2, 4), (3, 3)] {
        refused([kind, source, 0, 0, 0, 0, 0, 0], 7, 2);
        refused([kind, source, 0, 255, 9, 0, 0, 0], 7, 2);
        for tag in [4u8, 5, 128, 129, 255] {
            refused([kind, source, tag, 0, 0, 0, 0, 0], 8, 2);
        }
    }
    for (kind, source) in [(0u8, 1u8), (1, 2), (4, 3), (0, 4), (5, 0)] {
        refused([kind, source, 1, 0, 0, 0, 0, 0], 9, 2);
        refused([kind, source, 0, 255, 0, 0, 0, 0], 9, 3);
        refused([kind, source, 0, 0, 128, 0, 0, 0], 9, 4);
    }
    for byte6 in [1u8, 16, 48, 0x87, 136, 0x90, 255] {
        refused([2, 1, 1, 0, 0, 0, byte6, 0], 18, 6);
        refused([3, 4, 1, 7, 7, 0, byte6, 0], 18, 6);
        refused([5, 0, 0, 0, 0, 0, byte6, 0], 18, 6);
        refused([5, 0, 0, 0, 0, byte6, 0, 0], 18, 5);
    }
    for kind in [0u8, 1, 4] {
        for byte6 in [0x90u8, 0x98, 0x99, 0x9F, 0xA0, 0xF0, 0xFF] {
            refused([kind, 1, 0, 0, 0, 0, byte6, 0], 16, 6);
        }
        for byte6 in [1u8, 15, 17, 31, 34, 0x77, 0x7F, 136, 143] {
            refused([kind, 1, 0, 0, 0, 0, byte6, 0], 17, 6);
        }
    }
    for byte7 in [0x50u8, 0x5F, 0x80, 0xFF] {
        refused([0, 1, 0, 0, 0, 0, 0, byte7], 11, 7);
    }
    for (kind, source, tag) in [(1u8, 1u8, 0u8), (4, 4, 0), (2, 1, 1), (3, 2, 1), (5, 0, 0)] {
        for byte7 in [1u8, 15, 16, 255] {
            refused([kind, source, tag, 0, 0, 0, 0, byte7], 11, 7);
        }
    }
}

/// What the issue and the readings I3, I5 and I7 name.
#[test]
fn the_examples() {
    refused([2, 1, 1, 0, 0, 0, 0x90, 0], 18, 6);
    refused([3, 1, 1, 0, 0, 0, 0x90, 0], 18, 6);
    for kind in [0, 1, 4] {
        refused([kind, 1, 0, 0, 0, 0, 0x9F, 0], 16, 6);
        for byte6 in (1..16).chain([136]) {
            refused([kind, 1, 0, 0, 0, 0, byte6, 0], 17, 6);
        }
    }
    // a flip is no fault of a store: byte 5 is never the one
    refused([2, 1, 1, 0, 0, 255, 16, 0], 18, 6);
    assert_eq!(judged(&[2, 1, 1, 0, 0, 255, 0, 0]), ok(1, 0, 0));
    assert_eq!(judged(&[3, 4, 1, 0, 0, 255, 0, 0]), ok(1, 1, 0));
}

/// Two numbers in one instruction: the earlier in 5, 6, 7, 8, 9, 18, 16, 17, 11 is given, with its own byte. (14 is for
/// the tests of the mode registers.)
#[test]
fn the_earlier_number_and_its_byte() {
    // 5 before all
    refused([7, 5, 2, 2, 2, 2, 0x9F, 0xFF], 5, 0);
    refused([7, 0, 0, 0, 0, 0, 0, 1], 5, 0);
    // 6 before 7, 8, 9, 18, 16, 17, 11
    refused([2, 0, 0, 0, 0, 0, 0, 0], 6, 1);
    refused([2, 0, 4, 0, 0, 0, 0, 0], 6, 1);
    refused([0, 5, 1, 0, 0, 0, 0, 0], 6, 1);
    refused([2, 0, 1, 0, 0, 0, 16, 0], 6, 1);
    refused([5, 1, 0, 0, 0, 1, 0, 0], 6, 1);
    refused([0, 5, 0, 0, 0, 0, 0x90, 0], 6, 1);
    refused([0, 5, 0, 0, 0, 0, 1, 0], 6, 1);
    refused([0, 5, 0, 0, 0, 0, 0, 0x50], 6, 1);
    // 7 and 8 before 18, 16, 17, 11
    for (tag, number) in [(0u8, 7u32), (4, 8)] {
        refused([2, 1, tag, 0, 0, 0, 16, 0], number, 2);
        refused([3, 1, tag, 0, 0, 0, 0x90, 0], number, 2);
        refused([0, 0, tag, 0, 0, 0, 0x90, 0], number, 2);
        refused([1, 0, tag, 0, 0, 0, 1, 0], number, 2);
        refused([4, 0, tag, 0, 0, 0, 0, 1], number, 2);
    }
    // 9 before 18, 16, 17, 11
    let resolve = ([5u8, 0, 0, 0, 0, 0, 0, 0], [(5usize, 1u8), (6, 16), (7, 1)]);
    let logic = ([0, 1, 0, 0, 0, 0, 0, 0], [(6, 0x90), (6, 1), (7, 0x50)]);
    for (good, later) in [resolve, logic] {
        for (at, (other, value)) in [2usize, 3, 4].into_iter().flat_map(|at| later.map(|one| (at, one))) {
            let mut b = good;
            (b[at], b[other]) = (1, value);
            refused(b, 9, at as u32);
        }
    }
    // 18 before 16 (a store, and a resolve), before 17 and before 11
    for byte6 in [0x90u8, 0x9F, 0xFF, 1, 15, 136] {
        refused([2, 1, 1, 0, 0, 0, byte6, 0], 18, 6);
        refused([3, 1, 1, 0, 0, 0, byte6, 1], 18, 6);
        refused([5, 0, 0, 0, 0, 0, byte6, 1], 18, 6);
        refused([5, 0, 0, 0, 0, 1, byte6, 1], 18, 5);
    }
    refused([5, 0, 0, 0, 0, 1, 0, 1], 18, 5);
    refused([2, 1, 1, 0, 0, 0, 16, 1], 18, 6);
    // 16 before 17: p over 8 and m not below p; 16 and 17 before 11
    for p in 9..=15u8 {
        for m in p..=15 {
            refused([0, 1, 0, 0, 0, 0, 16 * p + m, 0], 16, 6);
        }
        refused([1, 1, 0, 0, 0, 0, 16 * p, 1], 16, 6);
    }
    refused([0, 1, 0, 0, 0, 0, 0x9F, 0x50], 16, 6);
    refused([0, 1, 0, 0, 0, 0, 136, 0x50], 17, 6);
    refused([4, 1, 0, 0, 0, 0, 1, 0x50], 17, 6);
}

/// Several bytes wrong by one number: the first.
#[test]
fn the_first_byte_of_several() {
    for (kind, source) in [(0u8, 1u8), (1, 2), (4, 4), (5, 0)] {
        refused([kind, source, 1, 1, 1, 0, 0, 0], 9, 2);
        refused([kind, source, 1, 0, 1, 0, 0, 0], 9, 2);
        refused([kind, source, 1, 1, 0, 0, 0, 0], 9, 2);
        refused([kind, source, 0, 1, 1, 0, 0, 0], 9, 3);
    }
    for (byte5, byte6, byte) in [(1, 1, 5), (1, 16, 5), (255, 255, 5), (1, 0, 5), (0, 1, 6), (0, 16, 6), (0, 0x90, 6)] {
        refused([5, 0, 0, 0, 0, byte5, byte6, 0], 18, byte);
    }
}

/// Each value of byte 6 in each kind, touching memory or not.
#[test]
fn every_value_of_byte_6() {
    let mut seen: BTreeMap<(u8, u32), usize> = BTreeMap::new();
    for (kind, source, tag) in [(0u8, 1u8, 0u8), (0, 0, 1), (1, 4, 0), (4, 0, 1), (2, 2, 1), (3, 4, 1), (5, 0, 0)] {
        for byte6 in 0..=255u8 {
            let answer = judged(&[kind, source, tag, 0, 0, 0, byte6, 0]);
            let expected = if byte6 == 0 {
                0
            } else if kind == 2 || kind == 3 || kind == 5 {
                18
            } else if codes().contains(&byte6) {
                0
            } else if byte6 >= 144 {
                16
            } else {
                17
            };
            assert_eq!((answer.number, answer.byte), (expected, if expected == 0 { 0 } else { 6 }), "{} {}", kind, byte6);
            *seen.entry((kind, expected)).or_default() += 1;
        }
    }
    for kind in [2, 3, 5] {
        assert_eq!((seen[&(kind, 0)], seen[&(kind, 18)]), (1, 255));
    }
    assert_eq!((seen[&(1, 0)], seen[&(1, 16)], seen[&(1, 17)]), (37, 112, 107));
}

/// Instructions of every kind and source with telling values in every byte, against the tables' own words. 10 is no
/// longer given; each number names the bytes that the readings list and no others.
#[test]
fn near_the_borders_against_the_tables() {
    let (mut memory, mut record, mut out) = (vec![0; 8192], [0; REGISTERS], [0; 32]);
    record[98] = 1;
    let mut seen: BTreeMap<(u32, u32), usize> = BTreeMap::new();
    let numbers = 8 * 6 * 5 * 2 * 2 * 3 * 14 * 4;
    for n in 0..numbers {
        let mut rest = n;
        let mut next = |values: &[u8]| {
            let value = values[rest % values.len()];
            rest /= values.len();
            value
        };
        let b = [
            next(&[0, 1, 2, 3, 4, 5, 6, 7]),
            next(&[0, 1, 2, 3, 4, 5]),
            next(&[0, 1, 2, 3, 4]),
            next(&[0, 255]),
            next(&[0, 1]),
            next(&[0, 1, 255]),
            next(&[0, 1, 15, 16, 17, 0x21, 0x7F, 0x80, 0x87, 0x88, 0x8F, 0x90, 0x9F, 0xFF]),
            next(&[0, 1, 0x4F, 0x50]),
        ];
        // A is unset, B is set
        let (number, byte) = by_the_tables(&b, [false, true]);
        *seen.entry((number, byte)).or_default() += 1;
        if number != 0 {
            let answer = run(&mut memory, &mut record, &b, &[0; 32], &mut out);
            assert_eq!(answer, no(number, 0, byte), "{:?}", b);
        }
    }
    let named = [(0, 0), (5, 0), (6, 1), (7, 2), (8, 2), (9, 2), (9, 3), (9, 4), (11, 7), (14, 2), (16, 6), (17, 6), (18, 5), (18, 6)];
    assert_eq!(seen.keys().copied().collect::<Vec<_>>(), named);
}

/// The first instruction at fault gives place and byte, whatever stands behind it.
#[test]
fn the_byte_of_the_first_refused_instruction() {
    let faults = [
        ([7, 0, 0, 0, 0, 0, 0, 0], 5, 0),
        ([0, 5, 0, 0, 0, 0, 0, 0], 6, 1),
        ([2, 1, 0, 0, 0, 0, 0, 0], 7, 2),
        ([2, 1, 4, 0, 0, 0, 0, 0], 8, 2),
        ([2, 1, 2, 0, 0, 0, 0, 0], 14, 2),
        ([0, 1, 0, 0, 1, 0, 0, 0], 9, 4),
        ([5, 0, 0, 0, 0, 1, 0, 0], 18, 5),
        ([0, 1, 0, 0, 0, 0, 0x90, 0], 16, 6),
        ([0, 1, 0, 0, 0, 0, 1, 0], 17, 6),
        ([0, 1, 0, 0, 0, 0, 0, 0x50], 11, 7),
    ];
    for (first, number, byte) in faults {
        for (second, _, _) in faults {
            for place in [0usize, 1, 4] {
                // the good ones lack items and room, which is judged later
                let mut list = vec![[4u8, 4, 0, 0, 0, 0, 0, 0]; place];
                list.extend([first, NOTHING, second]);
                Bench::zero().refused_at(&list.concat(), number, place as u32, byte);
            }
        }
    }
}

#[test]
fn no_byte_where_no_instruction_is_at_fault() {
    let bad = [5u8, 0, 0, 0, 0, 0, 1, 0];
    let lent = |memory: usize, registers: usize, list: &[u8], items: usize| {
        run(&mut vec![0; memory], &mut vec![0; registers], list, &vec![0; items], &mut [0; 31])
    };
    // 1 to 4, before an instruction whose byte is 6
    assert_eq!(lent(8191, 100, &bad, 32), no(1, 0, 0));
    assert_eq!(lent(8192, 101, &bad, 32), no(2, 0, 0));
    assert_eq!(lent(8192, 96, &bad, 32), no(2, 0, 0));
    assert_eq!(lent(8192, 100, &bad[..7], 32), no(3, 0, 0));
    assert_eq!(lent(8192, 100, &bad, 33), no(4, 0, 0));
    assert_eq!(lent(8192, 100, &bad, 32), no(18, 0, 6));
    let stepped = |memory: usize, instruction: &[u8], items: usize| {
        step(&mut vec![0; memory], &mut [0; REGISTERS], instruction, &vec![0; items], &mut [0; 31])
    };
    assert_eq!(stepped(8191, &bad, 32), no(1, 0, 0));
    assert_eq!(stepped(8192, &[], 32), no(3, 0, 0));
    assert_eq!(stepped(8192, &bad, 33), no(4, 0, 0));
    assert_eq!(stepped(8192, &bad, 32), no(18, 0, 6));
    // 12 and 13, which name a place and no byte, though byte 1 asks for the item and byte 0 for the room
    let (take, give, resolve) = ([1u8, 4, 0, 0, 0, 0, 0, 0], [4u8, 1, 0, 0, 0, 0, 0, 0], [5u8, 0, 0, 0, 0, 0, 0, 0]);
    assert_eq!(lent(8192, 100, &[NOTHING, take, take].concat(), 32), no(12, 2, 0));
    assert_eq!(lent(8192, 100, &[NOTHING, give].concat(), 32), no(13, 1, 0));
    assert_eq!(lent(8192, 100, &[take, NOTHING, resolve].concat(), 32), no(13, 2, 0));
    assert_eq!(stepped(8192, &take, 0), no(12, 0, 0));
    assert_eq!(stepped(8192, &give, 0), no(13, 0, 0));
    // done
    assert_eq!(lent(8192, 100, &[], 32), ok(0, 0, 0));
    assert_eq!(lent(8192, 100, &[take, NOTHING].concat(), 32), ok(2, 1, 0));
    assert_eq!(stepped(8192, &NOTHING, 0), ok(1, 0, 0));
}
