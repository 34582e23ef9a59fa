//! Isolation (document 02, Fourteen): the refusals and their order, each byte of an instruction that breaks the condition,
//! what the mode registers hold, places, and the property itself: two runs of such a list that agree on word P, on bit P of
//! M, X, Y and of each item taken and on the mode registers agree there afterwards. Three lists for which that is false.

mod common;
use common::*;
use emulator::bits::{pack, unpack};
use emulator::memory::Table;
use emulator::*;

type Instruction = [u8; 8];

/// Logic from memory by tag 1 and mode 0.
const READ: Instruction = [0, 0, 1, 0, 7, 0, 0, 0x1A];
const STORE: Instruction = [2, 3, 1, 0, 9, 0, 0, 0];
const UNSET: [u8; 4] = [0; 4];
/// Kinds and sources that touch memory; stores do so with each source, one that a run refuses among them.
const ACCESSES: [(u8, u8); 12] =
    [(0, 0), (1, 0), (2, 0), (2, 1), (2, 3), (2, 4), (2, 255), (3, 0), (3, 1), (3, 2), (3, 4), (3, 5)];
/// Kinds and sources that do not.
const OTHERS: [(u8, u8); 14] =
    [(0, 1), (0, 2), (0, 3), (0, 4), (0, 5), (0, 255), (1, 1), (1, 2), (1, 3), (1, 4), (1, 128), (6, 0), (6, 1), (6, 255)];

fn set(tag: u8, mode: u8) -> Instruction {
    [6, 0, tag, mode, 0, 0, 0, 0]
}

fn through((kind, source): (u8, u8), tag: u8) -> Instruction {
    [kind, source, tag, 0, 5, 0, 0, 0]
}

/// What is said of a list with these mode registers, in registers of any other content.
fn said(list: &[Instruction], modes: [u8; 4]) -> (u32, u32) {
    let mut registers = Random(31).bytes(REGISTERS);
    registers[96..].copy_from_slice(&modes);
    asked(&list.concat(), &registers)
}

fn asked(list: &[u8], registers: &[u8]) -> (u32, u32) {
    let answer = isolated(list, registers);
    (answer.number, answer.place)
}

const DONE: (u32, u32) = (0, 0);

fn breaks_at(place: usize) -> (u32, u32) {
    (40, place as u32)
}

// ---- the refusals

#[test]
fn any_registers_but_100_bytes_are_2() {
    for length in 0..=260 {
        let expected = if length == 100 { DONE } else { (2, 0) };
        assert_eq!(asked(&[], &vec![0; length]), expected, "{}", length);
        assert_eq!(asked(&[READ, STORE].concat(), &vec![0; length]), expected, "{}", length);
    }
}

#[test]
fn lists_of_no_right_length_are_3() {
    let long = READ.repeat(4200);
    for length in (0..=80).chain(32750..=32800).chain([33000, 33600]) {
        let expected = if length % 8 == 0 && length <= 32768 { DONE } else { (3, 0) };
        assert_eq!(asked(&long[..length], &[0; 100]), expected, "{}", length);
    }
}

#[test]
fn each_flag_and_mode_of_15() {
    for which in 0..2 {
        for flag in 0..=255u8 {
            for mode in 0..=255u8 {
                let stands = flag == 1 || (flag == 0 && mode == 0);
                for other in [[0, 0], [1, 0], [1, 200]] {
                    let mut modes = [other[0], other[1], other[0], other[1]];
                    modes[2 * which..2 * which + 2].copy_from_slice(&[flag, mode]);
                    assert_eq!(said(&[], modes), if stands { DONE } else { (15, 0) }, "{:?}", modes);
                }
            }
        }
    }
    // a kind 6 that sets the bad one does not mend it
    assert_eq!(said(&[set(2, 0), READ], [2, 0, 0, 0]), (15, 0));
    assert_eq!(said(&[set(3, 0), READ], [0, 0, 0, 1]), (15, 0));
}

/// 2, 3, 15 and 40, each before all behind it, in every set of them.
#[test]
fn the_order_of_the_refusals() {
    for wrong in 0..16u32 {
        let is = |bit: u32| wrong >> bit & 1 == 1;
        let mut registers = vec![0; 100];
        if is(2) {
            registers[96] = 2;
        }
        if is(0) {
            registers.push(0);
        }
        let mut list = READ.to_vec();
        list.extend(if is(3) { [5, 0, 0, 0, 0, 0, 0, 0] } else { STORE });
        if is(1) {
            list.push(0);
        }
        let expected = match wrong {
            0 => DONE,
            _ if is(0) => (2, 0),
            _ if is(1) => (3, 0),
            _ if is(2) => (15, 0),
            _ => breaks_at(1),
        };
        assert_eq!(asked(&list, &registers), expected, "{}", wrong);
    }
    // too long, and no multiple of 8
    for length in [32776, 32769] {
        assert_eq!(asked(&vec![255; length], &[255; 100]), (3, 0));
        assert_eq!(asked(&vec![255; length], &[255; 99]), (2, 0));
    }
    assert_eq!(asked(&[255; 32768], &[255; 100]), (15, 0));
    assert_eq!(asked(&[255; 32768], &[0; 100]), breaks_at(0));
}

/// 2, 3 and 15 are given exactly where a run gives them, to which memory and items are lent as it wants them.
#[test]
fn the_refusals_are_those_of_a_run() {
    let mut random = Random(32);
    let mut seen = std::collections::BTreeSet::new();
    for _ in 0..600 {
        let length = if random.below(4) == 0 { 98 + random.below(5) as usize } else { 100 };
        let mut registers = random.bytes(length);
        for byte in registers.iter_mut().skip(96) {
            *byte = [0, 0, 0, 1, 1, 2][random.below(6) as usize];
        }
        let list = if random.below(20) == 0 { vec![0; 32768 + 8 * random.below(2) as usize] } else { vec![0; random.below(25) as usize] };
        let said = asked(&list, &registers);
        let run = run(&mut [0; 8192], &mut registers, &list, &[], &mut []).number;
        let one_of = |number: u32| [2, 3, 15].contains(&number);
        assert_eq!(one_of(said.0), one_of(run));
        if one_of(run) {
            assert_eq!(said, (run, 0));
            seen.insert(run);
        }
    }
    assert_eq!(seen.len(), 3);
}

// ---- what breaks the condition

/// The condition once more, instruction by instruction and word by word of the request: what is not isolated about it.
fn why(b: &[u8], held: [Option<u8>; 2]) -> Vec<&'static str> {
    let mut all = vec![];
    if ![0, 1, 2, 3, 6].contains(&b[0]) {
        all.push("kind");
    }
    if b[5] > 0 {
        all.push("flip");
    }
    if b[6] > 0 {
        all.push("shift");
    }
    let touched = match b[0] {
        0 | 1 => b[1] == 0,
        2 | 3 => true,
        _ => false,
    };
    let mode = [None, Some(b[3]), held[0], held[1]].get(b[2] as usize).copied().flatten();
    if touched && mode != Some(0) {
        all.push("mode");
    }
    all
}

/// The same of a list that 2, 3 and 15 do not refuse.
fn again(list: &[Instruction], modes: [u8; 4]) -> (u32, u32) {
    let mut held = [(modes[0] == 1).then_some(modes[1]), (modes[2] == 1).then_some(modes[3])];
    for (place, b) in list.iter().enumerate() {
        if !why(b, held).is_empty() {
            return breaks_at(place);
        }
        if b[0] == 6 && (b[2] == 2 || b[2] == 3) {
            held[b[2] as usize - 2] = Some(b[3]);
        }
    }
    DONE
}

#[test]
fn an_empty_list_breaks_nothing() {
    for modes in [UNSET, [1, 0, 1, 0], [1, 255, 0, 0]] {
        assert_eq!(said(&[], modes), DONE);
    }
}

/// Each value of each byte of good instructions.
#[test]
fn each_byte_of_a_good_instruction() {
    let mut counted = [0; 8];
    for modes in [UNSET, [1, 0, 0, 0], [0, 0, 1, 0], [1, 0, 1, 0], [1, 7, 1, 0]] {
        for (kind, source) in ACCESSES.into_iter().chain(OTHERS) {
            for tag in [1, 2, 3] {
                let mut good = through((kind, source), tag);
                if kind == 0 {
                    good[7] = 0x46;
                }
                if again(&[good], modes) != DONE {
                    continue;
                }
                assert_eq!(said(&[good], modes), DONE, "{:?}", good);
                for byte in 0..8 {
                    for value in 0..=255u8 {
                        let mut b = good;
                        b[byte] = value;
                        let answer = said(&[b], modes);
                        assert_eq!(answer, again(&[b], modes), "{:?} {:?}", b, modes);
                        // a kind 6 before it may have set the register
                        let behind = [good, READ, b, STORE];
                        assert_eq!(said(&behind, modes), again(&behind, modes), "{:?} {:?}", b, modes);
                        counted[byte] += (answer.0 == 40) as usize;
                    }
                }
            }
        }
    }
    // addresses, choices and functions never break it, all else does somewhere
    assert!((0..8).all(|byte| (counted[byte] > 0) == ![4, 7].contains(&byte)), "{:?}", counted);
}

/// The same said without the rule above.
#[test]
fn what_each_byte_may_be() {
    for kind in 0..=255u8 {
        let stands = [0, 1, 2, 3, 6].contains(&kind);
        assert_eq!(said(&[[kind, 1, 1, 0, 0, 0, 0, 0]], UNSET), if stands { DONE } else { breaks_at(0) });
        assert_eq!(said(&[[kind, 0, 1, 0, 0, 0, 0, 0]], UNSET), if stands { DONE } else { breaks_at(0) });
    }
    for (kind, source) in ACCESSES.into_iter().chain(OTHERS) {
        let good = through((kind, source), 1);
        assert_eq!(said(&[good], UNSET), DONE);
        for value in 1..=255u8 {
            for byte in [5, 6] {
                let mut b = good;
                b[byte] = value;
                assert_eq!(said(&[b], UNSET), breaks_at(0), "{:?}", b);
            }
            for byte in [4, 7] {
                let mut b = good;
                b[byte] = value;
                assert_eq!(said(&[b], UNSET), DONE, "{:?}", b);
            }
            // byte 3 is the mode in an access; byte 2 names where it comes from
            let touched = ACCESSES.contains(&(kind, source));
            let mut b = good;
            b[3] = value;
            assert_eq!(said(&[b], UNSET), if touched { breaks_at(0) } else { DONE }, "{:?}", b);
            let mut b = good;
            b[2] = value;
            assert_eq!(said(&[b], UNSET), if touched && value != 1 { breaks_at(0) } else { DONE }, "{:?}", b);
        }
        // tag 0 is not mode 0, nor are 4 and 255, whatever byte 3 and the registers hold
        for tag in [0, 4, 5, 128, 129, 130, 131, 254, 255] {
            for mode in [0, 1, 255] {
                for modes in [UNSET, [1, 0, 1, 0]] {
                    let mut b = good;
                    (b[2], b[3]) = (tag, mode);
                    let touched = ACCESSES.contains(&(kind, source));
                    assert_eq!(said(&[b], modes), if touched { breaks_at(0) } else { DONE }, "{:?}", b);
                }
            }
        }
    }
}

/// Lists of a run that would be refused for something else are not broken by it.
#[test]
fn what_only_a_run_refuses() {
    let good: [Instruction; 10] = [
        [0, 5, 0, 0, 0, 0, 0, 0],
        [2, 0, 1, 0, 0, 0, 0, 0],
        [1, 1, 7, 8, 9, 0, 0, 0],
        [0, 0, 2, 9, 0, 0, 0, 0],
        [3, 2, 3, 255, 0, 0, 0, 0],
        [0, 1, 0, 0, 0, 0, 0, 255],
        [2, 3, 1, 0, 0, 0, 0, 1],
        [6, 0, 0, 0, 0, 0, 0, 0],
        [6, 0, 1, 0, 0, 0, 0, 0],
        [6, 0, 2, 0, 9, 0, 0, 0],
    ];
    for b in good {
        assert_eq!(said(&[b], [1, 0, 1, 0]), DONE, "{:?}", b);
        let mut bench = Bench::zero();
        bench.registers[96..].copy_from_slice(&[1, 0, 1, 0]);
        assert_ne!(bench.run(&b).number, 0, "{:?}", b);
    }
    // and of items or room it knows nothing
    assert_eq!(said(&[[1, 4, 0, 0, 0, 0, 0, 0]; 2000], UNSET), DONE);
}

// ---- the mode registers

#[test]
fn a_register_that_is_set_at_the_start() {
    for access in ACCESSES {
        for (tag, at) in [(2, 0), (3, 2)] {
            for mode in 0..=255u8 {
                for other in [[0, 0], [1, 0], [1, 9]] {
                    let mut modes = [other[0], other[1], other[0], other[1]];
                    modes[at..at + 2].copy_from_slice(&[1, mode]);
                    let expected = if mode == 0 { DONE } else { breaks_at(0) };
                    assert_eq!(said(&[through(access, tag)], modes), expected, "{:?} {:?}", access, modes);
                    // unset, whatever the other holds
                    modes[at..at + 2].copy_from_slice(&[0, 0]);
                    assert_eq!(said(&[through(access, tag)], modes), breaks_at(0), "{:?} {:?}", access, modes);
                }
            }
            // byte 3 of the access is not looked at
            let mut b = through(access, tag);
            b[3] = 77;
            assert_eq!(said(&[b], [1, 0, 1, 0]), DONE);
            assert_eq!(said(&[b], UNSET), breaks_at(0));
        }
    }
}

#[test]
fn kind_6_sets_for_those_behind_it() {
    for access in ACCESSES {
        for tag in [2u8, 3] {
            let (b, other) = (through(access, tag), 5 - tag);
            assert_eq!(said(&[set(tag, 0), b], UNSET), DONE);
            assert_eq!(said(&[set(tag, 0), READ, STORE, b, b], UNSET), DONE);
            // a later one does not count, nor does one of the other register, nor one with a tag that names none
            assert_eq!(said(&[b, set(tag, 0)], UNSET), breaks_at(0));
            assert_eq!(said(&[set(other, 0), b, set(tag, 0)], UNSET), breaks_at(1));
            for none in [0, 1, 4, 5, 128, tag + 128, 255] {
                assert_eq!(said(&[set(none, 0), b], UNSET), breaks_at(1));
                assert_eq!(said(&[set(tag, 0), set(none, 9), b], UNSET), DONE);
            }
            // to another mode, and back
            for mode in 1..=255u8 {
                assert_eq!(said(&[set(tag, mode)], UNSET), DONE);
                assert_eq!(said(&[set(tag, mode), b], UNSET), breaks_at(1));
                assert_eq!(said(&[set(tag, mode), b], [1, 0, 1, 0]), breaks_at(1));
                assert_eq!(said(&[set(tag, 0), b, set(tag, mode), READ, b], UNSET), breaks_at(4));
                assert_eq!(said(&[set(tag, 0), b, set(tag, mode), READ, set(tag, 0), b], UNSET), DONE);
                assert_eq!(said(&[b, set(tag, mode), set(tag, 0), b, set(tag, mode)], [1, 0, 1, 0]), DONE);
                assert_eq!(said(&[set(tag, mode), set(other, 0), b], [1, 0, 1, 0]), breaks_at(2));
                assert_eq!(said(&[set(other, mode), b, through(access, 1)], [1, 0, 1, 0]), DONE);
            }
            // other bytes of kind 6 that a run refuses
            for (byte, value) in [(1, 1), (1, 4), (1, 255), (4, 1), (4, 255), (7, 1), (7, 255)] {
                for mode in [0, 9] {
                    let mut odd = set(tag, mode);
                    odd[byte] = value;
                    let expected = if mode == 0 { DONE } else { breaks_at(1) };
                    assert_eq!(said(&[odd, b], UNSET), expected, "{:?}", odd);
                    assert_eq!(said(&[odd, b], [1, 0, 1, 0]), expected, "{:?}", odd);
                }
            }
            // a flip or a shift there breaks it at its own place
            for byte in [5, 6] {
                let mut odd = set(tag, 0);
                odd[byte] = 16;
                assert_eq!(said(&[READ, odd, b], UNSET), breaks_at(1));
            }
        }
    }
}

/// The place is that of the first one that breaks it.
#[test]
fn the_first_place() {
    let bad: [Instruction; 7] = [
        [4, 1, 0, 0, 0, 0, 0, 0],
        [5, 0, 0, 0, 0, 0, 0, 0],
        [1, 1, 0, 0, 0, 1, 0, 0],
        [1, 1, 0, 0, 0, 0, 16, 0],
        [0, 0, 1, 1, 0, 0, 0, 0],
        [2, 1, 0, 0, 0, 0, 0, 0],
        [0, 0, 2, 0, 0, 0, 0, 0],
    ];
    for (k, first) in bad.into_iter().enumerate() {
        for length in [1, 2, 5, 300, 4096] {
            for place in [0, 1, length / 2, 255, 256, 257, length - 1] {
                if place >= length {
                    continue;
                }
                let mut list = vec![if k % 2 == 0 { READ } else { STORE }; length];
                list[place] = first;
                assert_eq!(said(&list, UNSET), breaks_at(place));
                if place + 1 < length {
                    list[place + 1] = bad[(k + 3) % 7];
                    list[length - 1] = bad[(k + 1) % 7];
                }
                assert_eq!(said(&list, UNSET), breaks_at(place));
            }
        }
    }
    assert_eq!(said(&vec![READ; 4096], UNSET), DONE);
}

/// Any lists and mode registers, of few values so that registers are set, reset and used.
#[test]
fn any_lists() {
    let mut random = Random(33);
    let mut places = std::collections::BTreeMap::new();
    for _ in 0..60_000 {
        let of = |random: &mut Random, values: &[u8]| values[random.below(values.len() as u64) as usize];
        let modes = good_modes(&mut random);
        let modes = [modes[0], modes[1] & 1, modes[2], modes[3] & 1];
        let length = random.below(7) as usize;
        let list: Vec<Instruction> = (0..length)
            .map(|_| {
                let r = &mut random;
                [
                    of(r, &[0, 1, 2, 3, 6, 6, 6, 0, 1, 2, 3, 6, 4]),
                    of(r, &[0, 0, 1, 4, 9]),
                    of(r, &[1, 2, 3, 2, 3, 1, 2, 3, 0, 4]),
                    of(r, &[0, 0, 0, 0, 3]),
                    r.byte(),
                    of(r, &[0; 19]) + (r.below(25) == 0) as u8,
                    if r.below(25) == 0 { 32 } else { 0 },
                    r.byte(),
                ]
            })
            .collect();
        let answer = said(&list, modes);
        assert_eq!(answer, again(&list, modes), "{:?} {:?}", list, modes);
        *places.entry((answer, length)).or_insert(0) += 1;
    }
    for length in 0..7u32 {
        assert!(places[&(DONE, length as usize)] > 300, "{:?}", places);
        for place in 0..length {
            assert!(places[&((40, place), length as usize)] > 100, "{:?}", places);
        }
    }
}

/// The lists of document 01's sums and differences are such lists.
#[test]
fn sums_and_differences_are_isolated() {
    for width in 1..=64u32 {
        let mut list = vec![0; 8 * (2 + 5 * 64)];
        let sum = sum_list(0, 64, 128, width, &mut list);
        assert_eq!(asked(&list[..sum.count as usize], &[0; 100]), DONE);
        let difference = difference_list(192 - width, 64, 192, width, &mut list);
        assert_eq!(difference.number, 0);
        assert_eq!(asked(&list[..difference.count as usize], &[0; 100]), DONE);
    }
}

// ---- the property

/// Word P, bit P of M, X and Y, and the mode registers.
type Station = (Vec<bool>, [bool; 3], Vec<u8>);

fn station(bench: &Bench, p: usize) -> Station {
    station_in(&bench.table(), bench, p)
}

/// The same where the memory's table is at hand.
fn station_in(table: &Table, bench: &Bench, p: usize) -> Station {
    let word = (0..256).map(|bit| table.bit(p, bit)).collect();
    (word, [0, 1, 2].map(|register| bench.row(register)[p]), bench.registers[96..].to_vec())
}

/// The other bench, which agrees with this one on word P, on bit P of M, X and Y and of each of the items taken, and on
/// the mode registers; all else of it stays.
fn made_to_agree(one: &Bench, mut other: Bench, p: usize, taken: usize) -> Bench {
    let (from, mut table) = (one.table(), other.table());
    for bit in 0..256 {
        table.set(p, bit, from.bit(p, bit));
    }
    other.load(&table);
    let agree = |from: &[u8], to: &mut [u8]| {
        let mut row = unpack(to);
        row[p] = unpack(from)[p];
        to.copy_from_slice(&pack(&row));
    };
    for k in 0..3 {
        agree(&one.registers[32 * k..32 * k + 32], &mut other.registers[32 * k..32 * k + 32]);
    }
    for k in 0..taken {
        agree(&one.items[32 * k..32 * k + 32], &mut other.items[32 * k..32 * k + 32]);
    }
    other.registers[96..].copy_from_slice(&one.registers[96..]);
    other
}

/// A list that answers 0 and that a run takes, of instructions drawn and kept where both still hold. Some addresses are
/// few, so that what is stored is read again.
fn drawn(random: &mut Random, length: usize, modes: [u8; 4]) -> Vec<Instruction> {
    let mut list: Vec<Instruction> = vec![];
    let mut set = [modes[0] == 1, modes[2] == 1];
    let mut left = 400 * length;
    while list.len() < length && left > 0 {
        left -= 1;
        let few = random.below(2) == 0;
        let b = [
            random.below(7) as u8,
            random.below(5) as u8,
            random.below(4) as u8,
            if random.below(2) == 0 { 0 } else { random.byte() },
            if few { random.below(3) as u8 } else { random.byte() },
            if random.below(4) == 0 { random.byte() } else { 0 },
            if random.below(4) == 0 { random.byte() } else { 0 },
            if random.below(3) == 0 { 0 } else { random.byte() },
        ];
        // a zero in bytes 2 to 4 where memory is not touched is seldom drawn
        let b = if b[0] < 2 && b[1] > 0 { [b[0], b[1], 0, 0, 0, b[5], b[6], b[7]] } else { b };
        list.push(b);
        if by_the_tables(&b, set) == (0, 0) && said(&list, modes) == DONE {
            if b[0] == 6 {
                set[b[2] as usize - 2] = true;
            }
        } else {
            list.pop();
        }
    }
    assert_eq!(list.len(), length);
    list
}

fn taken(list: &[Instruction]) -> usize {
    list.iter().filter(|b| b[0] < 6 && b[1] == 4).count()
}

/// For many lists and every P: run twice, with all else drawn anew, and compare the station afterwards.
#[test]
fn one_station_cannot_disturb_another() {
    let mut random = Random(34);
    let (mut kinds, mut tags) = (std::collections::BTreeSet::new(), std::collections::BTreeSet::new());
    let (mut moved, mut elsewhere, mut pairs) = (0, 0, 0);
    for round in 0..24 {
        let modes = [[0, 0, 0, 0], [1, 0, 0, 0], [0, 0, 1, 0], [1, 0, 1, 0], [1, 85, 1, 0], [1, 0, 1, 255]][round % 6];
        let list = drawn(&mut random, [1, 2, 3, 6, 12, 25, 50, 100][round / 3], modes);
        assert_eq!(said(&list, modes), DONE);
        for b in &list {
            kinds.insert((b[0], b[1]));
            if b[0] == 2 || b[0] == 3 || b[0] < 2 && b[1] == 0 {
                tags.insert((b[0], b[2]));
            }
        }
        let taken = taken(&list);
        let mut one = Bench::random(&mut random, 32 * taken, 0);
        one.registers[96..].copy_from_slice(&modes);
        let before = one.clone();
        assert_eq!(one.run(&list.concat()), ok(list.len() as u32, taken as u32, 0));
        let (old, new) = (before.table(), one.table());
        for p in 0..256 {
            // the other has other items too, and more of them than are taken
            let fresh = Bench::random(&mut random, 32 * (taken + p % 3), 0);
            let mut other = made_to_agree(&before, fresh, p, taken);
            let at_first = station_in(&old, &before, p);
            assert!(at_first == station(&other, p));
            assert_eq!(other.run(&list.concat()), ok(list.len() as u32, taken as u32, 0));
            let others = other.table();
            let left = station_in(&new, &one, p);
            assert!(left == station_in(&others, &other, p), "{:?} {:?} {}", list, modes, p);
            pairs += 1;
            moved += (left != at_first) as usize;
            elsewhere += (station_in(&new, &one, p ^ 1) != station_in(&others, &other, p ^ 1)) as usize;
        }
    }
    assert_eq!(pairs, 24 * 256);
    // not because nothing happens: stations change, and others differ afterwards
    assert!(moved > pairs / 3 && elsewhere == pairs, "{} {} {}", moved, elsewhere, pairs);
    assert_eq!(kinds.len(), 5 + 5 + 4 + 4 + 1, "{:?}", kinds);
    assert_eq!(tags.len(), 4 * 3, "{:?}", tags);
}

/// Each thing that the two runs must agree on is needed: for each there is such a list where one bit of it decides.
#[test]
fn each_agreement_is_needed() {
    let p = 200;
    let bit = |p: usize| pack(&std::array::from_fn(|line| line == p));
    let differs = |list: &[Instruction], change: &dyn Fn(&mut Bench)| {
        let mut one = Bench::zero();
        one.items = vec![0; 32];
        one.registers[96] = 1;
        assert_eq!(asked(&list.concat(), &one.registers), DONE);
        let mut other = one.clone();
        change(&mut other);
        assert!(one != other);
        assert!(one.run(&list.concat()).number == 0 && other.run(&list.concat()).number == 0);
        station(&one, p) != station(&other, p)
    };
    let copy = [[0, 0, 1, 0, 5, 0, 0, 0x1A], [2, 3, 1, 0, 6, 0, 0, 0]];
    let word = |bench: &mut Bench, of: usize| {
        let mut table = Table::zero();
        table.set(of, 5, true);
        bench.load(&table);
    };
    assert!(differs(&copy, &|bench| word(bench, p)));
    assert!(!differs(&copy, &|bench| word(bench, p - 1)));
    for register in 0..3 {
        let list = [[2, 1 + register, 1, 0, 6, 0, 0, 0], [1, 3, 0, 0, 0, 0, 0, 0], [0, 3, 0, 0, 0, 0, 0, 0x20]];
        let put = |bench: &mut Bench, of: usize| bench.registers[32 * register as usize..][..32].copy_from_slice(&bit(of));
        assert!(differs(&list, &|bench| put(bench, p)), "{}", register);
        assert!(!differs(&list, &|bench| put(bench, p + 1)), "{}", register);
    }
    let take = [[1, 4, 0, 0, 0, 0, 0, 0]];
    assert!(differs(&take, &|bench| bench.items = bit(p).to_vec()));
    assert!(!differs(&take, &|bench| bench.items = bit(p ^ 128).to_vec()));
    // a mode register that no access uses
    assert!(differs(&take, &|bench| bench.registers[97] = 9));
}

/// Two runs from memories of zeros, in one of which one bit of another word is set: afterwards word P differs, and bit P of
/// Y. The list is accepted, and it is said not to be isolated, at this place.
fn disturbs(list: &[Instruction], modes: [u8; 4], place: usize, p: usize, (word, bit): (usize, usize)) {
    assert_eq!(said(list, modes), breaks_at(place), "{:?}", list);
    assert_ne!(word, p);
    let mut one = Bench::zero();
    one.registers[96..].copy_from_slice(&modes);
    let mut other = one.clone();
    let mut table = Table::zero();
    table.set(word, bit, true);
    other.load(&table);
    assert!(station(&one, p) == station(&other, p));
    for bench in [&mut one, &mut other] {
        assert_eq!(bench.run(&list.concat()), ok(list.len() as u32, 0, 0));
    }
    let (one, other) = (station(&one, p), station(&other, p));
    assert!(one.0 != other.0 && one.1 != other.1 && one.2 == other.2, "{:?}", list);
}

/// Y becomes slice 5 and is stored to slice 6.
const COPY: [Instruction; 2] = [[0, 0, 1, 0, 5, 0, 0, 0x1A], [2, 3, 1, 0, 6, 0, 0, 0]];

/// The same two instructions with a flip, a shift or a mode: no longer true.
#[test]
fn lists_for_which_it_is_false() {
    let with = |at: usize, byte: usize, value: u8| {
        let mut list = COPY;
        list[at][byte] = value;
        list
    };
    // flip 1 while it is read: Y's bit 0 is bit 5 of word 1
    disturbs(&with(0, 5, 1), UNSET, 0, 0, (1, 5));
    // 1 mod 256 while it is read: Y's bit 1 is bit 5 of word 0
    disturbs(&with(0, 6, 0x80), UNSET, 0, 1, (0, 5));
    // mode 255: Y is word 5, and bit 3 of it goes to word 3
    disturbs(&with(0, 3, 255), UNSET, 0, 3, (5, 3));
    // the same by a register that is set at the start, or in the list
    let mut list = COPY;
    list[0][2] = 2;
    disturbs(&list, [1, 255, 0, 0], 0, 3, (5, 3));
    disturbs(&[set(2, 255), list[0], list[1]], [1, 0, 0, 0], 1, 3, (5, 3));
    // each flip, and each mode but 0
    for value in 1..=255u8 {
        disturbs(&with(0, 5, value), UNSET, 0, 9, (9 ^ value as usize, 5));
        let (bit, word) = emulator::memory::met(value as usize, 5, 4);
        if word != 4 {
            disturbs(&with(0, 3, value), UNSET, 0, 4, (word, bit));
        }
    }
    // the copy itself is isolated
    assert_eq!(said(&COPY, UNSET), DONE);
}

/// Of random lists with one flip, shift or mode at the start that a run takes, nearly half show it in one pair of runs.
#[test]
fn lists_that_break_it_often_disturb() {
    let mut random = Random(35);
    let mut disturbed = 0;
    for round in 0..120 {
        let mut list = COPY.to_vec();
        list.extend(drawn(&mut random, 4, UNSET));
        let (byte, value) = [(5, 1 + random.below(255) as u8), (6, emulator::network::codes()[1 + random.below(36) as usize]), (3, 1 + random.below(255) as u8)][round % 3];
        list[0][byte] = value;
        assert_eq!(said(&list, UNSET), breaks_at(0));
        let taken = taken(&list);
        let mut one = Bench::random(&mut random, 32 * taken, 0);
        one.registers[96..].fill(0);
        let p = random.below(256) as usize;
        let mut other = made_to_agree(&one, Bench::random(&mut random, 32 * taken, 0), p, taken);
        assert!(one.run(&list.concat()).number == 0 && other.run(&list.concat()).number == 0);
        disturbed += (station(&one, p) != station(&other, p)) as usize;
    }
    println!("{} of 120", disturbed);
    assert!(disturbed > 40, "{}", disturbed);
}
