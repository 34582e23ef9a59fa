//! Pictures with mode registers (document 02, Eight): both kinds of pictures read and written, 15 and its place, old made
//! new and new made old, the order of two refusals, kinds asked of the other entries, and the program.

mod common;
use common::*;
use emulator::blocks::{seal, ITEMS, LIST, MODED, PICTURE};
use emulator::memory::Table;
use emulator::program::program;
use emulator::*;

const BLOCKS: usize = 8704;
/// Where the mode registers stand in the file.
const FLAGS: usize = 512 * 16 + 12 + 352;
const UNSET: [u8; 4] = [0; 4];
/// The kinds of pictures, with the bytes of their registers, of their content and of their last block.
const BOTH: [(u32, usize, u32, u16); 2] = [(PICTURE, 96, 8288, 352), (MODED, 100, 8292, 356)];
const BAD: [[u8; 4]; 10] = [
    [2, 0, 0, 0],
    [0, 0, 2, 0],
    [0, 1, 0, 0],
    [0, 0, 0, 1],
    [255, 9, 1, 9],
    [1, 9, 128, 0],
    [0, 255, 1, 0],
    [1, 0, 0, 128],
    [2, 2, 2, 2],
    [0, 7, 0, 7],
];

fn put(number: u32, place: u32, bytes: u32) -> Put {
    Put { number, place, bytes }
}

fn refused(number: u32) -> Put {
    put(number, 0, 0)
}

/// Reads, and sees that a refusal changes nothing.
fn read(kind: u32, file: &[u8], memory: usize, registers: usize) -> (Put, Vec<u8>, Vec<u8>) {
    let (mut m, mut r) = (vec![0x44; memory], vec![0x44; registers]);
    let answer = read_picture(kind, file, &mut m, &mut r);
    if answer.number != 0 {
        assert_eq!(answer.bytes, 0);
        assert!(m.iter().chain(r.iter()).all(|&b| b == 0x44));
    }
    (answer, m, r)
}

/// Writes or converts into so many bytes, and sees that a refusal changes nothing, and nothing behind the blocks ever.
fn into(length: usize, write: impl Fn(&mut [u8]) -> Put) -> (Put, Vec<u8>) {
    let mut output = vec![0x55; length];
    let answer = write(&mut output);
    let end = if answer.number == 0 { BLOCKS } else { 0 };
    assert_eq!(answer.bytes as usize, end);
    assert!(output[end..].iter().all(|&b| b == 0x55));
    output.truncate(end);
    (answer, output)
}

fn to_new(file: &[u8], length: usize) -> (Put, Vec<u8>) {
    into(length, |output| old_to_new(file, output))
}

fn to_old(file: &[u8], length: usize) -> (Put, Vec<u8>) {
    into(length, |output| new_to_old(file, output))
}

/// A picture of any content: memory, registers, and its blocks.
fn picture(random: &mut Random, kind: u32, modes: [u8; 4]) -> (Vec<u8>, Vec<u8>, Vec<u8>) {
    let (memory, mut registers) = (random.bytes(8192), random.bytes(96));
    if kind == MODED {
        registers.extend(modes);
    }
    let (answer, file) = into(BLOCKS + 9, |output| write_picture(kind, &memory, &registers, output));
    assert_eq!(answer, put(0, 0, 8704));
    (memory, registers, file)
}

/// Blocks of zeros, the last of which uses so many.
fn made(kind: u32, blocks: usize, used: u16) -> Vec<u8> {
    let mut file = vec![0u8; 512 * blocks];
    for (place, block) in file.chunks_mut(512).enumerate() {
        let used = if place + 1 == blocks { used } else { 496 };
        block[..2].copy_from_slice(&(kind as u16).to_le_bytes());
        block[2] = place as u8;
        block[4] = blocks as u8;
        block[6..8].copy_from_slice(&used.to_le_bytes());
        seal(block);
    }
    file
}

fn with_modes(file: &[u8], modes: [u8; 4]) -> Vec<u8> {
    let mut other = file.to_vec();
    other[FLAGS..FLAGS + 4].copy_from_slice(&modes);
    seal(&mut other[512 * 16..]);
    other
}

/// The file with one block damaged, once for each number from 21 to 24.
fn damaged(file: &[u8], place: usize) -> [(u32, Vec<u8>); 4] {
    let with = |offset: usize, sealed: bool| {
        let mut other = file.to_vec();
        other[512 * place + offset] ^= 2;
        if sealed {
            seal(&mut other[512 * place..512 * place + 512]);
        }
        other
    };
    [(21, with(100, false)), (22, with(place % 2, true)), (23, with(2 + place % 4, true)), (24, with(8 + place % 4, true))]
}

#[test]
fn write_then_read_is_identity() {
    let mut random = Random(91);
    for (kind, registers, size, used) in BOTH {
        for modes in [UNSET, [1, 0, 0, 0], [0, 0, 1, 0], [1, 255, 0, 0], [0, 0, 1, 255], [1, 7, 1, 200], [1, 0, 1, 0]] {
            let (memory, held, file) = picture(&mut random, kind, modes);
            assert_eq!(read(kind, &file, 8192, registers), (put(0, 0, size), memory.clone(), held.clone()));
            // every block, byte by byte
            let content = [Table::from_chips(&memory).to_words(), held].concat();
            assert_eq!(content.len() as u32, size);
            for (place, part) in content.chunks(496).enumerate() {
                let block = &file[512 * place..512 * place + 512];
                let [low, high] = if place < 16 { [0xF0, 1] } else { used.to_le_bytes() };
                assert_eq!(block[..12], [kind as u8, 0, place as u8, 0, 17, 0, low, high, 0, 0, 0, 0]);
                assert_eq!(block[12..12 + part.len()], *part);
                assert!(block[12 + part.len()..508].iter().all(|&b| b == 0));
                let mut sealed = block.to_vec();
                seal(&mut sealed);
                assert_eq!(sealed, block);
            }
            if kind == MODED {
                assert_eq!(file[FLAGS..FLAGS + 4], modes);
            }
        }
    }
}

#[test]
fn lengths_of_targets() {
    let mut random = Random(92);
    for (kind, right, size, _) in BOTH {
        let (memory, registers, file) = picture(&mut random, kind, [1, 3, 0, 0]);
        for length in 0..=110 {
            let expected = if length == right { put(0, 0, size) } else { refused(26) };
            assert_eq!(read(kind, &file, 8192, length).0, expected, "{} {}", kind, length);
            let mut held = registers.clone();
            held.resize(length, 0);
            let expected = if length == right { put(0, 0, 8704) } else { refused(26) };
            assert_eq!(into(9000, |output| write_picture(kind, &memory, &held, output)).0, expected);
        }
        for length in [0, 8191, 8193, 8196, 8288] {
            assert_eq!(read(kind, &file, length, right).0, refused(26));
            assert_eq!(into(9000, |output| write_picture(kind, &vec![0; length], &registers, output)).0, refused(26));
        }
    }
}

#[test]
fn kinds_asked() {
    let mut random = Random(93);
    let (memory, registers, file) = picture(&mut random, MODED, UNSET);
    for kind in [0, 5, 6, 255, 256, 257, 260, 65535, 65536, 65537, 65540, 1 << 31, (1 << 31) + 4, u32::MAX] {
        for file in [&file[..], &file[..100], &[]] {
            assert_eq!(read(kind, file, 8192, 100).0, refused(22));
            assert_eq!(read(kind, file, 3, 3).0, refused(22));
            assert_eq!(read_plain(kind, file, &mut [0; 9000]), refused(22));
        }
        assert_eq!(into(9000, |output| write_picture(kind, &memory, &registers, output)).0, refused(22));
        assert_eq!(into(0, |output| write_picture(kind, &memory[..9], &[2; 100], output)).0, refused(22));
        assert_eq!(into(9000, |output| write_plain(kind, &[], output)).0, refused(22));
    }
    // lists and items asked of the entries for pictures: judged as their kind, then 26 (reading D12)
    for kind in [LIST, ITEMS] {
        let good = made(kind, 17, 352);
        for registers in [96, 100] {
            assert_eq!(read(kind, &good, 8192, registers).0, refused(26));
            assert_eq!(into(9000, |output| write_picture(kind, &memory, &vec![0; registers], output)).0, refused(26));
            assert_eq!(into(0, |output| write_picture(kind, &memory, &vec![2; registers], output)).0, refused(26));
        }
        assert_eq!(read(kind, &made(kind, 1, 0), 0, 0).0, refused(26));
        assert_eq!(read(kind, &made(kind, 17, 356), 8192, 100).0, refused(25));
        assert_eq!(read(kind, &made(MODED, 17, 356), 8192, 100).0, refused(22));
        assert_eq!(read(kind, &good[..8703], 8192, 96).0, refused(20));
        for (number, bad) in damaged(&good, 7) {
            assert_eq!(read(kind, &bad, 8192, 96).0, put(number, 7, 0));
        }
    }
    // and pictures asked of the entries for lists and items, whatever is lent
    for (kind, _, size, used) in BOTH {
        let (_, _, good) = picture(&mut random, kind, [1, 1, 0, 0]);
        for length in [0, size as usize, 33000] {
            let mut target = vec![7; length];
            assert_eq!(read_plain(kind, &good, &mut target), refused(26));
            assert!(target.iter().all(|&b| b == 7));
            assert_eq!(into(9000, |output| write_plain(kind, &vec![0; length], output)).0, refused(26));
            assert_eq!(into(0, |output| write_plain(kind, &vec![0; length], output)).0, refused(26));
        }
        assert_eq!(read_plain(kind, &with_modes(&made(kind, 17, used), UNSET), &mut []), refused(26));
        assert_eq!(read_plain(kind, &made(PICTURE + MODED - kind, 17, used), &mut [0; 9000]), refused(22));
        assert_eq!(read_plain(kind, &made(kind, 17, used - 1), &mut [0; 9000]), refused(25));
        assert_eq!(read_plain(kind, &made(kind, 1, 8), &mut [0; 9000]), refused(25));
        assert_eq!(read_plain(kind, &good[1..], &mut [0; 9000]), refused(20));
        for (number, bad) in damaged(&good, 13) {
            assert_eq!(read_plain(kind, &bad, &mut []), put(number, 13, 0));
        }
    }
    // bad flags are no matter there: 26 comes before 15
    assert_eq!(read_plain(MODED, &with_modes(&file, BAD[0]), &mut [0; 9000]), refused(26));
}

/// All four entries that read: what a file of another length, a damaged block and another size are refused with.
#[test]
fn files_that_are_no_pictures() {
    let mut random = Random(94);
    for (kind, registers, size, used) in BOTH {
        let (_, _, file) = picture(&mut random, kind, UNSET);
        let convert = if kind == PICTURE { to_new } else { to_old };
        let both = |file: &[u8], number: u32, place: u32| {
            assert_eq!(read(kind, file, 8192, registers).0, put(number, place, 0));
            // before 26 and 27
            assert_eq!(read(kind, file, 1, 1).0, put(number, place, 0));
            for length in [0, 8703, 8704, 9000] {
                assert_eq!(convert(file, length).0, put(number, place, 0));
            }
        };
        both(&[], 20, 0);
        for length in [1, 2, 511, 513, 8191, 8703] {
            both(&file[..length], 20, 0);
        }
        both(&[&file[..], &[0]].concat(), 20, 0);
        for length in [34305, 34816, 40000] {
            both(&vec![0; length], 20, 0);
        }
        both(&file[..8192], 23, 0);
        both(&[&file[..], &file[..512]].concat(), 23, 0);
        for blocks in [1, 2, 16, 18, 67] {
            both(&made(kind, blocks, used), 25, 0);
        }
        for other in [1, 96, 348, 351, 352, 353, 355, 356, 357, 360, 496] {
            if other != used {
                both(&made(kind, 17, other), 25, 0);
            }
        }
        for other in [0, 497, 65535] {
            both(&made(kind, 17, other), 24, 16);
        }
        for place in 0..17 {
            for (number, bad) in damaged(&file, place) {
                both(&bad, number, place as u32);
            }
            // the other kind of picture, in this block or in all but this
            let other = (PICTURE + MODED - kind) as u8;
            let mut mixed = file.clone();
            mixed[512 * place] = other;
            mixed.chunks_mut(512).for_each(seal);
            both(&mixed, 22, place as u32);
            mixed.chunks_mut(512).for_each(|block| block[0] = other);
            mixed[512 * place] = kind as u8;
            mixed.chunks_mut(512).for_each(seal);
            both(&mixed, 22, if place == 0 { 1 } else { 0 });
        }
        // payload behind what is used
        for at in [used as usize, used as usize + 1, 495] {
            let mut bad = file.clone();
            bad[512 * 16 + 12 + at] = 1;
            seal(&mut bad[512 * 16..]);
            both(&bad, 24, 16);
        }
        assert_eq!(read(kind, &made(kind, 17, used), 8192, registers).0, put(0, 0, size));
        assert_eq!(read(PICTURE + MODED - kind, &file, 8192, 196 - registers).0, refused(22));
    }
}

#[test]
fn each_flag_and_mode_of_15() {
    let (memory, mut registers, file) = picture(&mut Random(95), MODED, UNSET);
    for which in 0..2 {
        for flag in 0..=255u8 {
            for mode in 0..=255u8 {
                let stands = flag == 1 || (flag == 0 && mode == 0);
                if mode % 51 != 0 && flag % 51 > 2 || stands && mode % 15 != 0 || !stands && flag > 3 && mode > 3 {
                    continue;
                }
                for other in [[0, 0], [1, 200]] {
                    let mut modes = [other[0], other[1], other[0], other[1]];
                    modes[2 * which..2 * which + 2].copy_from_slice(&[flag, mode]);
                    let (answer, _, held) = read(MODED, &with_modes(&file, modes), 8192, 100);
                    assert_eq!(answer, if stands { put(0, 0, 8292) } else { refused(15) }, "{:?}", modes);
                    assert!(!stands || held[96..] == modes);
                    registers[96..].copy_from_slice(&modes);
                    let (answer, output) = into(8704, |output| write_picture(MODED, &memory, &registers, output));
                    assert_eq!(answer, if stands { put(0, 0, 8704) } else { refused(15) }, "{:?}", modes);
                    assert!(!stands || output == with_modes(&file, modes));
                    let set = flag == 1 || other[0] == 1;
                    let expected = if !stands { refused(15) } else if set { refused(28) } else { put(0, 0, 8704) };
                    assert_eq!(to_old(&with_modes(&file, modes), 8704).0, expected, "{:?}", modes);
                }
            }
        }
    }
}

/// Each pair of refusals that can meet: the earlier one is given.
#[test]
fn order() {
    let (memory, _, file) = picture(&mut Random(96), MODED, UNSET);
    for modes in BAD {
        let bad = with_modes(&file, modes);
        assert_eq!(read(MODED, &bad, 8192, 100).0, refused(15));
        // 26 before 15
        for (m, r) in [(8192, 96), (8192, 99), (8192, 104), (8191, 100), (0, 0)] {
            assert_eq!(read(MODED, &bad, m, r).0, refused(26));
        }
        // 22, 20, 21 to 24 and 25 before 15, 28 and 27
        assert_eq!(read(5, &bad, 8192, 100).0, refused(22));
        for other in [&bad, &with_modes(&file, [1, 1, 0, 0])] {
            for length in [0, 8703, 8704] {
                assert_eq!(to_old(&[&other[..], &[0]].concat(), length).0, refused(20));
                assert_eq!(read(MODED, &[&other[..], &[0]].concat(), 8192, 100).0, refused(20));
                for place in [0, 5, 16] {
                    for (number, worse) in damaged(other, place) {
                        assert_eq!(to_old(&worse, length).0, put(number, place as u32, 0));
                        assert_eq!(read(MODED, &worse, 8192, 100).0, put(number, place as u32, 0));
                    }
                }
                let mut unfit = other.to_vec();
                unfit[512 * 16 + 6] += 1;
                seal(&mut unfit[512 * 16..]);
                assert_eq!(to_old(&unfit, length).0, refused(25));
                assert_eq!(read(MODED, &unfit, 8192, 100).0, refused(25));
            }
        }
        // 15 before 27 and 28
        for length in [0, 8703, 8704] {
            assert_eq!(to_old(&bad, length).0, refused(15));
        }
        // in writing 22, 26, 15, 27
        let registers = [vec![7; 96], modes.to_vec()].concat();
        for length in [0, 8703, 8704] {
            assert_eq!(into(length, |output| write_picture(MODED, &memory, &registers, output)).0, refused(15));
            assert_eq!(into(length, |output| write_picture(MODED, &memory[1..], &registers, output)).0, refused(26));
            assert_eq!(into(length, |output| write_picture(PICTURE, &memory, &registers, output)).0, refused(26));
            assert_eq!(into(length, |output| write_picture(260, &memory[1..], &registers, output)).0, refused(22));
        }
    }
    // one bad, the other set: 15 before 28
    for modes in [[1, 5, 2, 0], [2, 0, 1, 5], [1, 0, 0, 1], [0, 255, 1, 0]] {
        for length in [0, 8703, 8704] {
            assert_eq!(to_old(&with_modes(&file, modes), length).0, refused(15));
        }
    }
    // 28 before 27, then 27
    for length in [0, 512, 8192, 8703] {
        for modes in [[1, 0, 0, 0], [0, 0, 1, 0], [1, 255, 0, 0], [0, 0, 1, 7], [1, 1, 1, 1]] {
            assert_eq!(to_old(&with_modes(&file, modes), length).0, refused(28));
        }
        assert_eq!(to_old(&file, length).0, refused(27));
        assert_eq!(to_new(&picture(&mut Random(97), PICTURE, UNSET).2, length).0, refused(27));
        assert_eq!(into(length, |output| write_picture(MODED, &memory, &[0; 100], output)).0, refused(27));
    }
}

/// Either way and back gives the same bytes, where allowed; and between them stands the same picture.
#[test]
fn old_to_new_and_back() {
    let mut random = Random(98);
    for round in 0..6 {
        let (memory, registers, old) = picture(&mut random, PICTURE, UNSET);
        let (answer, new) = to_new(&old, 8704 + 100 * round);
        assert_eq!(answer, put(0, 0, 8704));
        let longer = [registers.clone(), UNSET.to_vec()].concat();
        assert_eq!(read(MODED, &new, 8192, 100), (put(0, 0, 8292), memory.clone(), longer.clone()));
        assert_eq!(into(8704, |output| write_picture(MODED, &memory, &longer, output)).1, new);
        assert_eq!(to_old(&new, 8704 + 33 * round), (put(0, 0, 8704), old.clone()));
        // and the other way round
        let (_, _, new) = picture(&mut random, MODED, UNSET);
        let (answer, old) = to_old(&new, 8704);
        assert_eq!(answer, put(0, 0, 8704));
        assert_eq!(to_new(&old, 9999), (put(0, 0, 8704), new.clone()));
        // each in the place of the other
        assert_eq!(to_new(&new, 9000).0, refused(22));
        assert_eq!(to_old(&old, 9000).0, refused(22));
        for modes in [[1, 0, 0, 0], [0, 0, 1, 0], [1, 9, 1, 9]] {
            assert_eq!(to_old(&with_modes(&new, modes), 9000).0, refused(28));
        }
    }
    assert_eq!(to_new(&made(PICTURE, 17, 352), 8704).1, made(MODED, 17, 356));
    assert_eq!(to_old(&made(MODED, 17, 356), 8704).1, made(PICTURE, 17, 352));
}

// ---- the program

fn list(instructions: &[[u8; 8]]) -> Vec<u8> {
    let mut file = vec![0; 512];
    assert_eq!(write_plain(LIST, &instructions.concat(), &mut file).number, 0);
    file
}

const SET_A: [u8; 8] = [6, 0, 2, 255, 0, 0, 0, 0];
const SET_B: [u8; 8] = [6, 0, 3, 0, 0, 0, 0, 0];
const BY_A: [u8; 8] = [2, 1, 2, 0, 9, 0, 0, 0];
const BY_B: [u8; 8] = [4, 0, 3, 0, 9, 0, 0, 0];

fn done(text: &str, after: &[u8]) -> (String, Option<Vec<u8>>) {
    (text.to_string(), Some(after.to_vec()))
}

fn none(text: &str) -> (String, Option<Vec<u8>>) {
    (text.to_string(), None)
}

#[test]
fn the_program_writes_the_kind_it_took() {
    let mut random = Random(99);
    let (_, _, old) = picture(&mut random, PICTURE, UNSET);
    assert_eq!(program(Some(&old), None, None), done("r 0 0 0 0 0 0\n", &old));
    for modes in [UNSET, [1, 0, 0, 0], [0, 0, 1, 0], [1, 255, 0, 0], [1, 7, 1, 200]] {
        let (_, _, new) = picture(&mut random, MODED, modes);
        assert_eq!(program(Some(&new), None, None), done("r 0 0 0 0 0 0\n", &new));
    }
}

#[test]
fn the_program_writes_kind_4_if_a_register_is_set() {
    let mut random = Random(100);
    let (_, _, old) = picture(&mut random, PICTURE, UNSET);
    let (_, new) = to_new(&old, 8704);
    for (sets, modes) in [(vec![SET_A], [1, 255, 0, 0]), (vec![SET_B], [0, 0, 1, 0]), (vec![SET_B, SET_A], [1, 255, 1, 0])] {
        let text = format!("r 0 0 0 {} 0 0\n", sets.len());
        assert_eq!(program(Some(&old), Some(&list(&sets)), None), done(&text, &with_modes(&new, modes)));
        // from kind 4 the same, and what was set stays
        assert_eq!(program(Some(&new), Some(&list(&sets)), None), done(&text, &with_modes(&new, modes)));
        let both = with_modes(&new, [1, 3, 1, 4]);
        let expected = [1, if modes[0] == 1 { 255 } else { 3 }, 1, if modes[2] == 1 { 0 } else { 4 }];
        assert_eq!(program(Some(&both), Some(&list(&sets)), None), done(&text, &with_modes(&new, expected)));
    }
    // a list that sets nothing leaves kind 1; a refused one writes nothing
    let nothing = [0, 2, 0, 0, 0, 0, 0, 0x0C];
    assert_eq!(program(Some(&old), Some(&list(&[nothing])), None), done("r 0 0 0 1 0 0\n", &old));
    assert_eq!(program(Some(&old), Some(&list(&[SET_A, [7; 8]])), None), none("r 5 1 0 0 0 0\n"));
}

#[test]
fn the_program_starts_from_the_pictures_registers() {
    let mut random = Random(101);
    let (memory, registers, new) = picture(&mut random, MODED, [1, 170, 0, 0]);
    let old = to_old(&with_modes(&new, UNSET), 8704).1;
    // A is set, B is not
    let (text, after) = program(Some(&new), Some(&list(&[BY_A])), None);
    assert_eq!(text, "r 0 0 0 1 0 0\n");
    let mut bench = Bench { memory, registers, items: vec![], out: vec![] };
    assert_eq!(bench.run(&BY_A).number, 0);
    assert_eq!(read(MODED, &after.unwrap(), 8192, 100), (put(0, 0, 8292), bench.memory, bench.registers));
    assert_eq!(program(Some(&new), Some(&list(&[BY_A, BY_B])), None), none("r 14 1 2 0 0 0\n"));
    // B is set, A is not
    let other = with_modes(&new, [0, 0, 1, 85]);
    assert_eq!(program(Some(&other), Some(&list(&[BY_A])), None), none("r 14 0 2 0 0 0\n"));
    let given = program(Some(&other), Some(&list(&[[4, 0, 1, 85, 9, 0, 0, 0]])), None);
    assert_eq!(program(Some(&other), Some(&list(&[BY_B])), None), given);
    assert_eq!(given.1.unwrap(), other);
    // kind 1 starts with both unset, and so does kind 4 with both unset
    for file in [&old, &with_modes(&new, UNSET)] {
        assert_eq!(program(Some(file), Some(&list(&[BY_A])), None), none("r 14 0 2 0 0 0\n"));
        assert_eq!(program(Some(file), Some(&list(&[BY_B])), None), none("r 14 0 2 0 0 0\n"));
    }
}

#[test]
fn the_program_takes_the_kind_by_the_first_two_bytes() {
    let mut random = Random(102);
    let (_, _, old) = picture(&mut random, PICTURE, UNSET);
    let (_, _, new) = picture(&mut random, MODED, [1, 1, 1, 1]);
    let line = |number: u32, place: u32| none(&format!("p {} {} 0 0 0 0\n", number, place));
    for modes in BAD {
        assert_eq!(program(Some(&with_modes(&new, modes)), None, None), line(15, 0));
        // before the list and the items
        assert_eq!(program(Some(&with_modes(&new, modes)), Some(&[]), Some(&[])), line(15, 0));
    }
    // as they stand: the sums are wrong then, or the kind of a later block
    let with = |file: &[u8], first: [u8; 2], sealed: bool| {
        let mut other = file.to_vec();
        other[..2].copy_from_slice(&first);
        if sealed {
            seal(&mut other[..512]);
        }
        program(Some(&other), None, None)
    };
    for first in [[0, 0], [1, 0], [4, 1], [5, 0], [0, 4], [1, 4], [2, 0]] {
        assert_eq!(with(&new, first, false), line(21, 0));
        // taken as kind 1
        assert_eq!(with(&new, first, true), if first == [1, 0] { line(22, 1) } else { line(22, 0) });
    }
    assert_eq!(with(&old, [4, 0], false), line(21, 0));
    assert_eq!(with(&old, [4, 0], true), line(22, 1));
    assert_eq!(with(&old, [4, 1], true), line(22, 0));
    // files that are too short to have two bytes, or too long
    for short in [&[][..], &[4], &[1], &[4, 0], &[4, 0, 0], &new[..511], &new[..8703]] {
        assert_eq!(program(Some(short), None, None), line(20, 0));
    }
    assert_eq!(program(Some(&[&new[..], &[0; 512]].concat()), None, None), line(20, 0));
    assert_eq!(program(None, None, None), line(20, 0));
    // blocks of kind 4
    assert_eq!(program(Some(&new[..8192]), None, None), line(23, 0));
    assert_eq!(program(Some(&made(MODED, 16, 496)), None, None), line(25, 0));
    assert_eq!(program(Some(&made(MODED, 17, 352)), None, None), line(25, 0));
    assert_eq!(program(Some(&made(PICTURE, 17, 356)), None, None), line(25, 0));
    assert_eq!(program(Some(&made(MODED, 17, 356)), None, None), done("r 0 0 0 0 0 0\n", &made(MODED, 17, 356)));
    for place in 0..17 {
        for (number, bad) in damaged(&new, place) {
            if place > 0 || number != 22 {
                assert_eq!(program(Some(&bad), None, None), line(number, place as u32));
            }
        }
    }
    // 21 to 24 and 25 come before 15
    let bad = with_modes(&new, BAD[0]);
    for (number, worse) in damaged(&bad, 16) {
        assert_eq!(program(Some(&worse), None, None), line(number, 16));
    }
}
