//! Reading and writing of blocks, and the program.

mod common;
use common::*;
use emulator::blocks::{seal, sums, ITEMS, LIST, PICTURE};
use emulator::memory::Table;
use emulator::program::program;
use emulator::*;

fn put(number: u32, place: u32, bytes: u32) -> Put {
    Put { number, place, bytes }
}

fn written(kind: u32, content: &[u8]) -> Vec<u8> {
    let blocks = if content.is_empty() { 1 } else { (content.len() + 495) / 496 };
    let mut output = vec![0x55; 512 * blocks + 3];
    assert_eq!(write_plain(kind, content, &mut output), put(0, 0, 512 * blocks as u32));
    assert_eq!(output[512 * blocks..], [0x55; 3]);
    output.truncate(512 * blocks);
    output
}

fn read(kind: u32, file: &[u8], length: usize) -> (Put, Vec<u8>) {
    let mut target = vec![0x33; length];
    let answer = read_plain(kind, file, &mut target);
    if answer.number != 0 {
        assert_eq!(answer.bytes, 0);
    }
    assert!(target[answer.bytes as usize..].iter().all(|&b| b == 0x33));
    (answer, target)
}

fn refusal(kind: u32, file: &[u8]) -> (u32, u32) {
    let answer = read(kind, file, 33000).0;
    (answer.number, answer.place)
}

fn seal_all(file: &mut [u8]) {
    file.chunks_mut(512).for_each(seal);
}

#[test]
fn write_then_read_is_identity() {
    let mut random = Random(71);
    for (kind, unit) in [(LIST, 8), (ITEMS, 32)] {
        for length in [0usize, unit, 480, 488, 496, 504, 512, 992, 1024, 8000, 32736, 32768] {
            if length % unit != 0 {
                continue;
            }
            let content = random.bytes(length);
            let file = written(kind, &content);
            let (answer, target) = read(kind, &file, length);
            assert_eq!(answer, put(0, 0, length as u32));
            assert_eq!(target, content);
            read(kind, &file, length + 5);
            if length > 0 {
                assert_eq!(read(kind, &file, length - 1).0, put(26, 0, 0));
            }
            let mut short = vec![1; file.len() - 1];
            assert_eq!(write_plain(kind, &content, &mut short), put(27, 0, 0));
            assert!(short.iter().all(|&b| b == 1));
        }
    }
}

#[test]
fn shape_of_a_block() {
    let file = written(LIST, &[9; 504]);
    assert_eq!(file.len(), 1024);
    assert_eq!(file[..12], [2, 0, 0, 0, 2, 0, 0xF0, 1, 0, 0, 0, 0]);
    assert_eq!(file[512..524], [2, 0, 1, 0, 2, 0, 8, 0, 0, 0, 0, 0]);
    assert_eq!(file[524..532], [9; 8]);
    assert!(file[532..1020].iter().all(|&b| b == 0));
    let s1 = 2 + 1 + 2 + 8 + 72;
    assert_eq!(file[1020..1022], [s1 as u8, 0]);
    let s2: u32 = 2 * 508 + 506 + 2 * 504 + 8 * 502 + (0..8).map(|i| 9 * (508 - 12 - i)).sum::<u32>();
    assert_eq!(file[1022] as u32 + 256 * file[1023] as u32, s2 % 65535);
    let empty = written(ITEMS, &[]);
    assert_eq!(empty[..12], [3, 0, 0, 0, 1, 0, 0, 0, 0, 0, 0, 0]);
}

#[test]
fn writing_refusals() {
    let mut output = vec![7; 35000];
    for kind in [0, 5, 6, 255, 256, 65537, 65538, 65540, u32::MAX] {
        assert_eq!(write_plain(kind, &[1; 3], &mut []), put(22, 0, 0));
        assert_eq!(write_plain(kind, &[0; 32], &mut output), put(22, 0, 0));
        assert_eq!(read(kind, &[], 0).0, put(22, 0, 0));
        assert_eq!(read(kind, &written(LIST, &[0; 32]), 100).0, put(22, 0, 0));
    }
    for (kind, length) in [(LIST, 7), (LIST, 12), (LIST, 32769), (LIST, 32776), (ITEMS, 8), (ITEMS, 31), (ITEMS, 32800)] {
        assert_eq!(write_plain(kind, &vec![0; length], &mut output), put(26, 0, 0));
        assert_eq!(write_plain(kind, &vec![0; length], &mut []), put(26, 0, 0));
    }
    assert_eq!(write_plain(LIST, &[], &mut output[..511]), put(27, 0, 0));
    assert!(output.iter().all(|&b| b == 7));
    for (memory, registers) in [(8191, 96), (8193, 96), (0, 96), (8192, 95), (8192, 97), (8192, 0)] {
        assert_eq!(write_picture(PICTURE, &vec![0; memory], &vec![0; registers], &mut output), put(26, 0, 0));
        assert_eq!(write_picture(PICTURE, &vec![0; memory], &vec![0; registers], &mut []), put(26, 0, 0));
    }
    assert_eq!(write_picture(PICTURE, &[0; 8192], &[0; 96], &mut output[..8703]), put(27, 0, 0));
    assert!(output.iter().all(|&b| b == 7));
    assert_eq!(write_picture(PICTURE, &[0; 8192], &[0; 96], &mut output), put(0, 0, 8704));
    assert!(output[8704..].iter().all(|&b| b == 7));
}

fn picture(random: &mut Random) -> (Vec<u8>, Vec<u8>, Vec<u8>) {
    let (memory, registers) = (random.bytes(8192), random.bytes(96));
    let mut file = vec![0; 8704];
    assert_eq!(write_picture(PICTURE, &memory, &registers, &mut file), put(0, 0, 8704));
    (memory, registers, file)
}

fn read_pic(file: &[u8], memory: usize, registers: usize) -> (Put, Vec<u8>, Vec<u8>) {
    let (mut m, mut r) = (vec![0x44; memory], vec![0x44; registers]);
    let answer = read_picture(PICTURE, file, &mut m, &mut r);
    if answer.number != 0 {
        assert_eq!(answer.bytes, 0);
        assert!(m.iter().chain(r.iter()).all(|&b| b == 0x44));
    }
    (answer, m, r)
}

#[test]
fn pictures() {
    let mut random = Random(73);
    let (memory, registers, file) = picture(&mut random);
    assert_eq!(read_pic(&file, 8192, 96), (put(0, 0, 8288), memory.clone(), registers.clone()));
    for (m, r) in [(8191, 96), (8193, 96), (8200, 100), (0, 0), (8192, 95), (8192, 97), (8288, 0)] {
        assert_eq!(read_pic(&file, m, r).0, put(26, 0, 0));
    }
    // plain words in the file
    let table = Table::from_chips(&memory);
    for word in 0..256usize {
        for bit in 0..256usize {
            let at = 32 * word + bit / 8;
            let byte = file[512 * (at / 496) + 12 + at % 496];
            assert_eq!((byte >> (bit % 8)) & 1 == 1, table.bit(word, bit));
        }
    }
    assert_eq!(file[16 * 512 + 6] as u32 + 256 * file[16 * 512 + 7] as u32, 352);
    assert_eq!(file[16 * 512 + 12 + 256..16 * 512 + 12 + 352], registers[..]);
    assert_eq!(file[16 * 512 + 12 + 352 - 96..16 * 512 + 12 + 352], registers[..]);
    // 16 leading blocks are 23 at 0, 16 consistent ones 25 at 0, 18 consistent ones 25 as well
    assert_eq!(read_pic(&file[..8192], 8192, 96).0, put(23, 0, 0));
    for blocks in [1usize, 16, 18, 67] {
        let mut other = vec![0u8; 512 * blocks];
        for (place, block) in other.chunks_mut(512).enumerate() {
            block[0] = 1;
            block[2] = place as u8;
            block[4] = blocks as u8;
            block[6] = 0xF0;
            block[7] = 1;
        }
        seal_all(&mut other);
        assert_eq!(read_pic(&other, 8192, 96).0, put(25, 0, 0));
    }
    let mut other = file.clone();
    other[16 * 512 + 6] = 44; // 300 used
    other[16 * 512 + 12 + 300..17 * 512 - 4].fill(0);
    seal_all(&mut other);
    assert_eq!(read_pic(&other, 8192, 96).0, put(25, 0, 0));
    assert_eq!(read_pic(&other, 1, 1).0, put(25, 0, 0));
    // each block damaged in turn, each number
    for place in 0..17usize {
        let base = 512 * place;
        let mut bad = file.clone();
        bad[base + 100] ^= 1;
        assert_eq!(read_pic(&bad, 8192, 96).0, put(21, place as u32, 0));
        for (offset, number) in [(0, 22), (1, 22), (2, 23), (3, 23), (4, 23), (5, 23), (7, 24), (8, 24), (9, 24), (10, 24), (11, 24)] {
            let mut bad = file.clone();
            bad[base + offset] ^= 2;
            assert_eq!(read_pic(&bad, 8192, 96).0, put(21, place as u32, 0));
            seal_all(&mut bad);
            assert_eq!(read_pic(&bad, 8192, 96).0, put(number, place as u32, 0));
        }
    }
}

#[test]
fn reading_refusals_by_length() {
    assert_eq!(refusal(LIST, &[]), (20, 0));
    for length in [1, 511, 513, 34303, 34305, 34816] {
        assert_eq!(refusal(LIST, &vec![0; length]), (20, 0));
        assert_eq!(refusal(ITEMS, &vec![0; length]), (20, 0));
        assert_eq!(read_pic(&vec![0; length], 8192, 96).0, put(20, 0, 0));
    }
    // 512 zero bytes have right sums: 22, not 21 (reading D6)
    for length in [512, 34304] {
        assert_eq!(refusal(LIST, &vec![0; length]), (22, 0));
        assert_eq!(read_pic(&vec![0; length], 8192, 96).0, put(22, 0, 0));
    }
}

fn made(kind: u32, blocks: usize, used: u32) -> Vec<u8> {
    let mut file = vec![0u8; 512 * blocks];
    for (place, block) in file.chunks_mut(512).enumerate() {
        let used = if place + 1 == blocks { used } else { 496 };
        block[0] = kind as u8;
        block[2] = place as u8;
        block[4] = blocks as u8;
        block[6] = (used % 256) as u8;
        block[7] = (used / 256) as u8;
    }
    seal_all(&mut file);
    file
}

#[test]
fn reading_refusals_22_to_25() {
    // used
    for used in [497, 512, 65535] {
        assert_eq!(refusal(LIST, &made(LIST, 1, used)), (24, 0));
        assert_eq!(refusal(LIST, &made(LIST, 3, used)), (24, 2));
    }
    assert_eq!(refusal(LIST, &made(LIST, 3, 0)), (24, 2));
    assert_eq!(refusal(LIST, &made(LIST, 1, 0)), (0, 0));
    let mut file = made(LIST, 3, 8);
    file[512 + 6] = 0xEF; // 495 in the middle
    seal_all(&mut file);
    assert_eq!(refusal(LIST, &file), (24, 1));
    // a byte that must be 0
    for at in [20, 21, 300, 507] {
        let mut file = made(LIST, 2, 8);
        file[512 + at] = 1;
        seal_all(&mut file);
        assert_eq!(refusal(LIST, &file), (24, 1));
    }
    let mut file = made(LIST, 2, 8);
    file[512 + 19] = 1;
    seal_all(&mut file);
    assert_eq!(refusal(LIST, &file), (0, 0));
    // sizes
    assert_eq!(refusal(LIST, &made(LIST, 2, 4)), (25, 0));
    assert_eq!(refusal(LIST, &made(LIST, 1, 1)), (25, 0));
    assert_eq!(refusal(ITEMS, &made(ITEMS, 1, 8)), (25, 0));
    assert_eq!(refusal(ITEMS, &made(ITEMS, 2, 16)), (0, 0));
    assert_eq!(refusal(ITEMS, &made(ITEMS, 67, 32)), (0, 0));
    assert_eq!(refusal(ITEMS, &made(ITEMS, 67, 64)), (25, 0));
    assert_eq!(refusal(LIST, &made(LIST, 67, 32)), (0, 0));
    assert_eq!(refusal(LIST, &made(LIST, 67, 40)), (25, 0));
    // 25 before 26
    assert_eq!(read(LIST, &made(LIST, 1, 1), 0).0, put(25, 0, 0));
    assert_eq!(read(LIST, &made(LIST, 1, 8), 7).0, put(26, 0, 0));
    // kinds against each other
    assert_eq!(refusal(LIST, &made(ITEMS, 1, 32)), (22, 0));
    assert_eq!(refusal(ITEMS, &made(LIST, 1, 32)), (22, 0));
    assert_eq!(read_pic(&made(LIST, 17, 352), 8192, 96).0, put(22, 0, 0));
    // all four for block 0 before block 1 (reading D2)
    let mut file = made(LIST, 2, 8);
    file[8] = 1;
    seal_all(&mut file);
    file[600] ^= 1;
    assert_eq!(refusal(LIST, &file), (24, 0));
    // swapped blocks
    let good = made(LIST, 3, 8);
    let mut file = good.clone();
    file[..512].copy_from_slice(&good[512..1024]);
    file[512..1024].copy_from_slice(&good[..512]);
    assert_eq!(refusal(LIST, &file), (23, 0));
    assert_eq!(refusal(LIST, &good[..1024]), (23, 0));
}

#[test]
fn a_stored_65535_never_fits() {
    // bytes that sum to 65,535: the true s1 is 0
    let mut file = made(LIST, 1, 496);
    let header: u32 = file[..12].iter().map(|&b| b as u32).sum();
    let mut left = 65535 - header;
    for at in 12..508 {
        let byte = left.min(255);
        file[at] = byte as u8;
        left -= byte;
    }
    assert_eq!(sums(&file).0, 0);
    seal(&mut file);
    assert_eq!(refusal(LIST, &file), (0, 0));
    file[508] = 255;
    file[509] = 255;
    assert_eq!(refusal(LIST, &file), (21, 0));
}

#[test]
fn single_bytes_and_swaps() {
    let mut random = Random(79);
    let good = written(LIST, &random.bytes(992));
    for at in 0..1024 {
        for _ in 0..6 {
            let mut bad = good.clone();
            bad[at] = random.byte();
            if bad != good {
                assert_eq!(refusal(LIST, &bad), (21, (at / 512) as u32));
            }
        }
    }
    // the hardest steps: 0 against 255
    for at in 0..508 {
        for (one, other) in [(0, 255), (255, 0)] {
            let mut file = good[..512].to_vec();
            file[4] = 1;
            file[at] = one;
            let first = sums(&file);
            file[at] = other;
            // s1 always shows it; s2 does not where the weight is 257, as 257 times 255 is 65,535
            assert!(sums(&file).0 != first.0);
            assert_eq!(sums(&file).1 == first.1, 508 - at == 257);
        }
    }
    // unequal neighbours swapped never pass
    for at in 0..1023 {
        let mut bad = good.clone();
        bad.swap(at, at + 1);
        if bad != good {
            let (number, place) = refusal(LIST, &bad);
            assert_eq!(number, 21);
            assert!(place as usize == at / 512 || place as usize == (at + 1) / 512);
        }
    }
    // bytes 0 and 255 swapped 257 places apart pass both
    for at in 12..(508 - 257) {
        let mut file = good.clone();
        file[at] = 0;
        file[at + 257] = 255;
        seal_all(&mut file);
        let before = file.clone();
        file.swap(at, at + 257);
        assert_ne!(file, before);
        assert_eq!(refusal(LIST, &file), (0, 0));
    }
}

#[test]
fn the_program() {
    let mut zero_picture = vec![0; 8704];
    assert_eq!(write_picture(PICTURE, &[0; 8192], &[0; 96], &mut zero_picture).number, 0);
    let list = written(LIST, &[0, 2, 0, 0, 0, 0, 0, 0x1F, 5, 0, 0, 0, 0, 0, 0, 0]);
    let items = written(ITEMS, &[]);
    // document 01's printed item line as document 02's Four makes it: 0100000001, then zeros
    let item = "0100000001".to_string() + &"0".repeat(54);
    assert_eq!(item.len(), 64);
    let expected = format!("r 0 0 0 2 0 1\n{}\n", item);
    let (text, after) = program(Some(&zero_picture), Some(&list), Some(&items));
    assert_eq!(text, expected);
    let (answer, memory, registers) = read_pic(&after.unwrap(), 8192, 96);
    assert_eq!(answer, put(0, 0, 8288));
    assert!(memory.iter().all(|&b| b == 0));
    assert!(registers[..64].iter().all(|&b| b == 0) && registers[64..].iter().all(|&b| b == 255));
    assert_eq!(program(Some(&zero_picture), Some(&list), None).0, expected);
    // with nothing set in Y: none
    let resolve = written(LIST, &[5, 0, 0, 0, 0, 0, 0, 0]);
    let expected = format!("r 0 0 0 1 0 1\n{}{}\n", "0000010000", "0".repeat(54));
    assert_eq!(program(Some(&zero_picture), Some(&resolve), None), (expected, Some(zero_picture.clone())));
    // absent list: the empty list, the same picture
    let (_, _, pic) = picture(&mut Random(81));
    assert_eq!(program(Some(&pic), None, None), ("r 0 0 0 0 0 0\n".to_string(), Some(pic.clone())));
    // refusals; the byte after the place is 0 where there is no instruction
    let none = |text: &str| (text.to_string(), None);
    assert_eq!(program(None, None, None), none("p 20 0 0 0 0 0\n"));
    assert_eq!(program(Some(&[]), None, None), none("p 20 0 0 0 0 0\n"));
    assert_eq!(program(Some(&vec![0; 18 * 512]), None, None), none("p 20 0 0 0 0 0\n"));
    assert_eq!(program(Some(&pic[..512]), None, None), none("p 23 0 0 0 0 0\n"));
    assert_eq!(program(Some(&made(PICTURE, 16, 496)), None, None), none("p 25 0 0 0 0 0\n"));
    assert_eq!(program(Some(&pic), Some(&[]), None), none("l 20 0 0 0 0 0\n"));
    assert_eq!(program(Some(&pic), None, Some(&[])), none("i 20 0 0 0 0 0\n"));
    assert_eq!(program(Some(&pic), Some(&made(LIST, 17, 8)), Some(&[])), none("l 20 0 0 0 0 0\n"));
    assert_eq!(program(Some(&pic), None, Some(&made(ITEMS, 17, 32))), none("i 20 0 0 0 0 0\n"));
    let mut bad = pic.clone();
    bad[512 * 7 + 40] ^= 128;
    assert_eq!(program(Some(&bad), Some(&[]), Some(&[])), none("p 21 7 0 0 0 0\n"));
    let wrong = written(LIST, &[[0, 2, 0, 0, 0, 0, 0, 0], [7; 8]].concat());
    assert_eq!(program(Some(&pic), Some(&wrong), Some(&[])), none("i 20 0 0 0 0 0\n"));
    assert_eq!(program(Some(&pic), Some(&wrong), None), none("r 5 1 0 0 0 0\n"));
    // the byte of an instruction, also behind others; 0 again for 12
    let refused = |instruction: [u8; 8]| {
        let list = written(LIST, &[[0, 2, 0, 0, 0, 0, 0, 0], [0, 2, 0, 0, 0, 0, 0, 0], instruction].concat());
        program(Some(&pic), Some(&list), None)
    };
    assert_eq!(refused([0, 5, 0, 0, 0, 0, 0, 0]), none("r 6 2 1 0 0 0\n"));
    assert_eq!(refused([2, 3, 0, 255, 0, 0, 0, 0]), none("r 7 2 2 0 0 0\n"));
    assert_eq!(refused([0, 1, 0, 3, 9, 0, 0, 0]), none("r 9 2 3 0 0 0\n"));
    assert_eq!(refused([5, 0, 0, 0, 0, 8, 0x90, 0]), none("r 18 2 5 0 0 0\n"));
    assert_eq!(refused([2, 1, 1, 0, 0, 8, 0x90, 0]), none("r 18 2 6 0 0 0\n"));
    assert_eq!(refused([0, 1, 0, 0, 0, 0, 0x9F, 0]), none("r 16 2 6 0 0 0\n"));
    assert_eq!(refused([0, 1, 0, 0, 0, 0, 136, 0]), none("r 17 2 6 0 0 0\n"));
    assert_eq!(refused([1, 1, 0, 0, 0, 0, 0, 1]), none("r 11 2 7 0 0 0\n"));
    assert_eq!(refused([1, 4, 0, 0, 0, 0, 0, 0]), none("r 12 2 0 0 0 0\n"));
    // both mode registers are unset at the start of a kind 1 picture; those of kind 4 are in pictures.rs
    assert_eq!(refused([2, 1, 2, 0, 0, 0, 0, 0]), none("r 14 2 2 0 0 0\n"));
    assert_eq!(refused([4, 0, 3, 0, 0, 0, 0, 0]), none("r 14 2 2 0 0 0\n"));
    let by_a = |tag: u8, mode: u8| {
        let list = [[6, 0, 2, 170, 0, 0, 0, 0], [6, 0, 3, 85, 0, 0, 0, 0], [2, 2, tag, mode, 9, 0, 0, 0], [4, 0, tag, mode, 9, 3, 0, 0]];
        program(Some(&pic), Some(&written(LIST, &list.concat())), None)
    };
    assert!(by_a(2, 0) == by_a(1, 170) && by_a(3, 0) == by_a(1, 85) && by_a(2, 0) != by_a(3, 0));
    // 256 items fit the out buffer, 257 do not
    let fits = written(LIST, &[5, 0, 0, 0, 0, 0, 0, 0].repeat(256));
    assert_eq!(program(Some(&pic), Some(&fits), None).0.lines().count(), 257);
    let too_many = written(LIST, &[5, 0, 0, 0, 0, 0, 0, 0].repeat(257));
    assert_eq!(program(Some(&pic), Some(&too_many), None), none("r 13 256 0 0 0 0\n"));
}
