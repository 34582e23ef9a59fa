//! Runs and steps: the examples, every refusal with its place, logic, stores, deliveries and resolves.

mod common;
use common::*;
use emulator::bits::{pack, unpack};
use emulator::memory::met;
use emulator::network::codes;
use emulator::*;

const NOTHING: [u8; 8] = [0, 2, 0, 0, 0, 0, 0, 0x0C]; // X becomes X: function 12 keeps r

fn list(instructions: &[[u8; 8]]) -> Vec<u8> {
    instructions.concat()
}

#[test]
fn example_store_lands_at_bit_43_of_word_85() {
    for (mode, address, line, bit, word) in [(7u8, 45u8, 83usize, 43, 85), (0, 13, 200, 13, 200), (255, 13, 200, 200, 13)] {
        let mut bench = Bench::zero();
        bench.registers[64 + line / 8] = 1 << (line % 8);
        let answer = bench.run(&[2, 3, 1, mode, address, 0, 0, 0]);
        assert_eq!(answer, ok(1, 0, 0));
        let mut expected = emulator::memory::Table::zero();
        expected.set(word, bit, true);
        assert_eq!(bench.table(), expected);
        assert_eq!(met(mode as usize, address as usize, line), (bit, word));
    }
}

#[test]
fn empty_list_is_done_but_buffers_are_judged() {
    let mut bench = Bench::random(&mut Random(3), 64, 7);
    let before = bench.clone();
    assert_eq!(bench.run(&[]), ok(0, 0, 0));
    assert!(bench == before);
    bench.memory.pop();
    bench.refused(&[], 1, 0);
    let mut bench = before.clone();
    bench.registers.push(0);
    bench.refused(&[], 2, 0);
    let mut bench = before.clone();
    bench.items.push(0);
    bench.refused(&[], 4, 0);
}

#[test]
fn refusals_1_to_4_and_their_order() {
    let good = Bench::random(&mut Random(4), 64, 64);
    for length in [0, 1, 8191, 8193, 8200] {
        let mut bench = good.clone();
        bench.memory = vec![1; length];
        bench.registers = vec![];
        bench.items = vec![0; 5];
        bench.refused(&[9; 3], 1, 0);
    }
    for length in [0, 95, 96, 97, 99, 101, 104, 32, 64] {
        let mut bench = good.clone();
        bench.registers = vec![1; length];
        bench.items = vec![0; 5];
        bench.refused(&[9; 3], 2, 0);
    }
    for length in [1, 7, 9, 12, 32767, 32769, 32776] {
        let mut bench = good.clone();
        bench.items = vec![0; 5];
        bench.refused(&vec![9; length], 3, 0);
    }
    for length in [1, 31, 33, 32767, 32769, 32800] {
        let mut bench = good.clone();
        bench.items = vec![0; length];
        bench.refused(&[9; 8], 4, 0);
    }
    let mut bench = good.clone();
    bench.items = vec![7; 32768];
    assert_eq!(bench.run(&list(&vec![NOTHING; 4096])), ok(4096, 0, 0));
}

#[test]
fn refusals_of_an_instruction_against_the_tables() {
    let mut random = Random(8);
    let mut seen = [0; 19];
    let mut bench = Bench::zero();
    bench.items = vec![0; 32];
    bench.out = vec![0; 32];
    for _ in 0..20000 {
        let pick = |random: &mut Random, small: u64| if random.below(8) == 0 { random.byte() } else { random.below(small) as u8 };
        let mut b = [0u8; 8];
        b[0] = pick(&mut random, 8);
        b[1] = pick(&mut random, 6);
        b[2] = pick(&mut random, 5);
        if random.below(2) == 0 {
            b[3] = pick(&mut random, 2);
            b[4] = pick(&mut random, 2);
        }
        b[5] = pick(&mut random, 2);
        b[6] = if random.below(2) == 0 { 0 } else { random.byte() };
        b[7] = if random.below(2) == 0 { 0 } else { random.byte() };
        let modes = good_modes(&mut random);
        let (number, byte) = by_the_tables(&b, [modes[0] == 1, modes[2] == 1]);
        seen[number as usize] += 1;
        if number == 0 {
            continue; // the run of these is for other tests
        }
        let place = random.below(4) as usize;
        let mut instructions = vec![NOTHING; place];
        instructions.push(b);
        instructions.push([9; 8]);
        bench.registers[96..].copy_from_slice(&modes);
        bench.refused_at(&list(&instructions), number, place as u32, byte);
        let mut registers = [0u8; REGISTERS];
        registers[96..].copy_from_slice(&modes);
        let answer = step(&mut bench.memory, &mut registers, &b, &bench.items, &mut bench.out);
        assert_eq!(answer, no(number, 0, byte));
    }
    for number in [0, 5, 6, 7, 8, 9, 14, 18, 16, 17, 11] {
        assert!(seen[number] > 20, "{:?}", seen);
    }
}

#[test]
fn named_refusals() {
    let cases: [([u8; 8], u32, u32); 30] = [
        ([7, 0, 0, 0, 0, 0, 0, 0], 5, 0),
        ([255, 9, 9, 9, 9, 9, 9, 9], 5, 0),
        ([0, 5, 0, 0, 0, 0, 0, 0], 6, 1),
        ([2, 0, 0, 0, 0, 0, 0, 0], 6, 1), // reading B7
        ([3, 0, 1, 0, 0, 0, 0, 0], 6, 1),
        ([5, 1, 0, 0, 0, 0, 0, 0], 6, 1),
        ([2, 3, 0, 255, 0, 0, 0, 0], 7, 2), // a store with tag 0 and mode 255 is 7
        ([2, 3, 0, 0, 0, 0, 0, 0], 7, 2),
        ([0, 0, 0, 0, 0, 0, 0, 0], 7, 2),
        ([1, 0, 0, 7, 7, 0, 0, 0], 7, 2),
        ([4, 0, 0, 7, 7, 0, 0, 0], 7, 2),
        ([3, 4, 4, 7, 7, 0, 0, 0], 8, 2),
        ([0, 0, 255, 7, 7, 0, 0, 0], 8, 2),
        ([0, 1, 1, 0, 0, 0, 0, 0], 9, 2),
        ([1, 2, 0, 1, 0, 0, 0, 0], 9, 3),
        ([4, 3, 0, 0, 1, 0, 0, 0], 9, 4),
        ([5, 0, 1, 0, 0, 0, 0, 0], 9, 2), // reading B6
        ([5, 0, 0, 0, 5, 0, 0, 0], 9, 4),
        ([0, 1, 0, 0, 0, 0, 1, 0], 17, 6), // reading I7
        ([0, 1, 0, 0, 0, 0, 136, 0], 17, 6),
        ([0, 1, 0, 0, 0, 0, 0x90, 0], 16, 6),
        ([2, 1, 1, 0, 0, 0, 48, 0], 18, 6),
        ([3, 1, 1, 0, 0, 9, 0x87, 0], 18, 6),
        ([5, 0, 0, 0, 0, 1, 0, 0], 18, 5),
        ([5, 0, 0, 0, 0, 0, 16, 0], 18, 6),
        ([0, 1, 0, 0, 0, 0, 0, 0x50], 11, 7),
        ([0, 1, 0, 0, 0, 0, 0, 0xFF], 11, 7),
        ([1, 1, 0, 0, 0, 0, 0, 1], 11, 7),
        ([2, 1, 1, 0, 0, 0, 0, 0x10], 11, 7),
        ([5, 0, 0, 0, 0, 0, 0, 2], 11, 7),
    ];
    for (bytes, number, byte) in cases {
        for place in [0usize, 1, 17] {
            let mut instructions = vec![NOTHING; place];
            instructions.push(bytes);
            let mut bench = Bench::zero();
            bench.refused_at(&list(&instructions), number, place as u32, byte);
        }
    }
}

#[test]
fn order_across_instructions() {
    let mut bench = Bench::zero();
    // an 11 at 0 comes before a 5 at 1
    bench.refused_at(&list(&[[1, 1, 0, 0, 0, 0, 0, 1], [7; 8]]), 11, 0, 7);
    // 12 and 13 only after what every instruction is refused for
    bench.refused(&list(&[[4, 4, 0, 0, 0, 0, 0, 0], [7; 8]]), 5, 1);
    // a 13 at instruction 0 yields to a 12 at instruction 2
    bench.refused(&list(&[[5, 0, 0, 0, 0, 0, 0, 0], NOTHING, [1, 4, 0, 0, 0, 0, 0, 0]]), 12, 2);
    // deliver from outside lacks both: 12
    bench.refused(&list(&[[4, 4, 0, 0, 0, 0, 0, 0]]), 12, 0);
    bench.items = vec![1; 32];
    bench.refused(&list(&[[4, 4, 0, 0, 0, 0, 0, 0]]), 13, 0);
    bench.out = vec![1; 31];
    bench.refused(&list(&[NOTHING, [4, 4, 0, 0, 0, 0, 0, 0]]), 13, 1);
    bench.out = vec![1; 33];
    assert_eq!(bench.run(&list(&[[4, 4, 0, 0, 0, 0, 0, 0]])), ok(1, 1, 1));
    assert_eq!(bench.out, vec![1; 33]);
}

#[test]
fn places_of_12_and_13() {
    let take = [1, 4, 0, 0, 0, 0, 0, 0];
    let store_taken = [2, 4, 1, 0, 0, 0, 0, 0];
    let give = [4, 1, 0, 0, 0, 0, 0, 0];
    let resolve = [5, 0, 0, 0, 0, 0, 0, 0];
    let both = [4, 4, 0, 0, 0, 0, 0, 0];
    let instructions = list(&[NOTHING, take, give, store_taken, resolve, both, NOTHING, resolve, take]);
    let takers = [1, 3, 5, 8];
    let givers = [2, 4, 5, 7];
    for items in 0..6usize {
        for room in 0..6usize {
            for odd in [0, 31] {
                let mut bench = Bench::random(&mut Random(77), 32 * items, 32 * room + odd);
                if items < 4 {
                    bench.refused(&instructions, 12, takers[items]);
                } else if room < 4 {
                    bench.refused(&instructions, 13, givers[room]);
                } else {
                    assert_eq!(bench.run(&instructions), ok(9, 4, 4));
                }
            }
        }
    }
}

#[test]
fn step_answers_as_a_run_of_one() {
    let mut random = Random(21);
    for round in 0..400 {
        let mut b = [0u8; 8];
        b[0] = random.below(6) as u8;
        b[1] = random.below(5) as u8;
        b[2] = (random.below(4) != 0) as u8;
        b[3] = random.byte();
        b[4] = random.byte();
        if random.below(3) == 0 {
            b[2] = 0;
            b[3] = 0;
            b[4] = 0;
        }
        b[5] = random.byte();
        b[6] = codes()[random.below(37) as usize];
        if round % 2 == 0 {
            b[6] = 0;
        }
        b[7] = if b[0] == 0 { random.below(80) as u8 } else { 0 };
        let (items, out) = (32 * random.below(2) as usize, random.below(70) as usize);
        let mut one = Bench::random(&mut random, items, out);
        let mut two = one.clone();
        let run_answer = one.run(&b);
        let mut record = [0u8; REGISTERS];
        record.copy_from_slice(&two.registers);
        let step_answer = step(&mut two.memory, &mut record, &b, &two.items, &mut two.out);
        two.registers = record.to_vec();
        assert_eq!(run_answer, step_answer);
        assert!(one == two);
    }
}

#[test]
fn step_lengths() {
    let mut random = Random(22);
    for length in [0usize, 1, 7, 9, 16, 64] {
        let mut bench = Bench::random(&mut random, 32, 32);
        let before = bench.clone();
        let mut record = [5u8; REGISTERS];
        let instruction = vec![0u8; length];
        let answer = step(&mut bench.memory, &mut record, &instruction, &bench.items, &mut bench.out);
        assert_eq!(answer, no(3, 0, 0));
        let answer = step(&mut bench.memory, &mut record, &instruction, &[0; 31], &mut bench.out);
        assert_eq!(answer.number, 3);
        let answer = step(&mut bench.memory[..8191], &mut record, &instruction, &[0; 31], &mut bench.out);
        assert_eq!(answer.number, 1);
        assert!(bench == before && record == [5u8; REGISTERS]);
    }
    let mut bench = Bench::zero();
    let answer = step(&mut bench.memory, &mut [0; REGISTERS], &NOTHING, &[0; 31], &mut []);
    assert_eq!(answer.number, 4);
}

#[test]
fn all_choices_and_functions() {
    let mut random = Random(31);
    for choice in 0..5u8 {
        for function in 0..16u8 {
            for source in 0..5u8 {
                let mut bench = Bench::random(&mut random, 32, 0);
                let before = bench.clone();
                let touched = (source == 0) as u8;
                let (mode, address) = if source == 0 { (random.byte(), random.byte()) } else { (0, 0) };
                let flip = random.byte();
                let byte6 = codes()[random.below(37) as usize];
                let instruction = [0, source, touched, mode, address, flip, byte6, 16 * choice + function];
                let answer = bench.run(&instruction);
                assert_eq!(answer, ok(1, (source == 4) as u32, 0));
                let item = match source {
                    0 => pack(&before.table().fetch(mode as usize, address as usize)),
                    4 => {
                        let mut item = [0; 32];
                        item.copy_from_slice(&before.items);
                        item
                    }
                    s => pack(&before.row(s as usize - 1)),
                };
                let passed = unpack(&wired_pass(&item, flip, byte6).1);
                let (m, x, y) = (before.row(0), before.row(1), before.row(2));
                let f = |r: bool, p: bool| (function >> (2 * r as u8 + p as u8)) & 1 == 1;
                assert_eq!(bench.row(0), m);
                for line in 0..256 {
                    let changes_x = choice == 0 || choice == 2 || ((choice == 3 || choice == 4) && y[line]);
                    let changes_y = choice == 1 || choice == 2 || choice == 4;
                    let new_x = if changes_x { f(x[line], passed[line]) } else { x[line] };
                    let new_y = if changes_y { f(y[line], passed[line]) } else { y[line] };
                    assert_eq!((bench.row(1)[line], bench.row(2)[line]), (new_x, new_y));
                }
                assert!(bench.memory == before.memory);
            }
        }
    }
}

/// The lent memory after a store, chip by chip: under mode and address chip C is met by line G xor C, at
/// location G xor (mode and C). `writes` is asked with the line that the bit came from, before the flip, and
/// the line that points at the memory, after it.
fn stored(memory: &[u8], item: &[u8], mode: u8, address: u8, flip: u8, writes: impl Fn(usize, usize) -> bool) -> Vec<u8> {
    let mut after = memory.to_vec();
    for chip in 0..=255u8 {
        let to = address ^ chip;
        let from = to ^ flip;
        if writes(from as usize, to as usize) {
            let location = address ^ (mode & chip);
            let byte = &mut after[32 * chip as usize + location as usize / 8];
            *byte &= !(1 << (location % 8));
            *byte |= (has(item, from as usize) as u8) << (location % 8);
        }
    }
    after
}

fn has(item: &[u8], k: usize) -> bool {
    item[k / 8] >> (k % 8) & 1 == 1
}

/// The item of these lines.
fn lines(of: impl Fn(usize) -> bool) -> [u8; 32] {
    let mut item = [0; 32];
    for line in (0..256).filter(|&line| of(line)) {
        item[line / 8] |= 1 << (line % 8);
    }
    item
}

/// The source item of a store.
fn source_item(bench: &Bench, source: u8) -> Vec<u8> {
    if source == 4 {
        bench.items[..32].to_vec()
    } else {
        bench.registers[32 * (source as usize - 1)..32 * source as usize].to_vec()
    }
}

// Document 02, Three.
#[test]
fn masked_store_with_flip_uses_the_line_after_the_flip() {
    let mut random = Random(41);
    for round in 0..240 {
        let mut bench = Bench::random(&mut random, 32, 0);
        let before = bench.clone();
        let (mode, address, flip) = (random.byte(), random.byte(), random.byte());
        let source = 1 + round % 4; // M is its own source too
        let masked = random.below(5) != 0;
        let answer = bench.run(&[2 + masked as u8, source, 1, mode, address, flip, 0, 0]);
        assert_eq!(answer, ok(1, (source == 4) as u32, 0));
        let m = &before.registers[..32];
        let item = source_item(&before, source);
        let expected = stored(&before.memory, &item, mode, address, flip, |_, to| !masked || has(m, to));
        assert!(bench.memory == expected, "{} {} {} {}", source, mode, address, flip);
        assert_eq!(bench.registers, before.registers);
    }
}

/// Masks that the flip moves, ones onto a memory of zeros: the line before the flip, which decided until
/// Three, gives another memory every time.
#[test]
fn masked_store_with_flip_does_not_use_the_line_before_the_flip() {
    let mut random = Random(43);
    let mut count = 0;
    for flip in [1u8, 2, 4, 8, 16, 32, 64, 128, 255, 90, 165, 3, 254] {
        let (lowest, highest) = (flip.trailing_zeros(), 7 - flip.leading_zeros());
        let one = random.below(256) as usize;
        let masks = [
            lines(|line| line >> lowest & 1 == 0),
            lines(|line| line >> highest & 1 == 1),
            lines(|line| line == one),
            lines(|line| line != one),
        ];
        for mask in masks {
            for source in 1..=4u8 {
                let mut bench = Bench::zero();
                bench.registers[..96].copy_from_slice(&[mask, [255; 32], [255; 32]].concat());
                bench.items = vec![255; 32];
                let before = bench.clone();
                let (mode, address) = ([0, 7, 90, 255][random.below(4) as usize], random.byte());
                assert_eq!(bench.run(&[3, source, 1, mode, address, flip, 0, 0]).number, 0);
                let item = source_item(&before, source);
                let by_line_after = stored(&before.memory, &item, mode, address, flip, |_, to| has(&mask, to));
                let by_line_before = stored(&before.memory, &item, mode, address, flip, |from, _| has(&mask, from));
                assert!(by_line_after != by_line_before);
                assert!(bench.memory == by_line_after);
                // three instructions ask for it; M as the source is moved by the first of them already
                let turn = [1, 1, 0, 0, 0, flip, 0, 0];
                let between = [3, source, 1, mode, address, if source == 1 { 0 } else { flip }, 0, 0];
                let mut bench = before.clone();
                assert_eq!(bench.run(&list(&[turn, between, turn])).number, 0);
                assert!(bench.memory == by_line_before && bench.registers == before.registers);
                count += 1;
            }
        }
    }
    assert_eq!(count, 13 * 4 * 4);
}

/// The office's list, "every second station, mirrored": bit 40 of the stations 3, 8 and 200 is set, bit 48 of
/// station 1; the even stations' bit 48 is to become bit 40 of their mirror (station s of 255 - s).
#[test]
fn every_second_station_mirrored() {
    let items = [lines(|s| s == 3 || s == 8 || s == 200), lines(|s| s == 1), lines(|s| s % 2 == 0)];
    assert_eq!((items[0][0], items[0][1], items[0][25], items[1][0], items[2]), (8, 1, 1, 2, [0x55; 32]));
    let prepare = [
        [2, 4, 1, 0, 40, 0, 0, 0],    // bit 40 from outside
        [2, 4, 1, 0, 48, 0, 0, 0],    // bit 48 from outside
        [1, 4, 0, 0, 0, 0, 0, 0],     // M from outside
        [0, 0, 1, 0, 40, 0, 0, 0x1A], // Y becomes bit 40
    ];
    let mirror = [3, 3, 1, 0, 48, 255, 0, 0]; // Y mirrored to bit 48, masked
    let deliver = [4, 0, 1, 0, 48, 0, 0, 0];
    let turn = [1, 1, 0, 0, 0, 255, 0, 0]; // M mirrored
    let run = |instructions: &[[u8; 8]]| {
        let mut bench = Bench::zero();
        bench.items = items.concat();
        bench.out = vec![0xEE; 32];
        let answer = bench.run(&list(&[&prepare, instructions].concat()));
        assert_eq!(answer, ok(4 + instructions.len() as u32, 3, 1));
        assert_eq!(bench.registers[..32], [0x55; 32]); // M is as it was set
        bench.out
    };
    // The mirror of 3, 8 and 200 is 252, 247 and 55. Of these 252 alone is even and written; the other even
    // stations get 0; the odd ones stay, so 1 keeps its bit: stations 1 and 252.
    let mut expected = [0u8; 32];
    (expected[0], expected[31]) = (0x02, 0x10);
    assert_eq!(run(&[mirror, deliver]), expected);
    // Until Three the line before the flip decided: what comes from 8 and 200 was written, to 247 and 55,
    // what comes from 3 was not; station 1 got the bit of 254, which is 0: stations 55 and 247. Whoever
    // wants that mirrors M before the store and again after it.
    let mut expected = [0u8; 32];
    (expected[6], expected[30]) = (0x80, 0x80);
    assert_eq!(run(&[turn, mirror, turn, deliver]), expected);
}

#[test]
fn the_mask_is_the_one_of_that_moment() {
    let mut bench = Bench::zero();
    bench.items = vec![0xFF; 64];
    bench.items[..32].copy_from_slice(&[0x0F; 32]);
    let answer = bench.run(&list(&[[1, 4, 0, 0, 0, 0, 0, 0], [3, 4, 1, 255, 9, 0, 0, 0], [4, 0, 1, 255, 9, 0, 0, 0]]));
    assert_eq!((answer.number, answer.place), (13, 2));
    bench.out = vec![3; 40];
    let answer = bench.run(&list(&[[1, 4, 0, 0, 0, 0, 0, 0], [3, 4, 1, 255, 9, 0, 0, 0], [4, 0, 1, 255, 9, 0, 0, 0]]));
    assert_eq!(answer, ok(3, 2, 1));
    assert_eq!(bench.out[..32], [0x0F; 32]);
    assert_eq!(bench.out[32..], [3; 8]);
    assert_eq!(bench.registers[..32], [0x0F; 32]);
}

const RESOLVE: [u8; 8] = [5, 0, 0, 0, 0, 0, 0, 0];

/// What a resolve delivers with this Y: by a run and by a step, with all else at random. Both leave the bytes of
/// out behind the item, Y, the other registers and the memory as they were.
fn resolved(random: &mut Random, y: &[u8; 32]) -> [u8; 32] {
    let behind = random.below(70) as usize;
    let mut bench = Bench::random(random, 0, 32 + behind);
    bench.registers[64..96].copy_from_slice(y);
    let before = bench.clone();
    assert_eq!(bench.run(&RESOLVE), ok(1, 0, 1));
    let mut item = [0; 32];
    item.copy_from_slice(&bench.out[..32]);
    assert!(bench.out[32..] == before.out[32..]);
    assert!(bench.memory == before.memory && bench.registers == before.registers);

    let mut other = before.clone();
    let mut record = [0u8; REGISTERS];
    record.copy_from_slice(&other.registers);
    assert_eq!(step(&mut other.memory, &mut record, &RESOLVE, &[], &mut other.out), ok(1, 0, 1));
    assert!(other.out == bench.out && other.memory == before.memory && record[..] == before.registers[..]);
    item
}

/// The item of Four for these responders, smallest first: activity, the smallest, the count, zeros.
fn four(responders: &[usize]) -> [u8; 32] {
    let smallest = if responders.is_empty() { 256 } else { responders[0] as u16 };
    let mut item = [0; 32];
    item[0] = if responders.is_empty() { 0 } else { 1 };
    item[1..3].copy_from_slice(&smallest.to_le_bytes());
    item[3..5].copy_from_slice(&(responders.len() as u16).to_le_bytes());
    item
}

/// An item that starts so and goes on in zeros.
fn starts(bytes: [u8; 5]) -> [u8; 32] {
    let mut item = [0; 32];
    item[..5].copy_from_slice(&bytes);
    item
}

// Document 02, Four; reading G2.
#[test]
fn resolve_with_none_all_and_a_few() {
    let mut random = Random(61);
    assert_eq!(resolved(&mut random, &[0; 32]), starts([0, 0, 1, 0, 0]));
    assert_eq!(resolved(&mut random, &[255; 32]), starts([1, 0, 0, 0, 1]));
    assert_eq!(resolved(&mut random, &lines(|line| line == 0)), starts([1, 0, 0, 1, 0]));
    assert_eq!(resolved(&mut random, &lines(|line| line == 255)), starts([1, 255, 0, 1, 0]));
    assert_eq!(resolved(&mut random, &lines(|line| line != 0)), starts([1, 1, 0, 255, 0]));
    assert_eq!(resolved(&mut random, &lines(|line| line != 255)), starts([1, 0, 0, 255, 0]));
    assert_eq!(resolved(&mut random, &lines(|line| line == 1 || line == 0)), starts([1, 0, 0, 2, 0]));
    assert_eq!(resolved(&mut random, &lines(|line| line == 3 || line == 8 || line == 200)), starts([1, 3, 0, 3, 0]));
    assert_eq!(resolved(&mut random, &lines(|line| line >= 128)), starts([1, 128, 0, 128, 0]));
}

#[test]
fn resolve_with_one_responder_and_with_two() {
    let mut random = Random(62);
    for one in 0..256usize {
        assert_eq!(resolved(&mut random, &lines(|line| line == one)), starts([1, one as u8, 0, 1, 0]));
        let all_but_one = starts([1, if one == 0 { 1 } else { 0 }, 0, 255, 0]);
        assert_eq!(resolved(&mut random, &lines(|line| line != one)), all_but_one);
        if one != 255 {
            assert_eq!(resolved(&mut random, &lines(|line| line == one || line == 255)), starts([1, one as u8, 0, 2, 0]));
        }
    }
}

/// Each count, 0 to 256: the first lines, the last lines, and lines anywhere.
#[test]
fn resolve_counts_the_responders() {
    let mut random = Random(63);
    for count in 0..=256usize {
        let (low, high) = ((count % 256) as u8, (count / 256) as u8);
        let active = (count > 0) as u8;
        let first = resolved(&mut random, &lines(|line| line < count));
        // with none the smallest is 256, else it is line 0
        assert_eq!(first, starts([active, 0, 1 - active, low, high]));
        let last = resolved(&mut random, &lines(|line| line >= 256 - count));
        // the smallest is 256 minus the count: 256 with none, 0 with all
        let smallest = 256 - count;
        assert_eq!(last, starts([active, (smallest % 256) as u8, (smallest / 256) as u8, low, high]));
        for _ in 0..3 {
            let mut order: Vec<usize> = (0..256).collect();
            for k in 0..count {
                let other = k + random.below(256 - k as u64) as usize;
                order.swap(k, other);
            }
            let mut responders = order[..count].to_vec();
            responders.sort();
            let item = resolved(&mut random, &lines(|line| responders.contains(&line)));
            assert_eq!(item, four(&responders));
            assert_eq!((item[3], item[4]), (low, high));
            assert_eq!(item[5..], [0; 27]);
        }
    }
}

/// Y changes between the resolves; the items are in out in their order, with the delivered ones between them.
#[test]
fn resolves_in_a_run_take_the_y_of_that_moment() {
    let mut bench = Bench::zero();
    bench.items = lines(|line| line == 7 || line == 70 || line == 255).to_vec();
    bench.registers[..96].copy_from_slice(&[[0x11; 32], [0x22; 32], [0; 32]].concat());
    bench.out = vec![0xEE; 32 * 7 + 9];
    let answer = bench.run(&list(&[
        RESOLVE,                      // none
        [0, 2, 0, 0, 0, 0, 0, 0x1F],  // Y all ones
        RESOLVE,
        [0, 4, 0, 0, 0, 0, 0, 0x1A],  // Y from outside
        [4, 3, 0, 0, 0, 0, 0, 0],
        RESOLVE,
        [0, 3, 0, 0, 0, 0, 128, 0x1A], // Y by 1 mod 256: 8, 71 and 0
        RESOLVE,
        [0, 3, 0, 0, 0, 0, 0, 0x15],  // Y becomes not Y
        RESOLVE,
        [0, 2, 0, 0, 0, 0, 0, 0x10],  // Y zeros
        RESOLVE,
    ]));
    assert_eq!(answer, ok(12, 1, 7));
    let expected = [
        starts([0, 0, 1, 0, 0]),
        starts([1, 0, 0, 0, 1]),
        lines(|line| line == 7 || line == 70 || line == 255),
        starts([1, 7, 0, 3, 0]),
        starts([1, 0, 0, 3, 0]),
        starts([1, 1, 0, 253, 0]),
        starts([0, 0, 1, 0, 0]),
    ];
    assert_eq!(bench.out[..32 * 7], expected.concat());
    assert_eq!(bench.out[32 * 7..], [0xEE; 9]);
    assert_eq!(bench.registers[..96], [[0x11; 32], [0x22; 32], [0; 32]].concat());
    assert_eq!(bench.registers[96..], [0; 4]);
}

#[test]
fn resolve_without_room_is_13_and_puts_nothing() {
    for room in [0usize, 1, 5, 31] {
        let mut bench = Bench::random(&mut Random(64), 0, room);
        bench.refused(&RESOLVE, 13, 0);
    }
    let mut bench = Bench::random(&mut Random(65), 0, 63);
    bench.refused(&list(&[RESOLVE, NOTHING, RESOLVE]), 13, 2);
}

#[test]
fn deliver_every_source_and_outside_in_turn() {
    let mut random = Random(51);
    let mut bench = Bench::random(&mut random, 96, 32 * 6);
    let before = bench.clone();
    let answer = bench.run(&list(&[
        [4, 4, 0, 0, 0, 0, 0, 0],
        [4, 1, 0, 0, 0, 0, 0, 0],
        [4, 2, 0, 0, 0, 255, 0, 0],
        [4, 3, 0, 0, 0, 0, 0x87, 0],
        [4, 4, 0, 0, 0, 0, 0, 0],
    ]));
    assert_eq!(answer, ok(5, 2, 4 + 1));
    assert_eq!(bench.out[..32], before.items[..32]);
    assert_eq!(bench.out[32..64], before.registers[..32]);
    let mirrored: Vec<u8> = before.registers[32..64].iter().rev().map(|b| b.reverse_bits()).collect();
    assert_eq!(bench.out[64..96], mirrored[..]);
    assert_eq!(bench.out[96..112], before.registers[80..96]);
    assert_eq!(bench.out[112..128], before.registers[64..80]);
    assert_eq!(bench.out[128..160], before.items[32..64]);
    assert_eq!(bench.out[160..], before.out[160..]);
    assert!(bench.memory == before.memory && bench.registers == before.registers);
}
