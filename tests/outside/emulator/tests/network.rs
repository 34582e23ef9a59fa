//! The passes in both forms, each value of byte 6, and the access rule of the memory.

mod common;
use common::*;
use emulator::bits::{pack, unpack, ZERO};
use emulator::memory::{met, Table};
use emulator::network::*;

fn one_line(line: usize) -> [u8; 32] {
    let mut row = ZERO;
    row[line] = true;
    pack(&row)
}

fn moved(line: usize, flip: u8, byte6: u8) -> usize {
    let (number, item) = pass(&one_line(line), flip, byte6);
    assert_eq!(number, 0);
    let wired = wired_pass(&one_line(line), flip, byte6);
    assert_eq!(wired, (0, item));
    let row = unpack(&item);
    assert_eq!(row.iter().filter(|&&b| b).count(), 1);
    row.iter().position(|&b| b).unwrap()
}

/// Each value of byte 6, with several flips: 0 for the 37, else 16 for p over 8 and 17 for m not below p, with a zero
/// item (document 02, Six; readings I3, I4).
#[test]
fn thirty_seven() {
    assert_eq!(codes().len(), 37);
    let mut seen = std::collections::BTreeMap::new();
    for byte6 in 0..=255u8 {
        let (p, m) = (byte6 / 16, byte6 % 16);
        let number = if byte6 == 0 || (m < p && p <= 8) { 0 } else if p > 8 { 16 } else { 17 };
        assert_eq!(codes().contains(&byte6), number == 0);
        for flip in [0u8, 3, 255] {
            let item = [0xA5; 32];
            let passed = pass(&item, flip, byte6);
            assert_eq!(passed, wired_pass(&item, flip, byte6));
            assert_eq!(passed.0, number, "{}", byte6);
            assert_eq!(passed.1 == [0; 32], number != 0);
        }
        *seen.entry(number).or_insert(0) += 1;
    }
    assert_eq!(seen.into_iter().collect::<Vec<_>>(), [(0, 37), (16, 112), (17, 107)]);
}

#[test]
fn both_forms_agree_for_all_shifts_and_flips() {
    let mut random = Random(99);
    for byte6 in codes() {
        for flip in 0..=255u8 {
            let item = random.item();
            assert_eq!(pass(&item, flip, byte6), wired_pass(&item, flip, byte6));
        }
    }
    // Line by line for some flips: no two lines may be mixed up.
    for byte6 in codes() {
        for flip in [0u8, 1, 8, 127, 128, 170, 255] {
            for line in 0..256 {
                let expected = destination(line, flip as usize, shift_of(byte6).unwrap());
                assert_eq!(moved(line, flip, byte6), expected);
            }
        }
    }
}

#[test]
fn the_rule_of_a_shift() {
    for p in 1..=8u32 {
        for m in 0..p {
            for line in 0..256usize {
                let to = destination(line, 0, Shift::By { m, p });
                assert_eq!(to >> p, line >> p);
                assert_eq!((to + 1024 - line) % (1 << p), (1 << m) % (1 << p));
            }
        }
    }
}

#[test]
fn document_001_table_for_8_lines() {
    // permutation (m, p), then 0A 1A 1B 2A 2B 2C
    let table = [
        (Shift::By { m: 0, p: 3 }, [1, 1, 0, 1, 0, 0]),
        (Shift::By { m: 1, p: 3 }, [0, 1, 1, 1, 1, 0]),
        (Shift::By { m: 2, p: 3 }, [0, 0, 0, 1, 1, 1]),
        (Shift::By { m: 0, p: 2 }, [1, 1, 0, 0, 0, 0]),
        (Shift::By { m: 1, p: 2 }, [0, 1, 1, 0, 0, 0]),
        (Shift::By { m: 0, p: 1 }, [1, 0, 0, 0, 0, 0]),
        (Shift::None, [0, 0, 0, 0, 0, 0]),
    ];
    for (shift, row) in table {
        let mut signals = Vec::new();
        for j in 0..3 {
            for k in 0..=j {
                signals.push(shift_signal(shift, j, k) as u8);
            }
        }
        assert_eq!(signals, row);
        for flip in 0..8 {
            for line in 0..8 {
                let mut item = vec![false; 8];
                item[line] = true;
                let wired = wired_lines(3, &item, flip, shift);
                assert_eq!(wired.iter().position(|&b| b).unwrap(), destination(line, flip, shift));
                assert_eq!(wired, pass_lines(&item, flip, shift));
            }
        }
    }
    // 1,332 signals
    let mut count = 0;
    for _ in codes() {
        for j in 0..8 {
            count += j + 1;
        }
    }
    assert_eq!(count, 1332);
}

#[test]
fn examples() {
    // 1 mod 8 (byte 6 = 48): 3→4, 7→0, 255→248. 8 mod 256: 250→2.
    assert_eq!(16 * 3 + 0, 48);
    assert_eq!(moved(3, 0, 48), 4);
    assert_eq!(moved(7, 0, 48), 0);
    assert_eq!(moved(255, 0, 48), 248);
    assert_eq!(moved(250, 0, 16 * 8 + 3), 2);
    // Flip 255 with 32 mod 256, then flip 255 with 1 mod 256: 40→9, 10→235.
    assert_eq!(moved(moved(40, 255, 16 * 8 + 5), 255, 16 * 8), 9);
    assert_eq!(moved(moved(10, 255, 16 * 8 + 5), 255, 16 * 8), 235);
    // 128 mod 256 moves all lines as flip 128. Byte 6 = 136 or 1: refused, 10 until Six and now 17 (reading I7).
    for line in 0..256 {
        assert_eq!(moved(line, 0, 16 * 8 + 7), moved(line, 128, 0));
    }
    for byte6 in [136, 1] {
        assert_eq!(pass(&[255; 32], 0, byte6), (17, [0; 32]));
        assert_eq!(wired_pass(&[255; 32], 0, byte6), (17, [0; 32]));
        Bench::zero().refused_at(&[0, 1, 0, 0, 0, 0, byte6, 0], 17, 0, 6);
    }
    // 1 mod 8 of a flipped item differs from the flip of a shifted one.
    let item = Random(5).item();
    let flipped_then_shifted = pass(&item, 3, 48).1;
    let shifted_then_flipped = pass(&pass(&item, 0, 48).1, 3, 0).1;
    assert_ne!(flipped_then_shifted, shifted_then_flipped);
}

#[test]
fn memory_examples() {
    // M 7, G 45, P 83: bit 43 of word 85, chip 126.
    assert_eq!(met(7, 45, 83), (43, 85));
    assert_eq!(45 ^ 83, 126);
    // M 0, G 13, P 200: bit 13 of word 200. M 255: bit 200 of word 13.
    assert_eq!(met(0, 13, 200), (13, 200));
    assert_eq!(met(255, 13, 200), (200, 13));
}

#[test]
fn the_access_rule_follows_from_storage_local_address_and_scramble() {
    let bytes = Random(17).bytes(8192);
    let table = Table::from_chips(&bytes);
    let chip_bit = |chip: usize, at: usize| (bytes[32 * chip + at / 8] >> (at % 8)) & 1 == 1;
    for m in 0..256usize {
        for g in [0usize, 1, 45, 127, 128, 200, 255] {
            let row = table.fetch(m, g);
            for p in 0..256usize {
                let chip = g ^ p;
                let local = g ^ (m & chip);
                assert_eq!(met(m, g, p), (local, local ^ chip));
                assert_eq!(row[p], chip_bit(chip, local));
            }
        }
    }
    let mut back = vec![0; 8192];
    table.to_chips(&mut back);
    assert_eq!(back, bytes);
    assert_eq!(Table::from_words(&table.to_words()), table);
    // One bit at a time: bit B of word W lies at location B of chip B xor W.
    for (word, bit) in [(0, 0), (85, 43), (200, 13), (13, 200), (255, 255), (1, 254)] {
        let mut table = Table::zero();
        table.set(word, bit, true);
        let mut bytes = vec![0u8; 8192];
        table.to_chips(&mut bytes);
        let mut expected = vec![0u8; 8192];
        expected[32 * (bit ^ word) + bit / 8] = 1 << (bit % 8);
        assert_eq!(bytes, expected);
    }
}
