//! The flip network, in the arithmetic form and in the wired form. The two share nothing but the
//! reading of byte 6.

use crate::bits::{pack, unpack};

/// A shift: none, or 2^m modulo 2^p.
#[derive(Clone, Copy, PartialEq, Eq, Debug)]
pub enum Shift {
    None,
    By { m: u32, p: u32 },
}

/// Byte 6 is 16p + m, or 0 for none. Where it is none of the 37: 16 if p is over 8, a group over 256 lines; else
/// 17, as m is not below p, also where p is 0 (document 02, Six; readings I3, I8).
pub fn shift_of(byte6: u8) -> Result<Shift, u32> {
    if byte6 == 0 {
        return Ok(Shift::None);
    }
    for p in 1..=8u32 {
        for m in 0..p {
            if 16 * p + m == byte6 as u32 {
                return Ok(Shift::By { m, p });
            }
        }
    }
    let p = byte6 / 16;
    Err(if p > 8 { 16 } else { 17 })
}

/// All 37 values of byte 6 that stand: none first, then p rising, m rising (reading A5).
pub fn codes() -> Vec<u8> {
    let mut all = vec![0];
    for p in 1..=8u8 {
        for m in 0..p {
            all.push(16 * p + m);
        }
    }
    all
}

/// Where a pass takes the bit of line `i`: first the flip, then the shift.
pub fn destination(i: usize, flip: usize, shift: Shift) -> usize {
    let flipped = i ^ flip;
    match shift {
        Shift::None => flipped,
        Shift::By { m, p } => {
            let size = 1usize << p;
            let group = flipped / size;
            let rest = flipped % size;
            group * size + (rest + (1usize << m)) % size
        }
    }
}

/// The arithmetic form on the lines.
pub fn pass_lines(item: &[bool], flip: usize, shift: Shift) -> Vec<bool> {
    let mut after = vec![false; item.len()];
    for i in 0..item.len() {
        after[destination(i, flip, shift)] = item[i];
    }
    after
}

/// The count of significant bits of a number; 0 has none.
pub fn significant_bits(mut number: usize) -> usize {
    let mut count = 0;
    while number > 0 {
        number /= 2;
        count += 1;
    }
    count
}

/// Signal `k` of level `j` for the shift alone: 1 exactly if m ≤ j < p and k ≤ m. With none, all
/// are 0 (reading A4).
pub fn shift_signal(shift: Shift, j: usize, k: usize) -> bool {
    match shift {
        Shift::None => false,
        Shift::By { m, p } => {
            let (m, p) = (m as usize, p as usize);
            m <= j && j < p && k <= m
        }
    }
}

/// The wired form on 2^levels lines: a network of `levels - 1` levels, then one more (level 0 acts
/// first, reading A3).
pub fn wired_lines(levels: usize, item: &[bool], flip: usize, shift: Shift) -> Vec<bool> {
    if levels == 0 {
        return item.to_vec();
    }
    let before = wired_lines(levels - 1, item, flip, shift);
    let j = levels - 1;
    let step = 1usize << j;
    let flip_bit = (flip / step) % 2 == 1;
    let mut after = vec![false; item.len()];
    for i in 0..item.len() {
        let obeyed = significant_bits(i % step);
        let swap = shift_signal(shift, j, obeyed) != flip_bit;
        let place = if swap { i ^ step } else { i };
        after[place] = before[i];
    }
    after
}

fn on_bytes(item: &[u8; 32], byte6: u8, how: impl Fn(&[bool], Shift) -> Vec<bool>) -> (u32, [u8; 32]) {
    match shift_of(byte6) {
        Err(number) => (number, [0; 32]),
        Ok(shift) => {
            let lines = how(&unpack(item), shift);
            let mut row = [false; 256];
            row.copy_from_slice(&lines);
            (0, pack(&row))
        }
    }
}

/// A pass called by itself, in the arithmetic form: number and item. Where byte 6 is none of the 37 the number is 16
/// or 17 and the item zero (reading I4).
pub fn pass(item: &[u8; 32], flip: u8, byte6: u8) -> (u32, [u8; 32]) {
    on_bytes(item, byte6, |lines, shift| pass_lines(lines, flip as usize, shift))
}

/// A pass called by itself, in the wired form: number and item, as in the arithmetic form.
pub fn wired_pass(item: &[u8; 32], flip: u8, byte6: u8) -> (u32, [u8; 32]) {
    on_bytes(item, byte6, |lines, shift| wired_lines(8, lines, flip as usize, shift))
}
