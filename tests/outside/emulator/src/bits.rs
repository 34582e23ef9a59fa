//! Bytes and bools. "In any 32-byte item, number k is bit k mod 8 (0 least significant) of byte
//! k div 8."

/// One bit for each of the lines 0..255.
pub type Row = [bool; 256];

pub const ZERO: Row = [false; 256];

pub fn unpack(bytes: &[u8]) -> Row {
    assert_eq!(bytes.len(), 32);
    let mut row = ZERO;
    for k in 0..256 {
        row[k] = (bytes[k / 8] >> (k % 8)) % 2 == 1;
    }
    row
}

pub fn pack(row: &Row) -> [u8; 32] {
    let mut bytes = [0u8; 32];
    for k in 0..256 {
        if row[k] {
            bytes[k / 8] += 1 << (k % 8);
        }
    }
    bytes
}

/// The number that the 8 bools of a line, mode or address stand for is used as a plain `usize`
/// 0..255 everywhere; "not M" is 255 minus M.
pub fn not(m: usize) -> usize {
    255 - m
}
