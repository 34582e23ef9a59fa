//! The builders of sum and difference lists.

/// Number and count of bytes written (reading C3: bytes, not instructions).
#[derive(Clone, Copy, PartialEq, Eq, Debug)]
pub struct Built {
    pub number: u32,
    pub count: u32,
}

/// A field's bits as plain numbers, so that "overlaps" can be taken word by word.
fn field(start: u64, width: u64) -> Vec<u64> {
    (start..start + width).collect()
}

fn overlap(one: &[u64], other: &[u64]) -> bool {
    one.iter().any(|bit| other.contains(bit))
}

fn logic(source: u8, choice: u8, function: u8) -> [u8; 8] {
    [0, source, 0, 0, 0, 0, 0, 16 * choice + function]
}

fn logic_slice(slice: u64, choice: u8, function: u8) -> [u8; 8] {
    [0, 0, 1, 0, slice as u8, 0, 0, 16 * choice + function]
}

fn store_y(slice: u64) -> [u8; 8] {
    [2, 3, 1, 0, slice as u8, 0, 0, 0]
}

const X: u8 = 2;

fn build(a: u32, b: u32, s: u32, width: u32, difference: bool, buffer: &mut [u8]) -> Built {
    let refused = |number| Built { number, count: 0 };
    if width < 1 || width > 64 {
        return refused(30);
    }
    let (a, b, s, n) = (a as u64, b as u64, s as u64, width as u64);
    if a + n > 256 || b + n > 256 || s + n > 256 {
        return refused(31);
    }
    // Reading C1: "its" start is the start of the field that S overlaps.
    let (field_a, field_b, field_s) = (field(a, n), field(b, n), field(s, n));
    if (overlap(&field_s, &field_a) && s != a) || (overlap(&field_s, &field_b) && s != b) {
        return refused(32);
    }
    let mut list: Vec<[u8; 8]> = Vec::new();
    list.push(logic(X, 2, 0));
    if difference {
        list.push(logic(X, 1, 15));
    }
    for k in 0..n {
        list.push(logic_slice(a + k, 4, 6));
        list.push(logic_slice(b + k, 4, if difference { 9 } else { 6 }));
        list.push(store_y(s + k));
        list.push(logic(X, 3, 3));
        list.push(logic(X, 2, 6));
    }
    let bytes: Vec<u8> = list.concat();
    if buffer.len() < bytes.len() {
        return refused(33);
    }
    buffer[..bytes.len()].copy_from_slice(&bytes);
    Built { number: 0, count: bytes.len() as u32 }
}

/// The list that leaves A plus B in S.
pub fn sum_list(a: u32, b: u32, s: u32, width: u32, buffer: &mut [u8]) -> Built {
    build(a, b, s, width, false, buffer)
}

/// The list that leaves A minus B in S.
pub fn difference_list(a: u32, b: u32, s: u32, width: u32, buffer: &mut [u8]) -> Built {
    build(a, b, s, width, true, buffer)
}
