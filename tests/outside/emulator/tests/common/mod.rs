//! Helpers of the tests: a small random source, set and read bits of words, calls that check that a refusal changes
//! nothing, and the tables of refusals once more.
#![allow(dead_code)]

use emulator::memory::Table;
use emulator::*;

pub struct Random(pub u64);

impl Random {
    pub fn next(&mut self) -> u64 {
        self.0 ^= self.0 << 13;
        self.0 ^= self.0 >> 7;
        self.0 ^= self.0 << 17;
        self.0
    }
    pub fn below(&mut self, n: u64) -> u64 {
        (self.next() >> 11) % n
    }
    pub fn byte(&mut self) -> u8 {
        self.below(256) as u8
    }
    pub fn bytes(&mut self, n: usize) -> Vec<u8> {
        (0..n).map(|_| self.byte()).collect()
    }
    pub fn item(&mut self) -> [u8; 32] {
        let mut item = [0; 32];
        item.copy_from_slice(&self.bytes(32));
        item
    }
}

/// The buffers of a run.
#[derive(Clone, PartialEq, Eq, Debug)]
pub struct Bench {
    pub memory: Vec<u8>,
    pub registers: Vec<u8>,
    pub items: Vec<u8>,
    pub out: Vec<u8>,
}

impl Bench {
    pub fn zero() -> Bench {
        Bench { memory: vec![0; 8192], registers: vec![0; REGISTERS], items: vec![], out: vec![] }
    }

    /// Any content; the mode registers are good ones.
    pub fn random(random: &mut Random, items: usize, out: usize) -> Bench {
        Bench {
            memory: random.bytes(8192),
            registers: [random.bytes(96), good_modes(random)].concat(),
            items: random.bytes(items),
            out: random.bytes(out),
        }
    }

    pub fn run(&mut self, list: &[u8]) -> Answer {
        let before = self.clone();
        let answer = run(&mut self.memory, &mut self.registers, list, &self.items, &mut self.out);
        if answer.number != 0 {
            assert_eq!((answer.steps, answer.taken, answer.given), (0, 0, 0));
            assert!(before == *self, "a refusal changed a buffer");
        } else {
            let given = 32 * answer.given as usize;
            assert!(before.out[given..] == self.out[given..]);
        }
        answer
    }

    /// The run must be refused with this number at this place, and name this byte.
    pub fn refused_at(&mut self, list: &[u8], number: u32, place: u32, byte: u32) {
        assert_eq!(self.run(list), no(number, place, byte), "{:?}", list);
    }

    /// The run must be refused with this number at this place and byte 0: 5, or a number that names no byte, 1 to 4, 15,
    /// 12 and 13.
    pub fn refused(&mut self, list: &[u8], number: u32, place: u32) {
        self.refused_at(list, number, place, 0);
    }

    pub fn table(&self) -> Table {
        Table::from_chips(&self.memory)
    }

    pub fn load(&mut self, table: &Table) {
        table.to_chips(&mut self.memory);
    }

    pub fn row(&self, register: usize) -> emulator::bits::Row {
        emulator::bits::unpack(&self.registers[32 * register..32 * register + 32])
    }
}

/// Set-flag and mode of A and of B: unset, or any mode.
pub fn good_modes(random: &mut Random) -> Vec<u8> {
    let mut bytes = vec![];
    for _ in 0..2 {
        let set = random.below(2) as u8;
        bytes.extend([set, set * random.byte()]);
    }
    bytes
}

pub fn field_of(table: &Table, word: usize, start: usize, width: usize) -> u64 {
    (0..width).map(|k| (table.bit(word, start + k) as u64) << k).sum()
}

pub fn set_field(table: &mut Table, word: usize, start: usize, width: usize, value: u64) {
    for k in 0..width {
        table.set(word, start + k, (value >> k) % 2 == 1);
    }
}

pub fn ok(steps: u32, taken: u32, given: u32) -> Answer {
    Answer { number: 0, place: 0, byte: 0, steps, taken, given }
}

pub fn no(number: u32, place: u32, byte: u32) -> Answer {
    Answer { number, place, byte, steps: 0, taken: 0, given: 0 }
}

/// The number and the byte that document 01's table gives to an instruction, with document 02's Six in place of 10 and
/// with its Seven, where these mode registers, A and B, count as set: row by row the number and the bytes that are wrong
/// by it, condition by condition, without the order of the emulator's code. The first row with any such byte decides,
/// and of these bytes the first. (0, 0) if it stands.
pub fn by_the_tables(b: &[u8], set: [bool; 2]) -> (u32, u32) {
    let k = b[0];
    let store = k == 2 || k == 3;
    let by_register = b[2] == 2 || b[2] == 3;
    let touched = ((k == 0 || k == 1 || k == 4) && b[1] == 0) || store;
    let (p, m) = (b[6] >> 4, b[6] & 15);
    let one = |byte: u32, is_wrong: bool| if is_wrong { vec![byte] } else { vec![] };
    let not_0 = |bytes: &[u32]| bytes.iter().copied().filter(|&byte| b[byte as usize] != 0).collect::<Vec<u32>>();
    let rows = [
        (5, one(0, k > 6)),
        (6, one(1, b[1] > 4 || (b[1] == 0 && store) || (b[1] != 0 && (k == 5 || k == 6)))),
        (7, one(2, (touched || k == 6) && b[2] == 0)),
        (8, one(2, ((touched || k == 6) && b[2] > 3) || (k == 6 && b[2] == 1))),
        (9, not_0(if k == 6 { &[4] } else if !touched { &[2, 3, 4] } else if by_register { &[3] } else { &[] })),
        (14, one(2, touched && ((b[2] == 2 && !set[0]) || (b[2] == 3 && !set[1])))),
        (18, not_0(if store { &[6] } else if k == 5 || k == 6 { &[5, 6] } else { &[] })),
        (16, one(6, p > 8)),
        (17, one(6, b[6] != 0 && m >= p)),
        (11, one(7, if k == 0 { b[7] >= 80 } else { b[7] != 0 })),
    ];
    rows.iter().find_map(|(number, bytes)| bytes.iter().min().map(|&byte| (*number, byte))).unwrap_or((0, 0))
}
