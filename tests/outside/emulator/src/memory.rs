//! The memory as a plain table: `table[word][bit]`. The scrambled form (chip by chip) exists only
//! at the borders, `from_chips` and `to_chips`.

use crate::bits::{not, pack, unpack, Row, ZERO};

#[derive(Clone, PartialEq, Eq, Debug)]
pub struct Table {
    words: Vec<Row>,
}

/// The bit and the word that line `p` meets under mode `m` and address `g`: bit
/// ((not M) and G) xor (M and P) of word (M and G) xor ((not M) and P).
pub fn met(m: usize, g: usize, p: usize) -> (usize, usize) {
    let bit = (not(m) & g) ^ (m & p);
    let word = (m & g) ^ (not(m) & p);
    (bit, word)
}

impl Table {
    pub fn zero() -> Table {
        Table { words: vec![ZERO; 256] }
    }

    pub fn bit(&self, word: usize, bit: usize) -> bool {
        self.words[word][bit]
    }

    pub fn set(&mut self, word: usize, bit: usize, value: bool) {
        self.words[word][bit] = value;
    }

    /// Storage: location B of chip C holds bit B of word B xor C; chip C has bytes 32C to 32C+31
    /// (reading A2: a chip's 32 bytes are an item, location B is its number B).
    pub fn from_chips(bytes: &[u8]) -> Table {
        assert_eq!(bytes.len(), 8192);
        let mut table = Table::zero();
        for chip in 0..256 {
            let held = unpack(&bytes[32 * chip..32 * chip + 32]);
            for location in 0..256 {
                table.words[location ^ chip][location] = held[location];
            }
        }
        table
    }

    pub fn to_chips(&self, bytes: &mut [u8]) {
        assert_eq!(bytes.len(), 8192);
        for chip in 0..256 {
            let mut held = ZERO;
            for location in 0..256 {
                held[location] = self.words[location ^ chip][location];
            }
            bytes[32 * chip..32 * chip + 32].copy_from_slice(&pack(&held));
        }
    }

    /// The 256 words in plain order, 32 bytes each, as a picture holds them.
    pub fn from_words(bytes: &[u8]) -> Table {
        assert_eq!(bytes.len(), 8192);
        let mut table = Table::zero();
        for word in 0..256 {
            table.words[word] = unpack(&bytes[32 * word..32 * word + 32]);
        }
        table
    }

    pub fn to_words(&self) -> Vec<u8> {
        let mut bytes = Vec::new();
        for word in &self.words {
            bytes.extend_from_slice(&pack(word));
        }
        bytes
    }

    /// What the lines carry when memory is read: already unscrambled.
    pub fn fetch(&self, mode: usize, address: usize) -> Row {
        let mut row = ZERO;
        for line in 0..256 {
            let (bit, word) = met(mode, address, line);
            row[line] = self.words[word][bit];
        }
        row
    }

    /// Line P's bit goes where line P points, for the lines that may write.
    pub fn store(&mut self, mode: usize, address: usize, item: &Row, may_write: &Row) {
        for line in 0..256 {
            if may_write[line] {
                let (bit, word) = met(mode, address, line);
                self.words[word][bit] = item[line];
            }
        }
    }
}
