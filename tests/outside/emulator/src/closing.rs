//! Closing and spreading (document 02, Five): what a builder answers, and what a run of the list that it built
//! leaves in memory. No document fixes the bytes of such a list or of its items, so none is made or run here: the
//! fields go straight from word to word of the table.

use crate::bits::unpack;
use crate::machine::{run, Answer};
use crate::memory::Table;
use crate::searches::Prepared;

#[derive(Clone, Copy, PartialEq, Eq, Debug)]
pub enum Way {
    /// A of the marked words, order kept, into S of words 0, 1, 2 and so on; zero into S of all other words.
    Close,
    /// S of the first words back into A of the marked words; A of the others stays.
    Spread,
}

/// The fields A and S, by their starts, and their width.
#[derive(Clone, Copy, PartialEq, Eq, Debug)]
pub struct Fields {
    pub a: u32,
    pub s: u32,
    pub width: u32,
}

impl Way {
    /// How many instructions the list has: a formula in the width alone (reading H5).
    pub fn steps(&self, width: u32) -> u32 {
        match self {
            Way::Close => 10 + 19 * width,
            Way::Spread => 1 + 18 * width,
        }
    }

    /// How many items the list takes, all that the builder gives; also with no marks at all (reading H5).
    pub fn taken(&self, width: u32) -> u32 {
        match self {
            Way::Close => 9,
            Way::Spread => 1 + 8 * width,
        }
    }
}

impl Fields {
    /// Whether a bit is in both fields; with the same start too (reading H4).
    fn meet(&self) -> bool {
        let within = |bit: u64, start: u32| start as u64 <= bit && bit < start as u64 + self.width as u64;
        (0..256).any(|bit| within(bit, self.a) && within(bit, self.s))
    }
}

/// What the builder answers for these marks and buffers of these lengths. The marks are given here, not in Y when
/// the list runs (reading H1).
pub fn prepare(way: Way, fields: Fields, marks: &[u8], list_length: usize, items_length: usize) -> Prepared {
    let refused = |number| Prepared { number, list: 0, items: 0 };
    let Fields { a, s, width } = fields;
    if marks.len() != 32 {
        return refused(35);
    }
    if width < 1 || width > 32 {
        return refused(30);
    }
    // reading H6: either start
    if a as u64 + width as u64 > 256 || s as u64 + width as u64 > 256 {
        return refused(31);
    }
    if fields.meet() {
        return refused(32);
    }
    let (list, items) = (8 * way.steps(width), 32 * way.taken(width));
    if list_length < list as usize || items_length < items as usize {
        return refused(33);
    }
    Prepared { number: 0, list, items }
}

/// The marked words, the smallest first.
pub fn marked(marks: &[u8]) -> Vec<usize> {
    let row = unpack(marks);
    (0..256).filter(|&word| row[word]).collect()
}

/// The table after the list. Only S of all words or only A of the marked ones is written.
pub fn moved(way: Way, fields: Fields, marks: &[u8], before: &Table) -> Table {
    let (a, s) = (fields.a as usize, fields.s as usize);
    let marked = marked(marks);
    let mut after = before.clone();
    for bit in 0..fields.width as usize {
        for k in 0..256 {
            match (way, marked.get(k)) {
                (Way::Close, Some(&word)) => after.set(k, s + bit, before.bit(word, a + bit)),
                (Way::Close, None) => after.set(k, s + bit, false),
                (Way::Spread, Some(&word)) => after.set(word, a + bit, before.bit(k, s + bit)),
                (Way::Spread, None) => {}
            }
        }
    }
    after
}

/// A run of the built list on these items, which begin with those built. Out and the mode registers stay as they were.
/// M, X and Y are free afterwards (reading H3); here they stay.
pub fn run_prepared(way: Way, fields: Fields, marks: &[u8], memory: &mut [u8], registers: &mut [u8], items: &[u8]) -> Answer {
    // the list itself stands and finds its items, so what is refused is what the empty list is refused for
    let judged = run(memory, registers, &[], items, &mut []);
    if judged.number != 0 {
        return judged;
    }
    moved(way, fields, marks, &Table::from_chips(memory)).to_chips(memory);
    Answer { steps: way.steps(fields.width), taken: way.taken(fields.width), ..judged }
}
