//! The searches over a field (document 02, One): what a builder answers and leaves in its buffers, and
//! what a run of the list that it built leaves behind. No document fixes the bytes of such a list, so
//! none is made or run here: the words found are those of the table by whole-number comparison.

use crate::bits::{pack, unpack, Row, ZERO};
use crate::machine::{run, Answer};
use crate::memory::Table;

#[derive(Clone, Copy, PartialEq, Eq, Debug)]
pub enum Search {
    /// The words whose field is the number, of all 256 (reading F1).
    Equal(u64),
    /// The words whose field is less than the number, of all 256.
    Less(u64),
    /// The words marked in Y at the start whose field is the greatest among theirs.
    Greatest,
}

/// Number, bytes of the list and bytes of the items; a refusal has the last two 0 (reading F6).
#[derive(Clone, Copy, PartialEq, Eq, Debug)]
pub struct Prepared {
    pub number: u32,
    pub list: u32,
    pub items: u32,
}

impl Search {
    /// How many instructions the list has: a formula in the width.
    pub fn steps(&self, width: u32) -> u32 {
        match self {
            Search::Equal(_) | Search::Less(_) => 2 + 3 * width,
            Search::Greatest => 1 + 11 * width,
        }
    }

    /// How many items the list takes; all that the builder gives (reading F5), none for the greatest.
    pub fn taken(&self, width: u32) -> u32 {
        match self {
            Search::Equal(_) | Search::Less(_) => width,
            Search::Greatest => 0,
        }
    }

    fn number(&self) -> Option<u64> {
        match *self {
            Search::Equal(number) | Search::Less(number) => Some(number),
            Search::Greatest => None,
        }
    }
}

/// What the builder answers for a list buffer of this length, and what it leaves in the items: item k
/// has bit k of the number on every line. The greatest has no number and no items (readings F2, F7).
pub fn prepare(search: Search, start: u32, width: u32, list_length: usize, items: &mut [u8]) -> Prepared {
    let refused = |number| Prepared { number, list: 0, items: 0 };
    if width < 1 || width > 64 {
        return refused(30);
    }
    if start as u64 + width as u64 > 256 {
        return refused(31);
    }
    let number = search.number().unwrap_or(0);
    if number as u128 >= 1u128 << width {
        return refused(34);
    }
    let (list, taken) = (8 * search.steps(width), 32 * search.taken(width));
    if list_length < list as usize || items.len() < taken as usize {
        return refused(33);
    }
    for (k, item) in items[..taken as usize].chunks_mut(32).enumerate() {
        let on_every_line = [(number >> k) % 2 == 1; 256];
        item.copy_from_slice(&pack(&on_every_line));
    }
    Prepared { number: 0, list, items: taken }
}

/// The number in each word's field: bit k of the value is bit start + k of the word.
pub fn values(table: &Table, start: usize, width: usize) -> Vec<u64> {
    let value = |word| (0..width).map(|k| (table.bit(word, start + k) as u64) << k).sum();
    (0..256).map(value).collect()
}

/// The words found, by whole-number comparison.
pub fn found(search: Search, values: &[u64], marked: &Row) -> Row {
    let greatest = (0..256).filter(|&word| marked[word]).map(|word| values[word]).max();
    let mut row = ZERO;
    for word in 0..256 {
        row[word] = match search {
            Search::Equal(number) => values[word] == number,
            Search::Less(number) => values[word] < number,
            Search::Greatest => marked[word] && Some(values[word]) == greatest,
        };
    }
    row
}

/// A run of the built list on these items, which begin with those built. Memory, M and out stay as they
/// were, and so do the mode registers; Y has the words found; X is as Y after equal and less, 0 after greatest.
pub fn run_prepared(search: Search, start: u32, width: u32, memory: &mut [u8], registers: &mut [u8], items: &[u8]) -> Answer {
    // the list itself stands and finds its items, so what is refused is what the empty list is refused for
    let judged = run(memory, registers, &[], items, &mut []);
    if judged.number != 0 {
        return judged;
    }
    let table = Table::from_chips(memory);
    let marked = unpack(&registers[64..96]);
    let y = found(search, &values(&table, start as usize, width as usize), &marked);
    let x = if search == Search::Greatest { ZERO } else { y };
    registers[32..64].copy_from_slice(&pack(&x));
    registers[64..96].copy_from_slice(&pack(&y));
    Answer { steps: search.steps(width), taken: search.taken(width), ..judged }
}
