//! The cases of the searches (kinds 12 to 14): memories with equal and near fields, the planned cases
//! and the random ones.

use crate::case::*;
use crate::plan::Plan;
use emulator::memory::Table;

const SEARCHES: [u8; 3] = [EQUAL_RUN, LESS_RUN, GREATEST_RUN];
const WIDTHS: [u32; 6] = [1, 2, 31, 32, 63, 64];

/// The bytes of the list and of the items that a search of a good width wants.
pub fn room(kind: u8, n: u32) -> (u16, u16) {
    let (list, items) = if kind == GREATEST_RUN { (8 * (1 + 11 * n), 0) } else { (8 * (2 + 3 * n), 32 * n) };
    (list as u16, items as u16)
}

/// The greatest number of a field of width n, 1 to 64.
fn full(n: u32) -> u64 {
    u64::MAX >> (64 - n)
}

/// The values of the field in the memory of the case.
pub fn values(case: &Case) -> Vec<u64> {
    emulator::searches::values(&Table::from_chips(&case.make()[MEMORY]), case.p[0] as usize, case.p[1] as usize)
}

fn aim(case: &mut Case, number: u64) {
    if case.kind != GREATEST_RUN {
        case.p[2] = (number % (1 << 32)) as u32;
        case.p[3] = (number >> 32) as u32;
    }
}

/// As many words as there are values (1, 2, 4, 8 or 16) over and over: these values in the field, what
/// the seed gave elsewhere.
fn in_turn(case: &mut Case, values: &[u64]) {
    let mut base = case.make()[MEMORY][..32 * values.len()].to_vec();
    for (word, value) in values.iter().enumerate() {
        for k in 0..case.p[1] as usize {
            let bit = case.p[0] as usize + k;
            let byte = &mut base[32 * ((bit ^ word) % values.len()) + bit / 8];
            *byte = *byte & !(1 << (bit % 8)) | (((value >> k) % 2) as u8) << (bit % 8);
        }
    }
    case.patch(MEMORY, 0, &base).repeat(32 * values.len());
}

/// Turns bit k of the field over in one word.
fn turn(case: &mut Case, word: usize, k: usize) {
    let bit = case.p[0] as usize + k;
    let at = 32 * (bit ^ word) + bit / 8;
    let old = case.make()[MEMORY][at];
    case.patch(MEMORY, at, &[old ^ 1 << (bit % 8)]);
}

/// Marks these words in Y, and no others.
fn mark(case: &mut Case, marked: impl Fn(usize) -> bool) {
    let mut bytes = [0u8; 32];
    for word in (0..256).filter(|&word| marked(word)) {
        bytes[word / 8] |= 1 << (word % 8);
    }
    case.patch(REGISTERS, 64, &bytes);
}

impl Plan {
    /// A search with just the room that it wants, where the width is good, and all from the seed.
    pub fn search_of(&mut self, kind: u8, start: u32, n: u32, number: u64) -> Case {
        let mut case = self.case(kind);
        let (list, items) = room(kind, n.min(64));
        case.lengths = [8192, RECORD as u16, list, items, 0, 0];
        case.p = [start, n, 0, 0];
        aim(&mut case, number);
        case
    }

    /// A number of a field, often one whose bits are alike.
    fn number(&mut self, n: u32) -> u64 {
        let any = self.r.next() & full(n);
        self.r.of(&[any, any, any, 0, full(n), full(n) >> 1, 1 << (n - 1)])
    }

    /// Four words in turn with a number and what is near it.
    fn near(&mut self, case: &mut Case, number: u64) {
        let n = case.p[1];
        let bit = 1u64 << self.r.below(n as usize);
        let near = [number.wrapping_add(1) & full(n), number.wrapping_sub(1) & full(n), number ^ bit, number ^ 1 << (n - 1)];
        let mut words = [number, self.r.of(&near), self.r.of(&near), self.r.of(&near)];
        let first = self.r.below(4);
        words.swap(0, first);
        in_turn(case, &words);
        aim(case, number);
    }

    fn some_marks(&mut self, case: &mut Case) {
        match self.r.below(7) {
            0 => mark(case, |_| false),
            1 => {
                let one = self.r.below(256);
                mark(case, |word| word == one);
            }
            2 => mark(case, |_| true),
            3 => {
                let (one, other) = (self.r.below(256), self.r.below(256));
                mark(case, |word| word == one || word == other);
            }
            4 => {
                // all words that do not hold the greatest value of all
                let values = values(case);
                let greatest = values.iter().max().copied();
                mark(case, |word| Some(values[word]) != greatest);
            }
            _ => {} // about every second, from the seed
        }
    }

    pub fn random_search(&mut self) -> Case {
        let kind = self.r.of(&SEARCHES);
        let n = if self.r.one_in(3) { self.r.of(&WIDTHS) } else { 1 + self.r.below(64) as u32 };
        let any = self.r.below(257 - n as usize) as u32;
        let start = self.r.of(&[0, 256 - n, any, any]);
        let number = self.number(n);
        let mut case = self.search_of(kind, start, n, number);
        match self.r.below(6) {
            0 => {}
            1 => case.zeros |= 1 << MEMORY,
            2 | 3 => self.near(&mut case, number),
            _ => {
                let period = 32 << self.r.below(5);
                case.repeat(period);
            }
        }
        for _ in 0..self.r.of(&[0usize, 0, 1, 2, 6]) {
            let word = self.r.below(256);
            let k = if self.r.one_in(2) { self.r.of(&[0, n as usize - 1]) } else { self.r.below(n as usize) };
            turn(&mut case, word, k);
        }
        if !self.r.one_in(3) {
            let one = values(&case)[self.r.below(256)];
            let number = self.r.of(&[one, one, one, one.wrapping_add(1) & full(n), one.wrapping_sub(1) & full(n)]);
            aim(&mut case, number);
        }
        self.some_marks(&mut case);
        case.lengths[OUT] = self.r.of(&[0u16, 0, 32, 33]);
        case.lengths[ITEMS] += self.r.of(&[0u16, 0, 32, 96]);
        case.lengths[LIST] += self.r.of(&[0u16, 0, 1, 8, 50]);
        if self.r.one_in(4) {
            self.spoil(&mut case);
        }
        case
    }

    /// Makes something wrong, or nearly: lengths, width, start, number.
    fn spoil(&mut self, case: &mut Case) {
        let n = case.p[1];
        let (list, items) = room(case.kind, n);
        for _ in 0..1 + self.r.below(2) {
            match self.r.below(7) {
                0 => case.lengths[LIST] = self.r.of(&[list - 1, list - 8, list, 0]),
                1 => case.lengths[ITEMS] = self.r.of(&[items.saturating_sub(1), items.saturating_sub(32), items, items + 1, 32768, 32769]),
                2 => case.p[1] = self.r.of(&[0u32, 65, 66, 256, 1 << 16, (1 << 16) + n, 1 << 31, u32::MAX]),
                3 => case.p[0] = self.r.of(&[257 - n, 256, 1 << 16, 1 << 31, u32::MAX, 0u32.wrapping_sub(n)]),
                4 | 5 => {
                    let over = if n < 64 { 1u64 << n } else { u64::MAX };
                    let more = self.r.next();
                    let number = self.r.of(&[over, over, over - 1, over | more, u64::MAX, 1 << 63, 1 << 32]);
                    aim(case, number);
                }
                _ => {
                    // patches into memory and registers no longer fit
                    case.patches.clear();
                    case.lengths[MEMORY] = self.r.of(&[8191u16, 8192, 8193, 0]);
                    case.lengths[REGISTERS] = self.r.of(&[96u16, 100, 101, 0]);
                }
            }
        }
    }

    pub fn all_searches(&mut self) {
        self.searches_by_width();
        self.searches_at_the_ends();
        self.greatest_among_marked();
        self.searches_refused();
        self.searches_of_other_lengths();
        for _ in 0..60 {
            let case = self.random_search();
            self.add(case);
        }
    }

    fn searches_by_width(&mut self) {
        // every width: a number and what is near it
        for n in 1..=64u32 {
            let kind = SEARCHES[n as usize % 3];
            let (start, number) = (self.r.below(257 - n as usize) as u32, self.number(n));
            let mut case = self.search_of(kind, start, n, number);
            self.near(&mut case, number);
            self.add(case);
        }
        // the telling widths at both ends: few words in turn, one of them turned over in a bit, and any memory
        for n in WIDTHS {
            for start in [0, 256 - n] {
                for kind in SEARCHES {
                    let mut case = self.search_of(kind, start, n, 0);
                    case.repeat(256);
                    let (word, k) = (self.r.below(256), self.r.below(n as usize));
                    turn(&mut case, word, k);
                    turn(&mut case, (word + 1) % 256, 0);
                    turn(&mut case, (word + 2) % 256, n as usize - 1);
                    let one = values(&case)[self.r.below(256)];
                    aim(&mut case, one);
                    self.some_marks(&mut case);
                    self.add(case);
                    let mut case = self.search_of(kind, start, n, 0);
                    let one = values(&case)[self.r.below(256)];
                    aim(&mut case, one);
                    self.add(case);
                }
            }
        }
    }

    /// Numbers at the ends of their range, in memories of the smallest and the greatest values.
    fn searches_at_the_ends(&mut self) {
        for kind in [EQUAL_RUN, LESS_RUN] {
            for n in WIDTHS {
                let over = if n < 64 { vec![1 << n, u64::MAX] } else { vec![] };
                for number in [vec![0, 1, full(n)], over].concat() {
                    let start = self.r.of(&[0, 256 - n]);
                    let mut case = self.search_of(kind, start, n, number);
                    in_turn(&mut case, &[0, 1, full(n), full(n) - 1]);
                    self.add(case);
                }
            }
            // 2^n in a number of which only the low or the high half counts
            for (n, number) in [(1u32, 1u64 << 32), (31, 1 << 32), (32, (1 << 32) + 5), (32, 1 << 63), (33, (1 << 33) + 1), (63, (1 << 63) + 1)] {
                let case = self.search_of(kind, 7, n, number);
                self.add(case);
            }
            // zeros: none is less than 0, all are less than 1
            for number in [0u64, 1] {
                for marks in [false, true] {
                    let mut case = self.search_of(kind, 100, 16, number);
                    case.zeros |= 1 << MEMORY;
                    mark(&mut case, |_| marks);
                    self.add(case);
                }
            }
        }
    }

    fn greatest_among_marked(&mut self) {
        for n in WIDTHS {
            let start = self.r.of(&[0, 256 - n]);
            let some = self.number(n) & !1;
            // none, one, all marked; the words of one value each; none of those that hold the greatest
            for marks in 0..8usize {
                let mut case = self.search_of(GREATEST_RUN, start, n, 0);
                in_turn(&mut case, &[some, some | 1, some | 1, some & (full(n) >> 1)]);
                let one = self.r.below(256);
                mark(&mut case, |word| match marks {
                    0 => false,
                    1 => word == one,
                    2 => true,
                    3 => word % 4 == 0 || word == 7,
                    4 => word % 4 == 1 && word > 100 || word == 0,
                    5 => word % 4 != 1 && word % 4 != 2,
                    6 => word == 1 || word == 254,
                    _ => word == 0 || word == 255,
                });
                self.add(case);
            }
            // all words equal, and one of them greater or smaller by one bit, marked or not
            for (bits, marked) in [(0usize, true), (1, true), (1, false), (2, true)] {
                let mut case = self.search_of(GREATEST_RUN, start, n, 0);
                case.repeat(32);
                let word = self.r.below(256);
                for k in [n as usize - 1, 0].into_iter().take(bits) {
                    turn(&mut case, word, k);
                }
                mark(&mut case, |w| w != word || marked);
                self.add(case);
            }
        }
        // each bit of a wide field decides
        for k in (0..64).step_by(7) {
            let mut case = self.search_of(GREATEST_RUN, 128, 64, 0);
            case.repeat(32);
            turn(&mut case, 10 + k, k);
            turn(&mut case, 200, k);
            mark(&mut case, |_| true);
            self.add(case);
        }
        // zeros: all that are marked stay
        for marks in 0..3usize {
            let mut case = self.search_of(GREATEST_RUN, 192, 64, 0);
            case.zeros |= 1 << MEMORY;
            mark(&mut case, |word| marks == 0 || marks == 1 && word == 255);
            self.add(case);
        }
    }

    /// Each refusal alone, and before those that come later.
    fn searches_refused(&mut self) {
        for kind in SEARCHES {
            for (k, n) in [0u32, 65, 66, 128, 256, (1 << 16) + 8, 1 << 31, u32::MAX].into_iter().enumerate() {
                let mut case = self.search_of(kind, [0, u32::MAX][k % 2], n, [0, u64::MAX][k / 2 % 2]);
                if k / 4 == 1 {
                    case.lengths = [0; COUNT];
                }
                self.add(case);
            }
            for n in [1u32, 2, 32, 64] {
                for (k, start) in [257 - n, 256, 1 << 16, 1 << 31, u32::MAX, 0u32.wrapping_sub(n)].into_iter().enumerate() {
                    let mut case = self.search_of(kind, start, n, [0, u64::MAX][k % 2]);
                    if k % 3 == 1 {
                        case.lengths = [0; COUNT];
                    }
                    self.add(case);
                }
            }
            for n in WIDTHS {
                // the list short by one, the items short by one, both; 34 comes before them
                let (list, items) = room(kind, n);
                for (less_list, less_items, over) in [(1u16, 0u16, false), (8, 0, false), (0, 1, false), (0, 32, false), (1, 1, false), (1, 0, true), (0, 1, true), (list, items, true)] {
                    if kind == GREATEST_RUN && (less_items > 0 || over) || n == 64 && over {
                        continue;
                    }
                    let number = if over { 1 << n } else { full(n) };
                    let mut case = self.search_of(kind, 256 - n, n, number);
                    case.lengths[LIST] -= less_list;
                    case.lengths[ITEMS] -= less_items;
                    if n % 2 == 0 {
                        case.lengths[MEMORY] = 0;
                        case.lengths[REGISTERS] = 0;
                    }
                    self.add(case);
                }
            }
        }
    }

    /// Buffers longer than wanted, and those that a run refuses.
    fn searches_of_other_lengths(&mut self) {
        for kind in SEARCHES {
            for (list, items, out) in [(1u16, 0u16, 0u16), (7, 32, 31), (8, 64, 32), (100, 320, 100), (0, 1, 0), (3, 31, 64), (0, 33, 0)] {
                let mut case = self.search_of(kind, 40, 9, 300);
                case.repeat(128);
                case.lengths[LIST] += list;
                case.lengths[ITEMS] += items;
                case.lengths[OUT] = out;
                self.add(case);
            }
            for (memory, registers, items) in [(8191u16, 100u16, 288u16), (8193, 99, 288), (8192, 96, 288), (8192, 101, 289), (0, 0, 289), (8192, 100, 32767), (8192, 100, 32768), (8192, 100, 32769), (8192, 100, 32800), (0, 100, 288)] {
                let mut case = self.search_of(kind, 247, 9, 511);
                case.lengths[MEMORY] = memory;
                case.lengths[REGISTERS] = registers;
                case.lengths[ITEMS] = items;
                self.add(case);
            }
        }
    }
}

#[cfg(test)]
mod tests {
    use super::*;
    use std::collections::BTreeSet;

    #[test]
    fn repeated_memory_has_few_words() {
        for k in 0..=8 {
            let mut case = Case::new(LESS_RUN, 77);
            case.lengths[MEMORY] = 8192;
            case.p = [100, 64, 0, 0];
            case.repeat(32 << k);
            let values = values(&case);
            assert!((0..256).all(|word| values[word] == values[word % (1 << k)]));
            assert_eq!(values.into_iter().collect::<BTreeSet<u64>>().len(), 1 << k);
        }
    }

    #[test]
    fn words_in_turn_and_turned_over() {
        let mut case = Case::new(EQUAL_RUN, 77);
        case.lengths[MEMORY] = 8192;
        case.p = [193, 63, 0, 0];
        let four = [5, u64::MAX >> 1, 0, 1 << 62];
        in_turn(&mut case, &four);
        assert!(values(&case).iter().enumerate().all(|(word, &value)| value == four[word % 4]));
        turn(&mut case, 130, 62);
        assert!(values(&case).iter().enumerate().all(|(word, &value)| value == if word == 130 { 1 << 62 } else { four[word % 4] }));
    }

    /// What the stored searches must reach.
    #[test]
    fn stored_searches_reach_everything() {
        let mut plan = Plan::new(crate::STORED_SEED);
        plan.stored(crate::STORED_RANDOM);
        let cases: Vec<Case> = plan.cases.into_iter().filter(|case| case.search().is_some()).collect();
        assert!(cases.len() >= 300);
        let mut numbers = BTreeSet::new();
        let mut fields = BTreeSet::new();
        let mut aims = BTreeSet::new();
        let mut short = BTreeSet::new();
        let mut marks = BTreeSet::new();
        for case in &cases {
            let reply = case.answer();
            let (number, _) = case.number_and_place(&reply);
            numbers.insert((case.kind, number));
            let (n, aim) = (case.p[1], case.p[2] as u64 + ((case.p[3] as u64) << 32));
            if number == 33 {
                let (list, items) = room(case.kind, n);
                short.insert((case.kind, n, case.lengths[LIST] as i32 - list as i32, case.lengths[ITEMS] as i32 - items as i32));
            }
            if number == 34 && n < 64 {
                aims.insert((case.kind, 34, n, aim == 1 << n));
            }
            if number != 0 {
                continue;
            }
            fields.insert((case.kind, n, if case.p[0] == 0 { 0 } else if case.p[0] == 256 - n { 1 } else { 2 }));
            aims.insert((case.kind, 0, n, aim == full(n)));
            if case.kind == GREATEST_RUN {
                let mut buffers = case.make();
                let before: u32 = buffers[REGISTERS][64..96].iter().map(|b| b.count_ones()).sum();
                case.call(&mut buffers);
                let after: u32 = buffers[REGISTERS][64..96].iter().map(|b| b.count_ones()).sum();
                let size = |count| match count { 0 | 1 => count, 256 => 3, _ => 2 };
                marks.insert((size(before), size(after)));
            }
        }
        for kind in SEARCHES {
            assert!([0, 1, 2, 4, 30, 31, 33].iter().all(|&number| numbers.contains(&(kind, number))));
            assert_eq!(numbers.contains(&(kind, 34)), kind != GREATEST_RUN);
            for n in WIDTHS {
                assert!(fields.contains(&(kind, n, 0)) && fields.contains(&(kind, n, 1)));
                assert!(short.contains(&(kind, n, -1, 0)));
                if kind != GREATEST_RUN {
                    assert!(short.contains(&(kind, n, 0, -1)));
                    assert!(aims.contains(&(kind, 0, n, true)));
                    assert!(n == 64 || aims.contains(&(kind, 34, n, true)));
                }
            }
            assert!((1..=64).all(|n| SEARCHES.iter().any(|&k| (0..3).any(|end| fields.contains(&(k, n, end))))));
        }
        // none, one, several and all marked, and what is left of them
        assert!([(0, 0), (1, 1), (2, 1), (2, 2), (3, 1), (3, 2), (3, 3)].iter().all(|m| marks.contains(m)));
    }

    #[test]
    fn one_random_case_in_nine_is_a_search() {
        let mut plan = Plan::new(3);
        plan.random_others(4000);
        let searches = plan.cases.iter().filter(|case| case.search().is_some()).count();
        assert!(400 < searches && searches < 600, "{}", searches);
    }
}
