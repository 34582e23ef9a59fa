//! The cases of closing and spreading (kinds 15 and 16; document 02, Five): marks of many shapes, distances of every
//! digit, fields at the ends and touching, refusals alone and in pairs, and the random ones.

use crate::case::*;
use crate::masks::lines;
use crate::plan::Plan;

const WAYS: [u8; 2] = [CLOSE_RUN, SPREAD_RUN];
const WIDTHS: [u32; 6] = [1, 2, 7, 8, 31, 32];
/// How many of the stored cases are random ones.
const RANDOM: usize = 12;

/// The bytes of the list and of the items that a closing or spreading wants.
pub fn room(kind: u8, n: u32) -> (u16, u16) {
    let (list, items) = if kind == CLOSE_RUN { (8 * (10 + 19 * n), 288) } else { (8 * (1 + 18 * n), 32 * (1 + 8 * n)) };
    (list as u16, items as u16)
}

/// These marks, of any length, and no others.
fn mark(case: &mut Case, marks: &[u8]) {
    case.zeros |= 1 << MARKS;
    case.lengths[MARKS] = marks.len() as u16;
    case.patches.retain(|patch| patch.target as usize != MARKS);
    case.patch(MARKS, 0, marks);
}

/// The words whose numbers are sums 0, 2, 2 + 3, 2 + 3 + 4 and so on: each gap is longer by one.
fn growing(word: usize) -> bool {
    (0..24).any(|k| k * (k + 3) / 2 == word)
}

/// None, all, every second, halves, runs with gaps, dense, sparse, the first and the last ones.
fn shapes() -> Vec<[u8; 32]> {
    vec![
        lines(|_| false),
        lines(|_| true),
        lines(|word| word % 2 == 0),
        lines(|word| word % 2 == 1),
        lines(|word| word < 128),
        lines(|word| word % 7 < 4),
        lines(|word| word / 16 % 2 == 1),
        lines(|word| word % 13 > 0),
        lines(|word| word != 255),
        lines(|word| [3, 64, 65, 200].contains(&word)),
        lines(|word| word == 0 || word == 255),
        lines(growing),
        lines(|word| word.count_ones() % 2 == 1),
        lines(|word| word < 100),
        lines(|word| word >= 254),
    ]
}

impl Plan {
    /// With just the room that it wants and any content; the marks are from the seed.
    pub fn closing(&mut self, kind: u8, a: u32, s: u32, n: u32) -> Case {
        let mut case = self.case(kind);
        let (list, items) = room(kind, n.min(64));
        case.lengths = [8192, RECORD as u16, list, items, 0, 32];
        case.p = [a, s, n, 0];
        case
    }

    /// Starts of A and S that stand, in one of several arrangements.
    fn two_fields(&mut self, n: u32, arrangement: usize) -> (u32, u32) {
        match arrangement {
            0 => (0, 256 - n),           // the two ends
            1 => (256 - n, 0),
            2 => (0, n),                 // touching, in front
            3 => (n, 0),
            4 => (256 - 2 * n, 256 - n), // touching, at the end
            5 => (256 - n, 256 - 2 * n),
            _ => loop {
                let top = 257 - n as usize;
                let (a, s) = (self.r.below(top) as u32, self.r.below(top) as u32);
                if a.abs_diff(s) >= n {
                    return (a, s);
                }
            },
        }
    }

    /// A closing or spreading by these marks, the fields in any place.
    fn by_marks(&mut self, kind: u8, n: u32, marks: &[u8]) -> Case {
        let (a, s) = self.two_fields(n, 6);
        let mut case = self.closing(kind, a, s, n);
        mark(&mut case, marks);
        case
    }

    fn any_marks(&mut self) -> [u8; 32] {
        let mut any = [0u8; 32];
        any.fill_with(|| self.r.byte());
        any
    }

    fn some_marked(&mut self) -> [u8; 32] {
        let (one, other) = (self.r.below(256), self.r.below(256));
        let (any, more, third) = (self.any_marks(), self.any_marks(), self.any_marks());
        match self.r.below(14) {
            0 => [0; 32],
            1 => [255; 32],
            2 => lines(|word| word == one),
            3 => lines(|word| word != one),
            4 => lines(|word| word < one),
            5 => lines(|word| word >= one),
            6 => lines(|word| word == one || word == other),
            7 => lines(|word| word % (1 + one % 9) == 0),
            8 => lines(|word| word % (2 + one % 30) > other % 4),
            9 => lines(|word| one.min(other) <= word && word < one.max(other)),
            10 => std::array::from_fn(|k| any[k] & more[k] & third[k]),
            11 => std::array::from_fn(|k| any[k] | more[k] | third[k]),
            _ => any,
        }
    }

    pub fn random_closing(&mut self) -> Case {
        let kind = self.r.of(&WAYS);
        let n = if self.r.one_in(3) { self.r.of(&WIDTHS) } else { 1 + self.r.below(32) as u32 };
        let arrangement = self.r.below(12);
        let (a, s) = self.two_fields(n, arrangement);
        let mut case = self.closing(kind, a, s, n);
        if !self.r.one_in(4) {
            let marks = self.some_marked();
            mark(&mut case, &marks);
        }
        match self.r.below(8) {
            0 => {
                case.patch(MEMORY, 0, &[255; 32]).repeat(32);
            }
            1 => {
                case.repeat(32 << self.r.below(8));
            }
            _ => {}
        }
        case.lengths[OUT] = self.r.of(&[0u16, 0, 32, 33]);
        case.lengths[ITEMS] += self.r.of(&[0u16, 0, 32, 96]);
        case.lengths[LIST] += self.r.of(&[0u16, 0, 1, 8, 50]);
        if self.r.one_in(4) {
            self.spoil_closing(&mut case);
        }
        case
    }

    /// Makes something wrong, or nearly: lengths, marks, width, starts.
    fn spoil_closing(&mut self, case: &mut Case) {
        let n = case.p[2];
        let (list, items) = room(case.kind, n);
        for _ in 0..1 + self.r.below(2) {
            match self.r.below(8) {
                0 => case.lengths[LIST] = self.r.of(&[list - 1, list - 8, list, 0]),
                1 => case.lengths[ITEMS] = self.r.of(&[items - 1, items - 32, items, items + 1, 32768, 32769]),
                2 => case.p[2] = self.r.of(&[0u32, 33, 34, 64, 1 << 16, (1 << 16) + n, 1 << 31, u32::MAX]),
                3 => {
                    let start = self.r.of(&[257 - n, 256, 1 << 16, 1 << 31, u32::MAX, 0u32.wrapping_sub(n)]);
                    case.p[self.r.below(2)] = start;
                }
                4 | 5 => {
                    let from = self.r.below(2);
                    let near = [0, n - 1, n, 1, 0u32.wrapping_sub(n), 1u32.wrapping_sub(n)];
                    case.p[1 - from] = case.p[from].wrapping_add(self.r.of(&near));
                }
                6 => {
                    let marks = self.some_marked().repeat(2);
                    let length = self.r.of(&[0usize, 1, 31, 33, 64]);
                    mark(case, &marks[..length]);
                }
                _ => {
                    // patches into memory and registers no longer fit
                    case.patches.retain(|patch| patch.target as usize == MARKS);
                    case.lengths[MEMORY] = self.r.of(&[8191u16, 8192, 8193, 0]);
                    case.lengths[REGISTERS] = self.r.of(&[96u16, 100, 101, 0]);
                }
            }
        }
    }

    pub fn all_closings(&mut self) {
        self.closings_by_shape();
        self.closings_by_digit();
        self.closings_by_fields();
        self.closings_refused();
        self.closings_of_other_lengths();
        for _ in 0..RANDOM {
            let case = self.random_closing();
            self.add(case);
        }
    }

    fn closings_by_shape(&mut self) {
        for (w, kind) in WAYS.into_iter().enumerate() {
            for (k, marks) in shapes().into_iter().enumerate() {
                let n = [8, 1, 32, 7, 2, 31, 13, 24][(k + 3 * w) % 8];
                let case = self.by_marks(kind, n, &marks);
                self.add(case);
            }
            // one word
            for (k, one) in [0usize, 1, 127, 128, 254, 255].into_iter().enumerate() {
                let n = [7, 8, 31, 32, 13, 24][(k + 3 * w) % 6];
                let case = self.by_marks(kind, n, &lines(|word| word == one));
                self.add(case);
            }
            // ones everywhere: none, and those whose gaps grow
            for marks in [[0; 32], lines(growing)] {
                let mut case = self.by_marks(kind, 9, &marks);
                case.patch(MEMORY, 0, &[255; 32]).repeat(32);
                self.add(case);
            }
        }
    }

    /// As many words in front as the digit says are not marked: every distance is that digit.
    fn closings_by_digit(&mut self) {
        for digit in 0..8 {
            for kind in WAYS {
                let n = 1 + self.r.below(32) as u32;
                let case = self.by_marks(kind, n, &lines(|word| word >= 1 << digit));
                self.add(case);
            }
        }
    }

    /// A before and behind S, touching it, at the ends; the marks are from the seed.
    fn closings_by_fields(&mut self) {
        for (w, n) in WIDTHS.into_iter().enumerate() {
            for arrangement in 0..6 {
                // one of the two ways for the narrow ones, both for the widest
                for (k, kind) in WAYS.into_iter().enumerate() {
                    if n == 32 || (n == 1 || arrangement / 2 == w % 3) && k == (arrangement + w) % 2 {
                        let (a, s) = self.two_fields(n, arrangement);
                        let case = self.closing(kind, a, s, n);
                        self.add(case);
                    }
                }
            }
        }
    }

    /// Each refusal alone, and before one that comes later. A, S, width, bytes of marks, and what the list and the
    /// items lack.
    fn closings_refused(&mut self) {
        for (w, kind) in WAYS.into_iter().enumerate() {
            let alone = [
                (10u32, 100u32, 8u32, 31usize, 0u16, 0u16),
                (10, 100, 8, 33, 0, 0),
                (10, 100, 8, 0, 0, 0),
                (10, 100, 0, 32, 0, 0),
                (10, 100, 33, 32, 0, 0),
                (10, 100, 64, 32, 0, 0),
                (10, 100, (1 << 16) + 8, 32, 0, 0),
                (10, 100, [1 << 31, u32::MAX][w], 32, 0, 0),
                (249, 100, 8, 32, 0, 0),
                (10, 225, 32, 32, 0, 0),
                (u32::MAX, 100, 1, 32, 0, 0),
                (10, 0u32.wrapping_sub(8), 8, 32, 0, 0),
                (100, 100, 8, 32, 0, 0),
                (100, 107, 8, 32, 0, 0),
                (107, 100, 8, 32, 0, 0),
                ([0, 255][w], [0, 255][w], 1, 32, 0, 0),
                (224, 224 - [0, 31][w], 32, 32, 0, 0),
                (0, 1, 1, 32, 1, 0),
                (10, 100, 32, 32, 0, 1),
                (100, 10, 31, 32, 8, 32),
                (100, 10, 2, 32, 0, 32),
            ];
            let pairs = [
                (10, 100, [0, 33][w], 31, 0, 0),
                ([249, 10][w], [100, 249][w], 8, 33, 0, 0),
                (100, [100, 101][w], 8, 0, 0, 0),
                (10, 100, 8, 64, 1, 0),
                (10, 100, 8, 16, 0, 1),
                ([224, 10][w], [100, 224][w], 33, 32, 0, 0),
                ([10, 42][w], [42, 10][w], 33, 32, 0, 0),
                (10, 100, 33, 32, 1, 0),
                (10, 100, [0, 33][w], 32, 0, 1),
                ([250, 251][w], [250, 249][w], 8, 32, 0, 0),
                (10, 249, 8, 32, 1, 0),
                (249, 10, 8, 32, 0, 1),
                (100, 100, 8, 32, 1, 0),
                (100, [93, 100][w], 8, 32, 0, 1),
            ];
            for (k, (a, s, n, marks, less_list, less_items)) in alone.into_iter().chain(pairs).enumerate() {
                let mut case = self.closing(kind, a, s, n);
                case.lengths[MARKS] = marks as u16;
                case.lengths[LIST] -= less_list;
                case.lengths[ITEMS] -= less_items;
                if k % 4 == 3 {
                    // the builder is refused before the run could be
                    case.lengths[MEMORY] = 0;
                    case.lengths[REGISTERS] = 95;
                }
                self.add(case);
            }
            // no marks: the lengths are the same
            for (less_list, less_items) in [(8, 0), (0, 32)] {
                let mut case = self.by_marks(kind, 5, &[0; 32]);
                case.lengths[LIST] -= less_list;
                case.lengths[ITEMS] -= less_items;
                self.add(case);
            }
        }
    }

    /// Buffers longer than wanted, and those that a run refuses.
    fn closings_of_other_lengths(&mut self) {
        for kind in WAYS {
            for (list, items, out) in [(1u16, 0u16, 0u16), (8, 32, 31), (100, 320, 8200), (0, 1, 0), (3, 31, 64)] {
                let mut case = self.closing(kind, 40, 60, 9);
                case.lengths[LIST] += list;
                case.lengths[ITEMS] += items;
                case.lengths[OUT] = out;
                self.add(case);
            }
            let wanted = room(kind, 9).1;
            for (memory, registers, items) in [(8191u16, 100u16, wanted), (8193, 99, wanted + 1), (8192, 96, wanted), (8192, 104, wanted + 1), (8192, 100, 32768), (8192, 100, 32769), (8192, 100, 32800)] {
                let mut case = self.closing(kind, 60, 40, 9);
                case.lengths[MEMORY] = memory;
                case.lengths[REGISTERS] = registers;
                case.lengths[ITEMS] = items;
                self.add(case);
            }
        }
    }
}

#[cfg(test)]
mod tests {
    use super::*;
    use emulator::memory::Table;
    use std::collections::BTreeSet;

    fn stored_closings() -> Vec<Case> {
        let mut plan = Plan::new(crate::STORED_SEED);
        plan.stored(crate::STORED_RANDOM);
        // those of the mode registers stand behind
        plan.cases.truncate(crate::modes::BEFORE);
        let all = plan.cases.iter().filter(|case| case.way().is_some()).count();
        let behind = plan.cases.into_iter().skip_while(|case| case.way().is_none());
        let cases: Vec<Case> = behind.take_while(|case| case.way().is_some()).collect();
        assert!(120 <= cases.len() && cases.len() <= 200, "{}", cases.len());
        // they stand together
        assert_eq!(cases.len(), all);
        cases
    }

    // ---- the builder's number

    /// What would be refused, each by itself.
    #[derive(Clone, Copy)]
    struct Faults {
        a: u64,
        s: u64,
        n: u64,
        marks: usize,
        list: bool,
        items: bool,
        /// Just as long as wanted.
        list_fits: bool,
        items_fit: bool,
        /// No word is marked.
        none: bool,
    }

    impl Faults {
        fn of(case: &Case) -> Faults {
            let (a, s, n) = (case.p[0] as u64, case.p[1] as u64, case.p[2] as u64);
            let (list, items) = if case.kind == CLOSE_RUN { (8 * (10 + 19 * n), 288) } else { (8 * (1 + 18 * n), 32 * (1 + 8 * n)) };
            let (has_list, has_items) = (case.lengths[LIST] as u64, case.lengths[ITEMS] as u64);
            Faults {
                a,
                s,
                n,
                marks: case.lengths[MARKS] as usize,
                list: has_list < list,
                items: has_items < items,
                list_fits: has_list == list,
                items_fit: has_items == items,
                none: case.make()[MARKS].iter().all(|&byte| byte == 0),
            }
        }
        fn marks(&self) -> (bool, u32) {
            (self.marks != 32, 35)
        }
        fn width(&self) -> (bool, u32) {
            (self.n == 0 || self.n > 32, 30)
        }
        fn over(&self) -> (bool, u32) {
            (self.a + self.n > 256 || self.s + self.n > 256, 31)
        }
        fn meet(&self) -> (bool, u32) {
            (self.a < self.s + self.n && self.s < self.a + self.n, 32)
        }
        fn short(&self) -> (bool, u32) {
            (self.list || self.items, 33)
        }
        /// All in the order of document 02.
        fn all(&self) -> [(bool, u32); 5] {
            [self.marks(), self.width(), self.over(), self.meet(), self.short()]
        }
    }

    fn first(faults: [(bool, u32); 5]) -> u32 {
        faults.into_iter().find(|fault| fault.0).map_or(0, |fault| fault.1)
    }

    /// As it is, but for this one.
    fn but(f: &Faults, at: usize, fault: bool) -> u32 {
        let mut all = f.all();
        all[at].0 = fault;
        first(all)
    }

    const WRONG_NUMBERS: [(&str, fn(&Faults) -> u32); 34] = [
        ("the same start allowed, as for sums", |f| but(f, 3, f.meet().0 && f.a != f.s)),
        ("only the same start refused", |f| but(f, 3, f.a == f.s)),
        ("S that begins in A only", |f| but(f, 3, f.a <= f.s && f.s < f.a + f.n)),
        ("A that begins in S only", |f| but(f, 3, f.s <= f.a && f.a < f.s + f.n)),
        ("touching is meeting", |f| but(f, 3, f.a <= f.s + f.n && f.s <= f.a + f.n)),
        ("touching is meeting, S first", |f| but(f, 3, f.a <= f.s + f.n && f.s < f.a + f.n)),
        ("meeting by one bit allowed", |f| but(f, 3, f.a + 1 < f.s + f.n && f.s + 1 < f.a + f.n)),
        ("width to 64", |f| but(f, 1, f.n == 0 || f.n > 64)),
        ("width to 33", |f| but(f, 1, f.n == 0 || f.n > 33)),
        ("width to 31", |f| but(f, 1, f.n == 0 || f.n > 31)),
        ("width 0 allowed", |f| but(f, 1, f.n > 32)),
        ("width modulo 65,536", |f| but(f, 1, f.n % 65536 == 0 || f.n % 65536 > 32)),
        ("31 for A alone", |f| but(f, 2, f.a + f.n > 256)),
        ("31 for S alone", |f| but(f, 2, f.s + f.n > 256)),
        ("31 with a wrapped sum of A", |f| but(f, 2, (f.a + f.n) % (1 << 32) > 256 || f.s + f.n > 256)),
        ("31 with a wrapped sum of S", |f| but(f, 2, f.a + f.n > 256 || (f.s + f.n) % (1 << 32) > 256)),
        ("31 from 256 on", |f| but(f, 2, f.a + f.n >= 256 || f.s + f.n >= 256)),
        ("31 from 258 on", |f| but(f, 2, f.a + f.n > 257 || f.s + f.n > 257)),
        ("33 for the list alone", |f| but(f, 4, f.list)),
        ("33 for the items alone", |f| but(f, 4, f.items)),
        ("33 for a list that just fits", |f| but(f, 4, f.short().0 || f.list_fits)),
        ("33 for items that just fit", |f| but(f, 4, f.short().0 || f.items_fit)),
        ("no marks want no list", |f| but(f, 4, f.list && !f.none || f.items)),
        ("no marks want no items", |f| but(f, 4, f.list || f.items && !f.none)),
        ("short marks allowed", |f| but(f, 0, f.marks > 32)),
        ("long marks allowed", |f| but(f, 0, f.marks < 32)),
        ("no bytes of marks allowed", |f| but(f, 0, f.marks != 32 && f.marks != 0)),
        ("30 before 35", |f| first([f.width(), f.marks(), f.over(), f.meet(), f.short()])),
        ("35 last", |f| first([f.width(), f.over(), f.meet(), f.short(), f.marks()])),
        ("31 before 30", |f| first([f.marks(), f.over(), f.width(), f.meet(), f.short()])),
        ("32 before 31", |f| first([f.marks(), f.width(), f.meet(), f.over(), f.short()])),
        ("33 before 32", |f| first([f.marks(), f.width(), f.over(), f.short(), f.meet()])),
        ("33 before 31", |f| first([f.marks(), f.width(), f.short(), f.over(), f.meet()])),
        ("33 first", |f| first([f.short(), f.marks(), f.width(), f.over(), f.meet()])),
    ];

    #[test]
    fn the_stored_closings_tell_the_builders_number() {
        let cases = stored_closings();
        for kind in WAYS {
            let mut noticed = [0; WRONG_NUMBERS.len()];
            for case in cases.iter().filter(|case| case.kind == kind) {
                let faults = Faults::of(case);
                let number = case.answer().words[0];
                assert_eq!(number, first(faults.all()), "{:?}", case);
                for (k, (_, wrong)) in WRONG_NUMBERS.iter().enumerate() {
                    noticed[k] += (wrong(&faults) != number) as usize;
                }
            }
            for ((name, _), count) in WRONG_NUMBERS.iter().zip(noticed) {
                println!("{}, {}: {}", KINDS[kind as usize], name, count);
                assert!(count > 0, "{}: {}", kind, name);
            }
        }
    }

    /// Each pair of refusals that hold together and no third, for each of the two buffers.
    #[test]
    fn the_stored_closings_have_each_pair_of_refusals() {
        let cases = stored_closings();
        for kind in WAYS {
            let mut pairs = BTreeSet::new();
            for case in cases.iter().filter(|case| case.kind == kind) {
                let f = Faults::of(case);
                let mut held = vec![];
                for (name, fault) in [("35", f.marks().0), ("30", f.width().0), ("31", f.over().0), ("32", f.meet().0), ("list", f.list), ("items", f.items)] {
                    if fault {
                        held.push(name);
                    }
                }
                pairs.insert(held);
            }
            let order = ["35", "30", "31", "32", "list", "items"];
            for (k, one) in order.into_iter().enumerate() {
                assert!(pairs.contains(&vec![one]), "{} {}", kind, one);
                for other in order.into_iter().skip(k + 1) {
                    assert!(pairs.contains(&vec![one, other]), "{} {} {}", kind, one, other);
                }
            }
            assert!(pairs.contains(&vec![]));
        }
    }

    // ---- the memory

    /// A run that is done: what it began with.
    struct Asked {
        close: bool,
        a: usize,
        s: usize,
        n: usize,
        marks: [u8; 32],
        y: [u8; 32],
        table: Table,
    }

    fn asked(case: &Case) -> Option<Asked> {
        if case.number_and_place(&case.answer()).0 != 0 {
            return None;
        }
        let buffers = case.make();
        let item = |bytes: &[u8]| <[u8; 32]>::try_from(bytes).unwrap();
        Some(Asked {
            close: case.kind == CLOSE_RUN,
            a: case.p[0] as usize,
            s: case.p[1] as usize,
            n: case.p[2] as usize,
            marks: item(&buffers[MARKS]),
            y: item(&buffers[REGISTERS][64..96]),
            table: Table::from_chips(&buffers[MEMORY]),
        })
    }

    fn words(marks: &[u8; 32]) -> Vec<usize> {
        (0..256).filter(|word| marks[word / 8] >> (word % 8) & 1 == 1).collect()
    }

    fn copy(to: &mut Table, target: usize, at: usize, from: &Table, source: usize, start: usize, n: usize) {
        for bit in 0..n {
            to.set(target, at + bit, from.bit(source, start + bit));
        }
    }

    fn clear(table: &mut Table, word: usize, start: usize, n: usize) {
        copy(table, word, start, &Table::zero(), 0, 0, n);
    }

    /// The field of each first word into that of the second: A into S, all other S zero; or S into A.
    fn put(q: &Asked, pairs: &[(usize, usize)]) -> Table {
        let mut table = q.table.clone();
        let (from, to) = if q.close { (q.a, q.s) } else { (q.s, q.a) };
        if q.close {
            (0..256).for_each(|word| clear(&mut table, word, q.s, q.n));
        }
        for &(source, target) in pairs {
            copy(&mut table, target, to, &q.table, source, from, q.n);
        }
        table
    }

    /// The k-th of these marked words and the word that `place` gives for it: closing goes there, spreading comes
    /// from there. A place beyond word 255 is none.
    fn placed(q: &Asked, marked: &[usize], place: impl Fn(usize, usize) -> usize) -> Table {
        let mut pairs = vec![];
        for (k, &word) in marked.iter().enumerate() {
            let there = place(k, word);
            if there < 256 {
                pairs.push(if q.close { (word, there) } else { (there, word) });
            }
        }
        put(q, &pairs)
    }

    fn right(q: &Asked) -> Table {
        placed(q, &words(&q.marks), |k, _| k)
    }

    /// Document 001's rounds: each value moves by the digits of its distance in this order, and one that moves takes
    /// the place of one that stays. Which first word came to which second, and whether two met.
    fn rounds(q: &Asked, digits: &[usize]) -> (Vec<(usize, usize)>, bool) {
        let mut at: Vec<Option<(usize, usize)>> = vec![None; 256];
        for (k, word) in words(&q.marks).into_iter().enumerate() {
            let source = if q.close { word } else { k };
            at[source] = Some((source, word - k));
        }
        let mut met = false;
        for digit in digits {
            let mut next = vec![None; 256];
            for moves in [0, 1] {
                for place in 0..256 {
                    if let Some((source, distance)) = at[place].filter(|one| one.1 >> digit & 1 == moves) {
                        let target = if q.close { place as isize - (moves << digit) as isize } else { (place + (moves << digit)) as isize };
                        let target = target.rem_euclid(256) as usize;
                        met |= next[target].is_some();
                        next[target] = Some((source, distance));
                    }
                }
            }
            at = next;
        }
        ((0..256).filter_map(|place| at[place].map(|one| (one.0, place))).collect(), met)
    }

    const LOWEST_FIRST: [usize; 8] = [0, 1, 2, 3, 4, 5, 6, 7];
    const HIGHEST_FIRST: [usize; 8] = [7, 6, 5, 4, 3, 2, 1, 0];

    fn without_digit(q: &Asked, digit: usize) -> Table {
        placed(q, &words(&q.marks), |k, word| word - ((word - k) & !(1 << digit)))
    }

    /// The rounds in their order, but for a digit and the one above it.
    fn exchanged(q: &Asked, digit: usize) -> Table {
        let mut order = LOWEST_FIRST;
        order.swap(digit, digit + 1);
        if !q.close {
            order.reverse();
        }
        put(q, &rounds(q, &order).0)
    }

    fn after(q: &Asked, change: impl Fn(&mut Table)) -> Table {
        let mut table = right(q);
        change(&mut table);
        table
    }

    /// A mistake of both, of closing alone, of spreading alone.
    const BOTH: &[u8] = &WAYS;
    const CLOSING: &[u8] = &[CLOSE_RUN];
    const SPREADING: &[u8] = &[SPREAD_RUN];

    type Moves = fn(&Asked) -> Table;

    /// The mistake, where it can be made, how many cases must notice it, and what it leaves.
    const WRONG_MOVES: [(&str, &[u8], usize, Moves); 44] = [
        ("order turned", BOTH, 20, |q| {
            let count = words(&q.marks).len();
            placed(q, &words(&q.marks), |k, _| count - 1 - k)
        }),
        ("k counted from 1", BOTH, 20, |q| placed(q, &words(&q.marks), |k, _| k + 1)),
        ("the word itself", BOTH, 20, |q| placed(q, &words(&q.marks), |_, word| word)),
        ("nothing moved", BOTH, 20, |q| put(q, &[])),
        ("digit 0 of the distance lost", BOTH, 15, |q| without_digit(q, 0)),
        ("digit 1 of the distance lost", BOTH, 15, |q| without_digit(q, 1)),
        ("digit 2 of the distance lost", BOTH, 15, |q| without_digit(q, 2)),
        ("digit 3 of the distance lost", BOTH, 15, |q| without_digit(q, 3)),
        ("digit 4 of the distance lost", BOTH, 15, |q| without_digit(q, 4)),
        ("digit 5 of the distance lost", BOTH, 15, |q| without_digit(q, 5)),
        ("digit 6 of the distance lost", BOTH, 15, |q| without_digit(q, 6)),
        ("digit 7 of the distance lost", BOTH, 8, |q| without_digit(q, 7)),
        ("rounds in the wrong order", BOTH, 10, |q| {
            let order = if q.close { HIGHEST_FIRST } else { LOWEST_FIRST };
            put(q, &rounds(q, &order).0)
        }),
        ("the rounds of digits 0 and 1 exchanged", BOTH, 3, |q| exchanged(q, 0)),
        ("the rounds of digits 1 and 2 exchanged", BOTH, 3, |q| exchanged(q, 1)),
        ("the rounds of digits 2 and 3 exchanged", BOTH, 3, |q| exchanged(q, 2)),
        ("the rounds of digits 3 and 4 exchanged", BOTH, 3, |q| exchanged(q, 3)),
        ("the rounds of digits 4 and 5 exchanged", BOTH, 3, |q| exchanged(q, 4)),
        ("the rounds of digits 5 and 6 exchanged", BOTH, 3, |q| exchanged(q, 5)),
        ("the rounds of digits 6 and 7 exchanged", BOTH, 3, |q| exchanged(q, 6)),
        ("marks from Y", BOTH, 20, |q| placed(q, &words(&q.y), |k, _| k)),
        ("the words not marked", BOTH, 20, |q| placed(q, &words(&q.marks.map(|byte| !byte)), |k, _| k)),
        ("marks with the high bit first", BOTH, 20, |q| placed(q, &words(&q.marks.map(u8::reverse_bits)), |k, _| k)),
        ("the last marked word lost", BOTH, 20, |q| placed(q, &words(&q.marks), |k, _| if k + 1 < words(&q.marks).len() { k } else { 256 })),
        ("the count modulo 256", BOTH, 1, |q| placed(q, &words(&q.marks), |k, _| if words(&q.marks).len() < 256 { k } else { 256 })),
        ("word 255 lost", BOTH, 5, |q| placed(q, &words(&q.marks), |k, word| if word < 255 { k } else { 256 })),
        ("the two fields exchanged", BOTH, 20, |q| {
            right(&Asked { a: q.s, s: q.a, table: q.table.clone(), ..*q })
        }),
        ("bits turned", BOTH, 20, |q| {
            let table = right(q);
            let (to, mut turned) = (if q.close { q.s } else { q.a }, table.clone());
            for word in 0..256 {
                if q.close || words(&q.marks).contains(&word) {
                    (0..q.n).for_each(|bit| turned.set(word, to + bit, table.bit(word, to + q.n - 1 - bit)));
                }
            }
            turned
        }),
        ("the highest bit left out", BOTH, 20, |q| right(&Asked { n: q.n - 1, table: q.table.clone(), ..*q })),
        ("the lowest bit left out", BOTH, 20, |q| right(&Asked { a: q.a + 1, s: q.s + 1, n: q.n - 1, table: q.table.clone(), ..*q })),
        ("the other field zeroed in the marked words", BOTH, 20, |q| {
            after(q, |table| words(&q.marks).into_iter().for_each(|word| clear(table, word, if q.close { q.a } else { q.s }, q.n)))
        }),
        ("the other field zeroed everywhere", BOTH, 20, |q| {
            after(q, |table| (0..256).for_each(|word| clear(table, word, if q.close { q.a } else { q.s }, q.n)))
        }),
        ("words beyond the count not zeroed", CLOSING, 20, |q| {
            let count = words(&q.marks).len();
            after(q, |table| (count..256).for_each(|word| copy(table, word, q.s, &q.table, word, q.s, q.n)))
        }),
        ("the first word beyond the count not zeroed", CLOSING, 20, |q| {
            let count = words(&q.marks).len();
            after(q, |table| (count..256).take(1).for_each(|word| copy(table, word, q.s, &q.table, word, q.s, q.n)))
        }),
        ("with no marks S stays", CLOSING, 1, |q| if q.marks == [0; 32] { q.table.clone() } else { right(q) }),
        ("zero into S of unmarked words beyond the count only", CLOSING, 15, |q| {
            let (count, marked) = (words(&q.marks).len(), words(&q.marks));
            after(q, |table| (count..256).filter(|word| marked.contains(word)).for_each(|word| copy(table, word, q.s, &q.table, word, q.s, q.n)))
        }),
        ("zero into S of all unmarked words", CLOSING, 15, |q| {
            let marked = words(&q.marks);
            after(q, |table| (0..256).filter(|word| !marked.contains(word)).for_each(|word| clear(table, word, q.s, q.n)))
        }),
        ("or, and not instead", CLOSING, 20, |q| {
            let mut table = right(q);
            for word in 0..256 {
                (q.s..q.s + q.n).for_each(|bit| table.set(word, bit, table.bit(word, bit) || q.table.bit(word, bit)));
            }
            table
        }),
        ("A of unmarked words zeroed", SPREADING, 20, |q| {
            let marked = words(&q.marks);
            after(q, |table| (0..256).filter(|word| !marked.contains(word)).for_each(|word| clear(table, word, q.a, q.n)))
        }),
        ("one unmarked word's A touched", SPREADING, 20, |q| {
            let marked = words(&q.marks);
            let count = marked.len();
            after(q, |table| (0..256).filter(|word| !marked.contains(word)).take(1).for_each(|word| copy(table, word, q.a, &q.table, count, q.s, q.n)))
        }),
        ("spread over the gaps, as document 001 replicates", SPREADING, 20, |q| {
            let marked = words(&q.marks);
            after(q, |table| {
                for word in (0..256).filter(|word| !marked.contains(word)) {
                    let before = marked.iter().filter(|&&one| one < word).count();
                    if before > 0 {
                        copy(table, word, q.a, &q.table, before - 1, q.s, q.n);
                    }
                }
            })
        }),
        ("S beyond the count zeroed", SPREADING, 20, |q| {
            let count = words(&q.marks).len();
            after(q, |table| (count..256).for_each(|word| clear(table, word, q.s, q.n)))
        }),
        ("zeros and not S into marked words beyond 128", SPREADING, 5, |q| {
            after(q, |table| words(&q.marks).into_iter().skip(128).for_each(|word| clear(table, word, q.a, q.n)))
        }),
        ("or, and not instead", SPREADING, 20, |q| {
            let mut table = right(q);
            for word in words(&q.marks) {
                (q.a..q.a + q.n).for_each(|bit| table.set(word, bit, table.bit(word, bit) || q.table.bit(word, bit)));
            }
            table
        }),
    ];

    fn memory_digest(table: &Table) -> u32 {
        let mut memory = vec![0; 8192];
        table.to_chips(&mut memory);
        digest(&memory)
    }

    #[test]
    fn the_stored_closings_tell_the_memory() {
        let cases = stored_closings();
        let mut noticed = [[0; WRONG_MOVES.len()]; 2];
        for case in &cases {
            let Some(q) = asked(case) else { continue };
            let words = case.answer().words;
            assert_eq!(words[9], memory_digest(&right(&q)), "{:?}", case);
            for (k, (_, kinds, _, wrong)) in WRONG_MOVES.iter().enumerate() {
                if kinds.contains(&case.kind) {
                    noticed[(case.kind - CLOSE_RUN) as usize][k] += (words[9] != memory_digest(&wrong(&q))) as usize;
                }
            }
        }
        for (k, (name, kinds, least, _)) in WRONG_MOVES.iter().enumerate() {
            for &kind in *kinds {
                let count = noticed[(kind - CLOSE_RUN) as usize][k];
                println!("{}, {}: {}", KINDS[kind as usize], name, count);
                assert!(count >= *least, "{}, {}: {}", kind, name, count);
            }
        }
    }

    /// With the rounds in the right order no two values meet, and each comes to its place.
    #[test]
    fn the_rounds_of_document_001_leave_the_same() {
        for case in &stored_closings() {
            let Some(q) = asked(case) else { continue };
            let (pairs, met) = rounds(&q, if q.close { &LOWEST_FIRST } else { &HIGHEST_FIRST });
            assert!(!met && put(&q, &pairs) == right(&q), "{:?}", case);
        }
    }

    /// Every word of the answer, but for the memory of a run that is done.
    #[test]
    fn the_numbers_and_what_stays() {
        for case in &stored_closings() {
            let words = case.answer().words;
            let buffers = case.make();
            let n = case.p[2];
            assert_eq!(words.len(), 9 + COUNT);
            if words[0] != 0 {
                assert_eq!(words[1..9], [0; 8]);
                assert_eq!(words[9..], buffers.map(|b| digest(&b)));
                continue;
            }
            let (list, items) = room(case.kind, n);
            assert_eq!(words[1..3], [list as u32, items as u32]);
            assert_eq!(words[11], digest(&buffers[LIST][list as usize..]));
            assert_eq!(words[12], digest(&buffers[ITEMS][items as usize..]));
            assert_eq!(words[13..], [digest(&buffers[OUT]), digest(&buffers[MARKS])]);
            if words[3] != 0 {
                assert_eq!(words[4..9], [0; 5]);
                assert_eq!(words[9..11], [digest(&buffers[MEMORY]), digest(&buffers[REGISTERS])]);
            } else {
                let counts = if case.kind == CLOSE_RUN { (10 + 19 * n, 9) } else { (1 + 18 * n, 1 + 8 * n) };
                assert_eq!(words[4..9], [0, 0, counts.0, counts.1, 0]);
                assert_eq!(words[10], digest(&buffers[REGISTERS][MODES..]));
            }
        }
    }

    /// What the stored closings and spreadings must reach.
    #[test]
    fn stored_closings_reach_everything() {
        let cases = stored_closings();
        for kind in WAYS {
            let (mut numbers, mut fields, mut counts) = (BTreeSet::new(), BTreeSet::new(), BTreeSet::new());
            let (mut single, mut distances, mut spare) = (BTreeSet::new(), BTreeSet::new(), BTreeSet::new());
            for case in cases.iter().filter(|case| case.kind == kind) {
                let (number, _) = case.number_and_place(&case.answer());
                numbers.insert(number);
                if number == 0 || number == 33 {
                    let (list, items) = room(kind, case.p[2]);
                    spare.insert((number, case.lengths[LIST] as i32 - list as i32, case.lengths[ITEMS] as i32 - items as i32));
                }
                let Some(q) = asked(case) else { continue };
                let marked = words(&q.marks);
                counts.insert(marked.len());
                if marked.len() == 1 {
                    single.insert(marked[0]);
                }
                distances.extend(marked.iter().enumerate().map(|(k, &word)| word - k));
                fields.insert((q.n, if q.a < q.s { "before" } else { "behind" }));
                fields.extend((q.a.abs_diff(q.s) == q.n).then_some((q.n, if q.a < q.s { "touching before" } else { "touching behind" })));
                for (name, start) in [("A", q.a), ("S", q.s)] {
                    fields.extend((start == 0).then_some((if name == "A" { 100 } else { 200 }, "in front")));
                    fields.extend((start + q.n == 256).then_some((if name == "A" { 100 } else { 200 }, "at the end")));
                }
            }
            assert!([0, 1, 2, 4, 30, 31, 32, 33, 35].iter().all(|number| numbers.contains(number)), "{:?}", numbers);
            assert!([0, 1, 2, 100, 128, 255, 256].iter().all(|count| counts.contains(count)), "{:?}", counts);
            assert!([0, 1, 127, 128, 254, 255].iter().all(|one| single.contains(one)), "{:?}", single);
            assert!((0..8).all(|digit| distances.contains(&(1 << digit))) && distances.contains(&255));
            assert!((0..128).all(|distance| distances.contains(&distance)));
            assert!([(0, 0, 0), (0, 1, 0), (33, -1, 0), (33, 0, -1)].iter().all(|one| spare.contains(one)), "{:?}", spare);
            for n in WIDTHS {
                assert!(["before", "behind"].iter().any(|side| fields.contains(&(n as usize, side))), "{} {:?}", n, fields);
            }
            for side in ["before", "behind", "touching before", "touching behind"] {
                assert!(fields.contains(&(32, side)) && (1..32).any(|n| fields.contains(&(n, side))), "{} {:?}", side, fields);
            }
            for end in ["in front", "at the end"] {
                assert!(fields.contains(&(100, end)) && fields.contains(&(200, end)));
            }
        }
    }

    #[test]
    fn one_random_case_in_nine_closes_or_spreads() {
        let mut plan = Plan::new(4);
        plan.random_others(6000);
        let closings: Vec<&Case> = plan.cases.iter().filter(|case| case.way().is_some()).collect();
        assert!(600 < closings.len() && closings.len() < 900, "{}", closings.len());
        let mut numbers = BTreeSet::new();
        for case in closings {
            numbers.insert((case.kind, case.number_and_place(&case.answer()).0));
        }
        for kind in WAYS {
            assert!([0, 1, 2, 4, 30, 31, 32, 33, 35].iter().all(|&number| numbers.contains(&(kind, number))), "{:?}", numbers);
        }
    }
}
