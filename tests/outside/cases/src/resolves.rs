//! The cases of the resolver (document 02, Four): no responder, one, some and all, in front, at the end, spread and
//! in one byte; Y changed between the resolves of a run; resolves among other delivered items; out longer than the
//! items and too short for them.

use crate::case::*;
use crate::masks::lines;
use crate::plan::{demand, Instruction, Plan, NOTHING, RESOLVE};

/// Counts of responders near a byte's, a half and all.
const COUNTS: [usize; 12] = [0, 1, 2, 7, 8, 9, 127, 128, 129, 254, 255, 256];
/// Single responders at the borders of bytes.
const BORDERS: [usize; 9] = [0, 8, 15, 16, 128, 247, 248, 254, 255];
/// Bytes of out behind the items.
const BEHIND: [u16; 6] = [0, 1, 31, 32, 68, 5];
/// How many of the stored cases are random ones.
const RANDOM: usize = 12;

/// Y from outside, all ones, all zeros, turned over.
const TAKE: Instruction = [0, 4, 0, 0, 0, 0, 0, 0x1A];
const ALL: Instruction = [0, 3, 0, 0, 0, 0, 0, 0x1F];
const NONE: Instruction = [0, 3, 0, 0, 0, 0, 0, 0x10];
const NOT: Instruction = [0, 3, 0, 0, 0, 0, 0, 0x15];

/// Functions for Y and a slice: the slice, both, Y without the slice, one of the two.
const SLICE: u8 = 10;
const AND: u8 = 8;
const WITHOUT: u8 = 4;
const OR: u8 = 14;

fn slice(bit: u8, function: u8) -> Instruction {
    [0, 0, 1, 0, bit, 0, 0, 0x10 + function]
}

fn deliver(source: u8) -> Instruction {
    [4, source, 0, 0, 0, 0, 0, 0]
}

fn front(count: usize) -> [u8; 32] {
    lines(|line| line < count)
}

fn end(count: usize) -> [u8; 32] {
    lines(|line| line >= 256 - count)
}

/// As many lines, about as far from each other, with this one among them.
fn spread(count: usize, from: usize) -> [u8; 32] {
    let all: Vec<usize> = (0..count).map(|k| (256 * k / count + from) % 256).collect();
    lines(|line| all.contains(&line))
}

/// The last lines of one byte.
fn in_byte(count: usize, byte: usize) -> [u8; 32] {
    lines(|line| line / 8 == byte && line % 8 >= 8 - count)
}

impl Plan {
    fn some_responders(&mut self) -> [u8; 32] {
        let (one, other) = (self.r.below(256), self.r.below(256));
        let mut any = [0u8; 32];
        any.fill_with(|| self.r.byte());
        match self.r.below(10) {
            0 => [0; 32],
            1 => [255; 32],
            2 | 3 => lines(|line| line != one),
            4 => lines(|line| line == one),
            5 => lines(|line| line == one || line == other),
            6 => front(one),
            7 => end(one),
            8 => spread(1 + other, one),
            _ => any,
        }
    }

    /// Other responders at the start of a run or step with a resolve, in one of two; from the seed they are about
    /// half of all.
    pub fn vary_responders(&mut self, case: &mut Case) {
        let resolves = (case.kind == RUN || case.kind == STEP)
            && case.lengths[REGISTERS] as usize == RECORD
            && case.make()[LIST].chunks(8).any(|b| b == RESOLVE);
        if resolves && self.r.one_in(2) {
            let y = self.some_responders();
            case.patch(REGISTERS, 64, &y);
        }
    }

    /// Changes of Y with a resolve after each, at times another item given between them.
    pub fn random_resolves(&mut self) -> Case {
        let mut list: Vec<Instruction> = vec![];
        let mut taken = vec![];
        if self.r.one_in(3) {
            list.push(RESOLVE);
        }
        for _ in 0..1 + self.r.below(6) {
            match self.r.below(9) {
                0 => list.push(NONE),
                1 => list.push(ALL),
                2 => list.push(NOT),
                3 => {
                    taken.push(32 * demand(&list.concat()).0);
                    list.push(TAKE);
                }
                4 => list.push([0, 3, 0, 0, 0, self.r.byte(), 0, 0x1A]),
                5 | 6 => {
                    for _ in 0..1 + self.r.below(4) {
                        let (bit, function) = (self.r.byte(), self.r.of(&[SLICE, AND, AND, WITHOUT, OR]));
                        list.push(slice(bit, function));
                    }
                }
                _ => list.push(self.valid_kind(0)),
            }
            list.push(RESOLVE);
            if self.r.one_in(3) {
                list.push(self.valid_kind(4));
            }
        }
        let mut case = self.run_fitting(&list);
        case.lengths[OUT] += self.r.of(&BEHIND);
        for at in taken {
            let y = self.some_responders();
            case.patch(ITEMS, at, &y);
        }
        if self.r.one_in(2) {
            let y = self.some_responders();
            case.patch(REGISTERS, 64, &y);
        }
        if self.r.one_in(4) {
            case.repeat(32 << self.r.below(5));
        }
        case
    }

    pub fn all_resolves(&mut self) {
        self.responders_in_steps();
        self.responders_at_borders();
        self.counts_in_turn();
        self.responders_by_logic();
        self.responders_moved();
        self.responders_from_memory();
        self.narrowed_by_slices();
        self.resolved_after_a_sum();
        self.resolves_among_others();
        self.resolves_refused();
        for _ in 0..RANDOM {
            let case = self.random_resolves();
            self.add(case);
        }
    }

    /// A resolve by itself, with this Y; M and X are from the seed.
    fn resolve_step(&mut self, y: &[u8; 32], behind: u16) -> Case {
        let mut case = self.step(&RESOLVE, 0, 32 + behind as usize);
        case.patch(REGISTERS, 64, y);
        case
    }

    fn responders_in_steps(&mut self) {
        let mut k = 0;
        for count in COUNTS {
            let from = 1 + self.r.below(255);
            let mut placed = vec![front(count)];
            if 0 < count && count < 256 {
                placed.extend([end(count), spread(count, from)]);
            }
            if 0 < count && count <= 8 {
                placed.push(in_byte(count, [3, 17, 0, 31][k % 4]));
            }
            for y in placed {
                let case = self.resolve_step(&y, BEHIND[k % 6]);
                self.add(case);
                k += 1;
            }
        }
    }

    /// One responder: in steps, with zeros or ones in M and X; and in each byte, as its first line and as its last.
    fn responders_at_borders(&mut self) {
        for (k, one) in BORDERS.into_iter().enumerate() {
            let mut case = self.resolve_step(&lines(|line| line == one), BEHIND[k % 6]);
            case.patch(REGISTERS, 0, &[255 * (k % 2) as u8; 64]);
            self.add(case);
        }
        for digit in [0usize, 7] {
            let mut case = self.run_fitting(&[TAKE, RESOLVE].repeat(32));
            case.zeros |= 1 << ITEMS;
            for byte in 0..32 {
                case.patch(ITEMS, 32 * byte + byte, &[1 << digit]);
            }
            self.add(case);
        }
    }

    /// Each count in one run, from outside: in front, at the end, and spread with the greatest first and Y delivered.
    fn counts_in_turn(&mut self) {
        let from = self.r.below(256);
        let mut falling = COUNTS;
        falling.reverse();
        for (items, each) in [
            (COUNTS.map(front), vec![TAKE, RESOLVE]),
            (COUNTS.map(end), vec![TAKE, RESOLVE]),
            (falling.map(|count| spread(count, from)), vec![TAKE, RESOLVE, deliver(3)]),
        ] {
            let mut case = self.run_fitting(&each.repeat(COUNTS.len()));
            case.patch(ITEMS, 0, &items.concat());
            self.add(case);
        }
    }

    /// Y changed by logic, and not changed by logic on X, by settings of M and by stores.
    fn responders_by_logic(&mut self) {
        for zeros in [0, 1 << REGISTERS] {
            let changes = [NONE, ALL, NOT, TAKE, NOT, NOT, ALL, NONE];
            let mut case = self.run_fitting(&changes.map(|change| [RESOLVE, change, RESOLVE]).concat());
            case.zeros |= zeros;
            self.add(case);
        }
        let mut list = vec![RESOLVE];
        for (source, byte7) in [(4u8, 0x0A), (2, 0x1A), (4, 0x26), (4, 0x46), (4, 0x3F), (2, 0x4E), (1, 0x00), (4, 0x21)] {
            list.extend([[0, source, 0, 0, 0, 0, 0, byte7], RESOLVE]);
        }
        let case = self.run_fitting(&list);
        self.add(case);
        let mut list = vec![RESOLVE];
        for instruction in [[1u8, 4, 0, 0, 0, 0, 0, 0], [2, 1, 1, 0, 9, 0, 0, 0], [3, 4, 1, 255, 9, 90, 0, 0], [1, 0, 1, 0, 9, 0, 0, 0]] {
            list.extend([instruction, RESOLVE]);
        }
        let mut case = self.run_fitting(&list);
        case.patch(REGISTERS, 64, &front(9));
        self.add(case);
    }

    /// Y moved by the flip of each digit and by each shift modulo 256: one responder, and nine that go over the end.
    fn responders_moved(&mut self) {
        let one = self.r.below(256);
        for y in [lines(|line| line == one), end(9)] {
            let mut list = vec![RESOLVE];
            for digit in 0..8u8 {
                list.extend([[0, 3, 0, 0, 0, 1 << digit, 0, 0x1A], RESOLVE, [0, 3, 0, 0, 0, 0, 128 + digit, 0x1A], RESOLVE]);
            }
            let mut case = self.run_fitting(&list);
            case.patch(REGISTERS, 64, &y);
            self.add(case);
        }
    }

    /// Slices, words and what is between them: of any memory, of one with two words in turn, and of one with a
    /// single bit.
    fn responders_from_memory(&mut self) {
        let mut list = vec![];
        for (k, mode) in [0u8, 255, 0, 255, 7, 90, 240, 165].into_iter().enumerate() {
            // bit 5 of word 255: in slice 5 and in word 255
            let address = [5, 255, 6, 254, 249, 5, 5, 255][k];
            list.extend([[0, 0, 1, mode, address, 0, 0, 0x10 + SLICE], RESOLVE]);
        }
        let case = self.run_fitting(&list);
        self.add(case);
        let mut case = self.run_fitting(&list);
        case.repeat(64);
        self.add(case);
        let mut case = self.run_fitting(&list);
        case.zeros |= 1 << MEMORY;
        case.patch(MEMORY, 32 * (5 ^ 255), &[1 << 5]);
        self.add(case);
    }

    /// As a search does it: all words, then fewer by one slice after the other, a resolve after each; down to none,
    /// to one word, and to the words equal to it; and from none up.
    fn narrowed_by_slices(&mut self) {
        let narrowed = |functions: &[u8]| {
            let mut list = vec![ALL, RESOLVE];
            for (k, &function) in functions.iter().enumerate() {
                list.extend([slice(40 + k as u8, function), RESOLVE]);
            }
            list
        };
        let case = self.run_fitting(&narrowed(&[AND; 16]));
        self.add(case);
        for period in [0usize, 512] {
            let word = self.r.below(256);
            let mut case = self.run_fitting(&narrowed(&[AND; 16]));
            if period != 0 {
                case.repeat(period);
            }
            let memory = &case.make()[MEMORY];
            let functions: Vec<u8> = (40..56usize)
                .map(|bit| if memory[32 * (bit ^ word) + bit / 8] >> (bit % 8) & 1 == 1 { AND } else { WITHOUT })
                .collect();
            case.patches.retain(|patch| patch.target as usize != LIST);
            case.patch(LIST, 0, &narrowed(&functions).concat());
            self.add(case);
        }
        let mut list = narrowed(&[OR; 10]);
        list[0] = NONE;
        let case = self.run_fitting(&list);
        self.add(case);
    }

    /// Y after a sum or difference list: the words that carry, or that do not borrow.
    fn resolved_after_a_sum(&mut self) {
        for build in [emulator::sum_list, emulator::difference_list] {
            let mut bytes = vec![0u8; 400];
            let built = build(0, 8, 16, 8, &mut bytes);
            assert_eq!(built.number, 0);
            let mut list: Vec<Instruction> = vec![];
            for b in bytes[..built.count as usize].chunks(8) {
                list.push([b[0], b[1], b[2], b[3], b[4], b[5], b[6], b[7]]);
            }
            list.push(RESOLVE);
            let case = self.run_fitting(&list);
            self.add(case);
        }
    }

    /// The items are in out in the order of the list; bytes behind them stay.
    fn resolves_among_others(&mut self) {
        let list = [deliver(1), RESOLVE, deliver(2), RESOLVE, deliver(3), RESOLVE, RESOLVE, deliver(4), NOT, RESOLVE, deliver(3)];
        for (y, behind) in [(front(0), 0u16), (end(1), 1), (front(256), 100)] {
            let mut case = self.run_fitting(&list);
            case.lengths[OUT] += behind;
            case.patch(REGISTERS, 64, &y);
            self.add(case);
        }
        let mut case = self.run_fitting(&[RESOLVE, NOT, RESOLVE]);
        case.lengths[OUT] = 8200;
        self.add(case);
    }

    /// Out too short (13), items too few before it (12), a bad instruction behind: nothing is delivered.
    fn resolves_refused(&mut self) {
        for out in [0usize, 5, 31] {
            let mut case = self.step(&RESOLVE, 0, out);
            case.patch(REGISTERS, 64, &end(9));
            self.add(case);
        }
        let mut case = self.run_fitting(&[RESOLVE, NOTHING, RESOLVE, RESOLVE]);
        case.lengths[OUT] -= 1;
        self.add(case);
        let mut case = self.run_fitting(&[RESOLVE, TAKE]);
        case.lengths[ITEMS] = 0;
        case.lengths[OUT] = 0;
        self.add(case);
        let case = self.run_fitting(&[RESOLVE, [6; 8]]);
        self.add(case);
    }
}

#[cfg(test)]
mod tests {
    use super::*;
    use std::collections::BTreeSet;

    /// The responders at each resolve of a run or step that is done, smallest first, with the place of its item in
    /// out. A list that delivers Y in place of each resolve tells them.
    fn resolved(case: &Case) -> Vec<(usize, Vec<usize>)> {
        if case.kind != RUN && case.kind != STEP {
            return vec![];
        }
        let mut buffers = case.make();
        let mut places = vec![];
        let mut given = 0;
        for b in buffers[LIST].chunks_mut(8) {
            if b == RESOLVE {
                b.copy_from_slice(&deliver(3));
                places.push(32 * given);
            }
            given += (b[0] == 4) as usize;
        }
        if case.call(&mut buffers)[0] != 0 {
            return vec![];
        }
        let has = |at: usize, line: usize| buffers[OUT][at + line / 8] >> (line % 8) & 1 == 1;
        places.into_iter().map(|at| (at, (0..256).filter(|&line| has(at, line)).collect())).collect()
    }

    /// Out after the case, with these items for its resolves.
    fn out_by(case: &Case, rule: impl Fn(&[usize]) -> [u8; 32]) -> Vec<u8> {
        let mut buffers = case.make();
        case.call(&mut buffers);
        for (at, responders) in resolved(case) {
            buffers[OUT][at..at + 32].copy_from_slice(&rule(&responders));
        }
        buffers[OUT].clone()
    }

    fn out_of(case: &Case) -> Vec<u8> {
        let mut buffers = case.make();
        case.call(&mut buffers);
        buffers[OUT].clone()
    }

    fn item(bytes: [usize; 5]) -> [u8; 32] {
        let mut item = [0; 32];
        for (k, byte) in bytes.into_iter().enumerate() {
            item[k] = byte as u8; // its low eight bits
        }
        item
    }

    fn active(r: &[usize]) -> usize {
        !r.is_empty() as usize
    }

    fn smallest(r: &[usize]) -> usize {
        r.first().copied().unwrap_or(256)
    }

    /// The item of Four.
    fn four(r: &[usize]) -> [u8; 32] {
        item([active(r), smallest(r) % 256, smallest(r) / 256, r.len() % 256, r.len() / 256])
    }

    /// The item of document 01: activity, the smallest, 0 if none, and thirty zeros.
    fn document_01(r: &[usize]) -> [u8; 32] {
        item([active(r), smallest(r) % 256, 0, 0, 0])
    }

    type Rule = fn(&[usize]) -> [u8; 32];

    const WRONG: [(&str, Rule); 19] = [
        ("document 01", document_01),
        ("0 for none", |r| item([active(r), smallest(r), 0, r.len(), r.len() / 256])),
        ("the count of zeros", |r| item([active(r), smallest(r), smallest(r) / 256, 256 - r.len(), (256 - r.len()) / 256])),
        ("255 for none", |r| item([active(r), smallest(r).min(255), 0, r.len(), r.len() / 256])),
        ("65,535 for none", |r| {
            let one = r.first().copied().unwrap_or(65535);
            item([active(r), one % 256, one / 256, r.len(), r.len() / 256])
        }),
        ("the smallest high byte first", |r| item([active(r), smallest(r) / 256, smallest(r), r.len(), r.len() / 256])),
        ("the count high byte first", |r| item([active(r), smallest(r), smallest(r) / 256, r.len() / 256, r.len()])),
        ("both high byte first", |r| item([active(r), smallest(r) / 256, smallest(r), r.len() / 256, r.len()])),
        ("the two numbers exchanged", |r| item([active(r), r.len(), r.len() / 256, smallest(r), smallest(r) / 256])),
        ("the count modulo 256", |r| item([active(r), smallest(r), smallest(r) / 256, r.len() % 256, 0])),
        ("the count at most 255", |r| item([active(r), smallest(r), smallest(r) / 256, r.len().min(255), 0])),
        ("the count less one", |r| item([active(r), smallest(r), smallest(r) / 256, r.len().max(1) - 1, 0])),
        ("the count of bytes", |r| {
            let bytes = r.iter().map(|line| line / 8).collect::<BTreeSet<usize>>().len();
            item([active(r), smallest(r), smallest(r) / 256, bytes, 0])
        }),
        ("the greatest", |r| {
            let greatest = r.last().copied().unwrap_or(256);
            item([active(r), greatest, greatest / 256, r.len(), r.len() / 256])
        }),
        ("the smallest from the top of its byte", |r| {
            let byte = smallest(r) / 8;
            let one = r.iter().copied().filter(|line| line / 8 == byte).last().unwrap_or(256);
            item([active(r), one, one / 256, r.len(), r.len() / 256])
        }),
        ("activity always", |r| item([1, smallest(r), smallest(r) / 256, r.len(), r.len() / 256])),
        ("activity never", |r| item([0, smallest(r), smallest(r) / 256, r.len(), r.len() / 256])),
        ("activity from the count's low byte", |r| item([(r.len() % 256 != 0) as usize, smallest(r), smallest(r) / 256, r.len(), r.len() / 256])),
        ("the count in bytes 2 and 3", |r| item([active(r), smallest(r), r.len(), r.len() / 256, 0])),
    ];

    /// The stored cases of the resolver, found by their kinds and lengths: but for the random ones at their end these
    /// are the same with any seed.
    fn stored_resolves() -> Vec<Case> {
        let mut alone = Plan::new(1);
        alone.all_resolves();
        let count = alone.cases.len();
        let like = |(one, other): (&Case, &Case)| one.kind == other.kind && one.lengths == other.lengths;
        let mut plan = Plan::new(crate::STORED_SEED);
        plan.stored(crate::STORED_RANDOM);
        let found = plan.cases.windows(count).position(|some| some.iter().zip(&alone.cases).take(count - RANDOM).all(like));
        plan.cases[found.unwrap()..][..count].to_vec()
    }

    #[test]
    fn the_stored_resolves_tell_the_item() {
        let cases = stored_resolves();
        assert!(60 <= cases.len() && cases.len() <= 100, "{}", cases.len());
        let mut untold = 0;
        let mut noticed = [0; WRONG.len()];
        for case in &cases {
            let resolves = resolved(case);
            if resolves.is_empty() {
                assert!(case.answer().words[0] != 0);
                assert_eq!(out_of(case), case.make()[OUT]);
                untold += 1;
                continue;
            }
            let out = out_of(case);
            assert!(out == out_by(case, four), "{:?}", case);
            // each item of document 01 is another one, so each case that is done answers otherwise by it
            assert!(resolves.iter().all(|(_, r)| four(r) != document_01(r)));
            for (k, (_, rule)) in WRONG.iter().enumerate() {
                noticed[k] += (digest(&out) != digest(&out_by(case, rule))) as usize;
            }
        }
        assert_eq!(untold, 6); // the refused ones
        assert_eq!((WRONG[0].0, noticed[0]), ("document 01", cases.len() - untold));
        for ((name, _), count) in WRONG.iter().zip(noticed) {
            println!("{}: {} of {}", name, count, cases.len());
            assert!(count >= 5, "{}: {}", name, count);
        }
    }

    #[test]
    fn the_stored_resolves_reach_the_counts_and_places() {
        let cases = stored_resolves();
        let (mut steps, mut runs, mut numbers) = (BTreeSet::new(), BTreeSet::new(), BTreeSet::new());
        let mut single = BTreeSet::new();
        let (mut several, mut behind) = (0, 0);
        for case in &cases {
            let resolves = resolved(case);
            numbers.insert((case.kind, case.answer().words[0]));
            let different: BTreeSet<&Vec<usize>> = resolves.iter().map(|(_, r)| r).collect();
            several += (different.len() > 1) as usize;
            behind += (!resolves.is_empty() && case.lengths[OUT] > 32 * case.answer().words[5] as u16) as usize;
            for (_, r) in resolves {
                if r.len() == 1 {
                    single.insert(r[0]);
                }
                let seen = if case.kind == STEP { &mut steps } else { &mut runs };
                seen.insert((r.len(), smallest(&r)));
            }
        }
        for count in COUNTS {
            for seen in [&steps, &runs] {
                // none: 256; else in front, and at the end
                assert!(seen.contains(&(count, if count == 0 { 256 } else { 0 })));
                assert!(seen.contains(&(count, 256 - count)));
            }
        }
        assert!((0..32).all(|byte| single.contains(&(8 * byte)) && single.contains(&(8 * byte + 7))));
        assert!([(STEP, 0), (STEP, 13), (RUN, 0), (RUN, 6), (RUN, 12), (RUN, 13)].iter().all(|n| numbers.contains(n)));
        assert!(several >= 20 && behind >= 20, "{} {}", several, behind);
    }

    #[test]
    fn spread_responders_are_as_many() {
        for count in 0..=256usize {
            for from in [0, 1, 200, 255] {
                let ones: u32 = spread(count, from).iter().map(|b| b.count_ones()).sum();
                assert_eq!(ones as usize, count);
            }
        }
    }

    #[test]
    fn about_one_random_case_in_six_has_a_resolve() {
        let mut plan = Plan::new(3);
        plan.random_others(6000);
        let mut count = 0;
        let mut seen = std::collections::BTreeMap::new();
        for case in &plan.cases {
            let resolves = resolved(case);
            count += !resolves.is_empty() as usize;
            let sizes: BTreeSet<&str> = resolves
                .iter()
                .map(|(_, r)| match r.len() {
                    0 => "none",
                    1 | 2 => "few",
                    254 | 255 => "nearly all",
                    256 => "all",
                    _ => "some",
                })
                .collect();
            for size in sizes {
                *seen.entry((case.kind, size)).or_insert(0) += 1;
            }
        }
        assert!(6000 / 7 < count && count < 6000 / 5, "{}", count);
        for size in ["none", "few", "some", "nearly all", "all"] {
            assert!(seen[&(STEP, size)] >= 3 && seen[&(RUN, size)] >= 25, "{}: {:?}", size, seen);
        }
    }
}
