//! The cases of masked stores with a flip (document 02, Three): masks that the flip moves, so that the line a
//! bit came from and the line that points at the memory have different bits in M.

use crate::case::*;
use crate::plan::{demand, Instruction, Plan};

const FEW: [u8; 4] = [0, 7, 90, 255];
/// Flips of several digits.
const FLIPS: [u8; 8] = [255, 254, 127, 90, 165, 3, 192, 24];

/// M from outside, and moved by a flip.
const SET_M: Instruction = [1, 4, 0, 0, 0, 0, 0, 0];
fn turn(flip: u8) -> Instruction {
    [1, 1, 0, 0, 0, flip, 0, 0]
}

/// The item of these lines.
pub fn lines(of: impl Fn(usize) -> bool) -> [u8; 32] {
    let mut item = [0u8; 32];
    for line in (0..256).filter(|&line| of(line)) {
        item[line / 8] |= 1 << (line % 8);
    }
    item
}

/// The lines with this digit: every second line for digit 0, a half for digit 7.
fn digit_is(digit: u32, value: usize) -> [u8; 32] {
    lines(|line| line >> digit & 1 == value)
}

impl Plan {
    pub fn some_mode(&mut self) -> u8 {
        if self.r.one_in(2) {
            self.r.of(&FEW)
        } else {
            self.r.byte()
        }
    }

    fn some_mask(&mut self) -> [u8; 32] {
        let (one, other) = (self.r.below(256), self.r.below(256));
        match self.r.below(6) {
            0 | 1 => digit_is(one as u32 % 8, other % 2),
            2 => lines(|line| line == one),
            3 => lines(|line| line != one),
            4 => lines(|line| line == one || line == other),
            _ => lines(|line| one <= line && line < other),
        }
    }

    /// A masked store, mostly with a flip, at times to where the one before it went.
    fn some_masked(&mut self, before: Option<Instruction>) -> Instruction {
        let source = 1 + self.r.below(4) as u8;
        let flip = match self.r.below(8) {
            0 => 0,
            1..=3 => 1 << self.r.below(8),
            4 => self.r.of(&FLIPS),
            _ => self.r.byte(),
        };
        match before {
            Some(b) if b[0] == 3 && self.r.one_in(3) => [3, source, 1, b[3], b[4], flip, 0, 0],
            _ => [3, source, 1, self.some_mode(), self.r.byte(), flip, 0, 0],
        }
    }

    /// Masked stores between settings of M; then what the last one met and M are delivered.
    pub fn random_masks(&mut self) -> Case {
        let mut list: Vec<Instruction> = vec![];
        let mut masks = vec![];
        for part in 0..1 + self.r.below(4) {
            match self.r.below(4) {
                0 if part == 0 => {} // M as it is at the start
                0 | 1 => {
                    masks.push((ITEMS, 32 * demand(&list.concat()).0));
                    list.push(SET_M);
                }
                2 => list.push(turn(self.r.byte())),
                _ => list.push(self.valid_kind(1)),
            }
            if self.r.one_in(4) {
                list.push(self.valid_kind(0));
            }
            for _ in 0..1 + self.r.below(4) {
                list.push(self.some_masked(list.last().copied()));
            }
        }
        let last = list[list.len() - 1];
        list.push([4, 0, 1, last[3], last[4], 0, 0, 0]);
        list.push([4, 1, 0, 0, 0, 0, 0, 0]);
        if self.r.one_in(2) {
            masks.push((REGISTERS, 0));
        }
        let mut case = self.run_fitting(&list);
        for (buffer, at) in masks {
            case.patch(buffer, at, &self.some_mask());
        }
        case
    }

    pub fn all_masks(&mut self) {
        self.every_second_station();
        self.flips_of_one_digit();
        self.flips_of_several_digits();
        self.one_bit_moved();
        self.m_as_its_own_source();
        self.one_mask_for_many();
        self.masks_refused();
        for _ in 0..14 {
            let case = self.random_masks();
            self.add(case);
        }
    }

    /// The office's list, "every second station, mirrored", and the one that mirrors M before the masked store
    /// and again after it; on zeros and on any memory.
    fn every_second_station(&mut self) {
        let prepare = [[2, 4, 1, 0, 40, 0, 0, 0], [2, 4, 1, 0, 48, 0, 0, 0], SET_M, [0, 0, 1, 0, 40, 0, 0, 0x1A]];
        let mirror = [3, 3, 1, 0, 48, 255, 0, 0];
        let deliver = [4, 0, 1, 0, 48, 0, 0, 0];
        for zeros in [(1 << MEMORY) | (1 << REGISTERS), 0] {
            for rest in [vec![mirror, deliver], vec![turn(255), mirror, turn(255), deliver]] {
                let mut case = self.run_fitting(&[prepare.to_vec(), rest].concat());
                case.zeros |= zeros;
                let visited = lines(|station| station == 3 || station == 8 || station == 200);
                case.patch(ITEMS, 0, &[visited, lines(|station| station == 1), digit_is(0, 0)].concat());
                self.add(case);
            }
        }
    }

    /// A masked store by itself, with this M.
    fn masked_step(&mut self, source: u8, mode: u8, flip: u8, mask: &[u8; 32]) -> Case {
        let address = self.r.byte();
        let mut case = self.step(&[3, source, 1, mode, address, flip, 0, 0], if source == 4 { 32 } else { 0 }, 0);
        case.patch(REGISTERS, 0, mask);
        case
    }

    /// Each digit by itself, from each source; the flip takes every line of M to one that is not in it.
    fn flips_of_one_digit(&mut self) {
        for digit in 0..8u32 {
            for source in 1..=4u8 {
                let mode = match (digit + source as u32) % 5 {
                    4 => self.r.byte(),
                    k => FEW[k as usize],
                };
                let case = self.masked_step(source, mode, 1 << digit, &digit_is(digit, source as usize % 2));
                self.add(case);
            }
        }
    }

    /// Masks by the lowest and the highest digit of the flip; and of a single line, ones onto zeros.
    fn flips_of_several_digits(&mut self) {
        for (k, flip) in FLIPS.into_iter().enumerate() {
            for (which, digit) in [flip.trailing_zeros(), 7 - flip.leading_zeros()].into_iter().enumerate() {
                let mode = self.some_mode();
                let case = self.masked_step(1 + ((k + which) % 4) as u8, mode, flip, &digit_is(digit, k / 2 % 2));
                self.add(case);
            }
            let (one, mode) = (self.r.below(256), self.some_mode());
            let source = 1 + ((k + 2) % 4) as u8;
            let mut case = self.masked_step(source, mode, flip, &lines(|line| line == one));
            case.zeros |= 1 << MEMORY;
            case.patch(REGISTERS, 32, &[255; 64]);
            if source == 4 {
                case.patch(ITEMS, 0, &[255; 32]);
            }
            self.add(case);
        }
    }

    /// One bit in Y and one in M, of the line that it goes to (written) and of the one that it came from (not).
    fn one_bit_moved(&mut self) {
        for (k, flip) in [255u8, 1, 90, 128, 36].into_iter().enumerate() {
            let from = self.r.below(256);
            let any = self.r.byte();
            let mode = [FEW[0], FEW[1], FEW[2], FEW[3], any][k];
            for in_mask in [from ^ flip as usize, from] {
                let mut case = self.masked_step(3, mode, flip, &lines(|line| line == in_mask));
                case.zeros |= (1 << MEMORY) | (1 << REGISTERS);
                case.patch(REGISTERS, 64, &lines(|line| line == from));
                self.add(case);
            }
        }
    }

    /// M through its own mask: of lines that the flip takes elsewhere only zeros are written, into ones and into
    /// zeros; and any M.
    fn m_as_its_own_source(&mut self) {
        for flip in [1u8, 128, 255, 90] {
            let mode = self.some_mode();
            let mut case = self.masked_step(1, mode, flip, &digit_is(flip.trailing_zeros(), 0));
            case.patch(MEMORY, 0, &[255; 32]).repeat(32);
            self.add(case);
            let mut case = self.masked_step(1, mode, flip, &digit_is(flip.trailing_zeros(), 1));
            case.zeros |= 1 << MEMORY;
            self.add(case);
            let address = self.r.byte();
            let case = self.step(&[3, 1, 1, mode, address, flip, 0, 0], 0, 0);
            self.add(case);
        }
    }

    /// One setting of M for the flips of one digit to slices of their own; then M moved, and again into the same
    /// slices with the flips of several digits.
    fn one_mask_for_many(&mut self) {
        for source in 1..=4u8 {
            let mut list = vec![SET_M];
            for digit in 0..8u8 {
                list.push([3, source, 1, 0, 16 * source + digit, 1 << digit, 0, 0]);
            }
            list.push(turn(16 * source + 1));
            for (k, flip) in FLIPS.into_iter().enumerate() {
                list.push([3, source, 1, 0, 16 * source + k as u8, flip, 0, 0]);
            }
            let mut case = self.run_fitting(&list);
            if source % 2 == 0 {
                let mask = self.some_mask();
                case.patch(ITEMS, 0, &mask);
            }
            self.add(case);
        }
    }

    /// A masked store with a flip before a refused instruction moves nothing; with a shift it is refused itself.
    fn masks_refused(&mut self) {
        let masked = [3, 3, 1, 0, 48, 255, 0, 0];
        for last in [[6; 8], [3, 3, 1, 0, 48, 255, 128, 0]] {
            let case = self.run_fitting(&[SET_M, masked, last]);
            self.add(case);
        }
    }
}

#[cfg(test)]
mod tests {
    use super::*;
    use std::collections::BTreeSet;

    fn moved(b: &[u8]) -> bool {
        b.len() == 8 && b[0] == 3 && b[5] != 0
    }

    /// Whether a run or step that is done has a masked store with a flip.
    fn has_moved(case: &Case) -> bool {
        (case.kind == RUN || case.kind == STEP) && case.make()[LIST].chunks(8).any(moved) && case.answer().words[0] == 0
    }

    /// The list that leaves what the list left when the line before the flip decided: M is moved by the flip
    /// before each masked store and back after it. (M as the source is moved by that already.)
    fn by_the_line_before(list: &[u8]) -> Vec<u8> {
        let mut longer = vec![];
        for b in list.chunks(8) {
            if moved(b) {
                let flip = if b[1] == 1 { 0 } else { b[5] };
                longer.extend([turn(b[5]), [b[0], b[1], b[2], b[3], b[4], flip, b[6], b[7]], turn(b[5])].concat());
            } else {
                longer.extend_from_slice(b);
            }
        }
        longer
    }

    /// The stored cases from the office's list on, as many as there are with any seed.
    fn stored_masks() -> Vec<Case> {
        let mut alone = Plan::new(1);
        alone.all_masks();
        let mut plan = Plan::new(crate::STORED_SEED);
        plan.stored(crate::STORED_RANDOM);
        let first = alone.cases[0].make()[LIST].clone();
        let at = plan.cases.iter().position(|case| case.kind == RUN && case.make()[LIST] == first).unwrap();
        plan.cases[at..at + alone.cases.len()].to_vec()
    }

    #[test]
    fn the_stored_masks_tell_whose_mask_bit_it_is() {
        let cases = stored_masks();
        assert!(60 <= cases.len() && cases.len() <= 120, "{}", cases.len());
        let mut untold = 0;
        let (mut flips, mut modes) = (BTreeSet::new(), BTreeSet::new());
        for case in &cases {
            if !has_moved(case) {
                untold += 1;
                continue;
            }
            let mut buffers = case.make();
            let mut others = case.make();
            for b in buffers[LIST].chunks(8).filter(|b| moved(b)) {
                flips.insert((b[5], b[1]));
                modes.insert(b[3]);
            }
            case.call(&mut buffers);
            let [memory, registers, list, items, out, _] = &mut others;
            assert_eq!(emulator::run(memory, registers, &by_the_line_before(list), items, out).number, 0);
            assert_eq!(buffers[REGISTERS][..32], others[REGISTERS][..32]);
            assert!(buffers != others, "{:?}", case);
        }
        assert_eq!(untold, 2); // the refused ones
        assert!((0..8).all(|digit| (1..=4).all(|source| flips.contains(&(1 << digit, source)))));
        assert!(FLIPS.iter().all(|&flip| (1..=4).all(|source| flips.contains(&(flip, source)))));
        assert!(FEW.iter().all(|mode| modes.contains(mode)) && modes.len() > 20);
    }

    #[test]
    fn many_random_cases_have_a_masked_store_with_a_flip() {
        let mut plan = Plan::new(3);
        plan.random_others(1000);
        let count = plan.cases.iter().filter(|case| has_moved(case)).count();
        assert!(120 < count, "{}", count);
    }
}
