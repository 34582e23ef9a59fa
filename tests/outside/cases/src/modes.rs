//! The cases of the two mode registers (document 02, Seven): registers of 100 bytes and of other lengths; each flag and
//! mode that 15 refuses, alone and beside other faults; tags 2 and 3 in every access, with the register unset, set at the
//! start, by an earlier kind 6 and only by a later one; kind 6 with each fault; every mode through a register; and lists of
//! shape 3.

use crate::bytes::BEHIND;
use crate::case::*;
use crate::plan::{demand, touches, Instruction, Plan, NOTHING, RESOLVE};

/// How many stored cases stand before these.
#[cfg(test)]
pub const BEFORE: usize = 5438;
/// How many of the stored cases are random ones.
const RANDOM: usize = 10;

const A: usize = 0;
const B: usize = 1;

/// Kinds and sources that touch memory.
const ACCESSES: [(u8, u8); 5] = [(4, 0), (0, 0), (1, 0), (2, 3), (3, 2)];
/// Kinds and sources that do not, but for kind 6.
const OTHERS: [(u8, u8); 13] =
    [(0, 1), (0, 2), (0, 3), (0, 4), (1, 1), (1, 2), (1, 3), (1, 4), (4, 1), (4, 2), (4, 3), (4, 4), (5, 0)];
/// Modes of many kinds: slices, words, halves, every second bit.
const TELLING: [u8; 12] = [0, 255, 7, 240, 85, 170, 1, 128, 15, 254, 90, 127];
/// One instruction for each number from 5 to 11 and 16 to 18 that names no mode register.
const FAULTS: [Instruction; 9] = [
    [7, 0, 0, 0, 0, 0, 0, 0],
    [0, 5, 0, 0, 0, 0, 0, 0],
    [2, 1, 0, 0, 0, 0, 0, 0],
    [4, 0, 4, 0, 0, 0, 0, 0],
    [0, 1, 0, 0, 1, 0, 0, 0],
    [2, 1, 1, 0, 0, 0, 16, 0],
    [1, 1, 0, 0, 0, 0, 0x90, 0],
    [1, 1, 0, 0, 0, 0, 1, 0],
    [0, 1, 0, 0, 0, 0, 0, 0x50],
];
const TAKE: Instruction = [1, 4, 0, 0, 0, 0, 0, 0];
const GIVE: Instruction = [4, 1, 0, 0, 0, 0, 0, 0];
const BOTH: Instruction = [4, 4, 0, 0, 0, 0, 0, 0];

fn tag(which: usize) -> u8 {
    2 + which as u8
}

/// Kind 6: the register gets this mode.
fn set(which: usize, mode: u8) -> Instruction {
    [6, 0, tag(which), mode, 0, 0, 0, 0]
}

/// The mode registers, each unset or with a mode.
fn registers(a: Option<u8>, b: Option<u8>) -> [u8; 4] {
    let pair = |mode: Option<u8>| [mode.is_some() as u8, mode.unwrap_or(0)];
    [pair(a)[0], pair(a)[1], pair(b)[0], pair(b)[1]]
}

/// One register with this mode, and the other.
fn one(which: usize, mode: Option<u8>, other: Option<u8>) -> [u8; 4] {
    if which == A {
        registers(mode, other)
    } else {
        registers(other, mode)
    }
}

const UNSET: [u8; 4] = [0; 4];

/// A byte of a good instruction made wrong, as in the cases of the offending byte. Byte 8 stands for the flag of the
/// register that the tag names: 14.
#[derive(Clone, Copy)]
struct Fault {
    number: u32,
    byte: usize,
    values: &'static [u8],
}

const fn fault(number: u32, byte: usize, values: &'static [u8]) -> Fault {
    Fault { number, byte, values }
}

const FLAG: usize = 8;
const NOT_0: &[u8] = &[1, 255, 128, 2, 16];
const MOVES: &[u8] = &[16, 0x90, 1, 0x87, 0xFF, 136];

/// Instructions that are judged alike.
#[derive(Clone, Copy, PartialEq)]
enum Sort {
    /// Kinds 0, 1 and 4 from memory, with tag 2 or 3.
    Memory,
    /// Kinds 2 and 3 with tag 2 or 3.
    Store,
    /// Kind 6.
    Setting,
}

/// The faults of each sort, those that are judged earlier first.
const SORTS: [(Sort, &[Fault]); 3] = [
    (
        Sort::Memory,
        &[
            fault(6, 1, &[5, 255, 6, 128]),
            fault(7, 2, &[0]),
            fault(8, 2, &[4, 255, 5, 130]),
            fault(9, 3, NOT_0),
            fault(14, FLAG, &[0]),
            fault(16, 6, &[0x90, 0xFF, 0xA0]),
            fault(17, 6, &[1, 136, 0x22]),
            fault(11, 7, &[0x50, 0xFF, 0x80]),
        ],
    ),
    (
        Sort::Store,
        &[
            fault(6, 1, &[0, 5, 0, 255]),
            fault(7, 2, &[0]),
            fault(8, 2, &[4, 255, 131, 6]),
            fault(9, 3, NOT_0),
            fault(14, FLAG, &[0]),
            fault(18, 6, MOVES),
            fault(11, 7, NOT_0),
        ],
    ),
    (
        Sort::Setting,
        &[
            fault(6, 1, &[1, 4, 5, 255]),
            fault(7, 2, &[0]),
            fault(8, 2, &[1]),
            fault(8, 2, &[4, 255, 5, 130]),
            fault(9, 4, NOT_0),
            fault(18, 5, NOT_0),
            fault(18, 6, MOVES),
            fault(11, 7, NOT_0),
        ],
    ),
];

impl Plan {
    // ---- instructions

    /// An access of this kind and source through a register.
    fn through(&mut self, (kind, source): (u8, u8), which: usize) -> Instruction {
        let mut b = self.valid_of(kind, source);
        (b[2], b[3]) = (tag(which), 0);
        b
    }

    /// A good instruction where these mode registers are set: at times kind 6, and tags 2 and 3 where they may stand.
    pub fn valid_by(&mut self, set_ones: &mut [bool; 2]) -> Instruction {
        if self.r.one_in(6) {
            let which = self.r.below(2);
            set_ones[which] = true;
            return set(which, self.some_mode());
        }
        let mut b = self.valid();
        let which = self.r.below(2);
        if touches(b[0], b[1]) && set_ones[which] && !self.r.one_in(3) {
            (b[2], b[3]) = (tag(which), 0);
        }
        b
    }

    /// Kind 6, or an access with tag 2 or 3, whether the register is set or not.
    pub fn naming_a_register(&mut self) -> Instruction {
        let which = self.r.below(2);
        if self.r.one_in(2) {
            return set(which, self.some_mode());
        }
        let access = self.r.of(&ACCESSES);
        self.through(access, which)
    }

    // ---- random cases

    /// Mostly a list of shape 3, both registers set in three of four; else a good list in which kind 6 sets what is not
    /// set at the start.
    pub fn random_modes(&mut self) -> Case {
        let modes = if !self.r.one_in(4) { registers(Some(self.some_mode()), Some(self.some_mode())) } else { self.good_modes() };
        let mut case = if self.r.one_in(4) {
            let mut set_ones = [modes[0] == 1, modes[2] == 1];
            let list: Vec<Instruction> = (0..1 + self.r.below(20)).map(|_| self.valid_by(&mut set_ones)).collect();
            self.run_fitting(&list)
        } else {
            let count = if self.r.one_in(4) { 1 + self.r.below(6) } else { 1 + self.r.below(70) };
            let items = self.r.of(&[0isize, 0, 0, 0, 0, 32, 64, -32]);
            let room = self.r.of(&[0isize, 0, 0, 0, 1, 40, 32, -1]);
            self.run_shaped(3, count, items, room)
        };
        case.modes(modes);
        if self.r.one_in(8) {
            // one instruction more, at times a wrong one
            let place = self.r.below(case.lengths[LIST] as usize / 8);
            let mut b = self.naming_a_register();
            if self.r.one_in(2) {
                b[self.r.below(8)] = self.r.byte();
            }
            case.patch(LIST, 8 * place, &b);
        }
        case
    }

    // ---- the planned cases

    pub fn all_modes(&mut self) {
        self.other_register_lengths();
        self.bad_flags_and_modes();
        self.bad_modes_and_other_faults();
        self.built_lists_and_modes();
        self.registers_unset_and_set();
        self.faults_and_pairs_of_modes();
        self.tags_without_memory();
        self.settings();
        self.set_in_the_list();
        self.refused_behind_a_setting();
        self.items_and_room_around_settings();
        self.every_mode();
        self.several_modes_in_turn();
        self.lists_of_shape_3();
        for _ in 0..RANDOM {
            let case = self.random_modes();
            self.add(case);
        }
        self.seldom_noticed();
    }

    /// A list with these mode registers.
    fn run_by(&mut self, list: &[Instruction], modes: [u8; 4]) -> Case {
        let mut case = self.run_fitting(list);
        case.modes(modes);
        case
    }

    fn step_by(&mut self, b: &Instruction, modes: [u8; 4]) -> Case {
        let (taken, given) = demand(b);
        let mut case = self.step(b, 32 * taken, 32 * given);
        case.modes(modes);
        case
    }

    /// The instruction in a step; or in a run behind up to three good ones, at times before a bad one.
    fn add_by(&mut self, b: &Instruction, modes: [u8; 4], turn: usize) {
        let case = if turn % 3 == 0 {
            self.step_by(b, modes)
        } else {
            let mut list: Vec<Instruction> = (0..(turn + 5) / 2 % 4).map(|_| self.valid()).collect();
            list.push(*b);
            if turn % 4 == 2 {
                list.push(BEHIND[turn / 4 % 2]);
            }
            self.run_by(&list, modes)
        };
        self.add(case);
    }

    /// A list that is built and run, of any of the seven kinds.
    fn built(&mut self, kind: u8, good: bool) -> Case {
        let n = if good { 5 } else { 0 };
        match kind {
            SUM_RUN | DIFFERENCE_RUN => self.build(kind, 10, 20, 30, n, Plan::need(kind, 5)),
            EQUAL_RUN | LESS_RUN | GREATEST_RUN => {
                let number = if kind == GREATEST_RUN { 0 } else { 9 };
                let mut case = self.search_of(kind, 40, n, number);
                case.repeat(256);
                case
            }
            _ => self.closing(kind, 10, 20, n),
        }
    }

    /// Registers of 96 bytes as before Seven, of four more than Seven's, and near them.
    fn other_register_lengths(&mut self) {
        for (k, length) in [92u16, 95, 96, 97, 98, 99, 101, 102, 103, 104].into_iter().enumerate() {
            let list = if k % 2 == 0 { vec![NOTHING] } else { vec![] };
            let mut case = self.run_fitting(&list);
            case.lengths[REGISTERS] = length;
            if length > 99 {
                // the mode registers are good
                case.patch(REGISTERS, MODES, &registers(Some(7), None));
            }
            self.add(case);
        }
        for (k, kind) in (SUM_RUN..=SPREAD_RUN).enumerate() {
            for length in [vec![96, 104], vec![96], vec![101]][k % 3].clone() {
                let mut case = self.built(kind, true);
                case.lengths[REGISTERS] = length;
                self.add(case);
            }
        }
    }

    /// Flags over 1 and modes with flag 0, in A, in B and in both; then what stands.
    fn bad_flags_and_modes(&mut self) {
        let mut turn = 0;
        let mut add = |plan: &mut Plan, modes: [u8; 4]| {
            let case = match turn % 3 {
                0 => plan.run_by(&[], modes),
                1 => plan.step_by(&NOTHING, modes),
                _ => plan.run_by(&[NOTHING], modes),
            };
            plan.add(case);
            turn += 1;
        };
        for (k, flag) in [2u8, 3, 255, 128, 129, 4, 64, 254, 17, 127].into_iter().enumerate() {
            for which in [A, B] {
                let (mode, other) = ([0, TELLING[k]][(k + which) % 2], [[0, 0], [1, 9]][k / 2 % 2]);
                let pair = [flag, mode];
                let bytes = if which == A { [pair, other] } else { [other, pair] };
                add(self, [bytes[0][0], bytes[0][1], bytes[1][0], bytes[1][1]]);
            }
        }
        for (k, mode) in [1u8, 2, 4, 8, 16, 32, 64, 128, 255].into_iter().enumerate() {
            add(self, [0, mode, [0, 1][k % 2], 0]);
            add(self, [[1, 0][k % 2], 0, 0, mode]);
        }
        for both in [[2, 0, 2, 0], [0, 1, 0, 1], [255; 4], [1, 1, 1, 1], [2, 1, 0, 0], [0, 0, 1, 2]] {
            add(self, both);
        }
        for a in [None, Some(0), Some(255)] {
            for b in [None, Some(0), Some(2)] {
                add(self, registers(a, b));
            }
        }
    }

    /// 15 behind 1 to 4 and before all others.
    fn bad_modes_and_other_faults(&mut self) {
        const BAD: [[u8; 4]; 4] = [[2, 0, 0, 0], [0, 7, 1, 1], [1, 0, 255, 0], [0, 0, 0, 128]];
        for k in [MEMORY, REGISTERS, LIST, ITEMS] {
            for turn in 0..2 {
                let mut case = self.run_by(&[NOTHING, FAULTS[turn]], BAD[(k + turn) % 4]);
                if turn == 0 {
                    case.lengths[k] += 1;
                } else {
                    // only patches into the registers and the list are there
                    case.lengths[k] = [8191, 101, 33000, 31][k];
                }
                self.add(case);
            }
        }
        let named = [set(A, 3), self.through((4, 0), A), self.through((2, 1), B), [6, 0, 0, 0, 0, 0, 0, 0], [6, 0, 3, 0, 0, 1, 0, 1]];
        for (turn, b) in FAULTS.into_iter().chain(named).enumerate() {
            let modes = BAD[turn % 4];
            let case = if turn % 2 == 0 { self.run_by(&[NOTHING, b], modes) } else { self.step_by(&b, modes) };
            self.add(case);
        }
        // before 12 and 13
        for (turn, b) in [TAKE, RESOLVE, BOTH].into_iter().enumerate() {
            let mut case = if turn % 2 == 0 { self.run_by(&[b, set(A, 1)], BAD[turn]) } else { self.step_by(&b, BAD[turn]) };
            (case.lengths[ITEMS], case.lengths[OUT]) = (0, 0);
            self.add(case);
        }
        // in a step behind 1, 3 and 4
        for (memory, length, items) in [(8191u16, 7usize, 31usize), (8192, 7, 31), (8192, 8, 31)] {
            let mut case = self.step(&NOTHING[..length], items, 0);
            case.lengths[MEMORY] = memory;
            case.modes([3, 0, 0, 3]);
            self.add(case);
        }
    }

    /// Sums, differences, searches, closing and spreading: mode registers that stay, and 15; the builder's refusal and 4
    /// come before it.
    fn built_lists_and_modes(&mut self) {
        let bad = [[2u8, 0, 0, 0], [0, 9, 1, 1], [1, 0, 255, 0], [1, 3, 0, 128]];
        for (k, kind) in (SUM_RUN..=SPREAD_RUN).enumerate() {
            for modes in [registers(Some(TELLING[k]), Some(200 + k as u8)), bad[k % 4], bad[(k + 1) % 4]] {
                let mut case = self.built(kind, true);
                case.modes(modes);
                self.add(case);
            }
            let mut case = self.built(kind, false);
            case.modes(bad[k % 4]);
            self.add(case);
            let mut case = self.built(kind, true);
            case.lengths[ITEMS] += 1;
            case.modes(bad[(k + 2) % 4]);
            self.add(case);
        }
    }

    /// Every access through each register: both unset, only the other set (14); only this one set, and both with
    /// different modes.
    fn registers_unset_and_set(&mut self) {
        let mut turn = 0;
        for access in ACCESSES {
            for which in [A, B] {
                let (mode, other) = (TELLING[turn % 12], TELLING[(turn + 5) % 12]);
                for modes in [UNSET, one(which, None, Some(other))] {
                    let b = self.through(access, which);
                    self.add_by(&b, modes, turn);
                    turn += 1;
                }
                let b = self.through(access, which);
                let case = self.step_by(&b, one(which, Some(mode), (turn % 4 == 0).then_some(other)));
                self.add(case);
                let b = self.through(access, which);
                let case = self.run_by(&[NOTHING, b], one(which, Some(mode), (turn % 4 == 2).then_some(other)));
                self.add(case);
            }
        }
        // with tag 1 the registers do not count
        for (k, (kind, source)) in ACCESSES.into_iter().enumerate() {
            let b = self.valid_of(kind, source);
            self.add_by(&b, registers(Some(!b[3]), Some(TELLING[k])), k);
        }
    }

    /// Each fault of each sort alone; each pair of kind 6; the pairs with 9 and 14 of the accesses. Those of kind 6 alone and
    /// 14 with a later one are there twice, for the other register.
    fn faults_and_pairs_of_modes(&mut self) {
        let mut turn = 0;
        for (sort, faults) in SORTS {
            let mut all: Vec<Vec<Fault>> = faults.iter().map(|&one| vec![one]).collect();
            for (k, &first) in faults.iter().enumerate() {
                let named = |one: &Fault| sort == Sort::Setting || one.number == 9 || one.number == 14;
                let later = faults[k + 1..].iter().filter(|other| other.byte != first.byte && (named(&first) || named(other)));
                all.extend(later.map(|&other| vec![first, other]));
            }
            for some in all {
                let twice = match some[..] {
                    [_] => sort == Sort::Setting,
                    _ => some[0].number == 14,
                };
                for _ in 0..1 + twice as usize {
                    self.add_faulty(sort, &some, turn);
                    turn += 1;
                }
            }
        }
        // in steps by a register that is set
        for (b, which) in [([1, 0, 0, 0, 9, 0, 0x90, 0], A), ([4, 0, 0, 0, 9, 0, 1, 0], B), ([0, 0, 0, 0, 9, 0, 0, 0x50], A)] {
            let mut b = b;
            b[2] = tag(which);
            let case = self.step_by(&b, one(which, Some(7), None));
            self.add(case);
        }
        // kinds over 6 that look like kind 6
        for (kind, b) in [(7u8, set(A, 1)), (255, set(B, 0)), (22, [6, 1, 2, 0, 4, 0, 0, 0]), (134, set(A, 0))] {
            self.add_by(&[kind, b[1], b[2], b[3], b[4], b[5], b[6], b[7]], UNSET, turn);
            turn += 1;
        }
    }

    /// A good instruction of this sort, its register set, with these faults.
    fn add_faulty(&mut self, sort: Sort, faults: &[Fault], turn: usize) {
        let which = turn % 2;
        let mut b = match sort {
            Sort::Memory => self.through([(0, 0), (1, 0), (4, 0)][turn / 2 % 3], which),
            Sort::Store => self.through([(2, 1 + turn as u8 / 2 % 4), (3, 1 + turn as u8 / 3 % 4)][turn / 2 % 2], which),
            Sort::Setting => set(which, TELLING[turn % 12]),
        };
        // for most faults only this one is set; its flag is no matter for kind 6
        let other = (turn % 4 == 3).then_some(9);
        let mut modes = one(which, (sort != Sort::Setting || turn % 3 == 0).then_some(TELLING[turn % 12]), other);
        for fault in faults {
            match fault.byte {
                FLAG => modes = one(which, None, other),
                byte => b[byte] = fault.values[turn % fault.values.len()],
            }
        }
        self.add_by(&b, modes, turn);
    }

    /// Tags 2 and 3 where memory is not touched: 9, whether the register is set or not; at times with bytes 3 and 4.
    fn tags_without_memory(&mut self) {
        for (k, (kind, source)) in OTHERS.into_iter().enumerate() {
            for which in if k % 2 == 0 { vec![A, B] } else { vec![k / 2 % 2] } {
                let mut b = self.valid_of(kind, source);
                b[2] = tag(which);
                if k % 4 == 1 {
                    b[3] = TELLING[k % 12] | 1;
                }
                let modes = [one(which, Some(5), None), UNSET, registers(Some(0), Some(0))][(k + which) % 3];
                self.add_by(&b, modes, k + which);
            }
        }
    }

    /// Kind 6 alone in steps and runs: from unset, from another mode, beside the other register; twice and to both.
    fn settings(&mut self) {
        for (k, mode) in [0u8, 255, 1, 128, 127, 85].into_iter().enumerate() {
            for which in [A, B] {
                let modes = [UNSET, one(which, None, Some(99)), one(which, Some(!mode), Some(98))][k % 3];
                let case = if k < 3 { self.step_by(&set(which, mode), modes) } else { self.run_by(&[set(which, mode)], modes) };
                self.add(case);
            }
        }
        for list in [vec![set(A, 1), set(A, 2)], vec![set(B, 200), set(A, 100)], vec![set(A, 4), set(B, 5), set(A, 0), set(B, 0)], vec![set(B, 255); 40]] {
            let case = self.run_by(&list, UNSET);
            self.add(case);
        }
    }

    /// Every access with its register set before it, only behind it, before it but the other one, and anew.
    fn set_in_the_list(&mut self) {
        for (k, access) in ACCESSES.into_iter().enumerate() {
            let which = k % 2;
            let (first, second) = (TELLING[k], TELLING[k + 6]);
            let b = self.through(access, which);
            let again = self.through(access, which);
            for (list, modes) in [
                (vec![b, set(which, first)], UNSET),
                (vec![set(which, first), b], UNSET),
                (vec![set(1 - which, first), b], UNSET),
                (vec![b, set(which, first), again], one(which, Some(second), None)),
                (vec![set(which, first), b, set(which, second), again], one(which, None, Some(first))),
                (vec![NOTHING, set(1 - which, first), NOTHING, b, set(which, second)], one(1 - which, Some(3), None)),
            ] {
                let case = self.run_by(&list, modes);
                self.add(case);
            }
        }
        // a refused kind 6 would have set it; the first of two unset ones counts
        let (by_a, by_b) = (self.through((4, 0), A), self.through((2, 2), B));
        for list in [vec![[6, 0, 2, 9, 1, 0, 0, 0], by_a], vec![by_b, by_a], vec![set(A, 1), by_a, by_b, set(B, 1)], vec![set(B, 1), by_b, by_a]] {
            let case = self.run_by(&list, UNSET);
            self.add(case);
        }
    }

    /// Kind 6 before an instruction that is refused, or that lacks its item or room: nothing moves.
    fn refused_behind_a_setting(&mut self) {
        for (k, b) in FAULTS.into_iter().enumerate() {
            let which = k % 2;
            let case = self.run_by(&[set(which, 40 + k as u8), b], [UNSET, one(which, Some(1), None), one(which, None, Some(2))][k % 3]);
            self.add(case);
        }
        let by_b = self.through((3, 4), B);
        for list in [vec![set(A, 41), set(A, 42), by_b], vec![set(B, 43), by_b, [6, 0, 1, 0, 0, 0, 0, 0]]] {
            let case = self.run_by(&list, UNSET);
            self.add(case);
        }
        for (k, b) in [TAKE, GIVE, RESOLVE].into_iter().enumerate() {
            let mut case = self.run_by(&[set(A, 44), set(B, 45), b], registers((k == 1).then_some(6), None));
            (case.lengths[ITEMS], case.lengths[OUT]) = (0, 31);
            self.add(case);
        }
    }

    /// Kind 6 takes and gives nothing: it stands between those that do, and before the one that lacks its item or room.
    fn items_and_room_around_settings(&mut self) {
        let list = [set(A, 4), TAKE, set(B, 5), GIVE, set(A, 6), BOTH, set(A, 0), RESOLVE, set(B, 7), TAKE];
        for (items, out) in [(96u16, 96u16), (64, 96), (32, 96), (0, 0), (96, 95), (96, 32), (96, 31), (128, 200)] {
            let mut case = self.run_by(&list, UNSET);
            (case.lengths[ITEMS], case.lengths[OUT]) = (items, out);
            self.add(case);
        }
    }

    /// Every mode through a register: read in one list, stored in another, A and B in turn.
    fn every_mode(&mut self) {
        for sixteen in 0..16u8 {
            let mut list = vec![];
            for k in 0..16u8 {
                let which = (k + sixteen) as usize % 2;
                list.push(set(which, 16 * sixteen + k));
                let access = if sixteen % 2 == 0 { [(4, 0), (2, 1), (4, 0), (3, 3)] } else { [(2, 2), (4, 0), (3, 4), (0, 0)] };
                list.push(self.through(access[k as usize / 2 % 4], which));
            }
            let modes = self.good_modes();
            let case = self.run_by(&list, modes);
            self.add(case);
        }
    }

    /// Both registers in turn, changed several times; words copied to slices; tag 1 between them.
    fn several_modes_in_turn(&mut self) {
        let read = |which: usize, address: u8| [0, 0, tag(which), 0, address, 0, 0, 0x0A];
        let store = |which: usize, address: u8| [2, 2, tag(which), 0, address, 0, 0, 0];
        // A for words, B for slices, as the older lists have it
        let mut list = vec![set(A, 255), set(B, 0)];
        for k in 0..6u8 {
            list.extend([read(A, 10 + k), store(B, 100 + k)]);
        }
        let case = self.run_by(&list, UNSET);
        self.add(case);
        // the same, set at the start; and the two exchanged
        for modes in [registers(Some(255), Some(0)), registers(Some(0), Some(255))] {
            let case = self.run_by(&list[2..], modes);
            self.add(case);
        }
        // A set anew before each read, B once; and a given mode between
        let mut list = vec![set(B, 240)];
        for (k, mode) in TELLING.into_iter().enumerate() {
            list.extend([set(A, mode), read(A, 20 * k as u8), store(B, 7 * k as u8)]);
            if k % 3 == 0 {
                list.push([4, 0, 1, 15, k as u8, 0, 0, 0]);
            }
        }
        let case = self.run_by(&list, UNSET);
        self.add(case);
        // each register gets the other's mode
        let list = [read(A, 3), store(B, 4), set(A, 90), set(B, 7), read(A, 3), store(B, 4), set(A, 7), set(B, 90), read(A, 3), store(B, 5)];
        for modes in [registers(Some(7), Some(90)), registers(Some(7), Some(7))] {
            let case = self.run_by(&list, modes);
            self.add(case);
        }
    }

    /// Lists of shape 3 by both registers, by one of them and by none; long ones; with items or room too few.
    fn lists_of_shape_3(&mut self) {
        for k in 0..18usize {
            let mut case = self.run_shaped(3, 1 + k * 4, 0, [0, 1, 32, 40][k % 4]);
            let modes = registers(Some(TELLING[k % 12]), Some(self.r.byte()));
            case.modes(modes);
            self.add(case);
        }
        for k in 0..15usize {
            let mut case = self.run_shaped(3, 1 + k / 2, 0, 0);
            case.modes([UNSET, registers(Some(TELLING[k % 12]), None), registers(None, Some(TELLING[k % 12]))][k % 3]);
            self.add(case);
        }
        for (count, items, room) in [(200usize, 0isize, 0isize), (700, 32, 0), (60, -32, 0), (60, 0, -1), (40, -32, -32)] {
            let mut case = self.run_shaped(3, count, items, room);
            case.modes(registers(Some(255), Some(0)));
            self.add(case);
        }
        // the longest list: of shape 2, which gives little, with a few instructions that name a register
        let mut case = self.run_shaped(2, 4096, 0, 0);
        case.modes(registers(None, Some(90)));
        for (place, b) in [(0, set(A, 7)), (2000, self.through((2, 1), A)), (4000, self.through((3, 2), B)), (4095, set(B, 1))] {
            case.patch(LIST, 8 * place, &b);
        }
        self.fit(&mut case);
        self.add(case);
        for k in 0..10usize {
            let mut case = self.step(&[], 32, 32);
            case.zeros = 0;
            case.shape = 3;
            case.lengths[LIST] = 8;
            case.modes([registers(Some(TELLING[k]), Some(TELLING[11 - k])), UNSET][k % 4 / 3]);
            self.add(case);
        }
    }

    /// Orders that few of the others tell: 15 before 5, 3 before 15 in a step, byte 5 before byte 6 of kind 6.
    fn seldom_noticed(&mut self) {
        let case = self.step_by(&[7; 8], [0, 1, 0, 0]);
        self.add(case);
        let case = self.run_by(&[[255; 8], NOTHING], [1, 9, 2, 9]);
        self.add(case);
        let mut case = self.step(&[7; 9], 32, 0);
        case.modes([255; 4]);
        self.add(case);
        let case = self.run_by(&[set(A, 1), [6, 0, 3, 7, 0, 255, 16, 1]], UNSET);
        self.add(case);
    }

    /// Just the items and the room that the list wants, as it is made.
    fn fit(&mut self, case: &mut Case) {
        let (taken, given) = demand(&case.make()[LIST]);
        case.lengths[ITEMS] = (32 * taken).min(32768) as u16;
        case.lengths[OUT] = (32 * given).min(8200) as u16;
    }
}

#[cfg(test)]
mod tests {
    use super::*;
    use crate::bytes::tests::{all_wrong, by, first, pairs, right, with_flags, Rule, ORDER};
    use std::collections::{BTreeMap, BTreeSet};

    /// The digest of the lines of the stored cases before these: what a later request adds leaves them.
    const LINES_BEFORE: u32 = 0xc5b643fc;

    fn stored() -> Vec<Case> {
        let mut plan = Plan::new(crate::STORED_SEED);
        plan.stored(crate::STORED_RANDOM);
        plan.cases
    }

    fn stored_modes() -> Vec<Case> {
        let mut alone = Plan::new(1);
        alone.all_modes();
        stored()[BEFORE..][..alone.cases.len()].to_vec()
    }

    #[test]
    fn the_cases_before_stay() {
        let text: String = stored()[..BEFORE].iter().map(|case| case.line() + "\n").collect();
        assert_eq!(digest(text.as_bytes()), LINES_BEFORE);
    }

    /// What the mode registers of the stored cases before these are: all good ones, and of each sort.
    #[test]
    fn the_cases_before_have_good_mode_registers() {
        let mut seen: BTreeMap<(u8, [u8; 2]), BTreeSet<[u8; 2]>> = BTreeMap::new();
        let mut old_lengths = 0;
        for case in &stored()[..BEFORE] {
            if case.has_modes() {
                let bytes = case.make()[REGISTERS][MODES..].to_vec();
                assert!(bytes.chunks(2).all(|pair| pair[0] == 1 || pair == [0, 0]), "{:?}", case);
                seen.entry((case.kind, [bytes[0], bytes[2]])).or_default().insert([bytes[1], bytes[3]]);
            }
            old_lengths += (case.run_numbers().is_some() && case.lengths[REGISTERS] == 96) as usize;
        }
        for kind in [RUN, STEP, SUM_RUN, DIFFERENCE_RUN, EQUAL_RUN, LESS_RUN, GREATEST_RUN, CLOSE_RUN, SPREAD_RUN] {
            for flags in [[0, 0], [0, 1], [1, 0], [1, 1]] {
                let modes = &seen[&(kind, flags)];
                assert!(modes.len() >= if flags == [0, 0] { 1 } else { 5 }, "{} {:?}", kind, flags);
            }
        }
        assert!(old_lengths >= 10, "{}", old_lengths);
    }

    // ---- number, place and byte

    /// A run or step whose lengths are right.
    fn judged_cases() -> Vec<Case> {
        let lengths = |case: &Case| ![1, 2, 3, 4].contains(&case.answer().words[0]);
        stored_modes().into_iter().filter(|case| [RUN, STEP].contains(&case.kind) && lengths(case)).collect()
    }

    fn bad(bytes: &[u8]) -> bool {
        bytes.chunks(2).any(|pair| pair[0] > 1 || pair[0] == 0 && pair[1] != 0)
    }

    /// Number, place and byte by the right rules but for these: which mode registers are bad, which count as set at an
    /// instruction, and what an instruction is refused with.
    struct By {
        bad: fn(&[u8]) -> bool,
        set: fn(&[u8], &[Instruction], usize) -> [u8; 2],
        rule: Rule,
        late: bool,
    }

    /// Where the registers are set at this place: by the flags at the start or by an earlier kind 6.
    fn set_right(modes: &[u8], list: &[Instruction], place: usize) -> [u8; 2] {
        set_by(modes, &list[..place])
    }

    fn set_by(modes: &[u8], list: &[Instruction]) -> [u8; 2] {
        let has = |which: usize| list.iter().any(|b| b[0] == 6 && b[2] == tag(which) && right(b).0 == 0);
        [(modes[0] > 0 || has(A)) as u8, (modes[2] > 0 || has(B)) as u8]
    }

    const RIGHT: By = By { bad, set: set_right, rule: right, late: false };

    impl By {
        fn of(&self, case: &Case) -> [u32; 3] {
            let buffers = case.make();
            let modes = &buffers[REGISTERS][MODES..];
            let list: Vec<Instruction> = buffers[LIST].chunks(8).map(|b| b.try_into().unwrap()).collect();
            let fifteen = (self.bad)(modes);
            if fifteen && !self.late {
                return [15, 0, 0];
            }
            for (place, b) in list.iter().enumerate() {
                let set = (self.set)(modes, &list, place);
                let (number, byte) = (self.rule)(&[&b[..], &set].concat());
                if number != 0 {
                    return [number, place as u32, byte as u32];
                }
            }
            if fifteen {
                return [15, 0, 0];
            }
            // 12 and 13 are for other tests
            let words = case.answer().words;
            if [12, 13].contains(&words[0]) { [words[0], words[1], words[2]] } else { [0; 3] }
        }
    }

    fn order(numbers: &[u32], b: &[u8]) -> (u32, usize) {
        first(numbers, b)
    }

    /// The right one for another instruction in its place.
    fn changed(b: &[u8], change: impl Fn(&mut Vec<u8>)) -> (u32, usize) {
        let mut other = b.to_vec();
        change(&mut other);
        right(&other)
    }

    fn named(b: &[u8], number: u32, byte: usize) -> (u32, usize) {
        if right(b).0 == number { (number, byte) } else { right(b) }
    }

    const WRONG: &[(&str, By)] = &[
        ("15 for nothing", By { bad: |_| false, ..RIGHT }),
        ("15 for A alone", By { bad: |m| bad(&m[..2]), ..RIGHT }),
        ("15 for B alone", By { bad: |m| bad(&m[2..]), ..RIGHT }),
        ("flag 2 stands", By { bad: |m| bad(&[m[0] - (m[0] == 2) as u8, m[1], m[2] - (m[2] == 2) as u8, m[3]]), ..RIGHT }),
        ("any flag that is not 0 stands", By { bad: |m| m.chunks(2).any(|pair| pair[0] == 0 && pair[1] != 0), ..RIGHT }),
        ("odd flags stand", By { bad: |m| m.chunks(2).any(|pair| pair[0] % 2 == 0 && (pair[0] > 0 || pair[1] > 0)), ..RIGHT }),
        ("flags over 127 stand", By { bad: |m| m.chunks(2).any(|pair| pair[0] > 1 && pair[0] < 128 || pair[0] == 0 && pair[1] != 0), ..RIGHT }),
        ("flag 255 stands", By { bad: |m| m.chunks(2).any(|pair| pair[0] > 1 && pair[0] < 255 || pair[0] == 0 && pair[1] != 0), ..RIGHT }),
        ("a mode with flag 0 stands", By { bad: |m| m[0] > 1 || m[2] > 1, ..RIGHT }),
        ("mode 1 with flag 0 stands", By { bad: |m| m.chunks(2).any(|pair| pair[0] > 1 || pair[0] == 0 && pair[1] > 1), ..RIGHT }),
        ("modes over 127 with flag 0 stand", By { bad: |m| m.chunks(2).any(|pair| pair[0] > 1 || pair[0] == 0 && (1..128).contains(&pair[1])), ..RIGHT }),
        ("a flag of 1 wants a mode", By { bad: |m| m.chunks(2).any(|pair| pair[0] > 1 || (pair[0] == 0) != (pair[1] == 0)), ..RIGHT }),
        ("mode before flag", By { bad: |m| bad(&[m[1], m[0], m[3], m[2]]), ..RIGHT }),
        ("flags first, then modes", By { bad: |m| bad(&[m[0], m[2], m[1], m[3]]), ..RIGHT }),
        ("15 after the instructions", By { late: true, ..RIGHT }),
        ("no kind 6 counts", By { set: |m, _, _| set_by(m, &[]), ..RIGHT }),
        ("a later kind 6 counts", By { set: |m, list, _| set_by(m, list), ..RIGHT }),
        ("only the first instruction counts", By { set: |m, list, place| set_by(m, &list[..place.min(1)]), ..RIGHT }),
        ("only the one before counts", By { set: |m, list, place| set_by(m, &list[place.max(1) - 1..place]), ..RIGHT }),
        ("the flags at the start do not count", By { set: |_, list, place| set_by(&[0; 4], &list[..place]), ..RIGHT }),
        ("the flags count for a step alone", By { set: |m, list, place| if list.len() == 1 { set_by(m, &[]) } else { set_by(&[0; 4], &list[..place]) }, ..RIGHT }),
        ("a kind 6 takes the flags away", By { set: |m, list, place| if list[..place].iter().any(|b| b[0] == 6) { set_by(&[0; 4], &list[..place]) } else { set_by(m, &[]) }, ..RIGHT }),
        ("a kind 6 sets both", By { set: |m, list, place| if list[..place].iter().any(|b| b[0] == 6) { [1, 1] } else { set_by(m, &[]) }, ..RIGHT }),
        ("one set stands for both", By { set: |m, list, place| [set_right(m, list, place)[0] | set_right(m, list, place)[1]; 2], ..RIGHT }),
        ("A and B exchanged", By { set: |m, list, place| [set_right(m, list, place)[1], set_right(m, list, place)[0]], ..RIGHT }),
        ("a mode of 0 is unset", By { set: |m, list, place| {
            let set = set_right(m, list, place);
            [set[0] * (m[1] > 0) as u8, set[1] * (m[3] > 0) as u8]
        }, ..RIGHT }),
        ("unset is mode 0", By { set: |_, _, _| [1, 1], ..RIGHT }),
        ("unset A is mode 0", By { set: |m, list, place| [1, set_right(m, list, place)[1]], ..RIGHT }),
        ("unset B is mode 0", By { set: |m, list, place| [set_right(m, list, place)[0], 1], ..RIGHT }),
        ("14 before 9", By { rule: |b| order(&[5, 6, 7, 8, 14, 9, 18, 16, 17, 11], b), ..RIGHT }),
        ("14 before 6", By { rule: |b| order(&[5, 14, 6, 7, 8, 9, 18, 16, 17, 11], b), ..RIGHT }),
        ("14 after 18", By { rule: |b| order(&[5, 6, 7, 8, 9, 18, 14, 16, 17, 11], b), ..RIGHT }),
        ("14 after 16", By { rule: |b| order(&[5, 6, 7, 8, 9, 18, 16, 14, 17, 11], b), ..RIGHT }),
        ("14 after 17", By { rule: |b| order(&[5, 6, 7, 8, 9, 18, 16, 17, 14, 11], b), ..RIGHT }),
        ("14 last", By { rule: |b| order(&[5, 6, 7, 8, 9, 18, 16, 17, 11, 14], b), ..RIGHT }),
        ("14 before 5", By { rule: |b| order(&[14, 5, 6, 7, 8, 9, 18, 16, 17, 11], b), ..RIGHT }),
        ("8 before 6", By { rule: |b| order(&[5, 7, 8, 6, 9, 14, 18, 16, 17, 11], b), ..RIGHT }),
        ("9 after 18", By { rule: |b| order(&[5, 6, 7, 8, 14, 18, 9, 16, 17, 11], b), ..RIGHT }),
        ("11 before 18", By { rule: |b| order(&[5, 6, 7, 8, 9, 14, 11, 18, 16, 17], b), ..RIGHT }),
        ("byte 0 for 14", By { rule: |b| named(b, 14, 0), ..RIGHT }),
        ("byte 3 for 14", By { rule: |b| named(b, 14, 3), ..RIGHT }),
        ("byte 2 for 9", By { rule: |b| named(b, 9, 2), ..RIGHT }),
        ("byte 3 for 9", By { rule: |b| named(b, 9, 3), ..RIGHT }),
        ("byte 4 for 9", By { rule: |b| named(b, 9, 4), ..RIGHT }),
        ("byte 6 for 18", By { rule: |b| named(b, 18, 6), ..RIGHT }),
        ("kinds over 5 are 5", By { rule: |b| if b[0] == 6 { (5, 0) } else { right(b) }, ..RIGHT }),
        ("kind 7 is kind 6", By { rule: |b| changed(b, |b| b[0] -= (b[0] == 7) as u8), ..RIGHT }),
        ("kinds modulo 16", By { rule: |b| changed(b, |b| b[0] %= 16), ..RIGHT }),
        ("kinds modulo 128", By { rule: |b| changed(b, |b| b[0] %= 128), ..RIGHT }),
        ("tags over 1 are 8", By { rule: |b| {
            let judged = right(b);
            let named = b[0] < 5 && names_register(b) && [0, 9, 14, 18, 16, 17, 11].contains(&judged.0);
            if named { (8, 2) } else { judged }
        }, ..RIGHT }),
        ("tag 4 stands as 3", By { rule: |b| changed(b, |b| b[2] -= (b[2] == 4) as u8), ..RIGHT }),
        ("tags modulo 4", By { rule: |b| if b[2] > 3 { changed(b, |b| b[2] %= 4) } else { right(b) }, ..RIGHT }),
        ("tags modulo 128", By { rule: |b| changed(b, |b| b[2] %= 128), ..RIGHT }),
        ("tag 1 of kind 6 stands", By { rule: |b| changed(b, |b| b[2] += (b[0] == 6 && b[2] == 1) as u8), ..RIGHT }),
        ("tag 0 of kind 6 stands", By { rule: |b| changed(b, |b| b[2] += 2 * (b[0] == 6 && b[2] == 0) as u8), ..RIGHT }),
        ("tag 0 of kind 6 is 8", By { rule: |b| if b[0] == 6 && right(b).0 == 7 { (8, 2) } else { right(b) }, ..RIGHT }),
        ("tag 1 of kind 6 is 7", By { rule: |b| if b[0] == 6 && b[2] == 1 && right(b).0 == 8 { (7, 2) } else { right(b) }, ..RIGHT }),
        ("tags of kind 6 are 9", By { rule: |b| if b[0] == 6 && [7, 8].contains(&right(b).0) { (9, 2) } else { right(b) }, ..RIGHT }),
        ("any source of kind 6", By { rule: |b| if b[0] == 6 { changed(b, |b| b[1] = 0) } else { right(b) }, ..RIGHT }),
        ("sources to 4 of kind 6", By { rule: |b| if b[0] == 6 && b[1] < 5 { changed(b, |b| b[1] = 0) } else { right(b) }, ..RIGHT }),
        ("byte 3 of kind 6 is 9", By { rule: |b| if b[0] == 6 && b[3] != 0 && ![5, 6, 7, 8].contains(&right(b).0) { (9, 3) } else { right(b) }, ..RIGHT }),
        ("any byte 4 of kind 6", By { rule: |b| if b[0] == 6 { changed(b, |b| b[4] = 0) } else { right(b) }, ..RIGHT }),
        ("any byte 5 of kind 6", By { rule: |b| if b[0] == 6 { changed(b, |b| b[5] = 0) } else { right(b) }, ..RIGHT }),
        ("any byte 6 of kind 6", By { rule: |b| if b[0] == 6 { changed(b, |b| b[6] = 0) } else { right(b) }, ..RIGHT }),
        ("any byte 7 of kind 6", By { rule: |b| if b[0] == 6 { changed(b, |b| b[7] = 0) } else { right(b) }, ..RIGHT }),
        ("16 and 17 of kind 6", By { rule: |b| if b[0] == 6 && right(b) == (18, 6) { first(&[16, 17, 18], b) } else { right(b) }, ..RIGHT }),
        ("any byte 3 with tags 2 and 3", By { rule: |b| if names_register(b) && b[0] != 6 { changed(b, |b| b[3] = 0) } else { right(b) }, ..RIGHT }),
        ("byte 4 with tags 2 and 3 is 9", By { rule: |b| {
            let judged = right(b);
            let later = [0, 14, 18, 16, 17, 11].contains(&judged.0);
            if later && touches(b[0], b[1]) && names_register(b) && b[4] != 0 { (9, 4) } else { judged }
        }, ..RIGHT }),
        ("tags 2 and 3 without memory", By { rule: |b| if !touches(b[0], b[1]) && b[0] < 6 { changed(b, |b| b[2] *= !names_register(b) as u8) } else { right(b) }, ..RIGHT }),
        ("14 without memory", By { rule: |b| {
            let unset = names_register(b) && b[6 + b[2] as usize] == 0;
            if right(b) == (9, 2) && unset { (14, 2) } else { right(b) }
        }, ..RIGHT }),
        ("14 in kind 6", By { rule: |b| {
            let unset = names_register(b) && b[6 + b[2] as usize] == 0;
            if b[0] == 6 && unset && ![5, 6, 7, 8, 9].contains(&right(b).0) { (14, 2) } else { right(b) }
        }, ..RIGHT }),
        ("14 for stores alone", By { rule: |b| if [2, 3].contains(&b[0]) { right(b) } else { changed(b, |b| b[8..].fill(1)) }, ..RIGHT }),
        ("14 for reads alone", By { rule: |b| if [2, 3].contains(&b[0]) { changed(b, |b| b[8..].fill(1)) } else { right(b) }, ..RIGHT }),
    ];

    /// Whether the tag names a register.
    fn names_register(b: &[u8]) -> bool {
        b[2] == 2 || b[2] == 3
    }

    #[test]
    fn the_stored_modes_tell_number_place_and_byte() {
        let cases = judged_cases();
        let mut noticed = vec![0; WRONG.len()];
        for case in &cases {
            let words = case.answer().words;
            assert_eq!(words[..3], RIGHT.of(case), "{:?}", case);
            if ORDER.contains(&words[0]) {
                assert_eq!(words[..3], by(right, case));
            }
            if words[0] != 0 {
                assert_eq!(words[3..6], [0; 3]);
                assert_eq!(words[6..], case.make().map(|b| digest(&b)));
            }
            for (k, (_, wrong)) in WRONG.iter().enumerate() {
                noticed[k] += (words[..3] != wrong.of(case)) as usize;
            }
        }
        for ((name, _), count) in WRONG.iter().zip(noticed) {
            println!("{}: {} of {}", name, count, cases.len());
            assert!(count > 0, "{}", name);
        }
    }

    /// Instructions with telling values in every byte, and both flags, that name a mode register or are kind 6, and the
    /// kinds and tags beside them.
    fn near_the_registers() -> Vec<[u8; 10]> {
        let values: [&[u8]; 10] = [
            &[0, 2, 4, 5, 6, 7],
            &[0, 1, 5],
            &[0, 1, 2, 3, 4],
            &[0, 1],
            &[0, 1],
            &[0, 1],
            &[0, 1, 0x10, 0x90],
            &[0, 0x50],
            &[0, 1],
            &[0, 1],
        ];
        let mut all = vec![[0; 10]];
        for (at, values) in values.into_iter().enumerate() {
            let put = |mut b: [u8; 10], value: u8| {
                b[at] = value;
                b
            };
            all = all.into_iter().flat_map(|b| values.iter().map(move |&value| put(b, value))).collect();
        }
        all
    }

    /// What is wrong is told apart by the sort of instruction: an access by a register, or kind 6.
    fn sort(b: &[u8]) -> Option<&'static str> {
        match b[0] {
            6 => Some("kind 6"),
            2 | 3 if names_register(b) => Some("store"),
            0 | 1 | 4 if names_register(b) && b[1] == 0 => Some("read"),
            _ => None,
        }
    }

    /// Each number and byte that an access by a register or kind 6 can be refused with, alone and with each other that
    /// can be wrong later in the same instruction.
    #[test]
    fn the_stored_modes_have_every_pair() {
        let possible = near_the_registers();
        let mut reached: Vec<[u8; 10]> = vec![];
        for case in judged_cases().iter().filter(|case| ORDER.contains(&case.answer().words[0])) {
            let place = case.answer().words[1] as usize;
            reached.push(with_flags(case)[place]);
        }
        let mut count = 0;
        for name in ["kind 6", "store", "read"] {
            let of = |all: &[[u8; 10]]| pairs(all.iter().filter(|b| sort(&b[..]) == Some(name)).map(|b| &b[..]));
            let (possible, reached) = (of(&possible), of(&reached));
            for (pair, fewest) in &possible {
                // an access with other faults alone is no matter of the registers; 16 and 17 are always beside 18 in
                // kinds that may not shift
                let about = name == "kind 6" || [9, 14].contains(&pair.0 .0) || pair.1.is_some_and(|later| [9, 14].contains(&later.0));
                let beside = name != "read" && pair.1.is_some_and(|later| [16, 17].contains(&later.0));
                if about && !beside {
                    let with_18 = pair.0 == (18, 6) || pair.1 == Some((18, 6));
                    let most = if with_18 { fewest + 2 } else { *fewest };
                    assert!(reached.get(pair).is_some_and(|count| (*fewest..=most).contains(count)), "{} {:?}", name, pair);
                    count += 1;
                }
            }
        }
        println!("{} numbers, bytes and pairs", count);
        assert!(count > 40, "{}", count);
        let all = all_wrong(&ORDER, &[6, 1, 1, 0, 1, 1, 1, 1, 0, 0]);
        assert_eq!(all, [(6, 1), (8, 2), (9, 4), (18, 5), (18, 6), (17, 6), (11, 7)]);
    }

    // ---- what a run leaves

    /// The list with its modes written out: tag 1 and what `mode` gives for each access by a register, from the mode
    /// registers at the start, the list and the place; NOTHING for kind 6.
    fn written_out(case: &Case, mode: impl Fn(&[u8], &[Instruction], usize, usize) -> u8) -> Vec<u8> {
        let buffers = case.make();
        let list: Vec<Instruction> = buffers[LIST].chunks(8).map(|b| b.try_into().unwrap()).collect();
        let mut all = vec![];
        for (place, b) in list.iter().enumerate() {
            let mut other = if b[0] == 6 { NOTHING } else { *b };
            if touches(b[0], b[1]) && names_register(b) {
                (other[2], other[3]) = (1, mode(&buffers[REGISTERS][MODES..], &list, place, b[2] as usize - 2));
            }
            all.extend(other);
        }
        all
    }

    /// The mode that the register holds behind these instructions.
    fn holds(modes: &[u8], list: &[Instruction], which: usize) -> u8 {
        let last = list.iter().rev().find(|b| b[0] == 6 && b[2] == tag(which));
        last.map_or(modes[2 * which + 1], |b| b[3])
    }

    /// Memory, M, X, Y and out after a run of this list.
    fn left_by(case: &Case, list: &[u8]) -> [Vec<u8>; 3] {
        let [mut memory, mut registers, _, items, mut out, _] = case.make();
        let answer = emulator::run(&mut memory, &mut registers, list, &items, &mut out);
        assert_eq!(answer.number, 0, "{:?}", case);
        registers.truncate(MODES);
        [memory, registers, out]
    }

    type Which = fn(&[u8], &[Instruction], usize, usize) -> u8;

    const WRONG_MODES: &[(&str, Which)] = &[
        ("A for B and B for A", |m, list, place, which| holds(m, &list[..place], 1 - which)),
        ("A for both", |m, list, place, _| holds(m, &list[..place], A)),
        ("B for both", |m, list, place, _| holds(m, &list[..place], B)),
        ("always as at the start", |m, _, _, which| m[2 * which + 1]),
        ("as at the end of the list", |m, list, _, which| holds(m, list, which)),
        ("never as at the start", |_, list, place, which| holds(&[0; 4], &list[..place], which)),
        ("the first kind 6 alone sets", |m, list, place, which| {
            let first = list[..place].iter().find(|b| b[0] == 6 && b[2] == tag(which));
            first.map_or(m[2 * which + 1], |b| b[3])
        }),
        ("kind 6 sets only what is unset", |m, list, place, which| if m[2 * which] == 1 { m[2 * which + 1] } else { holds(m, &list[..place], which) }),
        ("kind 6 sets both", |m, list, place, which| {
            let last = list[..place].iter().rev().find(|b| b[0] == 6);
            last.map_or(m[2 * which + 1], |b| b[3])
        }),
        ("kind 6 sets the other", |m, list, place, which| {
            let last = list[..place].iter().rev().find(|b| b[0] == 6 && b[2] == tag(1 - which));
            last.map_or(m[2 * which + 1], |b| b[3])
        }),
        ("kind 6 sets one instruction late", |m, list, place, which| holds(m, &list[..place.max(1) - 1], which)),
        ("kind 6 sets one instruction early", |m, list, place, which| holds(m, &list[..list.len().min(place + 2)], which)),
        ("kind 6 adds", |m, list, place, which| {
            let sets = list[..place].iter().filter(|b| b[0] == 6 && b[2] == tag(which));
            sets.fold(m[2 * which + 1], |mode, b| mode ^ b[3])
        }),
        ("mode 0", |_, _, _, _| 0),
        ("the other mode, not M", |m, list, place, which| !holds(m, &list[..place], which)),
        ("the lowest seven bits", |m, list, place, which| holds(m, &list[..place], which) & 127),
        ("the highest seven bits", |m, list, place, which| holds(m, &list[..place], which) & 254),
        ("byte 3 of the access", |_, list, place, _| list[place][3]),
        ("byte 4 of the access", |_, list, place, _| list[place][4]),
        ("the flag", |m, _, _, which| m[2 * which]),
        ("from the flags and modes exchanged", |m, list, place, which| holds(&[m[1], m[0], m[3], m[2]], &list[..place], which)),
    ];

    #[test]
    fn the_stored_modes_tell_what_is_left() {
        let mut noticed: BTreeMap<&str, BTreeSet<u8>> = BTreeMap::new();
        let mut counts: BTreeMap<&str, usize> = BTreeMap::new();
        let (mut cases, mut reached) = (0, BTreeSet::new());
        for case in judged_cases() {
            let list = case.make()[LIST].clone();
            let by_register = |b: &[u8]| touches(b[0], b[1]) && names_register(b);
            if case.answer().words[0] != 0 || !list.chunks(8).any(by_register) {
                continue;
            }
            cases += 1;
            let mut buffers = case.make();
            case.call(&mut buffers);
            let expected = left_by(&case, &written_out(&case, |m, list, place, which| holds(m, &list[..place], which)));
            assert!(buffers[MEMORY] == expected[0] && buffers[REGISTERS][..MODES] == expected[1] && buffers[OUT] == expected[2]);
            for b in list.chunks(8).filter(|b| by_register(b)) {
                reached.insert((b[0], b[2], case.kind));
            }
            for (name, wrong) in WRONG_MODES {
                if left_by(&case, &written_out(&case, wrong)) != expected {
                    noticed.entry(name).or_default().insert(case.kind);
                    *counts.entry(name).or_default() += 1;
                }
            }
        }
        for (name, _) in WRONG_MODES {
            println!("{}: {} of {}", name, counts.get(name).unwrap_or(&0), cases);
            assert!(counts.get(name).is_some_and(|&count| count >= 5), "{}", name);
        }
        assert_eq!(reached.len(), 5 * 2 * 2);
    }

    /// The mode registers afterwards: those at the start and what kind 6 set; and each mode is set in A or in B and used.
    #[test]
    fn the_stored_modes_leave_the_registers() {
        let (mut changed, mut used) = (BTreeSet::new(), BTreeSet::new());
        for case in stored_modes().iter().filter(|case| case.has_modes()) {
            let words = case.answer().words;
            let at = case.run_numbers().unwrap().start;
            let mut buffers = case.make();
            let before = buffers[REGISTERS][MODES..].to_vec();
            case.call(&mut buffers);
            let after = buffers[REGISTERS][MODES..].to_vec();
            let done = words[at] == 0 && (at == 0 || words[0] == 0);
            if !done || case.kind > STEP {
                assert_eq!(before, after);
                continue;
            }
            let list: Vec<Instruction> = case.make()[LIST].chunks(8).map(|b| b.try_into().unwrap()).collect();
            let set = set_right(&before, &list, list.len());
            assert_eq!(after, [set[0], holds(&before, &list, A), set[1], holds(&before, &list, B)]);
            changed.insert((case.kind, [before[0], before[2]], [after[0], after[2]]));
            for (place, b) in list.iter().enumerate().filter(|(_, b)| touches(b[0], b[1]) && names_register(&b[..])) {
                used.insert(holds(&before, &list[..place], b[2] as usize - 2));
            }
        }
        assert_eq!(used.len(), 256);
        for kind in [RUN, STEP] {
            assert!(changed.contains(&(kind, [0, 0], [1, 0])) && changed.contains(&(kind, [0, 0], [0, 1])), "{:?}", changed);
            assert!(changed.contains(&(kind, [0, 1], [1, 1])) && changed.contains(&(kind, [1, 0], [1, 1])), "{:?}", changed);
            assert!(changed.contains(&(kind, [0, 0], [0, 0])) && changed.contains(&(kind, [1, 1], [1, 1])), "{:?}", changed);
        }
        assert!(changed.contains(&(RUN, [0, 0], [1, 1])));
    }

    /// What else the stored cases must reach.
    #[test]
    fn the_stored_modes_reach_everything() {
        let cases = stored_modes();
        assert!(300 <= cases.len() && cases.len() <= 450, "{}", cases.len());
        let (mut numbers, mut lengths, mut flags, mut modes) = (BTreeSet::new(), BTreeSet::new(), BTreeSet::new(), BTreeSet::new());
        let mut shapes: BTreeMap<u32, usize> = BTreeMap::new();
        let mut places = BTreeSet::new();
        for case in &cases {
            let words = case.answer().words;
            let at = case.run_numbers().unwrap().start;
            let number = if at > 0 && words[0] != 0 { words[0] } else { words[at] };
            numbers.insert((case.kind, number));
            if number == 2 {
                lengths.insert(case.lengths[REGISTERS]);
            }
            if number == 14 {
                places.insert(words[1]);
            }
            if case.shape == 3 {
                *shapes.entry(number).or_default() += 1;
            }
            if case.has_modes() && number == 15 {
                let bytes = case.make()[REGISTERS][MODES..].to_vec();
                for (which, pair) in bytes.chunks(2).enumerate() {
                    flags.extend((pair[0] > 1).then_some((which, pair[0])));
                    modes.extend((pair[0] == 0 && pair[1] > 0).then_some((which, pair[1])));
                }
            }
        }
        for number in [0, 1, 2, 3, 4, 15, 5, 6, 7, 8, 9, 14, 18, 16, 17, 11, 12, 13] {
            assert!(numbers.contains(&(RUN, number)), "{}", number);
            assert!(numbers.contains(&(STEP, number)) || [2, 12, 13].contains(&number), "{}", number);
        }
        for kind in SUM_RUN..=SPREAD_RUN {
            assert!([0, 2, 4, 15, 30].iter().all(|&number| numbers.contains(&(kind, number))), "{}", kind);
        }
        assert!([92, 95, 96, 97, 98, 99, 101, 102, 103, 104].iter().all(|length| lengths.contains(length)), "{:?}", lengths);
        for which in [A, B] {
            assert!([2, 3, 4, 127, 128, 129, 254, 255].iter().all(|&flag| flags.contains(&(which, flag))), "{:?}", flags);
            assert!((0..8).all(|bit| modes.contains(&(which, 1 << bit))), "{:?}", modes);
        }
        assert!(shapes[&0] >= 20 && shapes[&14] >= 5 && shapes[&12] >= 1 && shapes[&13] >= 1, "{:?}", shapes);
        assert!(places.len() >= 5, "{:?}", places);
    }

    /// One random case in nine has mode registers and a list of shape 3, or one that sets what it uses; most are done.
    #[test]
    fn one_random_case_in_nine_uses_the_mode_registers() {
        let mut plan = Plan::new(3);
        plan.random_others(4000);
        let (mut shaped, mut done, mut uses, mut fifteen, mut fourteen) = (0, 0, 0, 0, 0);
        let (mut runs, mut runs_done) = (0, 0);
        for case in &plan.cases {
            let Some(at) = case.run_numbers() else { continue };
            let words = case.answer().words;
            let number = if at.start > 0 && words[0] != 0 { words[0] } else { words[at.start] };
            runs += 1;
            runs_done += (number == 0) as usize;
            fifteen += (number == 15) as usize;
            fourteen += (number == 14) as usize;
            shaped += (case.shape == 3) as usize;
            done += (case.shape == 3 && number == 0) as usize;
            let named = |b: &[u8]| b.len() == 8 && touches(b[0], b[1]) && names_register(b);
            uses += (number == 0 && case.kind < 2 && case.make()[LIST].chunks(8).any(named)) as usize;
        }
        println!("{} of shape 3, {} done; {} done use a register; 14: {}, 15: {}; {} of {} runs done", shaped, done, uses, fourteen, fifteen, runs_done, runs);
        assert!(4000 / 15 < shaped && shaped < 4000 / 9, "{}", shaped);
        assert!(shaped / 3 < done && 4000 / 16 < uses, "{} {}", done, uses);
        assert!(40 < fourteen && 20 < fifteen && fifteen < 200, "{} {}", fourteen, fifteen);
        let mut plan = Plan::new(5);
        for _ in 0..500 {
            let case = plan.random_modes();
            case.check();
            assert!(!bad(&case.make()[REGISTERS][MODES..]));
        }
    }
}
