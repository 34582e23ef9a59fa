//! The cases of isolation (document 02, Fourteen): registers and lists of other lengths, bad flags, and their order; each
//! byte of an instruction that breaks the condition, and what else stands in it that does not; every tag; the mode
//! registers set at the start, by a kind 6, by a later one, to another mode and back; places; lists of 4,096 instructions.
//!
//! A long list is one of zeros that is shaped, so `FILLED` throughout, with patches.

use crate::case::*;
use crate::plan::{touches, Instruction, Plan};

/// How many stored cases stand before these.
#[cfg(test)]
pub const BEFORE: usize = 6343;
/// How many of the stored cases are random ones.
const RANDOM: usize = 10;

const A: usize = 0;
const B: usize = 1;
const UNSET: [u8; 4] = [0; 4];
const BOTH: [u8; 4] = [1, 0, 1, 0];

/// The longest list, and how many instructions a record has room for one by one.
const MOST: usize = 4096;
const WRITTEN: usize = 110;
/// What each instruction of a list of zeros is by any shape: it breaks nothing.
const FILLED: Instruction = [0, 0, 1, 0, 0, 0, 0, 0];
/// Instructions that break nothing whatever the mode registers hold, and set none.
const PLAIN: [Instruction; 6] = [
    [0, 0, 1, 0, 9, 0, 0, 0x1A],
    [2, 3, 1, 0, 200, 0, 0, 0],
    [1, 4, 0, 0, 0, 0, 0, 0],
    [3, 1, 1, 0, 17, 0, 0, 0],
    [0, 2, 0, 0, 0, 0, 0, 0x0C],
    [1, 0, 1, 0, 255, 0, 0, 0],
];
/// Instructions of which each breaks the condition in another way, whatever the mode registers hold.
const FLAWS: [Instruction; 6] = [
    [4, 1, 0, 0, 0, 0, 0, 0],
    [1, 2, 0, 0, 0, 64, 0, 0],
    [0, 3, 0, 0, 0, 0, 0x31, 0x06],
    [0, 0, 1, 128, 3, 0, 0, 0x0A],
    [2, 1, 0, 0, 4, 0, 0, 0],
    [5, 0, 0, 0, 0, 0, 0, 0],
];
/// Kinds and sources that touch memory.
const ACCESSES: [(u8, u8); 5] = [(0, 0), (1, 0), (2, 3), (3, 4), (2, 1)];
/// Flips, and what stands in byte 6: shifts that there are, groups too large, m not below p.
const FLIPS: [u8; 10] = [1, 2, 4, 8, 16, 32, 64, 128, 255, 170];
const SHIFTS: [u8; 14] = [16, 0x87, 1, 0x90, 48, 136, 255, 0x21, 2, 0x80, 15, 4, 8, 64];
const MODES_NOT_0: [u8; 11] = [1, 255, 2, 128, 4, 64, 8, 32, 16, 254, 127];
/// Tags that name neither a mode nor a register.
const TAGS: [u8; 10] = [0, 4, 255, 5, 129, 130, 131, 128, 6, 7];
/// Mode registers that 15 refuses.
const BAD: [[u8; 4]; 12] = [
    [2, 0, 0, 0],
    [0, 0, 2, 0],
    [0, 1, 0, 0],
    [0, 0, 0, 1],
    [255, 0, 1, 0],
    [1, 0, 255, 0],
    [0, 128, 1, 0],
    [1, 0, 0, 255],
    [3, 0, 3, 0],
    [0, 0, 129, 7],
    [128, 0, 0, 0],
    [0, 64, 0, 32],
];

/// What each mode register holds, none if it is unset.
type Held = [Option<u8>; 2];

fn tag(which: usize) -> u8 {
    2 + which as u8
}

/// Kind 6: the register gets this mode.
fn set(which: usize, mode: u8) -> Instruction {
    [6, 0, tag(which), mode, 0, 0, 0, 0]
}

/// One register with these two bytes, and the other.
fn one(which: usize, pair: [u8; 2], other: [u8; 2]) -> [u8; 4] {
    let [first, second] = if which == A { [pair, other] } else { [other, pair] };
    [first[0], first[1], second[0], second[1]]
}

fn held_by(modes: [u8; 4]) -> Held {
    [(modes[0] == 1).then_some(modes[1]), (modes[2] == 1).then_some(modes[3])]
}

/// An access of this kind and source by this tag.
fn access((kind, source): (u8, u8), tag: u8) -> Instruction {
    [kind, source, tag, 0, 40 + 3 * source, 0, 0, if kind == 0 { 0x1A } else { 0 }]
}

fn with(mut b: Instruction, byte: usize, value: u8) -> Instruction {
    b[byte] = value;
    b
}

/// Registers of another length, without a patch that they have no room for.
fn cut_registers(case: &mut Case, length: u16) {
    case.lengths[REGISTERS] = length;
    case.patches.retain(|patch| patch.target as usize != REGISTERS || patch.offset as usize + patch.bytes.len() <= length as usize);
}

/// All by which the instruction at this place breaks the condition, in words.
pub fn why(list: &[u8], registers: &[u8], place: usize) -> Vec<String> {
    let mut held = held_by(registers[MODES..MODES + 4].try_into().unwrap());
    for b in list[..8 * place].chunks(8).filter(|b| b[0] == 6) {
        match b[2] {
            2 => held[A] = Some(b[3]),
            3 => held[B] = Some(b[3]),
            _ => {}
        }
    }
    let b = &list[8 * place..8 * place + 8];
    let mut all = vec![];
    if ![0, 1, 2, 3, 6].contains(&b[0]) {
        all.push(format!("kind {}", b[0]));
    }
    for (byte, name) in [(5, "flip"), (6, "shift, byte 6 =")] {
        if b[byte] != 0 {
            all.push(format!("{} {}", name, b[byte]));
        }
    }
    if b[0] < 4 && touches(b[0], b[1]) {
        let of = |mode: Option<u8>| mode.map_or("is unset".to_string(), |mode| format!("holds mode {}", mode));
        match b[2] {
            1 if b[3] == 0 => {}
            1 => all.push(format!("mode {}", b[3])),
            2 | 3 if held[b[2] as usize - 2] == Some(0) => {}
            2 => all.push(format!("A {}", of(held[A]))),
            3 => all.push(format!("B {}", of(held[B]))),
            tag => all.push(format!("tag {}", tag)),
        }
    }
    all
}

/// What is wrong with a list: the lengths, the flags, an instruction.
const WRONGS: [u32; 4] = [2, 3, 15, 40];

impl Plan {
    // ---- lists

    /// A list that is written out.
    fn isolation(&mut self, list: &[Instruction], modes: [u8; 4]) -> Case {
        let bytes = list.concat();
        let mut case = self.case(ISOLATED);
        (case.lengths[REGISTERS], case.lengths[LIST]) = (RECORD as u16, bytes.len() as u16);
        case.zeros = 1 << LIST;
        case.patch(LIST, 0, &bytes).modes(modes);
        case
    }

    /// A list of this many instructions, all `FILLED` but for these.
    fn long_isolation(&mut self, count: usize, others: &[(usize, Instruction)], modes: [u8; 4]) -> Case {
        let mut case = self.isolation(&[], modes);
        case.shape = 1 + self.r.below(3) as u8;
        case.lengths[LIST] = 8 * count as u16;
        for (place, b) in others {
            case.patch(LIST, 8 * place, b);
        }
        case
    }

    fn add_isolation(&mut self, list: &[Instruction], modes: [u8; 4]) {
        let case = self.isolation(list, modes);
        self.add(case);
    }

    /// The instruction alone, or among up to three before it and two behind it that break nothing.
    fn add_among(&mut self, b: Instruction, modes: [u8; 4], turn: usize) {
        let mut list: Vec<Instruction> = (0..turn % 4).map(|k| PLAIN[(turn + k) % 6]).collect();
        list.push(b);
        list.extend((0..turn / 4 % 3).map(|k| PLAIN[(turn + k + 2) % 6]));
        self.add_isolation(&list, modes);
    }

    // ---- random cases

    /// Mode registers of which each is unset, holds 0 or any mode.
    fn some_modes(&mut self) -> [u8; 4] {
        let mut modes = UNSET;
        for which in [A, B] {
            let pair = [[0, 0], [1, 0], [1, self.r.byte()]][self.r.below(3)];
            modes[2 * which..2 * which + 2].copy_from_slice(&pair);
        }
        modes
    }

    /// Kind 6, often with mode 0; where it may be odd, at times with a tag that names no register, or with other bytes.
    fn some_setting(&mut self, held: &mut Held, odd: bool) -> Instruction {
        let (which, mode) = (self.r.below(2), if self.r.one_in(2) { 0 } else { self.r.byte() });
        let mut b = set(which, mode);
        match self.r.below(4) {
            0 if odd => b[2] = self.r.of(&[0u8, 1, 4, 130, 131, 255]),
            1 if odd => b[self.r.of(&[1usize, 4, 7])] = self.wild(),
            _ => {}
        }
        if b[2] == tag(which) {
            held[which] = Some(mode);
        }
        b
    }

    /// An instruction that breaks nothing where the mode registers hold these. An odd one has a byte that a run refuses.
    fn undisturbing(&mut self, held: &mut Held, odd: bool) -> Instruction {
        let odd = odd && self.r.one_in(3);
        if self.r.one_in(4) {
            return self.some_setting(held, odd);
        }
        let kind = self.r.below(4) as u8;
        let source = if kind < 2 { self.r.below(5) as u8 } else { 1 + self.r.below(4) as u8 };
        let mut b = [kind, source, 0, 0, 0, 0, 0, if kind == 0 { self.r.below(80) as u8 } else { 0 }];
        if touches(kind, source) {
            let zero: Vec<u8> = [A, B].into_iter().filter(|&which| held[which] == Some(0)).map(tag).collect();
            b[2] = if zero.is_empty() || self.r.one_in(3) { 1 } else { self.r.of(&zero) };
            b[4] = self.r.byte();
            match self.r.below(3) {
                0 if odd && kind > 1 => b[1] = self.r.of(&[0u8, 5, 255]),
                1 if odd && b[2] > 1 => b[3] = self.wild(),
                _ if odd => b[7] = self.wild(),
                _ => {}
            }
        } else if odd {
            match self.r.below(3) {
                0 => b[1] = 5 + self.r.below(251) as u8,
                1 => b[7] = self.wild(),
                _ => b[2 + self.r.below(3)] = self.wild(),
            }
        }
        b
    }

    /// An instruction that breaks the condition where the mode registers hold these.
    fn disturbing(&mut self, held: &Held) -> Instruction {
        let mut b = self.undisturbing(&mut held.clone(), false);
        match self.r.below(7) {
            0 => b[0] = if self.r.one_in(2) { self.r.of(&[4u8, 5, 7, 128, 130, 134, 255]) } else { 7 + self.r.below(249) as u8 },
            1 => b[5] = self.wild(),
            2 => b[6] = if self.r.one_in(2) { self.r.of(&emulator::network::codes()[1..]) } else { self.wild() },
            _ => {
                let (sort, other) = (self.r.of(&ACCESSES), [A, B].into_iter().filter(|&which| held[which] != Some(0)).map(tag));
                let other: Vec<u8> = other.collect();
                b = access(sort, 1);
                match self.r.below(3) {
                    0 => b[3] = self.wild(),
                    1 if !other.is_empty() => b[2] = self.r.of(&other),
                    _ => (b[2], b[3]) = (self.r.of(&TAGS), self.r.of(&[0u8, 0, 1, 255])),
                }
            }
        }
        b
    }

    /// Half of them are lists that break nothing, four in ten have an instruction that does, first, last or between, one in
    /// ten is refused with 2, 3 or 15. Short ones, as many as a record has room for, and up to 4,096 with some written in.
    pub fn random_isolation(&mut self) -> Case {
        let sort = self.r.below(10);
        let (modes, odd) = (self.some_modes(), self.r.one_in(2));
        let long = self.r.one_in(4);
        let count = match self.r.below(3) {
            _ if long => 1 + self.r.below(MOST),
            0 => 1 + self.r.below(WRITTEN),
            _ => 1 + self.r.below(12),
        };
        let mut places: Vec<usize> = (0..count).collect();
        if long {
            places = (0..1 + self.r.below(40)).map(|_| self.r.below(count)).chain([count - 1]).collect();
            places.sort();
            places.dedup();
        }
        let flaw = match self.r.below(4) {
            _ if !(1..=4).contains(&sort) => places.len(),
            0 => 0,
            1 => places.len() - 1,
            _ => self.r.below(places.len()),
        };
        let mut held = held_by(modes);
        let mut others = vec![];
        for (k, place) in places.into_iter().enumerate() {
            let again = k > flaw && self.r.one_in(8);
            let b = if k == flaw || again { self.disturbing(&held) } else { self.undisturbing(&mut held, odd) };
            others.push((place, b));
        }
        let mut case = if long {
            self.long_isolation(count, &others, modes)
        } else {
            let list: Vec<Instruction> = others.into_iter().map(|other| other.1).collect();
            self.isolation(&list, modes)
        };
        if sort == 0 {
            let number = self.r.of(&WRONGS[..3]);
            let turn = self.r.below(1000);
            self.make_refused(&mut case, number, turn);
        }
        case
    }

    /// The case made so that it is refused with this number, if nothing before it is wrong.
    fn make_refused(&mut self, case: &mut Case, number: u32, turn: usize) {
        match number {
            2 => cut_registers(case, [96, 101, 99, 0, 104, 98, 102, 32][turn % 8]),
            3 if turn % 3 == 0 => case.lengths[LIST] = [32776, 32769, 33000, 32772][turn / 3 % 4],
            3 => case.lengths[LIST] += [1, 4, 7][turn / 3 % 3],
            15 => {
                case.modes(BAD[turn % 12]);
            }
            _ => {
                let place = (case.lengths[LIST] as usize / 8 - 1) * (turn % 2);
                case.patch(LIST, 8 * place, &FLAWS[turn % 6]);
            }
        }
    }

    // ---- the planned cases

    pub fn all_isolations(&mut self) {
        self.other_lengths();
        self.flags_and_modes();
        self.orders_of_isolation();
        self.kinds_that_may_stand();
        self.flips_and_shifts();
        self.modes_given();
        self.tags_of_accesses();
        self.registers_at_the_start();
        self.set_before_and_behind();
        self.settings_of_other_sorts();
        self.bytes_that_are_not_judged();
        self.first_of_several();
        self.lists_as_long_as_can_be();
        self.lists_that_are_built();
        for _ in 0..RANDOM {
            let case = self.random_isolation();
            self.add(case);
        }
    }

    /// 2 and 3, beside lists that break nothing and that do.
    fn other_lengths(&mut self) {
        for (turn, length) in [0u16, 1, 96, 99, 101, 104, 32, 103].into_iter().enumerate() {
            let list = [vec![], PLAIN.to_vec(), vec![FILLED]][turn % 3].clone();
            let mut case = self.isolation(&list, UNSET);
            cut_registers(&mut case, length);
            if turn % 2 == 0 {
                case.zeros |= 1 << REGISTERS;
            }
            self.add(case);
        }
        for length in [1u16, 4, 7, 9, 12, 47, 32767, 32769, 32772, 32776, 33000] {
            let mut case = self.long_isolation(0, &[], BOTH);
            case.lengths[LIST] = length;
            self.add(case);
        }
        for length in [0u16, 8, 16, 32760, 32768] {
            let mut case = self.long_isolation(0, &[], UNSET);
            case.lengths[LIST] = length;
            self.add(case);
        }
        // nothing lent at all
        let mut case = self.case(ISOLATED);
        case.lengths = [0; COUNT];
        self.add(case);
    }

    /// 15 with empty lists, with good ones, and with a kind 6 that sets the bad register; then what stands.
    fn flags_and_modes(&mut self) {
        for (turn, modes) in BAD.into_iter().enumerate() {
            let which = (modes[0] < 2 && modes[1] == 0) as usize;
            let list = [vec![], vec![PLAIN[turn % 6]], vec![set(which, 0), access(ACCESSES[turn % 5], tag(which))]][turn % 3].clone();
            self.add_isolation(&list, modes);
        }
        for (turn, modes) in [UNSET, BOTH, [1, 255, 0, 0], [0, 0, 1, 1], [1, 7, 1, 200], [1, 128, 1, 128]].into_iter().enumerate() {
            self.add_isolation(&PLAIN[..turn % 3], modes);
        }
    }

    /// Each pair of 2, 3, 15 and 40, and all of them.
    fn orders_of_isolation(&mut self) {
        let mut turn = 0;
        for (k, first) in WRONGS.into_iter().enumerate() {
            for later in WRONGS[k + 1..].iter().chain(&WRONGS[k + 1..]) {
                let mut case = self.isolation(&PLAIN, UNSET);
                for number in [*later, first] {
                    self.make_refused(&mut case, number, turn);
                }
                self.add(case);
                turn += 1;
            }
        }
        for first in 0..2 {
            let mut case = self.isolation(&PLAIN, UNSET);
            for number in WRONGS[first..].iter().rev() {
                self.make_refused(&mut case, *number, 7 * first + 1);
            }
            self.add(case);
        }
        // registers that are longer and whose first 100 bytes are bad, or would be good with flags elsewhere
        for (length, at) in [(104u16, 96usize), (104, 100), (104, 92)] {
            let mut case = self.isolation(&PLAIN[..1], UNSET);
            cut_registers(&mut case, length);
            case.patch(REGISTERS, at, &[2, 0, 2, 0]);
            self.add(case);
        }
    }

    /// Every kind but 0 to 3 and 6 breaks it, with nothing else about the instruction that does.
    fn kinds_that_may_stand(&mut self) {
        for (turn, kind) in [4u8, 5, 7, 8, 10, 16, 22, 127, 128, 130, 134, 255].into_iter().enumerate() {
            self.add_among([kind, [0, 1, 3][turn % 3], 1, 0, 0, 0, 0, 0], BOTH, turn);
        }
        for (turn, b) in [[4, 0, 2, 0, 9, 0, 0, 0], [4, 4, 0, 0, 0, 0, 0, 0], [4, 0, 1, 0, 9, 0, 0, 0], [5, 0, 0, 0, 0, 0, 0, 0]].into_iter().enumerate() {
            self.add_among(b, BOTH, turn + 1);
        }
        for (turn, kind) in [0u8, 1, 2, 3, 6, 0, 1].into_iter().enumerate() {
            self.add_among([kind, [0, 2][turn / 5], 1, 0, 0, 0, 0, 0], UNSET, turn);
        }
    }

    /// Bytes 5 and 6 in every kind, also where a run would take them and where it would not.
    fn flips_and_shifts(&mut self) {
        let bases = [access((0, 0), 1), [1, 3, 0, 0, 0, 0, 0, 0], access((2, 3), 1), access((3, 4), 2), set(B, 0), [0, 4, 0, 0, 0, 0, 0, 0x46]];
        for (turn, flip) in FLIPS.into_iter().enumerate() {
            self.add_among(with(bases[turn % 6], 5, flip), BOTH, turn);
        }
        for (turn, shift) in SHIFTS.into_iter().enumerate() {
            self.add_among(with(bases[turn % 6], 6, shift), BOTH, turn);
        }
        // a setting with a flip or shift breaks it itself, though what follows would stand
        for (turn, byte) in [5usize, 6].into_iter().enumerate() {
            self.add_isolation(&[PLAIN[0], with(set(turn, 0), byte, 16), access((0, 0), tag(turn))], UNSET);
        }
        self.add_among(with(with(PLAIN[4], 5, 9), 6, 48), UNSET, 2);
    }

    /// Tag 1 with each mode but 0, also where both registers hold 0.
    fn modes_given(&mut self) {
        for (turn, mode) in MODES_NOT_0.into_iter().chain([85]).enumerate() {
            let b = with(access(ACCESSES[turn % 5], 1), 3, mode);
            self.add_among(b, [BOTH, UNSET, [1, mode, 1, mode]][turn % 3], turn);
        }
    }

    /// Tags that name nothing break it in an access, with mode 0 in byte 3 and registers that hold 0 too.
    fn tags_of_accesses(&mut self) {
        for (turn, tag) in TAGS.into_iter().chain(TAGS).take(15).enumerate() {
            let mut b = access(ACCESSES[(turn + turn / 10) % 5], tag);
            b[3] = [0, 0, 0, 1, 0, 255][turn % 6];
            self.add_among(b, [BOTH, BOTH, UNSET][turn % 3], turn);
        }
    }

    /// Each access by each register: unset, though the other holds 0; with mode 0, alone and beside another; with another
    /// mode, though the other register holds 0; and byte 3 of the access is not looked at.
    fn registers_at_the_start(&mut self) {
        let mut turn = 0;
        for sort in ACCESSES {
            for which in [A, B] {
                let mode = MODES_NOT_0[turn % 11];
                let b = access(sort, tag(which));
                let all = [
                    (b, one(which, [0, 0], [1, 0])),
                    (with(b, 3, mode), one(which, [1, 0], [1, mode])),
                    (b, one(which, [1, mode], [1, 0])),
                    (b, one(which, [1, 0], [0, 0])),
                ];
                // two of them, so that each register and each kind has all four
                for k in 0..2 {
                    let (b, modes) = all[(turn / 2 + turn / 8 + 2 * k) % 4];
                    self.add_among(b, modes, turn);
                    turn += 1;
                }
            }
        }
        for which in [A, B] {
            self.add_among(access((0, 0), tag(which)), UNSET, which);
            self.add_among(with(access((2, 1), tag(which)), 3, 1), UNSET, which + 1);
            // byte 3 of the access is 0, and the register's mode is not
            self.add_among(access((3, 4), tag(which)), [1, 1, 1, 128], which + 2);
        }
    }

    /// Kind 6 before an access and behind it, of this register and of the other, to another mode and back.
    fn set_before_and_behind(&mut self) {
        for which in [A, B] {
            let other = 1 - which;
            let (read, store) = (access((0, 0), tag(which)), access((2, 3), tag(which)));
            let across = access((3, 4), tag(other));
            let mode = [200, 1][which];
            let lists: [(Vec<Instruction>, [u8; 4]); 14] = [
                (vec![set(which, 0), read, store], UNSET),
                (vec![read, set(which, 0)], UNSET),
                (vec![set(other, 0), across, store, set(which, 0)], UNSET),
                (vec![set(which, mode)], UNSET),
                (vec![set(which, mode), PLAIN[0], store], UNSET),
                (vec![set(which, mode), across], BOTH),
                (vec![store, set(which, mode), PLAIN[1], read], BOTH),
                (vec![set(which, mode), set(which, 0), read, set(which, mode)], UNSET),
                (vec![read, set(which, mode), PLAIN[2], set(which, 0), store], BOTH),
                (vec![set(which, 0), read, set(which, mode), PLAIN[3], set(which, mode), PLAIN[4], set(which, 0), store, read], UNSET),
                (vec![set(which, 0), set(other, mode), read, across], UNSET),
                (vec![set(which, 0), store], one(which, [1, mode], [1, mode])),
                (vec![set(which, mode), set(other, 0), across, read], one(which, [1, 0], [0, 0])),
                (vec![set(which, 0), set(which, mode), read], UNSET),
            ];
            for (list, modes) in lists {
                self.add_isolation(&list, modes);
            }
        }
    }

    /// Kind 6 with a tag that names no register sets nothing and breaks nothing; with bytes that a run refuses it sets.
    fn settings_of_other_sorts(&mut self) {
        for (turn, tag_of_none) in [0u8, 1, 4, 255, 130, 131, 5].into_iter().enumerate() {
            let which = turn % 2;
            let b = access(ACCESSES[turn % 5], tag(which));
            let none = with(set(which, 0), 2, tag_of_none);
            self.add_isolation(&[none, b], one(which, [0, 0], [1, 0]));
            if turn % 2 == 0 {
                self.add_isolation(&[none, PLAIN[turn % 6]], UNSET);
            } else {
                self.add_isolation(&[with(none, 3, 9), b], one(which, [1, 0], [0, 0]));
            }
        }
        for (turn, (byte, value)) in [(1usize, 1u8), (1, 255), (4, 1), (4, 255), (7, 1), (7, 0x50)].into_iter().enumerate() {
            let which = turn % 2;
            let b = access(ACCESSES[turn % 5], tag(which));
            self.add_isolation(&[PLAIN[turn % 6], with(set(which, 0), byte, value), b], UNSET);
            self.add_isolation(&[with(set(which, value), byte, value), b], one(which, [1, 0], [1, 0]));
        }
    }

    /// Sources, bytes 2 to 4 where memory is not touched, addresses, choices and functions.
    fn bytes_that_are_not_judged(&mut self) {
        let stand: [Instruction; 12] = [
            [0, 5, 0, 0, 0, 0, 0, 0],
            [1, 255, 1, 7, 0, 0, 0, 0],
            [2, 0, 1, 0, 3, 0, 0, 0],
            [3, 128, 1, 0, 0, 0, 0, 0],
            [0, 1, 2, 0, 0, 0, 0, 0],
            [1, 2, 3, 9, 9, 0, 0, 0],
            [0, 4, 0, 255, 255, 0, 0, 0x50],
            [1, 3, 255, 1, 1, 0, 0, 255],
            [2, 1, 1, 0, 255, 0, 0, 1],
            [0, 0, 1, 0, 0, 0, 0, 0xFF],
            [6, 9, 0, 9, 9, 0, 0, 9],
            [0, 6, 4, 5, 6, 0, 0, 7],
        ];
        for (turn, b) in stand.into_iter().enumerate() {
            self.add_among(b, UNSET, turn);
        }
        // the same, where one is an access after all
        for (turn, b) in [[2u8, 0, 1, 3, 0, 0, 0, 0], [3, 128, 2, 0, 0, 0, 0, 0], [2, 5, 4, 0, 0, 0, 0, 0], [3, 0, 0, 0, 0, 0, 0, 0]].into_iter().enumerate() {
            self.add_among(b, UNSET, turn + 2);
        }
    }

    /// Several that break it: the first is named. Lists in which each in turn is the only one.
    fn first_of_several(&mut self) {
        for turn in 0..6usize {
            let list = [PLAIN[turn], FLAWS[turn], PLAIN[(turn + 1) % 6], FLAWS[(turn + 1) % 6], FLAWS[(turn + 2) % 6]];
            self.add_isolation(&list[(turn + 1) % 2..], BOTH);
        }
        for (turn, place) in [0usize, 1, 7, 54, 108, 109].into_iter().enumerate() {
            let mut held = [None; 2];
            let mut list: Vec<Instruction> = (0..WRITTEN).map(|_| self.undisturbing(&mut held, turn % 2 == 1)).collect();
            if turn % 3 != 1 {
                list[place] = FLAWS[turn];
            }
            self.add_isolation(&list, UNSET);
        }
        // all of them break it
        self.add_isolation(&FLAWS, UNSET);
        self.add_isolation(&[FLAWS[3], FLAWS[0]], BOTH);
    }

    /// 4,096 instructions: none breaks it, the first, the last, others; a register set in front and used at the end.
    fn lists_as_long_as_can_be(&mut self) {
        let by_a = access((2, 3), tag(A));
        let last = MOST - 1;
        for (turn, place) in [0usize, 127, 255, 256, 1023, 2048, last - 1, last].into_iter().enumerate() {
            let case = self.long_isolation(MOST, &[(place, FLAWS[turn % 6])], UNSET);
            self.add(case);
        }
        let lists: [(usize, Vec<(usize, Instruction)>, [u8; 4]); 10] = [
            (MOST, vec![], BOTH),
            (MOST, vec![(0, set(A, 0)), (last, by_a)], UNSET),
            (MOST, vec![(0, set(A, 7)), (last, by_a)], BOTH),
            (MOST, vec![(0, set(A, 7)), (last - 1, set(A, 0)), (last, by_a)], UNSET),
            (MOST, vec![(last - 1, by_a), (last, set(A, 0))], UNSET),
            (MOST, vec![(300, set(A, 0)), (301, set(B, 9)), (600, by_a), (2000, set(A, 9)), (2001, set(A, 0)), (last, by_a)], UNSET),
            (MOST, vec![(1000, set(A, 1)), (3000, FLAWS[0]), (3001, by_a)], BOTH),
            (300, vec![(299, access((0, 0), tag(B)))], [1, 0, 1, 128]),
            (257, vec![(0, set(B, 0)), (256, access((0, 0), tag(B)))], UNSET),
            (1000, vec![(999, FLAWS[3])], BOTH),
        ];
        for (count, others, modes) in lists {
            let case = self.long_isolation(count, &others, modes);
            self.add(case);
        }
        // from the seed, shaped: the first ones are written in, one of the others breaks it soon
        for shape in 1..=3 {
            let mut case = self.isolation(&[], BOTH);
            (case.zeros, case.shape, case.lengths[LIST]) = (0, shape, 32768);
            case.patch(LIST, 0, &PLAIN.concat());
            self.add(case);
        }
        // as it is filled
        for zeros in [0, 1 << LIST] {
            let mut case = self.isolation(&[], UNSET);
            (case.zeros, case.lengths[LIST]) = (zeros, 80);
            self.add(case);
        }
    }

    /// Sums and differences, whose lists use slices alone; one with a mode changed.
    fn lists_that_are_built(&mut self) {
        let built = |difference: bool, n: u32| {
            let mut list = vec![0u8; Plan::need(if difference { DIFFERENCE } else { SUM }, n)];
            let build = if difference { emulator::difference_list } else { emulator::sum_list };
            assert_eq!(build(10, 40, 70, n, &mut list).number, 0);
            list.chunks(8).map(|b| b.try_into().unwrap()).collect::<Vec<Instruction>>()
        };
        self.add_isolation(&built(false, 1), UNSET);
        self.add_isolation(&built(true, 20), [1, 255, 0, 0]);
        let mut list = built(false, 20);
        list[98][3] = 255;
        self.add_isolation(&list, UNSET);
    }
}

#[cfg(test)]
mod tests {
    use super::*;
    use std::collections::{BTreeMap, BTreeSet};

    /// The digest of the lines of the stored cases before these: what a later request adds leaves them.
    const LINES_BEFORE: u32 = 0x0e59fd7f;

    fn stored() -> Vec<Case> {
        let mut plan = Plan::new(crate::STORED_SEED);
        plan.stored(crate::STORED_RANDOM);
        plan.cases
    }

    fn stored_isolations() -> Vec<Case> {
        let mut alone = Plan::new(1);
        alone.all_isolations();
        stored()[BEFORE..][..alone.cases.len()].to_vec()
    }

    #[test]
    fn the_cases_before_stay() {
        let text: String = stored()[..BEFORE].iter().map(|case| case.line() + "\n").collect();
        assert_eq!(digest(text.as_bytes()), LINES_BEFORE);
    }

    #[test]
    fn what_a_list_of_zeros_is_shaped_to() {
        for shape in 1..=3 {
            assert_eq!(shaped(&[0; 8], shape), FILLED);
        }
        for modes in [UNSET, BOTH, [1, 9, 1, 9]] {
            let of = |list: &[Instruction]| RIGHT.of(&list.concat(), &[&[7; 96][..], &modes].concat());
            assert_eq!(of(&[FILLED]), (0, 0));
            assert!(PLAIN.iter().all(|b| of(&[*b]) == (0, 0)));
            assert!(FLAWS.iter().all(|b| of(&[*b]) == (40, 0)));
        }
    }

    // ---- the answer once more, by rules of which each can be made wrong

    /// The four bytes of the mode registers.
    type Four = [u8; 4];

    /// In an order of numbers: the instructions.
    const LIST_ITSELF: u32 = 40;

    #[derive(Clone, Copy)]
    struct Rules {
        order: &'static [u32],
        registers: fn(usize) -> bool,
        list: fn(usize) -> bool,
        bad: fn(Four) -> bool,
        /// The four bytes, of registers of at least 100.
        four: fn(&[u8]) -> Four,
        start: fn(Four) -> Held,
        kind: fn(u8) -> bool,
        flip: fn(&[u8]) -> bool,
        shift: fn(&[u8]) -> bool,
        touches: fn(&[u8]) -> bool,
        /// The mode of an access.
        mode: fn(&[u8], Held) -> Option<u8>,
        /// Whether an access may have this mode.
        zero: fn(Option<u8>) -> bool,
        /// What else breaks the condition.
        also: fn(&[u8], Held) -> bool,
        /// What the registers hold behind an instruction.
        sets: fn(&[u8], Held) -> Held,
        /// What they hold at a place, if not what all instructions before it set: from the start, the list and the place.
        at: Option<fn(Held, &[Instruction], usize) -> Held>,
        /// Which of the places that break it is named, of a list of so many.
        place: fn(&[usize], usize) -> usize,
        /// Whether the instruction at this place is looked at, of so many.
        seen: fn(usize, usize) -> bool,
    }

    fn bad(four: Four) -> bool {
        four.chunks(2).any(|pair| pair[0] > 1 || pair[0] == 0 && pair[1] != 0)
    }

    fn named(b: &[u8]) -> Option<usize> {
        (b[2] == 2 || b[2] == 3).then(|| b[2] as usize - 2)
    }

    fn mode(b: &[u8], held: Held) -> Option<u8> {
        match b[2] {
            1 => Some(b[3]),
            2 => held[A],
            3 => held[B],
            _ => None,
        }
    }

    fn sets(b: &[u8], mut held: Held) -> Held {
        if b[0] == 6 {
            if let Some(which) = named(b) {
                held[which] = Some(b[3]);
            }
        }
        held
    }

    fn touched(b: &[u8]) -> bool {
        b[0] == 2 || b[0] == 3 || b[0] < 2 && b[1] == 0
    }

    const RIGHT: Rules = Rules {
        order: &[2, 3, 15, LIST_ITSELF],
        registers: |length| length == 100,
        list: |length| length % 8 == 0 && length <= 32768,
        bad,
        four: |registers| registers[96..100].try_into().unwrap(),
        start: held_by,
        kind: |kind| kind < 4 || kind == 6,
        flip: |b| b[5] != 0,
        shift: |b| b[6] != 0,
        touches: touched,
        mode,
        zero: |mode| mode == Some(0),
        also: |_, _| false,
        sets,
        at: None,
        place: |all, _| all[0],
        seen: |_, _| true,
    };

    impl Rules {
        fn breaks(&self, b: &[u8], held: Held) -> bool {
            let access = (self.touches)(b) && !(self.zero)((self.mode)(b, held));
            !(self.kind)(b[0]) || (self.flip)(b) || (self.shift)(b) || access || (self.also)(b, held)
        }

        fn of(&self, list: &[u8], registers: &[u8]) -> (u32, u32) {
            let four = (registers.len() >= 100).then(|| (self.four)(registers));
            let code: Vec<Instruction> = list.chunks_exact(8).map(|b| b.try_into().unwrap()).collect();
            for &number in self.order {
                let wrong = match number {
                    2 => !(self.registers)(registers.len()),
                    3 => !(self.list)(list.len()),
                    15 => four.is_some_and(self.bad),
                    _ => {
                        let start = four.map_or([None; 2], self.start);
                        let mut held = start;
                        let mut all = vec![];
                        for (place, b) in code.iter().enumerate() {
                            let here = self.at.map_or(held, |at| at(start, &code, place));
                            if (self.seen)(place, code.len()) && self.breaks(b, here) {
                                all.push(place);
                            }
                            held = (self.sets)(b, held);
                        }
                        if !all.is_empty() {
                            return (40, (self.place)(&all, code.len()) as u32);
                        }
                        false
                    }
                };
                if wrong {
                    return (number, 0);
                }
            }
            (0, 0)
        }
    }

    /// What a run would refuse an instruction with, by the table of the offending byte; the registers hold these.
    fn run_refuses(b: &[u8], held: Held) -> bool {
        let (k, store, touched) = (b[0], b[0] == 2 || b[0] == 3, touches(b[0], b[1]));
        let (p, m) = (b[6] / 16, b[6] % 16);
        k > 6
            || b[1] > 4 || store && b[1] == 0 || k > 4 && b[1] > 0
            || (touched || k == 6) && !(1..=3).contains(&b[2]) || k == 6 && b[2] == 1
            || !touched && k != 6 && b[2..5] != [0; 3] || touched && b[2] > 1 && b[3] > 0 || k == 6 && b[4] > 0
            || touched && named(b).is_some_and(|which| held[which].is_none())
            || store && b[6] > 0 || k > 4 && (b[5] > 0 || b[6] > 0)
            || p > 8 || b[6] > 0 && m >= p
            || if k == 0 { b[7] >= 80 } else { b[7] > 0 }
    }

    const WRONG: &[(&str, Rules)] = &[
        // orders
        ("3 before 2", Rules { order: &[3, 2, 15, LIST_ITSELF], ..RIGHT }),
        ("15 before 2", Rules { order: &[15, 2, 3, LIST_ITSELF], ..RIGHT }),
        ("15 before 3", Rules { order: &[2, 15, 3, LIST_ITSELF], ..RIGHT }),
        ("the list before 15", Rules { order: &[2, 3, LIST_ITSELF, 15], ..RIGHT }),
        ("the list before 3", Rules { order: &[2, LIST_ITSELF, 3, 15], ..RIGHT }),
        ("the list before 2", Rules { order: &[LIST_ITSELF, 2, 3, 15], ..RIGHT }),
        ("no 2", Rules { order: &[3, 15, LIST_ITSELF], ..RIGHT }),
        ("no 3", Rules { order: &[2, 15, LIST_ITSELF], ..RIGHT }),
        ("no 15", Rules { order: &[2, 3, LIST_ITSELF], ..RIGHT }),
        // lengths
        ("96 bytes stand", Rules { registers: |length| length == 96 || length == 100, ..RIGHT }),
        ("96 bytes alone stand", Rules { registers: |length| length == 96, ..RIGHT }),
        ("101 bytes stand", Rules { registers: |length| (100..102).contains(&length), ..RIGHT }),
        ("99 bytes stand", Rules { registers: |length| (99..101).contains(&length), ..RIGHT }),
        ("104 bytes stand", Rules { registers: |length| length == 100 || length == 104, ..RIGHT }),
        ("no registers stand", Rules { registers: |length| length == 100 || length == 0, ..RIGHT }),
        ("lists of 4 more bytes", Rules { list: |length| length % 4 == 0 && length <= 32768, ..RIGHT }),
        ("lists of any length", Rules { list: |length| length <= 32768, ..RIGHT }),
        ("32,768 refused", Rules { list: |length| length % 8 == 0 && length < 32768, ..RIGHT }),
        ("32,776 stands", Rules { list: |length| length % 8 == 0 && length <= 32776, ..RIGHT }),
        ("any multiple of 8", Rules { list: |length| length % 8 == 0, ..RIGHT }),
        ("the empty list refused", Rules { list: |length| length % 8 == 0 && length <= 32768 && length > 0, ..RIGHT }),
        ("one instruction alone", Rules { list: |length| length == 8, ..RIGHT }),
        ("992 instructions at most", Rules { list: |length| length % 8 == 0 && length <= 7936, ..RIGHT }),
        // flags
        ("flags over 1 stand", Rules { bad: |m| m[0] == 0 && m[1] > 0 || m[2] == 0 && m[3] > 0, ..RIGHT }),
        ("flag 2 stands", Rules { bad: |m| bad([[m[0], 1][(m[0] == 2) as usize], m[1], [m[2], 1][(m[2] == 2) as usize], m[3]]), ..RIGHT }),
        ("odd flags stand", Rules { bad: |m| bad([m[0] % 2 + m[0] / 2 * (1 - m[0] % 2), m[1], m[2] % 2 + m[2] / 2 * (1 - m[2] % 2), m[3]]), ..RIGHT }),
        ("modes with flag 0 stand", Rules { bad: |m| m[0] > 1 || m[2] > 1, ..RIGHT }),
        ("mode 1 with flag 0 stands", Rules { bad: |m| bad([m[0], m[1] & 254, m[2], m[3] & 254]), ..RIGHT }),
        ("only A judged", Rules { bad: |m| bad([m[0], m[1], 0, 0]), ..RIGHT }),
        ("only B judged", Rules { bad: |m| bad([m[2], m[3], 0, 0]), ..RIGHT }),
        ("only both bad", Rules { bad: |m| bad([m[0], m[1], 0, 0]) && bad([m[2], m[3], 0, 0]), ..RIGHT }),
        ("any mode bad", Rules { bad: |m| bad(m) || m[1] > 0 || m[3] > 0, ..RIGHT }),
        ("set registers bad", Rules { bad: |m| m != [0; 4], ..RIGHT }),
        ("the four bytes at the front", Rules { four: |r| r[..4].try_into().unwrap(), ..RIGHT }),
        ("the four bytes at 92", Rules { four: |r| r[92..96].try_into().unwrap(), ..RIGHT }),
        ("flags and modes exchanged", Rules { four: |r| [r[97], r[96], r[99], r[98]], ..RIGHT }),
        ("both flags first", Rules { four: |r| [r[96], r[98], r[97], r[99]], ..RIGHT }),
        ("B before A", Rules { four: |r| [r[98], r[99], r[96], r[97]], ..RIGHT }),
        // kinds
        ("kind 4 may stand", Rules { kind: |kind| kind < 5 || kind == 6, ..RIGHT }),
        ("kind 5 may stand", Rules { kind: |kind| kind < 4 || kind == 5 || kind == 6, ..RIGHT }),
        ("kinds 4 and 5 may stand", Rules { kind: |kind| kind < 7, ..RIGHT }),
        ("kind 7 may stand", Rules { kind: |kind| kind < 4 || kind == 6 || kind == 7, ..RIGHT }),
        ("all above 6 may stand", Rules { kind: |kind| kind != 4 && kind != 5, ..RIGHT }),
        ("kind 255 may stand", Rules { kind: |kind| kind < 4 || kind == 6 || kind == 255, ..RIGHT }),
        ("kind 6 may not", Rules { kind: |kind| kind < 4, ..RIGHT }),
        ("kind 3 may not", Rules { kind: |kind| kind < 3 || kind == 6, ..RIGHT }),
        ("kind 2 may not", Rules { kind: |kind| kind < 2 || kind == 3 || kind == 6, ..RIGHT }),
        ("kind 1 may not", Rules { kind: |kind| kind == 0 || kind == 2 || kind == 3 || kind == 6, ..RIGHT }),
        ("kind 0 may not", Rules { kind: |kind| (1..4).contains(&kind) || kind == 6, ..RIGHT }),
        ("kinds modulo 8", Rules { kind: |kind| kind % 8 < 4 || kind % 8 == 6, ..RIGHT }),
        ("kinds modulo 16", Rules { kind: |kind| kind % 16 < 4 || kind % 16 == 6, ..RIGHT }),
        ("kinds modulo 128", Rules { kind: |kind| kind % 128 < 4 || kind % 128 == 6, ..RIGHT }),
        // flips and shifts
        ("flips stand", Rules { flip: |_| false, ..RIGHT }),
        ("flips of stores stand", Rules { flip: |b| b[5] != 0 && b[0] != 2 && b[0] != 3, ..RIGHT }),
        ("flips of masked stores stand", Rules { flip: |b| b[5] != 0 && b[0] != 3, ..RIGHT }),
        ("flips of kind 6 stand", Rules { flip: |b| b[5] != 0 && b[0] != 6, ..RIGHT }),
        ("flips of set M stand", Rules { flip: |b| b[5] != 0 && b[0] != 1, ..RIGHT }),
        ("flips of logic stand", Rules { flip: |b| b[5] != 0 && b[0] != 0, ..RIGHT }),
        ("flips stand where memory is not touched", Rules { flip: |b| b[5] != 0 && touched(b), ..RIGHT }),
        ("flips stand where memory is touched", Rules { flip: |b| b[5] != 0 && !touched(b), ..RIGHT }),
        ("flip 255 stands", Rules { flip: |b| b[5] != 0 && b[5] != 255, ..RIGHT }),
        ("flip 128 stands", Rules { flip: |b| b[5] & 127 != 0, ..RIGHT }),
        ("flip 1 stands", Rules { flip: |b| b[5] > 1, ..RIGHT }),
        ("odd flips alone break it", Rules { flip: |b| b[5] % 2 == 1, ..RIGHT }),
        ("shifts stand", Rules { shift: |_| false, ..RIGHT }),
        ("shifts of stores stand", Rules { shift: |b| b[6] != 0 && b[0] != 2 && b[0] != 3, ..RIGHT }),
        ("shifts of kind 6 stand", Rules { shift: |b| b[6] != 0 && b[0] != 6, ..RIGHT }),
        ("shifts of set M stand", Rules { shift: |b| b[6] != 0 && b[0] != 1, ..RIGHT }),
        ("shifts of logic stand", Rules { shift: |b| b[6] != 0 && b[0] != 0, ..RIGHT }),
        ("shifts stand where memory is not touched", Rules { shift: |b| b[6] != 0 && touched(b), ..RIGHT }),
        ("shifts stand where memory is touched", Rules { shift: |b| b[6] != 0 && !touched(b), ..RIGHT }),
        ("groups over 256 lines stand", Rules { shift: |b| b[6] != 0 && b[6] < 0x90, ..RIGHT }),
        ("p of 0 stands", Rules { shift: |b| b[6] > 15, ..RIGHT }),
        ("m not below p stands", Rules { shift: |b| b[6] != 0 && b[6] % 16 < b[6] / 16, ..RIGHT }),
        ("only what is no shift breaks it", Rules { shift: |b| b[6] > 0x8F || b[6] != 0 && b[6] % 16 >= b[6] / 16, ..RIGHT }),
        ("byte 7 breaks it too", Rules { also: |b, _| b[0] != 0 && b[7] != 0, ..RIGHT }),
        ("byte 7 for byte 6", Rules { shift: |b| b[7] != 0, ..RIGHT }),
        ("byte 4 for byte 5", Rules { flip: |b| b[4] != 0, ..RIGHT }),
        // what touches memory
        ("logic alone touches", Rules { touches: |b| b[0] > 1 && b[0] < 4 || b[0] == 0 && b[1] == 0, ..RIGHT }),
        ("set M alone touches", Rules { touches: |b| b[0] > 1 && b[0] < 4 || b[0] == 1 && b[1] == 0, ..RIGHT }),
        ("stores alone touch", Rules { touches: |b| b[0] == 2 || b[0] == 3, ..RIGHT }),
        ("stores do not touch", Rules { touches: |b| b[0] < 2 && b[1] == 0, ..RIGHT }),
        ("masked stores do not touch", Rules { touches: |b| touched(b) && b[0] != 3, ..RIGHT }),
        ("plain stores do not touch", Rules { touches: |b| touched(b) && b[0] != 2, ..RIGHT }),
        ("source 0 alone touches", Rules { touches: |b| b[0] < 4 && b[1] == 0, ..RIGHT }),
        ("stores from source 0 do not touch", Rules { touches: |b| touched(b) && (b[0] < 2 || b[1] != 0), ..RIGHT }),
        ("stores from sources over 4 do not touch", Rules { touches: |b| touched(b) && b[1] < 5, ..RIGHT }),
        ("sources over 4 are memory", Rules { touches: |b| touched(b) || b[0] < 2 && b[1] > 4, ..RIGHT }),
        ("kinds 0 and 1 always touch", Rules { touches: |b| b[0] < 4, ..RIGHT }),
        ("kind 6 touches", Rules { touches: |b| touched(b) || b[0] == 6, ..RIGHT }),
        ("tags decide what touches", Rules { touches: |b| b[0] < 4 && b[2] != 0, ..RIGHT }),
        // modes and tags
        ("tag 0 is mode 0", Rules { mode: |b, held| if b[2] == 0 { Some(0) } else { mode(b, held) }, ..RIGHT }),
        ("tag 0 is byte 3", Rules { mode: |b, held| if b[2] == 0 { Some(b[3]) } else { mode(b, held) }, ..RIGHT }),
        ("tags over 3 are byte 3", Rules { mode: |b, held| if b[2] > 3 { Some(b[3]) } else { mode(b, held) }, ..RIGHT }),
        ("tag 4 is byte 3", Rules { mode: |b, held| if b[2] == 4 { Some(b[3]) } else { mode(b, held) }, ..RIGHT }),
        ("tag 255 is byte 3", Rules { mode: |b, held| if b[2] == 255 { Some(b[3]) } else { mode(b, held) }, ..RIGHT }),
        ("tags over 2 are B", Rules { mode: |b, held| if b[2] > 3 { held[B] } else { mode(b, held) }, ..RIGHT }),
        ("tags modulo 4", Rules { mode: |b, held| mode(&[0, 0, b[2] % 4, b[3]], held), ..RIGHT }),
        ("tags modulo 128", Rules { mode: |b, held| mode(&[0, 0, b[2] % 128, b[3]], held), ..RIGHT }),
        ("tags are not looked at", Rules { mode: |b, _| Some(b[3]), ..RIGHT }),
        ("byte 3 for tags 2 and 3", Rules { mode: |b, held| if named(b).is_some() { Some(b[3]) } else { mode(b, held) }, ..RIGHT }),
        ("byte 3 must be 0 for tags 2 and 3", Rules { also: |b, _| touched(b) && named(b).is_some() && b[3] != 0, ..RIGHT }),
        ("registers may not be used", Rules { mode: |b, _| mode(b, [None; 2]), ..RIGHT }),
        ("registers may hold anything", Rules { mode: |b, held| if named(b).is_some_and(|which| held[which].is_some()) { Some(0) } else { mode(b, held) }, ..RIGHT }),
        ("tags 2 and 3 stand", Rules { mode: |b, held| if named(b).is_some() { Some(0) } else { mode(b, held) }, ..RIGHT }),
        ("unset is mode 0", Rules { mode: |b, held| mode(b, held).or(named(b).map(|_| 0)), ..RIGHT }),
        ("unset A is mode 0", Rules { mode: |b, held| mode(b, [held[A].or(Some(0)), held[B]]), ..RIGHT }),
        ("unset B is mode 0", Rules { mode: |b, held| mode(b, [held[A], held[B].or(Some(0))]), ..RIGHT }),
        ("A for B and B for A", Rules { mode: |b, held| mode(b, [held[B], held[A]]), ..RIGHT }),
        ("A for both", Rules { mode: |b, held| mode(b, [held[A]; 2]), ..RIGHT }),
        ("B for both", Rules { mode: |b, held| mode(b, [held[B]; 2]), ..RIGHT }),
        ("either holds 0", Rules { mode: |b, held| if named(b).is_some() && held.contains(&Some(0)) { Some(0) } else { mode(b, held) }, ..RIGHT }),
        ("both must hold 0", Rules { mode: |b, held| if named(b).is_some() && held != [Some(0); 2] { None } else { mode(b, held) }, ..RIGHT }),
        ("mode 255 stands too", Rules { zero: |mode| mode == Some(0) || mode == Some(255), ..RIGHT }),
        ("mode 1 stands too", Rules { zero: |mode| mode.is_some_and(|mode| mode < 2), ..RIGHT }),
        ("even modes stand", Rules { zero: |mode| mode.is_some_and(|mode| mode % 2 == 0), ..RIGHT }),
        ("modes under 128 stand", Rules { zero: |mode| mode.is_some_and(|mode| mode < 128), ..RIGHT }),
        ("mode 128 stands", Rules { zero: |mode| mode.is_some_and(|mode| mode % 128 == 0), ..RIGHT }),
        ("modes stand", Rules { zero: |mode| mode.is_some(), ..RIGHT }),
        ("given modes stand", Rules { mode: |b, held| if b[2] == 1 { Some(0) } else { mode(b, held) }, ..RIGHT }),
        ("modes of reads stand", Rules { touches: |b| b[0] == 2 || b[0] == 3 || touched(b) && b[2] != 1, ..RIGHT }),
        ("no access has mode 0", Rules { zero: |_| false, ..RIGHT }),
        ("tag 1 does not stand", Rules { mode: |b, held| if b[2] == 1 { None } else { mode(b, held) }, ..RIGHT }),
        ("addresses must be 0", Rules { also: |b, _| touched(b) && b[4] != 0, ..RIGHT }),
        // kind 6
        ("kind 6 sets nothing", Rules { sets: |_, held| held, ..RIGHT }),
        ("kind 6 sets both", Rules { sets: |b, held| if sets(b, held) != held { [Some(b[3]); 2] } else { held }, ..RIGHT }),
        ("kind 6 sets the other", Rules { sets: |b, held| sets(&[b[0], b[1], 5 - b[2].clamp(0, 5), b[3]], held), ..RIGHT }),
        ("kind 6 sets A always", Rules { sets: |b, held| if b[0] == 6 && named(b).is_some() { [Some(b[3]), held[B]] } else { held }, ..RIGHT }),
        ("kind 6 sets only what is unset", Rules { sets: |b, held| if named(b).is_some_and(|which| held[which].is_some()) { held } else { sets(b, held) }, ..RIGHT }),
        ("kind 6 sets only to 0", Rules { sets: |b, held| if b[3] == 0 { sets(b, held) } else { held }, ..RIGHT }),
        ("kind 6 sets only to others than 0", Rules { sets: |b, held| if b[3] != 0 { sets(b, held) } else { held }, ..RIGHT }),
        ("kind 6 cannot set back to 0", Rules { sets: |b, held| if b[3] == 0 && named(b).is_some_and(|which| held[which].is_some()) { held } else { sets(b, held) }, ..RIGHT }),
        ("kind 6 sets to 0 always", Rules { sets: |b, held| sets(&[b[0], b[1], b[2], 0], held), ..RIGHT }),
        ("kind 6 sets from byte 4", Rules { sets: |b, held| sets(&[b[0], b[1], b[2], b[4]], held), ..RIGHT }),
        ("any kind sets", Rules { sets: |b, held| sets(&[6, b[1], b[2], b[3]], held), ..RIGHT }),
        ("kind 6 with a source does not set", Rules { sets: |b, held| if b[1] == 0 { sets(b, held) } else { held }, ..RIGHT }),
        ("kind 6 with byte 4 does not set", Rules { sets: |b, held| if b[4] == 0 { sets(b, held) } else { held }, ..RIGHT }),
        ("kind 6 with byte 7 does not set", Rules { sets: |b, held| if b[7] == 0 { sets(b, held) } else { held }, ..RIGHT }),
        ("kind 6 with tag 0 sets A", Rules { sets: |b, held| sets(&[b[0], b[1], if b[2] == 0 { 2 } else { b[2] }, b[3]], held), ..RIGHT }),
        ("kind 6 with tag 1 sets A", Rules { sets: |b, held| sets(&[b[0], b[1], if b[2] == 1 { 2 } else { b[2] }, b[3]], held), ..RIGHT }),
        ("kind 6 with tag 1 sets B", Rules { sets: |b, held| sets(&[b[0], b[1], if b[2] == 1 { 3 } else { b[2] }, b[3]], held), ..RIGHT }),
        ("kind 6 with a tag over 3 sets B", Rules { sets: |b, held| sets(&[b[0], b[1], b[2].min(3), b[3]], held), ..RIGHT }),
        ("kind 6 with a tag over 3 sets by its low bits", Rules { sets: |b, held| sets(&[b[0], b[1], b[2] % 4, b[3]], held), ..RIGHT }),
        ("kind 6 with a tag over 127 sets by its low bits", Rules { sets: |b, held| sets(&[b[0], b[1], b[2] % 128, b[3]], held), ..RIGHT }),
        ("kind 6 with a mode breaks it", Rules { also: |b, _| b[0] == 6 && b[3] != 0, ..RIGHT }),
        ("kind 6 with tag 0 breaks it", Rules { also: |b, _| b[0] == 6 && b[2] == 0, ..RIGHT }),
        ("kind 6 with tag 1 breaks it", Rules { also: |b, _| b[0] == 6 && b[2] == 1, ..RIGHT }),
        ("kind 6 with a tag over 3 breaks it", Rules { also: |b, _| b[0] == 6 && b[2] > 3, ..RIGHT }),
        ("kind 6 with a source breaks it", Rules { also: |b, _| b[0] == 6 && b[1] != 0, ..RIGHT }),
        ("kind 6 with byte 4 breaks it", Rules { also: |b, _| b[0] == 6 && b[4] != 0, ..RIGHT }),
        ("kind 6 with byte 7 breaks it", Rules { also: |b, _| b[0] == 6 && b[7] != 0, ..RIGHT }),
        ("a later kind 6 counts", Rules { at: Some(|start, list, place| {
            let behind = |which: usize| list[place..].iter().find(|b| b[0] == 6 && named(&b[..]) == Some(which)).map(|b| b[3]);
            let held = list[..place].iter().fold(start, |held, b| sets(b, held));
            [held[A].or(behind(A)), held[B].or(behind(B))]
        }), ..RIGHT }),
        ("what is held at the end", Rules { at: Some(|start, list, _| list.iter().fold(start, |held, b| sets(b, held))), ..RIGHT }),
        ("what is held at the start", Rules { at: Some(|start, _, _| start), ..RIGHT }),
        ("what is held at the start is lost", Rules { start: |_| [None; 2], ..RIGHT }),
        ("set at the start is mode 0", Rules { start: |m| [(m[0] == 1).then_some(0), (m[2] == 1).then_some(0)], ..RIGHT }),
        ("unset at the start is mode 0", Rules { start: |m| [Some(m[1]), Some(m[3])], ..RIGHT }),
        ("kind 6 sets one instruction late", Rules { at: Some(|start, list, place| list[..place.max(1) - 1].iter().fold(start, |held, b| sets(b, held))), ..RIGHT }),
        ("kind 6 sets one instruction early", Rules { at: Some(|start, list, place| list[..list.len().min(place + 2)].iter().fold(start, |held, b| sets(b, held))), ..RIGHT }),
        ("the first kind 6 alone sets", Rules { at: Some(|start, list, place| {
            let first = |which: usize| list[..place].iter().find(|b| b[0] == 6 && named(&b[..]) == Some(which)).map(|b| b[3]);
            [first(A).or(start[A]), first(B).or(start[B])]
        }), ..RIGHT }),
        ("kind 6 adds", Rules { sets: |b, held| match (b[0], named(b)) {
            (6, Some(which)) => sets(&[6, 0, b[2], b[3] | held[which].unwrap_or(0)], held),
            _ => held,
        }, ..RIGHT }),
        // what a run refuses
        ("what a run refuses breaks it", Rules { also: run_refuses, ..RIGHT }),
        ("sources over 4 break it", Rules { also: |b, _| b[1] > 4, ..RIGHT }),
        ("stores from source 0 break it", Rules { also: |b, _| (b[0] == 2 || b[0] == 3) && b[1] == 0, ..RIGHT }),
        ("tags where memory is not touched break it", Rules { also: |b, _| b[0] < 2 && b[1] > 0 && b[2] != 0, ..RIGHT }),
        ("modes where memory is not touched break it", Rules { also: |b, _| b[0] < 2 && b[1] > 0 && b[3] != 0, ..RIGHT }),
        ("addresses where memory is not touched break it", Rules { also: |b, _| b[0] < 2 && b[1] > 0 && b[4] != 0, ..RIGHT }),
        ("unset registers where memory is not touched break it", Rules { also: |b, held| b[0] < 2 && named(b).is_some_and(|which| held[which].is_none()), ..RIGHT }),
        ("choices over 4 break it", Rules { also: |b, _| b[0] == 0 && b[7] >= 80, ..RIGHT }),
        ("items from outside break it", Rules { also: |b, _| b[0] < 4 && b[1] == 4, ..RIGHT }),
        ("an access without a mode stands", Rules { zero: |mode| mode.is_none() || mode == Some(0), ..RIGHT }),
        // places
        ("places from 1", Rules { place: |all, _| all[0] + 1, ..RIGHT }),
        ("the last place", Rules { place: |all, _| all[all.len() - 1], ..RIGHT }),
        ("place 0 always", Rules { place: |_, _| 0, ..RIGHT }),
        ("how many break it", Rules { place: |all, _| all.len(), ..RIGHT }),
        ("places from behind", Rules { place: |all, length| length - 1 - all[0], ..RIGHT }),
        ("the byte for the place", Rules { place: |all, _| 8 * all[0], ..RIGHT }),
        ("places modulo 256", Rules { place: |all, _| all[0] % 256, ..RIGHT }),
        ("places modulo 4,095", Rules { place: |all, _| all[0] % 4095, ..RIGHT }),
        ("the first instruction is not looked at", Rules { seen: |place, _| place > 0, ..RIGHT }),
        ("the last instruction is not looked at", Rules { seen: |place, length| place + 1 < length, ..RIGHT }),
        ("the first instruction alone is looked at", Rules { seen: |place, _| place == 0, ..RIGHT }),
        ("every second instruction is looked at", Rules { seen: |place, _| place % 2 == 0, ..RIGHT }),
        ("the first 256 are looked at", Rules { seen: |place, _| place < 256, ..RIGHT }),
        ("the first 1,024 are looked at", Rules { seen: |place, _| place < 1024, ..RIGHT }),
        ("the first 4,095 are looked at", Rules { seen: |place, _| place < 4095, ..RIGHT }),
    ];

    /// The rules answer as the emulator does, and each wrong one is noticed.
    #[test]
    fn the_stored_isolations_tell_what_is_wrong() {
        let cases = stored_isolations();
        let mut noticed = vec![0; WRONG.len()];
        for case in &cases {
            let made = case.make();
            let words = case.answer().words;
            let of = |rules: &Rules| rules.of(&made[LIST], &made[REGISTERS]);
            let right = of(&RIGHT);
            assert_eq!((words[0], words[1]), right, "{:?}", case);
            assert_eq!(words[2..NUMBERS], [0, 0, 0]);
            assert_eq!(words[NUMBERS..], made.clone().map(|b| digest(&b)));
            for (k, (_, wrong)) in WRONG.iter().enumerate() {
                // these look at the whole of a list for each place
                let slow = wrong.at.is_some() && case.lengths[LIST] > 8000;
                noticed[k] += (!slow && of(wrong) != right) as usize;
            }
        }
        let mut least = vec![];
        for ((name, _), count) in WRONG.iter().zip(noticed) {
            println!("{}: {} of {}", name, count, cases.len());
            if count == 0 {
                least.push(name);
            }
        }
        assert!(least.is_empty(), "{:?}", least);
    }

    /// The words for an instruction that is named are never none, and none of those before it has any.
    #[test]
    fn the_words_for_what_breaks_it() {
        for case in stored_isolations() {
            let (made, words) = (case.make(), case.answer().words);
            let of = |place: usize| why(&made[LIST], &made[REGISTERS], place);
            let place = if words[0] == 40 { words[1] as usize } else { made[LIST].len() / 8 };
            if [0, 40].contains(&words[0]) && place < 300 {
                assert!((0..place).all(|place| of(place).is_empty()), "{:?}", case);
                assert!(words[0] == 0 || !of(place).is_empty(), "{:?}", case);
            }
        }
    }

    /// What else the stored cases must reach.
    #[test]
    fn the_stored_isolations_reach_everything() {
        let cases = stored_isolations();
        assert!(240 <= cases.len() && cases.len() <= 300, "{}", cases.len());
        let mut numbers: BTreeMap<u32, usize> = BTreeMap::new();
        let (mut places, mut lengths, mut registers) = (BTreeSet::new(), BTreeSet::new(), BTreeSet::new());
        // of the instruction that breaks it: the kind and what is wrong with it, alone
        let mut alone: BTreeSet<(u8, &str)> = BTreeSet::new();
        // how an access that stands has mode 0: kind, tag
        let mut stands = BTreeSet::new();
        for case in &cases {
            assert_eq!(case.kind, ISOLATED);
            let words = case.answer().words;
            *numbers.entry(words[0]).or_default() += 1;
            let made = case.make();
            match words[0] {
                2 => drop(registers.insert(case.lengths[REGISTERS])),
                3 => drop(lengths.insert((3, case.lengths[LIST]))),
                _ => drop(lengths.insert((0, case.lengths[LIST]))),
            }
            if words[0] != 0 && words[0] != 40 {
                continue;
            }
            let mut held = held_by(made[REGISTERS][MODES..].try_into().unwrap());
            for (place, b) in made[LIST].chunks(8).enumerate() {
                let access = touched(b) && mode(b, held) != Some(0);
                let all = [(!(RIGHT.kind)(b[0]), "kind"), (b[5] > 0, "flip"), (b[6] > 0, "shift"), (access, "access")];
                let wrong: Vec<&str> = all.into_iter().filter(|w| w.0).map(|w| w.1).collect();
                if !wrong.is_empty() {
                    assert_eq!((words[0], words[1] as usize), (40, place));
                    places.insert(place);
                    if let [one] = wrong[..] {
                        alone.insert((b[0], one));
                        if one == "access" {
                            let why = match b[2] {
                                1 => "given",
                                2 | 3 if mode(b, held).is_none() => "unset",
                                2 => "A",
                                3 => "B",
                                0 => "tag 0",
                                _ => "tag over 3",
                            };
                            alone.insert((b[0], why));
                        }
                    }
                    break;
                }
                if touched(b) {
                    stands.insert((b[0], b[2]));
                }
                held = sets(b, held);
            }
        }
        println!("{:?}\n{:?}\n{:?}\n{:?}", numbers, places, alone, stands);
        assert!(numbers[&0] > 60 && numbers[&40] > 120 && [2, 3, 15].iter().all(|number| numbers[number] > 12), "{:?}", numbers);
        for kind in 0..4 {
            for why in ["flip", "shift", "given", "unset", "A", "B", "tag 0", "tag over 3"] {
                assert!(alone.contains(&(kind, why)), "{} {}", kind, why);
            }
            assert!((1..=3).all(|tag| stands.contains(&(kind, tag))), "{} {:?}", kind, stands);
        }
        assert!(alone.contains(&(6, "flip")) && alone.contains(&(6, "shift")));
        assert!([4, 5, 7, 128, 134, 255].iter().all(|&kind| alone.contains(&(kind, "kind"))), "{:?}", alone);
        assert!([0, 1, 2, 3, 255, 256, 999, 1023, 2048, 4094, 4095].iter().all(|place| places.contains(place)), "{:?}", places);
        assert!([0, 1, 96, 99, 101, 104].iter().all(|length| registers.contains(length)), "{:?}", registers);
        assert!([1, 4, 7, 32767, 32769, 32776, 33000].iter().all(|&length| lengths.contains(&(3, length))), "{:?}", lengths);
        assert!([0, 8, 32760, 32768].iter().all(|&length| lengths.contains(&(0, length))), "{:?}", lengths);
    }

    /// About one random case in ten asks it; about half of these answer 0 of lists that use registers and memory, and some
    /// have each number, 40 at the first, the last and other places.
    #[test]
    fn one_random_case_in_ten_is_an_isolation() {
        let mut plan = Plan::new(3);
        plan.random_others(6000);
        let mut numbers: BTreeMap<u32, usize> = BTreeMap::new();
        let (mut all, mut used, mut long, mut places) = (0, 0, 0, [0; 3]);
        for case in plan.cases.iter().filter(|case| case.kind == ISOLATED) {
            all += 1;
            let made = case.make();
            let words = case.answer().words;
            assert_eq!((words[0], words[1]), RIGHT.of(&made[LIST], &made[REGISTERS]), "{:?}", case);
            *numbers.entry(words[0]).or_default() += 1;
            let (place, count) = (words[1] as usize, made[LIST].len() / 8);
            if words[0] == 40 && count > 2 {
                places[if place == 0 { 0 } else if place + 1 == count { 2 } else { 1 }] += 1;
            }
            let by_register = |b: &[u8]| touched(b) && named(b).is_some();
            used += (words[0] == 0 && made[LIST].chunks(8).any(by_register)) as usize;
            long += (words[0] == 0 && count > 1000) as usize;
        }
        println!("{} cases, {:?}, 40 at the first, between and at the last {:?}; 0 by registers {}, long {}", all, numbers, places, used, long);
        assert!(6000 / 12 < all && all < 6000 / 8, "{}", all);
        assert!(2 * all < 5 * numbers[&0] && 5 * numbers[&0] < 3 * all, "{:?}", numbers);
        assert!(3 * all < 10 * numbers[&40] && [2, 3, 15].iter().all(|number| numbers[number] > 8), "{:?}", numbers);
        assert!(places.iter().all(|&count| count > all / 20), "{:?}", places);
        assert!(used > all / 5 && long > all / 20, "{} {}", used, long);
    }
}
