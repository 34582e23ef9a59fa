//! Which cases there are: the planned ones, one after the other, and families of random ones.

use crate::case::*;

/// The plan's own random numbers (not those of the buffers).
pub struct Random(u64);

impl Random {
    pub fn new(seed: u64) -> Random {
        Random(seed)
    }
    pub fn next(&mut self) -> u64 {
        self.0 = self.0.wrapping_add(0x9E3779B97F4A7C15);
        let mut z = self.0;
        z = (z ^ (z >> 30)).wrapping_mul(0xBF58476D1CE4E5B9);
        z = (z ^ (z >> 27)).wrapping_mul(0x94D049BB133111EB);
        z ^ (z >> 31)
    }
    pub fn below(&mut self, n: usize) -> usize {
        ((self.next() >> 16) % n as u64) as usize
    }
    pub fn byte(&mut self) -> u8 {
        self.below(256) as u8
    }
    pub fn one_in(&mut self, n: usize) -> bool {
        self.below(n) == 0
    }
    pub fn of<T: Copy>(&mut self, choices: &[T]) -> T {
        choices[self.below(choices.len())]
    }
}

pub type Instruction = [u8; 8];

pub const NOTHING: Instruction = [0, 2, 0, 0, 0, 0, 0, 0x0C];
pub const RESOLVE: Instruction = [5, 0, 0, 0, 0, 0, 0, 0];

/// Stands for the numbers 18, 16 and 17 where a number is drawn from 5 to 11: it is document 01's number for all three,
/// which no answer has since document 02's Six. So what is drawn, and with it the stored cases, stays as it was.
const MOVE: u32 = 10;

fn codes() -> Vec<u8> {
    emulator::network::codes()
}

pub fn touches(kind: u8, source: u8) -> bool {
    kind == 2 || kind == 3 || ([0, 1, 4].contains(&kind) && source == 0)
}

/// How many of these instructions take an item, and how many give one.
pub fn demand(list: &[u8]) -> (usize, usize) {
    let taken = list.chunks(8).filter(|b| b[0] <= 4 && b[1] == 4).count();
    let given = list.chunks(8).filter(|b| b[0] == 4 || b[0] == 5).count();
    (taken, given)
}

pub struct Plan {
    pub r: Random,
    /// Draws the mode registers that a case is given when it is added, so that `r` draws what it drew before there were
    /// any.
    pub m: Random,
    /// Draws the random cases of lists as text, and which cases they are, for the same reason.
    t: Random,
    /// Draws those of texts with statements, and which cases they are, for the same reason.
    s: Random,
    pub cases: Vec<Case>,
    /// Whether a few of the mode registers so drawn are bad ones (15).
    pub some_bad_modes: bool,
    /// Ask more often for kind 1 in plain reads and writes, on which document 01 is silent (reading D12).
    pub open_points: bool,
}

impl Plan {
    pub fn new(seed: u64) -> Plan {
        Plan { r: Random::new(seed), m: Random::new(!seed), t: Random::new(seed.rotate_left(32) ^ 0x7E87), s: Random::new(seed.rotate_left(16) ^ 0x57A7), cases: vec![], some_bad_modes: false, open_points: false }
    }

    pub fn add(&mut self, mut case: Case) {
        self.settle(&mut case);
        case.check();
        self.cases.push(case);
    }

    pub fn case(&mut self, kind: u8) -> Case {
        let seed = (self.r.next() >> 20) as u32 | 1;
        Case::new(kind, seed)
    }

    // ---- the mode registers

    /// Four bytes that 15 does not refuse: both registers unset, A set, B set, both set, with any modes.
    pub fn good_modes(&mut self) -> [u8; 4] {
        let mut bytes = [0u8; 4];
        let set = self.m.below(4);
        for which in 0..2 {
            if set >> which & 1 == 1 {
                let mode = if self.m.one_in(3) { self.m.of(&[0, 255, 7, 15, 240, 1, 128]) } else { self.m.byte() };
                bytes[2 * which..2 * which + 2].copy_from_slice(&[1, mode]);
            }
        }
        bytes
    }

    /// Four bytes that 15 refuses.
    pub fn bad_modes(&mut self) -> [u8; 4] {
        let mut bytes = self.good_modes();
        let (at, mode) = (2 * self.m.below(2), 1 + self.m.below(255) as u8);
        let flag = if self.m.one_in(2) { self.m.of(&[2u8, 3, 128, 129, 254, 255]) } else { 2 + self.m.below(254) as u8 };
        let pair = [[flag, mode], [flag, 0], [0, mode]][self.m.below(3)];
        bytes[at..at + 2].copy_from_slice(&pair);
        bytes
    }

    /// Gives the registers of a run or step good mode registers where the case says nothing of them: what the seed puts
    /// there is refused with 15.
    pub fn settle(&mut self, case: &mut Case) {
        let says = |patch: &Patch| patch.target as usize == REGISTERS && patch.offset as usize + patch.bytes.len() > MODES;
        if !case.has_modes() || case.patches.iter().any(says) {
            return;
        }
        let bad = self.some_bad_modes && self.m.one_in(40);
        let bytes = if bad { self.bad_modes() } else { self.good_modes() };
        if case.make()[REGISTERS][MODES..] != bytes {
            case.modes(bytes);
        }
    }

    // ---- instructions

    pub fn valid_of(&mut self, kind: u8, source: u8) -> Instruction {
        let mut b = [kind, source, 0, 0, 0, 0, 0, 0];
        if kind == 5 {
            return RESOLVE;
        }
        if touches(kind, source) {
            b[2] = 1;
            b[3] = if self.r.one_in(3) { self.r.of(&[0, 255, 7, 15, 240, 1, 128]) } else { self.r.byte() };
            b[4] = self.r.byte();
        }
        if !self.r.one_in(3) {
            b[5] = self.r.byte();
        }
        if kind != 2 && kind != 3 && !self.r.one_in(3) {
            b[6] = self.r.of(&codes());
        }
        if kind == 0 {
            b[7] = self.r.below(80) as u8;
        }
        b
    }

    pub fn valid_kind(&mut self, kind: u8) -> Instruction {
        let source = match kind {
            2 | 3 => 1 + self.r.below(4) as u8,
            5 => 0,
            _ => self.r.below(5) as u8,
        };
        self.valid_of(kind, source)
    }

    pub fn valid(&mut self) -> Instruction {
        let kind = self.r.below(6) as u8;
        self.valid_kind(kind)
    }

    fn touching(&mut self) -> Instruction {
        match self.r.below(5) {
            0 => self.valid_kind(2),
            1 => self.valid_kind(3),
            2 => self.valid_of(0, 0),
            3 => self.valid_of(1, 0),
            _ => self.valid_of(4, 0),
        }
    }

    fn not_touching(&mut self) -> Instruction {
        if self.r.one_in(4) {
            return RESOLVE;
        }
        let kind = self.r.of(&[0u8, 1, 4]);
        let source = 1 + self.r.below(4) as u8;
        self.valid_of(kind, source)
    }

    pub fn wild(&mut self) -> u8 {
        if self.r.one_in(2) {
            self.r.of(&[1u8, 2, 3, 127, 128, 254, 255])
        } else {
            1 + self.r.below(255) as u8
        }
    }

    /// An instruction that is refused with this number: 5 to 9, 11, or MOVE for 18, 16 and 17.
    fn damaged(&mut self, number: u32) -> Instruction {
        let mut b = match number {
            7 | 8 => self.touching(),
            9 => self.not_touching(),
            _ => self.valid(),
        };
        match number {
            5 => {
                let kind = if self.r.one_in(2) { self.r.of(&[6u8, 7, 8, 16, 127, 128, 255]) } else { 6 + self.r.below(250) as u8 };
                // 6 is a kind since document 02's Seven
                b[0] = kind.max(7);
            }
            6 => {
                b[1] = match (b[0], self.r.below(2)) {
                    (2, 0) | (3, 0) => 0,
                    (5, 0) => 1 + self.r.below(4) as u8,
                    _ => 5 + self.r.of(&[0u8, 1, 2, 123, 250]),
                }
            }
            7 => b[2] = 0,
            8 => b[2] = self.r.of(&[4u8, 5, 16, 128, 129, 255]),
            9 => {
                let at = 2 + self.r.below(3);
                b[at] = self.wild();
            }
            MOVE => match b[0] {
                2 | 3 => b[6] = if self.r.one_in(2) { self.r.of(&codes()[1..]) } else { self.wild() },
                5 => {
                    let at = 5 + self.r.below(2);
                    b[at] = self.wild();
                }
                _ => {
                    while codes().contains(&b[6]) {
                        b[6] = if self.r.one_in(3) { self.r.of(&[1u8, 15, 17, 34, 136, 144, 0x89, 255]) } else { self.r.byte() };
                    }
                }
            },
            11 => b[7] = if b[0] == 0 { 80 + self.r.below(176) as u8 } else { self.wild() },
            _ => panic!("5 to 9, MOVE and 11"),
        }
        let answer = emulator::run(&mut [0; 8192], &mut [0; RECORD], &b, &[0; 32], &mut [0; 32]);
        let given = if (16..=18).contains(&answer.number) { MOVE } else { answer.number };
        assert_eq!(given, number, "{:?}", b);
        b
    }

    /// An instruction with several things wrong at once, mostly.
    fn doubly_damaged(&mut self) -> Instruction {
        let number = 5 + self.r.below(7) as u32;
        let mut b = self.damaged(number);
        for at in 0..8 {
            if self.r.one_in(3) {
                b[at] = match at {
                    0 => self.r.below(7) as u8,
                    1 => self.r.below(6) as u8,
                    2 => self.r.below(3) as u8,
                    _ => self.wild(),
                };
            }
        }
        b
    }

    // ---- run and step

    fn run(&mut self, list: &[Instruction], items: usize, out: usize) -> Case {
        let bytes = list.concat();
        let mut case = self.case(RUN);
        case.lengths = [8192, RECORD as u16, bytes.len() as u16, items as u16, out as u16, 0];
        case.zeros = 1 << LIST;
        case.patch(LIST, 0, &bytes);
        case
    }

    /// With just the items and the room that the list wants.
    pub fn run_fitting(&mut self, list: &[Instruction]) -> Case {
        let (taken, given) = demand(&list.concat());
        self.run(list, 32 * taken, 32 * given)
    }

    pub fn step(&mut self, instruction: &[u8], items: usize, out: usize) -> Case {
        let mut case = self.case(STEP);
        case.lengths = [8192, RECORD as u16, instruction.len() as u16, items as u16, out as u16, 0];
        case.zeros = 1 << LIST;
        case.patch(LIST, 0, instruction);
        case
    }

    /// A run of `count` shaped instructions with `items` and `out` bytes more (or fewer) than it
    /// wants.
    pub fn run_shaped(&mut self, shape: u8, count: usize, items: isize, out: isize) -> Case {
        let mut case = self.case(RUN);
        case.shape = shape;
        case.lengths = [8192, RECORD as u16, 8 * count as u16, 0, 0, 0];
        let (taken, given) = demand(&case.make()[LIST]);
        let clamp = |value: isize, most: usize| value.clamp(0, most as isize) as u16;
        case.lengths[ITEMS] = clamp(32 * taken as isize + items, 32768);
        case.lengths[OUT] = clamp(32 * given as isize + out, 8200);
        case
    }

    fn random_lengths(&mut self, case: &mut Case) {
        for _ in 0..1 + self.r.below(3) {
            match self.r.below(5) {
                0 => case.lengths[MEMORY] = self.r.of(&[0u16, 1, 32, 96, 4096, 8160, 8184, 8191, 8193, 8200]),
                1 if case.kind != STEP => case.lengths[REGISTERS] = self.r.of(&[0u16, 1, 32, 96, 99, 101, 98, 104]),
                2 => {
                    let cut = if self.r.one_in(3) { self.r.of(&[32767, 32769, 32772, 32776, 33000]) } else { self.r.below(120) as u16 };
                    case.lengths[LIST] = cut;
                    let length = cut as usize;
                    for patch in &mut case.patches {
                        if patch.target == LIST as u8 {
                            let end = length.saturating_sub(patch.offset as usize).min(patch.bytes.len());
                            patch.bytes.truncate(end);
                        }
                    }
                    case.patches.retain(|p| !p.bytes.is_empty());
                }
                3 => case.lengths[ITEMS] = if self.r.one_in(3) { self.r.of(&[32767, 32768, 32769, 32800, 33000]) } else { self.r.below(200) as u16 },
                _ => case.lengths[OUT] = self.r.below(300) as u16,
            }
        }
    }

    fn random_step(&mut self) -> Case {
        match self.r.below(5) {
            4 => {
                // resolve with few responders or none; fresh ones have others too (vary_responders)
                let out = self.r.of(&[31usize, 32, 40]);
                let mut case = self.step(&RESOLVE, 0, out);
                case.zeros |= 1 << REGISTERS;
                for _ in 0..self.r.below(3) {
                    let at = 64 + self.r.below(32);
                    let bit = 1 << self.r.below(8);
                    case.patch(REGISTERS, at, &[bit]);
                }
                case
            }
            0 => {
                let b = self.valid();
                let (items, out) = (32 * self.r.below(3), self.r.below(80));
                self.step(&b, items, out)
            }
            1 => {
                let number = 5 + self.r.below(7) as u32;
                let b = self.damaged(number);
                self.step(&b, 32, 32)
            }
            2 => {
                let b = self.doubly_damaged();
                let (items, out) = (32 * self.r.below(2), self.r.below(64));
                self.step(&b, items, out)
            }
            _ => {
                let b = self.valid();
                let mut case = self.step(&b, 32, 32);
                self.random_lengths(&mut case);
                case
            }
        }
    }

    fn random_run(&mut self) -> Case {
        match self.r.below(12) {
            0..=3 => {
                let count = 1 + self.r.below(90);
                let extra = self.r.of(&[0isize, 0, 32, 64]);
                let room = self.r.of(&[0isize, 0, 1, 31, 32, 100]);
                self.run_shaped(1, count, extra, room)
            }
            4 | 5 => {
                let count = 1 + self.r.below(60);
                let items = -32 * self.r.of(&[0isize, 0, 1, 2, 5]);
                let room = -self.r.of(&[0isize, 1, 31, 32, 33, 64, 500]);
                self.run_shaped(1, count, items, room)
            }
            6 | 7 => {
                let count = 1 + self.r.below(14);
                let mut list: Vec<Instruction> = (0..count).map(|_| self.valid()).collect();
                for _ in 0..1 + self.r.below(2) {
                    let place = self.r.below(count);
                    let number = 5 + self.r.below(7) as u32;
                    list[place] = self.damaged(number);
                }
                self.run_fitting(&list)
            }
            8 => {
                let count = 1 + self.r.below(6);
                let mut list: Vec<Instruction> = (0..count).map(|_| self.valid()).collect();
                let place = self.r.below(count);
                list[place] = self.doubly_damaged();
                self.run_fitting(&list)
            }
            9 => {
                let count = self.r.below(10);
                let list: Vec<Instruction> = (0..count).map(|_| self.valid()).collect();
                let mut case = self.run_fitting(&list);
                self.random_lengths(&mut case);
                case
            }
            10 => {
                let count = 100 + self.r.below(300);
                let place = self.r.below(count);
                let mut case = self.run_shaped(2, count, 32, 8);
                if self.r.one_in(2) {
                    let number = 5 + self.r.below(7) as u32;
                    let b = self.damaged(number);
                    case.patch(LIST, 8 * place, &b);
                }
                case
            }
            _ => {
                let count = 1 + self.r.below(20);
                let list: Vec<Instruction> = (0..count).map(|_| self.valid()).collect();
                self.run_fitting(&list)
            }
        }
    }

    // ---- passes

    fn pass(&mut self, wired: bool, flip: u8, byte6: u8) -> Case {
        let mut case = self.case(if wired { WIRED } else { PASS });
        case.lengths[ITEMS] = 32;
        case.lengths[OUT] = 32;
        case.p = [flip as u32, byte6 as u32, 0, 0];
        case
    }

    fn random_pass(&mut self) -> Case {
        let wired = self.r.one_in(2);
        let flip = self.r.byte();
        let byte6 = if self.r.one_in(5) { self.r.byte() } else { self.r.of(&codes()) };
        self.pass(wired, flip, byte6)
    }

    // ---- builders

    pub fn build(&mut self, kind: u8, a: u32, b: u32, s: u32, n: u32, length: usize) -> Case {
        let mut case = self.case(kind);
        case.lengths[LIST] = length as u16;
        case.p = [a, b, s, n];
        if kind == SUM_RUN || kind == DIFFERENCE_RUN {
            case.lengths[MEMORY] = 8192;
            case.lengths[REGISTERS] = RECORD as u16;
        }
        case
    }

    pub fn need(kind: u8, n: u32) -> usize {
        let first = if kind == SUM || kind == SUM_RUN { 1 } else { 2 };
        8 * (first + 5 * n as usize)
    }

    /// Starts that stand, in one of several arrangements.
    fn fields(&mut self, n: u32, arrangement: usize) -> (u32, u32, u32) {
        let top = 257 - n as usize;
        match arrangement {
            0 => loop {
                let (a, b, s) = (self.r.below(top) as u32, self.r.below(top) as u32, self.r.below(top) as u32);
                if a.abs_diff(s) >= n && b.abs_diff(s) >= n {
                    return (a, b, s);
                }
            },
            1 => (10, 200 - n, 10),                   // S is A
            2 => (10, 200 - n, 200 - n),              // S is B
            3 => (256 - n, 256 - n, 256 - n),         // all the same, at the end
            4 => (64, 64, 0),                         // A is B
            5 => (0, 2 * n, n),                       // S between, touching both
            6 => (100, 100 + n / 2, 100 - n),         // A and B overlap, S touches A from below
            _ => (0, 256 - n, 128 - n / 2),           // the two ends and the middle
        }
    }

    fn random_build(&mut self) -> Case {
        let kind = self.r.of(&[SUM, DIFFERENCE, SUM_RUN, DIFFERENCE_RUN, SUM_RUN, DIFFERENCE_RUN]);
        let n = 1 + self.r.below(64) as u32;
        if self.r.one_in(3) {
            let wild = self.r.of(&[0u32, 1, 64, 65, 192, 193, 255, 256, 257, 65536, 1 << 31, u32::MAX - 63, u32::MAX]);
            let n = if self.r.one_in(6) { wild } else { n };
            let top = 200;
            let mut p = [self.r.below(top) as u32, self.r.below(top) as u32, self.r.below(top) as u32];
            if self.r.one_in(3) {
                let at = self.r.below(3);
                p[at] = wild;
            }
            if self.r.one_in(3) {
                p[2] = p[self.r.below(2)].wrapping_add(self.r.below(5) as u32).wrapping_sub(2);
            }
            let length = if self.r.one_in(4) { self.r.below(2600) } else { 2600 };
            return self.build(kind, p[0], p[1], p[2], n, length);
        }
        let arrangement = self.r.below(8);
        let (a, b, s) = self.fields(n, arrangement);
        let need = Plan::need(kind, n);
        let length = self.r.of(&[need, need, need + 1, need + 8, need + 100, need - 1, need - 8]);
        self.build(kind, a, b, s, n, length)
    }

    // ---- blocks

    /// A formatted file, read with room for everything.
    pub fn read_plain(&mut self, asked: u32, kind: u32, blocks: usize, used: u32) -> Case {
        let mut case = self.case(READ_PLAIN);
        case.lengths[FILE] = 512 * blocks as u16;
        let content = 496 * (blocks.max(1) - 1) + used as usize;
        case.lengths[LIST] = content.min(33000) as u16;
        case.p = [asked, kind, used, 1];
        case
    }

    fn read_picture(&mut self) -> Case {
        let mut case = self.case(READ_PICTURE);
        case.lengths = [8192, 96, 0, 0, 0, 8704];
        case.p = [0, 1, 352, 1];
        case
    }

    /// Changes one byte of the file to another value.
    pub fn alter(&mut self, case: &mut Case, at: usize) {
        let old = case.make()[FILE][at];
        let new = match self.r.below(4) {
            0 => old ^ (1 << self.r.below(8)),
            1 => old.wrapping_add(1),
            2 => 255 - old,
            _ => old.wrapping_add(1 + self.r.below(255) as u8),
        };
        case.patch(FILE, at, &[new]);
    }

    pub fn swap(&mut self, case: &mut Case, one: usize, other: usize) {
        let file = &case.make()[FILE];
        let (x, y) = (file[one], file[other]);
        case.patch(FILE, one, &[y]);
        case.patch(FILE, other, &[x]);
    }

    /// Bytes 0 and 255, 257 places apart, changing places under right sums.
    fn far_swap(&mut self, case: &mut Case, block: usize, at: usize, zero_first: bool) {
        let base = 512 * block + at;
        let (first, second) = if zero_first { (0, 255) } else { (255, 0) };
        case.patch(FILE, base, &[first]).patch(FILE, base + 257, &[second]).seal(block);
        case.patch(FILE, base, &[second]).patch(FILE, base + 257, &[first]);
    }

    fn random_read(&mut self) -> Case {
        let picture = self.r.one_in(3);
        let mut case = if picture {
            self.read_picture()
        } else {
            let kind = self.r.of(&[2u32, 3]);
            let blocks = self.r.of(&[1usize, 1, 2, 2, 3, 5, 9]);
            let used = if kind == 2 { 8 * (1 + self.r.below(62)) as u32 } else { 0 };
            // items: 496(blocks - 1) + used must be a multiple of 32
            let used = if kind == 3 { (16 * (blocks - 1) % 32) as u32 + 32 * self.r.below(14) as u32 + if blocks % 2 == 1 { 32 } else { 0 } } else { used };
            self.read_plain(kind, kind, blocks, used)
        };
        let blocks = case.lengths[FILE] as usize / 512;
        let block = self.r.below(blocks);
        match self.r.below(10) {
            0 => {} // good
            1 => {
                let at = self.r.below(512 * blocks);
                self.alter(&mut case, at);
            }
            2 => {
                let at = 512 * block + self.r.below(511);
                self.swap(&mut case, at, at + 1);
            }
            3 => {
                let at = 12 + self.r.below(508 - 257 - 12);
                let zero_first = self.r.one_in(2);
                self.far_swap(&mut case, block, at, zero_first);
            }
            4 | 5 => {
                for _ in 0..1 + self.r.below(3) {
                    let at = 512 * block + self.r.below(12);
                    self.alter(&mut case, at);
                }
                case.seal(block);
            }
            6 => {
                case.p[2] = self.r.of(&[0u32, 1, 4, 8, 31, 32, 300, 351, 353, 488, 495, 496, 497, 65535]);
                if !picture {
                    case.lengths[LIST] = 5000;
                }
            }
            7 => {
                if picture {
                    case.lengths[MEMORY] = self.r.of(&[0u16, 8191, 8192, 8193, 8200]);
                    case.lengths[REGISTERS] = self.r.of(&[0u16, 95, 96, 97, 100]);
                } else {
                    let content = case.lengths[LIST];
                    case.lengths[LIST] = self.r.of(&[0, content - 1, content, content + 1, 8192]);
                }
            }
            8 => {
                case.lengths[FILE] = self.r.of(&[0u16, 1, 511, 512, 513, 1000, 1024, 1536, 8192, 8704, 9216, 34303, 34305, 34816, 35000]);
            }
            _ => {
                if !picture {
                    case.p[0] = self.r.of(&[0u32, 2, 3, 4, 256, 258, 65536, 65538, 65539, u32::MAX]);
                }
                case.p[1] = self.r.of(&[0u32, 1, 2, 3, 4, 257, 258, 259, 512, 65535]);
            }
        }
        case
    }

    pub fn write_plain(&mut self, asked: u32, content: usize, output: usize) -> Case {
        let mut case = self.case(WRITE_PLAIN);
        case.lengths[LIST] = content as u16;
        case.lengths[FILE] = output as u16;
        case.p[0] = asked;
        case
    }

    fn write_picture(&mut self, memory: usize, registers: usize, output: usize) -> Case {
        let mut case = self.case(WRITE_PICTURE);
        case.lengths = [memory as u16, registers as u16, 0, 0, 0, output as u16];
        case
    }

    fn random_write(&mut self) -> Case {
        if self.r.one_in(4) {
            let memory = self.r.of(&[8192usize, 8192, 8192, 8192, 0, 8191, 8193, 8200]);
            let registers = self.r.of(&[96usize, 96, 96, 96, 0, 95, 97]);
            let output = self.r.of(&[8704usize, 8704, 8705, 8703, 9000, 8192, 0]);
            return self.write_picture(memory, registers, output);
        }
        let asked = self.r.of(&[2u32, 2, 2, 2, 3, 3, 3, 3, 3, 0, 4, 258, 65538, u32::MAX]);
        let unit = if asked == 3 { 32 } else { 8 };
        let mut content = unit * self.r.below(4000 / unit);
        if self.r.one_in(4) {
            content += self.r.below(unit);
        }
        let need = if content == 0 { 512 } else { (content + 495) / 496 * 512 };
        let output = self.r.of(&[need, need, need + 1, need + 512, need - 1, need - 512]);
        self.write_plain(asked, content, output)
    }

    /// One random case of any family; one in sixteen is a text with statements, of the others one in eight is a list shown,
    /// a text made or a reach asked, of the others one in ten asks whether a list is isolated, and of those that remain one
    /// in ten is a picture of kind 1 or 4, read, written, made new or made old. Of the rest one in eight is a search, one in
    /// eight a closing or spreading, one in eight a run or step with one instruction at fault, one in eight a list by the
    /// mode registers, one in sixteen a list of masked stores, one in sixteen a list of resolves.
    fn random_case(&mut self) -> Case {
        if self.s.one_in(16) {
            std::mem::swap(&mut self.r, &mut self.s);
            let case = self.random_assembly();
            std::mem::swap(&mut self.r, &mut self.s);
            return case;
        }
        if self.t.one_in(8) {
            std::mem::swap(&mut self.r, &mut self.t);
            let case = self.random_text();
            std::mem::swap(&mut self.r, &mut self.t);
            return case;
        }
        if self.r.one_in(10) {
            return self.random_isolation();
        }
        if self.r.one_in(10) {
            return self.random_picture();
        }
        match self.r.below(16) {
            0 | 1 => self.random_search(),
            2 => self.random_masks(),
            3 => self.random_resolves(),
            4 | 5 => self.random_closing(),
            6 | 7 => self.random_fault(),
            8 | 9 => self.random_modes(),
            _ => {
                let mut case = self.random_base();
                self.vary_responders(&mut case);
                case
            }
        }
    }

    /// One random case of document 01, at times with some buffers of zeros. The stored ones are made here, so what
    /// it draws stays as it is.
    fn random_base(&mut self) -> Case {
        let mut case = self.random_family();
        if self.r.one_in(8) {
            let k = self.r.of(&[MEMORY, REGISTERS, ITEMS, OUT, FILE]);
            case.zeros |= 1 << k;
        }
        case
    }

    fn random_family(&mut self) -> Case {
        match self.r.below(20) {
            0 | 1 => self.random_pass(),
            2..=5 => self.random_step(),
            6..=11 => self.random_run(),
            12..=14 => self.random_build(),
            15..=17 => self.random_read(),
            _ => self.random_write(),
        }
    }

    pub fn random_cases(&mut self, count: usize) {
        self.some_bad_modes = true;
        for k in 0..count {
            let case = if self.open_points && k % 50 == 7 { self.open_point() } else { self.random_case() };
            self.add(case);
        }
    }

    /// As many random cases of the families before lists as text, which are those that there were before.
    #[cfg(test)]
    pub fn random_others(&mut self, count: usize) {
        while self.cases.len() < count {
            self.random_cases(1);
            self.cases.retain(|case| ![SHOW, MAKE, REACH, ASSEMBLE].contains(&case.kind));
        }
    }

    /// Kind 1 asked of a plain read or write.
    fn open_point(&mut self) -> Case {
        if self.r.one_in(2) {
            let mut case = self.read_plain(1, 1, 17, 352);
            if self.r.one_in(2) {
                let at = self.r.below(8704);
                self.alter(&mut case, at);
            }
            case
        } else {
            let content = self.r.of(&[0usize, 8, 8192, 8288]);
            self.write_plain(1, content, 9000)
        }
    }

    // ---- the planned cases

    /// The stored cases: those of document 01, planned and this many random ones, then the searches, then the
    /// masked stores, then the resolves, then closing and spreading, then the offending byte, then the mode registers,
    /// then the pictures of kind 4, then isolation, then lists as text, then texts with statements.
    /// What a later document adds stands behind, so that the cases before it stay.
    pub fn stored(&mut self, random: usize) {
        self.planned();
        for _ in 0..random {
            let case = self.random_base();
            self.add(case);
        }
        self.all_searches();
        self.all_masks();
        self.all_resolves();
        self.all_closings();
        self.all_bytes();
        self.all_modes();
        self.all_pictures();
        self.all_isolations();
        self.all_texts();
        self.all_assemblies();
    }

    fn planned(&mut self) {
        self.examples();
        self.all_passes();
        self.all_steps();
        self.all_runs();
        self.all_builders();
        self.all_reads();
        self.all_writes();
    }

    fn examples(&mut self) {
        // M 7, G 45, P 83: bit 43 of word 85, chip 126; mode 0 and mode 255
        for (mode, address, line) in [(7u8, 45u8, 83usize), (0, 13, 200), (255, 13, 200)] {
            let mut case = self.step(&[2, 3, 1, mode, address, 0, 0, 0], 0, 0);
            case.zeros = (1 << MEMORY) | (1 << REGISTERS) | (1 << LIST);
            case.patch(REGISTERS, 64 + line / 8, &[1 << (line % 8)]);
            self.add(case);
            // and the way back: the bit at its chip, delivered
            let (bit, word) = emulator::memory::met(mode as usize, address as usize, line);
            let mut case = self.step(&[4, 0, 1, mode, address, 0, 0, 0], 0, 32);
            case.zeros = (1 << MEMORY) | (1 << REGISTERS) | (1 << LIST);
            case.patch(MEMORY, 32 * (bit ^ word) + bit / 8, &[1 << (bit % 8)]);
            self.add(case);
        }
        // the network's
        for (line, flip, byte6) in [(3usize, 0u8, 48u8), (7, 0, 48), (255, 0, 48), (250, 0, 131), (40, 255, 133), (10, 255, 133), (0, 0, 136), (0, 0, 1)] {
            for wired in [false, true] {
                let mut case = self.pass(wired, flip, byte6);
                case.zeros = 1 << ITEMS;
                case.patch(ITEMS, line / 8, &[1 << (line % 8)]);
                self.add(case);
            }
        }
        // flip 255 with 32 mod 256, then flip 255 with 1 mod 256, in a run: through X
        for line in [40usize, 10] {
            let mut case = self.run_fitting(&[[0, 4, 0, 0, 0, 255, 133, 0x0A], [4, 2, 0, 0, 0, 255, 128, 0]]);
            case.zeros |= 1 << ITEMS;
            case.patch(ITEMS, line / 8, &[1 << (line % 8)]);
            self.add(case);
        }
        // 128 mod 256 as flip 128
        for (flip, byte6) in [(0u8, 135u8), (128, 0)] {
            for wired in [false, true] {
                let mut case = self.pass(wired, flip, byte6);
                case.seed = 4711;
                self.add(case);
            }
        }
        for byte6 in [136u8, 1] {
            let case = self.run_fitting(&[[0, 1, 0, 0, 0, 0, byte6, 0]]);
            self.add(case);
        }
        // sums: 200 + 100 leaves 44, Y 1; 44 - 100 leaves 200, Y 0, in word 7, and in all words through stores
        for (kind, a_value) in [(SUM_RUN, 200usize), (DIFFERENCE_RUN, 44)] {
            let length = Plan::need(kind, 8);
            let mut case = self.build(kind, 0, 8, 16, 8, length);
            case.zeros = (1 << MEMORY) | (1 << REGISTERS);
            for bit in 0..16usize {
                if (a_value + 256 * 100) >> bit & 1 == 1 {
                    case.patch(MEMORY, 32 * (bit ^ 7) + bit / 8, &[1 << (bit % 8)]);
                }
            }
            self.add(case);
            let mut list = vec![[0u8, 2, 0, 0, 0, 0, 0, 0x0F]];
            for bit in 0..16u8 {
                if (a_value + 256 * 100) >> bit & 1 == 1 {
                    list.push([2, 2, 1, 0, bit, 0, 0, 0]);
                }
            }
            let mut built = vec![0u8; length];
            let answer = if kind == SUM_RUN { emulator::sum_list(0, 8, 16, 8, &mut built) } else { emulator::difference_list(0, 8, 16, 8, &mut built) };
            assert_eq!(answer.number, 0);
            for chunk in built.chunks(8) {
                let mut b = [0u8; 8];
                b.copy_from_slice(chunk);
                list.push(b);
            }
            list.push([4, 3, 0, 0, 0, 0, 0, 0]);
            for bit in 16..24u8 {
                list.push([4, 0, 1, 0, bit, 0, 0, 0]);
            }
            let mut case = self.run_fitting(&list);
            case.zeros |= 1 << MEMORY;
            self.add(case);
        }
        let case = self.build(SUM, 0, 1, 2, 1, 48);
        self.add(case);
        for (a, b, s, n) in [(0, 16, 4, 4), (0, 16, 4, 5), (192, 0, 64, 64), (193, 0, 64, 64), (0, 192, 64, 64), (0, 193, 64, 64), (0, 64, 192, 64), (0, 64, 193, 64)] {
            for kind in [SUM, DIFFERENCE] {
                let case = self.build(kind, a, b, s, n, 2600);
                self.add(case);
            }
        }
        // a store with tag 0 and mode 255 is 7
        let case = self.run_fitting(&[[2, 3, 0, 255, 0, 0, 0, 0]]);
        self.add(case);
        let case = self.step(&[2, 3, 0, 255, 0, 0, 0, 0], 0, 0);
        self.add(case);
        // the program's list
        let mut case = self.run_fitting(&[[0, 2, 0, 0, 0, 0, 0, 0x1F], RESOLVE]);
        case.zeros |= (1 << MEMORY) | (1 << REGISTERS);
        self.add(case);
        // choice 4 masks X by the old Y
        for function in [6u8, 9, 3, 5, 15, 0] {
            let case = self.run_fitting(&[[0, 4, 0, 0, 0, 0, 0, 0x40 + function]]);
            self.add(case);
        }
    }

    fn all_passes(&mut self) {
        for wired in [false, true] {
            for byte6 in 0..=255u8 {
                let flip = self.r.byte();
                let case = self.pass(wired, flip, byte6);
                self.add(case);
            }
            for byte6 in codes() {
                for flip in [0u8, 255] {
                    let case = self.pass(wired, flip, byte6);
                    self.add(case);
                }
            }
            for bit in 0..8 {
                let case = self.pass(wired, 1 << bit, 0);
                self.add(case);
            }
        }
    }

    fn all_steps(&mut self) {
        // kinds, sources and tags against each other
        for kind in [0u8, 1, 2, 3, 4, 5, 6, 255] {
            for source in [0u8, 1, 2, 3, 4, 5] {
                for tag in [0u8, 1, 2] {
                    let mut b = [kind, source, tag, 0, 0, 0, 0, 0];
                    if touches(kind, source) || kind > 5 && source == 0 || self.r.one_in(3) {
                        b[3] = self.r.byte();
                        b[4] = self.r.byte();
                    }
                    if kind != 5 || self.r.one_in(3) {
                        b[5] = self.r.byte();
                    }
                    if kind == 0 {
                        b[7] = self.r.below(80) as u8;
                    }
                    let case = self.step(&b, 32, 32);
                    self.add(case);
                }
            }
        }
        // choices and functions
        let mut source = 0u8;
        for choice in 0..16u8 {
            for function in 0..16u8 {
                if choice > 4 && function != choice {
                    continue;
                }
                let mut b = self.valid_of(0, source);
                b[7] = 16 * choice + function;
                source = (source + 1) % 5;
                let case = self.step(&b, 32, 0);
                self.add(case);
            }
        }
        // every byte of an instruction of every kind, with telling values
        for kind in 0..6u8 {
            for at in 0..8usize {
                for value in [0u8, 1, 2, 5, 128, 255] {
                    let mut b = self.valid_kind(kind);
                    b[at] = value;
                    let case = self.step(&b, 32, 32);
                    self.add(case);
                }
            }
        }
        // a store never shifts; a resolve has neither flip nor shift
        for byte6 in codes().into_iter().skip(1) {
            for kind in [2u8, 3] {
                let mut b = self.valid_kind(kind);
                b[6] = byte6;
                let case = self.step(&b, 32, 32);
                self.add(case);
            }
        }
        for (byte5, byte6) in [(1u8, 0u8), (128, 0), (255, 0), (0, 16), (0, 48), (0, 0x87), (0, 1), (0, 255), (7, 33)] {
            let case = self.step(&[5, 0, 0, 0, 0, byte5, byte6, 0], 0, 32);
            self.add(case);
        }
        // byte 7 where there is no logic
        for kind in 1..6u8 {
            for byte7 in [1u8, 6, 0x10, 0x40, 0x80, 0xFF] {
                let mut b = self.valid_kind(kind);
                b[7] = byte7;
                let case = self.step(&b, 32, 32);
                self.add(case);
            }
        }
        // bytes 2, 3, 4 where memory is not touched
        for (kind, source) in [(0u8, 1u8), (0, 2), (0, 3), (0, 4), (1, 1), (1, 2), (1, 3), (1, 4), (4, 1), (4, 2), (4, 3), (4, 4), (5, 0)] {
            for at in [2usize, 3, 4] {
                let mut b = self.valid_of(kind, source);
                b[at] = self.wild();
                let case = self.step(&b, 32, 32);
                self.add(case);
            }
        }
        // the tag where it is touched
        for (kind, source) in [(0u8, 0u8), (1, 0), (2, 1), (2, 4), (3, 2), (3, 3), (4, 0)] {
            for (tag, mode) in [(0u8, 0u8), (0, 255), (2, 0), (3, 255), (129, 7), (255, 1)] {
                let mut b = self.valid_of(kind, source);
                b[2] = tag;
                b[3] = mode;
                let case = self.step(&b, 32, 32);
                self.add(case);
            }
        }
        // lengths
        for length in [0usize, 1, 4, 7, 9, 15, 16, 24, 256] {
            let mut case = self.step(&[], 32, 32);
            case.zeros = 0;
            case.lengths[LIST] = length as u16;
            case.shape = 1;
            self.add(case);
        }
        for length in [32768u16, 32769, 33000] {
            let mut case = self.step(&[], 0, 0);
            case.lengths[LIST] = length;
            self.add(case);
        }
        for (memory, items, out) in [(8192u16, 0usize, 0usize), (8192, 33, 32), (8192, 32768, 8192), (8191, 33, 0), (8193, 0, 64), (8192, 32800, 32)] {
            let mut case = self.step(&[], items, out);
            case.lengths[MEMORY] = memory;
            self.add(case);
        }
        let one = self.valid_of(4, 4);
        for memory in [0u16, 1, 8191, 8193, 8200] {
            let mut case = self.step(&one, 32, 32);
            case.lengths[MEMORY] = memory;
            self.add(case);
            let mut case = self.step(&one[..7], 31, 32);
            case.lengths[MEMORY] = memory;
            self.add(case);
        }
        for items in [0usize, 1, 31, 32, 33, 63, 64, 96, 32767, 32768, 32769, 32800] {
            let case = self.step(&one, items, 32);
            self.add(case);
            let case = self.step(&[6; 8], items, 0);
            self.add(case);
            let case = self.step(&one[..5], items, 0);
            self.add(case);
        }
        for out in [0usize, 1, 31, 32, 33, 63, 64, 8192, 8200] {
            let case = self.step(&one, 32, out);
            self.add(case);
            let case = self.step(&RESOLVE, 0, out);
            self.add(case);
            let case = self.step(&one, 0, out);
            self.add(case);
        }
        // resolve: first responders, none and all
        for first in [0usize, 1, 7, 8, 9, 63, 64, 127, 128, 200, 254, 255] {
            let mut case = self.step(&RESOLVE, 0, 40);
            case.zeros |= 1 << REGISTERS;
            case.patch(REGISTERS, 64 + first / 8, &[1 << (first % 8)]);
            if first % 2 == 0 {
                case.patch(REGISTERS, 95, &[0x80]);
            }
            self.add(case);
        }
        let mut case = self.step(&RESOLVE, 0, 40);
        case.zeros |= 1 << REGISTERS;
        case.patch(REGISTERS, 0, &[255; 64]);
        self.add(case);
    }

    fn all_runs(&mut self) {
        // every mode, read and stored
        for sixteen in 0..16u8 {
            let mut reads = vec![];
            let mut stores = vec![];
            for k in 0..16u8 {
                let mode = 16 * sixteen + k;
                let address = self.r.byte();
                reads.push([4, 0, 1, mode, address, 0, 0, 0]);
                let address = self.r.byte();
                stores.push([2, 1 + k % 4, 1, mode, address, 0, 0, 0]);
            }
            let case = self.run_fitting(&reads);
            self.add(case);
            let case = self.run_fitting(&stores);
            self.add(case);
        }
        // every flip: delivered, and in masked stores with a mask from outside each time
        for eight in 0..32u8 {
            let mut list = vec![];
            for k in 0..8u8 {
                let flip = 8 * eight + k;
                list.push([4, 1 + k % 3, 0, 0, 0, flip, 0, 0]);
                if k % 2 == 0 {
                    list.push([1, 4, 0, 0, 0, 0, 0, 0]);
                }
                let (mode, address) = (self.r.byte(), self.r.byte());
                list.push([3, 1 + (k + eight) % 4, 1, mode, address, flip, 0, 0]);
            }
            let case = self.run_fitting(&list);
            self.add(case);
        }
        // every shift with every kind that may shift, from every source
        for (n, byte6) in codes().into_iter().enumerate() {
            let mut list = vec![];
            for (k, kind) in [4u8, 1, 0, 4, 0].into_iter().enumerate() {
                let mut b = self.valid_of(kind, ((n + k) % 5) as u8);
                b[6] = byte6;
                list.push(b);
            }
            let case = self.run_fitting(&list);
            self.add(case);
        }
        // masked store alone, with masks of 0, of 1 and any, with and without flip
        for mask in [0u8, 255, 15] {
            for flip in [0u8, 1, 128, 255, 90] {
                let (mode, address) = (self.r.byte(), self.r.byte());
                let mut case = self.run_fitting(&[[3, 3, 1, mode, address, flip, 0, 0]]);
                case.patch(REGISTERS, 0, &[mask; 32]);
                self.add(case);
            }
        }
        // each number at several places, alone and with others after it
        for number in 5..=11 {
            for place in [0usize, 1, 2, 3, 5, 8, 13] {
                let mut list: Vec<Instruction> = (0..place).map(|_| self.valid()).collect();
                let b = self.damaged(number);
                list.push(b);
                if place % 2 == 1 {
                    let later = 5 + self.r.below(7) as u32;
                    let b = self.damaged(later);
                    list.push(b);
                }
                let mut case = self.run_fitting(&list);
                if place == 3 {
                    case.lengths[ITEMS] = 0;
                    case.lengths[OUT] = 0;
                }
                self.add(case);
            }
            for (count, place) in [(300usize, 257usize), (300, 299), (1000, 500)] {
                let mut case = self.run_shaped(2, count, 0, 0);
                let b = self.damaged(number);
                case.patch(LIST, 8 * place, &b);
                self.add(case);
            }
        }
        for _ in 0..60 {
            let b = self.doubly_damaged();
            let mut list = vec![NOTHING; self.r.below(3)];
            list.push(b);
            let case = self.run_fitting(&list);
            self.add(case);
        }
        // items and room: short by one, exact, more
        let take = [1u8, 4, 0, 0, 0, 0, 0, 0];
        let give = [4u8, 1, 0, 0, 0, 0, 0, 0];
        let both = [4u8, 4, 0, 0, 0, 0, 0, 0];
        let list = [NOTHING, take, give, [2, 4, 1, 0, 0, 0, 0, 0], RESOLVE, both, NOTHING, RESOLVE, take];
        for items in 0..6usize {
            for (room, odd) in [(0usize, 0usize), (1, 0), (2, 31), (3, 31), (4, 0), (4, 31), (5, 1)] {
                let case = self.run(&list, 32 * items, 32 * room + odd);
                self.add(case);
            }
        }
        let case = self.run(&[both], 32, 31);
        self.add(case);
        let case = self.run(&[both], 0, 0);
        self.add(case);
        for (items, room) in [(0isize, -1isize), (0, -32), (-32, 0), (-32, -32), (-64, 5), (32, 5), (0, 0)] {
            for count in [3usize, 20, 70] {
                let case = self.run_shaped(1, count, items, room);
                self.add(case);
            }
        }
        // lengths
        let good: Vec<Instruction> = vec![NOTHING, take, give];
        for (k, lengths) in [(MEMORY, vec![0u16, 1, 32, 4096, 8160, 8191, 8193, 8200]), (REGISTERS, vec![0, 1, 32, 96, 99, 101, 104]), (ITEMS, vec![1, 31, 33, 48, 63, 65, 32767, 32768, 32769, 32800, 33000]), (OUT, vec![0, 1, 31, 33, 8192, 8200])] {
            for length in lengths {
                let mut case = self.run_fitting(&good);
                case.lengths[k] = length;
                self.add(case);
            }
        }
        for length in [1u16, 2, 3, 4, 5, 6, 7, 9, 12, 15, 17, 23, 25, 32767, 32769, 32775, 32776, 33000] {
            let mut case = self.run(&[], 32768, 0);
            case.zeros = 0;
            case.shape = 1;
            case.lengths[LIST] = length;
            self.add(case);
        }
        for length in [32776u16, 32784, 33000] {
            for (registers, items) in [(100u16, 0u16), (100, 33), (96, 0)] {
                let mut case = self.run(&[], 0, 8200);
                case.zeros = 0;
                case.shape = 2;
                case.lengths[LIST] = length;
                case.lengths[REGISTERS] = registers;
                case.lengths[ITEMS] = items;
                self.add(case);
            }
        }
        // several lengths wrong: the order of 1 to 4
        for wrong in 1..16u16 {
            let mut case = self.run_fitting(&good);
            if wrong & 1 != 0 {
                case.lengths[MEMORY] -= 1;
            }
            if wrong & 2 != 0 {
                case.lengths[REGISTERS] += 1;
            }
            if wrong & 4 != 0 {
                case.lengths[LIST] += 1;
            }
            if wrong & 8 != 0 {
                case.lengths[ITEMS] += 1;
            }
            self.add(case);
        }
        // the empty list, with good and bad buffers
        for (memory, registers, items, out) in [(8192u16, 100u16, 0u16, 0u16), (8192, 100, 64, 33), (8191, 100, 0, 0), (8192, 96, 0, 0), (8192, 100, 1, 0), (8192, 100, 32768, 8200), (8192, 100, 32800, 0)] {
            let mut case = self.run(&[], 0, 0);
            case.lengths = [memory, registers, 0, items, out, 0];
            self.add(case);
        }
        // many shaped lists, short and long
        for k in 0..120usize {
            let case = self.run_shaped(1, 1 + k * 2 / 3, 0, [0, 1, 32, 40][k % 4]);
            self.add(case);
        }
        for (count, items, room) in [(500usize, 0isize, 0isize), (992, 32, 0), (2000, 0, 10), (4096, 0, 0), (4096, 0, -1), (4096, -32, 0), (4095, 0, 0), (4096, 0, 0)] {
            let case = self.run_shaped(2, count, items, room);
            self.add(case);
        }
        for (number, place) in [(5u32, 4095usize), (7, 4094), (11, 4095), (MOVE, 4000)] {
            let mut case = self.run_shaped(2, 4096, 0, 0);
            let b = self.damaged(number);
            case.patch(LIST, 8 * place, &b);
            self.add(case);
        }
    }

    fn all_builders(&mut self) {
        for n in 1..=64u32 {
            let arrangement = (n % 8) as usize;
            let (a, b, s) = self.fields(n, arrangement);
            for (kind, more) in [(SUM, 0isize), (DIFFERENCE, 0), (SUM, -1), (DIFFERENCE, if n % 2 == 0 { -1 } else { -8 })] {
                let length = (Plan::need(kind, n) as isize + more) as usize;
                let case = self.build(kind, a, b, s, n, length);
                self.add(case);
            }
            for (kind, arrangement) in [(SUM_RUN, n as usize % 8), (DIFFERENCE_RUN, n as usize % 8), (SUM_RUN, (n as usize / 8 + 1) % 8), (DIFFERENCE_RUN, (n as usize / 8 + 2) % 8)] {
                let (a, b, s) = self.fields(n, arrangement);
                let length = Plan::need(kind, n) + self.r.of(&[0usize, 1, 8]);
                let case = self.build(kind, a, b, s, n, length);
                self.add(case);
            }
        }
        for kind in [SUM, DIFFERENCE] {
            for n in [0u32, 65, 66, 128, 256, 257, 1 << 16, (1 << 16) + 8, 1 << 31, u32::MAX] {
                let case = self.build(kind, 0, 64, 128, n, 2600);
                self.add(case);
            }
            let case = self.build(kind, u32::MAX, u32::MAX, u32::MAX, 0, 0);
            self.add(case);
            let case = self.build(kind, 300, 1, 0, 65, 0);
            self.add(case);
            for n in [1u32, 2, 8, 63, 64] {
                let edge = 256 - n;
                for wild in [edge + 1, 256, 1 << 16, 1 << 31, u32::MAX, u32::MAX - n + 1] {
                    let mut p = [0u32, 64, 128];
                    p[self.r.below(3)] = wild;
                    let case = self.build(kind, p[0], p[1], p[2], n, 2600);
                    self.add(case);
                }
                for at in 0..3 {
                    let mut p = [0u32, 0, 0];
                    p[at] = edge;
                    let case = self.build(kind, p[0], p[1], p[2], n, 2600);
                    self.add(case);
                    p[at] = edge + 1;
                    let case = self.build(kind, p[0], p[1], p[2], n, 0);
                    self.add(case);
                }
            }
            // overlaps near and at the border
            for (a, b, s) in [(50, 150, 51), (50, 150, 49), (50, 150, 57), (50, 150, 58), (50, 150, 43), (50, 150, 42), (150, 50, 51), (150, 50, 49), (150, 50, 57), (150, 50, 58), (150, 50, 43), (150, 50, 42), (50, 53, 50), (53, 50, 50), (50, 57, 50), (50, 58, 50), (50, 53, 53), (50, 53, 150), (50, 50, 50), (50, 50, 51)] {
                let case = self.build(kind, a, b, s, 8, 2600);
                self.add(case);
            }
            // order: 31 before 32 before 33
            for (a, b, s, n, length) in [(250u32, 1u32, 0u32, 8u32, 0usize), (0, 1, 0, 8, 0), (0, 0, 0, 8, 0), (0, 0, 0, 8, 327), (0, 0, 0, 8, 328), (0, 0, 0, 8, 335), (0, 0, 0, 8, 336)] {
                let case = self.build(kind, a, b, s, n, length);
                self.add(case);
            }
        }
        // then run with bad buffers, and with a refused builder
        for (memory, registers, items) in [(8191u16, 100u16, 0u16), (8192, 96, 0), (8192, 100, 7), (8192, 100, 64)] {
            let mut case = self.build(SUM_RUN, 0, 8, 16, 8, 400);
            case.lengths[MEMORY] = memory;
            case.lengths[REGISTERS] = registers;
            case.lengths[ITEMS] = items;
            self.add(case);
            let mut case = self.build(DIFFERENCE_RUN, 0, 8, 9, 8, 400);
            case.lengths[MEMORY] = memory;
            self.add(case);
        }
    }

    fn all_reads(&mut self) {
        // good files of many sizes
        for (kind, blocks, used) in [
            (2u32, 1usize, 0u32), (2, 1, 8), (2, 1, 16), (2, 1, 488), (2, 1, 496), (2, 2, 8), (2, 2, 496), (2, 3, 240), (2, 16, 496), (2, 66, 496), (2, 67, 8), (2, 67, 32),
            (3, 1, 0), (3, 1, 32), (3, 1, 480), (3, 2, 16), (3, 2, 496), (3, 3, 32), (3, 16, 496), (3, 66, 496), (3, 67, 32),
        ] {
            for more in [0isize, 1, -1] {
                let mut case = self.read_plain(kind, kind, blocks, used);
                let length = case.lengths[LIST] as isize + more;
                if length < 0 {
                    continue;
                }
                case.lengths[LIST] = length as u16;
                self.add(case);
            }
        }
        // sizes unfit for the kind
        for (kind, blocks, used) in [(2u32, 1usize, 1u32), (2, 1, 7), (2, 1, 495), (2, 2, 4), (2, 67, 33), (2, 67, 40), (2, 67, 496), (3, 1, 8), (3, 1, 31), (3, 1, 33), (3, 1, 496), (3, 2, 32), (3, 67, 33), (3, 67, 64), (3, 67, 496)] {
            let case = self.read_plain(kind, kind, blocks, used);
            self.add(case);
            let mut case = self.read_plain(kind, kind, blocks, used);
            case.lengths[LIST] = 0;
            self.add(case);
        }
        // used wrong
        for kind in [2u32, 3] {
            for (blocks, used) in [(1usize, 497u32), (1, 512), (1, 65535), (2, 0), (3, 0), (2, 497), (3, 65535)] {
                let mut case = self.read_plain(kind, kind, blocks, used);
                case.lengths[LIST] = 2000;
                self.add(case);
            }
        }
        for used in [0u32, 1, 8, 495, 497, 65535, 240] {
            for block in [0usize, 1] {
                let mut case = self.read_plain(2, 2, 3, 8);
                case.patch(FILE, 512 * block + 6, &[(used % 256) as u8, (used / 256) as u8]).seal(block);
                self.add(case);
            }
        }
        // lengths
        for length in [0u16, 1, 256, 511, 513, 1000, 1023, 1025, 33792, 34303, 34305, 34400, 34816, 35000] {
            for kind in [2u32, 3] {
                let mut case = self.read_plain(kind, kind, 1, 8);
                case.lengths[FILE] = length;
                case.lengths[LIST] = 40;
                self.add(case);
            }
            let mut case = self.read_picture();
            case.lengths[FILE] = length;
            self.add(case);
        }
        // no blocks at all: zeros (22, not 21) and noise (21)
        for length in [512u16, 1024, 34304] {
            for zeros in [0u8, 1 << FILE] {
                let mut case = self.read_plain(2, 2, 1, 8);
                case.lengths[FILE] = length;
                case.zeros = zeros;
                case.p[3] = 0;
                self.add(case);
                let mut case = self.read_picture();
                case.lengths[FILE] = length;
                case.zeros = zeros;
                case.p[3] = 0;
                self.add(case);
            }
        }
        // kinds asked and kinds there
        for asked in [0u32, 2, 3, 4, 5, 255, 256, 257, 258, 259, 65535, 65536, 65537, 65538, 65539, 1 << 31, (1 << 31) + 2, u32::MAX] {
            for kind in [2u32, 3] {
                let case = self.read_plain(asked, kind, 1, 32);
                self.add(case);
            }
            let mut case = self.read_plain(asked, asked % 65536, 2, 16);
            case.lengths[FILE] = 1025;
            self.add(case);
            let case = self.read_plain(asked, asked % 65536, 2, 16);
            if asked % 65536 != 1 {
                self.add(case);
            }
        }
        for kind in [0u32, 1, 4, 257, 258, 514, 515, 65535] {
            let case = self.read_plain(2, kind, 2, 16);
            self.add(case);
            let mut case = self.read_picture();
            case.p[1] = kind;
            self.add(case);
        }
        // every header byte, telling payload bytes and the sums, in each block of three: once as
        // it is (21), once sealed again
        for block in 0..3usize {
            for at in [0usize, 1, 2, 3, 4, 5, 6, 7, 8, 9, 10, 11, 12, 13, 251, 264, 351, 352, 363, 364, 506, 507, 508, 509, 510, 511] {
                for sealed in [false, true] {
                    let mut case = self.read_plain(2, 2, 3, 352);
                    self.alter(&mut case, 512 * block + at);
                    if sealed && at < 508 {
                        case.seal(block);
                    }
                    if !sealed || at < 508 {
                        self.add(case);
                    }
                }
            }
        }
        for at in 0..12usize {
            for value in [1u8, 255] {
                let mut case = self.read_plain(3, 3, 1, 64);
                case.patch(FILE, at, &[value]).seal(0);
                self.add(case);
            }
        }
        // the first and the last payload byte past the used ones, and the last used one
        for (kind, blocks, used) in [(2u32, 1usize, 0usize), (2, 1, 8), (2, 2, 488), (3, 1, 32), (3, 2, 16), (3, 3, 320)] {
            for at in [used.max(1) - 1, used, used + 1, 495] {
                let mut case = self.read_plain(kind, kind, blocks, used as u32);
                let value = self.wild();
                case.patch(FILE, 512 * (blocks - 1) + 12 + at, &[value]).seal(blocks - 1);
                self.add(case);
            }
        }
        // several blocks or several fields wrong: the order
        for (first, second) in [(8usize, 600usize), (2, 512), (700, 8), (512 + 8, 1024), (4, 1024 + 100), (0, 2), (2, 8), (0, 8), (6, 2), (512, 514), (512 + 7, 512 + 3)] {
            for sealed in [true, false] {
                let mut case = self.read_plain(2, 2, 3, 352);
                self.alter(&mut case, first);
                case.seal(first / 512);
                self.alter(&mut case, second);
                if sealed {
                    case.seal(second / 512);
                }
                self.add(case);
            }
        }
        // neighbours and far ones swapped
        for at in [11usize, 12, 100, 251, 300, 506, 507, 508, 509, 510, 511, 512 + 12, 512 + 507] {
            let mut case = self.read_plain(2, 2, 2, 496);
            self.swap(&mut case, at, at + 1);
            self.add(case);
        }
        for at in [12usize, 13, 100, 200, 249, 250] {
            for zero_first in [false, true] {
                let mut case = self.read_plain(2, 2, 2, 496);
                self.far_swap(&mut case, at % 2, at, zero_first);
                self.add(case);
            }
        }
        // 256 places apart the sums do show it
        for at in [12usize, 100] {
            let mut case = self.read_plain(2, 2, 1, 496);
            case.patch(FILE, at, &[0]).patch(FILE, at + 256, &[255]).seal(0);
            self.swap(&mut case, at, at + 256);
            self.add(case);
        }
        // sums that are 0, and 65,535 in their place
        for which in [0usize, 1] {
            for full in [false, true] {
                let mut case = self.read_plain(2, 2, 1, 496);
                case.zeros = 1 << FILE;
                let header = [2u64, 0, 0, 0, 1, 0, 0xF0, 1];
                let mut payload = vec![0u8; 496];
                if which == 0 {
                    let mut left = 65535 - header.iter().sum::<u64>();
                    for byte in payload.iter_mut() {
                        *byte = left.min(255) as u8;
                        left -= *byte as u64;
                    }
                } else {
                    let sum: u64 = header.iter().enumerate().map(|(i, b)| (508 - i as u64) * b).sum();
                    let mut left = (65535 - sum % 65535) % 65535;
                    for (i, byte) in payload.iter_mut().enumerate() {
                        let weight = 496 - i as u64;
                        *byte = (left / weight).min(255) as u8;
                        left -= weight * *byte as u64;
                    }
                    assert_eq!(left, 0);
                }
                let used = payload.iter().rposition(|&b| b != 0).unwrap() + 1;
                case.patch(FILE, 12, &payload[..used]).seal(0);
                let file = &case.make()[FILE];
                assert_eq!((file[508 + 2 * which], file[509 + 2 * which]), (0, 0));
                if full {
                    case.patch(FILE, 508 + 2 * which, &[255, 255]);
                }
                self.add(case);
            }
        }
        // pictures: good, into good and bad targets
        for (memory, registers) in [(8192u16, 96u16), (8192, 96), (8192, 96), (8191, 96), (8193, 96), (8200, 96), (0, 96), (8192, 95), (8192, 97), (8192, 100), (8192, 0), (0, 0), (96, 96)] {
            let mut case = self.read_picture();
            case.lengths[MEMORY] = memory;
            case.lengths[REGISTERS] = registers;
            self.add(case);
            if memory != 8192 || registers != 96 {
                // 21 and 25 come before 26
                let mut case = self.read_picture();
                case.lengths[MEMORY] = memory;
                case.lengths[REGISTERS] = registers;
                if registers == 96 {
                    self.alter(&mut case, 16 * 512 + 40);
                } else {
                    case.p[2] = 320;
                }
                self.add(case);
            }
        }
        for blocks in [1u16, 2, 16, 18, 33, 67, 68] {
            let mut case = self.read_picture();
            case.lengths[FILE] = 512 * blocks;
            self.add(case);
        }
        for used in [0u32, 1, 96, 256, 300, 351, 353, 384, 496, 497, 608, 65535] {
            let mut case = self.read_picture();
            case.p[2] = used;
            self.add(case);
        }
        // 16 leading blocks of a picture of 17
        let mut case = self.read_picture();
        case.lengths[FILE] = 8192;
        for block in 0..16 {
            case.patch(FILE, 512 * block + 4, &[17]).seal(block);
        }
        self.add(case);
        // each block damaged in each way
        for block in 0..17usize {
            let base = 512 * block;
            let payload = base + 12 + self.r.below(352);
            let mut case = self.read_picture();
            self.alter(&mut case, payload);
            self.add(case);
            let sums = base + 508 + self.r.below(4);
            let mut case = self.read_picture();
            self.alter(&mut case, sums);
            self.add(case);
            for at in [base + self.r.below(2), base + 2 + self.r.below(2), base + 4 + self.r.below(2), base + 6 + self.r.below(2), base + 8 + self.r.below(4), payload] {
                let mut case = self.read_picture();
                self.alter(&mut case, at);
                case.seal(block);
                self.add(case);
            }
        }
        for at in [12 + 351usize, 12 + 352, 12 + 353, 507] {
            let mut case = self.read_picture();
            case.patch(FILE, 16 * 512 + at, &[1]).seal(16);
            self.add(case);
        }
        // two blocks that change numbers
        for (one, other) in [(0usize, 1usize), (3, 9), (15, 16)] {
            let mut case = self.read_picture();
            case.patch(FILE, 512 * one + 2, &[other as u8]).seal(one);
            case.patch(FILE, 512 * other + 2, &[one as u8]).seal(other);
            self.add(case);
        }
    }

    fn all_writes(&mut self) {
        let blocks = |content: usize| if content == 0 { 1 } else { (content + 495) / 496 };
        for (kind, contents) in [
            (2u32, vec![0usize, 8, 16, 248, 488, 496, 504, 984, 992, 1000, 7936, 32736, 32744, 32760, 32768]),
            (3, vec![0, 32, 64, 480, 512, 960, 992, 1024, 7936, 32736, 32768]),
        ] {
            for content in contents {
                let need = 512 * blocks(content);
                for output in [need, need - 1, need + 1, need + 600] {
                    let case = self.write_plain(kind, content, output);
                    self.add(case);
                }
            }
        }
        for (kind, contents) in [(2u32, vec![1usize, 4, 7, 9, 12, 495, 497, 1001, 32767, 32769, 32776, 33000]), (3, vec![1, 8, 16, 31, 33, 48, 496, 504, 32760, 32769, 32800, 32992])] {
            for content in contents {
                for output in [0usize, 35000] {
                    let case = self.write_plain(kind, content, output);
                    self.add(case);
                }
            }
        }
        for kind in [0u32, 4, 5, 255, 256, 257, 258, 259, 65535, 65536, 65537, 65538, 65539, 1 << 31, (1 << 31) + 3, u32::MAX] {
            for (content, output) in [(32usize, 600usize), (7, 0)] {
                let case = self.write_plain(kind, content, output);
                self.add(case);
            }
        }
        for output in [0usize, 1, 100, 511, 512, 513] {
            let case = self.write_plain(2, 0, output);
            self.add(case);
        }
        for (memory, registers) in [(8192usize, 96usize), (8191, 96), (8193, 96), (8200, 100), (0, 96), (0, 0), (8192, 0), (8192, 95), (8192, 97), (8192, 32)] {
            for output in [8704usize, 8703, 8705, 8192, 0, 9300] {
                let case = self.write_picture(memory, registers, output);
                self.add(case);
            }
        }
        // one bit of one word, so that each finds its place
        for (word, bit) in [(0usize, 0usize), (85, 43), (255, 255), (1, 254), (128, 7)] {
            let mut case = self.write_picture(8192, 96, 8704);
            case.zeros = (1 << MEMORY) | (1 << REGISTERS);
            case.patch(MEMORY, 32 * (bit ^ word) + bit / 8, &[1 << (bit % 8)]);
            self.add(case);
            let mut case = self.read_picture();
            case.zeros = 1 << FILE;
            let at = 32 * word + bit / 8;
            case.patch(FILE, 512 * (at / 496) + 12 + at % 496, &[1 << (bit % 8)]).seal(at / 496);
            self.add(case);
        }
    }
}
