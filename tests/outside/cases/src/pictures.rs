//! The cases of the pictures with mode registers (document 02, Eight): reading and writing with the kind asked, old made
//! new and new made old; each number with its place and each pair of them; flags and modes of every sort; kinds asked,
//! lengths of files, targets and outputs; kinds of single blocks; and kinds 1 and 4 asked of the entries for lists and
//! items.

use crate::case::*;
use crate::plan::Plan;

/// How many stored cases stand before these.
#[cfg(test)]
pub const BEFORE: usize = 5888;
/// How many of the stored cases are random ones.
const RANDOM: usize = 10;

/// The two kinds of pictures, and the bytes of the blocks of either.
const OLD: u32 = 1;
const NEW: u32 = 4;
const PICTURE: u16 = 17 * 512;
/// Where the mode registers stand in the file of a picture of kind 4, and the block that holds them.
pub const FLAGS: usize = 512 * LAST + 12 + 352;
const LAST: usize = 16;

/// The entries that read a picture, with the kind that each takes.
const READERS: [(u8, u32); 4] = [(READ_ASKED, NEW), (READ_ASKED, OLD), (TO_NEW, OLD), (TO_OLD, NEW)];

const UNSET: [u8; 4] = [0; 4];
/// Mode registers that stand.
const GOOD: [[u8; 4]; 11] = [
    UNSET,
    [1, 0, 0, 0],
    [0, 0, 1, 0],
    [1, 255, 0, 0],
    [0, 0, 1, 255],
    [1, 7, 1, 200],
    [1, 0, 1, 0],
    [1, 255, 1, 255],
    [1, 1, 1, 0],
    [1, 0, 1, 2],
    [1, 128, 1, 127],
];
/// Those that 15 refuses: a flag over 1, a mode with flag 0, in A, in B and in both.
const BAD: [[u8; 4]; 18] = [
    [2, 0, 0, 0],
    [0, 0, 2, 0],
    [0, 1, 0, 0],
    [0, 0, 0, 1],
    [255, 0, 0, 0],
    [0, 0, 255, 0],
    [0, 255, 0, 0],
    [0, 0, 0, 255],
    [2, 7, 1, 9],
    [1, 9, 2, 7],
    [0, 128, 1, 1],
    [1, 1, 0, 128],
    [3, 1, 0, 0],
    [1, 0, 129, 1],
    [128, 0, 1, 255],
    [0, 0, 254, 254],
    [2, 2, 2, 2],
    [0, 64, 0, 32],
];
/// Of these one register is bad and the other set.
const BAD_AND_SET: [[u8; 4]; 4] = [[1, 5, 2, 0], [2, 0, 1, 5], [1, 0, 0, 1], [0, 255, 1, 0]];

/// The bytes that the last block of a picture uses, and those of its registers.
fn used(kind: u32) -> u32 {
    if kind == NEW { 356 } else { 352 }
}

fn record(kind: u32) -> u16 {
    if kind == NEW { 100 } else { 96 }
}

/// Where byte k of a picture's content stands in its file.
fn place_of(k: usize) -> usize {
    512 * (k / 496) + 12 + k % 496
}

/// Whether the case reads, writes or makes a picture of either kind, or asks for one of the entries for lists and items.
pub fn about(case: &Case) -> bool {
    let plain = case.kind == READ_PLAIN && (case.p[0] == OLD || case.p[0] == NEW);
    plain || (READ_ASKED..=TO_OLD).contains(&case.kind)
}

/// The mode registers in the file are these bytes.
fn flags(case: &mut Case, modes: [u8; 4]) {
    case.patch(FILE, FLAGS, &modes).seal(LAST);
}

/// A file of another length, without the patches that it has no room for.
fn cut(case: &mut Case, length: u16) {
    case.lengths[FILE] = length;
    case.patches.retain(|patch| match patch.target {
        SEAL => patch.offset < length / 512,
        target => target as usize != FILE || patch.offset as usize + patch.bytes.len() <= length as usize,
    });
}

/// What can be wrong with a case, in the order in which the entries judge it.
#[derive(Clone, Copy, PartialEq, Debug)]
enum Wrong {
    /// A kind asked for that is not 1 to 4: 22.
    Asked,
    /// The file's length: 20.
    Length,
    /// One block: 21 to 24.
    Block(u32),
    /// The size of the content: 25.
    Size,
    /// The memory or the registers have another length: 26.
    Target,
    /// A flag or mode: 15.
    Flags,
    /// A register that is set, where new is made old: 28.
    Set,
    /// An output too short: 27.
    Output,
}
use Wrong::*;

const IN_READING: &[Wrong] = &[Asked, Length, Block(21), Block(22), Block(23), Block(24), Size, Target, Flags];
const IN_WRITING: &[Wrong] = &[Asked, Target, Flags, Output];
const IN_MAKING_NEW: &[Wrong] = &[Length, Block(21), Block(22), Block(23), Block(24), Size, Output];
const IN_MAKING_OLD: &[Wrong] = &[Length, Block(21), Block(22), Block(23), Block(24), Size, Flags, Set, Output];

impl Plan {
    // ---- good cases

    /// A good picture, read or made new or old, with just the room for it; of kind 4 with these mode registers.
    fn picture(&mut self, (entry, kind): (u8, u32), modes: [u8; 4]) -> Case {
        let mut case = self.case(entry);
        case.lengths[FILE] = PICTURE;
        case.p = [0, kind, used(kind), 1];
        if entry == READ_ASKED {
            (case.lengths[MEMORY], case.lengths[REGISTERS]) = (8192, record(kind));
            case.p[0] = kind;
        } else {
            case.lengths[LIST] = PICTURE;
        }
        if kind == NEW {
            flags(&mut case, modes);
        }
        case
    }

    /// Memory and registers for a picture of this kind, with just the room for its blocks.
    fn to_write(&mut self, kind: u32, modes: [u8; 4]) -> Case {
        let mut case = self.case(WRITE_ASKED);
        case.lengths = [8192, record(kind), 0, 0, 0, PICTURE];
        case.p[0] = kind;
        if kind == NEW {
            case.patch(REGISTERS, MODES, &modes);
        }
        case
    }

    // ---- what is wrong with them

    /// One block damaged so that it is refused with this number.
    fn damage(&mut self, case: &mut Case, number: u32, block: usize, turn: usize) {
        let base = 512 * block;
        if number == 21 {
            let at = if turn % 2 == 0 { 12 + self.r.below(496) } else { 508 + self.r.below(4) };
            return self.alter(case, base + at);
        }
        match number {
            22 => self.alter(case, base + turn % 2),
            23 => self.alter(case, base + 2 + turn % 4),
            _ if turn % 3 == 0 => {
                let last = base + 512 == case.lengths[FILE] as usize;
                let used = if last { [0u16, 497, 65535, 512] } else { [495u16, 497, 352, 356] };
                case.patch(FILE, base + 6, &used[turn / 3 % 4].to_le_bytes());
            }
            _ if block == LAST && case.p[2] < 496 && turn % 3 == 1 => {
                let (first, value) = (case.p[2] as usize, self.wild());
                case.patch(FILE, base + 12 + first + self.r.below(496 - first), &[value]);
            }
            _ => {
                let value = self.wild();
                case.patch(FILE, base + 8 + turn % 4, &[value]);
            }
        }
        case.seal(block);
    }

    /// The case made wrong in this way; a block is damaged behind all else.
    fn make_wrong(&mut self, case: &mut Case, wrong: Wrong, turn: usize) {
        let writes = case.kind == WRITE_ASKED;
        let new = if writes { case.p[0] == NEW } else { case.p[1] == NEW };
        match wrong {
            Asked => case.p[0] = [0, 5, 260, 65540, u32::MAX, 257][turn % 6],
            Length => case.lengths[FILE] = [8705, 9215, 35000][turn % 3],
            Block(number) => self.damage(case, number, 5 * turn % 17, turn),
            Size => case.p[2] = if new { [357, 360, 496][turn % 3] } else { [356, 351, 353, 320][turn % 4] },
            Target => match turn % 4 {
                0 => case.lengths[REGISTERS] = if new { 104 } else { 100 },
                1 => case.lengths[MEMORY] = 8191,
                2 if writes => case.lengths[MEMORY] = 8193,
                2 => case.lengths[REGISTERS] = if new { 96 } else { 95 },
                _ => case.lengths[MEMORY] = 8200,
            },
            Flags if writes => {
                case.patch(REGISTERS, MODES, &BAD[turn % 18]);
            }
            Flags => flags(case, BAD[turn % 18]),
            Set => flags(case, GOOD[1 + turn % 10]),
            Output if writes => case.lengths[FILE] = [8703, 0, 8192][turn % 3],
            Output => case.lengths[LIST] = [8703, 0, 8192][turn % 3],
        }
    }

    // ---- random cases

    /// One of the four entries, mostly on a good picture; mode registers of all sorts; at times kind 1 or 4 asked of the
    /// entries for lists and items.
    pub fn random_picture(&mut self) -> Case {
        let turn = self.r.below(1000);
        let modes = match self.r.below(5) {
            0 => UNSET,
            1 => self.bad_modes(),
            _ => self.good_modes(),
        };
        let (mut case, wrongs) = match self.r.below(9) {
            0..=2 => (self.picture((READ_ASKED, NEW), modes), IN_READING),
            3 => (self.picture((READ_ASKED, OLD), modes), &IN_READING[..8]),
            4 => (self.to_write(NEW, modes), IN_WRITING),
            5 if turn % 3 == 0 => (self.to_write(OLD, modes), &IN_WRITING[..2]),
            5 => (self.to_write(NEW, modes), IN_WRITING),
            6 => (self.picture((TO_NEW, OLD), modes), IN_MAKING_NEW),
            7 if turn % 8 == 0 => return self.random_plain_picture(),
            _ => {
                let modes = if self.r.one_in(2) { UNSET } else { modes };
                (self.picture((TO_OLD, NEW), modes), IN_MAKING_OLD)
            }
        };
        if self.r.one_in(8) {
            case.zeros |= 1 << FILE;
        }
        let output = if case.kind == WRITE_ASKED { FILE } else { LIST };
        if case.lengths[output] != 0 {
            case.lengths[output] += self.r.of(&[0u16, 0, 1, 96, 512]);
        }
        match self.r.below(6) {
            0 => {
                let wrong = self.r.of(wrongs);
                self.make_wrong(&mut case, wrong, turn);
            }
            1 => {
                // two, the later one first, so that a damaged block stays
                let (one, other) = (self.r.below(wrongs.len()), self.r.below(wrongs.len()));
                self.make_wrong(&mut case, wrongs[one.max(other)], turn);
                self.make_wrong(&mut case, wrongs[one.min(other)], turn);
            }
            2 if case.kind == READ_ASKED => case.p[0] = self.r.of(&[1u32, 2, 3, 4]),
            3 if case.kind != WRITE_ASKED && self.r.one_in(3) => {
                let length = self.r.of(&[0u16, 1, 2, 512, 8192, 8703, 9216, 34304]);
                cut(&mut case, length);
            }
            _ => {}
        }
        case
    }

    /// Kind 1 or 4 asked of the entries for lists and items.
    fn random_plain_picture(&mut self) -> Case {
        let kind = self.r.of(&[OLD, NEW]);
        if self.r.one_in(3) {
            let content = self.r.of(&[0usize, 32, 8192, 8288, 8292]);
            let output = self.r.of(&[0usize, 8704, 9000]);
            return self.write_plain(kind, content, output);
        }
        let mut case = self.read_plain(kind, kind, 17, used(kind));
        if self.r.one_in(2) {
            let (number, block, turn) = (21 + self.r.below(4) as u32, self.r.below(17), self.r.below(12));
            self.damage(&mut case, number, block, turn);
        }
        case
    }

    // ---- the planned cases

    pub fn all_pictures(&mut self) {
        self.read_as_asked();
        self.other_targets();
        self.kinds_asked();
        self.lists_and_items_asked_of_pictures();
        self.lengths_of_files();
        self.blocks_damaged();
        self.kinds_of_blocks();
        self.last_blocks();
        self.bad_flags();
        self.written_as_asked();
        self.made_new_and_old();
        self.orders();
        self.pictures_asked_of_plain();
        for _ in 0..RANDOM {
            let case = self.random_picture();
            self.add(case);
        }
        self.seldom_reached();
    }

    /// The headers written by hand into a file that is not formatted: any content, or zeros with a few bytes.
    fn by_hand(&mut self, case: &mut Case, zeros: bool) {
        let (kind, used) = (case.p[1], case.p[2]);
        case.p[1..].fill(0);
        case.patches.clear();
        if zeros {
            case.zeros |= 1 << FILE;
            for k in [0usize, 4000, 8191, 8192, 8224, 8256, 8287] {
                case.patch(FILE, place_of(k), &[1 + (k % 255) as u8]);
            }
        } else {
            case.patch(FILE, 512 * LAST + 12 + used as usize, &vec![0; 496 - used as usize]);
        }
        if kind == NEW {
            case.patch(FILE, FLAGS, &UNSET);
        }
        for block in 0..17usize {
            let used = if block == LAST { used } else { 496 };
            let [low, high] = (used as u16).to_le_bytes();
            case.patch(FILE, 512 * block, &[kind as u8, 0, block as u8, 0, 17, 0, low, high, 0, 0, 0, 0]).seal(block);
        }
    }

    /// Good pictures of both kinds, with mode registers of every sort that stands.
    fn read_as_asked(&mut self) {
        for modes in GOOD {
            let case = self.picture((READ_ASKED, NEW), modes);
            self.add(case);
        }
        for zeros in [0u8, 1 << FILE] {
            let mut case = self.picture((READ_ASKED, OLD), UNSET);
            case.zeros = zeros;
            self.add(case);
        }
        // one bit of one word, and of M, X and Y, in zeros, so that each finds its place
        for (turn, k) in [0usize, 32 * 85 + 5, 8191, 8192, 8223, 8224, 8255, 8256, 8287].into_iter().enumerate() {
            let sort = READERS[turn % 4];
            let mut case = self.picture(sort, UNSET);
            case.zeros |= 1 << FILE;
            case.patch(FILE, place_of(k), &[1 << (turn % 8)]).seal(place_of(k) / 512);
            self.add(case);
        }
        for zeros in [false, true] {
            for sort in READERS {
                let mut case = self.picture(sort, UNSET);
                self.by_hand(&mut case, zeros);
                self.add(case);
            }
        }
    }

    /// Targets of other lengths: 26, also where 15 would follow.
    fn other_targets(&mut self) {
        let for_new = [
            [(8192u16, 96u16), (8192, 99), (8192, 101), (8192, 104), (8192, 0), (8192, 98)],
            [(8191, 100), (8193, 100), (8196, 96), (8200, 100), (0, 100), (0, 0)],
        ];
        for (turn, (memory, registers)) in for_new.concat().into_iter().enumerate() {
            let modes = if turn % 3 == 1 { BAD[turn] } else { GOOD[turn % 11] };
            let mut case = self.picture((READ_ASKED, NEW), modes);
            (case.lengths[MEMORY], case.lengths[REGISTERS]) = (memory, registers);
            self.add(case);
        }
        let for_old = [(8192u16, 100u16), (8192, 95), (8192, 97), (8192, 92), (8192, 104), (8191, 96), (8193, 96), (8188, 100), (0, 0)];
        for (memory, registers) in for_old {
            let mut case = self.picture((READ_ASKED, OLD), UNSET);
            (case.lengths[MEMORY], case.lengths[REGISTERS]) = (memory, registers);
            self.add(case);
        }
        // a picture of one kind where the other is asked, into the targets of either
        for (asked, kind) in [(NEW, OLD), (OLD, NEW)] {
            for registers in [96u16, 100] {
                let mut case = self.picture((READ_ASKED, kind), UNSET);
                case.p[0] = asked;
                case.lengths[REGISTERS] = registers;
                self.add(case);
            }
        }
    }

    /// Kinds asked that are not 1 to 4: 22 before all else.
    fn kinds_asked(&mut self) {
        let wild = [0u32, 5, 6, 256, 257, 260, 65535, 65536, 65537, 65540, (1 << 31) + 4, (1 << 24) + 1, u32::MAX];
        for (turn, asked) in wild.into_iter().enumerate() {
            // a good picture of the kind that its low byte or low half names
            let kind = if asked % 256 == OLD { OLD } else { NEW };
            let mut case = self.picture((READ_ASKED, kind), UNSET);
            case.p[0] = asked;
            if asked < 65536 && turn % 2 == 1 {
                case.p[1] = asked;
            }
            self.add(case);
            if [0, 5, 257, 260, 65536, 65540, (1 << 31) + 4, u32::MAX].contains(&asked) {
                let mut case = self.to_write(kind, UNSET);
                case.p[0] = asked;
                self.add(case);
            }
        }
        // nothing else is right either
        for (turn, asked) in [0u32, 5, 260, u32::MAX].into_iter().enumerate() {
            let mut case = self.case([READ_ASKED, WRITE_ASKED][turn % 2]);
            case.lengths = [8191, 9, 0, 0, 0, 511];
            case.p[0] = asked;
            self.add(case);
        }
    }

    /// Kinds 2 and 3 asked of the entries for pictures: judged as their kind, then 26.
    fn lists_and_items_asked_of_pictures(&mut self) {
        let files = [(2u32, 17u16, 352u32), (3, 17, 352), (2, 1, 0), (3, 1, 64), (2, 17, 356), (3, 17, 356), (3, 1, 100), (2, 67, 496)];
        for (turn, (kind, blocks, used)) in files.into_iter().enumerate() {
            let mut case = self.picture((READ_ASKED, OLD), UNSET);
            case.p = [kind, kind, used, 1];
            case.lengths[FILE] = 512 * blocks;
            case.lengths[REGISTERS] = [96, 100][turn / 2 % 2];
            self.add(case);
        }
        for (turn, kind) in [2u32, 3, 2, 3, 2, 3].into_iter().enumerate() {
            let mut case = self.picture((READ_ASKED, OLD), UNSET);
            (case.p[0], case.p[1]) = (kind, if turn == 1 { OLD } else { kind });
            match turn {
                0 => case.lengths[FILE] = 8703,
                1 => {}
                _ => self.damage(&mut case, 19 + turn as u32, 3 * turn, turn),
            }
            self.add(case);
        }
        for (kind, registers, output) in [(2u32, 96u16, 8704u16), (3, 100, 9000), (2, 100, 0), (3, 96, 34304)] {
            let mut case = self.to_write(NEW, GOOD[5]);
            case.patches.clear();
            case.p[0] = kind;
            (case.lengths[REGISTERS], case.lengths[FILE]) = (registers, output);
            self.add(case);
        }
    }

    /// Files of other lengths than 17 blocks: 20, or 25 where they are whole blocks; 20 before a target or output too.
    fn lengths_of_files(&mut self) {
        for (turn, length) in [0u16, 1, 511, 512, 8192, 8703, 8705, 9216, 34304, 34305, 34816].into_iter().enumerate() {
            for (k, sort) in READERS.into_iter().enumerate() {
                if k == 1 && turn % 5 != 0 || k > 1 && turn % 2 == k % 2 && ![5, 6].contains(&turn) {
                    continue;
                }
                let mut case = self.picture(sort, UNSET);
                cut(&mut case, length);
                if turn % 3 == 2 {
                    let last = if sort.0 == READ_ASKED { Target } else { Output };
                    self.make_wrong(&mut case, last, turn);
                }
                self.add(case);
            }
        }
        // 16 leading blocks of a picture of 17, and 18 that say they are 17
        for (sort, length) in [(READERS[0], 8192u16), (READERS[2], 8192), (READERS[3], 8192), (READERS[0], 9216)] {
            let mut case = self.picture(sort, UNSET);
            cut(&mut case, length);
            for block in 0..length as usize / 512 {
                case.patch(FILE, 512 * block + 4, &[17]).seal(block);
            }
            self.add(case);
        }
    }

    /// Each block damaged in turn, for each entry, in each way.
    fn blocks_damaged(&mut self) {
        for (k, sort) in [READERS[0], READERS[2], READERS[3]].into_iter().enumerate() {
            for block in 0..17usize {
                if sort.0 != READ_ASKED && block % 2 == k % 2 && block != LAST {
                    continue;
                }
                let turn = block + block / 4 + k;
                let mut case = self.picture(sort, UNSET);
                self.damage(&mut case, 21 + (turn % 4) as u32, block, turn + turn / 4);
                self.add(case);
            }
        }
        // a mode byte altered under the old sums
        for (sort, byte) in [(READERS[0], 0usize), (READERS[3], 1), (READERS[0], 3)] {
            let mut case = self.picture(sort, UNSET);
            case.patch(FILE, FLAGS + byte, &[1]);
            self.add(case);
        }
    }

    /// The kind field of one block, or of all but one, names the other kind of picture: 22 at that block.
    fn kinds_of_blocks(&mut self) {
        for sort in READERS {
            let other = OLD + NEW - sort.1;
            for block in [[0usize, 1, LAST], [0, 8, LAST]][sort.0 as usize % 2] {
                let mut case = self.picture(sort, UNSET);
                case.patch(FILE, 512 * block, &[other as u8]).seal(block);
                self.add(case);
            }
            let mut case = self.picture(sort, UNSET);
            case.p[1] = other;
            case.patch(FILE, 0, &[sort.1 as u8]).seal(0);
            self.add(case);
            // 4 + 256, or 1 + 256
            if sort.0 != READ_ASKED {
                let mut case = self.picture(sort, UNSET);
                case.patch(FILE, 512 * 9 + 1, &[1]).seal(9);
                self.add(case);
            }
        }
    }

    /// What the last block uses: any other number than the kind's is 25, or 24 where no last block may use it.
    fn last_blocks(&mut self) {
        for sort in READERS {
            for size in [0u32, 1, 348, 351, 352, 353, 355, 356, 357, 360, 496, 497, 65535] {
                let near = [352, 355, 356, 357, 360].contains(&size) || sort.1 == OLD && [351, 353].contains(&size);
                let far = sort.1 == OLD && [355, 357, 360].contains(&size);
                if size == used(sort.1) || far || !near && sort != (READ_ASKED, NEW) {
                    continue;
                }
                let mut case = self.picture(sort, UNSET);
                case.p[2] = size;
                self.add(case);
            }
            // the first byte behind what is used, and the last of the payload
            for byte in [used(sort.1) as usize, 495] {
                let mut case = self.picture(sort, UNSET);
                case.patch(FILE, 512 * LAST + 12 + byte, &[1]).seal(LAST);
                self.add(case);
            }
        }
    }

    /// 15 in reading, in writing and where new is made old.
    fn bad_flags(&mut self) {
        for (turn, modes) in BAD.into_iter().enumerate() {
            if turn % 3 != 2 {
                let case = self.picture((READ_ASKED, NEW), modes);
                self.add(case);
            }
            if turn % 3 != 0 {
                let case = self.to_write(NEW, modes);
                self.add(case);
            }
            if turn % 3 != 1 {
                let case = self.picture((TO_OLD, NEW), modes);
                self.add(case);
            }
        }
        for modes in BAD_AND_SET {
            let case = self.picture((TO_OLD, NEW), modes);
            self.add(case);
        }
    }

    /// Writing of both kinds: mode registers of every sort, outputs and contents of many lengths.
    fn written_as_asked(&mut self) {
        for (turn, modes) in GOOD.into_iter().enumerate() {
            let mut case = self.to_write(NEW, modes);
            case.lengths[FILE] += [0, 1, 0, 512, 0, 96][turn % 6];
            self.add(case);
        }
        for (turn, output) in [8703u16, 0, 1, 8192, 8192 + 96].into_iter().enumerate() {
            // at times 15 comes before 27
            let mut case = self.to_write(NEW, if turn < 3 { GOOD[turn] } else { BAD[turn] });
            case.lengths[FILE] = output;
            self.add(case);
        }
        for output in [8704u16, 8703, 9300] {
            let mut case = self.to_write(OLD, UNSET);
            case.lengths[FILE] = output;
            self.add(case);
        }
        let for_new = [(8192u16, 96u16), (8192, 99), (8192, 101), (8192, 104), (8191, 100), (8196, 96), (0, 100)].map(|(m, r)| (NEW, m, r));
        let for_old = [(8192u16, 100u16), (8192, 95), (8192, 97), (8193, 96), (8188, 100)].map(|(m, r)| (OLD, m, r));
        for (kind, memory, registers) in for_new.into_iter().chain(for_old) {
            let mut case = self.to_write(kind, UNSET);
            case.patches.clear();
            case.zeros |= 1 << REGISTERS;
            (case.lengths[MEMORY], case.lengths[REGISTERS]) = (memory, registers);
            self.add(case);
        }
        // one bit of one word, and of M, X and Y, in zeros
        for (turn, (word, bit)) in [(0usize, 0usize), (85, 43), (255, 255)].into_iter().enumerate() {
            let mut case = self.to_write(NEW, GOOD[turn]);
            case.zeros = (1 << MEMORY) | (1 << REGISTERS);
            case.patch(MEMORY, 32 * (bit ^ word) + bit / 8, &[1 << (bit % 8)]);
            case.patch(REGISTERS, 32 * turn + 31, &[128]);
            self.add(case);
        }
    }

    /// Old made new and new made old: outputs of many lengths, any content and zeros; and 28.
    fn made_new_and_old(&mut self) {
        for sort in [(TO_NEW, OLD), (TO_OLD, NEW)] {
            for (turn, output) in [8704u16, 8705, 8800, 9216, 8704, 33000, 8703, 0, 512, 8192].into_iter().enumerate() {
                let mut case = self.picture(sort, UNSET);
                case.lengths[LIST] = output;
                if turn % 4 == 1 {
                    case.zeros |= 1 << FILE;
                }
                if turn % 4 == 2 {
                    case.zeros |= 1 << LIST;
                }
                self.add(case);
            }
        }
        for modes in &GOOD[1..] {
            let case = self.picture((TO_OLD, NEW), *modes);
            self.add(case);
        }
        // the other kind of picture
        for sort in [(TO_NEW, NEW), (TO_OLD, OLD)] {
            let case = self.picture(sort, UNSET);
            self.add(case);
        }
    }

    /// Each pair of refusals that can meet, for each entry.
    fn orders(&mut self) {
        let mut turn = 0;
        for (sort, wrongs) in [
            ((READ_ASKED, NEW), IN_READING),
            ((READ_ASKED, OLD), &IN_READING[..8]),
            ((TO_NEW, OLD), IN_MAKING_NEW),
            ((TO_OLD, NEW), IN_MAKING_OLD),
            ((WRITE_ASKED, NEW), IN_WRITING),
        ] {
            for (k, &first) in wrongs.iter().enumerate() {
                for &later in &wrongs[k + 1..] {
                    turn += 1;
                    let block = |wrong: Wrong| matches!(wrong, Block(_));
                    // the blocks' own order is below; of a length or kind asked with a block one is enough
                    let seldom = block(first) && block(later) || !block(first) && matches!(later, Block(22..=24));
                    if seldom || sort == (READ_ASKED, OLD) && turn % 5 != 0 {
                        continue;
                    }
                    if (first, later) == (Flags, Set) {
                        continue;
                    }
                    let mut case = if sort.0 == WRITE_ASKED { self.to_write(NEW, UNSET) } else { self.picture(sort, UNSET) };
                    if block(later) {
                        self.make_wrong(&mut case, first, turn);
                        self.make_wrong(&mut case, later, turn);
                    } else {
                        self.make_wrong(&mut case, later, turn);
                        self.make_wrong(&mut case, first, turn);
                    }
                    self.add(case);
                }
            }
        }
        // within a block, and from block to block
        for (turn, (first, later)) in [(21u32, 22u32), (22, 23), (22, 24), (23, 24)].into_iter().enumerate() {
            let mut case = self.picture(READERS[turn % 4], UNSET);
            self.damage(&mut case, later, 4 * turn + 3, 2);
            self.damage(&mut case, first, 4 * turn + 3, 2);
            self.add(case);
        }
        for (turn, (first, later)) in [(24u32, 21u32), (23, 22), (24, 22), (23, 21)].into_iter().enumerate() {
            let mut case = self.picture(READERS[turn % 4], UNSET);
            self.damage(&mut case, first, 4 * turn, 2);
            self.damage(&mut case, later, 4 * turn + 1, 2);
            self.add(case);
        }
        for (turn, modes) in [GOOD[1], GOOD[4], GOOD[5]].into_iter().enumerate() {
            // 28 before 27
            let mut case = self.picture((TO_OLD, NEW), modes);
            self.make_wrong(&mut case, Output, turn);
            self.add(case);
            // 26 before 15 in writing
            let mut case = self.to_write(NEW, BAD[turn]);
            self.make_wrong(&mut case, Target, turn);
            self.add(case);
        }
        // 15, 28 and 27 at once
        for modes in BAD_AND_SET {
            let mut case = self.picture((TO_OLD, NEW), modes);
            case.lengths[LIST] = 8703;
            self.add(case);
        }
    }

    /// Kinds 1 and 4 asked of the entries for lists and items: judged as their kind, then 26.
    fn pictures_asked_of_plain(&mut self) {
        for (turn, kind) in [OLD, NEW, OLD, NEW, NEW, NEW].into_iter().enumerate() {
            let mut case = self.read_plain(kind, kind, 17, used(kind));
            if kind == NEW && turn != 5 {
                flags(&mut case, if turn == 4 { BAD[0] } else { GOOD[turn] });
            }
            case.lengths[LIST] = [case.lengths[LIST], case.lengths[LIST], 9000, 0, 33000, 8192][turn];
            self.add(case);
        }
        for (turn, kind) in [OLD, NEW].into_iter().enumerate() {
            for number in 20..=25 {
                if number % 2 == turn as u32 && [22, 23].contains(&number) {
                    continue;
                }
                let mut case = self.read_plain(kind, kind, 17, used(kind));
                match number {
                    20 => case.lengths[FILE] += 1,
                    25 => case.p[2] = [320, 352][turn],
                    _ => self.damage(&mut case, number, number as usize - 9, turn),
                }
                self.add(case);
            }
            // the other kind of picture, one block, and none
            let case = self.read_plain(kind, OLD + NEW - kind, 17, used(kind));
            self.add(case);
            let case = self.read_plain(kind, kind, 1, 96);
            self.add(case);
            let case = self.read_plain(kind, kind, 0, 0);
            self.add(case);
        }
        let old = [(8288usize, 8704usize), (0, 512), (32, 0), (8192, 9000), (8292, 9000)].map(|(c, o)| (OLD, c, o));
        let new = [(8292usize, 8704usize), (8292, 0), (8288, 8704), (0, 512), (7, 35000)].map(|(c, o)| (NEW, c, o));
        for (kind, content, output) in old.into_iter().chain(new) {
            let case = self.write_plain(kind, content, output);
            self.add(case);
        }
    }

    /// What the others leave out: sums of a kind 1 picture that is asked for, 23 of a kind 4 one asked of plain entries,
    /// and one block and 18 blocks to be made old.
    fn seldom_reached(&mut self) {
        for (turn, block) in [4, LAST].into_iter().enumerate() {
            let mut case = self.picture((READ_ASKED, OLD), UNSET);
            self.damage(&mut case, 21, block, turn);
            self.add(case);
        }
        let mut case = self.read_plain(NEW, NEW, 17, used(NEW));
        self.damage(&mut case, 23, 12, 1);
        self.add(case);
        for length in [512, 9216] {
            let mut case = self.picture((TO_OLD, NEW), UNSET);
            cut(&mut case, length);
            self.add(case);
        }
    }
}

#[cfg(test)]
mod tests {
    use super::*;
    use std::collections::BTreeSet;

    /// The digest of the lines of the stored cases before these: what a later request adds leaves them.
    const LINES_BEFORE: u32 = 0x28fd82fa;

    fn stored() -> Vec<Case> {
        let mut plan = Plan::new(crate::STORED_SEED);
        plan.stored(crate::STORED_RANDOM);
        plan.cases
    }

    fn stored_pictures() -> Vec<Case> {
        let mut alone = Plan::new(1);
        alone.all_pictures();
        stored()[BEFORE..][..alone.cases.len()].to_vec()
    }

    #[test]
    fn the_cases_before_stay() {
        let text: String = stored()[..BEFORE].iter().map(|case| case.line() + "\n").collect();
        assert_eq!(digest(text.as_bytes()), LINES_BEFORE);
    }

    // ---- the entries once more, by rules of which each can be made wrong

    /// In an order of numbers: the kind asked, and the first block at fault.
    const KIND: u32 = 1;
    const BLOCK: u32 = 2;

    /// The four bytes of the mode registers.
    type Four = [u8; 4];

    struct Rules {
        /// The order in which each entry judges.
        read: &'static [u32],
        write: &'static [u32],
        to_new: &'static [u32],
        to_old: &'static [u32],
        /// The kind that is taken for the kind asked; 0 if it is refused.
        asked: fn(u32) -> u32,
        /// Whether a block's kind field is right: the field, the kind and the block.
        field: fn(u32, u32, usize) -> bool,
        fits: fn(u32, usize) -> bool,
        /// Whether memory and registers have the lengths of the kind.
        lengths: fn(u32, usize, usize) -> bool,
        bad: fn(Four) -> bool,
        set: fn(Four) -> bool,
        place: fn(u32, u32) -> u32,
        /// The bytes put out: the case kind, and the size of the content.
        bytes: fn(u8, usize) -> usize,
        /// What becomes of the mode registers from file to registers and back.
        modes: fn(Four) -> Four,
        /// Those of an old picture made new.
        fresh: Four,
        /// The content of memory as it stands in the picture's order, and back.
        scrambled: bool,
        /// What becomes of blocks that were made from this file, none in writing.
        made: fn(&[u8], &mut Vec<u8>),
        /// How the blocks are put into the output.
        put: fn(&mut [u8], &[u8]),
        /// What a refusal does to the output.
        refused: fn(&mut [u8]),
    }

    fn bad(four: Four) -> bool {
        four.chunks(2).any(|pair| pair[0] > 1 || pair[0] == 0 && pair[1] != 0)
    }

    fn fits(kind: u32, size: usize) -> bool {
        match kind {
            1 => size == 8288,
            2 => size % 8 == 0 && size <= 32768,
            3 => size % 32 == 0 && size <= 32768,
            _ => size == 8292,
        }
    }

    fn lengths(kind: u32, memory: usize, registers: usize) -> bool {
        memory == 8192 && (kind == 1 && registers == 96 || kind == 4 && registers == 100)
    }

    const RIGHT: Rules = Rules {
        read: &[KIND, 20, BLOCK, 25, 26, 15],
        write: &[KIND, 26, 15, 27],
        to_new: &[20, BLOCK, 25, 27],
        to_old: &[20, BLOCK, 25, 15, 28, 27],
        asked: |kind| if kind < 5 { kind } else { 0 },
        field: |field, kind, _| field == kind,
        fits,
        lengths,
        bad,
        set: |four| four[0] == 1 || four[2] == 1,
        place: |_, place| place,
        bytes: |entry, size| if entry == READ_ASKED { size } else { 8704 },
        modes: |four| four,
        fresh: [0; 4],
        scrambled: true,
        made: |_, _| {},
        put: |output, file| output[..file.len()].copy_from_slice(file),
        refused: |_| {},
    };

    fn two(bytes: &[u8], at: usize) -> usize {
        bytes[at] as usize + 256 * bytes[at + 1] as usize
    }

    /// The words of the chips, or the chips of the words: bit b of word w is bit b of chip b xor w.
    fn turned(bytes: &[u8]) -> Vec<u8> {
        let mut other = vec![0u8; bytes.len()];
        for w in 0..256 {
            for b in 0..256 {
                other[32 * w + b / 8] |= bytes[32 * (b ^ w) + b / 8] & 1 << (b % 8);
            }
        }
        other
    }

    impl Rules {
        /// What is wrong with the block at this place: 21 to 24, else 0.
        fn block(&self, file: &[u8], kind: u32, place: usize) -> u32 {
            let (count, block) = (file.len() / 512, &file[512 * place..512 * place + 512]);
            let mut sealed = block.to_vec();
            seal(&mut sealed, 0);
            let used = two(block, 6);
            if sealed != block {
                return 21;
            }
            if !(self.field)(two(block, 0) as u32, kind, place) {
                return 22;
            }
            if two(block, 2) != place || two(block, 4) != count {
                return 23;
            }
            let right = if place + 1 < count { used == 496 } else { used <= 496 && (used > 0 || count == 1) };
            let rest = |used: usize| block[8..12].iter().chain(&block[12 + used..508]).any(|&byte| byte != 0);
            if !right || rest(used) {
                return 24;
            }
            0
        }

        /// The kind of picture that the case is about.
        fn kind(&self, case: &Case) -> u32 {
            match case.kind {
                TO_NEW => OLD,
                TO_OLD => NEW,
                _ => (self.asked)(case.p[0]),
            }
        }

        fn order(&self, case: &Case) -> &'static [u32] {
            match case.kind {
                READ_ASKED => self.read,
                WRITE_ASKED => self.write,
                TO_NEW => self.to_new,
                TO_OLD => self.to_old,
                READ_PLAIN => &[KIND, 20, BLOCK, 25, 26],
                _ => &[KIND, 26, 27],
            }
        }

        /// All that is wrong, number and place, in the order in which it is judged.
        fn wrong(&self, case: &Case, buffers: &Buffers) -> Vec<(u32, (u32, u32))> {
            let kind = self.kind(case);
            let file = &buffers[FILE];
            let count = file.len() / 512;
            let modes: Option<Four> = match case.kind {
                WRITE_ASKED => buffers[REGISTERS].get(MODES..MODES + 4).map(|four| four.try_into().unwrap()),
                _ => file.get(FLAGS..FLAGS + 4).map(|four| four.try_into().unwrap()),
            };
            let mut all = vec![];
            for &number in self.order(case) {
                let fault = match number {
                    KIND => (kind == 0).then_some((22, 0)),
                    20 => (file.is_empty() || file.len() % 512 != 0 || file.len() > 34304).then_some((20, 0)),
                    BLOCK => (0..count).map(|place| (self.block(file, kind, place), place as u32)).find(|fault| fault.0 != 0),
                    25 => (count == 0 || !(self.fits)(kind, 496 * (count - 1) + two(file, 512 * count - 506))).then_some((25, 0)),
                    26 if case.kind == READ_PLAIN || case.kind == WRITE_PLAIN => Some((26, 0)),
                    26 => (!(self.lengths)(kind, buffers[MEMORY].len(), buffers[REGISTERS].len())).then_some((26, 0)),
                    15 => modes.filter(|&four| kind == NEW && (self.bad)(four)).map(|_| (15, 0)),
                    28 => modes.filter(|&four| (self.set)(four)).map(|_| (28, 0)),
                    _ => (buffers[if case.kind == WRITE_ASKED { FILE } else { LIST }].len() < 8704).then_some((27, 0)),
                };
                all.extend(fault.map(|fault| (number, fault)));
            }
            all
        }

        /// The blocks of a picture.
        fn blocks(&self, kind: u32, content: &[u8], from: &[u8]) -> Vec<u8> {
            let mut file = vec![0u8; 8704];
            for (place, part) in content.chunks(496).enumerate() {
                let base = 512 * place;
                let [low, high] = (part.len() as u16).to_le_bytes();
                file[base..base + 8].copy_from_slice(&[kind as u8, 0, place as u8, 0, 17, 0, low, high]);
                file[base + 12..base + 12 + part.len()].copy_from_slice(part);
                seal(&mut file, place);
            }
            (self.made)(from, &mut file);
            file
        }

        /// The answer and what is left.
        fn call(&self, case: &Case, buffers: &mut Buffers) -> [u32; 3] {
            let output = if case.kind == WRITE_ASKED { FILE } else { LIST };
            if let Some(&(_, (number, place))) = self.wrong(case, buffers).first() {
                (self.refused)(&mut buffers[output]);
                return [number, (self.place)(number, place), 0];
            }
            let kind = self.kind(case);
            let memory = |bytes: &[u8]| if self.scrambled { turned(bytes) } else { bytes.to_vec() };
            let size = if kind == NEW { 8292 } else { 8288 };
            if case.kind == WRITE_ASKED {
                let mut content = memory(&buffers[MEMORY][..8192]);
                content.extend(&buffers[REGISTERS]);
                content.resize(size, 0);
                if kind == NEW {
                    let four = (self.modes)(content[8288..].try_into().unwrap());
                    content[8288..].copy_from_slice(&four);
                }
                let file = self.blocks(kind, &content, &[]);
                (self.put)(&mut buffers[FILE], &file);
                return [0, 0, (self.bytes)(case.kind, size) as u32];
            }
            let from = buffers[FILE].clone();
            let mut content: Vec<u8> = from.chunks(512).flat_map(|block| block[12..508].to_vec()).collect();
            content.resize(8292, 0);
            if case.kind == READ_ASKED {
                let chips = memory(&content[..8192]);
                buffers[MEMORY][..8192].copy_from_slice(&chips);
                let four = (self.modes)(content[8288..].try_into().unwrap());
                content[8288..].copy_from_slice(&four);
                let length = buffers[REGISTERS].len().min(size - 8192);
                buffers[REGISTERS][..length].copy_from_slice(&content[8192..8192 + length]);
            } else {
                let made = OLD + NEW - kind;
                content[8288..].copy_from_slice(&self.fresh);
                let words = if self.scrambled { content[..8192].to_vec() } else { turned(&content[..8192]) };
                content[..8192].copy_from_slice(&words);
                content.truncate(if made == NEW { 8292 } else { 8288 });
                let file = self.blocks(made, &content, &from);
                (self.put)(&mut buffers[LIST], &file);
            }
            [0, 0, (self.bytes)(case.kind, size) as u32]
        }
    }

    /// Blocks made again in which these keep a part of the file that they were made from, sealed or not.
    fn keep(from: &[u8], made: &mut Vec<u8>, blocks: std::ops::Range<usize>, part: std::ops::Range<usize>, sealed: bool) {
        if from.is_empty() {
            return;
        }
        for block in blocks {
            let part = 512 * block + part.start..512 * block + part.end;
            made[part.clone()].copy_from_slice(&from[part]);
            if sealed {
                seal(made, block);
            }
        }
    }

    const WRONG: &[(&str, Rules)] = &[
        // orders
        ("28 before 15", Rules { to_old: &[20, BLOCK, 25, 28, 15, 27], ..RIGHT }),
        ("27 before 28", Rules { to_old: &[20, BLOCK, 25, 15, 27, 28], ..RIGHT }),
        ("27 before 15 in making old", Rules { to_old: &[20, BLOCK, 25, 27, 15, 28], ..RIGHT }),
        ("27 before 25 in making old", Rules { to_old: &[20, BLOCK, 27, 25, 15, 28], ..RIGHT }),
        ("27 before the blocks in making old", Rules { to_old: &[20, 27, BLOCK, 25, 15, 28], ..RIGHT }),
        ("27 before 20 in making old", Rules { to_old: &[27, 20, BLOCK, 25, 15, 28], ..RIGHT }),
        ("28 before 25", Rules { to_old: &[20, BLOCK, 28, 25, 15, 27], ..RIGHT }),
        ("28 before the blocks", Rules { to_old: &[20, 28, BLOCK, 25, 15, 27], ..RIGHT }),
        ("28 before 20", Rules { to_old: &[28, 20, BLOCK, 25, 15, 27], ..RIGHT }),
        ("15 before 25 in making old", Rules { to_old: &[20, BLOCK, 15, 25, 28, 27], ..RIGHT }),
        ("15 before the blocks in making old", Rules { to_old: &[20, 15, BLOCK, 25, 28, 27], ..RIGHT }),
        ("15 before 20 in making old", Rules { to_old: &[15, 20, BLOCK, 25, 28, 27], ..RIGHT }),
        ("25 before the blocks in making old", Rules { to_old: &[20, 25, BLOCK, 15, 28, 27], ..RIGHT }),
        ("27 before 25 in making new", Rules { to_new: &[20, BLOCK, 27, 25], ..RIGHT }),
        ("27 before the blocks in making new", Rules { to_new: &[20, 27, BLOCK, 25], ..RIGHT }),
        ("27 before 20 in making new", Rules { to_new: &[27, 20, BLOCK, 25], ..RIGHT }),
        ("25 before the blocks in making new", Rules { to_new: &[20, 25, BLOCK, 27], ..RIGHT }),
        ("15 before 26", Rules { read: &[KIND, 20, BLOCK, 25, 15, 26], ..RIGHT }),
        ("15 before 25", Rules { read: &[KIND, 20, BLOCK, 15, 25, 26], ..RIGHT }),
        ("15 before the blocks", Rules { read: &[KIND, 20, 15, BLOCK, 25, 26], ..RIGHT }),
        ("15 before 20", Rules { read: &[KIND, 15, 20, BLOCK, 25, 26], ..RIGHT }),
        ("26 before 25", Rules { read: &[KIND, 20, BLOCK, 26, 25, 15], ..RIGHT }),
        ("26 before the blocks", Rules { read: &[KIND, 20, 26, BLOCK, 25, 15], ..RIGHT }),
        ("26 before 20", Rules { read: &[KIND, 26, 20, BLOCK, 25, 15], ..RIGHT }),
        ("26 before the kind asked", Rules { read: &[26, KIND, 20, BLOCK, 25, 15], ..RIGHT }),
        ("20 before the kind asked", Rules { read: &[20, KIND, BLOCK, 25, 26, 15], ..RIGHT }),
        ("the blocks before the kind asked", Rules { read: &[20, BLOCK, KIND, 25, 26, 15], ..RIGHT }),
        ("25 before the blocks", Rules { read: &[KIND, 20, 25, BLOCK, 26, 15], ..RIGHT }),
        ("15 before 26 in writing", Rules { write: &[KIND, 15, 26, 27], ..RIGHT }),
        ("27 before 15 in writing", Rules { write: &[KIND, 26, 27, 15], ..RIGHT }),
        ("27 before 26 in writing", Rules { write: &[KIND, 27, 26, 15], ..RIGHT }),
        ("26 before the kind asked in writing", Rules { write: &[26, KIND, 15, 27], ..RIGHT }),
        ("27 before the kind asked in writing", Rules { write: &[27, KIND, 26, 15], ..RIGHT }),
        // what is not refused
        ("no 15 in reading", Rules { read: &[KIND, 20, BLOCK, 25, 26], ..RIGHT }),
        ("no 15 in writing", Rules { write: &[KIND, 26, 27], ..RIGHT }),
        ("no 15 in making old", Rules { to_old: &[20, BLOCK, 25, 28, 27], ..RIGHT }),
        ("a set flag dropped", Rules { to_old: &[20, BLOCK, 25, 15, 27], ..RIGHT }),
        ("neither 15 nor 28", Rules { to_old: &[20, BLOCK, 25, 27], ..RIGHT }),
        // kinds
        ("kinds asked to 3", Rules { asked: |kind| if kind < 4 { kind } else { 0 }, ..RIGHT }),
        ("kinds asked to 5", Rules { asked: |kind| if kind < 5 { kind } else if kind == 5 { 4 } else { 0 }, ..RIGHT }),
        ("kind 0 asked is 1", Rules { asked: |kind| if kind == 0 { 1 } else if kind < 5 { kind } else { 0 }, ..RIGHT }),
        ("kinds asked by their low byte", Rules { asked: |kind| if kind % 256 < 5 { kind % 256 } else { 0 }, ..RIGHT }),
        ("kinds asked by their low half", Rules { asked: |kind| if kind % 65536 < 5 { kind % 65536 } else { 0 }, ..RIGHT }),
        ("kinds asked without their high bit", Rules { asked: |kind| if kind & !(1 << 31) < 5 { kind & !(1 << 31) } else { 0 }, ..RIGHT }),
        ("kinds 2 and 3 asked are 22", Rules { asked: |kind| if kind == 1 || kind == 4 { kind } else { 0 }, ..RIGHT }),
        ("blocks of either kind of picture", Rules { field: |field, kind, _| field == kind || field + kind == 5, ..RIGHT }),
        ("kinds of blocks by their low byte", Rules { field: |field, kind, _| field % 256 == kind, ..RIGHT }),
        ("the kind of block 0 alone", Rules { field: |field, kind, place| field == kind || place > 0, ..RIGHT }),
        ("the kind of the last block no matter", Rules { field: |field, kind, place| field == kind || place == LAST, ..RIGHT }),
        ("old blocks for kind 4", Rules { field: |field, kind, _| field == kind || field == 1 && kind == 4, ..RIGHT }),
        ("new blocks for kind 1", Rules { field: |field, kind, _| field == kind || field == 4 && kind == 1, ..RIGHT }),
        // sizes and lengths
        ("352 in the last block of kind 4", Rules { fits: |kind, size| fits(if kind == 4 { 1 } else { kind }, size), ..RIGHT }),
        ("352 stands too for kind 4", Rules { fits: |kind, size| fits(kind, size) || kind == 4 && size == 8288, ..RIGHT }),
        ("356 in the last block of kind 1", Rules { fits: |kind, size| fits(if kind == 1 { 4 } else { kind }, size), ..RIGHT }),
        ("356 stands too for kind 1", Rules { fits: |kind, size| fits(kind, size) || kind == 1 && size == 8292, ..RIGHT }),
        ("more than 356 stands", Rules { fits: |kind, size| fits(kind, size) || kind == 4 && size > 8292, ..RIGHT }),
        ("360 stands", Rules { fits: |kind, size| fits(kind, size) || kind == 4 && size == 8296, ..RIGHT }),
        ("355 stands", Rules { fits: |kind, size| fits(kind, size) || kind == 4 && size == 8291, ..RIGHT }),
        ("357 stands", Rules { fits: |kind, size| fits(kind, size) || kind == 4 && size == 8293, ..RIGHT }),
        ("kind 4 into 96", Rules { lengths: |kind, m, r| lengths(kind, m, r) || kind == 4 && m == 8192 && r == 96, ..RIGHT }),
        ("kind 1 into 100", Rules { lengths: |kind, m, r| lengths(kind, m, r) || kind == 1 && m == 8192 && r == 100, ..RIGHT }),
        ("more than 100 registers", Rules { lengths: |kind, m, r| lengths(kind, m, r) || kind == 4 && m == 8192 && r > 100, ..RIGHT }),
        ("more than 96 registers", Rules { lengths: |kind, m, r| lengths(kind, m, r) || kind == 1 && m == 8192 && r > 96, ..RIGHT }),
        ("97 to 99 registers", Rules { lengths: |kind, m, r| lengths(kind, m, r) || kind == 4 && m == 8192 && r > 96 && r < 100, ..RIGHT }),
        ("more memory", Rules { lengths: |kind, m, r| lengths(kind, m.min(8192), r), ..RIGHT }),
        ("8,292 bytes in all", Rules { lengths: |kind, m, r| lengths(kind, m, r) || m > 8191 && m + r == [8288, 8292][kind as usize / 4], ..RIGHT }),
        ("kinds 2 and 3 taken for 1", Rules { lengths: |kind, m, r| lengths(if kind < 4 { 1 } else { kind }, m, r), ..RIGHT }),
        // flags
        ("15 for A alone", Rules { bad: |m| bad([m[0], m[1], 0, 0]), ..RIGHT }),
        ("15 for B alone", Rules { bad: |m| bad([0, 0, m[2], m[3]]), ..RIGHT }),
        ("flag 2 stands", Rules { bad: |m| m.chunks(2).any(|pair| pair[0] > 2 || pair[0] == 0 && pair[1] != 0), ..RIGHT }),
        ("flag 255 stands", Rules { bad: |m| m.chunks(2).any(|pair| pair[0] > 1 && pair[0] < 255 || pair[0] == 0 && pair[1] != 0), ..RIGHT }),
        ("any flag that is not 0 stands", Rules { bad: |m| m.chunks(2).any(|pair| pair[0] == 0 && pair[1] != 0), ..RIGHT }),
        ("flags modulo 2", Rules { bad: |m| m.chunks(2).any(|pair| pair[0] % 2 == 0 && (pair[0] > 0 || pair[1] > 0)), ..RIGHT }),
        ("flags over 127 stand", Rules { bad: |m| m.chunks(2).any(|pair| pair[0] > 1 && pair[0] < 128 || pair[0] == 0 && pair[1] != 0), ..RIGHT }),
        ("a mode with flag 0 stands", Rules { bad: |m| m[0] > 1 || m[2] > 1, ..RIGHT }),
        ("mode 1 with flag 0 stands", Rules { bad: |m| m.chunks(2).any(|pair| pair[0] > 1 || pair[0] == 0 && pair[1] > 1), ..RIGHT }),
        ("a flag of 1 wants a mode", Rules { bad: |m| m.chunks(2).any(|pair| pair[0] > 1 || (pair[0] == 0) != (pair[1] == 0)), ..RIGHT }),
        ("mode before flag", Rules { bad: |m| bad([m[1], m[0], m[3], m[2]]), ..RIGHT }),
        ("flags first, then modes", Rules { bad: |m| bad([m[0], m[2], m[1], m[3]]), ..RIGHT }),
        ("28 for A alone", Rules { set: |m| m[0] == 1, ..RIGHT }),
        ("28 for B alone", Rules { set: |m| m[2] == 1, ..RIGHT }),
        ("28 for both alone", Rules { set: |m| m[0] == 1 && m[2] == 1, ..RIGHT }),
        ("28 for a mode that is not 0", Rules { set: |m| m[1] != 0 || m[3] != 0, ..RIGHT }),
        ("28 for any byte but 0, before 15", Rules { set: |m| m != [0; 4], to_old: &[20, BLOCK, 25, 28, 15, 27], ..RIGHT }),
        // places and bytes put out
        ("15 at the last block", Rules { place: |number, place| if number == 15 { 16 } else { place }, ..RIGHT }),
        ("28 at the last block", Rules { place: |number, place| if number == 28 { 16 } else { place }, ..RIGHT }),
        ("25 at the last block", Rules { place: |number, place| if number == 25 { 16 } else { place }, ..RIGHT }),
        ("all at block 0", Rules { place: |_, _| 0, ..RIGHT }),
        ("places from 1", Rules { place: |number, place| if (21..25).contains(&number) { place + 1 } else { place }, ..RIGHT }),
        ("8,288 bytes read of kind 4", Rules { bytes: |entry, _| if entry == READ_ASKED { 8288 } else { 8704 }, ..RIGHT }),
        ("8,292 bytes read of kind 1", Rules { bytes: |entry, _| if entry == READ_ASKED { 8292 } else { 8704 }, ..RIGHT }),
        ("the blocks' bytes in reading", Rules { bytes: |_, _| 8704, ..RIGHT }),
        ("the content's bytes in making", Rules { bytes: |entry, size| if entry == WRITE_ASKED { 8704 } else { size }, ..RIGHT }),
        ("the content's bytes in writing", Rules { bytes: |entry, size| if entry == READ_ASKED || entry == WRITE_ASKED { size } else { 8704 }, ..RIGHT }),
        // mode registers on their way
        ("modes lost", Rules { modes: |_| [0; 4], ..RIGHT }),
        ("only A kept", Rules { modes: |m| [m[0], m[1], 0, 0], ..RIGHT }),
        ("only B kept", Rules { modes: |m| [0, 0, m[2], m[3]], ..RIGHT }),
        ("B before A", Rules { modes: |m| [m[2], m[3], m[0], m[1]], ..RIGHT }),
        ("modes before flags", Rules { modes: |m| [m[1], m[0], m[3], m[2]], ..RIGHT }),
        ("both flags first", Rules { modes: |m| [m[0], m[2], m[1], m[3]], ..RIGHT }),
        ("only the flags", Rules { modes: |m| [m[0], 0, m[2], 0], ..RIGHT }),
        ("mode 0 as unset", Rules { modes: |m| [(m[1] > 0) as u8, m[1], (m[3] > 0) as u8, m[3]], ..RIGHT }),
        ("new with both set", Rules { fresh: [1, 0, 1, 0], ..RIGHT }),
        ("new with A set", Rules { fresh: [1, 0, 0, 0], ..RIGHT }),
        ("new with B set", Rules { fresh: [0, 0, 1, 0], ..RIGHT }),
        ("words as they are lent", Rules { scrambled: false, ..RIGHT }),
        // blocks made again
        ("block 0 keeps its kind", Rules { made: |from, made| keep(from, made, 0..1, 0..2, true), ..RIGHT }),
        ("block 9 keeps its kind", Rules { made: |from, made| keep(from, made, 9..10, 0..2, true), ..RIGHT }),
        ("the last block keeps its kind", Rules { made: |from, made| keep(from, made, 16..17, 0..2, true), ..RIGHT }),
        ("all but the last keep their kind", Rules { made: |from, made| keep(from, made, 0..16, 0..2, true), ..RIGHT }),
        ("all but the first keep their kind", Rules { made: |from, made| keep(from, made, 1..17, 0..2, true), ..RIGHT }),
        ("all keep their sums", Rules { made: |from, made| keep(from, made, 0..17, 508..512, false), ..RIGHT }),
        ("all but the last keep their sums", Rules { made: |from, made| keep(from, made, 0..16, 508..512, false), ..RIGHT }),
        ("the last block keeps its sums", Rules { made: |from, made| keep(from, made, 16..17, 508..512, false), ..RIGHT }),
        ("s1 is made again and s2 not", Rules { made: |from, made| keep(from, made, 0..17, 510..512, false), ..RIGHT }),
        ("the last block keeps what it uses", Rules { made: |from, made| keep(from, made, 16..17, 6..8, true), ..RIGHT }),
        ("all blocks but the last stay", Rules { made: |from, made| keep(from, made, 0..16, 0..512, false), ..RIGHT }),
        // outputs
        ("the output behind the blocks cleared", Rules { put: |output, file| {
            output.fill(0);
            output[..8704].copy_from_slice(file)
        }, ..RIGHT }),
        ("the last block not put", Rules { put: |output, file| output[..8192].copy_from_slice(&file[..8192]), ..RIGHT }),
        ("the blocks at the end of the output", Rules { put: |output, file| {
            let start = output.len() - 8704;
            output[start..].copy_from_slice(file)
        }, ..RIGHT }),
        ("a refusal clears the output", Rules { refused: |output| output.fill(0), ..RIGHT }),
        ("a refusal clears its first byte", Rules { refused: |output| output.iter_mut().take(1).for_each(|byte| *byte = 0), ..RIGHT }),
    ];

    /// The rules answer as the emulator does, and each wrong one is noticed.
    #[test]
    fn the_stored_pictures_tell_what_is_wrong() {
        let cases = stored_pictures();
        let mut noticed = vec![0; WRONG.len()];
        for case in &cases {
            let words = case.answer().words;
            let made = case.make();
            let answered = |rules: &Rules| {
                let mut buffers = made.clone();
                let numbers = rules.call(case, &mut buffers);
                (numbers, buffers)
            };
            let right = answered(&RIGHT);
            assert_eq!(words[..3], right.0, "{:?}", case);
            assert_eq!(words[3..5], [0, 0]);
            assert_eq!(words[5..], right.1.clone().map(|b| digest(&b)), "{:?}", case);
            if words[0] != 0 {
                assert!(right.1 == made);
            }
            for (k, (_, wrong)) in WRONG.iter().enumerate() {
                noticed[k] += (answered(wrong) != right) as usize;
            }
        }
        let mut least = vec![];
        for ((name, _), count) in WRONG.iter().zip(noticed) {
            println!("{}: {} of {}", name, count, cases.len());
            if count == 0 {
                least.push(name);
            }
        }
        assert!(least.is_empty(), "{:?}", least);
    }

    /// Each number of each entry alone, and with each that is judged later and can be wrong beside it.
    #[test]
    fn the_stored_pictures_have_every_pair() {
        let (mut alone, mut pairs) = (BTreeSet::new(), BTreeSet::new());
        for case in &stored_pictures() {
            let wrong = RIGHT.wrong(case, &case.make());
            let kind = RIGHT.kind(case);
            if let Some(&(_, (number, _))) = wrong.first() {
                let key = if wrong[0].0 == KIND { KIND } else { number };
                let sort = if key == KIND { (case.kind, 0) } else { (case.kind, kind) };
                if wrong.len() == 1 {
                    alone.insert((sort, key));
                }
                pairs.extend(wrong[1..].iter().map(|later| (sort, key, later.0)));
            }
        }
        let expand = |number: u32| if number == BLOCK { vec![21, 22, 23, 24] } else { vec![number] };
        let mut count = 0;
        for ((entry, kind), order) in [
            ((READ_ASKED, NEW), RIGHT.read),
            ((TO_NEW, OLD), RIGHT.to_new),
            ((TO_OLD, NEW), RIGHT.to_old),
            ((WRITE_ASKED, NEW), RIGHT.write),
        ] {
            for (k, &first) in order.iter().enumerate() {
                let sort = (entry, if first == KIND { 0 } else { kind });
                for number in expand(first) {
                    // a kind asked that is none has blocks of no right kind
                    assert!(alone.contains(&(sort, number)) || number == KIND, "{:?} {}", sort, number);
                    for &later in &order[k + 1..] {
                        // bad flags are judged of kind 4 asked alone
                        if number != KIND || later != 15 {
                            assert!(pairs.contains(&(sort, number, later)), "{:?} {} {}", sort, number, later);
                            count += 1;
                        }
                    }
                }
            }
        }
        for number in [20, 21, 22, 23, 24, 25, 26] {
            for kind in [1, 2, 3, 4] {
                assert!(alone.contains(&((READ_ASKED, kind), number)) || kind < 4, "{} {}", kind, number);
            }
        }
        println!("{} pairs", count);
    }

    /// Each number of each entry with each place, and what else the stored cases must reach.
    #[test]
    fn the_stored_pictures_reach_everything() {
        let cases = stored_pictures();
        assert!(300 <= cases.len() && cases.len() <= 460, "{}", cases.len());
        let (mut reached, mut places) = (BTreeSet::new(), BTreeSet::new());
        let (mut flags, mut fifteen, mut asked) = (BTreeSet::new(), BTreeSet::new(), BTreeSet::new());
        let (mut targets, mut outputs, mut files, mut last) = (BTreeSet::new(), BTreeSet::new(), BTreeSet::new(), BTreeSet::new());
        for case in &cases {
            let words = case.answer().words;
            let number = words[0];
            let kind = RIGHT.kind(case);
            let buffers = case.make();
            reached.insert((case.kind, kind, number));
            if (21..=24).contains(&number) {
                places.insert((case.kind, words[1]));
                places.insert((number as u8, words[1]));
            } else {
                assert_eq!(words[1], 0);
            }
            let size = if kind == OLD { 8288 } else { 8292 };
            let bytes = if case.kind == READ_ASKED { size } else { 8704 };
            assert_eq!(words[2], if number == 0 { bytes } else { 0 });
            if let (15 | 28 | 0, true) = (number, kind == NEW) {
                let from = if case.kind == WRITE_ASKED { &buffers[REGISTERS][MODES..] } else { &buffers[FILE][FLAGS..FLAGS + 4] };
                if number == 15 { fifteen.insert((case.kind, from.to_vec())) } else { flags.insert((case.kind, from.to_vec())) };
            }
            if kind == 0 {
                asked.insert((case.kind, case.p[0]));
            }
            if case.kind == READ_ASKED || case.kind == WRITE_ASKED {
                targets.insert((case.kind, kind, case.lengths[MEMORY], case.lengths[REGISTERS]));
            }
            if number == 0 || number == 27 {
                outputs.insert((case.kind, case.lengths[if case.kind == WRITE_ASKED { FILE } else { LIST }]));
            }
            if case.has_file() {
                files.insert((case.kind, case.lengths[FILE]));
                last.insert((case.kind, kind, case.p[2]));
            }
        }
        for (entry, kind, numbers) in [
            (READ_ASKED, NEW, vec![0, 20, 21, 22, 23, 24, 25, 26, 15]),
            (READ_ASKED, OLD, vec![0, 20, 21, 22, 23, 24, 25, 26]),
            (READ_ASKED, 2, vec![20, 21, 23, 25, 26]),
            (READ_ASKED, 3, vec![22, 22, 24, 25, 26]),
            (WRITE_ASKED, NEW, vec![0, 26, 15, 27]),
            (WRITE_ASKED, OLD, vec![0, 26, 27]),
            (WRITE_ASKED, 2, vec![26]),
            (WRITE_ASKED, 3, vec![26]),
            (TO_NEW, OLD, vec![0, 20, 21, 22, 23, 24, 25, 27]),
            (TO_OLD, NEW, vec![0, 20, 21, 22, 23, 24, 25, 15, 28, 27]),
            (READ_PLAIN, NEW, vec![20, 21, 22, 23, 24, 25, 26]),
            (READ_PLAIN, OLD, vec![20, 21, 22, 23, 24, 25, 26]),
            (WRITE_PLAIN, NEW, vec![26]),
            (WRITE_PLAIN, OLD, vec![26]),
        ] {
            for number in numbers {
                assert!(reached.contains(&(entry, kind, number)), "{} {} {}", entry, kind, number);
            }
        }
        assert!((0..17).all(|block| places.contains(&(READ_ASKED, block))), "{:?}", places);
        for entry in [TO_NEW, TO_OLD] {
            assert!(places.iter().filter(|place| place.0 == entry).count() >= 9, "{} {:?}", entry, places);
        }
        assert!((21..=24).all(|number| places.iter().filter(|place| place.0 == number).count() >= 9), "{:?}", places);
        for entry in [READ_ASKED, WRITE_ASKED, TO_OLD] {
            for four in GOOD {
                assert!(flags.contains(&(entry, four.to_vec())), "{} {:?}", entry, four);
            }
            assert!(fifteen.iter().filter(|(of, _)| *of == entry).count() >= 12);
        }
        for kind in [READ_ASKED, WRITE_ASKED] {
            assert!([0, 5, 260, 65540, u32::MAX].iter().all(|&number| asked.contains(&(kind, number))), "{:?}", asked);
        }
        for registers in [0, 96, 99, 100, 101, 104] {
            assert!(targets.contains(&(READ_ASKED, NEW, 8192, registers)), "{}", registers);
        }
        for registers in [95, 96, 97, 100] {
            assert!(targets.contains(&(READ_ASKED, OLD, 8192, registers)), "{}", registers);
            assert!(targets.contains(&(WRITE_ASKED, OLD, 8192, registers)), "{}", registers);
        }
        assert!([96, 99, 100, 101].iter().all(|&registers| targets.contains(&(WRITE_ASKED, NEW, 8192, registers))));
        for entry in [WRITE_ASKED, TO_NEW, TO_OLD] {
            assert!([8703, 8704, 8705].iter().all(|&length| outputs.contains(&(entry, length))), "{} {:?}", entry, outputs);
        }
        for entry in [READ_ASKED, TO_NEW, TO_OLD] {
            assert!([512, 8192, 8703, 8704, 8705].iter().all(|&length| files.contains(&(entry, length))), "{} {:?}", entry, files);
        }
        for used in [352, 355, 356, 357, 360] {
            assert!(last.contains(&(READ_ASKED, NEW, used)) && last.contains(&(TO_OLD, NEW, used)), "{}", used);
        }
        assert!(last.contains(&(READ_ASKED, OLD, 356)) && last.contains(&(TO_NEW, OLD, 356)));
    }

    /// One random case in ten is of kinds 17 to 20; about half are done, and some have each number.
    #[test]
    fn one_random_case_in_ten_is_a_picture() {
        let mut plan = Plan::new(3);
        plan.random_others(8000);
        let (mut of, mut done) = ([0; 4], [0; 4]);
        let mut numbers: std::collections::BTreeMap<u32, usize> = Default::default();
        let mut plain = 0;
        for case in &plan.cases {
            plain += (about(case) && case.kind == READ_PLAIN) as usize;
            if (READ_ASKED..=TO_OLD).contains(&case.kind) {
                let k = (case.kind - READ_ASKED) as usize;
                let number = case.answer().words[0];
                of[k] += 1;
                done[k] += (number == 0) as usize;
                *numbers.entry(number).or_default() += 1;
                let (mut one, mut other) = (case.make(), case.make());
                assert_eq!(case.call(&mut one)[..3], RIGHT.call(case, &mut other), "{:?}", case);
                assert!(one == other, "{:?}", case);
            }
        }
        println!("{:?}, of them done {:?}; {} asked of plain entries; {:?}", of, done, plain, numbers);
        let all: usize = of.iter().sum();
        assert!(8000 / 13 < all && all < 8000 / 8, "{}", all);
        assert!((0..4).all(|k| of[k] > 60 && done[k] > of[k] / 4), "{:?} {:?}", of, done);
        assert!([15, 20, 21, 22, 23, 24, 25, 26, 27, 28].iter().all(|number| numbers[number] > 3), "{:?}", numbers);
    }
}
