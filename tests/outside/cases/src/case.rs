//! A case: how it is written, how its buffers are made, how it is called and how its answer is
//! written. PROTOCOL.md says the same in words; where the two differ, one of them is wrong.

pub const MEMORY: usize = 0;
pub const REGISTERS: usize = 1;
pub const LIST: usize = 2;
pub const ITEMS: usize = 3;
pub const OUT: usize = 4;
pub const FILE: usize = 5;
/// The marks of a closing or spreading are in the file's buffer.
pub const MARKS: usize = FILE;
/// So is a text, and the buffer that the text of a list is put into.
pub const TEXT: usize = FILE;
/// Not buffers: a patch that seals a block of the file, one that repeats the memory's beginning, and one that repeats the
/// file's.
pub const SEAL: u8 = 255;
pub const REPEAT: u8 = 254;
pub const REPEAT_FILE: u8 = 253;

/// How many buffers a case has.
pub const COUNT: usize = 6;
pub const MAXIMUM: [usize; COUNT] = [8200, 104, 33000, 33000, 8200, 35000];
/// Where the mode registers stand in the registers of a run, a step or a picture of kind 4: set-flag and mode of A, then
/// of B.
pub const MODES: usize = 96;
/// The bytes of the registers of a run or step.
pub const RECORD: usize = emulator::REGISTERS;
pub const LONGEST_RECORD: usize = 1000;
/// The bytes of a record before its buffers, of a buffer in it, and of a parameter.
pub const HEADER: usize = 9;
pub const BUFFER: usize = 3;
pub const PARAMETER: usize = 4;
/// The numbers of a run or step: number, place, byte, steps, taken, given.
pub const OF_RUN: usize = 6;
/// The numbers of the builder of a search, closing or spreading: number, bytes of the list, bytes of the items.
pub const OF_BUILDER: usize = 3;
/// The numbers of any other entry, and the fewest of an answer.
pub const NUMBERS: usize = 5;

pub const RUN: u8 = 0;
pub const STEP: u8 = 1;
pub const PASS: u8 = 2;
pub const WIRED: u8 = 3;
pub const SUM: u8 = 4;
pub const DIFFERENCE: u8 = 5;
pub const READ_PLAIN: u8 = 6;
pub const READ_PICTURE: u8 = 7;
pub const WRITE_PLAIN: u8 = 8;
pub const WRITE_PICTURE: u8 = 9;
pub const SUM_RUN: u8 = 10;
pub const DIFFERENCE_RUN: u8 = 11;
pub const EQUAL_RUN: u8 = 12;
pub const LESS_RUN: u8 = 13;
pub const GREATEST_RUN: u8 = 14;
pub const CLOSE_RUN: u8 = 15;
pub const SPREAD_RUN: u8 = 16;
pub const READ_ASKED: u8 = 17;
pub const WRITE_ASKED: u8 = 18;
pub const TO_NEW: u8 = 19;
pub const TO_OLD: u8 = 20;
pub const ISOLATED: u8 = 21;
pub const SHOW: u8 = 22;
pub const MAKE: u8 = 23;
pub const REACH: u8 = 24;
pub const ASSEMBLE: u8 = 25;

pub const KINDS: [&str; 26] = [
    "run",
    "step",
    "pass",
    "wired pass",
    "sum list",
    "difference list",
    "read plain",
    "read picture",
    "write plain",
    "write picture",
    "sum list, then run",
    "difference list, then run",
    "equal list, then run",
    "less list, then run",
    "greatest list, then run",
    "closing list, then run",
    "spreading list, then run",
    "read picture as asked",
    "write picture as asked",
    "old picture to new",
    "new picture to old",
    "isolated",
    "show",
    "make",
    "reach",
    "assemble",
];

pub const BUFFERS: [&str; COUNT] = ["memory", "registers", "list or output", "items", "out", "file, marks or text"];

#[derive(Clone, PartialEq, Eq, Debug)]
pub struct Patch {
    pub target: u8,
    pub offset: u16,
    pub bytes: Vec<u8>,
}

#[derive(Clone, PartialEq, Eq, Debug)]
pub struct Case {
    pub kind: u8,
    pub shape: u8,
    /// Bit k set: buffer k is filled with zeros.
    pub zeros: u8,
    pub seed: u32,
    pub lengths: [u16; COUNT],
    pub p: [u32; 4],
    pub patches: Vec<Patch>,
}

pub type Buffers = [Vec<u8>; COUNT];

/// The generator of both sides.
pub fn next(x: u32) -> u32 {
    let mut x = x;
    x ^= x << 13;
    x ^= x >> 17;
    x ^= x << 5;
    x
}

/// Two polynomials in primes: a changed byte changes both halves.
pub fn digest(bytes: &[u8]) -> u32 {
    let mut d1 = 1u32;
    let mut d2 = 1u32;
    for &b in bytes {
        d1 = (d1 * 251 + b as u32) % 65521;
        d2 = (d2 * 263 + b as u32) % 65519;
    }
    65536 * d1 + d2
}

/// Turns any 8 bytes into an instruction that is not refused by 5 to 9, 11 or 16 to 18. Those of shape 3 may name a mode
/// register, so they are refused by 14 where it is unset.
pub fn shaped(r: &[u8], shape: u8) -> [u8; 8] {
    let kind = match shape {
        1 => r[0] % 6,
        3 => r[0] % 7,
        _ if r[2] < 248 => r[0] % 4,
        _ => 4 + r[0] % 2,
    };
    if kind == 6 {
        return [6, 0, 2 + r[2] % 2, r[3], 0, 0, 0, 0];
    }
    let source = match kind {
        2 | 3 => 1 + r[1] % 4,
        5 => 0,
        _ => r[1] % 5,
    };
    let touches = kind == 2 || kind == 3 || (kind != 5 && source == 0);
    let mut b = [kind, source, 0, 0, 0, 0, 0, 0];
    if touches {
        b[2] = if shape == 3 { 1 + r[2] % 3 } else { 1 };
        b[3] = if b[2] == 1 { r[3] } else { 0 };
        b[4] = r[4];
    }
    if kind != 5 {
        b[5] = r[5];
    }
    let q = r[6] % 9;
    if (kind == 0 || kind == 1 || kind == 4) && q > 0 {
        b[6] = 16 * q + (r[6] / 16) % q;
    }
    if kind == 0 {
        b[7] = 16 * ((r[7] / 16) % 5) + r[7] % 16;
    }
    b
}

fn low_first(bytes: &mut [u8], value: u32) {
    bytes[0] = (value % 256) as u8;
    bytes[1] = (value / 256 % 256) as u8;
}

/// Puts right sums into block `block` of the file. Done here once more, apart from the emulator's.
pub fn seal(file: &mut [u8], block: usize) {
    let at = 512 * block;
    let (mut s1, mut s2) = (0u32, 0u32);
    for i in 0..508u32 {
        let b = file[at + i as usize] as u32;
        s1 = (s1 + b) % 65535;
        s2 = (s2 + (508 - i) * b) % 65535;
    }
    low_first(&mut file[at + 508..], s1);
    low_first(&mut file[at + 510..], s2);
}

fn format_blocks(file: &mut [u8], kind: u32, used_last: u32) {
    let count = file.len() / 512;
    for place in 0..count {
        let used = if place + 1 < count { 496 } else { used_last };
        let at = 512 * place;
        low_first(&mut file[at..], kind);
        low_first(&mut file[at + 2..], place as u32);
        low_first(&mut file[at + 4..], count as u32);
        low_first(&mut file[at + 6..], used);
        file[at + 8..at + 12].fill(0);
        for i in 0..496 {
            if i as u32 >= used {
                file[at + 12 + i] = 0;
            }
        }
        seal(file, place);
    }
}

impl Case {
    pub fn new(kind: u8, seed: u32) -> Case {
        Case { kind, shape: 0, zeros: 0, seed, lengths: [0; COUNT], p: [0; 4], patches: vec![] }
    }

    pub fn patch(&mut self, target: usize, offset: usize, bytes: &[u8]) -> &mut Case {
        for (k, part) in bytes.chunks(255).enumerate() {
            self.patches.push(Patch { target: target as u8, offset: (offset + 255 * k) as u16, bytes: part.to_vec() });
        }
        self
    }

    /// The memory's bytes from `period` on become those before them, over and over.
    pub fn repeat(&mut self, period: usize) -> &mut Case {
        self.patches.push(Patch { target: REPEAT, offset: period as u16, bytes: vec![] });
        self
    }

    /// The same of the file.
    pub fn repeat_file(&mut self, period: usize) -> &mut Case {
        self.patches.push(Patch { target: REPEAT_FILE, offset: period as u16, bytes: vec![] });
        self
    }

    pub fn seal(&mut self, block: usize) -> &mut Case {
        self.patches.push(Patch { target: SEAL, offset: block as u16, bytes: vec![] });
        self
    }

    /// Every promise of PROTOCOL.md about a case.
    pub fn check(&self) {
        assert!((self.kind as usize) < KINDS.len() && self.shape <= 3 && self.zeros < 64);
        for k in 0..COUNT {
            assert!(self.lengths[k] as usize <= MAXIMUM[k], "{:?}", self);
        }
        if self.kind == STEP {
            assert_eq!(self.lengths[REGISTERS] as usize, RECORD);
        }
        if self.kind == PASS || self.kind == WIRED {
            assert!(self.lengths[ITEMS] == 32 && self.lengths[OUT] == 32 && self.p[0] < 256 && self.p[1] < 256);
        }
        if self.kind == GREATEST_RUN {
            assert!(self.p[2] == 0 && self.p[3] == 0);
        }
        if self.way().is_some() {
            assert!(self.p[3] == 0);
        }
        if [READ_PICTURE, WRITE_PICTURE, TO_NEW, TO_OLD].contains(&self.kind) {
            assert!(self.p[0] == 0);
        }
        if [READ_PICTURE, READ_ASKED, TO_NEW, TO_OLD].contains(&self.kind) {
            assert!(self.p[1] < 65536 && self.p[2] < 65536 && self.p[3] < 2);
        }
        if self.kind == WRITE_ASKED {
            assert!(self.p[1..] == [0; 3]);
        }
        if self.kind == ISOLATED {
            assert!([MEMORY, ITEMS, OUT, FILE].iter().all(|&k| self.lengths[k] == 0) && self.p == [0; 4]);
        }
        if [SHOW, MAKE].contains(&self.kind) {
            assert!([MEMORY, REGISTERS, ITEMS, OUT].iter().all(|&k| self.lengths[k] == 0) && self.p == [0; 4]);
        }
        if self.kind == ASSEMBLE {
            assert!([MEMORY, REGISTERS, OUT].iter().all(|&k| self.lengths[k] == 0) && self.p == [0; 4]);
        }
        if self.kind == REACH {
            assert!([MEMORY, ITEMS, FILE].iter().all(|&k| self.lengths[k] == 0) && self.p == [0; 4]);
        }
        assert!(self.patches.len() < 256);
        for patch in &self.patches {
            if patch.target == SEAL {
                assert!(patch.bytes.is_empty() && (patch.offset as usize) < self.lengths[FILE] as usize / 512);
            } else if patch.target == REPEAT {
                assert!(patch.bytes.is_empty() && 32 <= patch.offset && patch.offset <= 8192);
            } else if patch.target == REPEAT_FILE {
                assert!(patch.bytes.is_empty() && 1 <= patch.offset && patch.offset <= 35000);
            } else {
                let end = patch.offset as usize + patch.bytes.len();
                assert!(end <= self.lengths[patch.target as usize] as usize, "{:?}", self);
            }
        }
        assert!(self.record().len() <= LONGEST_RECORD, "{:?}", self);
    }

    pub fn record(&self) -> Vec<u8> {
        // parameters of 0 behind the last other one are left out
        let parameters = (0..self.p.len()).rev().find(|&i| self.p[i] != 0).map_or(0, |i| i + 1);
        let mut bytes = vec![self.kind, self.shape, COUNT as u8, parameters as u8];
        bytes.extend_from_slice(&self.seed.to_le_bytes());
        bytes.push(self.patches.len() as u8);
        for k in 0..COUNT {
            bytes.extend_from_slice(&self.lengths[k].to_le_bytes());
            bytes.push((self.zeros >> k) % 2);
        }
        for p in &self.p[..parameters] {
            bytes.extend_from_slice(&p.to_le_bytes());
        }
        assert_eq!(bytes.len(), HEADER + BUFFER * COUNT + PARAMETER * parameters);
        for patch in &self.patches {
            bytes.push(patch.target);
            bytes.extend_from_slice(&patch.offset.to_le_bytes());
            bytes.push(patch.bytes.len() as u8);
            bytes.extend_from_slice(&patch.bytes);
        }
        bytes
    }

    /// The line of the case, without its line feed.
    pub fn line(&self) -> String {
        self.record().iter().map(|b| format!("{:02x}", b)).collect()
    }

    pub fn from_line(line: &str) -> Result<Case, String> {
        if line.len() % 2 != 0 || !line.bytes().all(|c| matches!(c, b'0'..=b'9' | b'a'..=b'f')) {
            return Err("not pairs of lower-case hex digits".to_string());
        }
        let mut bytes = Vec::new();
        for k in 0..line.len() / 2 {
            bytes.push(u8::from_str_radix(&line[2 * k..2 * k + 2], 16).map_err(|e| e.to_string())?);
        }
        if bytes.len() < HEADER || bytes.len() < HEADER + BUFFER * bytes[2] as usize + PARAMETER * bytes[3] as usize {
            return Err("too short".to_string());
        }
        let (buffers, parameters) = (bytes[2] as usize, bytes[3] as usize);
        if buffers != COUNT || parameters > 4 {
            return Err("no case of so many buffers and parameters is known".to_string());
        }
        let two = |at: usize| bytes[at] as u16 + 256 * bytes[at + 1] as u16;
        let four = |at: usize| two(at) as u32 + 65536 * two(at + 2) as u32;
        let mut case = Case::new(bytes[0], four(4));
        case.shape = bytes[1];
        for k in 0..buffers {
            let at = HEADER + BUFFER * k;
            case.lengths[k] = two(at);
            if bytes[at + 2] > 1 {
                return Err("a buffer is filled in no known way".to_string());
            }
            case.zeros |= bytes[at + 2] << k;
        }
        for k in 0..parameters {
            case.p[k] = four(HEADER + BUFFER * buffers + PARAMETER * k);
        }
        let mut at = HEADER + BUFFER * buffers + PARAMETER * parameters;
        for _ in 0..bytes[8] {
            if at + 4 > bytes.len() || at + 4 + bytes[at + 3] as usize > bytes.len() {
                return Err("a patch is cut off".to_string());
            }
            let n = bytes[at + 3] as usize;
            case.patches.push(Patch { target: bytes[at], offset: two(at + 1), bytes: bytes[at + 4..at + 4 + n].to_vec() });
            at += 4 + n;
        }
        if at != bytes.len() {
            return Err("bytes after the last patch".to_string());
        }
        Ok(case)
    }

    /// The buffers as they are lent.
    pub fn make(&self) -> Buffers {
        let mut buffers: Buffers = Default::default();
        let mut x = self.seed;
        for k in 0..COUNT {
            for _ in 0..self.lengths[k] {
                if (self.zeros >> k) % 2 == 1 {
                    buffers[k].push(0);
                } else {
                    x = next(x);
                    buffers[k].push((x % 256) as u8);
                }
            }
        }
        if self.shape != 0 {
            for at in (0..buffers[LIST].len() / 8).map(|i| 8 * i) {
                let b = shaped(&buffers[LIST][at..at + 8], self.shape);
                buffers[LIST][at..at + 8].copy_from_slice(&b);
            }
        }
        if self.has_file() && self.p[3] == 1 {
            format_blocks(&mut buffers[FILE], self.p[1], self.p[2]);
        }
        for patch in &self.patches {
            let offset = patch.offset as usize;
            if patch.target == SEAL {
                seal(&mut buffers[FILE], offset);
            } else if patch.target == REPEAT {
                for i in offset..buffers[MEMORY].len() {
                    buffers[MEMORY][i] = buffers[MEMORY][i - offset];
                }
            } else if patch.target == REPEAT_FILE {
                for i in offset..buffers[FILE].len() {
                    buffers[FILE][i] = buffers[FILE][i - offset];
                }
            } else {
                buffers[patch.target as usize][offset..offset + patch.bytes.len()].copy_from_slice(&patch.bytes);
            }
        }
        buffers
    }

    /// Whether the file is read, and so may be formatted.
    pub fn has_file(&self) -> bool {
        [READ_PLAIN, READ_PICTURE, READ_ASKED, TO_NEW, TO_OLD].contains(&self.kind)
    }

    /// The search that a case of kinds 12 to 14 asks for.
    pub fn search(&self) -> Option<emulator::Search> {
        let number = self.p[2] as u64 + ((self.p[3] as u64) << 32);
        match self.kind {
            EQUAL_RUN => Some(emulator::Search::Equal(number)),
            LESS_RUN => Some(emulator::Search::Less(number)),
            GREATEST_RUN => Some(emulator::Search::Greatest),
            _ => None,
        }
    }

    /// What a case of kinds 15 and 16 asks for.
    pub fn way(&self) -> Option<emulator::Way> {
        match self.kind {
            CLOSE_RUN => Some(emulator::Way::Close),
            SPREAD_RUN => Some(emulator::Way::Spread),
            _ => None,
        }
    }

    /// The fields of a case of kinds 15 and 16.
    pub fn fields(&self) -> emulator::Fields {
        emulator::Fields { a: self.p[0], s: self.p[1], width: self.p[2] }
    }

    /// Whether the answer has the builder's three numbers before the run's six.
    fn prepares(&self) -> bool {
        self.search().is_some() || self.way().is_some()
    }

    /// Whether registers of the right length have mode registers: all kinds that run or step, isolation and reach.
    pub fn has_modes(&self) -> bool {
        let looks = self.run_numbers().is_some() || [ISOLATED, REACH].contains(&self.kind);
        looks && self.lengths[REGISTERS] as usize == RECORD
    }

    /// Whether buffer 2 is a list that is judged as it is lent.
    pub fn has_list(&self) -> bool {
        [RUN, STEP, ISOLATED, SHOW, REACH].contains(&self.kind)
    }

    /// The mode registers at the start are these bytes: set-flag and mode of A, then of B.
    pub fn modes(&mut self, bytes: [u8; 4]) -> &mut Case {
        self.patches.retain(|patch| patch.target as usize != REGISTERS || (patch.offset as usize) < MODES);
        self.patch(REGISTERS, MODES, &bytes)
    }

    /// Where the six numbers of a run or step stand in the answer, if it has them.
    pub fn run_numbers(&self) -> Option<std::ops::Range<usize>> {
        match self.kind {
            RUN | STEP | SUM_RUN | DIFFERENCE_RUN => Some(0..OF_RUN),
            _ if self.prepares() => Some(OF_BUILDER..OF_BUILDER + OF_RUN),
            _ => None,
        }
    }

    /// Calls the emulator: the numbers of the answer.
    pub fn call(&self, buffers: &mut Buffers) -> Vec<u32> {
        if let Some(search) = self.search() {
            return self.call_search(search, buffers);
        }
        if let Some(way) = self.way() {
            return self.call_closing(way, buffers);
        }
        if self.run_numbers().is_some() {
            return self.call_run(buffers).to_vec();
        }
        self.call_other(buffers).to_vec()
    }

    /// A search: the builder's three numbers, then the run's six.
    fn call_search(&self, search: emulator::Search, buffers: &mut Buffers) -> Vec<u32> {
        let [memory, registers, list, items, _, _] = buffers;
        let (start, width) = (self.p[0], self.p[1]);
        let built = emulator::prepare(search, start, width, list.len(), items);
        let mut words = vec![built.number, built.list, built.items];
        let run = match built.number {
            0 => numbers(emulator::run_prepared(search, start, width, memory, registers, items)),
            _ => [0; OF_RUN],
        };
        words.extend(run);
        words
    }

    /// A closing or spreading: the builder's three numbers, then the run's six.
    fn call_closing(&self, way: emulator::Way, buffers: &mut Buffers) -> Vec<u32> {
        let [memory, registers, list, items, _, marks] = buffers;
        let built = emulator::closing::prepare(way, self.fields(), marks, list.len(), items.len());
        let mut words = vec![built.number, built.list, built.items];
        let run = match built.number {
            0 => numbers(emulator::closing::run_prepared(way, self.fields(), marks, memory, registers, items)),
            _ => [0; OF_RUN],
        };
        words.extend(run);
        words
    }

    /// A run, a step, or a sum or difference built and run: the run's six numbers, or the builder's number and zeros.
    fn call_run(&self, buffers: &mut Buffers) -> [u32; OF_RUN] {
        let [memory, registers, list, items, out, _] = buffers;
        match self.kind {
            RUN => numbers(emulator::run(memory, registers, list, items, out)),
            // no case asks it: a step has no registers of another length, and does nothing
            STEP if registers.len() != RECORD => [0; OF_RUN],
            STEP => {
                let mut record = [0u8; RECORD];
                record.copy_from_slice(registers);
                let answer = emulator::step(memory, &mut record, list, items, out);
                registers.copy_from_slice(&record);
                numbers(answer)
            }
            _ => {
                let built = self.build(list);
                if built.number != 0 {
                    return [built.number, 0, 0, 0, 0, 0];
                }
                numbers(emulator::run(memory, registers, &list[..built.count as usize], items, out))
            }
        }
    }

    /// The sum or difference list of kinds 4, 5, 10 and 11.
    fn build(&self, list: &mut [u8]) -> emulator::Built {
        let [a, b, s, width] = self.p;
        let sum = self.kind == SUM || self.kind == SUM_RUN;
        let build = if sum { emulator::sum_list } else { emulator::difference_list };
        build(a, b, s, width, list)
    }

    /// A pass, a builder alone, reading, writing, making new or old, isolation, and lists as text.
    fn call_other(&self, buffers: &mut Buffers) -> [u32; NUMBERS] {
        let [memory, registers, list, items, out, file] = buffers;
        let p = self.p;
        match self.kind {
            PASS | WIRED => {
                let mut item = [0u8; 32];
                item.copy_from_slice(items);
                let form = if self.kind == PASS { emulator::pass } else { emulator::wired_pass };
                let (number, passed) = form(&item, p[0] as u8, p[1] as u8);
                out.copy_from_slice(&passed);
                [number, 0, 0, 0, 0]
            }
            SUM | DIFFERENCE => {
                let built = self.build(list);
                [built.number, 0, built.count, 0, 0]
            }
            READ_PLAIN => put(emulator::read_plain(p[0], file, list)),
            READ_PICTURE => put(emulator::read_picture(emulator::blocks::PICTURE, file, memory, registers)),
            WRITE_PLAIN => put(emulator::write_plain(p[0], list, file)),
            WRITE_PICTURE => put(emulator::write_picture(emulator::blocks::PICTURE, memory, registers, file)),
            READ_ASKED => put(emulator::read_picture(p[0], file, memory, registers)),
            WRITE_ASKED => put(emulator::write_picture(p[0], memory, registers, file)),
            TO_NEW => put(emulator::old_to_new(file, list)),
            TO_OLD => put(emulator::new_to_old(file, list)),
            ISOLATED => {
                let said = emulator::isolated(list, registers);
                [said.number, said.place, 0, 0, 0]
            }
            SHOW => written(emulator::show(list, file)),
            MAKE => {
                let made = emulator::make(file, list);
                [made.number, made.line, made.column, made.count, 0]
            }
            REACH => written(emulator::reach(registers, list, out)),
            ASSEMBLE => {
                let made = emulator::assemble(file, list, items);
                [made.number, made.line, made.column, made.list, made.items]
            }
            _ => panic!("no such case"),
        }
    }

    pub fn answer(&self) -> Reply {
        let mut buffers = self.make();
        let mut words = self.call(&mut buffers);
        if self.prepares() {
            // no document fixes the bytes of a search's list, nor of a closing's or spreading's
            buffers[LIST].drain(..words[1] as usize);
        }
        if self.way().is_some() {
            // nor the bytes of its items, nor M, X and Y after its run; the mode registers stay
            buffers[ITEMS].drain(..words[2] as usize);
            if words[0] == 0 && words[OF_BUILDER] == 0 {
                buffers[REGISTERS].drain(..MODES);
            }
        }
        words.extend(buffers.iter().map(|b| digest(b)));
        Reply { words }
    }

    /// The number and the place of its answer: the run's, where a list is built and run; the line, where one is made.
    pub fn number_and_place(&self, reply: &Reply) -> (u32, u32) {
        let at = if self.prepares() && reply.words[0] == 0 { OF_BUILDER } else { 0 };
        let none = self.prepares() && at == 0 || [SHOW, REACH].contains(&self.kind);
        (reply.words[at], if none { 0 } else { reply.words[at + 1] })
    }
}

fn numbers(a: emulator::Answer) -> [u32; OF_RUN] {
    [a.number, a.place, a.byte, a.steps, a.taken, a.given]
}

fn put(a: emulator::Put) -> [u32; NUMBERS] {
    [a.number, a.place, a.bytes, 0, 0]
}

fn written(a: emulator::Written) -> [u32; NUMBERS] {
    [a.number, a.count, 0, 0, 0]
}

/// The numbers of an answer, then the digests of the buffers.
#[derive(Clone, PartialEq, Eq, Debug)]
pub struct Reply {
    pub words: Vec<u32>,
}

impl Reply {
    /// The answer's line, without its line feed.
    pub fn line(&self) -> String {
        let words: Vec<String> = self.words.iter().map(|w| format!("{:08x}", w)).collect();
        words.join(" ")
    }

    pub fn from_line(line: &str) -> Option<Reply> {
        let mut words = vec![];
        for part in line.split(' ') {
            if part.len() != 8 {
                return None;
            }
            words.push(u32::from_str_radix(part, 16).ok()?);
        }
        if words.len() < NUMBERS {
            return None;
        }
        Some(Reply { words })
    }
}

#[cfg(test)]
mod tests {
    use super::*;

    #[test]
    fn shaped_instructions_stand_and_reach_everything() {
        let mut x = 7;
        let mut codes = std::collections::BTreeSet::new();
        let mut logic = std::collections::BTreeSet::new();
        let mut kinds = std::collections::BTreeSet::new();
        let mut tags = std::collections::BTreeSet::new();
        for round in 0..12000 {
            let mut r = [0u8; 8];
            for b in &mut r {
                x = next(x);
                *b = (x % 256) as u8;
            }
            let shape = 1 + (round % 3) as u8;
            let b = shaped(&r, shape);
            kinds.insert((shape, b[0], b[1]));
            codes.insert(b[6]);
            if b[0] == 0 {
                logic.insert(b[7]);
            }
            if b[2] != 0 {
                tags.insert((shape, b[0], b[2], b[3] != 0));
            }
            if round % 8 == 0 || b[0] > 4 {
                let mut out = [0; 32];
                let mut registers = [0; RECORD];
                (registers[MODES], registers[MODES + 2]) = (1, 1);
                let a = emulator::run(&mut [0; 8192], &mut registers, &b, &[0; 32], &mut out);
                assert_eq!(a.number, 0, "{:?}", b);
            }
        }
        assert_eq!(codes.len(), 37);
        assert_eq!(logic.len(), 80);
        assert_eq!(kinds.len(), 3 * (5 + 5 + 4 + 4 + 5 + 1) + 1);
        for kind in [0, 1, 2, 3, 4, 6] {
            for tag in 1..=3 {
                // byte 3 is a mode with tag 1 and in kind 6, which has the other two
                assert_eq!(tags.contains(&(3, kind, tag, true)), (tag == 1) != (kind == 6), "{} {}", kind, tag);
                assert!(kind == 6 || tag == 1 || tags.contains(&(3, kind, tag, false)), "{} {}", kind, tag);
                assert_eq!(tags.contains(&(1, kind, tag, true)), kind != 6 && tag == 1, "{} {}", kind, tag);
            }
        }
    }

    #[test]
    fn a_changed_or_swapped_byte_shows() {
        let mut bytes: Vec<u8> = Vec::new();
        let mut x = 9;
        for _ in 0..35000 {
            x = next(x);
            bytes.push((x % 256) as u8);
        }
        let whole = digest(&bytes);
        for at in [0usize, 1, 2, 255, 256, 8191, 34999] {
            for value in 0..=255u8 {
                let old = bytes[at];
                bytes[at] = value;
                let other = digest(&bytes);
                bytes[at] = old;
                assert_eq!(other / 65536 == whole / 65536, value == old);
                assert_eq!(other % 65536 == whole % 65536, value == old);
            }
        }
        // 251 has order 65,520 in the first prime: a swap shows at any distance up to 35,000
        let (mut power, mut order) = (251u32, 1);
        while power != 1 {
            power = power * 251 % 65521;
            order += 1;
        }
        assert_eq!(order, 65520);
        let (mut power, mut order) = (263u32, 1);
        while power != 1 {
            power = power * 263 % 65519;
            order += 1;
        }
        assert_eq!(order, 65518);
        for d in 2..256u32 {
            assert!(65521 % d != 0 && 65519 % d != 0);
        }
    }

    #[test]
    fn sealing_agrees_with_the_emulator() {
        let mut case = Case::new(READ_PLAIN, 5);
        case.lengths[FILE] = 2048;
        case.p = [2, 2, 16, 1];
        let buffers = case.make();
        for block in buffers[FILE].chunks(512) {
            let mut again = block.to_vec();
            emulator::blocks::seal(&mut again);
            assert_eq!(again, block);
        }
    }

    /// How many numbers each kind of case answers with.
    #[test]
    fn the_numbers_are_five_six_or_nine() {
        for kind in 0..KINDS.len() as u8 {
            let mut case = Case::new(kind, 3);
            case.lengths[REGISTERS] = RECORD as u16;
            (case.lengths[ITEMS], case.lengths[OUT]) = (32, 32);
            let numbers = match kind {
                RUN | STEP | SUM_RUN | DIFFERENCE_RUN => 6,
                EQUAL_RUN..=SPREAD_RUN => 9,
                _ => 5,
            };
            assert_eq!(case.answer().words.len(), numbers + COUNT, "{}", kind);
        }
    }

    #[test]
    fn a_step_of_other_registers_does_nothing() {
        for registers in [0, 95, 96, 99, 101, 104] {
            let mut case = Case::new(STEP, 3);
            case.lengths = [8192, registers, 8, 32, 32, 0];
            let mut buffers = case.make();
            assert_eq!(case.call(&mut buffers), [0; 6]);
            assert!(buffers == case.make());
        }
    }

    /// The values that PROTOCOL.md prints.
    #[test]
    fn the_values_of_the_protocol() {
        let page = include_str!("../PROTOCOL.md");
        let lines: Vec<&str> = page.lines().collect();
        let mut checked = 0;
        let asked: Vec<&str> = lines.iter().copied().filter(|l| l.len() >= 2 * (HEADER + BUFFER * COUNT) && l.bytes().all(|c| c.is_ascii_hexdigit())).collect();
        let answered: Vec<&str> = lines.iter().copied().filter(|l| Reply::from_line(l).is_some()).collect();
        assert_eq!((asked.len(), answered.len()), (69, 69));
        for (line, reply) in asked.iter().zip(&answered) {
            let case = Case::from_line(line).unwrap();
            case.check();
            assert_eq!(case.line(), *line);
            assert_eq!(case.answer().line(), *reply);
            checked += 1;
        }
        assert_eq!(checked, 69);
        let mut case = Case::new(RUN, 1);
        case.lengths[LIST] = 8;
        assert_eq!(case.make()[LIST], [0x21, 0x01, 0xc5, 0x4f, 0xd1, 0xd0, 0x1a, 0xb2]);
        assert_eq!(digest(&[0, 1, 2, 3, 4, 5, 6, 7]), 0xf308c57b);
        assert_eq!(digest(&[0; 32]), 0x63071f6b);
        assert_eq!(digest(&[]), 0x00010001);
        case.lengths[LIST] = 8192;
        assert_eq!(digest(&case.make()[LIST]), 0x1980442a);
        case.lengths[LIST] = 32;
        case.shape = 2;
        assert_eq!(case.make()[LIST][16..24], [0, 3, 0, 0, 0, 0xb9, 0x10, 0x4f]);
        // the instructions of each shape, as the page prints them
        for (shape, line) in (0..=3u8).map(|shape| (shape, lines.iter().find(|l| l.starts_with(&format!("  | {} | `", shape))).unwrap())) {
            case.shape = shape;
            let made: Vec<String> = case.make()[LIST].chunks(8).map(|b| format!("`{}`", crate::words::hex(b))).collect();
            assert_eq!(**line, format!("  | {} | {} |", shape, made.join(", ")));
        }
        let mut case = Case::new(READ_PLAIN, 1);
        case.lengths[FILE] = 1024;
        case.p = [2, 2, 16, 1];
        assert_eq!(digest(&case.make()[FILE]), 0x18fde4f6);
    }
}
