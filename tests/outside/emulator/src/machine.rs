//! Judging and running of instruction lists.

use crate::bits::{pack, unpack, Row, ZERO};
use crate::memory::Table;
use crate::network::{pass_lines, shift_of, Shift};

/// What a run or a step gives.
#[derive(Clone, Copy, PartialEq, Eq, Debug, Default)]
pub struct Answer {
    pub number: u32,
    pub place: u32,
    /// The first byte of the instruction at the place that is wrong by the number; 0 for done, for refusals without
    /// an instruction (1 to 4 and 15) and for 12 and 13 (document 02, Six).
    pub byte: u32,
    pub steps: u32,
    pub taken: u32,
    pub given: u32,
}

impl Answer {
    /// A refusal has the last three 0. Those that name no byte, 1 to 4, 15, 12 and 13, are made here.
    fn refused(number: u32, place: usize) -> Answer {
        Answer { number, place: place as u32, ..Answer::default() }
    }
}

/// What is wrong with an instruction: the number, and the first byte that is wrong by it (reading I2).
#[derive(Clone, Copy, PartialEq, Eq, Debug)]
struct Fault {
    number: u32,
    byte: usize,
}

impl Fault {
    /// The refusal of a list whose instruction at this place has the fault.
    fn at(self, place: usize) -> Answer {
        Answer { byte: self.byte as u32, ..Answer::refused(self.number, place) }
    }
}

/// The bytes of the register set: M, X and Y, then set-flag and mode of A, then of B (document 02, Seven).
pub const REGISTERS: usize = 100;
/// Where the set-flag of A stands; that of B stands two behind it, and each mode behind its flag.
const FLAGS: usize = 96;

/// The two access mode registers, A and B; one that is unset holds no mode.
pub type Modes = [Option<usize>; 2];

/// Refusal 15, a flag over 1 or a mode that is not 0 behind a flag of 0; or the two registers.
pub fn modes_of(registers: &[u8]) -> Result<Modes, Answer> {
    let mut modes = [None; 2];
    for (which, pair) in registers[FLAGS..REGISTERS].chunks(2).enumerate() {
        modes[which] = match (pair[0], pair[1]) {
            (0, 0) => None,
            (1, mode) => Some(mode as usize),
            _ => return Err(Answer::refused(15, 0)),
        };
    }
    Ok(modes)
}

/// Where an access takes its mode from: the instruction's own byte 3 (tag 1), or register A or B (tags 2 and 3).
#[derive(Clone, Copy, PartialEq, Eq, Debug)]
enum Mode {
    Given(usize),
    Register(usize),
}

/// The register that a tag names: 2 is A, 3 is B.
pub(crate) fn register_of(tag: u8) -> Option<usize> {
    match tag {
        2 => Some(0),
        3 => Some(1),
        _ => None,
    }
}

#[derive(Clone, Copy, PartialEq, Eq, Debug)]
enum Source {
    Memory { mode: Mode, address: usize },
    M,
    X,
    Y,
    Outside,
}

#[derive(Clone, Copy, PartialEq, Eq, Debug)]
enum Act {
    Logic { choice: u8, function: u8 },
    SetM,
    Store { mode: Mode, address: usize, masked: bool },
    Deliver,
}

/// An instruction that has been judged good.
#[derive(Clone, Copy, PartialEq, Eq, Debug)]
enum Instruction {
    Pass { source: Source, flip: usize, shift: Shift, act: Act },
    Resolve,
    /// Kind 6: register A or B gets this mode.
    SetMode { which: usize, mode: usize },
}

impl Instruction {
    fn takes(&self) -> bool {
        matches!(self, Instruction::Pass { source: Source::Outside, .. })
    }
    fn gives(&self) -> bool {
        matches!(self, Instruction::Resolve | Instruction::Pass { act: Act::Deliver, .. })
    }
}

fn wrong<T>(number: u32, byte: usize) -> Result<T, Fault> {
    Err(Fault { number, byte })
}

/// Each of these bytes must be 0; the first that is not is wrong by this number.
fn zeros(b: &[u8], bytes: &[usize], number: u32) -> Result<(), Fault> {
    match bytes.iter().find(|&&byte| b[byte] != 0) {
        Some(&byte) => wrong(number, byte),
        None => Ok(()),
    }
}

/// Kinds 0, 1 and 4 with source 0, and kinds 2 and 3 always, touch memory; kinds 5 and 6 do not, although their source
/// byte is 0 (readings B6, J2).
pub(crate) fn touches(b: &[u8]) -> bool {
    match b[0] {
        0 | 1 | 4 => b[1] == 0,
        2 | 3 => true,
        _ => false,
    }
}

/// Refusals 5 to 9, in that order: kind, source, and what stands in bytes 2 to 4.
fn judge_access(b: &[u8]) -> Result<(), Fault> {
    let (kind, source, tag) = (b[0], b[1], b[2]);
    if kind > 6 {
        return wrong(5, 0);
    }
    let store = kind == 2 || kind == 3;
    let no_source = kind == 5 || kind == 6;
    if source > 4 || (store && source == 0) || (no_source && source != 0) {
        return wrong(6, 1);
    }
    let touched = touches(b);
    let sets_mode = kind == 6;
    if (touched || sets_mode) && tag == 0 {
        return wrong(7, 2);
    }
    if (touched || sets_mode) && tag > 3 {
        return wrong(8, 2);
    }
    if sets_mode && tag == 1 {
        return wrong(8, 2);
    }
    // Byte 3 is the mode in kind 6 and with tag 1, and zero with tags 2 and 3; byte 4 is an address where memory is
    // touched. Elsewhere all three are zero, tags 2 and 3 too (readings J2, J3).
    if sets_mode {
        return zeros(b, &[4], 9);
    }
    if touched && tag == 1 {
        return Ok(());
    }
    if touched {
        return zeros(b, &[3], 9);
    }
    zeros(b, &[2, 3, 4], 9)
}

/// Refusal 14: the mode is to come from a register that is unset, at the start and by every earlier instruction.
fn judge_register(b: &[u8], set: &[bool; 2]) -> Result<(), Fault> {
    match register_of(b[2]) {
        Some(which) if touches(b) && !set[which] => wrong(14, 2),
        _ => Ok(()),
    }
}

/// Refusals 18, 16 and 17, in that order, or the shift. 18 is a move that this kind may not make, whatever byte 6
/// says: a store may flip and not shift, a resolve and kind 6 may do neither (document 02, Six and Seven; reading I5).
fn judge_move(b: &[u8]) -> Result<Shift, Fault> {
    match b[0] {
        2 | 3 => zeros(b, &[6], 18)?,
        5 | 6 => zeros(b, &[5, 6], 18)?,
        _ => {}
    }
    shift_of(b[6]).or_else(|number| wrong(number, 6))
}

/// Refusal 11, or the choice and the function.
fn judge_logic(b: &[u8]) -> Result<(u8, u8), Fault> {
    let (kind, choice, function) = (b[0], b[7] / 16, b[7] % 16);
    if kind == 0 {
        if choice > 4 {
            return wrong(11, 7);
        }
    } else if b[7] != 0 {
        return wrong(11, 7);
    }
    Ok((choice, function))
}

/// Refusals 5 to 9, then 14, then 18, 16 and 17, then 11; or the instruction (reading J1). `set` says which of the
/// mode registers count as set here.
fn judge_one(b: &[u8], set: &[bool; 2]) -> Result<Instruction, Fault> {
    judge_access(b)?;
    judge_register(b, set)?;
    let shift = judge_move(b)?;
    let (choice, function) = judge_logic(b)?;
    let address = b[4] as usize;
    let mode = match register_of(b[2]) {
        Some(which) => Mode::Register(which),
        None => Mode::Given(b[3] as usize),
    };
    let source = match b[1] {
        0 => Source::Memory { mode, address },
        1 => Source::M,
        2 => Source::X,
        3 => Source::Y,
        _ => Source::Outside,
    };
    let act = match b[0] {
        0 => Act::Logic { choice, function },
        1 => Act::SetM,
        2 => Act::Store { mode, address, masked: false },
        3 => Act::Store { mode, address, masked: true },
        4 => Act::Deliver,
        5 => return Ok(Instruction::Resolve),
        _ => return Ok(Instruction::SetMode { which: register_of(b[2]).expect("tag 2 or 3"), mode: b[3] as usize }),
    };
    Ok(Instruction::Pass { source, flip: b[5] as usize, shift, act })
}

/// The number and the byte for which an instruction by itself is refused where these mode registers count as set.
pub(crate) fn fault(b: &[u8], set: &[bool; 2]) -> Option<(u32, usize)> {
    judge_one(b, set).err().map(|fault| (fault.number, fault.byte))
}

/// What each instruction in turn is refused for; then 12; then 13. A mode register counts as set from the start if its
/// flag is 1 then, and otherwise behind the first kind 6 that names it. Nothing moves here (reading J5).
fn judge(list: &[u8], modes: &Modes, items: usize, room: usize) -> Result<Vec<Instruction>, Answer> {
    let mut good = Vec::new();
    let mut set = modes.map(|mode| mode.is_some());
    for (place, bytes) in list.chunks(8).enumerate() {
        let instruction = judge_one(bytes, &set).map_err(|fault| fault.at(place))?;
        if let Instruction::SetMode { which, .. } = instruction {
            set[which] = true;
        }
        good.push(instruction);
    }
    let mut left = items;
    for (place, instruction) in good.iter().enumerate() {
        if instruction.takes() {
            if left == 0 {
                return Err(Answer::refused(12, place));
            }
            left -= 1;
        }
    }
    let mut left = room;
    for (place, instruction) in good.iter().enumerate() {
        if instruction.gives() {
            if left == 0 {
                return Err(Answer::refused(13, place));
            }
            left -= 1;
        }
    }
    Ok(good)
}

/// The module while it runs.
struct Module {
    table: Table,
    m: Row,
    x: Row,
    y: Row,
    modes: Modes,
}

/// Function bit 2r+f is the new register bit for old bit r and passed bit f.
fn function_bit(function: u8, r: bool, f: bool) -> bool {
    let number = 2 * (r as u8) + f as u8;
    (function >> number) % 2 == 1
}

impl Module {
    fn mode(&self, mode: Mode) -> usize {
        match mode {
            Mode::Given(mode) => mode,
            Mode::Register(which) => self.modes[which].expect("judged to be set"),
        }
    }

    fn logic(&mut self, choice: u8, function: u8, passed: &Row) {
        let (old_x, old_y) = (self.x, self.y);
        for line in 0..256 {
            let new_x = function_bit(function, old_x[line], passed[line]);
            let new_y = function_bit(function, old_y[line], passed[line]);
            match choice {
                0 => self.x[line] = new_x,
                1 => self.y[line] = new_y,
                2 => {
                    self.x[line] = new_x;
                    self.y[line] = new_y;
                }
                3 => {
                    if old_y[line] {
                        self.x[line] = new_x;
                    }
                }
                4 => {
                    if old_y[line] {
                        self.x[line] = new_x;
                    }
                    self.y[line] = new_y;
                }
                _ => unreachable!(),
            }
        }
    }

    /// Byte 0 is activity: 1 if any Y bit is 1, else 0. Bytes 1 and 2 are the smallest responder, low byte first,
    /// 256 if there is none. Bytes 3 and 4 are the count of responders, 0 to 256, low byte first. Zeros after
    /// (document 02, Four; reading G2).
    fn resolve(&self) -> [u8; 32] {
        let smallest = self.y.iter().position(|&bit| bit).unwrap_or(256);
        let count = self.y.iter().filter(|&&bit| bit).count();
        let mut item = [0u8; 32];
        item[0] = self.y.contains(&true) as u8;
        item[1] = (smallest % 256) as u8;
        item[2] = (smallest / 256) as u8;
        item[3] = (count % 256) as u8;
        item[4] = (count / 256) as u8;
        item
    }

    fn act(&mut self, source_item: Row, flip: usize, shift: Shift, act: Act) -> Option<[u8; 32]> {
        let mut passed = ZERO;
        passed.copy_from_slice(&pass_lines(&source_item, flip, shift));
        match act {
            Act::Logic { choice, function } => {
                self.logic(choice, function, &passed);
                None
            }
            Act::SetM => {
                self.m = passed;
                None
            }
            Act::Store { mode, address, masked } => {
                // Line P's bit is written exactly if M's bit P is 1, P being the line after the flip;
                // only the source item goes through the network (document 02, Three; reading G1).
                let may_write = if masked { self.m } else { [true; 256] };
                let mode = self.mode(mode);
                self.table.store(mode, address, &passed, &may_write);
                None
            }
            Act::Deliver => Some(pack(&passed)),
        }
    }
}

/// Everything after refusals 1 to 4; the lengths are right.
fn run_judged(memory: &mut [u8], registers: &mut [u8], list: &[u8], items: &[u8], out: &mut [u8]) -> Answer {
    let modes = match modes_of(registers) {
        Ok(modes) => modes,
        Err(refusal) => return refusal,
    };
    let instructions = match judge(list, &modes, items.len() / 32, out.len() / 32) {
        Ok(good) => good,
        Err(refusal) => return refusal,
    };
    let mut module = Module {
        table: Table::from_chips(memory),
        m: unpack(&registers[0..32]),
        x: unpack(&registers[32..64]),
        y: unpack(&registers[64..96]),
        modes,
    };
    let mut taken = 0;
    let mut given = 0;
    for instruction in &instructions {
        let delivered = match *instruction {
            Instruction::Resolve => Some(module.resolve()),
            Instruction::SetMode { which, mode } => {
                module.modes[which] = Some(mode);
                None
            }
            Instruction::Pass { source, flip, shift, act } => {
                let source_item = match source {
                    Source::Memory { mode, address } => module.table.fetch(module.mode(mode), address),
                    Source::M => module.m,
                    Source::X => module.x,
                    Source::Y => module.y,
                    Source::Outside => {
                        taken += 1;
                        unpack(&items[32 * (taken - 1)..32 * taken])
                    }
                };
                module.act(source_item, flip, shift, act)
            }
        };
        if let Some(item) = delivered {
            out[32 * given..32 * given + 32].copy_from_slice(&item);
            given += 1;
        }
    }
    module.table.to_chips(memory);
    registers[0..32].copy_from_slice(&pack(&module.m));
    registers[32..64].copy_from_slice(&pack(&module.x));
    registers[64..96].copy_from_slice(&pack(&module.y));
    for (which, pair) in registers[FLAGS..REGISTERS].chunks_mut(2).enumerate() {
        pair[0] = module.modes[which].is_some() as u8;
        pair[1] = module.modes[which].unwrap_or(0) as u8;
    }
    Answer { steps: instructions.len() as u32, taken: taken as u32, given: given as u32, ..Answer::default() }
}

/// A run of a list.
pub fn run(memory: &mut [u8], registers: &mut [u8], list: &[u8], items: &[u8], out: &mut [u8]) -> Answer {
    if memory.len() != 8192 {
        return Answer::refused(1, 0);
    }
    if registers.len() != REGISTERS {
        return Answer::refused(2, 0);
    }
    if list.len() % 8 != 0 || list.len() > 32768 {
        return Answer::refused(3, 0);
    }
    if items.len() % 32 != 0 || items.len() > 32768 {
        return Answer::refused(4, 0);
    }
    run_judged(memory, registers, list, items, out)
}

/// A step: as a run of the list of that one instruction, but the instruction is exactly 8 bytes,
/// else 3 (also at 0 bytes, reading B15). The registers are the record of 100 bytes, so 2 cannot arise; 15 can, and the
/// flags in the record are those that 14 is judged by (reading J9).
pub fn step(memory: &mut [u8], registers: &mut [u8; REGISTERS], instruction: &[u8], items: &[u8], out: &mut [u8]) -> Answer {
    if memory.len() != 8192 {
        return Answer::refused(1, 0);
    }
    if instruction.len() != 8 {
        return Answer::refused(3, 0);
    }
    if items.len() % 32 != 0 || items.len() > 32768 {
        return Answer::refused(4, 0);
    }
    run_judged(memory, registers, instruction, items, out)
}
