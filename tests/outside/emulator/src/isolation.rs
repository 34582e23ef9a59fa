//! Whether a list is one in which no word can disturb another (document 02, Fourteen; readings Q1 to Q3): kinds 0 to 3 and
//! 6 alone, no flips, no shifts, and mode 0 in every access. Nothing runs here and nothing lent is changed; whether a run
//! would refuse the list for another reason is not asked.

use crate::machine::{modes_of, register_of, touches, Modes, REGISTERS};

/// The number of a list that is no such list.
pub const DISTURBS: u32 = 40;

/// What is said of a list: 0, or 40 and the first instruction that breaks the condition; or a refusal, 2, 3 or 15.
#[derive(Clone, Copy, PartialEq, Eq, Debug, Default)]
pub struct Isolation {
    pub number: u32,
    pub place: u32,
}

fn refused(number: u32) -> Isolation {
    Isolation { number, place: 0 }
}

/// Whether an access has mode 0: by its own byte 3 with tag 1, by the register with tags 2 and 3. A register that nobody
/// set holds no mode, and any other tag names none.
fn has_mode_0(b: &[u8], modes: &Modes) -> bool {
    let mode = match register_of(b[2]) {
        Some(which) => modes[which],
        None if b[2] == 1 => Some(b[3] as usize),
        None => None,
    };
    mode == Some(0)
}

/// Whether an instruction breaks the condition where the mode registers are these.
fn breaks(b: &[u8], modes: &Modes) -> bool {
    let kind = !matches!(b[0], 0..=3 | 6);
    let flip = b[5] != 0;
    let shift = b[6] != 0;
    let access = touches(b) && !has_mode_0(b, modes);
    kind || flip || shift || access
}

/// Refusals 2, 3 and 15 as in a run, in this order; then the first instruction that breaks the condition. A kind 6 gives
/// the register that its tag names the mode in byte 3, for the instructions behind it, whatever its other bytes are.
pub fn isolated(list: &[u8], registers: &[u8]) -> Isolation {
    if registers.len() != REGISTERS {
        return refused(2);
    }
    if list.len() % 8 != 0 || list.len() > 32768 {
        return refused(3);
    }
    let mut modes = match modes_of(registers) {
        Ok(modes) => modes,
        Err(refusal) => return refused(refusal.number),
    };
    for (place, b) in list.chunks(8).enumerate() {
        if breaks(b, &modes) {
            return Isolation { number: DISTURBS, place: place as u32 };
        }
        if let (6, Some(which)) = (b[0], register_of(b[2])) {
            modes[which] = Some(b[3] as usize);
        }
    }
    Isolation::default()
}
