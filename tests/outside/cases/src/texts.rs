//! The cases of lists as text (docs/TEXT.md): lists shown, texts made, and how many words each store reaches. Texts of the
//! one form and of others; each number at each place of an instruction, behind comments, tabs, carriage returns and empty
//! lines, with and without a last line feed; the mode registers followed; buffers just long enough and one byte too short;
//! texts and lists as long as can be.
//!
//! A long text is a short one that the file repeats, with patches behind the repeat.

use crate::case::*;
use crate::plan::{Instruction, Plan, RESOLVE};

/// How many stored cases stand before these.
#[cfg(test)]
pub const BEFORE: usize = 6626;
/// How many of the stored cases are random ones.
const RANDOM: usize = 12;

/// The longest list, in instructions, how many a record has room for one by one, and how many characters of a text.
const MOST: usize = 4096;
const WRITTEN: usize = 110;
const LETTERS: usize = 930;

const UNSET: [u8; 4] = [0; 4];

/// A line of a text that is refused: the text, the number, the column.
type Refused = (&'static [u8], u32, u32);

/// One line each, refused at its first word or behind it. Nothing stands behind the line's last byte.
const REFUSED: [Refused; 118] = [
    (b"x", 60, 1),
    (b"Resolve", 60, 1),
    (b"resolved", 60, 1),
    (b"resolv resolve", 60, 1),
    (b"resolve, resolve", 60, 1),
    (b"  sets a 1", 60, 3),
    (b"\r\t store2 slice 1 from m", 60, 4),
    (b"mode a address 3", 60, 1),
    (b"storexxxx slice 1 from m", 60, 1),
    (b"resolve\x00", 60, 1),
    (b"\x00resolve", 60, 1),
    (b"resolve\x0b", 60, 1),
    (b"\x0cresolve", 60, 1),
    (b"resolve\x7f", 60, 1),
    (b"res\x80olve", 60, 1),
    (b"\xf2esolve", 60, 1),
    (b" \xa0 resolve", 60, 2),
    (b"\xff", 60, 1),
    (b"\xef\xbb\xbfresolve", 60, 1),
    // choices
    (b"logic z xor m", 61, 7),
    (b"logic X xor m", 61, 7),
    (b"logic x-if-y+yy xor m", 61, 7),
    (b"logic x-if-y+ xor m", 61, 7),
    (b"logic\tx-if-Y zero m", 61, 7),
    (b"  logic  both, xor m", 61, 10),
    (b"logic both\x00 xor m", 61, 7),
    // functions
    (b"logic x XOR m", 62, 9),
    (b"logic x 16 m", 62, 9),
    (b"logic x 016 m", 62, 9),
    (b"logic x 256 m", 62, 9),
    (b"logic x 0011 m", 62, 9),
    (b"logic y +5 m", 62, 9),
    (b"logic both load-not m", 62, 12),
    (b"logic both\tloadnots m", 62, 12),
    (b"logic x-if-y+y m", 62, 16),
    // sources, places, mode registers
    (b"setm z", 63, 6),
    (b"setm a", 63, 6),
    (b"setm words 3", 63, 6),
    (b"setm\t\tmode3 address 3", 63, 7),
    (b"deliver from m", 63, 9),
    (b"deliver outsides", 63, 9),
    (b"deliver outside\x80", 63, 9),
    (b"logic x xor 7", 63, 13),
    (b"logic both 6 xor m", 63, 14),
    (b"store m from x", 63, 7),
    (b"store from m", 63, 7),
    (b"mstore Slice 3 from m", 63, 8),
    (b"store slice 3 from slice 4", 63, 20),
    (b"store slice 3 from a", 63, 20),
    (b"mstore word 9 from from m", 63, 20),
    (b"set c 3", 63, 5),
    // numbers
    (b"setm slice x", 64, 12),
    (b"setm slice 256", 64, 12),
    (b"setm slice 0007", 64, 12),
    (b"setm slice 99999999", 64, 12),
    (b"setm slice 4294967296", 64, 12),
    (b"setm slice +7", 64, 12),
    (b"setm slice -1", 64, 12),
    (b"setm slice from m", 64, 12),
    (b"setm word 7f", 64, 11),
    (b"setm word \xb7", 64, 11),
    (b"deliver\tword\t1\x00", 64, 14),
    (b"mstore slice from m", 64, 14),
    (b"store mode c address 3 from m", 64, 12),
    (b"store mode address 3 from m", 64, 12),
    (b"setm mode 256 address 3", 64, 11),
    (b"deliver mode a address b", 64, 24),
    (b"setm m flip 256", 64, 13),
    (b"setm m flip shift 1 mod 2", 64, 13),
    (b"store slice 3 from m flip x", 64, 27),
    (b"set a 256", 64, 7),
    (b"set a 13x", 64, 7),
    (b"set b 00255", 64, 7),
    (b"set b :9", 64, 7),
    // words that have to stand
    (b"setm mode 3 adress 4", 65, 13),
    (b"setm mode 3 Address 4", 65, 13),
    (b"setm mode 3 addresss 4", 65, 13),
    (b"setm mode a 4", 65, 13),
    (b"store slice 3 m", 65, 15),
    (b"store slice 3 form m", 65, 15),
    (b"store slice 3 flip 4 from m", 65, 15),
    (b"setm m shift 1 8", 65, 16),
    (b"setm m shift 1 mod8", 65, 16),
    (b"setm m shift 1 mode 8", 65, 16),
    // shifts
    (b"setm m shift 0 mod 8", 66, 14),
    (b"setm m shift 3 mod 8", 66, 14),
    (b"setm m shift 01 mod 8", 66, 14),
    (b"setm m shift 256 mod 256", 66, 14),
    (b"setm m shift mod 8", 66, 14),
    (b"deliver x flip 3 shift 255 mod 256", 66, 24),
    (b"setm m shift 1 mod 1", 66, 20),
    (b"setm m shift 1 mod 08", 66, 20),
    (b"setm m shift 1 mod 512", 66, 20),
    (b"setm m shift 1 mod m", 66, 20),
    (b"setm m shift 2 mod 2", 66, 20),
    (b"setm m shift 8 mod 4", 66, 20),
    (b"setm m shift 16 mod 16", 66, 21),
    (b"setm m shift 64 mod 0256", 66, 21),
    (b"setm m shift 128 mod 128", 66, 22),
    // more than the instruction takes
    (b"resolve m", 67, 9),
    (b"resolve\r\rresolve", 67, 10),
    (b"resolve \x00", 67, 9),
    (b"resolve // no", 67, 9),
    (b"resolve # no", 67, 9),
    (b"set a 3 4", 67, 9),
    (b"setm m x", 67, 8),
    (b"setm m SHIFT 1 mod 8", 67, 8),
    (b"setm m flip 1 flip 2", 67, 15),
    (b"setm m flip 1 mod 8", 67, 15),
    (b"setm m shift 1 mod 8 flip 1", 67, 22),
    (b"setm m shift 1 mod 8 shift 1 mod 8", 67, 22),
    (b"deliver slice 7 8", 67, 17),
    (b"deliver mode a address 7 from m", 67, 26),
    (b"store slice 3 from m shift 1 mod 2", 67, 22),
    (b"store slice 3 from m flip 1 shift 1 mod 2", 67, 29),
    (b"mstore word 9 from outside flip 128 flip 128", 67, 37),
    (b"mstore word 9 from x y", 67, 22),
    (b"bytes 00 01 02 03 04 05 06 07 08", 67, 31),
];

/// Behind `bytes`, and lines that end too early: the text, and the column that is named.
const BYTES: [(&[u8], u32); 11] = [
    (b"bytes 0 1 2 3 4 5 6 7", 7),
    (b"bytes 000 01 02 03 04 05 06 07", 7),
    (b"bytes 0G 01 02 03 04 05 06 07", 7),
    (b"bytes 00 0x 02 03 04 05 06 07", 10),
    (b"bytes 00 +1 02 03 04 05 06 07", 10),
    (b"bytes 00 01 02 03 0\x00 05 06 07", 19),
    (b"bytes 00 01 02 03 04 \xb0\xb5 06 07", 22),
    (b"bytes 00 01 02 03 04 05 06 7", 28),
    (b"bytes\t00\t01\t02\t03\t04\t05\t06\t07h", 28),
    (b"bytes 0001020304050607", 7),
    (b"bytes 0` 01 02 03 04 05 06 07", 7),
];
const EARLY: [&[u8]; 23] = [
    b"logic",
    b"logic x",
    b"logic x-if-y+y loadnot",
    b"logic x xor slice",
    b"logic y 007 mode b",
    b"setm",
    b"setm m flip",
    b"setm m flip 3 shift",
    b"setm m shift 1",
    b"setm m shift 1 mod",
    b"store",
    b"store slice 3",
    b"store slice 3 from",
    b"store slice 3 from m flip",
    b"mstore mode b address 3",
    b"deliver",
    b"set",
    b"set a",
    b"set  b \t ",
    b"bytes",
    b"bytes 00 01 02 03 04 05 06",
    b"\t bytes 00 01 02 03 04 05 06 ",
    b" \r logic both \t 3 ",
];

/// What stands before a line: the bytes, the lines that end in them, and the columns behind the last of these.
const BEFORE_IT: [(&[u8], u32, u32); 14] = [
    (b"", 0, 0),
    (b"resolve\n", 1, 0),
    (b"; one\n", 1, 0),
    (b"\r\n\t", 1, 1),
    (b"\n\n\n  ", 3, 2),
    (b"set a 1;x\n; y\n \t\r", 2, 3),
    (b"store slice 3 from m ; reaches 256 words\n", 1, 0),
    (b"    ", 0, 4),
    (b";;\n;\n", 2, 0),
    (b"resolve\r\nresolve\r\n\t\t", 2, 2),
    (b"; set c ;\nresolve;resolve\n\n", 3, 0),
    (b"\n", 1, 0),
    (b" \n\t\n\r\n\r", 3, 1),
    (b"bytes 02 04 00 0d 00 00 00 00 ; refused\nresolve \t\n", 2, 0),
];
/// What stands behind it; none of these begins with a blank, a tab or a carriage return.
const BEHIND_IT: [&[u8]; 7] = [b"", b"\n", b";x", b"\nresolve\n", b"; no ; x\nxyz 3\n", b"\nset c\n", b";\n;\n\n"];

/// Texts that stand.
const GOOD: [&[u8]; 36] = [
    b"",
    b"\n",
    b" \t\r",
    b" \n \r\n\t\n ",
    b";",
    b";;;;\n; set c ; x\n;",
    b"; \x00\x7f\x80\xff\n;\xc3\xa4",
    b"resolve",
    b"resolve\n",
    b"resolve\r\n",
    b"\r\tresolve\t\r \n",
    b"resolve;",
    b"resolve;x\nresolve",
    b"resolve ;\x00\xff\x7f set c\nresolve\t;",
    // the page's own
    b"set a 13\nstore mode a address 255 from outside ; reaches 32 words\nlogic x-if-y+y xor slice 7 flip 1 shift 1 mod 8\nmstore word 9 from m flip 128 ; reaches 1 word\ndeliver word 9\nresolve\nbytes 02 04 00 0D 00 00 00 00 ; refused 7 byte 2\n",
    // comments that are wrong
    b"store slice 3 from m ; reaches 1 word\nstore word 3 from m ; refused 7 byte 2\nresolve ; reaches ? words\n",
    // zeros in front
    b"set a 0\nset a 00\nset a 000\nset b 7\nset b 07\nset b 007\nset a 255\nset b 099\nset a 100\nset b 010",
    b"setm slice 000 flip 00\nsetm word 012\nsetm mode 001 address 009 flip 020\nstore mode 099 address 08 from m flip 090",
    b"logic x 0 m\nlogic x 1 m\nlogic x 2 m\nlogic x 3 m\nlogic x 4 m\nlogic x 5 m\nlogic x 6 m\nlogic x 7 m\nlogic x 8 m\nlogic x 9 m\nlogic x 10 m\nlogic x 11 m\nlogic x 12 m\nlogic x 13 m\nlogic x 14 m\nlogic x 15 m\n",
    b"logic both 00 x\nlogic both 000 x\nlogic both 002 x\nlogic both 02 x\nlogic both 011 x\nlogic both 015 x\nlogic both 009 x\nlogic both 08 x",
    // hex digits
    b"bytes 0a 0A aB Ab ff FF fF 00",
    b"bytes 0c 1D 2e 3F 4a 5B 6c 7d\nbytes 8E 9f a8 B9 Ca dB eC Fd",
    b"bytes 00 00 00 00 00 00 00 00\nbytes ff ff ff ff ff ff ff ff\n",
    b"bytes 05 00 00 00 00 00 00 00\nbytes 06 00 02 0d 00 00 00 00\nbytes 02 03 01 00 09 00 00 00",
    b"\tbytes\t01\r02\t 03  04 05 06\t\t07 08;09",
    // places
    b"setm slice 7\nsetm word 7\nsetm mode 7 address 9\nsetm mode a address 9\nsetm mode b address 9",
    b"deliver slice 255\ndeliver word 255\ndeliver mode 254 address 255\ndeliver mode a address 0\ndeliver mode b address 255",
    b"logic y keep slice 0\nlogic y keep word 0\nlogic y keep mode 1 address 2\nlogic y keep mode a address 3\nlogic y keep mode b address 4",
    b"store slice 1 from m\nstore word 2 from x\nstore mode 3 address 4 from y\nstore mode a address 5 from outside\nstore mode b address 6 from m",
    b"mstore slice 1 from y\nmstore word 2 from outside\nmstore mode 3 address 4 from m\nmstore mode a address 5 from x\nmstore mode b address 6 from y",
    b"setm mode 0 address 9\nsetm mode 255 address 9\nstore mode 0 address 8 from m\nmstore mode 255 address 8 from x\nlogic x xor mode 000 address 1\ndeliver mode 255 address 001",
    // sources
    b"setm m\nsetm x\nsetm y\nsetm outside\ndeliver m\ndeliver x\ndeliver y\ndeliver outside\nlogic x one m\nlogic y one x\nlogic both one y\nlogic x-if-y one outside",
    // moves
    b"setm m flip 0\nsetm x flip 1\nsetm y flip 255\ndeliver m flip 0 shift 1 mod 2\ndeliver slice 3 flip 77 shift 128 mod 256\nlogic x load word 3 shift 4 mod 32\nlogic y load outside flip 128",
    b"store slice 3 from m flip 0\nstore slice 3 from x flip 1\nmstore word 3 from outside flip 255\nmstore mode a address 7 from y flip 16",
    // blanks of all sorts, and comments right behind words
    b" \tset\r a\t\t13\r;x\r\n\rsetm   m;flip 3\n\tdeliver\tx\tflip\t3\tshift\t1\tmod\t2;\n",
    b"store mode\ra\raddress\r255\rfrom\routside\rflip\r1\r\nlogic\tx-if-y\tornot\tm;shift",
];

pub fn text_of(list: &[u8]) -> Vec<u8> {
    // no line has more than 71 characters
    let mut text = vec![0; 71 * (list.len() / 8)];
    let answer = emulator::show(list, &mut text);
    assert_eq!(answer.number, 0);
    text.truncate(answer.count as usize);
    text
}

/// The list of a text that stands.
fn list_of(text: &[u8]) -> Option<Vec<u8>> {
    let mut list = vec![0; 4 * text.len() + 8];
    let made = emulator::make(text, &mut list);
    list.truncate(made.count as usize);
    (made.number == 0).then_some(list)
}

fn set(tag: u8, mode: u8) -> Instruction {
    [6, 0, tag, mode, 0, 0, 0, 0]
}

fn store(tag: u8, mode: u8, address: u8) -> Instruction {
    [2, 3, tag, mode, address, 0, 0, 0]
}

fn mstore(tag: u8, mode: u8, address: u8) -> Instruction {
    [3, 4, tag, mode, address, 128, 0, 0]
}

/// Instructions that a run refuses by themselves, each number with each byte that it can name, and some that are wrong by
/// two numbers.
const FLAWS: [Instruction; 42] = [
    [7, 0, 0, 0, 0, 0, 0, 0],
    [255, 255, 255, 255, 255, 255, 255, 255],
    [8, 1, 0, 0, 0, 0, 0, 0],
    [0, 5, 0, 0, 0, 0, 0, 6],
    [2, 0, 1, 0, 9, 0, 0, 0],
    [3, 0, 1, 255, 9, 0, 0, 0],
    [5, 1, 0, 0, 0, 0, 0, 0],
    [6, 4, 2, 7, 0, 0, 0, 0],
    [2, 4, 0, 13, 0, 0, 0, 0],
    [4, 0, 0, 0, 0, 0, 0, 0],
    [6, 0, 0, 9, 0, 0, 0, 0],
    [3, 1, 4, 0, 0, 0, 0, 0],
    [1, 0, 129, 0, 0, 0, 0, 0],
    [6, 0, 1, 9, 0, 0, 0, 0],
    [6, 0, 4, 9, 0, 0, 0, 0],
    [0, 1, 1, 0, 0, 0, 0, 6],
    [1, 2, 2, 0, 0, 0, 0, 0],
    [4, 3, 0, 1, 0, 0, 0, 0],
    [5, 0, 0, 0, 200, 0, 0, 0],
    [2, 1, 2, 5, 9, 0, 0, 0],
    [5, 0, 0, 0, 1, 1, 0, 0],
    [3, 2, 3, 1, 9, 0, 16, 0],
    [3, 1, 3, 255, 9, 0, 0, 0],
    [0, 0, 2, 1, 9, 0, 0, 6],
    [6, 0, 3, 9, 1, 0, 0, 0],
    [2, 1, 1, 0, 9, 0, 16, 0],
    [3, 2, 1, 255, 9, 7, 144, 0],
    [2, 1, 2, 0, 9, 0, 48, 0],
    [5, 0, 0, 0, 0, 1, 0, 0],
    [5, 0, 0, 0, 0, 0, 16, 0],
    [6, 0, 2, 9, 0, 255, 1, 0],
    [6, 0, 3, 9, 0, 0, 144, 0],
    [0, 1, 0, 0, 0, 0, 144, 6],
    [1, 1, 0, 0, 0, 0, 159, 0],
    [4, 1, 0, 0, 0, 3, 136, 0],
    [4, 0, 1, 0, 0, 0, 1, 0],
    [0, 1, 0, 0, 0, 0, 0, 80],
    [1, 1, 0, 0, 0, 0, 0, 1],
    [3, 3, 1, 9, 9, 9, 0, 16],
    [2, 3, 3, 0, 9, 9, 0, 16],
    [5, 0, 0, 0, 0, 0, 0, 255],
    [6, 0, 2, 9, 0, 0, 0, 128],
];

/// Mode registers that 15 refuses.
const BAD: [[u8; 4]; 8] =
    [[2, 0, 0, 0], [0, 0, 2, 0], [0, 1, 0, 0], [0, 0, 0, 1], [255, 7, 1, 0], [1, 0, 255, 0], [0, 128, 1, 0], [1, 0, 0, 255]];

impl Plan {
    // ---- the three sorts of case

    /// A list that is written out, and so many bytes for its text.
    fn showing(&mut self, list: &[Instruction], room: usize) -> Case {
        let bytes = list.concat();
        let mut case = self.case(SHOW);
        (case.lengths[LIST], case.lengths[TEXT]) = (bytes.len() as u16, room as u16);
        case.zeros = 1 << LIST;
        case.patch(LIST, 0, &bytes);
        case
    }

    /// The same with as many bytes as its text has, and some more.
    fn showing_with(&mut self, list: &[Instruction], more: usize) -> Case {
        self.showing(list, text_of(&list.concat()).len() + more)
    }

    fn add_shown(&mut self, list: &[Instruction]) {
        let more = self.r.of(&[0, 0, 0, 1, 7, 40]);
        let case = self.showing_with(list, more);
        self.add(case);
    }

    /// A text that is written out, and so many bytes for its list.
    pub fn making(&mut self, text: &[u8], room: usize) -> Case {
        assert!(text.len() <= LETTERS);
        let mut case = self.case(MAKE);
        (case.lengths[LIST], case.lengths[TEXT]) = (room as u16, text.len() as u16);
        case.zeros = 1 << TEXT;
        case.patch(TEXT, 0, text);
        case
    }

    /// A text of this many characters that repeats this one, with others written in behind that.
    fn making_long(&mut self, text: &[u8], length: usize, others: &[(usize, &[u8])], room: usize) -> Case {
        let mut case = self.making(text, room);
        case.lengths[TEXT] = length as u16;
        case.repeat_file(text.len());
        for (at, bytes) in others {
            case.patch(TEXT, *at, bytes);
        }
        case
    }

    /// A text that stands, with just the room for its list or some more.
    fn add_made(&mut self, text: &[u8]) {
        let room = list_of(text).map_or(64, |list| list.len());
        let more = self.r.of(&[0, 0, 0, 1, 8, 40]);
        let case = self.making(text, room + more);
        self.add(case);
    }

    fn reaching(&mut self, list: &[Instruction], modes: [u8; 4], room: usize) -> Case {
        let bytes = list.concat();
        let mut case = self.case(REACH);
        (case.lengths[REGISTERS], case.lengths[LIST], case.lengths[OUT]) = (RECORD as u16, bytes.len() as u16, room as u16);
        case.zeros = 1 << LIST;
        case.patch(LIST, 0, &bytes).modes(modes);
        case
    }

    fn add_reached(&mut self, list: &[Instruction], modes: [u8; 4]) {
        let more = self.r.of(&[0, 0, 0, 1, 2, 9]);
        let case = self.reaching(list, modes, 2 * list.len() + more);
        self.add(case);
    }

    // ---- random cases

    /// Eight bytes: most stand, some by a mode register, some are wrong in a byte or two, some are any bytes.
    pub fn some_line(&mut self) -> Instruction {
        let r: Instruction = std::array::from_fn(|_| self.r.byte());
        let mut b = shaped(&r, 3);
        match self.r.below(16) {
            0 => return r,
            1..=3 => {
                for _ in 0..1 + self.r.below(2) {
                    let at = self.r.below(8);
                    b[at] = if self.r.one_in(4) { 0 } else { self.wild() };
                }
            }
            4 | 5 => b = set(2 + self.r.below(2) as u8, self.r.byte()),
            6 => {
                b = set(2 + self.r.below(2) as u8, self.r.byte());
                let at = self.r.of(&[0usize, 1, 2, 4, 5, 6, 7]);
                b[at] = self.wild();
            }
            7..=9 => b = [2 + self.r.below(2) as u8, 1 + self.r.below(4) as u8, 2 + self.r.below(2) as u8, 0, r[4], r[5], 0, 0],
            10 => b = [2 + self.r.below(2) as u8, 1 + self.r.below(4) as u8, 1, self.r.of(&[0, 255, 254, 1, 127, 128, 15, 85]), r[4], 0, 0, 0],
            _ => {}
        }
        b
    }

    fn some_lines(&mut self) -> Vec<Instruction> {
        let count = if self.r.one_in(5) { self.r.below(WRITTEN + 1) } else { self.r.below(14) };
        (0..count).map(|_| self.some_line()).collect()
    }

    /// As much room as is wanted, one byte less, more, or any.
    pub fn some_room(&mut self, wanted: usize, most: usize) -> usize {
        let room = match self.r.below(8) {
            0 => wanted.saturating_sub(1),
            1 => self.r.below(wanted + 1),
            2 => wanted + self.r.below(300),
            3 => wanted + 1,
            _ => wanted,
        };
        room.min(most)
    }

    /// A list of another length that 3 refuses.
    fn spoil_list(&mut self, case: &mut Case) {
        case.lengths[LIST] = if self.r.one_in(3) { self.r.of(&[32769, 32776, 33000, 32772]) } else { case.lengths[LIST] + 1 + self.r.below(7) as u16 };
    }

    fn random_show(&mut self) -> Case {
        let lines = self.some_lines();
        let mut case = self.showing(&lines, 0);
        if self.r.one_in(4) {
            // from the seed, of a shape or of none
            case = self.showing(&[], 0);
            (case.shape, case.zeros) = (self.r.of(&[0, 1, 2, 3, 3, 3]), 0);
            let most = if self.r.one_in(4) { 900 } else { 60 };
            case.lengths[LIST] = 8 * self.r.below(most) as u16;
        }
        // the list is filled before the text, so its bytes do not hang on the text's length
        let wanted = text_of(&case.make()[LIST]).len();
        case.lengths[TEXT] = self.some_room(wanted, MAXIMUM[TEXT]) as u16;
        if self.r.one_in(16) {
            self.spoil_list(&mut case);
        }
        case
    }

    /// Mode registers of which each is unset or holds a mode.
    fn held_modes(&mut self) -> [u8; 4] {
        let mut modes = UNSET;
        for pair in modes.chunks_mut(2) {
            if !self.r.one_in(3) {
                pair.copy_from_slice(&[1, if self.r.one_in(3) { self.r.of(&[0, 255, 1, 128]) } else { self.r.byte() }]);
            }
        }
        modes
    }

    fn random_reach(&mut self) -> Case {
        let (lines, modes) = (self.some_lines(), self.held_modes());
        let mut case = self.reaching(&lines, modes, 0);
        if self.r.one_in(3) {
            case = self.reaching(&[], modes, 0);
            (case.shape, case.zeros) = (self.r.of(&[0, 1, 2, 3, 3, 3]), 0);
            let most = if self.r.one_in(3) { MOST + 1 } else { 60 };
            case.lengths[LIST] = 8 * self.r.below(most) as u16;
        }
        let wanted = case.lengths[LIST] as usize / 4;
        case.lengths[OUT] = self.some_room(wanted, MAXIMUM[OUT]) as u16;
        match self.r.below(30) {
            0 => self.spoil_list(&mut case),
            1 => {
                let modes = self.r.of(&BAD);
                case.modes(modes);
            }
            2 => {
                case.lengths[REGISTERS] = self.r.of(&[96, 99, 0, 101, 104]);
                case.patches.retain(|patch| patch.target as usize != REGISTERS);
            }
            _ => {}
        }
        case
    }

    pub fn some_blanks(&mut self, none: bool) -> Vec<u8> {
        let count = if none && self.r.one_in(2) { 0 } else { 1 + self.r.below(3) * self.r.below(2) };
        (0..count).map(|_| self.r.of(b"      \t\t\r")).collect()
    }

    /// The words of an instruction in one of its forms: numbers with zeros in front, functions by number, slices and words
    /// by their modes, a flip of 0, hex in small letters, any instruction as bytes.
    pub fn some_words(&mut self, b: Instruction) -> Vec<String> {
        if self.r.one_in(8) {
            let digits = |byte: &u8| if self.r.one_in(2) { format!("{:02X}", byte) } else { format!("{:02x}", byte) };
            return std::iter::once("bytes".to_string()).chain(b.iter().map(digits).collect::<Vec<_>>()).collect();
        }
        let text = String::from_utf8(text_of(&b)).expect("characters");
        let mut words: Vec<String> = text.split(';').next().unwrap_or("").split_whitespace().map(|word| word.to_string()).collect();
        if words[0] == "bytes" {
            for word in &mut words[1..] {
                if self.r.one_in(2) {
                    *word = word.to_lowercase();
                }
            }
            return words;
        }
        if words[0] == "logic" && self.r.one_in(3) {
            words[2] = (b[7] % 16).to_string();
        }
        for (short, mode) in [("slice", "0"), ("word", "255")] {
            if let Some(at) = words.iter().position(|word| word == short) {
                if self.r.one_in(3) {
                    words.splice(at..=at, ["mode", mode, "address"].map(|word| word.to_string()));
                }
            }
        }
        if b[0] < 5 && b[5] == 0 && b[6] == 0 && self.r.one_in(4) {
            words.extend(["flip", "0"].map(|word| word.to_string()));
        }
        for at in 1..words.len() {
            let number = words[at].parse::<u8>().is_ok() && !["shift", "mod"].contains(&words[at - 1].as_str());
            if number && self.r.one_in(4) {
                words[at] = format!("{:0>1$}", words[at], 1 + self.r.below(3));
            }
        }
        words
    }

    /// A text of other forms than the one, with comments, empty lines and blanks of all sorts.
    fn free_text(&mut self, list: &[Instruction]) -> Vec<u8> {
        let mut text = vec![];
        for &b in list {
            while self.r.one_in(6) {
                text.extend(self.some_blanks(true));
                if self.r.one_in(2) {
                    text.extend(self.r.of(&[&b"; resolve"[..], b";", b"; x ; y \xff", b";\tset a 3"]));
                }
                text.push(b'\n');
            }
            text.extend(self.some_blanks(true));
            for (k, word) in self.some_words(b).into_iter().enumerate() {
                if k > 0 {
                    text.extend(self.some_blanks(false));
                }
                text.extend(word.into_bytes());
            }
            text.extend(self.some_blanks(true));
            if self.r.one_in(5) {
                text.extend(self.r.of(&[&b";"[..], b"; reaches 3 words", b";;flip 3", b"; \x00\x80"]));
            }
            text.push(b'\n');
        }
        if self.r.one_in(3) {
            text.pop();
        }
        text
    }

    /// One small damage: a character altered, left out, put in or doubled; or a word of an instruction.
    pub fn damage_text(&mut self, text: &mut Vec<u8>) {
        const LETTERS: &[u8] = b" \t\r\n\n;;0123456789abcdefmxyABFMX-+,./:@`_\x00\x0b\x0c\x1f\x7f\x80\x8a\xa0\xb1\xff";
        const WORDS: [&str; 62] = [
            "logic", "setm", "store", "mstore", "deliver", "resolve", "set", "bytes", "slice", "word", "mode", "address", "from", "m", "x", "y",
            "outside", "a", "b", "flip", "shift", "mod", "both", "x-if-y", "x-if-y+y", "zero", "nor", "2", "not", "clear", "loadnot", "xor",
            "nand", "11", "ornot", "one", "0", "1", "4", "8", "16", "32", "128", "255", "256", "007", "016", "01", "0008", "999", "00", "0A", "fF",
            "0g", "words", "x-if-y+yy", "resolves", "addresss", ";", "\n", "\r\n", "\t",
        ];
        let at = self.r.below(text.len() + 1);
        if self.r.one_in(2) {
            let letter = if self.r.one_in(6) { self.r.byte() } else { self.r.of(LETTERS) };
            match (self.r.below(4), text.get(at).copied()) {
                (0, Some(_)) => text[at] = letter,
                (1, Some(_)) => drop(text.remove(at)),
                (2, Some(same)) => text.insert(at, same),
                _ => text.insert(at, letter),
            }
            return;
        }
        // a word that is read, one of those that stand first in it or any
        let mut words = vec![];
        let mut line = 0;
        for part in text.split(|&byte| byte == b'\n') {
            let code = part.split(|&byte| byte == b';').next().unwrap_or(part);
            let (mut start, mut count) = (line, 0);
            for piece in code.split(|byte| b" \t\r".contains(byte)) {
                if !piece.is_empty() {
                    words.push((start, start + piece.len(), count));
                    count += 1;
                }
                start += piece.len() + 1;
            }
            line += part.len() + 1;
        }
        if self.r.one_in(2) {
            let most = 1 + self.r.below(4);
            words.retain(|word| (1..=most).contains(&word.2));
        }
        if words.is_empty() {
            words.push((at, at, 0));
        }
        let (start, end, _) = self.r.of(&words);
        let word: Vec<u8> = text[start..end].to_vec();
        let other = self.r.of(&WORDS).as_bytes().to_vec();
        let new = match self.r.below(5) {
            0 | 1 => other,
            2 => vec![],
            3 => [&word[..], b" ", &word].concat(),
            _ => [&other[..], b" ", &word].concat(),
        };
        text.splice(start..end, new);
    }

    fn random_make(&mut self) -> Case {
        let mut lines = self.some_lines();
        lines.truncate(30);
        if self.r.one_in(3) {
            for b in &mut lines {
                let r: Instruction = std::array::from_fn(|at| if at == 0 { 0 } else { self.r.byte() });
                *b = if self.r.one_in(3) { *b } else { shaped(&r, 3) };
            }
        }
        let mut text = if self.r.one_in(3) { text_of(&lines.concat()) } else { self.free_text(&lines) };
        if self.r.one_in(2) {
            for _ in 0..1 + self.r.below(3) {
                self.damage_text(&mut text);
            }
        }
        text.truncate(LETTERS);
        if self.r.one_in(24) {
            text = (0..self.r.below(60)).map(|_| self.r.byte()).collect();
        }
        if !text.is_empty() && self.r.one_in(12) {
            // repeated, so that lines and columns are large and the instructions at times too many
            text.truncate(LETTERS - 20);
            let most = if self.r.one_in(2) { 35000 } else { 3000 };
            let length = text.len() + self.r.below(most - text.len());
            let room = self.r.of(&[0, 800, 32768, 33000]);
            let mut case = self.making_long(&text, length, &[], room);
            if self.r.one_in(2) {
                let at = self.r.below(length);
                let letter = [self.r.of(b"\n ;x0")];
                case.patch(TEXT, at, &letter);
            }
            return case;
        }
        let wanted = list_of(&text).map_or(64, |list| list.len());
        let room = self.some_room(wanted, MAXIMUM[LIST]);
        self.making(&text, room)
    }

    /// Half of them are texts made, about half of these damaged; the others are lists shown and reached.
    pub fn random_text(&mut self) -> Case {
        match self.r.below(8) {
            0 | 1 => self.random_show(),
            2 | 3 => self.random_reach(),
            _ => self.random_make(),
        }
    }

    // ---- the planned cases

    pub fn all_texts(&mut self) {
        self.shown_in_words();
        self.shown_modes_and_registers();
        self.shown_as_bytes();
        self.shown_from_the_seed();
        self.shown_into_buffers();
        self.made_of_good_texts();
        self.refused_lines();
        self.several_refused();
        self.made_into_buffers();
        self.made_of_long_texts();
        self.reached_by_modes();
        self.reached_by_registers();
        self.not_reached();
        self.reached_lengths();
        for turn in 0..RANDOM {
            let case = match turn % 4 {
                0 => self.random_show(),
                1 => self.random_reach(),
                _ => self.random_make(),
            };
            self.add(case);
        }
    }

    /// Each kind, source, place, choice, function and move in the one form.
    fn shown_in_words(&mut self) {
        self.add_shown(&[]);
        self.add_shown(&[RESOLVE]);
        self.add_shown(&[set(2, 0), set(3, 255), set(2, 7), set(3, 10), set(2, 100), set(3, 99)]);
        // the page's own
        self.add_shown(&[
            set(2, 13),
            [2, 4, 2, 0, 255, 0, 0, 0],
            [0, 0, 1, 0, 7, 1, 48, 0x46],
            [3, 1, 1, 255, 9, 128, 0, 0],
            [4, 0, 1, 255, 9, 0, 0, 0],
            RESOLVE,
            [2, 4, 0, 13, 0, 0, 0, 0],
        ]);
        for kind in [0u8, 1, 4] {
            let logic = if kind == 0 { 0x26 } else { 0 };
            let mut list: Vec<Instruction> = (1..5).map(|source| [kind, source, 0, 0, 0, 0, 0, logic]).collect();
            let places = [(1u8, 0u8), (1, 255), (1, 1), (1, 254), (1, 128), (2, 0), (3, 0)];
            list.extend(places.map(|(tag, mode)| [kind, 0, tag, mode, 100 + tag, 0, 0, logic]));
            self.add_shown(&list);
        }
        for kind in [2u8, 3] {
            let list: Vec<Instruction> = (1..5).map(|source| [kind, source, 1, 0, 9 * source, 64 * (source - 1), 0, 0]).collect();
            self.add_shown(&list);
        }
        for choice in 0..5u8 {
            let list: Vec<Instruction> = (0..16).map(|function| [0, 1 + function % 4, 0, 0, 0, 0, 0, 16 * choice + function]).collect();
            self.add_shown(&list);
        }
        let codes = emulator::network::codes();
        let list: Vec<Instruction> = codes.iter().map(|&code| [1, 1, 0, 0, 0, 0, code, 0]).collect();
        self.add_shown(&list);
        let list: Vec<Instruction> = codes.iter().rev().map(|&code| [4, 0, 1, 0, code, code, code, 0]).collect();
        self.add_shown(&list);
        let list: Vec<Instruction> = [0u8, 1, 2, 9, 10, 64, 99, 100, 128, 199, 200, 255].iter().map(|&flip| [0, 2, 0, 0, 0, flip, 0x87, 0x0A]).collect();
        self.add_shown(&list);
    }

    /// Stores under every mode, and by registers that are unset, set, set again, and set by what is itself refused.
    fn shown_modes_and_registers(&mut self) {
        for part in 0..3u8 {
            let list: Vec<Instruction> = (0..86u16).map(|k| (k + 86 * part as u16).min(255) as u8).map(|mode| store(1, mode, mode ^ 77)).collect();
            self.add_shown(&list);
        }
        for list in [
            vec![store(2, 0, 1), store(3, 0, 2), mstore(2, 0, 3), mstore(3, 0, 4)],
            vec![set(2, 0), store(2, 0, 1), store(3, 0, 2), mstore(2, 0, 3), mstore(3, 0, 4)],
            vec![set(3, 0), store(2, 0, 1), store(3, 0, 2), mstore(2, 0, 3), mstore(3, 0, 4)],
            vec![set(2, 255), store(2, 0, 1), store(3, 0, 1), set(3, 254), store(3, 0, 1), store(2, 0, 1)],
            vec![set(2, 1), set(3, 3), store(2, 0, 1), store(3, 0, 1), set(2, 7), store(2, 0, 1), store(3, 0, 1), set(3, 15), store(3, 0, 1)],
            vec![set(2, 31), store(2, 0, 9), set(2, 0), store(2, 0, 9), set(2, 255), mstore(2, 0, 9)],
            vec![set(3, 255), set(3, 0), store(3, 0, 9), set(3, 1), RESOLVE, store(1, 3, 3), store(3, 0, 9)],
            vec![store(2, 0, 1), set(2, 3)],
            vec![store(3, 0, 1), set(2, 3), store(3, 0, 1), set(3, 7), store(3, 0, 1)],
            // reads through registers that are unset or set: no count, and no refusal
            vec![[4, 0, 2, 0, 9, 0, 0, 0], [1, 0, 3, 0, 9, 0, 0, 0], set(2, 3), [0, 0, 2, 0, 9, 0, 0, 6]],
            // what sets nothing: other tags, other kinds, stores
            vec![set(1, 5), set(0, 5), set(4, 5), set(130, 5), set(255, 5), store(2, 0, 1), store(3, 0, 1)],
            vec![[5, 0, 2, 7, 0, 0, 0, 0], [7, 0, 3, 7, 0, 0, 0, 0], [134, 0, 2, 7, 0, 0, 0, 0], store(2, 0, 1), store(3, 0, 1)],
            vec![set(2, 3), [2, 1, 2, 7, 0, 0, 0, 0], [0, 1, 2, 9, 0, 0, 0, 0], store(2, 0, 1), store(3, 0, 1)],
            vec![set(2, 3), set(1, 255), set(0, 255), store(2, 0, 1), store(3, 0, 1)],
        ] {
            self.add_shown(&list);
        }
        // a kind 6 that is refused sets its register all the same
        for (turn, at) in [1usize, 4, 5, 6, 7].into_iter().enumerate() {
            let tag = 2 + (turn % 2) as u8;
            let mut odd = set(tag, 63);
            odd[at] = [1u8, 255, 16, 144, 128][turn];
            self.add_shown(&[store(tag, 0, 1), odd, store(tag, 0, 1), store(5 - tag, 0, 1), set(5 - tag, 1), odd, store(5 - tag, 0, 1)]);
        }
    }

    /// Each refusal with the byte that it names.
    fn shown_as_bytes(&mut self) {
        for part in FLAWS.chunks(6) {
            let list: Vec<Instruction> = part.iter().flat_map(|&b| [b, store(2, 0, 7)]).collect();
            self.add_shown(&list);
        }
        for b in [FLAWS[8], FLAWS[1], FLAWS[27]] {
            self.add_shown(&[b]);
        }
        // 14 beside what is judged later: it does not stand in its way
        self.add_shown(&[[2, 1, 2, 0, 9, 0, 16, 0], [4, 0, 3, 0, 9, 0, 144, 0], [1, 0, 2, 0, 9, 0, 17, 0], [0, 0, 3, 0, 9, 0, 0, 0x50], [4, 0, 2, 0, 9, 1, 16, 1]]);
        let any: Vec<Instruction> = (0..10).map(|k| std::array::from_fn(|i| (29 * k + 17 * i) as u8)).collect();
        self.add_shown(&any);
    }

    fn shown_from_the_seed(&mut self) {
        for (shape, count) in [(0u8, 12usize), (0, 300), (1, 40), (1, 700), (2, 25), (3, 6), (3, 50), (3, 800)] {
            let mut case = self.showing(&[], 0);
            (case.shape, case.zeros, case.lengths[LIST]) = (shape, 0, 8 * count as u16);
            let wanted = text_of(&case.make()[LIST]).len();
            case.lengths[TEXT] = wanted.min(MAXIMUM[TEXT]) as u16;
            self.add(case);
        }
    }

    /// 3 and 27, their order, and room that is just enough.
    fn shown_into_buffers(&mut self) {
        let list = [set(2, 13), [2, 4, 2, 0, 255, 0, 0, 0], RESOLVE, [2, 4, 0, 13, 0, 0, 0, 0]];
        let wanted = text_of(&list.concat()).len();
        for room in [0, 9, wanted - 8, wanted - 1, wanted, wanted + 100] {
            let case = self.showing(&list, room);
            self.add(case);
        }
        for room in [7, 8, 9] {
            let case = self.showing(&[RESOLVE], room);
            self.add(case);
        }
        for (length, room) in [(1u16, 300), (7, 0), (12, 300), (47, 2000), (32769, 35000), (32776, 35000), (33000, 100)] {
            let mut case = self.showing(&[], room);
            case.lengths[LIST] = length;
            self.add(case);
        }
        let case = self.showing(&[], 5);
        self.add(case);
        // long ones: of zeros, 50 characters a line, and shaped, 21 a line
        for (shape, count, room) in [(0u8, 700usize, 35000), (0, 701, 35000), (1, 1666, 34986), (2, 1666, 34985), (3, MOST, 35000)] {
            let mut case = self.showing(&[], room);
            (case.shape, case.lengths[LIST]) = (shape, 8 * count as u16);
            self.add(case);
        }
    }

    /// Texts that stand, of one form and of others; each shift, choice and function.
    fn made_of_good_texts(&mut self) {
        for text in GOOD {
            self.add_made(text);
        }
        for choice in 0..5u8 {
            let list: Vec<Instruction> = (0..16).map(|function| [0, 1 + (function + choice) % 4, 0, 0, 0, 0, 0, 16 * choice + function]).collect();
            self.add_made(&text_of(&list.concat()));
        }
        let list: Vec<Instruction> = emulator::network::codes()[1..].iter().map(|&code| [1, 1, 0, 0, 0, 0, code, 0]).collect();
        self.add_made(&text_of(&list.concat()));
        let list: Vec<Instruction> = (0..12).map(|k| [4, 0, 1 + k % 3, 0, k, k * 23, 0, 0]).collect();
        self.add_made(&text_of(&list.concat()));
        // what show has written of faulty lists
        for part in FLAWS.chunks(14) {
            self.add_made(&text_of(&part.concat()));
        }
    }

    /// Each line that is refused, behind and before others.
    fn refused_lines(&mut self) {
        let bytes = BYTES.iter().map(|&(line, column)| (line, 68, column));
        let early = EARLY.iter().map(|&line| (line, 69, line.len() as u32 + 1));
        for (turn, (line, _, _)) in REFUSED.into_iter().chain(bytes).chain(early).enumerate() {
            let text = [BEFORE_IT[turn % BEFORE_IT.len()].0, line, BEHIND_IT[turn % BEHIND_IT.len()]].concat();
            let case = self.making(&text, [64, 0, 8, 24][turn % 4]);
            self.add(case);
        }
    }

    /// The first word of several that may not stand, and refusals beside each other.
    fn several_refused(&mut self) {
        let texts: [&[u8]; 12] = [
            b"resolve\nset c 256 x\nxyz\n",
            b"logic z 16 q flip 256 shift 3 mod 1 x",
            b"set a\nxyz",
            b"set a\n3\n",
            b"store slice 3 from ; m\nresolve",
            b"setm m shift 1 mod;8\n",
            b"set;a 3\n",
            b"set a;;3",
            b"bytes 00 01 02 03 04 05 06 ;07",
            b"resolve;\nset b;\n;",
            b"\n\n  logic x xor\r\n",
            b"set a \t\r\n",
        ];
        for (turn, text) in texts.into_iter().enumerate() {
            let case = self.making(text, [0, 64, 16][turn % 3]);
            self.add(case);
        }
    }

    /// 33, and what it stands behind.
    fn made_into_buffers(&mut self) {
        let text = b"set a 13\n\nresolve ; x\nbytes 02 04 00 0D 00 00 00 00";
        for room in [0, 8, 16, 23, 24, 25, 32, 1000] {
            let case = self.making(text, room);
            self.add(case);
        }
        for room in [0, 7, 8, 9] {
            let case = self.making(b"resolve", room);
            self.add(case);
        }
        for text in [&b"resolve\nresolve\nset c"[..], b"resolve\nresolve\nset", b"resolve\nx"] {
            for room in [0, 8] {
                let case = self.making(text, room);
                self.add(case);
            }
        }
    }

    /// Texts that repeat short ones: over 4,096 instructions, lines and columns that are large.
    fn made_of_long_texts(&mut self) {
        let line: &[u8] = b"resolve\n";
        let none: &[(usize, &[u8])] = &[];
        for (length, room) in [
            (8 * MOST, 32768),
            (8 * MOST, 33000),
            (8 * MOST, 32767),
            (8 * MOST - 1, 32768),
            (8 * MOST + 8, 33000),
            (8 * MOST + 8, 0),
            (8 * MOST + 8, 32768),
            (34992, 33000),
            (8 * MOST - 8, 32759),
        ] {
            let case = self.making_long(line, length, none, room);
            self.add(case);
        }
        // a line that is refused stands before 3 and 33
        for (at, other, room) in [
            (8 * MOST, &b"resolvee"[..], 33000),
            (8 * MOST, b"set a\n\n\n", 33000),
            (8 * 4095, b"resolve;", 32768),
            (8 * 4095, b"resolve;", 32760),
            (8 * 255 + 7, b" ", 0),
            (8 * 256 + 2, b"x", 0),
            (0, b"x", 100),
            (8 * MOST, b";resolve", 32768),
            (8 * MOST, b"\n\n\n\n\n\n\n\n", 32768),
        ] {
            let case = self.making_long(line, 8 * MOST + 8, &[(at, other)], room);
            self.add(case);
        }
        for (at, other) in [(34984, &b"resolve "[..]), (34985, b"x"), (0, b"set a\n\n")] {
            let case = self.making_long(line, 34992, &[(at, other)], 33000);
            self.add(case);
        }
        // empty lines, blanks, comments and words without end
        for (text, length, at, other) in [
            (&b"\n"[..], 35000, 0, &b""[..]),
            (b"\n", 35000, 34999, b"x"),
            (b"\n", 35000, 34990, b"set a"),
            (b"\r\n", 34999, 34995, b"set"),
            (b" ", 35000, 0, b""),
            (b" ", 35000, 34999, b"x"),
            (b"\t", 300, 255, b"resolve"),
            (b"\t", 300, 256, b"resolves"),
            (b" ", 35000, 0, b"set a"),
            (b" ", 35000, 0, b"set a;"),
            (b";", 35000, 0, b""),
            (b";", 35000, 17000, b"\nresolve x"),
            (b"x", 35000, 0, b""),
            (b"0", 300, 0, b"set a "),
            (b"; x\n\t\n", 34998, 34992, b"bytes"),
        ] {
            let case = self.making_long(text, length, &[(at, other)], 64);
            self.add(case);
        }
        for (text, length, room) in [
            (&b"set a 1;\n\n"[..], 34995, 33000),
            (b"setm m\n", 7 * 4096, 32768),
            (b"setm m\n", 7 * 4097, 33000),
            (b"resolve\r\n\r\n;\n", 13 * 2000, 16000),
            (b"store mode a address 255 from outside flip 128\n", 47 * 700, 5600),
            (b"bytes 01 23 45 67 89 ab CD eF\n", 30 * 1100, 8800),
        ] {
            let case = self.making_long(text, length, none, room);
            self.add(case);
        }
        // any bytes
        for length in [20u16, 300, 35000] {
            let mut case = self.making(&[], 64);
            (case.zeros, case.lengths[TEXT]) = (0, length);
            self.add(case);
            if length == 300 {
                let mut case = self.making(&[], 64);
                (case.zeros, case.lengths[TEXT]) = (0, length);
                case.patch(TEXT, 0, b";").patch(TEXT, 200, b"\n;");
                self.add(case);
            }
        }
    }

    fn reached_by_modes(&mut self) {
        for part in 0..3u8 {
            let modes = (0..86u16).map(|k| (k + 86 * part as u16).min(255) as u8);
            let list: Vec<Instruction> = modes.map(|mode| if mode % 3 == 0 { mstore(1, mode, 9) } else { store(1, mode, mode) }).collect();
            self.add_reached(&list, UNSET);
        }
        for (turn, mode) in [0u8, 255, 1, 128, 254, 85].into_iter().enumerate() {
            let (other, tag) = ([0u8, 255, 7][turn % 3], 2 + (turn % 2) as u8);
            let modes = if tag == 2 { [1, mode, 1, other] } else { [1, other, 1, mode] };
            self.add_reached(&[store(tag, 0, 3), mstore(tag, 0, 4), store(5 - tag, 0, 3)], modes);
        }
        // all that stores nothing
        self.add_reached(&[[0, 0, 1, 0, 9, 0, 0, 6], [1, 0, 1, 0, 9, 0, 0, 0], [4, 0, 1, 0, 9, 0, 0, 0], [4, 1, 0, 0, 0, 0, 0, 0], RESOLVE, set(2, 0)], UNSET);
        for shape in 0..=3u8 {
            let count = [300, 30, 40, 500][shape as usize];
            let mut case = self.reaching(&[], [[1, 0, 1, 255], [1, 3, 0, 0], UNSET, [0, 0, 1, 31]][shape as usize], 2 * count);
            (case.shape, case.zeros, case.lengths[LIST]) = (shape, 0, 8 * count as u16);
            self.add(case);
        }
    }

    /// Registers set at the start, by a kind 6 before and behind, to other modes, and by what is itself refused.
    fn reached_by_registers(&mut self) {
        let both = [store(2, 0, 1), store(3, 0, 2), mstore(2, 0, 3), mstore(3, 0, 4)];
        for modes in [UNSET, [1, 0, 0, 0], [0, 0, 1, 0], [1, 255, 1, 0], [1, 7, 1, 31], [1, 1, 1, 1]] {
            self.add_reached(&both, modes);
        }
        for (list, modes) in [
            (vec![set(2, 3), store(2, 0, 1), store(3, 0, 1)], UNSET),
            (vec![set(3, 3), store(2, 0, 1), store(3, 0, 1)], UNSET),
            (vec![store(2, 0, 1), set(2, 3), store(2, 0, 1), set(2, 0), store(2, 0, 1)], UNSET),
            (vec![store(3, 0, 1), set(3, 255), store(3, 0, 1), set(3, 0), store(3, 0, 1)], [1, 9, 1, 9]),
            (vec![store(3, 0, 1), set(2, 255), store(3, 0, 1), store(2, 0, 1)], [0, 0, 1, 15]),
            (vec![set(1, 5), set(0, 5), set(4, 5), set(130, 5), set(255, 5), store(2, 0, 1), store(3, 0, 1)], UNSET),
            (vec![set(1, 5), set(0, 5), set(131, 5), store(2, 0, 1), store(3, 0, 1)], [1, 1, 1, 3]),
            (vec![[5, 0, 2, 7, 0, 0, 0, 0], [7, 0, 3, 7, 0, 0, 0, 0], [134, 0, 2, 7, 0, 0, 0, 0], store(2, 0, 1), store(3, 0, 1)], UNSET),
            (vec![[2, 1, 2, 7, 0, 0, 0, 0], [0, 1, 2, 9, 0, 0, 0, 0], store(2, 0, 1), store(3, 0, 1)], [1, 0, 0, 0]),
            (vec![store(1, 3, 3), [255; 8], store(1, 3, 3), store(2, 0, 3), [2, 0, 1, 0, 0, 0, 0, 0], store(2, 0, 3)], [1, 63, 0, 0]),
        ] {
            self.add_reached(&list, modes);
        }
        for (turn, at) in [1usize, 4, 5, 6, 7].into_iter().enumerate() {
            let tag = 2 + (turn % 2) as u8;
            let mut odd = set(tag, 63);
            odd[at] = [1u8, 255, 16, 144, 128][turn];
            let list = [store(tag, 0, 1), odd, store(tag, 0, 1), store(5 - tag, 0, 1), set(5 - tag, 1), odd, store(5 - tag, 0, 1)];
            self.add_reached(&list, [UNSET, [1, 0, 1, 255]][turn % 2]);
        }
    }

    /// Stores that a run refuses, alone and among others.
    fn not_reached(&mut self) {
        let stores: Vec<Instruction> = FLAWS.into_iter().filter(|b| b[0] == 2 || b[0] == 3).collect();
        for (turn, pair) in stores.chunks(2).enumerate() {
            let list: Vec<Instruction> = pair.iter().flat_map(|&b| [store(1, 254, 1), b, store(2, 0, 1)]).collect();
            self.add_reached(&list, [[1, 252, 1, 0], UNSET][turn % 2]);
        }
        for part in FLAWS.chunks(14) {
            self.add_reached(part, [1, 0, 1, 3]);
        }
        // bytes of a store that are never wrong, and each byte of one
        self.add_reached(&[[2, 1, 1, 9, 255, 255, 0, 0], [3, 4, 1, 9, 0, 128, 0, 0]], UNSET);
        for (at, values) in [(0usize, [1u8, 4, 5, 7, 130]), (1, [0, 5, 255, 128, 4]), (2, [0, 1, 4, 255, 130]), (3, [1, 2, 128, 255, 0]), (6, [1, 16, 48, 0x87, 144]), (7, [1, 16, 64, 128, 255])] {
            let list: Vec<Instruction> = values.iter().flat_map(|&value| [2u8, 3].map(|tag| {
                let mut b = [tag, 2, tag, 0, 9, 0, 0, 0];
                b[at] = value;
                b
            })).collect();
            self.add_reached(&list, [1, 240, 1, 255]);
        }
    }

    /// 2, 3, 15 and 27, their order, and lists as long as can be.
    fn reached_lengths(&mut self) {
        let list = [store(1, 0, 3), store(1, 255, 3), RESOLVE];
        for room in [0, 2, 5, 6, 7, 100] {
            let case = self.reaching(&list, UNSET, room);
            self.add(case);
        }
        let case = self.reaching(&[], UNSET, 0);
        self.add(case);
        let case = self.reaching(&[], UNSET, 3);
        self.add(case);
        for (turn, length) in [0u16, 96, 99, 101, 104, 1].into_iter().enumerate() {
            let mut case = self.reaching(&list, UNSET, [6, 0][turn % 2]);
            case.lengths[REGISTERS] = length;
            case.patches.retain(|patch| patch.target as usize != REGISTERS);
            if turn % 3 == 2 {
                case.lengths[LIST] = 25;
            }
            self.add(case);
        }
        for (turn, length) in [1u16, 7, 12, 32769, 32776, 33000].into_iter().enumerate() {
            let mut case = self.reaching(&[], if turn % 2 == 0 { UNSET } else { BAD[turn] }, [8200, 0, 100][turn % 3]);
            case.lengths[LIST] = length;
            self.add(case);
        }
        for (turn, &modes) in BAD[..6].iter().enumerate() {
            let case = self.reaching(&list[..turn % 4], modes, [8, 0, 5][turn % 3]);
            self.add(case);
        }
        for (count, room) in [(MOST, 8192), (MOST, 8191), (MOST, 8200), (MOST - 1, 8190), (MOST, 100)] {
            let mut case = self.reaching(&[], [0, 0, 1, 254], room);
            case.lengths[LIST] = 8 * count as u16;
            case.patch(LIST, 8 * 4000, &store(1, 3, 3)).patch(LIST, 8 * 255, &set(2, 15)).patch(LIST, 8 * (count - 1), &store(2, 0, 3));
            case.patch(LIST, 8 * 4094, &store(3, 0, 3));
            self.add(case);
        }
        let mut case = self.reaching(&[], [1, 0, 1, 85], 8192);
        (case.shape, case.zeros, case.lengths[LIST]) = (3, 0, 32768);
        self.add(case);
    }
}

#[cfg(test)]
pub mod tests {
    use super::*;
    use std::collections::{BTreeMap, BTreeSet};

    const LINES_BEFORE: u32 = 0x8afc5bfe;

    fn stored() -> Vec<Case> {
        let mut plan = Plan::new(crate::STORED_SEED);
        plan.stored(crate::STORED_RANDOM);
        plan.cases
    }

    fn stored_texts() -> Vec<Case> {
        let mut alone = Plan::new(1);
        alone.all_texts();
        stored()[BEFORE..][..alone.cases.len()].to_vec()
    }

    #[test]
    fn the_cases_before_stay() {
        let text: String = stored()[..BEFORE].iter().map(|case| case.line() + "\n").collect();
        assert_eq!(digest(text.as_bytes()), LINES_BEFORE);
    }

    fn made(text: &[u8]) -> [u32; 4] {
        let made = emulator::make(text, &mut [0; 40000]);
        [made.number, made.line, made.column, made.count]
    }

    /// The lines that are written out above are refused as they say, alone and where they stand in a case.
    #[test]
    fn the_lines_are_refused_as_they_say() {
        let bytes = BYTES.iter().map(|&(line, column)| (line, 68, column));
        let early = EARLY.iter().map(|&line| (line, 69, line.len() as u32 + 1));
        let all: Vec<Refused> = REFUSED.into_iter().chain(bytes).chain(early).collect();
        assert_eq!(all.iter().map(|refused| refused.0).collect::<BTreeSet<_>>().len(), all.len());
        for (line, number, column) in all {
            assert_eq!(made(line), [number, 1, column, 0], "{:?}", String::from_utf8_lossy(line));
            for (before, lines, columns) in BEFORE_IT {
                for behind in BEHIND_IT {
                    let text = [before, line, behind].concat();
                    assert_eq!(made(&text), [number, lines + 1, columns + column, 0], "{:?}", String::from_utf8_lossy(&text));
                }
            }
        }
        for text in GOOD {
            assert_eq!(made(text)[0], 0, "{:?}", String::from_utf8_lossy(text));
        }
    }

    // ---- the answers once more, by rules of which each can be made wrong

    /// The rules with one of them wrong, by the name of the mistake; all are right if it is empty. A text is read
    /// character by character here, and each word moves from one place of the instruction to another.
    #[derive(Clone, Copy)]
    pub struct Rules(&'static str);

    pub const RIGHT: Rules = Rules("");

    /// What has to stand next.
    #[derive(Clone, Copy, PartialEq, Eq, Debug)]
    enum At {
        First,
        Choice,
        Function,
        Source,
        Place,
        Register,
        Which,
        Setting,
        Number,
        Mode,
        Address,
        From,
        Mod,
        Amount,
        Size,
        Flip,
        Byte(usize),
        /// Behind a source, behind its flip, behind the register of a store, behind all.
        Moves,
        Flipped,
        Held,
        Whole,
    }

    const FUNCTIONS: &str = "zero nor 2 not clear loadnot xor nand and xnor load 11 keep ornot or one";

    impl Rules {
        fn is(&self, name: &str) -> bool {
            self.0 == name
        }

        /// The number for a word that may not stand at a place. A mistake by the name of the place has another number.
        fn number(&self, place: &str, right: u32) -> u32 {
            self.0.strip_prefix(place).and_then(|number| number.trim_start().parse().ok()).unwrap_or(right)
        }

        // ---- words

        fn same(&self, word: &[u8], other: &str) -> bool {
            let mut word = word.to_vec();
            if self.is("capital letters are small") {
                word.make_ascii_lowercase();
            }
            if self.is("words are cut to eight") {
                word.truncate(8);
            }
            if self.is("words are cut to seven") && other.len() == 7 {
                word.truncate(7);
            }
            if self.is("the top bit is lost") {
                word.iter_mut().for_each(|byte| *byte %= 128);
            }
            if self.is("a 0 ends a word") {
                word.truncate(word.iter().position(|&byte| byte == 0).unwrap_or(word.len()));
            }
            if self.is("control characters are passed over") {
                word.retain(|&byte| byte > 31 && byte != 127);
            }
            if self.is("words may be longer") && word.len() > other.len() && other.len() > 3 {
                word.truncate(other.len());
            }
            if self.is("words may be shorter") && word.len() > 3 && word.len() < other.len() {
                return other.as_bytes().starts_with(&word);
            }
            if self.is("words is word") && other == "word" && word == b"words" {
                return true;
            }
            word == other.as_bytes()
        }

        fn among(&self, word: &[u8], others: &str) -> Option<u8> {
            others.split(' ').position(|other| self.same(word, other)).map(|place| place as u8)
        }

        fn decimal(&self, word: &[u8]) -> Option<u8> {
            let mut digits = word;
            if self.is("a sign before a number") && word.first() == Some(&b'+') {
                digits = &word[1..];
            }
            if self.is("any number of zeros in front") {
                while digits.len() > 3 && digits[0] == b'0' {
                    digits = &digits[1..];
                }
            }
            let most = if self.is("numbers of two digits") { 2 } else if self.is("numbers wrap at 2^32") || self.is("numbers wrap at 256") { 20 } else { 3 };
            if digits.is_empty() || digits.len() > most || !digits.iter().all(|digit| digit.is_ascii_digit()) {
                return None;
            }
            if self.is("no zeros in front of numbers") && digits.len() > 1 && digits[0] == b'0' {
                return None;
            }
            if self.is("zeros in front are octal") && digits.len() > 1 && digits[0] == b'0' {
                return u8::from_str_radix(std::str::from_utf8(digits).unwrap(), 8).ok();
            }
            let value = digits.iter().fold(0u64, |value, digit| (10 * value + (digit - b'0') as u64) % (1 << 32));
            match value {
                _ if self.is("numbers wrap at 256") => Some((value % 256) as u8),
                _ if self.is("numbers over 255 are 255") => Some(value.min(255) as u8),
                256 if self.is("256 is a number") => Some(0),
                255 if self.is("255 is no number") => None,
                _ => u8::try_from(value).ok(),
            }
        }

        fn function(&self, word: &[u8]) -> Option<u8> {
            let names = match self.0 {
                "not and loadnot exchanged" => FUNCTIONS.replace("loadnot", "?").replace("not", "loadnot").replace("?", "not").replace("orloadnot", "ornot"),
                "clear and ornot exchanged" => FUNCTIONS.replace("clear", "?").replace("ornot", "clear").replace('?', "ornot"),
                "nor and nand exchanged" => FUNCTIONS.replace("nor ", "? ").replace("nand", "nor").replace("? ", "nand ").replace("xnand", "xnor"),
                "keep and load exchanged" => FUNCTIONS.replace(" load ", " ? ").replace("keep", "load").replace('?', "keep"),
                _ => FUNCTIONS.to_string(),
            };
            let number = || match self.decimal(word) {
                _ if self.is("no functions by number") => None,
                Some(16) if self.is("16 is a function") => Some(0),
                Some(value) if self.is("functions by number wrap") => Some(value % 16),
                Some(15) if self.is("15 is no function by number") => None,
                Some(_) if self.is("functions of one or two digits") && word.len() > 2 => None,
                Some(_) if self.is("functions without zeros in front") && word.len() > 1 && word[0] == b'0' => None,
                value => value.filter(|&value| value < 16),
            };
            self.among(word, &names).or_else(number)
        }

        fn hex(&self, word: &[u8]) -> Option<u8> {
            let digit = |byte: u8| match byte {
                b'0'..=b'9' => Some(byte - b'0'),
                b'A'..=b'F' if !self.is("capital hex digits are refused") => Some(byte - b'A' + 10),
                b'a'..=b'f' if !self.is("small hex digits are refused") => Some(byte - b'a' + 10),
                b'G' | b'g' if self.is("G is a hex digit") => Some(16),
                b'+' if self.is("a sign before a hex digit") => Some(0),
                _ => None,
            };
            match word {
                &[high, low] if self.is("small and capital digits may not stand together") && high.is_ascii_lowercase() && low.is_ascii_uppercase() => None,
                &[high, low] => Some(digit(high)?.wrapping_mul(16).wrapping_add(digit(low)?)),
                &[low] if self.is("one hex digit is a byte") => digit(low),
                &[b'0', high, low] if self.is("three hex digits are a byte") => Some(digit(high)?.wrapping_mul(16).wrapping_add(digit(low)?)),
                _ => None,
            }
        }

        fn power(&self, word: &[u8], from: u8, to: u8) -> Option<u8> {
            let mut word = word;
            if self.is("powers with zeros in front") {
                while word.len() > 1 && word[0] == b'0' {
                    word = &word[1..];
                }
            }
            if self.is("exponents for powers") {
                return self.decimal(word).filter(|&power| from <= power && power <= to);
            }
            if self.is("powers are rounded") {
                return self.decimal(word).filter(|&value| value > 0).map(|value| value.ilog2() as u8).filter(|&power| from <= power && power <= to);
            }
            (from..=to).find(|&power| self.same(word, &(1u32 << power).to_string()))
        }

        // ---- instructions

        /// The tag and the mode of an access; the next word is its address, or that word comes first.
        fn place(&self, word: &[u8], b: &mut [u8; 8]) -> Option<At> {
            let (next, tag, mode) = match self.among(word, "slice word mode")? {
                0 => (At::Number, 1, if self.is("slice is mode 255") { 255 } else { 0 }),
                1 => (At::Number, 1, if self.is("word is mode 0") { 0 } else { 255 }),
                _ => (At::Mode, 0, 0),
            };
            (b[2], b[3]) = (tag, mode);
            Some(next)
        }

        fn registers(&self) -> &'static str {
            match self.0 {
                "x and y exchanged" => "m y x outside",
                "in is outside" => "m x y in",
                _ => "m x y outside",
            }
        }

        /// The word at a place: where the next one stands, or the number of the refusal.
        fn step(&self, at: At, word: &[u8], b: &mut [u8; 8]) -> Result<At, u32> {
            let store = b[0] == 2 || b[0] == 3;
            let wrong = |place: &str, right: u32| self.number(place, right);
            match at {
                At::First => {
                    let kind = self.among(word, "logic setm store mstore deliver resolve set bytes").ok_or(wrong("first", 60))?;
                    b[0] = kind % 7;
                    Ok([At::Choice, At::Source, At::Place, At::Place, At::Source, At::Whole, At::Which, At::Byte(0)][kind as usize])
                }
                At::Choice => {
                    let names = match self.0 {
                        "x-if-y and x-if-y+y exchanged" => "x y both x-if-y+y x-if-y",
                        "both is x+y" => "x y x+y x-if-y x-if-y+y",
                        _ => "x y both x-if-y x-if-y+y",
                    };
                    b[7] = 16 * self.among(word, names).ok_or(wrong("choice", 61))?;
                    Ok(At::Function)
                }
                At::Function => {
                    b[7] += self.function(word).ok_or(wrong("function", 62))?;
                    if self.is("choice and function exchanged") {
                        b[7] = b[7].rotate_left(4);
                    }
                    Ok(At::Source)
                }
                At::Source => {
                    if let Some(register) = self.among(word, self.registers()) {
                        b[1] = register + 1;
                        return Ok(At::Moves);
                    }
                    self.place(word, b).ok_or(wrong("source", 63))
                }
                At::Place => self.place(word, b).ok_or(wrong("place", 63)),
                At::Register => {
                    if self.is("stores from places") && self.among(word, "slice word mode").is_some() {
                        return Ok(At::Whole);
                    }
                    b[1] = 1 + self.among(word, self.registers()).ok_or(wrong("register", 63))?;
                    Ok(At::Held)
                }
                At::Which => {
                    b[2] = 2 + self.among(word, if self.is("set a and b exchanged") { "b a" } else { "a b" }).ok_or(wrong("which", 63))?;
                    Ok(At::Setting)
                }
                At::Setting => {
                    b[3] = self.decimal(word).ok_or(wrong("setting", 64))?;
                    if self.is("set has the mode in byte 4") {
                        b.swap(3, 4);
                    }
                    Ok(At::Whole)
                }
                At::Number => {
                    b[4] = self.decimal(word).ok_or(wrong("number", 64))?;
                    Ok(if store { At::From } else { At::Moves })
                }
                At::Mode => {
                    let given = self.decimal(word);
                    (b[2], b[3]) = match self.among(word, if self.is("mode a and b exchanged") { "b a" } else { "a b" }) {
                        Some(which) => (2 + which, if self.is("mode a has byte 3") { 255 } else { 0 }),
                        None => (1, given.ok_or(wrong("mode", 64))?),
                    };
                    if self.is("mode 0 is slice alone") && given == Some(0) || self.is("mode 255 is word alone") && given == Some(255) {
                        return Err(64);
                    }
                    Ok(At::Address)
                }
                At::Address if self.is("address may be left out") && self.decimal(word).is_some() => self.step(At::Number, word, b),
                At::Address => self.same(word, "address").then_some(At::Number).ok_or(wrong("address", 65)),
                At::From if self.is("from may be left out") && self.among(word, self.registers()).is_some() => self.step(At::Register, word, b),
                At::From => self.same(word, "from").then_some(At::Register).ok_or(wrong("from", 65)),
                At::Mod if self.is("mod may be left out") && self.power(word, 1, 8).is_some() => self.step(At::Size, word, b),
                At::Mod => self.same(word, "mod").then_some(At::Size).ok_or(wrong("mod", 65)),
                At::Amount => {
                    b[6] = self.power(word, 0, if self.is("256 behind shift") { 8 } else { 7 }).ok_or(wrong("amount", 66))?;
                    Ok(At::Mod)
                }
                At::Size => {
                    let (m, from) = (b[6], if self.is("mod 1") { 0 } else { 1 });
                    let fits = |p: &u8| m < *p || self.is("mod not below the amount") && m == *p || self.is("mod below the amount");
                    let p = self.power(word, from, if self.is("mod 256 is refused") { 7 } else { 8 }).filter(fits).ok_or(wrong("size", 66))?;
                    b[6] = if self.is("byte 6 is 16m + p") { 16 * m + p } else { 16 * p + m };
                    Ok(At::Whole)
                }
                At::Flip => {
                    b[5] = self.decimal(word).ok_or(wrong("flip", 64))?;
                    if self.is("flip 0 is refused") && b[5] == 0 {
                        return Err(64);
                    }
                    Ok(if self.is("two flips") { At::Moves } else if store { At::Whole } else { At::Flipped })
                }
                At::Byte(k) => {
                    b[k] = self.hex(word).ok_or(wrong("byte", 68))?;
                    Ok(if k < 7 { At::Byte(k + 1) } else { At::Whole })
                }
                At::Moves if self.same(word, "flip") => Ok(At::Flip),
                At::Moves | At::Flipped if self.same(word, "shift") => Ok(At::Amount),
                At::Held if self.same(word, "flip") && !self.is("no flip on a store") => Ok(At::Flip),
                At::Held if self.same(word, "shift") && self.is("shift on a store") => Ok(At::Amount),
                At::Whole if store && self.same(word, "shift") && self.is("shift behind the flip of a store") => Ok(At::Amount),
                At::Whole if b[6] != 0 && self.same(word, "flip") && self.is("flip behind shift") => Ok(At::Flip),
                At::Whole if b[6] != 0 && self.same(word, "shift") && self.is("two shifts") => Ok(At::Amount),
                At::Whole if self.is("a ninth byte is 68") && self.hex(word).is_some() && b[7] == 7 => Err(68),
                At::Moves => Err(wrong("moves", 67)),
                At::Flipped => Err(wrong("flipped", 67)),
                At::Held if self.same(word, "shift") => Err(wrong("shifted store", 67)),
                At::Held => Err(wrong("held", 67)),
                At::Whole if self.is("more is passed over") => Ok(At::Whole),
                At::Whole => Err(wrong("whole", 67)),
            }
        }

        /// Whether an instruction may end here.
        fn ends(&self, at: At, b: &[u8; 8]) -> bool {
            match at {
                At::Moves | At::Flipped | At::Held | At::Whole => true,
                At::Byte(_) if self.is("bytes that are left out are 0") => true,
                At::Setting if self.is("set without a number is 0") => true,
                At::Number if self.is("an address that is left out is 0") => b[0] != 2 && b[0] != 3,
                At::Mod if self.is("shift without mod is mod 256") => true,
                _ => false,
            }
        }

        /// Number, line, column and count; and what then stands in the list buffer.
        pub fn make(&self, text: &[u8], list: &mut [u8]) -> [u32; 4] {
            let blanks: &[u8] = match self.0 {
                "tab is no blank" => b" \r",
                "carriage return is no blank" => b" \t",
                "blank is no blank" => b"\t\r",
                "0 is a blank" => b" \t\r\x00",
                "127 is a blank" => b" \t\r\x7f",
                "160 is a blank" => b" \t\r\xa0",
                "form feed is a blank" => b" \t\r\x0c",
                "vertical tab is a blank" => b" \t\r\x0b",
                "255 is a blank" => b" \t\r\xff",
                "a comma is a blank" => b" \t\r,",
                "a line feed is a blank" => b" \t\r\n",
                "control characters are blanks" => b" \t\r\x00\x0b\x0c\x1b\x1f",
                _ => b" \t\r",
            };
            let glued = self.is("; inside a word is part of it");
            let forever = self.is("a comment runs to the text's end");
            let second = self.is("a second ; ends the comment");
            let returns = self.is("carriage return ends a line");
            let stops = self.is("tabs go to the next eight");
            let wide = self.is("a tab is two columns");
            let no_returns = self.is("carriage returns have no column");
            let (mut line, mut column, mut empty) = (1, 1, 0);
            let (mut at, mut b, mut comment) = (At::First, [0u8; 8], false);
            let (mut word, mut start, mut first, mut behind, mut words) = (vec![], 1, 1, 1, 0);
            let (mut refused, mut bytes): (Vec<[u32; 3]>, Vec<u8>) = (vec![], vec![]);
            let last = if self.is("the last line without a line feed is not read") { text.iter().rposition(|&c| c == 10).map_or(0, |at| at + 1) } else { text.len() + 1 };
            for k in 0..last.min(text.len() + 1) {
                let c = text.get(k).copied();
                let blank = c.is_some_and(|c| blanks.contains(&c));
                let ends = c.is_none() || c == Some(10) && !blank || returns && c == Some(13);
                let opens = c == Some(b';') && !comment && !(glued && !word.is_empty());
                if !comment && !word.is_empty() && (blank || ends || opens) {
                    words += 1;
                    match self.step(at, &word, &mut b) {
                        Ok(next) => at = next,
                        Err(number) => {
                            let column = match self.0 {
                                "the column of a word's last character" => start + word.len() as u32 - 1,
                                "the column behind a word" => start + word.len() as u32,
                                "columns count words" => words,
                                "column 1 always" => 1,
                                "the column in the text" => k as u32 + 1 - word.len() as u32,
                                _ => start,
                            };
                            refused.push([number, line, column]);
                        }
                    }
                    if words == 1 {
                        first = start;
                    }
                    behind = column;
                    word.clear();
                }
                if !comment && (ends || opens) {
                    let none = at == At::First && words == 0;
                    if none && (self.is("empty lines are refused") && c.is_some() || self.is("an empty text is refused") && text.is_empty()) {
                        refused.push([69, line, column]);
                    } else if !none && at != At::First && !self.ends(at, &b) {
                        let early = match self.0 {
                            "69 at the line's start" => 1,
                            "69 at the first word" => first,
                            "69 at the last word" => start,
                            "69 right behind the last word" => behind,
                            "69 at the last blank" => column.max(2) - 1,
                            "69 behind the comment" => column + text[k..].iter().position(|&c| c == 10).unwrap_or(text.len() - k) as u32,
                            "69 behind the ;" if opens => column + 1,
                            "69 before a carriage return" if k > 0 && text[k - 1] == 13 => column - 1,
                            "69 at the next line" if c == Some(10) => 1,
                            _ => column,
                        };
                        let next = self.is("69 at the next line") && c == Some(10);
                        refused.push([self.number("early", 69), if next { line + 1 } else { line }, early]);
                    } else if !none && at != At::First {
                        bytes.extend(b);
                    } else if none && opens && self.is("a comment alone is an instruction") {
                        bytes.extend([0; 8]);
                    }
                    if none && ends {
                        empty += 1;
                    }
                    (at, b, words) = (At::First, [0; 8], 0);
                }
                if opens {
                    comment = true;
                } else if comment && second && c == Some(b';') {
                    comment = false;
                } else if !comment && !blank && !ends {
                    if word.is_empty() {
                        start = column;
                    }
                    word.extend(c);
                }
                if ends && !(forever && comment) {
                    comment = false;
                }
                match c {
                    _ if ends => {
                        line += 1;
                        column = 1;
                    }
                    Some(9) if stops => column = (column - 1) / 8 * 8 + 9,
                    Some(9) if wide => column += 2,
                    Some(13) if no_returns => {}
                    _ => column += 1,
                }
                let behind_refused = refused.first().is_some_and(|first| first[1] < line);
                if behind_refused && !["the last refused line", "refused lines are passed over", "33 before the lines", "3 before the lines"].contains(&self.0) {
                    break;
                }
            }
            let count = bytes.len();
            let refuse = |number: u32| {
                let (line, column) = match self.0 {
                    "3 and 33 have the last line" => (line - 1, 1),
                    "3 and 33 have line and column 1" => (1, 1),
                    _ => (0, 0),
                };
                Some([number, line, column, 0])
            };
            let most = match self.0 {
                "3 over 4,095" => 8 * 4095,
                "3 over 4,097" => 8 * 4097,
                "3 never" => usize::MAX,
                "3 at 4,096" => 8 * 4096 - 1,
                _ => 8 * 4096,
            };
            let too_many = || if count > most { refuse(3) } else { None };
            let short = match self.0 {
                "33 unless longer" => list.len() <= count && count > 0,
                "33 by whole instructions of eight" => list.len() / 8 < count / 8 + (list.len() % 8 != 0) as usize,
                "33 never" => false,
                "33 of an empty buffer" => list.is_empty() || list.len() < count,
                "33 under the text" => list.len() < text.len().min(count + 8),
                "33 over the list" => list.len() != count,
                _ => list.len() < count,
            };
            let too_short = || if short { refuse(33) } else { None };
            let named = || {
                let spot = if self.is("the last refused line") { refused.iter().rev().find(|spot| spot[1] == refused[refused.len() - 1][1]) } else { refused.first() };
                let spot = if self.is("the last refused word") { spot.and_then(|spot| refused.iter().rev().find(|other| other[1] == spot[1])) } else { spot };
                let &[number, mut line, mut column] = spot?;
                match self.0 {
                    "columns from 0" => column -= 1,
                    "lines from 0" => line -= 1,
                    "lines count without empty ones" => line -= empty.min(line - 1),
                    "lines count instructions" => line = count as u32 / 8 + 1,
                    "lines modulo 256" => line %= 256,
                    "columns modulo 256" => column %= 256,
                    "line and column exchanged" => (line, column) = (column, line),
                    "no line and column" => (line, column) = (0, 0),
                    _ => {}
                }
                let made = if self.is("a refusal counts what was made") { count as u32 } else { 0 };
                Some([number, line, column, made])
            };
            let answer = match self.0 {
                "33 before the lines" => too_short().or_else(named).or_else(too_many),
                "3 before the lines" => too_many().or_else(named).or_else(too_short),
                "33 before 3" => named().or_else(too_short).or_else(too_many),
                "refused lines are passed over" => too_many().or_else(too_short),
                _ => named().or_else(too_many).or_else(too_short),
            };
            let fits = count.min(list.len());
            if let Some(answer) = answer {
                if self.is("a refusal writes what was made") || self.is("33 writes what fits") && answer[0] == 33 {
                    list[..fits].copy_from_slice(&bytes[..fits]);
                }
                if self.is("a refusal clears the buffer") {
                    list.fill(0);
                }
                return answer;
            }
            if self.is("bytes that a run refuses are refused") {
                if let Some(k) = bytes.chunks(8).position(|b| self.fault(b, [true; 2]).is_some()) {
                    return [5, k as u32 + 1, 1, 0];
                }
            }
            list[..fits].copy_from_slice(&bytes[..fits]);
            match self.0 {
                "done clears the rest" => list[fits..].fill(0),
                "done ends with a 0" if fits < list.len() => list[fits] = 0,
                _ => {}
            }
            match self.0 {
                "done has the last line" => [0, line - 1, 0, count as u32],
                "the count is in instructions" => [0, 0, 0, count as u32 / 8],
                "the count is that of the buffer" => [0, 0, 0, list.len() as u32],
                _ => [0, 0, 0, count as u32],
            }
        }

        // ---- what a run refuses, and the mode registers

        /// Number and byte, by the table of the offending byte.
        pub fn fault(&self, b: &[u8], set: [bool; 2]) -> Option<(u32, u32)> {
            let (k, store) = (b[0], b[0] == 2 || b[0] == 3);
            let touched = store || (k < 2 || k == 4) && b[1] == 0;
            let (p, m) = (b[6] / 16, b[6] % 16);
            let one = |byte: u32, wrong: bool| if wrong { vec![byte] } else { vec![] };
            let not_0 = |bytes: &[u32]| bytes.iter().copied().filter(|&byte| b[byte as usize] != 0).collect::<Vec<u32>>();
            let mut rows = vec![
                (5, one(0, k > 6)),
                (6, one(1, b[1] > 4 || b[1] == 0 && store || b[1] != 0 && (k == 5 || k == 6))),
                (7, one(2, (touched || k == 6) && b[2] == 0)),
                (8, one(2, (touched || k == 6) && b[2] > 3 || k == 6 && b[2] == 1)),
                (9, not_0(if k == 6 { &[4] } else if !touched { &[2, 3, 4] } else if b[2] == 2 || b[2] == 3 { &[3] } else { &[] })),
                (14, one(2, touched && (b[2] == 2 && !set[0] || b[2] == 3 && !set[1]))),
                (18, not_0(if store { &[6] } else if k > 4 { &[5, 6] } else { &[] })),
                (16, one(6, p > 8)),
                (17, one(6, b[6] != 0 && m >= p)),
                (11, one(7, if k == 0 { b[7] >= 80 } else { b[7] != 0 })),
            ];
            match self.0 {
                "18 behind 16" => rows.swap(6, 7),
                "16 and 17 exchanged" => rows.swap(7, 8),
                "11 is judged first" => rows.rotate_right(1),
                "9 behind 18" => rows.swap(4, 6),
                "6 behind 7 and 8" => rows[1..4].rotate_left(1),
                _ => {}
            }
            let unjudged = self.0.strip_suffix(" is not judged").and_then(|number| number.parse().ok()).unwrap_or(0);
            let found = rows.iter().filter(|row| row.0 != unjudged).find_map(|(number, bytes)| bytes.iter().min().map(|&byte| (*number, byte)));
            match self.0 {
                "18, 16 and 17 are 10" => found.map(|(number, byte)| (if (16..=18).contains(&number) { 10 } else { number }, byte)),
                "bytes from 1" => found.map(|(number, byte)| (number, byte + 1)),
                "no byte is named" => found.map(|(number, _)| (number, 0)),
                _ => found,
            }
        }

        /// What the registers hold behind an instruction.
        fn follow(&self, b: &[u8], held: [Option<u8>; 2]) -> [Option<u8>; 2] {
            let which = match b[2] {
                2 => 0,
                3 => 1,
                0 if self.is("kind 6 with tag 0 sets A") => 0,
                1 if self.is("kind 6 with tag 1 sets A") => 0,
                4.. if self.is("kind 6 with a tag over 3 sets B") => 1,
                128.. if self.is("kind 6 sets by the low bits of its tag") && (2..4).contains(&(b[2] % 128)) => b[2] as usize % 2,
                _ => return held,
            };
            let kind = b[0] == 6 || self.is("any kind sets") || self.is("kinds over 127 set") && b[0] % 128 == 6;
            let odd = self.0.strip_prefix("kind 6 does not set with byte ").and_then(|byte| byte.parse::<usize>().ok()).is_some_and(|byte| b[byte] != 0);
            let refused = self.is("a refused kind 6 does not set") && self.fault(b, [true; 2]).is_some();
            let again = self.is("kind 6 sets once") && held[which].is_some();
            if !kind || odd || refused || again {
                return held;
            }
            let mut held = held;
            match self.0 {
                "kind 6 sets the other" => held[1 - which] = Some(b[3]),
                "kind 6 sets both" => held = [Some(b[3]); 2],
                "kind 6 sets to 0" => held[which] = Some(0),
                "kind 6 sets from byte 4" => held[which] = Some(b[4]),
                "kind 6 sets A alone" => held[0] = Some(b[3]),
                _ => held[which] = Some(b[3]),
            }
            held
        }

        /// What the registers hold at an instruction: by all before it.
        fn held(&self, start: [Option<u8>; 2], list: &[u8]) -> Vec<[Option<u8>; 2]> {
            let mut all = vec![start];
            for b in list.chunks(8) {
                all.push(self.follow(b, all[all.len() - 1]));
            }
            let count = list.len() / 8;
            match self.0 {
                "the registers at the end" => vec![all[count]; count],
                "the registers at the start" => vec![all[0]; count],
                "kind 6 sets one instruction late" => std::iter::once(start).chain(all).take(count).collect(),
                "kind 6 sets one instruction early" => all[1..].iter().copied().chain([all[count]]).skip(1).take(count).collect(),
                "a later kind 6 counts" => all[..count].iter().map(|held| [held[0].or(all[count][0]), held[1].or(all[count][1])]).collect(),
                _ => {
                    all.truncate(count);
                    all
                }
            }
        }

        /// How many words a store reaches; none if its register is unset.
        fn reaches(&self, b: &[u8], held: [Option<u8>; 2]) -> Option<u32> {
            let held = match self.0 {
                "tags 2 and 3 exchanged" => [held[1], held[0]],
                "A for both" => [held[0]; 2],
                "unset is mode 0" => held.map(|mode| mode.or(Some(0))),
                "unset is mode 255" => held.map(|mode| mode.or(Some(255))),
                _ => held,
            };
            let mode = match b[2] {
                2 | 3 if self.is("byte 3 for every tag") => b[3],
                2 => held[0]?,
                3 => held[1]?,
                _ => b[3],
            };
            match self.0 {
                "set bits and not zero bits" => Some(1 << mode.count_ones()),
                "the number of zero bits" => Some(mode.count_zeros()),
                "256 less the mode" => Some(256 - mode as u32),
                "all words with mode 0 and one with others" => Some(if mode == 0 { 256 } else { 1 }),
                "zeros at the front alone" => Some(1 << mode.leading_zeros()),
                "zeros at the end alone" => Some(1 << mode.trailing_zeros()),
                "bits and not words" => Some(256 >> mode.count_zeros()),
                "a masked store reaches 256" if b[0] == 3 => Some(256),
                "the flip counts" => Some((1 << mode.count_zeros()) >> (b[5] & !mode).count_ones()),
                _ => Some(1 << mode.count_zeros()),
            }
        }

        // ---- the text of a list

        fn decimals(&self, number: u8) -> String {
            if self.is("numbers with zeros in front") { format!("{:03}", number) } else { number.to_string() }
        }

        fn place_of(&self, b: &[u8]) -> String {
            let (mode, address) = (b[3], self.decimals(b[4]));
            let registers = if self.is("mode a and b exchanged") { ["b", "a"] } else { ["a", "b"] };
            match b[2] {
                1 if mode == 0 && !self.is("no slices") => format!("slice {}", address),
                1 if mode == 255 && !self.is("no words") => format!("word {}", address),
                1 => format!("mode {} address {}", self.decimals(mode), address),
                tag => format!("mode {} address {}", registers[tag as usize % 2], address),
            }
        }

        fn source_of(&self, b: &[u8]) -> String {
            match b[1] {
                0 => self.place_of(b),
                register => self.registers().split(' ').nth(register as usize - 1).unwrap_or("?").to_string(),
            }
        }

        fn moves_of(&self, b: &[u8]) -> String {
            let mut said = String::new();
            if b[5] != 0 || self.is("flip 0 is shown") {
                said += &format!(" flip {}", self.decimals(b[5]));
            }
            if b[6] != 0 {
                let (p, m) = (b[6] / 16, b[6] % 16);
                said += &match self.0 {
                    "exponents for powers" => format!(" shift {} mod {}", m, p),
                    "mod before shift" => format!(" mod {} shift {}", 1 << p, 1 << m),
                    "mod 256 is left out" if p == 8 => format!(" shift {}", 1 << m),
                    _ => format!(" shift {} mod {}", 1 << m, 1 << p),
                };
            }
            if self.is("shift before flip") && b[5] != 0 && b[6] != 0 {
                let at = said.find(" shift").unwrap();
                said = format!("{}{}", &said[at..], &said[..at]);
            }
            said
        }

        fn line_of(&self, b: &[u8], held: [Option<u8>; 2]) -> String {
            let judged = if self.is("14 is shown as bytes") { held.map(|mode| mode.is_some()) } else { [true; 2] };
            if let Some((number, byte)) = self.fault(b, judged) {
                let digits: Vec<String> = b.iter().map(|byte| if self.is("small hex digits") { format!("{:02x}", byte) } else { format!("{:02X}", byte) }).collect();
                let digits = digits.join(if self.is("no blanks between bytes") { "" } else { " " });
                return match self.0 {
                    "no comment behind bytes" => format!("bytes {}", digits),
                    "no byte in the comment" => format!("bytes {} ; refused {}", digits, number),
                    "no number in the comment" => format!("bytes {} ; refused byte {}", digits, byte),
                    "a colon in the comment" => format!("bytes {} ; refused: {} byte {}", digits, number, byte),
                    "no blank behind ;" => format!("bytes {} ;refused {} byte {}", digits, number, byte),
                    _ => format!("bytes {} ; refused {} byte {}", digits, number, byte),
                };
            }
            let (choices, functions) = (["x", "y", "both", "x-if-y", "x-if-y+y"], FUNCTIONS.split(' ').collect::<Vec<_>>());
            let (choice, function) = (b[7] as usize / 16, b[7] as usize % 16);
            let function = match self.0 {
                "functions by number" => function.to_string(),
                "a name for 2" if function == 2 => "andnot".to_string(),
                "not and loadnot exchanged" if function == 3 || function == 5 => functions[8 - function].to_string(),
                "clear and ornot exchanged" if function == 4 || function == 13 => functions[17 - function].to_string(),
                _ => functions[function].to_string(),
            };
            let choice = if self.is("x-if-y and x-if-y+y exchanged") && choice > 2 { choices[7 - choice] } else { choices.get(choice).unwrap_or(&"?") };
            let said = match b[0] {
                0 => format!("logic {} {} {}{}", choice, function, self.source_of(b), self.moves_of(b)),
                1 => format!("setm {}{}", self.source_of(b), self.moves_of(b)),
                2 | 3 => format!("{} {} from {}{}", ["store", "mstore"][b[0] as usize - 2], self.place_of(b), self.source_of(b), self.moves_of(b)),
                4 => format!("deliver {}{}", self.source_of(b), self.moves_of(b)),
                5 => "resolve".to_string(),
                _ => format!("set {} {}", if (b[2] == 2) != self.is("set a and b exchanged") { "a" } else { "b" }, self.decimals(b[3])),
            };
            let store = b[0] == 2 || b[0] == 3 && !self.is("no count behind masked stores") || self.is("counts behind reads") && b[0] != 5 && b[0] != 6 && b[1] == 0;
            if !store || self.is("no counts") {
                return said;
            }
            let by_register = b[2] == 2 || b[2] == 3;
            match self.reaches(b, held) {
                _ if self.is("no counts by registers") && by_register => said,
                _ if self.is("counts by registers alone") && !by_register => said,
                _ if self.is("? for every register") && by_register => format!("{} ; reaches ? words", said),
                None if self.is("nothing where it is unset") => said,
                None if self.is("? word") => format!("{} ; reaches ? word", said),
                None if self.is("unset reaches 0 words") => format!("{} ; reaches 0 words", said),
                None => format!("{} ; reaches ? words", said),
                Some(1) if !self.is("1 words") => format!("{} ; reaches 1 word", said),
                Some(count) if self.is("word for all") => format!("{} ; reaches {} word", said, count),
                Some(256) if self.is("all words") => format!("{} ; reaches all words", said),
                Some(count) => format!("{} ; reaches {} words", said, count),
            }
        }

        fn bad_length(&self, list: &[u8]) -> bool {
            match self.0 {
                "3 at 32,768" => list.len() % 8 != 0 || list.len() >= 32768,
                "3 from 32,769 on alone" => list.len() > 32768,
                "3 over 33,000" => list.len() % 8 != 0 || list.len() > 33000,
                "the empty list is refused" => list.is_empty() || list.len() % 8 != 0 || list.len() > 32768,
                _ => list.len() % 8 != 0 || list.len() > 32768,
            }
        }

        fn show(&self, list: &[u8], buffer: &mut [u8]) -> [u32; 2] {
            let start = if self.is("registers start with mode 0") { [Some(0); 2] } else { [None; 2] };
            let whole = &list[..list.len() / 8 * 8];
            let held = self.held(start, whole);
            let mut text = String::new();
            for (b, held) in whole.chunks(8).zip(held) {
                let mut line = self.line_of(b, held);
                match self.0 {
                    "a blank before ; is left out" => line = line.replace(" ;", ";"),
                    "two blanks before ;" => line = line.replace(" ;", "  ;"),
                    "a blank at the end" => line += " ",
                    "carriage returns" => line += "\r",
                    "no comments" => line.truncate(line.find(" ;").unwrap_or(line.len())),
                    "tabs between words" => line = line.replace(' ', "\t"),
                    _ => {}
                }
                text += &line;
                text += "\n";
            }
            if self.is("no last line feed") {
                text.pop();
            }
            let text = text.as_bytes();
            let short = match self.0 {
                "27 unless longer" => buffer.len() <= text.len() && !text.is_empty(),
                "27 never" => false,
                "27 without the last line feed" => buffer.len() + 1 < text.len(),
                "27 of an empty buffer" => buffer.is_empty() || buffer.len() < text.len(),
                _ => buffer.len() < text.len(),
            };
            let numbers = if self.is("27 before 3") { [(short, 27), (self.bad_length(list), 3)] } else { [(self.bad_length(list), 3), (short, 27)] };
            let fits = text.len().min(buffer.len());
            if let Some((_, number)) = numbers.into_iter().find(|number| number.0) {
                if self.is("27 writes what fits") && number == 27 {
                    buffer[..fits].copy_from_slice(&text[..fits]);
                }
                return [number, if self.is("27 says what it wants") { text.len() as u32 } else { 0 }];
            }
            buffer[..fits].copy_from_slice(&text[..fits]);
            match self.0 {
                "done clears the rest" => buffer[fits..].fill(0),
                "done ends with a 0" if fits < buffer.len() => buffer[fits] = 0,
                _ => {}
            }
            let lines = text.iter().filter(|&&c| c == 10).count();
            [0, if self.is("the count is in lines") { lines as u32 } else { text.len() as u32 }]
        }

        // ---- what a store reaches

        fn reach(&self, registers: &[u8], list: &[u8], buffer: &mut [u8]) -> [u32; 2] {
            let four = registers.get(96..100).unwrap_or(&[0; 4]);
            let start = [(four[0] == 1).then_some(four[1]), (four[2] == 1).then_some(four[3])];
            let start = match self.0 {
                "registers start unset" => [None; 2],
                "registers start with mode 0" => start.map(|mode| mode.map(|_| 0)),
                _ => start,
            };
            let whole = &list[..list.len() / 8 * 8];
            let mut bytes = vec![];
            let mut refused_before = false;
            for (b, held) in whole.chunks(8).zip(self.held(start, whole)) {
                let set = if self.is("14 is judged by the start") { start.map(|mode| mode.is_some()) } else { held.map(|mode| mode.is_some()) };
                let fault = self.fault(b, set);
                let stores = match self.0 {
                    "masked stores reach nothing" => b[0] == 2,
                    "reads reach" => b[0] < 5 && (b[1] == 0 || b[0] == 2 || b[0] == 3),
                    _ => b[0] == 2 || b[0] == 3,
                };
                let counted = fault.is_none() || self.is("what is refused reaches too") && stores;
                let mut count = if stores && counted { self.reaches(b, held).unwrap_or(0) } else { 0 };
                if self.is("an unset register reaches 256") && stores && fault.is_some_and(|fault| fault.0 == 14) {
                    count = 256;
                }
                if refused_before && self.is("nothing behind a refused one") {
                    count = 0;
                }
                refused_before |= fault.is_some();
                match self.0 {
                    "high byte first" => bytes.extend([(count / 256) as u8, count as u8]),
                    "256 is 255" => bytes.extend([count.min(255) as u8, 0]),
                    "the low byte alone" => bytes.extend([count as u8, 0]),
                    "one byte each" => bytes.push(count as u8),
                    "only stores have bytes" if !stores => {}
                    _ => bytes.extend([count as u8, (count / 256) as u8]),
                }
            }
            if refused_before && self.is("a refused list reaches nothing") {
                bytes.fill(0);
            }
            let flags = four.chunks(2).any(|pair| pair[0] > 1 && !self.is("flags over 1 stand") || pair[0] == 0 && pair[1] != 0 && !self.is("a mode with flag 0 stands"));
            let length = match self.0 {
                "96 registers stand" => registers.len() != 100 && registers.len() != 96,
                "104 registers stand" => registers.len() < 100,
                _ => registers.len() != 100,
            };
            let short = match self.0 {
                "27 unless longer" => buffer.len() <= bytes.len() && !bytes.is_empty(),
                "27 under a byte each" => buffer.len() < bytes.len() / 2,
                "27 never" => false,
                "27 of an empty buffer" => buffer.is_empty() || buffer.len() < bytes.len(),
                _ => buffer.len() < bytes.len(),
            };
            let bad = self.bad_length(list);
            let mut numbers = [(length, 2), (bad, 3), (flags, 15), (short, 27)];
            match self.0 {
                "3 before 2" => numbers.swap(0, 1),
                "15 before 3" => numbers.swap(1, 2),
                "27 before 15" => numbers.swap(2, 3),
                "27 before 3" => numbers[1..].rotate_right(1),
                "27 before 2" => numbers.rotate_right(1),
                "15 never" => numbers[2].0 = false,
                _ => {}
            }
            let fits = bytes.len().min(buffer.len());
            if let Some((_, number)) = numbers.into_iter().find(|number| number.0) {
                if self.is("27 writes what fits") && number == 27 {
                    buffer[..fits].copy_from_slice(&bytes[..fits]);
                }
                return [number, 0];
            }
            buffer[..fits].copy_from_slice(&bytes[..fits]);
            if self.is("done clears the rest") {
                buffer[fits..].fill(0);
            }
            [0, if self.is("the count is in instructions") { bytes.len() as u32 / 2 } else { bytes.len() as u32 }]
        }

        /// The numbers of an answer and the buffers afterwards.
        fn of(&self, case: &Case, lent: &Buffers) -> ([u32; NUMBERS], Buffers) {
            let mut buffers = lent.clone();
            let [_, registers, list, _, out, text] = &mut buffers;
            let numbers = match case.kind {
                SHOW => self.show(list, text).to_vec(),
                MAKE => self.make(text, list).to_vec(),
                _ => self.reach(registers, list, out).to_vec(),
            };
            let mut all = [0; NUMBERS];
            all[..numbers.len()].copy_from_slice(&numbers);
            (all, buffers)
        }
    }

    const WRONG_MAKE: [&str; 167] = [
        // numbers at places
        "first 61",
        "first 69",
        "choice 60",
        "choice 62",
        "function 61",
        "function 64",
        "source 60",
        "source 64",
        "place 64",
        "place 65",
        "register 65",
        "register 64",
        "which 64",
        "which 60",
        "number 63",
        "number 66",
        "setting 63",
        "setting 66",
        "flip 66",
        "flip 67",
        "mode 63",
        "mode 65",
        "address 64",
        "address 63",
        "from 63",
        "from 67",
        "mod 66",
        "mod 67",
        "amount 64",
        "amount 65",
        "size 64",
        "size 67",
        "moves 60",
        "moves 66",
        "flipped 66",
        "flipped 64",
        "shifted store 66",
        "shifted store 18",
        "held 65",
        "held 63",
        "whole 60",
        "whole 68",
        "byte 64",
        "byte 67",
        "early 60",
        "early 64",
        // words
        "capital letters are small",
        "words are cut to eight",
        "words are cut to seven",
        "the top bit is lost",
        "a 0 ends a word",
        "control characters are passed over",
        "words may be longer",
        "words may be shorter",
        "words is word",
        "a sign before a number",
        "any number of zeros in front",
        "numbers of two digits",
        "numbers wrap at 2^32",
        "numbers wrap at 256",
        "no zeros in front of numbers",
        "zeros in front are octal",
        "numbers over 255 are 255",
        "256 is a number",
        "255 is no number",
        "not and loadnot exchanged",
        "clear and ornot exchanged",
        "nor and nand exchanged",
        "keep and load exchanged",
        "no functions by number",
        "16 is a function",
        "functions by number wrap",
        "15 is no function by number",
        "functions of one or two digits",
        "functions without zeros in front",
        "capital hex digits are refused",
        "small hex digits are refused",
        "G is a hex digit",
        "a sign before a hex digit",
        "small and capital digits may not stand together",
        "one hex digit is a byte",
        "three hex digits are a byte",
        "powers with zeros in front",
        "exponents for powers",
        "powers are rounded",
        // instructions
        "slice is mode 255",
        "word is mode 0",
        "x and y exchanged",
        "in is outside",
        "x-if-y and x-if-y+y exchanged",
        "both is x+y",
        "choice and function exchanged",
        "stores from places",
        "set a and b exchanged",
        "set has the mode in byte 4",
        "mode a and b exchanged",
        "mode a has byte 3",
        "mode 0 is slice alone",
        "mode 255 is word alone",
        "address may be left out",
        "from may be left out",
        "mod may be left out",
        "256 behind shift",
        "mod not below the amount",
        "mod below the amount",
        "mod 256 is refused",
        "byte 6 is 16m + p",
        "flip 0 is refused",
        "two flips",
        "no flip on a store",
        "shift on a store",
        "shift behind the flip of a store",
        "flip behind shift",
        "two shifts",
        "a ninth byte is 68",
        "more is passed over",
        "bytes that are left out are 0",
        "set without a number is 0",
        "an address that is left out is 0",
        "shift without mod is mod 256",
        "bytes that a run refuses are refused",
        // lines, blanks and comments
        "tab is no blank",
        "carriage return is no blank",
        "blank is no blank",
        "0 is a blank",
        "127 is a blank",
        "160 is a blank",
        "255 is a blank",
        "form feed is a blank",
        "vertical tab is a blank",
        "a comma is a blank",
        "a line feed is a blank",
        "control characters are blanks",
        "; inside a word is part of it",
        "a comment runs to the text's end",
        "a second ; ends the comment",
        "carriage return ends a line",
        "the last line without a line feed is not read",
        "empty lines are refused",
        "an empty text is refused",
        "a comment alone is an instruction",
        // places
        "columns from 0",
        "lines from 0",
        "line and column exchanged",
        "no line and column",
        "lines count without empty ones",
        "lines count instructions",
        "lines modulo 256",
        "columns modulo 256",
        "columns count words",
        "column 1 always",
        "the column in the text",
        "the column of a word's last character",
        "the column behind a word",
        "tabs go to the next eight",
        "a tab is two columns",
        "carriage returns have no column",
        "the last refused line",
        "the last refused word",
        "refused lines are passed over",
        "69 at the line's start",
        "69 at the first word",
        "69 at the last word",
        "69 right behind the last word",
        "69 at the last blank",
        "69 behind the comment",
        "69 behind the ;",
    ];

    const WRONG_MADE: [&str; 27] = [
        "69 before a carriage return",
        "69 at the next line",
        // the list
        "33 before the lines",
        "3 before the lines",
        "33 before 3",
        "3 over 4,095",
        "3 over 4,097",
        "3 at 4,096",
        "3 never",
        "3 and 33 have the last line",
        "3 and 33 have line and column 1",
        "33 unless longer",
        "33 by whole instructions of eight",
        "33 never",
        "33 of an empty buffer",
        "33 under the text",
        "33 over the list",
        "33 writes what fits",
        "a refusal counts what was made",
        "a refusal writes what was made",
        "a refusal clears the buffer",
        "done clears the rest",
        "done ends with a 0",
        "done has the last line",
        "the count is in instructions",
        "the count is that of the buffer",
        "mod 1",
    ];

    /// What the registers hold, what a store reaches, and what is refused: of lists that are shown and of reaches.
    const WRONG_LISTS: [&str; 42] = [
        "a refused kind 6 does not set",
        "kind 6 does not set with byte 1",
        "kind 6 does not set with byte 4",
        "kind 6 does not set with byte 5",
        "kind 6 does not set with byte 6",
        "kind 6 does not set with byte 7",
        "kind 6 with tag 0 sets A",
        "kind 6 with tag 1 sets A",
        "kind 6 with a tag over 3 sets B",
        "kind 6 sets by the low bits of its tag",
        "any kind sets",
        "kinds over 127 set",
        "kind 6 sets once",
        "kind 6 sets the other",
        "kind 6 sets both",
        "kind 6 sets to 0",
        "kind 6 sets from byte 4",
        "kind 6 sets A alone",
        "the registers at the end",
        "the registers at the start",
        "kind 6 sets one instruction late",
        "kind 6 sets one instruction early",
        "a later kind 6 counts",
        "tags 2 and 3 exchanged",
        "A for both",
        "byte 3 for every tag",
        "set bits and not zero bits",
        "the number of zero bits",
        "256 less the mode",
        "all words with mode 0 and one with others",
        "zeros at the front alone",
        "zeros at the end alone",
        "bits and not words",
        "a masked store reaches 256",
        "the flip counts",
        "3 at 32,768",
        "3 from 32,769 on alone",
        "3 over 33,000",
        "the empty list is refused",
        "registers start with mode 0",
        "done clears the rest",
        "6 is not judged",
    ];

    const WRONG_SHOW: [&str; 64] = [
        "unset is mode 0",
        "unset is mode 255",
        "14 is shown as bytes",
        "18 behind 16",
        "16 and 17 exchanged",
        "11 is judged first",
        "9 behind 18",
        "6 behind 7 and 8",
        "18, 16 and 17 are 10",
        "bytes from 1",
        "no byte is named",
        "numbers with zeros in front",
        "no slices",
        "no words",
        "mode a and b exchanged",
        "set a and b exchanged",
        "x and y exchanged",
        "in is outside",
        "flip 0 is shown",
        "exponents for powers",
        "mod before shift",
        "mod 256 is left out",
        "shift before flip",
        "small hex digits",
        "no blanks between bytes",
        "no comment behind bytes",
        "no byte in the comment",
        "no number in the comment",
        "a colon in the comment",
        "no blank behind ;",
        "functions by number",
        "a name for 2",
        "not and loadnot exchanged",
        "clear and ornot exchanged",
        "x-if-y and x-if-y+y exchanged",
        "no count behind masked stores",
        "counts behind reads",
        "no counts",
        "no counts by registers",
        "counts by registers alone",
        "? for every register",
        "nothing where it is unset",
        "? word",
        "unset reaches 0 words",
        "1 words",
        "word for all",
        "all words",
        "a blank before ; is left out",
        "two blanks before ;",
        "a blank at the end",
        "carriage returns",
        "no comments",
        "tabs between words",
        "no last line feed",
        "27 unless longer",
        "27 never",
        "27 without the last line feed",
        "27 of an empty buffer",
        "27 before 3",
        "27 writes what fits",
        "27 says what it wants",
        "done ends with a 0",
        "the count is in lines",
        "11 is not judged",
    ];

    const WRONG_REACH: [&str; 34] = [
        "7 is not judged",
        "8 is not judged",
        "9 is not judged",
        "11 is not judged",
        "18 is not judged",
        "14 is judged by the start",
        "registers start unset",
        "masked stores reach nothing",
        "reads reach",
        "what is refused reaches too",
        "nothing behind a refused one",
        "a refused list reaches nothing",
        "high byte first",
        "256 is 255",
        "the low byte alone",
        "one byte each",
        "only stores have bytes",
        "flags over 1 stand",
        "a mode with flag 0 stands",
        "96 registers stand",
        "104 registers stand",
        "27 unless longer",
        "27 under a byte each",
        "27 never",
        "27 of an empty buffer",
        "3 before 2",
        "15 before 3",
        "27 before 15",
        "27 before 3",
        "27 before 2",
        "15 never",
        "27 writes what fits",
        "the count is in instructions",
        "an unset register reaches 256",
    ];

    /// The mistakes of one kind of case.
    fn wrong(kind: u8) -> Vec<&'static str> {
        match kind {
            SHOW => [&WRONG_LISTS[..], &WRONG_SHOW].concat(),
            MAKE => [&WRONG_MAKE[..], &WRONG_MADE].concat(),
            _ => [&WRONG_LISTS[..], &WRONG_REACH].concat(),
        }
    }

    /// The rules answer as the emulator does, and each wrong one is noticed.
    #[test]
    fn the_stored_texts_tell_what_is_wrong() {
        let cases = stored_texts();
        let mut noticed: BTreeMap<(u8, &str), Vec<usize>> = BTreeMap::new();
        for kind in [SHOW, MAKE, REACH] {
            noticed.extend(wrong(kind).into_iter().map(|name| ((kind, name), vec![])));
        }
        for (k, case) in cases.iter().enumerate() {
            let lent = case.make();
            let mut buffers = lent.clone();
            let numbers = case.call(&mut buffers);
            let right = RIGHT.of(case, &lent);
            assert!(numbers == right.0 && buffers == right.1, "{} {:?} {:?}", crate::words::describe(case), numbers, right.0);
            for name in wrong(case.kind) {
                if Rules(name).of(case, &lent) != right {
                    noticed.get_mut(&(case.kind, name)).unwrap().push(k);
                }
            }
        }
        let mut none = vec![];
        let mut few: BTreeSet<usize> = BTreeSet::new();
        for ((kind, name), by) in &noticed {
            println!("{} {}: {} of {}", KINDS[*kind as usize], name, by.len(), cases.len());
            if by.is_empty() {
                none.push((KINDS[*kind as usize], name));
            }
            if by.len() < 3 {
                few.extend(by);
            }
        }
        println!("{} mistakes; cases that alone or with one other notice one: {:?}", noticed.len(), few);
        assert!(none.is_empty(), "{:?}", none);
    }

    /// The rules answer as the emulator does for random cases too.
    #[test]
    fn the_rules_agree_on_random_texts() {
        let mut plan = Plan::new(77);
        for _ in 0..6000 {
            let case = plan.random_text();
            case.check();
            let lent = case.make();
            let mut buffers = lent.clone();
            let numbers = case.call(&mut buffers);
            let right = RIGHT.of(&case, &lent);
            assert!(numbers == right.0 && buffers == right.1, "{} {:?} {:?}", crate::words::describe(&case), numbers, right.0);
        }
    }

    /// What else the stored cases must reach.
    #[test]
    fn the_stored_texts_reach_everything() {
        let cases = stored_texts();
        assert!(300 <= cases.len() && cases.len() <= 450, "{}", cases.len());
        let mut numbers: BTreeMap<(u8, u32), usize> = BTreeMap::new();
        // of texts: where they are refused, which bytes stand in words and how long these are, what is made
        let (mut lines, mut columns): (BTreeMap<u32, BTreeSet<u32>>, BTreeMap<u32, BTreeSet<u32>>) = Default::default();
        let (mut letters, mut lengths) = (BTreeSet::<u8>::new(), BTreeSet::new());
        let (mut logic, mut shifts, mut sorts) = (BTreeSet::new(), BTreeSet::new(), BTreeSet::new());
        // of lists: what is said of them, and the modes that are reached
        let (mut said, mut modes, mut faults) = (BTreeSet::new(), BTreeSet::new(), BTreeSet::new());
        for case in &cases {
            let mut buffers = case.make();
            let lent = buffers.clone();
            let words = case.call(&mut buffers);
            *numbers.entry((case.kind, words[0])).or_default() += 1;
            match case.kind {
                MAKE => {
                    lines.entry(words[0]).or_default().insert(words[1]);
                    columns.entry(words[0]).or_default().insert(words[2]);
                    for line in lent[TEXT].split(|&c| c == 10) {
                        for word in line.split(|&c| c == b';').next().unwrap().split(|c| b" \t\r".contains(c)) {
                            letters.extend(word);
                            lengths.insert(word.len());
                        }
                    }
                    let bytes = lent[TEXT].windows(5).any(|word| word == b"bytes");
                    for b in buffers[LIST][..words[3] as usize].chunks(8).filter(|_| !bytes) {
                        sorts.insert((b[0], b[1], b[2]));
                        shifts.insert(b[6]);
                        if b[0] == 0 {
                            logic.insert(b[7]);
                        }
                    }
                }
                SHOW if words[0] == 0 => {
                    let text = String::from_utf8(buffers[TEXT][..words[1] as usize].to_vec()).unwrap();
                    for line in text.lines() {
                        said.insert(line.split(" ;").nth(1).unwrap_or("").to_string());
                        if let Some((_, number)) = line.split_once("refused ") {
                            faults.insert(number.to_string());
                        }
                    }
                    modes.extend(lent[LIST].chunks(8).filter(|b| (b[0] == 2 || b[0] == 3) && b[2] == 1).map(|b| (SHOW, b[3])));
                }
                REACH if words[0] == 0 => {
                    modes.extend(lent[LIST].chunks(8).filter(|b| (b[0] == 2 || b[0] == 3) && b[2] == 1).map(|b| (REACH, b[3])));
                }
                _ => {}
            }
        }
        println!("{:?}\n{:?}\n{:?}\n{:?}", numbers, lines, columns, said);
        for (kind, all) in [(SHOW, vec![0, 3, 27]), (MAKE, [vec![0, 3, 33], (60..70).collect()].concat()), (REACH, vec![0, 2, 3, 15, 27])] {
            for number in all {
                assert!(numbers.get(&(kind, number)).is_some_and(|&count| count > 4), "{} {}", kind, number);
            }
        }
        for number in 60..70 {
            assert!(lines[&number].len() > 3 && columns[&number].len() > 3, "{} {:?} {:?}", number, lines[&number], columns[&number]);
        }
        assert!(lines[&60].contains(&35000) && columns[&60].contains(&35000) && columns[&69].contains(&35001));
        assert!([0, 7, 31, 33, 126, 127, 128, 160, 255].iter().all(|letter| letters.contains(letter)), "{:?}", letters);
        assert!([1, 7, 8, 9, 35000].iter().all(|length| lengths.contains(length)), "{:?}", lengths);
        assert_eq!((logic.len(), shifts.len()), (80, 37));
        for kind in 0..5u8 {
            for tag in 1..=3u8 {
                assert!(sorts.iter().any(|sort| sort.0 == kind && sort.2 == tag), "{} {}", kind, tag);
            }
            assert!((1..5).all(|source| sorts.iter().any(|sort| sort.0 == kind && sort.1 == source)), "{}", kind);
        }
        assert!(sorts.contains(&(5, 0, 0)) && sorts.contains(&(6, 0, 2)) && sorts.contains(&(6, 0, 3)));
        assert_eq!(modes.len(), 512);
        assert!((0..9).all(|k| said.contains(&format!(" reaches {} word{}", 1 << k, if k == 0 { "" } else { "s" }))));
        assert!(said.contains(" reaches ? words") && said.contains(""));
        let all = ["5 byte 0", "6 byte 1", "7 byte 2", "8 byte 2", "9 byte 2", "9 byte 3", "9 byte 4", "18 byte 5", "18 byte 6", "16 byte 6", "17 byte 6", "11 byte 7"];
        assert!(all.iter().all(|fault| faults.contains(*fault)) && faults.len() == all.len(), "{:?}", faults);
    }

    /// About one random case in eight is of lists as text, half of these texts that are made: about half of them stand, and
    /// the others have every number at many places.
    #[test]
    fn one_random_case_in_eight_is_of_lists_as_text() {
        let mut plan = Plan::new(3);
        plan.random_cases(12000);
        let mut numbers: BTreeMap<(u8, u32), usize> = BTreeMap::new();
        let (mut all, mut lines, mut columns, mut long) = (0, BTreeSet::new(), BTreeSet::new(), 0);
        for case in plan.cases.iter().filter(|case| [SHOW, MAKE, REACH].contains(&case.kind)) {
            all += 1;
            let words = case.answer().words;
            *numbers.entry((case.kind, words[0])).or_default() += 1;
            if case.kind == MAKE {
                lines.insert(words[1]);
                columns.insert(words[2]);
                long += (case.lengths[TEXT] as usize > LETTERS) as usize;
            }
        }
        println!("{} cases, {:?}, {} lines, {} columns, {} long", all, numbers, lines.len(), columns.len(), long);
        assert!(12000 / 9 < all && all < 12000 / 7, "{}", all);
        let made: usize = numbers.iter().filter(|number| number.0 .0 == MAKE).map(|number| number.1).sum();
        assert!(4 * all < 10 * made && 10 * made < 6 * all, "{}", made);
        assert!(3 * made < 10 * numbers[&(MAKE, 0)] && 10 * numbers[&(MAKE, 0)] < 7 * made, "{:?}", numbers);
        for number in (60..70).chain([33]) {
            assert!(numbers.get(&(MAKE, number)).is_some_and(|&count| count > 5), "{}", number);
        }
        for (kind, number) in [(SHOW, 0), (SHOW, 3), (SHOW, 27), (REACH, 0), (REACH, 2), (REACH, 3), (REACH, 15), (REACH, 27)] {
            assert!(numbers.get(&(kind, number)).is_some_and(|&count| count > 5), "{} {}", kind, number);
        }
        assert!(lines.len() > 15 && columns.len() > 30 && long > 20);
    }
}
