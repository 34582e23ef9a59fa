//! The program: three files in, one line and the given items out, a picture if done.

use crate::blocks::{read_picture, read_plain, write_picture, Put, ITEMS, LIST, MODED, PICTURE};
use crate::machine::{modes_of, run, Answer, REGISTERS};

/// A line: the letter, number, place, byte, steps, taken and given (document 02, Six: the byte after the place).
fn line(letter: char, a: Answer) -> String {
    format!("{} {} {} {} {} {} {}\n", letter, a.number, a.place, a.byte, a.steps, a.taken, a.given)
}

/// The kind of picture that is taken: 4 if the file's first two bytes, as they stand, are 4 and 0, else 1 (document 02,
/// Eight; reading K3).
fn kind_of(file: &[u8]) -> u32 {
    if file.starts_with(&[4, 0]) {
        MODED
    } else {
        PICTURE
    }
}

/// What the program prints, and after.pic if it writes one. A file that is absent is None.
pub fn program(before: Option<&[u8]>, list: Option<&[u8]>, items: Option<&[u8]>) -> (String, Option<Vec<u8>>) {
    // a refused file has no instruction: byte 0 (reading I1)
    let refusal = |letter: char, put: Put| {
        (line(letter, Answer { number: put.number, place: put.place, ..Answer::default() }), None)
    };
    let twenty = Put { number: 20, place: 0, bytes: 0 };

    let mut memory = vec![0u8; 8192];
    // A kind 1 picture has no mode registers: both are unset at the start.
    let mut registers = vec![0u8; REGISTERS];
    let taken = before.map_or(PICTURE, kind_of);
    let length = if taken == MODED { REGISTERS } else { 96 };
    let put = match before {
        Some(file) if file.len() <= 17 * 512 => read_picture(taken, file, &mut memory, &mut registers[..length]),
        _ => twenty,
    };
    if put.number != 0 {
        return refusal('p', put);
    }

    let mut contents: Vec<Vec<u8>> = Vec::new();
    for (letter, kind, file) in [('l', LIST, list), ('i', ITEMS, items)] {
        let mut target = vec![0u8; 16 * 496];
        let put = match file {
            None => Put { number: 0, place: 0, bytes: 0 },
            Some(file) if file.len() <= 16 * 512 => read_plain(kind, file, &mut target),
            Some(_) => twenty,
        };
        if put.number != 0 {
            return refusal(letter, put);
        }
        target.truncate(put.bytes as usize);
        contents.push(target);
    }

    let mut out = vec![0u8; 8192];
    let answer = run(&mut memory, &mut registers, &contents[0], &contents[1], &mut out);
    let mut text = line('r', answer);
    if answer.number != 0 {
        return (text, None);
    }
    for item in out.chunks(32).take(answer.given as usize) {
        for byte in item {
            text.push_str(&format!("{:02x}", byte));
        }
        text.push('\n');
    }
    // The kind that was taken, or 4 if a register is set at the end (reading K4).
    let set = modes_of(&registers).expect("a run leaves good ones").iter().any(|mode| mode.is_some());
    let (kind, length) = if taken == MODED || set { (MODED, REGISTERS) } else { (PICTURE, 96) };
    let mut file = vec![0u8; 17 * 512];
    let put = write_picture(kind, &memory, &registers[..length], &mut file);
    assert_eq!(put, Put { number: 0, place: 0, bytes: 8704 });
    (text, Some(file))
}
