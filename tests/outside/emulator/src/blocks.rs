//! Blocks on disk: reading and writing of pictures, lists and items, and pictures made old or new.

use crate::machine::{modes_of, Modes, REGISTERS};
use crate::memory::Table;

/// Number, place and bytes put out.
#[derive(Clone, Copy, PartialEq, Eq, Debug)]
pub struct Put {
    pub number: u32,
    pub place: u32,
    pub bytes: u32,
}

/// A picture of the words and M, X, Y; one that has the mode registers too is `MODED` (document 02, Eight).
pub const PICTURE: u32 = 1;
pub const LIST: u32 = 2;
pub const ITEMS: u32 = 3;
pub const MODED: u32 = 4;

/// The bytes of the words of a picture.
const WORDS: usize = 8192;

fn refused(number: u32, place: usize) -> Put {
    Put { number, place: place as u32, bytes: 0 }
}

fn done(bytes: usize) -> Put {
    Put { number: 0, place: 0, bytes: bytes as u32 }
}

/// s1 is the sum of bytes b(0)..b(507) modulo 65,535; s2 the sum of (508 - i) times b(i), same
/// modulus. A sum is 0..65,534, so a stored 65,535 never fits (reading D1).
pub fn sums(block: &[u8]) -> (u32, u32) {
    assert!(block.len() >= 508);
    let mut s1 = 0u64;
    let mut s2 = 0u64;
    for i in 0..508usize {
        s1 += block[i] as u64;
        s2 += (508 - i as u64) * block[i] as u64;
    }
    ((s1 % 65535) as u32, (s2 % 65535) as u32)
}

fn two(bytes: &[u8], at: usize) -> u32 {
    bytes[at] as u32 + 256 * bytes[at + 1] as u32
}

fn put_two(bytes: &mut [u8], at: usize, value: u32) {
    assert!(value < 65536);
    bytes[at] = (value % 256) as u8;
    bytes[at + 1] = (value / 256) as u8;
}

/// Writes the right sums into a block of 512 bytes.
pub fn seal(block: &mut [u8]) {
    let (s1, s2) = sums(block);
    put_two(block, 508, s1);
    put_two(block, 510, s2);
}

/// Refusals 21 to 24 of one block at its place among `count`.
fn judge_block(block: &[u8], kind: u32, place: usize, count: usize) -> Result<&[u8], u32> {
    if (two(block, 508), two(block, 510)) != sums(block) {
        return Err(21);
    }
    if two(block, 0) != kind {
        return Err(22);
    }
    if two(block, 2) as usize != place || two(block, 4) as usize != count {
        return Err(23);
    }
    // Readings D4 and D5: the general rule of "used"; then the four zeros and the unused payload.
    let used = two(block, 6) as usize;
    let last = place + 1 == count;
    let used_right = if !last {
        used == 496
    } else if count == 1 {
        used <= 496
    } else {
        1 <= used && used <= 496
    };
    if !used_right {
        return Err(24);
    }
    let payload = &block[12..508];
    if block[8..12].iter().any(|&b| b != 0) || payload[used..].iter().any(|&b| b != 0) {
        return Err(24);
    }
    Ok(&payload[..used])
}

/// Refusals 20 to 25, or the content.
fn judge_file(kind: u32, file: &[u8]) -> Result<Vec<u8>, Put> {
    if file.is_empty() || file.len() % 512 != 0 || file.len() > 34304 {
        return Err(refused(20, 0));
    }
    let count = file.len() / 512;
    let mut content = Vec::new();
    for (place, block) in file.chunks(512).enumerate() {
        let payload = judge_block(block, kind, place, count).map_err(|number| refused(number, place))?;
        content.extend_from_slice(payload);
    }
    if !size_fits(kind, content.len()) {
        return Err(refused(25, 0));
    }
    Ok(content)
}

fn size_fits(kind: u32, size: usize) -> bool {
    match kind {
        PICTURE => size == 8288,
        MODED => size == 8292,
        LIST => size % 8 == 0 && size <= 32768,
        ITEMS => size % 32 == 0 && size <= 32768,
        _ => unreachable!(),
    }
}

/// Refusal 22 before all else: a kind asked for that is not 1 to 4.
fn asked(kind: u32) -> Result<(), Put> {
    if kind < PICTURE || kind > MODED {
        return Err(refused(22, 0));
    }
    Ok(())
}

fn is_picture(kind: u32) -> bool {
    kind == PICTURE || kind == MODED
}

/// The bytes of the registers in a picture of this kind; none for lists and items.
fn registers_of(kind: u32) -> Option<usize> {
    match kind {
        PICTURE => Some(96),
        MODED => Some(REGISTERS),
        _ => None,
    }
}

/// Refusal 26 of the picture entries: memory and registers of other lengths than the kind has, and lists and items,
/// which have none (reading D12).
fn judge_lengths(kind: u32, memory: usize, registers: usize) -> Result<(), Put> {
    if memory != WORDS || registers_of(kind) != Some(registers) {
        return Err(refused(26, 0));
    }
    Ok(())
}

/// Refusal 15: the registers of a picture of kind 4 have a flag over 1, or a mode that is not 0 behind a flag of 0; or
/// the two mode registers.
fn judge_modes(registers: &[u8]) -> Result<Modes, Put> {
    modes_of(registers).map_err(|_| refused(15, 0))
}

/// What was put out, or what was refused.
fn either(result: Result<Put, Put>) -> Put {
    match result {
        Ok(put) => put,
        Err(refusal) => refusal,
    }
}

/// Reading of a list or items. Kinds 1 and 4 asked here have no memory and register targets, so the file is judged as a
/// picture and, if that stands, refused with 26 (readings D12 and K6).
pub fn read_plain(kind: u32, file: &[u8], target: &mut [u8]) -> Put {
    either(reading_plain(kind, file, target))
}

fn reading_plain(kind: u32, file: &[u8], target: &mut [u8]) -> Result<Put, Put> {
    asked(kind)?;
    let content = judge_file(kind, file)?;
    if is_picture(kind) || target.len() < content.len() {
        return Err(refused(26, 0));
    }
    target[..content.len()].copy_from_slice(&content);
    Ok(done(content.len()))
}

/// Reading of a picture of kind 1 or 4: plain words in the file, scrambled chips in the memory target.
pub fn read_picture(kind: u32, file: &[u8], memory: &mut [u8], registers: &mut [u8]) -> Put {
    either(reading_picture(kind, file, memory, registers))
}

/// 22 (kind asked), 20, 21 to 24 of each block, 25, 26, 15 (reading K1).
fn reading_picture(kind: u32, file: &[u8], memory: &mut [u8], registers: &mut [u8]) -> Result<Put, Put> {
    asked(kind)?;
    let content = judge_file(kind, file)?;
    judge_lengths(kind, memory.len(), registers.len())?;
    if kind == MODED {
        judge_modes(&content[WORDS..])?;
    }
    Table::from_words(&content[..WORDS]).to_chips(memory);
    registers.copy_from_slice(&content[WORDS..]);
    Ok(done(content.len()))
}

/// The blocks of a content.
fn blocks_of(kind: u32, content: &[u8]) -> Vec<u8> {
    let count = if content.is_empty() { 1 } else { (content.len() + 495) / 496 };
    let mut file = Vec::new();
    for place in 0..count {
        let payload = &content[496 * place..content.len().min(496 * place + 496)];
        let mut block = vec![0u8; 512];
        put_two(&mut block, 0, kind);
        put_two(&mut block, 2, place as u32);
        put_two(&mut block, 4, count as u32);
        put_two(&mut block, 6, payload.len() as u32);
        block[12..12 + payload.len()].copy_from_slice(payload);
        seal(&mut block);
        file.extend_from_slice(&block);
    }
    file
}

/// Refusal 27, or the blocks of the content.
fn write(kind: u32, content: &[u8], output: &mut [u8]) -> Result<Put, Put> {
    let file = blocks_of(kind, content);
    if output.len() < file.len() {
        return Err(refused(27, 0));
    }
    output[..file.len()].copy_from_slice(&file);
    Ok(done(file.len()))
}

/// Writing of a list or items. Kinds 1 and 4 asked here have content of the wrong shape, whatever it is: 26 (see
/// `read_plain`).
pub fn write_plain(kind: u32, content: &[u8], output: &mut [u8]) -> Put {
    either(writing_plain(kind, content, output))
}

fn writing_plain(kind: u32, content: &[u8], output: &mut [u8]) -> Result<Put, Put> {
    asked(kind)?;
    if is_picture(kind) || !size_fits(kind, content.len()) {
        return Err(refused(26, 0));
    }
    write(kind, content, output)
}

/// Writing of a picture of kind 1 or 4.
pub fn write_picture(kind: u32, memory: &[u8], registers: &[u8], output: &mut [u8]) -> Put {
    either(writing_picture(kind, memory, registers, output))
}

/// 22 (kind asked), 26, 15, 27.
fn writing_picture(kind: u32, memory: &[u8], registers: &[u8], output: &mut [u8]) -> Result<Put, Put> {
    asked(kind)?;
    judge_lengths(kind, memory.len(), registers.len())?;
    if kind == MODED {
        judge_modes(registers)?;
    }
    let mut content = Table::from_chips(memory).to_words();
    content.extend_from_slice(registers);
    write(kind, &content, output)
}

/// A picture of kind 1 made one of kind 4: the same words, M, X and Y, both mode registers unset. What reading refuses,
/// then 27.
pub fn old_to_new(file: &[u8], output: &mut [u8]) -> Put {
    either(making_new(file, output))
}

fn making_new(file: &[u8], output: &mut [u8]) -> Result<Put, Put> {
    let mut content = judge_file(PICTURE, file)?;
    content.extend([0u8; REGISTERS - 96]);
    write(MODED, &content, output)
}

/// A picture of kind 4 made one of kind 1, if neither mode register is set. What reading refuses, then 15, then 28, a
/// register set, then 27 (reading K2).
pub fn new_to_old(file: &[u8], output: &mut [u8]) -> Put {
    either(making_old(file, output))
}

fn making_old(file: &[u8], output: &mut [u8]) -> Result<Put, Put> {
    let content = judge_file(MODED, file)?;
    let modes = judge_modes(&content[WORDS..])?;
    if modes.iter().any(|mode| mode.is_some()) {
        return Err(refused(28, 0));
    }
    write(PICTURE, &content[..WORDS + 96], output)
}
