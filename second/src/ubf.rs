//! UBF blocks: reading, walking over a file, writing.

use crate::kind::{image_length_allowed, Kind};
use crate::refusal::Refusal;
use std::ops::Range;

pub const HEADER: usize = 0xD0;
const MARK: &[u8] = b"AT";
const CHECK: usize = 4;

pub const MODEL: Range<usize> = 0x10..0x20;
pub const VERSION: Range<usize> = 0x20..0x30;
pub const FILE_NAME: Range<usize> = 0x30..0xB0;
pub const DATE: Range<usize> = 0xB0..0xD0;

/// A good block. Image and texts are parts of the caller's bytes; the texts come with the zeros that fill their field.
#[derive(Clone, Copy, Debug, PartialEq, Eq)]
pub struct Block<'a> {
    pub kind: Kind,
    pub start: u32,
    pub model: &'a [u8],
    pub version: &'a [u8],
    pub file_name: &'a [u8],
    pub date: &'a [u8],
    pub image: &'a [u8],
    pub check: u32,
}

impl Block<'_> {
    /// How many bytes of the file the block takes.
    pub fn size(&self) -> usize {
        self.start as usize + self.image.len() + CHECK
    }
}

/// How many bytes a block with this start and image length takes.
pub fn size_of(start: u32, length: u32) -> u64 {
    u64::from(start) + u64::from(length) + CHECK as u64
}

/// The xor of the image's little-endian words.
pub fn check_of(image: &[u8]) -> u32 {
    image.chunks_exact(4).fold(0, |sum, word| sum ^ word_at(word, 0))
}

/// "In a text field nothing but zero follows a zero."
fn zero_filled(text: &[u8]) -> bool {
    text.iter().skip_while(|&&byte| byte != 0).all(|&byte| byte == 0)
}

fn word_at(bytes: &[u8], at: usize) -> u32 {
    u32::from_le_bytes([bytes[at], bytes[at + 1], bytes[at + 2], bytes[at + 3]])
}

/// The type, where it goes with this address.
fn paired(number: u16, address: u32) -> Result<Kind, Refusal> {
    Kind::from_number(number).filter(|kind| kind.base() == address).ok_or(Refusal::TypeOrAddress)
}

/// The tests that reader and writer share: type and address (6), image length (8), CS (7).
fn numbers(number: u16, address: u32, length: u64, start: u32) -> Result<Kind, Refusal> {
    let kind = paired(number, address)?;
    if !image_length_allowed(length) {
        return Err(Refusal::ImageLength);
    }
    if (start as usize) < HEADER {
        return Err(Refusal::StartTooLow);
    }
    Ok(kind)
}

/// Reads the block at the front of some bytes.
pub fn read(bytes: &[u8]) -> Result<Block<'_>, Refusal> {
    let header = bytes.get(..HEADER).ok_or(Refusal::FileEnds)?;
    if &header[..2] != MARK {
        return Err(Refusal::NoMark);
    }
    let length = word_at(header, 0x02);
    let start = word_at(header, 0x0A);
    let number = u16::from_le_bytes([header[0x0E], header[0x0F]]);
    let kind = numbers(number, word_at(header, 0x06), u64::from(length), start)?;

    if size_of(start, length) > bytes.len() as u64 {
        return Err(Refusal::FileEnds);
    }
    let image_end = start as usize + length as usize;
    let block = Block {
        kind,
        start,
        model: &bytes[MODEL],
        version: &bytes[VERSION],
        file_name: &bytes[FILE_NAME],
        date: &bytes[DATE],
        image: &bytes[start as usize..image_end],
        check: word_at(bytes, image_end),
    };
    let texts = [block.model, block.version, block.file_name, block.date];
    let gap = &bytes[HEADER..start as usize];
    if !texts.into_iter().all(zero_filled) || gap.iter().any(|&byte| byte != 0) {
        return Err(Refusal::NotZeroFilled);
    }
    if check_of(block.image) != block.check {
        return Err(Refusal::CheckDiffers);
    }
    Ok(block)
}

/// The blocks of a file with their places, up to the first faulty one. "The blocks follow one another until the file ends"; an empty
/// file has one faulty block.
pub fn blocks(file: &[u8]) -> Blocks<'_> {
    Blocks { file, next: Some(0) }
}

pub struct Blocks<'a> {
    file: &'a [u8],
    next: Option<usize>,
}

impl<'a> Iterator for Blocks<'a> {
    type Item = (usize, Result<Block<'a>, Refusal>);

    fn next(&mut self) -> Option<Self::Item> {
        let place = self.next?;
        let answer = read(&self.file[place..]);
        self.next = match &answer {
            Ok(block) => Some(place + block.size()).filter(|&end| end < self.file.len()),
            Err(_) => None,
        };
        Some((place, answer))
    }
}

/// What a block is written from. The texts are given without the zeros that fill their field.
#[derive(Clone, Copy, Debug)]
pub struct Fields<'a> {
    pub number: u16,
    pub address: u32,
    pub start: u32,
    pub model: &'a [u8],
    pub version: &'a [u8],
    pub file_name: &'a [u8],
    pub date: &'a [u8],
    pub image: &'a [u8],
}

/// Writes a block to the front of the output. "The writer tests its fields by the same rules, numbers and order, then 2."
pub fn write(fields: &Fields, out: &mut [u8]) -> Result<usize, Refusal> {
    numbers(fields.number, fields.address, fields.image.len() as u64, fields.start)?;
    let texts = [(fields.model, MODEL), (fields.version, VERSION), (fields.file_name, FILE_NAME), (fields.date, DATE)];
    if !texts.iter().all(|(text, place)| text.len() <= place.len() && zero_filled(text)) {
        return Err(Refusal::NotZeroFilled);
    }
    let length = fields.image.len() as u32;
    let start = fields.start as usize;
    let needed = start + fields.image.len() + CHECK;
    let block = out.get_mut(..needed).ok_or(Refusal::OutputTooShort)?;

    block[..start].fill(0);
    block[..2].copy_from_slice(MARK);
    block[0x02..0x06].copy_from_slice(&length.to_le_bytes());
    block[0x06..0x0A].copy_from_slice(&fields.address.to_le_bytes());
    block[0x0A..0x0E].copy_from_slice(&fields.start.to_le_bytes());
    block[0x0E..0x10].copy_from_slice(&fields.number.to_le_bytes());
    for (text, place) in texts {
        block[place.start..place.start + text.len()].copy_from_slice(text);
    }
    block[start..needed - CHECK].copy_from_slice(fields.image);
    block[needed - CHECK..].copy_from_slice(&check_of(fields.image).to_le_bytes());
    Ok(needed)
}
