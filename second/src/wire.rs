//! Frames on the wire: "Head 0xDB, then escaped content, then tail 0xDE."

use crate::refusal::Refusal;

pub const HEAD: u8 = 0xDB;
pub const ESCAPE: u8 = 0xDC;
pub const TAIL: u8 = 0xDE;
pub const DEVICE: u8 = 0x01;

/// "N is at most 1,030 and content at most 1,035 bytes."
pub const MAX_PAYLOAD: usize = 1_030;
pub const MAX_CONTENT: usize = 1_035;

/// Length (2), device, command and check.
const AROUND: usize = 5;
const BEFORE_PAYLOAD: usize = 4;

/// Whether a byte of content is written escaped.
pub fn is_mark(byte: u8) -> bool {
    matches!(byte, HEAD | ESCAPE | TAIL)
}

/// The byte that follows DC: "DB, DC, DE become DC CB, DC CC, DC CE."
pub fn second_of(mark: u8) -> u8 {
    match mark {
        HEAD => 0xCB,
        ESCAPE => 0xCC,
        _ => 0xCE,
    }
}

/// "DC must be followed by CB, CC or CE."
pub fn may_follow(byte: u8) -> bool {
    matches!(byte, 0xCB | 0xCC | 0xCE)
}

/// The byte of content that a byte after DC stands for.
pub fn original_of(second: u8) -> u8 {
    match second {
        0xCB => HEAD,
        0xCC => ESCAPE,
        _ => TAIL,
    }
}

/// "The check is the xor of all content bytes before it, both length bytes and the device byte included."
pub fn check_of(bytes: &[u8]) -> u8 {
    bytes.iter().fold(0, |sum, byte| sum ^ byte)
}

/// Whether these bytes are the content of a frame: 5 to 1,035 of them, with the right Length, device and check.
pub fn is_content(content: &[u8]) -> bool {
    if content.len() < AROUND || content.len() > MAX_CONTENT {
        return false;
    }
    let length = usize::from(u16::from_le_bytes([content[0], content[1]]));
    let (before, check) = content.split_at(content.len() - 1);
    length == content.len() - 2 && content[2] == DEVICE && check_of(before) == check[0]
}

/// Command and payload of some content. Ask `is_content` first.
pub fn parts(content: &[u8]) -> (u8, &[u8]) {
    (content[3], &content[BEFORE_PAYLOAD..content.len() - 1])
}

/// Writes a frame to the front of the output and answers how many bytes it takes. 1 is tested before 2.
pub fn write(command: u8, payload: &[u8], out: &mut [u8]) -> Result<usize, Refusal> {
    if payload.len() > MAX_PAYLOAD {
        return Err(Refusal::PayloadTooLong);
    }
    let front = front_of(command, payload.len());
    let check = check_of(&front) ^ check_of(payload);
    let content = front.iter().chain(payload).chain(std::iter::once(&check));

    let needed = 2 + escaped_length(&front) + escaped_length(payload) + escaped_length(&[check]);
    let wire = out.get_mut(..needed).ok_or(Refusal::OutputTooShort)?;
    wire[0] = HEAD;
    wire[needed - 1] = TAIL;
    let mut at = 1;
    content.for_each(|&byte| {
        if is_mark(byte) {
            wire[at] = ESCAPE;
            wire[at + 1] = second_of(byte);
            at += 2;
        } else {
            wire[at] = byte;
            at += 1;
        }
    });
    Ok(needed)
}

/// Length, device and command: "Length is N + 3, counted before escaping."
fn front_of(command: u8, payload_length: usize) -> [u8; BEFORE_PAYLOAD] {
    let [low, high] = ((payload_length + 3) as u16).to_le_bytes();
    [low, high, DEVICE, command]
}

fn escaped_length(bytes: &[u8]) -> usize {
    bytes.len() + bytes.iter().filter(|&&byte| is_mark(byte)).count()
}
