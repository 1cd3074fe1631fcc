//! Frames written, contents tested, the escape.

use super::rng::Rng;
use super::tally::{first_difference, hex, Tally};
use crate::calls::SIDES;

pub const SPECIAL: [u8; 8] = [0xDB, 0xDC, 0xDE, 0xCB, 0xCC, 0xCE, 0x00, 0x01];
const COMMANDS: [u8; 8] = [0x01, 0x02, 0x05, 0x06, 0x86, 0xDB, 0xDE, 0x00];
const ROOM: usize = 2_080;

/// Two outputs, one for each side.
pub struct Outputs([Vec<u8>; 2]);

impl Outputs {
    pub fn new() -> Outputs {
        Outputs([vec![0; ROOM], vec![0; ROOM]])
    }

    /// Writes one frame on both sides to outputs of this length; answers how many bytes the second program wrote.
    fn write(&mut self, tally: &mut Tally, command: u8, payload: &[u8], length: usize) -> usize {
        let mut got = [(0, 0); 2];
        for (side, calls) in SIDES.iter().enumerate() {
            let out = &mut self.0[side][..length];
            out.fill(0x5A);
            let mut count = 77;
            let answer = (calls.frame_write)(command, payload, out, &mut count);
            got[side] = (answer, count);
        }
        let [a, b] = &self.0;
        let (a, b) = (&a[..length], &b[..length]);
        tally.input(got[0] == got[1] && a == b, || {
            format!(
                "frame_write command {command:02X} payload {} output {length}: second {:?} proved {:?}, outputs {}",
                hex(payload),
                got[0],
                got[1],
                first_difference(a, b)
            )
        });
        got[0].1
    }
}

/// Calls `take` with every string of this length over the alphabet.
pub fn all_strings(alphabet: &[u8], length: usize, mut take: impl FnMut(&[u8])) {
    let mut digits = vec![0; length];
    let mut string = vec![alphabet[0]; length];
    loop {
        take(&string);
        let Some(at) = digits.iter().rposition(|&digit| digit + 1 < alphabet.len()) else {
            return;
        };
        digits[at] += 1;
        string[at] = alphabet[digits[at]];
        digits[at + 1..].fill(0);
        string[at + 1..].fill(alphabet[0]);
    }
}

pub fn special_payloads(tally: &mut Tally, _rng: &mut Rng) {
    let mut outputs = Outputs::new();
    for length in 0..=4 {
        all_strings(&SPECIAL, length, |payload| {
            for command in COMMANDS {
                let needed = outputs.write(tally, command, payload, 64);
                for room in 0..=needed + 2 {
                    outputs.write(tally, command, payload, room);
                }
            }
        });
    }
}

pub fn random_payloads(tally: &mut Tally, rng: &mut Rng) {
    let mut outputs = Outputs::new();
    for _ in 0..4_000 {
        let longest = rng.pick(&[10, 100, 1_031]);
        let length = if rng.percent(15) { rng.between(1_025, 1_031) } else { rng.between(0, longest) };
        let payload = rng.wire_bytes(length);
        let command = rng.byte();
        let needed = outputs.write(tally, command, &payload, ROOM);
        for room in [needed.saturating_sub(1), needed, needed + 1, rng.below(needed + 3)] {
            outputs.write(tally, command, &payload, room);
        }
    }
}

pub fn is_content(tally: &mut Tally, content: &[u8]) {
    let [a, b] = SIDES.map(|calls| (calls.frame_is_content)(content));
    tally.input(a == b, || format!("frame_is_content {}: second {a} proved {b}", hex(content)));
}

pub fn short_contents(tally: &mut Tally, _rng: &mut Rng) {
    let alphabet = [0x00, 0x01, 0x03, 0x04, 0x05, 0xDB, 0xDC, 0xDE];
    for length in 0..=6 {
        all_strings(&alphabet, length, |content| is_content(tally, content));
    }
    // Every check and command that can follow the shortest good front.
    for command in 0..=255 {
        for check in 0..=255 {
            is_content(tally, &[0x03, 0x00, 0x01, command, check]);
        }
    }
}

/// A good content, or one that is too long and otherwise good.
pub fn content(rng: &mut Rng, command: u8, payload: &[u8]) -> Vec<u8> {
    let device = if rng.percent(95) { 0x01 } else { rng.byte() };
    with_device(device, command, payload)
}

/// A content of our device.
pub fn sealed(command: u8, payload: &[u8]) -> Vec<u8> {
    with_device(0x01, command, payload)
}

fn with_device(device: u8, command: u8, payload: &[u8]) -> Vec<u8> {
    let length = (payload.len() + 3) as u16;
    let mut content = length.to_le_bytes().to_vec();
    content.extend([device, command]);
    content.extend(payload);
    content.push(content.iter().fold(0, |sum, byte| sum ^ byte));
    content
}

pub fn damaged_contents(tally: &mut Tally, rng: &mut Rng) {
    for _ in 0..6_000 {
        let length = if rng.percent(20) { rng.between(1_025, 1_036) } else { rng.below(30) };
        let payload = rng.wire_bytes(length);
        let command = rng.byte();
        let good = content(rng, command, &payload);
        is_content(tally, &good);
        for _ in 0..4 {
            let mut bad = good.clone();
            let at = rng.below(bad.len());
            match rng.below(6) {
                0 => bad[at] ^= 1 << rng.below(8),
                1 => bad.truncate(at),
                2 => bad.push(rng.pick(&[0x00, 0x01, 0xDE])),
                3 => {
                    bad.remove(at);
                }
                4 => bad[0] = bad[0].wrapping_add(rng.pick(&[1, 255])),
                // Two flips that the check does not see.
                _ => {
                    let other = rng.below(bad.len());
                    bad[at] ^= 0x20;
                    bad[other] ^= 0x20;
                }
            }
            is_content(tally, &bad);
        }
    }
}

pub fn escapes(tally: &mut Tally, _rng: &mut Rng) {
    for byte in 0..=255 {
        for call in 0..SIDES[0].escapes.len() {
            let [a, b] = SIDES.map(|calls| (calls.escapes[call])(byte));
            tally.input(a == b, || format!("escape call {call} of {byte:02X}: second {a} proved {b}"));
        }
    }
}
