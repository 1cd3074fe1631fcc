//! UBF blocks and files: written, damaged, cut, forged.

use super::rng::Rng;
use super::tally::{first_difference, hex, Tally};
use crate::calls::SIDES;

/// What a block is written from.
#[derive(Clone)]
struct Parts {
    kind: u16,
    address: u32,
    start: u32,
    texts: [Vec<u8>; 4],
    image: Vec<u8>,
}

const PAIRS: [(u16, u32); 3] = [(1, 0x8000), (2, 0x0000), (3, 0x3E000)];
const WIDTHS: [usize; 4] = [16, 16, 128, 32];

fn text(rng: &mut Rng, width: usize) -> Vec<u8> {
    let length = rng.pick(&[0, 1, width / 2, width - 1, width]);
    (0..length).map(|_| rng.between(32, 126) as u8).collect()
}

fn good_parts(rng: &mut Rng) -> Parts {
    let (kind, address) = rng.pick(&PAIRS);
    let longest = if rng.percent(3) { 300 } else { 12 };
    let image_length = 4 * rng.between(1, longest);
    Parts {
        kind,
        address,
        start: rng.pick(&[0xD0, 0xD1, 0xD4, 0x100, 0x120]),
        texts: WIDTHS.map(|width| text(rng, width)),
        image: rng.bytes(image_length),
    }
}

/// Writes a block on both sides; answers what the second program wrote.
fn write(tally: &mut Tally, parts: &Parts, room: usize) -> Vec<u8> {
    let [model, version, name, date] = &parts.texts;
    let slices: [&[u8]; 5] = [model, version, name, date, &parts.image];
    let [(first, a), (other, b)] = SIDES.map(|calls| {
        let mut out = vec![0x5A; room];
        let mut count = 77;
        let answer = (calls.ubf_write)(parts.kind, parts.address, parts.start, slices, &mut out, &mut count);
        ((answer, count), out)
    });
    tally.input(first == other && a == b, || {
        format!(
            "ubf_write type {} address {:X} start {:X} texts {:?} image {} output {room}: second {first:?} proved {other:?}, outputs {}",
            parts.kind,
            parts.address,
            parts.start,
            parts.texts.iter().map(|text| hex(text)).collect::<Vec<_>>(),
            hex(&parts.image),
            first_difference(&a, &b)
        )
    });
    let mut written = a;
    written.truncate(first.1);
    written
}

fn read(tally: &mut Tally, bytes: &[u8]) -> u8 {
    let [a, b] = SIDES.map(|calls| {
        let (mut kind, mut length, mut start, mut check) = (7, 7, 7, 7);
        let answer = (calls.ubf_read)(bytes, (&mut kind, &mut length, &mut start, &mut check));
        (answer, kind, length, start, check)
    });
    tally.input(a == b, || format!("ubf_read {}: second {a:?} proved {b:?}", hex(bytes)));
    a.0
}

fn block_at(tally: &mut Tally, file: &[u8], n: usize) {
    let [a, b] = SIDES.map(|calls| {
        let (mut kind, mut length, mut start, mut check, mut place, mut count) = (7, 7, 7, 7, 7, 7);
        let numbers = (&mut kind, &mut length, &mut start, &mut check);
        let answer = (calls.ubf_block_at)(file, n, numbers, &mut place, &mut count);
        (answer, kind, length, start, check, place, count)
    });
    tally.input(a == b, || format!("ubf_block_at {n} of {}: second {a:?} proved {b:?}", hex(file)));
}

fn parts_of_block(tally: &mut Tally, bytes: &[u8], start: u32, length: u32) {
    let [a, b] = SIDES.map(|calls| {
        let mut place = 77;
        let there = (calls.ubf_image)(bytes, start, length, &mut place);
        (there, place)
    });
    tally.input(a == b, || {
        format!("ubf_image of {} bytes, start {start} length {length}: second {a:?} proved {b:?}", bytes.len())
    });
    for call in 0..4 {
        let [a, b] = SIDES.map(|calls| {
            let mut place = 77;
            let there = (calls.ubf_texts[call])(bytes, &mut place);
            (there, place)
        });
        tally.input(a == b, || {
            format!("ubf text {call} of {} bytes: second (there, place) {a:?} proved {b:?}", bytes.len())
        });
    }
}

fn size(tally: &mut Tally, start: u32, length: u32) {
    let [a, b] = SIDES.map(|calls| (calls.ubf_size)(start, length));
    tally.input(a == b, || format!("ubf_size start {start} length {length}: second {a} proved {b}"));
}

fn good_block(tally: &mut Tally, rng: &mut Rng) -> Vec<u8> {
    let parts = good_parts(rng);
    let room = parts.start as usize + parts.image.len() + 4 + rng.below(3);
    write(tally, &parts, room)
}

/// Small blocks cut at every length, and the parts of each.
pub fn cut_blocks(tally: &mut Tally, rng: &mut Rng) {
    for _ in 0..40 {
        let block = good_block(tally, rng);
        for length in 0..=block.len() {
            read(tally, &block[..length]);
            if length % 5 == 0 {
                parts_of_block(tally, &block[..length], 0xD0, rng.below(40) as u32);
            }
        }
    }
    let numbers = [0, 1, 3, 4, 0xCF, 0xD0, 0x100, 262_140, 262_144, 0x7FFF_FFFF, 0x8000_0000, u32::MAX];
    for start in numbers {
        for length in numbers {
            size(tally, start, length);
            for there in [0, 1, 0x10, 0x11, 0x20, 0x30, 0xB0, 0xCF, 0xD0, 0xD1, 0x104, 300] {
                parts_of_block(tally, &vec![0x41; there], start, length);
            }
        }
    }
}

/// Blocks in which one or a few bytes were changed; the check is mended now and then.
pub fn damaged_blocks(tally: &mut Tally, rng: &mut Rng) {
    for _ in 0..300 {
        let good = good_block(tally, rng);
        read(tally, &good);
        for _ in 0..20 {
            let mut bad = good.clone();
            for _ in 0..rng.between(1, 3) {
                let at = if rng.percent(50) { rng.below(0x10) } else { rng.below(bad.len()) };
                bad[at] = match rng.below(3) {
                    0 => bad[at] ^ (1 << rng.below(8)),
                    1 => rng.byte(),
                    _ => rng.pick(&[0, 1, 2, 3, 0x80, 0xFF]),
                };
            }
            read(tally, &bad);
        }
    }
}

fn set4(bytes: &mut [u8], at: usize, number: u32) {
    bytes[at..at + 4].copy_from_slice(&number.to_le_bytes());
}

/// Headers with several faults at once, so that the order of the checks shows.
pub fn forged_headers(tally: &mut Tally, rng: &mut Rng) {
    for _ in 0..400 {
        let good = good_block(tally, rng);
        for _ in 0..16 {
            let mut bad = good.clone();
            let faults = rng.next();
            let fault = |n: u32| faults >> (2 * n) & 3 == 0;
            if fault(0) {
                bad[rng.below(2)] = rng.pick(&[0, 0x41, 0x54, 0x61]);
            }
            if fault(1) {
                let pair = rng.pick(&[(0, 0), (1, 0), (2, 0x8000), (3, 0x3E001), (4, 0x3E000), (0x0101, 0x8000)]);
                bad[0x0E..0x10].copy_from_slice(&u16::to_le_bytes(pair.0));
                set4(&mut bad, 0x06, pair.1);
            }
            if fault(2) {
                let length = [0, 1, 2, 3, 262_139, 262_140, 262_143, 262_144, 262_148, 0x8000_0000, u32::MAX - 3, 8];
                set4(&mut bad, 0x02, rng.pick(&length));
            }
            if fault(3) {
                let start = [0, 0xCF, 0xD0, 0xD1, 0x101, 0x200, 0xFFFF_FFF0, u32::MAX, 0x8000_0000, 0xFFFF_FF00];
                set4(&mut bad, 0x0A, rng.pick(&start));
            }
            if fault(4) {
                let ends = [0x0F, 0x1F, 0x2F, 0xAF, 0xCF, 0xD0, 0xFF, 0x10, 0x20, 0x30, 0xB0];
                let at = rng.pick(&ends).min(bad.len() - 1);
                bad[at] = rng.pick(&[0, 1, 0x20]);
            }
            if fault(5) {
                let last = bad.len() - 1 - rng.below(8);
                bad[last] ^= 0x11;
            }
            if fault(6) {
                let length = if rng.percent(50) { rng.between(205, 212) } else { rng.below(bad.len()) };
                bad.truncate(length);
            }
            read(tally, &bad);
        }
    }
}

/// Files of several blocks, whole, with bytes behind, cut, and damaged.
pub fn files(tally: &mut Tally, rng: &mut Rng) {
    for _ in 0..200 {
        let mut file = Vec::new();
        let blocks = rng.below(5);
        for _ in 0..blocks {
            file.extend(good_block(tally, rng));
        }
        for _ in 0..8 {
            let mut tried = file.clone();
            match rng.below(5) {
                0 => tried.truncate(rng.below(file.len() + 1)),
                1 => {
                    let length = rng.between(1, 300);
                    tried.extend(rng.bytes(length));
                }
                2 if !tried.is_empty() => {
                    let at = rng.below(tried.len());
                    tried[at] ^= 1 << rng.below(8);
                }
                3 => tried.extend([0x41, 0x54]),
                _ => {}
            }
            for n in 0..=blocks + 1 {
                block_at(tally, &tried, n);
            }
            block_at(tally, &tried, usize::MAX);
        }
    }
}

/// The writer with faulty fields, several at once, and with little room.
pub fn faulty_fields(tally: &mut Tally, rng: &mut Rng) {
    for _ in 0..3_000 {
        let mut parts = good_parts(rng);
        if rng.percent(15) {
            parts.address = rng.pick(&[0, 0x8000, 0x3E000, 1, u32::MAX]);
        }
        if rng.percent(15) {
            parts.kind = rng.pick(&[0, 1, 2, 3, 4, 0x100, 0x101, u16::MAX]);
        }
        if rng.percent(20) {
            let length = rng.below(14);
            parts.image.truncate(length);
        }
        if rng.percent(20) {
            parts.start = rng.pick(&[0, 0xCF, 0xD0, 0xD1, 0x3FF, u32::MAX, 0x8000_0000]);
        }
        if rng.percent(25) {
            let which = rng.below(4);
            let width = WIDTHS[which];
            parts.texts[which] = match rng.below(4) {
                0 => vec![b'x'; width + 1],
                1 => vec![0; width + rng.below(2)],
                2 => {
                    let mut text = vec![b'y'; width];
                    text[rng.below(width)] = 0;
                    text
                }
                _ => b"ab\0\0".to_vec(),
            };
        }
        let needed = parts.start as usize + parts.image.len() + 4;
        let room = match rng.below(5) {
            0 => needed.min(4_096).saturating_sub(1),
            1 => rng.below(600),
            _ => needed.min(4_096) + rng.below(3),
        };
        write(tally, &parts, room);
    }
}

/// The longest images, and one step beyond.
pub fn long_images(tally: &mut Tally, rng: &mut Rng) {
    for length in [262_136, 262_139, 262_140, 262_141, 262_143, 262_144, 262_148] {
        let parts = Parts { image: rng.bytes(length), ..good_parts(rng) };
        let room = parts.start as usize + length + 4;
        let block = write(tally, &parts, room);
        write(tally, &parts, room - 1);
        let mut bytes = if block.is_empty() { rng.bytes(room) } else { block };
        read(tally, &bytes);
        block_at(tally, &bytes, 1);
        let at = rng.below(bytes.len());
        bytes[at] ^= 0x40;
        read(tally, &bytes);
        let shorter = bytes.len() - 1;
        read(tally, &bytes[..shorter]);
    }
}
