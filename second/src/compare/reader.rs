//! The reader: all short strings, streams of frames that were damaged, forged states.

use super::rng::Rng;
use super::tally::{first_difference, hex, Tally};
use super::wire::{all_strings, content};
use crate::calls::SIDES;
use second::flat::{FRAME, READER_BYTES};

const ALPHABET: [u8; 9] = [0xDB, 0xDC, 0xDE, 0xCB, 0x00, 0x03, 0x01, 0x06, 0x04];
const SPARE: usize = 5;

/// The states of a reader on both sides, in buffers that are a little longer than the record.
#[derive(Clone)]
pub struct Readers {
    states: [Vec<u8>; 2],
}

/// What a step answered: the number, the command, the payload count.
pub type Heard = (u8, u8, usize);

impl Readers {
    pub fn fresh(tally: &mut Tally) -> Readers {
        Readers::made(tally, READER_BYTES + SPARE)
    }

    /// Calls reader_new on buffers of this length.
    pub fn made(tally: &mut Tally, length: usize) -> Readers {
        let mut readers = Readers::forged(&vec![0xEE; length]);
        let [a, b] = [0, 1].map(|side| (SIDES[side].reader_new)(&mut readers.states[side]));
        let same = a == b && readers.states[0] == readers.states[1];
        tally.input(same, || format!("reader_new of {length} bytes: second {a} proved {b}"));
        readers.align();
        readers
    }

    pub fn forged(state: &[u8]) -> Readers {
        Readers { states: [state.to_vec(), state.to_vec()] }
    }

    fn copy_from(&mut self, other: &Readers) {
        for side in 0..2 {
            self.states[side].copy_from_slice(&other.states[side]);
        }
    }

    /// After a difference both sides go on from the second program's state.
    fn align(&mut self) {
        let [a, b] = &mut self.states;
        if a != b {
            b.copy_from_slice(a);
        }
    }

    pub fn step(&mut self, tally: &mut Tally, byte: u8) -> Heard {
        let mut got = [(0, 0, 0); 2];
        for side in 0..2 {
            let (mut command, mut count) = (0x77, 77);
            let answer = (SIDES[side].reader_step)(&mut self.states[side], byte, &mut command, &mut count);
            got[side] = (answer, command, count);
        }
        let [a, b] = &self.states;
        let same = got[0] == got[1] && a == b;
        tally.input(same, || {
            format!(
                "reader_step {byte:02X}: second {:?} proved {:?}, states {}; second's state is now {}",
                got[0],
                got[1],
                first_difference(a, b),
                hex(a)
            )
        });
        if !same {
            self.align();
        }
        got[0]
    }

    /// Asks for the payload's place and answers it.
    pub fn payload(&self, tally: &mut Tally, count: usize) -> &[u8] {
        let [a, b] = [0, 1].map(|side| {
            let mut place = 77;
            let there = (SIDES[side].reader_payload)(&self.states[side], count, &mut place);
            (there, place)
        });
        tally.input(a == b, || {
            format!("reader_payload of {count}, state {} bytes: second {a:?} proved {b:?}", self.states[0].len())
        });
        let (there, place) = a;
        self.states[0].get(place..place + there).unwrap_or(&[])
    }

    /// Feeds bytes; a frame's payload is asked for as well.
    pub fn feed(&mut self, tally: &mut Tally, bytes: &[u8]) {
        for &byte in bytes {
            let (answer, _, count) = self.step(tally, byte);
            if answer == FRAME {
                self.payload(tally, count);
            }
        }
    }
}

/// Every string over the alphabet from one state, as a tree: each step is taken once.
fn tree(tally: &mut Tally, from: &Readers, depth: usize) {
    let mut levels = vec![from.clone(); depth + 1];
    branch(tally, &mut levels);
}

fn branch(tally: &mut Tally, levels: &mut [Readers]) {
    let [here, below @ ..] = levels else { return };
    for byte in ALPHABET {
        let Some(next) = below.first_mut() else { return };
        next.copy_from(here);
        next.step(tally, byte);
        branch(tally, below);
    }
}

pub fn short_strings(tally: &mut Tally, _rng: &mut Rng) {
    let fresh = Readers::fresh(tally);
    tree(tally, &fresh, 6);
}

pub fn longer_strings(tally: &mut Tally, _rng: &mut Rng) {
    let fresh = Readers::fresh(tally);
    tree(tally, &fresh, 7);
}

/// A state from its numbers.
fn state(count: u32, opened: u32, pending: u32, store: &[u8]) -> Vec<u8> {
    let mut state: Vec<u8> = [count, opened, pending].iter().flat_map(|number| number.to_le_bytes()).collect();
    state.extend(store);
    state.resize(READER_BYTES + SPARE, 0);
    state
}

/// Short strings from states other than the fresh one: nearly full stores, a pending escape outside a frame, and the like.
pub fn strings_from_states(tally: &mut Tally, _rng: &mut Rng) {
    let frame = [0x03, 0x00, 0x01, 0x06, 0x04];
    for count in [0, 3, 4, 5, 1_033, 1_034, 1_035, 1_036] {
        for opened in [0, 1, 2] {
            for pending in [0, 1, 256] {
                let readers = Readers::forged(&state(count, opened, pending, &frame));
                tree(tally, &readers, 3);
            }
        }
    }
    for length in 0..=2 {
        all_strings(&ALPHABET, length, |bytes| {
            for lent in [0, 1, 12, 16, READER_BYTES - 1, READER_BYTES] {
                let mut readers = Readers::made(tally, lent);
                readers.feed(tally, bytes);
            }
        });
    }
}

/// Escapes content as the wire does; the head and tail stand around it.
pub fn wrap(content: &[u8]) -> Vec<u8> {
    let mut wire = vec![0xDB];
    for &byte in content {
        if matches!(byte, 0xDB | 0xDC | 0xDE) {
            wire.push(0xDC);
            wire.push(byte ^ 0x10);
        } else {
            wire.push(byte);
        }
    }
    wire.push(0xDE);
    wire
}

/// A frame of any length up to a few bytes over the longest, now and then with a wrong device.
fn some_frame(rng: &mut Rng) -> Vec<u8> {
    let length = match rng.below(10) {
        0 => rng.between(1_024, 1_035),
        1 => rng.below(300),
        _ => rng.below(20),
    };
    let payload = rng.wire_bytes(length);
    let command = rng.pick(&[0x01, 0x02, 0x05, 0x06, 0x86, 0xDB, 0x33]);
    wrap(&content(rng, command, &payload))
}

/// Hits, losses, insertions, cuts and repeats.
pub fn damage(rng: &mut Rng, wire: &mut Vec<u8>) {
    for _ in 0..rng.between(1, 3) {
        if wire.is_empty() {
            return;
        }
        let at = rng.below(wire.len());
        match rng.below(8) {
            0 => wire[at] ^= 1 << rng.below(8),
            1 => {
                wire.remove(at);
            }
            2 => wire.insert(at, rng.byte()),
            3 => wire.insert(at, rng.pick(&[0xDB, 0xDC, 0xDE, 0xCB])),
            4 => wire.truncate(at),
            5 => {
                wire.drain(..at);
            }
            6 => wire[at] = rng.pick(&[0xDB, 0xDC, 0xDE]),
            _ => {
                let end = (at + rng.below(6)).min(wire.len());
                let again = wire[at..end].to_vec();
                wire.splice(at..at, again);
            }
        }
    }
}

pub fn streams(tally: &mut Tally, rng: &mut Rng) {
    for _ in 0..60 {
        let mut readers = Readers::fresh(tally);
        for _ in 0..rng.between(5, 40) {
            let mut wire = some_frame(rng);
            if rng.percent(45) {
                damage(rng, &mut wire);
            }
            if rng.percent(10) {
                let length = rng.below(8);
                wire.extend(rng.wire_bytes(length));
            }
            readers.feed(tally, &wire);
        }
    }
}

pub fn forged_states(tally: &mut Tally, rng: &mut Rng) {
    for _ in 0..6_000 {
        let length = rng.below(40);
        let payload = rng.wire_bytes(length);
        let mut store = content(rng, 0x05, &payload);
        let held = store.len();
        let stale = rng.below(1_036 - held);
        store.extend(rng.bytes(stale));
        let count = match rng.below(6) {
            0 => rng.below(1_036) as u32,
            1 => rng.between(1_033, 1_038) as u32,
            2 => rng.pick(&[u32::MAX, 0x8000_0000, 0x0001_0000, 0x0400, 0x040B, 0x040C]),
            _ => held as u32,
        };
        let flag = |rng: &mut Rng| {
            if rng.percent(90) {
                rng.below(2) as u32
            } else {
                rng.next() as u32 >> rng.below(32)
            }
        };
        let (opened, pending) = (flag(rng), flag(rng) & flag(rng));
        let mut forged = state(count, opened, pending, &store);
        if rng.percent(3) {
            rng.fill(&mut forged);
        }
        if rng.percent(5) {
            forged.truncate(rng.below(READER_BYTES + 2));
        }
        let mut readers = Readers::forged(&forged);
        let first = if rng.percent(50) { 0xDE } else { rng.pick(&ALPHABET) };
        readers.feed(tally, &[first, rng.pick(&ALPHABET), rng.byte(), rng.pick(&ALPHABET)]);
        let count = rng.pick(&[0, 1, 5, 1_030, 1_031, 1_036, 5_000, usize::MAX / 2]);
        readers.payload(tally, count);
    }
}
