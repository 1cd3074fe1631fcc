//! The module's session: long runs of events, mostly sensible ones.

use super::rng::Rng;
use super::tally::{first_difference, hex, Tally};
use crate::calls::{Calls, SIDES};
use second::flat::{MODULE_BYTES, MODULE_FLASH, MODULE_IDLE};
use std::ops::Range;

/// Flashes up to this length are compared whole at each step.
const SMALL: usize = 4_096;
const REPLY: usize = 128;
const STATE: usize = MODULE_BYTES + 4;

/// What stands in a module's record.
#[derive(Clone, Copy, Debug)]
pub struct View {
    pub flash_length: u64,
    pub idle: u32,
    pub phase: u32,
    pub kind: u32,
    pub length: u32,
    pub size: u32,
    pub number: u32,
}

pub fn number_at(state: &[u8], at: usize) -> u32 {
    (0..4).rev().fold(0, |sum, n| sum << 8 | u32::from(state.get(at + n).copied().unwrap_or(0)))
}

/// A number of eight bytes.
pub fn long_at(state: &[u8], at: usize) -> u64 {
    u64::from(number_at(state, at)) | u64::from(number_at(state, at + 4)) << 32
}

impl View {
    pub fn of(state: &[u8]) -> View {
        let number = |n: usize| number_at(state, MODULE_IDLE + 4 * n);
        View {
            flash_length: long_at(state, MODULE_FLASH),
            idle: number(0),
            phase: number(1),
            kind: number(2),
            length: number(3),
            size: number(4),
            number: number(5),
        }
    }

    pub fn base(&self) -> usize {
        match self.kind {
            1 => 0x8000,
            3 => 0x3E000,
            _ => 0,
        }
    }

    pub fn total(&self) -> u32 {
        self.length.div_ceil(self.size.max(1))
    }
}

#[derive(Clone, Debug)]
pub enum Event {
    Frame(u8, Vec<u8>),
    Wait(u32),
}

/// One side's session with its flash and reply buffer.
struct Desk {
    calls: &'static Calls,
    state: Vec<u8>,
    flash: Vec<u8>,
    reply: [u8; REPLY],
}

impl Desk {
    fn step(&mut self, event: &Event, flash_length: usize, reply_length: usize) -> (u8, usize) {
        self.reply.fill(0x5A);
        let (flash, reply) = (&mut self.flash[..flash_length], &mut self.reply[..reply_length]);
        let mut count = 77;
        let answer = match event {
            Event::Frame(command, payload) => {
                (self.calls.module_frame)(&mut self.state, *command, payload, flash, reply, &mut count)
            }
            Event::Wait(ms) => (self.calls.module_wait)(&mut self.state, *ms, flash, reply, &mut count),
        };
        (answer, count)
    }
}

/// Both sides' sessions. The flash buffers may be longer than the flash that is lent.
pub struct Modules {
    desks: [Desk; 2],
    pub length: usize,
}

impl Modules {
    /// Two desks with the same flash, room for longer ones behind it, and the same state bytes.
    pub fn new(flash: &[u8], spare: usize, state: &[u8]) -> Modules {
        let mut buffer = flash.to_vec();
        buffer.resize(flash.len() + spare, 0x33);
        let desk =
            |side: usize| Desk { calls: SIDES[side], state: state.to_vec(), flash: buffer.clone(), reply: [0; REPLY] };
        Modules { desks: [desk(0), desk(1)], length: flash.len() }
    }

    pub fn open(&mut self, tally: &mut Tally) -> u8 {
        let length = self.length;
        let [a, b] = [0, 1].map(|side| {
            let desk = &mut self.desks[side];
            (desk.calls.module_open)(&mut desk.state, &desk.flash[..length])
        });
        let same = a == b && self.desks[0].state == self.desks[1].state;
        tally.input(same, || format!("module_open over {length} bytes: second {a} proved {b}, {}", self.states()));
        self.align(same);
        a
    }

    pub fn is_open(&self, tally: &mut Tally) -> u8 {
        let [a, b] = [0, 1].map(|side| (self.desks[side].calls.module_is_open)(&self.desks[side].state));
        tally.input(a == b, || format!("module_is_open {}: second {a} proved {b}", hex(&self.desks[0].state)));
        a
    }

    /// One event on both sides, with the flash of the opening and a long reply buffer.
    pub fn give(&mut self, tally: &mut Tally, event: &Event) -> (u8, usize) {
        self.step(tally, event, self.length, REPLY)
    }

    pub fn step(&mut self, tally: &mut Tally, event: &Event, flash_length: usize, reply_length: usize) -> (u8, usize) {
        let mut before = [0; STATE];
        let held = self.desks[0].state.len().min(STATE);
        before[..held].copy_from_slice(&self.desks[0].state[..held]);
        let touched = self.touched(event);

        let [a, b] = [0, 1].map(|side| self.desks[side].step(event, flash_length, reply_length));
        let [first, other] = &self.desks;
        let same = a == b
            && first.state == other.state
            && first.reply == other.reply
            && first.flash[touched.clone()] == other.flash[touched];
        tally.input(same, || {
            format!(
                "module {} state {} flash {flash_length} reply {reply_length}: second {a:?} proved {b:?}, {}",
                words(event),
                hex(&before[..held]),
                self.states()
            )
        });
        self.align(same);
        a
    }

    /// The part of the flash that an event may write, with a margin; all of a small flash.
    fn touched(&self, event: &Event) -> Range<usize> {
        let end = self.desks[0].flash.len();
        if end <= SMALL {
            return 0..end;
        }
        let Event::Frame(0x05, payload) = event else {
            return 0..64;
        };
        if payload.len() < 6 {
            return 0..64;
        }
        let view = self.view();
        let number = usize::from(u16::from_le_bytes([payload[2], payload[3]]));
        let size = if view.size == 0 { payload.len() - 6 } else { view.size as usize };
        let place = view.base() + number.saturating_sub(1) * size;
        place.saturating_sub(80).min(end)..(place + payload.len() + 80).min(end)
    }

    fn states(&self) -> String {
        let [a, b] = &self.desks;
        format!(
            "states {} and {}, replies {}, flashes {}",
            hex(&a.state),
            hex(&b.state),
            first_difference(&a.reply, &b.reply),
            first_difference(&a.flash, &b.flash)
        )
    }

    /// After a difference both sides go on from what the second program has.
    fn align(&mut self, same: bool) {
        if !same {
            let [a, b] = &mut self.desks;
            b.state.clone_from(&a.state);
            b.flash.clone_from(&a.flash);
        }
    }

    /// Compares the flashes whole.
    pub fn finish(&mut self, tally: &mut Tally) {
        let [a, b] = &self.desks;
        if a.flash != b.flash {
            tally
                .difference(|| format!("module flashes at the end of a run: {}", first_difference(&a.flash, &b.flash)));
            self.align(false);
        }
    }

    pub fn view(&self) -> View {
        View::of(&self.desks[0].state)
    }

    pub fn flash(&self) -> &[u8] {
        &self.desks[0].flash
    }

    pub fn reply(&self, count: usize) -> &[u8] {
        &self.desks[0].reply[..count]
    }

    pub fn proved_flash(&self) -> &[u8] {
        &self.desks[1].flash
    }

    /// Someone else writes the flash.
    pub fn poke(&mut self, at: usize, byte: u8) {
        for desk in &mut self.desks {
            if let Some(place) = desk.flash.get_mut(at) {
                *place = byte;
            }
        }
    }

    pub fn set_state(&mut self, state: &[u8]) {
        for desk in &mut self.desks {
            desk.state.clear();
            desk.state.extend_from_slice(state);
        }
    }
}

fn words(event: &Event) -> String {
    match event {
        Event::Frame(command, payload) => format!("frame {command:02X} payload {}", hex(payload)),
        Event::Wait(ms) => format!("wait {ms}"),
    }
}

pub fn parameters(kind: u16, length: u32, address: u32) -> Vec<u8> {
    let mut payload = kind.to_le_bytes().to_vec();
    payload.extend(length.to_le_bytes());
    payload.extend(address.to_le_bytes());
    payload
}

pub fn packet(total: u32, number: u32, size: u32, data: &[u8]) -> Vec<u8> {
    let mut payload = Vec::with_capacity(6 + data.len());
    for word in [total, number, size] {
        payload.extend((word as u16).to_le_bytes());
    }
    payload.extend(data);
    payload
}

/// Lengths of every class that the rules tell apart.
pub fn flash_length(rng: &mut Rng) -> usize {
    match rng.below(12) {
        0 => rng.below(3),
        1..=5 => rng.between(2, 300),
        6 => rng.between(1_000, 4_000),
        7 => rng.between(0x8000 - 2, 0x8000 + 3),
        8 => 0x8000 + rng.below(3_000),
        9 => rng.between(0x3E000 - 2, 0x3E000 + 300),
        10 => rng.pick(&[262_143, 262_144, 262_145]),
        _ => 262_144,
    }
}

/// The parameters of a transfer, mostly ones that fit.
fn some_parameters(rng: &mut Rng, flash_length: usize) -> Event {
    let kinds = [1, 2, 2, 3];
    let mut kind: u16 = rng.pick(&kinds);
    let base = |kind: u16| match kind {
        1 => 0x8000,
        3 => 0x3E000,
        _ => 0,
    };
    if base(kind) >= flash_length && rng.percent(80) {
        kind = 2;
    }
    let room = flash_length.saturating_sub(base(kind));
    let mut length = match rng.below(8) {
        0 => room,
        1 => room + 1,
        2 => rng.between(0, room),
        3 => rng.pick(&[0, 1, 262_140, 262_143, 262_144, 1_024, 1_025]),
        _ => rng.between(1, 60).min(room),
    } as u32;
    let mut address = if kind == 3 { 0x3E000 } else { 0 };
    if rng.percent(4) {
        kind = rng.pick(&[0, 4, 0x100, 0x102, 0xFFFF]);
    }
    if rng.percent(4) {
        address = rng.pick(&[0, 0x3E000, 0x8000, 1, 0x0100_0000]);
    }
    if rng.percent(2) {
        length = rng.next() as u32;
    }
    let mut payload = parameters(kind, length, address);
    if rng.percent(3) {
        payload.resize(rng.below(14), 0);
    }
    Event::Frame(0x02, payload)
}

/// The size of packet 1: often one that needs few packets.
fn first_size(rng: &mut Rng, length: u32) -> u32 {
    match rng.below(6) {
        0 => length.min(1_024),
        1 => rng.between(1, 1_025) as u32,
        2 => rng.pick(&[1_023, 1_024, 1_025]).min(length),
        3 => length.div_ceil(65_535).max(1) + rng.below(2) as u32,
        _ => length.div_ceil(rng.between(1, 12) as u32).clamp(1, 1_024),
    }
}

/// A packet: the expected one, a repeat, or one with a fault in it.
pub fn some_packet(rng: &mut Rng, view: &View, flash: &[u8]) -> Event {
    let mut view = *view;
    if view.phase < 2 {
        view.length = rng.between(1, 40) as u32;
    }
    if view.phase < 3 {
        view.size = first_size(rng, view.length);
        view.number = 0;
    }
    // In a forged record these are any numbers at all.
    let size = view.size.clamp(1, 2_000);
    let mut total = view.total();
    let done = view.phase == 4;
    let repeat = done || view.phase == 3 && rng.percent(12);
    let just_accepted = if done { total } else { view.number };
    let mut number = match repeat {
        // An older packet, as it stands in the flash, is no repeat.
        true if rng.percent(25) => rng.between(1, just_accepted.max(1) as usize) as u32,
        true => just_accepted,
        false => view.number.wrapping_add(1),
    };
    let before = u64::from(number.max(1) - 1) * u64::from(size);
    let rest = u64::from(view.length).saturating_sub(before);
    let count = rest.min(u64::from(size)) as usize;
    let place = view.base() as u64 + before;
    let mut data = match flash.get(place as usize..place as usize + count) {
        Some(held) if repeat => held.to_vec(),
        _ => rng.wire_bytes(count),
    };
    let mut declared = data.len() as u32;
    if rng.percent(14) {
        match rng.below(10) {
            0 => total = total.wrapping_add(rng.pick(&[1, u32::MAX])),
            1 => total = rng.pick(&[0, 1, 65_535]),
            2 => number = number.wrapping_add(rng.pick(&[1, u32::MAX, 2])),
            3 => number = rng.pick(&[0, 1, 65_535]),
            4 => declared = declared.wrapping_add(rng.pick(&[1, u32::MAX])),
            5 => data.push(1),
            6 => {
                data.push(1);
                declared += 1;
            }
            7 => {
                data.pop();
                declared = data.len() as u32;
            }
            8 => {
                if let Some(byte) = data.last_mut() {
                    *byte ^= 1;
                }
            }
            _ => {
                data.resize(rng.between(1_020, 1_030), 9);
                declared = data.len() as u32;
            }
        }
    }
    let mut payload = packet(total, number, declared, &data);
    if rng.percent(1) {
        payload.truncate(rng.below(7));
    }
    Event::Frame(0x05, payload)
}

fn some_rate(rng: &mut Rng) -> Event {
    let mut payload = vec![rng.below(7) as u8];
    if rng.percent(10) {
        payload = rng.wire_bytes(1);
    }
    if rng.percent(10) {
        let length = rng.below(4);
        payload = rng.bytes(length);
    }
    Event::Frame(0x01, payload)
}

pub fn some_wait(rng: &mut Rng, idle: u32) -> Event {
    let left = 7_000_u32.saturating_sub(idle);
    Event::Wait(match rng.below(12) {
        0 => left,
        1 => left + 1,
        2 => left.saturating_sub(1),
        3 => 0,
        4 => rng.pick(&[7_000, 7_001, u32::MAX, u32::MAX - 6_999]),
        5 | 6 => rng.below(3_500) as u32,
        _ => rng.below(100) as u32,
    })
}

pub fn some_event(rng: &mut Rng, view: &View, flash: &[u8]) -> Event {
    let begin = [30, 45, 4, 3, 12][view.phase.min(4) as usize];
    match rng.below(100) {
        dice if dice < begin => some_parameters(rng, view.flash_length.min(1 << 20) as usize),
        dice if dice < 78 => some_packet(rng, view, flash),
        78..=91 => some_wait(rng, view.idle),
        92..=95 => some_rate(rng),
        96 | 97 => {
            let length = rng.below(12);
            Event::Frame(rng.byte(), rng.bytes(length))
        }
        98 => Event::Frame(rng.pick(&[0x81, 0x82, 0x10, 0x11, 0x86, 0x00, 0x03, 0x04]), vec![0; rng.below(3)]),
        _ if rng.percent(30) => Event::Frame(0x06, vec![]),
        _ => Event::Frame(0x06, vec![0; rng.below(3)]),
    }
}

/// One run from an opening.
fn run(tally: &mut Tally, rng: &mut Rng) {
    let length = flash_length(rng);
    let flash = if rng.percent(50) { vec![0xFF; length] } else { rng.bytes(length) };
    let state_length = if rng.percent(3) { rng.below(STATE) } else { rng.between(MODULE_BYTES, STATE) };
    let mut modules = Modules::new(&flash, 3, &vec![0xEE; state_length]);
    modules.open(tally);
    for _ in 0..rng.between(20, 500) {
        let view = modules.view();
        let event = some_event(rng, &view, modules.flash());
        if rng.percent(3) {
            let near = view.base() + (view.number.saturating_sub(1) as usize) * view.size as usize;
            modules.poke(near + rng.below(view.size as usize + 1), rng.byte());
        }
        let flash_length = match rng.below(60) {
            0 => length + 1 + rng.below(3),
            1 => rng.below(length + 1),
            _ => length,
        };
        let reply_length = match rng.below(40) {
            0 => 63,
            1 => rng.below(64),
            2 => 64,
            _ => rng.between(64, REPLY),
        };
        modules.step(tally, &event, flash_length, reply_length);
        if rng.percent(3) {
            modules.is_open(tally);
        }
    }
    modules.finish(tally);
}

pub fn runs(tally: &mut Tally, rng: &mut Rng) {
    for _ in 0..120 {
        run(tally, rng);
    }
}

/// Clean transfers of every small length in every size.
pub fn clean_transfers(tally: &mut Tally, rng: &mut Rng) {
    for length in 1..=40_u32 {
        for size in 1..=41_u32 {
            let mut modules = Modules::new(&[0xFF; 44], 0, &[0; MODULE_BYTES]);
            modules.open(tally);
            modules.give(tally, &Event::Frame(0x02, parameters(2, length, 0)));
            let total = length.div_ceil(size);
            for number in 1..=total {
                let count = size.min(length - (number - 1) * size);
                let data = rng.bytes(count as usize);
                let event = Event::Frame(0x05, packet(total, number, count, &data));
                modules.give(tally, &event);
                modules.give(tally, &event);
            }
            modules.finish(tally);
        }
    }
}
