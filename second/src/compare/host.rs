//! The host's session: openings, and long runs of events against answers that are mostly sensible.

use super::module::{long_at, number_at};
use super::rng::Rng;
use super::tally::{first_difference, hex, Tally};
use crate::calls::{Calls, SIDES};
use second::flat::{HOST_BYTES, HOST_IMAGE, HOST_ROW};

pub const OUT: usize = 2_090;
const STATE: usize = HOST_BYTES + 4;
pub const START_ANSWER: &[u8] = b"$PCAS30,3*1D\r\n";

/// What stands in a host's record.
#[derive(Clone, Copy, Debug)]
pub struct View {
    pub image_length: u64,
    pub stage: u32,
    pub rate: u32,
    pub size: u32,
    pub number: u32,
    pub waited: u32,
}

impl View {
    pub fn of(state: &[u8]) -> View {
        let number = |n: usize| number_at(state, HOST_ROW + 4 * n);
        View {
            image_length: long_at(state, HOST_IMAGE),
            stage: number(0),
            rate: number(3),
            size: number(6),
            number: number(7),
            waited: number(8),
        }
    }
}

/// What a session is opened with.
#[derive(Clone, Copy, Debug)]
pub struct Opening {
    pub kind: u16,
    pub first: u8,
    pub wish: usize,
    pub start: u8,
    pub same: u8,
}

#[derive(Clone, Debug)]
pub enum Event {
    Frame(u8, Vec<u8>),
    Line(Vec<u8>),
    Wait(u32),
}

/// What a step answered: the number, the count, the byte passed on.
pub type Got = (u8, usize, u8);

/// One side's session with its output.
struct Desk {
    calls: &'static Calls,
    state: Vec<u8>,
    out: Vec<u8>,
}

impl Desk {
    fn step(&mut self, event: &Event, image: &[u8], room: usize) -> Got {
        self.out.fill(0x5A);
        let Desk { calls, state, out } = self;
        let out = &mut out[..room];
        let (mut count, mut passed) = (77, 77);
        let answer = match event {
            Event::Frame(command, payload) => {
                (calls.host_frame)(state, *command, payload, image, out, &mut count, &mut passed)
            }
            Event::Line(line) => (calls.host_line)(state, line, image, out, &mut count, &mut passed),
            Event::Wait(ms) => (calls.host_wait)(state, *ms, image, out, &mut count, &mut passed),
        };
        (answer, count, passed)
    }
}

/// Both sides' sessions.
pub struct Hosts {
    desks: [Desk; 2],
}

impl Hosts {
    pub fn new(state: &[u8]) -> Hosts {
        let desk = |side: usize| Desk { calls: SIDES[side], state: state.to_vec(), out: vec![0; OUT] };
        Hosts { desks: [desk(0), desk(1)] }
    }

    pub fn open(&mut self, tally: &mut Tally, opening: Opening, image: &[u8], room: usize) -> (u8, usize) {
        let [a, b] = [0, 1].map(|side| {
            let Desk { calls, state, out } = &mut self.desks[side];
            out.fill(0x5A);
            let mut count = 77;
            let Opening { kind, first, wish, start, same } = opening;
            let out = &mut out[..room];
            let answer = (calls.host_open)(state, kind, image, first, wish, start, same, out, &mut count);
            (answer, count)
        });
        let same = a == b && self.same();
        tally.input(same, || {
            format!(
                "host_open {opening:?} image {} bytes, output {room}, state {} bytes: second {a:?} proved {b:?}, {}",
                image.len(),
                self.desks[0].state.len(),
                self.states()
            )
        });
        self.align(same);
        a
    }

    pub fn step(&mut self, tally: &mut Tally, event: &Event, image: &[u8], room: usize) -> Got {
        let mut before = [0; STATE];
        let held = self.desks[0].state.len().min(STATE);
        before[..held].copy_from_slice(&self.desks[0].state[..held]);
        let [a, b] = [0, 1].map(|side| self.desks[side].step(event, image, room));
        let same = a == b && self.same();
        tally.input(same, || {
            format!(
                "host {} state {} image {} bytes output {room}: second {a:?} proved {b:?}, {}",
                words(event),
                hex(&before[..held]),
                image.len(),
                self.states()
            )
        });
        self.align(same);
        a
    }

    /// The three calls that only look at a session.
    pub fn look(&self, tally: &mut Tally) {
        let state = &self.desks[0].state;
        let [a, b] = [0, 1].map(|side| {
            let mut total = 77;
            let accepted = (SIDES[side].host_progress)(state, &mut total);
            (accepted, total)
        });
        tally.input(a == b, || format!("host_progress {}: second {a:?} proved {b:?}", hex(state)));
        let [a, b] = SIDES.map(|calls| (calls.host_line_rate)(state));
        tally.input(a == b, || format!("host_line_rate {}: second {a} proved {b}", hex(state)));
        let [a, b] = SIDES.map(|calls| (calls.host_can_arise)(state));
        tally.input(a == b, || format!("host_can_arise {}: second {a} proved {b}", hex(state)));
        let [a, b] = SIDES.map(|calls| (calls.host_resent)(state));
        tally.input(a == b, || format!("host_resent {}: second {a} proved {b}", hex(state)));
    }

    fn same(&self) -> bool {
        let [a, b] = &self.desks;
        a.state == b.state && a.out == b.out
    }

    fn states(&self) -> String {
        let [a, b] = &self.desks;
        format!("states {} and {}, outputs {}", hex(&a.state), hex(&b.state), first_difference(&a.out, &b.out))
    }

    /// After a difference both sides go on from what the second program has.
    fn align(&mut self, same: bool) {
        if !same {
            let [a, b] = &mut self.desks;
            b.state.clone_from(&a.state);
        }
    }

    pub fn view(&self) -> View {
        View::of(&self.desks[0].state)
    }

    pub fn sent(&self, count: usize) -> &[u8] {
        &self.desks[0].out[..count]
    }

    pub fn proved_sent(&self, count: usize) -> &[u8] {
        &self.desks[1].out[..count]
    }

    pub fn set_state(&mut self, state: &[u8]) {
        for desk in &mut self.desks {
            desk.state.clear();
            desk.state.extend_from_slice(state);
        }
    }
}

fn words(event: &Event) -> String {
    match event {
        Event::Frame(command, payload) => format!("frame {command:02X} payload {}", hex(payload)),
        Event::Line(line) => format!("line {}", hex(line)),
        Event::Wait(ms) => format!("wait {ms}"),
    }
}

/// Every mixture of opening parameters, with outputs around the needed length.
pub fn openings(tally: &mut Tally, rng: &mut Rng) {
    let pool = rng.bytes(262_152);
    let lengths = [0, 1, 3, 4, 5, 8, 100, 1_024, 262_136, 262_139, 262_140, 262_141, 262_143, 262_144, 262_148];
    let rooms = [0, 7, 8, 9, 11, 12, 64];
    let states = [0, 8, HOST_BYTES - 1, HOST_BYTES, HOST_BYTES, HOST_BYTES, HOST_BYTES + 1, STATE];
    for kind in [0, 1, 2, 3, 4, 0x0101, u16::MAX] {
        for length in lengths {
            for first in [0, 1, 2, 3, 4, 5, 6, 255] {
                for start in [0, 1, 2, 255] {
                    for same in [0, 1, 2] {
                        for room in rooms {
                            let state = rng.pick(&states);
                            let wish = rng.pick(&[0, 1, 3, 4, 1_024, 1_025, usize::MAX]);
                            let opening = Opening { kind, first, wish, start, same };
                            Hosts::new(&vec![0xEE; state]).open(tally, opening, &pool[..length], room);
                        }
                    }
                }
            }
        }
    }
}

fn image_length(rng: &mut Rng) -> usize {
    4 * match rng.below(20) {
        0 => 65_535,
        1 | 2 => rng.between(256, 3_000),
        _ => rng.between(1, 30),
    }
}

fn some_wish(rng: &mut Rng, length: usize) -> usize {
    match rng.below(10) {
        0 => rng.pick(&[0, 1, 3, 4, 1_024, 1_025, usize::MAX]),
        1 => rng.between(1, 1_100),
        _ => length.div_ceil(rng.between(1, 8)).clamp(1, 1_024),
    }
}

/// The answer that a session waits for.
pub fn fitting(view: &View) -> Event {
    let word = |number: u32| number as u16;
    match view.stage {
        1 => Event::Line(START_ANSWER.to_vec()),
        2 => Event::Frame(0x01, vec![view.rate as u8, 0]),
        3 => Event::Frame(0x02, vec![0x00, 0x04, 0]),
        4 => {
            let [low, high] = word(view.number).to_le_bytes();
            Event::Frame(0x05, vec![low, high, 0])
        }
        5 => Event::Frame(0x86, vec![0]),
        _ => Event::Frame(0x06, vec![0]),
    }
}

/// An answer with another ACK, number, command or length than the fitting one.
pub fn unfitting(rng: &mut Rng, view: &View) -> Event {
    let mut event = fitting(view);
    match &mut event {
        Event::Line(line) => match rng.below(5) {
            0 => {
                line.pop();
            }
            1 => line.push(b'\n'),
            2 => line.clear(),
            3 => *line = b"$PCAS20*03\r\n".to_vec(),
            _ => {
                let at = rng.below(line.len());
                line[at] ^= 1 << rng.below(8);
            }
        },
        Event::Frame(command, payload) => {
            let last = payload.len() - 1;
            match rng.below(12) {
                0..=3 => payload[last] = rng.pick(&[0x00, 0x01, 0x02, 0x03, 0x10, 0x10, 0x11, 0xFF]),
                4 => payload[0] = payload[0].wrapping_add(rng.pick(&[1, 255])),
                5 if last > 0 => {
                    payload[..last].fill(0);
                    payload[last] = rng.pick(&[0x00, 0x01, 0x02, 0x10]);
                }
                6 => payload.push(0),
                7 => {
                    payload.pop();
                }
                8 => *command = rng.pick(&[0x01, 0x02, 0x05, 0x06, 0x86, 0x81, 0x00]),
                9 => payload[last] = 0x10,
                10 => payload[0] = rng.byte(),
                _ => payload[last] = rng.byte(),
            }
        }
        Event::Wait(_) => {}
    }
    event
}

pub fn some_wait(rng: &mut Rng, view: &View) -> Event {
    let limit: u32 = if view.stage == 5 { 5_000 } else { 1_000 };
    let left = limit.saturating_sub(view.waited);
    Event::Wait(match rng.below(10) {
        0 | 1 => left,
        2 => left.saturating_sub(1),
        3 => left + 1,
        4 => rng.pick(&[0, 999, 1_000, 4_999, 5_000, u32::MAX, u32::MAX - 998]),
        _ => rng.below(limit as usize / 2) as u32,
    })
}

/// What MaxPk the module names: mostly its 1,024.
fn with_max_pk(rng: &mut Rng, event: Event) -> Event {
    match event {
        Event::Frame(0x02, _) if rng.percent(40) => {
            let max_pk: u16 = rng.pick(&[0, 1, 3, 4, 5, 64, 1_023, 1_025, 0x2000, u16::MAX]);
            let [low, high] = max_pk.to_le_bytes();
            Event::Frame(0x02, vec![low, high, 0])
        }
        other => other,
    }
}

pub fn some_event(rng: &mut Rng, view: &View) -> Event {
    match rng.below(100) {
        0..=74 => {
            let event = fitting(view);
            with_max_pk(rng, event)
        }
        75..=86 => unfitting(rng, view),
        87..=97 => some_wait(rng, view),
        98 => Event::Line(START_ANSWER.to_vec()),
        _ => {
            let length = rng.below(6);
            Event::Frame(rng.byte(), rng.bytes(length))
        }
    }
}

/// Events of a line on which little comes through: time and ACK 10.
fn stubborn_event(rng: &mut Rng, view: &View) -> Event {
    let mut event = fitting(view);
    match &mut event {
        Event::Frame(_, payload) if rng.percent(35) => {
            if let Some(ack) = payload.last_mut() {
                *ack = 0x10;
            }
            event
        }
        _ if rng.percent(25) => event,
        _ => some_wait(rng, view),
    }
}

/// The output's room: now and then just about what a packet of this size needs.
pub fn some_room(rng: &mut Rng, view: &View) -> usize {
    match rng.below(30) {
        0 => rng.below(14),
        1 => rng.pick(&[6, 7, 8, 11, 12, 17, 18]),
        2 => (view.size as usize).min(1_024) + rng.between(8, 40),
        _ => OUT,
    }
}

fn run(tally: &mut Tally, rng: &mut Rng, pool: &[u8]) {
    let length = image_length(rng);
    let image = &pool[..length];
    let wish = some_wish(rng, length);
    let first = rng.between(1, 5) as u8;
    let kind = rng.between(1, 3) as u16;
    let opening = Opening { kind, first, wish, start: rng.below(2) as u8, same: rng.below(2) as u8 };
    let mut hosts = Hosts::new(&vec![0xEE; rng.between(HOST_BYTES, STATE)]);
    let room = if rng.percent(3) { rng.below(14) } else { OUT };
    hosts.open(tally, opening, image, room);
    let stubborn = rng.percent(25);
    for _ in 0..rng.between(5, 60) {
        let view = hosts.view();
        let event = if stubborn { stubborn_event(rng, &view) } else { some_event(rng, &view) };
        let room = some_room(rng, &view);
        let lent = if rng.percent(2) { &pool[..rng.below(length + 9)] } else { image };
        hosts.step(tally, &event, lent, room);
        if rng.percent(20) {
            hosts.look(tally);
        }
        if view.stage == 0 && rng.percent(60) {
            break;
        }
    }
}

pub fn runs(tally: &mut Tally, rng: &mut Rng) {
    let pool = rng.wire_bytes(262_160);
    for _ in 0..3_000 {
        run(tally, rng, &pool);
    }
}
