//! The caller: long runs over a line that is now and then damaged, and records that came from nowhere.

use super::host::{fitting, some_event, some_room, some_wait, Event, Opening, View, OUT};
use super::host_forged::{lent, some_record};
use super::reader::{damage, wrap};
use super::rng::Rng;
use super::tally::{first_difference, hex, Tally};
use super::wire::sealed;
use crate::calls::{Calls, SIDES};
use second::flat::{CALLER_BYTES, CALLER_SESSION, READER_BYTES};

/// What the caller is given: a byte or time.
#[derive(Clone, Copy, Debug)]
enum Given {
    Byte(u8),
    Ms(u32),
}

/// What a step answered: the number, the count, the byte passed on.
type Got = (u8, usize, u8);

/// One side's caller with its output.
struct Desk {
    calls: &'static Calls,
    state: Vec<u8>,
    out: Vec<u8>,
}

impl Desk {
    fn step(&mut self, given: Given, image: &[u8], room: usize) -> Got {
        self.out.fill(0x5A);
        let Desk { calls, state, out } = self;
        let out = &mut out[..room];
        let (mut count, mut passed) = (77, 77);
        let answer = match given {
            Given::Byte(byte) => (calls.caller_hear)(state, byte, image, out, &mut count, &mut passed),
            Given::Ms(ms) => (calls.caller_wait)(state, ms, image, out, &mut count, &mut passed),
        };
        (answer, count, passed)
    }
}

/// Both sides' callers.
struct Callers {
    desks: [Desk; 2],
}

impl Callers {
    fn new(state: &[u8]) -> Callers {
        let desk = |side: usize| Desk { calls: SIDES[side], state: state.to_vec(), out: vec![0; OUT] };
        Callers { desks: [desk(0), desk(1)] }
    }

    fn open(&mut self, tally: &mut Tally, opening: Opening, image: &[u8], room: usize) {
        let [a, b] = [0, 1].map(|side| {
            let Desk { calls, state, out } = &mut self.desks[side];
            out.fill(0x5A);
            let mut count = 77;
            let Opening { kind, first, wish, start, same } = opening;
            let out = &mut out[..room];
            let answer = (calls.caller_open)(state, kind, image, first, wish, start, same, out, &mut count);
            (answer, count)
        });
        let same = a == b && self.same();
        tally.input(same, || {
            format!("caller_open {opening:?} output {room}: second {a:?} proved {b:?}, {}", self.states())
        });
        self.align(same);
    }

    fn step(&mut self, tally: &mut Tally, given: Given, image: &[u8], room: usize) {
        let before = summary(&self.desks[0].state);
        let [a, b] = [0, 1].map(|side| self.desks[side].step(given, image, room));
        let same = a == b && self.same();
        tally.input(same, || {
            let length = image.len();
            format!(
                "caller {given:X?} {before} image {length} output {room}: second {a:?} proved {b:?}, {}",
                self.states()
            )
        });
        self.align(same);
    }

    fn look(&self, tally: &mut Tally) {
        let state = &self.desks[0].state;
        let [a, b] = SIDES.map(|calls| {
            let (mut rate, mut numbers) = (77, [77; 4]);
            let [accepted, total, resent, dropped] = &mut numbers;
            let stage = (calls.caller_view)(state, &mut rate, accepted, total, resent, dropped);
            (stage, rate, numbers)
        });
        tally.input(a == b, || format!("caller_view {}: second {a:?} proved {b:?}", summary(state)));
    }

    fn view(&self) -> View {
        View::of(self.desks[0].state.get(CALLER_SESSION..).unwrap_or(&[]))
    }

    fn same(&self) -> bool {
        let [a, b] = &self.desks;
        a.state == b.state && a.out == b.out
    }

    fn states(&self) -> String {
        let [a, b] = &self.desks;
        let (states, outputs) = (first_difference(&a.state, &b.state), first_difference(&a.out, &b.out));
        format!("states {states}, outputs {outputs}; second's is now {}", summary(&a.state))
    }

    /// After a difference both sides go on from what the second program has.
    fn align(&mut self, same: bool) {
        if !same {
            let [a, b] = &mut self.desks;
            b.state.clone_from(&a.state);
        }
    }

    fn set_state(&mut self, state: &[u8]) {
        for desk in &mut self.desks {
            desk.state.clear();
            desk.state.extend_from_slice(state);
        }
    }
}

/// The reader's numbers, and all that stands behind its store.
pub fn summary(state: &[u8]) -> String {
    let part = |from: usize, to: usize| hex(state.get(from..to.min(state.len())).unwrap_or(&[]));
    format!("reader {}, behind it {} ({} bytes)", part(0, 12), part(READER_BYTES, state.len()), state.len())
}

/// An event as it comes over the line, or none where it is time.
pub fn on_the_line(command: u8, payload: &[u8]) -> Vec<u8> {
    wrap(&sealed(command, payload))
}

fn some_opening(rng: &mut Rng, length: usize) -> Opening {
    let mut opening = Opening {
        kind: rng.between(1, 3) as u16,
        first: rng.between(1, 5) as u8,
        wish: length.div_ceil(rng.between(1, 8)).clamp(1, 1_024),
        start: rng.below(2) as u8,
        same: rng.below(2) as u8,
    };
    if rng.percent(6) {
        match rng.below(5) {
            0 => opening.kind = rng.pick(&[0, 4, 0x0101]),
            1 => opening.first = rng.pick(&[0, 6, 255]),
            2 => opening.wish = rng.pick(&[0, 3, 1_025, usize::MAX]),
            3 => opening.start = rng.pick(&[2, 255]),
            _ => opening.same = rng.pick(&[2, 255]),
        }
    }
    opening
}

fn run(tally: &mut Tally, rng: &mut Rng, pool: &[u8]) {
    let length = if rng.percent(4) { rng.below(40) } else { 4 * rng.between(1, 60) };
    let image = &pool[..length];
    let state = if rng.percent(4) { rng.below(CALLER_BYTES) } else { CALLER_BYTES + rng.below(4) };
    let mut callers = Callers::new(&vec![0xEE; state]);
    let room = if rng.percent(4) { rng.below(14) } else { OUT };
    let opening = some_opening(rng, length);
    callers.open(tally, opening, image, room);
    let noisy = rng.pick(&[0, 5, 20]);
    for _ in 0..rng.between(5, 40) {
        let view = callers.view();
        let room = some_room(rng, &view);
        let lent = if rng.percent(2) { &pool[..rng.below(length + 9)] } else { image };
        let mut bytes = match some_event(rng, &view) {
            Event::Frame(command, payload) => on_the_line(command, &payload),
            Event::Line(line) => line,
            Event::Wait(ms) => {
                callers.step(tally, Given::Ms(ms), lent, room);
                continue;
            }
        };
        if rng.percent(noisy) {
            damage(rng, &mut bytes);
        }
        for byte in bytes {
            callers.step(tally, Given::Byte(byte), lent, room);
        }
        callers.look(tally);
        if view.stage == 0 && rng.percent(60) {
            break;
        }
    }
}

pub fn runs(tally: &mut Tally, rng: &mut Rng) {
    let pool = rng.wire_bytes(300);
    for _ in 0..120 {
        run(tally, rng, &pool);
    }
}

/// A reader's record: fresh, in the middle of a frame that the next tail ends, or with numbers that mean none.
pub fn some_reader(rng: &mut Rng, content: &[u8]) -> Vec<u8> {
    let mut numbers = [content.len() as u32, 1, u32::from(rng.percent(10))];
    let mut store = content.to_vec();
    match rng.below(10) {
        0 => (numbers, store) = ([0; 3], Vec::new()),
        1 => numbers[0] = rng.pick(&[1_034, 1_035, 1_036, u32::MAX, 0x1_0000]),
        2 => numbers[1] = rng.pick(&[0, 2, 256, u32::MAX]),
        3 => numbers[2] = rng.pick(&[2, 256, u32::MAX]),
        4 => store = rng.bytes(READER_BYTES - 12),
        _ => {}
    }
    store.resize(READER_BYTES - 12, rng.pick(&[0, 0xEE]));
    let mut record: Vec<u8> = numbers.iter().flat_map(|number| number.to_le_bytes()).collect();
    record.extend(store);
    record
}

/// How much of a text of this length was heard: mostly all of it but for a byte.
pub fn some_heard(rng: &mut Rng, length: u32) -> [u8; 4] {
    let heard = match rng.below(6) {
        0..=2 => length - 1,
        3 => rng.below(length as usize) as u32,
        4 => rng.pick(&[length, length + 1, 256 + length - 1, u32::MAX]),
        _ => 0,
    };
    heard.to_le_bytes()
}

/// A count of eight bytes, now and then one that is about to wrap.
pub fn some_count(rng: &mut Rng) -> [u8; 8] {
    rng.pick(&[0, 1, 255, u64::from(u32::MAX), u64::MAX, u64::MAX - 1]).to_le_bytes()
}

pub fn records(tally: &mut Tally, rng: &mut Rng) {
    let pool = rng.wire_bytes(262_160);
    let mut callers = Callers::new(&[]);
    for _ in 0..1_500 {
        let session = some_record(rng);
        let view = View::of(&session);
        let content = match if rng.percent(70) { fitting(&view) } else { some_event(rng, &view) } {
            Event::Frame(command, payload) => sealed(command, &payload),
            _ => rng.bytes(8),
        };
        let mut record = some_reader(rng, &content);
        record.extend(some_heard(rng, 14));
        record.extend(some_count(rng));
        record.extend(some_count(rng));
        record.extend(session);
        if rng.percent(3) {
            record.truncate(rng.below(CALLER_BYTES));
        }
        let image = lent(rng, &view, &pool);
        let Event::Wait(ms) = some_wait(rng, &view) else { continue };
        let other = rng.byte();
        for given in [
            Given::Byte(0xDE),
            Given::Byte(b'\n'),
            Given::Byte(b'$'),
            Given::Byte(0xDB),
            Given::Byte(other),
            Given::Ms(ms),
            Given::Ms(5_000),
        ] {
            callers.set_state(&record);
            let room = some_room(rng, &view);
            callers.step(tally, given, image, room);
            callers.look(tally);
        }
        callers.set_state(&record);
        callers.look(tally);
    }
}
