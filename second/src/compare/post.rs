//! The post: long runs over a line that is now and then damaged, records that came from nowhere, and the rates that replies agree to.

use super::caller::{on_the_line, some_count, some_heard, some_reader, summary};
use super::module::{flash_length, some_event, some_packet, some_wait, Event, View};
use super::module_forged::{lent_length, some_record};
use super::reader::damage;
use super::rng::Rng;
use super::tally::{first_difference, hex, Tally};
use super::wire::sealed;
use crate::calls::{Calls, SIDES};
use second::flat::{POST_BYTES, POST_SESSION};

const REPLY: usize = 100;
/// Flashes up to this length are compared at each step, longer ones where there is a reply and at the end.
const SMALL: usize = 2_048;
const START_TEXT: &[u8] = b"$PCAS20*03\r\n";

#[derive(Clone, Copy, Debug)]
enum Given {
    Byte(u8),
    Ms(u32),
}

/// One side's post with its flash and reply buffer.
struct Desk {
    calls: &'static Calls,
    state: Vec<u8>,
    flash: Vec<u8>,
    reply: [u8; REPLY],
}

impl Desk {
    fn step(&mut self, given: Given, flash_length: usize, reply_length: usize) -> (u8, usize) {
        self.reply.fill(0x5A);
        let (flash, reply) = (&mut self.flash[..flash_length], &mut self.reply[..reply_length]);
        let mut count = 77;
        let answer = match given {
            Given::Byte(byte) => (self.calls.post_hear)(&mut self.state, byte, flash, reply, &mut count),
            Given::Ms(ms) => (self.calls.post_wait)(&mut self.state, ms, flash, reply, &mut count),
        };
        (answer, count)
    }
}

/// Both sides' posts.
struct Posts {
    desks: [Desk; 2],
}

impl Posts {
    fn new(flash: &[u8], state: &[u8]) -> Posts {
        let desk =
            |side: usize| Desk { calls: SIDES[side], state: state.to_vec(), flash: flash.to_vec(), reply: [0; REPLY] };
        Posts { desks: [desk(0), desk(1)] }
    }

    /// A post that waits, or one with a session over a flash of this length.
    fn make(&mut self, tally: &mut Tally, over: Option<usize>) {
        let [a, b] = [0, 1].map(|side| {
            let Desk { calls, state, flash, .. } = &mut self.desks[side];
            match over {
                Some(length) => (calls.post_open)(state, &flash[..length]),
                None => (calls.post_new)(state),
            }
        });
        let same = a == b && self.desks[0].state == self.desks[1].state;
        tally.input(same, || format!("post_new or post_open {over:?}: second {a} proved {b}, {}", self.states()));
        self.align(same);
    }

    fn step(&mut self, tally: &mut Tally, given: Given, flash_length: usize, reply_length: usize) -> (u8, usize) {
        let before = summary(&self.desks[0].state);
        let [a, b] = [0, 1].map(|side| self.desks[side].step(given, flash_length, reply_length));
        let [first, other] = &self.desks;
        let looked = first.flash.len() <= SMALL || a.1 > 0;
        let same = a == b
            && first.state == other.state
            && first.reply == other.reply
            && (!looked || first.flash == other.flash);
        tally.input(same, || {
            let lent = format!("flash {flash_length} reply {reply_length}");
            format!("post {given:X?} {before} {lent}: second {a:?} proved {b:?}, {}", self.states())
        });
        self.align(same);
        a
    }

    fn look(&self, tally: &mut Tally) {
        let state = &self.desks[0].state;
        let [a, b] = SIDES.map(|calls| {
            let (mut kind, mut numbers, mut idle) = (77, [77; 4], 77);
            let [base, length, written, dropped] = &mut numbers;
            let phase = (calls.post_view)(state, &mut kind, base, length, written, dropped, &mut idle);
            (phase, kind, numbers, idle)
        });
        tally.input(a == b, || format!("post_view {}: second {a:?} proved {b:?}", summary(state)));
    }

    fn finish(&self, tally: &mut Tally) {
        let [a, b] = &self.desks;
        if a.flash != b.flash {
            tally.difference(|| format!("flashes at the end: {}", first_difference(&a.flash, &b.flash)));
        }
    }

    fn view(&self) -> View {
        View::of(self.desks[0].state.get(POST_SESSION..).unwrap_or(&[]))
    }

    fn flash(&self) -> &[u8] {
        &self.desks[0].flash
    }

    fn reply(&self, count: usize) -> &[u8] {
        &self.desks[0].reply[..count.min(REPLY)]
    }

    fn states(&self) -> String {
        let [a, b] = &self.desks;
        format!(
            "states {}, replies {}, flashes {}; second's is now {}",
            first_difference(&a.state, &b.state),
            first_difference(&a.reply, &b.reply),
            first_difference(&a.flash, &b.flash),
            summary(&a.state)
        )
    }

    /// After a difference both sides go on from what the second program has.
    fn align(&mut self, same: bool) {
        if !same {
            let [a, b] = &mut self.desks;
            b.state.clone_from(&a.state);
            b.flash.clone_from(&a.flash);
        }
    }

    fn set_state(&mut self, state: &[u8]) {
        for desk in &mut self.desks {
            desk.state.clear();
            desk.state.extend_from_slice(state);
        }
    }
}

fn reply_length(rng: &mut Rng) -> usize {
    match rng.below(30) {
        0 => rng.below(REPLY),
        1 => rng.pick(&[0, 12, 13, 14, 15, 63]),
        _ => rng.between(64, REPLY),
    }
}

/// What comes to a post: the start text while it waits, else mostly a frame.
fn some_bytes(rng: &mut Rng, view: &View, flash: &[u8]) -> Result<Vec<u8>, u32> {
    if view.phase == 0 && rng.percent(70) {
        return Ok(START_TEXT.to_vec());
    }
    match some_event(rng, view, flash) {
        Event::Frame(command, payload) => Ok(on_the_line(command, &payload)),
        Event::Wait(ms) => Err(ms),
    }
}

fn run(tally: &mut Tally, rng: &mut Rng) {
    let length = if rng.percent(8) { flash_length(rng).min(0x8000 + 400) } else { rng.between(0, 400) };
    let flash = rng.bytes(length + 3);
    let state = if rng.percent(4) { rng.below(POST_BYTES) } else { POST_BYTES + rng.below(4) };
    let mut posts = Posts::new(&flash, &vec![0xEE; state]);
    let over = rng.percent(40).then_some(length);
    posts.make(tally, over);
    let noisy = rng.pick(&[0, 5, 20]);
    for _ in 0..rng.between(5, 40) {
        let view = posts.view();
        let lent = if rng.percent(2) { rng.below(length + 4) } else { length };
        let room = reply_length(rng);
        match some_bytes(rng, &view, posts.flash()) {
            Ok(mut bytes) => {
                if rng.percent(noisy) {
                    damage(rng, &mut bytes);
                }
                for byte in bytes {
                    posts.step(tally, Given::Byte(byte), lent, room);
                }
            }
            Err(ms) => {
                posts.step(tally, Given::Ms(ms), lent, room);
            }
        }
        posts.look(tally);
    }
    posts.finish(tally);
}

pub fn runs(tally: &mut Tally, rng: &mut Rng) {
    for _ in 0..60 {
        run(tally, rng);
    }
}

pub fn records(tally: &mut Tally, rng: &mut Rng) {
    let longest = 262_146;
    let mut posts = Posts::new(&rng.bytes(longest), &[]);
    for _ in 0..1_000 {
        let session = some_record(rng);
        let view = View::of(&session);
        let event = if rng.percent(70) {
            some_packet(rng, &view, posts.flash())
        } else {
            some_event(rng, &view, posts.flash())
        };
        let content = match event {
            Event::Frame(command, payload) if payload.len() <= 1_030 => sealed(command, &payload),
            _ => rng.bytes(8),
        };
        let mut record = some_reader(rng, &content);
        record.extend(some_heard(rng, 12));
        record.extend(some_count(rng));
        record.extend(session);
        if rng.percent(3) {
            record.truncate(rng.below(POST_BYTES));
        }
        let lent = lent_length(rng, &view, longest);
        let Event::Wait(ms) = some_wait(rng, view.idle) else { continue };
        let other = rng.byte();
        for given in [
            Given::Byte(0xDE),
            Given::Byte(b'\n'),
            Given::Byte(b'$'),
            Given::Byte(0xDB),
            Given::Byte(other),
            Given::Ms(ms),
            Given::Ms(7_001),
        ] {
            posts.set_state(&record);
            let room = reply_length(rng);
            posts.step(tally, given, lent, room);
            posts.look(tally);
        }
        posts.set_state(&record);
        posts.look(tally);
    }
    posts.finish(tally);
}

fn agreed(tally: &mut Tally, reply: &[u8]) {
    let [a, b] = SIDES.map(|calls| (calls.rate_agreed)(reply));
    tally.input(a == b, || format!("rate_agreed {}: second {a} proved {b}", hex(reply)));
}

/// Replies of a post, answers to the rate and what is beside them, and noise; restart frames in every room with them.
pub fn agreed_rates(tally: &mut Tally, rng: &mut Rng) {
    for rate in 0..=255 {
        for ack in [0x00, 0x01, 0x10] {
            let good = on_the_line(0x01, &[rate, ack]);
            agreed(tally, &good);
            for cut in 0..good.len() {
                agreed(tally, &good[..cut]);
            }
            for other in [&good[..], &[0x00], &[0xDE]] {
                agreed(tally, &[&good, other].concat());
                agreed(tally, &[other, &good].concat());
            }
            for _ in 0..6 {
                let mut damaged = good.clone();
                damage(rng, &mut damaged);
                agreed(tally, &damaged);
            }
        }
    }
    let mut posts = Posts::new(&[0xFF; 64], &[0; POST_BYTES]);
    posts.make(tally, Some(64));
    for _ in 0..400 {
        let view = posts.view();
        let Ok(bytes) = some_bytes(rng, &view, posts.flash()) else { continue };
        for byte in bytes {
            let (_, count) = posts.step(tally, Given::Byte(byte), 64, REPLY);
            agreed(tally, posts.reply(count));
        }
        let length = rng.below(24);
        let noise = rng.wire_bytes(length);
        agreed(tally, &noise);
    }
    for room in 0..40 {
        let [a, b] = SIDES.map(|calls| {
            let (mut out, mut count) = (vec![0x5A; room], 77);
            let answer = (calls.restart_write)(&mut out, &mut count);
            (answer, count, out)
        });
        tally.input(a == b, || format!("restart_write in {room} bytes: second {a:?} proved {b:?}"));
    }
}
