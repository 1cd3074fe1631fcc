//! The header's calls of the two ends fed bytes. Their records are a reader, counts, and a session.

use crate::ends::{self, Caller, Post};
use crate::flat::*;
use crate::host::{self, Rate};
use crate::kind::{self, Kind};
use crate::module::{self, Phase};
use crate::reader::Reader;
use crate::refusal::Refusal;

const HEARD: usize = READER_BYTES;

const CALLER_RESENT: usize = HEARD + 4;
const CALLER_DROPPED: usize = CALLER_RESENT + 8;
pub const CALLER_SESSION: usize = CALLER_DROPPED + 8;
pub const CALLER_BYTES: usize = CALLER_SESSION + HOST_BYTES;

const POST_DROPPED: usize = HEARD + 4;
pub const POST_SESSION: usize = POST_DROPPED + 8;
pub const POST_BYTES: usize = POST_SESSION + MODULE_BYTES;

/// The reader at the front of a record; bytes that end before it does stand for a fresh one.
fn reader_of(state: &[u8]) -> Reader {
    state.first_chunk().map_or_else(Reader::new, decode_reader)
}

fn put_reader(reader: &Reader, state: &mut [u8]) {
    if let Some(record) = state.first_chunk_mut() {
        encode_reader(reader, record);
    }
}

/// The part of a record from a place on, which may be empty.
fn behind(state: &[u8], place: usize) -> &[u8] {
    state.get(place..).unwrap_or(&[])
}

fn decode_caller(state: &[u8]) -> Caller {
    Caller {
        reader: reader_of(state),
        heard: get4(state, HEARD),
        resent: get8(state, CALLER_RESENT),
        dropped: get8(state, CALLER_DROPPED),
        session: decode_host(behind(state, CALLER_SESSION)),
    }
}

fn encode_caller(caller: &Caller, state: &mut [u8]) {
    put_reader(&caller.reader, state);
    put4(state, HEARD, caller.heard);
    put8(state, CALLER_RESENT, caller.resent);
    put8(state, CALLER_DROPPED, caller.dropped);
    encode_host(&caller.session, &mut state[CALLER_SESSION..]);
}

fn decode_post(state: &[u8]) -> Post {
    Post {
        reader: reader_of(state),
        heard: get4(state, HEARD),
        dropped: get8(state, POST_DROPPED),
        session: decode_module(behind(state, POST_SESSION)),
    }
}

fn encode_post(post: &Post, state: &mut [u8]) {
    put_reader(&post.reader, state);
    put4(state, HEARD, post.heard);
    put8(state, POST_DROPPED, post.dropped);
    encode_module(&post.session, &mut state[POST_SESSION..]);
}

// ---- The caller

#[allow(clippy::too_many_arguments)]
pub fn caller_open(
    state: &mut [u8],
    kind: u16,
    image: &[u8],
    first: u8,
    wish: usize,
    start: u8,
    same: u8,
    out: &mut [u8],
    count: &mut usize,
) -> u8 {
    *count = 0;
    if state.len() < CALLER_BYTES {
        return Refusal::OutputTooShort.number();
    }
    encode_caller(&Caller::new(host::Session::ended(0)), state);
    host_open(&mut state[CALLER_SESSION..], kind, image, first, wish, start, same, out, count)
}

pub fn caller_hear(state: &mut [u8], byte: u8, image: &[u8], out: &mut [u8], count: &mut usize, passed: &mut u8) -> u8 {
    step_caller(state, count, passed, |caller| caller.hear(byte, image, out))
}

pub fn caller_wait(state: &mut [u8], ms: u32, image: &[u8], out: &mut [u8], count: &mut usize, passed: &mut u8) -> u8 {
    step_caller(state, count, passed, |caller| caller.wait(ms, image, out))
}

/// Steps a caller and writes down what it then is, also where its bytes stood for none before.
fn step_caller(
    state: &mut [u8],
    count: &mut usize,
    passed: &mut u8,
    step: impl FnOnce(&mut Caller) -> host::Answer,
) -> u8 {
    (*count, *passed) = (0, 0);
    if state.len() < CALLER_BYTES {
        return Refusal::OutputTooShort.number();
    }
    let mut caller = decode_caller(state);
    let answer = step(&mut caller);
    encode_caller(&caller, state);
    host_answer(answer, count, passed)
}

pub fn caller_view(
    state: &[u8],
    rate: &mut u8,
    accepted: &mut usize,
    total: &mut usize,
    resent: &mut usize,
    dropped: &mut usize,
) -> u8 {
    let caller = decode_caller(state);
    let (done, in_all) = caller.session.progress();
    *rate = caller.session.line_rate().map_or(0, Rate::number);
    (*accepted, *total) = (done as usize, in_all as usize);
    (*resent, *dropped) = (caller.resent as usize, caller.dropped as usize);
    caller.session.course.map_or(0, |course| host_numbers(&course).1[0] as u8)
}

// ---- The post

pub fn post_new(state: &mut [u8]) -> u8 {
    make_post(state, module::Session::closed(0))
}

pub fn post_open(state: &mut [u8], flash: &[u8]) -> u8 {
    make_post(state, module::Session::open(flash).0)
}

fn make_post(state: &mut [u8], session: module::Session) -> u8 {
    if state.len() < POST_BYTES {
        return Refusal::OutputTooShort.number();
    }
    encode_post(&Post::new(session), state);
    NOTHING
}

pub fn post_hear(state: &mut [u8], byte: u8, flash: &mut [u8], reply: &mut [u8], count: &mut usize) -> u8 {
    step_post(state, count, |post| post.hear(byte, flash, reply))
}

pub fn post_wait(state: &mut [u8], ms: u32, flash: &mut [u8], reply: &mut [u8], count: &mut usize) -> u8 {
    step_post(state, count, |post| post.wait(ms, flash, reply).map(|()| 0))
}

/// Steps a post and writes down what it then is, also where its bytes stood for none before. The record of a session that could not arise
/// is left as it is, until another session is opened.
fn step_post(state: &mut [u8], count: &mut usize, step: impl FnOnce(&mut Post) -> Result<usize, Refusal>) -> u8 {
    *count = 0;
    if state.len() < POST_BYTES {
        return Refusal::OutputTooShort.number();
    }
    let mut post = decode_post(state);
    let before = post.session;
    let record: [u8; MODULE_BYTES] = state[POST_SESSION..POST_BYTES].try_into().expect("as long as a record");
    let answer = step(&mut post);
    encode_post(&post, state);
    let opened = !before.is_open() && answer.as_ref().is_ok_and(|&count| count > 0);
    if post.session == before && !opened && is_module_record(&record) {
        state[POST_SESSION..POST_BYTES].copy_from_slice(&record);
    }
    written_or_nothing(answer, count)
}

#[allow(clippy::too_many_arguments)]
pub fn post_view(
    state: &[u8],
    kind: &mut u16,
    base: &mut usize,
    length: &mut usize,
    written: &mut usize,
    dropped: &mut usize,
    idle: &mut u8,
) -> u8 {
    let post = decode_post(state);
    let [phase, number, in_all, _, _, so_far] = module_numbers(post.session.phase);
    *base = match post.session.phase {
        Phase::Closed | Phase::Ready => 0,
        Phase::Begun(p) | Phase::Loading { parameters: p, .. } | Phase::Done { parameters: p, .. } => {
            p.kind.base() as usize
        }
    };
    (*kind, *length, *written) = (number as u16, in_all as usize, so_far as usize);
    (*dropped, *idle) = (post.dropped as usize, u8::from(module_idle(behind(state, POST_SESSION)) > module::MAX_IDLE));
    phase as u8
}

pub fn rate_agreed(reply: &[u8]) -> u8 {
    ends::rate_agreed(reply).unwrap_or(0)
}

pub fn type_address(kind: u16, address: &mut u32) -> u8 {
    let kind = Kind::from_number(kind);
    *address = kind.map_or(0, Kind::base);
    u8::from(kind.is_some())
}

pub fn piece_for(baud: u32) -> usize {
    kind::piece_for(baud) as usize
}
