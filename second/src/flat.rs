//! The calls of the C header over plain bytes and numbers. Records are decoded to the library's own types, stepped, and encoded.

use crate::host::{self, Answer, Course, Event, Parting, Rate, SameVersion, Stage, Wishes};
use crate::kind::Kind;
use crate::module::{self, Parameters, Phase};
use crate::reader::{Reader, Step};
use crate::refusal::Refusal;
use crate::ubf::{self, Fields};
use crate::wire::{self, MAX_CONTENT};
use std::ops::Range;

pub use crate::flat_ends::*;

pub const NOTHING: u8 = 0;
pub const WRITTEN: u8 = 100;
pub const FRAME: u8 = 101;
pub const DROPPED: u8 = 102;
pub const DONE: u8 = 103;
pub const FOUND: u8 = 104;
pub const PAST: u8 = 105;
pub const UNKNOWN: u8 = 106;

// The records: where each part begins, how many numbers a row has, and the size. Whatever is added comes last.
const READER_ROW: usize = 0;
pub const READER_STORE: usize = 12;
const READER_PAYLOAD: usize = READER_STORE + 4;
pub const READER_BYTES: usize = 1_047;

pub const MODULE_FLASH: usize = 0;
pub const MODULE_IDLE: usize = 8;
const MODULE_ROW: usize = 12;
const MODULE_NUMBERS: usize = 6;
pub const MODULE_BYTES: usize = 36;

pub const HOST_IMAGE: usize = 0;
const HOST_WISH: usize = 8;
pub const HOST_ROW: usize = 16;
const HOST_NUMBERS: usize = 10;
pub const HOST_BYTES: usize = 56;

// ---- Rows of numbers

/// Reads a number of four bytes; a byte past the end counts as 0.
pub(crate) fn get4(bytes: &[u8], at: usize) -> u32 {
    let byte = |n: usize| bytes.get(at + n).copied().unwrap_or(0);
    u32::from_le_bytes([byte(0), byte(1), byte(2), byte(3)])
}

pub(crate) fn get8(bytes: &[u8], at: usize) -> u64 {
    u64::from(get4(bytes, at)) | u64::from(get4(bytes, at + 4)) << 32
}

pub(crate) fn put4(bytes: &mut [u8], at: usize, number: u32) {
    bytes[at..at + 4].copy_from_slice(&number.to_le_bytes());
}

pub(crate) fn put8(bytes: &mut [u8], at: usize, number: u64) {
    bytes[at..at + 8].copy_from_slice(&number.to_le_bytes());
}

/// The numbers of a record as a row, after its first eight-byte numbers.
fn row<const N: usize>(bytes: &[u8], from: usize) -> [u32; N] {
    std::array::from_fn(|n| get4(bytes, from + 4 * n))
}

fn put_row(bytes: &mut [u8], from: usize, numbers: &[u32]) {
    for (n, &number) in numbers.iter().enumerate() {
        put4(bytes, from + 4 * n, number);
    }
}

/// Puts a count down and answers WRITTEN, or the refusal.
fn written(answer: Result<usize, Refusal>, count: &mut usize) -> u8 {
    match answer {
        Ok(bytes) => {
            *count = bytes;
            WRITTEN
        }
        Err(refusal) => refusal.number(),
    }
}

/// As `written`, where no bytes at all is the answer nothing.
pub(crate) fn written_or_nothing(answer: Result<usize, Refusal>, count: &mut usize) -> u8 {
    match answer {
        Ok(0) => NOTHING,
        other => written(other, count),
    }
}

// ---- The wire

pub fn frame_write(command: u8, payload: &[u8], out: &mut [u8], count: &mut usize) -> u8 {
    *count = 0;
    written(wire::write(command, payload, out), count)
}

pub fn frame_is_content(content: &[u8]) -> u8 {
    u8::from(wire::is_content(content))
}

pub fn escape_may_follow(byte: u8) -> u8 {
    u8::from(wire::may_follow(byte))
}

pub fn escape_original(byte: u8) -> u8 {
    wire::original_of(byte)
}

// ---- The reader

fn flag(number: u32) -> Option<bool> {
    match number {
        0 => Some(false),
        1 => Some(true),
        _ => None,
    }
}

/// "Any other count than 0 to 1,035 or any other flag is taken as a fresh reader."
pub(crate) fn decode_reader(record: &[u8; READER_BYTES]) -> Reader {
    let [count, opened, pending] = row(record, READER_ROW);
    let (Some(opened), Some(pending)) = (flag(opened), flag(pending)) else {
        return Reader::new();
    };
    let mut store = [0; MAX_CONTENT];
    store.copy_from_slice(&record[READER_STORE..]);
    Reader::from_parts(store, count as usize, opened, pending)
}

pub(crate) fn encode_reader(reader: &Reader, record: &mut [u8; READER_BYTES]) {
    put_row(record, READER_ROW, &[reader.count() as u32, u32::from(reader.opened()), u32::from(reader.pending())]);
    record[READER_STORE..].copy_from_slice(reader.store());
}

pub fn reader_new(state: &mut [u8]) -> u8 {
    let Some(record) = state.first_chunk_mut() else {
        return Refusal::OutputTooShort.number();
    };
    encode_reader(&Reader::new(), record);
    NOTHING
}

pub fn reader_step(state: &mut [u8], byte: u8, command: &mut u8, count: &mut usize) -> u8 {
    (*command, *count) = (0, 0);
    let Some(record) = state.first_chunk_mut() else {
        return Refusal::OutputTooShort.number();
    };
    let mut reader = decode_reader(record);
    let step = reader.step(byte);
    encode_reader(&reader, record);
    match step {
        Step::Nothing => NOTHING,
        Step::Dropped => DROPPED,
        Step::Frame { command: code, count: bytes } => {
            (*command, *count) = (code, bytes);
            FRAME
        }
    }
}

pub fn reader_payload(state: &[u8], count: usize, place: &mut usize) -> usize {
    *place = READER_PAYLOAD;
    count.min(state.len().saturating_sub(*place))
}

// ---- UBF files

/// The numbers that a block hands back.
struct BlockNumbers<'a> {
    kind: &'a mut u16,
    length: &'a mut u32,
    start: &'a mut u32,
    check: &'a mut u32,
}

impl BlockNumbers<'_> {
    fn clear(&mut self) {
        (*self.kind, *self.length, *self.start, *self.check) = (0, 0, 0, 0);
    }

    fn set(&mut self, block: &ubf::Block) {
        *self.kind = block.kind.number();
        *self.length = block.image.len() as u32;
        *self.start = block.start;
        *self.check = block.check;
    }
}

pub fn ubf_read(bytes: &[u8], kind: &mut u16, length: &mut u32, start: &mut u32, check: &mut u32) -> u8 {
    let mut numbers = BlockNumbers { kind, length, start, check };
    numbers.clear();
    match ubf::read(bytes) {
        Ok(block) => {
            numbers.set(&block);
            FOUND
        }
        Err(refusal) => refusal.number(),
    }
}

#[allow(clippy::too_many_arguments)]
pub fn ubf_block_at(
    file: &[u8],
    n: usize,
    kind: &mut u16,
    length: &mut u32,
    start: &mut u32,
    check: &mut u32,
    place: &mut usize,
    count: &mut usize,
) -> u8 {
    let mut numbers = BlockNumbers { kind, length, start, check };
    numbers.clear();
    (*place, *count) = (0, 0);
    let mut good = 0;
    for (at, answer) in ubf::blocks(file) {
        match answer {
            Ok(block) if good == n => {
                numbers.set(&block);
                *place = at;
                return FOUND;
            }
            Ok(_) => good += 1,
            Err(refusal) => {
                (*place, *count) = (at, good);
                return refusal.number();
            }
        }
    }
    *count = good;
    PAST
}

pub fn ubf_size(start: u32, length: u32) -> usize {
    ubf::size_of(start, length) as usize
}

/// How many bytes of a part are there; its place is told whether or not they are.
fn part(bytes: &[u8], whole: Range<usize>, place: &mut usize) -> usize {
    *place = whole.start;
    whole.len().min(bytes.len().saturating_sub(whole.start))
}

pub fn ubf_image(bytes: &[u8], start: u32, length: u32, place: &mut usize) -> usize {
    let start = start as usize;
    part(bytes, start..start + length as usize, place)
}

pub fn ubf_model(bytes: &[u8], place: &mut usize) -> usize {
    part(bytes, ubf::MODEL, place)
}

pub fn ubf_version(bytes: &[u8], place: &mut usize) -> usize {
    part(bytes, ubf::VERSION, place)
}

pub fn ubf_file_name(bytes: &[u8], place: &mut usize) -> usize {
    part(bytes, ubf::FILE_NAME, place)
}

pub fn ubf_date(bytes: &[u8], place: &mut usize) -> usize {
    part(bytes, ubf::DATE, place)
}

#[allow(clippy::too_many_arguments)]
pub fn ubf_write(
    kind: u16,
    address: u32,
    start: u32,
    model: &[u8],
    version: &[u8],
    name: &[u8],
    date: &[u8],
    image: &[u8],
    out: &mut [u8],
    count: &mut usize,
) -> u8 {
    *count = 0;
    let fields = Fields { number: kind, address, start, model, version, file_name: name, date, image };
    written(ubf::write(&fields, out), count)
}

// ---- The module

/// Phase, type, length, size, number, written.
pub(crate) fn module_numbers(phase: Phase) -> [u32; MODULE_NUMBERS] {
    let kind = |parameters: Parameters| u32::from(parameters.kind.number());
    match phase {
        Phase::Closed => [0; MODULE_NUMBERS],
        Phase::Ready => [1, 0, 0, 0, 0, 0],
        Phase::Begun(p) => [2, kind(p), p.length, 0, 0, 0],
        Phase::Loading { parameters: p, size, number, written } => {
            [3, kind(p), p.length, size, u32::from(number), written]
        }
        Phase::Done { parameters: p, size, written } => [4, kind(p), p.length, size, 0, written],
    }
}

fn module_phase(numbers: [u32; MODULE_NUMBERS]) -> Option<Phase> {
    let [phase, kind, length, size, number, written] = numbers;
    let parameters = || Some(Parameters { kind: Kind::from_number(u16::try_from(kind).ok()?)?, length });
    match phase {
        0 => Some(Phase::Closed),
        1 => Some(Phase::Ready),
        2 => parameters().map(Phase::Begun),
        3 => Some(Phase::Loading { parameters: parameters()?, size, number: u16::try_from(number).ok()?, written }),
        4 => Some(Phase::Done { parameters: parameters()?, size, written }),
        _ => None,
    }
}

fn parting_numbers(parting: &Parting) -> [u32; HOST_NUMBERS] {
    let mut numbers = [0; HOST_NUMBERS];
    (numbers[1], numbers[3]) = (u32::from(parting.kind.number()), u32::from(parting.rate.number()));
    numbers
}

fn host_parting(numbers: [u32; HOST_NUMBERS]) -> Option<Parting> {
    Some(Parting { kind: Kind::from_number(u16::try_from(numbers[1]).ok()?)?, rate: rate_of(numbers[3])? })
}

/// The session of a record; bytes that are no record, or one that could not arise, are a closed session over the length in them.
pub(crate) fn decode_module(state: &[u8]) -> module::Session {
    let flash_length = get8(state, MODULE_FLASH);
    let numbers = row(state, MODULE_ROW);
    let session = || {
        let phase = module_phase(numbers).filter(|&phase| module_numbers(phase) == numbers)?;
        let session = module::Session { flash_length, idle: get4(state, MODULE_IDLE), phase };
        (state.len() >= MODULE_BYTES && session.could_arise()).then_some(session)
    };
    session().unwrap_or(module::Session::closed(flash_length))
}

/// Whether these bytes are the record of a session, be it one that could arise or not: what its phase does not have is 0.
pub(crate) fn is_module_record(state: &[u8]) -> bool {
    let [phase, kind, length, size, number, written] = row(state, MODULE_ROW);
    let known = u16::try_from(kind).ok().and_then(Kind::from_number).is_some();
    state.len() >= MODULE_BYTES
        && match phase {
            0 | 1 => [kind, length, size, number, written] == [0; 5],
            2 => known && [size, number, written] == [0; 3],
            3 => known,
            4 => known && number == 0,
            _ => false,
        }
}

/// The idle sum in a record; 0 in bytes that are none.
pub(crate) fn module_idle(state: &[u8]) -> u32 {
    if is_module_record(state) { get4(state, MODULE_IDLE) } else { 0 }
}

pub(crate) fn encode_module(session: &module::Session, state: &mut [u8]) {
    put8(state, MODULE_FLASH, session.flash_length);
    put4(state, MODULE_IDLE, session.idle);
    put_row(state, MODULE_ROW, &module_numbers(session.phase));
}

pub fn module_open(state: &mut [u8], flash: &[u8]) -> u8 {
    if state.len() < MODULE_BYTES {
        return Refusal::OutputTooShort.number();
    }
    let (session, answer) = module::Session::open(flash);
    encode_module(&session, state);
    answer.map_or_else(Refusal::number, |()| NOTHING)
}

pub fn module_is_open(state: &[u8]) -> u8 {
    u8::from(decode_module(state).is_open())
}

/// Steps the session in a record. One that did not change, closed ones above all, leaves the bytes alone.
fn step_module<A>(state: &mut [u8], step: impl FnOnce(&mut module::Session) -> A) -> A {
    let before = decode_module(state);
    let mut session = before;
    let answer = step(&mut session);
    if session != before {
        encode_module(&session, state);
    }
    answer
}

pub fn module_frame(
    state: &mut [u8],
    command: u8,
    payload: &[u8],
    flash: &mut [u8],
    reply: &mut [u8],
    count: &mut usize,
) -> u8 {
    *count = 0;
    let answer = step_module(state, |session| session.frame(command, payload, flash, reply));
    written_or_nothing(answer, count)
}

pub fn module_wait(state: &mut [u8], ms: u32, flash: &mut [u8], reply: &mut [u8], count: &mut usize) -> u8 {
    *count = 0;
    let answer = step_module(state, |session| session.wait(ms, flash, reply));
    answer.map_or_else(Refusal::number, |()| NOTHING)
}

// ---- The host

/// Wish, then stage, type, first rate, rate, start, same, size, number, waited, repeats.
pub(crate) fn host_numbers(course: &Course) -> (u64, [u32; HOST_NUMBERS]) {
    let Course { wishes, stage, waited, repeats } = *course;
    let (stage, rate, size, number) = match stage {
        Stage::StartText => (1, 0, 0, 0),
        Stage::Rate(rate) => (2, rate.number(), 0, 0),
        Stage::Parameters(rate) => (3, rate.number(), 0, 0),
        Stage::Packet { rate, size, number } => (4, rate.number(), size, u32::from(number)),
        Stage::Notice { rate, size } => (5, rate.number(), size, 0),
        Stage::Restart { rate, size } => (6, rate.number(), size, 0),
    };
    let numbers = [
        stage,
        u32::from(wishes.kind.number()),
        u32::from(wishes.first.number()),
        u32::from(rate),
        u32::from(wishes.start_text),
        u32::from(wishes.same == SameVersion::GoOn),
        size,
        number,
        waited,
        repeats,
    ];
    (wishes.piece, numbers)
}

fn same_version(go_on: bool) -> SameVersion {
    if go_on {
        SameVersion::GoOn
    } else {
        SameVersion::Stop
    }
}

fn rate_of(number: u32) -> Option<Rate> {
    Rate::from_number(u8::try_from(number).ok()?)
}

fn host_course(piece: u64, numbers: [u32; HOST_NUMBERS]) -> Option<Course> {
    let [stage, kind, first, rate, start, same, size, number, waited, repeats] = numbers;
    let wishes = Wishes {
        kind: Kind::from_number(u16::try_from(kind).ok()?)?,
        first: rate_of(first)?,
        piece,
        start_text: flag(start)?,
        same: same_version(flag(same)?),
    };
    let stage = match stage {
        1 => Stage::StartText,
        2 => Stage::Rate(rate_of(rate)?),
        3 => Stage::Parameters(rate_of(rate)?),
        4 => Stage::Packet { rate: rate_of(rate)?, size, number: u16::try_from(number).ok()? },
        5 => Stage::Notice { rate: rate_of(rate)?, size },
        6 => Stage::Restart { rate: rate_of(rate)?, size },
        _ => return None,
    };
    Some(Course { wishes, stage, waited, repeats })
}

/// The session of a record; bytes that are no record, or one that could not arise, are an ended session over the length in them.
pub(crate) fn decode_host(state: &[u8]) -> host::Session {
    let image_length = get8(state, HOST_IMAGE);
    let (piece, numbers) = (get8(state, HOST_WISH), row(state, HOST_ROW));
    let course = host_course(piece, numbers).filter(|course| host_numbers(course) == (piece, numbers));
    let parting = host_parting(numbers).filter(|parting| piece == 0 && parting_numbers(parting) == numbers);
    let session = host::Session { image_length, course, parting };
    if state.len() >= HOST_BYTES && session.could_arise() {
        session
    } else {
        host::Session::ended(image_length)
    }
}

pub(crate) fn encode_host(session: &host::Session, state: &mut [u8]) {
    let parted = || (0, session.parting.as_ref().map_or([0; HOST_NUMBERS], parting_numbers));
    let (piece, numbers) = session.course.as_ref().map_or_else(parted, host_numbers);
    put8(state, HOST_IMAGE, session.image_length);
    put8(state, HOST_WISH, piece);
    put_row(state, HOST_ROW, &numbers);
}

#[allow(clippy::too_many_arguments)]
pub fn host_open(
    state: &mut [u8],
    kind: u16,
    image: &[u8],
    first: u8,
    wish: usize,
    start: u8,
    same: u8,
    out: &mut [u8],
    count: &mut usize,
) -> u8 {
    *count = 0;
    if state.len() < HOST_BYTES {
        return Refusal::OutputTooShort.number();
    }
    let choices = (Rate::from_number(first), flag(u32::from(start)), flag(u32::from(same)));
    let (Some(first), Some(start), Some(same)) = choices else {
        encode_host(&host::Session::ended(image.len() as u64), state);
        return UNKNOWN;
    };
    let (session, answer) = host::Session::open(kind, first, wish as u64, start, same_version(same), image, out);
    encode_host(&session, state);
    written(answer, count)
}

/// Steps the session in a record. One that did not change, ended ones above all, leaves the bytes alone.
fn step_host(state: &mut [u8], event: Event, image: &[u8], out: &mut [u8], count: &mut usize, passed: &mut u8) -> u8 {
    (*count, *passed) = (0, 0);
    let before = decode_host(state);
    let mut session = before;
    let answer = session.step(event, image, out);
    if session != before {
        encode_host(&session, state);
    }
    host_answer(answer, count, passed)
}

/// Puts down what a step of the host answered.
pub(crate) fn host_answer(answer: Answer, count: &mut usize, passed: &mut u8) -> u8 {
    match answer {
        Answer::Nothing => NOTHING,
        Answer::Done => DONE,
        Answer::Refused(refusal) => refusal.number(),
        Answer::Send(bytes) => {
            *count = bytes;
            WRITTEN
        }
        Answer::ModuleRefused { ack, count: bytes } => {
            (*count, *passed) = (bytes, ack);
            21
        }
        Answer::BadNotice { state, count: bytes } => {
            (*count, *passed) = (bytes, state);
            22
        }
    }
}

pub fn host_frame(
    state: &mut [u8],
    command: u8,
    payload: &[u8],
    image: &[u8],
    out: &mut [u8],
    count: &mut usize,
    passed: &mut u8,
) -> u8 {
    step_host(state, Event::Frame { command, payload }, image, out, count, passed)
}

pub fn host_line(
    state: &mut [u8],
    line: &[u8],
    image: &[u8],
    out: &mut [u8],
    count: &mut usize,
    passed: &mut u8,
) -> u8 {
    step_host(state, Event::Line(line), image, out, count, passed)
}

pub fn host_wait(state: &mut [u8], ms: u32, image: &[u8], out: &mut [u8], count: &mut usize, passed: &mut u8) -> u8 {
    step_host(state, Event::Elapsed(ms), image, out, count, passed)
}

pub fn host_progress(state: &[u8], total: &mut usize) -> usize {
    let (accepted, in_all) = decode_host(state).progress();
    *total = in_all as usize;
    accepted as usize
}

pub fn host_line_rate(state: &[u8]) -> u8 {
    decode_host(state).line_rate().map_or(0, Rate::number)
}

/// The bytes are the record of the session that they are read as.
pub fn host_can_arise(state: &[u8]) -> u8 {
    let mut own = [0; HOST_BYTES];
    encode_host(&decode_host(state), &mut own);
    u8::from(state.starts_with(&own))
}

pub fn host_resent(state: &[u8]) -> u32 {
    decode_host(state).resent()
}

pub fn restart_write(out: &mut [u8], count: &mut usize) -> u8 {
    *count = 0;
    written(host::write_restart(out), count)
}
