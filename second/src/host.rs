//! The host's session: it loads one block.

use crate::kind::{image_length_allowed, pieces, Kind, MAX_PIECE};
use crate::refusal::Refusal;
use crate::wire;

pub const START_TEXT: &[u8] = b"$PCAS20*03\r\n";
pub const START_ANSWER: &[u8] = b"$PCAS30,3*1D\r\n";

const MAX_REPEATS: u32 = 3;
const ANSWER_LIMIT: u32 = 1_000;
const NOTICE_LIMIT: u32 = 5_000;

/// The five rates, 9600 to 115200, by their number on the wire.
#[derive(Clone, Copy, Debug, PartialEq, Eq, PartialOrd, Ord)]
pub enum Rate {
    B9600 = 1,
    B19200,
    B38400,
    B57600,
    B115200,
}

impl Rate {
    pub fn from_number(number: u8) -> Option<Rate> {
        match number {
            1 => Some(Rate::B9600),
            2 => Some(Rate::B19200),
            3 => Some(Rate::B38400),
            4 => Some(Rate::B57600),
            5 => Some(Rate::B115200),
            _ => None,
        }
    }

    pub fn number(self) -> u8 {
        self as u8
    }

    fn lower(self) -> Option<Rate> {
        Rate::from_number(self.number() - 1)
    }
}

/// What to do at the same version, as set by the caller.
#[derive(Clone, Copy, Debug, PartialEq, Eq)]
pub enum SameVersion {
    Stop,
    GoOn,
}

/// What a session is opened with, beside the image.
#[derive(Clone, Copy, Debug, PartialEq, Eq)]
pub struct Wishes {
    pub kind: Kind,
    pub first: Rate,
    pub piece: u64,
    pub start_text: bool,
    pub same: SameVersion,
}

/// What the session waits for.
#[derive(Clone, Copy, Debug, PartialEq, Eq)]
pub enum Stage {
    StartText,
    Rate(Rate),
    Parameters(Rate),
    Packet { rate: Rate, size: u32, number: u16 },
    Notice { rate: Rate, size: u32 },
    Restart { rate: Rate, size: u32 },
}

#[derive(Clone, Copy, Debug, PartialEq, Eq)]
pub struct Course {
    pub wishes: Wishes,
    pub stage: Stage,
    pub waited: u32,
    pub repeats: u32,
}

/// What a load that the module refused keeps: the agreed rate, at which its restart frame goes out.
#[derive(Clone, Copy, Debug, PartialEq, Eq)]
pub struct Parting {
    pub kind: Kind,
    pub rate: Rate,
}

#[derive(Clone, Copy, Debug, PartialEq, Eq)]
pub struct Session {
    pub image_length: u64,
    /// None: the session has ended.
    pub course: Option<Course>,
    /// Only of an ended session.
    pub parting: Option<Parting>,
}

#[derive(Clone, Copy, Debug)]
pub enum Event<'a> {
    Frame { command: u8, payload: &'a [u8] },
    Line(&'a [u8]),
    Elapsed(u32),
}

/// What a step answers. The counts are bytes at the front of the output.
#[derive(Clone, Copy, Debug, PartialEq, Eq)]
pub enum Answer {
    Nothing,
    Send(usize),
    Done,
    Refused(Refusal),
    /// 21: the module refused; its ACK is passed on and the restart frame sent.
    ModuleRefused {
        ack: u8,
        count: usize,
    },
    /// 22: a notice other than 0; its State is passed on and the restart frame sent.
    BadNotice {
        state: u8,
        count: usize,
    },
}

/// What an event brings, before the output's room is looked at.
enum Reaction {
    PassOver,
    Waited(u32),
    Resend,
    Next(Stage),
    /// The last packet is accepted; its notice is awaited and nothing is sent.
    AwaitNotice(Stage),
    Finished,
    Fail(Refusal),
    ModuleRefused(u8),
    BadNotice(u8),
}

impl Stage {
    fn limit(&self) -> u32 {
        match self {
            Stage::Notice { .. } => NOTICE_LIMIT,
            _ => ANSWER_LIMIT,
        }
    }

    /// The agreed rate, once there is one.
    fn agreed(&self) -> Option<Rate> {
        match *self {
            Stage::StartText | Stage::Rate(_) => None,
            Stage::Parameters(rate)
            | Stage::Packet { rate, .. }
            | Stage::Notice { rate, .. }
            | Stage::Restart { rate, .. } => Some(rate),
        }
    }
}

impl Course {
    /// Writes what is sent on entering this stage, and sent again when no answer comes.
    fn send(&self, stage: Stage, image: &[u8], out: &mut [u8]) -> Result<usize, Refusal> {
        match stage {
            Stage::StartText => write_text(START_TEXT, out),
            Stage::Rate(rate) => wire::write(0x01, &[rate.number()], out),
            Stage::Parameters(_) => wire::write(0x02, &self.parameters(image), out),
            Stage::Packet { size, number, .. } => write_packet(image, size, number, out),
            // "5,000 for the notice, where the last packet is resent"
            Stage::Notice { size, .. } => write_packet(image, size, total(image, size), out),
            Stage::Restart { .. } => write_restart(out),
        }
    }

    fn parameters(&self, image: &[u8]) -> [u8; 10] {
        let mut payload = [0; 10];
        payload[..2].copy_from_slice(&self.wishes.kind.number().to_le_bytes());
        payload[2..6].copy_from_slice(&(image.len() as u32).to_le_bytes());
        payload[6..].copy_from_slice(&self.wishes.kind.token().to_le_bytes());
        payload
    }

    fn react(&self, event: Event, image: &[u8]) -> Reaction {
        match event {
            Event::Elapsed(ms) => self.elapsed(ms),
            Event::Line(line) => self.line(line),
            Event::Frame { command, payload } => self.frame(command, payload, image),
        }
    }

    /// "Once the time since the last sending or fitting answer reaches 1,000 ms ... resend."
    fn elapsed(&self, ms: u32) -> Reaction {
        match self.waited.checked_add(ms) {
            Some(waited) if waited < self.stage.limit() => Reaction::Waited(waited),
            _ => self.again(),
        }
    }

    /// "at most 3 repeats of one frame"
    fn again(&self) -> Reaction {
        if self.repeats < MAX_REPEATS {
            Reaction::Resend
        } else {
            Reaction::Fail(Refusal::NoAnswer)
        }
    }

    fn line(&self, line: &[u8]) -> Reaction {
        if self.stage == Stage::StartText && line == START_ANSWER {
            Reaction::Next(Stage::Rate(self.wishes.first))
        } else {
            Reaction::PassOver
        }
    }

    fn frame(&self, command: u8, payload: &[u8], image: &[u8]) -> Reaction {
        match (self.stage, command, payload) {
            (Stage::Rate(asked), 0x01, &[rate, ack]) => self.rate_answer(asked, rate, ack),
            (Stage::Parameters(rate), 0x02, &[low, high, ack]) => {
                self.parameters_answer(rate, u16::from_le_bytes([low, high]), ack, image)
            }
            (Stage::Packet { rate, size, number }, 0x05, &[low, high, ack]) => {
                let named = u16::from_le_bytes([low, high]);
                if named == number {
                    self.packet_answer(rate, size, number, ack, image)
                } else {
                    self.packet_fault(named, ack)
                }
            }
            (Stage::Notice { rate, size }, 0x86, &[state]) => match state {
                0x00 => Reaction::Next(Stage::Restart { rate, size }),
                _ => Reaction::BadNotice(state),
            },
            (Stage::Restart { .. }, 0x06, &[ack]) => match ack {
                0x00 => Reaction::Finished,
                0x10 => self.again(),
                _ => Reaction::PassOver,
            },
            _ => Reaction::PassOver,
        }
    }

    /// "Rate refused: one lower, below 9600 number 21."
    fn rate_answer(&self, asked: Rate, rate: u8, ack: u8) -> Reaction {
        let same = rate == asked.number();
        match ack {
            0x00 if same => Reaction::Next(Stage::Parameters(asked)),
            0x01 if same => match asked.lower() {
                Some(lower) => Reaction::Next(Stage::Rate(lower)),
                None => Reaction::ModuleRefused(ack),
            },
            // "rate 0 with ACK 10" fits as well.
            0x10 if same || rate == 0 => self.again(),
            _ => Reaction::PassOver,
        }
    }

    /// "Piece size is the smaller of MaxPk, 1,024 and the caller's wish."
    fn parameters_answer(&self, rate: Rate, max_pk: u16, ack: u8, image: &[u8]) -> Reaction {
        match ack {
            0x00 => {
                let size = u64::from(max_pk).min(u64::from(MAX_PIECE)).min(self.wishes.piece) as u32;
                match pieces(image.len() as u32, size) {
                    Some(_) => Reaction::Next(Stage::Packet { rate, size, number: 1 }),
                    None => Reaction::Fail(Refusal::Pieces),
                }
            }
            0x01 | 0x02 => Reaction::ModuleRefused(ack),
            0x10 => self.again(),
            _ => Reaction::PassOver,
        }
    }

    fn packet_answer(&self, rate: Rate, size: u32, number: u16, ack: u8, image: &[u8]) -> Reaction {
        match (ack, self.wishes.same) {
            (0x00, _) | (0x02, SameVersion::GoOn) => {
                if number < total(image, size) {
                    Reaction::Next(Stage::Packet { rate, size, number: number + 1 })
                } else {
                    Reaction::AwaitNotice(Stage::Notice { rate, size })
                }
            }
            (0x01, _) | (0x02, SameVersion::Stop) => Reaction::ModuleRefused(ack),
            (0x10, _) => self.again(),
            _ => Reaction::PassOver,
        }
    }

    /// An answer with another packet number: "PkNo 0 fits with ACK 01 or 10".
    fn packet_fault(&self, named: u16, ack: u8) -> Reaction {
        match (named, ack) {
            (0, 0x01) => Reaction::ModuleRefused(ack),
            (0, 0x10) => self.again(),
            _ => Reaction::PassOver,
        }
    }

    /// The rate of the line: the agreed one. Before that it is as it was, but for the first and third repeat of a request: the module may
    /// have agreed to the rate asked for, and its answer was lost.
    fn line_rate(&self) -> Option<Rate> {
        match (self.stage, self.repeats) {
            (Stage::Rate(asked), 1 | 3) => Some(asked),
            (stage, _) => stage.agreed(),
        }
    }

    fn at(self, stage: Stage, repeats: u32) -> Course {
        Course { stage, waited: 0, repeats, ..self }
    }
}

impl Session {
    pub fn ended(image_length: u64) -> Session {
        Session { image_length, course: None, parting: None }
    }

    /// "Opening tests the type (6), 8, then 2, and writes the first text or frame." The type is a number here because it is tested.
    pub fn open(
        number: u16,
        first: Rate,
        piece: u64,
        start_text: bool,
        same: SameVersion,
        image: &[u8],
        out: &mut [u8],
    ) -> (Session, Result<usize, Refusal>) {
        let image_length = image.len() as u64;
        match begin(number, first, piece, start_text, same, image, out) {
            Ok((course, count)) => (Session { image_length, course: Some(course), parting: None }, Ok(count)),
            Err(refusal) => (Session::ended(image_length), Err(refusal)),
        }
    }

    /// Whether the session's numbers can arise from an opening.
    pub fn could_arise(&self) -> bool {
        let Some(course) = self.course else {
            return self.parting.is_none() || image_length_allowed(self.image_length);
        };
        let Course { wishes, stage, waited, repeats } = course;
        let sized = |size: u32| {
            size <= MAX_PIECE && u64::from(size) <= wishes.piece && pieces(self.image_length as u32, size).is_some()
        };
        image_length_allowed(self.image_length)
            && waited < stage.limit()
            && repeats <= MAX_REPEATS
            && match stage {
                Stage::StartText => wishes.start_text,
                Stage::Rate(rate) | Stage::Parameters(rate) => rate <= wishes.first,
                Stage::Packet { rate, size, number } => {
                    rate <= wishes.first
                        && sized(size)
                        && pieces(self.image_length as u32, size).is_some_and(|total| (1..=total).contains(&number))
                }
                Stage::Notice { rate, size } | Stage::Restart { rate, size } => rate <= wishes.first && sized(size),
            }
    }

    /// One event. A refusal with 2 or 3 leaves the session as it was.
    pub fn step(&mut self, event: Event, image: &[u8], out: &mut [u8]) -> Answer {
        // "For the host 3 comes first, before an ended session is looked at."
        if image.len() as u64 != self.image_length {
            return Answer::Refused(Refusal::OtherLength);
        }
        let Some(course) = self.course else {
            return Answer::Nothing;
        };
        match self.apply(course, course.react(event, image), image, out) {
            Ok(answer) => answer,
            Err(refusal) => Answer::Refused(refusal),
        }
    }

    fn apply(&mut self, course: Course, reaction: Reaction, image: &[u8], out: &mut [u8]) -> Result<Answer, Refusal> {
        let (next, answer) = match reaction {
            Reaction::PassOver => (Some(course), Answer::Nothing),
            Reaction::Waited(waited) => (Some(Course { waited, ..course }), Answer::Nothing),
            Reaction::Resend => {
                let count = course.send(course.stage, image, out)?;
                (Some(course.at(course.stage, course.repeats + 1)), Answer::Send(count))
            }
            Reaction::Next(stage) => {
                let count = course.send(stage, image, out)?;
                (Some(course.at(stage, 0)), Answer::Send(count))
            }
            // The last packet's repeats before and after its acknowledgement count together.
            Reaction::AwaitNotice(stage) => (Some(course.at(stage, course.repeats)), Answer::Nothing),
            Reaction::Finished => (None, Answer::Done),
            Reaction::Fail(refusal) => (None, Answer::Refused(refusal)),
            Reaction::ModuleRefused(ack) => (None, Answer::ModuleRefused { ack, count: write_restart(out)? }),
            Reaction::BadNotice(state) => (None, Answer::BadNotice { state, count: write_restart(out)? }),
        };
        if matches!(answer, Answer::ModuleRefused { .. } | Answer::BadNotice { .. }) {
            self.parting = course.stage.agreed().map(|rate| Parting { kind: course.wishes.kind, rate });
        }
        self.course = next;
        Ok(answer)
    }

    /// Packets accepted and packets in all.
    pub fn progress(&self) -> (u64, u64) {
        let in_all = |size: u32| u64::from(pieces(self.image_length as u32, size).unwrap_or(0));
        match self.course.map(|course| course.stage) {
            Some(Stage::Packet { size, number, .. }) => (u64::from(number) - 1, in_all(size)),
            Some(Stage::Notice { size, .. } | Stage::Restart { size, .. }) => (in_all(size), in_all(size)),
            _ => (0, 0),
        }
    }

    /// The rate that the line should have now; none: as it was.
    pub fn line_rate(&self) -> Option<Rate> {
        match self.course {
            Some(course) => course.line_rate(),
            None => self.parting.map(|parting| parting.rate),
        }
    }

    /// How often the message under way was resent.
    pub fn resent(&self) -> u32 {
        self.course.map_or(0, |course| course.repeats)
    }
}

/// The opening's tests, and the first text or frame.
fn begin(
    number: u16,
    first: Rate,
    piece: u64,
    start_text: bool,
    same: SameVersion,
    image: &[u8],
    out: &mut [u8],
) -> Result<(Course, usize), Refusal> {
    let kind = Kind::from_number(number).ok_or(Refusal::TypeOrAddress)?;
    if !image_length_allowed(image.len() as u64) {
        return Err(Refusal::ImageLength);
    }
    let wishes = Wishes { kind, first, piece, start_text, same };
    let stage = if start_text { Stage::StartText } else { Stage::Rate(first) };
    let course = Course { wishes, stage, waited: 0, repeats: 0 };
    let count = course.send(stage, image, out)?;
    Ok((course, count))
}

pub(crate) fn write_text(text: &[u8], out: &mut [u8]) -> Result<usize, Refusal> {
    out.get_mut(..text.len()).ok_or(Refusal::OutputTooShort)?.copy_from_slice(text);
    Ok(text.len())
}

pub(crate) fn write_restart(out: &mut [u8]) -> Result<usize, Refusal> {
    wire::write(0x06, &[], out)
}

/// The count of pieces; a size that gives none never gets as far as a packet.
fn total(image: &[u8], size: u32) -> u16 {
    pieces(image.len() as u32, size).unwrap_or(0)
}

fn write_packet(image: &[u8], size: u32, number: u16, out: &mut [u8]) -> Result<usize, Refusal> {
    let size = size as usize;
    let from = (usize::from(number) - 1) * size;
    let data = &image[from..image.len().min(from + size)];
    let mut payload = [0; 6 + MAX_PIECE as usize];
    payload[..2].copy_from_slice(&total(image, size as u32).to_le_bytes());
    payload[2..4].copy_from_slice(&number.to_le_bytes());
    payload[4..6].copy_from_slice(&(data.len() as u16).to_le_bytes());
    payload[6..6 + data.len()].copy_from_slice(data);
    wire::write(0x05, &payload[..6 + data.len()], out)
}
