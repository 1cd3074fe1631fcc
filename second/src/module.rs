//! The module's session over a lent flash.

use crate::kind::{self, Kind, MAX_IMAGE, MAX_PIECE};
use crate::refusal::Refusal;
use crate::wire;

pub const MAX_FLASH: u64 = 262_144;
/// "An idle sum over 7,000 closes; exactly 7,000 does not."
pub const MAX_IDLE: u32 = 7_000;
/// A shorter reply buffer is refused with 2.
pub const MIN_REPLY: usize = 64;
/// "MaxPk in the answer is always 1,024."
const MAX_PK: u16 = 1_024;

const ACK_GOOD: u8 = 0x00;
const ACK_FIRST: u8 = 0x01;
const ACK_LENGTH: u8 = 0x02;
const ACK_WRONG: u8 = 0x10;

/// What command 0x02 announced.
#[derive(Clone, Copy, Debug, PartialEq, Eq)]
pub struct Parameters {
    pub kind: Kind,
    pub length: u32,
}

#[derive(Clone, Copy, Debug, PartialEq, Eq)]
pub enum Phase {
    Closed,
    /// Open, no transfer.
    Ready,
    /// Parameters accepted; packet 1 is expected.
    Begun(Parameters),
    /// `number` is the packet just accepted.
    Loading {
        parameters: Parameters,
        size: u32,
        number: u16,
        written: u32,
    },
    Done {
        parameters: Parameters,
        size: u32,
        written: u32,
    },
}

#[derive(Clone, Copy, Debug, PartialEq, Eq)]
pub struct Session {
    pub flash_length: u64,
    pub idle: u32,
    pub phase: Phase,
}

/// A packet of command 0x05, its data as long as its PkSize says.
struct Packet<'a> {
    total: u16,
    number: u16,
    data: &'a [u8],
}

/// The frames that answer an event, in the front of the reply buffer.
struct Reply<'a> {
    buffer: &'a mut [u8],
    count: usize,
}

impl Reply<'_> {
    fn add(&mut self, command: u8, payload: &[u8]) {
        // No answer is longer than the 64 bytes that every reply buffer has.
        if let Ok(count) = wire::write(command, payload, &mut self.buffer[self.count..]) {
            self.count += count;
        }
    }
}

impl Parameters {
    fn base(&self) -> usize {
        self.kind.base() as usize
    }

    /// "length 1 to 262,143 and base + length within the lent flash"
    fn fit(&self, flash_length: u64) -> bool {
        let length = u64::from(self.length);
        (1..=MAX_IMAGE).contains(&length) && u64::from(self.kind.base()) + length <= flash_length
    }

    /// The Total that goes with this size of packet 1: "with Total 1, s must be the length, else Total must be length / s rounded up".
    fn total(&self, size: u32) -> Option<u16> {
        if size > MAX_PIECE {
            return None;
        }
        kind::pieces(self.length, size).filter(|&total| total > 1 || size == self.length)
    }

    /// How many bytes a packet carries: "s bytes each but the last, which has the rest".
    fn size_of(&self, number: u16, size: u32) -> u32 {
        let before = (u32::from(number) - 1) * size;
        size.min(self.length - before)
    }

    /// Where a packet stands in the flash.
    fn place(&self, number: u16, size: u32) -> usize {
        self.base() + (usize::from(number) - 1) * size as usize
    }
}

impl<'a> Packet<'a> {
    /// "payload is 6 + PkSize; PkSize 1 to 1,024"
    fn parse(payload: &'a [u8]) -> Option<Packet<'a>> {
        let (numbers, data) = payload.split_at_checked(6)?;
        let word = |at: usize| u16::from_le_bytes([numbers[at], numbers[at + 1]]);
        let size = usize::from(word(4));
        let sized = size == data.len() && (1..=MAX_PIECE as usize).contains(&size);
        sized.then(|| Packet { total: word(0), number: word(2), data })
    }

    fn size(&self) -> u32 {
        self.data.len() as u32
    }
}

impl Session {
    /// Opens a session. "A refused opening gives a closed session that keeps the length it was lent."
    pub fn open(flash: &[u8]) -> (Session, Result<(), Refusal>) {
        let flash_length = flash.len() as u64;
        if flash_length == 0 || flash_length > MAX_FLASH {
            return (Session::closed(flash_length), Err(Refusal::OtherLength));
        }
        (Session { flash_length, idle: 0, phase: Phase::Ready }, Ok(()))
    }

    pub fn closed(flash_length: u64) -> Session {
        Session { flash_length, idle: 0, phase: Phase::Closed }
    }

    pub fn is_open(&self) -> bool {
        self.phase != Phase::Closed
    }

    /// Whether the session's numbers can arise from an opening. A closed one has the sum of the frame or the time that closed it.
    pub fn could_arise(&self) -> bool {
        let lent = (1..=MAX_FLASH).contains(&self.flash_length);
        if !self.is_open() {
            return self.idle == 0 || lent && self.idle == MAX_IDLE + 1;
        }
        lent && self.idle <= MAX_IDLE
            && match self.phase {
                Phase::Closed | Phase::Ready => true,
                Phase::Begun(parameters) => parameters.fit(self.flash_length),
                Phase::Loading { parameters, size, number, written } => {
                    parameters.fit(self.flash_length)
                        && parameters.total(size).is_some_and(|total| (1..total).contains(&number))
                        && written == u32::from(number) * size
                }
                Phase::Done { parameters, size, written } => {
                    parameters.fit(self.flash_length)
                        && parameters.total(size).is_some()
                        && written == parameters.length
                }
            }
    }

    /// "For the module 2 before 3, and both before a closed session is looked at."
    fn refused(&self, flash: &[u8], reply: &[u8]) -> Result<(), Refusal> {
        if reply.len() < MIN_REPLY {
            return Err(Refusal::OutputTooShort);
        }
        if flash.len() as u64 != self.flash_length {
            return Err(Refusal::OtherLength);
        }
        Ok(())
    }

    /// Milliseconds have passed.
    pub fn wait(&mut self, ms: u32, flash: &[u8], reply: &[u8]) -> Result<(), Refusal> {
        self.refused(flash, reply)?;
        if self.is_open() {
            // "The sum starts at 0 and stops at 7,001."
            self.idle = self.idle.saturating_add(ms).min(MAX_IDLE + 1);
            if self.idle > MAX_IDLE {
                self.phase = Phase::Closed;
            }
        }
        Ok(())
    }

    /// A frame has arrived. Answers how many bytes of the reply are to be sent.
    pub fn frame(&mut self, command: u8, payload: &[u8], flash: &mut [u8], reply: &mut [u8]) -> Result<usize, Refusal> {
        self.refused(flash, reply)?;
        if !self.is_open() {
            return Ok(0);
        }
        self.idle = 0;
        let mut reply = Reply { buffer: reply, count: 0 };
        match command {
            0x01 => rate(payload, &mut reply),
            0x02 => self.parameters(payload, &mut reply),
            0x05 => self.packet(payload, flash, &mut reply),
            0x06 => self.restart(payload, &mut reply),
            _ => {}
        }
        Ok(reply.count)
    }

    fn parameters(&mut self, payload: &[u8], reply: &mut Reply) {
        let ack = match self.accept_parameters(payload) {
            Ok(parameters) => {
                self.phase = Phase::Begun(parameters);
                ACK_GOOD
            }
            Err(ack) => ack,
        };
        let [low, high] = MAX_PK.to_le_bytes();
        reply.add(0x02, &[low, high, ack]);
    }

    /// "In order: payload length (10), type 1 to 3 (01), address (10), length (02)."
    fn accept_parameters(&self, payload: &[u8]) -> Result<Parameters, u8> {
        let &[t0, t1, l0, l1, l2, l3, a0, a1, a2, a3] = payload else {
            return Err(ACK_WRONG);
        };
        let kind = Kind::from_number(u16::from_le_bytes([t0, t1])).ok_or(ACK_FIRST)?;
        if u32::from_le_bytes([a0, a1, a2, a3]) != kind.token() {
            return Err(ACK_WRONG);
        }
        let parameters = Parameters { kind, length: u32::from_le_bytes([l0, l1, l2, l3]) };
        if parameters.fit(self.flash_length) {
            Ok(parameters)
        } else {
            Err(ACK_LENGTH)
        }
    }

    fn packet(&mut self, payload: &[u8], flash: &mut [u8], reply: &mut Reply) {
        let accepted = Packet::parse(payload).filter(|packet| self.accept_packet(packet, flash));
        let Some(packet) = accepted else {
            reply.add(0x05, &[0, 0, ACK_WRONG]);
            return;
        };
        let [low, high] = packet.number.to_le_bytes();
        reply.add(0x05, &[low, high, ACK_GOOD]);
        // "After the last packet the acknowledgement is followed by notice 0x86."
        if let Phase::Done { parameters, written, .. } = self.phase {
            let state = u8::from(written != parameters.length);
            reply.add(0x86, &[state]);
        }
    }

    /// Takes a packet as new data or as a repeat; otherwise nothing changes.
    fn accept_packet(&mut self, packet: &Packet, flash: &mut [u8]) -> bool {
        match self.phase {
            Phase::Closed | Phase::Ready => false,
            Phase::Begun(parameters) => {
                let size = packet.size();
                let first = packet.number == 1 && parameters.total(size) == Some(packet.total);
                first && self.store(parameters, size, 0, packet, flash)
            }
            Phase::Loading { parameters, size, number, written } => {
                is_repeat(packet, parameters, size, number, flash)
                    || is_packet(packet, parameters, size, number + 1)
                        && self.store(parameters, size, written, packet, flash)
            }
            Phase::Done { parameters, size, .. } => {
                parameters.total(size).is_some_and(|total| is_repeat(packet, parameters, size, total, flash))
            }
        }
    }

    /// "An accepted packet is written at base + (PkNo - 1) x s."
    fn store(&mut self, parameters: Parameters, size: u32, written: u32, packet: &Packet, flash: &mut [u8]) -> bool {
        let place = parameters.place(packet.number, size);
        flash[place..place + packet.data.len()].copy_from_slice(packet.data);
        let written = written + packet.size();
        self.phase = if packet.number == packet.total {
            Phase::Done { parameters, size, written }
        } else {
            Phase::Loading { parameters, size, number: packet.number, written }
        };
        true
    }

    /// "0x06, payload 0: ACK 00, closed. Else ACK 10."
    fn restart(&mut self, payload: &[u8], reply: &mut Reply) {
        if payload.is_empty() {
            self.phase = Phase::Closed;
            reply.add(0x06, &[ACK_GOOD]);
        } else {
            reply.add(0x06, &[ACK_WRONG]);
        }
    }
}

/// "0x01, payload 1: the answer carries the rate asked for, with ACK 00 for 1 to 5, else ACK 01."
fn rate(payload: &[u8], reply: &mut Reply) {
    match *payload {
        [rate @ 1..=5] => reply.add(0x01, &[rate, ACK_GOOD]),
        [rate] => reply.add(0x01, &[rate, ACK_FIRST]),
        _ => reply.add(0x01, &[0, ACK_WRONG]),
    }
}

/// Whether a packet has this number, the Total of its transfer and the bytes that its number asks for.
fn is_packet(packet: &Packet, parameters: Parameters, size: u32, number: u16) -> bool {
    packet.number == number
        && parameters.total(size) == Some(packet.total)
        && packet.size() == parameters.size_of(number, size)
}

/// "A repeat has the number just accepted (never 0), the same Total and size, and bytes equal to those in flash."
fn is_repeat(packet: &Packet, parameters: Parameters, size: u32, number: u16, flash: &[u8]) -> bool {
    is_packet(packet, parameters, size, number) && flash[parameters.place(number, size)..].starts_with(packet.data)
}
