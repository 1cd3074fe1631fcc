//! The ends of a line, fed bytes as they come: the caller, which is a host, and the post, which is a module that waits for the start text.

use crate::host::{self, Answer, Event, START_ANSWER, START_TEXT};
use crate::module;
use crate::reader::{Reader, Step};
use crate::refusal::Refusal;
use crate::wire;

/// How much of a text is heard with one byte more: "the next byte of the text, else the first byte of a new one, else 0".
fn follow(text: &[u8], heard: u32, byte: u8) -> u32 {
    match text.get(heard as usize) {
        Some(&next) if next == byte => heard + 1,
        _ => u32::from(text[0] == byte),
    }
}

fn complete(text: &[u8], heard: u32) -> bool {
    heard as usize == text.len()
}

#[derive(Clone, Debug, PartialEq, Eq)]
pub struct Caller {
    pub reader: Reader,
    /// How much of the answer to the start text has been heard.
    pub heard: u32,
    pub resent: u64,
    pub dropped: u64,
    pub session: host::Session,
}

impl Caller {
    /// A fresh reader, and nothing counted.
    pub fn new(session: host::Session) -> Caller {
        Caller { reader: Reader::new(), heard: 0, resent: 0, dropped: 0, session }
    }

    pub fn hear(&mut self, byte: u8, image: &[u8], out: &mut [u8]) -> Answer {
        self.heard = follow(START_ANSWER, self.heard, byte);
        match self.reader.step(byte) {
            Step::Frame { command, .. } => {
                let payload = self.reader.payload().to_vec();
                return self.give(Event::Frame { command, payload: &payload }, image, out);
            }
            Step::Dropped => self.dropped = self.dropped.wrapping_add(1),
            Step::Nothing => {}
        }
        if complete(START_ANSWER, self.heard) {
            return self.give(Event::Line(START_ANSWER), image, out);
        }
        Answer::Nothing
    }

    pub fn wait(&mut self, ms: u32, image: &[u8], out: &mut [u8]) -> Answer {
        self.give(Event::Elapsed(ms), image, out)
    }

    fn give(&mut self, event: Event, image: &[u8], out: &mut [u8]) -> Answer {
        let before = self.session.resent();
        let answer = self.session.step(event, image, out);
        if self.session.resent() > before {
            self.resent = self.resent.wrapping_add(1);
        }
        answer
    }
}

#[derive(Clone, Debug, PartialEq, Eq)]
pub struct Post {
    pub reader: Reader,
    /// How much of the start text has been heard.
    pub heard: u32,
    pub dropped: u64,
    pub session: module::Session,
}

impl Post {
    pub fn new(session: module::Session) -> Post {
        Post { reader: Reader::new(), heard: 0, dropped: 0, session }
    }

    /// Answers how many bytes of the reply are to be sent.
    pub fn hear(&mut self, byte: u8, flash: &mut [u8], reply: &mut [u8]) -> Result<usize, Refusal> {
        if !self.session.is_open() {
            return Ok(self.listen(byte, flash, reply));
        }
        self.heard = 0;
        match self.reader.step(byte) {
            Step::Frame { command, .. } => {
                let payload = self.reader.payload().to_vec();
                return self.session.frame(command, &payload, flash, reply);
            }
            Step::Dropped => self.dropped = self.dropped.wrapping_add(1),
            Step::Nothing => {}
        }
        Ok(0)
    }

    /// Without a session: the start text is answered and opens one. Where the answer has no room nothing changes.
    fn listen(&mut self, byte: u8, flash: &[u8], reply: &mut [u8]) -> usize {
        let heard = follow(START_TEXT, self.heard, byte);
        if !complete(START_TEXT, heard) {
            self.heard = heard;
            return 0;
        }
        let Ok(count) = host::write_text(START_ANSWER, reply) else {
            return 0;
        };
        *self = Post { dropped: self.dropped, ..Post::new(module::Session::open(flash).0) };
        count
    }

    pub fn wait(&mut self, ms: u32, flash: &[u8], reply: &[u8]) -> Result<(), Refusal> {
        if !self.session.is_open() {
            return Ok(());
        }
        self.heard = 0;
        self.session.wait(ms, flash, reply)
    }
}

/// The rate that a reply agrees to: it is the answer to command 0x01 with ACK 00, and nothing else.
pub fn rate_agreed(reply: &[u8]) -> Option<u8> {
    (1..=5).find(|&rate| {
        let mut form = [0; 16];
        wire::write(0x01, &[rate, 0x00], &mut form).is_ok_and(|count| form[..count] == *reply)
    })
}
