//! The reader of frames, fed byte by byte.

use crate::wire::{self, ESCAPE, HEAD, MAX_CONTENT, TAIL};

/// "Each step answers one of nothing, a frame, or dropped."
#[derive(Clone, Copy, Debug, PartialEq, Eq)]
pub enum Step {
    Nothing,
    Frame { command: u8, count: usize },
    Dropped,
}

/// "Its store of 1,035 bytes is all zero at the start and travels inside the reader."
#[derive(Clone, Debug, PartialEq, Eq)]
pub struct Reader {
    store: [u8; MAX_CONTENT],
    count: usize,
    opened: bool,
    pending: bool,
}

impl Default for Reader {
    fn default() -> Self {
        Reader::new()
    }
}

impl Reader {
    pub fn new() -> Reader {
        Reader { store: [0; MAX_CONTENT], count: 0, opened: false, pending: false }
    }

    /// A reader from its parts. "A reader with a store count over 1,035 is taken as a fresh one."
    pub fn from_parts(store: [u8; MAX_CONTENT], count: usize, opened: bool, pending: bool) -> Reader {
        if count > MAX_CONTENT {
            return Reader::new();
        }
        Reader { store, count, opened, pending }
    }

    pub fn store(&self) -> &[u8; MAX_CONTENT] {
        &self.store
    }

    pub fn count(&self) -> usize {
        self.count
    }

    pub fn opened(&self) -> bool {
        self.opened
    }

    pub fn pending(&self) -> bool {
        self.pending
    }

    /// The payload of the frame just handed out.
    pub fn payload(&self) -> &[u8] {
        wire::parts(&self.store[..self.count.max(5)]).1
    }

    pub fn step(&mut self, byte: u8) -> Step {
        if byte == HEAD {
            return self.open();
        }
        if !self.opened {
            return Step::Nothing;
        }
        if self.pending {
            return self.second(byte);
        }
        match byte {
            TAIL => self.tail(),
            ESCAPE => {
                self.pending = true;
                Step::Nothing
            }
            _ => self.content(byte),
        }
    }

    /// "DB always opens a frame, after DC as well. If one was open, the answer is dropped."
    fn open(&mut self) -> Step {
        let answer = if self.opened { Step::Dropped } else { Step::Nothing };
        self.opened = true;
        self.pending = false;
        self.count = 0;
        answer
    }

    /// The byte after DC: "Another byte than these and DB gives dropped and closes."
    fn second(&mut self, byte: u8) -> Step {
        if !wire::may_follow(byte) {
            return self.drop_frame();
        }
        self.pending = false;
        self.content(wire::original_of(byte))
    }

    /// "Content byte 1,036 gives dropped and closes."
    fn content(&mut self, byte: u8) -> Step {
        match self.store.get_mut(self.count) {
            Some(place) => {
                *place = byte;
                self.count += 1;
                Step::Nothing
            }
            None => self.drop_frame(),
        }
    }

    /// "DE closes. A frame is handed out if ..." (the pending escape was looked at before).
    fn tail(&mut self) -> Step {
        self.close();
        let content = &self.store[..self.count];
        if !wire::is_content(content) {
            return Step::Dropped;
        }
        let (command, payload) = wire::parts(content);
        Step::Frame { command, count: payload.len() }
    }

    fn drop_frame(&mut self) -> Step {
        self.close();
        Step::Dropped
    }

    fn close(&mut self) {
        self.opened = false;
        self.pending = false;
    }
}
