//! A whole load from host to module over a line that takes no time.

use super::{best, line};
use crate::calls::{Calls, PROVED, SECOND};
use second::flat::{DONE, FRAME, HOST_BYTES, MODULE_BYTES, NOTHING, READER_BYTES, WRITTEN};

const LENGTH: usize = 200_000;

/// One side's two ends with their readers.
struct Line<'a> {
    calls: &'static Calls,
    image: &'a [u8],
    flash: Vec<u8>,
    host: [u8; HOST_BYTES],
    module: [u8; MODULE_BYTES],
    at_host: [u8; READER_BYTES],
    at_module: [u8; READER_BYTES],
    out: [u8; 2_080],
    reply: [u8; 64],
}

impl<'a> Line<'a> {
    fn new(calls: &'static Calls, image: &'a [u8]) -> Line<'a> {
        Line {
            calls,
            image,
            flash: vec![0xFF; 262_144],
            host: [0; HOST_BYTES],
            module: [0; MODULE_BYTES],
            at_host: [0; READER_BYTES],
            at_module: [0; READER_BYTES],
            out: [0; 2_080],
            reply: [0; 64],
        }
    }

    fn load(&mut self, wish: usize) {
        let calls = self.calls;
        (calls.reader_new)(&mut self.at_host);
        (calls.reader_new)(&mut self.at_module);
        assert_eq!((calls.module_open)(&mut self.module, &self.flash), NOTHING);
        let mut count = 0;
        let opened = (calls.host_open)(&mut self.host, 1, self.image, 5, wish, 0, 0, &mut self.out, &mut count);
        assert_eq!(opened, WRITTEN);
        loop {
            let replied = self.give_module(count);
            let (answer, sent) = self.give_host(replied);
            if answer == DONE {
                break;
            }
            assert_eq!(answer, WRITTEN, "a clean load has no refusals");
            count = sent;
        }
        assert!(self.flash[0x8000..].starts_with(self.image));
    }

    /// The host's frame goes through the module's reader to the module.
    fn give_module(&mut self, count: usize) -> usize {
        let (mut command, mut bytes, mut place, mut replied) = (0, 0, 0, 0);
        for &byte in &self.out[..count] {
            if (self.calls.reader_step)(&mut self.at_module, byte, &mut command, &mut bytes) == FRAME {
                let there = (self.calls.reader_payload)(&self.at_module, bytes, &mut place);
                let payload = &self.at_module[place..place + there];
                let (state, flash, reply) = (&mut self.module, &mut self.flash, &mut self.reply);
                (self.calls.module_frame)(state, command, payload, flash, reply, &mut replied);
            }
        }
        replied
    }

    /// The module's frames go through the host's reader to the host; its last answer other than nothing comes back.
    fn give_host(&mut self, count: usize) -> (u8, usize) {
        let (mut command, mut bytes, mut place, mut passed) = (0, 0, 0, 0);
        let mut last = (NOTHING, 0);
        for &byte in &self.reply[..count] {
            if (self.calls.reader_step)(&mut self.at_host, byte, &mut command, &mut bytes) == FRAME {
                let there = (self.calls.reader_payload)(&self.at_host, bytes, &mut place);
                let payload = &self.at_host[place..place + there];
                let (state, out, mut sent) = (&mut self.host, &mut self.out, 0);
                let answer = (self.calls.host_frame)(state, command, payload, self.image, out, &mut sent, &mut passed);
                if answer != NOTHING {
                    last = (answer, sent);
                }
            }
        }
        last
    }
}

pub fn measure() {
    let image: Vec<u8> = (0..LENGTH).map(|n| ((n * 31) >> 3) as u8).collect();
    for wish in [1_024, 64] {
        let proved = best(|| Line::new(&PROVED, &image).load(wish));
        let second = best(|| Line::new(&SECOND, &image).load(wish));
        line(&format!("whole load, 200,000 bytes, pieces of {wish}"), LENGTH, proved, second);
    }
}
