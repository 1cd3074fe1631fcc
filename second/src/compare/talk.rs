//! Whole loads: each side's host talks to its own module over a line, through its own readers. All is compared at each step.

use super::host::{Event as HostEvent, Hosts, Opening, OUT, START_ANSWER};
use super::module::{Event as ModuleEvent, Modules};
use super::reader::{damage, Readers};
use super::rng::Rng;
use super::tally::Tally;
use second::flat::{DONE, FRAME, HOST_BYTES, MODULE_BYTES, NOTHING, WRITTEN};
use second::wire;
use std::collections::VecDeque;

/// Both ends of a line with their readers, and the messages under way.
struct Line<'a> {
    image: &'a [u8],
    hosts: Hosts,
    modules: Modules,
    at_module: Readers,
    at_host: Readers,
    under_way: VecDeque<Message>,
    /// How many of a hundred messages are damaged.
    damaged: usize,
    /// Whether damage has made a good frame that the other end never sent. The check is one byte, so now and then it does.
    forged: bool,
}

enum Message {
    ToModule(Vec<u8>),
    ToHost(Vec<u8>),
}

/// How a load ended: the host's last answer and the byte it passed on, how many packets the module was given, and whether an end was
/// given a frame that the other end never sent.
#[derive(Debug, PartialEq, Eq)]
pub struct Ending {
    pub answer: u8,
    pub passed: u8,
    pub packets: usize,
    pub forged: bool,
}

/// Whether a message holds the wire form of a frame.
fn holds(message: &[u8], command: u8, payload: &[u8]) -> bool {
    let mut form = vec![0; 2 * payload.len() + 16];
    match wire::write(command, payload, &mut form) {
        Ok(count) => message.windows(count).any(|stretch| *stretch == form[..count]),
        Err(_) => false,
    }
}

impl Line<'_> {
    /// What arrives of a message.
    fn carried(&self, rng: &mut Rng, sent: &[u8]) -> Vec<u8> {
        let mut wire = sent.to_vec();
        if rng.percent(self.damaged) {
            damage(rng, &mut wire);
        }
        wire
    }

    /// Takes the host's answer; tells how the load ended, if it did.
    fn host_said(&mut self, got: (u8, usize, u8)) -> Option<(u8, u8)> {
        let (answer, count, passed) = got;
        if count > 0 {
            let wire = self.hosts.sent(count).to_vec();
            self.under_way.push_back(Message::ToModule(wire));
        }
        (answer != NOTHING && answer != WRITTEN).then_some((answer, passed))
    }

    /// Bytes reach the module. The start text is answered as a board would answer it.
    fn reach_module(&mut self, tally: &mut Tally, wire: &[u8], sent: &[u8]) -> usize {
        if wire.starts_with(b"$PCAS20*03\r\n") {
            self.under_way.push_back(Message::ToHost(START_ANSWER.to_vec()));
            return 0;
        }
        let mut packets = 0;
        for &byte in wire {
            let (answer, command, count) = self.at_module.step(tally, byte);
            if answer != FRAME {
                continue;
            }
            packets += usize::from(command == 0x05);
            let payload = self.at_module.payload(tally, count).to_vec();
            self.forged |= !holds(sent, command, &payload);
            let (_, replied) = self.modules.give(tally, &ModuleEvent::Frame(command, payload));
            if replied > 0 {
                let reply = self.modules.reply(replied).to_vec();
                self.under_way.push_back(Message::ToHost(reply));
            }
        }
        packets
    }

    /// Bytes reach the host; a text is handed on as a line.
    fn reach_host(&mut self, tally: &mut Tally, wire: &[u8], sent: &[u8]) -> Option<(u8, u8)> {
        if wire.first() == Some(&b'$') {
            let got = self.hosts.step(tally, &HostEvent::Line(wire.to_vec()), self.image, OUT);
            return self.host_said(got);
        }
        for &byte in wire {
            let (answer, command, count) = self.at_host.step(tally, byte);
            if answer != FRAME {
                continue;
            }
            let payload = self.at_host.payload(tally, count).to_vec();
            self.forged |= !holds(sent, command, &payload);
            let got = self.hosts.step(tally, &HostEvent::Frame(command, payload), self.image, OUT);
            if let Some(end) = self.host_said(got) {
                return Some(end);
            }
        }
        None
    }

    /// Nothing is under way: time passes at both ends.
    fn time(&mut self, tally: &mut Tally, rng: &mut Rng) -> Option<(u8, u8)> {
        let ms = rng.pick(&[100, 500, 999, 1_000, 1_001, 5_000]);
        self.modules.give(tally, &ModuleEvent::Wait(ms));
        let got = self.hosts.step(tally, &HostEvent::Wait(ms), self.image, OUT);
        self.host_said(got)
    }

    fn run(&mut self, tally: &mut Tally, rng: &mut Rng) -> Ending {
        let mut packets = 0;
        loop {
            let end = match self.under_way.pop_front() {
                Some(Message::ToModule(sent)) => {
                    let wire = self.carried(rng, &sent);
                    packets += self.reach_module(tally, &wire, &sent);
                    None
                }
                Some(Message::ToHost(sent)) => {
                    let wire = self.carried(rng, &sent);
                    self.reach_host(tally, &wire, &sent)
                }
                None => self.time(tally, rng),
            };
            if let Some((answer, passed)) = end {
                return Ending { answer, passed, packets, forged: self.forged };
            }
        }
    }
}

/// Loads an image into a fresh flash of this length; answers how it ended and both sides' flashes.
pub fn load(
    tally: &mut Tally,
    rng: &mut Rng,
    opening: Opening,
    image: &[u8],
    flash_length: usize,
    damaged: usize,
) -> (Ending, [Vec<u8>; 2]) {
    let mut modules = Modules::new(&vec![0xFF; flash_length], 0, &[0; MODULE_BYTES]);
    modules.open(tally);
    let mut hosts = Hosts::new(&[0; HOST_BYTES]);
    let (answer, count) = hosts.open(tally, opening, image, OUT);
    if answer != WRITTEN {
        return (Ending { answer, passed: 0, packets: 0, forged: false }, [Vec::new(), Vec::new()]);
    }
    let first = Message::ToModule(hosts.sent(count).to_vec());
    let mut line = Line {
        image,
        hosts,
        modules,
        at_module: Readers::fresh(tally),
        at_host: Readers::fresh(tally),
        under_way: VecDeque::from([first]),
        damaged,
        forged: false,
    };
    let ending = line.run(tally, rng);
    line.modules.finish(tally);
    (ending, [line.modules.flash().to_vec(), line.modules.proved_flash().to_vec()])
}

pub fn base_of(kind: u16) -> usize {
    [0, 0x8000, 0, 0x3E000][usize::from(kind)]
}

pub fn loads(tally: &mut Tally, rng: &mut Rng) {
    for _ in 0..40 {
        let kind = rng.between(1, 3) as u16;
        let length = 4 * rng.between(1, 200);
        let image = rng.wire_bytes(length);
        let opening = Opening {
            kind,
            first: rng.between(1, 5) as u8,
            wish: rng.pick(&[7, 16, 40, 100, 1_024, usize::MAX]),
            start: rng.below(2) as u8,
            same: rng.below(2) as u8,
        };
        let room = if rng.percent(90) { length } else { rng.below(length) };
        let flash_length = (base_of(kind) + room + rng.below(5)).clamp(1, 262_144);
        let damaged = rng.pick(&[0, 3, 10, 30]);
        let (ending, flashes) = load(tally, rng, opening, &image, flash_length, damaged);
        // A load that is done has put the image where its type says, on both sides, unless damage has forged a frame.
        let base = base_of(kind);
        for flash in flashes {
            if ending.answer == DONE && !ending.forged && flash[base..base + length] != image[..] {
                tally.difference(|| {
                    format!("load of {opening:?}, {length} bytes: done, but the image is not in the flash")
                });
            }
        }
    }
}
