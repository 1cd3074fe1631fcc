//! The bench examples of document 01, with the bytes that both sides must give.

use super::host::{Event as HostEvent, Hosts, Opening, OUT};
use super::reader::Readers;
use super::rng::Rng;
use super::talk::load;
use super::tally::Tally;
use crate::calls::SIDES;
use second::flat::{DONE, FRAME, HOST_BYTES, WRITTEN};

fn bytes(text: &str) -> Vec<u8> {
    text.split_whitespace().map(|word| u8::from_str_radix(word, 16).unwrap_or(0)).collect()
}

/// Writes and reads one frame on each side against the printed bytes.
fn frame(tally: &mut Tally, name: &str, command: u8, payload: &str, printed: &str) {
    let (payload, printed) = (bytes(payload), bytes(printed));
    let written = SIDES.map(|calls| {
        let (mut out, mut count) = ([0x5A; 40], 77);
        let answer = (calls.frame_write)(command, &payload, &mut out, &mut count);
        (answer, out[..count.min(40)].to_vec(), count)
    });
    let as_printed = (WRITTEN, printed.clone(), printed.len());
    tally.input(written[0] == written[1], || format!("bench example {name}: writing differs"));

    let mut readers = Readers::fresh(tally);
    let (last, before) = printed.split_last().unwrap_or((&0, &[]));
    let quiet = before.iter().all(|&byte| readers.step(tally, byte).0 == 0);
    let heard = readers.step(tally, *last);
    let read = heard == (FRAME, command, payload.len()) && readers.payload(tally, payload.len()) == payload;
    tally.example(name, written.iter().all(|side| *side == as_printed) && quiet && read);
}

/// Answers of a whole stream: frames as command and payload, drops as none.
fn stream(tally: &mut Tally, printed: &str) -> Vec<Option<(u8, Vec<u8>)>> {
    let mut readers = Readers::fresh(tally);
    let mut heard = Vec::new();
    for byte in bytes(printed) {
        match readers.step(tally, byte) {
            (FRAME, command, count) => heard.push(Some((command, readers.payload(tally, count).to_vec()))),
            (0, ..) => {}
            _ => heard.push(None),
        }
    }
    heard
}

fn long_payloads(tally: &mut Tally) {
    for (length, wanted) in [(1_030, WRITTEN), (1_031, 1)] {
        let payload = vec![0xDE; length];
        let got = SIDES.map(|calls| {
            let (mut out, mut count) = (vec![0x5A; 2_200], 77);
            let answer = (calls.frame_write)(0x05, &payload, &mut out, &mut count);
            (answer, count, out)
        });
        tally.input(got[0] == got[1], || format!("bench example: payload {length}"));
        let good = got.iter().all(|(answer, count, out)| {
            *answer == wanted && (*answer != 1 || *count == 0) && out[*count..].iter().all(|&byte| byte == 0x5A)
        });
        let word = if wanted == 1 { "refused" } else { "written" };
        tally.example(&format!("payload {length} {word}"), good);
    }
}

fn pieces_of_4(tally: &mut Tally, rng: &mut Rng) {
    let image = rng.bytes(262_140);
    let opening = Opening { kind: 2, first: 5, wish: 4, start: 1, same: 0 };
    let (ending, flashes) = load(tally, rng, opening, &image, 262_144, 0);
    let stored = flashes.iter().all(|flash| flash[..262_140] == image[..] && flash[262_140..] == [0xFF; 4]);
    let good = ending.answer == DONE && ending.packets == 65_535 && stored;
    tally.example("type 2, length 262,140 in pieces of 4: 65,535 packets, done", good);
}

fn pieces_of_3(tally: &mut Tally) {
    let image = vec![0; 262_140];
    let opening = Opening { kind: 2, first: 5, wish: 3, start: 0, same: 0 };
    let mut hosts = Hosts::new(&[0; HOST_BYTES]);
    hosts.open(tally, opening, &image, OUT);
    hosts.step(tally, &HostEvent::Frame(0x01, vec![5, 0]), &image, OUT);
    let got = hosts.step(tally, &HostEvent::Frame(0x02, vec![0, 4, 0]), &image, OUT);
    let good = got == (11, 0, 0) && hosts.proved_sent(OUT) == hosts.sent(OUT) && hosts.view().stage == 0;
    tally.example("type 2, length 262,140 in pieces of 3: number 11", good);
}

pub fn examples(tally: &mut Tally, rng: &mut Rng) {
    frame(tally, "rate 115200", 0x01, "05", "DB 04 00 01 01 05 01 DE");
    frame(tally, "its answer", 0x01, "05 00", "DB 05 00 01 01 05 00 00 DE");
    frame(
        tally,
        "type 1, length 0x1F7E0, with the missing byte restored",
        0x02,
        "01 00 E0 F7 01 00 00 00 00 00",
        "DB 0D 00 01 02 01 00 E0 F7 01 00 00 00 00 00 19 DE",
    );
    let printed = stream(tally, "DB 0D 00 01 02 01 00 E0 F7 01 00 00 00 00 19 DE");
    tally.example("type 1, length 0x1F7E0, as printed: no frame", printed == [None]);
    frame(tally, "MaxPk 0x2000", 0x02, "00 20 00", "DB 06 00 01 02 00 20 00 25 DE");
    frame(tally, "packet 3 accepted", 0x05, "03 00 00", "DB 06 00 01 05 03 00 00 01 DE");
    frame(tally, "restart", 0x06, "", "DB 03 00 01 06 04 DE");
    frame(tally, "notice", 0x86, "00", "DB 04 00 01 86 00 83 DE");
    frame(tally, "command 01, payload DB", 0x01, "DB", "DB 04 00 01 01 DC CB DF DE");
    frame(tally, "command 01, payload DA, escaped check", 0x01, "DA", "DB 04 00 01 01 DA DC CE DE");
    let heard = stream(tally, "DB 04 00 01 DB 03 00 01 06 04 DE DB 04 00 01 86 00 83 DE");
    let wanted = [None, Some((0x06, vec![])), Some((0x86, vec![0x00]))];
    tally.example("the stream with a head inside a frame: two frames", heard == wanted);
    long_payloads(tally);
    pieces_of_3(tally);
    pieces_of_4(tally, rng);
}
