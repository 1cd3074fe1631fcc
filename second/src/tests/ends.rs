//! The ends fed bytes: texts followed, what is counted, and records that stand for nothing.

use super::{frame, hex};
use crate::flat::{self, CALLER_BYTES, CALLER_SESSION, HOST_BYTES, POST_BYTES, POST_SESSION, READER_BYTES};
use crate::host::{START_ANSWER, START_TEXT};

/// Stage, rate, accepted, total, resent, dropped.
fn caller_view(state: &[u8]) -> (u8, u8, usize, usize, usize, usize) {
    let (mut rate, mut accepted, mut total, mut resent, mut dropped) = (9, 9, 9, 9, 9);
    let stage = flat::caller_view(state, &mut rate, &mut accepted, &mut total, &mut resent, &mut dropped);
    (stage, rate, accepted, total, resent, dropped)
}

/// Phase, type, base, length, written, dropped, idle.
fn post_view(state: &[u8]) -> (u8, u16, usize, usize, usize, usize, u8) {
    let (mut kind, mut base, mut length, mut written, mut dropped, mut idle) = (9, 9, 9, 9, 9, 9);
    let phase = flat::post_view(state, &mut kind, &mut base, &mut length, &mut written, &mut dropped, &mut idle);
    (phase, kind, base, length, written, dropped, idle)
}

/// A caller over an image of bytes 0, 1, 2 ..
struct Desk {
    state: Vec<u8>,
    image: Vec<u8>,
}

impl Desk {
    fn open(length: usize, start: u8) -> (Desk, Vec<u8>) {
        let image: Vec<u8> = (0..length).map(|n| n as u8).collect();
        let (mut state, mut out, mut count) = (vec![0xEE; CALLER_BYTES], [0; 2_080], 0);
        assert_eq!(flat::caller_open(&mut state, 2, &image, 5, 4, start, 1, &mut out, &mut count), flat::WRITTEN);
        (Desk { state, image }, out[..count].to_vec())
    }

    /// The last answer other than nothing, and all that is to be sent.
    fn hear(&mut self, bytes: &[u8]) -> (u8, Vec<u8>) {
        let (mut last, mut sent) = (flat::NOTHING, Vec::new());
        for &byte in bytes {
            let (mut out, mut count, mut passed) = ([0; 2_080], 9, 9);
            match flat::caller_hear(&mut self.state, byte, &self.image, &mut out, &mut count, &mut passed) {
                flat::NOTHING => assert_eq!((count, passed), (0, 0)),
                answer => last = answer,
            }
            sent.extend(&out[..count]);
        }
        (last, sent)
    }

    fn wait(&mut self, ms: u32) -> (u8, Vec<u8>) {
        let (mut out, mut count, mut passed) = ([0; 2_080], 9, 9);
        let answer = flat::caller_wait(&mut self.state, ms, &self.image, &mut out, &mut count, &mut passed);
        (answer, out[..count].to_vec())
    }
}

/// A post that waits, and all its replies to some bytes.
struct Board {
    state: Vec<u8>,
    flash: Vec<u8>,
}

impl Board {
    fn new(length: usize) -> Board {
        let mut state = vec![0xEE; POST_BYTES];
        assert_eq!(flat::post_new(&mut state), flat::NOTHING);
        Board { state, flash: vec![0xFF; length] }
    }

    fn hear(&mut self, bytes: &[u8]) -> Vec<u8> {
        let mut sent = Vec::new();
        for &byte in bytes {
            let (mut reply, mut count) = ([0; 64], 9);
            flat::post_hear(&mut self.state, byte, &mut self.flash, &mut reply, &mut count);
            sent.extend(&reply[..count]);
        }
        sent
    }

    fn wait(&mut self, ms: u32) -> u8 {
        flat::post_wait(&mut self.state, ms, &mut self.flash, &mut [0; 64], &mut 9)
    }
}

#[test]
fn sizes_are_the_headers() {
    assert_eq!((CALLER_SESSION, CALLER_BYTES), (READER_BYTES + 20, READER_BYTES + 20 + HOST_BYTES));
    assert_eq!((POST_SESSION, POST_BYTES), (1_059, 1_095));
}

#[test]
fn caller_and_post_load() {
    let (mut desk, mut sent) = Desk::open(10 * 4, 1);
    let mut board = Board::new(44);
    assert_eq!(sent, START_TEXT);
    let mut last = flat::NOTHING;
    while !sent.is_empty() {
        let replies = board.hear(&sent);
        (last, sent) = desk.hear(&replies);
    }
    assert_eq!(last, flat::DONE);
    assert_eq!((&board.flash[..40], &board.flash[40..]), (&desk.image[..], &[0xFF; 4][..]));
    assert_eq!(caller_view(&desk.state), (0, 0, 0, 0, 0, 0));
    assert_eq!(post_view(&board.state), (0, 0, 0, 0, 0, 0, 0));
}

#[test]
fn two_answers_at_once_bring_two_messages() {
    let (mut desk, _) = Desk::open(8, 0);
    let both = [frame(0x01, &[5, 0]), frame(0x02, &[0, 4, 0])].concat();
    let (last, sent) = desk.hear(&both);
    assert_eq!(last, flat::WRITTEN);
    assert_eq!(
        sent,
        [frame(0x02, &hex("02 00 08 00 00 00 00 00 00 00")), frame(0x05, &hex("02 00 01 00 04 00 00 01 02 03"))]
            .concat()
    );
    assert_eq!(caller_view(&desk.state), (4, 5, 0, 2, 0, 0));
}

#[test]
fn answer_text_is_followed_byte_by_byte() {
    let (mut desk, _) = Desk::open(8, 1);
    assert_eq!(desk.hear(b"$PCAS30,3*1D\r"), (flat::NOTHING, vec![]));
    assert_eq!(desk.hear(b"$PCAS30,3*1D\r\n"), (flat::WRITTEN, frame(0x01, &[5])));
    assert_eq!(desk.state[READER_BYTES], 14);
    // Complete until the next byte moves on; it is given once.
    assert_eq!(desk.hear(b"\n"), (flat::NOTHING, vec![]));
    assert_eq!(desk.state[READER_BYTES], 0);
    assert_eq!(desk.hear(b"$"), (flat::NOTHING, vec![]));
    assert_eq!(desk.state[READER_BYTES], 1);
}

#[test]
fn a_byte_may_drop_a_frame_and_complete_the_text() {
    let (mut desk, _) = Desk::open(8, 1);
    desk.hear(&START_ANSWER[..13]);
    // A reader that waits for the second byte of an escape: the line feed is none.
    desk.state[4] = 1;
    desk.state[8] = 1;
    assert_eq!(desk.hear(b"\n").0, flat::WRITTEN);
    assert_eq!(caller_view(&desk.state), (2, 0, 0, 0, 0, 1));
}

#[test]
fn resent_counts_over_all_messages() {
    let (mut desk, first) = Desk::open(8, 0);
    assert_eq!(caller_view(&desk.state).1, 0);
    for (repeat, rate) in [(1, 5), (2, 0), (3, 5)] {
        assert_eq!(desk.wait(1_000), (flat::WRITTEN, first.clone()));
        assert_eq!(caller_view(&desk.state), (2, rate, 0, 0, repeat, 0));
    }
    desk.hear(&frame(0x01, &[5, 0]));
    desk.wait(1_000);
    assert_eq!(caller_view(&desk.state), (3, 5, 0, 0, 4, 0));
    desk.hear(&frame(0x02, &[0, 4, 2]));
    assert_eq!(caller_view(&desk.state), (0, 5, 0, 0, 4, 0));
}

#[test]
fn post_waits_again_after_a_restart_and_when_idle() {
    let mut board = Board::new(8);
    assert_eq!(board.hear(&frame(0x06, &[])), []);
    assert_eq!(board.wait(8_000), flat::NOTHING);
    assert_eq!(board.hear(START_TEXT), START_ANSWER);
    assert_eq!(post_view(&board.state), (1, 0, 0, 0, 0, 0, 0));
    assert_eq!(board.hear(START_TEXT), []);
    assert_eq!(board.hear(&frame(0x06, &[])), frame(0x06, &[0]));
    assert_eq!(board.hear(START_TEXT), START_ANSWER);
    board.hear(&hex("DB DB 04"));
    assert_eq!(board.wait(7_000), flat::NOTHING);
    assert_eq!(post_view(&board.state), (1, 0, 0, 0, 0, 1, 0));
    board.wait(1);
    assert_eq!(post_view(&board.state), (0, 0, 0, 0, 0, 1, 1));
    // The reader is fresh with the next session, and what was dropped is kept.
    assert_eq!(board.hear(START_TEXT), START_ANSWER);
    assert_eq!(board.state[..12], [0; 12]);
    assert_eq!(post_view(&board.state), (1, 0, 0, 0, 0, 1, 0));
}

#[test]
fn post_without_room_for_its_answer_stays() {
    let mut board = Board::new(8);
    board.hear(&START_TEXT[..11]);
    let before = board.state.clone();
    let (mut reply, mut count) = ([7; 14], 9);
    assert_eq!(flat::post_hear(&mut board.state, b'\n', &mut board.flash, &mut reply[..13], &mut count), flat::NOTHING);
    assert_eq!((count, &reply, &board.state), (0, &[7; 14], &before));
    assert_eq!(flat::post_hear(&mut board.state, b'\n', &mut board.flash, &mut reply, &mut count), flat::WRITTEN);
    assert_eq!((count, &reply[..]), (14, START_ANSWER));
}

#[test]
fn post_shows_its_range() {
    let mut board = Board::new(0x8000 + 12);
    assert_eq!(flat::post_open(&mut board.state, &board.flash), flat::NOTHING);
    board.hear(&frame(0x02, &hex("01 00 0C 00 00 00 00 00 00 00")));
    assert_eq!(post_view(&board.state), (2, 1, 0x8000, 12, 0, 0, 0));
    board.hear(&frame(0x05, &hex("03 00 01 00 04 00 01 02 03 04")));
    assert_eq!(post_view(&board.state), (3, 1, 0x8000, 12, 4, 0, 0));
}

#[test]
fn what_stands_for_nothing_is_written_down() {
    let (mut desk, _) = Desk::open(8, 0);
    let mut closed = desk.state[..CALLER_SESSION].to_vec();
    closed.extend([8, 0, 0, 0, 0, 0, 0, 0]);
    closed.resize(CALLER_BYTES, 0);
    desk.state[CALLER_SESSION + 16] = 9;
    desk.state[8] = 7;
    assert_eq!(caller_view(&desk.state).0, 0);
    assert_eq!(desk.wait(1_000), (flat::NOTHING, vec![]));
    assert_eq!(desk.state, closed);

    let mut board = Board::new(8);
    board.hear(START_TEXT);
    board.state[POST_SESSION + 12] = 5;
    board.wait(1);
    assert_eq!(board.state[POST_SESSION..], [[8, 0, 0, 0].as_slice(), &[0; 32]].concat());
}

#[test]
fn a_session_that_could_not_arise_stays_until_another_is_opened() {
    let mut board = Board::new(8);
    board.hear(START_TEXT);
    board.state[POST_SESSION + 8] = 1;
    board.state[POST_SESSION + 12] = 0;
    let before = board.state.clone();
    board.wait(1);
    assert_eq!(board.state, before);
    board.hear(START_TEXT);
    assert_eq!(board.state[POST_SESSION + 8..POST_SESSION + 16], [0, 0, 0, 0, 1, 0, 0, 0]);
}

#[test]
fn short_states_are_refused_and_seen_as_zeros() {
    let (mut out, mut count, mut passed) = ([0; 64], 9, 9);
    let mut state = vec![1; CALLER_BYTES - 1];
    assert_eq!(flat::caller_open(&mut state, 2, &[0; 4], 9, 4, 9, 9, &mut out, &mut count), 2);
    assert_eq!(flat::caller_wait(&mut state, 1, &[0; 4], &mut out, &mut count, &mut passed), 2);
    assert_eq!((count, passed, state == vec![1; CALLER_BYTES - 1]), (0, 0, true));
    assert_eq!(caller_view(&[]), (0, 0, 0, 0, 0, 0));
    assert_eq!(caller_view(&[1; READER_BYTES + 13]), (0, 0, 0, 0, 0x0101_0101_0101_0101, 1));
    let mut state = vec![1; POST_BYTES - 1];
    assert_eq!(flat::post_new(&mut state), 2);
    assert_eq!(flat::post_hear(&mut state, 1, &mut [0; 4], &mut out, &mut count), 2);
    assert_eq!((count, state == vec![1; POST_BYTES - 1]), (0, true));
    assert_eq!(post_view(&[1; READER_BYTES + 5]), (0, 0, 0, 0, 0, 1, 0));
}

#[test]
fn agreed_rates_and_the_restart_frame() {
    for rate in 0..=6 {
        let wanted = if (1..=5).contains(&rate) { rate } else { 0 };
        assert_eq!(flat::rate_agreed(&frame(0x01, &[rate, 0])), wanted);
        assert_eq!(flat::rate_agreed(&frame(0x01, &[rate, 1])), 0);
    }
    assert_eq!(flat::rate_agreed(&frame(0x01, &[3])), 0);
    assert_eq!(flat::rate_agreed(&[frame(0x01, &[3, 0]), vec![0]].concat()), 0);
    assert_eq!(flat::rate_agreed(&[]), 0);
    let (mut out, mut count) = ([5; 8], 9);
    assert_eq!(flat::restart_write(&mut out[..6], &mut count), 2);
    assert_eq!((count, out), (0, [5; 8]));
    assert_eq!(flat::restart_write(&mut out, &mut count), flat::WRITTEN);
    assert_eq!(out[..count], hex("DB 03 00 01 06 04 DE"));
}

#[test]
fn addresses_of_types_and_pieces_for_rates() {
    let mut address = 9;
    for (kind, base) in [(1, 0x8000), (2, 0), (3, 0x3E000)] {
        assert_eq!((flat::type_address(kind, &mut address), address), (1, base));
    }
    assert_eq!((flat::type_address(4, &mut address), address), (0, 0));
    for (baud, piece) in [(0, 1), (279, 1), (299, 1), (300, 2), (4_800, 227), (9_600, 467), (19_200, 947), (20_739, 1_023)] {
        assert_eq!(flat::piece_for(baud), piece);
    }
    assert_eq!([20_740, 38_400, 115_200, u32::MAX].map(flat::piece_for), [1_024; 4]);
}
