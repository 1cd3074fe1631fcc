//! Writing 10 MB of frames and reading them byte by byte, with few escaped bytes and with many.

use super::{best, line};
use crate::calls::{Calls, PROVED, SECOND};
use second::flat::{FRAME, READER_BYTES};
use second::reader::{Reader, Step};
use std::hint::black_box;

const TEN_MB: usize = 10_000_000;

fn payload(marks: bool) -> Vec<u8> {
    let byte = |n: usize| if marks { [0xDB, 0xDC, 0xDE][n % 3] } else { n as u8 };
    (0..1_024).map(byte).collect()
}

/// Writes frames one after another until the stream has its length.
fn write(calls: &Calls, payload: &[u8], stream: &mut [u8]) -> usize {
    let (mut at, mut count) = (0, 0);
    while at + 2_080 < stream.len() {
        (calls.frame_write)(0x05, payload, &mut stream[at..], &mut count);
        at += count;
    }
    at
}

fn read(calls: &Calls, stream: &[u8]) -> usize {
    let mut state = [0; READER_BYTES];
    (calls.reader_new)(&mut state);
    let (mut command, mut count, mut frames) = (0, 0, 0);
    for &byte in stream {
        let answer = (calls.reader_step)(&mut state, byte, &mut command, &mut count);
        frames += usize::from(answer == FRAME);
    }
    frames
}

fn read_natively(stream: &[u8]) -> usize {
    let mut reader = Reader::new();
    stream.iter().filter(|&&byte| matches!(reader.step(byte), Step::Frame { .. })).count()
}

pub fn measure() {
    for (words, marks) in [("few escaped", false), ("all escaped", true)] {
        let payload = payload(marks);
        let mut stream = vec![0; TEN_MB];
        let length = write(&SECOND, &payload, &mut stream);
        let proved = best(|| assert_eq!(write(&PROVED, black_box(&payload), &mut stream), length));
        let second = best(|| assert_eq!(write(&SECOND, black_box(&payload), &mut stream), length));
        line(&format!("writing frames, {words}"), length, proved, second);

        let stream = &stream[..length];
        let frames = read_natively(stream);
        let check = |found: usize| assert_eq!(found, frames, "a side lost frames");
        let proved = best(|| check(read(&PROVED, stream)));
        let native = best(|| check(black_box(read_natively(stream))));
        line(&format!("reading, {words}, second natively"), length, proved, native);
        let flat = best(|| check(read(&SECOND, stream)));
        line(&format!("reading, {words}, second's flat call"), length, proved, flat);
    }
}
