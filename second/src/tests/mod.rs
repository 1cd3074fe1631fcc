//! Worked cases: the bench examples of document 01 and each of its rules.

mod ends;
mod forged;
mod host;
mod module;
mod reader;
mod ubf;
mod wire;

use crate::flat;
use crate::reader::{Reader, Step};

/// Bytes from hex digits with spaces.
pub fn hex(text: &str) -> Vec<u8> {
    text.split_whitespace().map(|word| u8::from_str_radix(word, 16).unwrap()).collect()
}

/// The frame of a command and payload.
pub fn frame(command: u8, payload: &[u8]) -> Vec<u8> {
    let mut out = vec![0; 4_096];
    let mut count = 0;
    assert_eq!(flat::frame_write(command, payload, &mut out, &mut count), flat::WRITTEN);
    out.truncate(count);
    out
}

/// The frames and drops that a stream gives, with each frame's payload.
pub fn read_all(stream: &[u8]) -> Vec<(Step, Vec<u8>)> {
    let mut reader = Reader::new();
    let mut heard = Vec::new();
    for &byte in stream {
        match reader.step(byte) {
            Step::Nothing => {}
            step @ Step::Frame { .. } => heard.push((step, reader.payload().to_vec())),
            Step::Dropped => heard.push((Step::Dropped, Vec::new())),
        }
    }
    heard
}
