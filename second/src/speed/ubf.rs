//! Reading a UBF block with the longest image.

use super::{best, line};
use crate::calls::{Calls, PROVED, SECOND};
use second::flat::{FOUND, WRITTEN};
use std::hint::black_box;

const TIMES: usize = 200;

fn read(calls: &Calls, block: &[u8]) {
    for _ in 0..TIMES {
        let (mut kind, mut length, mut start, mut check) = (0, 0, 0, 0);
        let numbers = (&mut kind, &mut length, &mut start, &mut check);
        assert_eq!((calls.ubf_read)(black_box(block), numbers), FOUND);
    }
}

pub fn measure() {
    let image: Vec<u8> = (0..262_140_usize).map(|n| (n * 7) as u8).collect();
    let mut block = vec![0; 0x100 + image.len() + 4];
    let texts: [&[u8]; 5] = [b"ATGM331C", b"V2.4.2.0", b"Uranus2.bin", b"2013-12-11 09:44:52", &image];
    let mut count = 0;
    assert_eq!((SECOND.ubf_write)(1, 0x8000, 0x100, texts, &mut block, &mut count), WRITTEN);
    let proved = best(|| read(&PROVED, &block));
    let second = best(|| read(&SECOND, &block));
    line(&format!("UBF reading, 262,140 bytes of image, {TIMES} times"), TIMES * block.len(), proved, second);
}
