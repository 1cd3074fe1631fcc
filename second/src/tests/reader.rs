use super::{frame, hex, read_all};
use crate::flat;
use crate::reader::{Reader, Step};
use crate::wire;

fn count_frames(stream: &[u8]) -> (usize, usize) {
    let heard = read_all(stream);
    let dropped = heard.iter().filter(|(step, _)| *step == Step::Dropped).count();
    (heard.len() - dropped, dropped)
}

#[test]
fn bench_stream_has_two_frames() {
    let heard = read_all(&hex("DB 04 00 01 DB 03 00 01 06 04 DE DB 04 00 01 86 00 83 DE"));
    assert_eq!(
        heard,
        vec![
            (Step::Dropped, vec![]),
            (Step::Frame { command: 0x06, count: 0 }, vec![]),
            (Step::Frame { command: 0x86, count: 1 }, vec![0]),
        ]
    );
}

#[test]
fn third_example_as_printed_is_dropped() {
    assert_eq!(count_frames(&hex("DB 0D 00 01 02 01 00 E0 F7 01 00 00 00 00 19 DE")), (0, 1));
    assert_eq!(count_frames(&hex("DB 0D 00 01 02 01 00 E0 F7 01 00 00 00 00 00 19 DE")), (1, 0));
}

#[test]
fn head_after_escape_opens() {
    assert_eq!(count_frames(&hex("DB 04 DC DB 03 00 01 06 04 DE")), (1, 1));
}

#[test]
fn bad_escape_closes() {
    assert_eq!(count_frames(&hex("DB 04 DC 00 00 01 06 04 DE")), (0, 1));
    assert_eq!(count_frames(&hex("DB DC DE")), (0, 1));
    assert_eq!(count_frames(&hex("DB DC DC")), (0, 1));
}

#[test]
fn outside_everything_but_a_head_is_nothing() {
    assert_eq!(count_frames(&hex("DE DC 00 CB DC CC DE DE 01")), (0, 0));
}

#[test]
fn content_byte_1036_is_dropped_and_changes_no_count() {
    let mut reader = Reader::new();
    reader.step(0xDB);
    for _ in 0..1_035 {
        assert_eq!(reader.step(0x11), Step::Nothing);
    }
    let mut escaped = reader.clone();
    assert_eq!(reader.step(0x12), Step::Dropped);
    assert_eq!((reader.count(), reader.opened(), reader.store()[1_034]), (1_035, false, 0x11));
    assert_eq!(escaped.step(0xDC), Step::Nothing);
    assert_eq!(escaped.step(0xCB), Step::Dropped);
    assert_eq!((escaped.pending(), escaped.opened()), (false, false));
}

#[test]
fn longest_frame_is_read() {
    let payload: Vec<u8> = (0..1_030).map(|n| n as u8).collect();
    let heard = read_all(&frame(0x05, &payload));
    assert_eq!(heard, vec![(Step::Frame { command: 5, count: 1_030 }, payload)]);
}

#[test]
fn store_keeps_older_bytes() {
    let mut reader = Reader::new();
    for byte in hex("DB 01 02 03 DB 09") {
        reader.step(byte);
    }
    assert_eq!(&reader.store()[..4], &[9, 2, 3, 0]);
    assert_eq!(reader.count(), 1);
}

#[test]
fn forged_reader_is_fresh() {
    let mut state = vec![3; flat::READER_BYTES + 2];
    let (mut command, mut count) = (9, 9);
    assert_eq!(flat::reader_step(&mut state, 0xDB, &mut command, &mut count), flat::NOTHING);
    assert_eq!((command, count), (0, 0));
    let mut fresh = vec![0; flat::READER_BYTES];
    fresh[4] = 1;
    assert_eq!(&state[..flat::READER_BYTES], &fresh[..]);
    assert_eq!(&state[flat::READER_BYTES..], &[3, 3]);
    assert_eq!(flat::reader_step(&mut state[..1_046], 0xDB, &mut command, &mut count), 2);
}

#[test]
fn every_content_that_is_good_is_handed_out() {
    for command in 0..=255 {
        let heard = read_all(&frame(command, &[0xDB, 0xDC, 0xDE]));
        assert_eq!(heard, vec![(Step::Frame { command, count: 3 }, vec![0xDB, 0xDC, 0xDE])]);
    }
    assert_eq!(wire::MAX_CONTENT, wire::MAX_PAYLOAD + 5);
}
