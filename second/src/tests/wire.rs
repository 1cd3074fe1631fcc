use super::{frame, hex};
use crate::refusal::Refusal;
use crate::wire;

#[test]
fn bench_frames_are_written_as_printed() {
    let examples: [(u8, &str, &str); 9] = [
        (0x01, "05", "DB 04 00 01 01 05 01 DE"),
        (0x01, "05 00", "DB 05 00 01 01 05 00 00 DE"),
        (0x02, "01 00 E0 F7 01 00 00 00 00 00", "DB 0D 00 01 02 01 00 E0 F7 01 00 00 00 00 00 19 DE"),
        (0x02, "00 20 00", "DB 06 00 01 02 00 20 00 25 DE"),
        (0x05, "03 00 00", "DB 06 00 01 05 03 00 00 01 DE"),
        (0x06, "", "DB 03 00 01 06 04 DE"),
        (0x86, "00", "DB 04 00 01 86 00 83 DE"),
        (0x01, "DB", "DB 04 00 01 01 DC CB DF DE"),
        (0x01, "DA", "DB 04 00 01 01 DA DC CE DE"),
    ];
    for (command, payload, printed) in examples {
        assert_eq!(frame(command, &hex(payload)), hex(printed));
    }
}

#[test]
fn payload_1030_is_written_and_1031_refused() {
    let payload = vec![0xDE; 1_031];
    let mut out = vec![7; 3_000];
    assert_eq!(wire::write(5, &payload, &mut out), Err(Refusal::PayloadTooLong));
    assert_eq!(wire::write(5, &payload, &mut []), Err(Refusal::PayloadTooLong));
    assert!(out.iter().all(|&byte| byte == 7));
    let needed = wire::write(5, &payload[..1_030], &mut out).unwrap();
    assert!(out[needed..].iter().all(|&byte| byte == 7));
}

#[test]
fn output_one_byte_short_is_refused_and_left() {
    let needed = frame(0x01, &[0xDB]).len();
    let mut out = vec![7; needed];
    assert_eq!(wire::write(1, &[0xDB], &mut out[..needed - 1]), Err(Refusal::OutputTooShort));
    assert!(out.iter().all(|&byte| byte == 7));
    assert_eq!(wire::write(1, &[0xDB], &mut out), Ok(needed));
}

#[test]
fn escapes_go_back() {
    for mark in [0xDB, 0xDC, 0xDE] {
        assert!(wire::is_mark(mark) && wire::may_follow(wire::second_of(mark)));
        assert_eq!(wire::original_of(wire::second_of(mark)), mark);
        assert_eq!(wire::second_of(mark), mark ^ 0x10);
    }
}

#[test]
fn content_needs_length_device_and_check() {
    let good = hex("04 00 01 86 00 83");
    assert!(wire::is_content(&good));
    for at in 0..good.len() {
        let mut bad = good.clone();
        bad[at] ^= 1;
        assert!(!wire::is_content(&bad));
    }
    assert!(!wire::is_content(&hex("02 00 01 03")));
    assert!(!wire::is_content(&hex("04 00 02 86 00 80")));
}
