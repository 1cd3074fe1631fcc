use super::{frame, hex};
use crate::module::{Phase, Session};
use crate::refusal::Refusal;

/// A module with its flash.
struct Bench {
    session: Session,
    flash: Vec<u8>,
}

impl Bench {
    fn new(length: usize) -> Bench {
        let flash = vec![0xFF; length];
        let (session, answer) = Session::open(&flash);
        assert_eq!(answer, Ok(()));
        Bench { session, flash }
    }

    fn give(&mut self, command: u8, payload: &[u8]) -> Vec<u8> {
        let mut reply = [0; 64];
        let count = self.session.frame(command, payload, &mut self.flash, &mut reply).unwrap();
        reply[..count].to_vec()
    }

    fn begin(&mut self, kind: u16, length: u32, address: u32) -> u8 {
        let mut payload = kind.to_le_bytes().to_vec();
        payload.extend(length.to_le_bytes());
        payload.extend(address.to_le_bytes());
        let reply = self.give(0x02, &payload);
        assert_eq!(&reply[..7], &hex("DB 06 00 01 02 00 04")[..]);
        reply[7]
    }

    fn packet(&mut self, total: u16, number: u16, data: &[u8]) -> Vec<u8> {
        let mut payload = Vec::new();
        for word in [total, number, data.len() as u16] {
            payload.extend(word.to_le_bytes());
        }
        payload.extend(data);
        self.give(0x05, &payload)
    }

    fn wait(&mut self, ms: u32) {
        self.session.wait(ms, &self.flash, &[0; 64]).unwrap();
    }
}

fn acked(number: u8) -> Vec<u8> {
    frame(0x05, &[number, 0, 0])
}

fn acked_and_done(number: u8) -> Vec<u8> {
    [acked(number), frame(0x86, &[0])].concat()
}

fn refused() -> Vec<u8> {
    frame(0x05, &[0, 0, 0x10])
}

#[test]
fn opening_tests_the_flash() {
    for length in [0, 262_145] {
        let (session, answer) = Session::open(&vec![0; length]);
        assert_eq!(answer, Err(Refusal::OtherLength));
        assert_eq!(session, Session::closed(length as u64));
    }
    assert!(Bench::new(1).session.is_open());
    assert!(Bench::new(262_144).session.is_open());
}

#[test]
fn rates_are_answered() {
    let mut bench = Bench::new(10);
    assert_eq!(bench.give(0x01, &[5]), hex("DB 05 00 01 01 05 00 00 DE"));
    assert_eq!(bench.give(0x01, &[6]), frame(0x01, &[6, 1]));
    assert_eq!(bench.give(0x01, &[0]), frame(0x01, &[0, 1]));
    assert_eq!(bench.give(0x01, &[1, 1]), frame(0x01, &[0, 0x10]));
    assert_eq!(bench.give(0x01, &[]), frame(0x01, &[0, 0x10]));
}

#[test]
fn parameters_are_tested_in_order() {
    let mut bench = Bench::new(0x8010);
    assert_eq!(bench.give(0x02, &[1; 9])[7], 0x10);
    assert_eq!(bench.begin(4, 0, 7), 0x01);
    assert_eq!(bench.begin(1, 0, 0x8000), 0x10);
    assert_eq!(bench.begin(3, 8, 0), 0x10);
    assert_eq!(bench.begin(1, 0, 0), 0x02);
    assert_eq!(bench.begin(1, 17, 0), 0x02);
    assert_eq!(bench.begin(3, 1, 0x3E000), 0x02);
    assert_eq!(bench.session.phase, Phase::Ready);
    assert_eq!(bench.begin(1, 16, 0), 0x00);
    assert_eq!(bench.begin(2, 0x8011, 0), 0x02);
    assert!(matches!(bench.session.phase, Phase::Begun(parameters) if parameters.length == 16));
}

#[test]
fn settings_go_to_their_place() {
    let mut bench = Bench::new(0x3E004);
    assert_eq!(bench.begin(3, 3, 0x3E000), 0);
    assert_eq!(bench.packet(1, 1, &[1, 2, 3]), acked_and_done(1));
    assert_eq!(&bench.flash[0x3DFFF..], &[0xFF, 1, 2, 3, 0xFF]);
}

#[test]
fn transfer_with_repeats() {
    let mut bench = Bench::new(20);
    assert_eq!(bench.begin(2, 7, 0), 0);
    assert_eq!(bench.packet(3, 0, &[1, 2, 3]), refused());
    assert_eq!(bench.packet(3, 2, &[1, 2, 3]), refused());
    assert_eq!(bench.packet(2, 1, &[1, 2, 3]), refused());
    assert_eq!(bench.packet(1, 1, &[1; 8]), refused());
    assert_eq!(bench.packet(3, 1, &[1, 2, 3]), acked(1));
    assert_eq!(bench.packet(3, 1, &[1, 2, 3]), acked(1));
    assert_eq!(bench.packet(3, 1, &[1, 2, 4]), refused());
    assert_eq!(bench.packet(4, 2, &[4, 5, 6]), refused());
    assert_eq!(bench.packet(3, 2, &[4, 5]), refused());
    assert_eq!(bench.packet(3, 2, &[4, 5, 6]), acked(2));
    assert_eq!(bench.packet(3, 1, &[1, 2, 3]), refused());
    assert_eq!(bench.packet(3, 3, &[7, 8, 9]), refused());
    assert_eq!(bench.packet(3, 3, &[7]), acked_and_done(3));
    assert_eq!(bench.packet(3, 3, &[7]), acked_and_done(3));
    assert_eq!(bench.packet(3, 3, &[8]), refused());
    assert_eq!(bench.packet(3, 1, &[1, 2, 3]), refused());
    assert_eq!(&bench.flash[..8], &[1, 2, 3, 4, 5, 6, 7, 0xFF]);
    assert_eq!(bench.begin(2, 1, 0), 0);
    assert_eq!(bench.packet(1, 1, &[9]), acked_and_done(1));
}

#[test]
fn packet_size_and_payload_must_agree() {
    let mut bench = Bench::new(2_000);
    assert_eq!(bench.give(0x05, &hex("01 00 01 00 01 00 AA")), refused());
    assert_eq!(bench.begin(2, 1_025, 0), 0);
    assert_eq!(bench.packet(1, 1, &[0; 1_025]), refused());
    assert_eq!(bench.give(0x05, &hex("01 00 01 00 00 00")), refused());
    assert_eq!(bench.give(0x05, &hex("01 04 01 00 01 00")), refused());
    assert_eq!(bench.give(0x05, &hex("01 04 01 00 01 00 AA BB")), refused());
    assert_eq!(bench.give(0x05, &[1]), refused());
    assert_eq!(bench.give(0x05, &hex("01 04 01 00 01 00 AA")), acked(1));
}

#[test]
fn idle_sum_of_7000_stays_open() {
    let mut bench = Bench::new(5);
    bench.wait(6_999);
    bench.wait(1);
    assert!(bench.session.is_open());
    assert_eq!(bench.give(0x77, &[]), Vec::<u8>::new());
    assert_eq!(bench.session.idle, 0);
    bench.wait(7_000);
    bench.wait(u32::MAX);
    assert_eq!((bench.session.is_open(), bench.session.idle), (false, 7_001));
    assert_eq!(bench.give(0x01, &[5]), Vec::<u8>::new());
}

#[test]
fn restart_closes() {
    let mut bench = Bench::new(5);
    assert_eq!(bench.give(0x06, &[1]), frame(0x06, &[0x10]));
    assert_eq!(bench.give(0x06, &[]), hex("DB 04 00 01 06 00 03 DE"));
    assert!(!bench.session.is_open());
}

#[test]
fn refusal_2_comes_before_3_and_counts_no_time() {
    let mut bench = Bench::new(5);
    bench.wait(10);
    let before = bench.session;
    let session = &mut bench.session;
    assert_eq!(session.frame(1, &[5], &mut [0; 6], &mut [0; 63]), Err(Refusal::OutputTooShort));
    assert_eq!(session.frame(1, &[5], &mut [0; 6], &mut [0; 64]), Err(Refusal::OtherLength));
    assert_eq!(session.wait(1, &[0; 6], &[0; 63]), Err(Refusal::OutputTooShort));
    assert_eq!(session.wait(1, &[0; 4], &[0; 64]), Err(Refusal::OtherLength));
    assert_eq!(*session, before);
}

#[test]
fn bench_65535_packets_of_4() {
    let mut bench = Bench::new(262_144);
    assert_eq!(bench.begin(2, 262_140, 0), 0);
    assert_eq!(bench.packet(0x5555, 1, &[1, 2, 3]), refused());
    for number in 1..=65_535u16 {
        let [low, high] = number.to_le_bytes();
        let reply = bench.packet(65_535, number, &[low, high, 3, 4]);
        assert!(reply.starts_with(&frame(0x05, &[low, high, 0])));
        assert_eq!(reply.ends_with(&frame(0x86, &[0])), number == 65_535);
    }
    assert_eq!(&bench.flash[262_136..], &[0xFF, 0xFF, 3, 4, 0xFF, 0xFF, 0xFF, 0xFF]);
}
