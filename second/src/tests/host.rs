use super::{frame, hex};
use crate::host::{Answer, Event, Rate, SameVersion, Session, START_ANSWER, START_TEXT};
use crate::refusal::Refusal;

/// A host with its image and what it sent last.
struct Bench {
    session: Session,
    image: Vec<u8>,
    out: Vec<u8>,
    sent: Vec<u8>,
}

impl Bench {
    fn open(kind: u16, length: usize, first: Rate, piece: u64, start: bool, same: SameVersion) -> Bench {
        let image: Vec<u8> = (0..length).map(|n| n as u8).collect();
        let mut out = vec![0; 4_096];
        let (session, answer) = Session::open(kind, first, piece, start, same, &image, &mut out);
        let sent = out[..answer.unwrap()].to_vec();
        Bench { session, image, out, sent }
    }

    /// One that has no start text and awaits the answer to rate 115200.
    fn plain(length: usize, piece: u64) -> Bench {
        Bench::open(1, length, Rate::B115200, piece, false, SameVersion::Stop)
    }

    /// One that awaits the answer to packet 1.
    fn loading(length: usize, piece: u64) -> Bench {
        let mut bench = Bench::plain(length, piece);
        bench.give(0x01, &[5, 0]);
        bench.give(0x02, &[0, 4, 0]);
        bench
    }

    fn step(&mut self, event: Event) -> Answer {
        let answer = self.session.step(event, &self.image, &mut self.out);
        let count = match answer {
            Answer::Send(count) | Answer::ModuleRefused { count, .. } | Answer::BadNotice { count, .. } => count,
            _ => 0,
        };
        if count > 0 {
            self.sent = self.out[..count].to_vec();
        }
        answer
    }

    fn give(&mut self, command: u8, payload: &[u8]) -> Answer {
        self.step(Event::Frame { command, payload })
    }

    fn wait(&mut self, ms: u32) -> Answer {
        self.step(Event::Elapsed(ms))
    }
}

fn packet(total: u16, number: u16, data: &[u8]) -> Vec<u8> {
    let mut payload = Vec::new();
    for word in [total, number, data.len() as u16] {
        payload.extend(word.to_le_bytes());
    }
    payload.extend(data);
    frame(0x05, &payload)
}

#[test]
fn opening_tests_type_then_image_then_room() {
    let open = |kind, length: usize, room: usize| {
        let (session, answer) =
            Session::open(kind, Rate::B9600, 4, true, SameVersion::Stop, &vec![0; length], &mut vec![0; room]);
        assert_eq!(session.course.is_some(), answer.is_ok());
        answer
    };
    assert_eq!(open(4, 3, 0), Err(Refusal::TypeOrAddress));
    assert_eq!(open(3, 3, 0), Err(Refusal::ImageLength));
    assert_eq!(open(3, 262_144, 0), Err(Refusal::ImageLength));
    assert_eq!(open(3, 4, 11), Err(Refusal::OutputTooShort));
    assert_eq!(open(3, 4, 12), Ok(12));
}

#[test]
fn whole_load() {
    let mut bench = Bench::open(3, 8, Rate::B115200, 5, true, SameVersion::Stop);
    assert_eq!(bench.sent, START_TEXT);
    assert_eq!(bench.step(Event::Line(b"$PCAS30,3*1D")), Answer::Nothing);
    assert_eq!(bench.give(0x01, &[5, 0]), Answer::Nothing);
    assert_eq!(bench.step(Event::Line(START_ANSWER)), Answer::Send(8));
    assert_eq!(bench.sent, hex("DB 04 00 01 01 05 01 DE"));
    assert_eq!(bench.session.line_rate(), None);
    bench.give(0x01, &[5, 0]);
    assert_eq!(bench.sent, frame(0x02, &hex("03 00 08 00 00 00 00 E0 03 00")));
    assert_eq!(bench.session.line_rate(), Some(Rate::B115200));
    bench.give(0x02, &[0, 4, 0]);
    assert_eq!(bench.sent, packet(2, 1, &[0, 1, 2, 3, 4]));
    assert_eq!(bench.session.progress(), (0, 2));
    bench.give(0x05, &[1, 0, 0]);
    assert_eq!(bench.sent, packet(2, 2, &[5, 6, 7]));
    assert_eq!(bench.give(0x86, &[0]), Answer::Nothing);
    assert_eq!(bench.give(0x05, &[2, 0, 0]), Answer::Nothing);
    assert_eq!(bench.session.progress(), (2, 2));
    assert_eq!(bench.give(0x05, &[2, 0, 0]), Answer::Nothing);
    assert_eq!(bench.give(0x86, &[0]), Answer::Send(7));
    assert_eq!(bench.sent, hex("DB 03 00 01 06 04 DE"));
    assert_eq!(bench.give(0x06, &[0]), Answer::Done);
    assert_eq!(bench.give(0x06, &[0]), Answer::Nothing);
    assert_eq!(bench.session, Session::ended(8));
}

#[test]
fn refused_rate_goes_lower_and_then_gives_21() {
    let mut bench = Bench::open(1, 4, Rate::B19200, 4, false, SameVersion::Stop);
    assert_eq!(bench.give(0x01, &[1, 1]), Answer::Nothing);
    assert_eq!(bench.give(0x01, &[0, 1]), Answer::Nothing);
    bench.wait(1_000);
    bench.give(0x01, &[2, 1]);
    assert_eq!((bench.sent.clone(), bench.session.resent()), (frame(0x01, &[1]), 0));
    assert_eq!(bench.give(0x01, &[1, 1]), Answer::ModuleRefused { ack: 1, count: 7 });
    assert_eq!(bench.sent, frame(0x06, &[]));
    assert_eq!(bench.session.course, None);
    assert_eq!(bench.session.line_rate(), None);
}

#[test]
fn restart_of_a_refused_load_goes_out_at_the_agreed_rate() {
    let mut bench = Bench::plain(4, 4);
    bench.give(0x01, &[5, 0]);
    assert_eq!(bench.give(0x02, &[0, 4, 2]), Answer::ModuleRefused { ack: 2, count: 7 });
    assert_eq!(bench.session.course, None);
    assert_eq!(bench.session.line_rate(), Some(Rate::B115200));
    assert!(bench.session.could_arise());
    assert_eq!(bench.give(0x02, &[0, 4, 2]), Answer::Nothing);
}

#[test]
fn ack_10_brings_three_repeats() {
    let mut bench = Bench::plain(4, 4);
    assert_eq!(bench.give(0x01, &[4, 0x10]), Answer::Nothing);
    assert_eq!(bench.give(0x01, &[5, 0x10]), Answer::Send(8));
    assert_eq!(bench.give(0x01, &[0, 0x10]), Answer::Send(8));
    assert_eq!(bench.wait(5_000), Answer::Send(8));
    assert_eq!(bench.wait(999), Answer::Nothing);
    assert_eq!(bench.give(0x01, &[0, 0x10]), Answer::Refused(Refusal::NoAnswer));
    assert_eq!(bench.session.course, None);
}

#[test]
fn odd_repeats_of_a_request_go_out_at_the_rate_asked_for() {
    let mut bench = Bench::plain(4, 4);
    assert_eq!(bench.session.line_rate(), None);
    for rate in [Some(Rate::B115200), None, Some(Rate::B115200)] {
        assert_eq!(bench.wait(1_000), Answer::Send(8));
        assert_eq!(bench.session.line_rate(), rate);
    }
    // Refused: the next one is asked for at the rate that was.
    bench.give(0x01, &[5, 1]);
    assert_eq!((bench.session.line_rate(), bench.sent.clone()), (None, frame(0x01, &[4])));
    bench.give(0x01, &[4, 0]);
    bench.wait(1_000);
    assert_eq!(bench.session.line_rate(), Some(Rate::B57600));
}

#[test]
fn waiting_reaches_its_limit() {
    let mut bench = Bench::plain(4, 4);
    for _ in 0..3 {
        assert_eq!(bench.wait(999), Answer::Nothing);
        assert_eq!(bench.wait(1), Answer::Send(8));
    }
    assert_eq!(bench.wait(u32::MAX), Answer::Refused(Refusal::NoAnswer));
}

#[test]
fn unlisted_acks_are_passed_over() {
    let mut bench = Bench::plain(8, 4);
    assert_eq!(bench.give(0x01, &[5, 2]), Answer::Nothing);
    assert_eq!(bench.give(0x01, &[5, 0, 0]), Answer::Nothing);
    bench.give(0x01, &[5, 0]);
    assert_eq!(bench.give(0x02, &[0, 4, 3]), Answer::Nothing);
    bench.give(0x02, &[0, 4, 0]);
    assert_eq!(bench.give(0x05, &[1, 0, 3]), Answer::Nothing);
    assert_eq!(bench.give(0x05, &[0, 0, 0]), Answer::Nothing);
    assert_eq!(bench.give(0x05, &[0, 0, 2]), Answer::Nothing);
    assert_eq!(bench.give(0x05, &[2, 0, 0]), Answer::Nothing);
    assert_eq!(bench.give(0x05, &[0, 0, 1]), Answer::ModuleRefused { ack: 1, count: 7 });
}

#[test]
fn parameters_refused_give_21() {
    for ack in [1, 2] {
        let mut bench = Bench::plain(4, 4);
        bench.give(0x01, &[5, 0]);
        assert_eq!(bench.give(0x02, &[0, 0, ack]), Answer::ModuleRefused { ack, count: 7 });
    }
}

#[test]
fn piece_size_is_the_smallest() {
    for (piece, max_pk, size) in [(5_000, 0x2000, 1_024), (100, 0x2000, 100), (u64::MAX, 64, 64)] {
        let mut bench = Bench::plain(4_000, piece);
        bench.give(0x01, &[5, 0]);
        let [low, high] = u16::to_le_bytes(max_pk);
        bench.give(0x02, &[low, high, 0]);
        assert_eq!(bench.session.progress().1, 4_000_u64.div_ceil(size));
    }
}

#[test]
fn piece_size_0_and_too_many_pieces_give_11() {
    for (length, piece, max_pk) in [(4, 0, 4), (4, 4, 0), (262_140, 3, 1_024)] {
        let mut bench = Bench::plain(length, piece);
        bench.give(0x01, &[5, 0]);
        let [low, high] = u16::to_le_bytes(max_pk);
        assert_eq!(bench.give(0x02, &[low, high, 0]), Answer::Refused(Refusal::Pieces));
        assert_eq!(bench.session.course, None);
    }
    assert_eq!(Bench::loading(262_140, 4).session.progress(), (0, 65_535));
}

#[test]
fn same_version_stops_or_goes_on() {
    let mut stop = Bench::loading(8, 4);
    assert_eq!(stop.give(0x05, &[1, 0, 2]), Answer::ModuleRefused { ack: 2, count: 7 });
    let mut go_on = Bench::open(1, 8, Rate::B9600, 4, false, SameVersion::GoOn);
    go_on.give(0x01, &[1, 0]);
    go_on.give(0x02, &[0, 4, 0]);
    go_on.give(0x05, &[1, 0, 2]);
    assert_eq!(go_on.sent, packet(2, 2, &[4, 5, 6, 7]));
    assert_eq!(go_on.give(0x05, &[2, 0, 2]), Answer::Nothing);
    assert_eq!(go_on.session.progress(), (2, 2));
}

#[test]
fn last_packet_repeats_count_together() {
    let mut bench = Bench::loading(4, 4);
    let last = bench.sent.clone();
    bench.wait(1_000);
    bench.give(0x05, &[1, 0, 0]);
    assert_eq!(bench.session.resent(), 1);
    assert_eq!(bench.wait(4_999), Answer::Nothing);
    bench.sent.clear();
    assert_eq!(bench.wait(1), Answer::Send(last.len()));
    assert_eq!(bench.sent, last);
    assert_eq!(bench.give(0x05, &[0, 0, 0x10]), Answer::Nothing);
    assert_eq!(bench.wait(5_000), Answer::Send(last.len()));
    assert_eq!(bench.wait(5_000), Answer::Refused(Refusal::NoAnswer));
}

#[test]
fn bad_notice_gives_22() {
    let mut bench = Bench::loading(4, 4);
    bench.give(0x05, &[1, 0, 0]);
    assert_eq!(bench.give(0x86, &[0xDB]), Answer::BadNotice { state: 0xDB, count: 7 });
}

#[test]
fn restart_is_repeated() {
    let mut bench = Bench::loading(4, 4);
    bench.give(0x05, &[1, 0, 0]);
    bench.give(0x86, &[0]);
    assert_eq!(bench.give(0x06, &[1]), Answer::Nothing);
    assert_eq!(bench.give(0x06, &[0x10]), Answer::Send(7));
    assert_eq!(bench.session.resent(), 1);
    assert_eq!(bench.give(0x06, &[0]), Answer::Done);
}

#[test]
fn refusals_2_and_3_leave_the_session() {
    let mut bench = Bench::plain(8, 4);
    let before = bench.session;
    let (image, wait) = (bench.image.clone(), Event::Elapsed(1_000));
    let session = &mut bench.session;
    assert_eq!(session.step(wait, &image[..4], &mut []), Answer::Refused(Refusal::OtherLength));
    assert_eq!(session.step(wait, &image, &mut [0; 7]), Answer::Refused(Refusal::OutputTooShort));
    assert_eq!(*session, before);
    assert_eq!(session.step(Event::Elapsed(1), &image, &mut []), Answer::Nothing);
    *session = Session::ended(8);
    assert_eq!(session.step(wait, &image[..4], &mut []), Answer::Refused(Refusal::OtherLength));
    assert_eq!(session.step(wait, &image, &mut []), Answer::Nothing);
}
