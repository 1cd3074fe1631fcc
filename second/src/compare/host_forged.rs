//! Host records that came from nowhere: genuine-looking ones, each field off by a little, and plain noise.

use super::host::{fitting, some_event, some_room, some_wait, unfitting, Event, Hosts, View, OUT, START_ANSWER};
use super::rng::Rng;
use super::tally::Tally;

/// Fields of a record: image length and wish, then stage, type, first rate, rate, start, same, size, number, waited, repeats.
type Fields = ([u64; 2], [u32; 10]);

fn bytes_of((long, numbers): Fields) -> Vec<u8> {
    let mut bytes: Vec<u8> = long.iter().flat_map(|number| number.to_le_bytes()).collect();
    bytes.extend(numbers.iter().flat_map(|number| number.to_le_bytes()));
    bytes
}

/// The first packet, the last, or one between.
fn middle(rng: &mut Rng, total: usize) -> usize {
    match rng.below(3) {
        0 => 1,
        1 => total,
        _ => rng.between(1, total),
    }
}

/// A record that can arise.
fn genuine(rng: &mut Rng) -> Fields {
    let length = 4 * rng.pick(&[1, 2, 25, 256, 257, 2_000, 65_534, 65_535]) as u64;
    let stage = rng.below(7) as u32;
    if stage == 0 {
        let mut numbers = [0; 10];
        if rng.percent(70) {
            (numbers[1], numbers[3]) = (rng.between(1, 3) as u32, rng.between(1, 5) as u32);
        }
        return ([length, 0], numbers);
    }
    let least = length.div_ceil(65_535);
    let wish = match rng.below(6) {
        0 => rng.pick(&[0, 1, 3, 1_024, 1_025, u64::MAX, 1 << 32]),
        1 => least,
        _ => rng.between(1, 1_100) as u64,
    };
    let first = rng.between(1, 5) as u32;
    let rate = if rng.percent(50) { first } else { rng.between(1, first as usize) as u32 };
    let start = if stage == 1 { 1 } else { rng.below(2) as u32 };
    let limit = if stage == 5 { 5_000 } else { 1_000 };
    let waited = if rng.percent(40) { limit - 1 } else { rng.below(limit) };
    let mut numbers = [stage, rng.between(1, 3) as u32, first, rate, start, rng.below(2) as u32, 0, 0, 0, 0];
    (numbers[8], numbers[9]) = (waited as u32, rng.below(4) as u32);
    if stage == 1 {
        numbers[3] = 0;
    }
    if stage < 4 {
        return ([length, wish], numbers);
    }
    let wish = wish.max(least);
    let most = wish.min(1_024);
    let size = match rng.below(3) {
        0 => least,
        1 => most,
        _ => rng.between(least as usize, most as usize) as u64,
    };
    numbers[6] = size as u32;
    if stage == 4 {
        let total = length.div_ceil(size) as usize;
        numbers[7] = middle(rng, total) as u32;
    }
    ([length, wish], numbers)
}

/// Changes one field by a little or to something well known.
fn alter(rng: &mut Rng, (long, numbers): &mut Fields) {
    let known = [0, 1, 2, 3, 4, 5, 6, 7, 999, 1_000, 1_024, 1_025, 5_000, 65_535, 65_536, 0x1_0001, u32::MAX];
    let which = rng.below(12);
    if which >= 10 {
        let number = &mut long[which - 10];
        *number = match rng.below(5) {
            0 => number.wrapping_add(1),
            1 => number.wrapping_sub(1),
            2 => rng.pick(&[0, 3, 4, 262_140, 262_143, 262_144, u64::MAX, 1 << 63]),
            3 => number.wrapping_add(4),
            _ => *number ^ 1 << 32,
        };
        return;
    }
    numbers[which] = rng.near(numbers[which], &known);
}

pub fn some_record(rng: &mut Rng) -> Vec<u8> {
    let mut fields = genuine(rng);
    for _ in 0..rng.pick(&[0, 1, 1, 1, 2]) {
        alter(rng, &mut fields);
    }
    rng.mangled(bytes_of(fields), 16)
}

/// The image that goes with a record, as far as there is one.
pub fn lent<'a>(rng: &mut Rng, view: &View, pool: &'a [u8]) -> &'a [u8] {
    let recorded = usize::try_from(view.image_length).unwrap_or(usize::MAX).min(pool.len());
    if rng.percent(3) {
        &pool[..rng.pick(&[0, 1, recorded.saturating_sub(1), (recorded + 1).min(pool.len())])]
    } else {
        &pool[..recorded]
    }
}

fn try_all(tally: &mut Tally, rng: &mut Rng, hosts: &mut Hosts, record: &[u8], pool: &[u8]) {
    hosts.set_state(record);
    hosts.look(tally);
    let view = hosts.view();
    let image = lent(rng, &view, pool);
    let events = [
        fitting(&view),
        unfitting(rng, &view),
        some_event(rng, &view),
        some_wait(rng, &view),
        Event::Wait(5_000),
        Event::Line(START_ANSWER.to_vec()),
    ];
    for event in events {
        hosts.set_state(record);
        let room = some_room(rng, &view);
        hosts.step(tally, &event, image, room);
    }
}

pub fn records(tally: &mut Tally, rng: &mut Rng) {
    let pool = rng.wire_bytes(262_160);
    let mut hosts = Hosts::new(&[]);
    for _ in 0..3_500 {
        let record = some_record(rng);
        try_all(tally, rng, &mut hosts, &record, &pool);
    }
}

/// Every field of some genuine records, one above and one below.
pub fn neighbours(tally: &mut Tally, rng: &mut Rng) {
    let pool = rng.bytes(262_160);
    let mut hosts = Hosts::new(&[]);
    for _ in 0..250 {
        let fields = genuine(rng);
        for which in 0..12 {
            for change in [0, 1, u32::MAX] {
                let (mut long, mut numbers) = fields;
                match which {
                    0..=9 => numbers[which] = numbers[which].wrapping_add(change),
                    _ => long[which - 10] = long[which - 10].wrapping_add_signed(i64::from(change as i32)),
                }
                let record = bytes_of((long, numbers));
                hosts.set_state(&record);
                let image = lent(rng, &hosts.view(), &pool);
                hosts.step(tally, &Event::Wait(5_000), image, OUT);
                hosts.set_state(&record);
                let event = fitting(&hosts.view());
                hosts.step(tally, &event, image, OUT);
            }
        }
    }
}
