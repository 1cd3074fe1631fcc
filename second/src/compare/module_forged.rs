//! Module records that came from nowhere: genuine-looking ones, each field off by a little, and plain noise.

use super::module::{flash_length, some_event, some_packet, some_wait, Event, Modules, View};
use super::rng::Rng;
use super::tally::Tally;

/// Fields of a record: the flash length, then idle, phase, type, length, size, number, written.
type Fields = (u64, [u32; 7]);

fn bytes_of((length, numbers): Fields) -> Vec<u8> {
    let mut bytes = length.to_le_bytes().to_vec();
    bytes.extend(numbers.iter().flat_map(|number| number.to_le_bytes()));
    bytes
}

/// A record that can arise.
fn genuine(rng: &mut Rng) -> Fields {
    let flash = flash_length(rng).clamp(1, 262_144);
    let idle = rng.pick(&[0, 1, 3_000, 6_999, 7_000]);
    let phase = rng.below(5) as u32;
    let mut numbers = [idle, phase, 0, 0, 0, 0, 0];
    if phase < 2 {
        return (flash as u64, numbers);
    }
    let fitting: Vec<(u32, usize)> =
        [(1, 0x8000), (2, 0), (3, 0x3E000)].into_iter().filter(|(_, base)| *base < flash).collect();
    let (kind, base) = rng.pick(&fitting);
    let room = (flash - base).min(262_143);
    let length = if rng.percent(40) { room } else { rng.between(1, room.min(5_000)) } as u32;
    (numbers[2], numbers[3]) = (kind, length);
    if phase == 2 {
        return (flash as u64, numbers);
    }
    let least = length.div_ceil(65_535);
    let most = length.min(1_024);
    let size = match rng.below(4) {
        0 => least,
        1 => most,
        _ => rng.between(least as usize, most as usize) as u32,
    };
    let total = length.div_ceil(size);
    numbers[4] = size;
    if phase == 4 || total < 2 {
        numbers[1] = 4;
        numbers[6] = length;
        return (flash as u64, numbers);
    }
    let number = match rng.below(3) {
        0 => 1,
        1 => total - 1,
        _ => rng.between(1, total as usize - 1) as u32,
    };
    numbers[5] = number;
    numbers[6] = number * size;
    (flash as u64, numbers)
}

/// Changes one field by a little or to something well known.
fn alter(rng: &mut Rng, (length, numbers): &mut Fields) {
    let known = [0, 1, 2, 3, 4, 5, 6, 1_024, 1_025, 7_001, 65_535, 65_536, 262_143, 262_144, 0x1_0001, u32::MAX];
    let which = rng.below(8);
    if which == 7 {
        *length = match rng.below(4) {
            0 => length.wrapping_add(1),
            1 => length.wrapping_sub(1),
            2 => rng.pick(&[0, 262_145, 1 << 32, u64::MAX, 1 << 63]),
            _ => *length | 1 << 32,
        };
        return;
    }
    numbers[which] = rng.near(numbers[which], &known);
    // A wrong size or number may still go with what was written.
    if rng.percent(30) {
        numbers[6] = numbers[4].wrapping_mul(numbers[5]);
    }
}

pub fn some_record(rng: &mut Rng) -> Vec<u8> {
    let mut fields = genuine(rng);
    for _ in 0..rng.pick(&[0, 1, 1, 1, 2]) {
        alter(rng, &mut fields);
    }
    rng.mangled(bytes_of(fields), 12)
}

/// The flash that goes with a record, as far as there is one.
pub fn lent_length(rng: &mut Rng, view: &View, longest: usize) -> usize {
    let recorded = usize::try_from(view.flash_length).unwrap_or(usize::MAX).min(longest);
    if rng.percent(3) {
        rng.pick(&[0, 1, recorded.saturating_sub(1), recorded, longest])
    } else {
        recorded
    }
}

pub fn records(tally: &mut Tally, rng: &mut Rng) {
    let longest = 262_146;
    let flash = rng.bytes(longest);
    let mut modules = Modules::new(&flash, 0, &[]);
    for _ in 0..3_500 {
        let record = some_record(rng);
        modules.set_state(&record);
        modules.is_open(tally);
        let view = modules.view();
        let length = lent_length(rng, &view, longest);
        let expected = some_packet(rng, &view, modules.flash());
        let other = some_packet(rng, &view, modules.flash());
        let wait = some_wait(rng, view.idle);
        let any = some_event(rng, &view, modules.flash());
        let restart = Event::Frame(0x06, vec![]);
        for event in [expected, other, wait, any, restart] {
            modules.set_state(&record);
            let reply = if rng.percent(3) { rng.below(66) } else { 64 };
            modules.step(tally, &event, length, reply);
        }
        modules.is_open(tally);
    }
    modules.finish(tally);
}

/// Every field of some genuine records, one above and one below.
pub fn neighbours(tally: &mut Tally, rng: &mut Rng) {
    let longest = 262_146;
    let mut modules = Modules::new(&rng.bytes(longest), 0, &[]);
    for _ in 0..250 {
        let fields = genuine(rng);
        for which in 0..8 {
            for change in [0, 1, u32::MAX] {
                let (mut length, mut numbers) = fields;
                match which {
                    7 => length = length.wrapping_add_signed(i64::from(change as i32)),
                    _ => numbers[which] = numbers[which].wrapping_add(change),
                }
                let record = bytes_of((length, numbers));
                modules.set_state(&record);
                modules.is_open(tally);
                let view = modules.view();
                let lent = usize::try_from(length).unwrap_or(usize::MAX).min(longest);
                let event = some_packet(rng, &view, modules.flash());
                modules.step(tally, &event, lent, 64);
                modules.set_state(&record);
                modules.step(tally, &Event::Wait(1), lent, 64);
            }
        }
    }
    modules.finish(tally);
}
