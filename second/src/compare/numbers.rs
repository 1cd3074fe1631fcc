//! Calls over one number: the address of a type, the piece for a rate.

use super::rng::Rng;
use super::tally::Tally;
use crate::calls::SIDES;

/// Every type; every rate up to 25,000 bits a second, beyond which the piece is the largest, and some far above.
pub fn types_and_rates(tally: &mut Tally, rng: &mut Rng) {
    for kind in 0..=u16::MAX {
        let [a, b] = SIDES.map(|calls| {
            let mut address = 77;
            ((calls.type_address)(kind, &mut address), address)
        });
        tally.input(a == b, || format!("type_address {kind}: second {a:?} proved {b:?}"));
    }
    let far = (0..1_000).map(|_| rng.next() as u32);
    for baud in (0..=25_000).chain([38_400, 57_600, 115_200, u32::MAX]).chain(far) {
        let [a, b] = SIDES.map(|calls| (calls.piece_for)(baud));
        tally.input(a == b, || format!("piece_for {baud}: second {a} proved {b}"));
    }
}
