//! Courses of small calls, on the stream's pads: one record a call with a query after it, calls that find nothing to do,
//! and queries alone.

use crate::random::Random;
use crate::stream::{played, pump_all, records, BUTTON_CODES, RECORDS};
use reading::bytes::put;
use reading::scenario;

/// So many of the stream's batches, cut up, fit into the hub's buffer.
const BATCHES: usize = 44;
/// Which stream a call or a query alone comes behind.
const SEED: u64 = 1;

/// Whether a button of the pad is pressed, by its code.
fn query(random: &mut Random, pad: u8) -> Vec<u8> {
    let mut payload = vec![pad];
    put(&mut payload, u64::from(random.among(&BUTTON_CODES).0), 4);
    scenario::write(scenario::PRESSED_BY_CODE, &payload)
}

/// The stream's first batches, one record a call, and after each a query about a button of the record's pad.
pub fn singly(seed: u64) -> Vec<u8> {
    let mut random = Random::new(seed);
    let mut round = Vec::new();
    for record in records(&mut random, BATCHES * RECORDS) {
        round.extend(pump_all(&[record]));
        round.extend(query(&mut random, record.pad));
    }
    played(&round)
}

/// A batch of the stream, so that the pads are in use, and then so many calls that find no record and no waiting event.
pub fn bare(calls: u64) -> Vec<u8> {
    let mut round = pump_all(&records(&mut Random::new(SEED), RECORDS));
    (0..calls).for_each(|_| round.extend(pump_all(&[])));
    played(&round)
}

/// The same batch, and then so many queries.
pub fn asking(queries: u64) -> Vec<u8> {
    let mut random = Random::new(SEED);
    let records = records(&mut random, RECORDS);
    let mut round = pump_all(&records);
    (0..queries).for_each(|_| {
        let pad = random.among(&records).pad;
        round.extend(query(&mut random, pad));
    });
    played(&round)
}
