//! Courses that hold the queue at different lengths. The most that can wait is 48: insert refuses while 16 wait, and of
//! 16 hat events each leaves three behind where it releases the opposite direction. Both courses have empty batches.

use crate::stream::{joined, opening, pad, pump};
use reading::event::{self, Event};
use reading::names::{self, DIRECTIONS};
use reading::scenario::{self, FILTERS_ON, UPDATES_ON};
use reading::sheet::Sheet;
use reading::INSERT_LIMIT;

fn converting() -> Vec<Sheet> {
    vec![pad(false, -32_768, 32_767, 128)]
}

/// The hat at its right end.
fn hat(sheet: &Sheet) -> Vec<u8> {
    let code = sheet.named(names::DPAD_X).expect("a hat").code;
    let right = Event { kind: event::AXIS, pad: 0, name: names::DPAD_X, code, bits: 1.0_f32.to_bits(), time: 1 };
    scenario::write(scenario::INSERT, &right.to_bytes())
}

fn held_left() -> Vec<u8> {
    let left = Event { kind: event::PRESSED, pad: 0, name: names::DPAD_LEFT, code: DIRECTIONS[2], bits: 0, time: 0 };
    scenario::write(scenario::UPDATE, &left.to_bytes())
}

/// 16 hat events are turned into 48 that wait, Left pressed anew before each; a round takes `steps` of the 48.
pub fn taking(steps: u64) -> Vec<u8> {
    let pads = converting();
    let mut before = opening(FILTERS_ON | UPDATES_ON, &pads);
    before.extend(hat(&pads[0]).repeat(INSERT_LIMIT));
    for _ in 0..INSERT_LIMIT {
        before.extend(held_left());
        before.extend(pump(1, &[]));
    }
    joined(&before, &pump(steps, &[]))
}

/// 16 hat events wait on a hub that makes no updates, so that Left stays pressed: a round turns `steps` of them, and each
/// leaves two more waiting than it found.
pub fn pushing(steps: u64) -> Vec<u8> {
    let pads = converting();
    let mut before = opening(FILTERS_ON, &pads);
    before.extend(held_left());
    before.extend(hat(&pads[0]).repeat(INSERT_LIMIT));
    joined(&before, &pump(steps, &[]))
}
