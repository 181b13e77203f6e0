//! 01's table "Refusals by number" with those of the requests behind it, and the judgements that need no more than
//! numbers.

use crate::{LAST_TIME, LONGEST_REPEAT};

pub const THRESHOLDS: u8 = 1;
pub const FOUR_PADS: u8 = 2;
pub const SHEET_SIZE: u8 = 3;
pub const ELEMENT: u8 = 4;
pub const NAME_TWICE: u8 = 5;
pub const NO_PAD: u8 = 6;
pub const DISCONNECTED: u8 = 7;
pub const MALFORMED: u8 = 8;
pub const CODE: u8 = 9;
pub const KIND_OF_ELEMENT: u8 = 10;
pub const VALUE: u8 = 11;
pub const TIME: u8 = 12;
pub const QUEUE: u8 = 13;
pub const BUFFER: u8 = 14;
pub const REPEAT: u8 = 15;
pub const NO_NAME: u8 = 16;
/// W-212's.
pub const PARTIAL_HATS: u8 = 29;

/// "pressed <= released, either outside 0..1, or NaN": written so that NaN fails each test.
pub fn thresholds_stand(pressed: f32, released: f32) -> bool {
    let inside = |x: f32| (0.0..=1.0).contains(&x);
    inside(pressed) && inside(released) && pressed > released
}

/// Repeat: 15, then 12.
pub fn of_repeat(after: u64, every: u64, now: u64) -> Result<(), u8> {
    if after > LONGEST_REPEAT || every == 0 || every > LONGEST_REPEAT {
        Err(REPEAT)
    } else if now > LAST_TIME {
        Err(TIME)
    } else {
        Ok(())
    }
}
