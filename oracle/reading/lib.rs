//! The byte forms of 01 and the scenario form, and 01's refusals judged by number. This is the player's own reading of
//! document 01; gilrs has no part in it. `reader.py` is a second reading, and the two are compared.

pub mod bytes;
pub mod event;
pub mod names;
pub mod record;
pub mod refusal;
pub mod scenario;
pub mod sheet;

/// Times 0..2^62-1 microseconds.
pub const LAST_TIME: u64 = (1 << 62) - 1;
/// "Batch and out buffer at most 16,384 bytes each."
pub const LONGEST_BUFFER: usize = 16_384;
/// "Pads 0..3".
pub const MOST_PADS: usize = 4;
/// "caller's insert while 16 or more wait"
pub const INSERT_LIMIT: usize = 16;
/// "Repeat after 0..60,000,000, every 1..60,000,000"
pub const LONGEST_REPEAT: u64 = 60_000_000;

/// One hub with its pads: plays every operation but `new` and answers with lines.
pub trait Desk {
    fn play(&mut self, operation: &scenario::Operation<'_>) -> Vec<String>;
    /// Pump calls that were compared with gilrs's own loop, and those that could not be.
    fn compared(&self) -> (u64, u64);
}
