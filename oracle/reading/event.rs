//! Events, and the line that padlog prints for one.

use crate::bytes::{field, field32, put};
use crate::sheet::Sheet;
use crate::{names, refusal, LAST_TIME};

pub const SIZE: usize = 22;
pub const PRESSED: u8 = 1;
pub const RELEASED: u8 = 2;
pub const REPEATED: u8 = 3;
pub const CHANGED: u8 = 4;
pub const AXIS: u8 = 5;
pub const CONNECTED: u8 = 6;
pub const DISCONNECTED: u8 = 7;
pub const DROPPED: u8 = 8;

/// The words by kind; no event has kind 0.
pub const WORDS: [&str; 9] =
    ["", "PRESSED", "RELEASED", "REPEATED", "CHANGED", "AXIS", "CONNECTED", "DISCONNECTED", "DROPPED"];

#[derive(Clone, Copy, Debug, Eq, PartialEq)]
pub struct Event {
    pub kind: u8,
    pub pad: u8,
    pub name: u8,
    pub code: u32,
    pub bits: u32,
    pub time: u64,
}

impl Event {
    /// Judges an event given to `update` or insert: 8, 6, 9, 11, 12. (13 is the queue's to judge.)
    pub fn read(bytes: &[u8], pads: &[Sheet]) -> Result<Event, u8> {
        if bytes.len() != SIZE || field(bytes, 0, 2) != (SIZE - 2) as u64 || bytes[2] != 1 {
            return Err(refusal::MALFORMED);
        }
        let event = Event {
            kind: bytes[3],
            pad: bytes[4],
            name: bytes[5],
            code: field32(bytes, 6),
            bits: field32(bytes, 10),
            time: field(bytes, 14, 8),
        };
        event.judge(pads).map(|()| event)
    }

    fn judge(&self, pads: &[Sheet]) -> Result<(), u8> {
        let sort = match self.kind {
            PRESSED..=CHANGED => (names::UNKNOWN_BUTTON..=names::DPAD_RIGHT).contains(&self.name),
            AXIS => (names::UNKNOWN_AXIS..=names::DPAD_Y).contains(&self.name),
            CONNECTED..=DROPPED => self.name == names::NO_NAME && self.code == 0,
            _ => false,
        };
        if !sort || (!self.has_value() && self.bits != 0) {
            return Err(refusal::MALFORMED);
        }
        let sheet = pads.get(usize::from(self.pad)).ok_or(refusal::NO_PAD)?;
        let listed = sheet.element(self.code).is_some() || names::DIRECTIONS.contains(&self.code);
        if self.kind <= AXIS && !listed {
            return Err(refusal::CODE);
        }
        // false for NaN, which lies in no range
        if !(-1.0..=1.0).contains(&f32::from_bits(self.bits)) {
            Err(refusal::VALUE)
        } else if self.time > LAST_TIME {
            Err(refusal::TIME)
        } else {
            Ok(())
        }
    }

    /// "Value only in 4 and 5"
    pub fn has_value(&self) -> bool {
        self.kind == CHANGED || self.kind == AXIS
    }

    pub fn to_bytes(&self) -> Vec<u8> {
        let mut bytes = vec![0, (SIZE - 2) as u8, 1, self.kind, self.pad, self.name];
        put(&mut bytes, u64::from(self.code), 4);
        put(&mut bytes, u64::from(self.bits), 4);
        put(&mut bytes, self.time, 8);
        bytes
    }

    pub fn line(&self) -> String {
        format!(
            "{} {} {} {:08x} {:08x} {}",
            WORDS[usize::from(self.kind)],
            self.pad,
            self.name,
            self.code,
            self.bits,
            self.time
        )
    }
}
