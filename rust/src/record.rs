//! Raw records, and their 21 bytes.

use crate::names::{Code, PadId};
use crate::refusal::Refusal;

/// What a pad did, raw: what the caller's backend reads off the device, and all that the hub is told.
///
/// ```
/// use copperyarn::{Code, PadId, RawRecord, RawType};
///
/// let record = RawRecord::axis(PadId(0), Code::abs(0x10), -1, 100);
/// assert_eq!(record, RawRecord { id: PadId(0), event: RawType::AxisValueChanged(-1, Code(0x0003_0010)), time: 100 });
/// assert_eq!(RawRecord::from_bytes(&record.to_bytes()), Ok(record));
/// ```
#[derive(Clone, Copy, Debug, Eq, Hash, PartialEq)]
pub struct RawRecord {
    /// The pad.
    pub id: PadId,
    /// What it did.
    pub event: RawType,
    /// When, in microseconds, under 2^62. Any clock will do that `repeat` is given too.
    pub time: u64,
}

/// What a pad did.
#[derive(Clone, Copy, Debug, Eq, Hash, PartialEq)]
pub enum RawType {
    ButtonPressed(Code),
    ButtonReleased(Code),
    /// An axis's value, in the limits of its element; 24 bits, signed.
    AxisValueChanged(i32, Code),
    Connected,
    Disconnected,
}

impl RawType {
    /// The kind's number, and code and value as they stand in the bytes.
    fn fields(self) -> (u8, Code, i32) {
        match self {
            RawType::ButtonPressed(code) => (1, code, 0),
            RawType::ButtonReleased(code) => (2, code, 0),
            RawType::AxisValueChanged(value, code) => (3, code, value),
            RawType::Connected => (4, Code(0), 0),
            RawType::Disconnected => (5, Code(0), 0),
        }
    }

    /// Of the same fields; what a kind has no use for is not looked at.
    fn from_fields(kind: u8, code: Code, value: i32) -> Option<RawType> {
        Some(match kind {
            1 => RawType::ButtonPressed(code),
            2 => RawType::ButtonReleased(code),
            3 => RawType::AxisValueChanged(value, code),
            4 => RawType::Connected,
            5 => RawType::Disconnected,
            _ => return None,
        })
    }
}

impl RawRecord {
    /// The size of a record's bytes.
    pub const SIZE: usize = 21;

    /// A button was pressed.
    pub fn pressed(id: PadId, code: Code, time: u64) -> RawRecord {
        RawRecord { id, event: RawType::ButtonPressed(code), time }
    }

    /// A button was released.
    pub fn released(id: PadId, code: Code, time: u64) -> RawRecord {
        RawRecord { id, event: RawType::ButtonReleased(code), time }
    }

    /// An axis, or a trigger, has this value.
    pub fn axis(id: PadId, code: Code, value: i32, time: u64) -> RawRecord {
        RawRecord { id, event: RawType::AxisValueChanged(value, code), time }
    }

    /// The pad was connected.
    pub fn connected(id: PadId, time: u64) -> RawRecord {
        RawRecord { id, event: RawType::Connected, time }
    }

    /// The pad was disconnected.
    pub fn disconnected(id: PadId, time: u64) -> RawRecord {
        RawRecord { id, event: RawType::Disconnected, time }
    }

    /// The record's bytes: count 19, version 1, kind, pad, code, value, time.
    pub fn to_bytes(&self) -> [u8; RawRecord::SIZE] {
        let (kind, code, value) = self.event.fields();
        let mut bytes = [0; RawRecord::SIZE];
        bytes[..5].copy_from_slice(&[0, 19, 1, kind, self.id.0]);
        bytes[5..9].copy_from_slice(&code.0.to_be_bytes());
        bytes[9..13].copy_from_slice(&value.to_be_bytes());
        bytes[13..].copy_from_slice(&self.time.to_be_bytes());
        bytes
    }

    /// Reads a record's bytes; [`Refusal::Malformed`] where they are none.
    pub fn from_bytes(bytes: &[u8]) -> Result<RawRecord, Refusal> {
        RawRecord::read(bytes).filter(|record| record.to_bytes() == *bytes).ok_or(Refusal::Malformed)
    }

    fn read(bytes: &[u8]) -> Option<RawRecord> {
        let [_, _, _, kind, pad, c0, c1, c2, c3, v0, v1, v2, v3, time @ ..] =
            *<&[u8; RawRecord::SIZE]>::try_from(bytes).ok()?;
        let code = Code(u32::from_be_bytes([c0, c1, c2, c3]));
        let event = RawType::from_fields(kind, code, i32::from_be_bytes([v0, v1, v2, v3]))?;
        Some(RawRecord { id: PadId(pad), event, time: u64::from_be_bytes(time) })
    }
}
