//! Raw records.

use crate::bytes::{field, field32, put};
use crate::sheet::{is_raw_value, Sheet, AXIS, BUTTON};
use crate::{refusal, LAST_TIME};

pub const SIZE: usize = 21;
pub const PRESSED: u8 = 1;
pub const RELEASED: u8 = 2;
pub const AXIS_MOVED: u8 = 3;
pub const CONNECTED: u8 = 4;
pub const DISCONNECTED: u8 = 5;

#[derive(Clone, Copy, Debug)]
pub struct Record {
    pub kind: u8,
    pub pad: u8,
    pub code: u32,
    pub value: i32,
    pub time: u64,
}

impl Record {
    /// Judges the record at the front of `bytes`, which may go on behind it: 8, 6, 9, 10, 11, 12.
    pub fn read(bytes: &[u8], pads: &[Sheet]) -> Result<Record, u8> {
        if bytes.len() < SIZE || field(bytes, 0, 2) != (SIZE - 2) as u64 || bytes[2] != 1 {
            return Err(refusal::MALFORMED);
        }
        let record = Record {
            kind: bytes[3],
            pad: bytes[4],
            code: field32(bytes, 5),
            value: field32(bytes, 9) as i32,
            time: field(bytes, 13, 8),
        };
        record.judge(pads).map(|()| record)
    }

    fn judge(&self, pads: &[Sheet]) -> Result<(), u8> {
        let links = self.kind == CONNECTED || self.kind == DISCONNECTED;
        if !(PRESSED..=DISCONNECTED).contains(&self.kind)
            || (self.kind != AXIS_MOVED && self.value != 0)
            || (links && self.code != 0)
        {
            return Err(refusal::MALFORMED);
        }
        let sheet = pads.get(usize::from(self.pad)).ok_or(refusal::NO_PAD)?;
        if !links {
            let element = sheet.element(self.code).ok_or(refusal::CODE)?;
            let asked = if self.kind == AXIS_MOVED { AXIS } else { BUTTON };
            if element.kind != asked {
                return Err(refusal::KIND_OF_ELEMENT);
            }
        }
        if !is_raw_value(self.value) {
            Err(refusal::VALUE)
        } else if self.time > LAST_TIME {
            Err(refusal::TIME)
        } else {
            Ok(())
        }
    }

    pub fn to_bytes(&self) -> Vec<u8> {
        let mut bytes = vec![0, (SIZE - 2) as u8, 1, self.kind, self.pad];
        put(&mut bytes, u64::from(self.code), 4);
        put(&mut bytes, u64::from(self.value as u32), 4);
        put(&mut bytes, self.time, 8);
        bytes
    }
}
