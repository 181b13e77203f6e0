//! Pad sheets, new ones and those of the archive, and rename lists.

use crate::bytes::{field, field32, put};
use crate::{names, refusal};

pub const HEAD: usize = 5;
pub const ELEMENT: usize = 18;
pub const MOST_ELEMENTS: usize = 48;
pub const BUTTON: u8 = 1;
pub const AXIS: u8 = 2;
pub const ABSENT: u32 = 0xffff_ffff;
pub const LARGEST_DEADZONE: u32 = 16_777_215;
pub const LEAST_VALUE: i32 = -8_388_608;
pub const LARGEST_VALUE: i32 = 8_388_607;
pub const LARGEST_HATS: u8 = 15;

#[derive(Clone, Copy, Debug)]
pub struct Element {
    pub code: u32,
    pub kind: u8,
    pub name: u8,
    pub min: i32,
    pub max: i32,
    pub deadzone: u32,
}

#[derive(Clone, Debug)]
pub struct Sheet {
    pub hats: u8,
    pub elements: Vec<Element>,
}

/// "min, max and raw values in -8,388,608..8,388,607"
pub fn is_raw_value(value: i32) -> bool {
    (LEAST_VALUE..=LARGEST_VALUE).contains(&value)
}

impl Element {
    fn read(bytes: &[u8]) -> Element {
        Element {
            code: field32(bytes, 0),
            kind: bytes[4],
            name: bytes[5],
            min: field32(bytes, 6) as i32,
            max: field32(bytes, 10) as i32,
            deadzone: field32(bytes, 14),
        }
    }

    fn stands(&self) -> bool {
        let numbers = match self.kind {
            BUTTON => self.min == 0 && self.max == 0 && self.deadzone == 0,
            AXIS => {
                self.min < self.max
                    && is_raw_value(self.min)
                    && is_raw_value(self.max)
                    && (self.deadzone <= LARGEST_DEADZONE || self.deadzone == ABSENT)
            }
            _ => false,
        };
        numbers && names::is_sheet_name(self.name)
    }
}

impl Sheet {
    /// Reads a new sheet, or answers with the first of 3, 4, 29, 5 that applies.
    pub fn read(bytes: &[u8]) -> Result<Sheet, u8> {
        let sheet = Sheet::read_elements(bytes)?;
        if sheet.is_partial() {
            return Err(refusal::PARTIAL_HATS);
        }
        sheet.named_once()
    }

    /// Reads a sheet of the archive, whose hats may be partial: 3, 4, 5, as 01 has it.
    pub fn read_archived(bytes: &[u8]) -> Result<Sheet, u8> {
        Sheet::read_elements(bytes)?.named_once()
    }

    /// 3, then 4.
    fn read_elements(bytes: &[u8]) -> Result<Sheet, u8> {
        if bytes.len() < HEAD
            || bytes.len() != 2 + field(bytes, 0, 2) as usize
            || bytes[2] != 1
            || usize::from(bytes[4]) > MOST_ELEMENTS
            || bytes.len() != HEAD + ELEMENT * usize::from(bytes[4])
        {
            return Err(refusal::SHEET_SIZE);
        }
        let elements: Vec<Element> = bytes[HEAD..].chunks(ELEMENT).map(Element::read).collect();
        let rising = elements.windows(2).all(|pair| pair[0].code < pair[1].code);
        if bytes[3] > LARGEST_HATS || !rising || !elements.iter().all(Element::stands) {
            return Err(refusal::ELEMENT);
        }
        Ok(Sheet { hats: bytes[3], elements })
    }

    /// 5.
    fn named_once(self) -> Result<Sheet, u8> {
        if names::stands_twice(&self.names()) {
            return Err(refusal::NAME_TWICE);
        }
        Ok(self)
    }

    /// "one to three hat directions mapped": neither 0 nor 15 "in the low four bits".
    pub fn is_partial(&self) -> bool {
        (1..=3).contains(&(self.hats & LARGEST_HATS).count_ones())
    }

    pub fn to_bytes(&self) -> Vec<u8> {
        let count = HEAD - 2 + ELEMENT * self.elements.len();
        let mut bytes = Vec::new();
        put(&mut bytes, count as u64, 2);
        bytes.extend_from_slice(&[1, self.hats, self.elements.len() as u8]);
        for element in &self.elements {
            put(&mut bytes, u64::from(element.code), 4);
            bytes.extend_from_slice(&[element.kind, element.name]);
            put(&mut bytes, u64::from(element.min as u32), 4);
            put(&mut bytes, u64::from(element.max as u32), 4);
            put(&mut bytes, u64::from(element.deadzone), 4);
        }
        bytes
    }

    pub fn names(&self) -> Vec<u8> {
        self.elements.iter().map(|element| element.name).collect()
    }

    pub fn element(&self, code: u32) -> Option<&Element> {
        self.elements.iter().find(|element| element.code == code)
    }

    pub fn named(&self, name: u8) -> Option<&Element> {
        self.elements.iter().find(|element| element.name == name)
    }
}

/// Rename: 6 and 7 are the hub's to judge; then 3, 4, 5 over the list.
pub fn judge_rename(names: &[u8], sheet: &Sheet) -> Result<(), u8> {
    if names.len() != sheet.elements.len() {
        Err(refusal::SHEET_SIZE)
    } else if !names.iter().all(|name| names::is_sheet_name(*name)) {
        Err(refusal::ELEMENT)
    } else if names::stands_twice(names) {
        Err(refusal::NAME_TWICE)
    } else {
        Ok(())
    }
}
