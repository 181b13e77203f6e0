//! Stand-in for the crate `uuid`: 16 bytes, read from and written as 32 hexadecimal digits. The oracle uses them only
//! to tell gilrs which mapping line belongs to a pad.

use std::fmt::{Display, Formatter, Result as FmtResult};

#[derive(Copy, Clone, Debug, Eq, PartialEq, Hash)]
pub struct Uuid([u8; 16]);

#[derive(Debug)]
pub struct Error;

impl Uuid {
    pub fn from_bytes(bytes: [u8; 16]) -> Self {
        Uuid(bytes)
    }

    pub fn parse_str(text: &str) -> Result<Self, Error> {
        if text.len() != 32 {
            return Err(Error);
        }
        u128::from_str_radix(text, 16).map(|number| Uuid(number.to_be_bytes())).map_err(|_| Error)
    }

    pub fn as_simple(&self) -> &Self {
        self
    }
}

impl Display for Uuid {
    fn fmt(&self, f: &mut Formatter<'_>) -> FmtResult {
        write!(f, "{:032x}", u128::from_be_bytes(self.0))
    }
}
