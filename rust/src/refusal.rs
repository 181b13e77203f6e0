//! What the hub refuses, by number and in words.

use std::error::Error;
use std::fmt;

/// Why a call was refused. A refused call leaves the hub and every lent byte as they were; a refused [`pump`](crate::Hub::pump) keeps the steps before it.
///
/// ```
/// use copperyarn::{Button, Hub, PadId, Refusal, Settings};
///
/// let hub = Hub::new(Settings::default())?;
/// let refusal = hub.is_pressed(PadId(0), Button::South).unwrap_err();
/// assert_eq!(refusal, Refusal::NoPad);
/// assert_eq!(refusal.number(), 6);
/// assert_eq!(refusal.to_string(), "pad not registered");
/// # Ok::<(), Refusal>(())
/// ```
#[derive(Clone, Copy, Debug, Eq, Hash, PartialEq)]
#[repr(u8)]
pub enum Refusal {
    /// 1, by [`Hub::new`](crate::Hub::new).
    Thresholds = 1,
    /// 2, by [`register`](crate::Hub::register) and [`register_archived`](crate::Hub::register_archived).
    Pads,
    /// 3, by these and [`rename`](crate::Hub::rename).
    Sheet,
    /// 4, by the same.
    Element,
    /// 5, by the same.
    NameTwice,
    /// 6, by every call that names a pad.
    NoPad,
    /// 7, by `rename`.
    Disconnected,
    /// 8, by `pump`, [`update`](crate::Hub::update) and [`insert_event`](crate::Hub::insert_event).
    Malformed,
    /// 9, by the same.
    Unlisted,
    /// 10, by `pump`.
    WrongElement,
    /// 11, by `pump`, `update` and `insert_event`.
    Value,
    /// 12, by the same and by [`repeat`](crate::Hub::repeat).
    Time,
    /// 13, by `insert_event`.
    Waiting,
    /// 14, by `pump`.
    TooLong,
    /// 15, by `repeat`.
    Repeat,
    /// 16, by the queries that go by a name.
    Name,
    /// 29, by `register`.
    PartialHats = 29,
}

impl Refusal {
    /// All of them, by number.
    pub const ALL: [Refusal; 17] = [
        Refusal::Thresholds,
        Refusal::Pads,
        Refusal::Sheet,
        Refusal::Element,
        Refusal::NameTwice,
        Refusal::NoPad,
        Refusal::Disconnected,
        Refusal::Malformed,
        Refusal::Unlisted,
        Refusal::WrongElement,
        Refusal::Value,
        Refusal::Time,
        Refusal::Waiting,
        Refusal::TooLong,
        Refusal::Repeat,
        Refusal::Name,
        Refusal::PartialHats,
    ];

    /// Its number, 1 to 16 or 29.
    pub fn number(self) -> u8 {
        self as u8
    }

    /// The refusal of a number; none for 0, which is no refusal, and for numbers that no call gives.
    pub fn from_number(number: u8) -> Option<Refusal> {
        Refusal::ALL.into_iter().find(|refusal| refusal.number() == number)
    }

    fn sentence(self) -> &'static str {
        match self {
            Refusal::Thresholds => "pressed <= released, either outside 0..1, or NaN",
            Refusal::Pads => "four pads stand",
            Refusal::Sheet => "sheet's size, count, version or n wrong; rename list not one name per element",
            Refusal::Element => "hats over 15 or an element breaks a rule (first one decides), duplicate names apart",
            Refusal::NameTwice => "a name stands twice",
            Refusal::NoPad => "pad not registered",
            Refusal::Disconnected => "rename of a disconnected pad",
            Refusal::Malformed => {
                "record or event malformed: size, count, version, kind, an unused field, an event's name of the wrong sort"
            }
            Refusal::Unlisted => "code not listed (an event may also carry a direction code)",
            Refusal::WrongElement => "record of kind 1 or 2 on an axis element, of kind 3 on a button",
            Refusal::Value => "raw value out of limits; event value not finite in -1..1",
            Refusal::Time => "time too large, record, event or repeat clock",
            Refusal::Waiting => "caller's insert while 16 or more wait",
            Refusal::TooLong => "batch or out buffer too long",
            Refusal::Repeat => "repeat settings out of limits",
            Refusal::Name => "query by a byte that is no name of the sort asked, Unknown included",
            Refusal::PartialHats => "hats map one to three directions, which only an archived sheet may",
        }
    }
}

impl fmt::Display for Refusal {
    fn fmt(&self, f: &mut fmt::Formatter<'_>) -> fmt::Result {
        f.write_str(self.sentence())
    }
}

impl Error for Refusal {}

/// The library's number for what it did: 0 is served, 1 to 16 or 29 a refusal, and there is no other.
pub(crate) fn judged(number: u8) -> Result<(), Refusal> {
    let refusal = Refusal::from_number(number);
    debug_assert!(number == 0 || refusal.is_some());
    refusal.map_or(Ok(()), Err)
}
