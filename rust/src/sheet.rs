//! Sheets: what a pad has.

use crate::names::{Code, Name};
use std::ops::RangeInclusive;

/// The bytes that describe a pad, for [`register`](crate::Hub::register) or [`register_archived`](crate::Hub::register_archived), which judge them: neither the
/// builder nor `from_bytes` does.
///
/// ```
/// use copperyarn::{Axis, Button, Code, Hub, Name, Settings, Sheet};
///
/// let sheet = Sheet::builder()
///     .button(Code::key(0x130), Button::South)
///     .button(Code::key(0x2c0), Name::NONE)
///     .axis_with_deadzone(Code::abs(0x00), Axis::LeftStickX, -32_768..=32_767, 4_096)
///     .axis(Code::abs(0x02), Button::LeftTrigger2, 0..=255)
///     .axis(Code::abs(0x10), Axis::DPadX, -1..=1)
///     .build();
/// assert_eq!(sheet, Sheet::from_bytes(sheet.as_bytes()));
/// let pad = Hub::new(Settings::default())?.register(&sheet)?;
/// # assert_eq!(pad, copperyarn::PadId(0));
/// # Ok::<(), copperyarn::Refusal>(())
/// ```
#[derive(Clone, Debug, Eq, Hash, PartialEq)]
pub struct Sheet(Vec<u8>);

impl Sheet {
    /// Begins a sheet: no hats, no elements.
    pub fn builder() -> SheetBuilder {
        SheetBuilder::default()
    }

    /// Any bytes, as from a file.
    pub fn from_bytes(bytes: &[u8]) -> Sheet {
        Sheet(bytes.to_vec())
    }

    /// The bytes.
    pub fn as_bytes(&self) -> &[u8] {
        &self.0
    }
}

/// Collects a pad's elements, in any order.
#[derive(Clone, Debug, Default)]
pub struct SheetBuilder {
    hats: u8,
    elements: Vec<Element>,
}

#[derive(Clone, Copy, Debug)]
struct Element {
    code: Code,
    kind: u8,
    name: Name,
    min: i32,
    max: i32,
    deadzone: u32,
}

impl SheetBuilder {
    const BUTTON: u8 = 1;
    const AXIS: u8 = 2;
    /// The deadzone of an axis that has none of its own: the hub then takes the threshold 0.1.
    const ABSENT: u32 = u32::MAX;

    /// Which of the four hats are mapped, a bit for each. Moves of DPadX and DPadY become presses of the directions where this is 15; and where it is 0, as it is
    /// from the start, if no direction's code has a name and no element is named DPadRight. With 1 to 14 the sheet is one of the archive:
    /// [`register_archived`](crate::Hub::register_archived) takes it, [`register`](crate::Hub::register) refuses 29. From 16 on both refuse 4.
    pub fn hats(mut self, hats: u8) -> SheetBuilder {
        self.hats = hats;
        self
    }

    /// A button.
    pub fn button(self, code: Code, name: impl Into<Name>) -> SheetBuilder {
        self.with(Element { code, kind: SheetBuilder::BUTTON, name: name.into(), min: 0, max: 0, deadzone: 0 })
    }

    /// An axis with its raw limits and no deadzone of its own; a trigger, where the name is a button's.
    pub fn axis(self, code: Code, name: impl Into<Name>, limits: RangeInclusive<i32>) -> SheetBuilder {
        self.axis_with_deadzone(code, name, limits, SheetBuilder::ABSENT)
    }

    /// The same with a deadzone, in raw values.
    pub fn axis_with_deadzone(
        self, code: Code, name: impl Into<Name>, limits: RangeInclusive<i32>, deadzone: u32,
    ) -> SheetBuilder {
        let (min, max) = limits.into_inner();
        self.with(Element { code, kind: SheetBuilder::AXIS, name: name.into(), min, max, deadzone })
    }

    fn with(mut self, element: Element) -> SheetBuilder {
        self.elements.push(element);
        self
    }

    /// Writes the sheet, the elements by their codes. What no sheet can hold, as a code that stands twice or a 49th element, the hub refuses.
    pub fn build(mut self) -> Sheet {
        self.elements.sort_by_key(|element| element.code);
        let mut bytes = vec![0, 0, 1, self.hats, u8::try_from(self.elements.len()).unwrap_or(u8::MAX)];
        for element in &self.elements {
            bytes.extend_from_slice(&element.code.0.to_be_bytes());
            bytes.extend_from_slice(&[element.kind, element.name.0]);
            bytes.extend_from_slice(&element.min.to_be_bytes());
            bytes.extend_from_slice(&element.max.to_be_bytes());
            bytes.extend_from_slice(&element.deadzone.to_be_bytes());
        }
        let count = u16::try_from(bytes.len() - 2).unwrap_or(u16::MAX);
        bytes[..2].copy_from_slice(&count.to_be_bytes());
        Sheet(bytes)
    }
}
