//! Events, and their 22 bytes.

use crate::names::{Axis, Button, Code, Name, PadId};
use crate::refusal::Refusal;

/// Something that a pad did, named and filtered; or one of the caller's own, for [`update`](crate::Hub::update) and
/// [`insert_event`](crate::Hub::insert_event).
#[derive(Clone, Copy, Debug, PartialEq)]
pub struct Event {
    /// The pad.
    pub id: PadId,
    /// What happened.
    pub event: EventType,
    /// When, in microseconds: the time of the record that it was made of.
    pub time: u64,
}

/// What happened, in gilrs's words.
#[derive(Clone, Copy, Debug, PartialEq)]
pub enum EventType {
    /// A button was pressed.
    ButtonPressed(Button, Code),
    /// A held button is due again: of [`repeat`](crate::Hub::repeat).
    ButtonRepeated(Button, Code),
    /// A button was released.
    ButtonReleased(Button, Code),
    /// A button's value changed, 0.0 to 1.0.
    ButtonChanged(Button, f32, Code),
    /// An axis's value changed, -1.0 to 1.0.
    AxisChanged(Axis, f32, Code),
    /// The pad was connected: its state is fresh, and its names are those of its sheet.
    Connected,
    /// The pad was disconnected: its state stays.
    Disconnected,
    /// Nothing. It is handed out only where the filters are off and the caller inserted it.
    Dropped,
}

impl EventType {
    /// The kind's number, and name, code and value as they stand in the bytes.
    fn fields(self) -> (u8, Name, Code, f32) {
        match self {
            EventType::ButtonPressed(button, code) => (1, button.into(), code, 0.0),
            EventType::ButtonReleased(button, code) => (2, button.into(), code, 0.0),
            EventType::ButtonRepeated(button, code) => (3, button.into(), code, 0.0),
            EventType::ButtonChanged(button, value, code) => (4, button.into(), code, value),
            EventType::AxisChanged(axis, value, code) => (5, axis.into(), code, value),
            EventType::Connected => (6, Name::NONE, Code(0), 0.0),
            EventType::Disconnected => (7, Name::NONE, Code(0), 0.0),
            EventType::Dropped => (8, Name::NONE, Code(0), 0.0),
        }
    }

    /// Of the same fields; what a kind has no use for is not looked at.
    fn from_fields(kind: u8, name: Name, code: Code, value: f32) -> Option<EventType> {
        Some(match kind {
            1 => EventType::ButtonPressed(name.button()?, code),
            2 => EventType::ButtonReleased(name.button()?, code),
            3 => EventType::ButtonRepeated(name.button()?, code),
            4 => EventType::ButtonChanged(name.button()?, value, code),
            5 => EventType::AxisChanged(name.axis()?, value, code),
            6 => EventType::Connected,
            7 => EventType::Disconnected,
            8 => EventType::Dropped,
            _ => return None,
        })
    }
}

impl Event {
    /// The size of an event's bytes.
    pub const SIZE: usize = 22;

    /// An event. gilrs takes the time from the clock; here it is the caller's to say.
    pub fn new(id: PadId, event: EventType, time: u64) -> Event {
        Event { id, event, time }
    }

    /// The same with nothing happening.
    pub fn drop(self) -> Event {
        Event { event: EventType::Dropped, ..self }
    }

    /// Whether nothing happened.
    pub fn is_dropped(&self) -> bool {
        self.event == EventType::Dropped
    }

    /// The event's bytes: count 20, version 1, kind, pad, name, code, value bits, time.
    pub fn to_bytes(&self) -> [u8; Event::SIZE] {
        let (kind, name, code, value) = self.event.fields();
        let mut bytes = [0; Event::SIZE];
        bytes[..6].copy_from_slice(&[0, 20, 1, kind, self.id.0, name.0]);
        bytes[6..10].copy_from_slice(&code.0.to_be_bytes());
        bytes[10..14].copy_from_slice(&value.to_bits().to_be_bytes());
        bytes[14..].copy_from_slice(&self.time.to_be_bytes());
        bytes
    }

    /// Reads an event's bytes; [`Refusal::Malformed`] where they are none.
    pub fn from_bytes(bytes: &[u8]) -> Result<Event, Refusal> {
        Event::read(bytes).filter(|event| event.to_bytes() == *bytes).ok_or(Refusal::Malformed)
    }

    /// The fields alone: what [`from_bytes`](Event::from_bytes) finds wrong in the others is let by.
    pub(crate) fn read(bytes: &[u8]) -> Option<Event> {
        let [_, _, _, kind, pad, name, c0, c1, c2, c3, v0, v1, v2, v3, time @ ..] =
            *<&[u8; Event::SIZE]>::try_from(bytes).ok()?;
        let code = Code(u32::from_be_bytes([c0, c1, c2, c3]));
        let value = f32::from_bits(u32::from_be_bytes([v0, v1, v2, v3]));
        let event = EventType::from_fields(kind, Name(name), code, value)?;
        Some(Event::new(PadId(pad), event, u64::from_be_bytes(time)))
    }
}
