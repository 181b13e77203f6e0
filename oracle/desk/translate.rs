//! Between 01's numbers and gilrs's types. 01's numbers for names are not those of the crate's constants.rs, so names
//! are translated name by name.

use gilrs::ev::AxisOrBtn;
use gilrs::{window, Axis, Button, EventType};
use gilrs_core::{EvCode, Event as RawEvent, EventType as RawEventType};
use reading::event::{self, Event};
use reading::names;
use reading::record::{self, Record};
use std::time::{Duration, SystemTime};

/// By 01's number, from 0 Unknown to 19 DPadRight.
const BUTTONS: [Button; 20] = [
    Button::Unknown,
    Button::South,
    Button::East,
    Button::North,
    Button::West,
    Button::C,
    Button::Z,
    Button::LeftTrigger,
    Button::LeftTrigger2,
    Button::RightTrigger,
    Button::RightTrigger2,
    Button::Select,
    Button::Start,
    Button::Mode,
    Button::LeftThumb,
    Button::RightThumb,
    Button::DPadUp,
    Button::DPadDown,
    Button::DPadLeft,
    Button::DPadRight,
];

/// By 01's number less 32, from Unknown to 40 DPadY.
const AXES: [Axis; 9] = [
    Axis::Unknown,
    Axis::LeftStickX,
    Axis::LeftStickY,
    Axis::LeftZ,
    Axis::RightStickX,
    Axis::RightStickY,
    Axis::RightZ,
    Axis::DPadX,
    Axis::DPadY,
];

pub fn button(name: u8) -> Button {
    BUTTONS[usize::from(name)]
}

pub fn axis(name: u8) -> Axis {
    AXES[usize::from(name - names::UNKNOWN_AXIS)]
}

pub fn button_number(button: Button) -> u8 {
    BUTTONS.iter().position(|known| *known == button).expect("a button of 01") as u8
}

fn axis_number(axis: Axis) -> u8 {
    names::UNKNOWN_AXIS + AXES.iter().position(|known| *known == axis).expect("an axis of 01") as u8
}

pub fn name_number(name: Option<AxisOrBtn>) -> u8 {
    match name {
        Some(AxisOrBtn::Btn(name)) => button_number(name),
        Some(AxisOrBtn::Axis(name)) => axis_number(name),
        None => names::NO_NAME,
    }
}

pub fn instant(time: u64) -> SystemTime {
    SystemTime::UNIX_EPOCH + Duration::from_micros(time)
}

pub fn microseconds(instant: SystemTime) -> u64 {
    let since = instant.duration_since(SystemTime::UNIX_EPOCH).expect("a time from 0 on");
    since.as_micros() as u64
}

pub fn to_raw(record: &Record) -> RawEvent {
    let code = EvCode(u64::from(record.code));
    let event = match record.kind {
        record::PRESSED => RawEventType::ButtonPressed(code),
        record::RELEASED => RawEventType::ButtonReleased(code),
        record::AXIS_MOVED => RawEventType::AxisValueChanged(record.value, code),
        record::CONNECTED => RawEventType::Connected,
        _ => RawEventType::Disconnected,
    };
    RawEvent { id: usize::from(record.pad), event, time: instant(record.time) }
}

pub fn to_crate(given: &Event) -> gilrs::Event {
    let code = window::code(given.code);
    let value = f32::from_bits(given.bits);
    let event = match given.kind {
        event::PRESSED => EventType::ButtonPressed(button(given.name), code),
        event::RELEASED => EventType::ButtonReleased(button(given.name), code),
        event::REPEATED => EventType::ButtonRepeated(button(given.name), code),
        event::CHANGED => EventType::ButtonChanged(button(given.name), value, code),
        event::AXIS => EventType::AxisChanged(axis(given.name), value, code),
        event::CONNECTED => EventType::Connected,
        event::DISCONNECTED => EventType::Disconnected,
        _ => EventType::Dropped,
    };
    window::event(usize::from(given.pad), event, instant(given.time))
}

pub fn from_crate(given: &gilrs::Event) -> Event {
    let (kind, name, code, value) = match given.event {
        EventType::ButtonPressed(name, code) => (event::PRESSED, button_number(name), code.into_u32(), 0.0),
        EventType::ButtonReleased(name, code) => (event::RELEASED, button_number(name), code.into_u32(), 0.0),
        EventType::ButtonRepeated(name, code) => (event::REPEATED, button_number(name), code.into_u32(), 0.0),
        EventType::ButtonChanged(name, value, code) => (event::CHANGED, button_number(name), code.into_u32(), value),
        EventType::AxisChanged(name, value, code) => (event::AXIS, axis_number(name), code.into_u32(), value),
        EventType::Connected => (event::CONNECTED, names::NO_NAME, 0, 0.0),
        EventType::Disconnected => (event::DISCONNECTED, names::NO_NAME, 0, 0.0),
        EventType::Dropped => (event::DROPPED, names::NO_NAME, 0, 0.0),
        _ => panic!("an event that 01 does not have: {:?}", given),
    };
    Event { kind, pad: usize::from(given.id) as u8, name, code, bits: value.to_bits(), time: microseconds(given.time) }
}
