//! W-203's zone pads, which gilrs does not have: the player keeps beside gilrs which pads are zone pads, and of each the
//! zone of the last converted value of DPadX and of DPadY. Where gilrs's dpad filter is about to take a hat's event of a
//! zone pad, it is given the zone's own value for the event's, -1.0, 0.0 or 1.0, or, in the zone that is kept, a dropped
//! event. Whether the pad converts, gilrs is asked; what it then presses and releases is gilrs's. gilrs is given the low
//! four bits of the hats byte and does not know of bit 7.

use crate::hub::Hub;
use gilrs::{window, Axis, EventType};
use reading::record::{self, Record};
use reading::sheet::{Sheet, ZONE_MARK};
use reading::MOST_PADS;

#[derive(Clone, Copy, Debug, Default, Eq, PartialEq)]
enum Zone {
    #[default]
    Middle,
    Plus,
    Minus,
}

impl Zone {
    /// "0.5 and above", "-0.5 and below"
    fn of(value: f32) -> Zone {
        if value >= 0.5 {
            Zone::Plus
        } else if value <= -0.5 {
            Zone::Minus
        } else {
            Zone::Middle
        }
    }

    fn value(self) -> f32 {
        match self {
            Zone::Middle => 0.0,
            Zone::Plus => 1.0,
            Zone::Minus => -1.0,
        }
    }
}

#[derive(Default)]
pub struct Zones {
    zoned: [bool; MOST_PADS],
    /// Of DPadX and DPadY: "the middle at first".
    last: [[Zone; 2]; MOST_PADS],
}

impl Zones {
    /// No rename changes whether a pad is a zone pad, and no Connected.
    pub fn registered(&mut self, pad: usize, sheet: &Sheet) {
        self.zoned[pad] = sheet.is_zoned();
    }

    /// "the middle .. after Connected": of a record that a pump takes. Events of this kind load nothing in gilrs.
    pub fn took(&mut self, record: &Record) {
        if record.kind == record::CONNECTED {
            self.last[usize::from(record.pad)] = Default::default();
        }
    }

    /// What gilrs's dpad filter is to be given for an event.
    pub fn read(&mut self, hub: &Hub, event: gilrs::Event) -> gilrs::Event {
        let pad = usize::from(event.id);
        let (axis, value, code) = match event.event {
            EventType::AxisChanged(axis, value, code) => (axis, value, code),
            _ => return event,
        };
        let at = match axis {
            Axis::DPadX => 0,
            Axis::DPadY => 1,
            _ => return event,
        };
        if !self.zoned[pad] || !window::converts(&hub.gilrs, pad) {
            return event;
        }
        let zone = Zone::of(value);
        if self.last[pad][at] == zone {
            return event.drop();
        }
        self.last[pad][at] = zone;
        window::event(pad, EventType::AxisChanged(axis, zone.value(), code), event.time)
    }

    /// The hats byte of a pad as 01's hub has it: those that gilrs maps, and bit 7, which "a rename keeps".
    pub fn hats(&self, hub: &Hub, pad: usize) -> u8 {
        let mark = if self.zoned[pad] { ZONE_MARK } else { 0 };
        window::hats(&hub.gilrs, pad) | mark
    }
}
