//! W-206's time "at which it last went from not pressed to pressed", which gilrs does not keep: the player notes it
//! beside gilrs's own button records. No kind of event decides anything here. The record of the event's code is read
//! before and after the crate's `update`: where it was absent or not pressed and is pressed now, the note is the
//! event's time; where it is new and not pressed, 0; else the note stays.
//!
//! A note is read only while gilrs has the record, and is written whenever an event makes one. So Connected, which
//! takes gilrs's records away, takes their notes; and a rename leaves both, as the player, where it must rename by a
//! Connected event, puts gilrs's records back past this.

use crate::hub::Hub;
use crate::translate::from_crate;
use gilrs::window;
use std::collections::HashMap;

/// The notes, by pad and code.
#[derive(Default)]
pub struct Held {
    since: HashMap<(usize, u32), u64>,
}

impl Held {
    /// Gives an event to gilrs's state. One that has no code is noted by code 0, whose record it leaves as it was.
    pub fn update(&mut self, hub: &mut Hub, event: &gilrs::Event) {
        let read = from_crate(event);
        let place = (usize::from(read.pad), read.code);
        let before = pressed(hub, place);
        hub.gilrs.update(event);
        match (before, pressed(hub, place)) {
            (None | Some(false), Some(true)) => self.note(place, read.time),
            (None, Some(false)) => self.note(place, 0),
            _ => (),
        }
    }

    fn note(&mut self, place: (usize, u32), time: u64) {
        self.since.insert(place, time);
    }

    /// The answer to `held since`. Each of gilrs's button records has its note.
    pub fn since(&self, hub: &Hub, pad: usize, code: u32) -> String {
        let place = (pad, code);
        pressed(hub, place).map_or("ABSENT".to_string(), |_| format!("SINCE {}", self.since[&place]))
    }
}

/// What gilrs's button record says, if there is one.
fn pressed(hub: &Hub, (pad, code): (usize, u32)) -> Option<bool> {
    hub.pad(pad).state().button_data(window::code(code)).map(|data| data.is_pressed())
}
