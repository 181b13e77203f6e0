//! Repeat. The crate walks the connected pads by number but a pad's buttons in the order of a hash map, so it may
//! answer any due button of the lowest pad that has one; 01 fixes the lowest code. The player works out all that are
//! due, requires the crate's answer to be one of them, and prints the lowest.

use crate::hub::Hub;
use crate::translate::{button_number, from_crate, instant, microseconds};
use gilrs::ev::filter::{FilterFn, Repeat};
use gilrs::ev::AxisOrBtn;
use reading::event::{self, Event};
use reading::names;
use std::time::Duration;

pub fn repeat(hub: &mut Hub, after: u64, every: u64, now: u64) -> String {
    gilrs_core::utils::set_time_now(instant(now));
    let filter = Repeat { after: Duration::from_micros(after), every: Duration::from_micros(every) };
    let answered = filter.filter(None, &mut hub.gilrs).map(|event| from_crate(&event));
    let due = due(hub, after, every, now);
    match answered {
        None => assert!(due.is_empty(), "the crate repeats nothing, due are {:?}", due),
        Some(event) => assert!(due.contains(&event), "the crate repeats {:?}, due are {:?}", event, due),
    }
    due.first().map_or("NONE".to_string(), Event::line)
}

/// The due buttons of the lowest connected pad that has one, codes rising.
fn due(hub: &Hub, after: u64, every: u64, now: u64) -> Vec<Event> {
    for (id, handle) in hub.gilrs.gamepads() {
        let mut due: Vec<Event> = Vec::new();
        for (code, data) in handle.state().buttons() {
            let stamp = microseconds(data.timestamp());
            let wait = if data.is_repeating() { every } else { after };
            if !data.is_pressed() || stamp > now || now - stamp < wait {
                continue;
            }
            let name = match handle.axis_or_btn_name(code) {
                Some(AxisOrBtn::Btn(name)) => button_number(name),
                _ => names::UNKNOWN_BUTTON,
            };
            due.push(Event {
                kind: event::REPEATED,
                pad: usize::from(id) as u8,
                name,
                code: code.into_u32(),
                bits: 0,
                time: stamp + wait,
            });
        }
        due.sort_by_key(|event| event.code);
        if !due.is_empty() {
            return due;
        }
    }
    Vec::new()
}
