//! Dispatch: a raw record on an element, and what `next_event_priv` gives for it.

use crate::list::{self, Case, List, OUT, QUEUED};
use crate::pads;
use crate::random::Random;
use crate::translate::{from_crate, name_number};
use gilrs::window;
use reading::event::{self, Event};
use reading::names;
use reading::record::{self, Record};
use reading::sheet::{self, Element};

pub const KIND: u8 = 6;

/// Ends, middle, one past, the thresholds' neighbourhood, any.
fn raw(random: &mut Random, element: &Element) -> i32 {
    let (min, max) = (i64::from(element.min), i64::from(element.max));
    let value = match random.below(8) {
        0 => min,
        1 => max,
        2 => (min + max) / 2,
        3 => max + 1,
        4 => min - 1,
        5 => min + (max - min) * random.among(&[1, 2, 3]) / 4,
        _ => random.between(min, max),
    };
    value.clamp(i64::from(sheet::LEAST_VALUE), i64::from(sheet::LARGEST_VALUE)) as i32
}

fn record(random: &mut Random, element: &Element) -> Record {
    let time = random.below(1_000_000_000);
    if random.chance(5) {
        let kind = random.among(&[record::CONNECTED, record::DISCONNECTED]);
        return Record { kind, pad: 0, code: 0, value: 0, time };
    }
    let button = random.among(&[record::PRESSED, record::RELEASED]);
    let moves = element.kind == sheet::AXIS;
    let value = if moves { raw(random, element) } else { 0 };
    Record { kind: if moves { record::AXIS_MOVED } else { button }, pad: 0, code: element.code, value, time }
}

pub fn cases(random: &mut Random, list: &mut List) {
    let sheet = pads::sheet(random);
    let (mut hub, settings) = pads::hub(random, sheet.clone());
    for _ in 0..list::ROUND {
        let element = random.among(&sheet.elements);
        let given = record(random, &element);
        pads::disturb(random, &mut hub, &sheet, element.code);
        let code = window::code(given.code);
        let held = hub.pad(0).state().is_pressed(code);
        let name = name_number(hub.pad(0).axis_or_btn_name(code));
        hub.post(&given);
        let out = hub.next_event().expect("a record");
        let queued: Vec<Event> = hub.take_waiting().iter().map(from_crate).collect();
        assert!(queued.len() <= 1, "one event at most is queued");
        let reversed = gilrs_core::IS_Y_AXIS_REVERSED;
        let tests = list::marks(&[held, reversed, !queued.is_empty()]);
        let mut case = Case::new(KIND, tests, given.kind, name);
        let (min, max) = (element.min as u32, element.max as u32);
        case.put(1, &[settings.pressed.to_bits(), settings.released.to_bits(), min, max]);
        case.put(6, &[given.code, given.value as u32, given.time as u32]);
        case.event(OUT, &out);
        queued.iter().for_each(|event| case.event(QUEUED, event));
        list.add(case, arm(&given, name, held, &out));
    }
}

fn arm(given: &Record, name: u8, held: bool, out: &Event) -> String {
    let kind = ["", "press", "release", "move", "connected", "disconnected"][usize::from(given.kind)];
    if given.kind > record::AXIS_MOVED {
        return format!("dispatch {}", kind);
    }
    let sort = if names::is_button_name(name) {
        "button"
    } else if names::is_axis_name(name) {
        "axis"
    } else {
        "unnamed"
    };
    let turned = [34, 37, names::DPAD_Y].contains(&name) && given.kind == record::AXIS_MOVED;
    let y = if turned && gilrs_core::IS_Y_AXIS_REVERSED { ", turned" } else { "" };
    let on = if given.kind == record::AXIS_MOVED && sort == "button" && held { ", held" } else { "" };
    format!("dispatch {} of {}{}{}: {}", kind, sort, y, on, event::WORDS[usize::from(out.kind)].to_lowercase())
}
