//! Pads that reach every arm, a hub over one of them, and values.

use crate::hub::Hub;
use crate::plan::Plan;
use crate::random::Random;
use reading::event::{self, Event};
use reading::names::{self, DIRECTIONS};
use reading::scenario::Settings;
use reading::sheet::{self, Element, Sheet};

/// Codes with the name that a usual pad gives them: sticks, triggers, a hat, an unnamed axis, buttons, one of them unnamed, one named as an axis,
/// and two directions.
const USUAL: [(u32, u8, u8); 16] = [
    (0x0001_0130, sheet::BUTTON, 1),
    (0x0001_0131, sheet::BUTTON, names::NO_NAME),
    (0x0001_0133, sheet::BUTTON, 38),
    (0x0001_0136, sheet::BUTTON, 7),
    (0x0001_0222, sheet::BUTTON, names::NO_NAME),
    (0x0001_0223, sheet::BUTTON, 19),
    (0x0003_0000, sheet::AXIS, 33),
    (0x0003_0001, sheet::AXIS, 34),
    (0x0003_0002, sheet::AXIS, 8),
    (0x0003_0003, sheet::AXIS, 36),
    (0x0003_0004, sheet::AXIS, 37),
    (0x0003_0005, sheet::AXIS, 10),
    (0x0003_0006, sheet::AXIS, 35),
    (0x0003_0010, sheet::AXIS, names::DPAD_X),
    (0x0003_0011, sheet::AXIS, names::DPAD_Y),
    (0x0003_0012, sheet::AXIS, names::NO_NAME),
];

const RANGES: [(i32, i32); 6] = [(0, 255), (-32_768, 32_767), (-1, 1), (0, 4), (-100, 100), (-8_388_608, 8_388_607)];

fn named(random: &mut Random, usual: u8, taken: &[u8]) -> u8 {
    let name = match random.below(10) {
        0 => random.between(1, 19) as u8,
        1 => random.between(33, 40) as u8,
        2 => names::NO_NAME,
        _ => usual,
    };
    if taken.contains(&name) {
        names::NO_NAME
    } else {
        name
    }
}

/// Three in four convert, so far as the two listed directions let them.
pub fn sheet(random: &mut Random) -> Sheet {
    let mut elements: Vec<Element> = Vec::new();
    for (code, kind, usual) in USUAL {
        let direction = DIRECTIONS.contains(&code);
        if random.chance(if direction { 80 } else { 15 }) {
            continue;
        }
        let taken: Vec<u8> = elements.iter().map(|element| element.name).collect();
        let name = named(random, usual, &taken);
        let (min, max) = random.among(&RANGES);
        let deadzone = match random.below(4) {
            0 => sheet::ABSENT,
            1 => 0,
            2 => (max - min) as u32 / 8,
            _ => (max - min) as u32 / 4,
        };
        let of_button = Element { code, kind, name, min: 0, max: 0, deadzone: 0 };
        elements.push(if kind == sheet::AXIS { Element { min, max, deadzone, ..of_button } } else { of_button });
    }
    Sheet { hats: random.among(&[0, 0, 0, 15, 5]), elements }
}

/// A hub whose own loop neither filters nor updates, with one pad.
pub fn hub(random: &mut Random, sheet: Sheet) -> (Hub, Settings) {
    let (pressed, released) = random.among(&[(0.75, 0.5), (0.75, 0.65), (1.0, 0.0)]);
    let settings = Settings { pressed, released, flags: 0 };
    let mut plan = Plan::default();
    plan.pads.push(sheet);
    (Hub::open(&settings, &plan, false, false), settings)
}

/// A value in -1..1: the ends, both zeros, small ones, any.
pub fn value(random: &mut Random) -> f32 {
    let sign = if random.chance(50) { 1.0 } else { -1.0 };
    sign * match random.below(8) {
        0 | 1 => 1.0,
        2 | 3 => 0.0,
        4 => random.below(30) as f32 / 1_000.0,
        5 => random.below(200) as f32 / 1_000.0,
        _ => random.below(1_000_001) as f32 / 1_000_000.0,
    }
}

/// A code of the pad, or a direction's.
pub fn code(random: &mut Random, sheet: &Sheet) -> u32 {
    if random.chance(15) {
        return random.among(&DIRECTIONS);
    }
    random.among(&sheet.elements).code
}

/// An event of a kind: mostly with the code's own name, where that is of the sort.
pub fn event(random: &mut Random, sheet: &Sheet, kind: u8) -> Event {
    let time = random.below(1_000_000_000);
    if kind > event::AXIS {
        return Event { kind, pad: 0, name: names::NO_NAME, code: 0, bits: 0, time };
    }
    let code = code(random, sheet);
    let own = sheet.element(code).map_or(names::NO_NAME, |element| element.name);
    let of_axis = kind == event::AXIS;
    let fits = if of_axis { names::is_axis_name(own) } else { names::is_button_name(own) };
    let name = match (fits && random.chance(85), of_axis) {
        (true, _) => own,
        (false, true) => random.between(32, 40) as u8,
        (false, false) => random.between(0, 19) as u8,
    };
    let bits = if kind >= event::CHANGED { value(random).to_bits() } else { 0 };
    Event { kind, pad: 0, name, code, bits, time }
}

/// The code's records as a few events leave them.
pub fn disturb(random: &mut Random, hub: &mut Hub, sheet: &Sheet, code: u32) {
    for _ in 0..random.below(4) {
        let kind = random.among(&[event::PRESSED, event::RELEASED, event::REPEATED, event::CHANGED, event::AXIS]);
        for _ in 0..random.below(3) {
            hub.gilrs.inc();
        }
        let given = Event { code, ..event(random, sheet, kind) };
        hub.update(&given);
    }
}
