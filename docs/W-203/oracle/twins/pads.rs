//! Sheets with a hat, zone pads' and the crate's, their twins, and W-203's zones.

use crate::random::Random;
use reading::names::{DIRECTIONS, DPAD_UP, DPAD_X, DPAD_Y, NO_NAME};
use reading::sheet::{self, Element, Sheet, LARGEST_VALUE, LEAST_VALUE, ZONE_MARK};

const HAT_RANGES: [(i32, i32); 14] = [
    (0, 255),
    (0, 255),
    (0, 255),
    (0, 256),
    (-128, 127),
    (-127, 127),
    (-1, 1),
    (0, 2),
    (0, 1),
    (0, 3),
    (0, 4),
    (-32_768, 32_767),
    (7, 1_030),
    (LEAST_VALUE, LARGEST_VALUE),
];

pub fn is_hat(element: &Element) -> bool {
    element.name == DPAD_X || element.name == DPAD_Y
}

fn button(code: u32, name: u8) -> Element {
    Element { code, kind: sheet::BUTTON, name, min: 0, max: 0, deadzone: 0 }
}

fn axis(code: u32, name: u8, min: i32, max: i32, deadzone: u32) -> Element {
    Element { code, kind: sheet::AXIS, name, min, max, deadzone }
}

/// Two buttons, an unnamed one, sticks and a trigger.
fn others(random: &mut Random) -> Vec<Element> {
    let mut elements = vec![button(0x0001_0130, 1), button(0x0001_0131, 2), button(0x0001_0132, NO_NAME)];
    let deadzone = random.among(&[0, 16, sheet::ABSENT]);
    for (at, name) in [33, 34, 36, 37].iter().enumerate() {
        elements.push(axis(0x0003_0000 + at as u32, *name, 0, 255, deadzone));
    }
    elements.push(axis(0x0003_0009, 10, 0, 255, random.among(&[0, sheet::ABSENT])));
    elements
}

/// A zone pad that converts: none or all of the directions mapped, and listed only where all are.
pub fn zoned(random: &mut Random) -> Sheet {
    let mut elements = others(random);
    for (code, name) in [(0x0003_0010, DPAD_X), (0x0003_0011, DPAD_Y)] {
        let (min, max) = random.among(&HAT_RANGES);
        let deadzone = random.among(&[0, 1, sheet::ABSENT]);
        let pressed = random.chance(8);
        elements.push(if pressed { button(code, name) } else { axis(code, name, min, max, deadzone) });
    }
    let all = random.chance(50);
    if all && random.chance(40) {
        for (at, code) in DIRECTIONS.iter().enumerate() {
            let name = DPAD_UP + at as u8;
            elements.push(button(*code, if random.chance(70) { name } else { NO_NAME }));
        }
    }
    elements.sort_by_key(|element| element.code);
    Sheet { hats: ZONE_MARK | if all { sheet::MAPPED_BITS } else { 0 }, elements }
}

/// A pad that is the crate's.
pub fn plain(random: &mut Random) -> Sheet {
    let mut elements = others(random);
    let (min, max) = random.among(&[(-1, 1), (0, 255)]);
    elements.extend([axis(0x0003_0010, DPAD_X, min, max, 0), axis(0x0003_0011, DPAD_Y, min, max, 0)]);
    Sheet { hats: random.among(&[0, sheet::MAPPED_BITS]), elements }
}

/// The element with a range of three values.
pub fn of_three(element: &Element) -> Element {
    Element { min: -1, max: 1, ..*element }
}

/// "the same sheet without bit 7, the hat's axis elements made -1..1"; a sheet without it is its own twin.
pub fn twin(sheet: &Sheet) -> Sheet {
    if !sheet.is_zoned() {
        return sheet.clone();
    }
    let moves = |element: &Element| is_hat(element) && element.kind == sheet::AXIS;
    let elements = sheet.elements.iter().map(|element| if moves(element) { of_three(element) } else { *element });
    Sheet { hats: sheet.hats & sheet::MAPPED_BITS, elements: elements.collect() }
}

/// The stops, the middle, the quarters of the range with their neighbours, one past the stops, any.
pub fn raw(random: &mut Random, element: &Element) -> i32 {
    let (min, max) = (i64::from(element.min), i64::from(element.max));
    let range = max - min;
    let value = match random.below(12) {
        0 => min,
        1 => max,
        2 | 3 => (min + max) / 2,
        4..=6 => min + range / 4 + random.between(-2, 2),
        7..=9 => min + range * 3 / 4 + random.between(-2, 2),
        10 => random.among(&[min - 1, max + 1]),
        _ => random.between(min, max),
    };
    value.clamp(i64::from(LEAST_VALUE), i64::from(LARGEST_VALUE)) as i32
}

/// The zones of the last values of DPadX and DPadY, as the values that press them: "the middle at first".
#[derive(Clone, Copy, Default)]
pub struct Zones([f32; 2]);

impl Zones {
    /// The zone's value where it is another than the last one.
    pub fn moved(&mut self, name: u8, value: f32) -> Option<f32> {
        let zone = match value {
            value if value >= 0.5 => 1.0,
            value if value <= -0.5 => -1.0,
            _ => 0.0,
        };
        let last = &mut self.0[usize::from(name - DPAD_X)];
        let moved = *last != zone;
        *last = zone;
        moved.then_some(zone)
    }
}
