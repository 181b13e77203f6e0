//! The stream: four pads as the shops have them, and records of their buttons, triggers, sticks and hats, each as a
//! device sends it: a press after a release, a hat's value that differs from its last one, a stick that wanders.

use crate::random::Random;
use reading::bytes::put;
use reading::names::{self, DIRECTIONS};
use reading::record::{self, Record};
use reading::scenario::{self, FILTERS_ON, UPDATES_ON};
use reading::sheet::{self, Element, Sheet};
use reading::LONGEST_BUFFER;

/// So many records give fewer events than an out buffer holds, and a course fits into the hub's buffer.
const BATCHES: usize = 128;
pub const RECORDS: usize = 372;
pub const ALLOWANCE: u64 = 65_535;

const HAT_X: u32 = 0x0003_0010;
const FIRST_STICK: u32 = 0x0003_0000;
const LEFT_TRIGGER: u32 = 0x0003_0002;
const RIGHT_TRIGGER: u32 = 0x0003_0005;

/// Shares of a hundred records; the rest are the sticks'.
const BUTTONS: u64 = 35;
const TRIGGERS: u64 = 15;
const HATS: u64 = 25;

/// Codes and names of the buttons but the directions and the second triggers, codes rising.
pub const BUTTON_CODES: [(u32, u8); 11] = [
    (0x0001_0130, 1),
    (0x0001_0131, 2),
    (0x0001_0133, 3),
    (0x0001_0134, 4),
    (0x0001_0136, 7),
    (0x0001_0137, 9),
    (0x0001_013a, 11),
    (0x0001_013b, 12),
    (0x0001_013c, 13),
    (0x0001_013d, 14),
    (0x0001_013e, 15),
];

/// Codes and names of the sticks' axes.
const STICK_CODES: [(u32, u8); 4] =
    [(FIRST_STICK, 33), (FIRST_STICK + 1, 34), (FIRST_STICK + 3, 36), (FIRST_STICK + 4, 37)];

fn button(code: u32, name: u8) -> Element {
    Element { code, kind: sheet::BUTTON, name, min: 0, max: 0, deadzone: 0 }
}

fn axis(code: u32, name: u8, min: i32, max: i32, deadzone: u32) -> Element {
    Element { code, kind: sheet::AXIS, name, min, max, deadzone }
}

/// A pad with its hat; one with `directions` has buttons for them too, and so does not convert.
pub fn pad(directions: bool, min: i32, max: i32, deadzone: u32) -> Sheet {
    let mut elements: Vec<Element> = BUTTON_CODES.iter().map(|(code, name)| button(*code, *name)).collect();
    if directions {
        elements.extend(DIRECTIONS.iter().zip(16..).map(|(code, name)| button(*code, name)));
    }
    elements.extend(STICK_CODES.iter().map(|(code, name)| axis(*code, *name, min, max, deadzone)));
    elements.push(axis(LEFT_TRIGGER, 8, 0, 255, 0));
    elements.push(axis(RIGHT_TRIGGER, 10, 0, 255, 0));
    elements.push(axis(HAT_X, names::DPAD_X, -1, 1, 0));
    elements.push(axis(HAT_X + 1, names::DPAD_Y, -1, 1, 0));
    elements.sort_by_key(|element| element.code);
    Sheet { hats: 0, elements }
}

/// Two pads that convert and two that do not, with the sticks of two makers.
pub fn pads() -> Vec<Sheet> {
    vec![
        pad(false, -32_768, 32_767, 128),
        pad(true, -32_768, 32_767, 128),
        pad(false, 0, 255, 15),
        pad(true, 0, 255, 15),
    ]
}

/// A hub with padlog's thresholds, and its pads.
pub fn opening(flags: u8, pads: &[Sheet]) -> Vec<u8> {
    let mut payload = Vec::new();
    put(&mut payload, u64::from(0.75_f32.to_bits()), 4);
    put(&mut payload, u64::from(0.5_f32.to_bits()), 4);
    payload.push(flags);
    let mut bytes = scenario::write(scenario::NEW, &payload);
    pads.iter().for_each(|sheet| bytes.extend(scenario::write(scenario::REGISTER, &sheet.to_bytes())));
    bytes
}

pub fn pump(allowance: u64, batch: &[u8]) -> Vec<u8> {
    let mut payload = Vec::new();
    put(&mut payload, 0, 4);
    put(&mut payload, LONGEST_BUFFER as u64, 4);
    put(&mut payload, allowance, 2);
    payload.extend_from_slice(batch);
    scenario::write(scenario::PUMP, &payload)
}

/// A call that takes all that its records give.
pub fn pump_all(records: &[Record]) -> Vec<u8> {
    let batch: Vec<u8> = records.iter().flat_map(Record::to_bytes).collect();
    pump(ALLOWANCE, &batch)
}

/// The opening behind its length, and what each round plays.
pub fn joined(opening: &[u8], round: &[u8]) -> Vec<u8> {
    let mut bytes = Vec::new();
    put(&mut bytes, opening.len() as u64, 4);
    bytes.extend_from_slice(opening);
    bytes.extend_from_slice(round);
    bytes
}

/// The opening and a round on four pads that filter and update.
pub fn played(round: &[u8]) -> Vec<u8> {
    joined(&opening(FILTERS_ON | UPDATES_ON, &pads()), round)
}

/// The first records of the stream.
pub fn records(random: &mut Random, count: usize) -> Vec<Record> {
    let mut desk = Desk::new(pads());
    (0..count).map(|_| desk.record(random)).collect()
}

pub fn course(seed: u64) -> Vec<u8> {
    let records = records(&mut Random::new(seed), BATCHES * RECORDS);
    let round: Vec<u8> = records.chunks(RECORDS).flat_map(pump_all).collect();
    played(&round)
}

/// The pads, each element's last value (of a button 1 while it is held), and the clock.
struct Desk {
    pads: Vec<Sheet>,
    last: Vec<Vec<i32>>,
    clock: u64,
}

impl Desk {
    fn new(pads: Vec<Sheet>) -> Desk {
        let last = pads.iter().map(|sheet| sheet.elements.iter().map(middle).collect()).collect();
        Desk { pads, last, clock: 0 }
    }

    fn record(&mut self, random: &mut Random) -> Record {
        self.clock += random.between(500, 4_000) as u64;
        let pad = random.below(self.pads.len() as u64) as usize;
        let share = random.below(100);
        let wanted: fn(&Element) -> bool = match share {
            _ if share < BUTTONS => |element| element.kind == sheet::BUTTON,
            _ if share < BUTTONS + TRIGGERS => is_trigger,
            _ if share < BUTTONS + TRIGGERS + HATS => is_hat,
            _ => |element| element.kind == sheet::AXIS && !is_trigger(element) && !is_hat(element),
        };
        let elements = &self.pads[pad].elements;
        let choices: Vec<usize> = (0..elements.len()).filter(|at| wanted(&elements[*at])).collect();
        let at = random.among(&choices);
        let element = elements[at];
        let value = next_value(random, &element, self.last[pad][at]);
        self.last[pad][at] = value;
        let (kind, value) = match (element.kind, value) {
            (sheet::AXIS, value) => (record::AXIS_MOVED, value),
            (_, 0) => (record::RELEASED, 0),
            _ => (record::PRESSED, 0),
        };
        Record { kind, pad: pad as u8, code: element.code, value, time: self.clock }
    }
}

fn middle(element: &Element) -> i32 {
    if is_trigger(element) {
        element.min
    } else {
        (element.min + element.max) / 2
    }
}

fn is_trigger(element: &Element) -> bool {
    element.kind == sheet::AXIS && names::is_button_name(element.name)
}

fn is_hat(element: &Element) -> bool {
    element.name == names::DPAD_X || element.name == names::DPAD_Y
}

/// A button's other state, a hat's other values, and for sticks and triggers a move of up to a quarter of the range, at
/// times one that is jitter, at times home again.
fn next_value(random: &mut Random, element: &Element, last: i32) -> i32 {
    if element.kind == sheet::BUTTON {
        return 1 - last;
    }
    if is_hat(element) {
        return (last + 1 + random.between(1, 2) as i32) % 3 - 1;
    }
    let range = i64::from(element.max - element.min);
    let reach = match random.below(10) {
        0 => return middle(element),
        1 => range / 400 + 1,
        _ => range / 4,
    };
    let moved = i64::from(last) + random.between(-reach, reach);
    moved.max(i64::from(element.min)).min(i64::from(element.max)) as i32
}
