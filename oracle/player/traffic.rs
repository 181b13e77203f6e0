//! Random records and events for the pads of a scenario: good ones that make the filters work, and damaged ones.

use crate::random::Random;
use reading::event::{self, Event};
use reading::names::{self, DIRECTIONS};
use reading::record::{self, Record};
use reading::sheet::{self, Element, Sheet, LARGEST_VALUE, LEAST_VALUE};
use reading::LAST_TIME;

/// The pads, the clock, and each pad's last raw value, near which jitter happens.
pub struct Traffic {
    pub pads: Vec<Sheet>,
    pub clock: u64,
    last_raw: i32,
}

impl Traffic {
    pub fn new(random: &mut Random) -> Self {
        let clock = match random.below(10) {
            0 => LAST_TIME - random.below(5_000_000),
            1 => random.below(LAST_TIME),
            _ => random.below(2_000_000),
        };
        Traffic { pads: Vec::new(), clock, last_raw: 0 }
    }

    /// Mostly a little later than before, at times the same moment, rarely an end of the range or earlier.
    pub fn time(&mut self, random: &mut Random) -> u64 {
        let later = random.among(&[0, 1, 8_000, 16_000, 30_000, 500_000]);
        self.clock = (self.clock + later).min(LAST_TIME);
        match random.below(60) {
            0 => 0,
            1 => LAST_TIME,
            2 => self.clock / 2,
            _ => self.clock,
        }
    }

    pub fn pad(&self, random: &mut Random) -> u8 {
        random.below(self.pads.len().max(1) as u64) as u8
    }

    /// An element, for the most part one that filters care about: an axis, or a button named as one.
    fn element(&self, random: &mut Random, pad: u8) -> Option<Element> {
        let elements = &self.pads.get(usize::from(pad))?.elements;
        let busy: Vec<Element> = elements
            .iter()
            .filter(|element| element.kind == sheet::AXIS || names::is_axis_name(element.name))
            .copied()
            .collect();
        let choices = if random.chance(60) && !busy.is_empty() { &busy } else { elements };
        if choices.is_empty() {
            None
        } else {
            Some(random.among(choices))
        }
    }

    pub fn record(&mut self, random: &mut Random) -> Record {
        let pad = self.pad(random);
        let time = self.time(random);
        let link = random.among(&[record::CONNECTED, record::DISCONNECTED]);
        match self.element(random, pad) {
            Some(element) if random.chance(96) => {
                let moves = element.kind == sheet::AXIS;
                let button = random.among(&[record::PRESSED, record::PRESSED, record::RELEASED]);
                Record {
                    kind: if moves { record::AXIS_MOVED } else { button },
                    pad,
                    code: element.code,
                    value: if moves { self.raw(random, &element) } else { 0 },
                    time,
                }
            }
            _ => Record { kind: link, pad, code: 0, value: 0, time },
        }
    }

    /// Every limit of the element and of 01, one past min and max, the middle, the deadzone's edge, jitter's distance.
    fn raw(&mut self, random: &mut Random, element: &Element) -> i32 {
        let (min, max) = (element.min, element.max);
        let middle = ((i64::from(min) + i64::from(max)) / 2) as i32;
        let edge = if element.deadzone == sheet::ABSENT { (max - min) / 20 } else { element.deadzone as i32 };
        let near = (max - min) / 256 + 1;
        let value = match random.below(16) {
            0 | 1 => min,
            2 | 3 => max,
            4 => min - 1,
            5 => max + 1,
            6 | 7 => middle,
            8 => middle + random.among(&[-1, 1]),
            9 => middle.saturating_add(edge * random.among(&[-1, 1])),
            10 => middle.saturating_add(edge * random.among(&[-1, 1])).saturating_add(random.among(&[-1, 1])),
            11 => random.among(&[LEAST_VALUE, LARGEST_VALUE, 0]),
            12 | 13 => self.last_raw + random.between(-i64::from(near), i64::from(near)) as i32,
            _ => random.between(i64::from(min), i64::from(max)) as i32,
        };
        self.last_raw = value.max(LEAST_VALUE).min(LARGEST_VALUE);
        self.last_raw
    }

    /// Record bytes, of which one in eighty breaks a rule.
    pub fn record_bytes(&mut self, random: &mut Random) -> Vec<u8> {
        let good = self.record(random);
        if random.below(80) == 0 {
            damaged_record(random, good, self.pads.len() as u8)
        } else {
            good.to_bytes()
        }
    }

    /// An event for insert or `update`: mostly an element's own name and code, else any name of the sort.
    pub fn event(&mut self, random: &mut Random) -> Event {
        let pad = self.pad(random);
        let time = self.time(random);
        let kind = random.among(&[1, 2, 3, 4, 4, 5, 5, 5, 5, 6, 7, 8]);
        if kind > event::AXIS {
            return Event { kind, pad, name: names::NO_NAME, code: 0, bits: 0, time };
        }
        let element = self.element(random, pad);
        let code = match element {
            Some(element) if random.chance(80) => element.code,
            _ => random.among(&DIRECTIONS),
        };
        let own = element.map_or(names::NO_NAME, |element| element.name);
        let of_axis = kind == event::AXIS;
        let fits = if of_axis { names::is_axis_name(own) } else { names::is_button_name(own) };
        let name = if fits && random.chance(60) {
            own
        } else if of_axis {
            random.among(&[32, 33, 34, 35, 36, 37, 38, 39, 39, 40, 40])
        } else {
            random.between(0, 19) as u8
        };
        let bits = if kind >= event::CHANGED { value_bits(random) } else { 0 };
        Event { kind, pad, name, code, bits, time }
    }

    /// Event bytes, of which one in ten breaks a rule.
    pub fn event_bytes(&mut self, random: &mut Random) -> Vec<u8> {
        let good = self.event(random);
        if random.chance(10) {
            damaged_event(random, good, self.pads.len() as u8)
        } else {
            good.to_bytes()
        }
    }

    /// Events that bring one axis of a pair just out of its deadzone and then, several times over, the other so far
    /// back that the first must be cleared: what clears it waits behind the later ones. Empty if the pad has no pair.
    pub fn clearing(&mut self, random: &mut Random) -> Vec<Event> {
        let pad = self.pad(random);
        let (first, second) = random.among(&[(33, 34), (34, 33), (36, 37), (37, 36), (39, 40), (40, 39)]);
        let pair = self.pads.get(usize::from(pad)).map(|sheet| (sheet.named(first), sheet.named(second)));
        let (first, second) = match pair {
            Some((Some(first), Some(second))) if first.kind == sheet::AXIS => (*first, *second),
            _ => return Vec::new(),
        };
        let threshold = match first.deadzone {
            sheet::ABSENT => 0.1,
            deadzone => deadzone as f32 / (first.max - first.min) as f32 * 2.0,
        };
        let out = (threshold * random.among(&[1.01, 1.1, 1.3]) + 0.001).min(1.0);
        let mut events = Vec::new();
        for (element, value) in [(first, out), (second, 0.0), (second, 0.3 * out), (second, 0.0), (first, out)] {
            let bits = value.to_bits() | random.below(2) as u32 * 0x8000_0000;
            let time = self.time(random);
            events.push(Event { kind: event::AXIS, pad, name: element.name, code: element.code, bits, time });
        }
        events
    }

    /// A code to ask about: listed, a direction, one of `to_nec`, any.
    pub fn asked_code(&self, random: &mut Random, pad: u8) -> u32 {
        let listed = self.element(random, pad).map(|element| element.code);
        match random.below(6) {
            0 => random.among(&DIRECTIONS),
            1 => random.among(&crate::pads::USUAL_CODES),
            2 if random.chance(30) => random.next() as u32,
            _ => listed.unwrap_or(DIRECTIONS[0]),
        }
    }
}

/// A float in -1..1: the ends, both zeros, jitter's and the deadzone's neighbourhood, the smallest ones, any.
fn value_bits(random: &mut Random) -> u32 {
    let sign = random.below(2) as u32 * 0x8000_0000;
    sign | match random.below(9) {
        0 | 1 => 0x3f80_0000,
        2 | 3 => 0,
        4 => random.among(&[0x3c23_d70a, 0x3dcc_cccd, 0x3f00_0000, 0x3f40_0000, 0x3f7f_ffff]),
        5 => random.among(&[1, 2, 0x007f_ffff, 0x0080_0000, 0x1a00_0000]),
        6 => 0x3c00_0000 + random.below(0x0040_0000) as u32,
        _ => random.below(0x3f80_0001) as u32,
    }
}

fn damaged_record(random: &mut Random, good: Record, pads: u8) -> Vec<u8> {
    let mut bad = good;
    match random.below(10) {
        0 => bad.pad = random.among(&[pads, 4, 255]),
        1 => bad.code = good.code.wrapping_add(random.among(&[1, 0x0001_0000])),
        2 => bad.kind = random.among(&[0, 1, 2, 3, 4, 5, 6, 255]),
        // of the other sort of element
        6 if good.kind == record::AXIS_MOVED => bad = Record { kind: record::PRESSED, value: 0, ..good },
        6 if good.code != 0 => bad.kind = record::AXIS_MOVED,
        3 => bad.value = random.among(&[LARGEST_VALUE + 1, LEAST_VALUE - 1, i32::MIN, i32::MAX, 1]),
        4 => bad.time = random.among(&[LAST_TIME + 1, u64::MAX]),
        5 => bad.code = random.among(&DIRECTIONS),
        _ => return damaged_bytes(random, good.to_bytes()),
    }
    bad.to_bytes()
}

fn damaged_event(random: &mut Random, good: Event, pads: u8) -> Vec<u8> {
    let mut bad = good;
    match random.below(10) {
        0 => bad.pad = random.among(&[pads, 4, 255]),
        1 => bad.code = good.code.wrapping_add(random.among(&[1, 0x0001_0000])),
        2 => bad.kind = random.among(&[0, 1, 2, 3, 4, 5, 6, 7, 8, 9, 255]),
        3 => bad.bits = random.among(&[0x3f80_0001, 0xbf80_0001, 0x7f80_0000, 0xff80_0000, 0x7fc0_0000, 0x7f80_0001]),
        4 => bad.bits = random.among(&[0x8000_0000, 0x3f00_0000]),
        5 => bad.time = random.among(&[LAST_TIME + 1, u64::MAX]),
        6 => bad.name = random.among(&[0, 20, 31, 32, 33, 41, 254, 255]),
        _ => return damaged_bytes(random, good.to_bytes()),
    }
    bad.to_bytes()
}

/// One byte changed, or the size.
fn damaged_bytes(random: &mut Random, mut bytes: Vec<u8>) -> Vec<u8> {
    match random.below(4) {
        0 => {
            bytes.pop();
        }
        1 => bytes.push(0),
        _ => {
            let at = random.below(bytes.len() as u64) as usize;
            bytes[at] = bytes[at].wrapping_add(random.among(&[1, 255, 128]));
        }
    }
    bytes
}
