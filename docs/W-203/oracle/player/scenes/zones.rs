//! What W-203 asks for: behind some scenarios one of zone pads, with a hub of its own and drawn by a stream of its own.
//! Its pads have a hat of any range, some convert and some do not, and some are the crate's. Its calls are those of every
//! scenario, and besides them hats that move at the ends of their zones and stay in one, hat events of the caller's,
//! directions held past the hat, and sheets that are refused for their hats byte.

use super::Scene;
use crate::pads;
use crate::random::Random;
use crate::traffic::Traffic;
use reading::bytes::put;
use reading::event::{self, Event};
use reading::names::{self, DIRECTIONS, SOUTH};
use reading::record::{self, Record};
use reading::scenario;
use reading::sheet::{Element, Sheet, ABSENT, AXIS, BUTTON, LARGEST_VALUE, LEAST_VALUE, MOST_ELEMENTS, ZONE_MARK};
use reading::LONGEST_BUFFER;

const HATS: [(u32, u8); 2] = [(0x0003_0010, names::DPAD_X), (0x0003_0011, names::DPAD_Y)];

/// Older pads', with their likes, the crate's own, and those that 01 lets stand besides.
const RANGES: [(i32, i32); 12] = [
    (0, 255),
    (0, 255),
    (0, 255),
    (-128, 127),
    (-1, 1),
    (0, 2),
    (0, 256),
    (0, 1),
    (0, 3),
    (-32_768, 32_767),
    (-100, 100),
    (LEAST_VALUE, LARGEST_VALUE),
];

/// Event values, either sign: the ends of the zones with their neighbours, and what the zones hold.
const VALUES: [f32; 9] = [0.5, 0.5, 0.499_999_97, 0.500_000_06, 1.0, 0.0, 0.992_187_5, 0.25, 0.75];

pub(super) fn scene(random: &mut Random) -> Vec<u8> {
    let aside = random.beside();
    let traffic = Traffic::new(random);
    let prepared = preparation(random);
    let mut scene = Scene::new(random, aside, traffic, prepared);
    scene.open();
    // without a hub every answer is the same
    let most = if scene.desk.is_some() { 16 } else { 3 };
    for _ in 0..scene.random.between(3, most) {
        scene.call_of_zones();
    }
    scene.pump_rest();
    scene.dump();
    scene.open_archive();
    scene.bytes
}

/// Sheets and rename lists. Half of the lists leave the names as they are but for one.
fn preparation(random: &mut Random) -> (Vec<Vec<u8>>, Vec<Vec<u8>>) {
    let count = random.among(&[1, 1, 1, 2, 2, 3]);
    let good: Vec<Sheet> = (0..count).map(|_| sheet(random)).collect();
    let mut renames = Vec::new();
    for _ in 0..random.below(5) {
        let pad = random.below(good.len() as u64) as usize;
        let mut list = pads::rename_list(random, &good[pad]);
        if random.chance(50) {
            list = good[pad].names();
            list.iter_mut().take(1).for_each(|name| *name = names::NO_NAME);
        }
        renames.push([vec![pad as u8], list].concat());
    }
    (good.iter().map(Sheet::to_bytes).collect(), renames)
}

/// Any pad with a hat. Of the hats bytes one in six is not a zone pad's, one in ten has partial hats beside the mark.
fn sheet(random: &mut Random) -> Sheet {
    let mut sheet = pads::sheet(random);
    sheet.elements.retain(|element| HATS.iter().all(|hat| element.code != hat.0 && element.name != hat.1));
    sheet.elements.truncate(MOST_ELEMENTS - HATS.len());
    for (code, name) in HATS {
        if random.chance(90) {
            sheet.elements.push(hat(random, code, name));
        }
    }
    sheet.elements.sort_by_key(|element| element.code);
    sheet.hats = match random.below(30) {
        0..=4 => random.among(&[0, 15]),
        5..=7 => ZONE_MARK | random.between(1, 14) as u8,
        8..=18 => ZONE_MARK | 15,
        _ => ZONE_MARK,
    };
    sheet
}

/// An axis of the hat; one in eight is a button with an axis's name.
fn hat(random: &mut Random, code: u32, name: u8) -> Element {
    let (min, max) = random.among(&RANGES);
    let deadzone = random.among(&[0, ABSENT, (max - min) as u32 / 8]);
    if random.chance(12) {
        Element { code, kind: BUTTON, name, min: 0, max: 0, deadzone: 0 }
    } else {
        Element { code, kind: AXIS, name, min, max, deadzone }
    }
}

/// The stops, the middle, the raw values at -0.5 and 0.5 with their neighbours, any.
fn raw(random: &mut Random, element: &Element) -> i32 {
    let (min, max) = (i64::from(element.min), i64::from(element.max));
    let odd = (max - min) % 2;
    let range = max - min + odd;
    let value = match random.below(10) {
        0 => min,
        1 => max,
        2 => (min + max) / 2,
        3..=5 => min + range / 4 - odd + random.between(-1, 1),
        6..=8 => min + range * 3 / 4 - odd + random.between(-1, 1),
        _ => random.between(min, max),
    };
    value.clamp(i64::from(LEAST_VALUE), i64::from(LARGEST_VALUE)) as i32
}

/// A sheet that is refused: for bits 4 to 6, for partial hats beside the mark, or, these in order, for a name twice.
fn refused_sheet(random: &mut Random) -> Sheet {
    let mut sheet = sheet(random);
    sheet.elements.truncate(4);
    let fault = random.below(4);
    sheet.hats = match fault {
        0 => random.below(256) as u8 | random.among(&[16, 32, 64]),
        1 | 2 => ZONE_MARK | random.between(1, 14) as u8,
        _ => ZONE_MARK | random.among(&[0, 15]),
    };
    if fault > 1 {
        sheet.elements.iter_mut().take(2).for_each(|element| element.name = SOUTH);
    }
    sheet
}

impl Scene<'_> {
    fn call_of_zones(&mut self) {
        match self.random.below(20) {
            0..=7 => self.turn_hats(),
            8..=10 => self.give_hats(),
            11 | 12 => self.hold_direction(),
            13 => self.rename(),
            14 => self.refuse_hats(),
            _ => self.call(),
        }
    }

    /// The hats of a pad.
    fn hats_of(&self, pad: u8) -> Vec<Element> {
        let sheet = self.traffic.pads.get(usize::from(pad));
        HATS.iter().filter_map(|hat| sheet.and_then(|sheet| sheet.named(hat.1))).copied().collect()
    }

    /// Hats move, at times by nothing, and rarely the pad joins or leaves; pumped at once or in two parts.
    fn turn_hats(&mut self) {
        let pad = self.traffic.pad(self.random);
        let hats = self.hats_of(pad);
        self.batch.clear();
        self.place = 0;
        let mut last: Option<Record> = None;
        for _ in 0..self.random.between(1, 7) {
            let time = self.traffic.time(self.random);
            let record = match last {
                Some(last) if self.random.chance(30) => Record { time, ..last },
                _ => self.hat_record(pad, &hats, time),
            };
            self.batch.extend(record.to_bytes());
            last = Some(record);
        }
        let allowance = self.random.among(&[65_535, 65_535, 1, 2, 3]);
        self.pump_with(LONGEST_BUFFER, allowance);
        self.ask_directions(pad);
        if allowance < 65_535 {
            self.pump_with(LONGEST_BUFFER, 65_535);
            self.ask_directions(pad);
        }
    }

    fn hat_record(&mut self, pad: u8, hats: &[Element], time: u64) -> Record {
        let link = self.random.among(&[record::CONNECTED, record::CONNECTED, record::DISCONNECTED]);
        if hats.is_empty() || self.random.chance(8) {
            return Record { kind: link, pad, code: 0, value: 0, time };
        }
        let hat = self.random.among(hats);
        let button = self.random.among(&[record::PRESSED, record::RELEASED]);
        if hat.kind == BUTTON {
            return Record { kind: button, pad, code: hat.code, value: 0, time };
        }
        Record { kind: record::AXIS_MOVED, pad, code: hat.code, value: raw(self.random, &hat), time }
    }

    /// Hat events of the caller's, of the hat's own code or of any that an event may have, and what they pump. Given to the
    /// state they move no zone.
    fn give_hats(&mut self) {
        let pad = self.traffic.pad(self.random);
        let hats = self.hats_of(pad);
        for _ in 0..self.random.between(1, 5) {
            let name = self.random.among(&[names::DPAD_X, names::DPAD_Y]);
            let own = hats.iter().find(|hat| hat.name == name).map(|hat| hat.code);
            let code = own.filter(|_| self.random.chance(80)).unwrap_or(self.random.among(&DIRECTIONS));
            let bits = self.random.among(&VALUES).to_bits() | self.random.below(2) as u32 * 0x8000_0000;
            let time = self.traffic.time(self.random);
            let event = Event { kind: event::AXIS, pad, name, code, bits, time };
            let opcode = self.random.among(&[scenario::INSERT, scenario::INSERT, scenario::UPDATE]);
            self.play(opcode, &event.to_bytes());
        }
        self.batch.clear();
        self.place = 0;
        let allowance = self.random.among(&[65_535, 65_535, 1, 4]);
        self.pump_with(LONGEST_BUFFER, allowance);
        self.ask_directions(pad);
    }

    /// A direction's record moved by the caller, which moves no zone.
    fn hold_direction(&mut self) {
        let pad = self.traffic.pad(self.random);
        let at = self.random.below(DIRECTIONS.len() as u64) as usize;
        let (name, code) = (names::DPAD_UP + at as u8, DIRECTIONS[at]);
        let kind = self.random.among(&[event::PRESSED, event::PRESSED, event::RELEASED]);
        let time = self.traffic.time(self.random);
        let event = Event { kind, pad, name, code, bits: 0, time }.to_bytes();
        self.play(scenario::UPDATE, &event);
        self.ask_of_event(&event);
    }

    /// A sheet that its call refuses: the archived call takes partial hats where nothing else is wrong.
    fn refuse_hats(&mut self) {
        let sheet = refused_sheet(self.random).to_bytes();
        let opcode = self.random.among(&[scenario::REGISTER, scenario::REGISTER_ARCHIVED]);
        let taken = Sheet::read_archived(&sheet).is_ok();
        if !taken || Sheet::read(&sheet).is_err() {
            self.play(if taken { scenario::REGISTER } else { opcode }, &sheet);
        }
    }

    fn ask_directions(&mut self, pad: u8) {
        if self.random.chance(60) {
            for (at, code) in DIRECTIONS.iter().enumerate() {
                self.play(scenario::PRESSED_BY_NAME, &[pad, names::DPAD_UP + at as u8]);
                let mut payload = vec![pad];
                put(&mut payload, u64::from(*code), 4);
                self.play(scenario::VALUE_BY_CODE, &payload);
            }
        }
        if self.random.chance(20) {
            self.dump();
        }
    }
}
