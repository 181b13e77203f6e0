//! Writes random scenarios of zone pads that convert, and beside each its twin for plain gilrs, by W-203's words and knowing nothing of how the player
//! plays them: `twins SEED COUNT ZONES-FILE TWIN-FILE`. In the twin the sheets have no bit 7 and the hat's axis elements are of -1..1; a hat value is its
//! zone's -1, 0 or 1, and one in the zone of the last is left out. Pads that are the crate's stand among them, and are the same in both. What was drawn
//! goes to standard output.

mod pads;
#[allow(dead_code)]
#[path = "../player/random.rs"]
mod random;
mod scaling;

use pads::Zones;
use random::Random;
use reading::bytes::put;
use reading::names::{DIRECTIONS, DPAD_UP};
use reading::record::{self, Record};
use reading::scenario::{self, FILTERS_ON, UPDATES_ON, Y_REVERSED};
use reading::sheet::{self, Element, Sheet};
use reading::LONGEST_BUFFER;

/// The two streams, and how many hat values were drawn and how many of them left out.
#[derive(Default)]
struct Twins {
    zones: Vec<u8>,
    twin: Vec<u8>,
    values: u64,
    left_out: u64,
}

impl Twins {
    /// An operation that is the same in both.
    fn both(&mut self, opcode: u8, payload: &[u8]) {
        self.zones.extend(scenario::write(opcode, payload));
        self.twin.extend(scenario::write(opcode, payload));
    }

    fn by_code(&mut self, opcode: u8, pad: u8, code: u32) {
        let mut payload = vec![pad];
        put(&mut payload, u64::from(code), 4);
        self.both(opcode, &payload);
    }
}

/// One scenario while it is drawn: its pads with the zones that W-203 keeps.
struct Scene<'a> {
    random: &'a mut Random,
    twins: &'a mut Twins,
    reversed: bool,
    pads: Vec<(Sheet, Zones)>,
    clock: u64,
}

impl Scene<'_> {
    fn play(&mut self) {
        let updates = if self.random.chance(85) { UPDATES_ON } else { 0 };
        let mut payload = Vec::new();
        put(&mut payload, u64::from(0.75_f32.to_bits()), 4);
        put(&mut payload, u64::from(0.5_f32.to_bits()), 4);
        payload.push(FILTERS_ON | updates | if self.reversed { Y_REVERSED } else { 0 });
        self.twins.both(scenario::NEW, &payload);
        for _ in 0..self.random.between(1, 4) {
            let sheet = if self.random.chance(80) { pads::zoned(self.random) } else { pads::plain(self.random) };
            self.twins.zones.extend(scenario::write(scenario::REGISTER, &sheet.to_bytes()));
            self.twins.twin.extend(scenario::write(scenario::REGISTER, &pads::twin(&sheet).to_bytes()));
            self.pads.push((sheet, Zones::default()));
        }
        for _ in 0..self.random.between(3, 12) {
            self.pump();
            self.ask();
        }
        self.twins.both(scenario::DUMP, &[]);
    }

    fn pump(&mut self) {
        let mut head = Vec::new();
        put(&mut head, 0, 4);
        put(&mut head, LONGEST_BUFFER as u64, 4);
        put(&mut head, 65_535, 2);
        let (mut zones, mut twin) = (head.clone(), head);
        for _ in 0..self.random.between(1, 12) {
            let record = self.record();
            zones.extend(record.to_bytes());
            self.twin_of(&record).iter().for_each(|record| twin.extend(record.to_bytes()));
        }
        self.twins.zones.extend(scenario::write(scenario::PUMP, &zones));
        self.twins.twin.extend(scenario::write(scenario::PUMP, &twin));
    }

    /// A record of any element, a hat's for the most part; rarely the pad joins or leaves.
    fn record(&mut self) -> Record {
        self.clock += self.random.among(&[0, 1, 8_000, 16_000, 600_000]);
        let time = self.clock;
        let pad = self.random.below(self.pads.len() as u64) as u8;
        let elements = &self.pads[usize::from(pad)].0.elements;
        let hats: Vec<Element> = elements.iter().filter(|element| pads::is_hat(element)).copied().collect();
        let element = if self.random.chance(70) { self.random.among(&hats) } else { self.random.among(elements) };
        let links = [record::CONNECTED, record::CONNECTED, record::DISCONNECTED];
        let presses = [record::PRESSED, record::RELEASED];
        match (self.random.chance(4), element.kind == sheet::AXIS) {
            (true, _) => Record { kind: self.random.among(&links), pad, code: 0, value: 0, time },
            (_, true) => {
                let value = pads::raw(self.random, &element);
                Record { kind: record::AXIS_MOVED, pad, code: element.code, value, time }
            }
            _ => Record { kind: self.random.among(&presses), pad, code: element.code, value: 0, time },
        }
    }

    /// What the twin gets for a record: of a zone pad's hat the zone's own value, or nothing; else the record.
    fn twin_of(&mut self, record: &Record) -> Option<Record> {
        let (sheet, kept) = &mut self.pads[usize::from(record.pad)];
        if record.kind == record::CONNECTED {
            *kept = Zones::default();
        }
        let hat = sheet.element(record.code).filter(|element| sheet.is_zoned() && pads::is_hat(element)).copied();
        let element = match hat {
            Some(element) if record.kind <= record::AXIS_MOVED => element,
            _ => return Some(*record),
        };
        let value = match record.kind {
            record::AXIS_MOVED => scaling::scaled(&element, record.value, self.reversed),
            kind => f32::from(u8::from(kind == record::PRESSED)),
        };
        self.twins.values += 1;
        let Some(zone) = kept.moved(element.name, value) else {
            self.twins.left_out += 1;
            return None;
        };
        if record.kind != record::AXIS_MOVED {
            return Some(*record);
        }
        // the raw value of -1..1 that gilrs, which turns the Y axis where it is reversed, reads as the zone's
        let raw = |raw: &i32| scaling::scaled(&pads::of_three(&element), *raw, self.reversed) == zone;
        Some(Record { value: [-1, 0, 1].into_iter().find(raw).expect("a raw value of the zone's"), ..*record })
    }

    /// The four directions of a pad, read as a player reads them; at times the counter moves.
    fn ask(&mut self) {
        let pad = self.random.below(self.pads.len() as u64) as u8;
        for (at, code) in DIRECTIONS.iter().enumerate() {
            self.twins.both(scenario::PRESSED_BY_NAME, &[pad, DPAD_UP + at as u8]);
            self.twins.by_code(scenario::VALUE_BY_CODE, pad, *code);
            self.twins.by_code(scenario::BUTTON_BY_CODE, pad, *code);
        }
        self.twins.both(scenario::DOWN, &[pad]);
        if self.random.chance(30) {
            self.twins.both(scenario::INC, &[]);
        }
    }
}

fn main() {
    let words: Vec<String> = std::env::args().skip(1).collect();
    let number = |at: usize| words[at].parse::<u64>().expect("a number");
    let mut random = Random::new(number(0));
    let mut twins = Twins::default();
    for _ in 0..number(1) {
        let reversed = random.chance(50);
        Scene { random: &mut random, twins: &mut twins, reversed, pads: Vec::new(), clock: 0 }.play();
    }
    std::fs::write(&words[2], &twins.zones).expect("a file");
    std::fs::write(&words[3], &twins.twin).expect("a file");
    println!("{} hat values, {} of them in the zone of the last", twins.values, twins.left_out);
}
