//! Random scenarios. Each is played while it is made, so that a later pump can go on at the place where an earlier one
//! stopped, and a repeat can be given back to `update`. What the requests ask for is drawn beside the rest, or draws no
//! number: since when a button is held and what is down (`asks`), which pumps ask for their report, what is asked of the
//! deadzone calculation, by which call a sheet comes and what the archive has besides (`archive`). So the other operations
//! of a seed are the same with these and without.

mod archive;
mod asks;

use crate::lines;
use crate::pads;
use crate::play;
use crate::random::Random;
use crate::tilts;
use crate::traffic::Traffic;
use archive::Archive;
use reading::bytes::put;
use reading::event;
use reading::record;
use reading::{scenario, Desk, LAST_TIME, LONGEST_BUFFER, LONGEST_REPEAT};

struct Scene<'a> {
    random: &'a mut Random,
    /// What operations 40 and 41 are drawn from, and what 38 and 39.
    aside: Random,
    looks: Random,
    /// What operations 43 and 44 are drawn from, and what stands behind all else.
    archive: Archive,
    desk: Option<Box<dyn Desk>>,
    bytes: Vec<u8>,
    traffic: Traffic,
    /// Register operations to come, and rename operations.
    sheets: Vec<Vec<u8>>,
    renames: Vec<Vec<u8>>,
    /// The last batch, and the place that its pump answered.
    batch: Vec<u8>,
    place: usize,
}

/// One scenario, from its `new` to its last dump and what is asked of it; in some the sticks are watched behind that, or
/// the archive is opened.
pub fn scene(random: &mut Random) -> Vec<u8> {
    let aside = random.beside();
    let looks = aside.beside();
    let traffic = Traffic::new(random);
    let (sheets, renames) = pads::preparation(random);
    let archive = Archive::new(looks.beside(), &sheets);
    let mut scene = Scene {
        random,
        aside,
        looks,
        archive,
        desk: None,
        bytes: Vec::new(),
        traffic,
        sheets,
        renames,
        batch: Vec::new(),
        place: 0,
    };
    scene.open();
    // without a hub every answer is the same
    let most = if scene.desk.is_some() { 30 } else { 5 };
    let calls = scene.random.between(4, most);
    for _ in 0..calls {
        scene.call();
        scene.calculate();
        scene.stray();
    }
    scene.pump_rest();
    for _ in 0..scene.random.below(8) {
        scene.query();
    }
    scene.dump();
    if scene.desk.is_some() && scene.aside.chance(25) {
        scene.watch_sticks();
    }
    scene.open_archive();
    scene.bytes
}

impl Scene<'_> {
    /// Writes one operation down and plays it.
    fn play(&mut self, opcode: u8, payload: &[u8]) -> Vec<String> {
        let bytes = scenario::write(opcode, payload);
        let operations = scenario::read(&bytes).expect("an operation");
        let lines = match &mut self.desk {
            Some(desk) => desk.play(&operations[0]),
            None => Vec::new(),
        };
        self.bytes.extend(bytes);
        lines
    }

    fn open(&mut self) {
        let (pressed, released) = thresholds(self.random);
        let mut payload = Vec::new();
        put(&mut payload, u64::from(pressed.to_bits()), 4);
        put(&mut payload, u64::from(released.to_bits()), 4);
        // filters and updates mostly on, else filters alone more often than not
        payload.push(self.random.among(&[6, 7, 6, 7, 6, 7, 6, 7, 0, 1, 2, 3, 2, 3, 4, 5]));
        let mut ahead = Vec::new();
        let sheets = self.sheets.iter().chain(&self.archive.sheets);
        sheets.for_each(|sheet| ahead.extend(scenario::write(scenario::REGISTER_ARCHIVED, sheet)));
        let renames = self.renames.iter().chain(&self.archive.renames);
        renames.for_each(|list| ahead.extend(scenario::write(scenario::RENAME, list)));
        let operations = scenario::read(&ahead).expect("operations");
        let settings = scenario::Settings { pressed, released, flags: payload[8] };
        self.desk = play::open(settings, &operations, false);
        self.bytes = scenario::write(scenario::NEW, &payload);
        self.sheets.reverse();
        // most pads stand from the start, some are registered in the middle; rarely none stands at first
        while !self.sheets.is_empty() && self.random.chance(if self.traffic.pads.is_empty() { 98 } else { 90 }) {
            self.register();
        }
    }

    fn register(&mut self) {
        if let Some(sheet) = self.sheets.pop() {
            self.enrol(&sheet);
        }
    }

    fn call(&mut self) {
        match self.random.below(100) {
            0..=39 => self.pump(),
            40..=57 => self.query(),
            58..=59 => self.clear(),
            60..=69 => self.give(scenario::INSERT),
            70..=77 => self.give(scenario::UPDATE),
            78..=84 => self.repeat(),
            85..=89 => self.count(),
            90..=93 => self.rename(),
            94..=95 => self.register(),
            96 => (0..self.random.between(10, 24)).for_each(|_| self.give(scenario::INSERT)),
            97 => self.clear(),
            _ => {
                self.play(scenario::WAITING, &[]);
            }
        }
    }

    fn give(&mut self, opcode: u8) {
        let event = self.traffic.event_bytes(self.random);
        self.play(opcode, &event);
        if opcode == scenario::UPDATE {
            self.ask_of_event(&event);
        }
    }

    /// A pair of axes that clear each other, pumped a few steps at a time with a look at the flags in between.
    fn clear(&mut self) {
        for event in self.traffic.clearing(self.random) {
            self.play(scenario::INSERT, &event.to_bytes());
        }
        self.batch.clear();
        for allowance in [2, 1, 2] {
            self.place = 0;
            self.pump_with(LONGEST_BUFFER, allowance);
            self.dump();
        }
    }

    fn rename(&mut self) {
        if let Some(list) = self.renames.pop() {
            self.play(scenario::RENAME, &list);
            self.ask_down(list[0]);
            self.ask_old(list[0]);
        }
    }

    /// A pump: a fresh batch, or the last one from where it stopped or from anywhere.
    fn pump(&mut self) {
        let unfinished = self.place < self.batch.len();
        if !(unfinished && self.random.chance(60)) {
            self.batch = self.fresh_batch();
            self.place = 0;
        }
        if self.random.chance(4) {
            let length = self.batch.len();
            self.place = self.random.among(&[length, length + 1, length / 2, 21, 1, 0xffff_ffff]);
        }
        let out = match self.random.below(10) {
            0 => self.random.among(&[0, 21, 22, 23, 43, 44]),
            1 | 2 => self.random.between(22, 220) as usize,
            3 if self.random.chance(10) => LONGEST_BUFFER + 1,
            _ => LONGEST_BUFFER,
        };
        let allowance = match self.random.below(10) {
            0 => self.random.between(0, 3) as u64,
            1 | 2 => self.random.between(1, 30) as u64,
            _ => 65_535,
        };
        self.pump_with(out, allowance);
    }

    fn fresh_batch(&mut self) -> Vec<u8> {
        let records = match self.random.below(1_200) {
            0 => 780,
            1 => 781,
            2..=120 => 0,
            121..=720 => self.random.between(1, 6),
            _ => self.random.between(5, 30),
        };
        let mut batch = Vec::new();
        for _ in 0..records {
            batch.extend(self.traffic.record_bytes(self.random));
        }
        if records < 780 && self.random.chance(2) {
            batch.truncate(batch.len() - batch.len().min(5));
        }
        batch
    }

    fn pump_with(&mut self, out: usize, allowance: u64) {
        let opcode = self.aside.among(&[scenario::PUMP, scenario::PUMP_TILT]);
        let lines = self.play_pump(opcode, out, allowance);
        self.ask_of_pump(&lines);
        if lines.last().map_or(false, |last| last.starts_with("PAUSED")) && self.random.chance(30) {
            self.dump();
        }
    }

    /// Pumps the batch from the place on, and leaves the place to go on from. Answers the pump's lines alone, without
    /// that of its report behind them.
    fn play_pump(&mut self, opcode: u8, out: usize, allowance: u64) -> Vec<String> {
        let mut payload = Vec::new();
        put(&mut payload, self.place as u64, 4);
        put(&mut payload, out as u64, 4);
        put(&mut payload, allowance, 2);
        payload.extend_from_slice(&self.batch);
        let mut lines = self.play(opcode, &payload);
        if opcode == scenario::PUMP_TILT {
            lines.pop();
        }
        if let Some(last) = lines.last() {
            self.place = lines::place(last);
            if last.starts_with("REFUSED") {
                // step over the record, or begin a fresh batch
                self.place = self.place.saturating_add(record::SIZE);
            }
        }
        lines
    }

    /// Behind all else, and drawn beside it: sticks that clear each other, other axis events and a few records, pumped
    /// a step or two at a time, so that a call's report is often that of a single event.
    fn watch_sticks(&mut self) {
        // not every pad has a pair
        let mut tries = (0..4).map(|_| self.traffic.clearing(&mut self.aside));
        let mut events = tries.find(|events| !events.is_empty()).unwrap_or_default();
        for _ in 0..9 {
            events.push(self.traffic.event(&mut self.aside));
        }
        for event in events.iter().filter(|event| event.kind == event::AXIS) {
            self.play(scenario::INSERT, &event.to_bytes());
        }
        self.batch.clear();
        for _ in 0..3 {
            let record = self.traffic.record_bytes(&mut self.aside);
            self.batch.extend(record);
        }
        self.place = 0;
        for _ in 0..9 {
            let allowance = self.aside.among(&[1, 1, 1, 2, 3]);
            let lines = self.play_pump(scenario::PUMP_TILT, LONGEST_BUFFER, allowance);
            self.ask_down_of_pump(&lines);
            self.ask_old_of_pump(&lines);
        }
    }

    /// At times the deadzone calculation alone.
    fn calculate(&mut self) {
        if self.aside.chance(15) {
            let payload = tilts::payload(&mut self.aside);
            self.play(scenario::DEADZONE, &payload);
        }
    }

    /// Pumps with no more records, so that what waits is served.
    fn pump_rest(&mut self) {
        self.batch.clear();
        self.place = 0;
        self.pump_with(LONGEST_BUFFER, 65_535);
    }

    /// Asks for a repeat, up to six times, mostly giving the answer back to `update`.
    fn repeat(&mut self) {
        let (after, every) = self.random.among(&[
            (500_000, 30_000),
            (500_000, 30_000),
            (0, 1),
            (1, LONGEST_REPEAT),
            (LONGEST_REPEAT, 1),
            (100_000, 0),
            (LONGEST_REPEAT + 1, 30_000),
            (10_000, LONGEST_REPEAT + 1),
        ]);
        let now = match self.random.below(12) {
            0 => LAST_TIME,
            1 => LAST_TIME + 1,
            2 => 0,
            _ => (self.traffic.clock + self.random.among(&[0, 16_000, 499_999, 500_000, 700_000])).min(LAST_TIME),
        };
        self.repeat_at(after, every, now);
    }

    /// After a repeat that is given back, asks again at the same moment, or where the next one is just due or not yet.
    fn repeat_at(&mut self, after: u64, every: u64, mut now: u64) {
        for _ in 0..self.random.between(1, 6) {
            let mut payload = Vec::new();
            [after, every, now].iter().for_each(|number| put(&mut payload, *number, 8));
            let lines = self.play(scenario::REPEAT, &payload);
            let event = match lines.first().and_then(|line| lines::repeated(line)) {
                Some(event) if self.random.chance(85) => event,
                _ => break,
            };
            self.play(scenario::UPDATE, &event.to_bytes());
            self.ask_of_event(&event.to_bytes());
            if self.random.chance(50) {
                now = (event.time + every - self.random.below(2)).min(LAST_TIME);
            }
        }
    }

    fn count(&mut self) {
        let choices = [scenario::INC, scenario::INC, scenario::INC, scenario::COUNTER, scenario::RESET_COUNTER];
        let opcode = self.random.among(&choices);
        self.play(opcode, &[]);
    }
}

/// Thresholds: the crate's, padlog's, the ends, any pair; one in twenty is refused.
fn thresholds(random: &mut Random) -> (f32, f32) {
    if random.chance(5) {
        return random.among(&[
            (0.5, 0.5),
            (0.25, 0.5),
            (f32::NAN, 0.5),
            (0.5, f32::NAN),
            (1.000_000_1, 0.5),
            (0.5, -0.000_000_1),
            (0.0, -0.0),
            (f32::INFINITY, 0.0),
        ]);
    }
    match random.below(5) {
        0 => random.among(&[(1.0, 0.0), (0.5, -0.0), (1.0, 0.999_999_94), (f32::from_bits(1), 0.0)]),
        1 => {
            let released = random.below(1_000) as f32 / 1_000.0;
            (released + (1.0 - released) / 2.0, released)
        }
        2 => (0.75, 0.65),
        _ => (0.75, 0.5),
    }
}
