//! What W-212 asks for: by which of the two calls a sheet comes, sheets that are refused in between, and, behind all else
//! of some scenarios, the archive: more old pads, their renames and links. All of it is drawn by a stream of its own. A
//! sheet that 01 takes is taken in the end, by the one call or the other, so the pads are those that they were.

use super::Scene;
use crate::pads;
use crate::random::Random;
use reading::event::{self, Event};
use reading::names::{self, SOUTH};
use reading::record::{self, Record};
use reading::sheet::Sheet;
use reading::{refusal, scenario, LONGEST_BUFFER, MOST_PADS};

pub(super) struct Archive {
    pub random: Random,
    /// Sheets that come behind all else, and rename lists for any pad; none where the archive stays closed.
    pub sheets: Vec<Vec<u8>>,
    pub renames: Vec<Vec<u8>>,
}

impl Archive {
    /// `before` has the sheets that stand before those of the archive.
    pub fn new(mut random: Random, before: &[Vec<u8>]) -> Archive {
        let (mut sheets, mut renames) = (Vec::new(), Vec::new());
        if random.chance(35) {
            let count = random.between(1, 3);
            sheets.extend((0..count).map(|_| archived_sheet(&mut random).to_bytes()));
            let read = before.iter().chain(&sheets).flat_map(|sheet| Sheet::read_archived(sheet));
            let pads: Vec<Sheet> = read.take(MOST_PADS).collect();
            let count = random.between(2, 6);
            renames.extend((0..count).map(|_| rename(&mut random, &pads)));
        }
        Archive { random, sheets, renames }
    }
}

/// Any pad's elements with hats of one to three directions; at times with none or all four.
fn archived_sheet(random: &mut Random) -> Sheet {
    let hats = if random.chance(85) { partial_hats(random) } else { random.among(&[0, 15]) };
    Sheet { hats, ..pads::sheet(random) }
}

fn partial_hats(random: &mut Random) -> u8 {
    random.between(1, 14) as u8
}

fn rename(random: &mut Random, pads: &[Sheet]) -> Vec<u8> {
    let pad = random.below(pads.len() as u64) as usize;
    let mut payload = vec![pad as u8];
    // the names that it has are new ones as well
    payload.extend(if random.chance(20) { pads[pad].names() } else { pads::rename_list(random, &pads[pad]) });
    payload
}

/// A sheet with partial hats that the plain call refuses, and often a fault besides, so that the archived one does too.
fn refused_sheet(random: &mut Random) -> Vec<u8> {
    let mut sheet = pads::sheet(random);
    sheet.hats = partial_hats(random);
    sheet.elements.truncate(4);
    let fault = random.below(10);
    match fault {
        0 | 1 => sheet.elements.iter_mut().take(2).for_each(|element| element.name = SOUTH),
        2 => sheet.elements.iter_mut().skip(1).for_each(|element| element.code = 0),
        3 => sheet.elements.iter_mut().take(3).for_each(|element| element.name = names::UNKNOWN_BUTTON),
        4 => sheet.hats |= random.among(&[16, 32, 64, 128]),
        _ => (),
    }
    let mut bytes = sheet.to_bytes();
    if fault == 5 {
        bytes.pop();
    }
    bytes
}

impl Scene<'_> {
    /// A sheet by one of the two calls. What the plain one refuses by 29 alone comes by the archived one, at times after
    /// the plain one was tried.
    pub(super) fn enrol(&mut self, sheet: &[u8]) {
        let partial = Sheet::read(sheet).err() == Some(refusal::PARTIAL_HATS);
        let next = self.traffic.pads.len() as u8;
        let archived = self.archive.random.chance(if partial { 60 } else { 25 });
        let mut lines = Vec::new();
        if !archived {
            lines = self.play(scenario::REGISTER, sheet);
        }
        if partial && !archived && self.archive.random.chance(20) {
            self.ask_old(next);
        }
        if partial || archived {
            lines = self.play(scenario::REGISTER_ARCHIVED, sheet);
        }
        if lines.first().map_or(false, |line| line.starts_with("PAD")) {
            self.ask_down(next);
            self.ask_old(next);
            self.traffic.pads.extend(Sheet::read_archived(sheet).ok());
        }
    }

    /// At times a sheet that is refused by the call that it comes by, and changes nothing.
    pub(super) fn stray(&mut self) {
        if self.archive.random.chance(5) {
            let sheet = refused_sheet(&mut self.archive.random);
            let plain = Sheet::read_archived(&sheet).is_ok() || self.archive.random.chance(50);
            self.play(if plain { scenario::REGISTER } else { scenario::REGISTER_ARCHIVED }, &sheet);
        }
    }

    /// The archive, where it is not closed: what was not registered yet, its own sheets, and what moves the mark.
    pub(super) fn open_archive(&mut self) {
        let sheets = std::mem::take(&mut self.archive.sheets);
        if self.desk.is_none() || sheets.is_empty() {
            return;
        }
        while !self.sheets.is_empty() {
            self.register();
        }
        sheets.iter().for_each(|sheet| self.enrol(sheet));
        for _ in 0..self.archive.random.between(4, 10) {
            match self.archive.random.below(10) {
                0..=3 => self.rename_archived(),
                4..=7 => self.link(),
                8 => self.give_connected(),
                _ => self.stray(),
            }
        }
        self.play(scenario::DUMP, &[]);
    }

    fn rename_archived(&mut self) {
        if let Some(list) = self.archive.renames.pop() {
            self.play(scenario::RENAME, &list);
            self.ask_old(list[0]);
        }
    }

    /// Pumps one to three records, of a pad that joins or leaves or of any element, and asks of each of their pads.
    fn link(&mut self) {
        self.batch.clear();
        self.place = 0;
        let mut pads = Vec::new();
        for _ in 0..self.archive.random.between(1, 3) {
            let random = &mut self.archive.random;
            let (pad, time) = (self.traffic.pad(random), self.traffic.time(random));
            let kind = random.among(&[record::CONNECTED, record::CONNECTED, record::DISCONNECTED, record::AXIS_MOVED]);
            let link = Record { kind, pad, code: 0, value: 0, time };
            let record = if kind == record::AXIS_MOVED { self.traffic.record(random) } else { link };
            self.batch.extend(record.to_bytes());
            pads.push(record.pad);
        }
        let allowance = self.archive.random.among(&[0, 1, 2, 65_535, 65_535, 65_535]);
        self.play_pump(scenario::PUMP, LONGEST_BUFFER, allowance);
        pads.iter().for_each(|pad| self.ask_old(*pad));
    }

    /// The event of a pad that joins, given to the state or let wait and pumped: no record, and no mark comes back.
    fn give_connected(&mut self) {
        let random = &mut self.archive.random;
        let (pad, time) = (self.traffic.pad(random), self.traffic.time(random));
        let event = Event { kind: event::CONNECTED, pad, name: names::NO_NAME, code: 0, bits: 0, time };
        let opcode = random.among(&[scenario::UPDATE, scenario::INSERT]);
        self.play(opcode, &event.to_bytes());
        self.batch.clear();
        self.place = 0;
        self.play_pump(scenario::PUMP, LONGEST_BUFFER, 65_535);
        self.ask_old(pad);
    }
}
