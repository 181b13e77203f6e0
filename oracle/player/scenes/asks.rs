//! What a scenario asks between its calls: queries drawn with the rest, and behind what moves them the questions of the
//! requests. Since when a button is held is asked wherever one was heard of, and draws no number. What is down is asked
//! of each pad whose buttons a call was about, and at times of another, which is drawn beside all else. Whether a pad is
//! old is asked where it is asked whether it stands, behind each registration and rename of it and each Connected, and
//! at times of any pad, which is drawn with what else the archive asks for.

use super::Scene;
use crate::lines;
use reading::bytes::{field32, put};
use reading::{event, names, scenario};

impl Scene<'_> {
    pub(super) fn query(&mut self) {
        let first = i64::from(scenario::PRESSED_BY_CODE);
        let opcode = match self.random.below(5) {
            0 => scenario::PRESSED_BY_NAME,
            _ => self.random.between(first, i64::from(scenario::STANDS)) as u8,
        };
        let pad = if self.random.chance(95) { self.traffic.pad(self.random) } else { self.random.below(6) as u8 };
        let mut payload = vec![pad];
        match opcode {
            scenario::STANDS => (),
            scenario::PRESSED_BY_NAME | scenario::BUTTON_BY_NAME => payload.push(self.asked_name(1, 19)),
            scenario::VALUE_BY_NAME | scenario::AXIS_BY_NAME => payload.push(self.asked_name(33, 40)),
            scenario::CODE_OF_NAME => payload.push(self.asked_name(1, 40)),
            _ => {
                let code = self.traffic.asked_code(self.random, pad);
                put(&mut payload, u64::from(code), 4);
            }
        }
        self.play(opcode, &payload);
        match opcode {
            scenario::BUTTON_BY_CODE => drop(self.play(scenario::HELD_SINCE, &payload)),
            scenario::STANDS => {
                self.ask_down(pad);
                self.ask_old(pad);
            }
            _ => (),
        }
    }

    /// A name between the two, a direction, or one at an edge of the table.
    fn asked_name(&mut self, low: i64, high: i64) -> u8 {
        match self.random.below(10) {
            0 => self.random.among(&[0, 1, 19, 20, 31, names::UNKNOWN_AXIS, 33, 40, 41, 254, names::NO_NAME]),
            1..=4 if low == 1 => self.random.between(16, 19) as u8,
            _ => self.random.between(low, high) as u8,
        }
    }

    /// Behind an event given to the state: since when its button is held, and what is down on its pad. Of a damaged
    /// event it may be any pad and code.
    pub(super) fn ask_of_event(&mut self, bytes: &[u8]) {
        if bytes.len() != event::SIZE {
            return;
        }
        if (event::PRESSED..=event::CHANGED).contains(&bytes[3]) {
            self.ask_since(bytes[4], field32(bytes, 6));
        }
        self.ask_down(bytes[4]);
    }

    /// Behind a pump: since when each button is held that it wrote of, what is down, and which pads are old.
    pub(super) fn ask_of_pump(&mut self, lines: &[String]) {
        for (pad, code) in lines::buttons(lines) {
            self.ask_since(pad, code);
        }
        self.ask_down_of_pump(lines);
        self.ask_old_of_pump(lines);
    }

    /// What is down on each pad whose buttons a pump may have moved; at times on any pad, or one that is not registered.
    pub(super) fn ask_down_of_pump(&mut self, lines: &[String]) {
        for pad in lines::touched(lines) {
            self.ask_down(pad);
        }
        if self.looks.chance(20) {
            let pad = self.looks.below(self.traffic.pads.len() as u64 + 1) as u8;
            self.ask_down(pad);
        }
    }

    /// Whether each pad is old whose Connected a pump wrote of; at times any pad, or one that is not registered.
    pub(super) fn ask_old_of_pump(&mut self, lines: &[String]) {
        for pad in lines::connected(lines) {
            self.ask_old(pad);
        }
        if self.archive.random.chance(15) {
            let pad = self.archive.random.below(self.traffic.pads.len() as u64 + 1) as u8;
            self.ask_old(pad);
        }
    }

    pub(super) fn ask_old(&mut self, pad: u8) {
        self.play(scenario::IS_OLD, &[pad]);
    }

    fn ask_since(&mut self, pad: u8, code: u32) {
        let mut payload = vec![pad];
        put(&mut payload, u64::from(code), 4);
        self.play(scenario::HELD_SINCE, &payload);
    }

    /// What is down on a pad: how many records, and the lowest of their codes.
    pub(super) fn ask_down(&mut self, pad: u8) {
        self.play(scenario::DOWN, &[pad]);
        self.play(scenario::LOWEST_PRESSED, &[pad]);
    }

    /// A dump, and for each of its buttons since when it is held, which the dump's lines do not tell.
    pub(super) fn dump(&mut self) {
        let mut pad = 0;
        for line in self.play(scenario::DUMP, &[]) {
            let words: Vec<&str> = line.split(' ').collect();
            match words[0] {
                "DUMP" => pad = lines::pad_in(words[1]),
                "B" => self.ask_since(pad, lines::code_in(words[1])),
                _ => (),
            }
        }
    }
}
