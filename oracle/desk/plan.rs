//! What gilrs must know when it is built: the pads of the scenario and their mapping lines. gilrs takes mapping lines
//! only then, so the player looks ahead for the sheets that will be accepted, and for the rename lists that
//! `set_mapping` cannot take. A pad that stands in the backend before its registration has no state and is refused by
//! number, so nothing shows it.

use gilrs_core::{AxisInfo, EvCode, Gamepad};
use reading::scenario::Operation;
use reading::sheet::{self, Sheet};
use reading::{names, MOST_PADS};

/// The words of the mapping lines, by 01's number for buttons (from 1) and for axes (from 33).
const BUTTON_WORDS: [&str; 19] = [
    "a",
    "b",
    "y",
    "x",
    "c",
    "z",
    "leftshoulder",
    "lefttrigger",
    "rightshoulder",
    "righttrigger",
    "back",
    "start",
    "guide",
    "leftstick",
    "rightstick",
    "dpup",
    "dpdown",
    "dpleft",
    "dpright",
];
const AXIS_WORDS: [&str; 8] = ["leftx", "lefty", "leftz", "rightx", "righty", "rightz", "dpadx", "dpady"];

/// The mapping line of a pad has its number; those of rename lists follow from here on.
const FIRST_RENAME_LINE: usize = 16;

#[derive(Clone, Debug, Default)]
pub struct Plan {
    pub pads: Vec<Sheet>,
    renames: Vec<(u8, Vec<u8>)>,
}

impl Plan {
    /// Looks ahead over the operations up to the next `new`.
    pub fn of(operations: &[Operation<'_>]) -> Plan {
        let mut plan = Plan::default();
        for operation in operations {
            match *operation {
                Operation::New(_) => break,
                Operation::Register(bytes) => plan.add_sheet(Sheet::read(bytes)),
                Operation::RegisterArchived(bytes) => plan.add_sheet(Sheet::read_archived(bytes)),
                Operation::Rename(pad, list) => plan.add_rename(pad, list),
                _ => (),
            }
        }
        plan
    }

    fn add_sheet(&mut self, read: Result<Sheet, u8>) {
        if self.pads.len() < MOST_PADS {
            self.pads.extend(read.ok());
        }
    }

    /// Keeps a list that names 39 or 40; a list for a pad that is registered later is refused when its turn comes.
    fn add_rename(&mut self, pad: u8, list: &[u8]) {
        let stands = self.pads.get(usize::from(pad)).map_or(false, |sheet| sheet::judge_rename(list, sheet).is_ok());
        if stands && beyond_set_mapping(list) {
            self.renames.push((pad, list.to_vec()));
        }
    }

    /// All mapping lines, as text.
    pub fn lines(&self) -> String {
        let mut text = String::new();
        for (pad, sheet) in self.pads.iter().enumerate() {
            text += &line(pad, sheet, &sheet.names(), sheet.hats);
        }
        for (at, (pad, list)) in self.renames.iter().enumerate() {
            text += &line(FIRST_RENAME_LINE + at, &self.pads[usize::from(*pad)], list, 0);
        }
        text
    }

    pub fn rename_line(&self, pad: u8, list: &[u8]) -> [u8; 16] {
        let at = self.renames.iter().position(|known| known.0 == pad && known.1 == list);
        uuid(FIRST_RENAME_LINE + at.expect("a rename list that was looked ahead for"))
    }

    pub fn gamepads(&self) -> Vec<Gamepad> {
        self.pads.iter().enumerate().map(|(pad, sheet)| gamepad(pad, sheet)).collect()
    }
}

/// `set_mapping` panics on DPadX and DPadY; the rest it takes.
pub fn beyond_set_mapping(list: &[u8]) -> bool {
    list.contains(&names::DPAD_X) || list.contains(&names::DPAD_Y)
}

pub fn uuid(number: usize) -> [u8; 16] {
    (number as u128).to_be_bytes()
}

fn gamepad(pad: usize, sheet: &Sheet) -> Gamepad {
    let code = |number: u32| EvCode(u64::from(number));
    let axes = sheet.elements.iter().filter(|element| element.kind == sheet::AXIS);
    Gamepad {
        codes: sheet.elements.iter().map(|element| code(element.code)).collect(),
        axes: axes
            .map(|element| {
                let deadzone = if element.deadzone == sheet::ABSENT { None } else { Some(element.deadzone) };
                (code(element.code), AxisInfo { min: element.min, max: element.max, deadzone })
            })
            .collect(),
        uuid: uuid(pad),
        connected: true,
    }
}

/// `UUID,pad,word:b0,word:a1,..,any:h0.1,..`: elements by their place in the sheet, hats by their bits.
fn line(number: usize, sheet: &Sheet, list: &[u8], hats: u8) -> String {
    let mut text = format!("{:032x},pad", number);
    for (at, name) in list.iter().enumerate() {
        let letter = if sheet.elements[at].kind == sheet::AXIS { 'a' } else { 'b' };
        if names::is_button_name(*name) {
            text += &format!(",{}:{}{}", BUTTON_WORDS[usize::from(name - names::SOUTH)], letter, at);
        } else if names::is_axis_name(*name) {
            text += &format!(",{}:{}{}", AXIS_WORDS[usize::from(name - names::LEFT_STICK_X)], letter, at);
        }
    }
    for direction in [1, 2, 4, 8] {
        if hats & direction != 0 {
            text += &format!(",any:h0.{}", direction);
        }
    }
    text + "\n"
}
