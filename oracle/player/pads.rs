//! Random sheets and rename lists: usual pads, nasty ones, and damaged bytes.

use crate::random::Random;
use reading::names::{self, DIRECTIONS};
use reading::sheet::{
    Element, Sheet, ABSENT, AXIS, BUTTON, LARGEST_DEADZONE, LARGEST_VALUE, LEAST_VALUE, MOST_ELEMENTS,
};
use reading::MOST_PADS;
use std::collections::BTreeSet;

/// `to_nec`'s codes for the names 1 to 15.
pub const USUAL_CODES: [u32; 15] = [
    0x0001_0130,
    0x0001_0131,
    0x0001_0133,
    0x0001_0134,
    0x0001_0132,
    0x0001_0135,
    0x0001_0136,
    0x0001_0138,
    0x0001_0137,
    0x0001_0139,
    0x0001_013a,
    0x0001_013b,
    0x0001_013c,
    0x0001_013d,
    0x0001_013e,
];

const HAT_X: u32 = 0x0003_0010;
const HAT_Y: u32 = 0x0003_0011;
const LEFT_X: u32 = 0x0003_0000;

/// The payloads of the register operations, damaged ones and a fifth pad among them, and of the rename operations.
pub fn preparation(random: &mut Random) -> (Vec<Vec<u8>>, Vec<Vec<u8>>) {
    let wanted = random.among(&[1, 1, 1, 2, 2, 3, 4, 5]);
    let mut good: Vec<Sheet> = Vec::new();
    let mut sheets = Vec::new();
    while good.len() < wanted {
        if random.chance(12) {
            sheets.push(damaged_sheet(random));
        } else {
            good.push(sheet(random));
            sheets.push(good[good.len() - 1].to_bytes());
        }
    }
    let mut renames = Vec::new();
    for _ in 0..random.below(4) {
        let pad = random.below(good.len().min(MOST_PADS) as u64) as usize;
        let mut payload = vec![pad as u8];
        payload.extend(rename_list(random, &good[pad]));
        if random.chance(5) {
            payload[0] = random.among(&[4, 255]);
        }
        renames.push(payload);
    }
    // a damaged sheet may still be a good one, and shift the pads' numbers: then the lists meet other sheets
    (sheets, renames)
}

pub fn sheet(random: &mut Random) -> Sheet {
    if random.chance(45) {
        usual(random)
    } else {
        nasty(random)
    }
}

fn button(code: u32, name: u8) -> Element {
    Element { code, kind: BUTTON, name, min: 0, max: 0, deadzone: 0 }
}

fn axis(code: u32, name: u8, min: i32, max: i32, deadzone: u32) -> Element {
    Element { code, kind: AXIS, name, min, max, deadzone }
}

/// A pad as the shops have it: buttons by their header codes, two sticks, two triggers, a hat.
fn usual(random: &mut Random) -> Sheet {
    let mut elements = Vec::new();
    let triggers_are_axes = random.chance(70);
    for (at, code) in USUAL_CODES.iter().enumerate() {
        let name = at as u8 + 1;
        if !(triggers_are_axes && (name == 8 || name == 10)) && random.chance(85) {
            elements.push(button(*code, name));
        }
    }
    let (min, max) = random.among(&[(-32_768, 32_767), (0, 255), (-128, 127), (0, 256), (-512, 512)]);
    let deadzone = random.among(&[128, 0, ABSENT, 16, 3_500]);
    for (at, name) in [33, 34, 36, 37].iter().enumerate() {
        elements.push(axis(LEFT_X + at as u32, *name, min, max, deadzone));
    }
    if triggers_are_axes {
        let top = random.among(&[255, 1_023, 4]);
        elements.push(axis(0x0003_0009, 10, 0, top, random.among(&[0, ABSENT, 1])));
        elements.push(axis(0x0003_000a, 8, 0, top, random.among(&[0, ABSENT, 1])));
    }
    if random.chance(75) {
        elements.push(axis(HAT_X, names::DPAD_X, -1, 1, random.among(&[0, ABSENT])));
        elements.push(axis(HAT_Y, names::DPAD_Y, -1, 1, random.among(&[0, ABSENT])));
    } else {
        for (at, code) in DIRECTIONS.iter().enumerate() {
            elements.push(button(*code, 16 + at as u8));
        }
    }
    elements.sort_by_key(|element| element.code);
    Sheet { hats: random.among(&[0, 0, 0, 15]), elements }
}

/// Anything that 01 lets stand, with a taste for what it lets stand and the shops do not sell.
fn nasty(random: &mut Random) -> Sheet {
    let size = match random.below(10) {
        0 => random.among(&[0, 1]),
        1 => MOST_ELEMENTS,
        _ => random.between(2, 14) as usize,
    };
    let mut codes = BTreeSet::new();
    while codes.len() < size {
        codes.insert(code(random));
    }
    let mut taken = BTreeSet::new();
    let mut elements = Vec::new();
    for code in codes {
        let name = name(random, &mut taken);
        elements.push(if random.chance(45) { button(code, name) } else { any_axis(random, code, name) });
    }
    Sheet { hats: random.among(&[0, 0, 0, 15, 15, 1, 3, 12, 14]), elements }
}

fn code(random: &mut Random) -> u32 {
    match random.below(8) {
        0 | 1 => random.among(&DIRECTIONS),
        2 | 3 => random.among(&USUAL_CODES),
        4 | 5 => LEFT_X + random.below(24) as u32,
        6 => random.among(&[0, 1, 0x0001_021f, 0x0001_0224, 0x7fff_ffff, 0x8000_0000, 0xffff_fffe, 0xffff_ffff]),
        _ => random.next() as u32,
    }
}

/// A name that the sheet does not have yet, often one of a pair, of the hat or a direction; often none.
fn name(random: &mut Random, taken: &mut BTreeSet<u8>) -> u8 {
    let wanted = match random.below(8) {
        0 | 1 => names::NO_NAME,
        2 => random.among(&[39, 40]),
        3 | 4 => random.among(&[33, 34, 36, 37]),
        5 => random.between(16, 19) as u8,
        6 => random.between(33, 40) as u8,
        _ => random.between(1, 19) as u8,
    };
    if wanted != names::NO_NAME && taken.insert(wanted) {
        wanted
    } else {
        names::NO_NAME
    }
}

fn any_axis(random: &mut Random, code: u32, name: u8) -> Element {
    let (min, max) = match random.below(8) {
        0 => (LEAST_VALUE, LARGEST_VALUE),
        1 => (-1, 1),
        2 => (0, 1),
        3 => random.among(&[(LEAST_VALUE, LEAST_VALUE + 1), (LARGEST_VALUE - 1, LARGEST_VALUE), (-1, 0)]),
        4 => random.among(&[(0, 255), (0, 256), (-32_768, 32_767), (0, 4)]),
        _ => {
            let min = random.between(i64::from(LEAST_VALUE), i64::from(LARGEST_VALUE) - 1);
            (min as i32, random.between(min + 1, i64::from(LARGEST_VALUE)) as i32)
        }
    };
    let range = (i64::from(max) - i64::from(min)) as u64;
    // A threshold is deadzone / range * 2: 0, absent, just 1 on an even range, far over 1, below a half.
    let deadzone = match random.below(7) {
        0 => 0,
        1 | 2 => ABSENT,
        3 => (range / 2) as u32,
        4 => LARGEST_DEADZONE,
        _ => random.below(range / 4 + 1) as u32,
    };
    axis(code, name, min, max, deadzone)
}

/// Damages good sheet bytes in one place: any byte, the size, or a rule that a random byte would rarely break.
pub fn damaged_sheet(random: &mut Random) -> Vec<u8> {
    let mut sheet = sheet(random);
    let size = sheet.elements.len() as u64;
    let mut bytes = sheet.to_bytes();
    match random.below(5) {
        0 => bytes.truncate(random.below(bytes.len() as u64) as usize),
        1 => bytes.push(0),
        2 if size > 1 => {
            let (from, to) = (random.below(size) as usize, random.below(size) as usize);
            sheet.elements[to].name = sheet.elements[from].name;
            bytes = sheet.to_bytes();
        }
        3 if size > 1 => {
            let at = random.between(1, size as i64 - 1) as usize;
            sheet.elements[at].code = sheet.elements[at - 1].code;
            bytes = sheet.to_bytes();
        }
        _ => {
            let at = random.below(bytes.len().min(60) as u64) as usize;
            bytes[at] = random.among(&[0, 1, 2, 16, 20, 32, 41, 49, 128, 254, 255]);
        }
    }
    bytes
}

/// A rename list for the sheet; one in five has a name of no sort, a name twice or another length.
pub fn rename_list(random: &mut Random, sheet: &Sheet) -> Vec<u8> {
    let mut taken = BTreeSet::new();
    let mut list: Vec<u8> = sheet.elements.iter().map(|_| name(random, &mut taken)).collect();
    if random.chance(50) {
        // as set_mapping takes it
        list.iter_mut().filter(|name| **name == 39 || **name == 40).for_each(|name| *name = names::NO_NAME);
    }
    if random.chance(20) {
        match random.below(3) {
            0 => list.push(names::NO_NAME),
            1 => list.iter_mut().take(2).for_each(|name| *name = 1),
            _ => list.iter_mut().take(1).for_each(|name| *name = random.among(&[0, 20, 32, 41, 254])),
        }
    }
    list
}
