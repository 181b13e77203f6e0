//! The scenario form: operations one after the other, each an opcode of 1 byte, the payload's length in 4 bytes, and
//! the payload. `oracle/README.md` lists them. Integers are big-endian.

use crate::bytes::{field, field32, put};

pub const NEW: u8 = 1;
pub const REGISTER: u8 = 2;
pub const RENAME: u8 = 3;
pub const PUMP: u8 = 4;
pub const UPDATE: u8 = 5;
pub const INSERT: u8 = 6;
pub const REPEAT: u8 = 7;
pub const INC: u8 = 8;
pub const COUNTER: u8 = 9;
pub const RESET_COUNTER: u8 = 10;
pub const PRESSED_BY_CODE: u8 = 11;
pub const VALUE_BY_CODE: u8 = 12;
pub const PRESSED_BY_NAME: u8 = 13;
pub const VALUE_BY_NAME: u8 = 14;
pub const BUTTON_BY_CODE: u8 = 15;
pub const AXIS_BY_CODE: u8 = 16;
pub const BUTTON_BY_NAME: u8 = 17;
pub const AXIS_BY_NAME: u8 = 18;
pub const NAME_OF_CODE: u8 = 19;
pub const CODE_OF_NAME: u8 = 20;
pub const THRESHOLD: u8 = 21;
pub const STANDS: u8 = 22;
pub const WAITING: u8 = 23;
pub const DUMP: u8 = 24;
pub const DOWN: u8 = 38;
pub const LOWEST_PRESSED: u8 = 39;
pub const PUMP_TILT: u8 = 40;
pub const DEADZONE: u8 = 41;
pub const HELD_SINCE: u8 = 42;
pub const REGISTER_ARCHIVED: u8 = 43;
pub const IS_OLD: u8 = 44;

/// Bits of the flags byte of `new`.
pub const Y_REVERSED: u8 = 1;
pub const FILTERS_ON: u8 = 2;
pub const UPDATES_ON: u8 = 4;

#[derive(Clone, Copy, Debug)]
pub struct Settings {
    pub pressed: f32,
    pub released: f32,
    pub flags: u8,
}

impl Settings {
    pub fn has(&self, flag: u8) -> bool {
        self.flags & flag != 0
    }
}

#[derive(Clone, Copy, Debug)]
pub struct Pump<'a> {
    pub place: usize,
    pub out: usize,
    pub allowance: u64,
    pub batch: &'a [u8],
    /// Whether W-205's report is asked for beside the answer.
    pub tilt: bool,
}

#[derive(Clone, Copy, Debug)]
pub enum Operation<'a> {
    New(Settings),
    Register(&'a [u8]),
    /// A sheet of the archive, W-212's.
    RegisterArchived(&'a [u8]),
    Rename(u8, &'a [u8]),
    Pump(Pump<'a>),
    Update(&'a [u8]),
    Insert(&'a [u8]),
    Repeat {
        after: u64,
        every: u64,
        now: u64,
    },
    Inc,
    Counter,
    ResetCounter,
    /// A query about a code of a pad, with its opcode.
    ByCode(u8, u8, u32),
    /// A query about a name on a pad, with its opcode.
    ByName(u8, u8, u8),
    Stands(u8),
    /// What is down on a pad, W-213's.
    Down(u8),
    LowestPressed(u8),
    /// Whether a pad is old, W-212's.
    IsOld(u8),
    Waiting,
    Dump,
    /// The deadzone calculation alone; none of the three is NaN.
    Deadzone {
        x: f32,
        y: f32,
        threshold: f32,
    },
}

/// Reads a whole stream; `None` if it is no scenario (an unknown opcode, a payload of another length, a NaN
/// where none may stand).
pub fn read(bytes: &[u8]) -> Option<Vec<Operation<'_>>> {
    let mut operations = Vec::new();
    let mut rest = bytes;
    while !rest.is_empty() {
        if rest.len() < 5 {
            return None;
        }
        let end = 5 + field(rest, 1, 4) as usize;
        operations.push(read_one(rest[0], rest.get(5..end)?)?);
        rest = &rest[end..];
    }
    Some(operations)
}

fn read_one(opcode: u8, payload: &[u8]) -> Option<Operation<'_>> {
    Some(match (opcode, payload.len()) {
        (NEW, 9) => Operation::New(Settings {
            pressed: f32::from_bits(field32(payload, 0)),
            released: f32::from_bits(field32(payload, 4)),
            flags: payload[8],
        }),
        (REGISTER, _) => Operation::Register(payload),
        (REGISTER_ARCHIVED, _) => Operation::RegisterArchived(payload),
        (RENAME, 1..) => Operation::Rename(payload[0], &payload[1..]),
        (PUMP | PUMP_TILT, 10..) => read_pump(payload, opcode == PUMP_TILT),
        (UPDATE, _) => Operation::Update(payload),
        (INSERT, _) => Operation::Insert(payload),
        (REPEAT, 24) => {
            Operation::Repeat { after: field(payload, 0, 8), every: field(payload, 8, 8), now: field(payload, 16, 8) }
        }
        (INC, 0) => Operation::Inc,
        (COUNTER, 0) => Operation::Counter,
        (RESET_COUNTER, 0) => Operation::ResetCounter,
        (
            PRESSED_BY_CODE | VALUE_BY_CODE | BUTTON_BY_CODE | AXIS_BY_CODE | NAME_OF_CODE | THRESHOLD | HELD_SINCE,
            5,
        ) => Operation::ByCode(opcode, payload[0], field32(payload, 1)),
        (PRESSED_BY_NAME | VALUE_BY_NAME | BUTTON_BY_NAME | AXIS_BY_NAME | CODE_OF_NAME, 2) => {
            Operation::ByName(opcode, payload[0], payload[1])
        }
        (STANDS, 1) => Operation::Stands(payload[0]),
        (DOWN, 1) => Operation::Down(payload[0]),
        (LOWEST_PRESSED, 1) => Operation::LowestPressed(payload[0]),
        (IS_OLD, 1) => Operation::IsOld(payload[0]),
        (WAITING, 0) => Operation::Waiting,
        (DUMP, 0) => Operation::Dump,
        (DEADZONE, 12) => return read_deadzone(payload),
        _ => return None,
    })
}

fn read_pump(payload: &[u8], tilt: bool) -> Operation<'_> {
    Operation::Pump(Pump {
        place: field(payload, 0, 4) as usize,
        out: field(payload, 4, 4) as usize,
        allowance: field(payload, 8, 2),
        batch: &payload[10..],
        tilt,
    })
}

fn read_deadzone(payload: &[u8]) -> Option<Operation<'_>> {
    let [x, y, threshold] = [0, 4, 8].map(|at| f32::from_bits(field32(payload, at)));
    let numbers = [x, y, threshold].iter().all(|number| !number.is_nan());
    numbers.then_some(Operation::Deadzone { x, y, threshold })
}

/// Writes one operation.
pub fn write(opcode: u8, payload: &[u8]) -> Vec<u8> {
    let mut bytes = vec![opcode];
    put(&mut bytes, payload.len() as u64, 4);
    bytes.extend_from_slice(payload);
    bytes
}
