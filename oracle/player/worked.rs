//! 01's padlog example and its "Numbers worked out" as scenarios, and behind them those of W-205. The answers that 01
//! and the request give stand in `sample/example.txt` and `sample/worked.txt`, the latter with words beside each number.

use reading::bytes::put;
use reading::event::{self, Event};
use reading::record::{self, Record};
use reading::scenario::{self, FILTERS_ON, UPDATES_ON};
use reading::sheet::{self, Element, Sheet};

const HAT_X: u32 = 0x0003_0010;
const STICK_X: u32 = 0x0003_0000;
const STICK_Y: u32 = 0x0003_0001;
const SOUTH: u32 = 0x0001_0130;

fn axis(code: u32, name: u8, min: i32, max: i32, deadzone: u32) -> Element {
    Element { code, kind: sheet::AXIS, name, min, max, deadzone }
}

/// A hub with padlog's thresholds, and one pad.
fn hub(flags: u8, elements: Vec<Element>) -> Vec<u8> {
    let mut payload = Vec::new();
    put(&mut payload, u64::from(0.75_f32.to_bits()), 4);
    put(&mut payload, u64::from(0.5_f32.to_bits()), 4);
    payload.push(flags);
    let mut bytes = scenario::write(scenario::NEW, &payload);
    bytes.extend(scenario::write(scenario::REGISTER, &Sheet { hats: 0, elements }.to_bytes()));
    bytes
}

/// One pump over records of the axis values, each at its time.
fn pump(moves: &[(u32, i32, u64)]) -> Vec<u8> {
    pump_by(scenario::PUMP, moves)
}

/// The same by its opcode: with its report or without.
fn pump_by(opcode: u8, moves: &[(u32, i32, u64)]) -> Vec<u8> {
    let mut payload = Vec::new();
    put(&mut payload, 0, 4);
    put(&mut payload, 16_384, 4);
    put(&mut payload, 65_535, 2);
    for (code, value, time) in moves {
        let record = Record { kind: record::AXIS_MOVED, pad: 0, code: *code, value: *value, time: *time };
        payload.extend(record.to_bytes());
    }
    scenario::write(opcode, &payload)
}

fn by_code(opcode: u8, code: u32) -> Vec<u8> {
    let mut payload = vec![0];
    put(&mut payload, u64::from(code), 4);
    scenario::write(opcode, &payload)
}

/// "One axis element 0x00030010, name 39, -1..1, hats 0; values -1 at 100, 1 at 200"
pub fn example() -> Vec<u8> {
    let mut bytes = hub(FILTERS_ON | UPDATES_ON, vec![axis(HAT_X, 39, -1, 1, 0)]);
    bytes.extend(pump(&[(HAT_X, -1, 100), (HAT_X, 1, 200)]));
    bytes.extend(scenario::write(scenario::DUMP, &[]));
    bytes
}

/// The worked numbers, in 01's order.
pub fn worked() -> Vec<u8> {
    let mut bytes = Vec::new();
    let scaled: [(i32, i32, &[i32]); 3] = [(0, 255, &[0, 127, 255]), (-32_768, 32_767, &[-1, 0]), (-1, 1, &[-1, 0, 1])];
    for (min, max, values) in scaled {
        bytes.extend(hub(UPDATES_ON, vec![axis(STICK_X, 33, min, max, 0)]));
        let moves: Vec<_> = values.iter().enumerate().map(|(at, value)| (STICK_X, *value, at as u64)).collect();
        bytes.extend(pump(&moves));
    }
    bytes.extend(hub(UPDATES_ON, vec![axis(STICK_X, 8, 0, 4, 0)]));
    bytes.extend(pump(&[(STICK_X, 3, 0)]));
    bytes.extend(deadzones());
    bytes.extend(repeats());
    bytes.extend(tilts());
    bytes
}

/// A stick of 0..256 whose raw values 160, 224 and 256 are 0.25, 0.75 and 1.
fn stick(deadzone: u32) -> Vec<Element> {
    vec![axis(STICK_X, 33, 0, 256, deadzone), axis(STICK_Y, 34, 0, 256, deadzone)]
}

fn deadzones() -> Vec<u8> {
    let mut bytes = hub(FILTERS_ON | UPDATES_ON, stick(32));
    bytes.extend(by_code(scenario::THRESHOLD, STICK_X));
    bytes.extend(pump(&[(STICK_X, 160, 0)]));
    bytes.extend(by_code(scenario::VALUE_BY_CODE, STICK_X));
    bytes.extend(hub(FILTERS_ON | UPDATES_ON, stick(64)));
    bytes.extend(pump(&[(STICK_X, 224, 0)]));
    bytes.extend(hub(FILTERS_ON | UPDATES_ON, stick(64)));
    bytes.extend(pump(&[(STICK_X, 256, 0), (STICK_Y, 256, 1)]));
    bytes
}

/// "held since 0, after 500, every 30, now 1,000: 17 repeats; now 499: none", each repeat fed back through `update`.
fn repeats() -> Vec<u8> {
    let south = Element { code: SOUTH, kind: sheet::BUTTON, name: 1, min: 0, max: 0, deadzone: 0 };
    let held = |kind, time| Event { kind, pad: 0, name: 1, code: SOUTH, bits: 0, time }.to_bytes();
    let ask = |now: u64| {
        let mut payload = Vec::new();
        [500, 30, now].iter().for_each(|number| put(&mut payload, *number, 8));
        scenario::write(scenario::REPEAT, &payload)
    };
    let mut bytes = hub(FILTERS_ON | UPDATES_ON, vec![south]);
    bytes.extend(scenario::write(scenario::UPDATE, &held(event::PRESSED, 0)));
    bytes.extend(ask(499));
    for number in 0..17 {
        bytes.extend(ask(1_000));
        bytes.extend(scenario::write(scenario::UPDATE, &held(event::REPEATED, 500 + 30 * number)));
    }
    bytes.extend(ask(1_000));
    bytes
}

/// W-205's: these sticks with each pump's report, one held still, and a threshold of 1; then the calculation alone.
fn tilts() -> Vec<u8> {
    let report = |moves: &[(u32, i32, u64)]| pump_by(scenario::PUMP_TILT, moves);
    let mut bytes = hub(FILTERS_ON | UPDATES_ON, stick(32));
    bytes.extend(report(&[(STICK_X, 160, 0)]));
    bytes.extend(hub(FILTERS_ON | UPDATES_ON, stick(64)));
    bytes.extend(report(&[(STICK_X, 224, 0)]));
    bytes.extend(report(&[(STICK_X, 256, 1), (STICK_Y, 256, 2)]));
    bytes.extend(report(&[(STICK_Y, 256, 3)]));
    bytes.extend(hub(FILTERS_ON | UPDATES_ON, stick(128)));
    bytes.extend(report(&[(STICK_X, 256, 0)]));
    for numbers in [[0.25, 0.0, 0.25], [0.75, 0.0, 0.5], [1.0, 1.0, 0.5], [1.0_f32, 0.0, 1.0]] {
        let mut payload = Vec::new();
        numbers.iter().for_each(|number| put(&mut payload, u64::from(number.to_bits()), 4));
        bytes.extend(scenario::write(scenario::DEADZONE, &payload));
    }
    bytes
}
