// Writes the list of the program `values` to standard output: for each leaf in turn RECORDS records of big-endian words, inputs and then the answer.
include!("stand_ins.rs");
include!("functions.rs");
mod inputs;

use inputs::{Draw, ABSENT, LARGEST, LARGEST_DEADZONE, LEAST};
use std::io::Write;

const RECORDS: u32 = 20_000;

// the bits of an answer: any NaN is 0x7fc00000
fn bits(x: f32) -> u32 {
    if x.is_nan() {
        0x7fc0_0000
    } else {
        x.to_bits()
    }
}

fn within(d: &mut Draw) -> Vec<u32> {
    let end = [LEAST, LARGEST, i32::MIN + 2, i32::MAX - 2, 0][d.below(5) as usize];
    let raw = if d.below(2) == 0 { end + d.below(5) as i32 - 2 } else { d.bits() as i32 };
    vec![raw as u32, (LEAST..=LARGEST).contains(&raw) as u32]
}

// squares and their neighbours are where a root lies on or beside a value, or beside the middle of two
fn root(d: &mut Draw) -> Vec<u32> {
    let x = match d.below(4) {
        0 => {
            let r = f32::from_bits((d.below(60) + 98) << 23 | d.below(4_096) << 11);
            d.beside(r * r)
        }
        1 => {
            let r = f32::from_bits((d.below(60) + 98) << 23 | d.bits() >> 9);
            d.beside(r * r)
        }
        2 => f32::from_bits(d.bits()),
        _ => d.value(),
    };
    vec![bits(x), bits(x.sqrt())]
}

fn clamp(d: &mut Draw) -> Vec<u32> {
    let (lo, hi) = match d.below(4) {
        0 => (-1.0, 1.0),
        1 => (0.0, 1.0),
        _ => loop {
            let (a, b) = (d.value(), d.value());
            if a <= b {
                break (a, b);
            }
        },
    };
    let x = match d.below(4) {
        0 => d.beside(lo),
        1 => d.beside(hi),
        _ => d.value(),
    };
    vec![bits(x), bits(lo), bits(hi), bits(utils::clamp(x, lo, hi))]
}

fn magnitude(d: &mut Draw) -> Vec<u32> {
    let (x, y) = (d.value(), d.value());
    vec![bits(x), bits(y), bits(utils::clamp((x * x + y * y).sqrt(), 0.0, 1.0))]
}

fn axis(d: &mut Draw) -> Vec<u32> {
    let (min, max) = d.range();
    let raw = d.raw(min, max);
    let reversed = d.below(2);
    let name = [Axis::LeftStickY, Axis::RightStickY, Axis::DPadY][d.below(3) as usize];
    let name = if reversed == 1 { name } else { Axis::LeftStickX };
    let info = AxisInfo { min, max, deadzone: None };
    vec![min as u32, max as u32, reversed, raw as u32, bits(axis_value(&info, raw, name))]
}

fn button(d: &mut Draw) -> Vec<u32> {
    let (min, max) = d.range();
    let raw = d.raw(min, max);
    let info = AxisInfo { min, max, deadzone: None };
    vec![min as u32, max as u32, raw as u32, bits(btn_value(&info, raw))]
}

fn pad(info: AxisInfo, stored: f32) -> Gamepad {
    Gamepad { inner: Inner { info }, stored: Stored(stored) }
}

fn threshold(d: &mut Draw) -> Vec<u32> {
    let (min, max) = d.range();
    let deadzone = match d.below(5) {
        0 => [0, 1, LARGEST_DEADZONE - 1, LARGEST_DEADZONE, ABSENT][d.below(5) as usize],
        1 => d.below(LARGEST_DEADZONE + 1),
        _ => d.below((max - min) as u32 + 1).min(LARGEST_DEADZONE),
    };
    let info = AxisInfo { min, max, deadzone: if deadzone == ABSENT { None } else { Some(deadzone) } };
    let answer = pad(info, 0.0).deadzone(Code(0)).unwrap();
    vec![min as u32, max as u32, deadzone, bits(answer)]
}

// a quarter lie at their threshold or beside it
fn deadzone(d: &mut Draw) -> Vec<u32> {
    let (x, y) = if d.below(2) == 0 { (d.stick(), d.stick()) } else { (d.value(), d.value()) };
    let m = utils::clamp((x * x + y * y).sqrt(), 0.0, 1.0);
    let t = match d.below(8) {
        0 => m,
        1 => d.beside(m),
        2 => d.value(),
        3 => 0.1,
        _ => d.stick().abs(),
    };
    let (left, right) = apply_deadzone(x, y, t);
    vec![bits(x), bits(y), bits(t), bits(left), bits(right)]
}

// half lie beside the limit
fn jitter(d: &mut Draw) -> Vec<u32> {
    let stored = d.value();
    let value = match d.below(4) {
        0 => d.beside(stored + 0.01),
        1 => d.beside(stored - 0.01),
        2 => d.beside(stored),
        _ => d.value(),
    };
    let mut hub = Gilrs(pad(AxisInfo { min: 0, max: 1, deadzone: None }, stored));
    let event = Event::new(0, EventType::AxisChanged(Axis::LeftStickX, value, Code(0)));
    let dropped = matches!(Jitter::new().filter(Some(event), &mut hub), Some(Event { event: EventType::Dropped, .. }));
    vec![bits(value), bits(stored), dropped as u32]
}

fn main() {
    let leaves: [fn(&mut Draw) -> Vec<u32>; 9] = [within, root, clamp, magnitude, axis, button, threshold, deadzone, jitter];
    let mut out = Vec::new();
    for (seed, leaf) in leaves.iter().enumerate() {
        let mut d = Draw::new(seed as u64 + 1);
        for _ in 0..RECORDS {
            for word in leaf(&mut d) {
                out.extend_from_slice(&word.to_be_bytes());
            }
        }
    }
    std::io::stdout().write_all(&out).unwrap();
}
