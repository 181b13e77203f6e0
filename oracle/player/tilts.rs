//! Random numbers for the deadzone calculation alone. The hub's own pads give values in -1..1 and thresholds from 0 on;
//! here a pair may lie past the rim and a threshold below 0, up to the infinities. No number is NaN.

use crate::random::Random;
use reading::bytes::put;

/// What pads have, 1 with its neighbours, and what no pad has.
const THRESHOLDS: [f32; 14] =
    [0.0, -0.0, 0.1, 0.1, 0.25, 0.25, 0.5, 0.5, 0.999_999_94, 1.0, 1.0, 1.000_000_1, 2.0, -0.25];
const FAR: [f32; 5] = [1.000_000_1, 2.0, 1.0e30, f32::MAX, f32::INFINITY];

/// Points whose magnitude is 1, or one rounding away from it.
const RIM: [(f32, f32); 6] = [
    (0.6, 0.8),
    (0.28, 0.96),
    (0.707_106_77, 0.707_106_77),
    (0.707_106_83, 0.707_106_77),
    (0.707_106_83, 0.707_106_83),
    (0.999_999_94, 0.000_1),
];

/// The payload of the operation: x, y, threshold.
pub fn payload(random: &mut Random) -> Vec<u8> {
    let (x, y) = pair(random);
    let threshold = threshold(random, (x * x + y * y).sqrt().min(1.0));
    let mut payload = Vec::new();
    for number in [x, y, threshold] {
        put(&mut payload, u64::from(number.to_bits()), 4);
    }
    payload
}

/// In the middle, alone at a usual threshold, at full tilt, on the diagonal, on the rim, anywhere, rarely past the rim;
/// in any quarter, and either axis first.
fn pair(random: &mut Random) -> (f32, f32) {
    let (x, y) = match random.below(14) {
        0 => (0.0, 0.0),
        1 | 2 => (random.among(&THRESHOLDS), 0.0),
        3 | 4 => (1.0, random.among(&[0.0, 0.0, 0.5, 1.0])),
        5 | 6 => {
            let both = random.among(&[0.1, 0.25, 0.5, 0.75, 1.0]);
            (both, both)
        }
        7 | 8 => random.among(&RIM),
        9 => (random.among(&FAR), random.among(&[0.0, 1.0, f32::INFINITY])),
        _ => (fraction(random), fraction(random)),
    };
    let (x, y) = if random.chance(50) { (x, y) } else { (y, x) };
    (signed(random, x), signed(random, y))
}

/// The magnitude or a neighbour of it, a usual threshold, or rarely an infinity.
fn threshold(random: &mut Random, magnitude: f32) -> f32 {
    let bits = magnitude.to_bits();
    match random.below(24) {
        0..=3 => magnitude,
        4 | 5 => f32::from_bits(bits + 1),
        6 => f32::from_bits(bits.saturating_sub(1)),
        7 => random.among(&[f32::INFINITY, f32::NEG_INFINITY, -1.0e30]),
        _ => random.among(&THRESHOLDS),
    }
}

/// A value in 0..1, all sizes alike or all exponents alike.
fn fraction(random: &mut Random) -> f32 {
    let parts = 1 << f32::MANTISSA_DIGITS;
    if random.chance(70) {
        random.below(parts + 1) as f32 / parts as f32
    } else {
        f32::from_bits(random.below(u64::from(1.0_f32.to_bits()) + 1) as u32)
    }
}

fn signed(random: &mut Random, value: f32) -> f32 {
    if random.chance(50) {
        -value
    } else {
        value
    }
}
