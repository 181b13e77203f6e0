//! gilrs's deadzone calculation, which its filter keeps to itself: the same text, cut out of the supplied file by build.sh.
//! A crate of its own, so that gilrs is built as it is without it.

mod utils;

include!("apply_deadzone.rs");

/// The pair that the calculation answers.
pub fn shrunk(x: f32, y: f32, threshold: f32) -> (f32, f32) {
    apply_deadzone(x, y, threshold)
}
