//! The deadzone calculation, and which of three it was. gilrs's filter makes the calculation too, and tells nobody.

use crate::library;

/// Which of three a deadzone calculation was: why a stick went quiet, or did not.
///
/// It goes by the magnitude of the stick, `sqrt(x * x + y * y)` held to 1, and the threshold; an axis that has no partner has 0.0 beside it. A
/// [`PumpReport`](crate::PumpReport) has the one of its call's last axis event that met a threshold, and so has a [`Feed`](crate::Feed):
///
/// ```
/// use copperyarn::{Axis, Code, Event, Hub, RawRecord, Settings, Sheet, Tilt};
///
/// let (x, y) = (Code::abs(0x00), Code::abs(0x01));
/// let sheet = Sheet::builder()
///     .axis_with_deadzone(x, Axis::LeftStickX, 0..=256, 64)
///     .axis_with_deadzone(y, Axis::LeftStickY, 0..=256, 64);
/// let mut hub = Hub::new(Settings::default())?;
/// let pad = hub.register(&sheet.build())?;
/// assert_eq!(hub.deadzone(pad, x)?, Some(0.5));
///
/// // a quarter of the way: there is no event, and this is why
/// let records = [RawRecord::axis(pad, x, 160, 1_000)];
/// let mut feed = hub.feed(&records);
/// assert_eq!((feed.next(), feed.tilt()), (None, Some(Tilt::Inside)));
///
/// // x at its end, and then y in its middle, which is full tilt beside it
/// let batch = [RawRecord::axis(pad, x, 256, 2_000).to_bytes(), RawRecord::axis(pad, y, 128, 3_000).to_bytes()].concat();
/// let report = hub.pump(&batch, 0, &mut [0; 16 * Event::SIZE], u16::MAX);
/// assert_eq!((report.events, report.tilt), (1, Some(Tilt::Full)));
/// # Ok::<(), copperyarn::Refusal>(())
/// ```
#[derive(Clone, Copy, Debug, Eq, Hash, PartialEq)]
pub enum Tilt {
    /// Inside the dead zone: the magnitude is at or below the threshold, and both values become 0.0. A threshold of 1.0 or more has everything inside.
    Inside,
    /// The magnitude is above the threshold and below 1.0: both values are scaled, so that the rest fills 0.0 to 1.0.
    Between,
    /// Full tilt: the magnitude is 1.0 and above the threshold. Both values stay as they are.
    Full,
}

impl Tilt {
    /// Of the library's number; none of 0.
    pub(crate) fn of(number: u8) -> Option<Tilt> {
        match number {
            1 => Some(Tilt::Inside),
            2 => Some(Tilt::Between),
            3 => Some(Tilt::Full),
            _ => None,
        }
    }
}

/// The deadzone calculation by itself, as the filter makes it: the pair that the values of a stick become, and which of the three it was.
///
/// It is gilrs's function of this name, which is private there and answers the pair alone. [`Hub::deadzone`](crate::Hub::deadzone) tells an axis's threshold. It
/// takes any numbers; where one is NaN, or the threshold below 0.0, which no pad's is, the pair may be NaN.
///
/// ```
/// use copperyarn::{apply_deadzone, Tilt};
///
/// assert_eq!(apply_deadzone(0.25, 0.0, 0.25), ((0.0, 0.0), Tilt::Inside));
/// assert_eq!(apply_deadzone(0.75, 0.0, 0.5), ((0.5, 0.0), Tilt::Between));
/// assert_eq!(apply_deadzone(1.0, 1.0, 0.5), ((1.0, 1.0), Tilt::Full));
/// assert_eq!(apply_deadzone(1.0, 0.0, 1.0), ((0.0, 0.0), Tilt::Inside));
/// ```
pub fn apply_deadzone(x: f32, y: f32, threshold: f32) -> ((f32, f32), Tilt) {
    let tilted = library::deadzone(x, y, threshold);
    // the library answers one of the three and never 0
    ((tilted.x, tilted.y), Tilt::of(tilted.tilt).unwrap_or(Tilt::Between))
}
