//! W-205's report: which of three the deadzone calculation was, which gilrs tells nobody. The player looks at an event
//! where gilrs's deadzone filter is about to take it, behind the other two. Whether its code has a threshold, which, and
//! what the partner's value is, gilrs is asked; only the magnitude and the three are read here, by 02's words. What
//! the filter then makes of the event must be what gilrs's calculation gives for the numbers that were asked for.

use crate::hub::Hub;
use gilrs::ev::filter::deadzone;
use gilrs::{EventType, Filter};

#[derive(Clone, Copy, Debug, Eq, PartialEq)]
pub enum Tilt {
    Inside,
    Between,
    Full,
}

/// NaN has no bits of its own in the answers: each is this one.
const NAN: u32 = 0x7fc0_0000;

/// The numbers of one calculation: an axis's value, its partner's, the threshold.
#[derive(Clone, Copy, Debug)]
pub struct Calculation {
    pub x: f32,
    pub y: f32,
    pub threshold: f32,
}

impl Calculation {
    /// The one that gilrs's filter makes for an event, if it makes one for an axis event.
    fn of(hub: &Hub, event: &gilrs::Event) -> Option<Calculation> {
        let (axis, x, code) = match event.event {
            EventType::AxisChanged(axis, value, code) => (axis, value, code),
            _ => return None,
        };
        let pad = hub.gilrs.gamepad(event.id);
        let threshold = pad.deadzone(code)?;
        let partner = axis.second_axis().and_then(|second| pad.axis_code(second));
        let y = partner.map_or(0.0, |code| pad.state().value(code));
        Some(Calculation { x, y, threshold })
    }

    /// "Inside is magnitude at or below the threshold; full is held magnitude equal to 1 and above the threshold"
    fn tilt(&self) -> Tilt {
        let magnitude = (self.x * self.x + self.y * self.y).sqrt().clamp(0.0, 1.0);
        if magnitude <= self.threshold {
            Tilt::Inside
        } else if magnitude == 1.0 {
            Tilt::Full
        } else {
            Tilt::Between
        }
    }

    /// The answer to operation 41.
    pub fn line(&self) -> String {
        let (x, y) = calculation::shrunk(self.x, self.y, self.threshold);
        format!("PAIR {:08x} {:08x} {}", bits(x), bits(y), word(self.tilt()))
    }

    /// Holds the filter's answer to gilrs's calculation: the event has its value, or was dropped as the state has it.
    fn hold(&self, hub: &Hub, before: &gilrs::Event, after: &gilrs::Event) {
        let (x, _) = calculation::shrunk(self.x, self.y, self.threshold);
        match (before.event, after.event) {
            (_, EventType::AxisChanged(_, value, _)) => assert_eq!(bits(value), bits(x), "{:?} gave {:?}", self, after),
            (EventType::AxisChanged(_, _, code), EventType::Dropped) => {
                assert_eq!(hub.gilrs.gamepad(before.id).state().value(code), x, "{:?} was dropped", self)
            }
            _ => panic!("the deadzone filter makes {:?} of {:?}", after, before),
        }
    }
}

/// Gives an event to gilrs's deadzone filter: what comes out, and which of the three it was if it was an axis event for
/// which a calculation was made.
pub fn filter(hub: &mut Hub, event: gilrs::Event) -> (gilrs::Event, Option<Tilt>) {
    let calculation = Calculation::of(hub, &event);
    let filtered = event.filter_ev(&deadzone, &mut hub.gilrs).expect("an event of an event");
    calculation.iter().for_each(|calculation| calculation.hold(hub, &event, &filtered));
    (filtered, calculation.map(|calculation| calculation.tilt()))
}

/// The line behind a pump's answer.
pub fn line(report: Option<Tilt>) -> String {
    format!("TILT {}", report.map_or("NONE", word))
}

fn word(tilt: Tilt) -> &'static str {
    match tilt {
        Tilt::Inside => "INSIDE",
        Tilt::Between => "BETWEEN",
        Tilt::Full => "FULL",
    }
}

fn bits(value: f32) -> u32 {
    if value.is_nan() {
        NAN
    } else {
        value.to_bits()
    }
}
