//! Why a stick went quiet, by W-205's sentences: the deadzone calculation, then a pump's report of it: each of the three, what meets no threshold, which event of
//! which call is told of, and what a refused call tells.

use copperyarn::{
    apply_deadzone, Axis, Button, Code, Event, EventType, Hub, PadId, PumpReport, RawRecord, Reason, Refusal, Settings,
    Sheet, Tilt,
};
use Tilt::{Between, Full, Inside};

const SOUTH: Code = Code::key(0x130);
const X: Code = Code::abs(0x00);
const Y: Code = Code::abs(0x01);
const TRIGGER: Code = Code::abs(0x02);
const HAT: Code = Code::abs(0x10);
const PAD: PadId = PadId(0);

/// Raw values of the stick: the middle, a quarter of the way, half, which is its threshold, three quarters, the end.
const MIDDLE: i32 = 128;
const QUARTER: i32 = 160;
const HALF: i32 = 192;
const MOST: i32 = 224;
const END: i32 = 256;

fn hub_with(settings: Settings, deadzone: u32) -> Hub {
    let sheet = Sheet::builder()
        .button(SOUTH, Button::South)
        .axis_with_deadzone(X, Axis::LeftStickX, 0..=END, deadzone)
        .axis_with_deadzone(Y, Axis::LeftStickY, 0..=END, deadzone)
        .axis(TRIGGER, Button::LeftTrigger2, 0..=255)
        .axis(HAT, Axis::DPadX, -1..=1)
        .build();
    let mut hub = Hub::new(settings).expect("gilrs's thresholds");
    assert_eq!(hub.register(&sheet), Ok(PAD));
    hub
}

/// A stick with a threshold of 0.5.
fn hub() -> Hub {
    hub_with(Settings::default(), 64)
}

fn x(value: i32) -> RawRecord {
    RawRecord::axis(PAD, X, value, 5)
}

fn y(value: i32) -> RawRecord {
    RawRecord::axis(PAD, Y, value, 5)
}

fn press() -> RawRecord {
    RawRecord::pressed(PAD, SOUTH, 5)
}

/// One call over these records.
fn pump(hub: &mut Hub, records: &[RawRecord], allowance: u16) -> PumpReport {
    let batch: Vec<u8> = records.iter().flat_map(|record| record.to_bytes()).collect();
    hub.pump(&batch, 0, &mut [0; 16 * Event::SIZE], allowance)
}

fn tilt(hub: &mut Hub, records: &[RawRecord]) -> Option<Tilt> {
    let mut again = hub.clone();
    let report = pump(hub, records, u16::MAX);
    assert_eq!(report.reason, Reason::Drained);
    // a feed of the same records tells the same
    let mut feed = again.feed(records);
    assert_eq!(feed.by_ref().filter(Result::is_ok).count(), report.events);
    assert_eq!(feed.tilt(), report.tilt);
    report.tilt
}

// ---- the calculation

#[test]
fn the_calculation_tells_which_of_the_three_it_was() {
    assert_eq!(apply_deadzone(0.25, 0.0, 0.25), ((0.0, 0.0), Inside));
    assert_eq!(apply_deadzone(0.75, 0.0, 0.5), ((0.5, 0.0), Between));
    assert_eq!(apply_deadzone(1.0, 1.0, 0.5), ((1.0, 1.0), Full));
    assert_eq!(apply_deadzone(1.0, 0.0, 1.0), ((0.0, 0.0), Inside));
    assert_eq!(apply_deadzone(1.0, 1.0, 2.0), ((0.0, 0.0), Inside));
    // a pair that stays is not full for that
    assert_eq!(apply_deadzone(0.5, 0.0, 0.0), ((0.5, 0.0), Between));
    assert_eq!(apply_deadzone(0.0, 0.0, 0.0), ((0.0, 0.0), Inside));
}

#[test]
fn both_values_count_and_full_tilt_leaves_them() {
    for (x, y) in [(0.8_f32, 0.6_f32), (-0.6, 0.8), (1.0, -0.0), (-1.0, 0.5), (2.0, 0.0), (f32::INFINITY, 1.0)] {
        let ((left, right), tilt) = apply_deadzone(x, y, 0.5);
        assert_eq!((left.to_bits(), right.to_bits(), tilt), (x.to_bits(), y.to_bits(), Full));
    }
}

#[test]
fn one_step_of_the_format_decides() {
    let (below, above) = (f32::from_bits(0.25_f32.to_bits() - 1), f32::from_bits(0.25_f32.to_bits() + 1));
    assert_eq!(apply_deadzone(below, 0.0, 0.25).1, Inside);
    assert_eq!(apply_deadzone(above, 0.0, 0.25).1, Between);
    assert_eq!(apply_deadzone(0.999_999_94, 0.0, 0.25).1, Between);
    assert_eq!(apply_deadzone(1.0, 0.0, 0.999_999_94).1, Full);
}

// ---- the three, and what meets no threshold

#[test]
fn each_of_the_three_is_reported() {
    let cases = [
        (MIDDLE, Inside, 0),
        (QUARTER, Inside, 0),
        (HALF, Inside, 0),
        (HALF + 1, Between, 1),
        (MOST, Between, 1),
        (END, Full, 1),
        (0, Full, 1),
    ];
    for (value, tilt, events) in cases {
        let report = pump(&mut hub(), &[x(value)], u16::MAX);
        assert_eq!((report.tilt, report.events, report.steps), (Some(tilt), events, 1));
    }
    assert_eq!(tilt(&mut hub_with(Settings::default(), 128), &[x(END)]), Some(Inside));
}

#[test]
fn what_meets_no_threshold_is_none() {
    let mut hub = hub();
    assert_eq!(tilt(&mut hub, &[]), None);
    assert_eq!(tilt(&mut hub, &[press()]), None);
    assert_eq!(tilt(&mut hub, &[RawRecord::axis(PAD, TRIGGER, 255, 6)]), None);
    assert_eq!(tilt(&mut hub, &[RawRecord::axis(PAD, HAT, 1, 7)]), None);
    assert_eq!(hub.is_pressed(PAD, Button::DPadRight), Ok(true));
    assert_eq!(tilt(&mut hub, &[RawRecord::disconnected(PAD, 8), RawRecord::connected(PAD, 9)]), None);
    let mut unfiltered = hub_with(Settings { filters: false, ..Settings::default() }, 64);
    assert_eq!(tilt(&mut unfiltered, &[x(END), x(QUARTER)]), None);
}

// ---- which event is told of

#[test]
fn what_the_deadzone_drops_counts() {
    let mut hub = hub();
    assert_eq!(tilt(&mut hub, &[x(MOST)]), Some(Between));
    // 0.75 becomes 0.5 again, which the state has
    let again = pump(&mut hub, &[x(MOST)], u16::MAX);
    assert_eq!((again.events, again.tilt), (0, Some(Between)));
}

#[test]
fn what_jitter_drops_does_not() {
    let mut still = hub();
    assert_eq!(tilt(&mut still, &[x(END)]), Some(Full));
    assert_eq!(tilt(&mut still, &[x(END)]), None);
    // the second is 0.5, as the state has it, and would be inside
    assert_eq!(tilt(&mut hub(), &[x(MOST), x(HALF)]), Some(Between));
}

#[test]
fn the_partner_counts_as_the_state_has_it() {
    let mut end = hub();
    assert_eq!(tilt(&mut end, &[x(END)]), Some(Full));
    assert_eq!(tilt(&mut end, &[y(MIDDLE)]), Some(Full));
    let mut most = hub();
    assert_eq!(tilt(&mut most, &[x(MOST)]), Some(Between));
    assert_eq!(tilt(&mut most.clone(), &[y(QUARTER)]), Some(Between));
    // 0.5 behind the deadzone, and not 0.75
    assert_eq!(tilt(&mut most, &[y(MIDDLE)]), Some(Inside));
    let mut unwritten = hub_with(Settings { updates: false, ..Settings::default() }, 64);
    assert_eq!(tilt(&mut unwritten, &[x(END), y(MIDDLE)]), Some(Inside));
}

#[test]
fn it_is_the_calls_last_and_nothing_is_kept() {
    let mut hub = hub();
    assert_eq!(tilt(&mut hub, &[x(END), x(QUARTER)]), Some(Inside));
    assert_eq!(tilt(&mut hub, &[x(QUARTER), x(END), press()]), Some(Full));
    assert_eq!(tilt(&mut hub, &[press()]), None);
    assert_eq!(tilt(&mut hub, &[]), None);
}

#[test]
fn a_call_that_stops_tells_of_its_own_steps() {
    let mut hub = hub();
    assert_eq!(pump(&mut hub, &[x(END)], 0).tilt, None);
    let first = pump(&mut hub, &[x(END), x(QUARTER)], 1);
    assert_eq!((first.reason, first.tilt), (Reason::Paused, Some(Full)));
    assert_eq!(tilt(&mut hub, &[x(QUARTER)]), Some(Inside));
}

#[test]
fn the_event_that_clears_is_one_of_the_call_that_serves_it() {
    let mut hub = hub();
    assert_eq!(tilt(&mut hub, &[x(MOST)]), Some(Between));
    assert_eq!(pump(&mut hub, &[y(MIDDLE)], 1).tilt, Some(Inside));
    assert_eq!((hub.waiting(), hub.value_by_code(PAD, X)), (1, Ok(0.5)));
    assert_eq!(tilt(&mut hub, &[]), Some(Inside));
    assert_eq!((hub.waiting(), hub.value_by_code(PAD, X)), (0, Ok(0.0)));
}

#[test]
fn the_callers_events_count_by_their_code() {
    let mut hub = hub();
    let mut inserted = |event: EventType| {
        assert_eq!(hub.insert_event(&Event::new(PAD, event, 5)), Ok(()));
        tilt(&mut hub, &[])
    };
    assert_eq!(inserted(EventType::AxisChanged(Axis::LeftStickX, 0.25, X)), Some(Inside));
    assert_eq!(inserted(EventType::AxisChanged(Axis::LeftStickX, -1.0, X)), Some(Full));
    // no axis element's
    assert_eq!(inserted(EventType::AxisChanged(Axis::LeftStickX, 1.0, SOUTH)), None);
    assert_eq!(inserted(EventType::AxisChanged(Axis::LeftStickX, 1.0, Code::DPAD_UP)), None);
    // the event's own name tells the partner
    assert_eq!(inserted(EventType::AxisChanged(Axis::Unknown, 0.25, Y)), Some(Inside));
    assert_eq!(inserted(EventType::AxisChanged(Axis::LeftStickY, 0.25, Y)), Some(Full));
    assert_eq!(inserted(EventType::ButtonChanged(Button::South, 0.5, X)), None);
}

// ---- refusals, and the feed

#[test]
fn a_refused_record_leaves_what_came_before_it() {
    let nowhere = RawRecord::axis(PAD, Code(0x0009_9999), 0, 6);
    let mut hub = hub();
    let report = pump(&mut hub, &[x(END), nowhere, x(QUARTER)], u16::MAX);
    assert_eq!((report.reason, report.place, report.tilt), (Reason::Refused(Refusal::Unlisted), 21, Some(Full)));
    let report = pump(&mut hub, &[nowhere, x(QUARTER)], u16::MAX);
    assert_eq!((report.reason, report.tilt), (Reason::Refused(Refusal::Unlisted), None));
}

#[test]
fn a_call_that_is_refused_as_a_whole_has_none() {
    let mut hub = hub();
    assert_eq!(tilt(&mut hub, &[x(END)]), Some(Full));
    let past = hub.pump(&x(QUARTER).to_bytes(), 22, &mut [0; 22], u16::MAX);
    assert_eq!((past.reason, past.tilt), (Reason::Refused(Refusal::Malformed), None));
    let long = hub.pump(&[0; 16_385], 0, &mut [0; 22], u16::MAX);
    assert_eq!((long.reason, long.tilt), (Reason::Refused(Refusal::TooLong), None));
}

#[test]
fn a_feed_tells_of_its_events_so_far() {
    let nowhere = RawRecord::axis(PAD, Code(0x0009_9999), 0, 6);
    let mut hub = hub();
    let records = [x(QUARTER), press(), x(END), nowhere, x(MOST)];
    let mut feed = hub.feed(&records);
    assert_eq!(feed.tilt(), None);
    let mut told = Vec::new();
    while feed.next().is_some() {
        told.push(feed.tilt());
    }
    // a press and its value behind the drop, full tilt, the refused record, then 0.75
    assert_eq!(told, [Some(Inside), Some(Inside), Some(Full), Some(Full), Some(Between)]);
    assert_eq!(feed.tilt(), Some(Between));
    assert_eq!(hub.feed(&[]).tilt(), None);
}
