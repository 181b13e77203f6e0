//! Since when a button is held, by W-206's sentences: events given to the state and events that wait, then records, then what leaves it and what takes it away.

use copperyarn::{
    Axis, Button, ButtonData, Code, Event, EventType, Hub, Name, PadId, RawRecord, Refusal, Settings, Sheet,
};

const SOUTH: Code = Code::key(0x130);
const STICK: Code = Code::abs(0x00);
const TRIGGER: Code = Code::abs(0x02);
const HAT: Code = Code::abs(0x10);
const PAD: PadId = PadId(0);

fn hub_with(settings: Settings) -> Hub {
    let sheet = Sheet::builder()
        .button(SOUTH, Button::South)
        .axis(STICK, Axis::LeftStickX, 0..=255)
        .axis(TRIGGER, Button::LeftTrigger2, 0..=255)
        .build();
    let mut hub = Hub::new(settings).expect("gilrs's thresholds");
    assert_eq!(hub.register(&sheet), Ok(PAD));
    hub
}

fn hub() -> Hub {
    hub_with(Settings::default())
}

fn data(hub: &Hub, code: Code) -> Option<ButtonData> {
    hub.button_data_by_code(PAD, code).expect("a pad")
}

fn since(hub: &Hub, code: Code) -> u64 {
    data(hub, code).expect("a record").since()
}

/// The events of a record.
fn feed(hub: &mut Hub, record: RawRecord) -> Vec<EventType> {
    hub.feed(&[record]).map(|event| event.expect("a record that is served").event).collect()
}

// ---- by events

fn pressed(time: u64) -> Event {
    Event::new(PAD, EventType::ButtonPressed(Button::South, SOUTH), time)
}

fn released(time: u64) -> Event {
    Event::new(PAD, EventType::ButtonReleased(Button::South, SOUTH), time)
}

fn repeated(time: u64) -> Event {
    Event::new(PAD, EventType::ButtonRepeated(Button::South, SOUTH), time)
}

fn changed(time: u64) -> Event {
    Event::new(PAD, EventType::ButtonChanged(Button::South, 0.5, SOUTH), time)
}

fn give(hub: &mut Hub, event: &Event) {
    assert_eq!(hub.update(event), Ok(()));
}

fn hand(hub: &mut Hub, event: &Event) {
    assert_eq!(hub.insert_event(event), Ok(()));
    assert_eq!(hub.feed(&[]).collect::<Vec<_>>(), [Ok(*event)]);
}

/// Since when South is held behind these events, given to the state or pumped, which must read the same.
fn since_behind(events: &[Event]) -> u64 {
    let (mut given, mut handed) = (hub(), hub());
    for event in events {
        give(&mut given, event);
        hand(&mut handed, event);
    }
    assert_eq!(data(&given, SOUTH), data(&handed, SOUTH));
    assert_eq!(given.button_data(PAD, Button::South), Ok(data(&given, SOUTH)));
    assert_eq!(data(&given, SOUTH).map(|data| data.timestamp()), events.last().map(|event| event.time));
    since(&given, SOUTH)
}

#[test]
fn a_press_sets_it_and_what_comes_while_it_is_held_keeps_it() {
    assert_eq!(since_behind(&[pressed(5)]), 5);
    assert_eq!(since_behind(&[pressed(5), repeated(9), pressed(12)]), 5);
    assert_eq!(since_behind(&[pressed(5), changed(7)]), 5);
}

#[test]
fn release_keeps_it_and_the_next_press_sets_it_anew() {
    assert_eq!(since_behind(&[pressed(5), released(6)]), 5);
    assert_eq!(since_behind(&[pressed(5), released(6), pressed(8)]), 8);
    // a repeat presses no button that has a record
    assert_eq!(since_behind(&[pressed(5), released(6), repeated(9)]), 5);
}

#[test]
fn a_record_that_begins_with_released_or_changed_has_0() {
    assert_eq!(since_behind(&[released(6)]), 0);
    assert_eq!(since_behind(&[changed(4)]), 0);
    assert_eq!(since_behind(&[changed(4), repeated(7)]), 0);
    assert_eq!(since_behind(&[changed(4), pressed(7)]), 7);
    assert_eq!(since_behind(&[released(6), pressed(7), changed(8)]), 7);
}

#[test]
fn a_repeat_that_creates_a_record_sets_it_to_its_own_time() {
    assert_eq!(since_behind(&[repeated(7)]), 7);
    assert_eq!(since_behind(&[repeated(7), repeated(9), pressed(12)]), 7);
}

#[test]
fn it_is_the_events_time_and_no_clocks() {
    assert_eq!(since_behind(&[pressed(9), released(8), pressed(2)]), 2);
    assert_eq!(since_behind(&[pressed((1 << 62) - 1)]), (1 << 62) - 1);
    assert_eq!(since_behind(&[pressed(0)]), 0);
}

#[test]
fn repeats_that_are_fed_back_leave_it() {
    let mut hub = hub();
    give(&mut hub, &pressed(20));
    while let Some(event) = hub.repeat(500, 30, 1_000).expect("a clock") {
        give(&mut hub, &event);
    }
    let held = data(&hub, SOUTH).expect("a record");
    assert_eq!((held.is_repeating(), held.timestamp(), held.since()), (true, 1_000, 20));
    give(&mut hub, &released(1_100));
    let let_go = data(&hub, SOUTH).expect("a record");
    assert_eq!(let_go.timestamp() - let_go.since(), 1_080);
}

// ---- by records

#[test]
fn a_trigger_has_0_until_it_is_pressed() {
    let mut hub = hub();
    for (value, time, expected) in [(51, 10, 0), (255, 11, 11), (240, 12, 11), (0, 13, 11), (255, 14, 14)] {
        feed(&mut hub, RawRecord::axis(PAD, TRIGGER, value, time));
        assert_eq!(since(&hub, TRIGGER), expected);
    }
}

#[test]
fn a_hat_presses_again_at_each_record_and_is_held_since_the_first() {
    let mut hub = Hub::new(Settings::default()).expect("gilrs's thresholds");
    assert_eq!(hub.register(&Sheet::builder().axis(HAT, Axis::DPadX, -1..=1).build()), Ok(PAD));
    for time in 5..8 {
        let events = feed(&mut hub, RawRecord::axis(PAD, HAT, 1, time));
        assert_eq!(events[0], EventType::ButtonPressed(Button::DPadRight, Code::DPAD_RIGHT));
        assert_eq!(since(&hub, Code::DPAD_RIGHT), 5);
    }
    feed(&mut hub, RawRecord::axis(PAD, HAT, 0, 8));
    assert_eq!((hub.is_pressed(PAD, Button::DPadRight), since(&hub, Code::DPAD_RIGHT)), (Ok(false), 5));
    feed(&mut hub, RawRecord::axis(PAD, HAT, 1, 9));
    assert_eq!(since(&hub, Code::DPAD_RIGHT), 9);
}

// ---- what leaves it, and what takes it away

#[test]
fn refusals_renames_and_disconnected_leave_it() {
    let mut hub = hub();
    give(&mut hub, &pressed(5));
    give(&mut hub, &released(6));
    let before = hub.clone();
    assert_eq!(hub.update(&pressed(1 << 62)), Err(Refusal::Time));
    assert_eq!(hub.feed(&[RawRecord::pressed(PAD, SOUTH, 1 << 62)]).filter(|event| event.is_err()).count(), 1);
    assert!(hub == before);
    assert_eq!(hub.rename(PAD, &[Button::East.into(), Axis::DPadX.into(), Name::NONE]), Ok(()));
    assert_eq!(hub.button_data(PAD, Button::East).expect("a pad").map(|data| data.since()), Some(5));
    assert_eq!(feed(&mut hub, RawRecord::disconnected(PAD, 7)), [EventType::Disconnected]);
    assert_eq!(since(&hub, SOUTH), 5);
}

#[test]
fn connected_takes_it_away() {
    for (first, expected) in [(pressed(9), 9), (released(9), 0), (repeated(9), 9), (changed(9), 0)] {
        let mut hub = hub();
        give(&mut hub, &pressed(5));
        assert_eq!(feed(&mut hub, RawRecord::connected(PAD, 7)), [EventType::Connected]);
        assert_eq!(data(&hub, SOUTH), None);
        give(&mut hub, &first);
        assert_eq!(since(&hub, SOUTH), expected);
    }
}

#[test]
fn another_pad_has_its_own() {
    let (mut hub, other) = (hub(), PadId(1));
    assert_eq!(hub.register(&Sheet::builder().button(SOUTH, Button::South).build()), Ok(other));
    give(&mut hub, &pressed(5));
    give(&mut hub, &released(6));
    feed(&mut hub, RawRecord::pressed(other, SOUTH, 9));
    assert_eq!(hub.button_data(other, Button::South).expect("a pad").map(|data| data.since()), Some(9));
    feed(&mut hub, RawRecord::connected(other, 10));
    assert_eq!(hub.button_data(other, Button::South), Ok(None));
    assert_eq!(since(&hub, SOUTH), 5);
}

#[test]
fn without_updates_a_pumped_press_writes_nothing() {
    let mut hub = hub_with(Settings { updates: false, ..Settings::default() });
    feed(&mut hub, RawRecord::pressed(PAD, SOUTH, 5));
    assert_eq!(data(&hub, SOUTH), None);
    give(&mut hub, &released(6));
    feed(&mut hub, RawRecord::pressed(PAD, SOUTH, 7));
    assert_eq!(since(&hub, SOUTH), 0);
    give(&mut hub, &pressed(8));
    assert_eq!(since(&hub, SOUTH), 8);
}
