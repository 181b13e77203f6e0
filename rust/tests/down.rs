//! What is down right now, by W-213's sentences: events given to the state and events that wait, then records, then what leaves it and what takes it away.

use copperyarn::{
    Axis, Button, Code, Down, Event, EventType, Hub, Name, PadId, RawRecord, Reason, Refusal, Settings, Sheet,
    SheetBuilder,
};

const SOUTH: Code = Code::key(0x130);
const PLAIN: Code = Code::key(0x131);
const TRIGGER: Code = Code::abs(0x02);
const HAT: Code = Code::abs(0x10);
const LEFT: Code = Code::DPAD_LEFT;
const PAD: PadId = PadId(0);

/// South, a button with no name, a trigger, and a hat whose directions it does not list.
fn sheet() -> SheetBuilder {
    Sheet::builder()
        .button(SOUTH, Button::South)
        .button(PLAIN, Name::NONE)
        .axis(TRIGGER, Button::LeftTrigger2, 0..=4)
        .axis(HAT, Axis::DPadX, -1..=1)
}

fn hub_with(settings: Settings) -> Hub {
    let mut hub = Hub::new(settings).expect("gilrs's thresholds");
    assert_eq!(hub.register(&sheet().build()), Ok(PAD));
    hub
}

fn hub() -> Hub {
    hub_with(Settings::default())
}

/// How many are down on a pad, whether an axis element is, and the lowest code.
fn down_on(hub: &Hub, pad: PadId) -> (u8, bool, Option<Code>) {
    let Down { count, axis } = hub.down(pad).expect("a pad");
    (count, axis, hub.lowest_pressed(pad).expect("a pad"))
}

fn down(hub: &Hub) -> (u8, bool, Option<Code>) {
    down_on(hub, PAD)
}

const NOTHING: (u8, bool, Option<Code>) = (0, false, None);

/// The events of a record.
fn feed(hub: &mut Hub, record: RawRecord) -> Vec<EventType> {
    hub.feed(&[record]).map(|event| event.expect("a record that is served").event).collect()
}

// ---- by events

fn pressed(code: Code) -> EventType {
    EventType::ButtonPressed(Button::Unknown, code)
}

fn released(code: Code) -> EventType {
    EventType::ButtonReleased(Button::Unknown, code)
}

fn repeated(code: Code) -> EventType {
    EventType::ButtonRepeated(Button::Unknown, code)
}

fn changed(code: Code, value: f32) -> EventType {
    EventType::ButtonChanged(Button::Unknown, value, code)
}

fn give(hub: &mut Hub, event: EventType) {
    assert_eq!(hub.update(&Event::new(PAD, event, 5)), Ok(()));
}

/// Lets the event wait, which moves nothing, and pumps it.
fn hand(hub: &mut Hub, event: EventType) {
    let before = down(hub);
    assert_eq!(hub.insert_event(&Event::new(PAD, event, 5)), Ok(()));
    assert_eq!(down(hub), before);
    assert_eq!(hub.feed(&[]).count(), 1);
}

/// What is down behind these events, given to the state or pumped, which must read the same.
fn behind(events: &[EventType]) -> (u8, bool, Option<Code>) {
    let (mut given, mut handed) = (hub(), hub());
    for event in events {
        give(&mut given, *event);
        hand(&mut handed, *event);
    }
    assert_eq!(down(&given), down(&handed));
    down(&given)
}

#[test]
fn a_press_of_a_pressed_button_counts_once() {
    assert_eq!(behind(&[]), NOTHING);
    assert_eq!(behind(&[pressed(SOUTH)]), (1, false, Some(SOUTH)));
    assert_eq!(behind(&[pressed(SOUTH), pressed(SOUTH)]), (1, false, Some(SOUTH)));
    assert_eq!(behind(&[pressed(SOUTH), pressed(PLAIN)]), (2, false, Some(SOUTH)));
    assert_eq!(behind(&[pressed(SOUTH), pressed(PLAIN), released(SOUTH)]), (1, false, Some(PLAIN)));
    assert_eq!(behind(&[pressed(SOUTH), released(PLAIN), released(PLAIN)]), (1, false, Some(SOUTH)));
    assert_eq!(behind(&[pressed(SOUTH), pressed(SOUTH), released(SOUTH)]), NOTHING);
}

#[test]
fn a_repeat_presses_where_no_record_stood_and_nowhere_else() {
    assert_eq!(behind(&[repeated(SOUTH)]), (1, false, Some(SOUTH)));
    assert_eq!(behind(&[repeated(SOUTH), repeated(SOUTH)]), (1, false, Some(SOUTH)));
    assert_eq!(behind(&[pressed(SOUTH), repeated(SOUTH)]), (1, false, Some(SOUTH)));
    assert_eq!(behind(&[released(SOUTH), repeated(SOUTH)]), NOTHING);
    assert_eq!(behind(&[changed(SOUTH, 1.0), repeated(SOUTH)]), NOTHING);
}

#[test]
fn a_value_neither_presses_nor_releases() {
    assert_eq!(behind(&[changed(TRIGGER, 0.5)]), NOTHING);
    assert_eq!(behind(&[changed(SOUTH, 1.0)]), NOTHING);
    assert_eq!(behind(&[pressed(SOUTH), changed(SOUTH, 0.0)]), (1, false, Some(SOUTH)));
    assert_eq!(behind(&[EventType::AxisChanged(Axis::Unknown, 1.0, SOUTH)]), NOTHING);
}

#[test]
fn an_axis_element_is_one_by_its_kind() {
    assert_eq!(behind(&[pressed(TRIGGER)]), (1, true, Some(TRIGGER)));
    assert_eq!(behind(&[pressed(HAT), pressed(SOUTH)]), (2, true, Some(SOUTH)));
    assert_eq!(behind(&[pressed(TRIGGER), pressed(SOUTH), released(TRIGGER)]), (1, false, Some(SOUTH)));
    assert_eq!(behind(&[pressed(TRIGGER), pressed(HAT), released(TRIGGER)]), (1, true, Some(HAT)));
}

#[test]
fn a_direction_that_is_not_listed_counts_and_is_no_axis_element() {
    assert_eq!(behind(&[pressed(LEFT)]), (1, false, Some(LEFT)));
    assert_eq!(behind(&[pressed(TRIGGER), pressed(LEFT)]), (2, true, Some(LEFT)));
}

#[test]
fn connected_and_disconnected_move_nothing_as_events() {
    assert_eq!(behind(&[pressed(SOUTH), EventType::Connected]), (1, false, Some(SOUTH)));
    assert_eq!(behind(&[pressed(SOUTH), EventType::Disconnected]), (1, false, Some(SOUTH)));
}

#[test]
fn repeats_that_are_fed_back_press_nothing_more() {
    let mut hub = hub();
    give(&mut hub, pressed(SOUTH));
    while let Some(event) = hub.repeat(500, 30, 1_000).expect("a clock") {
        assert_eq!(hub.update(&event), Ok(()));
        assert_eq!(down(&hub), (1, false, Some(SOUTH)));
    }
    give(&mut hub, released(SOUTH));
    assert_eq!(down(&hub), NOTHING);
}

/// The first code is 0, the directions stand in the middle, and the last code would be below 0 with a sign.
#[test]
fn all_52_places_of_a_pad_count() {
    let codes: Vec<Code> =
        [Code(0)].into_iter().chain((0x20d..=0x23e).map(Code::key)).chain([Code(u32::MAX)]).collect();
    let listed = codes.iter().filter(|code| !(Code::DPAD_UP..=Code::DPAD_RIGHT).contains(code));
    let mut hub = Hub::new(Settings::default()).expect("gilrs's thresholds");
    let sheet = listed.fold(Sheet::builder(), |builder, code| builder.button(*code, Name::NONE));
    assert_eq!((codes.len(), hub.register(&sheet.build())), (52, Ok(PAD)));
    for (at, code) in codes.iter().rev().enumerate() {
        give(&mut hub, pressed(*code));
        assert_eq!(down(&hub), (at as u8 + 1, false, Some(*code)));
    }
    for (at, code) in codes.iter().enumerate() {
        assert_eq!(down(&hub), (52 - at as u8, false, Some(*code)));
        give(&mut hub, released(*code));
    }
    assert_eq!(down(&hub), NOTHING);
}

// ---- by records

#[test]
fn a_hat_and_a_trigger_are_down_as_they_press() {
    let mut hub = hub();
    for (code, value, expected) in [
        (HAT, -1, (1, false, Some(LEFT))),
        (HAT, -1, (1, false, Some(LEFT))),
        (TRIGGER, 2, (1, false, Some(LEFT))),
        (TRIGGER, 3, (2, true, Some(LEFT))),
        (HAT, 0, (1, true, Some(TRIGGER))),
        (TRIGGER, 0, NOTHING),
    ] {
        feed(&mut hub, RawRecord::axis(PAD, code, value, 5));
        assert_eq!(down(&hub), expected);
    }
}

#[test]
fn it_is_kept_in_the_step() {
    let (mut hub, mut out) = (hub(), [0; 4 * Event::SIZE]);
    let batch = RawRecord::pressed(PAD, SOUTH, 5).to_bytes();
    assert_eq!((hub.pump(&batch, 0, &mut out, 0).reason, down(&hub)), (Reason::Paused, NOTHING));
    assert_eq!((hub.pump(&batch, 0, &mut [], 9).reason, down(&hub)), (Reason::Full, NOTHING));
    assert_eq!((hub.pump(&batch, 0, &mut out, 1).reason, hub.waiting()), (Reason::Paused, 1));
    assert_eq!(down(&hub), (1, false, Some(SOUTH)));
}

// ---- what leaves it, and what takes it away

#[test]
fn refusals_renames_registrations_and_disconnected_leave_it() {
    let (mut hub, all) = (hub(), (2, true, Some(SOUTH)));
    give(&mut hub, pressed(SOUTH));
    give(&mut hub, pressed(TRIGGER));
    let before = hub.clone();
    assert_eq!(hub.update(&Event::new(PAD, pressed(PLAIN), 1 << 62)), Err(Refusal::Time));
    assert_eq!(hub.feed(&[RawRecord::released(PAD, SOUTH, 1 << 62)]).filter(|event| event.is_err()).count(), 1);
    assert_eq!(hub.rename(PAD, &[Name::NONE]), Err(Refusal::Sheet));
    assert!(hub == before);
    assert_eq!(hub.rename(PAD, &[Axis::LeftZ.into(), Button::East.into(), Name::NONE, Name::NONE]), Ok(()));
    assert_eq!(down(&hub), all);
    assert_eq!(hub.register(&sheet().build()), Ok(PadId(1)));
    assert_eq!((down(&hub), down_on(&hub, PadId(1))), (all, NOTHING));
    assert_eq!(feed(&mut hub, RawRecord::disconnected(PAD, 7)), [EventType::Disconnected]);
    assert_eq!((hub.is_connected(PAD), down(&hub)), (Ok(false), all));
}

#[test]
fn connected_takes_it_away_of_its_pad_alone() {
    for leaves in [false, true] {
        let (mut hub, other) = (hub(), PadId(1));
        assert_eq!(hub.register(&sheet().build()), Ok(other));
        give(&mut hub, pressed(SOUTH));
        give(&mut hub, pressed(TRIGGER));
        feed(&mut hub, RawRecord::pressed(other, SOUTH, 6));
        if leaves {
            feed(&mut hub, RawRecord::disconnected(PAD, 7));
        }
        assert_eq!(feed(&mut hub, RawRecord::connected(PAD, 8)), [EventType::Connected]);
        assert_eq!((down(&hub), down_on(&hub, other)), (NOTHING, (1, false, Some(SOUTH))));
        feed(&mut hub, RawRecord::pressed(PAD, PLAIN, 9));
        assert_eq!(down(&hub), (1, false, Some(PLAIN)));
    }
}

#[test]
fn without_updates_only_update_and_connected_move_it() {
    let mut hub = hub_with(Settings { updates: false, ..Settings::default() });
    feed(&mut hub, RawRecord::pressed(PAD, SOUTH, 5));
    assert_eq!(down(&hub), NOTHING);
    give(&mut hub, pressed(TRIGGER));
    feed(&mut hub, RawRecord::pressed(PAD, SOUTH, 6));
    assert_eq!(down(&hub), (1, true, Some(TRIGGER)));
    feed(&mut hub, RawRecord::connected(PAD, 7));
    assert_eq!(down(&hub), NOTHING);
}
