//! Zone pads, by W-203's sentences: where a hat presses, what the same zone gives, what moves the zones that are kept, and what becomes of the hats byte.

use copperyarn::{
    Axis, Button, Code, Event, EventType, Hub, Name, PadId, RawRecord, Refusal, Settings, Sheet, SheetBuilder,
};

const HAT_X: Code = Code::abs(0x10);
const HAT_Y: Code = Code::abs(0x11);
const PAD: PadId = PadId(0);
const ZONE_PAD: u8 = 128;

/// A hat of 0..255.
fn hat() -> SheetBuilder {
    Sheet::builder().axis(HAT_X, Axis::DPadX, 0..=255).axis(HAT_Y, Axis::DPadY, 0..=255)
}

fn names() -> [Name; 2] {
    [Axis::DPadX.into(), Axis::DPadY.into()]
}

fn settings() -> Settings {
    Settings { reversed_y: false, ..Settings::default() }
}

fn hub_of(sheet: &Sheet) -> Hub {
    let mut hub = Hub::new(settings()).expect("gilrs's thresholds");
    assert_eq!(hub.register(sheet), Ok(PAD));
    hub
}

/// A hub with one zone pad.
fn hub() -> Hub {
    hub_of(&hat().zones().build())
}

fn feed(hub: &mut Hub, record: RawRecord) -> Vec<EventType> {
    hub.feed(&[record]).map(|event| event.expect("a record that is served").event).collect()
}

fn turn(hub: &mut Hub, hat: Code, value: i32) -> Vec<EventType> {
    feed(hub, RawRecord::axis(PAD, hat, value, 9))
}

fn pressed(hub: &Hub, button: Button) -> bool {
    hub.is_pressed(PAD, button).expect("a pad")
}

fn kept(hub: &Hub) -> [u8; 2] {
    let zones = hub.fields().head.zones;
    [zones[0], zones[1]]
}

// ---- the zones

#[test]
fn a_hat_presses_from_one_half_on_and_from_minus_one_half_down() {
    for sheet in [hat().zones().build(), hat().hats(15).zones().build(), hat().hats(ZONE_PAD | 15).build()] {
        for value in 0..=255 {
            let mut hub = hub_of(&sheet);
            let (minus, plus) = (value <= 63, value >= 191);
            assert_eq!(turn(&mut hub, HAT_X, value).len(), if minus || plus { 2 } else { 0 }, "x {value}");
            assert_eq!((pressed(&hub, Button::DPadLeft), pressed(&hub, Button::DPadRight)), (minus, plus), "x {value}");
            assert_eq!(turn(&mut hub, HAT_Y, value).len(), if minus || plus { 2 } else { 0 }, "y {value}");
            assert_eq!((pressed(&hub, Button::DPadDown), pressed(&hub, Button::DPadUp)), (minus, plus), "y {value}");
        }
    }
}

#[test]
fn y_is_turned_before_its_zone_is_read() {
    let mut hub = Hub::new(Settings::default()).expect("gilrs's thresholds");
    assert_eq!(hub.register(&hat().zones().build()), Ok(PAD));
    let up = |hub: &mut Hub, value| {
        turn(hub, HAT_Y, value);
        (pressed(hub, Button::DPadUp), pressed(hub, Button::DPadDown))
    };
    assert_eq!(
        [63, 64, 190, 191].map(|value| up(&mut hub, value)),
        [(true, false), (false, false), (false, false), (false, true)]
    );
}

#[test]
fn a_pad_without_the_mark_is_gilrs_s() {
    for hats in [0, 15] {
        let mut hub = hub_of(&hat().hats(hats).build());
        assert_eq!([0, 254, 255, 255].map(|value| turn(&mut hub, HAT_X, value).len()), [0, 0, 2, 2]);
        assert_eq!(kept(&hub), [0, 0]);
    }
}

#[test]
fn the_same_zone_hands_out_nothing_and_the_held_direction_goes_first() {
    let mut hub = hub();
    assert_eq!([64, 190, 0, 63, 20].map(|value| turn(&mut hub, HAT_X, value).len()), [0, 0, 2, 0, 0]);
    assert_eq!([255, 191].map(|value| turn(&mut hub, HAT_Y, value).len()), [2, 0]);
    assert_eq!(
        turn(&mut hub, HAT_X, 191),
        [
            EventType::ButtonReleased(Button::DPadLeft, Code::DPAD_LEFT),
            EventType::ButtonChanged(Button::DPadRight, 1.0, Code::DPAD_RIGHT),
            EventType::ButtonPressed(Button::DPadRight, Code::DPAD_RIGHT),
            EventType::ButtonChanged(Button::DPadLeft, 0.0, Code::DPAD_LEFT),
        ]
    );
    assert_eq!([255, 190, 64].map(|value| turn(&mut hub, HAT_X, value).len()), [0, 2, 0]);
    assert_eq!(kept(&hub), [0, 1]);
}

// ---- what is kept

#[test]
fn the_state_does_not_move_a_zone_and_an_inserted_event_does() {
    let mut hub = hub();
    let left = EventType::ButtonReleased(Button::DPadLeft, Code::DPAD_LEFT);
    let right = Event::new(PAD, EventType::AxisChanged(Axis::DPadX, 0.5, HAT_X), 9);
    assert_eq!(turn(&mut hub, HAT_X, 0).len(), 2);
    assert_eq!((hub.update(&Event::new(PAD, left, 9)), hub.update(&right)), (Ok(()), Ok(())));
    assert_eq!((kept(&hub), turn(&mut hub, HAT_X, 63)), ([2, 0], vec![]));
    assert!(!pressed(&hub, Button::DPadLeft));
    assert_eq!(hub.insert_event(&right), Ok(()));
    assert_eq!((hub.feed(&[]).count(), kept(&hub)), (2, [1, 0]));
    assert!(pressed(&hub, Button::DPadRight));
}

#[test]
fn a_zone_is_kept_without_updates_and_not_without_filters() {
    for (filters, updates, events, zone) in [(true, false, [2, 0], 2), (false, true, [1, 1], 0)] {
        let mut hub = Hub::new(Settings { filters, updates, ..settings() }).expect("gilrs's thresholds");
        assert_eq!(hub.register(&hat().zones().build()), Ok(PAD));
        assert_eq!([0, 0].map(|value| turn(&mut hub, HAT_X, value).len()), events);
        assert_eq!(kept(&hub), [zone, 0]);
    }
}

#[test]
fn connected_brings_both_to_the_middle_and_disconnected_leaves_them() {
    let mut hub = hub();
    assert_eq!([HAT_X, HAT_Y].map(|hat| turn(&mut hub, hat, 0).len()), [2, 2]);
    assert_eq!(feed(&mut hub, RawRecord::disconnected(PAD, 9)), [EventType::Disconnected]);
    assert_eq!((kept(&hub), turn(&mut hub, HAT_X, 0)), ([2, 2], vec![]));
    assert_eq!(feed(&mut hub, RawRecord::connected(PAD, 9)), [EventType::Connected]);
    assert_eq!(kept(&hub), [0, 0]);
    assert_eq!((turn(&mut hub, HAT_X, 0).len(), turn(&mut hub, HAT_Y, 127).len()), (2, 0));
}

// ---- the hats byte

#[test]
fn a_rename_keeps_the_mark_and_the_zones() {
    let mut hub = hub_of(&hat().hats(15).zones().build());
    assert_eq!((hub.fields().head.hats[0], turn(&mut hub, HAT_X, 0).len()), (143, 2));
    assert_eq!(hub.rename(PAD, &names()), Ok(()));
    assert_eq!((hub.fields().head.newhats[0], kept(&hub)), (128, [2, 0]));
    assert_eq!([63, 64, 191].map(|value| turn(&mut hub, HAT_X, value).len()), [0, 2, 2]);
    feed(&mut hub, RawRecord::connected(PAD, 9));
    assert_eq!((hub.fields().head.renamed[0], hub.fields().head.hats[0]), (false, 143));
}

#[test]
fn the_low_four_bits_say_whether_it_converts() {
    let mut hub = Hub::new(settings()).expect("gilrs's thresholds");
    assert_eq!(hub.register(&hat().hats(7).zones().build()), Err(Refusal::PartialHats));
    assert_eq!(hub.register_archived(&hat().hats(7).zones().build()), Ok(PAD));
    assert_eq!(hub.is_old(PAD), Ok(true));
    assert!(matches!(turn(&mut hub, HAT_X, 0)[..], [EventType::AxisChanged(Axis::DPadX, ..)]));
    assert_eq!((hub.rename(PAD, &names()), hub.is_old(PAD)), (Ok(()), Ok(false)));
    assert_eq!(turn(&mut hub, HAT_X, 0)[0], EventType::ButtonPressed(Button::DPadLeft, Code::DPAD_LEFT));
}

#[test]
fn bits_4_to_6_come_before_partial_hats_and_those_before_a_name_twice() {
    let twice = || hat().button(Code::key(0x130), Axis::DPadX);
    let by_both = |sheet: SheetBuilder| {
        let (mut hub, sheet) = (Hub::new(settings()).expect("gilrs's thresholds"), sheet.build());
        (hub.register(&sheet).err(), hub.register_archived(&sheet).err())
    };
    assert_eq!(by_both(twice().hats(16 | 7).zones()), (Some(Refusal::Element), Some(Refusal::Element)));
    assert_eq!(by_both(twice().hats(7).zones()), (Some(Refusal::PartialHats), Some(Refusal::NameTwice)));
    assert_eq!(by_both(twice().zones()), (Some(Refusal::NameTwice), Some(Refusal::NameTwice)));
}
