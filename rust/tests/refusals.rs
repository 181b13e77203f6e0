//! Every refusal, by a call that gives it; and that a refused call changes nothing.

use copperyarn::{
    Axis, Button, Code, Event, EventType, Hub, Name, PadId, RawRecord, Reason, Refusal, Settings, Sheet, SheetBuilder,
};

const SOUTH: Code = Code::key(0x130);
const STICK: Code = Code::abs(0x00);
const PAD: PadId = PadId(0);

fn two_elements() -> SheetBuilder {
    Sheet::builder().button(SOUTH, Button::South).axis(STICK, Axis::LeftStickX, -1..=1)
}

fn hub() -> Hub {
    let mut hub = Hub::new(Settings::default()).expect("gilrs's defaults");
    assert_eq!(hub.register(&two_elements().build()), Ok(PAD));
    hub
}

/// The number that a call is refused by; the hub must stand as it did.
fn number<T>(hub: &mut Hub, call: impl FnOnce(&mut Hub) -> Result<T, Refusal>) -> Option<u8> {
    let before = hub.clone();
    let refusal = call(hub).err();
    assert!(refusal.is_none() || *hub == before, "a refused call changed the hub");
    refusal.map(Refusal::number)
}

fn pumped(hub: &mut Hub, record: RawRecord) -> Result<(), Refusal> {
    hub.feed(&[record]).try_for_each(|event| event.map(drop)).map_err(Refusal::from)
}

fn thresholds(pressed: f32, released: f32) -> Option<u8> {
    Hub::new(Settings { pressed, released, ..Settings::default() }).err().map(Refusal::number)
}

#[test]
fn thresholds_are_judged() {
    assert_eq!(thresholds(0.75, 0.65), None);
    assert_eq!(thresholds(0.5, 0.5), Some(1));
    assert_eq!(thresholds(1.5, 0.5), Some(1));
    assert_eq!(thresholds(0.5, -0.5), Some(1));
    assert_eq!(thresholds(f32::NAN, 0.5), Some(1));
}

#[test]
fn sheets_are_judged() {
    let registered = |sheet: Sheet| number(&mut hub(), |hub| hub.register(&sheet));
    assert_eq!(registered(two_elements().build()), None);
    let mut full = hub();
    for _ in 1..4 {
        assert_eq!(number(&mut full, |hub| hub.register(&two_elements().build())), None);
    }
    assert_eq!(number(&mut full, |hub| hub.register(&two_elements().build())), Some(2));
    assert_eq!(registered(Sheet::from_bytes(&[])), Some(3));
    for elements in [49, 300, 4_000] {
        let many = (0..elements).fold(Sheet::builder(), |sheet, at| sheet.button(Code::key(at), Name::NONE));
        assert_eq!(registered(many.build()), Some(3));
    }
    assert_eq!(registered(two_elements().hats(16).build()), Some(4));
    assert_eq!(registered(two_elements().button(SOUTH, Button::East).build()), Some(4));
    assert_eq!(registered(two_elements().axis(Code::abs(1), Axis::LeftStickY, 1..=1).build()), Some(4));
    assert_eq!(registered(two_elements().button(Code::key(0x131), Button::Unknown).build()), Some(4));
    assert_eq!(registered(two_elements().button(Code::key(0x131), Button::South).build()), Some(5));
    assert_eq!(registered(two_elements().hats(15).build()), None);
    assert_eq!(registered(two_elements().hats(6).build()), Some(29));
    assert_eq!(registered(two_elements().hats(6).button(SOUTH, Button::East).build()), Some(4));
    assert_eq!(registered(two_elements().hats(6).button(Code::key(0x131), Button::South).build()), Some(29));
}

#[test]
fn sheets_of_the_archive_are_judged() {
    let registered = |sheet: Sheet| number(&mut hub(), |hub| hub.register_archived(&sheet));
    let archived = || two_elements().hats(6);
    assert_eq!((registered(two_elements().build()), registered(archived().build())), (None, None));
    let mut full = hub();
    for _ in 1..4 {
        assert_eq!(number(&mut full, |hub| hub.register_archived(&archived().build())), None);
    }
    assert_eq!(number(&mut full, |hub| hub.register_archived(&archived().build())), Some(2));
    assert_eq!(number(&mut full, |hub| hub.register(&archived().build())), Some(2));
    assert_eq!(registered(Sheet::from_bytes(&[])), Some(3));
    assert_eq!(registered(archived().hats(22).build()), Some(4));
    assert_eq!(registered(archived().button(SOUTH, Button::East).build()), Some(4));
    assert_eq!(registered(archived().button(Code::key(0x131), Button::South).build()), Some(5));
}

#[test]
fn renames_are_judged() {
    let mut hub = hub();
    let (south, x) = (Name::from(Button::South), Name::from(Axis::LeftStickX));
    assert_eq!(number(&mut hub, |hub| hub.rename(PadId(1), &[south, x])), Some(6));
    assert_eq!(number(&mut hub, |hub| hub.rename(PAD, &[south])), Some(3));
    assert_eq!(number(&mut hub, |hub| hub.rename(PAD, &[south; 300])), Some(3));
    assert_eq!(number(&mut hub, |hub| hub.rename(PAD, &[south, Name(20)])), Some(4));
    assert_eq!(number(&mut hub, |hub| hub.rename(PAD, &[south, south])), Some(5));
    assert_eq!(number(&mut hub, |hub| hub.rename(PAD, &[Button::East.into(), Name::NONE])), None);
    assert_eq!(hub.button_code(PAD, Button::East), Ok(Some(SOUTH)));
    assert_eq!(pumped(&mut hub, RawRecord::disconnected(PAD, 1)), Ok(()));
    assert_eq!(number(&mut hub, |hub| hub.rename(PAD, &[south, x])), Some(7));
}

#[test]
fn records_are_judged() {
    let fed = |record: RawRecord| number(&mut hub(), |hub| pumped(hub, record));
    assert_eq!(fed(RawRecord::pressed(PAD, SOUTH, 1)), None);
    assert_eq!(fed(RawRecord::pressed(PadId(1), SOUTH, 1)), Some(6));
    assert_eq!(fed(RawRecord::pressed(PAD, Code::key(0x131), 1)), Some(9));
    assert_eq!(fed(RawRecord::pressed(PAD, STICK, 1)), Some(10));
    assert_eq!(fed(RawRecord::axis(PAD, SOUTH, 1, 1)), Some(10));
    assert_eq!(fed(RawRecord::axis(PAD, STICK, 8_388_608, 1)), Some(11));
    assert_eq!(fed(RawRecord::released(PAD, SOUTH, 1 << 62)), Some(12));
}

#[test]
fn pumps_are_judged() {
    let mut hub = hub();
    let before = hub.clone();
    let mut out = [7; Event::SIZE];
    let report = hub.pump(&[0; 16_385], 0, &mut out, 1);
    assert_eq!((report.reason, report.place, report.events), (Reason::Refused(Refusal::TooLong), 0, 0));
    let report = hub.pump(&[], 1, &mut out, 1);
    assert_eq!((report.reason, report.place, report.steps), (Reason::Refused(Refusal::Malformed), 1, 0));
    let report = hub.pump(&[0; 21], 0, &mut out, 1);
    assert_eq!((report.reason, report.place, report.steps), (Reason::Refused(Refusal::Malformed), 0, 0));
    assert!(hub == before && out == [7; Event::SIZE]);
}

#[test]
fn events_are_judged() {
    let event = |event| Event::new(PAD, event, 1);
    let updated = |event: Event| number(&mut hub(), |hub| hub.update(&event));
    assert_eq!(updated(event(EventType::ButtonPressed(Button::South, SOUTH))), None);
    assert_eq!(number(&mut hub(), |hub| hub.update_bytes(&[0; 22])), Some(8));
    assert_eq!(updated(Event::new(PadId(2), EventType::Connected, 1)), Some(6));
    assert_eq!(updated(event(EventType::ButtonPressed(Button::Unknown, Code::key(0x131)))), Some(9));
    assert_eq!(updated(event(EventType::AxisChanged(Axis::LeftStickX, 1.5, STICK))), Some(11));
    assert_eq!(updated(event(EventType::AxisChanged(Axis::LeftStickX, f32::NAN, STICK))), Some(11));
    assert_eq!(updated(Event::new(PAD, EventType::Dropped, 1 << 62)), Some(12));
    let mut hub = hub();
    for _ in 0..16 {
        assert_eq!(number(&mut hub, |hub| hub.insert_event(&event(EventType::Connected))), None);
    }
    assert_eq!(number(&mut hub, |hub| hub.insert_event(&event(EventType::Connected))), Some(13));
    assert_eq!(number(&mut hub, |hub| hub.insert_event_bytes(&[0; 21])), Some(8));
    assert_eq!(hub.waiting(), 16);
}

#[test]
fn repeats_and_queries_are_judged() {
    let mut hub = hub();
    assert_eq!(number(&mut hub, |hub| hub.repeat(500_000, 30_000, 0)), None);
    assert_eq!(number(&mut hub, |hub| hub.repeat(60_000_001, 30_000, 0)), Some(15));
    assert_eq!(number(&mut hub, |hub| hub.repeat(0, 0, 0)), Some(15));
    assert_eq!(number(&mut hub, |hub| hub.repeat(0, 1, 1 << 62)), Some(12));
    assert_eq!(number(&mut hub, |hub| hub.is_pressed(PAD, Button::Unknown)), Some(16));
    assert_eq!(number(&mut hub, |hub| hub.value(PAD, Axis::Unknown)), Some(16));
    assert_eq!(number(&mut hub, |hub| hub.button_data_by_name(PAD, Axis::DPadX.into())), Some(16));
    assert_eq!(number(&mut hub, |hub| hub.axis_data_by_name(PAD, Name::NONE)), Some(16));
    assert_eq!(number(&mut hub, |hub| hub.is_connected(PadId(255))), Some(6));
    assert_eq!(number(&mut hub, |hub| hub.buttons(PadId(1)).map(drop)), Some(6));
    for pad in (1..=255).map(PadId) {
        assert_eq!((hub.down(pad), hub.lowest_pressed(pad)), (Err(Refusal::NoPad), Err(Refusal::NoPad)));
        assert_eq!(hub.is_old(pad), Err(Refusal::NoPad));
    }
}

#[test]
fn a_refusal_has_its_number_and_its_sentence() {
    for (at, (refusal, number)) in Refusal::ALL.into_iter().zip((1..=16).chain([29])).enumerate() {
        assert_eq!((refusal.number(), Refusal::from_number(number)), (number, Some(refusal)));
        assert!(Refusal::ALL[..at].iter().all(|other| other.to_string() != refusal.to_string()));
    }
    assert_eq!((0..=255).filter_map(Refusal::from_number).count(), 17);
    assert_eq!(Refusal::Pads.to_string(), "four pads stand");
    assert_eq!(Refusal::Repeat.to_string(), "repeat settings out of limits");
    let refused = hub().feed(&[RawRecord::connected(PadId(3), 9)]).next().expect("an item").unwrap_err();
    assert!(refused.to_string().starts_with("pad not registered: RawRecord"));
}

#[test]
fn the_sentences_are_the_headers() {
    let header = include_str!("../../include/copperyarn.h");
    for refusal in Refusal::ALL {
        let spoken = |line: &&str| line.trim_start().starts_with(&format!("EACH({}, ", refusal.number()));
        let line = header.lines().find(spoken).expect("a sentence for each number");
        assert_eq!(line.split('"').nth(1), Some(refusal.to_string().as_str()));
    }
}
