//! Old pads, by W-212's sentences: what each of the two calls takes, then what clears the mark and brings it back, what leaves it, and that partial hats stay.

use copperyarn::{Axis, Button, Code, Event, EventType, Hub, Name, PadId, RawRecord, Reason, Refusal, Settings, Sheet};

const SOUTH: Code = Code::key(0x130);
const HAT: Code = Code::abs(0x10);
const PAD: PadId = PadId(0);
const PARTIAL: u8 = 6;

/// South and a hat, with these hats mapped.
fn sheet(hats: u8) -> Sheet {
    Sheet::builder().button(SOUTH, Button::South).axis(HAT, Axis::DPadX, -1..=1).hats(hats).build()
}

fn names() -> [Name; 2] {
    [Button::South.into(), Axis::DPadX.into()]
}

fn fresh() -> Hub {
    Hub::new(Settings::default()).expect("gilrs's thresholds")
}

/// A hub with one old pad.
fn hub() -> Hub {
    let mut hub = fresh();
    assert_eq!(hub.register_archived(&sheet(PARTIAL)), Ok(PAD));
    hub
}

fn old(hub: &Hub) -> bool {
    hub.is_old(PAD).expect("a pad")
}

/// The events of a record.
fn feed(hub: &mut Hub, record: RawRecord) -> Vec<EventType> {
    hub.feed(&[record]).map(|event| event.expect("a record that is served").event).collect()
}

fn join(hub: &mut Hub, pad: PadId) {
    assert_eq!(feed(hub, RawRecord::connected(pad, 7)), [EventType::Connected]);
}

// ---- the two calls

#[test]
fn hats_0_and_15_come_by_either_call_and_1_to_14_by_the_archived_one() {
    for hats in 0..=255 {
        let (mut plain, mut archived) = (fresh(), fresh());
        let (partial, over) = ((1..=14).contains(&hats), hats > 15);
        let refusal = if over { Some(Refusal::Element) } else { partial.then_some(Refusal::PartialHats) };
        assert_eq!(plain.register(&sheet(hats)).err(), refusal, "hats {hats}");
        assert_eq!(archived.register_archived(&sheet(hats)).err(), over.then_some(Refusal::Element), "hats {hats}");
        assert_eq!(plain == fresh(), refusal.is_some(), "hats {hats}");
        match (over, partial) {
            (true, _) => assert!(archived == fresh()),
            (_, false) => assert!(archived == plain && !old(&archived)),
            (_, true) => assert!(archived.fields().head.hats[0] == hats && old(&archived)),
        }
    }
}

#[test]
fn a_name_twice_comes_behind_the_hats_and_a_broken_element_before_them() {
    let twice = |hats| Sheet::builder().button(SOUTH, Button::South).button(HAT, Button::South).hats(hats).build();
    let broken = |hats| Sheet::builder().button(SOUTH, Button::South).button(SOUTH, Button::South).hats(hats).build();
    let by_both = |sheet: Sheet| (fresh().register(&sheet).err(), fresh().register_archived(&sheet).err());
    assert_eq!(by_both(twice(PARTIAL)), (Some(Refusal::PartialHats), Some(Refusal::NameTwice)));
    assert_eq!(by_both(twice(15)), (Some(Refusal::NameTwice), Some(Refusal::NameTwice)));
    assert_eq!(by_both(broken(PARTIAL)), (Some(Refusal::Element), Some(Refusal::Element)));
}

#[test]
fn pads_of_both_calls_are_numbered_together() {
    let mut hub = fresh();
    assert_eq!(hub.register(&sheet(0)), Ok(PadId(0)));
    assert_eq!(hub.register_archived(&sheet(1)), Ok(PadId(1)));
    assert_eq!(hub.register(&sheet(1)), Err(Refusal::PartialHats));
    assert_eq!(hub.register(&sheet(15)), Ok(PadId(2)));
    assert_eq!(hub.register_archived(&sheet(14)), Ok(PadId(3)));
    assert_eq!(hub.register_archived(&sheet(PARTIAL)), Err(Refusal::Pads));
    assert_eq!(hub.register(&sheet(PARTIAL)), Err(Refusal::Pads));
    let marks = |hub: &Hub| [0, 1, 2, 3].map(|pad| hub.is_old(PadId(pad)).expect("a pad"));
    assert_eq!(marks(&hub), [false, true, false, true]);
    assert_eq!((hub.rename(PadId(1), &names()), hub.rename(PadId(3), &names())), (Ok(()), Ok(())));
    assert_eq!(marks(&hub), [false; 4]);
    join(&mut hub, PadId(3));
    assert_eq!(marks(&hub), [false, false, false, true]);
    [0, 1, 2].into_iter().for_each(|pad| join(&mut hub, PadId(pad)));
    assert_eq!(marks(&hub), [false, true, false, true]);
}

// ---- the mark

#[test]
fn a_rename_clears_it_and_connected_brings_it_back() {
    let mut hub = hub();
    for leaves in [false, true, false] {
        assert!(old(&hub));
        assert_eq!((hub.rename(PAD, &names()), old(&hub)), (Ok(()), false));
        if leaves {
            assert_eq!(feed(&mut hub, RawRecord::disconnected(PAD, 6)), [EventType::Disconnected]);
        }
        assert!(!old(&hub));
        join(&mut hub, PAD);
    }
    join(&mut hub, PAD);
    assert!(old(&hub));
}

#[test]
fn a_refused_rename_and_disconnected_leave_it() {
    let mut hub = hub();
    let east = Name::from(Button::East);
    let before = hub.clone();
    assert_eq!(hub.rename(PadId(1), &names()), Err(Refusal::NoPad));
    assert_eq!(hub.rename(PAD, &[east]), Err(Refusal::Sheet));
    assert_eq!(hub.rename(PAD, &[east, Name(20)]), Err(Refusal::Element));
    assert_eq!(hub.rename(PAD, &[east, east]), Err(Refusal::NameTwice));
    assert!(hub == before && old(&hub));
    assert_eq!(feed(&mut hub, RawRecord::disconnected(PAD, 6)), [EventType::Disconnected]);
    assert!(old(&hub));
    assert_eq!((hub.rename(PAD, &names()), old(&hub)), (Err(Refusal::Disconnected), true));
}

#[test]
fn only_a_connected_record_that_is_taken_brings_it_back() {
    let (mut hub, mut out) = (hub(), [0; 4 * Event::SIZE]);
    let (batch, event) = (RawRecord::connected(PAD, 8).to_bytes(), Event::new(PAD, EventType::Connected, 8));
    assert_eq!(hub.rename(PAD, &names()), Ok(()));
    assert_eq!(hub.feed(&[RawRecord::connected(PAD, 1 << 62)]).filter(|event| event.is_err()).count(), 1);
    assert_eq!((hub.pump(&batch, 0, &mut out, 0).reason, old(&hub)), (Reason::Paused, false));
    assert_eq!((hub.pump(&batch, 0, &mut [], 9).reason, old(&hub)), (Reason::Full, false));
    assert_eq!((hub.update(&event), old(&hub)), (Ok(()), false));
    assert_eq!((hub.insert_event(&event), old(&hub)), (Ok(()), false));
    assert_eq!(hub.feed(&[]).collect::<Vec<_>>(), [Ok(event)]);
    assert!(!old(&hub));
    assert_eq!((hub.pump(&batch, 0, &mut out, 1).events, old(&hub)), (1, true));
}

// ---- partial hats stay as they were

#[test]
fn an_old_pads_hat_stays_an_axis() {
    let mut hub = hub();
    let left = |hub: &mut Hub| feed(hub, RawRecord::axis(PAD, HAT, -1, 9))[0];
    let (moved, pressed) =
        (EventType::AxisChanged(Axis::DPadX, -1.0, HAT), EventType::ButtonPressed(Button::DPadLeft, Code::DPAD_LEFT));
    assert_eq!(left(&mut hub), moved);
    assert_eq!((hub.rename(PAD, &names()), left(&mut hub)), (Ok(()), pressed));
    join(&mut hub, PAD);
    assert_eq!(left(&mut hub), moved);
}
