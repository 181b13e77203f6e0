//! The crate's own tables and defaults, held to the hub.

use copperyarn::{Axis, AxisOrBtn, Button, Code, EventType, Hub, Name, PadId, RawRecord, Settings, Sheet};

fn desk(sheet: Sheet) -> (Hub, PadId) {
    let mut hub = Hub::new(Settings::default()).expect("gilrs's defaults");
    let pad = hub.register(&sheet).expect("a sheet");
    (hub, pad)
}

#[test]
fn to_nec_is_where_the_hub_looks() {
    for button in Button::ALL {
        let Some(code) = button.to_nec() else {
            assert_eq!(button, Button::Unknown);
            continue;
        };
        let (mut hub, pad) = desk(Sheet::builder().button(code, Name::NONE).build());
        assert!(hub.feed(&[RawRecord::pressed(pad, code, 1)]).all(|event| event.is_ok()));
        for other in &Button::ALL[1..] {
            assert_eq!(hub.is_pressed(pad, *other), Ok(*other == button));
        }
    }
}

#[test]
fn names_have_01s_numbers() {
    for number in 0..=255 {
        let name = Name(number);
        assert_eq!(name.button().is_some(), number <= 19);
        assert_eq!(name.axis().is_some(), (32..=40).contains(&number));
        assert!(name.meaning().is_none_or(|meaning| Name::from(meaning) == name));
    }
    assert_eq!((Name::from(Button::South), Name::from(Button::DPadRight)), (Name(1), Name(19)));
    assert_eq!((Name::from(Axis::LeftStickX), Name::from(Axis::DPadY)), (Name(33), Name(40)));
}

#[test]
fn with_the_defaults_a_hat_that_evdev_has_up_is_up() {
    let (mut hub, pad) = desk(Sheet::builder().axis(Code::abs(0x11), Axis::DPadY, -1..=1).build());
    let event = hub.feed(&[RawRecord::axis(pad, Code::abs(0x11), -1, 1)]).next().expect("an event").expect("a record");
    assert_eq!(event.event, EventType::ButtonPressed(Button::DPadUp, Code::DPAD_UP));
    assert_eq!(hub.is_pressed(pad, Button::DPadUp), Ok(true));
}

#[test]
fn what_was_registered_can_be_asked_for() {
    let sheet = Sheet::builder()
        .axis_with_deadzone(Code::abs(0x00), Axis::LeftStickX, 0..=256, 32)
        .axis(Code::abs(0x01), Axis::LeftStickY, 0..=255)
        .button(Code::key(0x130), Button::South);
    let (mut hub, pad) = desk(sheet.build());
    assert_eq!(hub.axis_code(pad, Axis::LeftStickX), Ok(Some(Code::abs(0))));
    assert_eq!(hub.button_code(pad, Button::East), Ok(None));
    assert_eq!(hub.axis_or_btn_name(pad, Code::key(0x130)), Ok(Some(AxisOrBtn::Btn(Button::South))));
    assert_eq!(hub.deadzone(pad, Code::abs(0)), Ok(Some(0.25)));
    assert_eq!(hub.deadzone(pad, Code::abs(1)), Ok(Some(0.1)));
    assert_eq!(hub.deadzone(pad, Code::key(0x130)), Ok(None));
    assert_eq!(hub.button_data(pad, Button::South), Ok(None));
    assert_eq!(hub.connected_pads().collect::<Vec<_>>(), [pad]);
    assert!(hub.feed(&[RawRecord::disconnected(pad, 1)]).all(|event| event.is_ok()));
    assert_eq!(hub.connected_pads().count(), 0);
}

#[test]
fn a_clone_goes_its_own_way_on_another_thread() {
    let (hub, pad) = desk(Sheet::builder().button(Code::key(0x130), Button::South).build());
    let mut other = hub.clone();
    let records = [RawRecord::pressed(pad, Code::key(0x130), 1)];
    let other = std::thread::spawn(move || {
        assert_eq!(other.feed(&records).count(), 2);
        other
    });
    assert_eq!(other.join().expect("a hub").is_pressed(pad, Button::South), Ok(true));
    assert_eq!(hub.is_pressed(pad, Button::South), Ok(false));
}

#[test]
fn the_counter_is_kept_with_what_changes() {
    let (mut hub, pad) = desk(Sheet::builder().button(Code::key(0x130), Button::South).build());
    hub.inc();
    hub.inc();
    assert!(hub.feed(&[RawRecord::pressed(pad, Code::key(0x130), 7)]).all(|event| event.is_ok()));
    let data = hub.button_data(pad, Button::South).expect("a pad").expect("a record");
    assert_eq!((data.counter(), data.timestamp(), data.value(), data.is_pressed()), (2, 7, 1.0, true));
    assert_eq!(hub.counter(), 2);
    hub.reset_counter();
    assert_eq!(hub.counter(), 0);
}
