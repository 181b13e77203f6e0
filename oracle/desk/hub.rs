//! One `Gilrs` over the stand-in backend, with the few steps that need more than one call of the crate.

use crate::plan::{self, Plan};
use crate::translate::{axis, button, from_crate, instant, microseconds, to_crate, to_raw};
use gilrs::ev::state::ButtonData;
use gilrs::{window, EventType, Gamepad, Gilrs, GilrsBuilder, Mapping};
use gilrs_core::{Event as RawEvent, EventType as RawEventType, Inbox};
use reading::event::Event;
use reading::names;
use reading::record::{self, Record};
use reading::scenario::Settings;

pub struct Hub {
    pub gilrs: Gilrs,
    pub inbox: Inbox,
}

impl Hub {
    /// `filters` and `updates` are those of the crate's own loop.
    pub fn open(settings: &Settings, plan: &Plan, filters: bool, updates: bool) -> Hub {
        let inbox = Inbox::default();
        gilrs_core::Gilrs::prepare(plan.gamepads(), inbox.clone());
        let gilrs = GilrsBuilder::new()
            .add_env_mappings(false)
            .add_included_mappings(false)
            .add_mappings(&plan.lines())
            .set_axis_to_btn(settings.pressed, settings.released)
            .with_default_filters(filters)
            .set_update_state(updates)
            .build()
            .expect("thresholds that stand");
        Hub { gilrs, inbox }
    }

    pub fn pad(&self, pad: usize) -> Gamepad<'_> {
        self.gilrs.gamepad(window::pad(pad))
    }

    pub fn post(&self, record: &Record) {
        let connects = record.kind == record::CONNECTED;
        let line = if connects { Some(plan::uuid(usize::from(record.pad))) } else { None };
        self.inbox.post(to_raw(record), line);
    }

    pub fn next_event(&mut self) -> Option<Event> {
        self.gilrs.next_event().map(|event| from_crate(&event))
    }

    pub fn update(&mut self, event: &Event) {
        self.gilrs.update(&to_crate(event));
    }

    pub fn insert(&mut self, event: &Event) {
        self.gilrs.insert_event(to_crate(event));
    }

    /// Takes all waiting events out. Only for a hub whose own loop neither filters nor updates.
    pub fn take_waiting(&mut self) -> Vec<gilrs::Event> {
        assert!(self.inbox.is_empty(), "a record was posted and not taken");
        let mut waiting = Vec::new();
        while let Some(event) = self.gilrs.next_event() {
            waiting.push(event);
        }
        waiting
    }

    /// How many wait: takes them out and puts them back in order.
    pub fn waiting(&mut self) -> usize {
        let waiting = self.take_waiting();
        for event in &waiting {
            self.gilrs.insert_event(*event);
        }
        waiting.len()
    }

    /// Renames by `set_mapping` where the crate can.
    pub fn rename(&mut self, pad: usize, plan: &Plan, list: &[u8]) {
        if plan::beyond_set_mapping(list) {
            self.reload(pad, plan.rename_line(pad as u8, list));
            return;
        }
        let mut mapping = Mapping::new();
        for (element, name) in plan.pads[pad].elements.iter().zip(list) {
            let code = window::code(element.code);
            if names::is_button_name(*name) {
                mapping.insert_btn(code, button(*name));
            } else if names::is_axis_name(*name) {
                mapping.insert_axis(code, axis(*name));
            }
        }
        self.gilrs.set_mapping(pad, &mapping, None).expect("a list that set_mapping takes");
    }

    /// The stand-in for a rename that names DPadX or DPadY, on which `set_mapping` panics: a Connected event loads the
    /// list as a mapping line, and the pad's records, flags and the counter are put back. Nothing may wait.
    fn reload(&mut self, pad: usize, line: [u8; 16]) {
        let buttons: Vec<_> = self.pad(pad).state().buttons().map(|(code, data)| (code, *data)).collect();
        let axes: Vec<_> = self.pad(pad).state().axes().map(|(code, data)| (code, *data)).collect();
        let flags = window::flags(&self.gilrs, pad);
        let counter = self.gilrs.counter();
        self.inbox.post(RawEvent { id: pad, event: RawEventType::Connected, time: instant(0) }, Some(line));
        let event = self.gilrs.next_event();
        assert_eq!(event.map(|event| event.event), Some(EventType::Connected));
        for (code, data) in buttons {
            self.count_to(data.counter());
            self.restore_button(pad, code, &data);
        }
        for (code, data) in axes {
            self.count_to(data.counter());
            let event = EventType::AxisChanged(gilrs::Axis::Unknown, data.value(), code);
            self.gilrs.update(&window::event(pad, event, data.timestamp()));
        }
        self.count_to(counter);
        window::restore_flags(&mut self.gilrs, pad, flags);
    }

    fn restore_button(&mut self, pad: usize, code: gilrs::ev::Code, data: &ButtonData) {
        let name = gilrs::Button::Unknown;
        let mut events = vec![if data.is_pressed() {
            EventType::ButtonPressed(name, code)
        } else {
            EventType::ButtonReleased(name, code)
        }];
        if data.is_repeating() {
            events.push(EventType::ButtonRepeated(name, code));
        }
        events.push(EventType::ButtonChanged(name, data.value(), code));
        for event in events {
            self.gilrs.update(&window::event(pad, event, data.timestamp()));
        }
    }

    fn count_to(&mut self, counter: u64) {
        self.gilrs.reset_counter();
        for _ in 0..counter {
            self.gilrs.inc();
        }
    }

    /// Everything the pad's state holds, codes rising: the lines of a dump.
    pub fn dump(&self, pad: usize) -> Vec<String> {
        let handle = self.pad(pad);
        let mut buttons: Vec<_> = handle.state().buttons().collect();
        let mut axes: Vec<_> = handle.state().axes().collect();
        buttons.sort_by_key(|(code, _)| code.into_u32());
        axes.sort_by_key(|(code, _)| code.into_u32());
        let hats = window::hats(&self.gilrs, pad);
        let mut lines = vec![format!("DUMP {} {} {}", pad, u8::from(handle.is_connected()), hats)];
        lines.extend(buttons.iter().map(|(code, data)| format!("B {:08x} {}", code.into_u32(), button_words(data))));
        lines.extend(axes.iter().map(|(code, data)| format!("A {:08x} {}", code.into_u32(), axis_words(data))));
        let flags = window::flags(&self.gilrs, pad);
        lines.push(format!("FLAGS {}", flags.map(|flag| if flag { "1" } else { "0" }).concat()));
        lines
    }
}

/// Value bits, pressed, repeating, counter, stamp.
pub fn button_words(data: &ButtonData) -> String {
    format!(
        "{:08x} {} {} {} {}",
        data.value().to_bits(),
        u8::from(data.is_pressed()),
        u8::from(data.is_repeating()),
        data.counter(),
        microseconds(data.timestamp())
    )
}

/// Value bits, counter, stamp.
pub fn axis_words(data: &gilrs::ev::state::AxisData) -> String {
    format!("{:08x} {} {}", data.value().to_bits(), data.counter(), microseconds(data.timestamp()))
}
