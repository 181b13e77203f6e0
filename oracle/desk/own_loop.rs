//! The comparison with gilrs's own loop: a second hub that is built with the filters and updates of the scenario, so
//! that each `next_event` runs the whole of `next_event_inner`. It gets the same calls, and must hand out the same
//! events and hold the same state as the hub that makes single turns.

use crate::hub::Hub;
use crate::plan::{self, Plan};
use crate::pump::{Pumped, Reason};
use reading::event::Event;
use reading::scenario::{Settings, FILTERS_ON, UPDATES_ON};

pub struct OwnLoop {
    /// Gone from the first call on that the crate's own loop cannot follow.
    hub: Option<Hub>,
    pub compared: u64,
    pub left_out: u64,
}

impl OwnLoop {
    pub fn open(settings: &Settings, plan: &Plan) -> OwnLoop {
        let hub = Hub::open(settings, plan, settings.has(FILTERS_ON), settings.has(UPDATES_ON));
        OwnLoop { hub: Some(hub), compared: 0, left_out: 0 }
    }

    pub fn absent() -> OwnLoop {
        OwnLoop { hub: None, compared: 0, left_out: 0 }
    }

    /// Does to this hub what was done to the other.
    pub fn follow(&mut self, call: impl FnOnce(&mut Hub)) {
        self.hub.as_mut().map(call);
    }

    /// A rename behind waiting events that needs a reload cannot be followed: the crate's own loop would take them.
    pub fn rename(&mut self, pad: usize, plan: &Plan, list: &[u8], waiting: usize) {
        if waiting > 0 && plan::beyond_set_mapping(list) {
            self.hub = None;
        }
        self.follow(|hub| hub.rename(pad, plan, list));
    }

    /// The records that the other hub took are given to this one, which is then asked for events: until there are
    /// none, or, where 01's pump stopped behind a written event, exactly as many as were written. A pause behind a
    /// dropped event is a place where the crate cannot stop.
    pub fn pump(&mut self, done: &Pumped) {
        let paused_inside = done.reason == Reason::Paused && !done.ends_written;
        if paused_inside || self.hub.is_none() {
            self.hub = None;
            self.left_out += 1;
            return;
        }
        let stops = done.reason == Reason::Full || done.reason == Reason::Paused || refused_at_once(done);
        let mut events: Vec<Event> = Vec::new();
        self.follow(|hub| {
            done.records.iter().for_each(|record| hub.post(record));
            while !stops || events.len() < done.events.len() {
                match hub.next_event() {
                    Some(event) => events.push(event),
                    None => break,
                }
            }
            assert!(hub.inbox.is_empty(), "the crate's own loop left a record behind");
        });
        assert_eq!(events, done.events, "the crate's own loop hands out other events (left) than its parts (right)");
        self.compared += 1;
    }

    pub fn compare_dump(&self, pad: usize, lines: &[String]) {
        if let Some(hub) = &self.hub {
            assert_eq!(hub.dump(pad), lines, "the crate's own loop leaves another state (left) than its parts (right)");
        }
    }
}

/// 14, or 8 for a place past the end: given before any step, so events may still wait.
fn refused_at_once(done: &Pumped) -> bool {
    matches!(done.reason, Reason::Refused(_)) && done.steps == 0
}
