//! 01's pump over gilrs's parts. Each turn of the loop is one turn of the crate's `next_event_inner`: the crate's
//! `next_event` (of a hub whose own loop neither filters nor updates, so that it hands out what `next_event_priv`
//! does), its filters in its order, its `update`. Between turns the pump can stop where 01 says.

use crate::held::Held;
use crate::hub::Hub;
use crate::tilt::{self, Tilt};
use crate::translate::from_crate;
use gilrs::ev::filter::{axis_dpad_to_button, Jitter};
use gilrs::Filter;
use reading::event::{self, Event};
use reading::record::{self, Record};
use reading::scenario::{Pump, Settings, FILTERS_ON, UPDATES_ON};
use reading::sheet::Sheet;
use reading::{refusal, LONGEST_BUFFER};

#[derive(Clone, Copy, Debug, Eq, PartialEq)]
pub enum Reason {
    Drained,
    Full,
    Paused,
    Refused(u8),
}

/// What a pump call did.
#[derive(Debug)]
pub struct Pumped {
    pub reason: Reason,
    pub place: usize,
    pub steps: u64,
    pub events: Vec<Event>,
    pub records: Vec<Record>,
    /// The last step, if there was one, wrote its event.
    pub ends_written: bool,
    /// What its last axis event that met a threshold met, W-205's report.
    pub tilt: Option<Tilt>,
}

impl Pumped {
    pub fn lines(&self) -> Vec<String> {
        let reason = match self.reason {
            Reason::Drained => "DRAINED".to_string(),
            Reason::Full => "FULL".to_string(),
            Reason::Paused => "PAUSED".to_string(),
            Reason::Refused(number) => format!("REFUSED {}", number),
        };
        let mut lines: Vec<String> = self.events.iter().map(Event::line).collect();
        lines.push(format!("{} {} {} {}", reason, self.place, self.events.len(), self.steps));
        lines
    }
}

pub fn pump(hub: &mut Hub, held: &mut Held, pads: &[Sheet], settings: &Settings, call: &Pump<'_>) -> Pumped {
    let mut done = Pumped {
        reason: Reason::Drained,
        place: call.place,
        steps: 0,
        events: Vec::new(),
        records: Vec::new(),
        ends_written: true,
        tilt: None,
    };
    done.reason = loop {
        let empty = hub.waiting() == 0;
        if let Some(reason) = stop(call, &done, empty) {
            break reason;
        }
        if empty {
            match Record::read(&call.batch[done.place..], pads) {
                Err(number) => break Reason::Refused(number),
                Ok(record) => {
                    hub.post(&record);
                    done.records.push(record);
                    done.place += record::SIZE;
                }
            }
        }
        done.steps += 1;
        let (written, tilt) = turn(hub, held, settings);
        done.ends_written = written.is_some();
        done.events.extend(written);
        done.tilt = tilt.or(done.tilt);
    };
    done
}

/// "Before each step, in order"; and before the first of them 14, then 8 for a place past the end.
fn stop(call: &Pump<'_>, done: &Pumped, empty: bool) -> Option<Reason> {
    if call.batch.len() > LONGEST_BUFFER || call.out > LONGEST_BUFFER {
        Some(Reason::Refused(refusal::BUFFER))
    } else if done.place > call.batch.len() {
        Some(Reason::Refused(refusal::MALFORMED))
    } else if empty && done.place == call.batch.len() {
        Some(Reason::Drained)
    } else if call.out - event::SIZE * done.events.len() < event::SIZE {
        Some(Reason::Full)
    } else if done.steps == call.allowance {
        Some(Reason::Paused)
    } else {
        None
    }
}

/// One turn of `next_event_inner`'s loop; the event it hands out, if it is not skipped, and what its event met.
fn turn(hub: &mut Hub, held: &mut Held, settings: &Settings) -> (Option<Event>, Option<Tilt>) {
    let mut event = hub.gilrs.next_event().expect("the front of the queue or a record");
    let mut tilt = None;
    if settings.has(FILTERS_ON) {
        let taken = event
            .filter_ev(&axis_dpad_to_button, &mut hub.gilrs)
            .filter_ev(&Jitter::new(), &mut hub.gilrs)
            .expect("an event of an event");
        (event, tilt) = tilt::filter(hub, taken);
        if event.is_dropped() {
            return (None, tilt);
        }
    }
    if settings.has(UPDATES_ON) {
        held.update(hub, &event);
    }
    (Some(from_crate(&event)), tilt)
}
