//! gilrs over a stream, in batches or singly. Of a round the calls of `next_event`, each until there is none, and the
//! queries are timed: the hub and its mapping lines are made, and the records read, before. The records are posted between
//! the calls, and a call may be too short for a clock of its own; so a round is timed whole, and what posting takes is
//! timed beside it.

use crate::clock::processor_time;
use crate::course::Course;
use crate::hub::Hub;
use crate::plan::Plan;
use crate::stream::ALLOWANCE;
use crate::translate::{from_crate, to_raw};
use gilrs::ev::Code;
use gilrs::{window, Gilrs};
use gilrs_core::Inbox;
use reading::record::{self, Record};
use reading::scenario::{self, Operation, Settings};
use reading::LONGEST_BUFFER;
use std::hint::black_box;
use std::time::Duration;

#[derive(Default)]
struct Counts {
    calls: u64,
    records: u64,
    events: u64,
    /// The queries that were answered true.
    held: u64,
    /// The rounds, posting included.
    spent: Duration,
    /// Of them the posting: the same records, posted to a backend that no gilrs stands on.
    posting: Duration,
    /// And the stand-in's own part: the records, taken from that backend.
    stand_in: Duration,
}

enum Turn {
    Batch(Vec<Record>),
    Query(usize, Code),
}

pub fn pace(course: &Course<'_>) {
    let plan = Plan::of(&course.opening);
    let turns: Vec<Turn> = course.round.iter().map(|operation| turn(operation, &plan)).collect();
    let mut counts = Counts::default();
    let mut events = Vec::with_capacity(LONGEST_BUFFER);
    let inbox = Inbox::default();
    gilrs_core::Gilrs::prepare(plan.gamepads(), inbox.clone());
    let mut backend = gilrs_core::Gilrs::new().expect("a prepared backend");
    for _ in 0..course.rounds {
        play(&course.settings, &plan, &turns, &mut counts, &mut events);
        stand_in(&inbox, &mut backend, &turns, &mut counts);
    }
    println!("CALLS {}\nRECORDS {}\nEVENTS {}\nHELD {}", counts.calls, counts.records, counts.events, counts.held);
    events.iter().for_each(|event| println!("{}", from_crate(event).line()));
    let own = counts.spent.saturating_sub(counts.posting);
    eprintln!("NANOSECONDS {} STAND-IN {}", own.as_nanos(), counts.stand_in.as_nanos());
}

fn turn(operation: &Operation<'_>, plan: &Plan) -> Turn {
    match *operation {
        Operation::Pump(pump) if pump.allowance == ALLOWANCE && pump.out == LONGEST_BUFFER => {
            Turn::Batch(records(pump.batch, plan))
        }
        Operation::ByCode(scenario::PRESSED_BY_CODE, pad, code) => Turn::Query(usize::from(pad), window::code(code)),
        _ => panic!("gilrs stops at the end alone: only a stream can be paced on it"),
    }
}

fn records(batch: &[u8], plan: &Plan) -> Vec<Record> {
    batch.chunks(record::SIZE).map(|bytes| Record::read(bytes, &plan.pads).expect("a good record")).collect()
}

fn play(settings: &Settings, plan: &Plan, turns: &[Turn], counts: &mut Counts, events: &mut Vec<gilrs::Event>) {
    let mut hub = Hub::open(settings, plan, true, true);
    let begun = processor_time();
    for turn in turns {
        match turn {
            Turn::Batch(records) => {
                records.iter().for_each(|record| hub.post(record));
                events.clear();
                take_all(&mut hub.gilrs, events);
                counts.calls += 1;
                counts.records += records.len() as u64;
                counts.events += events.len() as u64;
            }
            Turn::Query(pad, code) => counts.held += u64::from(ask_pressed(&hub.gilrs, *pad, *code)),
        }
    }
    counts.spent += processor_time() - begun;
}

/// The round's records, posted and taken, without gilrs.
fn stand_in(inbox: &Inbox, backend: &mut gilrs_core::Gilrs, turns: &[Turn], counts: &mut Counts) {
    let begun = processor_time();
    for turn in turns {
        if let Turn::Batch(records) = turn {
            records.iter().for_each(|record| inbox.post(to_raw(record), None));
        }
    }
    counts.posting += processor_time() - begun;
    let begun = processor_time();
    while black_box(backend.next_event()).is_some() {}
    counts.stand_in += processor_time() - begun;
}

/// One of the two parts that are counted, by their names.
#[inline(never)]
fn take_all(gilrs: &mut Gilrs, events: &mut Vec<gilrs::Event>) {
    while let Some(event) = gilrs.next_event() {
        events.push(event);
    }
}

/// The other.
#[inline(never)]
fn ask_pressed(gilrs: &Gilrs, pad: usize, code: Code) -> bool {
    gilrs.gamepad(window::pad(pad)).state().is_pressed(code)
}
