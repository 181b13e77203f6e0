//! The hub through its Rust crate, over any course. Of a round the pump calls, the reading of every event that they wrote, and the queries are measured; the
//! operations are read before, and each round begins with a copy of the hub that the opening left.

use crate::clock::processor_time;
use crate::course::Course;
use copperyarn::{Code, Event, Hub, PadId, PumpReport, Reason, Settings, Sheet};
use reading::bytes::{field, field32};
use reading::scenario::{self, Operation, Pump, FILTERS_ON, UPDATES_ON, Y_REVERSED};
use reading::LONGEST_BUFFER;
use std::time::Duration;

#[derive(Default)]
struct Counts {
    calls: u64,
    drained: u64,
    refusals: u64,
    records: u64,
    events: u64,
    steps: u64,
    /// The queries that were answered true.
    held: u64,
    spent: Duration,
}

/// What the calls write, and the events of the last one.
struct Room {
    out: Vec<u8>,
    events: Vec<Event>,
}

pub fn pace(course: &Course<'_>) {
    let settings = Settings {
        pressed: course.settings.pressed,
        released: course.settings.released,
        reversed_y: course.settings.has(Y_REVERSED),
        filters: course.settings.has(FILTERS_ON),
        updates: course.settings.has(UPDATES_ON),
    };
    let mut opened = Hub::new(settings).expect("thresholds that stand");
    let mut room = Room { out: vec![0; LONGEST_BUFFER], events: Vec::with_capacity(LONGEST_BUFFER) };
    let mut before = Counts::default();
    course.opening.iter().for_each(|operation| play(operation, &mut opened, &mut room, &mut before));
    let mut counts = Counts { refusals: before.refusals, ..Counts::default() };
    for _ in 0..course.rounds {
        let mut hub = opened.clone();
        let begun = processor_time();
        course.round.iter().for_each(|operation| play(operation, &mut hub, &mut room, &mut counts));
        counts.spent += processor_time() - begun;
    }
    tell(&counts, &room.events);
}

fn tell(counts: &Counts, events: &[Event]) {
    println!("CALLS {}\nDRAINED {}\nREFUSALS {}", counts.calls, counts.drained, counts.refusals);
    println!("RECORDS {}\nEVENTS {}\nSTEPS {}\nHELD {}", counts.records, counts.events, counts.steps, counts.held);
    events.iter().for_each(|event| println!("{}", form(&event.to_bytes()).line()));
    eprintln!("NANOSECONDS {}", counts.spent.as_nanos());
}

/// An event's bytes as the oracle reads them: version 3, kind, pad, name, code, bits, time.
fn form(bytes: &[u8]) -> reading::event::Event {
    reading::event::Event {
        kind: bytes[3],
        pad: bytes[4],
        name: bytes[5],
        code: field32(bytes, 6),
        bits: field32(bytes, 10),
        time: field(bytes, 14, 8),
    }
}

fn play(operation: &Operation<'_>, hub: &mut Hub, room: &mut Room, counts: &mut Counts) {
    match *operation {
        Operation::Pump(ref pump) => take(pump, hub, room, counts),
        Operation::ByCode(scenario::PRESSED_BY_CODE, pad, code) => {
            counts.held += u64::from(ask_hub(hub, PadId(pad), Code(code)));
        }
        Operation::Register(sheet) => counts.refusals += u64::from(hub.register(&Sheet::from_bytes(sheet)).is_err()),
        Operation::Update(event) => counts.refusals += u64::from(hub.update_bytes(event).is_err()),
        Operation::Insert(event) => counts.refusals += u64::from(hub.insert_event_bytes(event).is_err()),
        _ => panic!("no operation of a course"),
    }
}

fn take(pump: &Pump<'_>, hub: &mut Hub, room: &mut Room, counts: &mut Counts) {
    let out = &mut room.out[..pump.out];
    let report = pump_records(hub, pump.batch, out, pump.allowance as u16);
    room.events.clear();
    read_events(&report, out, &mut room.events);
    counts.calls += 1;
    match report.reason {
        Reason::Drained => counts.drained += 1,
        Reason::Full | Reason::Paused => (),
        Reason::Refused(_) => counts.refusals += 1,
    }
    counts.records += (report.place / copperyarn::RawRecord::SIZE) as u64;
    counts.events += report.events as u64;
    counts.steps += report.steps as u64;
}

/// One of the three parts that are counted, by their names.
#[inline(never)]
fn pump_records(hub: &mut Hub, batch: &[u8], out: &mut [u8], allowance: u16) -> PumpReport {
    hub.pump(batch, 0, out, allowance)
}

/// Another.
#[inline(never)]
fn read_events(report: &PumpReport, out: &[u8], events: &mut Vec<Event>) {
    events.extend(report.written(out));
}

/// The third.
#[inline(never)]
fn ask_hub(hub: &Hub, pad: PadId, code: Code) -> bool {
    hub.is_pressed_by_code(pad, code).unwrap_or(false)
}
