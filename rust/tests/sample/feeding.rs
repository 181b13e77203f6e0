//! `feed` and `next_event` hand out what the bare pump writes, and leave the same hub, between any two events as well; and a feed
//! reports what the pumps together do.

use crate::scenario::{self, Operation};
use crate::{player, stored};
use copperyarn::{Event, Feed, Hub, RawRecord, Reason, Refused, Tilt};

/// What a feed gives, and which of three its last deadzone calculation for an axis event was.
type Given = (Vec<Result<Event, Refused>>, Option<Tilt>);

fn fed(mut feed: Feed<'_, '_>) -> Given {
    (feed.by_ref().collect(), feed.tilt())
}

/// The same by the bare pump with a buffer of so many events, each refused record skipped.
fn pumped(hub: &mut Hub, records: &[RawRecord], room: usize) -> Given {
    let (mut given, mut tilt) = (Vec::new(), None);
    let mut out = vec![0; room * Event::SIZE];
    // 700 records stay under the longest batch
    for part in records.chunks(700) {
        let batch: Vec<u8> = part.iter().flat_map(|record| record.to_bytes()).collect();
        let mut place = 0;
        loop {
            let report = hub.pump(&batch, place, &mut out, u16::MAX);
            given.extend(report.written(&out).map(Ok));
            tilt = report.tilt.or(tilt);
            place = report.place;
            match report.reason {
                Reason::Drained => break,
                Reason::Full | Reason::Paused => {}
                Reason::Refused(refusal) => {
                    given.push(Err(Refused { record: part[place / RawRecord::SIZE], refusal }));
                    place += RawRecord::SIZE;
                }
            }
        }
    }
    // what waits where there is no record at all
    while hub.waiting() > 0 {
        let report = hub.pump(&[], 0, &mut out, u16::MAX);
        given.extend(report.written(&out).map(Ok));
        tilt = report.tilt.or(tilt);
    }
    (given, tilt)
}

/// The records of a batch that have the form of one.
fn records(batch: &[u8]) -> Vec<RawRecord> {
    batch.chunks_exact(RawRecord::SIZE).filter_map(|bytes| RawRecord::from_bytes(bytes).ok()).collect()
}

/// Every hub of the sample as it stands before a pump, with that pump's records.
fn each_pump(mut look: impl FnMut(&Hub, &[RawRecord])) {
    let stream = stored("scenarios.bin");
    let mut hub = None;
    for operation in scenario::read(&stream).expect("a scenario file") {
        if let (Operation::Pump(call), Some(hub)) = (&operation, &hub) {
            look(hub, &records(call.batch));
        }
        player::answer(&mut hub, &operation);
    }
}

#[test]
fn a_feed_gives_what_pumps_give() {
    let (mut events, mut refused, mut tilts) = (0, 0, 0);
    each_pump(|hub, records| {
        let (mut feeding, mut bare) = (hub.clone(), hub.clone());
        let given = fed(feeding.feed(records));
        assert_eq!(given, pumped(&mut bare, records, 744));
        assert!(feeding == bare);
        let (given, tilt) = given;
        events += given.iter().filter(|item| item.is_ok()).count();
        refused += given.iter().filter(|item| item.is_err()).count();
        tilts += usize::from(tilt.is_some());
    });
    assert!(
        events > 5_000 && refused > 100 && tilts > 500,
        "{events} events, {refused} refused records, {tilts} tilts"
    );
}

#[test]
fn between_two_events_the_state_is_that_of_those_so_far() {
    let mut looked = 0;
    each_pump(|hub, records| {
        let records: Vec<RawRecord> = records.iter().copied().take(12).collect();
        let mut hub = hub.clone();
        let mut feed = hub.clone();
        let mut feed = feed.feed(&records);
        let batch: Vec<u8> = records.iter().flat_map(|record| record.to_bytes()).collect();
        let mut out = [0; Event::SIZE];
        let mut place = 0;
        while let Some(Ok(event)) = feed.next() {
            let report = hub.pump(&batch, place, &mut out, u16::MAX);
            assert_eq!(report.written(&out).next(), Some(event));
            assert_eq!(feed.rest().len(), records.len() - report.place / RawRecord::SIZE);
            assert!(*feed.hub() == hub);
            place = report.place;
            looked += 1;
        }
    });
    assert!(looked > 1_000, "{looked} events");
}

#[test]
fn a_feed_that_is_dropped_early_loses_nothing() {
    each_pump(|hub, records| {
        let (mut whole, mut parted) = (hub.clone(), hub.clone());
        let given: Vec<_> = whole.feed(records).collect();
        let mut rest = records;
        let mut again = Vec::new();
        loop {
            let mut feed = parted.feed(rest);
            let Some(item) = feed.next() else { break };
            again.push(item);
            rest = feed.rest();
        }
        assert_eq!(given, again);
        assert!(whole == parted);
    });
}

#[test]
fn any_number_of_records_is_fed() {
    let mut hubs = Vec::new();
    let mut many = Vec::new();
    each_pump(|hub, records| {
        many.extend_from_slice(records);
        if hubs.len() < 5 {
            hubs.push(hub.clone());
        }
    });
    assert!(many.len() > 2_000, "{} records", many.len());
    for mut feeding in hubs {
        let mut bare = feeding.clone();
        assert_eq!(fed(feeding.feed(&many)), pumped(&mut bare, &many, 3));
        assert!(feeding == bare);
    }
}
