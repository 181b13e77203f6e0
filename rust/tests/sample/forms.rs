//! The crate's readers of records and events call malformed what the hub does.

use crate::scenario::{self, Operation};
use crate::stored;
use copperyarn::{Event, Hub, RawRecord, Reason, Refusal, Settings};

fn malformed_record(hub: &mut Hub, bytes: &[u8]) -> bool {
    hub.pump(bytes, 0, &mut [0; 16 * Event::SIZE], u16::MAX).reason == Reason::Refused(Refusal::Malformed)
}

#[test]
fn records_and_events_are_read_as_the_hub_reads_them() {
    // without a pad every one that is not malformed is refused by 6, and changes nothing
    let mut hub = Hub::new(Settings::default()).expect("gilrs's defaults");
    let (mut good, mut bad) = (0, 0);
    let mut count = |is_malformed: bool| *(if is_malformed { &mut bad } else { &mut good }) += 1;
    for operation in scenario::read(&stored("scenarios.bin")).expect("a scenario file") {
        match operation {
            Operation::Update(bytes) | Operation::Insert(bytes) => {
                let read = Event::from_bytes(bytes);
                let is_malformed = hub.update_bytes(bytes) == Err(Refusal::Malformed);
                assert_eq!(read.is_err(), is_malformed);
                assert!(read.is_err() || read.is_ok_and(|event| event.to_bytes() == *bytes));
                count(is_malformed);
            }
            Operation::Pump(call) => call.batch.chunks(RawRecord::SIZE).for_each(|bytes| {
                let read = RawRecord::from_bytes(bytes);
                let is_malformed = malformed_record(&mut hub, bytes);
                assert_eq!(read.is_err(), is_malformed);
                assert!(read.is_err() || read.is_ok_and(|record| record.to_bytes() == *bytes));
                count(is_malformed);
            }),
            _ => {}
        }
    }
    assert!(good > 5_000 && bad > 50, "{good} good, {bad} malformed");
}
