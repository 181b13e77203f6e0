//! Watches a pad: `watch SHEET DEVICE` prints the events of `/dev/input/event*`, or of a recording of it, by the pad's sheet (a file of the bytes that
//! `docs/SCOPE.md` describes, as `desk-files/sheets/desk.bin`). It ends where the device does.

use copperyarn::{Code, Hub, PadId, RawRecord, Settings, Sheet};
use std::error::Error;
use std::fs::{self, File};
use std::io::{BufReader, Read};

/// A device's records. It blocks while the device is quiet.
struct Device {
    file: BufReader<File>,
    pad: PadId,
}

impl Iterator for Device {
    type Item = RawRecord;

    fn next(&mut self) -> Option<RawRecord> {
        let mut input = [0; 24];
        loop {
            self.file.read_exact(&mut input).ok()?;
            let record = record(self.pad, &input);
            if record.is_some() {
                return record;
            }
        }
    }
}

/// A record of the kernel's `input_event`: seconds and microseconds, 8 bytes each, then type 2, code 2, value 4. The low half
/// of the seconds will do until 2106. The kernel's own repeats and its marks are no records.
fn record(pad: PadId, input: &[u8; 24]) -> Option<RawRecord> {
    let half = |at: usize| u16::from_le_bytes([input[at], input[at + 1]]);
    let whole = |at: usize| u32::from(half(at)) | u32::from(half(at + 2)) << 16;
    let time = u64::from(whole(0)) * 1_000_000 + u64::from(whole(8));
    let (kind, code, value) = (half(16), half(18), whole(20) as i32);
    match (kind, value) {
        (1, 0) => Some(RawRecord::released(pad, Code::key(code), time)),
        (1, 1) => Some(RawRecord::pressed(pad, Code::key(code), time)),
        (3, _) => Some(RawRecord::axis(pad, Code::abs(code), value, time)),
        _ => None,
    }
}

fn main() -> Result<(), Box<dyn Error>> {
    let words: Vec<String> = std::env::args().collect();
    let [_, sheet, device] = &words[..] else { return Err("watch SHEET DEVICE".into()) };
    let mut hub = Hub::new(Settings::default())?;
    let pad = hub.register(&Sheet::from_bytes(&fs::read(sheet)?))?;
    let mut device = Device { file: BufReader::new(File::open(device)?), pad };
    loop {
        match hub.next_event(&mut device) {
            Ok(Some(event)) => println!("{event:?}"),
            Ok(None) => return Ok(()),
            Err(refused) => eprintln!("{refused}"),
        }
        hub.inc();
    }
}
