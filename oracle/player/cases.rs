//! Answers the list of byte-form cases that `reader.py` writes, by the player's own reading. Each case is a kind (1
//! sheet for the archived call, 2 record, 3 event for `update`, 4 event for insert, 5 sheet for the plain call), a payload
//! length of 4 bytes, and the payload: for 2 to 4 the number of pads, each pad's sheet behind its length of 2 bytes, for 4
//! the number of waiting events, the bytes.

use reading::bytes::field;
use reading::event::Event;
use reading::record::Record;
use reading::sheet::Sheet;
use reading::{refusal, INSERT_LIMIT};

const ARCHIVED_SHEET: u8 = 1;
const RECORD: u8 = 2;
const UPDATE: u8 = 3;
const NEW_SHEET: u8 = 5;

pub fn answers(bytes: &[u8]) -> String {
    let mut text = String::new();
    let mut rest = bytes;
    while !rest.is_empty() {
        let end = 5 + field(rest, 1, 4) as usize;
        text += &answer(rest[0], &rest[5..end]);
        text += "\n";
        rest = &rest[end..];
    }
    text
}

fn answer(kind: u8, payload: &[u8]) -> String {
    let (word, judged) = match kind {
        ARCHIVED_SHEET => ("SHEET", Sheet::read_archived(payload).map(|_| ())),
        NEW_SHEET => ("SHEET", Sheet::read(payload).map(|_| ())),
        RECORD => {
            let (pads, bytes) = pads(payload);
            ("RECORD", Record::read(bytes, &pads).map(|_| ()))
        }
        UPDATE => {
            let (pads, bytes) = pads(payload);
            ("EVENT", Event::read(bytes, &pads).map(|_| ()))
        }
        _ => {
            let (pads, bytes) = pads(payload);
            ("EVENT", Event::read(&bytes[1..], &pads).and_then(|_| room(bytes[0])))
        }
    };
    match judged {
        Ok(()) => format!("{} ok", word),
        Err(number) => format!("{} {}", word, number),
    }
}

fn room(waiting: u8) -> Result<(), u8> {
    if usize::from(waiting) < INSERT_LIMIT {
        Ok(())
    } else {
        Err(refusal::QUEUE)
    }
}

fn pads(payload: &[u8]) -> (Vec<Sheet>, &[u8]) {
    let mut rest = &payload[1..];
    let mut pads = Vec::new();
    for _ in 0..payload[0] {
        let end = 2 + field(rest, 0, 2) as usize;
        pads.push(Sheet::read_archived(&rest[2..end]).expect("a good sheet"));
        rest = &rest[end..];
    }
    (pads, rest)
}
