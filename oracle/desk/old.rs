//! W-212's mark, which gilrs does not have: the player keeps it beside gilrs, in two bits for each pad, by the request's
//! words. A partial sheet that comes by the archived call makes its pad old; a rename that is answered clears the mark; a
//! Connected record that a pump takes brings it back. Events of the kind Connected, which a caller may insert or give to
//! the state, load no mapping in gilrs and do nothing here.
//!
//! No hats are looked at behind the registration. But wherever the mark is asked for, the hats that gilrs then maps must
//! say the same.

use crate::hub::Hub;
use gilrs::window;
use reading::record::{self, Record};
use reading::sheet::Sheet;
use reading::MOST_PADS;

#[derive(Default)]
pub struct Old {
    /// Whether a pad came as an old one, and whether it is marked.
    came: [bool; MOST_PADS],
    marked: [bool; MOST_PADS],
}

impl Old {
    /// "marks a partial pad as old"
    pub fn archived(&mut self, pad: usize, sheet: &Sheet) {
        self.came[pad] = sheet.is_partial();
        self.marked[pad] = self.came[pad];
    }

    /// "A rename clears it"
    pub fn renamed(&mut self, pad: usize) {
        self.marked[pad] = false;
    }

    /// "Connected brings it back": of the records that a pump took, those of this kind.
    pub fn took(&mut self, records: &[Record]) {
        for record in records.iter().filter(|record| record.kind == record::CONNECTED) {
            let pad = usize::from(record.pad);
            self.marked[pad] = self.came[pad];
        }
    }

    /// The answer to the query.
    pub fn line(&self, hub: &Hub, pad: usize) -> String {
        let hats = window::hats(&hub.gilrs, pad);
        assert_eq!(self.marked[pad], !matches!(hats, 0 | 15), "gilrs maps the hats {} of pad {}", hats, pad);
        format!("IS {}", u8::from(self.marked[pad]))
    }
}
