//! The list's cases as words, and how often each arm was met.

use reading::event::Event;
use std::collections::BTreeMap;

pub const WORDS: usize = 26;

/// How many cases a round gives.
pub const ROUND: usize = 2;

/// Where the words of a case's events stand: the event given, the event that came out, and those queued behind it.
pub const GIVEN: usize = 6;
pub const OUT: usize = 10;
pub const QUEUED: usize = 14;

#[derive(Default)]
pub struct List {
    pub bytes: Vec<u8>,
    pub arms: BTreeMap<String, u64>,
}

impl List {
    pub fn add(&mut self, case: Case, arm: String) {
        case.0.iter().for_each(|word| self.bytes.extend_from_slice(&word.to_be_bytes()));
        *self.arms.entry(arm).or_insert(0) += 1;
    }
}

pub struct Case([u32; WORDS]);

/// Marks as the bits of a byte, the first the lowest.
pub fn marks(marks: &[bool]) -> u8 {
    marks.iter().rev().fold(0, |byte, mark| byte << 1 | u8::from(*mark))
}

impl Case {
    /// The first word: its kind, and three bytes more.
    pub fn new(kind: u8, second: u8, third: u8, fourth: u8) -> Case {
        let mut case = Case([0; WORDS]);
        case.0[0] = u32::from_be_bytes([kind, second, third, fourth]);
        case
    }

    pub fn put(&mut self, at: usize, words: &[u32]) {
        self.0[at..at + words.len()].copy_from_slice(words);
    }

    /// Four words: kind, pad and name; code; value bits; time.
    pub fn event(&mut self, at: usize, event: &Event) {
        let first = u32::from_be_bytes([event.kind, event.pad, event.name, 0]);
        self.put(at, &[first, event.code, event.bits, event.time as u32]);
    }
}
