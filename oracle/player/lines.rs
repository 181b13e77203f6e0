//! What the generator reads back from the answers' lines.

use reading::event::{self, Event};
use std::collections::BTreeSet;

pub fn pad_in(word: &str) -> u8 {
    word.parse().expect("a pad")
}

pub fn code_in(word: &str) -> u32 {
    u32::from_str_radix(word, 16).expect("a code")
}

/// Pad and code of each button among the events that a pump wrote.
pub fn buttons(lines: &[String]) -> BTreeSet<(u8, u32)> {
    let mut found = BTreeSet::new();
    for words in lines.iter().map(|line| line.split(' ').collect::<Vec<_>>()) {
        if event::WORDS[usize::from(event::PRESSED)..=usize::from(event::CHANGED)].contains(&words[0]) {
            found.insert((pad_in(words[1]), code_in(words[3])));
        }
    }
    found
}

/// The pads whose button records the events that a pump wrote may have moved: of all kinds but an axis's.
pub fn touched(lines: &[String]) -> BTreeSet<u8> {
    let mut found = BTreeSet::new();
    for words in lines.iter().map(|line| line.split(' ').collect::<Vec<_>>()) {
        if event::WORDS.contains(&words[0]) && words[0] != event::WORDS[usize::from(event::AXIS)] {
            found.insert(pad_in(words[1]));
        }
    }
    found
}

/// The pads of the Connected events that a pump wrote, from records and from the caller alike.
pub fn connected(lines: &[String]) -> BTreeSet<u8> {
    let word = event::WORDS[usize::from(event::CONNECTED)];
    let words = lines.iter().map(|line| line.split(' ').collect::<Vec<_>>());
    words.filter(|words| words[0] == word).map(|words| pad_in(words[1])).collect()
}

/// The place in a pump's answer.
pub fn place(line: &str) -> usize {
    line.split(' ').rev().nth(2).and_then(|word| word.parse().ok()).expect("a place")
}

/// The event of a REPEATED line.
pub fn repeated(line: &str) -> Option<Event> {
    let words: Vec<&str> = line.split(' ').collect();
    if words[0] != "REPEATED" {
        return None;
    }
    Some(Event {
        kind: event::REPEATED,
        pad: words[1].parse().ok()?,
        name: words[2].parse().ok()?,
        code: u32::from_str_radix(words[3], 16).ok()?,
        bits: 0,
        time: words[5].parse().ok()?,
    })
}
