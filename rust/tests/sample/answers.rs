//! The stored scenarios, played through the crate's calls, give the answers that gilrs gave.

use crate::{player, scenario, stored};

/// Plays a scenario file, and holds each line to the stored one; how many lines there were.
fn played(scenarios: &str, answers: &str) -> usize {
    let stream = stored(scenarios);
    let mut out = Vec::new();
    player::play(&scenario::read(&stream).expect("a scenario file"), &mut out).expect("a line");
    let (ours, theirs) = (String::from_utf8(out).expect("text"), String::from_utf8(stored(answers)).expect("text"));
    for (at, (our, their)) in ours.lines().zip(theirs.lines()).enumerate() {
        assert_eq!(our, their, "{answers}, line {}", at + 1);
    }
    assert_eq!(ours.lines().count(), theirs.lines().count());
    ours.lines().count()
}

#[test]
fn the_sample_is_answered_as_gilrs_does() {
    assert_eq!(played("scenarios.bin", "answers.txt"), 47_592);
}

#[test]
fn the_example_is_answered_as_01_says() {
    assert_eq!(played("example.bin", "example.txt"), 14);
}

#[test]
fn the_worked_numbers_are_those_of_01_and_of_w_205() {
    assert_eq!(played("worked.bin", "worked.txt"), 98);
}
