//! Behind every call of the sample what is down is what counting anew over the records gives, on every pad.

use crate::scenario::{self, Operation};
use crate::{player, stored};
use copperyarn::{Code, Down, Hub, PadId};

/// The pressed ones of a pad's buttons, by rising code.
fn pressed(hub: &Hub, pad: PadId) -> Vec<Code> {
    let buttons = hub.buttons(pad).expect("a pad");
    buttons.filter(|(_, data)| data.is_pressed()).map(|(code, _)| code).collect()
}

/// Holds what the hub says of a pad to its records; axis elements are those that have a threshold. How many are down.
fn hold(hub: &Hub, pad: PadId, behind: &Operation<'_>) -> usize {
    let pressed = pressed(hub, pad);
    let axis = pressed.iter().any(|code| hub.deadzone(pad, *code).expect("a pad").is_some());
    assert_eq!(hub.down(pad), Ok(Down { count: pressed.len() as u8, axis }), "behind {behind:?}");
    assert_eq!(hub.lowest_pressed(pad), Ok(pressed.first().copied()), "behind {behind:?}");
    pressed.len()
}

#[test]
fn what_is_down_is_the_fresh_count_behind_every_call() {
    let stream = stored("scenarios.bin");
    let (mut held, mut most) = (0, 0);
    let mut hub = None;
    for operation in scenario::read(&stream).expect("a scenario file") {
        player::answer(&mut hub, &operation);
        let Some(hub) = &hub else { continue };
        for pad in (0..hub.fields().head.pads).map(PadId) {
            let count = hold(hub, pad, &operation);
            held += usize::from(count > 0);
            most = most.max(count);
        }
    }
    assert!(held > 5_000 && most > 8, "{held} times something was down, {most} at most");
}
