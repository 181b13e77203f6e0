//! Plays a scenario stream: opens a desk at each `new` and hands it the operations that follow.

use reading::scenario::{Operation, Settings, Y_REVERSED};
use reading::{refusal, Desk};
use std::io::{self, Write};

/// gilrs takes the reversed Y axis from a constant, so there are two builds of the desk to choose from.
pub fn open(settings: Settings, ahead: &[Operation<'_>], own_loop: bool) -> Option<Box<dyn Desk>> {
    if !refusal::thresholds_stand(settings.pressed, settings.released) {
        return None;
    }
    Some(if settings.has(Y_REVERSED) {
        desk_reversed::open(settings, ahead, own_loop)
    } else {
        desk_plain::open(settings, ahead, own_loop)
    })
}

/// The answer to `new`.
pub fn new_line(desk: &Option<Box<dyn Desk>>) -> String {
    match desk {
        Some(_) => "HUB".to_string(),
        None => format!("REFUSED {}", refusal::THRESHOLDS),
    }
}

/// Plays all operations, writes one line per answer and event, and counts the comparisons with the crate's own loop.
pub fn play(operations: &[Operation<'_>], own_loop: bool, out: &mut impl Write) -> io::Result<(u64, u64)> {
    let mut desk: Option<Box<dyn Desk>> = None;
    let mut counts = (0, 0);
    for (at, operation) in operations.iter().enumerate() {
        if let Operation::New(settings) = operation {
            add(&mut counts, &desk);
            desk = open(*settings, &operations[at + 1..], own_loop);
            writeln!(out, "{}", new_line(&desk))?;
            continue;
        }
        match &mut desk {
            None => writeln!(out, "NO HUB")?,
            Some(desk) => {
                for line in desk.play(operation) {
                    writeln!(out, "{}", line)?;
                }
            }
        }
    }
    add(&mut counts, &desk);
    Ok(counts)
}

fn add(counts: &mut (u64, u64), desk: &Option<Box<dyn Desk>>) {
    if let Some(desk) = desk {
        let (compared, left_out) = desk.compared();
        counts.0 += compared;
        counts.1 += left_out;
    }
}
