//! Writes a part of the list of the program `decisions` to standard output: cases of 26 big-endian words, each a decision's inputs as they were
//! read off gilrs and what gilrs then did. How often each arm was met goes to standard error.

#[allow(dead_code)]
#[path = "../desk/hub.rs"]
mod hub;
#[allow(dead_code)]
#[path = "../desk/plan.rs"]
mod plan;
#[allow(dead_code)]
#[path = "../player/random.rs"]
mod random;
#[allow(dead_code)]
#[path = "../desk/translate.rs"]
mod translate;

mod dispatching;
mod filtering;
mod list;
mod pads;
mod repeating;
mod storing;

use list::List;
use random::Random;
use std::io::Write;

const ROUNDS: usize = 500;

/// `main KIND`: the cases of that kind, 2 a round.
fn main() {
    let kind: u8 = std::env::args().nth(1).and_then(|word| word.parse().ok()).expect("a kind of case");
    let mut random = Random::new(u64::from(kind) * 2 + u64::from(gilrs_core::IS_Y_AXIS_REVERSED));
    let mut list = List::default();
    for _ in 0..ROUNDS {
        match kind {
            dispatching::KIND => dispatching::cases(&mut random, &mut list),
            storing::KIND => storing::cases(&mut random, &mut list),
            repeating::KIND => repeating::cases(&mut random, &mut list),
            _ => filtering::cases(kind, &mut random, &mut list),
        }
    }
    std::io::stdout().write_all(&list.bytes).unwrap();
    for (arm, count) in &list.arms {
        eprintln!("{:>6} {}", count, arm);
    }
}
