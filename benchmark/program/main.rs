//! The benchmark: gilrs, unchanged, over the oracle's stand-ins, and the hub through its Rust crate, in one program.
//!     pace stream SEED       writes the course of mixed records
//!     pace singly SEED       writes the course of one record a call, with a query after each
//!     pace bare CALLS        writes the course of a batch and so many calls that find nothing
//!     pace asking QUERIES    writes the course of a batch and so many queries
//!     pace taking STEPS      writes the course that takes STEPS events while up to 48 wait
//!     pace pushing STEPS     writes the course that converts STEPS hat events while 16 and more wait
//!     pace gilrs < COURSE     gilrs over one of the first four, behind its 4 bytes of rounds
//!     pace hub < COURSE       the hub over any of them
//! `benchmark/README.md` says what a course is.

#[allow(dead_code)] // the desk's parts, of which a course needs a few
#[path = "../../oracle/desk/hub.rs"]
mod hub;
#[allow(dead_code)]
#[path = "../../oracle/desk/plan.rs"]
mod plan;
#[allow(dead_code)]
#[path = "../../oracle/desk/translate.rs"]
mod translate;

mod clock;
mod course;
mod on_gilrs;
mod on_hub;
#[allow(dead_code)]
#[path = "../../oracle/player/random.rs"]
mod random;
mod single;
mod stream;
mod waiting;

use crate::course::Course;
use std::io::{self, Read, Write};
use std::process::exit;

fn main() {
    let arguments: Vec<String> = std::env::args().skip(1).collect();
    let words: Vec<&str> = arguments.iter().map(String::as_str).collect();
    let done = match words[..] {
        ["stream", seed] => io::stdout().write_all(&stream::course(number(seed))),
        ["singly", seed] => io::stdout().write_all(&single::singly(number(seed))),
        ["bare", calls] => io::stdout().write_all(&single::bare(number(calls))),
        ["asking", queries] => io::stdout().write_all(&single::asking(number(queries))),
        ["taking", steps] => io::stdout().write_all(&waiting::taking(number(steps))),
        ["pushing", steps] => io::stdout().write_all(&waiting::pushing(number(steps))),
        ["gilrs"] => played(on_gilrs::pace),
        ["hub"] => played(on_hub::pace),
        _ => {
            eprintln!("pace stream SEED | singly SEED | bare CALLS | asking QUERIES | taking STEPS | pushing STEPS | gilrs | hub");
            exit(2)
        }
    };
    if let Err(error) = done {
        eprintln!("pace: {}", error);
        exit(1)
    }
}

fn played(pace: fn(&Course<'_>)) -> io::Result<()> {
    let mut bytes = Vec::new();
    io::stdin().read_to_end(&mut bytes)?;
    pace(&Course::read(&bytes));
    Ok(())
}

fn number(text: &str) -> u64 {
    text.parse().unwrap_or_else(|_| {
        eprintln!("pace: {} is no number", text);
        exit(2)
    })
}
