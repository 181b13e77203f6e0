//! The oracle's program:
//!     oracle play [--crate-loop] FILE    plays a scenario stream and prints the answers
//!     oracle generate SEED COUNT         writes COUNT random scenarios to standard output
//!     oracle example                     writes 01's padlog example as a scenario
//!     oracle worked                      writes 01's worked numbers as scenarios
//!     oracle cases FILE                  answers the byte-form cases that reader.py wrote

mod cases;
mod lines;
mod pads;
mod play;
mod random;
mod scenes;
mod tilts;
mod traffic;
mod worked;

use std::io::{self, BufWriter, Write};
use std::process::exit;

fn main() {
    let arguments: Vec<String> = std::env::args().skip(1).collect();
    let words: Vec<&str> = arguments.iter().map(String::as_str).collect();
    let done = match words[..] {
        ["play", file] => play_file(file, false),
        ["play", "--crate-loop", file] => play_file(file, true),
        ["generate", seed, count] => generate(number(seed), number(count)),
        ["example"] => io::stdout().write_all(&worked::example()),
        ["worked"] => io::stdout().write_all(&worked::worked()),
        ["cases", file] => {
            std::fs::read(file).and_then(|bytes| io::stdout().write_all(cases::answers(&bytes).as_bytes()))
        }
        _ => {
            eprintln!("oracle play [--crate-loop] FILE | generate SEED COUNT | example | worked | cases FILE");
            exit(2)
        }
    };
    if let Err(error) = done {
        eprintln!("oracle: {}", error);
        exit(1)
    }
}

fn number(text: &str) -> u64 {
    text.parse().unwrap_or_else(|_| {
        eprintln!("oracle: {} is no number", text);
        exit(2)
    })
}

fn play_file(file: &str, crate_loop: bool) -> io::Result<()> {
    let bytes = std::fs::read(file)?;
    let operations = match reading::scenario::read(&bytes) {
        Some(operations) => operations,
        None => return Err(io::Error::new(io::ErrorKind::InvalidData, format!("{} is no scenario", file))),
    };
    let mut out = BufWriter::new(io::stdout());
    let (compared, left_out) = play::play(&operations, crate_loop, &mut out)?;
    if crate_loop {
        eprintln!("{} pump calls equal the crate's own loop, {} could not be compared", compared, left_out);
    }
    out.flush()
}

fn generate(seed: u64, count: u64) -> io::Result<()> {
    let mut random = random::Random::new(seed);
    let mut out = BufWriter::new(io::stdout());
    for _ in 0..count {
        out.write_all(&scenes::scene(&mut random))?;
    }
    out.flush()
}
