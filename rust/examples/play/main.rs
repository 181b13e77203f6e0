//! Plays a scenario file on the hub and prints the answers, in the form of `oracle/README.md`: `play FILE`, or `play` with the scenarios on standard input.

#[path = "../../../oracle/reading/bytes.rs"]
#[allow(dead_code)]
mod bytes;
mod player;
#[path = "../../../oracle/reading/scenario.rs"]
#[allow(dead_code)]
mod scenario;

use std::error::Error;
use std::io::{self, BufWriter, Read, Write};

fn main() -> Result<(), Box<dyn Error>> {
    let mut stream = Vec::new();
    match std::env::args_os().nth(1) {
        Some(file) => stream = std::fs::read(file)?,
        None => drop(io::stdin().read_to_end(&mut stream)?),
    }
    let operations = scenario::read(&stream).ok_or("this is no scenario file")?;
    let mut out = BufWriter::new(io::stdout().lock());
    player::play(&operations, &mut out)?;
    out.flush()?;
    Ok(())
}
