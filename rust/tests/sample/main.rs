//! Tests over the oracle's stored sample: 280 random scenarios, and gilrs's answers.

mod answers;
#[path = "../../../oracle/reading/bytes.rs"]
#[allow(dead_code)]
mod bytes;
mod down;
mod feeding;
mod forms;
mod old;
#[path = "../../examples/play/player.rs"]
mod player;
#[path = "../../../oracle/reading/scenario.rs"]
#[allow(dead_code)]
mod scenario;
mod sheets;

/// A stored file.
fn stored(name: &str) -> Vec<u8> {
    let path = format!("{}/../oracle/sample/{}", env!("CARGO_MANIFEST_DIR"), name);
    std::fs::read(&path).unwrap_or_else(|error| panic!("{path}: {error}"))
}
