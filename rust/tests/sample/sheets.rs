//! The builder writes the bytes that the sample's sheets have.

use crate::scenario::{self, Operation};
use crate::stored;
use copperyarn::{Code, Hub, Name, Settings, Sheet, SheetBuilder};

/// A sheet that one of the hub's calls takes, built again from its fields, the elements in another order.
fn rebuilt(bytes: &[u8]) -> Sheet {
    let with_hats = Sheet::builder().hats(bytes[3]);
    bytes[5..].chunks_exact(18).rev().fold(with_hats, with_element).build()
}

fn with_element(builder: SheetBuilder, bytes: &[u8]) -> SheetBuilder {
    let field = |at: usize| u32::from_be_bytes([bytes[at], bytes[at + 1], bytes[at + 2], bytes[at + 3]]);
    let (code, name, limits) = (Code(field(0)), Name(bytes[5]), field(6) as i32..=field(10) as i32);
    match (bytes[4], field(14)) {
        (1, _) => builder.button(code, name),
        (_, u32::MAX) => builder.axis(code, name, limits),
        (_, deadzone) => builder.axis_with_deadzone(code, name, limits, deadzone),
    }
}

#[test]
fn the_builder_writes_the_sheets_of_the_sample() {
    let mut taken = 0;
    for file in ["scenarios.bin", "example.bin", "worked.bin"] {
        for operation in scenario::read(&stored(file)).expect("a scenario file") {
            let (Operation::Register(bytes) | Operation::RegisterArchived(bytes)) = operation else { continue };
            let sheet = Sheet::from_bytes(bytes);
            if Hub::new(Settings::default()).expect("a hub").register_archived(&sheet).is_ok() {
                assert_eq!(rebuilt(bytes), sheet);
                taken += 1;
            }
        }
    }
    assert!(taken > 280, "{taken} sheets");
}
