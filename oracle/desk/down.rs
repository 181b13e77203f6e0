//! W-213's two questions, which gilrs has no call for. No summary is kept here: each time the player walks all of gilrs's
//! button records of the pad, as they stand. A direction that the sheet does not list has a record as well, and counts;
//! whether an axis element is among them is asked of gilrs by the codes that the sheet calls axes.

use crate::hub::Hub;
use gilrs::window;
use reading::sheet::{self, Sheet};

/// The codes of the pad's records that are pressed, in no order.
fn pressed(hub: &Hub, pad: usize) -> Vec<u32> {
    let handle = hub.pad(pad);
    let records = handle.state().buttons().filter(|(_, data)| data.is_pressed());
    records.map(|(code, _)| code.into_u32()).collect()
}

/// "The number of pressed elements .. and whether any axis element reads pressed", counted over the records.
pub fn down(hub: &Hub, pads: &[Sheet], pad: usize) -> String {
    let handle = hub.pad(pad);
    let mut axes = pads[pad].elements.iter().filter(|element| element.kind == sheet::AXIS);
    let axis = axes.any(|element| handle.state().is_pressed(window::code(element.code)));
    format!("DOWN {} {}", pressed(hub, pad).len(), u8::from(axis))
}

/// "The lowest pressed code", and "that there is none exactly when no record is pressed".
pub fn lowest(hub: &Hub, pad: usize) -> String {
    pressed(hub, pad).iter().min().map_or("ABSENT".to_string(), |code| format!("CODE {:08x}", code))
}
