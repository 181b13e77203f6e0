//! What the player needs of gilrs and cannot reach from outside it: making codes, pad numbers and events, reading the
//! hats bits, reading and restoring the deadzone flags. Nothing here decides anything.

use crate::ev::{Code, Event, EventType};
use crate::gamepad::{GamepadId, Gilrs};
use gilrs_core::EvCode;
use std::time::SystemTime;

pub fn code(number: u32) -> Code {
    Code(EvCode(u64::from(number)))
}

pub fn pad(number: usize) -> GamepadId {
    GamepadId(number)
}

pub fn event(pad: usize, event: EventType, time: SystemTime) -> Event {
    Event { id: GamepadId(pad), event, time }
}

pub fn hats(gilrs: &Gilrs, pad: usize) -> u8 {
    gilrs.gamepad(GamepadId(pad)).mapping().hats_mapped()
}

/// In the crate's order: DPadX, DPadY, LeftStickX, LeftStickY, RightStickX, RightStickY.
pub fn flags(gilrs: &Gilrs, pad: usize) -> [bool; 6] {
    gilrs.gamepads_data[pad].have_sent_nonzero_for_axis
}

pub fn restore_flags(gilrs: &mut Gilrs, pad: usize, flags: [bool; 6]) {
    gilrs.gamepads_data[pad].have_sent_nonzero_for_axis = flags;
}
