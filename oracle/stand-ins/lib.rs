//! Stand-in for gilrs's lib.rs: the same modules and the exports that the supplied files lean on, and `window`, which
//! only makes values whose constructors the crate keeps to itself and reads the flags of the deadzone filter.

#[macro_use]
extern crate log;

mod constants;
mod gamepad;
mod mapping;
mod utils;

pub mod ev;
pub mod ff;
pub mod window;

pub use crate::ev::filter::Filter;
pub use crate::ev::{Axis, Button, Event, EventType};
pub use crate::gamepad::{Gamepad, GamepadId, Gilrs, GilrsBuilder};
pub use crate::mapping::{MappingData as Mapping, MappingError};
