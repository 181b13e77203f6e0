//! 01's numbers for names and for the four directions.

pub const UNKNOWN_BUTTON: u8 = 0;
pub const SOUTH: u8 = 1;
pub const DPAD_LEFT: u8 = 18;
pub const DPAD_RIGHT: u8 = 19;
pub const UNKNOWN_AXIS: u8 = 32;
pub const LEFT_STICK_X: u8 = 33;
pub const LEFT_STICK_Y: u8 = 34;
pub const DPAD_X: u8 = 39;
pub const DPAD_Y: u8 = 40;
pub const NO_NAME: u8 = 255;

pub const DIRECTIONS: [u32; 4] = [0x0001_0220, 0x0001_0221, 0x0001_0222, 0x0001_0223];

pub fn is_button_name(name: u8) -> bool {
    (SOUTH..=DPAD_RIGHT).contains(&name)
}

pub fn is_axis_name(name: u8) -> bool {
    (LEFT_STICK_X..=DPAD_Y).contains(&name)
}

/// "Names 1..19, 33..40 or 255", of sheets and rename lists.
pub fn is_sheet_name(name: u8) -> bool {
    is_button_name(name) || is_axis_name(name) || name == NO_NAME
}

/// "none but 255 twice"
pub fn stands_twice(names: &[u8]) -> bool {
    (1..names.len()).any(|at| names[at] != NO_NAME && names[..at].contains(&names[at]))
}
