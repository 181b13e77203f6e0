//! gilrs's own scaling, which is private there: cut out of its source by name, once with the Y axis reversed and once not, with as much of the types around it
//! as it reads.

use reading::names::DPAD_Y;
use reading::sheet::Element;

#[allow(dead_code)]
#[derive(Clone, Copy, PartialEq)]
pub enum Axis {
    DPadX,
    DPadY,
    LeftStickY,
    RightStickY,
}

pub struct AxisInfo {
    min: i32,
    max: i32,
}

mod utils {
    include!(concat!(env!("CUT"), "/clamp.rs"));
}

mod plain {
    use super::{utils, Axis, AxisInfo};
    mod gilrs_core {
        pub const IS_Y_AXIS_REVERSED: bool = false;
    }
    include!(concat!(env!("CUT"), "/axis_value.rs"));
    pub fn scaled(info: &AxisInfo, value: i32, axis: Axis) -> f32 {
        axis_value(info, value, axis)
    }
}

mod turned {
    use super::{utils, Axis, AxisInfo};
    mod gilrs_core {
        pub const IS_Y_AXIS_REVERSED: bool = true;
    }
    include!(concat!(env!("CUT"), "/axis_value.rs"));
    pub fn scaled(info: &AxisInfo, value: i32, axis: Axis) -> f32 {
        axis_value(info, value, axis)
    }
}

/// The value that a hat's axis element reads.
pub fn scaled(element: &Element, value: i32, reversed: bool) -> f32 {
    let info = AxisInfo { min: element.min, max: element.max };
    let axis = if element.name == DPAD_Y { Axis::DPadY } else { Axis::DPadX };
    if reversed {
        turned::scaled(&info, value, axis)
    } else {
        plain::scaled(&info, value, axis)
    }
}
