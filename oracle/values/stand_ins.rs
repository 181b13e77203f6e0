// The types around 000's functions, with as much of each as the functions read.
mod gilrs_core {
    // The list asks for the Y rule by the axis's name, so the constant is on.
    pub const IS_Y_AXIS_REVERSED: bool = true;
}

#[derive(Clone, Copy, PartialEq)]
pub enum Axis {
    LeftStickX,
    LeftStickY,
    RightStickY,
    DPadY,
}

pub struct AxisInfo {
    pub min: i32,
    pub max: i32,
    pub deadzone: Option<u32>,
}

#[derive(Clone, Copy)]
pub struct Code(pub u32);

pub struct Inner {
    pub info: AxisInfo,
}

impl Inner {
    fn axis_info(&self, _code: u32) -> Option<&AxisInfo> {
        Some(&self.info)
    }
}

// a pad of one axis, and what its state holds of it
pub struct Gamepad {
    pub inner: Inner,
    pub stored: Stored,
}

#[derive(Clone, Copy)]
pub struct Stored(pub f32);

impl Stored {
    fn value(&self) -> f32 {
        self.0
    }

    fn axis_data(&self, _code: Code) -> Option<&Stored> {
        Some(self)
    }
}

impl Gamepad {
    fn state(&self) -> &Stored {
        &self.stored
    }
}

pub struct Gilrs(pub Gamepad);

impl Gilrs {
    fn gamepad(&self, _id: usize) -> &Gamepad {
        &self.0
    }
}

#[derive(Clone, Copy)]
pub enum EventType {
    AxisChanged(Axis, f32, Code),
    Dropped,
}

#[derive(Clone, Copy)]
pub struct Event {
    pub id: usize,
    pub event: EventType,
    pub time: u64,
}

impl Event {
    fn new(id: usize, event: EventType) -> Event {
        Event { id, event, time: 0 }
    }
}

pub trait FilterFn {
    fn filter(&self, ev: Option<Event>, gilrs: &mut Gilrs) -> Option<Event>;
}
