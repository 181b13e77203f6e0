//! Buttons and axes, the codes of a pad's elements, and the numbers of pads and names.

use std::fmt;

/// A pad: 0 to 3 in the order of registration. Any number may be asked for; one that is not registered is refused.
#[derive(Clone, Copy, Debug, Eq, Hash, Ord, PartialEq, PartialOrd)]
pub struct PadId(pub u8);

impl From<PadId> for usize {
    fn from(pad: PadId) -> usize {
        usize::from(pad.0)
    }
}

impl fmt::Display for PadId {
    fn fmt(&self, f: &mut fmt::Formatter<'_>) -> fmt::Result {
        self.0.fmt(f)
    }
}

/// The Linux input number of an element: the event's type in the upper half, its code in the lower.
#[derive(Clone, Copy, Eq, Hash, Ord, PartialEq, PartialOrd)]
pub struct Code(pub u32);

impl Code {
    /// The four directions, which events carry though a pad may not list them.
    pub const DPAD_UP: Code = Code::key(0x220);
    pub const DPAD_DOWN: Code = Code::key(0x221);
    pub const DPAD_LEFT: Code = Code::key(0x222);
    pub const DPAD_RIGHT: Code = Code::key(0x223);

    /// A button's code: type `EV_KEY`, 1.
    pub const fn key(code: u16) -> Code {
        Code(0x1_0000 + code as u32)
    }

    /// An axis's code: type `EV_ABS`, 3.
    pub const fn abs(code: u16) -> Code {
        Code(0x3_0000 + code as u32)
    }

    /// The number.
    pub fn into_u32(self) -> u32 {
        self.0
    }
}

impl fmt::Debug for Code {
    fn fmt(&self, f: &mut fmt::Formatter<'_>) -> fmt::Result {
        write!(f, "Code({:#010x})", self.0)
    }
}

/// Eight hexadecimal digits.
impl fmt::Display for Code {
    fn fmt(&self, f: &mut fmt::Formatter<'_>) -> fmt::Result {
        write!(f, "{:08x}", self.0)
    }
}

/// gilrs's buttons, with their numbers here.
#[derive(Clone, Copy, Debug, Default, Eq, Hash, PartialEq)]
#[repr(u8)]
pub enum Button {
    /// Of elements without a name. It stands in events alone: asking by it is refused.
    #[default]
    Unknown = 0,
    South,
    East,
    North,
    West,
    C,
    Z,
    LeftTrigger,
    LeftTrigger2,
    RightTrigger,
    RightTrigger2,
    Select,
    Start,
    Mode,
    LeftThumb,
    RightThumb,
    DPadUp,
    DPadDown,
    DPadLeft,
    DPadRight,
}

impl Button {
    /// All of them, by number.
    pub const ALL: [Button; 20] = [
        Button::Unknown,
        Button::South,
        Button::East,
        Button::North,
        Button::West,
        Button::C,
        Button::Z,
        Button::LeftTrigger,
        Button::LeftTrigger2,
        Button::RightTrigger,
        Button::RightTrigger2,
        Button::Select,
        Button::Start,
        Button::Mode,
        Button::LeftThumb,
        Button::RightThumb,
        Button::DPadUp,
        Button::DPadDown,
        Button::DPadLeft,
        Button::DPadRight,
    ];

    /// The code that [`is_pressed`](crate::Hub::is_pressed) looks at where no element of the pad has the name.
    pub fn to_nec(self) -> Option<Code> {
        const KEYS: [u16; 19] = [
            0x130, 0x131, 0x133, 0x134, 0x132, 0x135, 0x136, 0x138, 0x137, 0x139, 0x13a, 0x13b, 0x13c, 0x13d, 0x13e,
            0x220, 0x221, 0x222, 0x223,
        ];
        KEYS.get((self as usize).checked_sub(1)?).map(|key| Code::key(*key))
    }

    pub fn is_action(self) -> bool {
        matches!(self, Button::South | Button::East | Button::North | Button::West | Button::C | Button::Z)
    }

    pub fn is_trigger(self) -> bool {
        matches!(self, Button::LeftTrigger | Button::LeftTrigger2 | Button::RightTrigger | Button::RightTrigger2)
    }

    pub fn is_menu(self) -> bool {
        matches!(self, Button::Select | Button::Start | Button::Mode)
    }

    pub fn is_stick(self) -> bool {
        matches!(self, Button::LeftThumb | Button::RightThumb)
    }

    pub fn is_dpad(self) -> bool {
        matches!(self, Button::DPadUp | Button::DPadDown | Button::DPadLeft | Button::DPadRight)
    }
}

/// gilrs's axes, with their numbers here.
#[derive(Clone, Copy, Debug, Eq, Hash, PartialEq)]
#[repr(u8)]
pub enum Axis {
    /// Of elements without a name. It stands in events alone: asking by it is refused.
    Unknown = 32,
    LeftStickX,
    LeftStickY,
    LeftZ,
    RightStickX,
    RightStickY,
    RightZ,
    DPadX,
    DPadY,
}

impl Axis {
    /// All of them, by number.
    pub const ALL: [Axis; 9] = [
        Axis::Unknown,
        Axis::LeftStickX,
        Axis::LeftStickY,
        Axis::LeftZ,
        Axis::RightStickX,
        Axis::RightStickY,
        Axis::RightZ,
        Axis::DPadX,
        Axis::DPadY,
    ];

    pub fn is_stick(self) -> bool {
        matches!(self, Axis::LeftStickX | Axis::LeftStickY | Axis::RightStickX | Axis::RightStickY)
    }

    /// The other axis of the same stick or hat.
    pub fn second_axis(self) -> Option<Axis> {
        match self {
            Axis::LeftStickX => Some(Axis::LeftStickY),
            Axis::LeftStickY => Some(Axis::LeftStickX),
            Axis::RightStickX => Some(Axis::RightStickY),
            Axis::RightStickY => Some(Axis::RightStickX),
            Axis::DPadX => Some(Axis::DPadY),
            Axis::DPadY => Some(Axis::DPadX),
            _ => None,
        }
    }
}

/// What an element is called.
#[derive(Clone, Copy, Debug, Eq, Hash, PartialEq)]
pub enum AxisOrBtn {
    Axis(Axis),
    Btn(Button),
}

/// A name as the byte that sheets, rename lists, events and queries have: a button's 0 to 19, an axis's 32 to 40, 255 for none. Any byte may be given; the hub
/// judges it.
///
/// ```
/// use copperyarn::{Axis, AxisOrBtn, Button, Name};
///
/// assert_eq!(Name::from(Button::South), Name(1));
/// assert_eq!(Name(39).axis(), Some(Axis::DPadX));
/// assert_eq!(Name(19).meaning(), Some(AxisOrBtn::Btn(Button::DPadRight)));
/// assert_eq!(Name::NONE.meaning(), None);
/// ```
#[derive(Clone, Copy, Debug, Eq, Hash, PartialEq)]
pub struct Name(pub u8);

impl Name {
    /// No name.
    pub const NONE: Name = Name(255);

    /// The button of this number.
    pub fn button(self) -> Option<Button> {
        Button::ALL.get(usize::from(self.0)).copied()
    }

    /// The axis of this number.
    pub fn axis(self) -> Option<Axis> {
        Axis::ALL.get(usize::from(self.0).checked_sub(Axis::Unknown as usize)?).copied()
    }

    /// The button or the axis of this number.
    pub fn meaning(self) -> Option<AxisOrBtn> {
        self.button().map(AxisOrBtn::Btn).or_else(|| self.axis().map(AxisOrBtn::Axis))
    }
}

impl From<Button> for Name {
    fn from(button: Button) -> Name {
        Name(button as u8)
    }
}

impl From<Axis> for Name {
    fn from(axis: Axis) -> Name {
        Name(axis as u8)
    }
}

impl From<AxisOrBtn> for Name {
    fn from(name: AxisOrBtn) -> Name {
        match name {
            AxisOrBtn::Axis(axis) => axis.into(),
            AxisOrBtn::Btn(button) => button.into(),
        }
    }
}
