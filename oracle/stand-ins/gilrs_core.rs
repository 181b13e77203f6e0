//! Stand-in for the crate gilrs_core, the backend of gilrs: pads that stand from the start, and raw events from an
//! inbox that the player fills. The clock is the player's too.

use std::cell::RefCell;
use std::collections::VecDeque;
use std::fmt::{Display, Formatter, Result as FmtResult};
use std::path::Path;
use std::sync::{Arc, Mutex};
use std::time::{Duration, SystemTime};

/// A constant in gilrs_core, so the oracle builds gilrs once with each value.
pub const IS_Y_AXIS_REVERSED: bool = cfg!(y_axis_reversed);

/// 32 bits would do for every code of a sheet; see `native_ev_codes::AXIS_DPADX` for why it is wider.
#[derive(Copy, Clone, Debug, Eq, PartialEq, Hash)]
pub struct EvCode(pub u64);

impl EvCode {
    pub fn into_u32(self) -> u32 {
        self.0 as u32
    }
}

impl Display for EvCode {
    fn fmt(&self, f: &mut Formatter<'_>) -> FmtResult {
        write!(f, "{:08x}", self.0)
    }
}

#[derive(Copy, Clone, Debug)]
pub struct AxisInfo {
    pub min: i32,
    pub max: i32,
    pub deadzone: Option<u32>,
}

#[derive(Copy, Clone, Debug)]
pub struct Event {
    pub id: usize,
    pub event: EventType,
    pub time: SystemTime,
}

#[derive(Copy, Clone, Debug)]
#[non_exhaustive]
pub enum EventType {
    ButtonPressed(EvCode),
    ButtonReleased(EvCode),
    AxisValueChanged(i32, EvCode),
    Connected,
    Disconnected,
}

#[derive(Debug)]
#[non_exhaustive]
pub enum Error {
    NotImplemented(Gilrs),
    Other(Box<dyn std::error::Error + Send + Sync + 'static>),
}

#[derive(Copy, Clone, Debug)]
pub enum PowerInfo {
    Unknown,
}

pub struct FfDevice;

pub trait LinuxGamepadExt {
    fn devpath(&self) -> &Path;
}

/// One pad: its elements as gilrs asks for them, and the number of its mapping line.
#[derive(Clone, Debug)]
pub struct Gamepad {
    pub codes: Vec<EvCode>,
    pub axes: Vec<(EvCode, AxisInfo)>,
    pub uuid: [u8; 16],
    pub connected: bool,
}

impl Gamepad {
    pub fn name(&self) -> &str {
        "pad"
    }

    pub fn uuid(&self) -> [u8; 16] {
        self.uuid
    }

    pub fn vendor_id(&self) -> Option<u16> {
        None
    }

    pub fn product_id(&self) -> Option<u16> {
        None
    }

    pub fn is_connected(&self) -> bool {
        self.connected
    }

    pub fn power_info(&self) -> PowerInfo {
        PowerInfo::Unknown
    }

    pub fn is_ff_supported(&self) -> bool {
        false
    }

    pub fn ff_device(&self) -> Option<FfDevice> {
        None
    }

    /// Every code, axes too: 01 lets a rename name any element as a button.
    pub fn buttons(&self) -> &[EvCode] {
        &self.codes
    }

    /// Every code, buttons too: 01 lets a rename name any element as an axis.
    pub fn axes(&self) -> &[EvCode] {
        &self.codes
    }

    pub fn axis_info(&self, code: EvCode) -> Option<&AxisInfo> {
        self.axes.iter().find(|axis| axis.0 == code).map(|axis| &axis.1)
    }
}

impl LinuxGamepadExt for Gamepad {
    fn devpath(&self) -> &Path {
        Path::new("")
    }
}

/// Raw events on their way to one hub; a Connected one brings the number of the mapping line that gilrs is to load.
#[derive(Clone, Debug, Default)]
pub struct Inbox(Arc<Mutex<VecDeque<(Event, Option<[u8; 16]>)>>>);

impl Inbox {
    pub fn post(&self, event: Event, uuid: Option<[u8; 16]>) {
        self.0.lock().unwrap().push_back((event, uuid));
    }

    pub fn is_empty(&self) -> bool {
        self.0.lock().unwrap().is_empty()
    }
}

thread_local! {
    static NEXT: RefCell<Option<Gilrs>> = RefCell::new(None);
}

#[derive(Debug)]
pub struct Gilrs {
    gamepads: Vec<Gamepad>,
    inbox: Inbox,
}

impl Gilrs {
    /// Says what the next `new` finds, since gilrs gives it no argument.
    pub fn prepare(gamepads: Vec<Gamepad>, inbox: Inbox) {
        NEXT.with(|next| *next.borrow_mut() = Some(Gilrs { gamepads, inbox }));
    }

    pub fn new() -> Result<Self, Error> {
        Ok(NEXT.with(|next| next.borrow_mut().take()).expect("a prepared backend"))
    }

    /// A pad's connected flag changes when its record is taken, as 01 has it.
    pub fn next_event(&mut self) -> Option<Event> {
        let (event, uuid) = self.inbox.0.lock().unwrap().pop_front()?;
        match event.event {
            EventType::Connected => {
                self.gamepads[event.id].connected = true;
                self.gamepads[event.id].uuid = uuid.expect("a mapping line");
            }
            EventType::Disconnected => self.gamepads[event.id].connected = false,
            _ => (),
        }
        Some(event)
    }

    pub fn next_event_blocking(&mut self, _timeout: Option<Duration>) -> Option<Event> {
        self.next_event()
    }

    pub fn gamepad(&self, id: usize) -> Option<&Gamepad> {
        self.gamepads.get(id)
    }

    pub fn last_gamepad_hint(&self) -> usize {
        self.gamepads.len()
    }
}

pub mod utils {
    use std::cell::Cell;
    use std::time::SystemTime;

    thread_local! {
        static NOW: Cell<SystemTime> = Cell::new(SystemTime::UNIX_EPOCH);
    }

    pub fn time_now() -> SystemTime {
        NOW.with(|now| now.get())
    }

    pub fn set_time_now(time: SystemTime) {
        NOW.with(|now| now.set(time));
    }
}

/// The Linux input header's codes, as 01 lists them for `to_nec`.
pub mod native_ev_codes {
    use super::EvCode;

    pub const BTN_SOUTH: EvCode = EvCode(0x0001_0130);
    pub const BTN_EAST: EvCode = EvCode(0x0001_0131);
    pub const BTN_C: EvCode = EvCode(0x0001_0132);
    pub const BTN_NORTH: EvCode = EvCode(0x0001_0133);
    pub const BTN_WEST: EvCode = EvCode(0x0001_0134);
    pub const BTN_Z: EvCode = EvCode(0x0001_0135);
    pub const BTN_LT: EvCode = EvCode(0x0001_0136);
    pub const BTN_RT: EvCode = EvCode(0x0001_0137);
    pub const BTN_LT2: EvCode = EvCode(0x0001_0138);
    pub const BTN_RT2: EvCode = EvCode(0x0001_0139);
    pub const BTN_SELECT: EvCode = EvCode(0x0001_013a);
    pub const BTN_START: EvCode = EvCode(0x0001_013b);
    pub const BTN_MODE: EvCode = EvCode(0x0001_013c);
    pub const BTN_LTHUMB: EvCode = EvCode(0x0001_013d);
    pub const BTN_RTHUMB: EvCode = EvCode(0x0001_013e);
    pub const BTN_DPAD_UP: EvCode = EvCode(0x0001_0220);
    pub const BTN_DPAD_DOWN: EvCode = EvCode(0x0001_0221);
    pub const BTN_DPAD_LEFT: EvCode = EvCode(0x0001_0222);
    pub const BTN_DPAD_RIGHT: EvCode = EvCode(0x0001_0223);

    // The crate reads the axis codes in its default mapping, which the oracle never loads, and where a mapping line
    // names a hat: that also names AXIS_DPADX or AXIS_DPADY. Outside 32 bits they are no code that a sheet can list,
    // so a hats bit is set and nothing else.
    pub const AXIS_DPADX: EvCode = EvCode(0x1_0000_0000);
    pub const AXIS_DPADY: EvCode = EvCode(0x1_0000_0001);
    pub const AXIS_LSTICKX: EvCode = EvCode(0x1_0000_0002);
    pub const AXIS_LSTICKY: EvCode = EvCode(0x1_0000_0003);
    pub const AXIS_LEFTZ: EvCode = EvCode(0x1_0000_0004);
    pub const AXIS_RSTICKX: EvCode = EvCode(0x1_0000_0005);
    pub const AXIS_RSTICKY: EvCode = EvCode(0x1_0000_0006);
    pub const AXIS_RIGHTZ: EvCode = EvCode(0x1_0000_0007);
    pub const AXIS_LT: EvCode = EvCode(0x1_0000_0008);
    pub const AXIS_RT: EvCode = EvCode(0x1_0000_0009);
    pub const AXIS_LT2: EvCode = EvCode(0x1_0000_000a);
    pub const AXIS_RT2: EvCode = EvCode(0x1_0000_000b);
}
