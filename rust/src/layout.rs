//! The hub's fields and the library's answers as they lie in memory: the structs of `crates/hub`, `crates/columns` and `crates/crossing`, said again for Rust.

/// One for each of the 208 places, 52 of each pad.
pub type Codes = [u32; 208];
pub type Bytes = [u8; 208];
pub type Bools = [bool; 208];
/// The columns of the records, packed by type.
pub type Values = [f32; 1109];
pub type Times = [u64; 1109];
pub type Marks = [bool; 627];
pub type QueueBytes = [u8; 192];
pub type QueueCodes = [u32; 64];

/// What of a hub is small, and crosses by value.
#[repr(C)]
#[derive(Clone, Copy, Debug, PartialEq)]
pub struct Head {
    pub pressed: f32,
    pub released: f32,
    pub reversed: bool,
    pub filters: bool,
    pub updates: bool,
    pub counter: u64,
    pub down: [u64; 4],
    pub pads: u8,
    pub counts: [u8; 4],
    pub connected: [bool; 4],
    pub hats: [u8; 4],
    pub converts: [bool; 4],
    pub renamed: [bool; 4],
    pub newhats: [u8; 4],
    pub newconverts: [bool; 4],
    pub held: [u8; 4],
    pub heldaxes: [u8; 4],
    pub flags: [bool; 24],
    pub head: u8,
    pub waiting: u8,
}

/// A whole hub. The library is lent its arrays one by one, so their order is ours to choose.
#[repr(C)]
#[derive(Clone, Debug, PartialEq)]
pub struct Fields {
    pub head: Head,
    pub codes: Codes,
    pub kinds: Bytes,
    pub names: Bytes,
    pub renames: Bytes,
    pub hasbutton: Bools,
    pub hasaxis: Bools,
    pub values: Values,
    pub times: Times,
    pub marks: Marks,
    pub queuebytes: QueueBytes,
    pub queuecodes: QueueCodes,
}

impl Head {
    /// Zeros, for `new` to write over.
    const BLANK: Head = Head {
        pressed: 0.0,
        released: 0.0,
        reversed: false,
        filters: false,
        updates: false,
        counter: 0,
        down: [0; 4],
        pads: 0,
        counts: [0; 4],
        connected: [false; 4],
        hats: [0; 4],
        converts: [false; 4],
        renamed: [false; 4],
        newhats: [0; 4],
        newconverts: [false; 4],
        held: [0; 4],
        heldaxes: [0; 4],
        flags: [false; 24],
        head: 0,
        waiting: 0,
    };
}

impl Fields {
    pub(crate) const BLANK: Fields = Fields {
        head: Head::BLANK,
        codes: [0; 208],
        kinds: [0; 208],
        names: [0; 208],
        renames: [0; 208],
        hasbutton: [false; 208],
        hasaxis: [false; 208],
        values: [0.0; 1109],
        times: [0; 1109],
        marks: [false; 627],
        queuebytes: [0; 192],
        queuecodes: [0; 64],
    };
}

// ---- the answers: each call's has the refusal's number, 0 where it was served

#[repr(C)]
pub struct Pad {
    pub refusal: u8,
    pub pad: u8,
}

#[repr(C)]
pub struct Truth {
    pub refusal: u8,
    pub is: bool,
}

#[repr(C)]
pub struct Value {
    pub refusal: u8,
    pub known: bool,
    pub value: f32,
}

#[repr(C)]
pub struct Number {
    pub refusal: u8,
    pub known: bool,
    pub number: u32,
}

#[repr(C)]
pub struct Button {
    pub refusal: u8,
    pub known: bool,
    pub pressed: bool,
    pub repeating: bool,
    pub value: f32,
    pub stamp: u64,
    pub counter: u64,
    pub since: u64,
}

#[repr(C)]
pub struct Axis {
    pub refusal: u8,
    pub known: bool,
    pub value: f32,
    pub stamp: u64,
    pub counter: u64,
}

#[repr(C)]
pub struct Down {
    pub refusal: u8,
    pub count: u8,
    pub axis: bool,
}

#[repr(C)]
pub struct Report {
    pub refusal: u8,
    pub reason: u8,
    pub tilt: u8,
    pub place: usize,
    pub events: usize,
    pub steps: usize,
}

#[repr(C)]
pub struct Due {
    pub refusal: u8,
    pub due: bool,
}

/// Of the calculation that asks no hub, and refuses nothing.
#[repr(C)]
pub struct TiltedPair {
    pub x: f32,
    pub y: f32,
    pub tilt: u8,
}

// ---- the head after a call that changes it, with its answer

#[repr(C)]
pub struct Done {
    pub head: Head,
    pub refusal: u8,
}

#[repr(C)]
pub struct Registered {
    pub head: Head,
    pub pad: Pad,
}

#[repr(C)]
pub struct Pumped {
    pub head: Head,
    pub report: Report,
}
