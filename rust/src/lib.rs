//! Up to four gamepads: raw records in, named events out, filtered and in order, with the state that they leave. It does what gilrs 0.11.2 does behind its
//! backend, from a library in which every call is proved to do so. A pad is watched so:
//!
//! ```
//! # use copperyarn::{Button, Code, Hub, RawRecord, Settings, Sheet};
//! let mut hub = Hub::new(Settings::default())?;
//! let pad = hub.register(&Sheet::builder().button(Code::key(0x130), Button::South).build())?;
//! let mut records = [RawRecord::pressed(pad, Code::key(0x130), 1_000)].into_iter();
//! while let Some(event) = hub.next_event(&mut records)? {
//!     println!("{event:?}");
//!     assert!(hub.is_pressed(event.id, Button::South)?);
//! }
//! hub.inc();
//! # Ok::<(), copperyarn::Refusal>(())
//! ```
//!
//! - [`Hub`] is all of it: [`register`](Hub::register) a pad by its [`Sheet`], give it [`RawRecord`]s by [`next_event`](Hub::next_event), [`feed`](Hub::feed)
//!   or [`pump`](Hub::pump), and ask it by gilrs's names.
//! - There is no backend: the records are yours, read from evdev, from a network or from a file. There is no clock either: every time is one that you gave, in
//!   microseconds.
//! - Nothing panics, and every call ends with an answer: what is wrong is refused, with a number and a sentence ([`Refusal`]).
//! - For those who come from gilrs, `docs/FROM-GILRS.md` has the calls side by side. The rules stand in `docs/SCOPE.md`.
//!
//! The library is made by `scripts/library` for Linux on x86-64. It is looked for in the repository's `target/staticlib`, or in the folder that
//! `COPPERYARN_LIB` names.

#![deny(unsafe_code, unsafe_op_in_unsafe_fn)]

mod event;
mod feed;
mod hub;
#[doc(hidden)]
pub mod layout;
#[allow(unsafe_code)]
mod library;
mod names;
mod queries;
mod record;
mod refusal;
mod sheet;
mod state;
mod tilt;

pub use event::{Event, EventType};
pub use feed::{Feed, Refused};
pub use hub::{Hub, PumpReport, Reason, Settings};
pub use names::{Axis, AxisOrBtn, Button, Code, Name, PadId};
pub use record::{RawRecord, RawType};
pub use refusal::Refusal;
pub use sheet::{Sheet, SheetBuilder};
pub use state::{AxisData, ButtonData, Down};
pub use tilt::{apply_deadzone, Tilt};

/// The programs of `docs/FROM-GILRS.md`, run as examples of this crate.
#[cfg(doctest)]
#[doc = include_str!("../../docs/FROM-GILRS.md")]
struct FromGilrs;
