//! Stand-in for gilrs's force feedback, which 01 leaves behind: the types that gamepad.rs names, with nobody at the
//! other end of the channels.

use crate::gamepad::GamepadId;

#[derive(Debug)]
pub enum Error {
    Disconnected(GamepadId),
    FfNotSupported(GamepadId),
    SendFailed,
}

impl<T> From<std::sync::mpsc::SendError<T>> for Error {
    fn from(_: std::sync::mpsc::SendError<T>) -> Self {
        Error::SendFailed
    }
}

pub mod server {
    use crate::ev::Event;
    use gilrs_core::FfDevice;
    use std::sync::mpsc::{channel, Receiver, Sender};

    pub enum Message {
        Open { id: usize, device: FfDevice },
        Close { id: usize },
        SetListenerPosition { id: usize, position: [f32; 3] },
    }

    pub enum FfMessage {
        EffectCompleted { event: Event },
    }

    /// Both far ends are dropped at once: sending fails silently, receiving finds nothing.
    pub fn init(_enabled: bool) -> (Sender<Message>, Receiver<FfMessage>) {
        (channel().0, channel().1)
    }
}
