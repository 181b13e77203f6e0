//! Stand-in for gilrs's mapping/parser.rs: reads the mapping lines that the player writes,
//! `UUID,NAME,word:b3,word:a4,any:h0.1`, into the tokens that `parse_sdl_mapping` asks for. The words are SDL's as far
//! as SDL has one; `dpadx`, `dpady` (01 lets a sheet name an element so) and `any` (a hat that names nothing) are ours.

use crate::ev::{Axis, AxisOrBtn, Button};
use std::fmt::{Display, Formatter, Result as FmtResult};
use uuid::Uuid;

pub enum Token<'a> {
    Platform(&'a str),
    Uuid(Uuid),
    Name(&'a str),
    AxisMapping { from: u16, to: AxisOrBtn },
    ButtonMapping { from: u16, to: AxisOrBtn },
    HatMapping { hat: u16, direction: u16, to: AxisOrBtn },
}

#[derive(Clone, Debug, Eq, PartialEq)]
pub enum ErrorKind {
    EmptyValue,
    Unreadable,
}

#[derive(Clone, Debug, Eq, PartialEq)]
pub struct Error(ErrorKind);

impl Error {
    pub fn kind(&self) -> &ErrorKind {
        &self.0
    }
}

impl std::error::Error for Error {}

impl Display for Error {
    fn fmt(&self, f: &mut Formatter<'_>) -> FmtResult {
        f.write_str("unreadable mapping line")
    }
}

pub struct Parser<'a> {
    parts: std::iter::Enumerate<std::str::Split<'a, char>>,
}

impl<'a> Parser<'a> {
    pub fn new(line: &'a str) -> Self {
        Parser { parts: line.split(',').enumerate() }
    }

    pub fn next_token(&mut self) -> Option<Result<Token<'a>, Error>> {
        let (at, part) = self.parts.next()?;
        let token = match at {
            0 => Uuid::parse_str(part).ok().map(Token::Uuid),
            1 => Some(Token::Name(part)),
            _ if part.is_empty() => return Some(Err(Error(ErrorKind::EmptyValue))),
            _ => mapping(part),
        };
        Some(token.ok_or(Error(ErrorKind::Unreadable)))
    }
}

fn mapping(part: &str) -> Option<Token<'_>> {
    let (word, from) = part.split_once(':')?;
    if word == "platform" {
        return Some(Token::Platform(from));
    }
    let to = named(word)?;
    if let Some(hat) = from.strip_prefix('h') {
        let (hat, direction) = hat.split_once('.')?;
        return Some(Token::HatMapping { hat: hat.parse().ok()?, direction: direction.parse().ok()?, to });
    }
    if let Some(button) = from.strip_prefix('b') {
        return Some(Token::ButtonMapping { from: button.parse().ok()?, to });
    }
    let from = from.strip_prefix('a')?.parse().ok()?;
    Some(Token::AxisMapping { from, to })
}

fn named(word: &str) -> Option<AxisOrBtn> {
    use AxisOrBtn::{Axis as A, Btn as B};
    Some(match word {
        "a" => B(Button::South),
        "b" => B(Button::East),
        "y" => B(Button::North),
        "x" => B(Button::West),
        "c" => B(Button::C),
        "z" => B(Button::Z),
        "leftshoulder" => B(Button::LeftTrigger),
        "lefttrigger" => B(Button::LeftTrigger2),
        "rightshoulder" => B(Button::RightTrigger),
        "righttrigger" => B(Button::RightTrigger2),
        "back" => B(Button::Select),
        "start" => B(Button::Start),
        "guide" => B(Button::Mode),
        "leftstick" => B(Button::LeftThumb),
        "rightstick" => B(Button::RightThumb),
        "dpup" => B(Button::DPadUp),
        "dpdown" => B(Button::DPadDown),
        "dpleft" => B(Button::DPadLeft),
        "dpright" => B(Button::DPadRight),
        "leftx" => A(Axis::LeftStickX),
        "lefty" => A(Axis::LeftStickY),
        "leftz" => A(Axis::LeftZ),
        "rightx" => A(Axis::RightStickX),
        "righty" => A(Axis::RightStickY),
        "rightz" => A(Axis::RightZ),
        "dpadx" => A(Axis::DPadX),
        "dpady" => A(Axis::DPadY),
        "any" => A(Axis::Unknown),
        _ => return None,
    })
}
