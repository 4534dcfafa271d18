//! Faults (section 9): number, layer, level and place.

use std::fmt;

/// Why something was refused. The discriminant is the fault's number.
#[derive(Clone, Copy, Debug, PartialEq, Eq)]
#[repr(u8)]
pub enum Cause {
    NoRegister = 1,
    ControlBits = 2,
    SizeBits = 3,
    MarkBits = 4,
    NoSuchKind = 5,
    InvalidPage = 6,
    Group = 7,
    Rights = 8,
    Unchanged = 9,
    FirstInvalid = 10,
    FirstSize = 11,
    SecondInvalid = 12,
    SecondMark = 13,
    Misaligned = 14,
    NoWord = 15,
    NotStorable = 16,
    NoSlot = 17,
    Unreadable = 18,
    TooLong = 19,
}

#[derive(Clone, Copy, Debug, PartialEq, Eq)]
pub enum Layer {
    Unit,
    Walk,
    Bus,
    Script,
}

/// Which word of a tablewalk met the fault, if one did.
#[derive(Clone, Copy, Debug, PartialEq, Eq)]
#[repr(u8)]
pub enum Level {
    None = 0,
    First = 1,
    Second = 2,
}

#[derive(Clone, Copy, Debug, PartialEq, Eq)]
pub struct Fault {
    pub cause: Cause,
    pub level: Level,
    pub place: u32,
}

impl Cause {
    pub fn layer(self) -> Layer {
        match self as u8 {
            1..=9 | 17 => Layer::Unit,
            10..=13 => Layer::Walk,
            14..=16 => Layer::Bus,
            _ => Layer::Script,
        }
    }

    /// The fault of this cause at a place, outside any tablewalk.
    pub fn at(self, place: u32) -> Fault {
        Fault { cause: self, level: Level::None, place }
    }
}

impl Fault {
    pub fn number(self) -> u8 {
        self.cause as u8
    }

    /// The same fault, met while a tablewalk was at the word of `level`.
    pub fn during(self, level: Level) -> Fault {
        Fault { level, ..self }
    }

    /// The same fault, told of another place.
    pub fn placed(self, place: u32) -> Fault {
        Fault { place, ..self }
    }
}

impl fmt::Display for Layer {
    fn fmt(&self, f: &mut fmt::Formatter<'_>) -> fmt::Result {
        f.write_str(match self {
            Layer::Unit => "unit",
            Layer::Walk => "walk",
            Layer::Bus => "bus",
            Layer::Script => "script",
        })
    }
}
