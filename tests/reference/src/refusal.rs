//! 01, "Where a call is turned down".

use std::fmt;

/// A refusal, with 01's number as its discriminant.
#[derive(Clone, Copy, Debug, PartialEq, Eq, PartialOrd, Ord)]
#[repr(u8)]
pub enum Refusal {
    Settings = 1,
    Length = 2,
    Kind = 3,
    Session = 4,
    Sender = 5,
    Field = 6,
    Value = 7,
    Short = 8,
    NoState = 9,
    Closed = 10,
    Held = 11,
    /// 02, N1.
    Windows = 12,
    /// 02, N5.
    Record = 13,
    /// 02, N10.
    Journal = 15,
    /// 02, N12.
    Coin = 16,
}

impl Refusal {
    pub const ALL: [Refusal; 15] = [
        Refusal::Settings,
        Refusal::Length,
        Refusal::Kind,
        Refusal::Session,
        Refusal::Sender,
        Refusal::Field,
        Refusal::Value,
        Refusal::Short,
        Refusal::NoState,
        Refusal::Closed,
        Refusal::Held,
        Refusal::Windows,
        Refusal::Record,
        Refusal::Journal,
        Refusal::Coin,
    ];

    /// The published number.
    pub fn number(self) -> u8 {
        self as u8
    }

    pub fn from_number(number: u64) -> Option<Refusal> {
        Refusal::ALL.into_iter().find(|refusal| u64::from(refusal.number()) == number)
    }

    /// The published name.
    pub fn name(self) -> &'static str {
        match self {
            Refusal::Settings => "SETTINGS",
            Refusal::Length => "LENGTH",
            Refusal::Kind => "KIND",
            Refusal::Session => "SESSION",
            Refusal::Sender => "SENDER",
            Refusal::Field => "FIELD",
            Refusal::Value => "VALUE",
            Refusal::Short => "SHORT",
            Refusal::NoState => "NO STATE",
            Refusal::Closed => "CLOSED",
            Refusal::Held => "HELD",
            Refusal::Windows => "WINDOWS",
            Refusal::Record => "RECORD",
            Refusal::Journal => "JOURNAL",
            Refusal::Coin => "COIN",
        }
    }
}

impl fmt::Display for Refusal {
    fn fmt(&self, f: &mut fmt::Formatter<'_>) -> fmt::Result {
        write!(f, "{} {}", self.number(), self.name())
    }
}

impl std::error::Error for Refusal {}
