//! 01, "Message bytes": the six messages, FINISH of version 2 (02, N6), their reader and their writer.

use std::collections::BTreeSet;

use crate::refusal::Refusal;
use crate::settings::{Number, Round, Settings, Version};

/// A set of packs. It lists its values rising, each once.
pub type PackSet = BTreeSet<u64>;

/// Bytes before the values.
pub const HEAD: usize = 12;
/// The longest message: a COMMIT of 16 values.
pub const LONGEST: usize = HEAD + 8 * Settings::MOST as usize;

/// What one concentrator tells the others. The sender is known beside it.
#[derive(Clone, Debug, PartialEq, Eq)]
pub enum Message {
    /// The instance is the sender.
    Send {
        value: u64,
    },
    Echo {
        instance: Number,
        value: u64,
    },
    Ready {
        instance: Number,
        value: u64,
    },
    Est {
        instance: Number,
        round: Round,
        value: bool,
    },
    Aux {
        instance: Number,
        round: Round,
        value: bool,
    },
    Commit {
        values: PackSet,
    },
    /// In version 2 only.
    Finish {
        instance: Number,
        value: bool,
    },
}

#[derive(Clone, Copy, PartialEq, Eq)]
enum Kind {
    Send = 1,
    Echo = 2,
    Ready = 3,
    Est = 4,
    Aux = 5,
    Commit = 6,
    Finish = 7,
}

impl Kind {
    /// The kind of the byte, if the version knows it.
    fn from_byte(byte: u8, version: Version) -> Option<Kind> {
        use Kind::*;
        let kinds = [Send, Echo, Ready, Est, Aux, Commit, Finish];
        let known = |kind: &Kind| *kind != Finish || version == Version::Two;
        kinds.into_iter().filter(known).find(|&kind| kind as u8 == byte)
    }

    fn has_round(self) -> bool {
        matches!(self, Kind::Est | Kind::Aux)
    }
}

impl Message {
    fn kind(&self) -> Kind {
        match self {
            Message::Send { .. } => Kind::Send,
            Message::Echo { .. } => Kind::Echo,
            Message::Ready { .. } => Kind::Ready,
            Message::Est { .. } => Kind::Est,
            Message::Aux { .. } => Kind::Aux,
            Message::Commit { .. } => Kind::Commit,
            Message::Finish { .. } => Kind::Finish,
        }
    }

    fn instance(&self, sender: Number) -> u8 {
        match *self {
            Message::Send { .. } => sender,
            Message::Echo { instance, .. }
            | Message::Ready { instance, .. }
            | Message::Est { instance, .. }
            | Message::Aux { instance, .. }
            | Message::Finish { instance, .. } => instance,
            Message::Commit { .. } => 0,
        }
    }

    fn round(&self) -> u8 {
        match *self {
            Message::Est { round, .. } | Message::Aux { round, .. } => round,
            _ => 0,
        }
    }

    fn values(&self) -> Vec<u64> {
        match self {
            Message::Send { value }
            | Message::Echo { value, .. }
            | Message::Ready { value, .. } => vec![*value],
            Message::Est { value, .. }
            | Message::Aux { value, .. }
            | Message::Finish { value, .. } => vec![u64::from(*value)],
            Message::Commit { values } => values.iter().copied().collect(),
        }
    }

    /// The bytes of this message from `sender` in `session`, which is of this version.
    pub fn to_bytes(&self, version: Version, sender: Number, session: u32) -> Vec<u8> {
        let values = self.values();
        let mut bytes = vec![version.byte(), self.kind() as u8, sender, self.instance(sender)];
        bytes.extend([self.round(), values.len() as u8, 0, 0]);
        bytes.extend(session.to_be_bytes());
        for value in values {
            bytes.extend(value.to_be_bytes());
        }
        bytes
    }

    /// Reads a message that came over the link of concentrator `link`. The refusals 2 to 7 come in this order.
    pub fn from_bytes(
        bytes: &[u8],
        link: u64,
        settings: &Settings,
        session: u32,
    ) -> Result<(Number, Message), Refusal> {
        let (head, tail) = split(bytes)?;
        let version = settings.version();
        if head[0] != version.byte() {
            return Err(Refusal::Kind);
        }
        let kind = Kind::from_byte(head[1], version).ok_or(Refusal::Kind)?;
        if head[8..12] != session.to_be_bytes() {
            return Err(Refusal::Session);
        }
        let sender = settings.number(link).ok_or(Refusal::Sender)?;
        if head[2] != sender {
            return Err(Refusal::Sender);
        }
        if !fields_fit(head, kind, sender, settings) {
            return Err(Refusal::Field);
        }
        let values: Vec<u64> = tail.chunks_exact(8).map(read_value).collect();
        Ok((sender, build(kind, head[3], head[4], &values)?))
    }
}

/// LENGTH (PROTOCOL 10.2). The count is byte 5 as it stands.
fn split(bytes: &[u8]) -> Result<(&[u8; HEAD], &[u8]), Refusal> {
    let (head, tail) = bytes.split_first_chunk::<HEAD>().ok_or(Refusal::Length)?;
    if tail.len() == 8 * usize::from(head[5]) {
        Ok((head, tail))
    } else {
        Err(Refusal::Length)
    }
}

/// FIELD: bytes 3 to 7 follow the layout.
fn fields_fit(head: &[u8; HEAD], kind: Kind, sender: Number, settings: &Settings) -> bool {
    let numbers = settings.numbers();
    let [instance, round, count, zero_6, zero_7] = [head[3], head[4], head[5], head[6], head[7]];
    let instance_fits = match kind {
        Kind::Send => instance == sender,
        Kind::Commit => instance == 0,
        _ => numbers.contains(&instance),
    };
    let round_fits =
        if kind.has_round() { (1..=Settings::ROUND_LIMIT).contains(&round) } else { round == 0 };
    let count_fits = if kind == Kind::Commit { numbers.contains(&count) } else { count == 1 };
    instance_fits && round_fits && count_fits && zero_6 == 0 && zero_7 == 0
}

fn read_value(eight: &[u8]) -> u64 {
    eight.iter().fold(0, |value, &byte| value << 8 | u64::from(byte))
}

/// VALUE (PROTOCOL 10.7). The fields fit, so there is a first value.
fn build(kind: Kind, instance: Number, round: Round, values: &[u64]) -> Result<Message, Refusal> {
    let value = values[0];
    Ok(match kind {
        Kind::Send => Message::Send { value },
        Kind::Echo => Message::Echo { instance, value },
        Kind::Ready => Message::Ready { instance, value },
        Kind::Est => Message::Est { instance, round, value: bit(value)? },
        Kind::Aux => Message::Aux { instance, round, value: bit(value)? },
        Kind::Finish => Message::Finish { instance, value: bit(value)? },
        Kind::Commit if values.windows(2).all(|pair| pair[0] < pair[1]) => {
            Message::Commit { values: values.iter().copied().collect() }
        }
        Kind::Commit => return Err(Refusal::Value),
    })
}

fn bit(value: u64) -> Result<bool, Refusal> {
    match value {
        0 => Ok(false),
        1 => Ok(true),
        _ => Err(Refusal::Value),
    }
}
