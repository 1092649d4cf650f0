//! Answers as single 64-bit numbers, as the C functions of the proved engine give them.
//! Bits 0-7 hold the refusal, and 0 if the call was accepted.

use crate::coin_box::Reply;
use crate::delivery_lists::NotConverted;
use crate::exits::Exit;
use crate::journal::{NotRestored, Restored};
use crate::message::{Message, HEAD};
use crate::refusal::Refusal;
use crate::report::Report;
use crate::session::Outcome;

/// An opening, a delivery or a recording: bits 16-31 the length of its line.
pub fn pack_line(answer: &Result<usize, Refusal>) -> u64 {
    match answer {
        Ok(length) => (*length as u64) << 16,
        Err(refusal) => u64::from(refusal.number()),
    }
}

/// Bits 8-15 the outcome, bits 16-31 the length of the message.
pub fn pack_turn(answer: &Result<Outcome, Refusal>) -> u64 {
    match answer {
        Ok(Outcome::Idle) => 0,
        Ok(Outcome::Sent(message)) => 1 << 8 | (length(message) as u64) << 16,
        Ok(Outcome::MovedOut) => 2 << 8,
        Ok(Outcome::InForce) => 3 << 8,
        Err(refusal) => u64::from(refusal.number()),
    }
}

/// Bits 8-15 the exit, 16-23 the values named, 24-31 the values in force, 32-63 the turns.
pub fn pack_report(answer: &Result<Report, Refusal>) -> u64 {
    match answer {
        Ok(report) => {
            let named = match &report.exit {
                Exit::None => 0,
                Exit::One(_) | Exit::Two(_) => 1,
                Exit::Three(values) => values.len() as u64,
            };
            let in_force = report.in_force.as_ref().map_or(0, |values| values.len() as u64);
            u64::from(report.exit.number()) << 8 | named << 16 | in_force << 24 | report.turns << 32
        }
        Err(refusal) => u64::from(refusal.number()),
    }
}

/// Bits 8-15 are 1 where a message is given again, bits 16-31 its length, 32-63 the bytes of the complete lines. With
/// JOURNAL, bits 8-63 the line's number.
pub fn pack_restore(answer: &Result<Restored, NotRestored>) -> u64 {
    match answer {
        Ok(restored) => {
            let message = match &restored.message {
                Some(bytes) => 1 << 8 | (bytes.len() as u64) << 16,
                None => 0,
            };
            message | (restored.complete as u64) << 32
        }
        Err(NotRestored::Short) => u64::from(Refusal::Short.number()),
        Err(NotRestored::Journal { line }) => u64::from(Refusal::Journal.number()) | line << 8,
    }
}

/// The opening of a box: the refusal alone.
pub fn pack_box_opening(answer: &Result<(), Refusal>) -> u64 {
    answer.err().map_or(0, |refusal| u64::from(refusal.number()))
}

/// A request to a box: bits 8-15 are 0 for sealed and 1 for a bit, which stands in bits 16-23.
pub fn pack_request(answer: &Result<Reply, Refusal>) -> u64 {
    match answer {
        Ok(Reply::Sealed) => 0,
        Ok(Reply::Bit(bit)) => 1 << 8 | u64::from(*bit) << 16,
        Err(refusal) => u64::from(refusal.number()),
    }
}

/// A start: bits 32-63 the minute.
pub fn pack_start(answer: &Result<u64, Refusal>) -> u64 {
    match answer {
        Ok(minute) => minute << 32,
        Err(refusal) => u64::from(refusal.number()),
    }
}

/// A conversion: bits 8-63 the bytes written. With RECORD, the number of the record or line.
pub fn pack_conversion(answer: &Result<usize, NotConverted>) -> u64 {
    match answer {
        Ok(written) => (*written as u64) << 8,
        Err(NotConverted::Record { number }) => u64::from(Refusal::Record.number()) | number << 8,
        Err(NotConverted::Short) => u64::from(Refusal::Short.number()),
    }
}

/// Reads the answer to a request; `None` if no request answers so.
pub fn unpack_request(answer: u64) -> Option<Result<Reply, Refusal>> {
    match answer {
        0 => Some(Ok(Reply::Sealed)),
        0x100 => Some(Ok(Reply::Bit(false))),
        0x1_0100 => Some(Ok(Reply::Bit(true))),
        16 => Some(Err(Refusal::Coin)),
        _ => None,
    }
}

fn length(message: &Message) -> usize {
    let values = match message {
        Message::Commit { values } => values.len(),
        _ => 1,
    };
    HEAD + 8 * values
}

/// The refusal in an answer, if there is one.
pub fn refusal(answer: u64) -> Option<Refusal> {
    Refusal::from_number(answer & 0xff)
}

/// A turn's answer, read back.
#[derive(Clone, Copy, Debug, PartialEq, Eq)]
pub enum TurnAnswer {
    Idle,
    Sent { length: usize },
    MovedOut,
    InForce,
    Refused(Refusal),
}

/// Reads a turn's answer; `None` if no turn answers so.
pub fn unpack_turn(answer: u64) -> Option<TurnAnswer> {
    match (answer & 0xff, answer >> 8 & 0xff, answer >> 16) {
        (0, 0, 0) => Some(TurnAnswer::Idle),
        (0, 1, length @ 20..=140) => Some(TurnAnswer::Sent { length: length as usize }),
        (0, 2, 0) => Some(TurnAnswer::MovedOut),
        (0, 3, 0) => Some(TurnAnswer::InForce),
        (number, 0, 0) => Refusal::from_number(number).map(TurnAnswer::Refused),
        _ => None,
    }
}

/// A restore's answer, read back.
#[derive(Clone, Copy, Debug, PartialEq, Eq)]
pub enum RestoreAnswer {
    /// The length of the message that is given again, if one is, and the bytes of the complete lines.
    Restored {
        message: Option<usize>,
        complete: usize,
    },
    /// The line that cannot be applied.
    Journal {
        line: u64,
    },
    Refused(Refusal),
}

/// Reads a restore's answer; `None` if no restore answers so.
pub fn unpack_restore(answer: u64) -> Option<RestoreAnswer> {
    let complete = (answer >> 32) as usize;
    match (answer & 0xff, answer >> 8 & 0xff, answer >> 16 & 0xffff) {
        (0, 0, 0) => Some(RestoreAnswer::Restored { message: None, complete }),
        (0, 1, length @ 20..=140) => {
            Some(RestoreAnswer::Restored { message: Some(length as usize), complete })
        }
        (15, ..) => Some(RestoreAnswer::Journal { line: answer >> 8 }),
        (number @ 8..=9, 0, 0) if complete == 0 => {
            Refusal::from_number(number).map(RestoreAnswer::Refused)
        }
        _ => None,
    }
}

/// An accepted report's answer, read back.
#[derive(Clone, Copy, Debug, PartialEq, Eq)]
pub struct ReportAnswer {
    pub exit: u8,
    pub named: usize,
    pub in_force: usize,
    pub turns: u64,
}

/// Reads an accepted report's answer; `None` if it was refused.
pub fn unpack_report(answer: u64) -> Option<ReportAnswer> {
    (answer & 0xff == 0).then_some(ReportAnswer {
        exit: (answer >> 8 & 0xff) as u8,
        named: (answer >> 16 & 0xff) as usize,
        in_force: (answer >> 24 & 0xff) as usize,
        turns: answer >> 32,
    })
}
