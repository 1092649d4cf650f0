//! A state rebuilt from a journal, line after line.

use super::line::Line;
use crate::fault::Fault;
use crate::message::LONGEST;
use crate::session::{Outcome, Session};

/// What a journal gives back.
#[derive(Clone, Debug, PartialEq, Eq)]
pub struct Restored {
    /// After the last complete line.
    pub session: Session,
    /// The bytes of the message that the last complete line sent.
    pub message: Option<Vec<u8>>,
    /// The bytes up to the end of the last complete line.
    pub complete: usize,
}

/// Why a journal gives nothing back.
#[derive(Clone, Copy, Debug, PartialEq, Eq)]
pub enum NotRestored {
    /// Under 140 bytes are lent for the message.
    Short,
    /// The first complete line, from 1, that cannot be applied; 1 if there is no complete line.
    Journal { line: u64 },
}

/// Rebuilds the state after the last complete line. That line's message is also written to the front of `lent`.
pub fn restore(journal: &[u8], lent: &mut [u8], fault: Fault) -> Result<Restored, NotRestored> {
    if lent.len() < LONGEST {
        return Err(NotRestored::Short);
    }
    let complete = journal.iter().rposition(|&byte| byte == b'\n').map_or(0, |last| last + 1);
    let lines = journal[..complete].split_inclusive(|&byte| byte == b'\n');
    let mut session = None;
    let mut message = None;
    for (number, line) in (1..).zip(lines) {
        let line = Line::read(&line[..line.len() - 1]);
        message = apply(line, &mut session, fault).ok_or(NotRestored::Journal { line: number })?;
    }
    let session = session.ok_or(NotRestored::Journal { line: 1 })?;
    if let Some(bytes) = &message {
        lent[..bytes.len()].copy_from_slice(bytes);
    }
    Ok(Restored { session, message, complete })
}

/// Makes the line's call and answers the message that it sent; `None` if the line cannot be applied.
fn apply(
    line: Option<Line>,
    session: &mut Option<Session>,
    fault: Fault,
) -> Option<Option<Vec<u8>>> {
    match (line?, session) {
        (Line::Opening(opening), unopened @ None) => {
            *unopened = Some(Session::open_with(&opening.opening(), fault).ok()?);
            Some(None)
        }
        (Line::Delivery { link, message }, Some(session)) => {
            session.deliver(link, &message).ok().map(|()| None)
        }
        (Line::Recording { vote, round, bit }, Some(session)) => {
            session.record(vote, round, bit).ok().map(|()| None)
        }
        (Line::Turn, Some(session)) => match session.turn(&mut [0; LONGEST]).ok()? {
            Outcome::Idle => None,
            Outcome::Sent(message) => Some(Some(session.bytes(&message))),
            Outcome::MovedOut | Outcome::InForce => Some(None),
        },
        _ => None,
    }
}
