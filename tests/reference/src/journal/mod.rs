//! 02, N10, "A journal for firmware that falls back": the calls with the lines that they write, those of N12 too, and
//! the state rebuilt from such lines.

mod line;
mod restore;

pub use line::{
    delivery_line, opening_line, recording_line, Line, OpeningLine, LINE_BYTES, TURN_LINE,
};
pub use restore::{restore, NotRestored, Restored};

use crate::fault::Fault;
use crate::refusal::Refusal;
use crate::session::{Opening, Outcome, Session};

impl Session {
    /// [`Session::open_with`], and the length of the line that stands at the front of the lent bytes.
    pub fn open_with_line(
        opening: &Opening,
        fault: Fault,
        line: &mut [u8],
    ) -> Result<(Session, usize), Refusal> {
        let session = Session::open_with(opening, fault)?;
        Ok((session, write(line, &opening_line(opening))?))
    }

    /// [`Session::deliver`], and the length of the line.
    pub fn deliver_with_line(
        &mut self,
        link: u64,
        bytes: &[u8],
        line: &mut [u8],
    ) -> Result<usize, Refusal> {
        if line.len() < LINE_BYTES {
            // Checked last: what else refuses it is told by a copy.
            self.clone().deliver(link, bytes)?;
            return Err(Refusal::Short);
        }
        self.deliver(link, bytes)?;
        write(line, &delivery_line(link, bytes))
    }

    /// [`Session::turn`]; one that is not idle writes its line.
    pub fn turn_with_line(&mut self, lent: &mut [u8], line: &mut [u8]) -> Result<Outcome, Refusal> {
        if self.is_closed() {
            return Err(Refusal::Closed);
        }
        if line.len() < LINE_BYTES {
            return Err(Refusal::Short);
        }
        let outcome = self.turn(lent)?;
        if outcome != Outcome::Idle {
            write(line, TURN_LINE)?;
        }
        Ok(outcome)
    }

    /// [`Session::record`], and the length of the line; a repeat writes one too.
    pub fn record_with_line(
        &mut self,
        vote: u64,
        round: u64,
        bit: u64,
        line: &mut [u8],
    ) -> Result<usize, Refusal> {
        if line.len() < LINE_BYTES {
            self.clone().record(vote, round, bit)?;
            return Err(Refusal::Short);
        }
        self.record(vote, round, bit)?;
        write(line, &recording_line(vote, round, bit))
    }
}

/// Writes a line to the front of the lent bytes.
fn write(lent: &mut [u8], line: &[u8]) -> Result<usize, Refusal> {
    if lent.len() < LINE_BYTES {
        return Err(Refusal::Short);
    }
    lent[..line.len()].copy_from_slice(line);
    Ok(line.len())
}
