//! The report: exit, its set, count of turns, set in force (PROTOCOL 9.24, 9.25).

use crate::exits::Exit;
use crate::message::PackSet;
use crate::refusal::Refusal;
use crate::session::Session;
use crate::settings::Settings;

/// Words that a report must be lent for either set.
pub const SET_WORDS: usize = Settings::MOST as usize;

#[derive(Clone, Debug, PartialEq, Eq)]
pub struct Report {
    pub exit: Exit,
    pub in_force: Option<PackSet>,
    pub turns: u64,
}

impl Session {
    /// Reads the records afresh. Each set is also written to the front of the words lent for it.
    pub fn report(&self, named: &mut [u64], in_force: &mut [u64]) -> Result<Report, Refusal> {
        if named.len() < SET_WORDS || in_force.len() < SET_WORDS {
            return Err(Refusal::Short);
        }
        let report = self.reading();
        write_set(named, report.exit.named().as_ref());
        write_set(in_force, report.in_force.as_ref());
        Ok(report)
    }

    /// The report, with no words lent.
    pub fn reading(&self) -> Report {
        Report { exit: self.exit(), in_force: self.in_force().cloned(), turns: self.turns }
    }
}

fn write_set(lent: &mut [u64], set: Option<&PackSet>) {
    for (word, value) in lent.iter_mut().zip(set.into_iter().flatten()) {
        *word = *value;
    }
}
