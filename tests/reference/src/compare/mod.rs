//! Calls for a comparison of two engines in lockstep: random ones, damaged messages, openings with ta unnamed, recordings,
//! restores, coin boxes, calendars, delivery lists, and words that no engine wrote.

mod boxes;
mod calendars;
mod calls;
mod damage;
mod delivery_lists;
#[cfg(feature = "c-engine")]
mod foreign;
#[cfg(feature = "c-engine")]
mod foreign_boxes;
mod journals;
mod longest;
mod recorded;
mod recordings;
mod restores;
mod unnamed;

use std::fmt;

pub use boxes::random_boxes;
pub use calendars::{edge_calendars, random_calendars, two_weeks_of_closings};
pub use calls::random_calls;
pub use damage::damaged_deliveries;
pub use delivery_lists::{edge_delivery_lists, random_delivery_lists, short_delivery_lists};
#[cfg(feature = "c-engine")]
pub use foreign::foreign_calls;
#[cfg(feature = "c-engine")]
pub use foreign_boxes::foreign_boxes;
pub use longest::{all_settings, longest_sessions};
pub use recordings::edge_recordings;
pub use restores::restores;
pub use unnamed::unnamed_openings;

use crate::calendar::WEEK;
use crate::packing::refusal;

/// Lent bytes hold this before a restore or conversion.
const UNWRITTEN: u8 = 0xa5;

/// How often each answer was given.
#[derive(Clone, Debug, Default, PartialEq, Eq)]
pub struct Answers {
    /// By refusal, 0 for accepted.
    pub refusals: [u64; 17],
    /// Turns: idle, sent, moved out of round 32, in force.
    pub outcomes: [u64; 4],
    /// Reports by exit.
    pub exits: [u64; 4],
    /// Starts: at once, later in that week, in the next week.
    pub starts: [u64; 3],
}

impl Answers {
    fn note(&mut self, answer: u64) {
        self.refusals[(answer & 0xff).min(16) as usize] += 1;
    }

    fn note_turn(&mut self, answer: u64) {
        if refusal(answer).is_none() {
            self.outcomes[(answer >> 8 & 3) as usize] += 1;
        }
    }

    fn note_report(&mut self, answer: u64) {
        if refusal(answer).is_none() {
            self.exits[(answer >> 8 & 3) as usize] += 1;
        }
    }

    fn note_start(&mut self, answer: u64, closing: u64, lead: u64) {
        if refusal(answer).is_none() {
            let (minute, earliest) = (answer >> 32, closing + lead);
            let weeks = minute / WEEK - earliest / WEEK;
            self.starts[if minute == earliest { 0 } else { 1 + weeks as usize }] += 1;
        }
    }

    pub fn calls(&self) -> u64 {
        self.refusals.iter().sum()
    }
}

impl fmt::Display for Answers {
    fn fmt(&self, f: &mut fmt::Formatter<'_>) -> fmt::Result {
        let [accepted, refused @ ..] = &self.refusals;
        let [idle, sent, moved_out, in_force] = self.outcomes;
        write!(f, "{} calls: {accepted} accepted, refused by number {refused:?}; ", self.calls())?;
        write!(f, "turns {idle} idle, {sent} sent, {moved_out} moved out, {in_force} in force; ")?;
        write!(f, "reports by exit {:?}; ", self.exits)?;
        let [at_once, later, next_week] = self.starts;
        write!(f, "starts {at_once} at once, {later} later in the week, {next_week} in the next")
    }
}
