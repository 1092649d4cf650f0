//! 01, rules 1 and 2: the set in force, and the own COMMIT.

use crate::message::{Message, PackSet};
use crate::session::Session;

impl Session {
    /// Rule 1: closes the session when COMMITs of W−ts hold the same set.
    pub(crate) fn close(&mut self) -> bool {
        self.closed = self.agreed().is_some();
        self.closed
    }

    /// Rule 2: COMMIT, if none sent: the set the exits name, else one held in COMMITs of ts+1.
    pub(crate) fn send_commit(&mut self) -> Option<Message> {
        if self.commit_sent {
            return None;
        }
        let repeated = || self.records.committed(&self.settings, self.settings.relay()).cloned();
        let values = self.exit().named().or_else(repeated)?;
        self.commit_sent = true;
        Some(Message::Commit { values })
    }

    /// The set in force: none before the turn that closes the session.
    pub(crate) fn in_force(&self) -> Option<&PackSet> {
        if self.closed {
            self.agreed()
        } else {
            None
        }
    }

    fn agreed(&self) -> Option<&PackSet> {
        self.records.committed(&self.settings, self.settings.quorum())
    }
}
