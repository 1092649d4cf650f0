//! Honest ones that lose power and are restored from their journals.

use super::claim::{Conditions, Violation};
use super::feeder::{Feeder, Receiver};
use super::journal::{Noted, Sent};
use crate::box_engine::BoxEngine;
use crate::message::LONGEST;
use crate::packing::{unpack_restore, RestoreAnswer};
use crate::settings::Number;
use crate::standing_engine::StandingEngine;

impl<E: BoxEngine + StandingEngine> Feeder<'_, E> {
    /// One of those that are open loses power and is restored. Where lines of messages that left may be lost, all do once a
    /// set was named, and then one of the feeder is not heard any more: so the others may come to another set.
    pub(super) fn lose_power(&mut self) -> Result<(), Violation> {
        let open = self.honest.iter().filter(|(_, honest)| honest.opened);
        let mut numbers: Vec<Number> = open.map(|(&number, _)| number).collect();
        match self.conditions {
            Conditions::Met | Conditions::OtherBits => numbers = self.random.some(numbers, 1),
            Conditions::LostLines if self.claim.is_agreed() && self.muted.is_none() => {
                let all: Vec<Number> = self.plan.settings.numbers().collect();
                self.muted = Some(self.random.pick(&all));
            }
            Conditions::LostLines => return Ok(()),
        }
        numbers.into_iter().try_for_each(|number| self.lose_power_at(number))
    }

    fn lose_power_at(&mut self, number: Number) -> Result<(), Violation> {
        let (kept, bytes) = self.honest[&number].journal.cut(&mut self.random, self.conditions);
        let lost = self.restore(number, kept, &bytes)?;
        self.statistics.note_restore(lost.len());
        // What lost lines sent is on its way no more.
        self.parcels.retain(|_, parcel| {
            parcel.sent.link != number || parcel.sent.line.is_none_or(|line| line <= kept)
        });
        self.check(number)?;
        self.come_again(number, lost);
        if self.random.once_in(2) {
            self.act(number)?;
        }
        Ok(())
    }

    /// Onto a buffer that holds anything. Answers what the lost lines said.
    fn restore(
        &mut self,
        number: Number,
        kept: usize,
        bytes: &[u8],
    ) -> Result<Vec<Noted>, Violation> {
        let honest = self.honest.get_mut(&number).expect("an honest number");
        let lost = honest.journal.truncate(kept);
        honest.taken = honest.journal.taken();
        honest.closed = honest.journal.closed();
        honest.waiting = honest.journal.waiting();
        honest.state = self.engine.littered(self.random.word());
        let mut lent = [0; LONGEST];
        let answer = self.engine.restore(&mut honest.state, bytes, &mut lent);
        let sent = honest.journal.last_sent();
        let message = sent.as_ref().map(|message| message.len());
        let expected = RestoreAnswer::Restored { message, complete: honest.journal.end(kept) };
        let given_again = sent.is_none_or(|message| lent.starts_with(&message));
        if unpack_restore(answer) != Some(expected) || !given_again {
            return Err(Violation::Answer { at: number, call: "restore", answer });
        }
        Ok(lost)
    }

    /// The last line's message may be sent again, and most deliveries of lost lines come again.
    fn come_again(&mut self, number: Number, lost: Vec<Noted>) {
        let journal = &self.honest[&number].journal;
        let (line, message) = (journal.len(), journal.last_sent());
        if let Some(message) = message.filter(|_| self.random.once_in(2)) {
            self.send_to_all(&Sent { link: number, message, line: Some(line) });
        }
        for noted in lost {
            let Noted::Delivery(sent) = noted else { continue };
            // Where all lose their lines, honest ones say anew what they say.
            let said_anew = self.conditions == Conditions::LostLines && sent.line.is_some();
            if !said_anew && !self.random.once_in(5) {
                let delay = self.random.below(self.plan.pace.jitter);
                self.send(Receiver::Honest(number), sent, delay);
            }
        }
    }
}
