//! Boxed feeders: one box, what honest ones ask of it and record, and what liars see of it.

use std::collections::{BTreeMap, BTreeSet};

use super::claim::{Conditions, Violation};
use super::feeder::{written_line, Feeder};
use super::journal::Noted;
use super::plan::Group;
use crate::box_engine::BoxEngine;
use crate::coin_box::Reply;
use crate::engine::Coin;
use crate::journal::LINE_BYTES;
use crate::packing::unpack_request;
use crate::settings::{Number, Round};
use crate::standing_engine::StandingEngine;

/// The kind of an EST, byte 1 of the message.
const EST: u8 = 4;
/// Rounds about which liars ask on their own.
const PEEKED: u64 = 8;

/// The rounds of a host's votes as its own ESTs tell them, and the coins of these rounds that it has not recorded.
#[derive(Clone, Debug, Default, PartialEq, Eq)]
pub struct Waiting {
    rounds: BTreeMap<Number, Round>,
    coins: BTreeSet<(Number, Round)>,
}

impl Waiting {
    /// A message that a turn sent, or none. An EST of a higher round than before entered it; a relay is never of one.
    pub fn note_sent(&mut self, message: &[u8]) {
        let [_, EST, _, vote, round, ..] = *message else { return };
        let known = self.rounds.entry(vote).or_default();
        if *known < round {
            *known = round;
            self.coins.insert((vote, round));
        }
    }

    pub fn note_recorded(&mut self, vote: Number, round: Round) {
        self.coins.remove(&(vote, round));
    }

    pub fn coins(&self) -> Vec<(Number, Round)> {
        self.coins.iter().copied().collect()
    }
}

/// The coins that liars have seen.
#[derive(Clone, Debug, Default)]
pub struct Seen {
    coins: BTreeMap<(Number, Round), bool>,
}

impl Seen {
    /// Those of the vote in lower rounds.
    pub fn before(&self, vote: Number, round: Round) -> Vec<bool> {
        self.coins.range((vote, 0)..(vote, round)).map(|(_, &coin)| coin).collect()
    }
}

impl<E: BoxEngine + StandingEngine> Feeder<'_, E> {
    pub(super) fn open_box(&mut self) -> Result<(), Violation> {
        if !self.plan.boxed {
            return Ok(());
        }
        self.statistics.boxed += 1;
        let answer = self.engine.open_box(&mut self.coin_box, &self.plan.box_opening());
        match answer {
            0 => Ok(()),
            _ => Err(Violation::Answer { at: 0, call: "opening of the box", answer }),
        }
    }

    /// An honest one asks for the coins that it waits for, and records those that are told. Answers whether it recorded one.
    pub(super) fn ask(&mut self, number: Number) -> Result<bool, Violation> {
        let honest = &self.honest[&number];
        let idle = !self.plan.boxed || !honest.opened || honest.closed;
        let (first, second) = self.plan.pace.asking;
        let asking = if self.plan.groups[&number] == Group::A { first } else { second };
        if idle || !self.random.once_in(asking) {
            return Ok(false);
        }
        let mut recorded = false;
        for (vote, round) in honest.waiting.coins() {
            let reply = self.request(number, vote, round)?;
            // Liars see a coin no later than the honest ones do.
            self.look(vote, round);
            if let Reply::Bit(bit) = reply {
                self.record(number, vote, round, bit)?;
                recorded = true;
            }
        }
        Ok(recorded)
    }

    fn request(&mut self, number: Number, vote: Number, round: Round) -> Result<Reply, Violation> {
        let [requester, vote, round] = [number, vote, round].map(u64::from);
        let answer = self.engine.request(&mut self.coin_box, requester, vote, round);
        let wrong = Violation::Answer { at: number, call: "request", answer };
        unpack_request(answer).and_then(Result::ok).ok_or(wrong)
    }

    /// Records a bit, at times twice. Where the bits of the two groups differ, group B records the other one.
    fn record(
        &mut self,
        number: Number,
        vote: Number,
        round: Round,
        bit: bool,
    ) -> Result<(), Violation> {
        let other =
            self.conditions == Conditions::OtherBits && self.plan.groups[&number] == Group::B;
        let coin = Coin { vote: vote.into(), round: round.into(), bit: (bit ^ other).into() };
        let times = if self.random.once_in(10) { 2 } else { 1 };
        for _ in 0..times {
            let honest = self.honest.get_mut(&number).expect("an honest number");
            let mut line = [0; LINE_BYTES];
            let answer = self.engine.record(&mut honest.state, coin, &mut line);
            let wrong = Violation::Answer { at: number, call: "recording", answer };
            let written = written_line(answer, &line).ok_or(wrong)?;
            honest.journal.add(Noted::Recording { vote, round }, written);
            honest.waiting.note_recorded(vote, round);
            self.statistics.recordings += 1;
            self.check(number)?;
        }
        Ok(())
    }

    /// A face asks for the coins that it waits for. Answers whether it got one.
    pub(super) fn ask_as_face(&mut self, face: usize) -> bool {
        let mut recorded = false;
        if self.plan.boxed {
            for (vote, round) in self.faces[face].waiting() {
                if let Some(bit) = self.look(vote, round) {
                    self.faces[face].record(vote, round, bit);
                    recorded = true;
                }
            }
        }
        recorded
    }

    /// All liars ask for a coin. Those that they see for the first time they lie about.
    fn look(&mut self, vote: Number, round: Round) -> Option<bool> {
        let mut seen = None;
        for &liar in &self.plan.liars {
            if let Ok(Reply::Bit(bit)) = self.request(liar, vote, round) {
                seen = Some(bit);
            }
        }
        let bit = seen?;
        if self.seen.coins.insert((vote, round), bit).is_none() {
            self.lie_about(vote, round, bit);
        }
        Some(bit)
    }

    /// Liars ask for any coin, long before its round perhaps.
    pub(super) fn peek(&mut self) {
        let votes: Vec<Number> = self.plan.settings.numbers().collect();
        let vote = self.random.pick(&votes);
        let round = 1 + self.random.below(PEEKED) as Round;
        self.look(vote, round);
    }
}
