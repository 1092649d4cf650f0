//! 01, rule 6: the votes, with the value accepted first in AUX (02, N2) and the FINISHes of version 2 (N6).

use std::collections::{BTreeMap, BTreeSet};

use crate::exits::Exit;
use crate::fault::Fault;
use crate::message::Message;
use crate::session::{Outcome, Session};
use crate::settings::{Number, Round, Settings, Version, Weight};

/// The own part in one vote.
#[derive(Clone, Debug, Default, PartialEq, Eq)]
pub struct Vote {
    /// 0 before the start, 33 after the move out of round 32.
    round: Round,
    /// The AUX of the current round is sent.
    aux_sent: bool,
    ests_sent: BTreeSet<(Round, bool)>,
    /// Of each round, entered or not, the value whose ESTs of 2·ta+1 were complete first.
    accepted_first: BTreeMap<Round, bool>,
    decision: Option<bool>,
    finish_sent: bool,
}

impl Vote {
    /// The current round, if it is one in which the vote sends.
    fn open_round(&self) -> Option<Round> {
        (1..=Settings::ROUND_LIMIT).contains(&self.round).then_some(self.round)
    }

    /// After its own FINISH and a decision a vote does nothing more.
    fn is_finished(&self) -> bool {
        self.finish_sent && self.decision.is_some()
    }
}

impl Session {
    /// Rule 6: no vote acts under Exit 1 (PROTOCOL 8.7).
    pub(crate) fn act_in_votes(&mut self) -> Option<Outcome> {
        if matches!(self.exit(), Exit::One(_)) {
            return None;
        }
        self.settings.numbers().find_map(|instance| self.act_in_vote(instance))
    }

    /// The order in a vote (PROTOCOL 5.2), in version 2 with FINISH before all else (02, N6).
    fn act_in_vote(&mut self, instance: Number) -> Option<Outcome> {
        if self.vote(instance).is_finished() {
            return None;
        }
        self.send_finish(instance)
            .or_else(|| self.start(instance))
            .or_else(|| self.send_relay(instance))
            .or_else(|| self.send_aux(instance))
            .map(Outcome::Sent)
            .or_else(|| self.move_on(instance))
    }

    /// One FINISH in each vote, in any round and in none: the decision where one stands, else a value with FINISHes of
    /// ta+1, 0 before 1.
    fn send_finish(&mut self, instance: Number) -> Option<Message> {
        if self.settings.version() == Version::One || self.vote(instance).finish_sent {
            return None;
        }
        let enough = match self.fault {
            Fault::FinishOnTa => self.settings.ta().max(1).into(),
            _ => self.settings.vote_relay(),
        };
        let relayed = |value: &bool| self.finish_weight(instance, *value) >= enough;
        let value = self.vote(instance).decision;
        let value = value.or_else(|| [false, true].into_iter().find(relayed))?;
        self.vote_mut(instance).finish_sent = true;
        Some(Message::Finish { instance, value })
    }

    /// A FINISH was recorded: it decides an undecided vote where those of its value are of 2·ta+1 now.
    pub(crate) fn decide_by_finishes(&mut self, instance: Number, value: bool) {
        let others = match self.fault {
            Fault::MixedFinishes => self.finish_weight(instance, !value),
            _ => 0,
        };
        if self.finish_weight(instance, value) + others >= self.settings.vote_accept() {
            self.vote_mut(instance).decision.get_or_insert(value);
        }
    }

    /// With 1 if the broadcast has output, else with 0 once s ≥ W−ta.
    fn start(&mut self, instance: Number) -> Option<Message> {
        if self.vote(instance).round != 0 {
            return None;
        }
        let value = self.output(instance).is_some() || self.starts_early(instance);
        if value || self.decided_one() >= self.settings.vote_quorum() {
            Some(self.enter(instance, 1, value))
        } else {
            None
        }
    }

    fn starts_early(&self, instance: Number) -> bool {
        self.fault == Fault::EarlyStart && self.records.send(instance).is_some()
    }

    /// Enters a round and sends its EST.
    fn enter(&mut self, instance: Number, round: Round, value: bool) -> Message {
        let vote = self.vote_mut(instance);
        vote.round = round;
        vote.aux_sent = false;
        vote.ests_sent.insert((round, value));
        Message::Est { instance, round, value }
    }

    /// A value not yet sent as EST and held from senders of ta+1, lowest round first, 0 before 1.
    fn send_relay(&mut self, instance: Number) -> Option<Message> {
        let vote = self.vote(instance);
        let last = vote.round.min(Settings::ROUND_LIMIT);
        let (round, value) = (1..=last)
            .flat_map(|round| [(round, false), (round, true)])
            .filter(|place| !vote.ests_sent.contains(place))
            .find(|&(round, value)| {
                self.est_weight(instance, round, value) >= self.settings.vote_relay()
            })?;
        self.vote_mut(instance).ests_sent.insert((round, value));
        Some(Message::Est { instance, round, value })
    }

    /// An EST was recorded: a value that is accepted now is the first of its round, if none was before.
    pub(crate) fn note_accepted(&mut self, instance: Number, round: Round, value: bool) {
        if self.is_accepted(instance, round, value) {
            self.vote_mut(instance).accepted_first.entry(round).or_insert(value);
        }
    }

    /// One AUX in each round: the value that was accepted first (02, N2).
    fn send_aux(&mut self, instance: Number) -> Option<Message> {
        let round = self.vote(instance).open_round()?;
        if self.vote(instance).aux_sent {
            return None;
        }
        let first = *self.vote(instance).accepted_first.get(&round)?;
        let value = match self.fault {
            Fault::ZeroBeforeOne => !self.is_accepted(instance, round, false),
            _ => first,
        };
        self.vote_mut(instance).aux_sent = true;
        Some(Message::Aux { instance, round, value })
    }

    /// Move, after the own AUX: when held AUXs of at least W−ta carry accepted values (PROTOCOL 5.7). A boxed coin must
    /// have been recorded (5.8).
    fn move_on(&mut self, instance: Number) -> Option<Outcome> {
        let round = self.vote(instance).open_round()?;
        if !self.vote(instance).aux_sent {
            return None;
        }
        let carried = self.carried(instance, round);
        let weight = self.settings.weight(carried.iter().map(|&(sender, _)| sender));
        if weight < self.settings.vote_quorum() {
            return None;
        }
        let coin = self.coin(instance, round)?;
        let estimate = match only_value(&carried) {
            Some(value) => {
                self.decide(instance, value, coin);
                value
            }
            None => coin,
        };
        Some(self.enter_next(instance, round, estimate))
    }

    /// The AUXs of the round that carry accepted values: each sender with its value.
    fn carried(&self, instance: Number, round: Round) -> Vec<(Number, bool)> {
        self.records
            .auxes(instance, round)
            .filter(|&(_, value)| {
                self.fault == Fault::UnacceptedAux || self.is_accepted(instance, round, value)
            })
            .collect()
    }

    /// A single value seen is decided where it is the coin and nothing was decided before (PROTOCOL 5.9, 5.10).
    fn decide(&mut self, instance: Number, value: bool, coin: bool) {
        if value == coin {
            self.vote_mut(instance).decision.get_or_insert(value);
        }
    }

    /// A move goes one round on and sends an EST there, but none in round 33 (PROTOCOL 5.11).
    fn enter_next(&mut self, instance: Number, round: Round, estimate: bool) -> Outcome {
        if round < Settings::ROUND_LIMIT {
            return Outcome::Sent(self.enter(instance, round + 1, estimate));
        }
        self.vote_mut(instance).round = round + 1;
        Outcome::MovedOut
    }

    /// A value is accepted in a round when ESTs of 2·ta+1 hold it.
    fn is_accepted(&self, instance: Number, round: Round, value: bool) -> bool {
        self.est_weight(instance, round, value) >= self.settings.vote_accept()
    }

    /// The weight of the senders whose ESTs hold the value.
    fn est_weight(&self, instance: Number, round: Round, value: bool) -> Weight {
        self.settings.weight(self.records.est_senders(instance, round, value))
    }

    /// The weight of the senders whose FINISHes hold the value.
    fn finish_weight(&self, instance: Number, value: bool) -> Weight {
        self.settings.weight(self.records.finish_senders(instance, value))
    }

    /// `None` where a boxed session still waits for it.
    fn coin(&self, instance: Number, round: Round) -> Option<bool> {
        let unrecorded = (self.fault == Fault::UnrecordedCoin).then_some(false);
        self.coins.coin(instance, round).or(unrecorded)
    }

    /// s, the weight of the votes decided 1.
    fn decided_one(&self) -> Weight {
        let decided = self.votes.iter().filter(|(_, vote)| vote.decision == Some(true));
        self.settings.weight(decided.map(|(&instance, _)| instance))
    }

    /// The decisions there are, by instance.
    pub fn decisions(&self) -> BTreeMap<Number, bool> {
        self.votes.iter().filter_map(|(&instance, vote)| Some((instance, vote.decision?))).collect()
    }

    fn vote(&self, instance: Number) -> &Vote {
        &self.votes[&instance]
    }

    fn vote_mut(&mut self, instance: Number) -> &mut Vote {
        self.votes.get_mut(&instance).expect("a vote for each number from 1 to n")
    }
}

/// The one value that all carry, if they carry just one.
fn only_value(carried: &[(Number, bool)]) -> Option<bool> {
    let (_, first) = *carried.first()?;
    carried.iter().all(|&(_, value)| value == first).then_some(first)
}
