//! 01, "Delivery records", with FINISHes (02, N6): the place of each message, held once.

use std::collections::btree_map::Entry;
use std::collections::{BTreeMap, BTreeSet};

use crate::fault::Fault;
use crate::message::{Message, PackSet};
use crate::refusal::Refusal;
use crate::settings::{Number, Round, Settings, Weight};

/// One value from each sender.
pub type BySender<V> = BTreeMap<Number, V>;

/// The messages held.
#[derive(Clone, Debug, Default, PartialEq, Eq)]
pub struct Records {
    /// By instance, which is the sender.
    sends: BySender<u64>,
    echoes: BTreeMap<Number, BySender<u64>>,
    readies: BTreeMap<Number, BySender<u64>>,
    ests: BTreeMap<(Number, Round, bool), BTreeSet<Number>>,
    auxes: BTreeMap<(Number, Round), BySender<bool>>,
    commits: BySender<PackSet>,
    finishes: BTreeMap<Number, BySender<bool>>,
    /// Only with [`Fault::RepeatedEcho`]: the ECHOs beyond a sender's first.
    repeated_echoes: BTreeMap<Number, Vec<(Number, u64)>>,
    /// Only with [`Fault::RepeatedFinish`]: the FINISHes beyond a sender's first.
    repeated_finishes: BTreeMap<Number, Vec<(Number, bool)>>,
}

impl Records {
    /// Holds a message, or refuses it because its place holds one.
    pub fn record(
        &mut self,
        sender: Number,
        message: &Message,
        fault: Fault,
    ) -> Result<(), Refusal> {
        match *message {
            Message::Send { value } => hold(&mut self.sends, sender, value),
            Message::Echo { instance, value } => self.record_echo(sender, instance, value, fault),
            Message::Ready { instance, value } => {
                hold(self.readies.entry(instance).or_default(), sender, value)
            }
            Message::Est { instance, round, value } => {
                let senders = self.ests.entry((instance, round, value)).or_default();
                if senders.insert(sender) {
                    Ok(())
                } else {
                    Err(Refusal::Held)
                }
            }
            Message::Aux { instance, round, value } => {
                hold(self.auxes.entry((instance, round)).or_default(), sender, value)
            }
            Message::Commit { ref values } => hold(&mut self.commits, sender, values.clone()),
            Message::Finish { instance, value } => {
                self.record_finish(sender, instance, value, fault)
            }
        }
    }

    fn record_echo(
        &mut self,
        sender: Number,
        instance: Number,
        value: u64,
        fault: Fault,
    ) -> Result<(), Refusal> {
        let held = hold(self.echoes.entry(instance).or_default(), sender, value);
        if held.is_err() && fault == Fault::RepeatedEcho {
            self.repeated_echoes.entry(instance).or_default().push((sender, value));
            return Ok(());
        }
        held
    }

    fn record_finish(
        &mut self,
        sender: Number,
        instance: Number,
        value: bool,
        fault: Fault,
    ) -> Result<(), Refusal> {
        let held = hold(self.finishes.entry(instance).or_default(), sender, value);
        if held.is_err() && fault == Fault::RepeatedFinish {
            self.repeated_finishes.entry(instance).or_default().push((sender, value));
            return Ok(());
        }
        held
    }

    /// The value in the instance's SEND.
    pub fn send(&self, instance: Number) -> Option<u64> {
        self.sends.get(&instance).copied()
    }

    /// The value whose ECHOs weigh `enough`; of several, the lowest sender's.
    pub fn echoed(&self, instance: Number, settings: &Settings, enough: Weight) -> Option<u64> {
        let echoes = self.echoes.get(&instance)?;
        let repeats = self.repeated_echoes.get(&instance).into_iter().flatten();
        let all = echoes.iter().chain(repeats.map(|(sender, value)| (sender, value)));
        settings.first_weighing(all, enough).copied()
    }

    /// The value whose READYs weigh `enough`; of several, the lowest sender's.
    pub fn readied(&self, instance: Number, settings: &Settings, enough: Weight) -> Option<u64> {
        settings.first_weighing(self.readies.get(&instance)?.iter(), enough).copied()
    }

    /// The senders whose ESTs hold the value.
    pub fn est_senders(
        &self,
        instance: Number,
        round: Round,
        value: bool,
    ) -> impl Iterator<Item = Number> + '_ {
        self.ests.get(&(instance, round, value)).into_iter().flatten().copied()
    }

    /// The AUXs held in a round: each sender with its value.
    pub fn auxes(
        &self,
        instance: Number,
        round: Round,
    ) -> impl Iterator<Item = (Number, bool)> + '_ {
        let held = self.auxes.get(&(instance, round)).into_iter().flatten();
        held.map(|(&sender, &value)| (sender, value))
    }

    /// The senders whose FINISHes hold the value.
    pub fn finish_senders(
        &self,
        instance: Number,
        value: bool,
    ) -> impl Iterator<Item = Number> + '_ {
        let held = self.finishes.get(&instance).into_iter().flatten();
        let repeats = self.repeated_finishes.get(&instance).into_iter().flatten();
        let all = held.chain(repeats.map(|(sender, value)| (sender, value)));
        all.filter(move |(_, &finished)| finished == value).map(|(&sender, _)| sender)
    }

    /// The set whose COMMITs weigh `enough`; of several, the lowest sender's.
    pub fn committed(&self, settings: &Settings, enough: Weight) -> Option<&PackSet> {
        settings.first_weighing(self.commits.iter(), enough)
    }
}

fn hold<V>(places: &mut BySender<V>, sender: Number, value: V) -> Result<(), Refusal> {
    match places.entry(sender) {
        Entry::Vacant(place) => {
            place.insert(value);
            Ok(())
        }
        Entry::Occupied(_) => Err(Refusal::Held),
    }
}
