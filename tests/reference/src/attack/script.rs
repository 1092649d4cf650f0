//! What liars send ahead of everything else, floods and a fight over single votes, and what they send once they see a
//! boxed coin.

use std::collections::BTreeMap;

use super::plan::Group;
use super::random::Random;
use crate::message::{Message, PackSet};
use crate::settings::{Number, Round, Settings};

/// A message that every liar sends to the honest ones of a group, so many times.
#[derive(Clone, Debug)]
pub struct Lie {
    pub message: Message,
    pub group: Group,
    pub times: usize,
    /// The steps until it is there.
    pub delay: u64,
}

/// What liars do in a vote once a coin of it is no longer sealed.
#[derive(Clone, Copy, Debug, PartialEq, Eq)]
pub enum Watch {
    /// As [`Script::add_split`] does with coins that are known from the start.
    Split,
    /// One group is shown the coin as the only value, the other one the opposite.
    Part,
    /// Group A is left to decide 1 in the first round with that coin, group B is shown both values; then all are led to 0.
    Lead,
}

#[derive(Clone, Debug, Default)]
pub struct Script {
    pub lies: Vec<Lie>,
    pub watches: BTreeMap<Number, Watch>,
    /// Liars send a FINISH of the other value where one more of theirs would make up 2·ta+1, if values did not matter.
    pub contradicts: bool,
}

const GROUPS: [Group; 2] = [Group::A, Group::B];
/// Rounds in which a fight goes on.
const ROUNDS: Round = 10;

impl Script {
    fn add(&mut self, message: Message, group: Group, times: usize) {
        self.lies.push(Lie { message, group, times, delay: 0 });
    }

    /// ECHOs and READYs of some broadcasts, often more than once, and COMMITs, for packs that are seldom put in.
    pub fn add_flood(
        &mut self,
        random: &mut Random,
        settings: &Settings,
        instances: &[Number],
        packs: &[u64],
    ) {
        let times = random.pick(&[1, 2, usize::from(settings.n())]);
        let second = if random.once_in(2) { packs[1] } else { packs[2] };
        let (echo, ready) = random.pick(&[(true, false), (true, true), (false, true)]);
        let commit = random.once_in(2);
        for (group, value) in GROUPS.into_iter().zip([packs[1], second]) {
            for &instance in instances {
                if echo {
                    self.add(Message::Echo { instance, value }, group, times);
                }
                if ready {
                    self.add(Message::Ready { instance, value }, group, times);
                }
            }
            if commit {
                self.add(Message::Commit { values: PackSet::from([value]) }, group, 1);
            }
        }
    }

    /// ESTs and AUXs of one vote, at random and different for the two groups; of a boxed one mostly only once its coins are
    /// seen.
    pub fn add_fight(&mut self, random: &mut Random, instance: Number, boxed: bool) {
        if boxed {
            let watch = random.pick(&[Watch::Part, Watch::Lead]);
            self.watches.insert(instance, watch);
            if !random.once_in(4) {
                return;
            }
        }
        for (round, group) in (1..=ROUNDS).flat_map(|round| GROUPS.map(|group| (round, group))) {
            for value in [false, true] {
                if random.once_in(3) {
                    self.add(Message::Est { instance, round, value }, group, 1);
                }
            }
            let value = random.once_in(2);
            if !random.once_in(3) {
                self.add(Message::Aux { instance, round, value }, group, 1);
            }
        }
    }

    /// FINISHes of one vote, ahead of all other lies and before any vote starts, or late: of one value, or of one for each
    /// group, or of both to all. Only the first of a liar counts.
    pub fn add_finishes(&mut self, random: &mut Random, instance: Number) {
        let times = random.pick(&[1, 2, 7]);
        let delay = random.pick(&[0, 0, 100, 1_000]);
        let first = random.once_in(2);
        let values = random.pick(&[[first; 2], [first, !first], [first, !first]]);
        let lie = |value: bool, group| {
            let message = Message::Finish { instance, value };
            Lie { message, group, times, delay }
        };
        let mut lies: Vec<Lie> = GROUPS.into_iter().zip(values).map(|(g, v)| lie(v, g)).collect();
        if random.once_in(3) {
            lies.extend(GROUPS.into_iter().zip(values).map(|(g, v)| lie(!v, g)));
        }
        self.lies.splice(0..0, lies);
    }

    /// Whether a message is of a vote that is led.
    pub fn leads(&self, message: &[u8]) -> bool {
        matches!(message[1], 4 | 5 | 7) && self.watches.get(&message[3]) == Some(&Watch::Lead)
    }

    /// The lies about a vote and round whose coin is seen now; `before` has those of lower rounds.
    pub fn lies_about(
        &self,
        (instance, round): (Number, Round),
        coin: bool,
        before: &[bool],
    ) -> Vec<Lie> {
        let lie = |message, group| Lie { message, group, times: 1, delay: 0 };
        let aux = |value, group| lie(Message::Aux { instance, round, value }, group);
        let est = |value, group| lie(Message::Est { instance, round, value }, group);
        match self.watches.get(&instance) {
            None => Vec::new(),
            Some(Watch::Split) => {
                let mut lies = vec![aux(false, Group::B)];
                if before.contains(&true) {
                    lies.push(aux(false, Group::A));
                }
                lies
            }
            Some(Watch::Part) => {
                let ests = [est(false, Group::B), est(true, Group::B), est(coin, Group::A)];
                ests.into_iter().chain([aux(coin, Group::A), aux(!coin, Group::B)]).collect()
            }
            Some(Watch::Lead) => {
                let mut lies = vec![est(false, Group::A), est(false, Group::B)];
                if !before.contains(&true) {
                    lies.extend([est(true, Group::A), est(true, Group::B)]);
                }
                lies.extend([aux(!before.contains(&true), Group::A), aux(false, Group::B)]);
                lies
            }
        }
    }

    /// AUXs of 0 against one vote. Up to the first round with coin 1, only group B gets them, and group A is left
    /// to decide 1. Then all get them until a coin is 0: counted, they would turn all estimates to 0.
    pub fn add_split(&mut self, instance: Number, coins: Option<&[u32]>) {
        let Some(coins) = coins else {
            self.watches.insert(instance, Watch::Split);
            return;
        };
        let coin = |round: Round| coins[usize::from(instance) - 1] >> (round - 1) & 1 == 1;
        let first_one = (1..=ROUNDS).find(|&round| coin(round)).unwrap_or(ROUNDS);
        let next_zero = (first_one + 1..=ROUNDS).find(|&round| !coin(round)).unwrap_or(ROUNDS);
        for round in 1..=next_zero {
            let against = Message::Aux { instance, round, value: false };
            if round > first_one {
                self.add(against.clone(), Group::A, 1);
            }
            self.add(against, Group::B, 1);
        }
    }
}
