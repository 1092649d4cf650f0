//! 01, "The three exits".

use std::collections::BTreeMap;

use crate::fault::Fault;
use crate::message::PackSet;
use crate::session::Session;
use crate::settings::{Number, Settings, Weight};

/// Which exit holds, with what it names.
#[derive(Clone, Debug, PartialEq, Eq)]
pub enum Exit {
    None,
    One(u64),
    Two(u64),
    Three(PackSet),
}

impl Exit {
    /// 0 to 3.
    pub fn number(&self) -> u8 {
        match self {
            Exit::None => 0,
            Exit::One(_) => 1,
            Exit::Two(_) => 2,
            Exit::Three(_) => 3,
        }
    }

    /// The set that the exit names.
    pub fn named(&self) -> Option<PackSet> {
        match self {
            Exit::None => None,
            Exit::One(value) | Exit::Two(value) => Some(PackSet::from([*value])),
            Exit::Three(values) => Some(values.clone()),
        }
    }
}

/// The exit for the outputs and decisions there are. A broadcast with no output gives no value.
pub fn exit(
    settings: &Settings,
    outputs: &BTreeMap<Number, u64>,
    decisions: &BTreeMap<Number, bool>,
    fault: Fault,
) -> Exit {
    if let Some(&value) = settings.first_weighing(outputs.iter(), settings.quorum()) {
        return Exit::One(value);
    }
    let decided_one = || decisions.iter().filter(|(_, &one)| one).map(|(&instance, _)| instance);
    let all_decided = decisions.len() == usize::from(settings.n());
    let enough = settings.weight(decided_one()) >= settings.vote_quorum();
    if !enough || !(all_decided || fault == Fault::OpenVote) {
        return Exit::None;
    }
    let in_s = || outputs.iter().filter(|(instance, _)| decisions.get(instance) == Some(&true));
    let counted = &settings.in_majority(fault);
    let majority = majority(counted.weight(decided_one()), fault);
    if let Some(&value) = counted.first_weighing(in_s(), majority) {
        return Exit::Two(value);
    }
    if all_decided && in_s().count() == decided_one().count() {
        let s = in_s().map(|(_, &value)| value).collect();
        return if fault == Fault::OutsideS {
            exit_outside(s, outputs, decisions)
        } else {
            Exit::Three(s)
        };
    }
    Exit::None
}

/// Exit 3 with [`Fault::OutsideS`], where it would name `s`.
fn exit_outside(
    s: PackSet,
    outputs: &BTreeMap<Number, u64>,
    decisions: &BTreeMap<Number, bool>,
) -> Exit {
    if outputs.len() < decisions.len() {
        return Exit::None;
    }
    let outside: PackSet = outputs
        .iter()
        .filter(|(instance, _)| !decisions[*instance])
        .map(|(_, &value)| value)
        .collect();
    Exit::Three(if outside.is_empty() { s } else { outside })
}

/// The least that is more than s/2.
fn majority(s: Weight, fault: Fault) -> Weight {
    match fault {
        Fault::HalfIsMajority => s.div_ceil(2),
        _ => s / 2 + 1,
    }
}

impl Session {
    /// The exit that holds now, read from the records afresh.
    pub(crate) fn exit(&self) -> Exit {
        exit(&self.settings, &self.outputs(), &self.decisions(), self.fault)
    }
}
