//! 02, N2: the packs in the sets of feeders of the attack, with the AUX of 01 and with that of N2.

use std::collections::BTreeSet;
use std::fmt;

use super::claim::{Conditions, Violation};
use super::feeder::Feeder;
use super::plan::Plan;
use super::random::Random;
use crate::engine::Reference;
use crate::fault::Fault;

/// A feeder at its end.
#[derive(Default)]
struct Ended {
    /// What the honest ones that are opened put in, and which of these packs are in sets in force.
    put_in: BTreeSet<u64>,
    in_sets: BTreeSet<u64>,
    closed: bool,
    /// The highest exit that shows at one that is closed.
    exit: u8,
}

/// The packs that honest ones put in, each once for a feeder.
#[derive(Clone, Copy, Debug, Default, PartialEq, Eq)]
pub struct Packs {
    /// Feeders in which an honest one closed with both rules, with that of 01 only, and with that of N2 only.
    pub both_closed: u64,
    pub only_before: u64,
    pub only_now: u64,
    /// Of those with both: all packs, those in a set with the rule of 01, and with that of N2.
    pub put_in: u64,
    pub in_before: u64,
    pub in_now: u64,
    /// Left out with the rule of 01 and in a set with that of N2, and the other way round.
    pub gained: u64,
    pub lost: u64,
    /// Left out with the rule of N2, by the exit that named the set; 0 where none shows.
    pub left_out: [u64; 4],
}

impl Packs {
    fn add(&mut self, before: &Ended, now: &Ended) {
        match (before.closed, now.closed) {
            (true, true) => {}
            (true, false) => return self.only_before += 1,
            (false, true) => return self.only_now += 1,
            (false, false) => return,
        }
        self.both_closed += 1;
        self.put_in += now.put_in.len() as u64;
        self.in_before += before.in_sets.len() as u64;
        self.in_now += now.in_sets.len() as u64;
        self.gained += now.in_sets.difference(&before.in_sets).count() as u64;
        self.lost += before.in_sets.difference(&now.in_sets).count() as u64;
        let left_out = now.put_in.difference(&now.in_sets).count() as u64;
        self.left_out[usize::from(now.exit)] += left_out;
    }
}

impl fmt::Display for Packs {
    fn fmt(&self, f: &mut fmt::Formatter<'_>) -> fmt::Result {
        let [none, one, two, three] = self.left_out;
        write!(
            f,
            "{} feeders with sets before and now, {} before only, {} now only; of {} packs {} in sets before, {} now: \
             {} left out before and in now, {} in before and left out now; left out now {one} with exit 1, {two} with \
             exit 2, {three} with exit 3, {none} where none shows",
            self.both_closed,
            self.only_before,
            self.only_now,
            self.put_in,
            self.in_before,
            self.in_now,
            self.gained,
            self.lost
        )
    }
}

/// The feeders of the attack by their kind.
#[derive(Clone, Copy, Debug, Default, PartialEq, Eq)]
pub struct PacksByKind {
    pub honest: Packs,
    pub lying: Packs,
    /// Without liars too: those whose hosts turn only once all that is due was delivered.
    pub busy: Packs,
}

/// Runs each of so many feeders with both rules until nothing is on its way and all are idle. Power is not lost there, and liars that
/// run an engine run that of now.
pub fn packs(seed: u64, feeders: u64) -> Result<PacksByKind, Violation> {
    let mut random = Random::new(seed);
    let mut packs = PacksByKind::default();
    for _ in 0..feeders {
        let seed = random.word();
        let mut plan = Plan::new(seed, Conditions::Met);
        (plan.pace.call_limit, plan.pace.power_losses) = (u64::MAX, None);
        let before = run(Fault::ZeroBeforeOne, &plan, seed)?;
        let now = run(Fault::None, &plan, seed)?;
        let kind = match plan.pace.laziness {
            None => &mut packs.busy,
            Some(_) if plan.liars.is_empty() => &mut packs.honest,
            Some(_) => &mut packs.lying,
        };
        kind.add(&before, &now);
    }
    Ok(packs)
}

fn run(fault: Fault, plan: &Plan, seed: u64) -> Result<Ended, Violation> {
    let engine = Reference { fault };
    let mut feeder = Feeder::new(&engine, plan, Conditions::Met, !seed);
    feeder.run()?;
    let mut ended = Ended::default();
    for (number, honest) in &feeder.honest {
        if honest.opened {
            ended.put_in.insert(plan.inputs[number]);
        }
        if honest.closed {
            let shown = feeder.shown(*number)?;
            ended.closed = true;
            ended.exit = ended.exit.max(shown.exit);
            ended.in_sets.extend(shown.in_force.into_iter().flatten());
        }
    }
    ended.in_sets.retain(|pack| ended.put_in.contains(pack));
    Ok(ended)
}
