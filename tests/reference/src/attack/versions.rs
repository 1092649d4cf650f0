//! 02, N6: what version 2 saves, in the feeders of the attack.

use std::fmt;

use super::claim::{Conditions, Violation};
use super::feeder::Feeder;
use super::plan::Plan;
use super::random::Random;
use crate::box_engine::BoxEngine;
use crate::settings::Version;
use crate::standing_engine::StandingEngine;

/// What the honest ones of some feeders did.
#[derive(Clone, Copy, Debug, Default, PartialEq, Eq)]
pub struct Tally {
    pub feeders: u64,
    pub opened: u64,
    pub closed: u64,
    pub turns: u64,
    pub messages: u64,
    pub bytes: u64,
}

impl Tally {
    fn add(&mut self, other: &Tally) {
        self.feeders += other.feeders;
        self.opened += other.opened;
        self.closed += other.closed;
        self.turns += other.turns;
        self.messages += other.messages;
        self.bytes += other.bytes;
    }
}

impl fmt::Display for Tally {
    fn fmt(&self, f: &mut fmt::Formatter<'_>) -> fmt::Result {
        let Tally { feeders, opened, closed, turns, messages, bytes } = self;
        write!(f, "{feeders} feeders, {closed} of {opened} honest ones closed, {turns} turns, ")?;
        write!(f, "{messages} messages of {bytes} bytes")
    }
}

/// The feeders of a version: those without liars, and those with some.
#[derive(Clone, Copy, Debug, Default, PartialEq, Eq)]
pub struct Tallies {
    pub honest: Tally,
    pub lying: Tally,
}

/// Runs each of so many feeders in both versions, with the same settings, liars and lies but for FINISHes, until nothing is
/// on its way and all are idle. Power is not lost there.
pub fn versions<E: BoxEngine + StandingEngine>(
    engine: &E,
    seed: u64,
    feeders: u64,
) -> Result<[(Version, Tallies); 2], Violation> {
    let mut random = Random::new(seed);
    let mut tallies = Version::ALL.map(|version| (version, Tallies::default()));
    for _ in 0..feeders {
        let seed = random.word();
        for (version, tallies) in &mut tallies {
            let mut plan = Plan::of_version(seed, Conditions::Met, *version);
            (plan.pace.call_limit, plan.pace.power_losses) = (u64::MAX, None);
            let tally = run(engine, &plan, seed)?;
            let kind = if plan.liars.is_empty() { &mut tallies.honest } else { &mut tallies.lying };
            kind.add(&tally);
        }
    }
    Ok(tallies)
}

fn run<E: BoxEngine + StandingEngine>(
    engine: &E,
    plan: &Plan,
    seed: u64,
) -> Result<Tally, Violation> {
    let mut feeder = Feeder::new(engine, plan, Conditions::Met, !seed);
    feeder.run()?;
    let mut tally = Tally { feeders: 1, ..Tally::default() };
    for honest in feeder.honest.values() {
        tally.opened += u64::from(honest.opened);
        tally.closed += u64::from(honest.closed);
        tally.turns += honest.taken;
        for message in honest.journal.sent() {
            tally.messages += 1;
            tally.bytes += message.len() as u64;
        }
    }
    Ok(tally)
}
