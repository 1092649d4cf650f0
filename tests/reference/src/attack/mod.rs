//! Whole feeders under attack: every call is followed by a check of demand 3 and of what 02, N9 claims.

mod claim;
mod coins;
mod face;
mod feeder;
mod journal;
mod lying;
mod pacing;
mod packs;
mod pick;
mod plan;
mod power;
pub(crate) mod random;
mod refused;
mod script;
mod trace;
mod versions;

use std::collections::BTreeSet;
use std::fmt;

pub use claim::{Claim, Conditions, Owed, Shown, Violation};
pub use packs::{packs, Packs, PacksByKind};
pub use plan::Plan;
pub use trace::feeder_trace;
pub use versions::{versions, Tallies, Tally};

use crate::box_engine::BoxEngine;
use crate::compare::all_settings;
use crate::settings::{Number, Settings, Version};
use crate::standing_engine::StandingEngine;
use feeder::Feeder;
use random::Random;

/// What was seen, to show that the feeders get anywhere.
#[derive(Clone, Debug, Default)]
pub struct Statistics {
    pub calls: u64,
    pub feeders: u64,
    /// Feeders in which an honest one showed exit 0, 1, 2, 3.
    pub exits: [u64; 4],
    /// Feeders in which an honest one closed.
    pub closed: u64,
    /// The settings of the feeders.
    pub settings: BTreeSet<Settings>,
    /// The most turns of an honest one that were not idle, in hundredths of what its version allows.
    pub most_turns: u64,
    /// Restores after power was lost, and the lines that were lost.
    pub restores: u64,
    pub lost_lines: u64,
    /// Boxed feeders, and the bits that honest ones recorded.
    pub boxed: u64,
    pub recordings: u64,
    /// Feeders of version 2, and the FINISHes that honest ones sent.
    pub version_2: u64,
    pub finishes: u64,
    /// Feeders whose liars weigh more than ta.
    pub over_ta: u64,
    seen: BTreeSet<u8>,
    closed_here: BTreeSet<Number>,
}

impl Statistics {
    fn note(&mut self, number: Number, shown: &Shown, turns_share: u64) {
        self.most_turns = self.most_turns.max(turns_share);
        self.seen.insert(shown.exit);
        if shown.in_force.is_some() {
            self.closed_here.insert(number);
        }
    }

    fn note_restore(&mut self, lost_lines: usize) {
        self.restores += 1;
        self.lost_lines += lost_lines as u64;
    }

    fn add_feeder(&mut self, other: &Statistics) {
        self.calls += other.calls;
        self.feeders += 1;
        for &exit in &other.seen {
            self.exits[usize::from(exit)] += 1;
        }
        self.closed += u64::from(!other.closed_here.is_empty());
        self.settings.extend(&other.settings);
        self.most_turns = self.most_turns.max(other.most_turns);
        self.restores += other.restores;
        self.lost_lines += other.lost_lines;
        self.boxed += other.boxed;
        self.recordings += other.recordings;
        self.version_2 += other.version_2;
        self.finishes += other.finishes;
        self.over_ta += other.over_ta;
    }
}

impl fmt::Display for Statistics {
    fn fmt(&self, f: &mut fmt::Formatter<'_>) -> fmt::Result {
        let [_, one, two, three] = self.exits;
        write!(
            f,
            "{} feeders of {} settings, {} calls; exit 1 seen in {one}, exit 2 in {two}, exit 3 in {three}, closed in \
             {}; at most {} % of the turns allowed; {} restores, {} lines lost; {} boxed, {} bits recorded; {} of version 2, \
             {} FINISHes; {} with liars over ta",
            self.feeders,
            self.settings.len(),
            self.calls,
            self.closed,
            self.most_turns,
            self.restores,
            self.lost_lines,
            self.boxed,
            self.recordings,
            self.version_2,
            self.finishes,
            self.over_ta
        )
    }
}

/// A feeder in which a claim was broken.
#[derive(Clone, Debug)]
pub struct Finding {
    /// From 1.
    pub feeder: u64,
    /// [`run_feeder`] with this seed runs the feeder again.
    pub seed: u64,
    pub violation: Violation,
}

impl fmt::Display for Finding {
    fn fmt(&self, f: &mut fmt::Formatter<'_>) -> fmt::Result {
        write!(f, "feeder {} (seed {:#018x}): {}", self.feeder, self.seed, self.violation)
    }
}

/// Runs the feeder of one seed.
pub fn run_feeder<E: BoxEngine + StandingEngine>(
    engine: &E,
    conditions: Conditions,
    seed: u64,
) -> (Statistics, Result<(), Violation>) {
    let plan = Plan::new(seed, conditions);
    let mut feeder = Feeder::new(engine, &plan, conditions, !seed);
    let result = feeder.run();
    (feeder.statistics, result)
}

/// Runs so many feeders and then more, until all settings with n up to 7 and weights of 1 had one in both versions; it ends
/// early where a claim is broken.
pub fn attack<E: BoxEngine + StandingEngine>(
    engine: &E,
    conditions: Conditions,
    seed: u64,
    feeders: u64,
) -> (Statistics, Option<Finding>) {
    let mut random = Random::new(seed);
    let mut total = Statistics::default();
    let both = |settings: Settings| Version::ALL.map(|version| settings.with_version(version));
    let mut left: BTreeSet<Settings> = all_settings(pick::MOST as u64).flat_map(both).collect();
    while total.feeders < feeders || !left.is_empty() {
        let seed = random.word();
        if feeders <= total.feeders && !left.contains(&Plan::new(seed, conditions).settings) {
            continue;
        }
        let (statistics, result) = run_feeder(engine, conditions, seed);
        total.add_feeder(&statistics);
        left.retain(|settings| !total.settings.contains(settings));
        if let Err(violation) = result {
            let feeder = total.feeders;
            return (total, Some(Finding { feeder, seed, violation }));
        }
    }
    (total, None)
}
