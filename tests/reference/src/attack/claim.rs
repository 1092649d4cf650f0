//! Demand 3 and the two claims of 02, N9 as a check after every call at an honest concentrator.

use std::collections::BTreeSet;
use std::fmt;

use crate::message::PackSet;
use crate::settings::Number;
use crate::standing_engine::Standing;

/// What demand 3 asks of the list of calls, and whether a feeder keeps to it.
#[derive(Clone, Copy, Debug, PartialEq, Eq)]
pub enum Conditions {
    Met,
    /// Restored ones may have lost any line but the first, of messages that left too; they would count as liars.
    LostLines,
    /// Sessions are boxed, and honest ones of the two groups record different bits.
    OtherBits,
}

/// What a report shows at an opened honest concentrator, and the outputs and decisions in its state.
#[derive(Clone, Debug, PartialEq, Eq)]
pub struct Shown {
    pub exit: u8,
    pub named: Option<PackSet>,
    pub in_force: Option<PackSet>,
    pub standing: Standing,
}

/// What is owed, by what the liars weigh.
#[derive(Clone, Copy, Debug, PartialEq, Eq)]
pub struct Owed {
    /// Where they weigh ta at most: all sets are one, and a vote is decided 1 only after an output (PROTOCOL 16.8, 16.19).
    pub up_to_ta: bool,
    /// Where they weigh ts at most: what is in force was named, and every set has an honest pack (PROTOCOL 16.9, 16.18).
    pub up_to_ts: bool,
    /// Where, besides, every honest one that is opened puts in this pack: no other is in force (PROTOCOL 16.10).
    pub pack: Option<u64>,
}

/// How a claim, or the bound on turns, was broken.
#[derive(Clone, Debug, PartialEq, Eq)]
pub enum Violation {
    /// Two different sets are named or in force.
    TwoSets { at: Number, earlier: PackSet, now: PackSet },
    /// A set is in force that no honest one's exits had named before.
    NotNamed { at: Number, in_force: PackSet },
    /// All put in `pack`, and another set is in force.
    OtherPack { at: Number, in_force: PackSet, pack: u64 },
    /// A set is named or in force, and no honest one that is opened put in a pack of it.
    NoHonestPack { at: Number, set: PackSet },
    /// A vote is decided 1, and its broadcast had no output at an honest one after an earlier call.
    NoOutput { at: Number, vote: Number },
    /// More turns that were not idle than the version allows, or a count that is not their number.
    Turns { at: Number, taken: u64, reported: u64 },
    /// An answer that the rules rule out.
    Answer { at: Number, call: &'static str, answer: u64 },
}

impl fmt::Display for Violation {
    fn fmt(&self, f: &mut fmt::Formatter<'_>) -> fmt::Result {
        match self {
            Violation::TwoSets { at, earlier, now } => {
                write!(f, "{now:?} at {at}, and {earlier:?} before")
            }
            Violation::NotNamed { at, in_force } => {
                write!(f, "{in_force:?} in force at {at}, which no exit had named")
            }
            Violation::OtherPack { at, in_force, pack } => {
                write!(f, "{in_force:?} in force at {at}, and all put in {pack}")
            }
            Violation::NoHonestPack { at, set } => {
                write!(f, "{set:?} at {at}, and no honest one put in a pack of it")
            }
            Violation::NoOutput { at, vote } => {
                write!(f, "vote {vote} decided 1 at {at}, and its broadcast had no output before")
            }
            Violation::Turns { at, taken, reported } => {
                write!(f, "{taken} turns at {at}, {reported} reported")
            }
            Violation::Answer { at, call, answer } => {
                write!(f, "{call} at {at} answered {answer:#x}")
            }
        }
    }
}

/// The claims over the list of calls made so far.
#[derive(Clone, Debug)]
pub struct Claim {
    owed: Owed,
    /// The set named or in force so far.
    agreed: Option<PackSet>,
    /// The sets that exits named after the calls so far.
    named: BTreeSet<PackSet>,
    /// The packs that the honest ones put in that are opened so far.
    inputs: BTreeSet<u64>,
    /// The broadcasts that had output at an honest one after the calls so far.
    outputs: BTreeSet<Number>,
}

impl Claim {
    pub fn new(owed: Owed) -> Claim {
        let (named, inputs, outputs) = (BTreeSet::new(), BTreeSet::new(), BTreeSet::new());
        Claim { owed, agreed: None, named, inputs, outputs }
    }

    /// A set was named or in force.
    pub fn is_agreed(&self) -> bool {
        self.agreed.is_some()
    }

    /// An honest one is opened with this pack.
    pub fn put_in(&mut self, pack: u64) {
        self.inputs.insert(pack);
    }

    /// Checks what shows at `at` after a call.
    pub fn check(&mut self, at: Number, shown: &Shown) -> Result<(), Violation> {
        if self.owed.up_to_ta {
            self.check_one_set(at, shown)?;
            self.check_outputs(at, shown)?;
        }
        if self.owed.up_to_ts {
            self.check_named(at, shown)?;
            self.check_honest_packs(at, shown)?;
        }
        if let (Some(pack), Some(in_force)) = (self.owed.pack, &shown.in_force) {
            if *in_force != PackSet::from([pack]) {
                return Err(Violation::OtherPack { at, in_force: in_force.clone(), pack });
            }
        }
        if let Some(named) = &shown.named {
            if !self.named.contains(named) {
                self.named.insert(named.clone());
            }
        }
        self.outputs.extend(&shown.standing.outputs);
        Ok(())
    }

    fn check_one_set(&mut self, at: Number, shown: &Shown) -> Result<(), Violation> {
        for now in shown.named.iter().chain(&shown.in_force) {
            let earlier = self.agreed.get_or_insert_with(|| now.clone());
            if earlier != now {
                return Err(Violation::TwoSets { at, earlier: earlier.clone(), now: now.clone() });
            }
        }
        Ok(())
    }

    /// What this call brought about is no output before it.
    fn check_outputs(&self, at: Number, shown: &Shown) -> Result<(), Violation> {
        match shown.standing.decided_one.difference(&self.outputs).next() {
            Some(&vote) => Err(Violation::NoOutput { at, vote }),
            None => Ok(()),
        }
    }

    fn check_named(&self, at: Number, shown: &Shown) -> Result<(), Violation> {
        match &shown.in_force {
            Some(in_force) if !self.named.contains(in_force) => {
                Err(Violation::NotNamed { at, in_force: in_force.clone() })
            }
            _ => Ok(()),
        }
    }

    fn check_honest_packs(&self, at: Number, shown: &Shown) -> Result<(), Violation> {
        match shown.named.iter().chain(&shown.in_force).find(|set| set.is_disjoint(&self.inputs)) {
            Some(set) => Err(Violation::NoHonestPack { at, set: set.clone() }),
            None => Ok(()),
        }
    }
}
