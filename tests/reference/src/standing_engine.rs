//! What 02, N9 speaks of and no call answers: which broadcasts have output, and which votes are decided 1.

use std::collections::BTreeSet;

use crate::engine::{Engine, Lockstep, Reference};
use crate::settings::Number;

#[derive(Clone, Debug, Default, PartialEq, Eq)]
pub struct Standing {
    pub outputs: BTreeSet<Number>,
    pub decided_one: BTreeSet<Number>,
}

/// An engine whose state can be looked into.
pub trait StandingEngine: Engine {
    /// Of a state that holds a session.
    fn standing(&self, state: &Self::State) -> Standing;
}

impl StandingEngine for Reference {
    fn standing(&self, state: &Self::State) -> Standing {
        let session = state.as_ref().expect("a session");
        let one = |(instance, value): (Number, bool)| value.then_some(instance);
        Standing {
            outputs: session.outputs().into_keys().collect(),
            decided_one: session.decisions().into_iter().filter_map(one).collect(),
        }
    }
}

impl<A: StandingEngine, B: StandingEngine> StandingEngine for Lockstep<A, B> {
    fn standing(&self, state: &Self::State) -> Standing {
        let first = self.first.standing(&state.0);
        let second = self.second.standing(&state.1);
        assert_eq!(first, second, "outputs or decisions differ");
        first
    }
}
