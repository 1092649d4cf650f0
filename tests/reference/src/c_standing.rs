//! Outputs and decisions in the words of the C functions' states (PROTOCOL 17).

use crate::c_engine::{CEngine, Words};
use crate::settings::Number;
use crate::standing_engine::{Standing, StandingEngine};

const N: usize = 0;
const TS: usize = 2;
/// Of instance 0, which there is not.
const READY_MARKS: usize = 103;
const DECIDED_ONE: usize = 139;
const WEIGHTS: usize = 141;
/// Of instance 0 and sender 0, which there are not.
const READY_VALUES: usize = 495;
/// Marks of 16 numbers share a word with others.
const GROUP: usize = 16;

fn marked(word: u64, mark: usize) -> bool {
    word >> (mark - 1) & 1 == 1
}

fn numbers(state: &[u64]) -> std::ops::RangeInclusive<usize> {
    1..=state[N] as usize
}

fn weight(state: &[u64], number: usize) -> u64 {
    (0..4).filter(|group| marked(state[WEIGHTS], GROUP * group + number)).count() as u64
}

/// The value in a READY that is held.
fn ready(state: &[u64], instance: usize, sender: usize) -> Option<u64> {
    let held = marked(state[READY_MARKS + instance], sender);
    held.then(|| state[READY_VALUES + GROUP * instance + sender])
}

/// READYs of W−ts hold one value (PROTOCOL 4.3).
fn has_output(state: &[u64], instance: usize) -> bool {
    let whole: u64 = numbers(state).map(|number| weight(state, number)).sum();
    let holders = |value: u64| -> u64 {
        let holds = |&sender: &usize| ready(state, instance, sender) == Some(value);
        numbers(state).filter(holds).map(|sender| weight(state, sender)).sum()
    };
    let mut values = numbers(state).filter_map(|sender| ready(state, instance, sender));
    values.any(|value| holders(value) + state[TS] >= whole)
}

impl StandingEngine for CEngine {
    fn standing(&self, state: &Words) -> Standing {
        let decided_one = |&vote: &usize| marked(state[DECIDED_ONE], vote);
        let output = |&instance: &usize| has_output(state, instance);
        Standing {
            outputs: numbers(state).filter(output).map(|number| number as Number).collect(),
            decided_one: numbers(state).filter(decided_one).map(|vote| vote as Number).collect(),
        }
    }
}
