//! 02, N12: recordings on the edge, in every kind of state.

use super::calls::EDGES;
use super::Answers;
use crate::engine::{Coin, Engine};
use crate::journal::LINE_BYTES;
use crate::message::{Message, PackSet, LONGEST};
use crate::packing::refusal;
use crate::session::Opening;
use crate::settings::{Number, Version};

const SESSION: u32 = 7;
const VERSION: Version = Version::Two;

/// Records every vote, round and bit on the edge, with bytes for the line just enough or not, in sessions that are not
/// opened, printed, boxed, boxed with bits recorded, and closed. Each is made on a copy of the state.
pub fn edge_recordings<E: Engine>(engine: &E) -> Answers
where
    E::State: Clone,
{
    let mut answers = Answers::default();
    for n in [1, 4, 16] {
        let (printed, boxed) = (opened(engine, n, 0), opened(engine, n, 1));
        let mut recorded = boxed.clone();
        for (vote, round) in [(1, 1), (1, 32), (n, 2), (n, 32)] {
            let coin = Coin { vote, round, bit: round % 2 };
            answers.note(engine.record(&mut recorded, coin, &mut [0; LINE_BYTES]));
        }
        let states = [engine.blank(), closed(engine, n, &printed), closed(engine, n, &recorded)];
        for state in states.iter().chain([&printed, &boxed, &recorded]) {
            record_all(engine, n, state, &mut answers);
        }
    }
    answers
}

fn record_all<E: Engine>(engine: &E, n: u64, state: &E::State, answers: &mut Answers)
where
    E::State: Clone,
{
    let votes = EDGES.into_iter().chain([3, n, n + 1, n + 256]);
    for vote in votes {
        for round in EDGES.into_iter().chain([3, 31, 32, 33, 34, 64, 65]) {
            for bit in [0, 1, 2, 256, 1 << 32, u64::MAX] {
                for lent in [0, LINE_BYTES - 1, LINE_BYTES, LINE_BYTES + 1] {
                    let coin = Coin { vote, round, bit };
                    let answer = engine.record(&mut state.clone(), coin, &mut vec![0xa5; lent]);
                    answers.note(answer);
                }
            }
        }
    }
}

fn opened<E: Engine>(engine: &E, n: u64, boxed: u64) -> E::State {
    let (coins, weights) = (&vec![0; n as usize][..], &vec![1; n as usize][..]);
    let (version, own, ta, ts, session, input) = (VERSION.number(), 1, 0, 0, SESSION, 5);
    let opening = Opening { version, n, ta, ts, own, session, input, coins, weights, boxed };
    let mut state = engine.blank();
    let answer = engine.open(&mut state, &opening, &mut [0; LINE_BYTES]);
    assert!(refusal(answer).is_none(), "good settings");
    state
}

/// A copy that all COMMITs closed.
fn closed<E: Engine>(engine: &E, n: u64, state: &E::State) -> E::State
where
    E::State: Clone,
{
    let (mut state, line) = (state.clone(), &mut [0; LINE_BYTES]);
    for sender in 1..=n {
        let commit = Message::Commit { values: PackSet::from([5]) };
        let bytes = commit.to_bytes(VERSION, sender as Number, SESSION);
        engine.deliver(&mut state, sender, &bytes, line);
    }
    assert_eq!(engine.turn(&mut state, &mut [0; LONGEST], line), 3 << 8, "in force");
    state
}
