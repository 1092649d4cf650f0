//! 02, N8: openings that give ta as 255.

use super::calls::good_weights;
use super::Answers;
use crate::attack::random::Random;
use crate::engine::Engine;
use crate::journal::LINE_BYTES;
use crate::session::Opening;
use crate::settings::Settings;

/// Opens with ta unnamed for every n and every ts, up to two above the sum of the weights and some that would wrap. The
/// weights are all 1, all 4, and `lists` random lists for each n. It panics unless 255 opens just where some ta that is
/// named does, and leaves the state that the largest of these leaves.
pub fn unnamed_openings<E: Engine>(engine: &E, seed: u64, lists: u64) -> Answers
where
    E::State: PartialEq,
{
    let mut random = Random::new(seed);
    let mut answers = Answers::default();
    for n in 1..=Settings::MOST {
        let alike = [1, Settings::HEAVIEST].map(|weight| vec![weight; n as usize]);
        let random_lists = (0..lists).map(|_| good_weights(&mut random, n));
        for weights in random_lists.chain(alike) {
            let whole: u64 = weights.iter().map(|&weight| u64::from(weight)).sum();
            for ts in (0..=whole + 2).chain([255, 1 << 63, (1 << 63) + 1, u64::MAX]) {
                check(engine, ts, &weights, whole, &mut answers);
            }
        }
    }
    answers
}

fn check<E: Engine>(engine: &E, ts: u64, weights: &[u8], whole: u64, answers: &mut Answers)
where
    E::State: PartialEq,
{
    let mut open = |ta| {
        let n = weights.len() as u64;
        let coins = &vec![7; weights.len()][..];
        let (version, own, session, input, boxed) = (1 + n % 2, n, 7, 5, 0);
        let opening = Opening { version, n, ta, ts, own, session, input, coins, weights, boxed };
        let mut state = engine.blank();
        let answer = engine.open(&mut state, &opening, &mut [0; LINE_BYTES]);
        answers.note(answer);
        (answer & 0xff == 0).then_some(state)
    };
    let largest = (0..=whole).filter_map(&mut open).last();
    assert!(open(Settings::UNNAMED) == largest, "ta unnamed, ts {ts}, weights {weights:?}");
}
