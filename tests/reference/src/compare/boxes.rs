//! 02, N12: openings of boxes and requests to them.

use super::calls::{damage_weights, good_settings, EDGES};
use super::Answers;
use crate::attack::random::Random;
use crate::box_engine::BoxEngine;
use crate::coin_box::BoxOpening;
use crate::settings::Settings;

/// Requests to a box before it is opened anew.
const REQUESTS: u64 = 200;

/// Opens one box again and again, and makes so many requests to it. They follow from the seed.
pub fn random_boxes<E: BoxEngine>(engine: &E, seed: u64, requests: u64) -> Answers {
    let mut random = Random::new(seed);
    let mut answers = Answers::default();
    let mut coin_box = engine.blank_box();
    let mut n = 1;
    for request in 0..requests {
        // Also before the first opening, and after one that was refused.
        if request % REQUESTS == REQUESTS / 8 {
            let (count, answer) = open(engine, &mut random, &mut coin_box);
            n = count;
            answers.note(answer);
        }
        let [requester, vote, round] = random_request(&mut random, n);
        answers.note(engine.request(&mut coin_box, requester, vote, round));
    }
    answers
}

/// Mostly good settings; at times a number on the edge of what fits, or another number of coin words or weights.
fn open<E: BoxEngine>(engine: &E, random: &mut Random, coin_box: &mut E::CoinBox) -> (u64, u64) {
    let most = random.pick(&[4, 7, Settings::MOST]);
    let ([n, ta, ts], mut weights) = good_settings(random, most);
    let mut numbers = [n, if random.once_in(4) { Settings::UNNAMED } else { ta }, ts];
    if random.once_in(4) {
        numbers[random.below(3) as usize] = random.pick(&EDGES);
    }
    let count = match random.below(12) {
        0 => random.pick(&[0, n - 1, n + 1, 17, 4_096]),
        _ => n,
    };
    let coins: Vec<u32> = (0..count).map(|_| random.word() as u32).collect();
    damage_weights(random, &mut weights);
    let [given, ta, ts] = numbers;
    let opening = BoxOpening { n: given, ta, ts, coins: &coins, weights: &weights };
    (n, engine.open_box(coin_box, &opening))
}

/// Mostly of the layout, and mostly about few coins, so that they are unsealed; at times a number on its edge.
pub fn random_request(random: &mut Random, n: u64) -> [u64; 3] {
    let rounds = random.pick(&[2, 2, 32]);
    let votes = random.pick(&[1, n, n]);
    let mut request = [1 + random.below(n), 1 + random.below(votes), 1 + random.below(rounds)];
    if random.once_in(8) {
        let place = random.below(3) as usize;
        let layout = [n, n, 32][place];
        let edges =
            [0, layout, layout + 1, 32, 33, 64, request[place] + 256, request[place] + (1 << 32)];
        request[place] = match random.below(2) {
            0 => random.pick(&edges),
            _ => random.pick(&EDGES),
        };
    }
    request
}
