//! Boxes with words that no engine wrote: two engines over the words are compared.

use super::boxes::random_request;
use super::calls::good_settings;
use super::foreign::plant_weights;
use super::Answers;
use crate::attack::random::Random;
use crate::box_engine::BoxEngine;
use crate::c_box::BOX_WORDS;
use crate::c_engine::{words, Words};

/// The word of the weights.
const WEIGHTS: usize = 3;
/// Requests to a box before the next one.
const REQUESTS: u64 = 40;

/// Makes so many requests to boxes with planted words, with both engines from equal copies. It panics at the first answer
/// or word in which they differ.
pub fn foreign_boxes<A, B>(first: &A, second: &B, seed: u64, requests: u64) -> Answers
where
    A: BoxEngine<CoinBox = Words>,
    B: BoxEngine<CoinBox = Words>,
{
    let mut random = Random::new(seed);
    let mut answers = Answers::default();
    let mut coin_box = words(&[0; BOX_WORDS]);
    let mut copy = coin_box.clone();
    for request in 0..requests {
        if request % REQUESTS == 0 {
            plant(&mut random, &mut coin_box);
        }
        copy.copy_from_slice(&coin_box);
        let [requester, vote, round] = random_request(&mut random, coin_box[0].clamp(1, 16));
        let answer = first.request(&mut coin_box, requester, vote, round);
        let other = second.request(&mut copy, requester, vote, round);
        assert_eq!(answer, other, "requests of {requester} for {vote} in {round} differ");
        assert!(coin_box == copy, "the words after a request that answered {answer:#x} differ");
        answers.note(answer);
    }
    answers
}

/// Settings mostly valid, coins and marks of all densities, and words that belong to nothing.
fn plant(random: &mut Random, coin_box: &mut Words) {
    let density = random.below(4);
    for word in coin_box.iter_mut() {
        *word = match density {
            0 => 0,
            1 => random.word() & random.word() & random.word() & random.word(),
            2 => random.word(),
            _ => random.pick(&[0, u64::MAX]),
        };
    }
    let most = random.pick(&[4, 7, 16]);
    let ([n, ta, ts], weights) = good_settings(random, most);
    coin_box[..3].copy_from_slice(&[n, ta, ts]);
    coin_box[WEIGHTS] = plant_weights(random, &weights);
    if random.once_in(10) {
        let place = random.below(3) as usize;
        coin_box[place] = random.pick(&[0, 1, 8, 16, 17, 255, 1 << 32, u64::MAX]);
    }
}
