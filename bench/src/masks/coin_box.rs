//! 02, N12: the coin box over the engine's own words.

use pack_reference::coin_box::BoxOpening;

use super::state::Session;
use super::{largest_ta, refusal, weights_word, UNNAMED};

pub const BOX_WORDS: usize = 552;
const N: usize = 0;
const TA: usize = 1;
const TS: usize = 2;
const WEIGHTS: usize = 3;
/// Of vote 1 on.
const COINS: usize = 8;
/// One word of requesters' marks for each vote and round; that of vote 1 in round 1 is word 40.
const REQUESTERS: usize = 7;

#[inline(never)]
pub fn open(coin_box: &mut [u64], opening: &BoxOpening) -> u64 {
    let Ok(words) = <&mut [u64; BOX_WORDS]>::try_from(coin_box) else {
        return refusal::NO_STATE;
    };
    let BoxOpening { n, ta, ts, coins, weights } = *opening;
    let Some(weights) = weights_word(n, weights) else {
        return refusal::SETTINGS;
    };
    let ta = if ta == UNNAMED { largest_ta(weights, ts) } else { ta };
    if Session::new(n, ta, ts, weights).is_none() || coins.len() as u64 != n {
        return refusal::SETTINGS;
    }
    words.fill(0);
    [words[N], words[TA], words[TS], words[WEIGHTS]] = [n, ta, ts, weights];
    for (word, &coin) in words[COINS..].iter_mut().zip(coins) {
        *word = u64::from(coin);
    }
    0
}

#[inline(never)]
pub fn request(coin_box: &mut [u64], requester: u64, vote: u64, round: u64) -> u64 {
    let Ok(words) = <&mut [u64; BOX_WORDS]>::try_from(coin_box) else {
        return refusal::COIN;
    };
    let Some(session) = Session::new(words[N], words[TA], words[TS], words[WEIGHTS]) else {
        return refusal::COIN;
    };
    let numbers = 1..=session.n;
    if !numbers.contains(&requester) || !numbers.contains(&vote) || !(1..=32).contains(&round) {
        return refusal::COIN;
    }
    let marks = &mut words[REQUESTERS + 32 * vote as usize + round as usize];
    *marks |= 1 << (requester - 1);
    if u64::from(session.weights.weigh(*marks & session.all)) <= session.ta {
        return 0;
    }
    let bit = words[COINS - 1 + vote as usize] >> (round - 1) & 1;
    1 << 8 | bit << 16
}
