//! The C functions of another engine on a coin box, as a [`BoxEngine`].

use crate::box_engine::BoxEngine;
use crate::c_engine::{checked, show, words, CEngine, Words};
use crate::coin_box::BoxOpening;

/// The words of a box, exactly.
pub const BOX_WORDS: usize = 552;

/// The functions of `include/pack_agreement.h` on a box. An answer travels as its number.
pub mod calls {
    extern "C" {
        pub fn pack_box_open(
            coin_box: *mut u64,
            words: usize,
            n: u64,
            ta: u64,
            ts: u64,
            coins: *const u32,
            coin_words: usize,
            weights: *const u8,
            weight_count: usize,
        ) -> u64;
        pub fn pack_box_request(
            coin_box: *mut u64,
            words: usize,
            requester: u64,
            vote: u64,
            round: u64,
        ) -> u64;
    }
}

// SAFETY, for each call below: pointers and lengths are those of live slices, borrowed for the call.
impl BoxEngine for CEngine {
    type CoinBox = Words;

    fn blank_box(&self) -> Words {
        words(&[0; BOX_WORDS])
    }

    fn open_box(&self, coin_box: &mut Words, opening: &BoxOpening) -> u64 {
        let BoxOpening { n, ta, ts, coins, weights } = *opening;
        checked(coin_box, |words, count| {
            show(coins, 0x5a5a_5a5a, |coins, coin_words| {
                // Guards that would pass for weights.
                show(weights, 3, |weights, weight_count| unsafe {
                    calls::pack_box_open(
                        words,
                        count,
                        n,
                        ta,
                        ts,
                        coins,
                        coin_words,
                        weights,
                        weight_count,
                    )
                })
            })
        })
    }

    fn request(&self, coin_box: &mut Words, requester: u64, vote: u64, round: u64) -> u64 {
        checked(coin_box, |words, count| unsafe {
            calls::pack_box_request(words, count, requester, vote, round)
        })
    }
}

/// Panics unless both calls refuse boxes of other lengths, the opening by 9, and leave them, whatever else is wrong; each
/// holds the front of an open one.
pub fn check_box_word_counts(opening: &BoxOpening) {
    let mut opened = CEngine.blank_box();
    assert_eq!(CEngine.open_box(&mut opened, opening), 0, "good settings");
    for count in [0, 1, 40, BOX_WORDS - 1, BOX_WORDS + 1, 2_048] {
        let own: Vec<u64> = opened.iter().copied().chain([0; 2_048]).take(count).collect();
        let coin_box = &mut words(&own);
        for n in [opening.n, 0] {
            let answer = CEngine.open_box(coin_box, &BoxOpening { n, ..*opening });
            assert_eq!(answer, 9, "opening a box of {count} words");
        }
        assert_eq!(CEngine.request(coin_box, 1, 1, 1), 16, "a request to {count} words");
    }
}
