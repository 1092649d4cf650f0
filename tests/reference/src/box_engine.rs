//! A coin box as the comparison and the attack see it: calls on an opaque box that answer the packed numbers of the C
//! functions.

use crate::coin_box::{BoxOpening, CoinBox};
use crate::engine::{Lockstep, Reference};
use crate::packing::{pack_box_opening, pack_request};
use crate::refusal::Refusal;

/// Opening and request on a box that only these calls write.
pub trait BoxEngine {
    type CoinBox;

    /// A box before any opening, on which every request answers 16.
    fn blank_box(&self) -> Self::CoinBox;
    fn open_box(&self, coin_box: &mut Self::CoinBox, opening: &BoxOpening) -> u64;
    fn request(&self, coin_box: &mut Self::CoinBox, requester: u64, vote: u64, round: u64) -> u64;
}

impl BoxEngine for Reference {
    type CoinBox = Option<CoinBox>;

    fn blank_box(&self) -> Self::CoinBox {
        None
    }

    fn open_box(&self, coin_box: &mut Self::CoinBox, opening: &BoxOpening) -> u64 {
        pack_box_opening(&CoinBox::open(opening).map(|opened| *coin_box = Some(opened)))
    }

    fn request(&self, coin_box: &mut Self::CoinBox, requester: u64, vote: u64, round: u64) -> u64 {
        let opened = coin_box.as_mut().ok_or(Refusal::Coin);
        pack_request(&opened.and_then(|opened| opened.request(requester, vote, round)))
    }
}

impl<A: BoxEngine, B: BoxEngine> BoxEngine for Lockstep<A, B> {
    type CoinBox = (A::CoinBox, B::CoinBox);

    fn blank_box(&self) -> Self::CoinBox {
        (self.first.blank_box(), self.second.blank_box())
    }

    fn open_box(&self, coin_box: &mut Self::CoinBox, opening: &BoxOpening) -> u64 {
        let first = self.first.open_box(&mut coin_box.0, opening);
        let second = self.second.open_box(&mut coin_box.1, opening);
        assert_eq!(first, second, "the answers of boxes to {opening:?} differ");
        first
    }

    fn request(&self, coin_box: &mut Self::CoinBox, requester: u64, vote: u64, round: u64) -> u64 {
        let first = self.first.request(&mut coin_box.0, requester, vote, round);
        let second = self.second.request(&mut coin_box.1, requester, vote, round);
        assert_eq!(first, second, "requests of {requester} for {vote} in {round} differ");
        first
    }
}
