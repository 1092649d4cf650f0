//! The engines as they are timed: no guards, no copies.

use pack_reference::c_engine::calls::{
    pack_deliver, pack_open, pack_record, pack_report, pack_restore, pack_turn,
};
use pack_reference::engine::{Coin, Engine};
use pack_reference::Opening;

use crate::{masks, restore};

/// The proved engine's archive.
#[derive(Clone, Copy, Debug, Default)]
pub struct Archive;

// SAFETY, for each call below: pointers and lengths are those of live slices, borrowed for the call.
impl Engine for Archive {
    type State = Vec<u64>;

    fn blank(&self) -> Vec<u64> {
        vec![0; masks::STATE_WORDS]
    }

    fn littered(&self, _seed: u64) -> Vec<u64> {
        self.blank()
    }

    fn open(&self, state: &mut Vec<u64>, opening: &Opening, line: &mut [u8]) -> u64 {
        let Opening { version, n, ta, ts, own, session, input, coins, weights, boxed } = *opening;
        let (words, count) = (state.as_mut_ptr(), state.len());
        let (coins, coin_words) = (coins.as_ptr(), coins.len());
        let (weights, weight_count) = (weights.as_ptr(), weights.len());
        unsafe {
            pack_open(
                words,
                count,
                version,
                n,
                ta,
                ts,
                own,
                session,
                input,
                coins,
                coin_words,
                weights,
                weight_count,
                boxed,
                line.as_mut_ptr(),
                line.len(),
            )
        }
    }

    fn deliver(&self, state: &mut Vec<u64>, link: u64, message: &[u8], line: &mut [u8]) -> u64 {
        let (words, count) = (state.as_mut_ptr(), state.len());
        let (bytes, length) = (message.as_ptr(), message.len());
        unsafe { pack_deliver(words, count, link, bytes, length, line.as_mut_ptr(), line.len()) }
    }

    fn turn(&self, state: &mut Vec<u64>, message: &mut [u8], line: &mut [u8]) -> u64 {
        let (words, count) = (state.as_mut_ptr(), state.len());
        let (bytes, capacity) = (message.as_mut_ptr(), message.len());
        unsafe { pack_turn(words, count, bytes, capacity, line.as_mut_ptr(), line.len()) }
    }

    fn report(&self, state: &Vec<u64>, named: &mut [u64], in_force: &mut [u64]) -> u64 {
        let (named, named_words) = (named.as_mut_ptr(), named.len());
        let (in_force, in_force_words) = (in_force.as_mut_ptr(), in_force.len());
        let (words, count) = (state.as_ptr(), state.len());
        unsafe { pack_report(words, count, named, named_words, in_force, in_force_words) }
    }

    fn restore(&self, state: &mut Vec<u64>, journal: &[u8], message: &mut [u8]) -> u64 {
        let (words, count) = (state.as_mut_ptr(), state.len());
        let (bytes, capacity) = (message.as_mut_ptr(), message.len());
        unsafe { pack_restore(words, count, journal.as_ptr(), journal.len(), bytes, capacity) }
    }

    fn record(&self, state: &mut Vec<u64>, coin: Coin, line: &mut [u8]) -> u64 {
        let (words, count) = (state.as_mut_ptr(), state.len());
        let Coin { vote, round, bit } = coin;
        unsafe { pack_record(words, count, vote, round, bit, line.as_mut_ptr(), line.len()) }
    }
}

/// The masks.
#[derive(Clone, Copy, Debug, Default)]
pub struct PlainMasks;

impl Engine for PlainMasks {
    type State = Vec<u64>;

    fn blank(&self) -> Vec<u64> {
        vec![0; masks::STATE_WORDS]
    }

    fn littered(&self, _seed: u64) -> Vec<u64> {
        self.blank()
    }

    fn open(&self, state: &mut Vec<u64>, opening: &Opening, line: &mut [u8]) -> u64 {
        masks::open(state, opening, line)
    }

    fn deliver(&self, state: &mut Vec<u64>, link: u64, message: &[u8], line: &mut [u8]) -> u64 {
        masks::deliver(state, link, message, line)
    }

    fn turn(&self, state: &mut Vec<u64>, message: &mut [u8], line: &mut [u8]) -> u64 {
        masks::turn(state, message, line)
    }

    fn report(&self, state: &Vec<u64>, named: &mut [u64], in_force: &mut [u64]) -> u64 {
        masks::report(state, named, in_force)
    }

    fn restore(&self, state: &mut Vec<u64>, journal: &[u8], message: &mut [u8]) -> u64 {
        restore(state, journal, message)
    }

    fn record(&self, state: &mut Vec<u64>, coin: Coin, line: &mut [u8]) -> u64 {
        masks::record_coin(state, coin, line)
    }
}
