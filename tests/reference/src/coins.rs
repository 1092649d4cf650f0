//! The coins of a session: printed into it (01, "Settings"), or recorded from a box, bit by bit (02, N12).

use std::collections::BTreeMap;

use crate::refusal::Refusal;
use crate::session::Session;
use crate::settings::{Number, Round, Settings};

#[derive(Clone, Debug, PartialEq, Eq)]
pub(crate) enum Coins {
    /// The words that the opening gave.
    Printed(Vec<u32>),
    /// The bits recorded so far.
    Boxed(BTreeMap<(Number, Round), bool>),
}

impl Coins {
    /// n words; `boxed` is 0 for printed and 1 for boxed, with which all words are 0 (PROTOCOL 1.10).
    pub fn given(settings: &Settings, words: &[u32], boxed: u64) -> Result<Coins, Refusal> {
        if words.len() != usize::from(settings.n()) {
            return Err(Refusal::Settings);
        }
        match boxed {
            0 => Ok(Coins::Printed(words.to_vec())),
            1 if words.iter().all(|&word| word == 0) => Ok(Coins::Boxed(BTreeMap::new())),
            _ => Err(Refusal::Settings),
        }
    }

    /// The coin of a vote in a round; `None` where it is still to be recorded.
    pub fn coin(&self, vote: Number, round: Round) -> Option<bool> {
        match self {
            Coins::Printed(words) => Some(coin_of(words, vote, round)),
            Coins::Boxed(bits) => bits.get(&(vote, round)).copied(),
        }
    }
}

/// The coin of vote i in round r: bit r − 1 of word i (PROTOCOL 1.9).
pub(crate) fn coin_of(words: &[u32], vote: Number, round: Round) -> bool {
    words[usize::from(vote) - 1] >> (round - 1) & 1 == 1
}

impl Session {
    /// Records the bit of a vote and round, reached or not, that a box told. A repeat is accepted. PROTOCOL 9.22
    /// says what is refused as 16.
    pub fn record(&mut self, vote: u64, round: u64, bit: u64) -> Result<(), Refusal> {
        if self.closed {
            return Err(Refusal::Closed);
        }
        let vote = self.settings.number(vote).ok_or(Refusal::Coin)?;
        let round = Settings::round(round).ok_or(Refusal::Coin)?;
        let Coins::Boxed(bits) = &mut self.coins else { return Err(Refusal::Coin) };
        let stands = bits.get(&(vote, round)).copied();
        match (bit, stands) {
            (0, None | Some(false)) => bits.insert((vote, round), false),
            (1, None | Some(true)) => bits.insert((vote, round), true),
            _ => return Err(Refusal::Coin),
        };
        Ok(())
    }
}
