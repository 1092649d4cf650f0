//! 02, N12, "A coin box": it keeps the coins of a session to itself until concentrators of ta+1 weight have asked for one.

use std::collections::{BTreeMap, BTreeSet};

use crate::coins::coin_of;
use crate::refusal::Refusal;
use crate::settings::{Number, Round, Settings};

/// What the opening of a box takes, as wide as the caller's numbers are.
#[derive(Clone, Copy, Debug)]
pub struct BoxOpening<'a> {
    pub n: u64,
    pub ta: u64,
    pub ts: u64,
    pub coins: &'a [u32],
    pub weights: &'a [u8],
}

/// What a box tells of a coin.
#[derive(Clone, Copy, Debug, PartialEq, Eq)]
pub enum Reply {
    Sealed,
    Bit(bool),
}

#[derive(Clone, Debug, PartialEq, Eq)]
pub struct CoinBox {
    settings: Settings,
    coins: Vec<u32>,
    /// Who asked for each coin.
    requesters: BTreeMap<(Number, Round), BTreeSet<Number>>,
}

impl CoinBox {
    /// Refused as 1 by the rules of a printed session (PROTOCOL 9.28).
    pub fn open(opening: &BoxOpening) -> Result<CoinBox, Refusal> {
        let settings = Settings::new(opening.n, opening.ta, opening.ts, opening.weights)?;
        if opening.coins.len() != usize::from(settings.n()) {
            return Err(Refusal::Settings);
        }
        Ok(CoinBox { settings, coins: opening.coins.to_vec(), requesters: BTreeMap::new() })
    }

    /// Sealed until the requesters weigh ta+1, each counted once, then the bit, also for the request that completes the
    /// weight (PROTOCOL 12.5, 12.6).
    pub fn request(&mut self, requester: u64, vote: u64, round: u64) -> Result<Reply, Refusal> {
        let requester = self.settings.number(requester).ok_or(Refusal::Coin)?;
        let vote = self.settings.number(vote).ok_or(Refusal::Coin)?;
        let round = Settings::round(round).ok_or(Refusal::Coin)?;
        let asked = self.requesters.entry((vote, round)).or_default();
        asked.insert(requester);
        if self.settings.weight(asked.iter().copied()) <= self.settings.ta().into() {
            return Ok(Reply::Sealed);
        }
        Ok(Reply::Bit(coin_of(&self.coins, vote, round)))
    }
}
