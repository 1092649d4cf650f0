//! 01, "Settings", with the weights of 02, N11, the unnamed ta of N8 and the version of N6. Every threshold is worked out
//! from the session's own weights, ta and ts.

use crate::fault::Fault;
use crate::refusal::Refusal;

/// A concentrator or an instance: 1 to n.
pub type Number = u8;

/// A round of a vote: 1 to 32; 0 before the start, 33 after the move out of round 32.
pub type Round = u8;

/// A weight, or a sum of weights.
pub type Weight = u32;

/// The version of a session, byte 0 of its messages (02, N6).
#[derive(Clone, Copy, Debug, PartialEq, Eq, PartialOrd, Ord)]
pub enum Version {
    One = 1,
    /// With FINISHes.
    Two = 2,
}

impl Version {
    pub const ALL: [Version; 2] = [Version::One, Version::Two];

    /// A version given from outside.
    pub fn given(number: u64) -> Result<Version, Refusal> {
        let is_given = |version: &Version| version.number() == number;
        Version::ALL.into_iter().find(is_given).ok_or(Refusal::Settings)
    }

    pub fn number(self) -> u64 {
        self as u64
    }

    pub fn byte(self) -> u8 {
        self as u8
    }
}

/// Settings that the rules allow.
#[derive(Clone, Copy, Debug, PartialEq, Eq, PartialOrd, Ord)]
pub struct Settings {
    version: Version,
    n: u8,
    ta: u8,
    ts: u8,
    /// Of concentrator p at place p−1; 0 behind the last.
    weights: [u8; Settings::MOST as usize],
    /// W, the sum of all weights.
    whole: Weight,
}

impl Settings {
    /// The most concentrators a session can have.
    pub const MOST: u64 = 16;
    /// ta given so means unnamed.
    pub const UNNAMED: u64 = 255;
    /// The largest weight.
    pub const HEAVIEST: u8 = 4;
    /// The last round in which a vote sends.
    pub const ROUND_LIMIT: Round = 32;

    /// n, ta, ts and n weights within the rules (PROTOCOL 1.1, 1.5, 1.6); W is the sum of the weights. A ta that is not
    /// named is worked out from the others. The version is 1; a box has no other.
    pub fn new(n: u64, ta: u64, ts: u64, weights: &[u8]) -> Result<Settings, Refusal> {
        let n_fits = (1..=Self::MOST).contains(&n) && weights.len() as u64 == n;
        let weights_fit = weights.iter().all(|weight| (1..=Self::HEAVIEST).contains(weight));
        let whole: Weight = weights.iter().map(|&weight| Weight::from(weight)).sum();
        let ta = if ta == Self::UNNAMED { unnamed_ta(whole, ts)? } else { ta };
        // ts < W keeps the sum small; 2·ts + ta < W asks for it anyway.
        let most_fit = ta <= ts && ts < whole.into() && 2 * ts + ta < whole.into();
        if !(n_fits && weights_fit && most_fit) {
            return Err(Refusal::Settings);
        }
        let mut padded = [0; Self::MOST as usize];
        padded[..weights.len()].copy_from_slice(weights);
        let (version, [n, ta, ts]) = (Version::One, [n, ta, ts].map(|number| number as u8));
        Ok(Settings { version, n, ta, ts, weights: padded, whole })
    }

    pub fn with_version(self, version: Version) -> Settings {
        Settings { version, ..self }
    }

    /// All weights 1.
    pub fn unweighted(n: u64, ta: u64, ts: u64) -> Result<Settings, Refusal> {
        Settings::new(n, ta, ts, Self::ones(n))
    }

    /// All settings with these weights.
    pub fn all_with(weights: &[u8]) -> impl Iterator<Item = Settings> + '_ {
        let n = weights.len() as u64;
        let most = u64::from(Self::HEAVIEST) * n;
        (0..most)
            .flat_map(|ts| (0..=ts).map(move |ta| (ta, ts)))
            .filter_map(move |(ta, ts)| Settings::new(n, ta, ts, weights).ok())
    }

    /// n weights of 1, or as many as there can be.
    pub fn ones(n: u64) -> &'static [u8] {
        &[1; Self::MOST as usize][..n.min(Self::MOST) as usize]
    }

    pub fn version(&self) -> Version {
        self.version
    }

    pub fn n(&self) -> u8 {
        self.n
    }

    pub fn ta(&self) -> u8 {
        self.ta
    }

    pub fn ts(&self) -> u8 {
        self.ts
    }

    /// All concentrators, and all instances: 1 to n.
    pub fn numbers(&self) -> std::ops::RangeInclusive<Number> {
        1..=self.n
    }

    /// A number given from outside, if it is 1 to n.
    pub fn number(&self, given: u64) -> Option<Number> {
        self.numbers().find(|&number| u64::from(number) == given)
    }

    /// A round given from outside, if it is one in which a vote sends.
    pub fn round(given: u64) -> Option<Round> {
        (1..=Self::ROUND_LIMIT).find(|&round| u64::from(round) == given)
    }

    /// The weights of 1 to n.
    pub fn weights(&self) -> &[u8] {
        &self.weights[..usize::from(self.n)]
    }

    /// The sum of the weights of these senders, or instances.
    pub fn weight(&self, numbers: impl IntoIterator<Item = Number>) -> Weight {
        numbers.into_iter().map(|number| Weight::from(self.weights[usize::from(number) - 1])).sum()
    }

    /// The first value whose senders, or instances, weigh `enough`.
    pub fn first_weighing<'a, V: PartialEq>(
        &self,
        held: impl Iterator<Item = (&'a Number, &'a V)> + Clone,
        enough: Weight,
    ) -> Option<&'a V> {
        let weighs_enough = |wanted: &&V| {
            let holders = held.clone().filter(|(_, value)| value == wanted);
            self.weight(holders.map(|(&number, _)| number)) >= enough
        };
        held.clone().map(|(_, value)| value).find(weighs_enough)
    }

    /// Broadcasts and commits: W−ts.
    pub fn quorum(&self) -> Weight {
        self.whole.saturating_sub(self.ts.into())
    }

    /// Broadcasts and commits: ts+1.
    pub fn relay(&self) -> Weight {
        Weight::from(self.ts) + 1
    }

    /// Votes: AUXs of W−ta to move, votes decided 1 of W−ta to start with 0 and to exit.
    pub fn vote_quorum(&self) -> Weight {
        self.whole.saturating_sub(self.ta.into())
    }

    /// Votes: ESTs, or FINISHes, of ta+1 to relay.
    pub fn vote_relay(&self) -> Weight {
        Weight::from(self.ta) + 1
    }

    /// Votes: ESTs of 2·ta+1 to accept, FINISHes of 2·ta+1 to decide.
    pub fn vote_accept(&self) -> Weight {
        2 * Weight::from(self.ta) + 1
    }

    /// The most turns of a session (PROTOCOL 8.20); a FINISH in each vote of version 2 is one more (02, N6).
    pub fn turn_limit(&self) -> u64 {
        let in_an_instance = match self.version {
            Version::One => 99,
            Version::Two => 100,
        };
        in_an_instance * u64::from(self.n) + 3
    }

    /// The settings that an engine with the fault goes by. [`Fault::Heads`] can have a ts above n.
    pub(crate) fn with_fault(self, fault: Fault) -> Settings {
        match fault {
            Fault::TaForTs => Settings { ts: self.ta, ..self },
            Fault::Heads => self.with_heads(),
            _ => self,
        }
    }

    /// What the majority of Exit 2 goes by.
    pub(crate) fn in_majority(&self, fault: Fault) -> Settings {
        if fault == Fault::HeadMajority {
            self.with_heads()
        } else {
            *self
        }
    }

    fn with_heads(self) -> Settings {
        Settings { weights: [1; Self::MOST as usize], whole: self.n.into(), ..self }
    }
}

/// N8: the largest ta that the rules allow, none where 2·ts ≥ W (PROTOCOL 1.7).
fn unnamed_ta(whole: Weight, ts: u64) -> Result<u64, Refusal> {
    match ts.checked_mul(2) {
        Some(twice) if twice < whole.into() => Ok(ts.min(u64::from(whole) - 1 - twice)),
        _ => Err(Refusal::Settings),
    }
}
