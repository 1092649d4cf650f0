//! A lent buffer as a state: refusal 9, and readers of its words.

use super::layout::*;

pub type Words = [u64; STATE_WORDS];

/// A group of 16 marks, four times.
const FOURFOLD: u64 = 0x0001_0001_0001_0001;

/// What every call reads of a state first.
#[derive(Clone, Copy)]
pub struct Session {
    pub n: u64,
    pub ta: u64,
    pub ts: u64,
    /// Marks 1 to n.
    pub all: u64,
    pub weights: Weights,
    /// The sum of all weights.
    whole: u64,
}

/// Four groups of 16 marks: each of 1 to n has as many of its four as it weighs.
#[derive(Clone, Copy)]
pub struct Weights(u64);

impl Weights {
    /// Those of 1 to n in a word, and their sum; `None` if one is 0.
    #[inline]
    fn of(word: u64, n: u64, all: u64) -> Option<(Weights, u64)> {
        let weights = Weights(word & all * FOURFOLD);
        // Mostly all weigh 1.
        if weights.0 == all {
            return Some((weights, n));
        }
        let some = word | word >> 16 | word >> 32 | word >> 48;
        (some & all == all).then(|| (weights, u64::from(weights.weigh(all))))
    }

    /// The weight of the marked numbers.
    #[inline]
    pub fn weigh(self, marks: u64) -> u32 {
        (marks * FOURFOLD & self.0).count_ones()
    }
}

impl Session {
    /// Settings within the rules; ta is as stored, so 255 is refused, and the weights are a word's.
    #[inline]
    pub fn new(n: u64, ta: u64, ts: u64, weights: u64) -> Option<Session> {
        if !(1..=16).contains(&n) {
            return None;
        }
        let all = (1 << n) - 1;
        let (weights, whole) = Weights::of(weights, n, all)?;
        let good = ta <= ts && ts < whole && 2 * ts + ta < whole;
        good.then_some(Session { n, ta, ts, all, weights, whole })
    }

    /// The session that the words hold; `None` is refusal 9.
    #[inline]
    pub fn of(words: &Words) -> Option<Session> {
        let session = Session::new(words[N], words[TA], words[TS], words[WEIGHTS])?;
        let n = session.n;
        let version = words[VERSION];
        // 99·n + 3 turns in version 1, 100·n + 3 in version 2.
        let most = version.wrapping_add(98).wrapping_mul(n).wrapping_add(3);
        let mut outside = !(1..=n).contains(&words[OWN]) | (most < words[TURNS]);
        outside |= (1 < words[BOXED]) | !version_known(version);
        for i in 0..n as usize & 31 {
            outside |= 33 < words[ROUNDS + 1 + i];
            outside |= n < words[COMMIT_COUNTS + 1 + i];
        }
        (!outside).then_some(session)
    }

    /// W − ts.
    pub fn quorum(&self) -> u32 {
        (self.whole - self.ts) as u32
    }

    /// ts + 1.
    pub fn copy(&self) -> u32 {
        self.ts as u32 + 1
    }

    /// W − ta.
    pub fn vote_quorum(&self) -> u32 {
        (self.whole - self.ta) as u32
    }

    /// 2·ta + 1.
    pub fn accept(&self) -> u32 {
        2 * self.ta as u32 + 1
    }
}

/// 1 or 2.
#[inline]
pub fn version_known(version: u64) -> bool {
    version.wrapping_sub(1) <= 1
}

/// The row of 16 words of number i.
#[inline]
pub fn row(words: &Words, base: usize, i: usize) -> &[u64; 16] {
    let start = base + 1 + 16 * (i & 31);
    words[start..start + 16].try_into().expect("16 words")
}

/// The marks of the numbers in `among` whose word in the row is v.
#[inline]
pub fn equal(row: &[u64; 16], among: u64, v: u64) -> u64 {
    let mut marks = 0;
    for (place, &value) in row.iter().enumerate() {
        marks |= u64::from(value == v) << place;
    }
    marks & among
}

/// The value that marked numbers of weight q hold; of several, the lowest number's.
#[inline]
pub fn leading(row: &[u64; 16], marked: u64, weights: Weights, q: u32) -> Option<u64> {
    let mut left = marked;
    // q is at least 1; the first test is the cheaper one.
    while left != 0 && q <= weights.weigh(left) {
        let v = row[left.trailing_zeros() as usize & 15];
        let holders = equal(row, left, v);
        if q <= weights.weigh(holders) {
            return Some(v);
        }
        left &= !holders;
    }
    None
}
