//! The rules of 01 over the engine's own words, written for speed: masks, population counts, no allocation. It has the
//! answers and lines of the C functions and is not proved; `compare-words` compares it with the engine. The calls are never
//! inlined, as those of a library are not.

pub mod coin_box;
mod exits;
mod layout;
mod lines;
mod state;
mod votes;
mod wire;

use pack_reference::engine::Coin;
use pack_reference::Opening;

use exits::{commits_held, set_leader, set_of, Named, Outputs};
use layout::*;
use state::{leading, row, version_known, Session, Words};

pub use layout::STATE_WORDS;
use lines::LINE_BYTES;

pub mod refusal {
    pub const SETTINGS: u64 = 1;
    pub const LENGTH: u64 = 2;
    pub const KIND: u64 = 3;
    pub const SESSION: u64 = 4;
    pub const SENDER: u64 = 5;
    pub const FIELD: u64 = 6;
    pub const VALUE: u64 = 7;
    pub const SHORT: u64 = 8;
    pub const NO_STATE: u64 = 9;
    pub const CLOSED: u64 = 10;
    pub const HELD: u64 = 11;
    pub const JOURNAL: u64 = 15;
    pub const COIN: u64 = 16;
}

const IN_FORCE: u64 = 3 << 8;
/// ta as it is given where none is named.
const UNNAMED: u64 = 255;
const SET_WORDS: usize = 16;

#[inline(never)]
pub fn open(state: &mut [u64], opening: &Opening, line: &mut [u8]) -> u64 {
    let Ok(words) = <&mut Words>::try_from(state) else {
        return refusal::NO_STATE;
    };
    let Opening { version, n, ta, ts, own, session, input, coins, weights, boxed } = *opening;
    let Some(weights) = weights_word(n, weights) else {
        return refusal::SETTINGS;
    };
    let ta = if ta == UNNAMED { largest_ta(weights, ts) } else { ta };
    let valid = Session::new(n, ta, ts, weights).is_some() && (1..=n).contains(&own);
    let coins_fit = boxed == 0 || boxed == 1 && coins.iter().all(|&coin| coin == 0);
    if !valid || coins.len() as u64 != n || !coins_fit || !version_known(version) {
        return refusal::SETTINGS;
    }
    let Some(line) = line.first_chunk_mut::<LINE_BYTES>() else {
        return refusal::SHORT;
    };
    words.fill(0);
    words[..6].copy_from_slice(&[n, ta, ts, own, u64::from(session), input]);
    words[WEIGHTS] = weights;
    words[BOXED] = boxed;
    words[VERSION] = version;
    for (word, &coin) in words[COINS + 1..].iter_mut().zip(coins) {
        *word = u64::from(coin);
    }
    lines::opening(line, opening) << 16
}

/// The smaller of ts and W − 1 − 2·ts, and 0 where that is below 0. W is the number of marks.
#[inline]
fn largest_ta(weights: u64, ts: u64) -> u64 {
    let whole = u64::from(weights.count_ones());
    ts.min(whole.saturating_sub(1).saturating_sub(ts.saturating_mul(2)))
}

/// The word of n weights of at most 4; `None` if there is a larger one, or not n, up to 16.
#[inline]
fn weights_word(n: u64, weights: &[u8]) -> Option<u64> {
    const MARKS: [u64; 5] = [0, 1, 0x1_0001, 0x1_0001_0001, 0x1_0001_0001_0001];
    if n != weights.len() as u64 || 16 < n {
        return None;
    }
    let mut word = 0;
    for (place, &weight) in weights.iter().enumerate() {
        word |= MARKS.get(usize::from(weight))? << place;
    }
    Some(word)
}

/// The words and the session of a state that is not closed, or the number of the refusal.
#[inline(always)]
fn unclosed(state: &mut [u64]) -> Result<(&mut Words, Session), u64> {
    let words = <&mut Words>::try_from(state).map_err(|_| refusal::NO_STATE)?;
    let session = Session::of(words).ok_or(refusal::NO_STATE)?;
    if words[FLAGS] & CLOSED != 0 {
        return Err(refusal::CLOSED);
    }
    Ok((words, session))
}

#[inline(never)]
pub fn deliver(state: &mut [u64], link: u64, message: &[u8], line: &mut [u8]) -> u64 {
    let (words, session) = match unclosed(state) {
        Ok(found) => found,
        Err(number) => return number,
    };
    let number = wire::check(words, &session, link, message);
    if number != 0 {
        return number;
    }
    let line = line.first_chunk_mut::<LINE_BYTES>();
    let number = record(words, &session, link as usize & 31, message, line.is_none());
    match line {
        Some(line) if number == 0 => lines::delivery(line, link, message) << 16,
        _ => number,
    }
}

/// Records a message that fits the layout, unless its place is taken or the bytes for its line are `short`.
#[inline(always)]
fn record(words: &mut Words, session: &Session, p: usize, message: &[u8], short: bool) -> u64 {
    let (i, round) = (usize::from(message[3]) & 31, usize::from(message[4]));
    let value = wire::value(message, 0);
    let mark = 1 << (p - 1);
    let vote = VOTES + 32 * i + round;
    let (at, held, mark, stored) = match message[1] {
        wire::SEND => (SEND_MARKS, mark, mark, Some((SEND_VALUES + i, value))),
        wire::ECHO => (ECHO_MARKS + i, mark, mark, Some((ECHO_VALUES + 16 * i + p, value))),
        wire::READY => (READY_MARKS + i, mark, mark, Some((READY_VALUES + 16 * i + p, value))),
        wire::EST => (vote, mark << (16 * value), mark << (16 * value), None),
        wire::AUX => (vote, mark << 32 | mark << 48, mark << (32 + 16 * value), None),
        wire::COMMIT => return record_commit(words, p, message, short),
        _ => return votes::record_finish(words, p, i, value, short),
    };
    // One of the marks `held` is set, or else `mark` and the value's word are.
    if words[at & (STATE_WORDS - 1)] & held != 0 {
        return refusal::HELD;
    }
    if short {
        return refusal::SHORT;
    }
    words[at & (STATE_WORDS - 1)] |= mark;
    if let Some((place, value)) = stored {
        words[place & (STATE_WORDS - 1)] = value;
    }
    if message[1] == wire::EST && value == 1 {
        votes::note_one(words, session, i, round);
    }
    0
}

fn record_commit(words: &mut Words, p: usize, message: &[u8], short: bool) -> u64 {
    if words[COMMIT_COUNTS + p] != 0 {
        return refusal::HELD;
    }
    if short {
        return refusal::SHORT;
    }
    let count = usize::from(message[5]);
    for k in 0..count {
        words[COMMIT_VALUES + 16 * p + 1 + k] = wire::value(message, k);
    }
    words[COMMIT_COUNTS + p] = count as u64;
    0
}

#[inline(never)]
pub fn turn(state: &mut [u64], lent: &mut [u8], line: &mut [u8]) -> u64 {
    let (words, session) = match unclosed(state) {
        Ok(found) => found,
        Err(number) => return number,
    };
    if lent.len() < wire::LONGEST || line.len() < LINE_BYTES {
        return refusal::SHORT;
    }
    let answer = act(words, &session, lent);
    if answer != 0 {
        words[TURNS] += 1;
        line[..2].copy_from_slice(b"T\n");
    }
    answer
}

/// The six rules in their order; 0 is idle. The outputs are worked out only where a rule asks for them.
#[inline]
fn act(words: &mut Words, session: &Session, lent: &mut [u8]) -> u64 {
    let commits = commits_held(words, session);
    if set_leader(words, commits, session.weights, session.quorum()).is_some() {
        words[FLAGS] |= CLOSED;
        return IN_FORCE;
    }
    let mut outputs = None;
    if words[FLAGS] & COMMIT_SENT == 0 {
        let found = outputs.insert(Outputs::of(words, session));
        let answer = send_commit(words, session, found, commits, lent);
        if answer != 0 {
            return answer;
        }
    }
    let answer = act_in_broadcasts(words, session, lent);
    if answer != 0 {
        return answer;
    }
    let outputs = outputs.unwrap_or_else(|| Outputs::of(words, session));
    if outputs.exit_1(session).is_some() {
        return 0;
    }
    votes::act(words, session, outputs.held, lent)
}

/// Rule 2.
#[inline]
fn send_commit(
    words: &mut Words,
    session: &Session,
    outputs: &Outputs,
    commits: u64,
    lent: &mut [u8],
) -> u64 {
    let named = Named::of(words, session, outputs);
    let answer = if named.count != 0 {
        wire::send(words, [wire::COMMIT, 0, 0], &named.values[..named.count], lent)
    } else if let Some(p) = set_leader(words, commits, session.weights, session.copy()) {
        wire::send(words, [wire::COMMIT, 0, 0], set_of(words, p), lent)
    } else {
        return 0;
    };
    words[FLAGS] |= COMMIT_SENT;
    answer
}

/// Rules 3 to 5.
#[inline]
fn act_in_broadcasts(words: &mut Words, session: &Session, lent: &mut [u8]) -> u64 {
    if words[FLAGS] & SEND_SENT == 0 {
        words[FLAGS] |= SEND_SENT;
        return wire::send(words, [wire::SEND, words[OWN] as u8, 0], &[words[INPUT]], lent);
    }
    let echoes = words[SEND_MARKS] & !words[ECHO_SENT] & session.all;
    if echoes != 0 {
        let i = echoes.trailing_zeros() as usize + 1;
        words[ECHO_SENT] |= 1 << (i - 1);
        let value = words[(SEND_VALUES + i) & (STATE_WORDS - 1)];
        return wire::send(words, [wire::ECHO, i as u8, 0], &[value], lent);
    }
    let mut left = session.all & !words[READY_SENT];
    while left != 0 {
        let i = left.trailing_zeros() as usize + 1;
        if let Some(value) = ready_due(words, session, i) {
            words[READY_SENT] |= 1 << (i - 1);
            return wire::send(words, [wire::READY, i as u8, 0], &[value], lent);
        }
        left &= left - 1;
    }
    0
}

/// Rule 5: a value with ECHOs of W − ts, else one with READYs of ts + 1.
#[inline]
fn ready_due(words: &Words, session: &Session, i: usize) -> Option<u64> {
    let i = i & 31;
    let echoes = words[ECHO_MARKS + i] & session.all;
    let readies = words[READY_MARKS + i] & session.all;
    let weights = session.weights;
    leading(row(words, ECHO_VALUES, i), echoes, weights, session.quorum())
        .or_else(|| leading(row(words, READY_VALUES, i), readies, weights, session.copy()))
}

/// Records the bit of a vote and round.
#[inline(never)]
pub fn record_coin(state: &mut [u64], coin: Coin, line: &mut [u8]) -> u64 {
    let (words, session) = match unclosed(state) {
        Ok(found) => found,
        Err(number) => return number,
    };
    let Coin { vote, round, bit } = coin;
    let in_layout = (1..=session.n).contains(&vote) & (1..=32).contains(&round) & (bit <= 1);
    if !in_layout || words[BOXED] == 0 {
        return refusal::COIN;
    }
    let word = &mut words[COINS + vote as usize & 31];
    let marks = [1 << (31 + round), 1 << (round - 1)];
    if *word & marks[1 - bit as usize] != 0 {
        return refusal::COIN;
    }
    let Some(line) = line.first_chunk_mut::<LINE_BYTES>() else {
        return refusal::SHORT;
    };
    *word |= marks[bit as usize];
    lines::recording(line, coin) << 16
}

#[inline(never)]
pub fn report(state: &[u64], named: &mut [u64], in_force: &mut [u64]) -> u64 {
    let Ok(words) = <&Words>::try_from(state) else {
        return refusal::NO_STATE;
    };
    let Some(session) = Session::of(words) else {
        return refusal::NO_STATE;
    };
    if named.len() < SET_WORDS || in_force.len() < SET_WORDS {
        return refusal::SHORT;
    }
    let exit = Named::of(words, &session, &Outputs::of(words, &session));
    named[..exit.count].copy_from_slice(&exit.values[..exit.count]);
    let mut set: &[u64] = &[];
    if words[FLAGS] & CLOSED != 0 {
        let commits = commits_held(words, &session);
        let leader = set_leader(words, commits, session.weights, session.quorum());
        set = leader.map_or(set, |p| set_of(words, p));
    }
    in_force[..set.len()].copy_from_slice(set);
    let counts = (exit.count as u64) << 16 | (set.len() as u64) << 24;
    exit.exit << 8 | counts | words[TURNS] << 32
}
