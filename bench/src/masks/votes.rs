//! 01, rule 6 of the turn order, with the value accepted first in AUX (02, N2), and FINISHes (N6).

use super::layout::*;
use super::refusal;
use super::state::{Session, Words};
use super::wire::{self, AUX, EST, FINISH};

/// A turn that moved out of round 32.
const MOVED_OUT: u64 = 2 << 8;

/// The four groups of marks of a round: EST 0, EST 1, AUX 0, AUX 1.
#[inline]
fn groups(words: &Words, session: &Session, i: usize, r: usize) -> [u64; 4] {
    let marks = words[(VOTES + 32 * i + r) & (STATE_WORDS - 1)];
    [0, 16, 32, 48].map(|shift| marks >> shift & session.all)
}

/// The first thing due in the votes; 0 is idle. `held` has the marks of the broadcasts with output.
#[inline]
pub fn act(words: &mut Words, session: &Session, held: u64, lent: &mut [u8]) -> u64 {
    let ones = session.weights.weigh(words[DECIDED_ONE] & session.all);
    let zero_starts = session.vote_quorum() <= ones;
    let (unsent, done) = if words[VERSION] == 2 { winding_up(words) } else { (0, 0) };
    let mut left = session.all & !done;
    while left != 0 {
        let i = left.trailing_zeros() as usize + 1;
        let mark = left & left.wrapping_neg();
        if unsent & mark != 0 {
            if let Some(value) = finish_due(words, session, i) {
                words[FINISH_SENT] |= mark;
                return send_vote(words, FINISH, i, 0, value, lent);
            }
        }
        let answer = act_in_vote(words, session, i, held, zero_starts, lent);
        if answer != 0 {
            return answer;
        }
        left ^= mark;
    }
    0
}

/// In version 2: the votes whose FINISH is not sent, and those that do nothing more.
#[inline]
fn winding_up(words: &Words) -> (u64, u64) {
    let sent = words[FINISH_SENT];
    (!sent, sent & (words[DECIDED_ZERO] | words[DECIDED_ONE]))
}

/// Start, relay, AUX or move.
#[inline]
fn act_in_vote(
    words: &mut Words,
    session: &Session,
    i: usize,
    held: u64,
    zero_starts: bool,
    lent: &mut [u8],
) -> u64 {
    let output = held >> (i - 1) & 1;
    match words[ROUNDS + i] {
        0 if output == 1 || zero_starts => enter(words, i, 1, output, lent),
        0 => 0,
        round => act_in_round(words, session, i, round as usize, lent),
    }
}

#[inline]
fn act_in_round(words: &mut Words, session: &Session, i: usize, r: usize, lent: &mut [u8]) -> u64 {
    if let Some((round, value)) = relay(words, session, i, r.min(32)) {
        words[EST_SENT + i] |= 1 << (32 * value + round - 1);
        return send_vote(words, EST, i, round, value as u64, lent);
    }
    if 32 < r {
        return 0;
    }
    let [est_0, est_1, aux_0, aux_1] = groups(words, session, i, r);
    let accept = session.accept();
    let weights = session.weights;
    let accepted = [est_0, est_1].map(|marks| marks != 0 && accept <= weights.weigh(marks));
    if words[AUX_SENT + i] >> (r - 1) & 1 == 0 {
        if accepted == [false, false] {
            return 0;
        }
        words[AUX_SENT + i] |= 1 << (r - 1);
        let one_first = words[ONE_FIRST + i] >> (r - 1) & 1 == 1;
        let one = accepted[1] && (one_first || !accepted[0]);
        return send_vote(words, AUX, i, r, u64::from(one), lent);
    }
    let zero = if accepted[0] { aux_0 } else { 0 };
    let one = if accepted[1] { aux_1 } else { 0 };
    if weights.weigh(zero | one) < session.vote_quorum() || !coin_known(words, i, r) {
        return 0;
    }
    leave(words, i, r, [zero != 0, one != 0], lent)
}

/// Marks that 1 was accepted before 0 in round r, where an EST of 1 left 1 accepted and 0 not.
#[inline]
pub fn note_one(words: &mut Words, session: &Session, i: usize, r: usize) {
    let [est_0, est_1, ..] = groups(words, session, i, r);
    let (accept, weights) = (session.accept(), session.weights);
    if accept <= weights.weigh(est_1) && weights.weigh(est_0) < accept {
        words[ONE_FIRST + i] |= 1 << (r - 1);
    }
}

/// The lowest round, 0 before 1, with a value that was not sent and that senders of ta + 1 hold.
#[inline]
fn relay(words: &Words, session: &Session, i: usize, last: usize) -> Option<(usize, usize)> {
    let sent = words[EST_SENT + i];
    let rounds = (1u64 << last) - 1;
    let mut left = !(sent & sent >> 32) & rounds;
    while left != 0 {
        let r = left.trailing_zeros() as usize + 1;
        let [est_0, est_1, ..] = groups(words, session, i, r);
        for (value, marks) in [est_0, est_1].into_iter().enumerate() {
            let unsent = sent >> (32 * value + r - 1) & 1 == 0;
            if unsent && marks != 0 && session.ta < u64::from(session.weights.weigh(marks)) {
                return Some((r, value));
            }
        }
        left &= left - 1;
    }
    None
}

/// Printed, or recorded.
#[inline]
fn coin_known(words: &Words, i: usize, r: usize) -> bool {
    let coins = words[COINS + i];
    words[BOXED] == 0 || (coins | coins >> 32) >> (r - 1) & 1 == 1
}

/// Moves out of round r; the accepted AUXs carry 0, 1 or both.
fn leave(words: &mut Words, i: usize, r: usize, carried: [bool; 2], lent: &mut [u8]) -> u64 {
    let coin = words[COINS + i] >> (r - 1) & 1;
    let both = carried[0] && carried[1];
    let estimate = if both { coin } else { u64::from(!carried[0]) };
    let mark = 1 << (i - 1);
    let decided = (words[DECIDED_ZERO] | words[DECIDED_ONE]) & mark != 0;
    if !both && estimate == coin && !decided {
        words[if estimate == 0 { DECIDED_ZERO } else { DECIDED_ONE }] |= mark;
    }
    enter(words, i, r + 1, estimate, lent)
}

/// Enters a round with its EST; round 33 has none.
fn enter(words: &mut Words, i: usize, r: usize, estimate: u64, lent: &mut [u8]) -> u64 {
    words[ROUNDS + i] = r as u64;
    if 32 < r {
        return MOVED_OUT;
    }
    words[EST_SENT + i] |= 1 << (32 * estimate + r as u64 - 1);
    send_vote(words, EST, i, r, estimate, lent)
}

fn send_vote(words: &Words, kind: u8, i: usize, r: usize, value: u64, lent: &mut [u8]) -> u64 {
    wire::send(words, [kind, i as u8, r as u8], &[value], lent)
}

/// The decided value, else one with FINISHes of ta + 1, 0 before 1.
#[inline]
fn finish_due(words: &Words, session: &Session, i: usize) -> Option<u64> {
    let decided = [DECIDED_ONE, DECIDED_ZERO].map(|at| words[at] >> (i - 1) & 1 == 1);
    match decided {
        [true, _] => Some(1),
        [_, true] => Some(0),
        // Mostly none is held.
        _ if words[FINISHES + i] == 0 => None,
        _ => (0..2).find(|&value| session.ta < u64::from(finishes(words, session, i, value))),
    }
}

/// The weight of the FINISHes of a value that are held in vote i.
#[inline]
fn finishes(words: &Words, session: &Session, i: usize, value: u64) -> u32 {
    session.weights.weigh(words[FINISHES + i] >> (16 * value) & session.all)
}

/// Records the FINISH of sender p in vote i, which decides an undecided vote where it completes 2·ta + 1. It reads the
/// settings anew, so that no other delivery has to keep them.
#[inline(never)]
pub fn record_finish(words: &mut Words, p: usize, i: usize, value: u64, short: bool) -> u64 {
    let held = &mut words[FINISHES + i];
    if (*held | *held >> 16) >> (p - 1) & 1 == 1 {
        return refusal::HELD;
    }
    if short {
        return refusal::SHORT;
    }
    *held |= 1 << (16 * value + p as u64 - 1);
    let mark = 1 << (i - 1);
    let decided = (words[DECIDED_ZERO] | words[DECIDED_ONE]) & mark != 0;
    let settings = Session::new(words[N], words[TA], words[TS], words[WEIGHTS]);
    let completes = |session: Session| session.accept() <= finishes(words, &session, i, value);
    if !decided && settings.is_some_and(completes) {
        words[if value == 0 { DECIDED_ZERO } else { DECIDED_ONE }] |= mark;
    }
    0
}
