//! The C functions of another engine on a state, as an [`Engine`].

use std::ops::{Deref, DerefMut};

use crate::attack::random::Random;
use crate::engine::{Coin, Engine};
use crate::journal::LINE_BYTES;
use crate::session::Opening;

use calls::{pack_deliver, pack_open, pack_record, pack_report, pack_restore, pack_turn};

/// The words of a state (PROTOCOL 9.1).
pub const STATE_WORDS: usize = 2_048;

/// The functions of `include/pack_agreement.h` on a state. An answer travels as its number.
pub mod calls {
    extern "C" {
        pub fn pack_open(
            state: *mut u64,
            words: usize,
            version: u64,
            n: u64,
            ta: u64,
            ts: u64,
            own: u64,
            session: u32,
            input: u64,
            coins: *const u32,
            coin_words: usize,
            weights: *const u8,
            weight_count: usize,
            boxed: u64,
            line: *mut u8,
            line_bytes: usize,
        ) -> u64;
        pub fn pack_deliver(
            state: *mut u64,
            words: usize,
            link: u64,
            message: *const u8,
            length: usize,
            line: *mut u8,
            line_bytes: usize,
        ) -> u64;
        pub fn pack_turn(
            state: *mut u64,
            words: usize,
            message: *mut u8,
            capacity: usize,
            line: *mut u8,
            line_bytes: usize,
        ) -> u64;
        pub fn pack_report(
            state: *const u64,
            words: usize,
            named: *mut u64,
            named_words: usize,
            in_force: *mut u64,
            in_force_words: usize,
        ) -> u64;
        pub fn pack_restore(
            state: *mut u64,
            words: usize,
            journal: *const u8,
            journal_bytes: usize,
            message: *mut u8,
            capacity: usize,
        ) -> u64;
        pub fn pack_record(
            state: *mut u64,
            words: usize,
            vote: u64,
            round: u64,
            bit: u64,
            line: *mut u8,
            line_bytes: usize,
        ) -> u64;
    }
}

/// Elements with guard elements before and behind them.
#[derive(Clone, Debug, PartialEq, Eq)]
pub struct Lent<T> {
    elements: Vec<T>,
    guard: T,
}

/// Guard elements on each side.
const GUARDS: usize = 16;
const GUARD_WORD: u64 = 0x5a5a_5a5a_5a5a_5a5a;

impl<T: Copy + PartialEq> Lent<T> {
    pub fn new(own: &[T], guard: T) -> Lent<T> {
        let mut elements = Vec::with_capacity(own.len() + 2 * GUARDS);
        elements.extend([guard; GUARDS]);
        elements.extend(own);
        elements.extend([guard; GUARDS]);
        Lent { elements, guard }
    }

    fn end(&self) -> usize {
        self.elements.len() - GUARDS
    }

    fn guarded(&self) -> bool {
        let (front, back) = (&self.elements[..GUARDS], &self.elements[self.end()..]);
        front.iter().chain(back).all(|&element| element == self.guard)
    }
}

impl<T: Copy + PartialEq> Deref for Lent<T> {
    type Target = [T];

    fn deref(&self) -> &[T] {
        &self.elements[GUARDS..self.end()]
    }
}

impl<T: Copy + PartialEq> DerefMut for Lent<T> {
    fn deref_mut(&mut self) -> &mut [T] {
        let end = self.end();
        &mut self.elements[GUARDS..end]
    }
}

/// The words of a state.
pub type Words = Lent<u64>;

/// State words that hold this.
pub fn words(own: &[u64]) -> Words {
    Lent::new(own, GUARD_WORD)
}

/// The linked engine. It panics if a refusal changes the state, or if a call writes beside what it is lent or to what it
/// only reads.
#[derive(Clone, Copy, Debug, Default)]
pub struct CEngine;

/// Panics unless all calls answer 9 to states of other lengths and leave them, whatever else is wrong; each holds the
/// front of an open one.
pub fn check_word_counts(opening: &Opening) {
    let mut opened = CEngine.blank();
    let mut line = [0; LINE_BYTES];
    let answer = CEngine.open(&mut opened, opening, &mut line);
    assert_eq!(answer & 0xff, 0, "good settings");
    let journal = &line[..(answer >> 16) as usize];
    for count in [0, 1, 8, 1_536, STATE_WORDS - 1, STATE_WORDS + 1, 2 * STATE_WORDS] {
        let own: Vec<u64> = opened.iter().copied().chain([0; STATE_WORDS]).take(count).collect();
        let state = &mut words(&own);
        for lent in [0, LINE_BYTES] {
            let line = &mut vec![0; lent];
            assert_eq!(CEngine.open(state, opening, line), 9, "opening with {count} words");
            assert_eq!(CEngine.deliver(state, 1, &[], line), 9, "delivery with {count} words");
            assert_eq!(CEngine.turn(state, &mut [], line), 9, "turn with {count} words");
            assert_eq!(CEngine.restore(state, &[], line), 9, "restore with {count} words");
            assert_eq!(CEngine.restore(state, journal, line), 9, "restore with {count} words");
            let coin = Coin { vote: 1, round: 1, bit: lent as u64 };
            assert_eq!(CEngine.record(state, coin, line), 9, "recording with {count} words");
        }
        assert_eq!(CEngine.report(state, &mut [], &mut []), 9, "report with {count} words");
    }
}

/// Makes a call on the state, and checks that a refusal leaves it as it was and that its guards stand.
pub(crate) fn checked(state: &mut Words, call: impl FnOnce(*mut u64, usize) -> u64) -> u64 {
    let before = state.clone();
    let answer = call(state.as_mut_ptr(), state.len());
    assert!(state.guarded(), "a call wrote beside the state");
    if answer & 0xff != 0 {
        assert!(*state == before, "a call refused with {answer:#x} changed the state");
    }
    answer
}

/// Lends a guarded copy of a buffer that the call may write, and checks that a refusal leaves it as it was.
pub(crate) fn lend<T: Copy + PartialEq>(
    buffer: &mut [T],
    guard: T,
    call: impl FnOnce(*mut T, usize) -> u64,
) -> u64 {
    let mut lent = Lent::new(buffer, guard);
    let answer = call(lent.as_mut_ptr(), lent.len());
    assert!(lent.guarded(), "a call wrote beside a buffer");
    let unchanged = *lent == *buffer;
    assert!(answer & 0xff == 0 || unchanged, "a refusal ({answer:#x}) changed a buffer");
    buffer.copy_from_slice(&lent);
    answer
}

/// Lends a guarded copy of a buffer that the call only reads; an empty one as null.
pub(crate) fn show<T: Copy + PartialEq>(
    buffer: &[T],
    guard: T,
    call: impl FnOnce(*const T, usize) -> u64,
) -> u64 {
    let lent = Lent::new(buffer, guard);
    let start = if lent.is_empty() { std::ptr::null() } else { lent.as_ptr() };
    let answer = call(start, lent.len());
    assert!(lent.guarded() && *lent == *buffer, "a call wrote to what it only reads");
    answer
}

// SAFETY, for each call below: pointers and lengths are those of live slices, borrowed for the call.
impl Engine for CEngine {
    type State = Words;

    fn blank(&self) -> Words {
        words(&[0; STATE_WORDS])
    }

    fn littered(&self, seed: u64) -> Words {
        let mut random = Random::new(seed);
        words(&std::array::from_fn::<u64, STATE_WORDS, _>(|_| random.word()))
    }

    fn open(&self, state: &mut Words, opening: &Opening, line: &mut [u8]) -> u64 {
        let Opening { version, n, ta, ts, own, session, input, coins, weights, boxed } = *opening;
        let call = |state, words, coins, coin_words, weights, weight_count, line, line_bytes| unsafe {
            pack_open(
                state,
                words,
                version,
                n,
                ta,
                ts,
                own,
                session,
                input,
                coins,
                coin_words,
                weights,
                weight_count,
                boxed,
                line,
                line_bytes,
            )
        };
        checked(state, |state, words| {
            show(coins, 0x5a5a_5a5a, |coins, coin_words| {
                // Guards that would pass for weights.
                show(weights, 3, |weights, weight_count| {
                    lend(line, 0x5a, |line, bytes| {
                        call(state, words, coins, coin_words, weights, weight_count, line, bytes)
                    })
                })
            })
        })
    }

    fn deliver(&self, state: &mut Words, link: u64, message: &[u8], line: &mut [u8]) -> u64 {
        checked(state, |words, count| {
            show(message, 0x5a, |bytes, length| {
                lend(line, 0x5a, |line, line_bytes| unsafe {
                    pack_deliver(words, count, link, bytes, length, line, line_bytes)
                })
            })
        })
    }

    fn turn(&self, state: &mut Words, message: &mut [u8], line: &mut [u8]) -> u64 {
        checked(state, |words, count| {
            lend(message, 0x5a, |bytes, length| {
                lend(line, 0x5a, |line, line_bytes| unsafe {
                    pack_turn(words, count, bytes, length, line, line_bytes)
                })
            })
        })
    }

    fn report(&self, state: &Words, named: &mut [u64], in_force: &mut [u64]) -> u64 {
        let before = state.clone();
        let answer = lend(named, GUARD_WORD, |named, named_words| {
            lend(in_force, GUARD_WORD, |in_force, in_force_words| unsafe {
                let (words, count) = (state.as_ptr(), state.len());
                pack_report(words, count, named, named_words, in_force, in_force_words)
            })
        });
        assert!(*state == before, "a report changed the state");
        answer
    }

    fn restore(&self, state: &mut Words, journal: &[u8], message: &mut [u8]) -> u64 {
        checked(state, |words, count| {
            // Guards that would end a line.
            show(journal, b'\n', |journal, journal_bytes| {
                lend(message, 0x5a, |bytes, capacity| unsafe {
                    pack_restore(words, count, journal, journal_bytes, bytes, capacity)
                })
            })
        })
    }

    fn record(&self, state: &mut Words, coin: Coin, line: &mut [u8]) -> u64 {
        let Coin { vote, round, bit } = coin;
        checked(state, |words, count| {
            lend(line, 0x5a, |line, line_bytes| unsafe {
                pack_record(words, count, vote, round, bit, line, line_bytes)
            })
        })
    }
}
