//! A session with its journal, and the state after each line.

use super::calls::{all_coins, good_settings, line_length, messages};
use crate::attack::random::Random;
use crate::engine::{Coin, Engine};
use crate::journal::LINE_BYTES;
use crate::message::LONGEST;
use crate::packing::{refusal, unpack_turn, TurnAnswer};
use crate::session::Opening;
use crate::settings::Version;

/// After one line.
pub struct Recorded<S> {
    pub state: S,
    /// Where the line ends in the journal.
    pub end: usize,
    /// The message that the line sent; empty if it sent none.
    pub message: Vec<u8>,
}

pub struct Recording<'a, E: Engine> {
    engine: &'a E,
    version: Version,
    pub n: u64,
    pub weights: Vec<u8>,
    pub boxed: bool,
    pub journal: Vec<u8>,
    pub lines: Vec<Recorded<E::State>>,
}

impl<'a, E: Engine> Recording<'a, E>
where
    E::State: Clone,
{
    /// A session of at most `most` concentrators, half of the time a boxed one, in which all kinds of messages come, up to
    /// so many lines.
    pub fn new(engine: &'a E, random: &mut Random, most: u64, lines: usize) -> Self {
        let ([n, ta, ts], weights) = good_settings(random, most);
        let (version, boxed) = (random.pick(&Version::ALL), random.once_in(2));
        let (journal, lines_so_far) = (Vec::new(), Vec::new());
        let mut recording =
            Recording { engine, version, n, weights, boxed, journal, lines: lines_so_far };
        let session = random.pick(&[0, 7, u32::MAX]);
        let left = &mut messages(random, n as u8, version);
        let coins = &mut if boxed { all_coins(random, n) } else { Vec::new() };
        let turns_in = random.pick(&[2, 6]);
        let mut state = recording.open(random, [ta, ts], session);
        while recording.lines.len() < lines {
            if random.once_in(turns_in) {
                if recording.act(&mut state, lines) {
                    break;
                }
            } else if !coins.is_empty() && random.once_in(3) {
                // At times it stays in the list, and comes again.
                let coin = if random.once_in(4) { coins.last().copied() } else { coins.pop() };
                recording.record(&mut state, coin.expect("a coin"));
            } else if let Some((sender, message)) = left.pop() {
                let bytes = message.to_bytes(version, sender, session);
                recording.deliver(&mut state, u64::from(sender), &bytes);
            } else {
                recording.act(&mut state, lines);
                break;
            }
        }
        recording
    }

    fn open(&mut self, random: &mut Random, [ta, ts]: [u64; 2], session: u32) -> E::State {
        let word = if self.boxed { 0 } else { u32::MAX };
        let coins: Vec<u32> = (0..self.n).map(|_| random.word() as u32 & word).collect();
        let boxed = u64::from(self.boxed);
        let (own, input) = (1 + random.below(self.n), random.pick(&[0, 5, u64::MAX]));
        let (version, n, weights) = (self.version.number(), self.n, &self.weights.clone()[..]);
        let coins = &coins[..];
        let opening = Opening { version, n, ta, ts, own, session, input, coins, weights, boxed };
        let mut state = self.engine.littered(random.word());
        let line = &mut [0xa5; LINE_BYTES];
        let answer = self.engine.open(&mut state, &opening, line);
        assert!(refusal(answer).is_none(), "good settings");
        self.note(&state, &line[..line_length(answer)], &[]);
        state
    }

    fn deliver(&mut self, state: &mut E::State, link: u64, bytes: &[u8]) {
        let line = &mut [0xa5; LINE_BYTES];
        let answer = self.engine.deliver(state, link, bytes, line);
        if refusal(answer).is_none() {
            self.note(state, &line[..line_length(answer)], &[]);
        }
    }

    fn record(&mut self, state: &mut E::State, coin: Coin) {
        let line = &mut [0xa5; LINE_BYTES];
        let answer = self.engine.record(state, coin, line);
        if refusal(answer).is_none() {
            self.note(state, &line[..line_length(answer)], &[]);
        }
    }

    /// Turns until idle, closed or at so many lines. Answers whether it is closed.
    fn act(&mut self, state: &mut E::State, lines: usize) -> bool {
        while self.lines.len() < lines {
            let (lent, line) = (&mut [0xa5; LONGEST], &mut [0xa5; LINE_BYTES]);
            let length = match unpack_turn(self.engine.turn(state, lent, line)) {
                Some(TurnAnswer::Sent { length }) => length,
                Some(TurnAnswer::MovedOut | TurnAnswer::InForce) => 0,
                Some(TurnAnswer::Idle) => return false,
                Some(TurnAnswer::Refused(_)) | None => return true,
            };
            self.note(state, &line[..2], &lent[..length]);
        }
        false
    }

    fn note(&mut self, state: &E::State, line: &[u8], message: &[u8]) {
        self.journal.extend(line);
        let (state, end, message) = (state.clone(), self.journal.len(), message.to_vec());
        self.lines.push(Recorded { state, end, message });
    }
}
