//! States with words that no engine wrote. The reference cannot hold them, so two engines over the words are compared.

use super::calls::{
    boxed_flag, damage_weights, good_settings, good_weights, length, random_coin, random_version,
};
use super::Answers;
use crate::attack::random::Random;
use crate::c_engine::{words, Words, STATE_WORDS};
use crate::engine::{Coin, Engine};
use crate::journal::LINE_BYTES;
use crate::message::{Message, LONGEST};
use crate::report::SET_WORDS;
use crate::session::Opening;
use crate::settings::{Number, Version};

/// The word of the weights.
const WEIGHTS: usize = 141;
/// The word that says whether coins are boxed.
const BOXED: usize = 142;
/// The word of the version.
const VERSION: usize = 143;
/// Calls on a state before the next one.
const CALLS: u64 = 24;

struct Pair<'a, A, B> {
    first: &'a A,
    second: &'a B,
    state: Words,
    /// What the second engine works on: a copy before each call, its result after it.
    copy: Words,
    random: Random,
    answers: Answers,
}

/// Makes so many calls on states with planted words, with both engines from equal copies. It panics at the first
/// answer, lent byte or state word in which they differ.
pub fn foreign_calls<A, B>(first: &A, second: &B, seed: u64, calls: u64) -> Answers
where
    A: Engine<State = Words>,
    B: Engine<State = Words>,
{
    let state = words(&[0; STATE_WORDS]);
    let copy = state.clone();
    let (random, answers) = (Random::new(seed), Answers::default());
    let mut pair = Pair { first, second, state, copy, random, answers };
    for call in 0..calls {
        if call % CALLS == 0 {
            plant(&mut pair.random, &mut pair.state);
        }
        pair.call();
    }
    pair.answers
}

impl<A: Engine<State = Words>, B: Engine<State = Words>> Pair<'_, A, B> {
    fn call(&mut self) {
        self.copy.copy_from_slice(&self.state);
        let answer = match self.random.below(32) {
            0 => self.open(),
            1..=11 => self.deliver(),
            12..=23 => self.turn(),
            24..=26 => self.record(),
            _ => self.report(),
        };
        assert!(self.state == self.copy, "the words after a call that answered {answer:#x} differ");
        self.answers.note(answer);
    }

    fn open(&mut self) -> u64 {
        let n = self.random.below(18);
        let [ta, ts, own] = [2, 6, 17].map(|end| self.random.below(end));
        let mut coins = vec![self.random.word() as u32; n as usize];
        let boxed = boxed_flag(&mut self.random, &mut coins);
        let mut weights = good_weights(&mut self.random, n);
        damage_weights(&mut self.random, &mut weights);
        let version = self.random.pick(&Version::ALL);
        let version = random_version(&mut self.random, version);
        let (coins, weights, session, input) = (&coins[..], &weights[..], 7, 5);
        let opening = &Opening { version, n, ta, ts, own, session, input, coins, weights, boxed };
        let mut line = vec![0xa5; length(&mut self.random, LINE_BYTES)];
        let mut line_copy = line.clone();
        let first = self.first.open(&mut self.state, opening, &mut line);
        let second = self.second.open(&mut self.copy, opening, &mut line_copy);
        assert_eq!((first, line), (second, line_copy), "openings differ");
        first
    }

    fn deliver(&mut self) -> u64 {
        let n = self.state[0].clamp(1, 16);
        let sender = 1 + self.random.below(n) as Number;
        let message = message(&mut self.random, n);
        let version = match Version::given(self.state[VERSION]) {
            Ok(version) if !self.random.once_in(24) => version,
            _ => self.random.pick(&Version::ALL),
        };
        let mut bytes = message.to_bytes(version, sender, self.state[4] as u32);
        if self.random.once_in(16) {
            let place = self.random.below(bytes.len() as u64) as usize;
            bytes[place] = self.random.word() as u8;
        }
        let link = u64::from(sender);
        let mut line = vec![0xa5; length(&mut self.random, LINE_BYTES)];
        let mut line_copy = line.clone();
        let first = self.first.deliver(&mut self.state, link, &bytes, &mut line);
        let second = self.second.deliver(&mut self.copy, link, &bytes, &mut line_copy);
        assert_eq!((first, line), (second, line_copy), "deliveries differ");
        first
    }

    fn turn(&mut self) -> u64 {
        let mut lent = vec![0xa5; length(&mut self.random, LONGEST)];
        let mut line = vec![0xa5; length(&mut self.random, LINE_BYTES)];
        let (mut lent_copy, mut line_copy) = (lent.clone(), line.clone());
        let first = self.first.turn(&mut self.state, &mut lent, &mut line);
        let second = self.second.turn(&mut self.copy, &mut lent_copy, &mut line_copy);
        assert_eq!((first, lent, line), (second, lent_copy, line_copy), "turns differ");
        self.answers.note_turn(first);
        first
    }

    fn record(&mut self) -> u64 {
        let n = self.state[0].clamp(1, 16);
        let random = &mut self.random;
        // Mostly the round that the vote is in.
        let (vote, any) = (1 + random.below(n), 1 + random.below(32));
        let current = self.state[23 + vote as usize].clamp(1, 32);
        let round = if random.once_in(4) { any } else { current };
        let bit = random.below(2);
        let coin = random_coin(random, Coin { vote, round, bit });
        let mut line = vec![0xa5; length(random, LINE_BYTES)];
        let mut line_copy = line.clone();
        let first = self.first.record(&mut self.state, coin, &mut line);
        let second = self.second.record(&mut self.copy, coin, &mut line_copy);
        assert_eq!((first, line), (second, line_copy), "recordings differ");
        first
    }

    fn report(&mut self) -> u64 {
        let mut named = vec![7; length(&mut self.random, SET_WORDS)];
        let mut in_force = vec![8; length(&mut self.random, SET_WORDS)];
        let (mut named_copy, mut in_force_copy) = (named.clone(), in_force.clone());
        let first = self.first.report(&self.state, &mut named, &mut in_force);
        let second = self.second.report(&self.copy, &mut named_copy, &mut in_force_copy);
        assert_eq!((first, named, in_force), (second, named_copy, in_force_copy), "reports differ");
        self.answers.note_report(first);
        first
    }
}

fn message(random: &mut Random, n: u64) -> Message {
    let instance = 1 + random.below(n) as Number;
    let rounds = random.pick(&[1, 4, 32]);
    let round = 1 + random.below(rounds) as u8;
    let value = random.below(3);
    let bit = random.once_in(2);
    match random.below(10) {
        0 => Message::Send { value },
        1 => Message::Echo { instance, value },
        2 => Message::Ready { instance, value },
        3..=5 => Message::Est { instance, round, value: bit },
        6 => Message::Aux { instance, round, value: bit },
        7 | 8 => Message::Finish { instance, value: bit },
        _ => Message::Commit { values: (0..=random.below(n.min(3))).collect() },
    }
}

/// Words in which about one bit in 64, a half, or all but one in 64 are set; or none, or all.
fn marks(random: &mut Random) -> impl Fn(&mut Random) -> u64 {
    let kind = random.below(6);
    move |random: &mut Random| match kind {
        0 => 0,
        1 => random.word() & random.word() & random.word() & random.word(),
        2 => random.word(),
        3 => random.word() | random.word() | random.word() | random.word(),
        4 => u64::MAX,
        _ => random.pick(&[0, u64::MAX]),
    }
}

/// Plants words everywhere: settings mostly valid, marks and values of all densities, places above n too.
fn plant(random: &mut Random, state: &mut Words) {
    if random.once_in(16) {
        state.iter_mut().for_each(|word| *word = random.word());
    }
    plant_settings(random, state);
    let (n, wild) = (state[0], random.once_in(4));
    let most = [99, 100].map(|turns| turns * (n & 31) + 3);
    let turns = [0, 1, most[0] - 3, most[0], most[0] + 1, most[1], most[1] + 1, u64::MAX];
    state[6] = if random.once_in(4) { random.pick(&turns) } else { random.below(99) };
    state[7] = random.word() & !random.pick(&[1, 1, 1, 0]);
    // The regions of docs/ARCHITECTURE.md, "The words".
    plant_marks(random, state, 8..24);
    let highest = random.pick(&[1, 2, 4, 34, 34]);
    plant_numbers(random, state, 24..40, highest, wild);
    for region in [40..56, 56..72, 88..104, 104..120, 136..141] {
        plant_marks(random, state, region);
    }
    let most = random.pick(&[1, 2, n.saturating_add(1).min(17)]);
    plant_numbers(random, state, 120..136, most, wild);
    for region in [72..88, 256..512, 512..768, 768..1024] {
        let values = random.pick(&[1, 2, 3, 50]);
        let region = &mut state[region];
        region.iter_mut().for_each(|word| *word = random.below(values));
    }
    plant_marks(random, state, 1024..1536);
    for region in [144..145, 145..161, 161..177, 177..256] {
        plant_marks(random, state, region);
    }
    plant_marks(random, state, 1536..2048);
}

/// Valid, or one of them not.
fn plant_settings(random: &mut Random, state: &mut Words) {
    let most = random.pick(&[4, 7, 16]);
    let ([n, ta, ts], weights) = good_settings(random, most);
    state[..4].copy_from_slice(&[n, ta, ts, 1 + random.below(n)]);
    state[WEIGHTS] = plant_weights(random, &weights);
    // Above 1 it is no state.
    state[BOXED] = random.pick(&[0, 0, 0, 1, 1, 1, 1, 1]);
    if random.once_in(24) {
        state[BOXED] = random.pick(&[2, 3, 255, 1 << 32, (1 << 32) + 1, 1 << 63, u64::MAX]);
    }
    state[VERSION] = random.pick(&Version::ALL).number();
    if random.once_in(24) {
        state[VERSION] =
            random.pick(&[0, 3, 255, 257, 1 << 32, (1 << 32) + 1, (1 << 63) + 2, u64::MAX]);
    }
    // The session number is the low half.
    state[4] = if random.once_in(4) { random.word() } else { 7 };
    state[5] = random.below(3);
    if random.once_in(20) {
        let place = random.below(4) as usize;
        state[place] = random.pick(&[0, 1, 8, 16, 17, 255, 1 << 32, u64::MAX]);
    }
}

/// The word of the weights of 1 to n, by any of the four marks of each; at times others, for which ta and ts may be too high, or one of
/// 0, and at times bits that are no weight of 1 to n.
pub fn plant_weights(random: &mut Random, good: &[u8]) -> u64 {
    let n = good.len() as u64;
    let mut weights = good.to_vec();
    if random.once_in(20) {
        weights = good_weights(random, n);
    }
    if random.once_in(20) {
        weights[random.below(n) as usize] = 0;
    }
    let mut word = 0;
    for (place, &weight) in weights.iter().enumerate() {
        let first = random.below(4);
        word |= (first..first + u64::from(weight)).fold(0, |w, k| w | 1 << (k % 4 * 16)) << place;
    }
    let others = !(((1 << n) - 1) * 0x0001_0001_0001_0001);
    let marks = marks(random);
    word | marks(random) & others
}

fn plant_marks(random: &mut Random, state: &mut Words, region: std::ops::Range<usize>) {
    let word = marks(random);
    state[region].iter_mut().for_each(|place| *place = word(random));
}

/// Numbers below `end`; wild ones above n mostly, which no call may look at.
fn plant_numbers(
    random: &mut Random,
    state: &mut Words,
    region: std::ops::Range<usize>,
    end: u64,
    wild: bool,
) {
    let n = state[0].min(16) as usize;
    for (place, word) in state[region].iter_mut().enumerate() {
        let strange = wild && (n <= place || random.once_in(200));
        *word = if strange { random.word() } else { random.below(end) };
    }
}
