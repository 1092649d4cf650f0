//! Calls with random arguments on one state, recordings and restores from its journal among them, each followed by a
//! report.

use super::Answers;
use crate::attack::random::Random;
use crate::engine::{Coin, Engine};
use crate::journal::LINE_BYTES;
use crate::message::{Message, PackSet, LONGEST};
use crate::packing::refusal;
use crate::refusal::Refusal;
use crate::report::SET_WORDS;
use crate::session::Opening;
use crate::settings::{Number, Round, Settings, Version};

/// A state, and what is still to be delivered in its session.
struct Caller<'a, E: Engine> {
    engine: &'a E,
    state: E::State,
    version: Version,
    session: u32,
    left: Vec<(Number, Message)>,
    /// Coins still to be recorded, if it is boxed.
    coins: Vec<Coin>,
    /// The lines since the last opening.
    journal: Vec<u8>,
    /// The last turn did something.
    busy: bool,
    random: Random,
    answers: Answers,
}

/// Opens one state anew, again and again, and makes so many calls on it. They follow from the seed and the answers.
pub fn random_calls<E: Engine>(engine: &E, seed: u64, calls: u64) -> Answers {
    let random = Random::new(seed);
    let mut caller = Caller {
        engine,
        state: engine.blank(),
        version: Version::One,
        session: 0,
        left: Vec::new(),
        coins: Vec::new(),
        journal: Vec::new(),
        busy: false,
        random,
        answers: Answers::default(),
    };
    for _ in 0..calls {
        let answer = match caller.random.below(12) {
            _ if caller.random.once_in(400) => caller.restore(),
            _ if caller.random.once_in(if caller.coins.is_empty() { 100 } else { 4 }) => {
                caller.record()
            }
            // Mostly turns until idle, or votes would get nowhere.
            0..=5 if caller.busy && !caller.random.once_in(8) => caller.turn(),
            0..=5 => match caller.left.pop() {
                Some((sender, message)) => caller.deliver(sender, &message),
                None => caller.open(),
            },
            6..=10 => caller.turn(),
            _ => caller.report(),
        };
        caller.answers.note(answer);
        caller.report_again();
    }
    caller.answers
}

impl<E: Engine> Caller<'_, E> {
    /// Mostly good settings; at times a number from the edge of what fits.
    fn open(&mut self) -> u64 {
        let random = &mut self.random;
        let most = random.pick(&[5, 5, 7, Settings::MOST]);
        let ([n, ta, ts], mut weights) = good_settings(random, most);
        let ta = if random.once_in(4) { Settings::UNNAMED } else { ta };
        let mut numbers = [n, ta, ts, 1 + random.below(n)];
        if random.once_in(3) {
            numbers[random.below(4) as usize] = random.pick(&EDGES);
        }
        let words = match random.below(12) {
            0 => random.pick(&[0, n - 1, n + 1, 17, 4_096]),
            _ => n,
        };
        let ones = random.pick(&[0, u32::MAX]);
        let mut coins: Vec<u32> = (0..words).map(|_| random.word() as u32 | ones).collect();
        let boxed = boxed_flag(random, &mut coins);
        damage_weights(random, &mut weights);
        let version = random.pick(&Version::ALL);
        let given = random_version(random, version);
        let session = random.pick(&[0, 7, u32::MAX]);
        let input = random.below(3);
        let [n, ta, ts, own] = numbers;
        let (coins, weights) = (&coins[..], &weights[..]);
        let opening =
            Opening { version: given, n, ta, ts, own, session, input, coins, weights, boxed };
        let mut line = vec![0xa5; length(random, LINE_BYTES)];
        let answer = self.engine.open(&mut self.state, &opening, &mut line);
        if refusal(answer).is_none() {
            self.journal = line[..line_length(answer)].to_vec();
            (self.version, self.session) = (version, session);
            self.left = messages(random, n as u8, version);
            self.coins = if boxed == 0 { Vec::new() } else { all_coins(random, n) };
        }
        answer
    }

    /// Mostly the message as it is; at times with a byte, the length or the link changed.
    fn deliver(&mut self, sender: Number, message: &Message) -> u64 {
        let random = &mut self.random;
        let mut bytes = message.to_bytes(self.version, sender, self.session);
        let mut link = u64::from(sender);
        let damage = random.below(60);
        match damage {
            0 => bytes.truncate(random.below(bytes.len() as u64) as usize),
            1 => bytes.resize(bytes.len() + random.pick(&[1, 8, 120, 4_096]), 0),
            2 => link = random.pick(&EDGES),
            3 => link += random.pick(&[1, 256, 1 << 32]),
            4..=7 => {
                let place = random.below(bytes.len() as u64) as usize;
                bytes[place] = random.pick(&[0, 1, 2, 16, 17, 32, 33, 255]);
            }
            _ => {}
        }
        // A lost message would stop a vote with ta = 0; so most come again, whole, and at times one that is held.
        if damage <= 8 && !random.once_in(40) {
            self.left.push((sender, message.clone()));
        }
        let mut line = vec![0xa5; length(random, LINE_BYTES)];
        let answer = self.engine.deliver(&mut self.state, link, &bytes, &mut line);
        if answer == u64::from(Refusal::Short.number()) {
            self.left.push((sender, message.clone()));
        }
        self.journal.extend(&line[..line_length(answer)]);
        answer
    }

    /// Mostly the next coin; at times another number in its place, or one again.
    fn record(&mut self) -> u64 {
        let random = &mut self.random;
        let next =
            Coin { vote: 1 + random.below(4), round: 1 + random.below(32), bit: random.below(2) };
        let coin = self.coins.pop().unwrap_or(next);
        let given = random_coin(random, coin);
        let mut line = vec![0xa5; length(random, LINE_BYTES)];
        let answer = self.engine.record(&mut self.state, given, &mut line);
        match refusal(answer) {
            Some(Refusal::Closed | Refusal::NoState) => self.coins.clear(),
            Some(Refusal::Coin) if given == coin => {}
            None if given == coin && !random.once_in(20) => {}
            // It comes again.
            _ => self.coins.push(coin),
        }
        self.busy |= refusal(answer).is_none();
        self.journal.extend(&line[..line_length(answer)]);
        answer
    }

    fn turn(&mut self) -> u64 {
        let mut message = vec![0xa5; length(&mut self.random, LONGEST)];
        let mut line = vec![0xa5; length(&mut self.random, LINE_BYTES)];
        let answer = self.engine.turn(&mut self.state, &mut message, &mut line);
        self.answers.note_turn(answer);
        self.busy = 1 << 8 <= answer;
        if self.busy {
            self.journal.extend(&line[..2]);
        }
        answer
    }

    /// From the journal up to a byte of its last lines; at times with a byte changed. The session goes on from there.
    fn restore(&mut self) -> u64 {
        let random = &mut self.random;
        // Mostly the whole: a lost delivery would stop a vote with ta = 0.
        let most = random.pick(&[1, 1, 1, 1, 1, 3, 60, 400]).min(self.journal.len() as u64 + 1);
        let mut journal = self.journal.clone();
        journal.truncate(self.journal.len() - random.below(most) as usize);
        if random.once_in(8) && !journal.is_empty() {
            let place = random.below(journal.len() as u64) as usize;
            journal[place] = random.pick(b"\n\t0aATDOK\r\xff");
        }
        let mut state = self.engine.littered(random.word());
        let answer =
            self.engine.restore(&mut state, &journal, &mut vec![0xa5; length(random, LONGEST)]);
        if refusal(answer).is_none() {
            journal.truncate((answer >> 32) as usize);
            (self.state, self.journal) = (state, journal);
            self.busy = true;
        }
        answer
    }

    fn report(&mut self) -> u64 {
        let mut named = vec![7; length(&mut self.random, SET_WORDS)];
        let mut in_force = vec![8; length(&mut self.random, SET_WORDS)];
        self.engine.report(&self.state, &mut named, &mut in_force)
    }

    /// The report after every call; it is not counted as a call.
    fn report_again(&mut self) {
        let (mut named, mut in_force) = ([7; SET_WORDS], [8; SET_WORDS]);
        let answer = self.engine.report(&self.state, &mut named, &mut in_force);
        self.answers.note_report(answer);
    }
}

/// The length of the line that an opening, a delivery or a recording wrote; 0 where it was refused.
pub fn line_length(answer: u64) -> usize {
    (answer >> 16 & 0xffff) as usize
}

/// Mostly the version itself; at times a number that is none.
pub fn random_version(random: &mut Random, version: Version) -> u64 {
    match random.below(40) {
        0 => random.pick(&[0, 3, 255, 256, 257, (1 << 32) + 1, (1 << 63) + 2, u64::MAX]),
        _ => version.number(),
    }
}

/// n, up to `most`, ta and ts that opening takes with these weights.
pub fn good_settings(random: &mut Random, most: u64) -> ([u64; 3], Vec<u8>) {
    let n = 1 + random.below(most);
    let weights = good_weights(random, n);
    let whole = weights.iter().map(|&weight| u64::from(weight)).sum::<u64>();
    let ts = random.below(whole.div_ceil(2));
    let most_lying = ts.min(whole - 1 - 2 * ts);
    let ta = if random.once_in(2) { most_lying } else { random.below(most_lying + 1) };
    ([n, ta, ts], weights)
}

/// Half of the time all 1.
pub fn good_weights(random: &mut Random, n: u64) -> Vec<u8> {
    let heaviest = random.pick(&[1, Settings::HEAVIEST]);
    (0..n).map(|_| 1 + random.below(u64::from(heaviest)) as u8).collect()
}

/// At times one that is out of range, or another number of them.
pub fn damage_weights(random: &mut Random, weights: &mut Vec<u8>) {
    let count = weights.len();
    match random.below(24) {
        0 if count > 0 => {
            // The lowest three binary digits of the last two are those of a weight.
            let outside = random.pick(&[0, 5, 7, 8, 255, 9, 132]);
            weights[random.below(count as u64) as usize] = outside;
        }
        1 => weights.resize(random.pick(&[0, count.saturating_sub(1), count + 1, 17]), 1),
        _ => {}
    }
}

/// One of three is boxed, mostly with coin words of 0; at times a number that says neither.
pub fn boxed_flag(random: &mut Random, coins: &mut [u32]) -> u64 {
    let boxed = match random.below(60) {
        0 => random.pick(&EDGES),
        k => u64::from(k % 3 == 0),
    };
    if boxed != 0 && !random.once_in(20) {
        coins.fill(0);
    }
    if boxed == 1 && random.once_in(40) {
        coins.iter_mut().last().into_iter().for_each(|word| *word = random.pick(&[1, 1 << 31]));
    }
    boxed
}

/// A bit for nearly every vote and round; the last of the list is recorded first.
pub fn all_coins(random: &mut Random, n: u64) -> Vec<Coin> {
    let ones = random.pick(&[2, 2, 10]);
    let missing = random.pick(&[2, 1_000_000]);
    let mut coins = Vec::new();
    for (round, vote) in (1..=32).rev().flat_map(|round| (1..=n).map(move |vote| (round, vote))) {
        let bit = u64::from(!random.once_in(ones));
        if !random.once_in(missing) {
            coins.push(Coin { vote, round, bit });
        }
    }
    coins
}

/// Mostly the coin itself; at times with a number on the edge in one of its places, or the other bit.
pub fn random_coin(random: &mut Random, coin: Coin) -> Coin {
    let edge =
        random.pick(&[0, 1, 2, 3, 16, 17, 31, 32, 33, 255, 256, 257, 1 << 32, 1 << 63, u64::MAX]);
    match random.below(24) {
        0 => Coin { vote: edge, ..coin },
        1 => Coin { round: edge, ..coin },
        2 => Coin { bit: edge, ..coin },
        3 => Coin { bit: 1 ^ coin.bit, ..coin },
        4 => Coin { round: coin.round + random.pick(&[32, 64, 256]), ..coin },
        _ => coin,
    }
}

/// Mostly just enough; at times one less or more, none, that of a head, or much more.
pub fn length(random: &mut Random, enough: usize) -> usize {
    match random.below(60) {
        0 => enough - 1,
        1 => enough + 1,
        2 => random.pick(&[0, 1, 11, 12]),
        3 => random.pick(&[enough + 9, 2_052, 65_536]),
        _ => enough,
    }
}

/// Numbers on the edge of what a link, or a setting, can be.
pub const EDGES: [u64; 12] =
    [0, 1, 2, 15, 16, 17, 255, 256, 1 << 32, 1 << 63, (1 << 63) + 1, u64::MAX];

/// A message for nearly every place, mostly with the value that the other senders give, in random order; FINISHes of some
/// votes, or of all, or of none. Version 1 refuses them.
pub fn messages(random: &mut Random, n: u8, version: Version) -> Vec<(Number, Message)> {
    let rounds: Round = random.pick(&[1, 2, 4, if n > 5 { 4 } else { 32 }]);
    let packs = random.pick(&[1, 2, 2, 3, 16]);
    let noise = random.pick(&[2, 20, 1_000]);
    let finished = random.pick(&if version == Version::Two { [1, 4, 1_000_000] } else { [50; 3] });
    let mut messages = Vec::new();
    for (sender, instance) in (1..=n).flat_map(|sender| (1..=n).map(move |other| (sender, other))) {
        let usual = u64::from(instance) % packs;
        let value = if random.once_in(noise) { random.below(3) } else { usual };
        messages.push((sender, Message::Echo { instance, value }));
        messages.push((sender, Message::Ready { instance, value }));
        if sender == instance {
            messages.push((sender, Message::Send { value }));
        }
        if random.once_in(finished) {
            let value = !random.once_in(noise);
            messages.push((sender, Message::Finish { instance, value }));
        }
        for round in 1..=rounds {
            let value = !random.once_in(noise);
            messages.push((sender, Message::Est { instance, round, value }));
            messages.push((sender, Message::Aux { instance, round, value }));
        }
    }
    let most_missing = messages.len() / random.pick(&[4, 1_000_000]);
    let count = messages.len() - random.below(1 + most_missing as u64) as usize;
    let mut shuffled = random.some(messages, count);
    insert_commits(random, n, &mut shuffled);
    shuffled
}

/// COMMITs of all senders, before the rest or among it; the last of the list is delivered first.
fn insert_commits(random: &mut Random, n: u8, messages: &mut Vec<(Number, Message)>) {
    let values: PackSet = (0..1 + random.below(u64::from(n))).collect();
    let among = random.once_in(3);
    for sender in 1..=n {
        let values = if random.once_in(8) { PackSet::from([9]) } else { values.clone() };
        let place = if among { random.below(messages.len() as u64) } else { 0 };
        messages.insert(place as usize, (sender, Message::Commit { values }));
    }
}
