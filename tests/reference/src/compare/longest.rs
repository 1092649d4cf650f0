//! Sessions that take as many turns as there can be: 99·n+3 in version 1 (PROTOCOL 8.20), 100·n+3 in version 2 (02, N6).

use super::Answers;
use crate::engine::{Coin, Engine};
use crate::journal::LINE_BYTES;
use crate::message::{Message, PackSet, LONGEST};
use crate::packing::unpack_report;
use crate::report::SET_WORDS;
use crate::session::Opening;
use crate::settings::{Number, Round, Settings, Version};

/// All settings with n up to `most` and weights of 1.
pub fn all_settings(most: u64) -> impl Iterator<Item = Settings> {
    (1..=most).flat_map(|n| Settings::all_with(Settings::ones(n)))
}

/// All settings with n up to `most` and weights of 2, 3, 4, 1 and so on.
fn weighted_settings(most: u64) -> impl Iterator<Item = Settings> {
    let weights = |n: u64| (1..=n).map(|p| 1 + (p % 4) as u8).collect::<Vec<u8>>();
    (1..=most).flat_map(move |n| Settings::all_with(&weights(n)).collect::<Vec<Settings>>())
}

/// Sessions of all settings with n up to `most`, with weights of 1 and with others, in both versions. In each round of each
/// vote all four things are due, up to the move out of round 32. Half of them are boxed. In version 2, each vote is finished
/// after that, or before its start where ta allows FINISHes that do not decide. It panics unless each takes as many turns as
/// there can be; where one broadcast alone is enough for Exit 1, that turns the votes off.
pub fn longest_sessions<E: Engine>(engine: &E, most: u64) -> Answers {
    let mut answers = Answers::default();
    let both = |settings: Settings| Version::ALL.map(|version| settings.with_version(version));
    let all = all_settings(most).chain(weighted_settings(most)).flat_map(both);
    for (settings, boxed) in all.zip([0, 1, 1, 0].into_iter().cycle()) {
        let taken = longest_session(engine, &settings, boxed, &mut answers);
        let exit_1 = settings.numbers().any(|i| settings.weight([i]) >= settings.quorum());
        let without_votes = 2 * u64::from(settings.n()) + 3;
        let expected = if exit_1 { without_votes } else { settings.turn_limit() };
        assert_eq!(taken, expected, "turns of the longest session of {settings:?}");
    }
    answers
}

fn longest_session<E: Engine>(
    engine: &E,
    settings: &Settings,
    boxed: u64,
    answers: &mut Answers,
) -> u64 {
    let [n, ta, ts] = [settings.n(), settings.ta(), settings.ts()].map(u64::from);
    let mut state = engine.blank();
    // Ones, so that the last round decides 1.
    let coins = vec![if boxed == 0 { u32::MAX } else { 0 }; n as usize];
    let (coins, weights, own, input, session) = (&coins[..], settings.weights(), n, n, 7);
    let version = settings.version().number();
    let opening = Opening { version, n, ta, ts, own, session, input, coins, weights, boxed };
    let line = &mut [0; LINE_BYTES];
    answers.note(engine.open(&mut state, &opening, line));
    for (sender, message) in all_messages(settings).into_iter().chain(early_finishes(settings)) {
        let bytes = message.to_bytes(settings.version(), sender, 7);
        answers.note(engine.deliver(&mut state, u64::from(sender), &bytes, line));
    }
    // Boxed votes go one round further with each bit, out of the last one too.
    for round in 1..=boxed * u64::from(Settings::ROUND_LIMIT) {
        act(engine, &mut state, answers);
        for vote in 1..=n {
            answers.note(engine.record(&mut state, Coin { vote, round, bit: 1 }, line));
        }
    }
    act(engine, &mut state, answers);
    for sender in settings.numbers() {
        let commit = Message::Commit { values: PackSet::from([n]) };
        let bytes = commit.to_bytes(settings.version(), sender, 7);
        answers.note(engine.deliver(&mut state, u64::from(sender), &bytes, line));
    }
    act(engine, &mut state, answers);
    let answer = engine.report(&state, &mut [0; SET_WORDS], &mut [0; SET_WORDS]);
    answers.note_report(answer);
    unpack_report(answer).expect("a report").turns
}

/// Turns until idle or refused.
fn act<E: Engine>(engine: &E, state: &mut E::State, answers: &mut Answers) {
    loop {
        let answer = engine.turn(state, &mut [0; LONGEST], &mut [0; LINE_BYTES]);
        answers.note(answer);
        answers.note_turn(answer);
        if answer < 1 << 8 {
            return;
        }
    }
}

/// Broadcasts with different values; votes in which both values are accepted and carried, but for the last round's AUXs.
fn all_messages(settings: &Settings) -> Vec<(Number, Message)> {
    let mut messages = Vec::new();
    for sender in settings.numbers() {
        messages.push((sender, Message::Send { value: u64::from(sender) }));
        for instance in settings.numbers() {
            let value = u64::from(instance);
            messages.push((sender, Message::Echo { instance, value }));
            messages.push((sender, Message::Ready { instance, value }));
            for round in 1..=Settings::ROUND_LIMIT {
                messages.push((sender, Message::Est { instance, round, value: false }));
                messages.push((sender, Message::Est { instance, round, value: true }));
                let value = aux_value(sender, round);
                messages.push((sender, Message::Aux { instance, round, value }));
            }
        }
    }
    messages
}

/// FINISHes of 1 in each vote, from senders of ta+1 at least and 2·ta at most; none where there are no such senders. Every
/// other session is without them.
fn early_finishes(settings: &Settings) -> Vec<(Number, Message)> {
    let mut senders = Vec::new();
    for sender in settings.numbers() {
        if settings.weight(senders.iter().copied()) < settings.vote_relay() {
            senders.push(sender);
        }
    }
    let few = settings.weight(senders.iter().copied()) < settings.vote_accept();
    if settings.version() == Version::One || !few || settings.ts() % 2 == 0 {
        return Vec::new();
    }
    let finishes = |&sender: &Number| {
        settings.numbers().map(move |instance| (sender, Message::Finish { instance, value: true }))
    };
    senders.iter().flat_map(finishes).collect()
}

/// Both values, but 1 alone in the last round, which then decides.
fn aux_value(sender: Number, round: Round) -> bool {
    round == Settings::ROUND_LIMIT || sender % 2 == 1
}
