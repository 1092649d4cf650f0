//! Document 02, N6: when a FINISH is sent, what FINISHes decide, and when a vote falls silent.

use pack_reference::message::LONGEST;
use pack_reference::{Exit, Message, Number, Opening, Outcome, PackSet, Session, Version};

const SESSION: u32 = 7;
const ONES: &[u32] = &[u32::MAX; 4];

/// Concentrator 4 of four; ta = ts = 1, all weights 1, all coins 1.
const OPENING: Opening = Opening {
    version: 2,
    n: 4,
    ta: 1,
    ts: 1,
    own: 4,
    session: SESSION,
    input: 9,
    coins: ONES,
    weights: &[1; 4],
    boxed: 0,
};

fn turn(session: &mut Session) -> Outcome {
    session.turn(&mut [0; LONGEST]).unwrap()
}

/// Its SEND is out.
fn opened_with(opening: &Opening) -> Session {
    let mut session = Session::open(opening).unwrap();
    assert_eq!(turn(&mut session), Outcome::Sent(Message::Send { value: 9 }));
    session
}

fn opened() -> Session {
    opened_with(&OPENING)
}

fn deliver(session: &mut Session, message: &Message, senders: &[Number]) {
    for &sender in senders {
        let bytes = message.to_bytes(Version::Two, sender, SESSION);
        assert_eq!(session.deliver(u64::from(sender), &bytes), Ok(()), "{message:?} of {sender}");
    }
}

/// Turns until idle: what was sent.
fn sent(session: &mut Session) -> Vec<Message> {
    let mut messages = Vec::new();
    loop {
        match turn(session) {
            Outcome::Sent(message) => messages.push(message),
            Outcome::MovedOut => {}
            Outcome::Idle | Outcome::InForce => return messages,
        }
    }
}

fn finish(instance: Number, value: bool) -> Message {
    Message::Finish { instance, value }
}

fn est(instance: Number, round: u8, value: bool) -> Message {
    Message::Est { instance, round, value }
}

fn aux(instance: Number, round: u8, value: bool) -> Message {
    Message::Aux { instance, round, value }
}

/// Broadcast `instance` has an output, its own; the READY and the start of its vote are out.
fn start(session: &mut Session, instance: Number) {
    let value = u64::from(instance);
    deliver(session, &Message::Ready { instance, value }, &[1, 2, 3]);
    let ready = Message::Ready { instance, value };
    assert_eq!(sent(session), [ready, est(instance, 1, true)]);
}

/// The vote, which is in the round, gets ESTs and AUXs of 1 and moves; its coin decides it.
fn decide_one(session: &mut Session, instance: Number, round: u8) {
    deliver(session, &est(instance, round, true), &[1, 2, 3]);
    assert_eq!(turn(session), Outcome::Sent(aux(instance, round, true)));
    deliver(session, &aux(instance, round, true), &[1, 2, 3]);
    assert_eq!(turn(session), Outcome::Sent(est(instance, round + 1, true)));
    assert_eq!(session.decisions().get(&instance), Some(&true));
}

#[test]
fn a_decision_is_finished_next_and_the_vote_does_nothing_more() {
    let mut session = opened();
    start(&mut session, 2);
    decide_one(&mut session, 2, 1);
    assert_eq!(turn(&mut session), Outcome::Sent(finish(2, true)));
    // Due otherwise: a relay of round 1, an AUX and a move of round 2.
    deliver(&mut session, &est(2, 1, false), &[1, 2, 3]);
    deliver(&mut session, &est(2, 2, true), &[1, 2, 3]);
    deliver(&mut session, &aux(2, 2, true), &[1, 2, 3]);
    assert_eq!(turn(&mut session), Outcome::Idle);
}

#[test]
fn version_1_goes_on_after_a_decision() {
    let mut session = opened_with(&Opening { version: 1, ..OPENING });
    let mut deliver = |message: Message| {
        for sender in [1, 2, 3] {
            let bytes = message.to_bytes(Version::One, sender, SESSION);
            session.deliver(u64::from(sender), &bytes).unwrap();
        }
        sent(&mut session)
    };
    let ready = Message::Ready { instance: 2, value: 5 };
    assert_eq!(deliver(ready.clone()), [ready, est(2, 1, true)]);
    assert_eq!(deliver(est(2, 1, true)), [aux(2, 1, true)]);
    assert_eq!(deliver(aux(2, 1, true)), [est(2, 2, true)]);
    assert_eq!(deliver(est(2, 1, false)), [est(2, 1, false)]);
    assert_eq!(deliver(est(2, 2, true)), [aux(2, 2, true)]);
}

#[test]
fn finish_comes_before_the_start() {
    let mut session = opened();
    deliver(&mut session, &finish(2, true), &[1]);
    assert_eq!(turn(&mut session), Outcome::Idle);
    deliver(&mut session, &finish(2, true), &[3]);
    deliver(&mut session, &Message::Ready { instance: 2, value: 5 }, &[1, 2, 3]);
    let ready = Message::Ready { instance: 2, value: 5 };
    assert_eq!(sent(&mut session), [ready, finish(2, true), est(2, 1, true)]);
    assert!(session.decisions().is_empty());
}

#[test]
fn finish_comes_before_relay_aux_and_move() {
    let mut session = opened();
    start(&mut session, 2);
    deliver(&mut session, &est(2, 1, true), &[1, 2, 3]);
    deliver(&mut session, &est(2, 1, false), &[1, 2]);
    deliver(&mut session, &finish(2, false), &[1, 2]);
    assert_eq!(sent(&mut session), [finish(2, false), est(2, 1, false), aux(2, 1, true)]);
    let mut session = opened();
    start(&mut session, 2);
    deliver(&mut session, &est(2, 1, true), &[1, 2, 3]);
    assert_eq!(sent(&mut session), [aux(2, 1, true)]);
    deliver(&mut session, &aux(2, 1, true), &[1, 2, 3]);
    deliver(&mut session, &finish(2, false), &[1, 2]);
    assert_eq!(sent(&mut session), [finish(2, false), est(2, 2, true)]);
}

#[test]
fn of_both_values_0_is_finished() {
    let mut session = opened();
    deliver(&mut session, &finish(2, true), &[1, 3]);
    deliver(&mut session, &finish(2, false), &[2, 4]);
    assert_eq!(sent(&mut session), [finish(2, false)]);
}

#[test]
fn finish_comes_after_round_32() {
    // Coins of 0 never decide the 1 that all carry.
    let mut session = opened_with(&Opening { coins: &[0; 4], ..OPENING });
    start(&mut session, 2);
    for round in 1..=32 {
        deliver(&mut session, &est(2, round, true), &[1, 2, 3]);
        deliver(&mut session, &aux(2, round, true), &[1, 2, 3]);
        let next = (round < 32).then_some(est(2, round + 1, true));
        let expected: Vec<Message> = [aux(2, round, true)].into_iter().chain(next).collect();
        assert_eq!(sent(&mut session), expected);
    }
    deliver(&mut session, &finish(2, true), &[1, 3]);
    deliver(&mut session, &est(2, 1, false), &[1, 2]);
    // Undecided, so that the vote still relays.
    assert_eq!(sent(&mut session), [finish(2, true), est(2, 1, false)]);
    deliver(&mut session, &finish(2, true), &[2]);
    assert_eq!(session.decisions().get(&2), Some(&true));
    deliver(&mut session, &est(2, 2, false), &[1, 2]);
    assert_eq!(turn(&mut session), Outcome::Idle);
}

#[test]
fn a_finish_without_a_decision_does_not_stop_its_vote() {
    let mut session = opened();
    start(&mut session, 2);
    deliver(&mut session, &finish(2, true), &[1, 3]);
    assert_eq!(sent(&mut session), [finish(2, true)]);
    deliver(&mut session, &est(2, 1, false), &[1, 2]);
    assert_eq!(sent(&mut session), [est(2, 1, false)]);
    decide_one(&mut session, 2, 1);
    // Finished already, and decided now.
    deliver(&mut session, &est(2, 2, true), &[1, 2, 3]);
    assert_eq!(turn(&mut session), Outcome::Idle);
}

#[test]
fn finishes_decide_with_no_turn_of_their_own() {
    for started in [false, true] {
        let mut session = opened();
        if started {
            start(&mut session, 2);
        }
        let turns = session.reading().turns;
        deliver(&mut session, &finish(2, false), &[1, 2]);
        deliver(&mut session, &finish(2, true), &[4]);
        assert!(session.decisions().is_empty());
        deliver(&mut session, &finish(2, false), &[3]);
        assert_eq!(session.decisions().get(&2), Some(&false));
        assert_eq!(session.reading().turns, turns);
        assert_eq!(sent(&mut session), [finish(2, false)]);
        // A broadcast with output would start it.
        deliver(
            &mut session,
            &Message::Ready { instance: 2, value: 2 },
            if started { &[4] } else { &[1, 2, 3] },
        );
        assert!(!sent(&mut session).contains(&est(2, 1, true)));
    }
}

#[test]
fn a_decision_is_not_overwritten() {
    let mut session = opened();
    start(&mut session, 2);
    decide_one(&mut session, 2, 1);
    deliver(&mut session, &finish(2, false), &[1, 2, 3]);
    assert_eq!(session.decisions().get(&2), Some(&true));
    assert_eq!(sent(&mut session), [finish(2, true)]);
}

#[test]
fn a_decision_by_finishes_stands() {
    let mut session = opened();
    deliver(&mut session, &finish(2, true), &[1, 2, 3]);
    assert_eq!(sent(&mut session), [finish(2, true)]);
    deliver(&mut session, &est(2, 1, false), &[1, 2, 3]);
    deliver(&mut session, &aux(2, 1, false), &[1, 2, 3]);
    assert_eq!(turn(&mut session), Outcome::Idle);
    assert_eq!(session.decisions().get(&2), Some(&true));
}

/// Three broadcasts have the same output.
fn exit_1(session: &mut Session) {
    for instance in [1, 2, 3] {
        deliver(session, &Message::Ready { instance, value: 5 }, &[1, 2, 3]);
    }
    assert_eq!(session.reading().exit, Exit::One(5));
}

#[test]
fn under_exit_1_no_finish_is_sent_and_a_delivery_decides() {
    let mut session = opened();
    exit_1(&mut session);
    let ready = |instance| Message::Ready { instance, value: 5 };
    let commit = Message::Commit { values: PackSet::from([5]) };
    assert_eq!(sent(&mut session), [commit, ready(1), ready(2), ready(3)]);
    deliver(&mut session, &finish(2, true), &[1, 2]);
    assert_eq!(turn(&mut session), Outcome::Idle);
    deliver(&mut session, &finish(2, true), &[3]);
    assert_eq!(turn(&mut session), Outcome::Idle);
    assert_eq!(session.decisions().get(&2), Some(&true));
}

#[test]
fn rule_6_goes_vote_by_vote() {
    let mut session = opened();
    start(&mut session, 2);
    deliver(&mut session, &est(2, 1, false), &[1, 2]);
    for instance in [1, 3] {
        deliver(&mut session, &finish(instance, true), &[1, 2]);
    }
    assert_eq!(sent(&mut session), [finish(1, true), est(2, 1, false), finish(3, true)]);
}

#[test]
fn votes_decided_by_finishes_count_in_s() {
    let mut session = opened();
    for instance in [1, 2, 3] {
        deliver(&mut session, &finish(instance, true), &[1, 2, 3]);
    }
    let finishes = [1, 2, 3].map(|instance| finish(instance, true));
    let expected: Vec<Message> = finishes.into_iter().chain([est(4, 1, false)]).collect();
    assert_eq!(sent(&mut session), expected);
}

#[test]
fn exits_2_and_3_of_votes_that_were_not_started() {
    for (values, exit) in
        [([5, 5, 6], Exit::Two(5)), ([5, 6, 7], Exit::Three(PackSet::from([5, 6, 7])))]
    {
        let mut session = Session::open(&OPENING).unwrap();
        for (instance, value) in (1..).zip(values) {
            deliver(&mut session, &Message::Ready { instance, value }, &[1, 2, 3]);
            deliver(&mut session, &finish(instance, true), &[1, 2, 3]);
        }
        deliver(&mut session, &finish(4, false), &[1, 2]);
        assert_eq!(session.reading().exit, Exit::None);
        deliver(&mut session, &finish(4, false), &[3]);
        assert_eq!(session.reading().exit, exit);
        assert_eq!(session.reading().turns, 0);
    }
}

#[test]
fn finishes_by_weight() {
    // ta+1 is 2, and 2·ta+1 is 3.
    let opening = Opening { weights: &[2, 1, 1, 1], ..OPENING };
    let mut session = opened_with(&opening);
    deliver(&mut session, &finish(3, true), &[1]);
    assert_eq!(sent(&mut session), [finish(3, true)]);
    deliver(&mut session, &finish(3, true), &[2]);
    assert_eq!(session.decisions().get(&3), Some(&true));
    let mut session = opened_with(&opening);
    deliver(&mut session, &finish(3, false), &[2]);
    assert_eq!(turn(&mut session), Outcome::Idle);
    deliver(&mut session, &finish(3, false), &[4]);
    assert_eq!(sent(&mut session), [finish(3, false)]);
    assert!(session.decisions().is_empty());
    deliver(&mut session, &finish(3, false), &[3]);
    assert_eq!(session.decisions().get(&3), Some(&false));
}

#[test]
fn with_ta_0_one_finish_decides() {
    let mut session = opened_with(&Opening { ta: 0, ..OPENING });
    deliver(&mut session, &finish(3, false), &[2]);
    assert_eq!(session.decisions().get(&3), Some(&false));
    assert_eq!(sent(&mut session), [finish(3, false)]);
}
