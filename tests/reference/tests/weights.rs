//! Document 02, N11: settings, thresholds and exits with weights.

use std::collections::BTreeMap;

use pack_reference::exits::exit;
use pack_reference::message::LONGEST;
use pack_reference::{
    Exit, Fault, Message, Number, Opening, Outcome, PackSet, Refusal, Session, Settings, Version,
};

const SESSION: u32 = 7;

/// Concentrator n of n, with input 9.
fn open(n: u64, ta: u64, ts: u64, weights: &[u8]) -> Result<Session, Refusal> {
    let coins = &vec![0; n as usize][..];
    let (own, session, input, boxed) = (n, SESSION, 9, 0);
    Session::open(&Opening { version: 1, n, ta, ts, own, session, input, coins, weights, boxed })
}

#[test]
fn settings_on_the_edge() {
    let taken: [(u64, u64, &[u8]); 7] = [
        (1, 1, &[4]),
        (1, 1, &[4, 1]),
        (1, 1, &[2, 1, 1]),
        (21, 21, &[4; 16]),
        (0, 31, &[4; 16]),
        (1, 31, &[4; 16]),
        (255, 31, &[4; 16]),
    ];
    for (ta, ts, weights) in taken {
        assert!(open(weights.len() as u64, ta, ts, weights).is_ok(), "{ta},{ts} {weights:?}");
    }
    let refused: [(u64, u64, &[u8]); 6] = [
        (1, 1, &[3]),
        (1, 1, &[2, 1]),
        (1, 1, &[1, 1, 1]),
        (2, 31, &[4; 16]),
        (0, 32, &[4; 16]),
        (22, 21, &[4; 16]),
    ];
    for (ta, ts, weights) in refused {
        let answer = open(weights.len() as u64, ta, ts, weights);
        assert_eq!(answer.err(), Some(Refusal::Settings), "{ta},{ts} {weights:?}");
    }
}

#[test]
fn weights_out_of_range_or_number() {
    let refused: [&[u8]; 9] = [
        &[0, 1, 1, 4],
        &[1, 1, 1, 0],
        &[5, 1, 1, 1],
        &[1, 1, 1, 255],
        &[1, 9, 1, 1],
        &[],
        &[4, 4, 4],
        &[1, 1, 1, 1, 1],
        &[1; 17],
    ];
    for weights in refused {
        assert_eq!(open(4, 0, 0, weights).err(), Some(Refusal::Settings), "{weights:?}");
    }
}

/// The exit with these weights; an output or a decision of `None` is missing.
fn exit_of<const N: usize>(
    (ta, ts): (u64, u64),
    weights: [u8; N],
    outputs: [Option<u64>; N],
    decisions: [Option<bool>; N],
    fault: Fault,
) -> Exit {
    let settings = Settings::new(N as u64, ta, ts, &weights).unwrap();
    let outputs = (1..).zip(outputs).filter_map(|(i, value)| Some((i, value?)));
    let decisions = (1..).zip(decisions).filter_map(|(i, value)| Some((i, value?)));
    let (outputs, decisions): (BTreeMap<Number, u64>, BTreeMap<Number, bool>) =
        (outputs.collect(), decisions.collect());
    exit(&settings, &outputs, &decisions, fault)
}

const ONES: [Option<bool>; 4] = [Some(true); 4];

#[test]
fn exit_1_of_one_heavy() {
    let exit = |ts| {
        let outputs = [Some(5), None, None, None];
        exit_of((0, ts), [4, 1, 1, 1], outputs, [None; 4], Fault::None)
    };
    assert_eq!(exit(3), Exit::One(5));
    assert_eq!(exit(2), Exit::None);
}

#[test]
fn majority_of_weight() {
    let outputs = [9, 1, 2, 3].map(Some);
    let exit = |weights, fault| exit_of((1, 1), weights, outputs, ONES, fault);
    let all = Exit::Three(PackSet::from([1, 2, 3, 9]));
    assert_eq!(exit([4, 1, 1, 1], Fault::None), Exit::Two(9));
    assert_eq!(exit([4, 1, 1, 1], Fault::HeadMajority), all);
    // Half of S's weight is no majority.
    assert_eq!(exit([3, 1, 1, 1], Fault::None), all);
    assert_eq!(exit([3, 1, 1, 1], Fault::HalfIsMajority), Exit::Two(9));
    // Nor are more than half of the instances.
    let light = [9, 1, 1, 1].map(Some);
    let set = Exit::Three(PackSet::from([1, 9]));
    assert_eq!(exit_of((1, 1), [3, 1, 1, 1], light, ONES, Fault::None), set);
    assert_eq!(exit_of((1, 1), [3, 1, 1, 1], light, ONES, Fault::HeadMajority), Exit::Two(1));
}

#[test]
fn s_is_a_weight() {
    let outputs = [9, 1, 2, 3].map(Some);
    let exit = |decisions: [bool; 4]| {
        exit_of((1, 1), [4, 1, 1, 1], outputs, decisions.map(Some), Fault::None)
    };
    assert_eq!(exit([true, true, true, false]), Exit::Two(9));
    assert_eq!(exit([true, true, false, false]), Exit::None);
    assert_eq!(exit([false, true, true, true]), Exit::None);
}

/// Concentrator 4 of four, with weights 2, 1, 1, 1 and ta = ts = 1; its SEND is out.
fn opened() -> Session {
    let mut session = open(4, 1, 1, &[2, 1, 1, 1]).unwrap();
    assert_eq!(turn(&mut session), Outcome::Sent(Message::Send { value: 9 }));
    session
}

fn turn(session: &mut Session) -> Outcome {
    session.turn(&mut [0; LONGEST]).unwrap()
}

/// Delivers the message from one sender after the other. Answers what the turn after each did.
fn turns_after(session: &mut Session, message: &Message, senders: &[Number]) -> Vec<Outcome> {
    let deliver_and_turn = |&sender: &Number| {
        session
            .deliver(u64::from(sender), &message.to_bytes(Version::One, sender, SESSION))
            .unwrap();
        turn(session)
    };
    senders.iter().map(deliver_and_turn).collect()
}

#[test]
fn broadcasts_by_weight() {
    let (ready, echo) =
        (Message::Ready { instance: 2, value: 5 }, Message::Echo { instance: 3, value: 6 });
    let idle = || Outcome::Idle;
    // ts+1 is 2, and W−ts is 4.
    assert_eq!(turns_after(&mut opened(), &ready, &[1]), [Outcome::Sent(ready.clone())]);
    assert_eq!(turns_after(&mut opened(), &ready, &[2, 3])[0], idle());
    assert_eq!(turns_after(&mut opened(), &echo, &[2, 3, 4]), [idle(), idle(), idle()]);
    let by_echoes = Outcome::Sent(Message::Ready { instance: 3, value: 6 });
    assert_eq!(turns_after(&mut opened(), &echo, &[1, 2, 3]), [idle(), idle(), by_echoes]);
    // Output, and with it the vote's start, from READYs of 4.
    let start = Outcome::Sent(Message::Est { instance: 2, round: 1, value: true });
    let sent = Outcome::Sent(ready.clone());
    assert_eq!(turns_after(&mut opened(), &ready, &[1, 2, 3]), [sent, idle(), start]);
}

#[test]
fn votes_by_weight() {
    let mut session = opened();
    let ready = Message::Ready { instance: 2, value: 5 };
    turns_after(&mut session, &ready, &[1, 2, 3]);
    let est = Message::Est { instance: 2, round: 1, value: false };
    let aux = Message::Aux { instance: 2, round: 1, value: false };
    // Relayed from ta+1 = 2, accepted from 2·ta+1 = 3, moved on from W−ta = 4.
    let (relay, own_aux) = (Outcome::Sent(est.clone()), Outcome::Sent(aux.clone()));
    assert_eq!(turns_after(&mut session, &est, &[1, 3]), [relay, own_aux]);
    let next = Outcome::Sent(Message::Est { instance: 2, round: 2, value: false });
    assert_eq!(turns_after(&mut session, &aux, &[2, 1, 3]), [Outcome::Idle, Outcome::Idle, next]);
}

#[test]
fn commits_by_weight() {
    let commit = Message::Commit { values: PackSet::from([3, 5]) };
    let repeat = || Outcome::Sent(commit.clone());
    let outcomes = turns_after(&mut opened(), &commit, &[1, 2, 3]);
    assert_eq!(outcomes, [repeat(), Outcome::Idle, Outcome::InForce]);
    let outcomes = turns_after(&mut opened(), &commit, &[2, 3, 4]);
    assert_eq!(outcomes, [Outcome::Idle, repeat(), Outcome::Idle]);
}
