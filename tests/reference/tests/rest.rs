//! Document 02, N6, what planners must know: with one liar that falls silent, a version 2 session can come to rest
//! without closing where a version 1 session closes. n = 4, ta = ts = 1; concentrator 4 lies.
//!
//! In vote 4, concentrator 1 sees AUXs of 1 alone, one of them the liar's, decides 1, sends its FINISH and does nothing more.
//! Concentrators 2 and 3 see both values, take the coin, and wait in round 2 for a third AUX. Version 1 has that of
//! concentrator 1. In version 2 they hold one FINISH, and only ta+1 would move them.

use std::collections::BTreeMap;

use pack_reference::message::LONGEST;
use pack_reference::{Message, Number, Opening, Outcome, Session, Settings, Version};

const SESSION: u32 = 7;
const HONEST: [Number; 3] = [1, 2, 3];
const LIAR: Number = 4;

/// One message of each of these senders, to each of these receivers.
type Step = (&'static [Number], Message, &'static [Number]);

fn ready(instance: Number) -> Message {
    Message::Ready { instance, value: u64::from(instance) }
}

fn est(instance: Number, value: bool) -> Message {
    Message::Est { instance, round: 1, value }
}

fn aux(instance: Number, value: bool) -> Message {
    Message::Aux { instance, round: 1, value }
}

/// The deliveries, in order; all are of round 1. After each step, concentrators 1, 2 and 3 turn until idle. Concentrator p puts
/// in pack p. The liar says three things: its SEND, an EST and an AUX, these two to concentrator 1 only.
fn steps() -> Vec<Step> {
    let mut steps: Vec<Step> = Vec::new();
    let alone: [&'static [Number]; 4] = [&[1], &[2], &[3], &[4]];
    for (sender, value) in alone.into_iter().zip(1..) {
        steps.push((sender, Message::Send { value }, &[1, 2, 3]));
    }
    for instance in 1..=4 {
        let value = u64::from(instance);
        steps.push((&[1, 2, 3], Message::Echo { instance, value }, &[1, 2, 3]));
    }
    // Broadcast 4 has output at 1 and 2, not at 3.
    steps.push((&[1, 2, 3], ready(4), &[1, 2]));
    steps.extend([1, 2, 3].map(|i| -> Step { (&[1, 2, 3], ready(i), &[1, 2, 3]) }));
    steps.extend([1, 2, 3].map(|i| -> Step { (&[1, 2, 3], est(i, true), &[1, 2, 3]) }));
    // Votes 1 to 3 are decided 1, so that 3 starts vote 4 with 0.
    steps.extend([1, 2, 3].map(|i| -> Step { (&[1, 2, 3], aux(i, true), &[1, 2, 3]) }));
    let vote_4: [Step; 10] = [
        // 3 relays 1; with that, 1 and 2 accept 1 and send AUX 1.
        (&[1, 2], est(4, true), &[1, 2, 3]),
        (&[3], est(4, true), &[1, 2]),
        // The liar's EST has 1 relay 0, then 2 does; 3 accepts 0 and sends AUX 0.
        (&[4], est(4, false), &[1]),
        (&[3], est(4, false), &[1, 2, 3]),
        (&[1], est(4, false), &[2, 3]),
        (&[2], est(4, false), &[3]),
        // 1 holds AUXs of 1 alone and decides 1.
        (&[1, 2], aux(4, true), &[1]),
        (&[4], aux(4, true), &[1]),
        // 2 and 3 hold both values.
        (&[1, 2], aux(4, true), &[2, 3]),
        (&[3], aux(4, false), &[1, 2, 3]),
    ];
    steps.extend(vote_4);
    steps
}

struct Feeder {
    version: Version,
    honest: BTreeMap<Number, Session>,
    /// Sender and bytes, in order of sending.
    sent: Vec<(Number, Vec<u8>)>,
}

impl Feeder {
    fn open(version: Version) -> Feeder {
        let opening = |own: Number| Opening {
            version: version.number(),
            n: 4,
            ta: 1,
            ts: 1,
            own: own.into(),
            session: SESSION,
            input: own.into(),
            coins: &[u32::MAX; 4],
            weights: Settings::ones(4),
            boxed: 0,
        };
        let honest = HONEST.map(|own| (own, Session::open(&opening(own)).unwrap())).into();
        Feeder { version, honest, sent: Vec::new() }
    }

    /// All turn until idle or closed.
    fn act(&mut self) {
        for (&number, session) in &mut self.honest {
            loop {
                match session.turn(&mut [0; LONGEST]) {
                    Ok(Outcome::Sent(message)) => self.sent.push((number, session.bytes(&message))),
                    Ok(Outcome::MovedOut) => {}
                    Ok(Outcome::Idle | Outcome::InForce) | Err(_) => break,
                }
            }
        }
    }

    fn take(&mut self, (senders, message, receivers): &Step) {
        for &sender in *senders {
            let bytes = message.to_bytes(self.version, sender, SESSION);
            let credited = sender == LIAR || self.sent.contains(&(sender, bytes.clone()));
            assert!(credited, "{message:?} was not sent by {sender}");
            for receiver in *receivers {
                let session = self.honest.get_mut(receiver).unwrap();
                assert_eq!(session.deliver(sender.into(), &bytes), Ok(()), "{message:?}");
            }
        }
        self.act();
    }

    /// Everything that an honest one ever sent goes to all of them, until nothing is left.
    fn come_to_rest(&mut self) {
        let mut delivered = 0;
        while delivered < self.sent.len() {
            let (sender, bytes) = self.sent[delivered].clone();
            delivered += 1;
            for session in self.honest.values_mut() {
                // Held where a step delivered it.
                let _ = session.deliver(sender.into(), &bytes);
            }
            self.act();
        }
    }

    fn closed(&self) -> usize {
        self.honest.values().filter(|session| session.is_closed()).count()
    }
}

fn at_rest(version: Version) -> Feeder {
    let mut feeder = Feeder::open(version);
    feeder.act();
    steps().iter().for_each(|step| feeder.take(step));
    feeder.come_to_rest();
    feeder
}

#[test]
fn version_1_closes() {
    assert_eq!(at_rest(Version::One).closed(), 3);
}

#[test]
fn version_2_rests_without_closing() {
    let mut feeder = at_rest(Version::Two);
    assert_eq!(feeder.closed(), 0);
    let decided = |number: Number| feeder.honest[&number].decisions().len();
    assert_eq!(HONEST.map(decided), [4, 3, 3]);
    // Each has the one FINISH of vote 4, and no one anything to do.
    let finish = Message::Finish { instance: 4, value: true };
    let is_finish = |(_, bytes): &&(Number, Vec<u8>)| bytes[1] == 7 && bytes[3] == 4;
    let finishes: Vec<_> = feeder.sent.iter().filter(is_finish).cloned().collect();
    assert_eq!(finishes, [(1, finish.to_bytes(Version::Two, 1, SESSION))]);
    for session in feeder.honest.values_mut() {
        assert_eq!(session.turn(&mut [0; LONGEST]), Ok(Outcome::Idle));
    }
}
