//! Document 02, N2: AUX carries the value that was accepted first, as deliveries recorded it.

use pack_reference::journal::{restore, LINE_BYTES};
use pack_reference::message::LONGEST;
use pack_reference::{Fault, Message, Number, Opening, Outcome, PackSet, Session, Version};

const SESSION: u32 = 7;
const ONES: &[u32] = &[u32::MAX; 4];

/// Concentrator 4 of four; ta = ts = 1, so 2·ta+1 = 3; all coins 1.
const OPENING: Opening = Opening {
    version: 1,
    n: 4,
    ta: 1,
    ts: 1,
    own: 4,
    session: SESSION,
    input: 4,
    coins: ONES,
    weights: &[1; 4],
    boxed: 0,
};

fn deliver(session: &mut Session, version: Version, sender: Number, message: &Message) {
    let bytes = message.to_bytes(version, sender, SESSION);
    assert_eq!(session.deliver(sender.into(), &bytes), Ok(()), "{message:?} of {sender}");
}

/// Turns until idle or closed: what was sent.
fn sent(session: &mut Session) -> Vec<Message> {
    let mut messages = Vec::new();
    loop {
        match session.turn(&mut [0; LONGEST]) {
            Ok(Outcome::Sent(message)) => messages.push(message),
            Ok(Outcome::MovedOut) => {}
            Ok(Outcome::Idle | Outcome::InForce) | Err(_) => return messages,
        }
    }
}

/// The value of the AUX of a round of vote 1 among some messages.
fn aux_of(round: u8, messages: &[Message]) -> Option<bool> {
    messages.iter().find_map(|message| match *message {
        Message::Aux { instance: 1, round: of, value } if of == round => Some(value),
        _ => None,
    })
}

/// A session whose vote 1 is in round 1, started with 1.
fn started(opening: &Opening, version: Version) -> Session {
    let mut session = Session::open(opening).unwrap();
    for sender in 1..=3 {
        deliver(&mut session, version, sender, &Message::Ready { instance: 1, value: 5 });
    }
    let start = Message::Est { instance: 1, round: 1, value: true };
    assert!(sent(&mut session).contains(&start));
    session
}

fn deliver_ests(session: &mut Session, version: Version, round: u8, ests: &[(Number, bool)]) {
    for &(sender, value) in ests {
        deliver(session, version, sender, &Message::Est { instance: 1, round, value });
    }
}

/// The AUX of round 1 after these ESTs, with no turn between them; the same in both versions.
fn aux_after(weights: &[u8], ests: &[(Number, bool)]) -> Option<bool> {
    let of = |version: Version| {
        let opening = Opening { version: version.number(), weights, ..OPENING };
        let mut session = started(&opening, version);
        deliver_ests(&mut session, version, 1, ests);
        aux_of(1, &sent(&mut session))
    };
    let [one, two] = Version::ALL.map(of);
    assert_eq!(one, two);
    one
}

#[test]
fn one_accepted_value_goes() {
    let ones = [(1, true), (2, true), (3, true)];
    assert_eq!(aux_after(&[1; 4], &ones), Some(true));
    assert_eq!(aux_after(&[1; 4], &ones.map(|(sender, _)| (sender, false))), Some(false));
    assert_eq!(aux_after(&[1; 4], &ones[..2]), None);
}

#[test]
fn of_two_the_first_complete_goes() {
    for first in [false, true] {
        let complete = [(1, first), (2, first), (3, first)];
        let other = complete.map(|(sender, value)| (sender, !value));
        assert_eq!(aux_after(&[1; 4], &[complete, other].concat()), Some(first));
        // What came first does not matter, nor that the other one has more senders then.
        let late = [(4, !first), (1, !first), (1, first), (2, first), (3, first), (2, !first)];
        assert_eq!(aux_after(&[1; 4], &[&late[..], &[(3, !first)]].concat()), Some(first));
    }
}

#[test]
fn weight_makes_complete() {
    // Sender 1 weighs 3, as much as 2, 3 and 4 together.
    let light = |value: bool| [(2, value), (3, value), (4, value)];
    for first in [false, true] {
        let ests = [&light(!first)[..2], &[(1, first)], &light(!first)[2..]].concat();
        assert_eq!(aux_after(&[3, 1, 1, 1], &ests), Some(first));
    }
}

#[test]
fn rounds_that_are_not_entered_are_recorded_too() {
    for first in [false, true] {
        let mut session = started(&OPENING, Version::One);
        let ests = |value: bool| [(1, value), (2, value), (3, value)];
        deliver_ests(&mut session, Version::One, 2, &[ests(first), ests(!first)].concat());
        deliver_ests(&mut session, Version::One, 1, &ests(true));
        assert_eq!(aux_of(1, &sent(&mut session)), Some(true));
        for sender in 1..=3 {
            let aux = Message::Aux { instance: 1, round: 1, value: true };
            deliver(&mut session, Version::One, sender, &aux);
        }
        assert_eq!(aux_of(2, &sent(&mut session)), Some(first));
    }
}

/// The journal of a session that holds both values of vote 1, 1 first, and has sent its AUX last; and that session.
fn journal_up_to_aux(fault: Fault) -> (Vec<u8>, Session) {
    let line = &mut [0; LINE_BYTES];
    let (mut session, length) = Session::open_with_line(&OPENING, fault, line).unwrap();
    let mut journal = line[..length].to_vec();
    let est = |value: bool| Message::Est { instance: 1, round: 1, value };
    for message in [Message::Ready { instance: 1, value: 5 }, est(true), est(false)] {
        for sender in 1..=3 {
            let bytes = message.to_bytes(Version::One, sender, SESSION);
            let length = session.deliver_with_line(sender.into(), &bytes, line).unwrap();
            journal.extend_from_slice(&line[..length]);
        }
    }
    // SEND, READY, start, relay of 0, AUX.
    for _ in 0..5 {
        session.turn_with_line(&mut [0; LONGEST], line).unwrap();
        journal.extend_from_slice(b"T\n");
    }
    (journal, session)
}

fn aux_bytes(value: bool) -> Option<Vec<u8>> {
    Some(Message::Aux { instance: 1, round: 1, value }.to_bytes(Version::One, 4, SESSION))
}

#[test]
fn a_journal_gives_the_first_value_back() {
    let (journal, session) = journal_up_to_aux(Fault::None);
    let restored = restore(&journal, &mut [0; LONGEST], Fault::None).unwrap();
    assert_eq!((restored.session, restored.message), (session, aux_bytes(true)));
}

/// Why a session has to end with the engine that it was opened with.
#[test]
fn a_journal_of_the_aux_of_01_gives_another_aux() {
    let (journal, _) = journal_up_to_aux(Fault::ZeroBeforeOne);
    let given = |fault| restore(&journal, &mut [0; LONGEST], fault).unwrap().message;
    assert_eq!(given(Fault::ZeroBeforeOne), aux_bytes(false));
    assert_eq!(given(Fault::None), aux_bytes(true));
}

/// Four honest ones, each with its own pack, on engines that may have the AUX of 01.
struct Feeder {
    honest: Vec<Session>,
    sent: Vec<(Number, Message)>,
    /// Of the messages sent, how many were shared.
    shared: usize,
}

impl Feeder {
    fn open(fault: Fault) -> Feeder {
        // Vote 4 can be decided 1 in round 1, and 0 from round 2 on.
        let coins: &[u32] = &[u32::MAX, u32::MAX, u32::MAX, 1];
        let opening = |own: u64| Opening { own, input: own, coins, ..OPENING };
        let open = |own: u64| Session::open_with(&opening(own), fault).unwrap();
        Feeder { honest: (1..=4).map(open).collect(), sent: Vec::new(), shared: 0 }
    }

    /// All turn until idle; then what was sent and not shared goes to all but those who are kept from it, in order of sending.
    fn share(&mut self, is_kept: impl Fn(&Message, Number) -> bool) {
        for (session, number) in self.honest.iter_mut().zip(1..) {
            self.sent.extend(sent(session).into_iter().map(|message| (number, message)));
        }
        for (sender, message) in &self.sent[self.shared..] {
            let bytes = message.to_bytes(Version::One, *sender, SESSION);
            for (session, number) in self.honest.iter_mut().zip(1..) {
                if !is_kept(message, number) {
                    // Refused where it is held, or the session is closed.
                    let _ = session.deliver((*sender).into(), &bytes);
                }
            }
        }
        self.shared = self.sent.len();
    }

    fn sets(&self) -> Vec<Option<PackSet>> {
        let report = |session: &Session| session.report(&mut [0; 16], &mut [0; 16]).unwrap();
        self.honest.iter().map(|session| report(session).in_force).collect()
    }
}

/// Broadcast 4 comes late to 1 and 2, who start its vote with 0. Then the last ESTs of both values come between two turns, those
/// of 1 first: with the AUX of 01 all leave pack 4 out.
#[test]
fn a_busy_session_keeps_a_pack() {
    let is_late = |message: &Message, to: Number| match message {
        Message::Ready { instance: 4, .. } => to <= 2,
        Message::Est { instance: 4, .. } => true,
        _ => false,
    };
    for (fault, packs) in [(Fault::ZeroBeforeOne, 1..=3), (Fault::None, 1..=4)] {
        let mut feeder = Feeder::open(fault);
        // SENDs, ECHOs, READYs, ESTs, AUXs; then all messages again.
        (0..5).for_each(|_| feeder.share(is_late));
        feeder.shared = 0;
        (0..20).for_each(|_| feeder.share(|_, _| false));
        let set: PackSet = packs.collect();
        assert_eq!(feeder.sets(), vec![Some(set); 4], "{fault:?}");
    }
}
