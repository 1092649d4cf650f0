//! Document 02, N12: boxed sessions, recorded bits and their lines.

use pack_reference::coin_box::{BoxOpening, CoinBox, Reply};
use pack_reference::journal::{restore, NotRestored, Restored, LINE_BYTES};
use pack_reference::message::LONGEST;
use pack_reference::{Fault, Message, Opening, Outcome, Refusal, Session, Version};

const OPENING: Opening = Opening {
    version: 1,
    n: 4,
    ta: 1,
    ts: 1,
    own: 1,
    session: 7,
    input: 5,
    coins: &[0; 4],
    weights: &[1; 4],
    boxed: 1,
};
const OPENING_LINE: &str = "O\t1\t4\t1\t1\t1\t7\t0000000000000005\t00000000\t00000000\t00000000\t00000000\t1\t1\t1\t1\t1\n";

fn opened() -> Session {
    Session::open(&OPENING).unwrap()
}

fn turn(session: &mut Session) -> Outcome {
    session.turn(&mut [0; LONGEST]).unwrap()
}

fn deliver(session: &mut Session, senders: &[u8], message: &Message) {
    for &sender in senders {
        session
            .deliver(u64::from(sender), &message.to_bytes(Version::One, sender, OPENING.session))
            .unwrap();
    }
}

fn est(round: u8, value: bool) -> Message {
    Message::Est { instance: 2, round, value }
}

fn aux(round: u8, value: bool) -> Message {
    Message::Aux { instance: 2, round, value }
}

/// Vote 2 was started.
fn started() -> Session {
    let mut session = opened();
    turn(&mut session);
    deliver(&mut session, &[1, 2, 3], &Message::Ready { instance: 2, value: 9 });
    assert_eq!(
        turn(&mut session),
        Outcome::Sent(Message::Ready { instance: 2, value: 9 }),
        "READYs of ts+1"
    );
    assert_eq!(turn(&mut session), Outcome::Sent(est(1, true)));
    session
}

/// All that a move out of this round wants but the coin; the AUXs carry the values of these senders.
fn ready_to_move(session: &mut Session, round: u8, values: [bool; 3]) {
    for value in [false, true] {
        deliver(session, &[1, 2, 3], &est(round, value));
    }
    for (sender, value) in (1..).zip(values) {
        deliver(session, &[sender], &aux(round, value));
    }
    while let Outcome::Sent(_) = turn(session) {}
}

#[test]
fn opening_says_printed_or_boxed() {
    assert!(Session::open(&OPENING).is_ok());
    for boxed in [2, 3, 255, 256, 1 << 32, u64::MAX] {
        let refused = Session::open(&Opening { boxed, ..OPENING }).err();
        assert_eq!(refused, Some(Refusal::Settings), "{boxed}");
    }
    let words = &[0, 0, 0, 1 << 31];
    let refused = Session::open(&Opening { coins: words, ..OPENING }).err();
    assert_eq!(refused, Some(Refusal::Settings));
    assert!(Session::open(&Opening { coins: words, boxed: 0, ..OPENING }).is_ok());
    for coins in [&[0; 3][..], &[0; 5]] {
        let refused = Session::open(&Opening { coins, ..OPENING }).err();
        assert_eq!(refused, Some(Refusal::Settings));
    }
}

#[test]
fn a_move_waits_for_its_bit() {
    // With both values carried, and with one.
    for (values, bit, estimate) in
        [([true, true, false], 0, false), ([true; 3], 0, true), ([true; 3], 1, true)]
    {
        let mut session = started();
        ready_to_move(&mut session, 1, values);
        assert_eq!(turn(&mut session), Outcome::Idle, "{values:?}");
        // Bits of other rounds and votes do not help.
        session.record(2, 2, 1).unwrap();
        session.record(1, 1, 1).unwrap();
        assert_eq!(turn(&mut session), Outcome::Idle, "{values:?}");
        session.record(2, 1, bit).unwrap();
        assert_eq!(turn(&mut session), Outcome::Sent(est(2, estimate)), "{values:?}, {bit}");
    }
}

#[test]
fn a_recorded_bit_decides_as_a_printed_one() {
    for bit in [0, 1] {
        let mut boxed = started();
        let coins = &[0, bit, 0, 0];
        let mut printed = Session::open(&Opening { coins, boxed: 0, ..OPENING }).unwrap();
        for message in [Message::Ready { instance: 2, value: 9 }] {
            deliver(&mut printed, &[1, 2, 3], &message);
        }
        while let Outcome::Sent(_) = turn(&mut printed) {}
        ready_to_move(&mut boxed, 1, [true; 3]);
        boxed.record(2, 1, u64::from(bit)).unwrap();
        while let Outcome::Sent(_) = turn(&mut boxed) {}
        ready_to_move(&mut printed, 1, [true; 3]);
        assert_eq!(boxed.reading(), printed.reading());
    }
}

#[test]
fn the_move_out_of_round_32_waits() {
    let mut session = started();
    for round in 1..=31 {
        session.record(2, u64::from(round), 0).unwrap();
        ready_to_move(&mut session, round, [true; 3]);
    }
    ready_to_move(&mut session, 32, [true, false, true]);
    assert_eq!(turn(&mut session), Outcome::Idle);
    session.record(2, 32, 1).unwrap();
    assert_eq!(turn(&mut session), Outcome::MovedOut);
    assert_eq!(turn(&mut session), Outcome::Idle);
}

#[test]
fn an_engine_with_the_fault_does_not_wait() {
    let mut session = Session::open_with(&OPENING, Fault::UnrecordedCoin).unwrap();
    deliver(&mut session, &[1, 2, 3], &Message::Ready { instance: 2, value: 9 });
    while let Outcome::Sent(_) = turn(&mut session) {}
    ready_to_move(&mut session, 1, [true, true, false]);
    session.record(2, 2, 1).unwrap();
    deliver(&mut session, &[1, 2, 3], &est(2, false));
    assert_eq!(turn(&mut session), Outcome::Sent(aux(2, false)));
}

#[test]
fn what_a_recording_refuses() {
    let mut session = opened();
    let outside = [0, 5, 33, 255, 257, 1 << 32, u64::MAX];
    for number in outside {
        assert_eq!(session.record(number, 1, 0), Err(Refusal::Coin), "vote {number}");
        let round = if number == 5 { 33 } else { number };
        assert_eq!(session.record(1, round, 0), Err(Refusal::Coin), "round {round}");
        let bit = if number == 0 { 2 } else { number };
        assert_eq!(session.record(1, 1, bit), Err(Refusal::Coin), "bit {bit}");
    }
    assert_eq!(session, opened());
    // Any vote and round of the layout, once and again, but not otherwise.
    for (vote, round, bit) in [(1, 1, 0), (4, 32, 1), (2, 17, 1)] {
        assert_eq!(session.record(vote, round, bit), Ok(()));
        let before = session.clone();
        assert_eq!(session.record(vote, round, bit), Ok(()));
        assert_eq!(session.record(vote, round, 1 - bit), Err(Refusal::Coin));
        assert_eq!(session, before);
    }
    let mut printed = Session::open(&Opening { boxed: 0, ..OPENING }).unwrap();
    assert_eq!(printed.record(1, 1, 0), Err(Refusal::Coin));
    assert_eq!(printed.record(9, 1, 0), Err(Refusal::Coin));
}

#[test]
fn the_order_of_refusals() {
    let (mut short, mut line) = ([0xa5; LINE_BYTES - 1], [0xa5; LINE_BYTES + 1]);
    let mut session = opened();
    // 16 before 8, and 8 changes nothing.
    assert_eq!(session.record_with_line(5, 1, 0, &mut short), Err(Refusal::Coin));
    assert_eq!(session.record_with_line(4, 32, 1, &mut short), Err(Refusal::Short));
    assert_eq!(session, opened());
    let length = session.record_with_line(4, 32, 1, &mut line).unwrap();
    assert_eq!(&line[..length], b"K\t4\t32\t1\n");
    assert!(line[length..].iter().all(|&byte| byte == 0xa5));
    assert_eq!(session.record_with_line(4, 32, 0, &mut short), Err(Refusal::Coin));
    assert_eq!(session.record_with_line(4, 32, 1, &mut short), Err(Refusal::Short));
    // A repeat writes its line too.
    assert_eq!(session.record_with_line(4, 32, 1, &mut line), Ok(length));
    // 10 before 16 and 8.
    let commit = Message::Commit { values: [5].into() };
    deliver(&mut session, &[2, 3, 4], &commit);
    assert_eq!(turn(&mut session), Outcome::InForce);
    let closed = session.clone();
    assert_eq!(session.record_with_line(4, 31, 1, &mut line), Err(Refusal::Closed));
    assert_eq!(session.record_with_line(5, 1, 2, &mut short), Err(Refusal::Closed));
    assert_eq!(session, closed);
    assert!(short.iter().all(|&byte| byte == 0xa5));
}

fn restored(journal: &str) -> Result<Restored, NotRestored> {
    restore(journal.as_bytes(), &mut [0; LONGEST], Fault::None)
}

fn refused_at(journal: &str) -> Option<u64> {
    match restored(journal) {
        Err(NotRestored::Journal { line }) => Some(line),
        other => {
            assert!(other.is_ok());
            None
        }
    }
}

#[test]
fn journals_with_recordings() {
    let line = &mut [0; LINE_BYTES];
    let (mut session, length) = Session::open_with_line(&OPENING, Fault::None, line).unwrap();
    assert_eq!(&line[..length], OPENING_LINE.as_bytes());
    session.record(3, 2, 1).unwrap();
    turn(&mut session);
    let given = restored(&format!("{OPENING_LINE}K\t3\t2\t1\nT\n")).unwrap();
    assert_eq!(given.session, session);
    assert!(given.message.is_some());
    // A recording sends no message; a repeat is a line as any other.
    let given = restored(&format!("{OPENING_LINE}T\nK\t3\t2\t1\nK\t3\t2\t1\nK\t")).unwrap();
    assert_eq!((given.session, given.message), (session, None));
    let wrong = [
        "k\t1\t1\t0",
        "K\t1\t1",
        "K\t1\t1\t0\t",
        "K\t1\t1\t0\r",
        "K\t01\t1\t0",
        "K\t1\t1\t00",
        "K\t1\t\t0",
        "K\t5\t1\t0",
        "K\t1\t33\t0",
        "K\t0\t1\t0",
        "K\t1\t0\t0",
        "K\t1\t1\t2",
        "K\t18446744073709551617\t1\t0",
        "K\t1\t1\t0\nK\t1\t1\t1",
    ];
    for line in wrong {
        let at = 1 + line.lines().count() as u64;
        assert_eq!(refused_at(&format!("{OPENING_LINE}{line}\nT\n")), Some(at), "{line:?}");
    }
    assert_eq!(refused_at("K\t1\t1\t0\n"), Some(1));
    let printed = OPENING_LINE.replace("\t1\n", "\t0\n");
    assert_eq!(refused_at(&format!("{printed}K\t1\t1\t0\n")), Some(2));
}

#[test]
fn older_opening_lines_are_printed() {
    let printed = Session::open(&Opening { boxed: 0, ..OPENING }).unwrap();
    let newest = OPENING_LINE.replace("\t1\n", "\t0\n");
    let weighted = OPENING_LINE.replace("\t1\n", "\n");
    let oldest = OPENING_LINE.replace("\t1\t1\t1\t1\t1\n", "\n");
    for line in [newest, weighted, oldest] {
        assert_eq!(restored(&line).map(|given| given.session), Ok(printed.clone()), "{line:?}");
    }
    assert_eq!(restored(OPENING_LINE).map(|given| given.session), Ok(opened()));
    // Coins in a boxed session, a flag above 1, a flag with no weights, and a field more.
    let refused = [
        OPENING_LINE.replacen("00000000\t1", "00000001\t1", 1),
        OPENING_LINE.replace("\t1\n", "\t2\n"),
        OPENING_LINE.replace("\t1\t1\t1\t1\t1\n", "\t1\n"),
        OPENING_LINE.replace("\t1\n", "\t1\t1\n"),
        OPENING_LINE.replace("\t1\n", "\t01\n"),
    ];
    for line in refused {
        assert_eq!(refused_at(&line), Some(1), "{line:?}");
    }
}

/// What a host does: a turn, its message to all, and the coins that its votes wait for.
struct Host {
    session: Session,
    rounds: [u8; 5],
    waiting: Vec<(u8, u8)>,
}

impl Host {
    /// Turns until idle. Answers what was sent.
    fn act(&mut self) -> Vec<Vec<u8>> {
        let mut sent = Vec::new();
        let own = self.session.own();
        while !self.session.is_closed() {
            match turn(&mut self.session) {
                Outcome::Sent(message) => {
                    if let Message::Est { instance, round, .. } = message {
                        let known = &mut self.rounds[usize::from(instance)];
                        if *known < round {
                            *known = round;
                            self.waiting.push((instance, round));
                        }
                    }
                    sent.push(message.to_bytes(Version::One, own, OPENING.session));
                }
                Outcome::Idle => break,
                Outcome::MovedOut | Outcome::InForce => {}
            }
        }
        sent
    }

    /// Asks for all coins that are waited for, and records those that are not sealed.
    fn ask(&mut self, coin_box: &mut CoinBox) {
        let own = u64::from(self.session.own());
        let session = &mut self.session;
        self.waiting.retain(|&(vote, round)| {
            let [vote, round] = [vote, round].map(u64::from);
            match coin_box.request(own, vote, round).unwrap() {
                Reply::Sealed => true,
                Reply::Bit(bit) => session.record(vote, round, u64::from(bit)).is_err(),
            }
        });
    }
}

#[test]
fn a_boxed_session_runs_to_agreement() {
    let coins = &[0x5555_5555, 0xaaaa_aaaa, 0xffff_0000, 0x0000_ffff];
    let opening = BoxOpening { n: 4, ta: 1, ts: 1, coins, weights: &[1; 4] };
    let mut coin_box = CoinBox::open(&opening).unwrap();
    let open = |own| {
        let opening = Opening { own, input: 10 + own, ..OPENING };
        let session = Session::open(&opening).unwrap();
        Host { session, rounds: [0; 5], waiting: Vec::new() }
    };
    let mut hosts: Vec<Host> = (1..=4).map(open).collect();
    let mut recorded = 0;
    loop {
        let mut sent = Vec::new();
        for host in &mut hosts {
            sent.extend(host.act());
        }
        for host in hosts.iter_mut().filter(|host| !host.session.is_closed()) {
            recorded += host.waiting.len();
            host.ask(&mut coin_box);
            recorded -= host.waiting.len();
        }
        for host in &mut hosts {
            for bytes in &sent {
                let _ = host.session.deliver(u64::from(bytes[2]), bytes);
            }
        }
        if hosts.iter().all(|host| host.session.is_closed()) {
            break;
        }
    }
    assert!(recorded > 8, "{recorded}");
    let set = hosts[0].session.reading().in_force;
    assert!(set.as_ref().is_some_and(|set| set.len() >= 3), "{set:?}");
    assert!(hosts.iter().all(|host| host.session.reading().in_force == set));
}
