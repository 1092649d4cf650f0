//! The tables, settings and message layout of document 01, all weights being 1.

use std::collections::BTreeMap;

use pack_reference::exits::exit;
use pack_reference::{
    Exit, Fault, Message, Number, Opening, Outcome, PackSet, Refusal, Session, Settings, Version,
};

const SESSION: u32 = 0x0102_0304;

/// The table's columns: outputs with `-` for none, decisions with `?` for none.
fn table_exit(broadcasts: &str, votes: &str, fault: Fault) -> Exit {
    let numbered = |text: &str| -> Vec<(Number, char)> {
        (1..).zip(text.split(' ').map(|field| field.chars().next().unwrap())).collect()
    };
    let outputs: BTreeMap<Number, u64> = numbered(broadcasts)
        .into_iter()
        .filter_map(|(number, sign)| Some((number, u64::from(sign.to_digit(10)?))))
        .collect();
    let decisions: BTreeMap<Number, bool> = numbered(votes)
        .into_iter()
        .filter_map(|(number, sign)| Some((number, sign.to_digit(10)? == 1)))
        .collect();
    exit(&Settings::unweighted(4, 1, 1).unwrap(), &outputs, &decisions, fault)
}

#[test]
fn table_of_exits() {
    let rows = [
        ("5 5 5 -", "? ? ? ?", Exit::One(5)),
        ("5 5 - -", "? ? ? ?", Exit::None),
        ("5 5 6 -", "1 1 1 0", Exit::Two(5)),
        ("5 5 - -", "1 1 1 0", Exit::Two(5)),
        ("5 5 6 -", "1 1 1 ?", Exit::None),
        ("5 7 6 -", "1 1 1 0", Exit::Three(PackSet::from([5, 6, 7]))),
        ("5 7 - -", "1 1 1 0", Exit::None),
        ("5 6 - -", "1 1 0 0", Exit::None),
        ("5 5 6 6", "1 1 1 1", Exit::Three(PackSet::from([5, 6]))),
    ];
    for (broadcasts, votes, answer) in rows {
        assert_eq!(table_exit(broadcasts, votes, Fault::None), answer, "{broadcasts} | {votes}");
    }
}

#[test]
fn faults_change_their_rows() {
    assert_eq!(table_exit("5 5 6 -", "1 1 1 ?", Fault::OpenVote), Exit::Two(5));
    assert_eq!(table_exit("5 5 6 6", "1 1 1 1", Fault::HalfIsMajority), Exit::Two(5));
}

fn opening(n: u64, ta: u64, ts: u64, own: u64, coins: &[u32]) -> Opening<'_> {
    let weights = Settings::ones(n);
    let (version, session, input, boxed) = (1, SESSION, 5, 0);
    Opening { version, n, ta, ts, own, session, input, coins, weights, boxed }
}

fn open(n: u64, ta: u64, ts: u64) -> Result<Session, Refusal> {
    Session::open(&opening(n, ta, ts, 1, &vec![0; n as usize]))
}

#[test]
fn settings_on_the_edge() {
    for (n, ta, ts) in [(4, 1, 1), (7, 0, 3), (1, 0, 0), (16, 5, 5), (16, 255, 7), (4, 255, 0)] {
        assert!(open(n, ta, ts).is_ok(), "{n},{ta},{ts}");
    }
    for (n, ta, ts) in [(3, 1, 1), (4, 1, 0), (0, 0, 0), (17, 0, 0), (4, 256, 256), (4, 254, 254)] {
        assert_eq!(open(n, ta, ts).err(), Some(Refusal::Settings), "{n},{ta},{ts}");
    }
    let high = 1 << 63;
    for (n, ta, ts) in [(4, 0, high), (4, high, high), (4, 0, u64::MAX), (4, u64::MAX, u64::MAX)] {
        assert_eq!(open(n, ta, ts).err(), Some(Refusal::Settings), "{n},{ta},{ts}");
    }
    let huge_n = Session::open(&opening(256 + 4, 0, 0, 1, &[0; 4]));
    assert_eq!(huge_n.err(), Some(Refusal::Settings));
}

#[test]
fn own_number_and_coin_words() {
    for own in [0, 5, 257, u64::MAX] {
        let refused = Session::open(&opening(4, 1, 1, own, &[0; 4]));
        assert_eq!(refused.err(), Some(Refusal::Settings), "own {own}");
    }
    for words in [0, 3, 5] {
        let refused = Session::open(&opening(4, 1, 1, 4, &vec![0; words]));
        assert_eq!(refused.err(), Some(Refusal::Settings), "{words} words");
    }
}

/// All six messages, from concentrator 2.
fn messages() -> Vec<Message> {
    vec![
        Message::Send { value: u64::MAX },
        Message::Echo { instance: 4, value: 0 },
        Message::Ready { instance: 1, value: 0x0102_0304_0506_0708 },
        Message::Est { instance: 3, round: 32, value: true },
        Message::Aux { instance: 3, round: 1, value: false },
        Message::Commit { values: PackSet::from([0, 7, u64::MAX]) },
    ]
}

#[test]
fn messages_read_as_written() {
    let settings = Settings::unweighted(4, 1, 1).unwrap();
    for message in messages() {
        let bytes = message.to_bytes(Version::One, 2, SESSION);
        assert_eq!(Message::from_bytes(&bytes, 2, &settings, SESSION), Ok((2, message)));
    }
}

#[test]
fn message_layout() {
    let ready = Message::Ready { instance: 1, value: 0x0102_0304_0506_0708 };
    let bytes = [1, 3, 2, 1, 0, 1, 0, 0, 1, 2, 3, 4, 1, 2, 3, 4, 5, 6, 7, 8];
    assert_eq!(ready.to_bytes(Version::One, 2, SESSION), bytes);
    let commit = Message::Commit { values: PackSet::from([9, 5]) };
    let bytes =
        [1, 6, 2, 0, 0, 2, 0, 0, 1, 2, 3, 4, 0, 0, 0, 0, 0, 0, 0, 5, 0, 0, 0, 0, 0, 0, 0, 9];
    assert_eq!(commit.to_bytes(Version::One, 2, SESSION), bytes);
}

/// Delivers an EST of concentrator 2 with some bytes changed, over the link of `link`.
fn delivered(changes: &[(usize, u8)], link: u64) -> Result<(), Refusal> {
    let mut bytes =
        Message::Est { instance: 3, round: 1, value: true }.to_bytes(Version::One, 2, SESSION);
    for &(place, byte) in changes {
        bytes[place] = byte;
    }
    open(4, 1, 1).unwrap().deliver(link, &bytes)
}

#[test]
fn each_refusal_of_a_message() {
    assert_eq!(delivered(&[], 2), Ok(()));
    let cases: [(usize, u8, Refusal); 15] = [
        (0, 0, Refusal::Kind),
        (0, 2, Refusal::Kind),
        (1, 0, Refusal::Kind),
        (1, 7, Refusal::Kind),
        (2, 3, Refusal::Sender),
        (3, 0, Refusal::Field),
        (3, 5, Refusal::Field),
        (4, 0, Refusal::Field),
        (4, 33, Refusal::Field),
        (5, 2, Refusal::Length),
        (6, 1, Refusal::Field),
        (7, 1, Refusal::Field),
        (11, 5, Refusal::Session),
        (12, 1, Refusal::Value),
        (19, 2, Refusal::Value),
    ];
    for (place, byte, refusal) in cases {
        assert_eq!(delivered(&[(place, byte)], 2), Err(refusal), "byte {place} = {byte}");
    }
    for link in [0, 1, 5, 258, u64::MAX] {
        assert_eq!(delivered(&[], link), Err(Refusal::Sender), "link {link}");
    }
    assert_eq!(delivered(&[(2, 5)], 5), Err(Refusal::Sender));
}

#[test]
fn refusals_of_a_message_in_order() {
    // Each step mends the first fault left; the rest stand.
    let faults = [(5, 0), (1, 9), (8, 9), (2, 9), (6, 1), (12, 1)];
    let refusals = [
        Refusal::Length,
        Refusal::Kind,
        Refusal::Session,
        Refusal::Sender,
        Refusal::Field,
        Refusal::Value,
    ];
    for (mended, refusal) in refusals.into_iter().enumerate() {
        assert_eq!(delivered(&faults[mended..], 2), Err(refusal));
    }
    assert_eq!(delivered(&faults[6..], 2), Ok(()));
}

/// A message of concentrator 2 with the given kind, instance, count byte and values.
fn raw(kind: u8, instance: u8, count: u8, values: &[u64]) -> Vec<u8> {
    let mut bytes = vec![1, kind, 2, instance, 0, count, 0, 0];
    bytes.extend(SESSION.to_be_bytes());
    values.iter().for_each(|value| bytes.extend(value.to_be_bytes()));
    bytes
}

#[test]
fn counts_and_lengths() {
    let deliver = |bytes: &[u8]| open(4, 1, 1).unwrap().deliver(2, bytes);
    for length in 0..12 {
        assert_eq!(deliver(&vec![1; length]), Err(Refusal::Length), "{length} bytes");
    }
    assert_eq!(deliver(&raw(1, 2, 0, &[])), Err(Refusal::Field));
    assert_eq!(deliver(&raw(1, 2, 2, &[5, 6])), Err(Refusal::Field));
    assert_eq!(deliver(&raw(1, 2, 2, &[5])), Err(Refusal::Length));
    assert_eq!(deliver(&raw(1, 3, 1, &[5])), Err(Refusal::Field));
    assert_eq!(deliver(&raw(6, 0, 0, &[])), Err(Refusal::Field));
    assert_eq!(deliver(&raw(6, 1, 1, &[5])), Err(Refusal::Field));
    assert_eq!(deliver(&raw(6, 0, 5, &[1, 2, 3, 4, 5])), Err(Refusal::Field));
    assert_eq!(deliver(&raw(6, 0, 17, &[1; 17])), Err(Refusal::Field));
    assert_eq!(deliver(&raw(6, 0, 2, &[5, 5])), Err(Refusal::Value));
    assert_eq!(deliver(&raw(6, 0, 2, &[6, 5])), Err(Refusal::Value));
    assert_eq!(deliver(&raw(6, 0, 4, &[1, 2, 3, 4])), Ok(()));
    let mut long = raw(6, 0, 1, &[5]);
    long.push(0);
    assert_eq!(deliver(&long), Err(Refusal::Length));
}

#[test]
fn each_place_is_held_once() {
    let mut session = open(4, 1, 1).unwrap();
    for message in messages() {
        let bytes = message.to_bytes(Version::One, 2, SESSION);
        assert_eq!(session.deliver(2, &bytes), Ok(()));
        assert_eq!(session.deliver(2, &bytes), Err(Refusal::Held));
    }
    let deliver = |session: &mut Session, message: Message| {
        session.deliver(2, &message.to_bytes(Version::One, 2, SESSION))
    };
    let held = Err(Refusal::Held);
    assert_eq!(deliver(&mut session, Message::Send { value: 1 }), held);
    assert_eq!(deliver(&mut session, Message::Echo { instance: 4, value: 1 }), held);
    assert_eq!(deliver(&mut session, Message::Echo { instance: 3, value: 1 }), Ok(()));
    assert_eq!(deliver(&mut session, Message::Aux { instance: 3, round: 1, value: true }), held);
    assert_eq!(
        deliver(&mut session, Message::Est { instance: 3, round: 32, value: false }),
        Ok(())
    );
    assert_eq!(deliver(&mut session, Message::Commit { values: PackSet::from([1]) }), held);
}

#[test]
fn short_and_closed() {
    let mut session = open(1, 0, 0).unwrap();
    assert_eq!(session.turn(&mut [0; 139]), Err(Refusal::Short));
    assert_eq!(session.report(&mut [0; 15], &mut [0; 16]), Err(Refusal::Short));
    assert_eq!(session.report(&mut [0; 16], &mut [0; 15]), Err(Refusal::Short));
    let mut lent = [0xaa; 150];
    while let Outcome::Sent(message) = session.turn(&mut lent).unwrap() {
        let bytes = message.to_bytes(Version::One, 1, SESSION);
        assert_eq!(lent[..bytes.len()], bytes);
        assert!(lent[bytes.len()..].iter().all(|&byte| byte == 0xaa));
        session.deliver(1, &bytes).unwrap();
        lent = [0xaa; 150];
    }
    assert!(session.is_closed());
    assert_eq!(session.turn(&mut [0; 0]), Err(Refusal::Closed));
    assert_eq!(session.deliver(1, &[]), Err(Refusal::Closed));
    let (mut named, mut in_force) = ([7; 16], [8; 17]);
    let report = session.report(&mut named, &mut in_force).unwrap();
    assert_eq!((report.exit, report.turns), (Exit::One(5), 5));
    assert_eq!((named[..2].to_vec(), in_force[..2].to_vec()), (vec![5, 7], vec![5, 8]));
}
