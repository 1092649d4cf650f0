//! Document 02, N6: the version of a session, its messages and its lines.

use pack_reference::compare::longest_sessions;
use pack_reference::engine::Reference;
use pack_reference::journal::{restore, NotRestored, LINE_BYTES};
use pack_reference::message::LONGEST;
use pack_reference::{Fault, Message, Number, Opening, Refusal, Session, Settings, Version};

const SESSION: u32 = 7;

/// Concentrator 4 of four.
const OPENING: Opening = Opening {
    version: 2,
    n: 4,
    ta: 1,
    ts: 1,
    own: 4,
    session: SESSION,
    input: 9,
    coins: &[0; 4],
    weights: &[1; 4],
    boxed: 0,
};

fn finish(instance: Number, value: bool) -> Message {
    Message::Finish { instance, value }
}

#[test]
fn opening_takes_versions_1_and_2() {
    for version in [1, 2] {
        assert!(Session::open(&Opening { version, ..OPENING }).is_ok(), "{version}");
    }
    for version in [0, 3, 255, 256, 257, 258, (1 << 32) + 1, (1 << 32) + 2, u64::MAX] {
        let refused = Session::open(&Opening { version, ..OPENING }).err();
        assert_eq!(refused, Some(Refusal::Settings), "{version}");
    }
}

#[test]
fn byte_0_is_the_version_of_the_session() {
    for (version, other) in [(Version::One, Version::Two), (Version::Two, Version::One)] {
        let opening = Opening { version: version.number(), ..OPENING };
        let mut session = Session::open(&opening).unwrap();
        let mut lent = [0; LONGEST];
        session.turn(&mut lent).unwrap();
        assert_eq!(lent[..4], [version.byte(), 1, 4, 4]);
        let message = Message::Send { value: 5 };
        let refused = session.deliver(1, &message.to_bytes(other, 1, SESSION));
        assert_eq!(refused, Err(Refusal::Kind));
        for byte in [0, 3, 255] {
            let mut bytes = message.to_bytes(version, 1, SESSION);
            bytes[0] = byte;
            assert_eq!(session.deliver(1, &bytes), Err(Refusal::Kind), "byte 0 = {byte}");
        }
        assert_eq!(session.deliver(1, &message.to_bytes(version, 1, SESSION)), Ok(()));
    }
}

#[test]
fn the_layout_of_finish() {
    let bytes = [2, 7, 2, 3, 0, 1, 0, 0, 0, 0, 0, 7, 0, 0, 0, 0, 0, 0, 0, 1];
    assert_eq!(finish(3, true).to_bytes(Version::Two, 2, SESSION), bytes);
    let settings = Settings::unweighted(4, 1, 1).unwrap().with_version(Version::Two);
    assert_eq!(Message::from_bytes(&bytes, 2, &settings, SESSION), Ok((2, finish(3, true))));
}

#[test]
fn version_1_knows_no_finish() {
    let mut session = Session::open(&Opening { version: 1, ..OPENING }).unwrap();
    for version in Version::ALL {
        let bytes = finish(3, true).to_bytes(version, 2, SESSION);
        assert_eq!(session.deliver(2, &bytes), Err(Refusal::Kind));
    }
}

#[test]
fn each_refusal_of_a_finish() {
    let delivered = |changes: &[(usize, u8)], values: usize| {
        let mut bytes = finish(3, true).to_bytes(Version::Two, 2, SESSION);
        bytes.resize(12 + 8 * values, 0);
        changes.iter().for_each(|&(place, byte)| bytes[place] = byte);
        Session::open(&OPENING).unwrap().deliver(2, &bytes)
    };
    assert_eq!(delivered(&[], 1), Ok(()));
    let cases = [
        (1, 8, Refusal::Kind),
        (2, 3, Refusal::Sender),
        (3, 0, Refusal::Field),
        (3, 5, Refusal::Field),
        (4, 1, Refusal::Field),
        (4, 33, Refusal::Field),
        (6, 1, Refusal::Field),
        (8, 1, Refusal::Session),
        (12, 1, Refusal::Value),
        (19, 2, Refusal::Value),
    ];
    for (place, byte, refusal) in cases {
        assert_eq!(delivered(&[(place, byte)], 1), Err(refusal), "byte {place} = {byte}");
    }
    assert_eq!(delivered(&[(5, 2)], 1), Err(Refusal::Length));
    assert_eq!(delivered(&[(5, 2)], 2), Err(Refusal::Field));
    assert_eq!(delivered(&[(5, 0)], 0), Err(Refusal::Field));
}

#[test]
fn held_once_for_each_sender_and_instance() {
    let mut session = Session::open(&OPENING).unwrap();
    let mut deliver = |sender: Number, message: Message| {
        session.deliver(sender.into(), &message.to_bytes(Version::Two, sender, SESSION))
    };
    assert_eq!(deliver(2, finish(3, true)), Ok(()));
    assert_eq!(deliver(2, finish(3, true)), Err(Refusal::Held));
    assert_eq!(deliver(2, finish(3, false)), Err(Refusal::Held));
    assert_eq!(deliver(1, finish(3, false)), Ok(()));
    assert_eq!(deliver(2, finish(2, false)), Ok(()));
}

#[test]
fn the_most_turns() {
    for n in 1..=16 {
        let settings = Settings::unweighted(n, 0, 0).unwrap();
        assert_eq!(settings.turn_limit(), 99 * n + 3);
        assert_eq!(settings.with_version(Version::Two).turn_limit(), 100 * n + 3);
    }
    // They can be had: it panics where a session takes fewer.
    longest_sessions(&Reference::default(), 4);
}

#[test]
fn an_opening_line_tells_the_version() {
    for version in [1, 2] {
        let opening = Opening { version, ..OPENING };
        let line = &mut [0; LINE_BYTES];
        let (session, length) = Session::open_with_line(&opening, Fault::None, line).unwrap();
        let written = &line[..length];
        assert!(written.starts_with(format!("O\t{version}\t4\t1\t1\t4\t7\t").as_bytes()));
        let restored = restore(written, &mut [0; LONGEST], Fault::None).unwrap();
        assert_eq!(restored.session, session);
        assert!(
            restored.session
                != Session::open(&Opening { version: 3 - version, ..OPENING }).unwrap()
        );
    }
}

#[test]
fn lines_of_a_version_2_session() {
    let opening = "O\t2\t1\t0\t0\t1\t7\t0000000000000005\tffffffff\t1\t0\n";
    let finish = "D\t1\t0207010100010000000000070000000000000001\n";
    let turn = "T\n";
    let journal = |lines: &[&str]| {
        restore(lines.concat().as_bytes(), &mut [0; LONGEST], Fault::None)
            .map(|given| given.message)
    };
    let message = |kind: u8, value: u8| {
        let mut bytes = vec![2, kind, 1, 1, 0, 1, 0, 0, 0, 0, 0, 7];
        bytes.extend(u64::from(value).to_be_bytes());
        Some(bytes)
    };
    assert_eq!(journal(&[opening, turn]), Ok(message(1, 5)));
    assert_eq!(journal(&[opening, turn, finish, turn]), Ok(message(7, 1)));
    let refused = |line| Err(NotRestored::Journal { line });
    assert_eq!(journal(&[opening, finish, finish]), refused(3));
    assert_eq!(journal(&[&opening.replace("O\t2", "O\t1"), finish]), refused(2));
    assert_eq!(journal(&[&opening.replace("O\t2", "O\t3")]), refused(1));
    assert_eq!(journal(&[&opening.replace("O\t2", "O\t4294967298")]), refused(1));
}
