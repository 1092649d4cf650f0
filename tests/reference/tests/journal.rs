//! Document 02, N10: the lines that calls write, and what a journal gives back.

use pack_reference::compare::{restores, Answers};
use pack_reference::engine::{Engine, Lockstep, Reference};
use pack_reference::journal::{restore, Line, NotRestored, Restored, LINE_BYTES};
use pack_reference::packing::{unpack_restore, RestoreAnswer};
use pack_reference::{Fault, Message, Opening, Outcome, Refusal, Session, Version};

const OPENING: Opening = Opening {
    version: 1,
    n: 2,
    ta: 255,
    ts: 0,
    own: 2,
    session: 4_294_967_295,
    input: 0xabc,
    coins: &[0xf, 0x8000_0000],
    weights: &[1, 4],
    boxed: 0,
};
const OPENING_LINE: &str =
    "O\t1\t2\t255\t0\t2\t4294967295\t0000000000000abc\t0000000f\t80000000\t1\t4\t0\n";

fn restored(journal: &str) -> Result<Restored, NotRestored> {
    restore(journal.as_bytes(), &mut [0; 140], Fault::None)
}

/// The line at which the journal is refused.
fn refused_at(journal: &str) -> Option<u64> {
    match restored(journal) {
        Err(NotRestored::Journal { line }) => Some(line),
        Err(NotRestored::Short) => panic!("140 bytes are lent"),
        Ok(_) => None,
    }
}

fn opened() -> Session {
    Session::open(&OPENING).unwrap()
}

#[test]
fn lines_as_written() {
    let line = &mut [0xa5; LINE_BYTES + 1];
    let (mut session, length) = Session::open_with_line(&OPENING, Fault::None, line).unwrap();
    assert_eq!(&line[..length], OPENING_LINE.as_bytes());
    assert!(line[length..].iter().all(|&byte| byte == 0xa5));
    let send =
        Message::Send { value: 0x0102_0304_0506_07ff }.to_bytes(Version::One, 1, OPENING.session);
    let length = session.deliver_with_line(1, &send, line).unwrap();
    assert_eq!(&line[..length], b"D\t1\t0101010100010000ffffffff01020304050607ff\n");
    let line = &mut [0xa5; LINE_BYTES];
    let sent = Outcome::Sent(Message::Send { value: 0xabc });
    assert_eq!(session.turn_with_line(&mut [0; 140], line), Ok(sent));
    assert_eq!(&line[..3], b"T\n\xa5");
}

#[test]
fn an_idle_turn_writes_no_line() {
    let mut session = opened();
    session.turn(&mut [0; 140]).unwrap();
    let line = &mut [0xa5; LINE_BYTES];
    assert_eq!(session.turn_with_line(&mut [0; 140], line), Ok(Outcome::Idle));
    assert!(line.iter().all(|&byte| byte == 0xa5));
}

#[test]
fn the_longest_line_fits() {
    let coins = &[u32::MAX; 16];
    let weights = &[4; 16];
    let opening = Opening { n: 16, ts: 31, own: 16, input: u64::MAX, coins, weights, ..OPENING };
    let (_, length) = Session::open_with_line(&opening, Fault::None, &mut [0; LINE_BYTES]).unwrap();
    assert!(length <= 256, "{length}");
}

#[test]
fn too_few_bytes_for_the_line_come_last() {
    let short = &mut [0xa5; LINE_BYTES - 1];
    let refused = Session::open_with_line(&OPENING, Fault::None, short);
    assert_eq!(refused.err(), Some(Refusal::Short));
    let bad = Opening { own: 3, ..OPENING };
    let refused = Session::open_with_line(&bad, Fault::None, short);
    assert_eq!(refused.err(), Some(Refusal::Settings));
    let mut session = opened();
    let send = Message::Send { value: 5 }.to_bytes(Version::One, 1, OPENING.session);
    assert_eq!(session.deliver_with_line(1, &send, short), Err(Refusal::Short));
    assert_eq!(session, opened());
    assert_eq!(session.deliver_with_line(2, &send, short), Err(Refusal::Sender));
    session.deliver(1, &send).unwrap();
    assert_eq!(session.deliver_with_line(1, &send, short), Err(Refusal::Held));
    let before = session.clone();
    assert_eq!(session.turn_with_line(&mut [0; 140], short), Err(Refusal::Short));
    assert_eq!(session, before);
    while session.turn(&mut [0; 140]).unwrap() != Outcome::Idle {}
    assert_eq!(session.turn_with_line(&mut [0; 140], short), Err(Refusal::Short));
    assert!(short.iter().all(|&byte| byte == 0xa5));
}

#[test]
fn closed_before_short() {
    let opening = Opening { n: 1, own: 1, coins: &[0], weights: &[1], ..OPENING };
    let mut session = Session::open(&opening).unwrap();
    while let Outcome::Sent(message) = session.turn(&mut [0; 140]).unwrap() {
        session.deliver(1, &message.to_bytes(Version::One, 1, OPENING.session)).unwrap();
    }
    assert_eq!(session.turn_with_line(&mut [], &mut []), Err(Refusal::Closed));
    assert_eq!(session.deliver_with_line(1, &[], &mut []), Err(Refusal::Closed));
}

#[test]
fn a_journal_gives_back_state_and_message() {
    let mut session = opened();
    let given = restored(OPENING_LINE).unwrap();
    assert_eq!((given.session, given.message), (session.clone(), None));
    session.turn(&mut [0; 140]).unwrap();
    let send = Message::Send { value: 0xabc }.to_bytes(Version::One, 2, OPENING.session);
    let journal = format!("{OPENING_LINE}T\nany \r\t thing");
    let mut lent = [0xa5; 141];
    let given = restore(journal.as_bytes(), &mut lent, Fault::None).unwrap();
    assert_eq!((&given.session, given.complete), (&session, OPENING_LINE.len() + 2));
    assert_eq!(given.message, Some(send.clone()));
    assert_eq!(lent[..20], send);
    assert!(lent[20..].iter().all(|&byte| byte == 0xa5));
    // A message of a line before the last is not given again.
    let delivery = "D\t2\t0101020200010000ffffffff0000000000000abc\n";
    let given = restored(&format!("{OPENING_LINE}T\n{delivery}")).unwrap();
    session.deliver(2, &send).unwrap();
    assert_eq!((given.session, given.message), (session, None));
}

#[test]
fn no_complete_opening_line() {
    for journal in ["", "\n", "T\n", "O", OPENING_LINE.trim_end(), "\nO\t1\n", "X\n"] {
        assert_eq!(refused_at(journal), Some(1), "{journal:?}");
    }
}

#[test]
fn lines_that_cannot_be_applied() {
    let send = "D\t1\t0101010100010000ffffffff0000000000000005";
    let bad = [
        // Idle, a second opening, held.
        "T\nT\n".to_string(),
        format!("T\n{OPENING_LINE}"),
        format!("{send}\n{send}\n"),
    ];
    for lines in bad {
        assert_eq!(refused_at(&format!("{OPENING_LINE}{lines}T\nT\nrest")), Some(3), "{lines:?}");
    }
    let wrong = [
        "t",
        "T\t",
        "T\r",
        " T",
        "",
        "D\t1\t",
        "D\t1",
        "D\t01\t0101010100010000ffffffff0000000000000005",
        "D\t1\t0101010100010000FFFFFFFF0000000000000005",
        "D\t1\t0101010100010000ffffffff000000000000000",
        "D\t1\t0101010100010000ffffffff0000000000000005\t",
        "D\t1\t0101010100010000ffffffff0000000000000005\r",
        "D\t2\t0101010100010000ffffffff0000000000000005",
        "D\t18446744073709551617\t0101010100010000ffffffff0000000000000005",
    ];
    for line in wrong {
        assert_eq!(refused_at(&format!("{OPENING_LINE}{line}\n")), Some(2), "{line:?}");
        assert_eq!(refused_at(&format!("{OPENING_LINE}{line}")), None, "{line:?}, torn");
    }
}

#[test]
fn opening_lines_of_the_wrong_form() {
    let fields: Vec<&str> = OPENING_LINE.trim_end().split('\t').collect();
    let with = |place: usize, other: &str| {
        let mut fields = fields.clone();
        fields[place] = other;
        fields.join("\t") + "\n"
    };
    let wrong = [
        (0, "o"),
        (1, "0"),
        (1, "3"),
        (1, "01"),
        (1, "4294967297"),
        (1, "18446744073709551617"),
        (1, ""),
        (2, "02"),
        (2, "3"),
        (3, "18446744073709551616"),
        (3, "00"),
        (5, "+2"),
        (6, "4294967296"),
        (7, "abc"),
        (7, "0000000000000ABC"),
        (7, "00000000000000abc"),
        (8, "0000000F"),
        (9, "080000000"),
        (10, "0"),
        (11, "260"),
        (11, "4\t1"),
        (11, "04"),
        (12, "2"),
        (12, "00"),
        (12, ""),
        (12, "0\t0"),
        // Boxed, and coin words that are not 0.
        (12, "1"),
    ];
    assert_eq!(refused_at(OPENING_LINE), None);
    for (place, other) in wrong {
        assert_eq!(refused_at(&with(place, other)), Some(1), "field {place} {other:?}");
    }
    assert_eq!(refused_at(&(fields[..11].join("\t") + "\n")), Some(1), "a weight short");
}

#[test]
fn an_opening_line_without_weights() {
    let line = OPENING_LINE.replace("\t1\t4\t0\n", "\n");
    let given = restored(&line).unwrap().session;
    assert_eq!(given, Session::open(&Opening { weights: &[1, 1], ..OPENING }).unwrap());
    assert_eq!(Line::read(line.trim_end().as_bytes()), {
        let weighted = OPENING_LINE.replace("\t1\t4\t0\n", "\t1\t1\t0");
        Line::read(weighted.as_bytes())
    });
}

#[test]
fn answers_and_what_a_refusal_leaves() {
    let engine = Reference::default();
    let mut state = Some(opened());
    let message = &mut [0xa5; 140];
    let no_opening = engine.restore(&mut state, b"T\n", message);
    assert_eq!(unpack_restore(no_opening), Some(RestoreAnswer::Journal { line: 1 }));
    let short = engine.restore(&mut state, b"T\n", &mut message[..139]);
    assert_eq!(short, 8);
    assert_eq!(state, Some(opened()));
    let journal = format!("{OPENING_LINE}T\nT");
    let complete = journal.len() - 1;
    let answer = engine.restore(&mut state, journal.as_bytes(), message);
    assert_eq!(answer, 1 << 8 | 20 << 16 | (complete as u64) << 32);
    let read = RestoreAnswer::Restored { message: Some(20), complete };
    assert_eq!(unpack_restore(answer), Some(read));
}

#[test]
fn cut_and_damaged_journals() {
    let engine = Lockstep { first: Reference::default(), second: Reference::default() };
    let Answers { refusals, .. } = restores(&engine, 6, 2);
    assert!(refusals[0] > 0 && refusals[8] > 0 && refusals[15] > 0, "{refusals:?}");
}
