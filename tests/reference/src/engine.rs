//! An engine as the attack sees it: calls on opaque state that answer the packed numbers of the C functions.

use crate::fault::Fault;
use crate::journal::restore;
use crate::packing::{pack_line, pack_report, pack_restore, pack_turn};
use crate::refusal::Refusal;
use crate::session::{Opening, Session};

/// Opening, delivery, turn, report, restore and recording on a state that only these calls write.
pub trait Engine {
    type State;

    /// State before any opening. Every call on it but an opening and a restore answers 9.
    fn blank(&self) -> Self::State;
    /// State that holds anything, as memory does after power was lost.
    fn littered(&self, seed: u64) -> Self::State;
    fn open(&self, state: &mut Self::State, opening: &Opening, line: &mut [u8]) -> u64;
    fn deliver(&self, state: &mut Self::State, link: u64, message: &[u8], line: &mut [u8]) -> u64;
    fn turn(&self, state: &mut Self::State, message: &mut [u8], line: &mut [u8]) -> u64;
    fn report(&self, state: &Self::State, named: &mut [u64], in_force: &mut [u64]) -> u64;
    fn restore(&self, state: &mut Self::State, journal: &[u8], message: &mut [u8]) -> u64;
    fn record(&self, state: &mut Self::State, coin: Coin, line: &mut [u8]) -> u64;
}

/// What a recording says: the bit of a vote in a round.
#[derive(Clone, Copy, Debug, PartialEq, Eq)]
pub struct Coin {
    pub vote: u64,
    pub round: u64,
    pub bit: u64,
}

/// The engine of this package, with or without a fault.
#[derive(Clone, Copy, Debug, Default)]
pub struct Reference {
    pub fault: Fault,
}

impl Engine for Reference {
    type State = Option<Session>;

    fn blank(&self) -> Self::State {
        None
    }

    /// This engine has no words that could hold anything.
    fn littered(&self, _seed: u64) -> Self::State {
        None
    }

    fn open(&self, state: &mut Self::State, opening: &Opening, line: &mut [u8]) -> u64 {
        let answer = Session::open_with_line(opening, self.fault, line);
        pack_line(&answer.map(|(session, length)| {
            *state = Some(session);
            length
        }))
    }

    fn deliver(&self, state: &mut Self::State, link: u64, message: &[u8], line: &mut [u8]) -> u64 {
        let session = state.as_mut().ok_or(Refusal::NoState);
        pack_line(&session.and_then(|session| session.deliver_with_line(link, message, line)))
    }

    fn turn(&self, state: &mut Self::State, message: &mut [u8], line: &mut [u8]) -> u64 {
        let session = state.as_mut().ok_or(Refusal::NoState);
        pack_turn(&session.and_then(|session| session.turn_with_line(message, line)))
    }

    fn report(&self, state: &Self::State, named: &mut [u64], in_force: &mut [u64]) -> u64 {
        let session = state.as_ref().ok_or(Refusal::NoState);
        pack_report(&session.and_then(|session| session.report(named, in_force)))
    }

    fn restore(&self, state: &mut Self::State, journal: &[u8], message: &mut [u8]) -> u64 {
        let answer = restore(journal, message, self.fault);
        let number = pack_restore(&answer);
        if let Ok(restored) = answer {
            *state = Some(restored.session);
        }
        number
    }

    fn record(&self, state: &mut Self::State, coin: Coin, line: &mut [u8]) -> u64 {
        let Coin { vote, round, bit } = coin;
        let session = state.as_mut().ok_or(Refusal::NoState);
        pack_line(&session.and_then(|session| session.record_with_line(vote, round, bit, line)))
    }
}

/// Two engines run side by side. It panics at the first answer, lent byte or lent word in which they differ.
#[derive(Clone, Copy, Debug)]
pub struct Lockstep<A, B> {
    pub first: A,
    pub second: B,
}

impl<A: Engine, B: Engine> Engine for Lockstep<A, B> {
    type State = (A::State, B::State);

    fn blank(&self) -> Self::State {
        (self.first.blank(), self.second.blank())
    }

    fn littered(&self, seed: u64) -> Self::State {
        (self.first.littered(seed), self.second.littered(seed))
    }

    fn open(&self, state: &mut Self::State, opening: &Opening, line: &mut [u8]) -> u64 {
        let mut copy = line.to_vec();
        let first = self.first.open(&mut state.0, opening, line);
        let second = self.second.open(&mut state.1, opening, &mut copy);
        assert_eq!((first, &*line), (second, &*copy), "the answers to {opening:?} differ");
        first
    }

    fn deliver(&self, state: &mut Self::State, link: u64, message: &[u8], line: &mut [u8]) -> u64 {
        let mut copy = line.to_vec();
        let first = self.first.deliver(&mut state.0, link, message, line);
        let second = self.second.deliver(&mut state.1, link, message, &mut copy);
        let (answers, copies) = ((first, &*line), (second, &*copy));
        assert_eq!(answers, copies, "the answers to {message:?} over link {link} differ");
        first
    }

    fn turn(&self, state: &mut Self::State, message: &mut [u8], line: &mut [u8]) -> u64 {
        let (mut message_copy, mut line_copy) = (message.to_vec(), line.to_vec());
        let first = self.first.turn(&mut state.0, message, line);
        let second = self.second.turn(&mut state.1, &mut message_copy, &mut line_copy);
        let copies = (second, &*message_copy, &*line_copy);
        assert_eq!((first, &*message, &*line), copies, "the turns differ");
        first
    }

    fn report(&self, state: &Self::State, named: &mut [u64], in_force: &mut [u64]) -> u64 {
        let (mut named_copy, mut in_force_copy) = (named.to_vec(), in_force.to_vec());
        let first = self.first.report(&state.0, named, in_force);
        let second = self.second.report(&state.1, &mut named_copy, &mut in_force_copy);
        let copies = (second, &*named_copy, &*in_force_copy);
        assert_eq!((first, &*named, &*in_force), copies, "the reports differ");
        first
    }

    fn restore(&self, state: &mut Self::State, journal: &[u8], message: &mut [u8]) -> u64 {
        let mut copy = message.to_vec();
        let first = self.first.restore(&mut state.0, journal, message);
        let second = self.second.restore(&mut state.1, journal, &mut copy);
        let text = || String::from_utf8_lossy(&journal[..journal.len().min(4_096)]).into_owned();
        assert_eq!((first, &*message), (second, &*copy), "restores of {:?} differ", text());
        first
    }

    fn record(&self, state: &mut Self::State, coin: Coin, line: &mut [u8]) -> u64 {
        let mut copy = line.to_vec();
        let first = self.first.record(&mut state.0, coin, line);
        let second = self.second.record(&mut state.1, coin, &mut copy);
        assert_eq!((first, &*line), (second, &*copy), "recordings of {coin:?} differ");
        first
    }
}
