//! The journal of one honest concentrator, and what of it can be lost with its power.

use std::rc::Rc;

use super::claim::Conditions;
use super::coins::Waiting;
use super::random::Random;
use crate::packing::TurnAnswer;
use crate::settings::{Number, Round};

/// A message on its way: the link it comes over, and the line of its sender's journal that sent it, if that one is honest.
#[derive(Clone, Debug)]
pub struct Sent {
    pub link: Number,
    pub message: Rc<[u8]>,
    pub line: Option<usize>,
}

#[derive(Clone, Debug)]
pub enum Noted {
    Opening,
    Delivery(Sent),
    Turn { answer: TurnAnswer, message: Rc<[u8]> },
    Recording { vote: Number, round: Round },
}

/// The lines so far.
#[derive(Debug, Default)]
pub struct Journal {
    bytes: Vec<u8>,
    /// What each line says, and where it ends.
    lines: Vec<(Noted, usize)>,
    /// The first so many lines cannot be lost: the opening's, and those up to the last message that left.
    needed: usize,
}

impl Journal {
    /// The number of lines, which is that of the last one.
    pub fn len(&self) -> usize {
        self.lines.len()
    }

    pub fn add(&mut self, noted: Noted, line: &[u8]) {
        if matches!(noted, Noted::Opening) {
            *self = Journal { needed: 1, ..Journal::default() };
        }
        self.bytes.extend(line);
        self.lines.push((noted, self.bytes.len()));
    }

    /// The message of this line left.
    pub fn need(&mut self, line: usize) {
        self.needed = self.needed.max(line);
    }

    /// What is left when power is lost: so many lines, and a part of the next.
    pub fn cut(&self, random: &mut Random, conditions: Conditions) -> (usize, Vec<u8>) {
        let kept = match conditions {
            Conditions::LostLines if random.once_in(4) => {
                1 + random.below(self.len() as u64) as usize
            }
            Conditions::LostLines => 1,
            Conditions::Met | Conditions::OtherBits => {
                let most_lost = (self.len() - self.needed) as u64;
                let lost = if random.once_in(2) { most_lost } else { most_lost.min(4) };
                self.len() - random.below(lost + 1) as usize
            }
        };
        let end = self.end(kept);
        let torn = match self.lines.get(kept) {
            Some((_, next)) => random.below((next - end) as u64) as usize,
            None => 0,
        };
        (kept, self.bytes[..end + torn].to_vec())
    }

    /// Where this line, from 1, ends.
    pub fn end(&self, line: usize) -> usize {
        self.lines[line - 1].1
    }

    /// Forgets all but the first so many lines. Answers what the others said.
    pub fn truncate(&mut self, kept: usize) -> Vec<Noted> {
        let lost = self.lines.split_off(kept);
        self.bytes.truncate(self.end(kept));
        lost.into_iter().map(|(noted, _)| noted).collect()
    }

    /// The message that the last line sent, if it sent one.
    pub fn last_sent(&self) -> Option<Rc<[u8]>> {
        match self.lines.last() {
            Some((Noted::Turn { answer: TurnAnswer::Sent { .. }, message }, _)) => {
                Some(Rc::clone(message))
            }
            _ => None,
        }
    }

    /// The messages that its turns sent.
    pub fn sent(&self) -> impl Iterator<Item = &[u8]> {
        self.lines.iter().filter_map(|(noted, _)| match noted {
            Noted::Turn { answer: TurnAnswer::Sent { .. }, message } => Some(&message[..]),
            _ => None,
        })
    }

    fn turns(&self) -> impl Iterator<Item = TurnAnswer> + '_ {
        self.lines.iter().filter_map(|(noted, _)| match noted {
            Noted::Turn { answer, .. } => Some(*answer),
            _ => None,
        })
    }

    /// Turns that did not answer idle.
    pub fn taken(&self) -> u64 {
        self.turns().count() as u64
    }

    /// The coins that the host waits for: those of the rounds that its messages entered, but for the recorded ones.
    pub fn waiting(&self) -> Waiting {
        let mut waiting = Waiting::default();
        for (noted, _) in &self.lines {
            match noted {
                Noted::Turn { message, .. } => waiting.note_sent(message),
                Noted::Recording { vote, round } => waiting.note_recorded(*vote, *round),
                Noted::Opening | Noted::Delivery(_) => {}
            }
        }
        waiting
    }

    pub fn closed(&self) -> bool {
        self.turns().any(|answer| answer == TurnAnswer::InForce)
    }
}
