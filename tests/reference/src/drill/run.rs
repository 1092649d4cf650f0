//! The calls of the drill: turns, deliveries, liars' messages and R.

use std::collections::BTreeMap;

use super::setup::Setup;
use super::{Bad, Field};
use crate::message::LONGEST;
use crate::session::{Outcome, Session};
use crate::settings::Number;

/// The honest concentrators, opened, and the messages they sent.
pub struct Run {
    setup: Setup,
    honest: BTreeMap<Number, Session>,
    /// Sender and bytes, in order of sending.
    sent: Vec<(Number, Vec<u8>)>,
    /// How many of them were delivered by an R.
    delivered: usize,
}

impl Run {
    pub fn new(setup: Setup) -> Run {
        let honest = setup.sessions();
        Run { setup, honest, sent: Vec::new(), delivered: 0 }
    }

    /// Takes a T, D, L or R line.
    pub fn take(&mut self, letter: u8, fields: &[Field]) -> Result<(), Bad> {
        match (letter, fields) {
            (b'T', [p]) => {
                let p = self.honest_number(p)?;
                self.turn(p);
            }
            (b'D', [k, q]) => {
                let index = k.decimal().and_then(|k| k.checked_sub(1)).ok_or(Bad)?;
                let index = usize::try_from(index).map_err(|_| Bad)?;
                let q = self.honest_number(q)?;
                if index >= self.sent.len() {
                    return Err(Bad);
                }
                self.deliver(index, q);
            }
            (b'L', [p, q, rest @ ..]) => {
                let p = self.liar_number(p)?;
                let q = self.honest_number(q)?;
                self.lie(p, q, rest)?;
            }
            (b'R', []) => self.repeat(),
            _ => return Err(Bad),
        }
        Ok(())
    }

    fn honest_number(&self, field: &Field) -> Result<Number, Bad> {
        let number = self.setup.number(field)?;
        if self.honest.contains_key(&number) {
            Ok(number)
        } else {
            Err(Bad)
        }
    }

    fn liar_number(&self, field: &Field) -> Result<Number, Bad> {
        let number = self.setup.number(field)?;
        if self.honest.contains_key(&number) {
            Err(Bad)
        } else {
            Ok(number)
        }
    }

    /// A turn. Answers whether it was neither idle nor refused.
    fn turn(&mut self, p: Number) -> bool {
        let session = self.honest.get_mut(&p).expect("an honest number");
        match session.turn(&mut [0; LONGEST]) {
            Ok(Outcome::Sent(message)) => {
                self.sent.push((p, session.bytes(&message)));
                true
            }
            Ok(Outcome::MovedOut | Outcome::InForce) => true,
            Ok(Outcome::Idle) | Err(_) => false,
        }
    }

    /// Delivers a sent message. A refusal prints nothing.
    fn deliver(&mut self, index: usize, q: Number) {
        let (sender, bytes) = &self.sent[index];
        let session = self.honest.get_mut(&q).expect("an honest number");
        let _ = session.deliver(u64::from(*sender), bytes);
    }

    /// Delivers a liar's one-value message at once, to q alone. A refusal prints nothing.
    fn lie(&mut self, p: Number, q: Number, fields: &[Field]) -> Result<(), Bad> {
        let [kind, instance, round, value] = fields else { return Err(Bad) };
        let mut bytes = vec![1, byte(kind)?, p, byte(instance)?, byte(round)?, 1, 0, 0];
        bytes.extend(self.setup.session().to_be_bytes());
        bytes.extend(value.decimal().ok_or(Bad)?.to_be_bytes());
        let session = self.honest.get_mut(&q).expect("an honest number");
        let _ = session.deliver(u64::from(p), &bytes);
        Ok(())
    }

    /// R: turns until idle or closed, then the messages not yet delivered by an R, until none is left.
    fn repeat(&mut self) {
        let numbers: Vec<Number> = self.honest.keys().copied().collect();
        loop {
            for &p in &numbers {
                while self.turn(p) {}
            }
            let left = self.delivered..self.sent.len();
            if left.is_empty() {
                return;
            }
            self.delivered = left.end;
            for index in left {
                numbers.iter().for_each(|&q| self.deliver(index, q));
            }
        }
    }

    /// The lines printed at the end of input.
    pub fn summary(&self) -> String {
        let lines: String =
            self.honest.iter().map(|(p, session)| summary_line(*p, session)).collect();
        format!("{lines}sent\t{}\n", self.sent.len())
    }
}

fn byte(field: &Field) -> Result<u8, Bad> {
    field.decimal().and_then(|number| u8::try_from(number).ok()).ok_or(Bad)
}

/// The line of an honest one (PROTOCOL 15.15).
fn summary_line(p: Number, session: &Session) -> String {
    let report = session.reading();
    let closed = u8::from(session.is_closed());
    let in_force = match &report.in_force {
        Some(set) => {
            let values: Vec<String> = set.iter().map(|value| format!("{value:016x}")).collect();
            values.join(",")
        }
        None => "-".to_string(),
    };
    format!("{p}\t{}\t{closed}\t{}\t{in_force}\n", report.exit.number(), report.turns)
}
