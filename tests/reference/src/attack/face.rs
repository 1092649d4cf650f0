//! The engines of the rules that liars run.

use super::coins::Waiting;
use super::plan::{Faces, Group, Plan};
use crate::message::LONGEST;
use crate::session::{Outcome, Session};
use crate::settings::{Number, Round};

/// One engine of a liar. It talks to the honest ones of its group, or to all.
pub struct Face {
    pub liar: Number,
    pub group: Option<Group>,
    session: Session,
    waiting: Waiting,
}

impl Face {
    /// All faces of all liars.
    pub fn all(plan: &Plan) -> Vec<Face> {
        let kinds = match plan.faces {
            Faces::None => vec![],
            Faces::One(input) => vec![(None, input)],
            Faces::Two(first, second) => vec![(Some(Group::A), first), (Some(Group::B), second)],
        };
        let of_liar = |&liar: &Number| {
            kinds.iter().map(move |&(group, input)| {
                let session = Session::open(&plan.opening(liar, input)).expect("good settings");
                Face { liar, group, session, waiting: Waiting::default() }
            })
        };
        plan.liars.iter().flat_map(of_liar).collect()
    }

    pub fn talks_to(&self, group: Group) -> bool {
        self.group.is_none_or(|own| own == group)
    }

    pub fn deliver(&mut self, link: Number, message: &[u8]) {
        let _ = self.session.deliver(u64::from(link), message);
    }

    /// The coins that it waits for, if it is boxed.
    pub fn waiting(&self) -> Vec<(Number, Round)> {
        self.waiting.coins()
    }

    pub fn record(&mut self, vote: Number, round: Round, bit: bool) {
        let _ = self.session.record(vote.into(), round.into(), bit.into());
        self.waiting.note_recorded(vote, round);
    }

    /// Turns until idle or closed. Answers what was sent.
    pub fn act(&mut self) -> Vec<Vec<u8>> {
        let mut sent = Vec::new();
        loop {
            match self.session.turn(&mut [0; LONGEST]) {
                Ok(Outcome::Sent(message)) => {
                    let bytes = self.session.bytes(&message);
                    self.waiting.note_sent(&bytes);
                    sent.push(bytes);
                }
                Ok(Outcome::MovedOut) => {}
                Ok(Outcome::Idle | Outcome::InForce) | Err(_) => return sent,
            }
        }
    }
}
