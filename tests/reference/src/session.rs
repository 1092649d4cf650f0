//! 01, "Delivery records, turns act": one concentrator's end of a session.

use std::collections::{BTreeMap, BTreeSet};

use crate::coins::Coins;
use crate::fault::Fault;
use crate::message::{Message, LONGEST};
use crate::records::Records;
use crate::refusal::Refusal;
use crate::settings::{Number, Settings, Version};
use crate::votes::Vote;

/// What opening takes. The numbers are as wide as the caller's, so that nothing wraps.
#[derive(Clone, Copy, Debug)]
pub struct Opening<'a> {
    pub version: u64,
    pub n: u64,
    pub ta: u64,
    pub ts: u64,
    pub own: u64,
    pub session: u32,
    pub input: u64,
    pub coins: &'a [u32],
    pub weights: &'a [u8],
    /// 0 for printed coins, 1 for boxed ones.
    pub boxed: u64,
}

/// What a turn answers.
#[derive(Clone, Debug, PartialEq, Eq)]
pub enum Outcome {
    Idle,
    Sent(Message),
    MovedOut,
    InForce,
}

/// One concentrator's end of an agreement session.
#[derive(Clone, Debug, PartialEq, Eq)]
pub struct Session {
    pub(crate) settings: Settings,
    pub(crate) own: Number,
    pub(crate) session: u32,
    pub(crate) input: u64,
    pub(crate) coins: Coins,
    pub(crate) records: Records,
    pub(crate) send_sent: bool,
    pub(crate) echoes_sent: BTreeSet<Number>,
    pub(crate) readies_sent: BTreeSet<Number>,
    pub(crate) commit_sent: bool,
    pub(crate) votes: BTreeMap<Number, Vote>,
    pub(crate) closed: bool,
    pub(crate) turns: u64,
    pub(crate) fault: Fault,
}

impl Session {
    pub fn open(opening: &Opening) -> Result<Session, Refusal> {
        Session::open_with(opening, Fault::None)
    }

    /// Opens a session whose engine has the given fault.
    pub fn open_with(opening: &Opening, fault: Fault) -> Result<Session, Refusal> {
        let version = Version::given(opening.version)?;
        let settings = Settings::new(opening.n, opening.ta, opening.ts, opening.weights)?;
        let settings = settings.with_version(version);
        let own = settings.number(opening.own).ok_or(Refusal::Settings)?;
        let coins = Coins::given(&settings, opening.coins, opening.boxed)?;
        Ok(Session {
            settings: settings.with_fault(fault),
            own,
            session: opening.session,
            input: opening.input,
            coins,
            records: Records::default(),
            send_sent: false,
            echoes_sent: BTreeSet::new(),
            readies_sent: BTreeSet::new(),
            commit_sent: false,
            votes: settings.numbers().map(|number| (number, Vote::default())).collect(),
            closed: false,
            turns: 0,
            fault,
        })
    }

    /// Records one message that came over the link of concentrator `link`.
    pub fn deliver(&mut self, link: u64, bytes: &[u8]) -> Result<(), Refusal> {
        if self.closed {
            return Err(Refusal::Closed);
        }
        let (sender, message) = Message::from_bytes(bytes, link, &self.settings, self.session)?;
        self.records.record(sender, &message, self.fault)?;
        match message {
            Message::Est { instance, round, value } => self.note_accepted(instance, round, value),
            Message::Finish { instance, value } => self.decide_by_finishes(instance, value),
            _ => {}
        }
        Ok(())
    }

    /// Does the first thing due. A message sent is also written to the front of `lent`.
    pub fn turn(&mut self, lent: &mut [u8]) -> Result<Outcome, Refusal> {
        if self.closed {
            return Err(Refusal::Closed);
        }
        if lent.len() < LONGEST {
            return Err(Refusal::Short);
        }
        let outcome = self.act();
        if outcome != Outcome::Idle {
            self.turns += 1;
        }
        if let Outcome::Sent(message) = &outcome {
            let bytes = self.bytes(message);
            lent[..bytes.len()].copy_from_slice(&bytes);
        }
        Ok(outcome)
    }

    /// The six rules in their order.
    fn act(&mut self) -> Outcome {
        if self.close() {
            return Outcome::InForce;
        }
        self.send_commit()
            .or_else(|| self.send_input())
            .or_else(|| self.send_echo())
            .or_else(|| self.send_ready())
            .map(Outcome::Sent)
            .or_else(|| self.act_in_votes())
            .unwrap_or(Outcome::Idle)
    }

    pub fn is_closed(&self) -> bool {
        self.closed
    }

    pub fn own(&self) -> Number {
        self.own
    }

    /// The bytes of a message that this concentrator sends.
    pub fn bytes(&self, message: &Message) -> Vec<u8> {
        message.to_bytes(self.settings.version(), self.own, self.session)
    }
}
