//! One feeder: the honest concentrators on the engine under attack, the liars, and the messages on their way.

use std::collections::BTreeMap;
use std::rc::Rc;

use super::claim::{Claim, Conditions, Shown, Violation};
use super::coins::{Seen, Waiting};
use super::face::Face;
use super::journal::{Journal, Noted, Sent};
use super::plan::{Opened, Plan};
use super::random::Random;
use super::Statistics;
use crate::box_engine::BoxEngine;
use crate::journal::{LINE_BYTES, TURN_LINE};
use crate::message::{PackSet, LONGEST};
use crate::packing::{refusal, unpack_report, unpack_turn, TurnAnswer};
use crate::refusal::Refusal;
use crate::report::SET_WORDS;
use crate::settings::{Number, Version, Weight};
use crate::standing_engine::StandingEngine;

/// The kind of a FINISH, byte 1 of the message.
pub(super) const FINISH: u8 = 7;
/// Lent words hold this before a report.
const UNWRITTEN: u64 = 0xa5a5_a5a5_a5a5_a5a5;

pub(super) struct Honest<S> {
    pub state: S,
    pub opened: bool,
    pub closed: bool,
    /// Turns that did not answer idle.
    pub taken: u64,
    pub journal: Journal,
    /// The coins that its host waits for, where they are boxed.
    pub waiting: Waiting,
}

#[derive(Clone, Copy)]
pub(super) enum Receiver {
    Honest(Number),
    Face(usize),
}

#[derive(Clone)]
pub(super) struct Parcel {
    pub to: Receiver,
    pub sent: Sent,
}

pub struct Feeder<'a, E: BoxEngine + StandingEngine> {
    pub(super) engine: &'a E,
    pub(super) plan: &'a Plan,
    pub(super) conditions: Conditions,
    pub(super) random: Random,
    pub(super) honest: BTreeMap<Number, Honest<E::State>>,
    pub(super) faces: Vec<Face>,
    /// The one box of the feeder, and what liars saw of its coins.
    pub(super) coin_box: E::CoinBox,
    pub(super) seen: Seen,
    /// By the step at which they are due, then in order of sending.
    pub(super) parcels: BTreeMap<(u64, u64), Parcel>,
    parcel_count: u64,
    pub(super) now: u64,
    pub(super) claim: Claim,
    /// The weight of the honest ones whose FINISHes of a vote a receiver accepted.
    pub(super) finished: BTreeMap<(Number, Number), Weight>,
    /// Whose messages are lost on their way.
    pub(super) muted: Option<Number>,
    pub statistics: Statistics,
}

impl<'a, E: BoxEngine + StandingEngine> Feeder<'a, E> {
    pub fn new(engine: &'a E, plan: &'a Plan, conditions: Conditions, seed: u64) -> Self {
        let blank = |&number: &Number| {
            let (opened, closed, taken) = (false, false, 0);
            let journal = Journal::default();
            let (state, waiting) = (engine.blank(), Waiting::default());
            (number, Honest { state, opened, closed, taken, journal, waiting })
        };
        Feeder {
            engine,
            plan,
            conditions,
            random: Random::new(seed),
            honest: plan.inputs.keys().map(blank).collect(),
            faces: Face::all(plan),
            coin_box: engine.blank_box(),
            seen: Seen::default(),
            parcels: BTreeMap::new(),
            parcel_count: 0,
            now: 0,
            claim: Claim::new(plan.owed()),
            finished: BTreeMap::new(),
            muted: None,
            statistics: Statistics::default(),
        }
    }

    /// Runs until nothing is on its way and all are idle, or the plan's limit of calls is reached.
    pub fn run(&mut self) -> Result<(), Violation> {
        self.statistics.settings.insert(self.plan.settings);
        self.statistics.version_2 += u64::from(self.plan.settings.version() == Version::Two);
        self.statistics.over_ta += u64::from(!self.plan.owed().up_to_ta);
        self.open_box()?;
        self.send_script();
        (0..self.faces.len()).for_each(|face| self.act_as_face(face));
        while self.statistics.calls < self.plan.pace.call_limit {
            self.open_due()?;
            if self.random.once_in(self.plan.pace.refused_calls) {
                self.make_refused_call()?;
            }
            if self.plan.pace.power_losses.is_some_and(|times| self.random.once_in(times)) {
                self.lose_power()?;
            }
            if self.plan.boxed && self.random.once_in(self.plan.pace.peeks) {
                self.peek();
            }
            if self.waits_for_turns() && self.act_all()? {
                continue;
            }
            if let Some(((due, _), parcel)) = self.parcels.pop_first() {
                self.now = self.now.max(due) + 1;
                self.hand_over(parcel)?;
            } else if !self.act_all()? {
                break;
            }
        }
        Ok(())
    }

    /// All that is due was delivered, and those who turn only then have not turned since.
    fn waits_for_turns(&self) -> bool {
        let due = self.parcels.keys().next().map(|&(due, _)| due);
        self.plan.pace.laziness.is_none() && due.is_some_and(|due| due > self.now)
    }

    /// Opens those whose step has come.
    fn open_due(&mut self) -> Result<(), Violation> {
        let due: Vec<Number> = self
            .honest
            .iter()
            .filter(|(_, honest)| !honest.opened)
            .filter(|(number, _)| match self.plan.openings[number] {
                Opened::At(step) => step <= self.now,
                Opened::Never => false,
            })
            .map(|(&number, _)| number)
            .collect();
        due.into_iter().try_for_each(|number| self.open(number))
    }

    fn open(&mut self, number: Number) -> Result<(), Violation> {
        let plan = self.plan;
        if plan.used_before {
            self.use_before_opening(number);
        }
        let opening = plan.opening(number, plan.inputs[&number]);
        let honest = self.honest.get_mut(&number).expect("an honest number");
        let mut line = [0; LINE_BYTES];
        let answer = self.engine.open(&mut honest.state, &opening, &mut line);
        let written = written_line(answer, &line);
        let wrong = Violation::Answer { at: number, call: "opening", answer };
        honest.journal.add(Noted::Opening, written.ok_or(wrong)?);
        honest.opened = true;
        self.claim.put_in(opening.input);
        self.check(number)?;
        self.act(number).map(drop)
    }

    /// Opens the buffer under another number and uses it. What it answers counts for nothing.
    fn use_before_opening(&mut self, number: Number) {
        let other = number % self.plan.settings.n() + 1;
        let state = &mut self.honest.get_mut(&number).expect("an honest number").state;
        let line = &mut [0; LINE_BYTES];
        self.engine.open(state, &self.plan.opening(other, UNWRITTEN), line);
        for _ in 0..2 * self.plan.settings.n() {
            let mut lent = [0; LONGEST];
            let answer = self.engine.turn(state, &mut lent, line);
            if let Some(TurnAnswer::Sent { length }) = unpack_turn(answer) {
                self.engine.deliver(state, u64::from(other), &lent[..length], line);
            }
        }
    }

    /// All turn until idle. Answers whether one did anything or is still to be opened.
    fn act_all(&mut self) -> Result<bool, Violation> {
        let mut acted = false;
        let numbers: Vec<Number> = self.honest.keys().copied().collect();
        for number in numbers {
            acted |= self.act(number)?;
            let opening = self.plan.openings[&number];
            if let (Opened::At(step), false) = (opening, self.honest[&number].opened) {
                self.now = self.now.max(step);
                acted = true;
            }
        }
        Ok(acted)
    }

    /// Turns until idle or closed, and coins recorded where they are boxed. Answers whether anything was done.
    pub(super) fn act(&mut self, number: Number) -> Result<bool, Violation> {
        let before = self.honest[&number].journal.len();
        loop {
            while self.turn(number)? {}
            if !self.ask(number)? {
                return Ok(self.honest[&number].journal.len() > before);
            }
        }
    }

    /// One turn. Answers whether another can follow.
    fn turn(&mut self, number: Number) -> Result<bool, Violation> {
        let (mut lent, mut line) = ([0; LONGEST], [0; LINE_BYTES]);
        let honest = self.honest.get_mut(&number).expect("an honest number");
        let answer = self.engine.turn(&mut honest.state, &mut lent, &mut line);
        let wrong = Err(Violation::Answer { at: number, call: "turn", answer });
        let read = match unpack_turn(answer) {
            Some(TurnAnswer::Refused(Refusal::Closed)) if honest.closed => return Ok(false),
            Some(TurnAnswer::Refused(Refusal::NoState)) if !honest.opened => return Ok(false),
            Some(TurnAnswer::Refused(_)) | None => return wrong,
            Some(read) if honest.opened && !honest.closed => read,
            Some(_) => return wrong,
        };
        let length = if let TurnAnswer::Sent { length } = read { length } else { 0 };
        let message: Rc<[u8]> = lent[..length].into();
        honest.waiting.note_sent(&message);
        if read != TurnAnswer::Idle {
            honest.taken += 1;
            let noted = Noted::Turn { answer: read, message: Rc::clone(&message) };
            honest.journal.add(noted, &line[..TURN_LINE.len()]);
        }
        honest.closed = read == TurnAnswer::InForce;
        let line = Some(honest.journal.len());
        self.check(number)?;
        if length != 0 {
            self.statistics.finishes += u64::from(message[1] == FINISH);
            self.send_to_all(&Sent { link: number, message, line });
        }
        Ok(matches!(read, TurnAnswer::Sent { .. } | TurnAnswer::MovedOut))
    }

    /// An honest one's message goes to all honest ones and to all faces.
    pub(super) fn send_to_all(&mut self, sent: &Sent) {
        let numbers: Vec<Number> = self.honest.keys().copied().collect();
        for number in numbers {
            let delay = self.plan.delay(&mut self.random, &sent.message, number, self.now);
            self.send(Receiver::Honest(number), sent.clone(), delay);
        }
        for face in 0..self.faces.len() {
            let delay = self.random.below(self.plan.pace.jitter);
            self.send(Receiver::Face(face), sent.clone(), delay);
        }
    }

    pub(super) fn send(&mut self, to: Receiver, sent: Sent, delay: u64) {
        if self.muted == Some(sent.link) {
            return;
        }
        let place = (self.now + delay, self.parcel_count);
        self.parcel_count += 1;
        self.parcels.insert(place, Parcel { to, sent });
    }

    fn hand_over(&mut self, parcel: Parcel) -> Result<(), Violation> {
        match parcel.to {
            Receiver::Face(face) => {
                self.faces[face].deliver(parcel.sent.link, &parcel.sent.message);
                self.act_as_face(face);
                Ok(())
            }
            Receiver::Honest(number) => {
                if self.honest[&number].closed && !self.random.once_in(20) {
                    return Ok(());
                }
                self.deliver(number, parcel)?;
                if self.plan.pace.laziness.is_some_and(|times| self.random.once_in(times)) {
                    self.act(number)?;
                }
                Ok(())
            }
        }
    }

    fn deliver(&mut self, number: Number, parcel: Parcel) -> Result<(), Violation> {
        let sent = &parcel.sent;
        let honest = self.honest.get_mut(&number).expect("an honest number");
        let (link, mut line) = (u64::from(sent.link), [0; LINE_BYTES]);
        let answer = self.engine.deliver(&mut honest.state, link, &sent.message, &mut line);
        let written = written_line(answer, &line);
        let fits = match refusal(answer) {
            None => written.is_some() && honest.opened && !honest.closed,
            Some(Refusal::NoState) => !honest.opened,
            Some(Refusal::Closed) => honest.closed,
            Some(Refusal::Held) => honest.opened && !honest.closed,
            Some(_) => false,
        };
        if !fits {
            return Err(Violation::Answer { at: number, call: "delivery", answer });
        }
        if let Some(written) = written {
            honest.journal.add(Noted::Delivery(sent.clone()), written);
            self.note_left(sent);
            self.contradict(number, sent);
        }
        if self.random.once_in(40) {
            self.send(parcel.to, parcel.sent, 1);
        }
        self.check(number)
    }

    /// A message that an honest one accepted has left: its sender must not lose the line.
    fn note_left(&mut self, sent: &Sent) {
        if let (Some(line), Some(sender)) = (sent.line, self.honest.get_mut(&sent.link)) {
            sender.journal.need(line);
        }
    }

    /// Checks the claims and the count of turns after a call.
    pub(super) fn check(&mut self, number: Number) -> Result<(), Violation> {
        self.statistics.calls += 1;
        let honest = &self.honest[&number];
        if !honest.opened {
            return Ok(());
        }
        let shown = self.shown(number)?;
        let turns_share = 100 * honest.taken / self.plan.settings.turn_limit();
        self.statistics.note(number, &shown, turns_share);
        self.claim.check(number, &shown)
    }

    /// What a report shows, which must fit what was answered before.
    pub(super) fn shown(&self, number: Number) -> Result<Shown, Violation> {
        let honest = &self.honest[&number];
        let (mut named, mut in_force) = ([UNWRITTEN; SET_WORDS], [UNWRITTEN; SET_WORDS]);
        let answer = self.engine.report(&honest.state, &mut named, &mut in_force);
        let wrong = Violation::Answer { at: number, call: "report", answer };
        let report = unpack_report(answer).ok_or(wrong.clone())?;
        let shown = Shown {
            exit: report.exit,
            named: written(&named, report.named).ok_or(wrong.clone())?,
            in_force: written(&in_force, report.in_force).ok_or(wrong.clone())?,
            standing: self.engine.standing(&honest.state),
        };
        let exit_fits = report.exit <= 3 && (report.exit == 0) == shown.named.is_none();
        if !exit_fits || honest.closed != shown.in_force.is_some() {
            return Err(wrong);
        }
        if report.turns != honest.taken || honest.taken > self.plan.settings.turn_limit() {
            let (taken, reported) = (honest.taken, report.turns);
            return Err(Violation::Turns { at: number, taken, reported });
        }
        Ok(shown)
    }
}

/// The line of an opening, a delivery or a recording that was accepted; `None` if there is none, or it does not end with its LF.
pub(super) fn written_line(answer: u64, lent: &[u8]) -> Option<&[u8]> {
    let line = lent.get(..(answer >> 16) as usize)?;
    (answer & 0xffff == 0 && line.ends_with(b"\n")).then_some(line)
}

/// A set that was written to lent words; `None` if it does not rise or more was written.
fn written(words: &[u64], count: usize) -> Option<Option<PackSet>> {
    let (values, rest) = words.split_at_checked(count)?;
    let rises = values.windows(2).all(|pair| pair[0] < pair[1]);
    let untouched = rest.iter().all(|&word| word == UNWRITTEN);
    let set = || values.iter().copied().collect();
    (rises && untouched).then(|| (count > 0).then(set))
}
