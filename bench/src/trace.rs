//! Sessions to be timed: the calls at one concentrator of a feeder, in their order, with their answers. The masks make
//! them, and all engines are then held to them by `check`.

use std::collections::VecDeque;

use pack_reference::engine::Engine;
use pack_reference::journal::LINE_BYTES;
use pack_reference::message::LONGEST;
use pack_reference::packing::{unpack_report, unpack_turn, TurnAnswer};
use pack_reference::{Message, Opening, PackSet, Version, SET_WORDS};

use crate::plain::PlainMasks;

const SESSION: u32 = 7;

/// What the concentrators of a feeder put in, and whether some lie.
#[derive(Clone, Copy, Debug, PartialEq, Eq)]
pub enum Kind {
    /// All honest, one pack.
    Equal,
    /// All honest, each its own pack.
    Mixed,
    /// Liars of weight ta at most, the highest numbers, who send a message for every place at the start; the others each
    /// their own pack.
    Liars,
}

impl Kind {
    pub const ALL: [Kind; 3] = [Kind::Equal, Kind::Mixed, Kind::Liars];

    pub fn name(self) -> &'static str {
        match self {
            Kind::Equal => "equal",
            Kind::Mixed => "mixed",
            Kind::Liars => "liars",
        }
    }
}

#[derive(Clone, Debug, PartialEq, Eq)]
pub enum Call {
    Deliver { link: u64, message: Vec<u8>, answer: u64 },
    Turn { answer: u64, message: Vec<u8> },
}

/// The session of concentrator 1.
pub struct Trace {
    pub version: Version,
    pub n: u64,
    pub heaviest: u8,
    pub kind: Kind,
    tolerated: u64,
    liars_from: u64,
    coins: Vec<u32>,
    weights: Vec<u8>,
    pub calls: Vec<Call>,
    /// What the honest ones sent together, and their turns that were not idle.
    pub feeder_sent: usize,
    pub feeder_turns: usize,
    /// The set in force at the end; empty where it did not close.
    pub set: PackSet,
}

/// A feeder whose concentrators turn until idle after each delivery; messages arrive in the order of sending.
struct Feeder<'a, E: Engine> {
    engine: &'a E,
    states: Vec<E::State>,
    closed: Vec<bool>,
    on_their_way: VecDeque<(u64, Vec<u8>)>,
    trace: Trace,
}

impl Trace {
    /// Weights of 1 to `heaviest`, in turn from the last concentrator on; ta and ts are as large as they allow with
    /// ta = ts.
    pub fn new(version: Version, n: u64, heaviest: u8, kind: Kind) -> Trace {
        Trace::with_engine(&PlainMasks, version, n, heaviest, kind)
    }

    /// The same, made by another engine.
    pub fn with_engine<E: Engine>(
        engine: &E,
        version: Version,
        n: u64,
        heaviest: u8,
        kind: Kind,
    ) -> Trace {
        let weights: Vec<u8> = (0..n as u8).rev().map(|back| 1 + back % heaviest).collect();
        let tolerated = (weights.iter().map(|&weight| u64::from(weight)).sum::<u64>() - 1) / 3;
        let liars_from = if kind == Kind::Liars { n - liars(&weights, tolerated) } else { n };
        // Different coins, with which no vote takes long.
        let coins = (1..=n as u32).map(|i| 0xb5a3_9d71_u32.rotate_left(i)).collect();
        let trace = Trace {
            version,
            n,
            heaviest,
            kind,
            tolerated,
            liars_from,
            coins,
            weights,
            calls: Vec::new(),
            feeder_sent: 0,
            feeder_turns: 0,
            set: PackSet::new(),
        };
        let states = (0..liars_from).map(|_| engine.blank()).collect();
        let closed = vec![false; liars_from as usize];
        let mut feeder = Feeder { engine, states, closed, on_their_way: VecDeque::new(), trace };
        feeder.run();
        feeder.trace
    }

    pub fn opening(&self, own: u64) -> Opening<'_> {
        let (version, n, ta, ts) = (self.version.number(), self.n, self.tolerated, self.tolerated);
        let input = if self.kind == Kind::Equal { 5 } else { 100 + own };
        let (coins, weights) = (&self.coins[..], &self.weights[..]);
        Opening { version, n, ta, ts, own, session: SESSION, input, coins, weights, boxed: 0 }
    }

    /// The packs that the honest ones put in.
    pub fn put_in(&self) -> PackSet {
        (1..=self.liars_from).map(|own| self.opening(own).input).collect()
    }

    pub fn deliveries(&self) -> usize {
        self.calls.iter().filter(|call| matches!(call, Call::Deliver { .. })).count()
    }

    pub fn turns(&self) -> usize {
        self.calls.len() - self.deliveries()
    }
}

impl<E: Engine> Feeder<'_, E> {
    fn run(&mut self) {
        for own in 1..=self.trace.liars_from {
            let state = &mut self.states[own as usize - 1];
            let answer = self.engine.open(state, &self.trace.opening(own), &mut [0; LINE_BYTES]);
            assert_eq!(answer & 0xff, 0, "good settings");
        }
        for liar in self.trace.liars_from + 1..=self.trace.n {
            let lies = lies(self.trace.version, self.trace.n, liar);
            self.on_their_way.extend(lies.into_iter().map(|message| (liar, message)));
        }
        (1..=self.trace.liars_from).for_each(|own| self.act(own));
        while let Some((link, message)) = self.on_their_way.pop_front() {
            for own in 1..=self.trace.liars_from {
                self.deliver(own, link, &message);
                self.act(own);
            }
        }
        let (mut named, mut in_force) = ([0; SET_WORDS], [0; SET_WORDS]);
        let answer = self.engine.report(&self.states[0], &mut named, &mut in_force);
        let count = unpack_report(answer).expect("an answer of a report").in_force;
        self.trace.set = in_force[..count].iter().copied().collect();
    }

    fn deliver(&mut self, own: u64, link: u64, message: &[u8]) {
        if self.closed[own as usize - 1] {
            return;
        }
        let state = &mut self.states[own as usize - 1];
        let answer = self.engine.deliver(state, link, message, &mut [0; LINE_BYTES]);
        if own == 1 {
            self.trace.calls.push(Call::Deliver { link, message: message.to_vec(), answer });
        }
    }

    /// Turns until idle or closed.
    fn act(&mut self, own: u64) {
        while !self.closed[own as usize - 1] {
            let mut lent = [0; LONGEST];
            let state = &mut self.states[own as usize - 1];
            let answer = self.engine.turn(state, &mut lent, &mut [0; LINE_BYTES]);
            let read = unpack_turn(answer).expect("an answer of a turn");
            let length = if let TurnAnswer::Sent { length } = read { length } else { 0 };
            let message = lent[..length].to_vec();
            if own == 1 {
                self.trace.calls.push(Call::Turn { answer, message: message.clone() });
            }
            if read == TurnAnswer::Idle {
                return;
            }
            self.trace.feeder_turns += 1;
            if length != 0 {
                self.trace.feeder_sent += 1;
                self.on_their_way.push_back((own, message));
            }
            self.closed[own as usize - 1] = read == TurnAnswer::InForce;
        }
    }
}

/// How many of the last concentrators weigh so much at most.
fn liars(weights: &[u8], tolerated: u64) -> u64 {
    let mut weight = 0;
    let fits = |&last: &u8| {
        weight += u64::from(last);
        weight <= tolerated
    };
    weights.iter().copied().rev().take_while(fits).count() as u64
}

/// A message for every place of a liar.
fn lies(version: Version, n: u64, liar: u64) -> Vec<Vec<u8>> {
    let mut lies = vec![Message::Send { value: 7 }];
    for instance in 1..=n as u8 {
        let value = 200 + (liar + u64::from(instance)) % 3;
        lies.push(Message::Echo { instance, value });
        lies.push(Message::Ready { instance, value });
        for round in 1..=32 {
            lies.push(Message::Est { instance, round, value: false });
            lies.push(Message::Est { instance, round, value: true });
            lies.push(Message::Aux { instance, round, value: (liar + u64::from(round)) % 2 == 1 });
        }
        if version == Version::Two {
            lies.push(Message::Finish { instance, value: liar % 2 == 1 });
        }
    }
    lies.push(Message::Commit { values: PackSet::from([liar, 300]) });
    lies.iter().map(|message| message.to_bytes(version, liar as u8, SESSION)).collect()
}

/// Makes the calls of a trace on a fresh state and compares every answer and message with the trace.
pub fn check<E: Engine>(engine: &E, trace: &Trace) {
    let mut state = engine.blank();
    let line = &mut [0; LINE_BYTES];
    assert_eq!(engine.open(&mut state, &trace.opening(1), line) & 0xff, 0, "good settings");
    for call in &trace.calls {
        match call {
            Call::Deliver { link, message, answer } => {
                let given = engine.deliver(&mut state, *link, message, line);
                assert_eq!(given, *answer, "a delivery");
            }
            Call::Turn { answer, message } => {
                let mut lent = [0; LONGEST];
                assert_eq!(engine.turn(&mut state, &mut lent, line), *answer, "a turn");
                assert_eq!(&lent[..message.len()], message, "a message");
            }
        }
    }
}

/// The part of a session that is timed.
#[derive(Clone, Copy, Debug, PartialEq, Eq)]
pub enum Part {
    Opening,
    /// The opening and the deliveries, with no turn between them.
    Deliveries,
    Whole,
}

/// Runs a part of a session. Answers a sum, so that nothing can be left out.
pub fn replay<E: Engine>(engine: &E, state: &mut E::State, trace: &Trace, part: Part) -> u64 {
    let line = &mut [0; LINE_BYTES];
    let mut sum = engine.open(state, &trace.opening(1), line);
    if part == Part::Opening {
        return sum;
    }
    let mut lent = [0; LONGEST];
    for call in &trace.calls {
        match call {
            Call::Deliver { link, message, .. } => {
                sum += engine.deliver(state, *link, message, line);
            }
            Call::Turn { .. } if part == Part::Whole => sum += engine.turn(state, &mut lent, line),
            Call::Turn { .. } => {}
        }
    }
    sum
}
