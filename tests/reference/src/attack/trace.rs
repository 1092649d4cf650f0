//! Traces of feeders: the calls at one honest concentrator, with the answers of the reference.

use std::cell::RefCell;

use super::claim::Conditions;
use super::feeder::Feeder;
use super::plan::Plan;
use crate::box_engine::BoxEngine;
use crate::coin_box::{BoxOpening, CoinBox};
use crate::engine::{Coin, Engine, Reference};
use crate::journal::LINE_BYTES;
use crate::report::SET_WORDS;
use crate::session::{Opening, Session};
use crate::settings::{Number, Settings};
use crate::standing_engine::{Standing, StandingEngine};
use crate::traces::{refusal, report_answer, turn_answer, Call, TracedOpening};

/// The reference, with the calls that it answered.
struct Traced;

#[derive(Default)]
struct TracedState {
    session: Option<Session>,
    trace: RefCell<String>,
    /// The last report that was lent just enough.
    last_report: RefCell<String>,
}

impl TracedState {
    fn note(&self, call: &Call, answer: &str) {
        *self.trace.borrow_mut() += &format!("{call}\t{answer}\n");
    }
}

/// Of the feeder with this seed, which has these settings, weights of 1, printed coins and no losses of power. `None` if the
/// concentrator lies. Reports are in it where they differ from the one before.
pub fn feeder_trace(settings: Settings, seed: u64, own: Number) -> Option<String> {
    let mut plan = Plan::with_settings(seed, settings);
    plan.pace.power_losses = None;
    let mut feeder = Feeder::new(&Traced, &plan, Conditions::Met, !seed);
    feeder.run().expect("a sound engine");
    feeder.honest.remove(&own).map(|honest| honest.state.trace.into_inner())
}

impl Engine for Traced {
    type State = TracedState;

    fn blank(&self) -> TracedState {
        TracedState::default()
    }

    fn littered(&self, _seed: u64) -> TracedState {
        TracedState::default()
    }

    fn open(&self, state: &mut TracedState, opening: &Opening, line: &mut [u8]) -> u64 {
        let answer = Reference::default().open(&mut state.session, opening, line);
        let opening = TracedOpening::new(opening).expect("printed coins and weights of 1");
        state.note(&Call::Opening(opening), &refusal(answer));
        answer
    }

    fn deliver(&self, state: &mut TracedState, link: u64, message: &[u8], line: &mut [u8]) -> u64 {
        let answer = Reference::default().deliver(&mut state.session, link, message, line);
        state.note(&Call::Delivery { link, message: message.to_vec() }, &refusal(answer));
        answer
    }

    /// A turn that is lent too little for its line has no form here.
    fn turn(&self, state: &mut TracedState, message: &mut [u8], line: &mut [u8]) -> u64 {
        let answer = Reference::default().turn(&mut state.session, message, line);
        if line.len() >= LINE_BYTES {
            state.note(&Call::Turn { capacity: message.len() }, &turn_answer(answer, message));
        }
        answer
    }

    fn report(&self, state: &TracedState, named: &mut [u64], in_force: &mut [u64]) -> u64 {
        let answer = Reference::default().report(&state.session, named, in_force);
        let written = report_answer(answer, named, in_force);
        let call = Call::Report { named: named.len(), in_force: in_force.len() };
        let usual = call == Call::Report { named: SET_WORDS, in_force: SET_WORDS };
        // The count of turns alone is no news.
        let news = written.rsplit_once('\t').map_or("", |(news, _)| news).to_string();
        if !usual || *state.last_report.borrow() != news {
            state.note(&call, &written);
        }
        if usual {
            *state.last_report.borrow_mut() = news;
        }
        answer
    }

    /// Restores and recordings have no form here; those that a feeder makes without losses of power and boxes are refused.
    fn restore(&self, state: &mut TracedState, journal: &[u8], message: &mut [u8]) -> u64 {
        Reference::default().restore(&mut state.session, journal, message)
    }

    fn record(&self, state: &mut TracedState, coin: Coin, line: &mut [u8]) -> u64 {
        Reference::default().record(&mut state.session, coin, line)
    }
}

impl StandingEngine for Traced {
    fn standing(&self, state: &TracedState) -> Standing {
        Reference::default().standing(&state.session)
    }
}

impl BoxEngine for Traced {
    type CoinBox = Option<CoinBox>;

    fn blank_box(&self) -> Self::CoinBox {
        None
    }

    fn open_box(&self, coin_box: &mut Self::CoinBox, opening: &BoxOpening) -> u64 {
        Reference::default().open_box(coin_box, opening)
    }

    fn request(&self, coin_box: &mut Self::CoinBox, requester: u64, vote: u64, round: u64) -> u64 {
        Reference::default().request(coin_box, requester, vote, round)
    }
}
