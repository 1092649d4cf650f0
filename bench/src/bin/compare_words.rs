//! Runs the C engine and the masks from equal words and compares answers, lent bytes and all words. Arguments: seed,
//! number of random calls, number of calls on planted words. It panics at the first difference.

use std::fmt::Display;
use std::process::ExitCode;
use std::time::Instant;

use pack_bench::Masks;
use pack_reference::box_engine::BoxEngine;
use pack_reference::c_engine::{CEngine, Words};
use pack_reference::coin_box::BoxOpening;
use pack_reference::compare::{
    damaged_deliveries, edge_recordings, foreign_boxes, foreign_calls, random_boxes, random_calls,
    restores, unnamed_openings,
};
use pack_reference::engine::{Coin, Engine};
use pack_reference::Opening;

/// Both engines in lockstep; their words are compared after each call.
struct SameWords;

fn same(state: &(Words, Words)) {
    assert!(state.0 == state.1, "the words differ");
}

impl Engine for SameWords {
    type State = (Words, Words);

    fn blank(&self) -> Self::State {
        (CEngine.blank(), Masks.blank())
    }

    fn littered(&self, seed: u64) -> Self::State {
        (CEngine.littered(seed), CEngine.littered(seed))
    }

    fn open(&self, state: &mut Self::State, opening: &Opening, line: &mut [u8]) -> u64 {
        let mut copy = line.to_vec();
        let answer = CEngine.open(&mut state.0, opening, line);
        let other = Masks.open(&mut state.1, opening, &mut copy);
        assert_eq!((answer, &*line), (other, &*copy), "openings differ");
        same(state);
        answer
    }

    fn deliver(&self, state: &mut Self::State, link: u64, message: &[u8], line: &mut [u8]) -> u64 {
        let mut copy = line.to_vec();
        let answer = CEngine.deliver(&mut state.0, link, message, line);
        let other = Masks.deliver(&mut state.1, link, message, &mut copy);
        assert_eq!((answer, &*line), (other, &*copy), "deliveries differ");
        same(state);
        answer
    }

    fn turn(&self, state: &mut Self::State, message: &mut [u8], line: &mut [u8]) -> u64 {
        let (mut message_copy, mut line_copy) = (message.to_vec(), line.to_vec());
        let answer = CEngine.turn(&mut state.0, message, line);
        let other = Masks.turn(&mut state.1, &mut message_copy, &mut line_copy);
        let copies = (other, &*message_copy, &*line_copy);
        assert_eq!((answer, &*message, &*line), copies, "turns differ");
        same(state);
        answer
    }

    fn report(&self, state: &Self::State, named: &mut [u64], in_force: &mut [u64]) -> u64 {
        let (mut named_copy, mut in_force_copy) = (named.to_vec(), in_force.to_vec());
        let answer = CEngine.report(&state.0, named, in_force);
        let other = Masks.report(&state.1, &mut named_copy, &mut in_force_copy);
        let copies = (other, &*named_copy, &*in_force_copy);
        assert_eq!((answer, &*named, &*in_force), copies, "reports differ");
        answer
    }

    fn restore(&self, state: &mut Self::State, journal: &[u8], message: &mut [u8]) -> u64 {
        let mut copy = message.to_vec();
        let answer = CEngine.restore(&mut state.0, journal, message);
        let other = Masks.restore(&mut state.1, journal, &mut copy);
        assert_eq!((answer, &*message), (other, &*copy), "restores differ");
        same(state);
        answer
    }

    fn record(&self, state: &mut Self::State, coin: Coin, line: &mut [u8]) -> u64 {
        let mut copy = line.to_vec();
        let answer = CEngine.record(&mut state.0, coin, line);
        let other = Masks.record(&mut state.1, coin, &mut copy);
        assert_eq!((answer, &*line), (other, &*copy), "recordings differ");
        same(state);
        answer
    }
}

impl BoxEngine for SameWords {
    type CoinBox = (Words, Words);

    fn blank_box(&self) -> Self::CoinBox {
        (CEngine.blank_box(), Masks.blank_box())
    }

    fn open_box(&self, coin_box: &mut Self::CoinBox, opening: &BoxOpening) -> u64 {
        let answer = CEngine.open_box(&mut coin_box.0, opening);
        assert_eq!(answer, Masks.open_box(&mut coin_box.1, opening), "openings of boxes differ");
        same(coin_box);
        answer
    }

    fn request(&self, coin_box: &mut Self::CoinBox, requester: u64, vote: u64, round: u64) -> u64 {
        let answer = CEngine.request(&mut coin_box.0, requester, vote, round);
        let other = Masks.request(&mut coin_box.1, requester, vote, round);
        assert_eq!(answer, other, "requests differ");
        same(coin_box);
        answer
    }
}

fn main() -> ExitCode {
    let arguments: Vec<u64> =
        std::env::args().skip(1).filter_map(|text| text.parse().ok()).collect();
    let [seed, calls, foreign] = arguments[..] else {
        eprintln!("usage: compare-words SEED CALLS FOREIGN");
        return ExitCode::from(2);
    };
    println!("seed {seed}");
    let start = Instant::now();
    let note = |part: &str, what: &dyn Display| {
        println!("{part}: {what} ({:.1} s since the start)", start.elapsed().as_secs_f64());
    };
    note("damaged messages", &damaged_deliveries(&SameWords));
    note("ta unnamed", &unnamed_openings(&SameWords, seed, 20));
    note("restores", &restores(&SameWords, seed, 12));
    note("recordings", &edge_recordings(&SameWords));
    note("boxes", &random_boxes(&SameWords, seed, calls));
    note("random calls", &random_calls(&SameWords, seed, calls));
    note("planted words", &foreign_calls(&CEngine, &Masks, seed, foreign));
    note("planted boxes", &foreign_boxes(&CEngine, &Masks, seed, foreign));
    println!("no difference");
    ExitCode::SUCCESS
}
