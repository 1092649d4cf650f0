//! Runs the reference and the linked C engine in lockstep. Arguments: seed, number of feeders, number of random calls,
//! and of calls on planted words. It panics at the first difference.

use std::fmt::Display;
use std::process::ExitCode;
use std::time::Instant;

use pack_reference::attack::{attack, Conditions};
use pack_reference::c_box::check_box_word_counts;
use pack_reference::c_engine::{check_word_counts, CEngine};
use pack_reference::coin_box::BoxOpening;
use pack_reference::compare::{
    damaged_deliveries, edge_calendars, edge_delivery_lists, edge_recordings, foreign_boxes,
    foreign_calls, longest_sessions, random_boxes, random_calendars, random_calls,
    random_delivery_lists, restores, short_delivery_lists, two_weeks_of_closings, unnamed_openings,
};
use pack_reference::engine::{Lockstep, Reference};
use pack_reference::Opening;

/// Random calendars at least.
const CALENDARS: u64 = 1_000_000;
/// Random delivery lists at least. Each takes several calls.
const DELIVERY_LISTS: u64 = 200_000;

fn main() -> ExitCode {
    let arguments: Vec<u64> =
        std::env::args().skip(1).filter_map(|text| text.parse().ok()).collect();
    let [seed, feeders, calls, foreign] = arguments[..] else {
        eprintln!("usage: compare SEED FEEDERS CALLS FOREIGN");
        return ExitCode::from(2);
    };
    println!("seed {seed}");
    let (coins, weights) = (&[0], &[1]);
    let (version, n, ta, ts, own, session, input, boxed) = (2, 1, 0, 0, 1, 0, 0, 0);
    check_word_counts(&Opening { version, n, ta, ts, own, session, input, coins, weights, boxed });
    check_box_word_counts(&BoxOpening { n, ta, ts, coins, weights });
    let engine = Lockstep { first: Reference::default(), second: CEngine };
    let start = Instant::now();
    let note = |part: &str, what: &dyn Display| {
        println!("{part}: {what} ({:.1} s since the start)", start.elapsed().as_secs_f64());
    };
    note("damaged messages", &damaged_deliveries(&engine));
    note("longest sessions", &longest_sessions(&engine, 7));
    note("ta unnamed", &unnamed_openings(&engine, seed, 20));
    note("restores", &restores(&engine, seed, 12));
    note("recordings", &edge_recordings(&engine));
    note("boxes", &random_boxes(&engine, seed, calls));
    note("calendars on the edge", &edge_calendars(&engine));
    note("closings of two weeks", &two_weeks_of_closings(&engine));
    note("random calendars", &random_calendars(&engine, seed, calls.max(CALENDARS)));
    note("short delivery lists", &short_delivery_lists(&engine, 6));
    note("delivery lists on the edge", &edge_delivery_lists(&engine));
    let lists = DELIVERY_LISTS.max(calls / 4);
    note("random delivery lists", &random_delivery_lists(&engine, seed, lists));
    note("random calls", &random_calls(&engine, seed, calls));
    note("planted words", &foreign_calls(&CEngine, &CEngine, seed, foreign));
    note("planted boxes", &foreign_boxes(&CEngine, &CEngine, seed, foreign));
    let (statistics, finding) = attack(&engine, Conditions::Met, seed, feeders);
    note("attack", &statistics);
    match finding {
        Some(finding) => {
            println!("violation in {finding}");
            ExitCode::FAILURE
        }
        None => {
            println!("no difference, no violation");
            ExitCode::SUCCESS
        }
    }
}
