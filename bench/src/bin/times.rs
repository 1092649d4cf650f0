//! Times sessions of both versions at one concentrator: the archive, the masks, the reference. With the arguments
//! `count VERSION N HEAVIEST KIND` it runs each part once, in functions of their own, for a tool that counts instructions;
//! with `saved` it prints what version 2 saves, with `packs` what the AUX of N2 changes in the sets, and times nothing.

use std::hint::black_box;
use std::time::Instant;

use pack_bench::plain::{Archive, PlainMasks};
use pack_bench::trace::{check, replay, Kind, Part, Trace};
use pack_reference::engine::{Engine, Reference};
use pack_reference::{Fault, Version};

const SIZES: [u64; 4] = [4, 7, 10, 16];
/// The largest weight of a feeder; with 1 all weigh the same.
const HEAVIEST: [u8; 2] = [1, 4];
const PARTS: [Part; 3] = [Part::Opening, Part::Deliveries, Part::Whole];
/// Batches of each part; the median is taken.
const BATCHES: usize = 21;
/// What a batch should take at least, in nanoseconds.
const BATCH: f64 = 1_000_000.0;

fn main() {
    let arguments: Vec<String> = std::env::args().skip(1).collect();
    match &arguments[..] {
        [] => {
            let traces = traces();
            print_times(&traces);
            print_saved(&traces);
            print_packs(&traces);
        }
        [saved] if saved == "saved" => print_saved(&traces()),
        [packs] if packs == "packs" => print_packs(&traces()),
        [count, version, n, heaviest, kind] if count == "count" => {
            count_one(version, n, heaviest, kind);
        }
        _ => {
            eprintln!("usage: times [saved | packs | count VERSION N HEAVIEST KIND]");
            std::process::exit(2);
        }
    }
}

/// Those of version 2 stand behind those of version 1.
fn traces() -> Vec<Trace> {
    let mut traces = Vec::new();
    for version in Version::ALL {
        let feeders = HEAVIEST.iter().flat_map(|&heaviest| SIZES.map(|n| (n, heaviest)));
        traces.extend(feeders.flat_map(|(n, heaviest)| {
            Kind::ALL.map(|kind| Trace::new(version, n, heaviest, kind))
        }));
    }
    for trace in &traces {
        check(&Archive, trace);
        check(&PlainMasks, trace);
        check(&Reference::default(), trace);
    }
    traces
}

/// Nanoseconds of one run of a part, over so many runs.
fn batch<E: Engine>(engine: &E, state: &mut E::State, trace: &Trace, part: Part, runs: u64) -> f64 {
    let start = Instant::now();
    for _ in 0..runs {
        black_box(replay(engine, state, black_box(trace), part));
    }
    start.elapsed().as_nanos() as f64 / runs as f64
}

/// The medians for the three parts, in nanoseconds.
struct Medians {
    opening: f64,
    delivery: f64,
    turn: f64,
    session: f64,
}

/// The batches of one engine so far.
struct Timing<E: Engine> {
    engine: E,
    state: E::State,
    batches: [Vec<f64>; 3],
}

impl<E: Engine> Timing<E> {
    fn new(engine: E) -> Timing<E> {
        let state = engine.blank();
        Timing { engine, state, batches: Default::default() }
    }

    /// One batch of each part.
    fn add(&mut self, trace: &Trace) {
        for (part, batches) in PARTS.into_iter().zip(&mut self.batches) {
            let once = batch(&self.engine, &mut self.state, trace, part, 1);
            let runs = (BATCH / once).ceil().max(1.0) as u64;
            batches.push(batch(&self.engine, &mut self.state, trace, part, runs));
        }
    }

    fn medians(mut self, trace: &Trace) -> Medians {
        let [opening, deliveries, session] = PARTS.map(|part| {
            let batches = &mut self.batches[part as usize];
            batches.sort_by(f64::total_cmp);
            batches[batches.len() / 2]
        });
        let delivery = (deliveries - opening) / trace.deliveries() as f64;
        let turn = (session - deliveries) / trace.turns() as f64;
        Medians { opening, delivery, turn, session }
    }
}

/// The archive, the masks and the reference, batch by batch in turn.
fn time(trace: &Trace) -> [Medians; 3] {
    let mut archive = Timing::new(Archive);
    let mut masks = Timing::new(PlainMasks);
    let mut reference = Timing::new(Reference::default());
    for _ in 0..BATCHES {
        archive.add(trace);
        masks.add(trace);
        reference.add(trace);
    }
    [archive.medians(trace), masks.medians(trace), reference.medians(trace)]
}

fn print_times(traces: &[Trace]) {
    println!("Medians of {BATCHES} batches. E the engine, M the masks, R the reference.\n");
    println!(
        "| version | n | weights | feeder | deliveries | turns | ns/delivery E | M | R | ns/turn E | M | R | \
         µs/session E | M | R | session E/M | E/R |"
    );
    println!("|{}", "---|".repeat(17));
    let mut opening = [0.0; 3];
    for trace in traces {
        let medians = time(trace);
        opening = medians.each_ref().map(|engine| engine.opening);
        print!(
            "| {} | {} | {} | {} | {} | {} |",
            trace.version.number(),
            trace.n,
            weights_name(trace.heaviest),
            trace.kind.name(),
            trace.deliveries(),
            trace.turns()
        );
        medians.iter().for_each(|engine| print!(" {:.0} |", engine.delivery));
        medians.iter().for_each(|engine| print!(" {:.0} |", engine.turn));
        medians.iter().for_each(|engine| print!(" {:.1} |", engine.session / 1e3));
        let [archive, masks, reference] = medians.map(|engine| engine.session);
        println!(" {:.2} | {:.3} |", archive / masks, archive / reference);
    }
    let [archive, masks, reference] = opening;
    println!("\nOpening with n = 16: E {archive:.0} ns, M {masks:.0} ns, R {reference:.0} ns.");
}

/// The same feeders in both versions.
fn print_saved(traces: &[Trace]) {
    println!("\nWhat all honest ones of a feeder send, and their turns that are not idle, in version 1 and 2.\n");
    println!("| n | weights | feeder | messages 1 | 2 | turns 1 | 2 |");
    println!("|{}", "---|".repeat(7));
    let (first, second) = traces.split_at(traces.len() / 2);
    for (one, two) in first.iter().zip(second) {
        println!(
            "| {} | {} | {} | {} | {} | {} | {} |",
            one.n,
            weights_name(one.heaviest),
            one.kind.name(),
            one.feeder_sent,
            two.feeder_sent,
            one.feeder_turns,
            two.feeder_turns
        );
    }
}

/// The same feeders with the AUX of 01 and with that of N2.
fn print_packs(traces: &[Trace]) {
    let before = Reference { fault: Fault::ZeroBeforeOne };
    let [mut other_calls, mut put_in, mut in_before, mut in_now, mut gained] = [0; 5];
    for now in traces {
        let packs = now.put_in();
        let before = Trace::with_engine(&before, now.version, now.n, now.heaviest, now.kind);
        other_calls += usize::from(before.calls != now.calls);
        put_in += packs.len();
        in_before += packs.intersection(&before.set).count();
        in_now += packs.intersection(&now.set).count();
        gained += packs.intersection(&now.set).filter(|pack| !before.set.contains(pack)).count();
    }
    println!(
        "\nOf {put_in} packs that honest ones put into these {} feeders, {in_before} are in their sets with the AUX of 01, \
         {in_now} with that of N2; {gained} were left out before and are in now. At concentrator 1, {other_calls} sessions \
         take other calls.",
        traces.len()
    );
}

fn weights_name(heaviest: u8) -> String {
    match heaviest {
        1 => "1".to_string(),
        _ => format!("1 to {heaviest}"),
    }
}

/// Functions that a tool finds by their names.
macro_rules! counted {
    ($name:ident, $engine:expr, $part:expr) => {
        #[no_mangle]
        #[inline(never)]
        fn $name(trace: &Trace) -> u64 {
            let engine = $engine;
            let mut state = engine.blank();
            replay(&engine, &mut state, trace, $part)
        }
    };
}

counted!(count_archive_opening, Archive, Part::Opening);
counted!(count_archive_deliveries, Archive, Part::Deliveries);
counted!(count_archive_whole, Archive, Part::Whole);
counted!(count_masks_opening, PlainMasks, Part::Opening);
counted!(count_masks_deliveries, PlainMasks, Part::Deliveries);
counted!(count_masks_whole, PlainMasks, Part::Whole);
counted!(count_reference_opening, Reference::default(), Part::Opening);
counted!(count_reference_deliveries, Reference::default(), Part::Deliveries);
counted!(count_reference_whole, Reference::default(), Part::Whole);

fn count_one(version: &str, n: &str, heaviest: &str, kind: &str) {
    let [version, n, heaviest] =
        [version, n, heaviest].map(|text| text.parse::<u8>().expect("a number"));
    let version = Version::given(version.into()).expect("a version");
    let kind = Kind::ALL.into_iter().find(|known| known.name() == kind).expect("a kind");
    let trace = &Trace::new(version, u64::from(n), heaviest, kind);
    black_box([count_archive_opening(trace), count_archive_deliveries(trace)]);
    black_box(count_archive_whole(trace));
    black_box([count_masks_opening(trace), count_masks_deliveries(trace)]);
    black_box(count_masks_whole(trace));
    black_box([count_reference_opening(trace), count_reference_deliveries(trace)]);
    black_box(count_reference_whole(trace));
    println!("{} {}", trace.deliveries(), trace.turns());
}
