//! The attack holds against the sound engine and finds each fault.

use pack_reference::attack::{attack, run_feeder, versions, Conditions, Violation};
use pack_reference::compare::random_calls;
use pack_reference::engine::{Lockstep, Reference};
use pack_reference::{Fault, Refusal};

const SEED: u64 = 1;
const FEEDERS: u64 = 300;

#[test]
fn sound_engine_holds() {
    let (statistics, finding) = attack(&Reference::default(), Conditions::Met, SEED, FEEDERS);
    assert!(finding.is_none(), "{}", finding.unwrap());
    assert!(statistics.exits.iter().all(|&seen| seen > 0), "{statistics}");
    assert!(statistics.closed > 0);
    assert!(statistics.restores > 0 && statistics.lost_lines > 0, "{statistics}");
    assert!(statistics.boxed > 0 && statistics.recordings > 0, "{statistics}");
    assert!(statistics.version_2 > 0 && statistics.finishes > 0, "{statistics}");
    assert!(statistics.over_ta > 0, "{statistics}");
}

#[test]
fn version_2_saves_turns() {
    let [(_, one), (_, two)] = versions(&Reference::default(), SEED, 20).unwrap();
    for (one, two) in [(one.honest, two.honest), (one.lying, two.lying)] {
        assert_eq!((one.feeders, one.opened), (two.feeders, two.opened));
        assert!(two.turns < one.turns && two.messages < one.messages, "{one}; {two}");
    }
}

#[test]
fn lost_lines_of_messages_that_left_are_found() {
    let (_, finding) = attack(&Reference::default(), Conditions::LostLines, SEED, FEEDERS);
    let violation = finding.map(|finding| finding.violation);
    assert!(matches!(violation, Some(Violation::TwoSets { .. })), "{violation:?}");
}

#[test]
fn recorded_bits_that_differ_are_found() {
    let (_, finding) = attack(&Reference::default(), Conditions::OtherBits, SEED, FEEDERS);
    let violation = finding.map(|finding| finding.violation);
    assert!(matches!(violation, Some(Violation::TwoSets { .. })), "{violation:?}");
}

#[test]
fn each_fault_is_found_and_repeats() {
    for fault in Fault::ALL.into_iter().filter(|&fault| fault != Fault::None) {
        let engine = Reference { fault };
        let (_, finding) = attack(&engine, Conditions::Met, SEED, FEEDERS);
        let finding = finding.unwrap_or_else(|| panic!("{} was not found", fault.name()));
        let (_, again) = run_feeder(&engine, Conditions::Met, finding.seed);
        assert_eq!(again, Err(finding.violation));
    }
}

/// It is the claims of 02, N9 that find these.
#[test]
fn faults_in_what_sets_hold_are_found_by_it() {
    let found = |fault| attack(&Reference { fault }, Conditions::Met, SEED, FEEDERS).1.unwrap();
    let early = found(Fault::EarlyStart).violation;
    assert!(matches!(early, Violation::NoOutput { .. }), "{early}");
    let outside = found(Fault::OutsideS).violation;
    assert!(matches!(outside, Violation::NoHonestPack { .. }), "{outside}");
}

/// All but those of calendar and delivery lists, which no call on a state gives.
#[test]
fn random_calls_meet_every_refusal() {
    let engine = Lockstep { first: Reference::default(), second: Reference::default() };
    let answers = random_calls(&engine, SEED, 200_000);
    let given = |refusal: Refusal| answers.refusals[usize::from(refusal.number())] > 0;
    let stateless = [Refusal::Windows, Refusal::Record];
    let as_due = |refusal: &Refusal| given(*refusal) != stateless.contains(refusal);
    assert!(answers.refusals[0] > 0 && Refusal::ALL.iter().all(as_due), "{answers:?}");
}

#[test]
fn lockstep_notices_each_fault() {
    for fault in Fault::ALL.into_iter().filter(|&fault| fault != Fault::None) {
        let engine = Lockstep { first: Reference::default(), second: Reference { fault } };
        let noticed =
            std::panic::catch_unwind(|| attack(&engine, Conditions::Met, SEED, FEEDERS)).is_err();
        assert!(noticed, "{}", fault.name());
    }
}
