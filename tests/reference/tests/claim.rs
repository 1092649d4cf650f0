//! The claims that the attack checks, on calls made up one by one.

use std::collections::BTreeSet;

use pack_reference::attack::{Claim, Owed, Shown, Violation};
use pack_reference::standing_engine::Standing;
use pack_reference::{Number, PackSet};

const UP_TO_TA: Owed = Owed { up_to_ta: true, up_to_ts: true, pack: None };
const UP_TO_TS: Owed = Owed { up_to_ta: false, ..UP_TO_TA };
const MORE: Owed = Owed { up_to_ts: false, ..UP_TO_TS };

/// What shows where no set is named.
fn standing(outputs: &[Number], decided_one: &[Number]) -> Shown {
    let [outputs, decided_one] = [outputs, decided_one].map(|n| n.iter().copied().collect());
    Shown { exit: 0, named: None, in_force: None, standing: Standing { outputs, decided_one } }
}

/// What shows where Exit 3 names a set.
fn naming(set: &[u64]) -> Shown {
    let named = Some(set.iter().copied().collect());
    Shown { exit: 3, named, ..standing(&[], &[]) }
}

#[test]
fn decided_one_needs_an_output() {
    let broken = Err(Violation::NoOutput { at: 2, vote: 3 });
    assert_eq!(Claim::new(UP_TO_TA).check(2, &standing(&[1, 2], &[3])), broken);
}

/// That of the same call comes too late.
#[test]
fn output_comes_strictly_before() {
    let broken = Err(Violation::NoOutput { at: 1, vote: 3 });
    assert_eq!(Claim::new(UP_TO_TA).check(1, &standing(&[3], &[3])), broken);
}

/// It may be that of another one, and may be lost since.
#[test]
fn output_anywhere_before_is_enough() {
    let mut claim = Claim::new(UP_TO_TA);
    assert_eq!(claim.check(2, &standing(&[3], &[])), Ok(()));
    assert_eq!(claim.check(2, &standing(&[], &[])), Ok(()));
    assert_eq!(claim.check(1, &standing(&[], &[3])), Ok(()));
}

#[test]
fn over_ta_no_output_is_owed() {
    assert_eq!(Claim::new(UP_TO_TS).check(1, &standing(&[], &[3])), Ok(()));
}

#[test]
fn named_set_has_an_honest_pack() {
    for owed in [UP_TO_TA, UP_TO_TS] {
        let mut claim = Claim::new(owed);
        claim.put_in(5);
        let set = PackSet::from([6, 7]);
        let broken = Err(Violation::NoHonestPack { at: 1, set });
        assert_eq!(claim.clone().check(1, &naming(&[6, 7])), broken);
        assert_eq!(claim.check(1, &naming(&[5, 6, 7])), Ok(()));
    }
}

/// One that is opened later has put in nothing yet.
#[test]
fn pack_counts_from_the_opening_on() {
    let mut claim = Claim::new(UP_TO_TS);
    let set = PackSet::from([6]);
    let broken = Err(Violation::NoHonestPack { at: 1, set });
    assert_eq!(claim.check(1, &naming(&[6])), broken);
    claim.put_in(6);
    assert_eq!(claim.check(1, &naming(&[6])), Ok(()));
}

#[test]
fn set_in_force_was_named_and_has_an_honest_pack() {
    let in_force = |set: &[u64]| Shown {
        in_force: Some(set.iter().copied().collect::<BTreeSet<u64>>()),
        ..standing(&[], &[])
    };
    for owed in [UP_TO_TA, UP_TO_TS] {
        let mut claim = Claim::new(owed);
        claim.put_in(6);
        let broken = Err(Violation::NotNamed { at: 1, in_force: PackSet::from([6]) });
        assert_eq!(claim.check(1, &in_force(&[6])), broken);
        assert_eq!(claim.check(2, &naming(&[6])), Ok(()));
        assert_eq!(claim.check(1, &in_force(&[6])), Ok(()));
    }
}

#[test]
fn over_ts_no_pack_is_owed() {
    assert_eq!(Claim::new(MORE).check(1, &naming(&[6])), Ok(()));
}
