//! Document 02, N1: the calendar. Minutes are worked out by hand.

use pack_reference::calendar::start_minute;
use pack_reference::calendar_engine::CalendarEngine;
use pack_reference::compare::{edge_calendars, random_calendars};
use pack_reference::engine::Reference;
use pack_reference::Refusal;

const REFUSED: Result<u64, Refusal> = Err(Refusal::Windows);

/// The starts after closing minutes, each with the minute that is expected.
fn check(windows: &[u32], lead: u64, starts: &[(u64, u64)]) {
    for &(closing, start) in starts {
        let found = start_minute(windows, closing, lead);
        assert_eq!(found, Ok(start), "{windows:?} after {closing} and {lead}");
    }
}

#[test]
fn last_minute_of_the_week() {
    let starts = [(0, 10_079), (10_078, 10_079), (10_079, 10_079), (10_080, 20_159)];
    check(&[10_079, 10_080], 0, &starts);
}

#[test]
fn whole_week() {
    let any = [(0, 0), (5, 5), (10_079, 10_079), (10_080, 10_080), (4_000_000_000, 4_000_000_000)];
    check(&[0, 10_080], 0, &any);
    check(&[0, 10_080], 10_080, &[(0, 10_080), (4_000_000_000, 4_000_010_080)]);
}

#[test]
fn one_minute() {
    check(&[5, 6], 0, &[(0, 5), (5, 5), (6, 10_085), (10_079, 10_085), (10_085, 10_085)]);
    check(&[0, 1], 0, &[(0, 0), (1, 10_080), (10_080, 10_080), (10_081, 20_160)]);
}

#[test]
fn end_is_outside() {
    check(&[60, 300], 0, &[(0, 60), (59, 60), (60, 60), (299, 299), (300, 10_140)]);
    check(&[10_020, 10_080], 0, &[(10_019, 10_020), (10_079, 10_079), (10_080, 20_100)]);
}

#[test]
fn around_the_end_of_the_week() {
    let starts = [(61, 10_020), (10_079, 10_079), (10_080, 10_080), (10_139, 10_139)];
    check(&[10_020, 10_080, 0, 60], 0, &starts);
    check(&[10_020, 10_080, 0, 60], 0, &[(10_140, 20_100)]);
    assert_eq!(start_minute(&[10_020, 10_140], 0, 0), REFUSED);
}

#[test]
fn overlapping_and_in_any_order() {
    let starts = [(0, 100), (150, 150), (250, 250), (399, 399), (400, 10_180)];
    check(&[100, 300, 200, 400], 0, &starts);
    check(&[200, 400, 100, 300], 0, &starts);
    check(
        &[9_000, 9_001, 500, 501, 20, 21],
        0,
        &[(0, 20), (21, 500), (501, 9_000), (9_001, 10_100)],
    );
}

#[test]
fn lead_counts() {
    check(&[60, 300], 0, &[(100, 100)]);
    check(&[60, 300], 199, &[(100, 299)]);
    check(&[60, 300], 200, &[(100, 10_140)]);
    // 10,100 is minute 20 of the next week.
    check(
        &[60, 300],
        100,
        &[(10_000, 10_140), (10_039, 10_140), (10_040, 10_140), (10_041, 10_141)],
    );
    check(&[60, 300], 10_080, &[(59, 10_140), (60, 10_140), (299, 10_379), (300, 20_220)]);
}

/// Minute 4,000,000,000 is minute 4,000 of its week.
#[test]
fn last_closing_minute() {
    check(&[4_000, 4_001], 0, &[(4_000_000_000, 4_000_000_000)]);
    check(&[4_000, 4_001], 1, &[(4_000_000_000, 4_000_010_080)]);
    check(&[3_999, 4_000], 10_080, &[(4_000_000_000, 4_000_020_159)]);
}

#[test]
fn numbers_over_their_limits() {
    for closing in [4_000_000_001, u64::from(u32::MAX), 1 << 32, 1 << 63, u64::MAX] {
        assert_eq!(start_minute(&[0, 10_080], closing, 0), REFUSED, "closing {closing}");
        assert_eq!(start_minute(&[0, 10_080], closing, 1), REFUSED, "closing {closing}");
    }
    for lead in [10_081, 1 << 32, 1 << 63, u64::MAX - 3_999_999_999, u64::MAX] {
        assert_eq!(start_minute(&[0, 10_080], 0, lead), REFUSED, "lead {lead}");
        assert_eq!(start_minute(&[0, 10_080], 4_000_000_000, lead), REFUSED, "lead {lead}");
    }
}

/// Windows of a minute at 0, 500, 1,000 and so on.
fn spread(numbers: u32) -> Vec<u32> {
    (0..numbers).map(|place| place / 2 * 500 + place % 2).collect()
}

#[test]
fn up_to_sixteen_windows() {
    let starts =
        [(0, 0), (1, 500), (7_000, 7_000), (7_001, 7_500), (7_500, 7_500), (7_501, 10_080)];
    check(&spread(32), 0, &starts);
    check(&spread(30), 0, &[(7_000, 7_000), (7_001, 10_080)]);
    for numbers in [0, 1, 3, 31, 33, 34, 35, 64] {
        assert_eq!(start_minute(&spread(numbers), 0, 0), REFUSED, "{numbers} numbers");
    }
}

#[test]
fn bad_windows() {
    let bad = [
        [5, 5],
        [0, 0],
        [10_080, 10_080],
        [6, 5],
        [0, 10_081],
        [10_080, 10_081],
        [10_085, 10_086],
        [65_536, 65_537],
        [0, u32::MAX],
        [u32::MAX, 0],
        [u32::MAX, u32::MAX],
    ];
    for [first, end] in bad {
        for windows in
            [&[first, end][..], &[first, end, 0, 1], &[0, 1, first, end], &[0, 1, first, end, 2, 3]]
        {
            assert_eq!(start_minute(windows, 0, 0), REFUSED, "{windows:?}");
        }
    }
}

#[test]
fn packed_answers() {
    let reference = Reference::default();
    assert_eq!(reference.start_minute(&[5, 6], 0, 0), 0x5_0000_0000);
    assert_eq!(reference.start_minute(&[0, 10_080], 4_000_000_000, 0), 0xee6b_2800_0000_0000);
    assert_eq!(reference.start_minute(&[], 0, 0), 12);
    assert_eq!(Refusal::Windows.to_string(), "12 WINDOWS");
    assert_eq!(Refusal::from_number(12), Some(Refusal::Windows));
}

/// The calls of the comparison give every kind of answer, many times.
#[test]
fn calls_of_the_comparison() {
    let reference = Reference::default();
    for answers in [edge_calendars(&reference), random_calendars(&reference, 6, 20_000)] {
        let kinds = [answers.refusals[0], answers.refusals[12]].into_iter().chain(answers.starts);
        assert!(kinds.min() > Some(answers.calls() / 100), "{answers}");
        assert_eq!(answers.refusals[0] + answers.refusals[12], answers.calls());
    }
}
