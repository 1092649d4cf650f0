//! Document 02, N8: ta given as 255.

use pack_reference::{Refusal, Settings};

/// The ta of a session that leaves it unnamed.
fn unnamed(ts: u64, weights: &[u8]) -> Result<u8, Refusal> {
    let settings = Settings::new(weights.len() as u64, Settings::UNNAMED, ts, weights);
    settings.map(|settings| settings.ta())
}

#[test]
fn the_smaller_of_ts_and_what_is_left() {
    for (n, ts, ta) in [(1, 0, 0), (3, 1, 0), (4, 0, 0), (4, 1, 1), (7, 2, 2), (7, 3, 0)] {
        assert_eq!(unnamed(ts, Settings::ones(n)), Ok(ta), "{n},{ts}");
    }
    for (ts, ta) in [(0, 0), (4, 4), (5, 5), (6, 3), (7, 1)] {
        assert_eq!(unnamed(ts, Settings::ones(16)), Ok(ta), "16,{ts}");
    }
}

#[test]
fn the_sum_of_weights_stands_for_n() {
    let cases: [(u64, &[u8], u8); 6] = [
        (1, &[4], 1),
        (2, &[4, 1], 0),
        (3, &[4, 4, 4], 3),
        (4, &[4, 4, 4], 3),
        (21, &[4; 16], 21),
        (31, &[4; 16], 1),
    ];
    for (ts, weights, ta) in cases {
        assert_eq!(unnamed(ts, weights), Ok(ta), "{ts} {weights:?}");
    }
}

#[test]
fn refused_where_twice_ts_is_n() {
    for (n, ts) in [(1, 1), (2, 1), (4, 2), (16, 8), (16, 255), (4, 1 << 63), (4, u64::MAX)] {
        assert_eq!(unnamed(ts, Settings::ones(n)), Err(Refusal::Settings), "{n},{ts}");
    }
    assert_eq!(unnamed(3, &[4, 1]), Err(Refusal::Settings));
    assert_eq!(unnamed(32, &[4; 16]), Err(Refusal::Settings));
}

#[test]
fn other_settings_are_asked_too() {
    for (n, weights) in [(0, &[][..]), (17, &[1; 17]), (2, &[1, 5]), (2, &[1, 0]), (2, &[1; 3])] {
        let settings = Settings::new(n, Settings::UNNAMED, 0, weights);
        assert_eq!(settings.err(), Some(Refusal::Settings), "{n} {weights:?}");
    }
}
