//! 02, N1: calendars on the edge, every closing minute of two weeks, and random calendars.

use super::calls::EDGES;
use super::Answers;
use crate::attack::random::Random;
use crate::calendar::{LAST_CLOSING, LONGEST_LEAD, MOST_WINDOWS, WEEK};
use crate::calendar_engine::CalendarEngine;

/// Numbers of windows, on and beside what fits; the last ones would fit if they lost bits or weeks.
const NUMBERS: [u32; 13] =
    [0, 1, 5_040, 5_041, 10_078, 10_079, 10_080, 10_081, 20_160, 20_161, 65_536, 65_537, u32::MAX];

/// Windows that overlap, meet, meet around the end of the week, repeat, fall, and lie in each other.
const SEVERAL: [&[u32]; 6] = [
    &[100, 300, 200, 400],
    &[100, 200, 200, 300],
    &[10_020, 10_080, 0, 60],
    &[5_040, 5_041, 5_040, 5_041],
    &[9_000, 9_001, 5_000, 5_001, 1_000, 1_001],
    &[2_000, 8_000, 4_000, 4_001, 9_999, 10_000],
];

/// All lists, closing minutes and leads on the edge, each with each.
pub fn edge_calendars<E: CalendarEngine>(engine: &E) -> Answers {
    let last_monday = LAST_CLOSING - LAST_CLOSING % WEEK;
    let small = [0, 5_040, WEEK, 2 * WEEK, 1 << 16, 1 << 31, 1 << 32];
    let closings = around(&[&small[..], &[last_monday, LAST_CLOSING, 1 << 63]].concat());
    // Together with the last closing minute it wraps to 0.
    let wrapping = LAST_CLOSING.wrapping_neg();
    let leads = around(&[0, 60, 5_040, LONGEST_LEAD, 1 << 32, wrapping, 1 << 63]);
    let mut answers = Answers::default();
    for windows in edge_lists() {
        for &closing in &closings {
            for &lead in &leads {
                ask(engine, &windows, closing, lead, &mut answers);
            }
        }
    }
    answers
}

/// Each number, the one before and the one after it.
fn around(numbers: &[u64]) -> Vec<u64> {
    let three = |&number: &u64| [number.wrapping_sub(1), number, number.wrapping_add(1)];
    numbers.iter().flat_map(three).collect()
}

/// One window from all pairs of numbers, lists of every length, one bad window at each place among good ones, and the
/// lists above.
fn edge_lists() -> Vec<Vec<u32>> {
    let pairs = NUMBERS.iter().flat_map(|&first| NUMBERS.map(|end| vec![first, end]));
    let lengths = (0..=2 * MOST_WINDOWS + 4).chain([64, 4_096]).map(spread);
    let bad = (0..MOST_WINDOWS).flat_map(|place| {
        [[700, 700], [701, 700], [700, 10_081]].map(|window| {
            let mut windows = spread(2 * MOST_WINDOWS);
            windows[2 * place..][..2].copy_from_slice(&window);
            windows
        })
    });
    pairs.chain(lengths).chain(bad).chain(SEVERAL.map(<[u32]>::to_vec)).collect()
}

/// So many numbers of windows that are a minute long each and lie apart.
fn spread(numbers: usize) -> Vec<u32> {
    (0..numbers as u32).map(|place| (place / 2 * 599 + 3) % 10_000 + place % 2).collect()
}

/// A handful of lists with every minute of two weeks as the closing minute.
pub fn two_weeks_of_closings<E: CalendarEngine>(engine: &E) -> Answers {
    let lists = [&[0, 1][..], &[10_079, 10_080], &[0, 10_080]].into_iter().chain(SEVERAL);
    let mut answers = Answers::default();
    for windows in lists {
        for lead in [0, 61, WEEK] {
            for closing in 0..2 * WEEK {
                ask(engine, windows, closing, lead, &mut answers);
            }
        }
    }
    answers
}

/// Asks so many random calendars. They follow from the seed.
pub fn random_calendars<E: CalendarEngine>(engine: &E, seed: u64, calendars: u64) -> Answers {
    let mut random = Random::new(seed);
    let mut answers = Answers::default();
    for _ in 0..calendars {
        let mut windows = good_windows(&mut random);
        if random.once_in(5) {
            damage(&mut random, &mut windows);
        }
        let closing = random_closing(&mut random, &windows);
        let lead = random_lead(&mut random, &windows, closing);
        ask(engine, &windows, closing, lead, &mut answers);
    }
    answers
}

fn ask<E: CalendarEngine>(
    engine: &E,
    windows: &[u32],
    closing: u64,
    lead: u64,
    answers: &mut Answers,
) {
    let answer = engine.start_minute(windows, closing, lead);
    answers.note(answer);
    answers.note_start(answer, closing, lead);
}

/// 1 to 16 windows, of one minute or up to an hour, a day or a week; at times all of them early in the week.
fn good_windows(random: &mut Random) -> Vec<u32> {
    let most = random.pick(&[1, 2, MOST_WINDOWS as u64]);
    let count = if random.once_in(4) { most } else { 1 + random.below(most) };
    let longest = random.pick(&[1, 60, 1_440, WEEK]);
    let span = random.pick(&[1_440, WEEK, WEEK]).max(longest);
    (0..count).flat_map(|_| good_window(random, longest, span)).collect()
}

/// At times it starts with the week, or ends with it.
fn good_window(random: &mut Random, longest: u64, span: u64) -> [u32; 2] {
    let length = if random.once_in(4) { longest } else { 1 + random.below(longest) };
    let first = match random.below(16) {
        0 => 0,
        1 => WEEK - length,
        _ => random.below(span + 1 - length),
    };
    [first as u32, (first + length) as u32]
}

/// No window, a number too few or too many, too many windows, or, mostly, one number changed.
fn damage(random: &mut Random, windows: &mut Vec<u32>) {
    let place = random.below(windows.len() as u64) as usize;
    let (number, other) = (windows[place], windows[place ^ 1]);
    match random.below(12) {
        0 => windows.clear(),
        1 => windows.truncate(place | 1),
        2 => windows.push(number),
        3 => {
            let length = 2 * MOST_WINDOWS + random.pick(&[1, 2, 3, 4, 64]);
            *windows = windows.iter().copied().cycle().take(length).collect();
        }
        _ => {
            let beside = [other, other.wrapping_sub(1), other + 1, number + (1 << 16)];
            windows[place] = match random.below(4) {
                0 => random.word() as u32,
                1 => random.pick(&NUMBERS),
                _ => random.pick(&beside),
            };
        }
    }
}

/// Mostly near the first or end minute of a window, in any week; also near a Monday 00:00 and near the limit.
fn random_closing(random: &mut Random, windows: &[u32]) -> u64 {
    let monday = WEEK * random.below(LAST_CLOSING / WEEK + 1);
    match random.below(16) {
        0 => random.pick(&EDGES),
        1 => near(random, LAST_CLOSING),
        2 => near(random, monday),
        3 => random_number(random, windows),
        4..=9 => {
            let number = random_number(random, windows);
            near(random, monday + number)
        }
        _ => random.below(LAST_CLOSING + 1),
    }
}

/// Often 0; also one that leads near the first or end minute of a window, and one near the limit.
fn random_lead(random: &mut Random, windows: &[u32], closing: u64) -> u64 {
    match random.below(16) {
        0 => random.pick(&EDGES),
        1 => near(random, LONGEST_LEAD),
        2 => random.below(61),
        3..=5 => random.below(LONGEST_LEAD + 1),
        6..=9 => {
            let number = random_number(random, windows);
            near(random, (number + WEEK - closing % WEEK) % WEEK)
        }
        _ => 0,
    }
}

/// A first or end minute, if there is one.
fn random_number(random: &mut Random, windows: &[u32]) -> u64 {
    if windows.is_empty() {
        return 0;
    }
    random.pick(windows).into()
}

/// The number, or one up to two beside it.
fn near(random: &mut Random, number: u64) -> u64 {
    (number + random.below(5)).wrapping_sub(2)
}
