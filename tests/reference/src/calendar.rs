//! 02, N1, "In-force windows": the minute from which a set is in force.

use std::ops::Range;

use crate::refusal::Refusal;

/// The minutes of a week. Minute 0, of a week and of the count of all minutes, is a Monday 00:00.
pub const WEEK: u64 = 7 * 24 * 60;
pub const MOST_WINDOWS: usize = 16;
pub const LAST_CLOSING: u64 = 4_000_000_000;
pub const LONGEST_LEAD: u64 = WEEK;

/// The smallest minute in a window that is not before closing and lead together. The windows are a first and an end minute
/// of the week each, one behind the other.
pub fn start_minute(windows: &[u32], closing: u64, lead: u64) -> Result<u64, Refusal> {
    let windows = read_windows(windows).ok_or(Refusal::Windows)?;
    if closing > LAST_CLOSING || lead > LONGEST_LEAD {
        return Err(Refusal::Windows);
    }
    let earliest = closing + lead;
    let mut minute = earliest;
    while !windows.iter().any(|window| window.contains(&(minute % WEEK))) {
        minute += 1;
        assert!(minute < earliest + WEEK, "a week without a minute in {windows:?}");
    }
    Ok(minute)
}

/// `None` unless there are 1 to 16, each a first minute before an end within the week.
fn read_windows(numbers: &[u32]) -> Option<Vec<Range<u64>>> {
    let windows: Vec<Range<u64>> = numbers.chunks(2).map(read_window).collect::<Option<_>>()?;
    (1..=MOST_WINDOWS).contains(&windows.len()).then_some(windows)
}

/// The end is outside the window.
fn read_window(numbers: &[u32]) -> Option<Range<u64>> {
    let &[first, end] = numbers else { return None };
    let window = u64::from(first)..u64::from(end);
    (!window.is_empty() && window.end <= WEEK).then_some(window)
}
