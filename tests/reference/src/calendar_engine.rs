//! A calendar as the comparison sees it: a call that answers the packed number of the C function.

use crate::calendar::start_minute;
use crate::engine::{Lockstep, Reference};
use crate::packing::pack_start;

/// The one call of a calendar, which has no state.
pub trait CalendarEngine {
    fn start_minute(&self, windows: &[u32], closing: u64, lead: u64) -> u64;
}

impl CalendarEngine for Reference {
    fn start_minute(&self, windows: &[u32], closing: u64, lead: u64) -> u64 {
        pack_start(&start_minute(windows, closing, lead))
    }
}

impl<A: CalendarEngine, B: CalendarEngine> CalendarEngine for Lockstep<A, B> {
    fn start_minute(&self, windows: &[u32], closing: u64, lead: u64) -> u64 {
        let first = self.first.start_minute(windows, closing, lead);
        let second = self.second.start_minute(windows, closing, lead);
        assert_eq!(first, second, "the starts with {windows:?} after {closing} and {lead} differ");
        first
    }
}
