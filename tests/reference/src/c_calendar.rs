//! The C function of another engine for the calendar, as a [`CalendarEngine`].

use crate::c_engine::{show, CEngine};
use crate::calendar::WEEK;
use crate::calendar_engine::CalendarEngine;

/// The function of `include/pack_agreement.h`. An answer travels as its number.
pub mod calls {
    extern "C" {
        pub fn pack_start_minute(
            windows: *const u32,
            numbers: usize,
            closing: u64,
            lead: u64,
        ) -> u64;
    }
}

impl CalendarEngine for CEngine {
    fn start_minute(&self, windows: &[u32], closing: u64, lead: u64) -> u64 {
        // Guards that would pass for an end that is missing; two of them are a bad window.
        show(windows, WEEK as u32, |windows, numbers| {
            // SAFETY: pointer and length are those of a live slice, borrowed for the call.
            unsafe { calls::pack_start_minute(windows, numbers, closing, lead) }
        })
    }
}
