//! The C functions of another engine for delivery lists, as a [`DeliveryListEngine`].

use crate::c_engine::{lend, show, CEngine};
use crate::delivery_list_engine::DeliveryListEngine;
use crate::delivery_lists::Direction;

use calls::{pack_csv_to_drill, pack_drill_to_csv};

/// The functions of `include/pack_agreement.h`. An answer travels as its number.
pub mod calls {
    extern "C" {
        pub fn pack_csv_to_drill(
            records: *const u8,
            length: usize,
            lines: *mut u8,
            capacity: usize,
        ) -> u64;
        pub fn pack_drill_to_csv(
            lines: *const u8,
            length: usize,
            records: *mut u8,
            capacity: usize,
        ) -> u64;
    }
}

impl DeliveryListEngine for CEngine {
    fn convert(&self, direction: Direction, text: &[u8], lent: &mut [u8]) -> u64 {
        let call = match direction {
            Direction::ToDrill => pack_csv_to_drill,
            Direction::ToCsv => pack_drill_to_csv,
        };
        // Guards that would double a last quote, or end a record after a last CR.
        let guard = if text.ends_with(b"\"") { b'"' } else { b'\n' };
        show(text, guard, |text, length| {
            // SAFETY: pointers and lengths are those of live slices, borrowed for the call.
            lend(lent, 0x5a, |lent, capacity| unsafe { call(text, length, lent, capacity) })
        })
    }
}
