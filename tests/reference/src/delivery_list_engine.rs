//! Delivery lists as the comparison sees them: a call that answers the packed number of the C functions.

use crate::delivery_lists::Direction;
use crate::engine::{Lockstep, Reference};
use crate::packing::pack_conversion;

/// The two conversions, which have no state.
pub trait DeliveryListEngine {
    fn convert(&self, direction: Direction, text: &[u8], lent: &mut [u8]) -> u64;
}

impl DeliveryListEngine for Reference {
    fn convert(&self, direction: Direction, text: &[u8], lent: &mut [u8]) -> u64 {
        pack_conversion(&direction.convert(text, lent))
    }
}

impl<A: DeliveryListEngine, B: DeliveryListEngine> DeliveryListEngine for Lockstep<A, B> {
    fn convert(&self, direction: Direction, text: &[u8], lent: &mut [u8]) -> u64 {
        let mut copy = lent.to_vec();
        let first = self.first.convert(direction, text, lent);
        let second = self.second.convert(direction, text, &mut copy);
        let shown = |bytes: &[u8]| bytes[..bytes.len().min(4_096)].escape_ascii().to_string();
        assert!(
            first == second && *lent == *copy,
            "{direction:?} of \"{}\" differs: {first:#x} \"{}\", {second:#x} \"{}\"",
            shown(text),
            shown(lent),
            shown(&copy)
        );
        first
    }
}
