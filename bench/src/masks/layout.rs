//! Where each record stands among the words: `docs/ARCHITECTURE.md`, "The words". Numbers count from 1, so a base is one
//! place, or row, below its region.

pub const STATE_WORDS: usize = 2_048;
pub const N: usize = 0;
pub const TA: usize = 1;
pub const TS: usize = 2;
pub const OWN: usize = 3;
pub const SESSION: usize = 4;
pub const INPUT: usize = 5;
pub const TURNS: usize = 6;
pub const FLAGS: usize = 7;

pub const CLOSED: u64 = 1;
pub const SEND_SENT: u64 = 2;
pub const COMMIT_SENT: u64 = 4;

pub const COINS: usize = 7;
pub const ROUNDS: usize = 23;
pub const EST_SENT: usize = 39;
pub const AUX_SENT: usize = 55;
pub const SEND_VALUES: usize = 71;
pub const ECHO_MARKS: usize = 87;
pub const READY_MARKS: usize = 103;
pub const COMMIT_COUNTS: usize = 119;

pub const ECHO_SENT: usize = 136;
pub const READY_SENT: usize = 137;
pub const DECIDED_ZERO: usize = 138;
pub const DECIDED_ONE: usize = 139;
pub const SEND_MARKS: usize = 140;
/// Four groups of 16 marks: as many of a concentrator's are set as it weighs.
pub const WEIGHTS: usize = 141;

/// 0 where coins are printed, 1 where they are boxed. A recorded 1 of round r is mark r of the coin word, as a printed one
/// is; a recorded 0 is mark 32 + r.
pub const BOXED: usize = 142;
/// 1 or 2.
pub const VERSION: usize = 143;
pub const FINISH_SENT: usize = 144;
/// Two groups of 16 marks: the senders of FINISH 0, and of FINISH 1.
pub const FINISHES: usize = 144;

/// One word for each vote: mark r where in round r 1 was accepted before 0.
pub const ONE_FIRST: usize = 160;

/// Rows of 16 words, one for each sender or place.
pub const ECHO_VALUES: usize = 239;
pub const READY_VALUES: usize = 495;
pub const COMMIT_VALUES: usize = 751;
/// Rows of 32 words, one for each round.
pub const VOTES: usize = 991;
