//! A second, independent implementation of the pack agreement engine (document 01, with N1, N5, N6, N8 and N10 to N12
//! of document 02), as a check on the proved one. Each module follows one section of document 01, or one request of 02.

pub mod attack;
pub mod box_engine;
mod broadcasts;
#[cfg(feature = "c-engine")]
pub mod c_box;
#[cfg(feature = "c-engine")]
pub mod c_calendar;
#[cfg(feature = "c-engine")]
pub mod c_delivery_lists;
#[cfg(feature = "c-engine")]
pub mod c_engine;
#[cfg(feature = "c-engine")]
mod c_standing;
pub mod calendar;
pub mod calendar_engine;
pub mod coin_box;
mod coins;
mod commits;
pub mod compare;
pub mod delivery_list_engine;
pub mod delivery_lists;
pub mod drill;
pub mod engine;
pub mod exits;
mod fault;
pub mod journal;
pub mod message;
pub mod packing;
pub mod records;
mod refusal;
mod report;
mod session;
mod settings;
pub mod standing_engine;
pub mod traces;
mod votes;

pub use exits::Exit;
pub use fault::Fault;
pub use message::{Message, PackSet};
pub use refusal::Refusal;
pub use report::{Report, SET_WORDS};
pub use session::{Opening, Outcome, Session};
pub use settings::{Number, Round, Settings, Version};
