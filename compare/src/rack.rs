//! The paper's sections "The rack", "What each event does" and "When the rack says no", written from their sentences and
//! from nothing else.
//!
//! [`state`] has the rack and its maker, [`soundness`] and [`refusals`] the paper's two lists as tables, [`acts`] what each
//! event does, [`schedule`] a run with an allowance. [`words`] is a rack as numbers, [`drill`] as lines of text.
//! [`quick`] does the same once more, for speed. [`starts`] and [`driver`] make inputs, and [`lockstep`] holds another
//! engine to this one, event by event.

pub mod acts;
pub mod directed;
pub mod drill;
pub mod driver;
pub mod event;
pub mod lockstep;
pub mod quick;
pub mod refusals;
pub mod schedule;
pub mod scripts;
pub mod soundness;
pub mod starts;
pub mod state;
pub mod timing;
pub mod words;

#[cfg(test)]
mod tests;

pub use event::Event;
pub use schedule::Ran;
pub use state::{Rack, Sizes};

/// The paper's refusals 1 to 13, under names.
pub mod refusal {
    pub const SIZE_OUT_OF_RANGE: u8 = 1;
    pub const UNSOUND_STATE: u8 = 2;
    pub const NO_EVENT_OF_THIS_RACK: u8 = 3;
    pub const SLOT_EMPTY: u8 = 4;
    pub const CLIENT_STOPPED: u8 = 5;
    pub const OPERATION_OPEN: u8 = 6;
    pub const NO_OPERATION_OPEN: u8 = 7;
    pub const REPLICA_OFF: u8 = 8;
    pub const POWER_AS_IT_IS: u8 = 9;
    pub const LAST_OPERATION_NUMBER: u8 = 10;
    pub const RECORD_FULL: u8 = 11;
    pub const LAST_STAMP_NUMBER: u8 = 12;
    pub const WIRE_FULL: u8 = 13;
}
