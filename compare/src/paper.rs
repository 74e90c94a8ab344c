//! The paper's section "The record and its bytes", written from its sentences and from nothing else.
//!
//! [`number`] has numbers and values, [`record`] entries and their bytes, [`rows`] the same in lent memory.

pub mod number;
pub mod record;
pub mod rows;

/// The paper's refusals 20 to 29, under names.
pub mod refusal {
    pub const DESTINATION_TOO_SHORT: u8 = 20;
    pub const BYTES_END_FIRST: u8 = 21;
    pub const PADDED_NUMBER: u8 = 22;
    pub const FIFTH_BYTE_ABOVE_15: u8 = 23;
    pub const KIND_ABOVE_3: u8 = 24;
    pub const CLIENT_OR_CELL_OUT_OF_RANGE: u8 = 25;
    pub const ASKED_WHILE_OPEN: u8 = 26;
    pub const ENDED_WITHOUT_ITS_OPERATION: u8 = 27;
    pub const MORE_THAN_2048_ENTRIES: u8 = 28;
    pub const VALUE_WRITTEN_AGAIN: u8 = 29;
}

/// A refusal and the number, from 0, of the entry that it names.
#[derive(Clone, Copy, Debug, PartialEq, Eq)]
pub struct Refusal {
    pub number: u8,
    pub entry: u32,
}

impl std::fmt::Display for Refusal {
    fn fmt(&self, f: &mut std::fmt::Formatter<'_>) -> std::fmt::Result {
        write!(f, "refused {} at entry {}", self.number, self.entry)
    }
}
