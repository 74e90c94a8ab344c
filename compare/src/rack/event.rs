//! Events, and how they are given: four words each, kind, two fields and the value as the number it is written as.

use crate::paper::number::{alternating, signed};

pub const EVENT_WORDS: usize = 4;

/// An event as it is given. Its numbers may name what the rack hasn't got.
#[derive(Clone, Copy, Debug, PartialEq, Eq)]
pub enum Event {
    StartRead {
        client: u32,
        cell: u32,
    },
    StartWrite {
        client: u32,
        cell: u32,
        value: i32,
    },
    Deliver {
        slot: u32,
    },
    Lose {
        slot: u32,
    },
    Copy {
        slot: u32,
    },
    Resend {
        client: u32,
    },
    Stop {
        client: u32,
    },
    Off {
        replica: u32,
    },
    On {
        replica: u32,
    },
    /// "No event of the kinds above."
    Unknown {
        kind: u32,
    },
}

impl Event {
    /// Words that the kind has no use for aren't looked at.
    pub fn from_words([kind, first, second, value]: [u32; EVENT_WORDS]) -> Event {
        match kind {
            0 => Event::StartRead { client: first, cell: second },
            1 => Event::StartWrite { client: first, cell: second, value: signed(value) },
            2 => Event::Deliver { slot: first },
            3 => Event::Lose { slot: first },
            4 => Event::Copy { slot: first },
            5 => Event::Resend { client: first },
            6 => Event::Stop { client: first },
            7 => Event::Off { replica: first },
            8 => Event::On { replica: first },
            _ => Event::Unknown { kind },
        }
    }

    pub fn words(self) -> [u32; EVENT_WORDS] {
        match self {
            Event::StartRead { client, cell } => [0, client, cell, 0],
            Event::StartWrite { client, cell, value } => [1, client, cell, alternating(value)],
            Event::Deliver { slot } => [2, slot, 0, 0],
            Event::Lose { slot } => [3, slot, 0, 0],
            Event::Copy { slot } => [4, slot, 0, 0],
            Event::Resend { client } => [5, client, 0, 0],
            Event::Stop { client } => [6, client, 0, 0],
            Event::Off { replica } => [7, replica, 0, 0],
            Event::On { replica } => [8, replica, 0, 0],
            Event::Unknown { kind } => [kind, 0, 0, 0],
        }
    }

    /// The events of a schedule. Words after the last whole event are no event.
    pub fn schedule(words: &[u32]) -> Vec<Event> {
        let event = |four: &[u32]| Event::from_words([four[0], four[1], four[2], four[3]]);
        words.chunks_exact(EVENT_WORDS).map(event).collect()
    }
}
