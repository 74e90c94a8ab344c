//! The rack and what is in it.
//!
//! Numbers are kept as they come, 32 bits wide, so that a state that names what the rack hasn't got can be written down and
//! refused. Arrays have room for the largest rack. Places beyond a rack's sizes are no part of it: they are never looked at
//! and never changed.

use super::refusal::SIZE_OUT_OF_RANGE;
use crate::paper::record::{Entry, CELLS, CLIENTS};

/// "A rack has 1 to 15 replicas, 1 to 8 clients and 1 to 16 cells."
pub const REPLICAS: usize = 15;
/// "The wire has 256 slots."
pub const SLOTS: usize = 256;
/// The greatest operation number: "start at operation number 65,535" is refused.
pub const LAST_OP: u32 = 65_535;
/// "A stamp is a number (0 to 4,294,967,295) and a client's rank."
pub const LAST_STAMP_NUMBER: u32 = 4_294_967_295;

#[derive(Clone, Copy, Debug, PartialEq, Eq)]
pub struct Sizes {
    pub replicas: u32,
    pub clients: u32,
    pub cells: u32,
}

impl Sizes {
    pub fn are_in_range(self) -> bool {
        let within = |size: u32, most: usize| (1..=most as u32).contains(&size);
        within(self.replicas, REPLICAS) && within(self.clients, CLIENTS) && within(self.cells, CELLS)
    }

    /// "A majority is more than half of all replicas, on or off": the least such number.
    pub fn majority(self) -> u32 {
        self.replicas / 2 + 1
    }
}

/// "Stamps compare by number, then rank": the order of the fields is the order of the comparison.
#[derive(Clone, Copy, Debug, Default, PartialEq, Eq, PartialOrd, Ord)]
pub struct Stamp {
    pub number: u32,
    pub rank: u32,
}

#[derive(Clone, Copy, Debug, Default, PartialEq, Eq)]
pub struct Pair {
    pub stamp: Stamp,
    pub value: i32,
}

impl Pair {
    /// The other pair if its stamp is greater, else this one.
    pub fn raised_by(self, other: Pair) -> Pair {
        if other.stamp > self.stamp {
            other
        } else {
            self
        }
    }
}

#[derive(Clone, Copy, Debug, PartialEq, Eq)]
pub enum Body {
    Ask,
    Tell(Pair),
    Keep(Pair),
    Kept,
}

#[derive(Clone, Copy, Debug, PartialEq, Eq)]
pub struct Message {
    pub body: Body,
    pub client: u32,
    pub replica: u32,
    pub cell: u32,
    pub op: u32,
}

impl Message {
    /// The pair that a tell or a keep carries.
    pub fn pair(&self) -> Option<Pair> {
        match self.body {
            Body::Tell(pair) | Body::Keep(pair) => Some(pair),
            Body::Ask | Body::Kept => None,
        }
    }
}

/// "The replicas that have answered are kept as a set, one bit each, and the ones are counted."
#[derive(Clone, Copy, Debug, Default, PartialEq, Eq)]
pub struct ReplySet(pub u16);

impl ReplySet {
    pub const EMPTY: ReplySet = ReplySet(0);

    pub fn contains(self, replica: u32) -> bool {
        self.members().any(|member| member == replica)
    }

    #[must_use]
    pub fn with(self, replica: u32) -> ReplySet {
        ReplySet(self.0 | 1 << replica)
    }

    pub fn count(self) -> u32 {
        self.0.count_ones()
    }

    pub fn is_empty(self) -> bool {
        self.0 == 0
    }

    /// Its replicas, rising.
    pub fn members(self) -> impl Iterator<Item = u32> {
        (0..u16::BITS).filter(move |bit| self.0 >> bit & 1 == 1)
    }
}

#[derive(Clone, Copy, Debug, PartialEq, Eq)]
pub enum Goal {
    Read,
    Write(i32),
}

/// An asking operation holds nothing until its first tell, and it holds a pair as soon as its set has a replica.
#[derive(Clone, Copy, Debug, PartialEq, Eq)]
pub enum Phase {
    Asking { held: Option<Pair> },
    Keeping { held: Pair },
}

impl Phase {
    pub fn held(self) -> Option<Pair> {
        match self {
            Phase::Asking { held } => held,
            Phase::Keeping { held } => Some(held),
        }
    }
}

#[derive(Clone, Copy, Debug, PartialEq, Eq)]
pub struct Operation {
    pub goal: Goal,
    pub cell: u32,
    pub answered: ReplySet,
    pub phase: Phase,
}

/// A client is idle when it has no operation open: it then "has an empty set and holds nothing".
#[derive(Clone, Copy, Debug, Default, PartialEq, Eq)]
pub struct Client {
    pub stopped: bool,
    pub op: u32,
    pub open: Option<Operation>,
}

#[derive(Clone, Copy, Debug, PartialEq, Eq)]
pub struct Replica {
    pub on: bool,
    pub pairs: [Pair; CELLS],
}

/// "The wire has 256 slots, each empty or holding one message."
#[derive(Clone, Copy, Debug, PartialEq, Eq)]
pub struct Wire(pub [Option<Message>; SLOTS]);

impl Wire {
    pub fn used(&self) -> usize {
        self.0.iter().flatten().count()
    }

    pub fn free(&self) -> usize {
        SLOTS - self.used()
    }

    /// "Messages to be sent take the lowest free slots in order." There is a free slot, or 13 would have refused.
    pub fn send(&mut self, message: Message) {
        let lowest_free = self.0.iter_mut().find(|slot| slot.is_none());
        *lowest_free.expect("a slot is free for what is sent") = Some(message);
    }
}

#[derive(Clone, Debug, PartialEq, Eq)]
pub struct Rack {
    pub sizes: Sizes,
    pub replicas: [Replica; REPLICAS],
    pub clients: [Client; CLIENTS],
    pub wire: Wire,
    pub record: Vec<Entry>,
}

impl Rack {
    /// "A fresh rack is made from its three sizes by the rack's own maker." "A refused maker gives the fresh rack of sizes
    /// 1, 1, 1 beside the refusal."
    pub fn make(sizes: Sizes) -> (Rack, Option<u8>) {
        if sizes.are_in_range() {
            (Rack::fresh(sizes), None)
        } else {
            (Rack::fresh(Sizes { replicas: 1, clients: 1, cells: 1 }), Some(SIZE_OUT_OF_RANGE))
        }
    }

    /// "Replicas on, every pair stamp (0, 0) with value 0, clients idle at operation number 0, wire and record empty."
    fn fresh(sizes: Sizes) -> Rack {
        Rack {
            sizes,
            replicas: [Replica { on: true, pairs: [Pair::default(); CELLS] }; REPLICAS],
            clients: [Client::default(); CLIENTS],
            wire: Wire([None; SLOTS]),
            record: Vec::new(),
        }
    }

    /// "Answers owed are one for each open operation of a client not stopped."
    pub fn answers_owed(&self) -> usize {
        self.own_clients().iter().filter(|client| !client.stopped && client.open.is_some()).count()
    }

    /// The clients that the rack has; its sizes are in range.
    pub fn own_clients(&self) -> &[Client] {
        &self.clients[..self.sizes.clients as usize]
    }

    /// The replicas that the rack has; its sizes are in range.
    pub fn own_replicas(&self) -> &[Replica] {
        &self.replicas[..self.sizes.replicas as usize]
    }
}
