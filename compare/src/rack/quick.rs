//! The rack once more, as it is written for speed: changed where it stands, small fields in arrays, a bit map of the free
//! slots, and the state looked at once a run, since a sound rack stays sound. It says what the clear rack says.

use super::refusal::*;
use super::schedule::Ran;
use super::state::{self, Body, Goal, Message, Operation, Phase, Rack, Replica, ReplySet, Sizes, Wire};
use super::state::{LAST_OP, LAST_STAMP_NUMBER as LAST_NUMBER, REPLICAS, SLOTS};
use crate::paper::number::signed;
use crate::paper::record::{Entry, CELLS, CLIENTS, MOST_ENTRIES};

#[derive(Clone, Copy, Default, PartialEq, Eq)]
enum Kind {
    #[default]
    Ask,
    Tell,
    Keep,
    Kept,
}

#[derive(Clone, Copy, Default)]
struct Pair {
    number: u32,
    value: i32,
    rank: u8,
}

impl Pair {
    fn is_above(&self, other: &Pair) -> bool {
        (self.number, self.rank) > (other.number, other.rank)
    }
}

/// A message; its pair is that of a tell or a keep.
#[derive(Clone, Copy, Default)]
struct Slot {
    pair: Pair,
    op: u32,
    kind: Kind,
    client: u8,
    replica: u8,
    cell: u8,
}

#[derive(Clone, Copy, Default, PartialEq, Eq)]
enum Stage {
    #[default]
    Idle,
    Asking,
    Keeping,
}

/// An idle client's cell, goal, set and held pair mean nothing, and so does what one holds that asks with an empty set.
#[derive(Clone, Copy, Default)]
struct Client {
    held: Pair,
    op: u32,
    goal: Option<i32>,
    set: u16,
    cell: u8,
    stage: Stage,
    stopped: bool,
}

#[derive(Clone)]
pub struct QuickRack {
    sizes: Sizes,
    majority: u32,
    /// Open operations of clients not stopped.
    owed: usize,
    free_slots: u32,
    /// A bit for each slot, 1 when it is free.
    free: [u64; SLOTS / 64],
    power: u16,
    clients: [Client; CLIENTS],
    pairs: [[Pair; CELLS]; REPLICAS],
    slots: [Slot; SLOTS],
    record: Vec<Entry>,
}

type Outcome = Result<(), u8>;

impl QuickRack {
    /// Runs a schedule of four words an event with an allowance.
    pub fn run(&mut self, allowance: usize, events: &[u32]) -> Ran {
        let mut done = 0;
        for event in events.chunks_exact(4).take(allowance) {
            // Each event leaves a sound rack sound.
            if done == 0 && self.is_unsound() {
                return Ran { done, refusal: Some(UNSOUND_STATE) };
            }
            if let Err(refusal) = self.event(event) {
                return Ran { done, refusal: Some(refusal) };
            }
            done += 1;
        }
        Ran { done, refusal: None }
    }

    #[inline]
    fn event(&mut self, event: &[u32]) -> Outcome {
        let first = event[1];
        match event[0] {
            0 => self.start(first, event[2], None),
            1 => self.start(first, event[2], Some(signed(event[3]))),
            2 => self.deliver(first),
            3 => {
                let slot = self.full_slot(first)?;
                self.release(slot);
                Ok(())
            }
            4 => self.copy(first),
            5 => self.resend(first),
            6 => self.stop(first),
            7 => self.switch(first, false),
            8 => self.switch(first, true),
            _ => Err(NO_EVENT_OF_THIS_RACK),
        }
    }

    fn client_named(&self, client: u32) -> Result<usize, u8> {
        if client >= self.sizes.clients {
            return Err(NO_EVENT_OF_THIS_RACK);
        }
        if self.clients[client as usize].stopped {
            return Err(CLIENT_STOPPED);
        }
        Ok(client as usize)
    }

    fn is_free(&self, slot: usize) -> bool {
        self.free[slot / 64] >> (slot % 64) & 1 == 1
    }

    fn full_slot(&self, slot: u32) -> Result<usize, u8> {
        let slot = slot as usize;
        if slot >= SLOTS {
            return Err(NO_EVENT_OF_THIS_RACK);
        }
        if self.is_free(slot) {
            return Err(SLOT_EMPTY);
        }
        Ok(slot)
    }

    fn release(&mut self, slot: usize) {
        self.free[slot / 64] |= 1 << (slot % 64);
        self.free_slots += 1;
    }

    /// Takes the lowest free slot; the caller knows that there is one.
    fn send(&mut self, message: Slot) {
        for (word, bits) in self.free.iter_mut().enumerate() {
            if *bits != 0 {
                let slot = word * 64 + bits.trailing_zeros() as usize;
                *bits &= *bits - 1;
                self.free_slots -= 1;
                self.slots[slot] = message;
                return;
            }
        }
    }

    fn start(&mut self, client: u32, cell: u32, goal: Option<i32>) -> Outcome {
        if cell >= self.sizes.cells {
            return Err(NO_EVENT_OF_THIS_RACK);
        }
        let index = self.client_named(client)?;
        let Client { stage, op, .. } = self.clients[index];
        if stage != Stage::Idle {
            return Err(OPERATION_OPEN);
        }
        if op == LAST_OP {
            return Err(LAST_OPERATION_NUMBER);
        }
        if self.record.len() + self.owed + 2 > MOST_ENTRIES {
            return Err(RECORD_FULL);
        }
        if self.sizes.replicas > self.free_slots {
            return Err(WIRE_FULL);
        }
        let (client, cell) = (client as u8, cell as u8);
        self.clients[index] = Client { op: op + 1, goal, cell, stage: Stage::Asking, ..Client::default() };
        self.owed += 1;
        self.record.push(match goal {
            None => Entry::ReadAsked { client, cell },
            Some(value) => Entry::WriteAsked { client, cell, value },
        });
        self.send_requests(index);
        Ok(())
    }

    /// The present request to each replica not in the set.
    fn send_requests(&mut self, index: usize) {
        let Client { stage, held, op, cell, set, .. } = self.clients[index];
        let kind = if stage == Stage::Asking { Kind::Ask } else { Kind::Keep };
        let message = Slot { pair: held, op, kind, client: index as u8, replica: 0, cell };
        for replica in 0..self.sizes.replicas as u8 {
            if set >> replica & 1 == 0 {
                self.send(Slot { replica, ..message });
            }
        }
    }

    fn copy(&mut self, slot: u32) -> Outcome {
        let slot = self.full_slot(slot)?;
        if self.free_slots == 0 {
            return Err(WIRE_FULL);
        }
        self.send(self.slots[slot]);
        Ok(())
    }

    fn resend(&mut self, client: u32) -> Outcome {
        let index = self.client_named(client)?;
        let Client { stage, set, .. } = self.clients[index];
        if stage == Stage::Idle {
            return Err(NO_OPERATION_OPEN);
        }
        if self.sizes.replicas - set.count_ones() > self.free_slots {
            return Err(WIRE_FULL);
        }
        self.send_requests(index);
        Ok(())
    }

    fn stop(&mut self, client: u32) -> Outcome {
        let index = self.client_named(client)?;
        let client = &mut self.clients[index];
        client.stopped = true;
        if client.stage != Stage::Idle {
            self.owed -= 1;
        }
        Ok(())
    }

    fn switch(&mut self, replica: u32, on: bool) -> Outcome {
        if replica >= self.sizes.replicas {
            return Err(NO_EVENT_OF_THIS_RACK);
        }
        if (self.power >> replica & 1 == 1) == on {
            return Err(POWER_AS_IT_IS);
        }
        self.power ^= 1 << replica;
        Ok(())
    }

    #[inline]
    fn deliver(&mut self, slot: u32) -> Outcome {
        let slot = self.full_slot(slot)?;
        let message = self.slots[slot];
        match message.kind {
            Kind::Ask | Kind::Keep => self.deliver_to_replica(slot, message),
            Kind::Tell => self.deliver_tell(slot, message),
            Kind::Kept => {
                self.release(slot);
                self.take_kept(message);
                Ok(())
            }
        }
    }

    /// One message out and one in: there is always room.
    fn deliver_to_replica(&mut self, slot: usize, message: Slot) -> Outcome {
        if self.power >> message.replica & 1 == 0 {
            return Err(REPLICA_OFF);
        }
        let own = &mut self.pairs[message.replica as usize][message.cell as usize];
        let answer = if message.kind == Kind::Ask {
            Slot { pair: *own, kind: Kind::Tell, ..message }
        } else {
            if message.pair.is_above(own) {
                *own = message.pair;
            }
            Slot { kind: Kind::Kept, ..message }
        };
        self.release(slot);
        self.send(answer);
        Ok(())
    }

    fn counts(&self, message: &Slot, stage: Stage) -> bool {
        let client = &self.clients[message.client as usize];
        let is_new = client.set >> message.replica & 1 == 0;
        client.stage == stage && client.op == message.op && !client.stopped && is_new
    }

    fn deliver_tell(&mut self, slot: usize, message: Slot) -> Outcome {
        if !self.counts(&message, Stage::Asking) {
            self.release(slot);
            return Ok(());
        }
        let index = message.client as usize;
        let client = &self.clients[index];
        let set = client.set | 1 << message.replica;
        let replaces = client.set == 0 || message.pair.is_above(&client.held);
        let held = if replaces { message.pair } else { client.held };
        if set.count_ones() >= self.majority {
            return self.end_asking(slot, index, held);
        }
        let client = &mut self.clients[index];
        client.set = set;
        client.held = held;
        self.release(slot);
        Ok(())
    }

    fn end_asking(&mut self, slot: usize, index: usize, greatest: Pair) -> Outcome {
        let goal = self.clients[index].goal;
        if goal.is_some() && greatest.number == LAST_NUMBER {
            return Err(LAST_STAMP_NUMBER);
        }
        if self.sizes.replicas > self.free_slots + 1 {
            return Err(WIRE_FULL);
        }
        let held = match goal {
            None => greatest,
            Some(value) => Pair { number: greatest.number + 1, rank: index as u8, value },
        };
        let client = &mut self.clients[index];
        client.held = held;
        client.set = 0;
        client.stage = Stage::Keeping;
        self.release(slot);
        self.send_requests(index);
        Ok(())
    }

    fn take_kept(&mut self, message: Slot) {
        if !self.counts(&message, Stage::Keeping) {
            return;
        }
        let client = &mut self.clients[message.client as usize];
        client.set |= 1 << message.replica;
        if client.set.count_ones() < self.majority {
            return;
        }
        client.stage = Stage::Idle;
        self.owed -= 1;
        self.record.push(match client.goal {
            None => Entry::Told { client: message.client, value: client.held.value },
            Some(_) => Entry::Done { client: message.client },
        });
    }
}

/// What the state is looked at for.
impl QuickRack {
    fn is_unsound(&self) -> bool {
        !self.sizes.are_in_range()
            || self.record.len() + self.owed > MOST_ENTRIES
            || self.own_clients().iter().any(|client| self.is_unsound_client(client))
            || self.own_pairs().any(|pair| self.names_no_rank(pair))
            || self.used_slots().any(|slot| self.is_unsound_message(&self.slots[slot]))
    }

    /// Word by word, a used slot for each bit that is 0.
    fn used_slots(&self) -> impl Iterator<Item = usize> + '_ {
        self.free.iter().enumerate().flat_map(|(word, free)| {
            let mut used = !free;
            std::iter::from_fn(move || {
                let bit = (used != 0).then(|| used.trailing_zeros() as usize)?;
                used &= used - 1;
                Some(word * 64 + bit)
            })
        })
    }

    fn own_clients(&self) -> &[Client] {
        &self.clients[..self.sizes.clients as usize]
    }

    fn own_pairs(&self) -> impl Iterator<Item = &Pair> {
        let Sizes { replicas, cells, .. } = self.sizes;
        self.pairs[..replicas as usize].iter().flat_map(move |pairs| &pairs[..cells as usize])
    }

    fn names_no_rank(&self, pair: &Pair) -> bool {
        u32::from(pair.rank) >= self.sizes.clients
    }

    fn is_unsound_client(&self, client: &Client) -> bool {
        let holds = client.stage == Stage::Keeping || client.set != 0;
        let is_unsound_operation = u32::from(client.cell) >= self.sizes.cells
            || u32::from(client.set) >> self.sizes.replicas != 0
            || client.set.count_ones() >= self.majority
            || holds && self.names_no_rank(&client.held);
        client.op > LAST_OP || client.stage != Stage::Idle && is_unsound_operation
    }

    fn is_unsound_message(&self, message: &Slot) -> bool {
        let has_pair = matches!(message.kind, Kind::Tell | Kind::Keep);
        u32::from(message.client) >= self.sizes.clients
            || u32::from(message.replica) >= self.sizes.replicas
            || u32::from(message.cell) >= self.sizes.cells
            || message.op > LAST_OP
            || has_pair && self.names_no_rank(&message.pair)
    }
}

/// No rack has a 256th client, replica or cell, so a number that doesn't fit a byte may as well be 255.
fn narrow(number: u32) -> u8 {
    u8::try_from(number).unwrap_or(u8::MAX)
}

/// From the clear rack and back.
impl QuickRack {
    pub fn from_rack(rack: &Rack) -> QuickRack {
        let mut quick = QuickRack {
            sizes: rack.sizes,
            majority: rack.sizes.majority(),
            owed: 0,
            free_slots: rack.wire.free() as u32,
            free: [0; SLOTS / 64],
            power: (0..REPLICAS).map(|replica| u16::from(rack.replicas[replica].on) << replica).sum(),
            clients: rack.clients.map(client_from),
            pairs: rack.replicas.map(|replica| replica.pairs.map(pair_from)),
            slots: rack.wire.0.map(|slot| slot.map_or(Slot::default(), slot_from)),
            record: rack.record.clone(),
        };
        quick.record.reserve(MOST_ENTRIES.saturating_sub(rack.record.len()));
        for (slot, message) in rack.wire.0.iter().enumerate() {
            quick.free[slot / 64] |= u64::from(message.is_none()) << (slot % 64);
        }
        if rack.sizes.are_in_range() {
            quick.owed = rack.answers_owed();
        }
        quick
    }

    pub fn to_rack(&self) -> Rack {
        let replica = |number: usize| Replica {
            on: self.power >> number & 1 == 1,
            pairs: self.pairs[number].map(|pair| pair_to(&pair)),
        };
        let slot = |number: usize| (!self.is_free(number)).then(|| message_to(&self.slots[number]));
        Rack {
            sizes: self.sizes,
            replicas: std::array::from_fn(replica),
            clients: self.clients.map(client_to),
            wire: Wire(std::array::from_fn(slot)),
            record: self.record.clone(),
        }
    }
}

fn pair_from(pair: state::Pair) -> Pair {
    Pair { number: pair.stamp.number, rank: narrow(pair.stamp.rank), value: pair.value }
}

fn pair_to(pair: &Pair) -> state::Pair {
    state::Pair { stamp: state::Stamp { number: pair.number, rank: pair.rank.into() }, value: pair.value }
}

fn slot_from(message: Message) -> Slot {
    let kind = match message.body {
        Body::Ask => Kind::Ask,
        Body::Tell(_) => Kind::Tell,
        Body::Keep(_) => Kind::Keep,
        Body::Kept => Kind::Kept,
    };
    Slot {
        pair: message.pair().map_or(Pair::default(), pair_from),
        op: message.op,
        kind,
        client: narrow(message.client),
        replica: narrow(message.replica),
        cell: narrow(message.cell),
    }
}

fn message_to(slot: &Slot) -> Message {
    let body = match slot.kind {
        Kind::Ask => Body::Ask,
        Kind::Tell => Body::Tell(pair_to(&slot.pair)),
        Kind::Keep => Body::Keep(pair_to(&slot.pair)),
        Kind::Kept => Body::Kept,
    };
    let (client, replica, cell) = (slot.client.into(), slot.replica.into(), slot.cell.into());
    Message { body, client, replica, cell, op: slot.op }
}

fn client_from(client: state::Client) -> Client {
    let idle = Client { stopped: client.stopped, op: client.op, ..Client::default() };
    let Some(operation) = client.open else { return idle };
    let goal = match operation.goal {
        Goal::Read => None,
        Goal::Write(value) => Some(value),
    };
    let stage = match operation.phase {
        Phase::Asking { .. } => Stage::Asking,
        Phase::Keeping { .. } => Stage::Keeping,
    };
    let held = operation.phase.held().map_or(Pair::default(), pair_from);
    Client { goal, stage, held, set: operation.answered.0, cell: narrow(operation.cell), ..idle }
}

fn client_to(client: Client) -> state::Client {
    let held = pair_to(&client.held);
    let phase = match client.stage {
        Stage::Idle => None,
        Stage::Asking => Some(Phase::Asking { held: (client.set != 0).then_some(held) }),
        Stage::Keeping => Some(Phase::Keeping { held }),
    };
    let goal = client.goal.map_or(Goal::Read, Goal::Write);
    let answered = ReplySet(client.set);
    let open = phase.map(|phase| Operation { goal, cell: client.cell.into(), answered, phase });
    state::Client { stopped: client.stopped, op: client.op, open }
}
