//! "What each event does." None of these tests whether the event is allowed: that is [`super::refusals`]' matter.

use super::event::Event;
use super::state::{Body, Goal, Message, Operation, Pair, Phase, Rack, ReplySet, Stamp};
use crate::paper::record::Entry;

impl Rack {
    /// Does all of an event but the sending, and gives what it sends, in order. "The message is taken out, then acted on":
    /// so its slot counts as free for what is sent.
    pub fn act(&mut self, event: Event) -> Vec<Message> {
        match event {
            Event::StartRead { client, cell } => self.start(client, cell, Goal::Read),
            Event::StartWrite { client, cell, value } => self.start(client, cell, Goal::Write(value)),
            Event::Deliver { slot } => self.deliver(slot),
            Event::Lose { slot } => {
                self.wire.0[slot as usize] = None;
                vec![]
            }
            // "The same message also in the lowest free slot."
            Event::Copy { slot } => self.wire.0[slot as usize].into_iter().collect(),
            Event::Resend { client } => self.requests(client),
            // "It never acts again; its operation stays open."
            Event::Stop { client } => {
                self.clients[client as usize].stopped = true;
                vec![]
            }
            // "Switch a replica off or on: its pairs stay."
            Event::Off { replica } => self.switch(replica, false),
            Event::On { replica } => self.switch(replica, true),
            Event::Unknown { .. } => unreachable!("what is no event is refused"),
        }
    }

    fn switch(&mut self, replica: u32, on: bool) -> Vec<Message> {
        self.replicas[replica as usize].on = on;
        vec![]
    }

    /// "The operation number rises by one, the record gets an entry, an ask goes to every replica, in replica order."
    fn start(&mut self, client: u32, cell: u32, goal: Goal) -> Vec<Message> {
        let starting = &mut self.clients[client as usize];
        starting.op += 1;
        let phase = Phase::Asking { held: None };
        starting.open = Some(Operation { goal, cell, answered: ReplySet::EMPTY, phase });
        let (client_number, cell) = (client as u8, cell as u8);
        self.record.push(match goal {
            Goal::Read => Entry::ReadAsked { client: client_number, cell },
            Goal::Write(value) => Entry::WriteAsked { client: client_number, cell, value },
        });
        self.requests(client)
    }

    /// "The client's present request ... to each replica not in its set, in order; the stamp isn't chosen anew." The set is
    /// empty when a phase begins, and then these are all replicas.
    pub fn requests(&self, client: u32) -> Vec<Message> {
        let Waiting { op, open } = self.open_of(client);
        let body = match open.phase {
            Phase::Asking { .. } => Body::Ask,
            Phase::Keeping { held } => Body::Keep(held),
        };
        let waited_for = (0..self.sizes.replicas).filter(|replica| !open.answered.contains(*replica));
        waited_for.map(|replica| Message { body, client, replica, cell: open.cell, op }).collect()
    }

    fn deliver(&mut self, slot: u32) -> Vec<Message> {
        let message = self.wire.0[slot as usize].take().expect("an empty slot is refused");
        let pair = &mut self.replicas[message.replica as usize].pairs[message.cell as usize];
        match message.body {
            Body::Ask => vec![Message { body: Body::Tell(*pair), ..message }],
            // "Takes stamp and value if the stamp is greater than its own; it answers kept either way."
            Body::Keep(sent) => {
                *pair = pair.raised_by(sent);
                vec![Message { body: Body::Kept, ..message }]
            }
            // "Otherwise the message is used up and nothing else happens."
            Body::Tell(_) | Body::Kept if !self.counts(&message) => vec![],
            Body::Tell(told) => self.take_tell(&message, told),
            Body::Kept => {
                self.take_kept(&message);
                vec![]
            }
        }
    }

    /// "Tell and kept count only if the client isn't stopped, the operation number is that of its open operation, the phase
    /// fits and this replica isn't yet in the set."
    pub fn counts(&self, answer: &Message) -> bool {
        let client = &self.clients[answer.client as usize];
        client.open.is_some_and(|open| {
            let phase_fits = match open.phase {
                Phase::Asking { .. } => matches!(answer.body, Body::Tell(_)),
                Phase::Keeping { .. } => answer.body == Body::Kept,
            };
            !client.stopped && answer.op == client.op && phase_fits && !open.answered.contains(answer.replica)
        })
    }

    /// "At a majority the phase ends in that same delivery: the set is emptied and keep goes to every replica."
    fn take_tell(&mut self, message: &Message, told: Pair) -> Vec<Message> {
        let majority = self.sizes.majority();
        let open = self.open_mut(message.client);
        let held = held_after(open.phase.held(), told);
        open.answered = open.answered.with(message.replica);
        if open.answered.count() < majority {
            open.phase = Phase::Asking { held: Some(held) };
            return vec![];
        }
        open.answered = ReplySet::EMPTY;
        open.phase = Phase::Keeping { held: pair_to_keep(open.goal, held, message.client) };
        self.requests(message.client)
    }

    /// "At a majority of kept the operation ends, the record gets its entry, the client is idle. A read gives the held
    /// value."
    fn take_kept(&mut self, message: &Message) {
        let majority = self.sizes.majority();
        let open = self.open_mut(message.client);
        open.answered = open.answered.with(message.replica);
        if open.answered.count() < majority {
            return;
        }
        let client = message.client as u8;
        let entry = match (open.goal, open.phase.held()) {
            (Goal::Write(_), _) => Entry::Done { client },
            (Goal::Read, Some(held)) => Entry::Told { client, value: held.value },
            (Goal::Read, None) => unreachable!("a keeping client holds a pair"),
        };
        self.clients[message.client as usize].open = None;
        self.record.push(entry);
    }

    /// The goal and the held pair with which this delivery would end an ask phase, if it would.
    pub fn ask_phase_end(&self, message: &Message) -> Option<(Goal, Pair)> {
        let Body::Tell(told) = message.body else { return None };
        if !self.counts(message) {
            return None;
        }
        let Waiting { open, .. } = self.open_of(message.client);
        let ends = open.answered.with(message.replica).count() >= self.sizes.majority();
        ends.then(|| (open.goal, held_after(open.phase.held(), told)))
    }

    fn open_of(&self, client: u32) -> Waiting {
        let client = self.clients[client as usize];
        Waiting { op: client.op, open: client.open.expect("an operation is open") }
    }

    fn open_mut(&mut self, client: u32) -> &mut Operation {
        self.clients[client as usize].open.as_mut().expect("an answer that counts is for an open operation")
    }
}

/// What a client waits for: its open operation, under its number.
struct Waiting {
    op: u32,
    open: Operation,
}

/// "The first tell of a phase is held whole; a later one replaces it only with a greater stamp."
fn held_after(held: Option<Pair>, told: Pair) -> Pair {
    held.map_or(told, |held| held.raised_by(told))
}

/// "For a read with the held pair, for a write with (held number + 1, own rank) and the new value. The pair sent is then
/// the held one."
fn pair_to_keep(goal: Goal, held: Pair, own_rank: u32) -> Pair {
    match goal {
        Goal::Read => held,
        Goal::Write(value) => Pair { stamp: Stamp { number: held.stamp.number + 1, rank: own_rank }, value },
    }
}
