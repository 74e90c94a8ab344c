//! Makes schedules, an event at a time from the rack as it stands: mostly what may happen, now and then what may not, and
//! sometimes what is no event at all.

use super::event::{Event, EVENT_WORDS};
use super::state::{Body, Client, Rack, SLOTS};
use crate::making;
use crate::random::Random;

#[derive(Clone, Copy)]
enum Choice {
    Start,
    Deliver,
    Lose,
    Copy,
    Resend,
    Stop,
    Power,
    Misfit,
    Anything,
}

const CHOICES: [Choice; 9] = [
    Choice::Start,
    Choice::Deliver,
    Choice::Lose,
    Choice::Copy,
    Choice::Resend,
    Choice::Stop,
    Choice::Power,
    Choice::Misfit,
    Choice::Anything,
];

/// How often each choice is made, in the order of [`CHOICES`].
type Habits = [usize; 9];

const CALM: Habits = [20, 200, 2, 2, 4, 0, 2, 1, 0];
const LOSSY: Habits = [20, 150, 50, 20, 40, 0, 4, 1, 0];
const FLOODING: Habits = [20, 90, 25, 100, 20, 0, 3, 2, 0];
const DRAINING: Habits = [10, 200, 60, 10, 10, 1, 4, 1, 0];
const SWITCHING: Habits = [20, 120, 5, 10, 10, 1, 60, 2, 0];
const STOPPING: Habits = [20, 150, 5, 10, 10, 4, 4, 1, 0];
const WILD: Habits = [20, 20, 20, 20, 20, 10, 20, 20, 20];

pub struct Driver {
    habits: Habits,
    /// The writes so far, for a driver that writes each value once and never 0.
    distinct: Option<u32>,
    /// A client whose messages are mostly left lying: others then meet its writes half done.
    slow: Option<u32>,
    /// How many of eight operations are reads; the slow client always writes.
    reads: usize,
}

impl Driver {
    pub fn any(random: &mut Random) -> Driver {
        let habits = random.pick(&[CALM, LOSSY, FLOODING, DRAINING, SWITCHING, STOPPING, WILD]);
        Driver { habits, distinct: None, slow: random.one_in(3).then_some(0), reads: random.pick(&[1, 4, 7]) }
    }

    /// One whose records 29 leaves alone.
    pub fn of_distinct_values(random: &mut Random) -> Driver {
        let habits = random.pick(&[CALM, LOSSY, FLOODING, SWITCHING, STOPPING]);
        Driver { habits, distinct: Some(0), slow: random.one_in(2).then_some(0), reads: random.pick(&[4, 7]) }
    }

    pub fn next(&mut self, random: &mut Random, rack: &Rack) -> [u32; EVENT_WORDS] {
        let wire_is_empty = rack.wire.used() == 0;
        let event = match self.choice(random) {
            Choice::Start => self.start(random, rack),
            // With nothing to deliver, something is begun or brought back.
            Choice::Deliver if wire_is_empty && !random.one_in(8) => match random.below(3) {
                0 => Event::Resend { client: client(random, rack, |client| client.open.is_some() && !client.stopped) },
                _ => self.start(random, rack),
            },
            Choice::Deliver => Event::Deliver { slot: self.slot_to_deliver(random, rack) },
            Choice::Lose => Event::Lose { slot: full_slot(random, rack) },
            Choice::Copy => Event::Copy { slot: full_slot(random, rack) },
            Choice::Resend => Event::Resend { client: client(random, rack, |client| client.open.is_some()) },
            Choice::Power => switch(random, rack),
            Choice::Stop => Event::Stop { client: client(random, rack, |client| !client.stopped) },
            Choice::Misfit => return misfit(random, rack),
            Choice::Anything => return anything(random),
        };
        event.words()
    }

    fn choice(&self, random: &mut Random) -> Choice {
        let mut left = random.below(self.habits.iter().sum());
        for (choice, weight) in CHOICES.iter().zip(self.habits) {
            if left < weight {
                return *choice;
            }
            left -= weight;
        }
        unreachable!("what was drawn is below the sum")
    }

    fn slot_to_deliver(&self, random: &mut Random, rack: &Rack) -> u32 {
        let is_slow = |slot: u32| {
            let message = rack.wire.0[slot as usize];
            message.is_some_and(|message| Some(message.client) == self.slow)
        };
        let mut slot = slot_to_deliver(random, rack);
        for _ in 0..4 {
            if is_slow(slot) && !random.one_in(20) {
                slot = slot_to_deliver(random, rack);
            }
        }
        slot
    }

    fn start(&mut self, random: &mut Random, rack: &Rack) -> Event {
        let client = client(random, rack, |client| client.open.is_none() && !client.stopped);
        let cell = random.below(rack.sizes.cells.max(1) as usize) as u32;
        if random.below(8) < self.reads && self.slow != Some(client) {
            return Event::StartRead { client, cell };
        }
        let value = match &mut self.distinct {
            None => making::value(random),
            Some(writes) => {
                *writes += 1;
                distinct_value(*writes)
            }
        };
        Event::StartWrite { client, cell, value }
    }
}

/// Values of all widths above and below zero: an odd factor sends no two numbers to the same.
fn distinct_value(write: u32) -> i32 {
    write.wrapping_mul(0x9E37_79B1) as i32
}

/// One of these numbers that the rack's part has, mostly such that `fits`.
fn client(random: &mut Random, rack: &Rack, fits: fn(&Client) -> bool) -> u32 {
    let clients = (rack.sizes.clients as usize).clamp(1, rack.clients.len());
    let fitting: Vec<usize> = (0..clients).filter(|number| fits(&rack.clients[*number])).collect();
    if fitting.is_empty() || random.one_in(10) {
        return random.below(clients) as u32;
    }
    random.pick(&fitting) as u32
}

fn full_slot(random: &mut Random, rack: &Rack) -> u32 {
    let full: Vec<usize> = (0..SLOTS).filter(|slot| rack.wire.0[*slot].is_some()).collect();
    if full.is_empty() || random.one_in(50) {
        return random.below(SLOTS) as u32;
    }
    match random.below(8) {
        0 => full[0] as u32,
        1 => full[full.len() - 1] as u32,
        _ => random.pick(&full) as u32,
    }
}

/// Any full slot; often one whose delivery brings an operation forward, so that much happens on a crowded wire too.
fn slot_to_deliver(random: &mut Random, rack: &Rack) -> u32 {
    let of_now: Vec<usize> = (0..SLOTS).filter(|slot| is_of_now(rack, *slot)).collect();
    if of_now.is_empty() || random.one_in(2) {
        return full_slot(random, rack);
    }
    random.pick(&of_now) as u32
}

/// Whether the slot's message is of its client's open operation, and goes to no replica that is off. An unsound message may
/// name what there is no place for.
fn is_of_now(rack: &Rack, slot: usize) -> bool {
    rack.wire.0[slot].is_some_and(|message| {
        let replica_on = rack.replicas.get(message.replica as usize).is_some_and(|replica| replica.on);
        let is_answer = matches!(message.body, Body::Tell(_) | Body::Kept);
        let client = rack.clients.get(message.client as usize);
        let client_waits = client.is_some_and(|client| client.open.is_some() && client.op == message.op);
        client_waits && (replica_on || is_answer)
    })
}

/// Most replicas are on at most times: with half of them off, nothing goes on.
fn switch(random: &mut Random, rack: &Rack) -> Event {
    let replicas = &rack.replicas[..(rack.sizes.replicas as usize).clamp(1, rack.replicas.len())];
    let off: Vec<usize> = (0..replicas.len()).filter(|number| !replicas[*number].on).collect();
    let any = random.below(replicas.len());
    let replica = if off.is_empty() || random.one_in(3) { any } else { random.pick(&off) };
    let switches_off = replicas[replica].on != random.one_in(10);
    let replica = replica as u32;
    if switches_off {
        Event::Off { replica }
    } else {
        Event::On { replica }
    }
}

/// An event of a known kind with any numbers: in the rack, just out of it, or in it but for their upper bits. Words that the
/// kind has no use for are any, too.
fn misfit(random: &mut Random, rack: &Rack) -> [u32; EVENT_WORDS] {
    let sizes = rack.sizes;
    let mut number = || {
        let limit = random.pick(&[sizes.clients, sizes.cells, sizes.replicas, SLOTS as u32]);
        let inside = random.below(limit.max(1) as usize) as u32;
        let upper_bits = random.pick(&[0, 0, 0, 1 << 8, 1 << 16, 1 << 31]);
        let any = random.word();
        random.pick(&[inside, inside, inside, limit, limit.saturating_sub(1), any]) | upper_bits
    };
    let (first, second) = (number(), number());
    [random.below(10) as u32, first, second, random.word_of_any_width()]
}

fn anything(random: &mut Random) -> [u32; EVENT_WORDS] {
    [(); EVENT_WORDS].map(|()| random.word_of_any_width())
}
