//! Makes the racks that schedules begin with: fresh ones, sound ones that no short schedule reaches, and unsound ones of
//! each kind.

use super::state::{
    Body, Client, Goal, Message, Operation, Pair, Phase, Rack, ReplySet, Sizes, Stamp, LAST_OP, LAST_STAMP_NUMBER,
    REPLICAS, SLOTS,
};
use crate::making;
use crate::paper::record::{CELLS, CLIENTS, MOST_ENTRIES};
use crate::random::Random;

pub fn sizes(random: &mut Random) -> Sizes {
    let (any_replicas, any_cells) = (1 + random.below(REPLICAS) as u32, 1 + random.below(CELLS) as u32);
    let replicas = random.pick(&[1, 2, 3, 3, 4, 5, 15, any_replicas]);
    let clients = 1 + random.below(CLIENTS) as u32;
    let cells = random.pick(&[1, 2, 16, any_cells]);
    Sizes { replicas, clients, cells }
}

pub fn fresh(random: &mut Random) -> Rack {
    Rack::make(sizes(random)).0
}

/// How a sound state is made: near which of the limits.
struct Limits {
    late_stamps: bool,
    late_ops: bool,
    /// How many of the 256 slots are used, about.
    used: usize,
}

/// A sound state with anything in it, often near several limits at once.
pub fn sound(random: &mut Random) -> Rack {
    let mut rack = fresh(random);
    let any_slots = random.below(SLOTS);
    let used = random.pick(&[0, 10, SLOTS / 2, SLOTS - 20, SLOTS - 4, SLOTS - 1, SLOTS, any_slots]);
    let limits = Limits { late_stamps: random.one_in(3), late_ops: random.one_in(4), used };
    if random.one_in(2) {
        fill_beyond_the_sizes(&mut rack, random);
    }
    for replica in 0..rack.sizes.replicas as usize {
        rack.replicas[replica].on = !random.one_in(5);
        for cell in 0..rack.sizes.cells as usize {
            rack.replicas[replica].pairs[cell] = pair(random, rack.sizes, &limits);
        }
    }
    for client in 0..rack.sizes.clients as usize {
        rack.clients[client] = any_client(random, rack.sizes, &limits);
    }
    for slot in 0..SLOTS {
        if random.below(SLOTS) < limits.used {
            rack.wire.0[slot] = Some(message(random, &rack, &limits));
        }
    }
    fill_record(&mut rack, random);
    rack
}

fn number_below(random: &mut Random, limit: u32) -> u32 {
    random.below(limit as usize) as u32
}

fn pair(random: &mut Random, sizes: Sizes, limits: &Limits) -> Pair {
    let small = number_below(random, 4);
    let number = match random.below(8) {
        0 => random.word(),
        1..=3 if limits.late_stamps => LAST_STAMP_NUMBER - small / 2,
        _ => small,
    };
    Pair { stamp: Stamp { number, rank: number_below(random, sizes.clients) }, value: making::value(random) }
}

fn any_client(random: &mut Random, sizes: Sizes, limits: &Limits) -> Client {
    let op = if limits.late_ops { LAST_OP - number_below(random, 3) } else { number_below(random, 6) };
    let open = (!random.one_in(3)).then(|| operation(random, sizes, limits));
    Client { stopped: random.one_in(6), op, open }
}

fn operation(random: &mut Random, sizes: Sizes, limits: &Limits) -> Operation {
    let goal = if random.one_in(3) { Goal::Read } else { Goal::Write(making::value(random)) };
    let mut answered = ReplySet::EMPTY;
    for _ in 0..random.below(sizes.majority() as usize) {
        answered = answered.with(number_below(random, sizes.replicas));
    }
    let held = pair(random, sizes, limits);
    let phase = if random.one_in(3) {
        Phase::Keeping { held }
    } else {
        Phase::Asking { held: (!answered.is_empty()).then_some(held) }
    };
    Operation { goal, cell: number_below(random, sizes.cells), answered, phase }
}

/// A message that mostly belongs to what its client does now, else a stale one or one of an operation yet to come.
fn message(random: &mut Random, rack: &Rack, limits: &Limits) -> Message {
    let sizes = rack.sizes;
    let number = number_below(random, sizes.clients);
    let client = rack.clients[number as usize];
    let op = match random.below(8) {
        0 => number_below(random, LAST_OP + 1),
        1 => client.op.saturating_sub(1),
        2 => (client.op + 1).min(LAST_OP),
        _ => client.op,
    };
    let cell = match client.open {
        Some(open) if !random.one_in(8) => open.cell,
        _ => number_below(random, sizes.cells),
    };
    let pair = pair(random, sizes, limits);
    let body = random.pick(&[Body::Ask, Body::Tell(pair), Body::Tell(pair), Body::Keep(pair), Body::Kept]);
    Message { body, client: number, replica: number_below(random, sizes.replicas), cell, op }
}

/// A record that is empty, of any length, or as long as a sound state's can be, or nearly.
fn fill_record(rack: &mut Rack, random: &mut Random) {
    let most = MOST_ENTRIES - rack.answers_owed();
    let length = match random.below(8) {
        0 => random.below(most),
        1 => most - random.below(4),
        2 => most,
        _ => random.below(8),
    };
    rack.record = making::record(random, length);
}

/// Puts what no rack could have where no part of this rack is.
fn fill_beyond_the_sizes(rack: &mut Rack, random: &mut Random) {
    let strange = Pair { stamp: Stamp { number: 9, rank: 200 }, value: -7 };
    let open = Operation {
        goal: Goal::Write(1),
        cell: 200,
        answered: ReplySet(u16::MAX),
        phase: Phase::Keeping { held: strange },
    };
    for client in &mut rack.clients[rack.sizes.clients as usize..] {
        *client = Client { stopped: random.one_in(2), op: LAST_OP, open: Some(open) };
    }
    let cells = rack.sizes.cells as usize;
    for (number, replica) in rack.replicas.iter_mut().enumerate() {
        let from = if number < rack.sizes.replicas as usize { cells } else { 0 };
        replica.pairs[from..].fill(strange);
        if from == 0 {
            replica.on = random.one_in(2);
        }
    }
}

/// A kind of unsoundness and the edit that gives a sound state that fault.
pub type Edit = (&'static str, fn(&mut Rack, &mut Random));

pub const UNSOUND: [Edit; 19] = [
    ("no replicas", |rack, _| rack.sizes.replicas = 0),
    ("too many replicas", |rack, random| rack.sizes.replicas = random.pick(&[16, 17, 255, 256 + 3])),
    ("no clients", |rack, _| rack.sizes.clients = 0),
    ("too many clients", |rack, random| rack.sizes.clients = random.pick(&[9, 255, 256 + 3])),
    ("no cells", |rack, _| rack.sizes.cells = 0),
    ("too many cells", |rack, random| rack.sizes.cells = random.pick(&[17, 255, 256 + 3])),
    ("a message's client", |rack, random| edit_message(rack, random, |message, sizes| message.client = sizes.clients)),
    ("a message's replica", |rack, random| {
        edit_message(rack, random, |message, sizes| message.replica = sizes.replicas)
    }),
    ("a message's cell", |rack, random| edit_message(rack, random, |message, sizes| message.cell = sizes.cells)),
    ("a tell's rank", |rack, random| {
        edit_message(rack, random, |message, sizes| message.body = Body::Tell(of_rank(sizes.clients)))
    }),
    ("a keep's rank", |rack, random| {
        edit_message(rack, random, |message, sizes| message.body = Body::Keep(of_rank(sizes.clients)))
    }),
    ("a message's operation number", |rack, random| edit_message(rack, random, |message, _| message.op = LAST_OP + 1)),
    ("a pair's rank", |rack, random| {
        let (replica, cell) = (random.below(rack.sizes.replicas as usize), random.below(rack.sizes.cells as usize));
        rack.replicas[replica].pairs[cell].stamp.rank = rack.sizes.clients;
    }),
    ("a held pair's rank", |rack, random| {
        edit_operation(rack, random, |open, sizes| open.phase = Phase::Keeping { held: of_rank(sizes.clients) })
    }),
    ("an operation's cell", |rack, random| edit_operation(rack, random, |open, sizes| open.cell = sizes.cells)),
    ("a client's operation number", |rack, random| {
        let client = random.below(rack.sizes.clients as usize);
        rack.clients[client].op = LAST_OP + 1;
    }),
    ("a set's replica", |rack, random| {
        edit_operation(rack, random, |open, sizes| {
            open.answered = ReplySet(1 << sizes.replicas);
            open.phase = Phase::Keeping { held: Pair::default() };
        })
    }),
    ("a set that is a majority", |rack, random| {
        edit_operation(rack, random, |open, sizes| {
            open.answered = ReplySet(((1u32 << sizes.majority()) - 1) as u16);
            open.phase = Phase::Keeping { held: Pair::default() };
        })
    }),
    ("a record without room", |rack, random| {
        edit_operation(rack, random, |_, _| ());
        // At least one answer is owed, so that no more entries than 2,048 are needed to be one too many.
        let owing = rack.clients.iter_mut().find(|client| client.open.is_some()).expect("an operation is open");
        owing.stopped = false;
        rack.record = making::record(random, MOST_ENTRIES + 1 - rack.answers_owed());
    }),
];

/// An unsound state: a sound one, or now and then a fresh one, with one fault.
pub fn unsound(random: &mut Random, (_, edit): Edit) -> Rack {
    let mut rack = if random.one_in(4) { fresh(random) } else { sound(random) };
    edit(&mut rack, random);
    rack
}

fn of_rank(rank: u32) -> Pair {
    Pair { stamp: Stamp { number: 1, rank }, value: 1 }
}

fn edit_message(rack: &mut Rack, random: &mut Random, edit: fn(&mut Message, Sizes)) {
    let limits = Limits { late_stamps: false, late_ops: false, used: 0 };
    let mut edited = message(random, rack, &limits);
    edit(&mut edited, rack.sizes);
    rack.wire.0[random.below(SLOTS)] = Some(edited);
}

fn edit_operation(rack: &mut Rack, random: &mut Random, edit: fn(&mut Operation, Sizes)) {
    let client = random.below(rack.sizes.clients as usize);
    let limits = Limits { late_stamps: false, late_ops: false, used: 0 };
    let mut open = operation(random, rack.sizes, &limits);
    edit(&mut open, rack.sizes);
    rack.clients[client].open = Some(open);
}
