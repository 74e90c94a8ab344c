//! A rack as numbers of 32 bits: how a state is handed over in lent memory, always [`STATE_WORDS`] of them.
//!
//! In this order:
//! - 3 words: replicas, clients, cells;
//! - 1 word, power: bit r is 1 when replica r is on;
//! - 1 word: count of entries;
//! - 8 clients of 10 words: stopped (0 or 1), operation number, phase (0 idle, 1 asking, 2 keeping), cell, goal (0 read,
//!   1 write), goal's value, set, held number, held rank, held value;
//! - 240 pairs of 3 words, that of replica r and cell c at place 16 r + c: number, rank, value;
//! - 256 slots of 9 words: 0 empty or 1 full, body (0 ask, 1 tell, 2 keep, 3 kept), client, replica, cell, operation number,
//!   number, rank, value;
//! - 2,048 entries of 4 words: kind, client, cell, value.
//!
//! A value is the number it is written as. Words that a kind hasn't got stand as 0 and aren't looked at: all of an idle
//! client but its first three, the value of a read's goal, what an asking client with an empty set holds (nothing), all of
//! an empty slot but its first, the pair of an ask or a kept. A run that does an event leaves 0 there. Clients, pairs and
//! power bits beyond the sizes and entries beyond the count are no part of the rack: never looked at and never changed.
//!
//! Words that are no state at all (a phase 3, a body 4, a count above 2,048, bits above the fifteenth replica's power or the
//! sixteen of a set, an entry of kind 4, of a ninth client or of cell 16) are unsound: refused 2 as soon as an event is tried.

use super::event::Event;
use super::refusal::UNSOUND_STATE;
use super::schedule::Ran;
use super::state::{
    Body, Client, Goal, Message, Operation, Pair, Phase, Rack, Replica, ReplySet, Sizes, Stamp, Wire, REPLICAS, SLOTS,
};
use crate::paper::number::{alternating, signed};
use crate::paper::record::{CELLS, CLIENTS, MOST_ENTRIES};
use crate::paper::rows::{self, ROW};

pub const CLIENTS_AT: usize = 5;
pub const CLIENT_WORDS: usize = 10;
pub const PAIRS_AT: usize = CLIENTS_AT + CLIENTS * CLIENT_WORDS;
pub const PAIR_WORDS: usize = 3;
pub const SLOTS_AT: usize = PAIRS_AT + REPLICAS * CELLS * PAIR_WORDS;
pub const SLOT_WORDS: usize = 9;
pub const ENTRIES_AT: usize = SLOTS_AT + SLOTS * SLOT_WORDS;
pub const STATE_WORDS: usize = ENTRIES_AT + MOST_ENTRIES * ROW;

pub fn encode(rack: &Rack) -> Vec<u32> {
    let Sizes { replicas, clients, cells } = rack.sizes;
    let power = (0..REPLICAS).map(|replica| u32::from(rack.replicas[replica].on) << replica).sum();
    let mut words = vec![replicas, clients, cells, power, rack.record.len() as u32];
    words.extend(rack.clients.iter().flat_map(client_words));
    words.extend(rack.replicas.iter().flat_map(|replica| replica.pairs).flat_map(pair_words));
    words.extend(rack.wire.0.iter().flat_map(slot_words));
    words.extend(rows::rows_of(&rack.record));
    words.resize(STATE_WORDS, 0);
    words
}

fn pair_words(pair: Pair) -> [u32; PAIR_WORDS] {
    [pair.stamp.number, pair.stamp.rank, alternating(pair.value)]
}

fn client_words(client: &Client) -> [u32; CLIENT_WORDS] {
    let mut words = [0; CLIENT_WORDS];
    words[..2].copy_from_slice(&[client.stopped.into(), client.op]);
    if let Some(operation) = &client.open {
        let phase = match operation.phase {
            Phase::Asking { .. } => 1,
            Phase::Keeping { .. } => 2,
        };
        let (goal, value) = match operation.goal {
            Goal::Read => (0, 0),
            Goal::Write(value) => (1, alternating(value)),
        };
        words[2..7].copy_from_slice(&[phase, operation.cell, goal, value, operation.answered.0.into()]);
        words[7..].copy_from_slice(&operation.phase.held().map_or([0; PAIR_WORDS], pair_words));
    }
    words
}

fn slot_words(slot: &Option<Message>) -> [u32; SLOT_WORDS] {
    let Some(message) = slot else { return [0; SLOT_WORDS] };
    let body = match message.body {
        Body::Ask => 0,
        Body::Tell(_) => 1,
        Body::Keep(_) => 2,
        Body::Kept => 3,
    };
    let [number, rank, value] = message.pair().map_or([0; PAIR_WORDS], pair_words);
    [1, body, message.client, message.replica, message.cell, message.op, number, rank, value]
}

/// The rack of these words; none if they are no state at all.
pub fn decode(words: &[u32]) -> Option<Rack> {
    let [replicas, clients, cells, power, entries] = *words.first_chunk()?;
    if words.len() != STATE_WORDS || power >> REPLICAS != 0 || entries as usize > MOST_ENTRIES {
        return None;
    }
    let mut rack = Rack {
        sizes: Sizes { replicas, clients, cells },
        replicas: replicas_from(power, &words[PAIRS_AT..SLOTS_AT]),
        clients: [Client::default(); CLIENTS],
        wire: Wire([None; SLOTS]),
        record: Vec::with_capacity(entries as usize),
    };
    for (number, words) in words[CLIENTS_AT..PAIRS_AT].chunks_exact(CLIENT_WORDS).enumerate() {
        // Beyond the sizes it doesn't matter what the words are.
        match client_from(words) {
            Some(client) => rack.clients[number] = client,
            None if number < clients as usize => return None,
            None => (),
        }
    }
    for (slot, words) in rack.wire.0.iter_mut().zip(words[SLOTS_AT..].chunks_exact(SLOT_WORDS)) {
        *slot = slot_from(words)?;
    }
    for row in words[ENTRIES_AT..].chunks_exact(ROW).take(entries as usize) {
        rack.record.push(rows::entry_of(row).ok()?);
    }
    Some(rack)
}

fn replicas_from(power: u32, pairs: &[u32]) -> [Replica; REPLICAS] {
    std::array::from_fn(|replica| Replica {
        on: power >> replica & 1 == 1,
        pairs: std::array::from_fn(|cell| pair_from(&pairs[(replica * CELLS + cell) * PAIR_WORDS..])),
    })
}

fn pair_from(words: &[u32]) -> Pair {
    Pair { stamp: Stamp { number: words[0], rank: words[1] }, value: signed(words[2]) }
}

fn client_from(words: &[u32]) -> Option<Client> {
    let stopped = flag(words[0])?;
    let client = |open| Client { stopped, op: words[1], open };
    if words[2] == 0 {
        return Some(client(None));
    }
    let answered = ReplySet(u16::try_from(words[6]).ok()?);
    let held = pair_from(&words[7..]);
    let phase = match words[2] {
        1 => Phase::Asking { held: (!answered.is_empty()).then_some(held) },
        2 => Phase::Keeping { held },
        _ => return None,
    };
    let goal = if flag(words[4])? { Goal::Write(signed(words[5])) } else { Goal::Read };
    Some(client(Some(Operation { goal, cell: words[3], answered, phase })))
}

fn slot_from(words: &[u32]) -> Option<Option<Message>> {
    if !flag(words[0])? {
        return Some(None);
    }
    let pair = pair_from(&words[6..]);
    let body = match words[1] {
        0 => Body::Ask,
        1 => Body::Tell(pair),
        2 => Body::Keep(pair),
        3 => Body::Kept,
        _ => return None,
    };
    Some(Some(Message { body, client: words[2], replica: words[3], cell: words[4], op: words[5] }))
}

fn flag(word: u32) -> Option<bool> {
    match word {
        0 => Some(false),
        1 => Some(true),
        _ => None,
    }
}

/// Runs a schedule on a state in lent memory. A run that does no event leaves every word as it was.
pub fn run_words(state: &mut [u32], allowance: usize, events: &[u32]) -> Ran {
    let events = Event::schedule(events);
    let Some(mut rack) = decode(state) else {
        let tried = allowance > 0 && !events.is_empty();
        return Ran { done: 0, refusal: tried.then_some(UNSOUND_STATE) };
    };
    let ran = rack.run(allowance, &events);
    if ran.done > 0 {
        write(&rack, state);
    }
    ran
}

/// Writes what is part of the rack.
fn write(rack: &Rack, state: &mut [u32]) {
    let words = encode(rack);
    let (replicas, clients, cells) =
        (rack.sizes.replicas as usize, rack.sizes.clients as usize, rack.sizes.cells as usize);
    let mut copy = |from: usize, count: usize| state[from..from + count].copy_from_slice(&words[from..from + count]);
    copy(0, CLIENTS_AT + clients * CLIENT_WORDS);
    for replica in 0..replicas {
        copy(PAIRS_AT + replica * CELLS * PAIR_WORDS, cells * PAIR_WORDS);
    }
    copy(SLOTS_AT, SLOTS * SLOT_WORDS + rack.record.len() * ROW);
}
