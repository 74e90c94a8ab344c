//! The records that are timed: full ones, of 2,048 entries.

use compare::histories::{register_run, Run};
use compare::paper::number::alternating;
use compare::paper::record::{bytes_of, Entry, CELLS, CLIENTS, MOST_ENTRIES};
use compare::random::Random;

pub struct Shape {
    pub name: &'static str,
    pub entries: usize,
    pub bytes: Vec<u8>,
}

fn shape(name: &'static str, entries: Vec<Entry>) -> Shape {
    Shape { name, entries: entries.len(), bytes: bytes_of(&entries) }
}

/// What the names of records begin with whose values are chosen against the Rattle table.
pub const WORST: &str = "worst hashing";

const OPERATIONS: usize = MOST_ENTRIES / 2;

pub fn all() -> Vec<Shape> {
    [one_after_the_other(), overlapping(), worst_for_the_table(), unlawful_and_refused()]
        .into_iter()
        .flatten()
        .collect()
}

/// What the client does in its `turn`th operation: writes a value to a cell, or reads it there.
#[derive(Clone, Copy)]
enum Act {
    Write(u8, i32),
    Read(u8, i32),
}

/// One operation at a time, by all clients in turn.
fn in_turn(act: impl Fn(usize) -> Act) -> Vec<Entry> {
    let mut entries = Vec::with_capacity(MOST_ENTRIES);
    for turn in 0..OPERATIONS {
        let client = (turn % CLIENTS) as u8;
        match act(turn) {
            Act::Write(cell, value) => {
                entries.extend([Entry::WriteAsked { client, cell, value }, Entry::Done { client }])
            }
            Act::Read(cell, value) => {
                entries.extend([Entry::ReadAsked { client, cell }, Entry::Told { client, value }])
            }
        }
    }
    entries
}

fn one_after_the_other() -> Vec<Shape> {
    let cell = |turn: usize| (turn % CELLS) as u8;
    let value = |turn: usize| turn as i32 + 1;
    let wide = |turn: usize| (turn as i32 + 1) * 1_299_709;
    let written_then_read = |turn: usize, cell: u8| {
        if turn.is_multiple_of(2) {
            Act::Write(cell, value(turn))
        } else {
            Act::Read(cell, value(turn - 1))
        }
    };
    vec![
        shape("all writes, one cell", in_turn(|turn| Act::Write(0, value(turn)))),
        shape("all writes, all cells", in_turn(|turn| Act::Write(cell(turn), value(turn)))),
        shape("all writes, wide values, one cell", in_turn(|turn| Act::Write(0, wide(turn)))),
        shape("all reads of zero, all cells", in_turn(|turn| Act::Read(cell(turn), 0))),
        shape(
            "a write, then all reads, one cell",
            in_turn(|turn| if turn == 0 { Act::Write(0, 5) } else { Act::Read(0, 5) }),
        ),
        shape("write and read, one cell", in_turn(|turn| written_then_read(turn, 0))),
        shape("write and read, all cells", in_turn(|turn| written_then_read(turn, cell(turn / 2)))),
    ]
}

fn run_of(clients: usize, cells: usize, writes: usize) -> Vec<Entry> {
    register_run(&mut Random::from_seed(1), Run { clients, cells, writes, stops: usize::MAX, length: MOST_ENTRIES })
}

fn overlapping() -> Vec<Shape> {
    vec![
        shape("8 clients at once, one cell", run_of(8, 1, 4)),
        shape("8 clients at once, all cells", run_of(8, CELLS, 4)),
        shape("2 clients at once, mostly reads", run_of(2, 4, 1)),
    ]
}

/// The chain of the Rattle table that a cell's value is put in, as crates/chains has it.
fn chain_of(cell: u8, value: i32) -> u64 {
    (u64::from(alternating(value)) + 65_537 * u64::from(cell)) * 1_327_217_885 / (1 << 20) % 4096
}

/// Values for a cell that all lie in one chain, so that a search may have to pass over all of them.
fn values_in_one_chain(cell: u8) -> Vec<i32> {
    (1..).filter(|value| chain_of(cell, *value) == 0).take(OPERATIONS).collect()
}

fn worst_for_the_table() -> Vec<Shape> {
    let (values, others) = (values_in_one_chain(0), values_in_one_chain(1));
    let half = OPERATIONS / 2;
    let reads_of_the_last = |turn: usize| match turn < half {
        true => Act::Write(0, values[turn]),
        false => Act::Read(0, values[half - 1]),
    };
    let reads_of_the_first = |turn: usize| match turn {
        0 => Act::Write(0, values[0]),
        _ if turn < half => Act::Write(1, others[turn]),
        _ => Act::Read(0, values[0]),
    };
    vec![
        shape("worst hashing, all writes", in_turn(|turn| Act::Write(0, values[turn]))),
        shape("worst hashing, reads of the last", in_turn(reads_of_the_last)),
        shape("worst hashing, reads of the first", in_turn(reads_of_the_first)),
    ]
}

fn unlawful_and_refused() -> Vec<Shape> {
    let value = |turn: usize| turn as i32 + 1;
    let stale = |at: usize| in_turn(move |turn| if turn == at { Act::Read(0, 0) } else { Act::Write(0, value(turn)) });
    let again = |at: usize| in_turn(move |turn| Act::Write(0, if turn == at { value(0) } else { value(turn) }));
    vec![
        shape("unlawful early", stale(1)),
        shape("unlawful late", stale(OPERATIONS - 1)),
        shape("a value written again early", again(1)),
        shape("a value written again late", again(OPERATIONS - 1)),
    ]
}
