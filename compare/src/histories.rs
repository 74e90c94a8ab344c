//! Makes records for the judge: small ones in which anything happens, all very small ones, and runs of true registers with
//! and without faults. None has a fault of reading, unless a function says so.

use crate::paper::record::{Entry, CELLS, CLIENTS};
use crate::random::Random;

/// How large a small record may be, and whether 29 leaves it alone.
#[derive(Clone, Copy)]
pub struct Shape {
    pub clients: usize,
    pub cells: usize,
    pub operations: usize,
    pub distinct: bool,
}

impl Shape {
    /// Any number of clients and cells up to these, at most 8 operations.
    pub fn any(random: &mut Random) -> Shape {
        let distinct = !random.one_in(8);
        Shape { clients: 1 + random.below(4), cells: 1 + random.below(3), operations: 2 + random.below(7), distinct }
    }
}

/// What a client does in a run.
#[derive(Clone, Copy)]
enum Client {
    Idle,
    Reading { cell: u8 },
    Writing,
}

/// A small record. A read gives zero or a value that was asked for its cell, mostly a late one, and now and then a value
/// that nobody has asked for yet; so about as many records are lawful as not.
pub fn small_record(random: &mut Random, shape: Shape) -> Vec<Entry> {
    let mut clients = [Client::Idle; CLIENTS];
    let mut asked: [Vec<i32>; CELLS] = Default::default();
    let (mut entries, mut left) = (Vec::new(), shape.operations);
    let length = shape.operations + random.below(shape.operations + 1);
    while entries.len() < length {
        let client = random.below(shape.clients);
        let number = client as u8;
        let entry = match clients[client] {
            Client::Idle if left == 0 => break,
            Client::Idle => {
                left -= 1;
                let cell = random.below(shape.cells);
                asked_entry(random, number, cell as u8, shape.distinct, &mut asked[cell])
            }
            Client::Reading { cell } => Entry::Told { client: number, value: told(random, &asked[usize::from(cell)]) },
            Client::Writing => Entry::Done { client: number },
        };
        clients[client] = client_after(entry);
        entries.push(entry);
    }
    entries
}

fn client_after(entry: Entry) -> Client {
    match entry {
        Entry::ReadAsked { cell, .. } => Client::Reading { cell },
        Entry::WriteAsked { .. } => Client::Writing,
        Entry::Told { .. } | Entry::Done { .. } => Client::Idle,
    }
}

fn asked_entry(random: &mut Random, client: u8, cell: u8, distinct: bool, asked: &mut Vec<i32>) -> Entry {
    if random.one_in(2) {
        return Entry::ReadAsked { client, cell };
    }
    let fresh = asked.len() as i32 + 1;
    let value = if distinct || random.one_in(2) { fresh } else { random.below(asked.len() + 2) as i32 };
    asked.push(value);
    Entry::WriteAsked { client, cell, value }
}

fn told(random: &mut Random, asked: &[i32]) -> i32 {
    let last_two = asked.len().saturating_sub(2);
    match random.below(8) {
        0 => 0,
        1 => asked.len() as i32 + 1,
        2 => asked.get(random.below(asked.len() + 1)).copied().unwrap_or(0),
        _ => asked[last_two..].get(random.below(2)).copied().unwrap_or(0),
    }
}

/// Every record of `length` entries by these clients on one cell with these values, one after the other.
pub fn every_record<E>(
    clients: u8,
    values: &[i32],
    length: usize,
    take: &mut impl FnMut(&[Entry]) -> Result<(), E>,
) -> Result<(), E> {
    let mut entries = Vec::with_capacity(length);
    extend(&mut entries, [Client::Idle; CLIENTS], clients, values, length, take)
}

fn extend<E>(
    entries: &mut Vec<Entry>,
    clients: [Client; CLIENTS],
    count: u8,
    values: &[i32],
    left: usize,
    take: &mut impl FnMut(&[Entry]) -> Result<(), E>,
) -> Result<(), E> {
    if left == 0 {
        return take(entries);
    }
    for client in 0..count {
        for entry in possible(clients[usize::from(client)], client, values) {
            let mut after = clients;
            after[usize::from(client)] = client_after(entry);
            entries.push(entry);
            extend(entries, after, count, values, left - 1, take)?;
            entries.pop();
        }
    }
    Ok(())
}

fn possible(state: Client, client: u8, values: &[i32]) -> Vec<Entry> {
    let nonzero = values.iter().filter(|value| **value != 0);
    match state {
        Client::Idle => {
            let writes = nonzero.map(|value| Entry::WriteAsked { client, cell: 0, value: *value });
            [Entry::ReadAsked { client, cell: 0 }].into_iter().chain(writes).collect()
        }
        Client::Reading { .. } => values.iter().map(|value| Entry::Told { client, value: *value }).collect(),
        Client::Writing => vec![Entry::Done { client }],
    }
}

/// A client of a true register: its operation acts at one moment between its start and its end.
#[derive(Clone, Copy)]
enum Turn {
    Idle,
    Reads { cell: usize },
    Writes { cell: usize, value: i32 },
    Ends(Entry),
    Stopped,
}

/// How a run of true registers goes: `writes` of 8 operations are writes, and one in `stops` turns stops its client.
#[derive(Clone, Copy)]
pub struct Run {
    pub clients: usize,
    pub cells: usize,
    pub writes: usize,
    pub stops: usize,
    pub length: usize,
}

impl Run {
    pub fn any(random: &mut Random, length: usize) -> Run {
        let (clients, cells) = (1 + random.below(CLIENTS), 1 + random.below(CELLS));
        Run { clients, cells, writes: 1 + random.below(7), stops: 20 + random.below(1000), length }
    }
}

/// A run of true registers, so a lawful record: cells that are read and written at one moment, clients that may wait before
/// and after it and that may stop. It is shorter than asked when all clients have stopped.
pub fn register_run(random: &mut Random, run: Run) -> Vec<Entry> {
    let mut turns = [Turn::Idle; CLIENTS];
    let mut contents = [0; CELLS];
    let mut entries = Vec::with_capacity(run.length);
    let mut running: Vec<usize> = (0..run.clients).collect();
    while entries.len() < run.length && !running.is_empty() {
        let client = random.pick(&running);
        if random.one_in(run.stops) {
            turns[client] = Turn::Stopped;
            running.retain(|other| *other != client);
        }
        turns[client] = match turns[client] {
            Turn::Idle => start(random, run, client as u8, &mut entries),
            Turn::Reads { cell } => Turn::Ends(Entry::Told { client: client as u8, value: contents[cell] }),
            Turn::Writes { cell, value } => {
                contents[cell] = value;
                Turn::Ends(Entry::Done { client: client as u8 })
            }
            Turn::Ends(entry) => {
                entries.push(entry);
                Turn::Idle
            }
            Turn::Stopped => Turn::Stopped,
        };
    }
    entries
}

fn start(random: &mut Random, run: Run, client: u8, entries: &mut Vec<Entry>) -> Turn {
    let cell = random.below(run.cells);
    if random.below(8) >= run.writes {
        entries.push(Entry::ReadAsked { client, cell: cell as u8 });
        return Turn::Reads { cell };
    }
    let value = distinct_value(entries.len());
    entries.push(Entry::WriteAsked { client, cell: cell as u8, value });
    Turn::Writes { cell, value }
}

/// A value of its own for each place: above and below zero, of all widths.
fn distinct_value(place: usize) -> i32 {
    let number = place as i32 + 1;
    match place % 3 {
        0 => number,
        1 => -number,
        _ => number * 0x0004_E377,
    }
}

/// Does to a record what a faulty register might do. Some of these leave it lawful, and a lost end may give 26.
pub fn fault(random: &mut Random, entries: &mut Vec<Entry>) {
    if entries.len() < 2 {
        return;
    }
    let (place, last) = (random.below(entries.len()), entries.len() - 1);
    match random.below(5) {
        0 => stale_read(random, entries, place),
        1 => swapped_values(random, entries, place),
        2 => swapped_entries(entries, place % last),
        3 => lost_end(entries, place, true),
        _ => lost_end(entries, place, random.one_in(4)),
    }
}

/// The first read that ends from `place` on gives another value that was asked for, or zero.
fn stale_read(random: &mut Random, entries: &mut [Entry], place: usize) {
    let asked: Vec<i32> = values_asked(&entries[..place]);
    let told = entries[place..].iter_mut().find_map(|entry| match entry {
        Entry::Told { value, .. } => Some(value),
        _ => None,
    });
    if let Some(value) = told {
        let back = 1 + random.below(4);
        *value = asked.len().checked_sub(back).map_or(0, |index| asked[index]);
    }
}

/// The last write asked up to `place` takes a value that was asked before, for its cell or for another, or zero: mostly 29.
pub fn write_again(random: &mut Random, entries: &mut [Entry], place: usize) {
    let is_write = |entry: &Entry| matches!(entry, Entry::WriteAsked { .. });
    let Some(last) = entries[..place].iter().rposition(is_write) else { return };
    let asked = values_asked(&entries[..last]);
    if let Entry::WriteAsked { value, .. } = &mut entries[last] {
        let which = random.below(asked.len() + 1);
        *value = asked.get(which).copied().unwrap_or(0);
    }
}

fn values_asked(entries: &[Entry]) -> Vec<i32> {
    let value = |entry: &Entry| match entry {
        Entry::WriteAsked { value, .. } => Some(*value),
        _ => None,
    };
    entries.iter().filter_map(value).collect()
}

/// Two values of entries of one kind change places.
fn swapped_values(random: &mut Random, entries: &mut [Entry], place: usize) {
    let told = random.one_in(2);
    let mut places = (place..entries.len()).filter(|at| match entries[*at] {
        Entry::Told { .. } => told,
        Entry::WriteAsked { .. } => !told,
        _ => false,
    });
    let (Some(one), Some(other)) = (places.next(), places.next()) else { return };
    match (entries[one], entries[other]) {
        (Entry::Told { client: a, value: v }, Entry::Told { client: b, value: w }) => {
            entries[one] = Entry::Told { client: a, value: w };
            entries[other] = Entry::Told { client: b, value: v };
        }
        (Entry::WriteAsked { client: a, cell: c, value: v }, Entry::WriteAsked { client: b, cell: d, value: w }) => {
            entries[one] = Entry::WriteAsked { client: a, cell: c, value: w };
            entries[other] = Entry::WriteAsked { client: b, cell: d, value: v };
        }
        _ => unreachable!("both places hold entries of one kind"),
    }
}

/// Two neighbours change places, if they are of different clients: what overlapped may no longer, and the other way round.
fn swapped_entries(entries: &mut [Entry], place: usize) {
    if client_of(entries[place]) != client_of(entries[place + 1]) {
        entries.swap(place, place + 1);
    }
}

fn client_of(entry: Entry) -> u8 {
    match entry {
        Entry::ReadAsked { client, .. } | Entry::WriteAsked { client, .. } => client,
        Entry::Told { client, .. } | Entry::Done { client } => client,
    }
}

/// The first end from `place` on is lost, and with it all that its client does later; or the end alone, which gives 26
/// if the client asks again.
fn lost_end(entries: &mut Vec<Entry>, place: usize, alone: bool) {
    let is_end = |entry: &Entry| matches!(entry, Entry::Told { .. } | Entry::Done { .. });
    let Some(end) = (place..entries.len()).find(|at| is_end(&entries[*at])) else { return };
    let client = client_of(entries[end]);
    if alone {
        entries.remove(end);
        return;
    }
    let kept: Vec<Entry> = entries.drain(end..).filter(|entry| client_of(*entry) != client).collect();
    entries.extend(kept);
}

#[cfg(test)]
mod tests {
    use super::*;
    use crate::law::{by_rule, by_search, Verdict};
    use crate::paper::record::{bytes_of, read_record};

    #[test]
    fn runs_of_true_registers_are_lawful() {
        let mut random = Random::from_seed(21);
        for turn in 0..3_000 {
            let run = Run::any(&mut random, 1 + turn % 300);
            let bytes = bytes_of(&register_run(&mut random, run));
            assert_eq!(by_rule::verdict(&bytes), Verdict::Lawful, "{bytes:02X?}");
        }
    }

    #[test]
    fn faults_are_often_unlawful_and_seldom_refused() {
        let mut random = Random::from_seed(22);
        let (mut unlawful, mut refused) = (0, 0);
        for _ in 0..3_000 {
            let run = Run { clients: 3, cells: 2, writes: 3, stops: 200, length: 30 };
            let mut entries = register_run(&mut random, run);
            fault(&mut random, &mut entries);
            match by_rule::verdict(&bytes_of(&entries)) {
                Verdict::Lawful => {}
                Verdict::Unlawful { .. } => unlawful += 1,
                Verdict::Refused(refusal) => {
                    assert!([26, 27].contains(&refusal.number), "{refusal}");
                    refused += 1;
                }
            }
        }
        assert!(unlawful > 600 && refused < 1_500, "{unlawful} unlawful, {refused} refused");
    }

    #[test]
    fn every_record_of_three_entries_by_one_client() {
        let mut seen = Vec::new();
        let taken: Result<(), ()> = every_record(1, &[0, 1], 3, &mut |entries| {
            seen.push(bytes_of(entries));
            Ok(())
        });
        assert!(taken.is_ok());
        // Read or write, its end (0 or 1 told, or done), and then read or write again.
        assert_eq!(seen.len(), 6);
        assert!(seen.iter().all(|bytes| read_record(bytes).is_ok()));
        seen.dedup();
        assert_eq!(seen.len(), 6);
    }

    #[test]
    fn search_and_rule_agree_on_every_very_small_record() {
        for length in 0..=6 {
            let taken: Result<(), ()> = every_record(2, &[0, 1, 2], length, &mut |entries| {
                let bytes = bytes_of(entries);
                assert_eq!(by_rule::verdict(&bytes), by_search::verdict(&bytes), "{bytes:02X?}");
                Ok(())
            });
            assert!(taken.is_ok());
        }
    }
}
