//! Inputs for the judge. The independent judge by the rule decides each; where a cell has few operations the search decides
//! it too, and the two must say the same.

use crate::check::{hex, Checked, Checker, Trouble};
use compare::histories::{every_record, fault, register_run, small_record, write_again, Run, Shape};
use compare::law::{by_rule, by_search, judged_operations};
use compare::making::{any_bytes, exchanges_for_byte, record};
use compare::paper::record::{bytes_of, Entry, CELLS, CLIENTS, MOST_ENTRIES};
use compare::random::Random;
use compare::samples;

/// No record of 2,048 entries has more bytes, since none of its entries has more than 8.
const MOST_BYTES: usize = 8 * MOST_ENTRIES;

pub fn verdicts(checker: &mut Checker, random: &mut Random) -> Checked {
    for sample in samples::all() {
        try_bytes(checker, &sample.bytes)?;
    }
    very_small_records(checker)?;
    for _ in 0..400_000 {
        let shape = Shape::any(random);
        try_entries(checker, &small_record(random, shape))?;
    }
    runs(checker, random)?;
    damaged(checker, random)?;
    full_records(checker, random)?;
    long_inputs(checker, random)
}

fn try_entries(checker: &mut Checker, entries: &[Entry]) -> Checked {
    try_bytes(checker, &bytes_of(entries))
}

fn try_bytes(checker: &mut Checker, bytes: &[u8]) -> Checked {
    let verdict = by_rule::verdict(bytes);
    if let Ok(operations) = judged_operations(bytes) {
        if by_search::can_decide(&operations) {
            let searched = by_search::verdict(bytes);
            if searched != verdict {
                let record = hex(bytes);
                let lines =
                    format!("the independent judges\n  record: [{record}]\n  search: {searched}\n  rule: {verdict}");
                return Err(Trouble::Disagreement(lines));
            }
        }
    }
    checker.verdict(bytes, verdict)
}

/// Every record of few entries by two clients and by three, on one cell; values are repeated in some.
fn very_small_records(checker: &mut Checker) -> Checked {
    for length in 0..=7 {
        every_record(2, &[0, 1, 2], length, &mut |entries| try_entries(checker, entries))?;
    }
    for length in 0..=5 {
        every_record(3, &[0, 1, 2], length, &mut |entries| try_entries(checker, entries))?;
    }
    Ok(())
}

/// Runs of true registers, and the same with one to three faults.
fn runs(checker: &mut Checker, random: &mut Random) -> Checked {
    for _ in 0..60_000 {
        let length = random.below(50);
        let run = Run { cells: 1 + random.below(3), ..Run::any(random, length) };
        let mut entries = register_run(random, run);
        try_entries(checker, &entries)?;
        for _ in 0..3 {
            fault(random, &mut entries);
            try_entries(checker, &entries)?;
        }
        let place = entries.len();
        write_again(random, &mut entries, place);
        try_entries(checker, &entries)?;
    }
    for _ in 0..2_000 {
        let length = 50 + random.below(400);
        let run = Run::any(random, length);
        let mut entries = register_run(random, run);
        try_entries(checker, &entries)?;
        fault(random, &mut entries);
        try_entries(checker, &entries)?;
    }
    Ok(())
}

/// Records cut and damaged at each byte, records with values anyhow, and bytes of which none is sure.
fn damaged(checker: &mut Checker, random: &mut Random) -> Checked {
    for _ in 0..1_000 {
        let length = random.below(16);
        let run = Run::any(random, length);
        let bytes = bytes_of(&register_run(random, run));
        for place in 0..bytes.len() {
            try_bytes(checker, &bytes[..place])?;
            let mut other = bytes.clone();
            for exchange in exchanges_for_byte(bytes[place]) {
                other[place] = exchange;
                try_bytes(checker, &other)?;
            }
        }
    }
    for _ in 0..50_000 {
        let length = random.below(30);
        try_entries(checker, &record(random, length))?;
        let length = random.below(40);
        try_bytes(checker, &any_bytes(random, length))?;
    }
    Ok(())
}

/// Records of 2,048 entries, or some fewer or more.
fn full_records(checker: &mut Checker, random: &mut Random) -> Checked {
    for turn in 0..400 {
        let cells = if turn % 2 == 0 { 1 + random.below(CELLS) } else { 1 };
        let length = MOST_ENTRIES - 2 + random.below(4);
        let run =
            Run { clients: 1 + random.below(CLIENTS), cells, writes: 1 + random.below(7), stops: 1 << 20, length };
        let mut entries = register_run(random, run);
        try_entries(checker, &entries)?;
        fault(random, &mut entries);
        try_entries(checker, &entries)?;
        let bytes = bytes_of(&entries);
        try_bytes(checker, &[&bytes[..], &[random.byte()]].concat())?;
        try_bytes(checker, &bytes[..random.below(bytes.len())])?;
        let place = if random.one_in(2) { entries.len() } else { random.below(entries.len()) };
        write_again(random, &mut entries, place);
        try_entries(checker, &entries)?;
        try_entries(checker, &late_read_of_an_early_value(random))?;
        try_entries(checker, &reads_of_two_open_writes(random))?;
    }
    Ok(())
}

/// Writes of one client to one cell, and a last read of any of their values, of zero or of none: what can't stand together
/// lies far apart, and only the very last value is lawful.
fn late_read_of_an_early_value(random: &mut Random) -> Vec<Entry> {
    let (client, cell) = (random.below(CLIENTS) as u8, random.below(CELLS) as u8);
    let writes = MOST_ENTRIES as i32 / 2 - 1;
    let write = |value| [Entry::WriteAsked { client, cell, value }, Entry::Done { client }];
    let mut entries: Vec<Entry> = (1..=writes).flat_map(write).collect();
    let value = if random.one_in(2) { random.below(100) as i32 } else { writes + 1 - random.below(100) as i32 };
    entries.extend([Entry::ReadAsked { client, cell }, Entry::Told { client, value }]);
    entries
}

/// Two writes stay open with a thousand finished ones between their starts, and reads go back and forth between the two.
fn reads_of_two_open_writes(random: &mut Random) -> Vec<Entry> {
    let cell = random.below(CELLS) as u8;
    let asked = |client, value| Entry::WriteAsked { client, cell, value };
    let mut entries = vec![asked(0, -1)];
    entries.extend((1..=1_000).flat_map(|value| [asked(1, value), Entry::Done { client: 1 }]));
    entries.push(asked(2, -2));
    for _ in 0..3 {
        let value = if random.one_in(2) { -1 } else { -2 };
        entries.extend([Entry::ReadAsked { client: 3, cell }, Entry::Told { client: 3, value }]);
    }
    entries
}

/// Inputs of more bytes than any record has, with a fault early, late or after 2,048 entries.
fn long_inputs(checker: &mut Checker, random: &mut Random) -> Checked {
    let widest = [Entry::WriteAsked { client: 7, cell: 15, value: i32::MIN }, Entry::Done { client: 7 }];
    for length in [MOST_BYTES - 1, MOST_BYTES, MOST_BYTES + 1, MOST_BYTES + 5_000, 2 * MOST_BYTES, 6 * MOST_BYTES] {
        let full: Vec<u8> = bytes_of(&widest).into_iter().cycle().take(length).collect();
        try_bytes(checker, &full)?;
        try_bytes(checker, &vec![0; length])?;
        for _ in 0..10 {
            let run = Run { clients: 4, cells: 5, writes: 4, stops: 1 << 20, length: random.below(2 * MOST_ENTRIES) };
            let mut bytes = bytes_of(&register_run(random, run));
            let more = any_bytes(random, length.saturating_sub(bytes.len()));
            bytes.extend(more);
            try_bytes(checker, &bytes)?;
        }
    }
    Ok(())
}
