//! Inputs for the writer of records.

use crate::check::{Checked, Checker};
use compare::making::{exchanges_for, record};
use compare::paper::record::{bytes_of, Entry, MOST_ENTRIES};
use compare::paper::rows::{rows_of, ROW};
use compare::random::Random;

const LONGEST_SHORT: usize = 12;

pub fn writer(checker: &mut Checker, random: &mut Random) -> Checked {
    for turn in 0..300 {
        short_record(checker, random, turn % (LONGEST_SHORT + 1))?;
    }
    for _ in 0..48 {
        let length = 50 + random.below(300);
        faults_in_each_row(checker, random, length)?;
    }
    for length in MOST_ENTRIES - 1..=MOST_ENTRIES + 3 {
        around_the_limit(checker, random, length)?;
        faults_in_each_row(checker, random, length)?;
    }
    for _ in 0..300_000 {
        let words = any_rows(random);
        checker.write_record(&words, random.below(60))?;
    }
    Ok(())
}

/// Everything that can be done to a record that is short enough for it.
fn short_record(checker: &mut Checker, random: &mut Random, length: usize) -> Checked {
    let entries = record(random, length);
    let total = bytes_of(&entries).len();
    let words = rows_with_rubbish(random, &entries);
    for room in 0..=total + 6 {
        checker.write_record(&words, room)?;
    }
    for cut in 0..words.len() {
        checker.write_record(&words[..cut], some_room(random, total))?;
    }
    for place in 0..words.len() {
        let mut others = words.clone();
        for other in exchanges_for(words[place]) {
            others[place] = other;
            checker.write_record(&others, some_room(random, total))?;
        }
    }
    rows_in_another_order(checker, random, &words, total)
}

/// Each row taken out, put in twice, or exchanged with the next: ended and asked out of turn.
fn rows_in_another_order(checker: &mut Checker, random: &mut Random, words: &[u32], total: usize) -> Checked {
    let rows: Vec<&[u32]> = words.chunks_exact(ROW).collect();
    for place in 0..rows.len() {
        let (mut without, mut twice, mut exchanged) = (rows.clone(), rows.clone(), rows.clone());
        without.remove(place);
        twice.insert(place, rows[place]);
        exchanged.swap(place, (place + 1) % rows.len());
        for changed in [without, twice, exchanged] {
            checker.write_record(&changed.concat(), some_room(random, total))?;
        }
    }
    Ok(())
}

/// Some field of each row in turn exchanged, and at times a second one anywhere, so that the earliest must be found.
fn faults_in_each_row(checker: &mut Checker, random: &mut Random, length: usize) -> Checked {
    let entries = record(random, length);
    let total = bytes_of(&entries).len();
    let words = rows_with_rubbish(random, &entries);
    for row in 0..length {
        let mut others = words.clone();
        let place = row * ROW + random.below(ROW);
        others[place] = random.pick(&exchanges_for(words[place]));
        if random.one_in(3) {
            let second = random.below(length) * ROW + random.below(ROW);
            others[second] = random.pick(&exchanges_for(words[second]));
        }
        checker.write_record(&others, some_room(random, total))?;
    }
    Ok(())
}

/// As many rows as may be or some more, with faults just before and after the limit, into memory of every near length.
fn around_the_limit(checker: &mut Checker, random: &mut Random, length: usize) -> Checked {
    for _ in 0..10 {
        let entries = record(random, length);
        let lawful_part = bytes_of(&entries[..length.min(MOST_ENTRIES)]).len();
        let total = bytes_of(&entries).len();
        let rooms = [0, lawful_part - 1, lawful_part, lawful_part + 1, total - 1, total, total + 9];
        let words = rows_with_rubbish(random, &entries);
        for room in rooms {
            checker.write_record(&words, room)?;
        }
        for row in MOST_ENTRIES - 3..length {
            for field in 0..ROW {
                let place = row * ROW + field;
                let mut others = words.clone();
                for other in exchanges_for(words[place]) {
                    others[place] = other;
                    checker.write_record(&others, random.pick(&rooms))?;
                }
            }
        }
    }
    Ok(())
}

/// The record's rows with something in every field that isn't part of its entry, and up to three words after them.
fn rows_with_rubbish(random: &mut Random, entries: &[Entry]) -> Vec<u32> {
    let mut words = rows_of(entries);
    for row in words.chunks_exact_mut(ROW) {
        let has_cell = row[0] < 2;
        let has_value = row[0] == 1 || row[0] == 2;
        if !has_cell {
            row[2] = rubbish(random);
        }
        if !has_value {
            row[3] = rubbish(random);
        }
    }
    for _ in 0..random.below(ROW) {
        words.push(rubbish(random));
    }
    words
}

fn rubbish(random: &mut Random) -> u32 {
    match random.below(4) {
        0 => random.pick(&[0, 1, 15, 16, 255, 256, u32::MAX]),
        _ => random.word(),
    }
}

/// Up to eight rows whose fields are mostly in range, in no lawful order.
fn any_rows(random: &mut Random) -> Vec<u32> {
    let clients = 1 + random.below(9);
    let mut words = Vec::new();
    for _ in 0..random.below(9) {
        let kind = if random.one_in(20) { 4 } else { random.below(4) as u32 };
        let client = if random.one_in(40) { random.word_of_any_width() } else { random.below(clients) as u32 };
        let cell = if random.one_in(20) { random.word_of_any_width() } else { random.below(16) as u32 };
        words.extend([kind, client, cell, random.word_of_any_width()]);
    }
    for _ in 0..random.below(ROW) {
        words.push(rubbish(random));
    }
    words
}

/// Bytes to lend where `total` are written: enough or nearly, none, or more than enough.
fn some_room(random: &mut Random, total: usize) -> usize {
    match random.below(6) {
        0 => 0,
        1 => total.saturating_sub(1),
        2 => total,
        _ => total + random.below(12),
    }
}
