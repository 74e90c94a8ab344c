//! Inputs for the reader of records.

use crate::check::{Checked, Checker};
use compare::making::{
    any_bytes, bytes_of_numbers, bytes_with_padded_number, exchanges_for, exchanges_for_byte, numbers_of_record, record,
};
use compare::paper::record::{bytes_of, Entry, MOST_ENTRIES};
use compare::paper::rows::ROW;
use compare::random::Random;
use compare::samples;

const LONGEST_SHORT: usize = 12;

pub fn reader(checker: &mut Checker, random: &mut Random) -> Checked {
    for sample in samples::all() {
        for room in [0, ROW, 4 * ROW - 1, 4 * ROW, 5 * ROW + 3, MOST_ENTRIES * ROW, MOST_ENTRIES * ROW + 7] {
            checker.read_record(&sample.bytes, room)?;
        }
    }
    for turn in 0..300 {
        short_record(checker, random, turn % (LONGEST_SHORT + 1))?;
    }
    for _ in 0..12 {
        let length = 50 + random.below(300);
        long_record(checker, random, length, 1)?;
    }
    long_record(checker, random, MOST_ENTRIES, 1)?;
    long_record(checker, random, MOST_ENTRIES + 1, 5)?;
    for length in MOST_ENTRIES - 1..=MOST_ENTRIES + 2 {
        around_the_limit(checker, random, length)?;
    }
    for _ in 0..400_000 {
        let length = random.below(40);
        let bytes = any_bytes(random, length);
        checker.read_record(&bytes, random.below(60))?;
    }
    records_with_several_faults(checker, random)
}

/// Everything that can be done to a record that is short enough for it.
fn short_record(checker: &mut Checker, random: &mut Random, length: usize) -> Checked {
    let entries = record(random, length);
    let bytes = bytes_of(&entries);
    for room in 0..=length * ROW + 2 * ROW + 1 {
        checker.read_record(&bytes, room)?;
    }
    for place in 0..bytes.len() {
        for other in exchanges_for_byte(bytes[place]) {
            checker.read_record(&exchanged(&bytes, place, other), some_room(random, length))?;
        }
        checker.read_record(&without(&bytes, place), some_room(random, length))?;
    }
    for place in 0..=bytes.len() {
        for more in [0, 1, 2, 3, 4, 8, 16, 128, random.byte()] {
            checker.read_record(&inserted(&bytes, place, more), some_room(random, length + 1))?;
        }
        checker.read_record(&bytes[..place], some_room(random, length))?;
    }
    other_numbers(checker, random, &entries)
}

/// Each number exchanged for others, and each written with more bytes than it takes.
fn other_numbers(checker: &mut Checker, random: &mut Random, entries: &[Entry]) -> Checked {
    let numbers = numbers_of_record(entries);
    for place in 0..numbers.len() {
        let mut others = numbers.clone();
        for other in exchanges_for(numbers[place]) {
            others[place] = other;
            checker.read_record(&bytes_of_numbers(&others), some_room(random, entries.len()))?;
        }
        for groups in 1..=5 {
            let bytes = bytes_with_padded_number(&numbers, place, groups);
            checker.read_record(&bytes, some_room(random, entries.len()))?;
        }
    }
    Ok(())
}

/// Damaged at each byte, cut at each byte and with a byte put in at each place, or at every `step`th.
fn long_record(checker: &mut Checker, random: &mut Random, length: usize, step: usize) -> Checked {
    let entries = record(random, length);
    let mut bytes = bytes_of(&entries);
    for room in [0, length * ROW - 1, length * ROW, length * ROW + 9] {
        checker.read_record(&bytes, room)?;
    }
    for place in (0..bytes.len()).step_by(step) {
        let undamaged = bytes[place];
        for damage in [1 << random.below(8), 1 + random.byte() % 255] {
            bytes[place] = undamaged ^ damage;
            checker.read_record(&bytes, some_room(random, length))?;
        }
        bytes[place] = undamaged;
        checker.read_record(&bytes[..place], some_room(random, length))?;
        let more = random.byte() % 20;
        checker.read_record(&inserted(&bytes, place, more), some_room(random, length))?;
    }
    Ok(())
}

/// Records about as long as may be, with bytes after them that are entries or none, and a last entry at fault.
fn around_the_limit(checker: &mut Checker, random: &mut Random, length: usize) -> Checked {
    let rooms = [0, 4, length * ROW - 5, length * ROW - 4, length * ROW - 1, length * ROW, length * ROW + 1];
    for _ in 0..10 {
        let bytes = bytes_of(&record(random, length));
        for room in rooms.into_iter().chain((MOST_ENTRIES - 1) * ROW..MOST_ENTRIES * ROW + 6) {
            checker.read_record(&bytes, room)?;
        }
        for after in [&[0x80][..], &[0x80, 0], &[0], &[4], &[0, 8], &[0, 0, 0], &[3, 0], &[1, 1, 1, 1]] {
            let longer = [&bytes[..], after].concat();
            checker.read_record(&longer, random.pick(&rooms))?;
        }
        for back in 1..60 {
            let place = bytes.len() - back;
            let damaged = exchanged(&bytes, place, random.byte());
            checker.read_record(&damaged, random.pick(&rooms))?;
        }
    }
    Ok(())
}

/// Two or three damages, so that the order of the refusals is seen.
fn records_with_several_faults(checker: &mut Checker, random: &mut Random) -> Checked {
    for _ in 0..200_000 {
        let length = 1 + random.below(20);
        let mut bytes = bytes_of(&record(random, length));
        for _ in 0..2 + random.below(2) {
            let place = random.below(bytes.len());
            bytes[place] = random.pick(&[0, 1, 2, 3, 4, 7, 8, 15, 16, 127, 128, 255, 129]);
        }
        let cut = bytes.len() - random.below(2) * random.below(bytes.len());
        checker.read_record(&bytes[..cut], some_room(random, length))?;
    }
    Ok(())
}

/// Words to lend for a record of `entries` entries: enough or nearly, none, or more than enough.
fn some_room(random: &mut Random, entries: usize) -> usize {
    let exact = entries * ROW;
    match random.below(8) {
        0 => 0,
        1 => exact.saturating_sub(1),
        2 => exact.saturating_sub(ROW),
        3 => exact,
        4 => exact + ROW - 1,
        _ => exact + ROW + random.below(2 * ROW),
    }
}

fn exchanged(bytes: &[u8], place: usize, other: u8) -> Vec<u8> {
    let mut bytes = bytes.to_vec();
    bytes[place] = other;
    bytes
}

fn inserted(bytes: &[u8], place: usize, more: u8) -> Vec<u8> {
    let mut bytes = bytes.to_vec();
    bytes.insert(place, more);
    bytes
}

fn without(bytes: &[u8], place: usize) -> Vec<u8> {
    let mut bytes = bytes.to_vec();
    bytes.remove(place);
    bytes
}
