//! Inputs for both round trips through the library: a record that is written and read is that record, and bytes that are
//! read and written are those bytes.

use crate::check::{Checked, Checker};
use compare::making::{any_bytes, record};
use compare::paper::record::{bytes_of, MOST_ENTRIES};
use compare::random::Random;

pub fn round_trips(checker: &mut Checker, random: &mut Random) -> Checked {
    for turn in 0..40_000 {
        both_ways(checker, random, turn % 40)?;
    }
    for _ in 0..50 {
        both_ways(checker, random, MOST_ENTRIES)?;
    }
    for _ in 0..100_000 {
        let length = random.below(12);
        checker.read_then_write(&any_bytes(random, length))?;
    }
    Ok(())
}

fn both_ways(checker: &mut Checker, random: &mut Random, length: usize) -> Checked {
    let entries = record(random, length);
    checker.write_then_read(&entries)?;
    checker.read_then_write(&bytes_of(&entries))
}
