//! The paper's section "What lawful means", written from its sentences and from nothing else.
//!
//! [`by_search`] tries orders and takes any record that is small enough. [`by_rule`] is the rule of source document 002 for
//! distinct values, as an ordinary program would have it. Neither knows the other.

pub mod by_rule;
pub mod by_search;

use crate::paper::record::{read_record, Entry, CLIENTS};
use crate::paper::refusal::VALUE_WRITTEN_AGAIN;
use crate::paper::Refusal;
use std::collections::HashSet;
use std::fmt;

/// What the judge says of a record.
#[derive(Clone, Copy, Debug, PartialEq, Eq)]
pub enum Verdict {
    Lawful,
    /// The lowest cell whose part has no lawful order.
    Unlawful {
        cell: u8,
    },
    Refused(Refusal),
}

impl fmt::Display for Verdict {
    fn fmt(&self, f: &mut fmt::Formatter<'_>) -> fmt::Result {
        match self {
            Verdict::Lawful => write!(f, "lawful"),
            Verdict::Unlawful { cell } => write!(f, "unlawful cell {cell}"),
            Verdict::Refused(refusal) => refusal.fmt(f),
        }
    }
}

#[derive(Clone, Copy, Debug, PartialEq, Eq)]
pub enum Act {
    Read,
    Write,
}

/// An operation of a record. "Place in the record is the time."
#[derive(Clone, Copy, Debug, PartialEq, Eq)]
pub struct Operation {
    pub act: Act,
    pub cell: u8,
    /// The value written or given. An unfinished read has given none, and nobody asks for it.
    pub value: i32,
    pub start: usize,
    /// None while it is unfinished.
    pub stop: Option<usize>,
}

impl Operation {
    /// "One operation is before another when its end entry stands before the other's start entry."
    pub fn is_before(&self, other: &Operation) -> bool {
        self.stop.is_some_and(|stop| stop < other.start)
    }
}

/// The operations of a record without fault, in the order of their start entries.
pub fn operations_of(entries: &[Entry]) -> Vec<Operation> {
    let mut operations: Vec<Operation> = Vec::with_capacity(entries.len());
    let mut open_of_client = [None; CLIENTS];
    for (place, entry) in entries.iter().enumerate() {
        let (act, client, cell, value) = match *entry {
            Entry::ReadAsked { client, cell } => (Act::Read, client, cell, 0),
            Entry::WriteAsked { client, cell, value } => (Act::Write, client, cell, value),
            Entry::Told { client, .. } | Entry::Done { client } => {
                let open: Option<usize> = open_of_client[usize::from(client)].take();
                let operation = &mut operations[open.expect("a record without fault ends what is open")];
                operation.stop = Some(place);
                if let Entry::Told { value, .. } = *entry {
                    operation.value = value;
                }
                continue;
            }
        };
        open_of_client[usize::from(client)] = Some(operations.len());
        operations.push(Operation { act, cell, value, start: place, stop: None });
    }
    operations
}

/// The operations of a record that the judge doesn't refuse: "29, by the judge only and after reading".
pub fn judged_operations(bytes: &[u8]) -> Result<Vec<Operation>, Refusal> {
    let entries = read_record(bytes)?;
    match first_written_again(&entries) {
        Some(entry) => Err(Refusal { number: VALUE_WRITTEN_AGAIN, entry: entry as u32 }),
        None => Ok(operations_of(&entries)),
    }
}

/// "A write asked with value 0, or with a value asked earlier for that cell. The first such entry is named."
fn first_written_again(entries: &[Entry]) -> Option<usize> {
    let mut asked = HashSet::with_capacity(entries.len());
    entries.iter().position(|entry| match *entry {
        Entry::WriteAsked { cell, value, .. } => value == 0 || !asked.insert((cell, value)),
        _ => false,
    })
}

#[cfg(test)]
mod tests {
    use super::*;
    use crate::histories::{small_record, Shape};
    use crate::paper::record::bytes_of;
    use crate::random::Random;
    use crate::samples;

    #[test]
    fn both_judges_give_each_sample_its_line() {
        for sample in samples::all() {
            assert_eq!(by_rule::verdict(&sample.bytes).to_string(), sample.right, "{}", sample.file);
            if sample.bytes.len() < 100 {
                assert_eq!(by_search::verdict(&sample.bytes).to_string(), sample.right, "{}", sample.file);
            }
        }
    }

    #[test]
    fn operations_have_the_places_of_their_entries() {
        let entries = [
            Entry::WriteAsked { client: 0, cell: 2, value: 5 },
            Entry::ReadAsked { client: 1, cell: 3 },
            Entry::Done { client: 0 },
            Entry::Told { client: 1, value: 7 },
            Entry::ReadAsked { client: 0, cell: 4 },
        ];
        let operation = |act, cell, value, start, stop| Operation { act, cell, value, start, stop };
        let expected = [
            operation(Act::Write, 2, 5, 0, Some(2)),
            operation(Act::Read, 3, 7, 1, Some(3)),
            operation(Act::Read, 4, 0, 4, None),
        ];
        assert_eq!(operations_of(&entries), expected);
    }

    #[test]
    fn the_first_value_written_again_is_named() {
        let write = |cell, value| [Entry::WriteAsked { client: 0, cell, value }, Entry::Done { client: 0 }];
        let named = |writes: &[[Entry; 2]]| first_written_again(&writes.concat());
        assert_eq!(named(&[write(0, 5), write(1, 5), write(0, -5), write(0, i32::MIN)]), None);
        assert_eq!(named(&[write(0, 5), write(1, 0), write(0, 5)]), Some(2));
        assert_eq!(named(&[write(0, 5), write(1, 5), write(0, 5), write(1, 0)]), Some(4));
    }

    #[test]
    fn search_and_rule_agree_where_29_does_not_refuse() {
        let mut random = Random::from_seed(11);
        let mut unlawful = 0;
        for _ in 0..60_000 {
            let shape = Shape::any(&mut random);
            let bytes = bytes_of(&small_record(&mut random, shape));
            let by_rule = by_rule::verdict(&bytes);
            assert_eq!(by_rule, by_search::verdict(&bytes), "{bytes:02X?}");
            unlawful += usize::from(matches!(by_rule, Verdict::Unlawful { .. }));
        }
        assert!((5_000..55_000).contains(&unlawful), "{unlawful}");
    }
}
