//! Makes inputs: records without fault, and the same ones damaged in all the ways that a reader or writer may meet.

use crate::paper::number::push_number;
use crate::paper::record::{numbers_of, Entry, CELLS, CLIENTS};
use crate::random::Random;

/// The numbers at which the count of bytes changes, and the ends, each with its neighbours.
pub fn boundary_numbers() -> Vec<u32> {
    let edges = [0, 1, 127, 128, 16383, 16384, 1 << 21, 1 << 28, 1 << 31, u32::MAX];
    let mut numbers: Vec<u32> = edges.iter().flat_map(|n| [n.wrapping_sub(1), *n, n.wrapping_add(1)]).collect();
    numbers.sort();
    numbers.dedup();
    numbers
}

/// A value: at the ends, near zero, or any.
pub fn value(random: &mut Random) -> i32 {
    match random.below(4) {
        0 => random.pick(&[i32::MIN, i32::MIN + 1, -64, -1, 0, 1, 63, 64, i32::MAX - 1, i32::MAX]),
        1 => random.below(11) as i32 - 5,
        _ => random.word_of_any_width() as i32,
    }
}

/// A record of `length` entries without fault. Few clients give many operations each, many give overlapping ones.
pub fn record(random: &mut Random, length: usize) -> Vec<Entry> {
    let clients = 1 + random.below(CLIENTS);
    let mut ends: [Option<Entry>; CLIENTS] = [None; CLIENTS];
    let mut entries = Vec::with_capacity(length);
    for _ in 0..length {
        let client = random.below(clients);
        let entry = match ends[client].take() {
            Some(end) => end,
            None => {
                let (asked, end) = operation(random, client as u8);
                ends[client] = Some(end);
                asked
            }
        };
        entries.push(entry);
    }
    entries
}

/// An operation of `client`: the entry that asks for it and the one that will end it.
fn operation(random: &mut Random, client: u8) -> (Entry, Entry) {
    let cell = random.below(CELLS) as u8;
    let value = value(random);
    if random.one_in(2) {
        (Entry::ReadAsked { client, cell }, Entry::Told { client, value })
    } else {
        (Entry::WriteAsked { client, cell, value }, Entry::Done { client })
    }
}

/// The record as the list of its numbers, where one of them can be exchanged for another.
pub fn numbers_of_record(entries: &[Entry]) -> Vec<u32> {
    entries.iter().flat_map(|entry| numbers_of(*entry)).collect()
}

pub fn bytes_of_numbers(numbers: &[u32]) -> Vec<u8> {
    let mut bytes = Vec::new();
    for number in numbers {
        push_number(&mut bytes, *number);
    }
    bytes
}

/// The numbers' bytes, but the one at `place` has groups of 0 added above its own: refused 22, or 23 past five bytes.
pub fn bytes_with_padded_number(numbers: &[u32], place: usize, groups: usize) -> Vec<u8> {
    let mut bytes = bytes_of_numbers(&numbers[..=place]);
    for _ in 0..groups {
        *bytes.last_mut().expect("a number has a byte") += 128;
        bytes.push(0);
    }
    bytes.extend(bytes_of_numbers(&numbers[place + 1..]));
    bytes
}

/// What a number of an entry is exchanged for: what is just in range and just out of it, and what would be in range if
/// its upper bits were cut off.
pub fn exchanges_for(number: u32) -> Vec<u32> {
    let near = [number.wrapping_add(1), number.wrapping_sub(1)];
    let same_low_bits = [8, 16, 24, 31].map(|bit| number ^ 1 << bit);
    let edges = [0, 1, 2, 3, 4, 5, 7, 8, 9, 15, 16, 17, 127, 128, 255, 256, 65536, u32::MAX];
    [&near[..], &same_low_bits, &edges].concat()
}

/// What a byte is exchanged for: each bit turned, its neighbours, and the bytes that begin, end and pad numbers.
pub fn exchanges_for_byte(byte: u8) -> Vec<u8> {
    let bits_turned = (0..8).map(|bit| byte ^ 1 << bit);
    let others = [byte.wrapping_add(1), byte.wrapping_sub(1), 0, 4, 8, 16, 127, 128, 255];
    bits_turned.chain(others).collect()
}

/// Bytes of which none is sure: some any, some small, so that entries come about, some with 128 added.
pub fn any_bytes(random: &mut Random, length: usize) -> Vec<u8> {
    let style = random.below(4);
    let one = |random: &mut Random| match (style, random.below(8)) {
        (0, _) | (_, 0) => random.byte(),
        (1, _) => random.byte() % 4,
        (2, 1) => 128 + random.byte() % 17,
        _ => random.byte() % 17,
    };
    (0..length).map(|_| one(random)).collect()
}

#[cfg(test)]
mod tests {
    use super::*;
    use crate::paper::record::{bytes_of, read_record};

    #[test]
    fn records_that_are_made_have_no_fault() {
        let mut random = Random::from_seed(3);
        for length in [0, 1, 2, 10, 100, 2048] {
            let entries = record(&mut random, length);
            assert_eq!(read_record(&bytes_of(&entries)), Ok(entries));
        }
    }

    #[test]
    fn a_record_is_the_bytes_of_its_numbers() {
        let entries = record(&mut Random::from_seed(4), 50);
        assert_eq!(bytes_of_numbers(&numbers_of_record(&entries)), bytes_of(&entries));
    }

    #[test]
    fn a_padded_number_is_the_fault() {
        let bytes = bytes_with_padded_number(&[0, 1, 2], 1, 2);
        assert_eq!(bytes, [0, 0x81, 0x80, 0x00, 2]);
        assert_eq!(read_record(&bytes).map_err(|refusal| refusal.number), Err(22));
    }
}
