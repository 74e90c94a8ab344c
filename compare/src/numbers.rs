//! Inputs for the calls on numbers and values.

use crate::check::{Checked, Checker};
use compare::making::{boundary_numbers, bytes_of_numbers, value};
use compare::random::Random;

/// Longer than the longest number, so that something can stand before and after it.
const LONGEST: usize = 7;

pub fn numbers(checker: &mut Checker, random: &mut Random) -> Checked {
    all_strings_of_one_and_two_bytes(checker)?;
    all_fifth_bytes(checker)?;
    for _ in 0..60_000 {
        let bytes = number_like_bytes(random);
        read_at_all_places(checker, &bytes)?;
    }
    for number in boundary_numbers() {
        number_among_others(checker, number)?;
    }
    for _ in 0..2_000 {
        number_among_others(checker, random.word_of_any_width())?;
    }
    Ok(())
}

fn all_strings_of_one_and_two_bytes(checker: &mut Checker) -> Checked {
    // No bytes, but some behind them in memory.
    read_at_all_places(checker, &[1][..0])?;
    for first in 0..=255 {
        read_at_all_places(checker, &[first])?;
        for second in 0..=255 {
            read_at_all_places(checker, &[first, second])?;
        }
    }
    Ok(())
}

/// Four bytes with 128 added, every fifth byte, and none or one after it.
fn all_fifth_bytes(checker: &mut Checker) -> Checked {
    for start in [[0x80; 4], [0xFF; 4], [0xFF, 0x80, 0x81, 0xC0]] {
        for fifth in 0..=255 {
            let bytes = [&start[..], &[fifth, 0, 0x7F]].concat();
            for length in 4..=bytes.len() {
                read_at_all_places(checker, &bytes[..length])?;
            }
        }
    }
    Ok(())
}

/// Most bytes have 128 added, so that long numbers come about.
fn number_like_bytes(random: &mut Random) -> Vec<u8> {
    let length = random.below(LONGEST + 1);
    let one = |random: &mut Random| match random.below(6) {
        0 => random.byte() % 17,
        1 => random.pick(&[0, 1, 15, 16, 127, 128, 255]),
        2 => random.byte(),
        _ => random.byte() | 128,
    };
    (0..length).map(|_| one(random)).collect()
}

/// Places in the slice, at its end, past it, and so far past it that a sum with them overflows.
fn places(length: usize) -> impl Iterator<Item = usize> {
    (0..=length + 2).chain([1 << 32, usize::MAX - 4, usize::MAX - 1, usize::MAX])
}

fn read_at_all_places(checker: &mut Checker, bytes: &[u8]) -> Checked {
    for at in places(bytes.len()) {
        checker.read_number(bytes, at)?;
    }
    Ok(())
}

/// The number written to every place of memory of every length, and its bytes read, whole and cut, with others around.
fn number_among_others(checker: &mut Checker, number: u32) -> Checked {
    for length in 0..=LONGEST {
        for at in places(length) {
            checker.write_number(length, at, number)?;
        }
    }
    let bytes = bytes_of_numbers(&[number, 1, number]);
    for length in 0..=bytes.len() {
        read_at_all_places(checker, &bytes[..length])?;
    }
    Ok(())
}

pub fn values(checker: &mut Checker, random: &mut Random) -> Checked {
    for number in boundary_numbers() {
        both_ways(checker, number)?;
    }
    for v in [i32::MIN, i32::MIN + 1, -65, -64, -2, -1, 0, 1, 2, 63, 64, i32::MAX - 1, i32::MAX] {
        both_ways(checker, v as u32)?;
    }
    for _ in 0..100_000 {
        both_ways(checker, value(random) as u32)?;
    }
    Ok(())
}

/// The bits as a value and as a number.
fn both_ways(checker: &mut Checker, bits: u32) -> Checked {
    checker.alternating(bits as i32)?;
    checker.signed(bits)
}
