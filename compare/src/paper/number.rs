//! Numbers and values: "an unsigned number in groups of seven bits, lowest group first, 128 added to every byte but
//! the last" and "a value v is written as 2v, or as -2v - 1 below zero".

use super::refusal::{BYTES_END_FIRST, DESTINATION_TOO_SHORT, FIFTH_BYTE_ABOVE_15, PADDED_NUMBER};

/// "Five bytes at most."
const MOST_BYTES: usize = 5;

/// A number that was read, and how many bytes it takes.
#[derive(Clone, Copy, Debug, PartialEq, Eq)]
pub struct Number {
    pub number: u32,
    pub taken: usize,
}

/// The number at place `at`, or 21, 22 or 23. A place past the end has no bytes, so they end first there.
pub fn read_number(bytes: &[u8], at: usize) -> Result<Number, u8> {
    let rest = bytes.get(at..).unwrap_or(&[]);
    let looked_at = &rest[..rest.len().min(MOST_BYTES)];
    let taken = match looked_at.iter().position(|byte| *byte < 128) {
        Some(last) => last + 1,
        // Five bytes are all that a number has: the fifth is above 127 here, so above 15.
        None if looked_at.len() == MOST_BYTES => MOST_BYTES,
        None => return Err(BYTES_END_FIRST),
    };
    let last = looked_at[taken - 1];
    if taken > 1 && last == 0 {
        return Err(PADDED_NUMBER);
    }
    if taken == MOST_BYTES && last > 15 {
        return Err(FIFTH_BYTE_ABOVE_15);
    }
    let number = looked_at[..taken].iter().rev().fold(0, |number, byte| number << 7 | u32::from(byte % 128));
    Ok(Number { number, taken })
}

/// Puts the bytes of `number` at the end of `bytes`.
pub fn push_number(bytes: &mut Vec<u8>, number: u32) {
    let mut rest = number;
    while rest >= 128 {
        bytes.push((rest % 128) as u8 + 128);
        rest /= 128;
    }
    bytes.push(rest as u8);
}

/// Writes `number` at place `at` and says how many bytes it took, or 20 when it doesn't fit; then nothing is written.
pub fn write_number(bytes: &mut [u8], at: usize, number: u32) -> Result<usize, u8> {
    let mut written = Vec::with_capacity(MOST_BYTES);
    push_number(&mut written, number);
    let room = bytes.get_mut(at..).unwrap_or(&mut []);
    match room.get_mut(..written.len()) {
        Some(place) => place.copy_from_slice(&written),
        None => return Err(DESTINATION_TOO_SHORT),
    }
    Ok(written.len())
}

/// The number that the value `v` is written as. Worked out at 64 bits, where no value is too low for -2v - 1.
pub fn alternating(v: i32) -> u32 {
    let v = i64::from(v);
    let number = if v < 0 { -2 * v - 1 } else { 2 * v };
    u32::try_from(number).expect("a value's number has 32 bits")
}

/// The value that `number` stands for: an even number 2v is v, an odd one -2v - 1 is v.
pub fn signed(number: u32) -> i32 {
    let n = i64::from(number);
    let v = if n % 2 == 0 { n / 2 } else { -(n + 1) / 2 };
    i32::try_from(v).expect("a number's value has 32 bits")
}

#[cfg(test)]
mod tests {
    use super::*;

    fn bytes_of(number: u32) -> Vec<u8> {
        let mut bytes = Vec::new();
        push_number(&mut bytes, number);
        bytes
    }

    #[test]
    fn the_bench_sheet_lines_of_numbers() {
        assert_eq!(bytes_of(127), [0x7F]);
        assert_eq!(bytes_of(128), [0x80, 0x01]);
        assert_eq!(bytes_of(300), [0xAC, 0x02]);
        assert_eq!(bytes_of(u32::MAX), [0xFF, 0xFF, 0xFF, 0xFF, 0x0F]);
    }

    #[test]
    fn the_bench_sheet_lines_of_values() {
        assert_eq!(bytes_of(alternating(-1)), [0x01]);
        assert_eq!(bytes_of(alternating(64)), [0x80, 0x01]);
        assert_eq!(bytes_of(alternating(-64)), [0x7F]);
        assert_eq!(bytes_of(alternating(i32::MIN)), [0xFF, 0xFF, 0xFF, 0xFF, 0x0F]);
    }

    #[test]
    fn the_bench_sheet_lines_of_refused_numbers() {
        assert_eq!(read_number(&[0x80, 0x00], 0), Err(22));
        assert_eq!(read_number(&[0x80], 0), Err(21));
        assert_eq!(read_number(&[0xFF, 0xFF, 0xFF, 0xFF, 0x10], 0), Err(23));
    }

    #[test]
    fn five_bytes_at_most() {
        assert_eq!(read_number(&[0x80, 0x80, 0x80, 0x80], 0), Err(21));
        assert_eq!(read_number(&[0x80, 0x80, 0x80, 0x80, 0x00], 0), Err(22));
        assert_eq!(read_number(&[0x80, 0x80, 0x80, 0x80, 0x80], 0), Err(23));
        assert_eq!(read_number(&[0x80, 0x80, 0x80, 0x80, 0x80, 0x01], 0), Err(23));
        let largest_group = Number { number: 15 << 28, taken: 5 };
        assert_eq!(read_number(&[0x80, 0x80, 0x80, 0x80, 0x0F], 0), Ok(largest_group));
    }

    #[test]
    fn places_at_and_past_the_end_have_no_bytes() {
        assert_eq!(read_number(&[], 0), Err(21));
        assert_eq!(read_number(&[0x01], 1), Err(21));
        assert_eq!(read_number(&[0x01], usize::MAX), Err(21));
        assert_eq!(write_number(&mut [0; 3], usize::MAX, 0), Err(20));
        assert_eq!(write_number(&mut [0; 3], 3, 0), Err(20));
    }

    #[test]
    fn a_number_that_is_written_changes_its_own_bytes_only() {
        let mut bytes = [9, 9, 9, 9];
        assert_eq!(write_number(&mut bytes, 1, 300), Ok(2));
        assert_eq!(bytes, [9, 0xAC, 0x02, 9]);
        assert_eq!(write_number(&mut bytes, 3, 300), Err(20));
        assert_eq!(bytes, [9, 0xAC, 0x02, 9]);
    }

    #[test]
    fn what_is_written_is_read_back() {
        for shift in 0..32 {
            for number in [1 << shift, (1u32 << shift) - 1, u32::MAX >> shift] {
                let bytes = bytes_of(number);
                let read = Number { number, taken: bytes.len() };
                assert_eq!(read_number(&bytes, 0), Ok(read));
                assert_eq!(alternating(signed(number)), number);
            }
        }
    }

    #[test]
    fn values_alternate() {
        let numbers: Vec<u32> = [0, -1, 1, -2, 2].map(alternating).to_vec();
        assert_eq!(numbers, [0, 1, 2, 3, 4]);
        assert_eq!(alternating(i32::MAX), u32::MAX - 1);
        assert_eq!(signed(u32::MAX), i32::MIN);
    }
}
