//! What the host is to respond if the library does what the paper says: made from the independent program's outcome, and
//! compared byte for byte. Answers are put together as include/adzequarry.h says.

use compare::law::Verdict;
use compare::paper::number::Number;
use compare::paper::Refusal;

/// Elements on both sides of what is lent, which nobody may touch. host/host.c has the same count and fillings.
pub const FENCE: usize = 5;
/// A response is the answer (8 bytes), whether the source was changed (4 bytes), and then the lent memory.
pub const MEMORY_AT: usize = 12;

pub fn byte_filling(place: usize) -> u8 {
    0x5A ^ (place as u8).wrapping_mul(0x3D)
}

pub fn word_filling(place: usize) -> u32 {
    0xA5C3_0000 + place as u32
}

/// Memory as it is before a call, with its fences.
pub fn fresh_bytes(lent: usize) -> Vec<u8> {
    (0..lent + 2 * FENCE).map(byte_filling).collect()
}

pub fn fresh_words(lent: usize) -> Vec<u32> {
    (0..lent + 2 * FENCE).map(word_filling).collect()
}

/// The part of it that is lent.
pub fn lent_part<T>(memory: &mut [T]) -> &mut [T] {
    let end = memory.len() - FENCE;
    &mut memory[FENCE..end]
}

pub fn answer_to_number_read(outcome: Result<Number, u8>) -> u64 {
    match outcome {
        Ok(Number { number, taken }) => u64::from(number) | (taken as u64) << 40,
        Err(refusal) => u64::from(refusal) << 32,
    }
}

pub fn answer_to_number_written(outcome: Result<usize, u8>) -> u64 {
    match outcome {
        Ok(taken) => (taken as u64) << 40,
        Err(refusal) => u64::from(refusal) << 32,
    }
}

pub fn answer_to_record(outcome: Result<usize, Refusal>) -> u64 {
    match outcome {
        Ok(count) => count as u64,
        Err(Refusal { number, entry }) => u64::from(number) << 32 | u64::from(entry),
    }
}

pub fn answer_to_verdict(verdict: Verdict) -> u64 {
    match verdict {
        Verdict::Lawful => 0,
        Verdict::Unlawful { cell } => (u64::from(cell) + 1) << 40,
        Verdict::Refused(refusal) => answer_to_record(Err(refusal)),
    }
}

/// Puts a response at the end of `responses`: the answer, a source that stays as it was, and the memory.
pub fn put_with_bytes(responses: &mut Vec<u8>, answer: u64, memory: &[u8]) {
    responses.extend(answer.to_le_bytes());
    responses.extend([0; 4]);
    responses.extend(memory);
}

pub fn put_with_words(responses: &mut Vec<u8>, answer: u64, memory: &[u32]) {
    responses.extend(answer.to_le_bytes());
    responses.extend([0; 4]);
    for word in memory {
        responses.extend(word.to_le_bytes());
    }
}

/// An answer in words. The three layouts of the header share the place of the refusal.
pub fn answer_in_words(answer: u64) -> String {
    let (low, refusal, taken, rest) = (answer as u32, answer >> 32 & 255, answer >> 40 & 255, answer >> 48);
    let meaning = match (refusal, taken, rest) {
        (0, 0, 0) => format!("done, {low}"),
        (0, _, 0) => format!("done, number {low} in {taken} bytes"),
        (_, 0, 0) => format!("refused {refusal} at entry {low}"),
        _ => "no answer that the header has".to_string(),
    };
    format!("{meaning} ({answer:016X})")
}

/// A verdict's answer in words: the line that the judge would write.
pub fn verdict_in_words(answer: u64) -> String {
    let (entry, number, cell) = (answer as u32, (answer >> 32) as u8, (answer >> 40).wrapping_sub(1) as u8);
    let refused = Verdict::Refused(Refusal { number, entry });
    let verdicts = [Verdict::Lawful, Verdict::Unlawful { cell }, refused];
    match verdicts.iter().find(|verdict| answer_to_verdict(**verdict) == answer) {
        Some(verdict) => format!("{verdict} ({answer:016X})"),
        None => format!("no answer that the header has ({answer:016X})"),
    }
}

#[cfg(test)]
mod tests {
    use super::*;

    #[test]
    fn answers_are_laid_out_as_the_header_says() {
        assert_eq!(answer_to_number_read(Ok(Number { number: 300, taken: 2 })), 0x0000_0200_0000_012C);
        assert_eq!(answer_to_number_read(Err(22)), 0x0000_0016_0000_0000);
        assert_eq!(answer_to_number_written(Ok(5)), 0x0000_0500_0000_0000);
        assert_eq!(answer_to_number_written(Err(20)), 0x0000_0014_0000_0000);
        assert_eq!(answer_to_record(Ok(2048)), 2048);
        assert_eq!(answer_to_record(Err(Refusal { number: 28, entry: 2048 })), 0x0000_001C_0000_0800);
        assert_eq!(answer_to_verdict(Verdict::Lawful), 0);
        assert_eq!(answer_to_verdict(Verdict::Unlawful { cell: 15 }), 0x0000_1000_0000_0000);
        assert_eq!(answer_to_verdict(Verdict::Refused(Refusal { number: 29, entry: 4 })), 0x0000_001D_0000_0004);
    }

    #[test]
    fn what_is_lent_lies_between_fences() {
        let mut memory = fresh_bytes(3);
        lent_part(&mut memory).fill(0);
        assert_eq!(memory[FENCE..FENCE + 3], [0; 3]);
        assert_eq!(memory[..FENCE], fresh_bytes(3)[..FENCE]);
        assert_eq!(memory[FENCE + 3..], fresh_bytes(3)[FENCE + 3..]);
    }

    #[test]
    fn answers_in_words() {
        assert_eq!(answer_in_words(0x1A_0000_0004), "refused 26 at entry 4 (0000001A00000004)");
        assert_eq!(answer_in_words(4), "done, 4 (0000000000000004)");
        assert_eq!(verdict_in_words(0), "lawful (0000000000000000)");
        assert_eq!(verdict_in_words(0x300_0000_0000), "unlawful cell 2 (0000030000000000)");
        assert_eq!(verdict_in_words(0x1D_0000_0004), "refused 29 at entry 4 (0000001D00000004)");
        assert_eq!(verdict_in_words(0x301_0000_0000), "no answer that the header has (0000030100000000)");
    }
}
