//! A record in lent memory, as include/adzequarry.h has it: rows of four numbers, kind, client, cell and value (as the
//! number it is written as). A field that the kind hasn't got is stored as 0, and not looked at when it is written.

use super::number::{alternating, signed};
use super::record::{self, cell_from, client_from, Entry, OpenOperations, MOST_ENTRIES};
use super::refusal::{DESTINATION_TOO_SHORT, KIND_ABOVE_3, MORE_THAN_2048_ENTRIES};
use super::Refusal;

pub const ROW: usize = 4;

/// "After all these comes 20", and "20 always names entry 0".
const TOO_SHORT: Refusal = Refusal { number: DESTINATION_TOO_SHORT, entry: 0 };

pub fn row_of(entry: Entry) -> [u32; ROW] {
    match entry {
        Entry::ReadAsked { client, cell } => [0, client.into(), cell.into(), 0],
        Entry::WriteAsked { client, cell, value } => [1, client.into(), cell.into(), alternating(value)],
        Entry::Told { client, value } => [2, client.into(), 0, alternating(value)],
        Entry::Done { client } => [3, client.into(), 0, 0],
    }
}

pub fn rows_of(entries: &[Entry]) -> Vec<u32> {
    entries.iter().flat_map(|entry| row_of(*entry)).collect()
}

/// The entry of a row, or 24 or 25. Only the fields that its kind has are looked at.
pub fn entry_of(row: &[u32]) -> Result<Entry, u8> {
    let (kind, client, cell, value) = (row[0], row[1], row[2], signed(row[3]));
    match kind {
        0 => Ok(Entry::ReadAsked { client: client_from(client)?, cell: cell_from(cell)? }),
        1 => Ok(Entry::WriteAsked { client: client_from(client)?, cell: cell_from(cell)?, value }),
        2 => Ok(Entry::Told { client: client_from(client)?, value }),
        3 => Ok(Entry::Done { client: client_from(client)? }),
        _ => Err(KIND_ABOVE_3),
    }
}

/// Reads a record into lent rows and says how many entries it has. Rows beyond those stay, and a refusal leaves all.
pub fn read_record(bytes: &[u8], words: &mut [u32]) -> Result<usize, Refusal> {
    let entries = record::read_record(bytes)?;
    if words.len() / ROW < entries.len() {
        return Err(TOO_SHORT);
    }
    let rows = rows_of(&entries);
    words[..rows.len()].copy_from_slice(&rows);
    Ok(entries.len())
}

/// Writes the bytes of lent rows and says how many there are. Bytes beyond those stay, and a refusal leaves all.
/// Words after the last whole row are no entry.
pub fn write_record(words: &[u32], bytes: &mut [u8]) -> Result<usize, Refusal> {
    let entries = entries_of(words)?;
    let written = record::bytes_of(&entries);
    match bytes.get_mut(..written.len()) {
        Some(place) => place.copy_from_slice(&written),
        None => return Err(TOO_SHORT),
    }
    Ok(written.len())
}

/// The entries of rows: "24 to 27 for the earliest entry at fault among the first 2,048 (the smallest that applies to
/// it), then 28 when there are more".
fn entries_of(words: &[u32]) -> Result<Vec<Entry>, Refusal> {
    let mut open = OpenOperations::default();
    let mut entries = Vec::new();
    for row in words.chunks_exact(ROW) {
        let at_this_entry = |number| Refusal { number, entry: entries.len() as u32 };
        if entries.len() == MOST_ENTRIES {
            return Err(at_this_entry(MORE_THAN_2048_ENTRIES));
        }
        let entry = entry_of(row).map_err(at_this_entry)?;
        open.take(entry).map_err(at_this_entry)?;
        entries.push(entry);
    }
    Ok(entries)
}

#[cfg(test)]
mod tests {
    use super::*;

    const SHEET_RECORD: [u8; 12] = [1, 0, 2, 0x0A, 3, 0, 0, 1, 2, 2, 1, 0x0A];
    const SHEET_ROWS: [u32; 16] = [1, 0, 2, 10, 3, 0, 0, 0, 0, 1, 2, 0, 2, 1, 0, 10];
    const UNTOUCHED: u32 = 0xA5A5_A5A5;

    fn refused(number: u8, entry: u32) -> Result<usize, Refusal> {
        Err(Refusal { number, entry })
    }

    /// A full record of 2,048 rows: a write of 0 to cell 0, asked and done, again and again.
    fn full_rows() -> Vec<u32> {
        [1, 0, 0, 0, 3, 0, 0, 0].repeat(MOST_ENTRIES / 2)
    }

    #[test]
    fn the_bench_sheet_record_is_read_and_what_lies_beyond_stays() {
        let mut words = [UNTOUCHED; 19];
        assert_eq!(read_record(&SHEET_RECORD, &mut words), Ok(4));
        assert_eq!(words[..16], SHEET_ROWS);
        assert_eq!(words[16..], [UNTOUCHED; 3]);
    }

    #[test]
    fn a_refused_reading_leaves_the_lent_memory() {
        let mut words = [UNTOUCHED; 16];
        assert_eq!(read_record(&SHEET_RECORD, &mut words[..15]), refused(20, 0));
        assert_eq!(read_record(&SHEET_RECORD[..11], &mut words), refused(21, 3));
        assert_eq!(words, [UNTOUCHED; 16]);
    }

    #[test]
    fn every_other_fault_comes_before_20_in_reading() {
        let too_long = [1, 0, 0, 0, 3, 0].repeat(MOST_ENTRIES / 2 + 1);
        assert_eq!(read_record(&too_long, &mut []), refused(28, 2048));
        assert_eq!(read_record(&[0, 0, 0, 4], &mut []), refused(24, 1));
        assert_eq!(read_record(&[], &mut []), Ok(0));
    }

    #[test]
    fn the_bench_sheet_record_is_written_and_what_lies_beyond_stays() {
        let mut bytes = [0xA5; 14];
        assert_eq!(write_record(&SHEET_ROWS, &mut bytes), Ok(12));
        assert_eq!(bytes[..12], SHEET_RECORD);
        assert_eq!(bytes[12..], [0xA5, 0xA5]);
        let mut short = [0xA5; 11];
        assert_eq!(write_record(&SHEET_ROWS, &mut short), refused(20, 0));
        assert_eq!(short, [0xA5; 11]);
    }

    #[test]
    fn fields_that_a_kind_has_not_got_and_words_after_the_last_row_are_not_looked_at() {
        let rows = [0, 1, 2, 999, 2, 1, 999, 10, 1, 0, 0, 0, 3, 0, 999, 999, 77, 8, 9];
        let mut bytes = [0; 12];
        assert_eq!(write_record(&rows, &mut bytes), Ok(12));
        assert_eq!(bytes, [0, 1, 2, 2, 1, 10, 1, 0, 0, 0, 3, 0]);
    }

    #[test]
    fn the_smallest_refusal_of_the_earliest_entry_at_fault() {
        assert_eq!(write_record(&[4, 8, 16, 0], &mut []), refused(24, 0));
        assert_eq!(write_record(&[3, 8, 0, 0], &mut []), refused(25, 0));
        assert_eq!(write_record(&[0, 0, 16, 0], &mut []), refused(25, 0));
        assert_eq!(write_record(&[0, 0, 0, 0, 0, 0, 16, 0], &mut []), refused(25, 1));
        assert_eq!(write_record(&[0, 0, 0, 0, 0, 0, 0, 0, 4, 0, 0, 0], &mut []), refused(26, 1));
        assert_eq!(write_record(&[3, 0, 0, 0], &mut []), refused(27, 0));
    }

    #[test]
    fn faults_of_the_first_2048_entries_then_28_then_20() {
        let full = full_rows();
        assert_eq!(write_record(&full, &mut []), refused(20, 0));
        let with_fault_after = [&full[..], &[4, 8, 16, 0]].concat();
        assert_eq!(write_record(&with_fault_after, &mut []), refused(28, 2048));
        let mut with_fault_before = with_fault_after;
        with_fault_before[full.len() - ROW] = 4;
        assert_eq!(write_record(&with_fault_before, &mut []), refused(24, 2047));
    }
}
