//! Entries, and a whole record as bytes.

use super::number::{alternating, push_number, read_number, signed};
use super::refusal::*;
use super::Refusal;

/// "The record holds at most 2,048 entries."
pub const MOST_ENTRIES: usize = 2048;
/// "1 to 8 clients and 1 to 16 cells, all numbered from 0", so a client above 7 or a cell above 15 is refused.
pub const CLIENTS: usize = 8;
pub const CELLS: usize = 16;

/// "Entries: 0 read asked (client, cell); 1 write asked (client, cell, value); 2 told (client, value); 3 done (client)."
#[derive(Clone, Copy, Debug, PartialEq, Eq)]
pub enum Entry {
    ReadAsked { client: u8, cell: u8 },
    WriteAsked { client: u8, cell: u8, value: i32 },
    Told { client: u8, value: i32 },
    Done { client: u8 },
}

/// An entry is its kind and then the fields of that kind, each a number, a value as the number it is written as.
pub fn numbers_of(entry: Entry) -> Vec<u32> {
    match entry {
        Entry::ReadAsked { client, cell } => vec![0, client.into(), cell.into()],
        Entry::WriteAsked { client, cell, value } => {
            vec![1, client.into(), cell.into(), alternating(value)]
        }
        Entry::Told { client, value } => vec![2, client.into(), alternating(value)],
        Entry::Done { client } => vec![3, client.into()],
    }
}

pub fn client_from(number: u32) -> Result<u8, u8> {
    within(number, CLIENTS)
}

pub fn cell_from(number: u32) -> Result<u8, u8> {
    within(number, CELLS)
}

fn within(number: u32, count: usize) -> Result<u8, u8> {
    match u8::try_from(number) {
        Ok(small) if usize::from(small) < count => Ok(small),
        _ => Err(CLIENT_OR_CELL_OUT_OF_RANGE),
    }
}

#[derive(Clone, Copy, PartialEq, Eq)]
enum Operation {
    Read,
    Write,
}

/// Which operation each client has open, after the entries so far.
#[derive(Default)]
pub struct OpenOperations {
    of_client: [Option<Operation>; CLIENTS],
}

impl OpenOperations {
    /// Takes the next entry. "26: asked by a client with an operation open; 27: told or done without an open operation of
    /// that kind": told ends a read, done ends a write.
    pub fn take(&mut self, entry: Entry) -> Result<(), u8> {
        match entry {
            Entry::ReadAsked { client, .. } => self.begin(client, Operation::Read),
            Entry::WriteAsked { client, .. } => self.begin(client, Operation::Write),
            Entry::Told { client, .. } => self.end(client, Operation::Read),
            Entry::Done { client } => self.end(client, Operation::Write),
        }
    }

    fn begin(&mut self, client: u8, operation: Operation) -> Result<(), u8> {
        let open = &mut self.of_client[usize::from(client)];
        if open.is_some() {
            return Err(ASKED_WHILE_OPEN);
        }
        *open = Some(operation);
        Ok(())
    }

    fn end(&mut self, client: u8, operation: Operation) -> Result<(), u8> {
        let open = &mut self.of_client[usize::from(client)];
        if *open != Some(operation) {
            return Err(ENDED_WITHOUT_ITS_OPERATION);
        }
        *open = None;
        Ok(())
    }
}

/// The bytes that are left to read.
struct Head<'bytes> {
    bytes: &'bytes [u8],
    at: usize,
}

impl Head<'_> {
    fn number(&mut self) -> Result<u32, u8> {
        let read = read_number(self.bytes, self.at)?;
        self.at += read.taken;
        Ok(read.number)
    }

    /// A field out of range is refused as soon as its number is read, before the next one is looked at.
    fn entry(&mut self) -> Result<Entry, u8> {
        match self.number()? {
            0 => Ok(Entry::ReadAsked { client: self.client()?, cell: self.cell()? }),
            1 => Ok(Entry::WriteAsked { client: self.client()?, cell: self.cell()?, value: self.value()? }),
            2 => Ok(Entry::Told { client: self.client()?, value: self.value()? }),
            3 => Ok(Entry::Done { client: self.client()? }),
            _ => Err(KIND_ABOVE_3),
        }
    }

    fn client(&mut self) -> Result<u8, u8> {
        client_from(self.number()?)
    }

    fn cell(&mut self) -> Result<u8, u8> {
        cell_from(self.number()?)
    }

    fn value(&mut self) -> Result<i32, u8> {
        Ok(signed(self.number()?))
    }

    fn bytes_remain(&self) -> bool {
        self.at < self.bytes.len()
    }
}

/// The entries of a record, or its first fault in reading order, with its entry's number.
pub fn read_record(bytes: &[u8]) -> Result<Vec<Entry>, Refusal> {
    let mut head = Head { bytes, at: 0 };
    let mut open = OpenOperations::default();
    let mut entries = Vec::new();
    while head.bytes_remain() {
        let at_this_entry = |number| Refusal { number, entry: entries.len() as u32 };
        if entries.len() == MOST_ENTRIES {
            return Err(at_this_entry(MORE_THAN_2048_ENTRIES));
        }
        let entry = head.entry().map_err(at_this_entry)?;
        open.take(entry).map_err(at_this_entry)?;
        entries.push(entry);
    }
    Ok(entries)
}

/// The bytes of entries, one after the other, whether or not they make a record: faults are the callers' matter.
pub fn bytes_of(entries: &[Entry]) -> Vec<u8> {
    let mut bytes = Vec::new();
    for entry in entries {
        for number in numbers_of(*entry) {
            push_number(&mut bytes, number);
        }
    }
    bytes
}

#[cfg(test)]
mod tests {
    use super::*;

    const SHEET_RECORD: [u8; 12] = [1, 0, 2, 0x0A, 3, 0, 0, 1, 2, 2, 1, 0x0A];

    fn refused(number: u8, entry: u32) -> Result<Vec<Entry>, Refusal> {
        Err(Refusal { number, entry })
    }

    #[test]
    fn no_bytes_is_the_empty_record() {
        assert_eq!(read_record(&[]), Ok(vec![]));
        assert_eq!(bytes_of(&[]), []);
    }

    #[test]
    fn the_bench_sheet_record() {
        let entries = vec![
            Entry::WriteAsked { client: 0, cell: 2, value: 5 },
            Entry::Done { client: 0 },
            Entry::ReadAsked { client: 1, cell: 2 },
            Entry::Told { client: 1, value: 5 },
        ];
        assert_eq!(bytes_of(&entries), SHEET_RECORD);
        assert_eq!(read_record(&SHEET_RECORD), Ok(entries));
    }

    #[test]
    fn a_record_cut_inside_an_entry_ends_first() {
        let entry_that_is_cut =
            [None, Some(0), Some(0), Some(0), None, Some(1), None, Some(2), Some(2), None, Some(3), Some(3)];
        for (length, cut) in entry_that_is_cut.iter().enumerate() {
            let read = read_record(&SHEET_RECORD[..length]);
            match cut {
                Some(entry) => assert_eq!(read, refused(21, *entry), "{length} bytes"),
                None => assert!(read.is_ok(), "{length} bytes"),
            }
        }
    }

    #[test]
    fn a_field_out_of_range_is_refused_before_what_follows_it() {
        assert_eq!(read_record(&[4]), refused(24, 0));
        assert_eq!(read_record(&[0x80]), refused(21, 0));
        assert_eq!(read_record(&[0x84, 0x00]), refused(22, 0));
        assert_eq!(read_record(&[0, 8]), refused(25, 0));
        assert_eq!(read_record(&[0, 7, 16]), refused(25, 0));
        assert_eq!(read_record(&[1, 7, 16]), refused(25, 0));
        // 256 isn't 0.
        assert_eq!(read_record(&[0x80, 0x02]), refused(24, 0));
        assert_eq!(read_record(&[0, 0x80, 0x02, 0]), refused(25, 0));
        // A read is open, and still the cell out of range comes first, and so does the end of the bytes.
        assert_eq!(read_record(&[0, 0, 0, 0, 0, 16]), refused(25, 1));
        assert_eq!(read_record(&[0, 0, 0, 0, 0]), refused(21, 1));
    }

    #[test]
    fn operations_open_and_end() {
        assert_eq!(read_record(&[0, 0, 0, 0, 0, 0]), refused(26, 1));
        assert_eq!(read_record(&[0, 0, 0, 1, 0, 0, 0]), refused(26, 1));
        assert_eq!(read_record(&[2, 0, 0]), refused(27, 0));
        assert_eq!(read_record(&[3, 0]), refused(27, 0));
        assert_eq!(read_record(&[0, 0, 0, 3, 0]), refused(27, 1));
        assert_eq!(read_record(&[1, 0, 0, 0, 2, 0, 0]), refused(27, 1));
        assert_eq!(read_record(&[0, 0, 0, 2, 1, 0]), refused(27, 1));
        assert!(read_record(&[0, 0, 0, 2, 0, 0, 1, 0, 0, 0, 3, 0]).is_ok());
    }

    #[test]
    fn bytes_remain_after_2048_entries() {
        let full = [1, 0, 0, 0, 3, 0].repeat(MOST_ENTRIES / 2);
        assert_eq!(read_record(&full).map(|entries| entries.len()), Ok(MOST_ENTRIES));
        for more in [&[0x80][..], &[4], &[0, 0, 0], &[2, 0, 0]] {
            let longer = [&full[..], more].concat();
            assert_eq!(read_record(&longer), refused(28, 2048));
        }
        let mut faulty = [&full[..], &[0]].concat();
        let last_entry = full.len() - 2;
        faulty[last_entry] = 4;
        assert_eq!(read_record(&faulty), refused(24, 2047));
    }
}
