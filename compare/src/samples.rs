//! The sample records and scripts of samples/: with a record the line that the judge is to write for it, with a script the
//! text of the drill and the record that is left.

use crate::drills::{self, Drill};
use crate::paper::record::{bytes_of, Entry, CELLS, CLIENTS, MOST_ENTRIES};
use std::fs;
use std::io;
use std::path::Path;

pub struct Sample {
    pub file: String,
    pub what: String,
    /// The line that the judge writes.
    pub right: &'static str,
    pub bytes: Vec<u8>,
}

const README: &str = "README.md";
const VERDICTS: &str = "verdicts.txt";

/// The paper's record: client 0 writes 5 to cell 2, client 1 reads 5.
const SHEET_RECORD: [u8; 12] = [1, 0, 2, 0x0A, 3, 0, 0, 1, 2, 2, 1, 0x0A];

fn read_asked(client: u8, cell: u8) -> Entry {
    Entry::ReadAsked { client, cell }
}

fn write_asked(client: u8, cell: u8, value: i32) -> Entry {
    Entry::WriteAsked { client, cell, value }
}

fn told(client: u8, value: i32) -> Entry {
    Entry::Told { client, value }
}

fn done(client: u8) -> Entry {
    Entry::Done { client }
}

fn sample(file: &str, what: &str, right: &'static str, bytes: Vec<u8>) -> Sample {
    Sample { file: file.to_string(), what: what.to_string(), right, bytes }
}

pub fn all() -> Vec<Sample> {
    let groups = [
        one_after_the_other(),
        overlapping(),
        refused_for_their_numbers(),
        refused_for_their_entries(),
        at_the_limit(),
        left_by_drills(),
    ];
    groups.into_iter().flatten().collect()
}

fn one_after_the_other() -> Vec<Sample> {
    let last_byte_00 = [&SHEET_RECORD[..11], &[0]].concat();
    let misses_9 = [write_asked(0, 0, 9), done(0), read_asked(1, 0), told(1, 0)];
    let read_too_early = [read_asked(1, 3), told(1, 5), write_asked(0, 3, 5), done(0)];
    vec![
        sample("empty.rec", "no bytes: the empty record", "lawful", vec![]),
        sample(
            "write-then-read.rec",
            "the paper's 12 bytes, 4 entries: client 0 writes 5 to cell 2, client 1 reads 5",
            "lawful",
            SHEET_RECORD.to_vec(),
        ),
        sample(
            "write-then-stale-read.rec",
            "the same with last byte 00: client 1 reads 0 after the write of 5 is done",
            "unlawful cell 2",
            last_byte_00,
        ),
        sample(
            "read-misses-9.rec",
            "client 0 writes 9 to cell 0, client 1 then reads 0: left by a rack that takes silence for 0, or a copy for an answer",
            "unlawful cell 0",
            bytes_of(&misses_9),
        ),
        sample(
            "read-before-asked.rec",
            "a read of 5 that ends before the write of 5 is asked",
            "unlawful cell 3",
            bytes_of(&read_too_early),
        ),
    ]
}

fn overlapping() -> Vec<Sample> {
    let two_reads_during_a_write = |first, second| {
        let reads = [read_asked(1, 3), told(1, first), read_asked(1, 3), told(1, second)];
        bytes_of(&[&[write_asked(0, 3, 5)][..], &reads, &[done(0)]].concat())
    };
    let nobody_read_it = [write_asked(0, 2, 5), read_asked(1, 2), told(1, 0)];
    vec![
        sample(
            "reads-go-back.rec",
            "while a write of 5 to cell 3 is open, client 1 reads 5 and then 0",
            "unlawful cell 3",
            two_reads_during_a_write(5, 0),
        ),
        sample(
            "reads-go-on.rec",
            "while a write of 5 to cell 3 is open, client 1 reads 0 and then 5",
            "lawful",
            two_reads_during_a_write(0, 5),
        ),
        sample(
            "unfinished-write.rec",
            "an unfinished write of 5 to cell 2 that nobody read: client 1 reads 0 after it is asked",
            "lawful",
            bytes_of(&nobody_read_it),
        ),
    ]
}

fn refused_for_their_numbers() -> Vec<Sample> {
    let last_number_as = |bytes: &[u8]| [&SHEET_RECORD[..11], bytes].concat();
    vec![
        sample("torn.rec", "the paper's 12 bytes without the last one", "refused 21 at entry 3", last_number_as(&[])),
        sample(
            "padded-number.rec",
            "the paper's record with its last number written as 8A 00",
            "refused 22 at entry 3",
            last_number_as(&[0x8A, 0]),
        ),
        sample(
            "fifth-byte-16.rec",
            "the paper's record with its last number written as FF FF FF FF 10",
            "refused 23 at entry 3",
            last_number_as(&[0xFF, 0xFF, 0xFF, 0xFF, 0x10]),
        ),
    ]
}

fn refused_for_their_entries() -> Vec<Sample> {
    let and_then = |bytes: &[u8]| [&SHEET_RECORD[..], bytes].concat();
    let asked_while_open = [write_asked(0, 2, 5), done(0), read_asked(1, 2), write_asked(0, 2, 6), read_asked(1, 2)];
    vec![
        sample("kind-4.rec", "the paper's record and then kind 4", "refused 24 at entry 4", and_then(&[4])),
        sample(
            "client-8.rec",
            "the paper's record and then a read asked by client 8",
            "refused 25 at entry 4",
            and_then(&[0, 8, 0]),
        ),
        sample(
            "asked-while-open.rec",
            "client 1 asks for a read while its read is open",
            "refused 26 at entry 4",
            bytes_of(&asked_while_open),
        ),
        sample(
            "told-without-read.rec",
            "the paper's record and then its last entry again",
            "refused 27 at entry 4",
            and_then(&[2, 1, 0x0A]),
        ),
        sample(
            "same-value-twice.rec",
            "the paper's record and then its first entry again: 5 is written to cell 2 twice",
            "refused 29 at entry 4",
            and_then(&[1, 0, 2, 0x0A]),
        ),
    ]
}

fn at_the_limit() -> Vec<Sample> {
    let full = bytes_of(&full_record());
    let too_long = [full.clone(), bytes_of(&[read_asked(0, 0)])].concat();
    vec![
        sample(
            "full.rec",
            "2,048 entries: writes of 512 values to all cells by all clients, each read after it is done",
            "lawful",
            full,
        ),
        sample("too-long.rec", "the same and one entry more", "refused 28 at entry 2048", too_long),
    ]
}

fn left_by_drills() -> Vec<Sample> {
    let left = |drill: &Drill| {
        let (file, what) = (format!("{}.rec", drill.name), format!("the record that {}.script leaves", drill.name));
        sample(&file, &what, drill.right, drill.record())
    };
    drills::all().iter().map(left).collect()
}

/// One operation at a time, so the order is plain. The values are distinct and above and below zero.
fn full_record() -> Vec<Entry> {
    let mut entries = Vec::with_capacity(MOST_ENTRIES);
    for turn in 0..MOST_ENTRIES / 4 {
        let (writer, reader) = ((turn % CLIENTS) as u8, ((turn + 3) % CLIENTS) as u8);
        let cell = (turn % CELLS) as u8;
        let size = 1 + turn as i32;
        let value = if turn % 3 == 0 { -size } else { size };
        entries.extend([write_asked(writer, cell, value), done(writer), read_asked(reader, cell), told(reader, value)]);
    }
    entries
}

fn readme(samples: &[Sample], drills: &[Drill]) -> String {
    let mut text = String::from(
        "# Sample records and scripts\n\n\
         A file NAME.rec is the bytes of one record and nothing else. `verdicts.txt` has the last column for programs to\n\
         read. `compare samples` makes the files, that list and this page, and `compare check-samples` holds them to what it\n\
         would make.\n\n\
         | File | Bytes | What it is | What the judge writes |\n|---|---|---|---|\n",
    );
    for Sample { file, what, right, bytes } in samples {
        text += &format!("| {file} | {} | {what} | `{right}` |\n", bytes.len());
    }
    text += "\nA file NAME.script is a script for the drill, NAME.drilled is what the drill writes for it, and NAME.rec the record\n\
             that is left. docs/FOR-TEACHERS.md goes through them.\n\n\
             | File | Bytes | Events | What it is |\n|---|---|---|---|\n";
    for drill in drills {
        text += &format!(
            "| {}.script | {} | {} | {} |\n",
            drill.name,
            drill.script().len(),
            drill.events.len(),
            drill.what
        );
    }
    text
}

/// A line for each sample: its file, and the line that the judge writes for it.
fn verdicts(samples: &[Sample]) -> String {
    samples.iter().map(|Sample { file, right, .. }| format!("{file}: {right}\n")).collect()
}

/// Every file of the folder: its name and all its bytes.
fn files() -> Vec<(String, Vec<u8>)> {
    let (samples, drills) = (all(), drills::all());
    let (page, verdicts) = (readme(&samples, &drills).into_bytes(), verdicts(&samples).into_bytes());
    let mut files: Vec<_> = samples.into_iter().map(|sample| (sample.file, sample.bytes)).collect();
    for drill in drills {
        files.push((format!("{}.script", drill.name), drill.script()));
        files.push((format!("{}.drilled", drill.name), drill.text().into_bytes()));
    }
    files.extend([(README.to_string(), page), (VERDICTS.to_string(), verdicts)]);
    files
}

pub fn write_to(folder: &Path) -> io::Result<usize> {
    fs::create_dir_all(folder)?;
    let files = files();
    for (name, bytes) in &files {
        fs::write(folder.join(name), bytes)?;
    }
    Ok(files.len())
}

/// Whether a file is a record, a script or the text of a drill, by its name.
fn is_for_a_program(name: &Path) -> bool {
    name.extension().is_some_and(|extension| ["rec", "script", "drilled"].iter().any(|known| extension == *known))
}

/// What is wrong with the folder, a line each; nothing when every file is there byte for byte and no other record or script.
pub fn faults_of(folder: &Path) -> io::Result<Vec<String>> {
    let files = files();
    let mut faults = Vec::new();
    for (name, bytes) in &files {
        match fs::read(folder.join(name)) {
            Ok(found) if found == *bytes => {}
            Ok(_) => faults.push(format!("{name} has other bytes than it should")),
            Err(error) => faults.push(format!("{name} can't be read: {error}")),
        }
    }
    for found in fs::read_dir(folder)? {
        let name = found?.file_name();
        if is_for_a_program(Path::new(&name)) && !files.iter().any(|(file, _)| name == **file) {
            faults.push(format!("{} is no sample", name.to_string_lossy()));
        }
    }
    Ok(faults)
}

#[cfg(test)]
mod tests {
    use super::*;
    use crate::paper::record::read_record;

    #[test]
    fn refused_samples_are_refused_as_their_line_says_and_no_others() {
        for sample in all() {
            let judged_later = ["lawful", "unlawful", "refused 29"].iter().any(|line| sample.right.starts_with(line));
            match read_record(&sample.bytes) {
                Ok(_) => assert!(judged_later, "{}", sample.file),
                Err(refusal) => assert_eq!(refusal.to_string(), sample.right, "{}", sample.file),
            }
        }
    }

    #[test]
    fn each_refusal_of_a_reader_has_a_sample() {
        for number in 21..=29 {
            let line = format!("refused {number} at entry ");
            assert!(all().iter().any(|sample| sample.right.starts_with(&line)), "{number}");
        }
    }

    #[test]
    fn the_full_sample_is_full() {
        assert_eq!(full_record().len(), MOST_ENTRIES);
    }
}
