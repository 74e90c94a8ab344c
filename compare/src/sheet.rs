//! The lines of the paper's bench sheet on numbers, values, records and what is lawful, run through the Rattle library and
//! held to the paper's words.

use crate::check::hex;
use crate::rattle::{Call, Library, Request, Source};
use crate::response::{
    answer_in_words, answer_to_number_read, answer_to_number_written, answer_to_record, verdict_in_words, FENCE,
    MEMORY_AT,
};
use compare::paper::number::Number;
use std::io;

/// "127 is 7F": the number, and the bytes that the paper gives for it.
const NUMBERS: [(u32, &str); 4] = [(127, "7F"), (128, "80 01"), (300, "AC 02"), (4_294_967_295, "FF FF FF FF 0F")];

/// "Value -1 is 01."
const VALUES: [(i32, &str); 4] = [(-1, "01"), (64, "80 01"), (-64, "7F"), (-2_147_483_648, "FF FF FF FF 0F")];

/// "80 00 is refused 22."
const REFUSED: [(&str, u8); 3] = [("80 00", 22), ("80", 21), ("FF FF FF FF 10", 23)];

/// "No bytes" and "12 bytes, 4 entries", and the same with last byte 00: how many entries they have.
const RECORDS: [(&str, usize); 3] =
    [("", 0), ("01 00 02 0A 03 00 00 01 02 02 01 0A", 4), ("01 00 02 0A 03 00 00 01 02 02 01 00", 4)];

/// The lines on what is lawful. Where the paper gives no bytes, client 0 writes 5 to cell 2 and client 1 reads.
const VERDICTS: [(&str, &str, &str); 7] = [
    ("no bytes", "", "lawful"),
    ("the record of 12 bytes", "01 00 02 0A 03 00 00 01 02 02 01 0A", "lawful"),
    ("the same, last byte 00", "01 00 02 0A 03 00 00 01 02 02 01 00", "unlawful cell 2"),
    ("reads 5, then 0", "01 00 02 0A 00 01 02 02 01 0A 00 01 02 02 01 00", "unlawful cell 2"),
    ("reads 0, then 5", "01 00 02 0A 00 01 02 02 01 00 00 01 02 02 01 0A", "lawful"),
    ("reads 5 before it is asked", "00 01 02 02 01 0A 01 00 02 0A 03 00", "unlawful cell 2"),
    ("unread, unfinished write", "01 00 02 0A", "lawful"),
];

struct Line {
    title: String,
    paper: String,
    library: String,
}

/// Prints the table, and says how many lines it has and how many of them differ from the paper.
pub fn bench_sheet() -> io::Result<(usize, usize)> {
    let lines = lines(&mut Library::start()?)?;
    println!("{:26} {:15} library", "bench sheet", "paper");
    for Line { title, paper, library } in &lines {
        let mark = if paper == library { "" } else { "  DIFFERS" };
        println!("{title:26} {paper:15} {library}{mark}");
    }
    let differing = lines.iter().filter(|line| line.paper != line.library).count();
    Ok((lines.len(), differing))
}

fn lines(library: &mut Library) -> io::Result<Vec<Line>> {
    let mut lines = Vec::new();
    let mut add = |title: String, paper: String, library: String| lines.push(Line { title, paper, library });
    for (number, bytes) in NUMBERS {
        add(number.to_string(), bytes.to_string(), written(library, number)?);
        add(bytes.to_string(), number.to_string(), read(library, bytes)?);
    }
    for (value, bytes) in VALUES {
        let number = one_number(library, Call::Alternating, value as u32)?;
        add(format!("value {value}"), bytes.to_string(), written(library, number)?);
        add(format!("{bytes} as a value"), value.to_string(), read_as_value(library, bytes)?);
    }
    for (bytes, refusal) in REFUSED {
        add(bytes.to_string(), format!("refused {refusal}"), read(library, bytes)?);
    }
    for (bytes, entries) in RECORDS {
        let title = format!("record of {} bytes", bytes_from(bytes).len());
        add(title, format!("{entries} entries"), entries_of(library, bytes)?);
    }
    for (title, bytes, verdict) in VERDICTS {
        add(title.to_string(), verdict.to_string(), verdict_on(library, bytes)?);
    }
    Ok(lines)
}

fn bytes_from(written: &str) -> Vec<u8> {
    let byte = |digits| u8::from_str_radix(digits, 16).expect("the table has bytes in hex");
    written.split_whitespace().map(byte).collect()
}

/// One call alone: the answer, and the memory that was lent.
fn call(library: &mut Library, call: Call, bytes: &[u8], lent: usize, number: u32) -> io::Result<(u64, Vec<u8>)> {
    let mut batch = Vec::new();
    Request { call, source: Source::Bytes(bytes), lent, number, at: 0 }.put_to(&mut batch);
    let response = library.ask(&batch)?;
    match response.split_at_checked(MEMORY_AT + FENCE) {
        Some((head, memory)) => {
            let answer = head[..8].try_into().map(u64::from_le_bytes).expect("an answer has eight bytes");
            Ok((answer, memory.to_vec()))
        }
        None => Err(io::Error::other("the host's response is too short")),
    }
}

fn written(library: &mut Library, number: u32) -> io::Result<String> {
    let (answer, memory) = call(library, Call::WriteNumber, &[], 5, number)?;
    let taken = (answer >> 40) as usize;
    if taken > 5 || answer != answer_to_number_written(Ok(taken)) {
        return Ok(answer_in_words(answer));
    }
    Ok(hex(&memory[..taken]))
}

fn read(library: &mut Library, written: &str) -> io::Result<String> {
    let bytes = bytes_from(written);
    let (answer, _) = call(library, Call::ReadNumber, &bytes, 0, 0)?;
    let (number, refusal, taken) = (answer as u32, (answer >> 32) as u8, bytes.len());
    if answer == answer_to_number_read(Ok(Number { number, taken })) {
        return Ok(number.to_string());
    }
    if answer == answer_to_number_read(Err(refusal)) {
        return Ok(format!("refused {refusal}"));
    }
    Ok(answer_in_words(answer))
}

fn one_number(library: &mut Library, which: Call, number: u32) -> io::Result<u32> {
    call(library, which, &[], 0, number).map(|(answer, _)| answer as u32)
}

fn read_as_value(library: &mut Library, written: &str) -> io::Result<String> {
    let number = read(library, written)?;
    match number.parse() {
        Ok(number) => Ok((one_number(library, Call::Signed, number)? as i32).to_string()),
        Err(_) => Ok(number),
    }
}

/// The verdict's words, without the answer's bits that follow them.
fn verdict_on(library: &mut Library, written: &str) -> io::Result<String> {
    let (answer, _) = call(library, Call::Verdict, &bytes_from(written), 0, 0)?;
    let words = verdict_in_words(answer);
    Ok(words.split(" (").next().unwrap_or(&words).to_string())
}

fn entries_of(library: &mut Library, written: &str) -> io::Result<String> {
    let (answer, _) = call(library, Call::ReadRecord, &bytes_from(written), 16, 0)?;
    let entries = answer as u32 as usize;
    if answer == answer_to_record(Ok(entries)) {
        return Ok(format!("{entries} entries"));
    }
    Ok(answer_in_words(answer))
}
