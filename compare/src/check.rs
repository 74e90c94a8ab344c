//! One input after the other: what the paper says of it is worked out at once, the library is asked for many together,
//! and then the answers and all lent memory are held against each other.

use crate::rattle::{Call, Library, Request, Source};
use crate::response::*;
use crate::tally::Tally;
use compare::law::Verdict;
use compare::paper::{number, record, rows};
use std::fmt::{self, Display, UpperHex};
use std::io;

/// The library is asked when so many bytes of requests or of expected responses have come together.
const ENOUGH_REQUESTS: usize = 1 << 18;
const ENOUGH_RESPONSES: usize = 1 << 20;
/// The head of a request: four words and a place.
const SOURCE_AT: usize = 24;

/// Why the comparison can't go on.
pub enum Trouble {
    /// The first input on which the two sides don't agree, in lines for the reader.
    Disagreement(String),
    Host(io::Error),
}

impl Display for Trouble {
    fn fmt(&self, f: &mut fmt::Formatter<'_>) -> fmt::Result {
        match self {
            Trouble::Disagreement(lines) => write!(f, "DISAGREEMENT in {lines}"),
            Trouble::Host(error) => write!(f, "FAILED: {error}"),
        }
    }
}

impl From<io::Error> for Trouble {
    fn from(error: io::Error) -> Trouble {
        Trouble::Host(error)
    }
}

pub type Checked = Result<(), Trouble>;

/// Collects requests and what is expected of them, and counts them.
pub struct Checker {
    library: Library,
    pub tried: u64,
    /// The verdicts among them.
    pub tally: Tally,
    requests: Vec<u8>,
    expected: Vec<u8>,
    /// Where each request and each expected response starts.
    starts: Vec<(usize, usize)>,
}

impl Checker {
    pub fn new() -> io::Result<Checker> {
        let library = Library::start()?;
        let (requests, expected, starts) = (Vec::new(), Vec::new(), Vec::new());
        Ok(Checker { library, tried: 0, tally: Tally::default(), requests, expected, starts })
    }

    pub fn read_number(&mut self, bytes: &[u8], at: usize) -> Checked {
        let answer = answer_to_number_read(number::read_number(bytes, at));
        let request = Request { call: Call::ReadNumber, source: Source::Bytes(bytes), lent: 0, number: 0, at };
        self.queue(request, |expected| put_with_bytes(expected, answer, &fresh_bytes(0)))
    }

    pub fn write_number(&mut self, lent: usize, at: usize, number: u32) -> Checked {
        let mut memory = fresh_bytes(lent);
        let answer = answer_to_number_written(number::write_number(lent_part(&mut memory), at, number));
        let request = Request { call: Call::WriteNumber, source: Source::Bytes(&[]), lent, number, at };
        self.queue(request, |expected| put_with_bytes(expected, answer, &memory))
    }

    pub fn alternating(&mut self, v: i32) -> Checked {
        self.one_number(Call::Alternating, v as u32, number::alternating(v))
    }

    pub fn signed(&mut self, n: u32) -> Checked {
        self.one_number(Call::Signed, n, number::signed(n) as u32)
    }

    fn one_number(&mut self, call: Call, number: u32, answer: u32) -> Checked {
        let request = Request { call, source: Source::Bytes(&[]), lent: 0, number, at: 0 };
        self.queue(request, |expected| put_with_bytes(expected, answer.into(), &fresh_bytes(0)))
    }

    pub fn read_record(&mut self, bytes: &[u8], room: usize) -> Checked {
        let mut memory = fresh_words(room);
        let answer = answer_to_record(rows::read_record(bytes, lent_part(&mut memory)));
        let request = Request { call: Call::ReadRecord, source: Source::Bytes(bytes), lent: room, number: 0, at: 0 };
        self.queue(request, |expected| put_with_words(expected, answer, &memory))
    }

    pub fn write_record(&mut self, words: &[u32], room: usize) -> Checked {
        let mut memory = fresh_bytes(room);
        let answer = answer_to_record(rows::write_record(words, lent_part(&mut memory)));
        let request = Request { call: Call::WriteRecord, source: Source::Words(words), lent: room, number: 0, at: 0 };
        self.queue(request, |expected| put_with_bytes(expected, answer, &memory))
    }

    /// A record that the library writes and then reads is that record.
    pub fn write_then_read(&mut self, entries: &[record::Entry]) -> Checked {
        let words = rows::rows_of(entries);
        let mut memory = fresh_words(words.len());
        lent_part(&mut memory).copy_from_slice(&words);
        let (call, lent) = (Call::WriteThenRead, words.len());
        let request = Request { call, source: Source::Words(&words), lent, number: 0, at: 0 };
        self.queue(request, |expected| put_with_words(expected, answer_to_record(Ok(entries.len())), &memory))
    }

    /// Bytes that the library reads as a record and then writes are those bytes; others are refused and have no way back.
    pub fn read_then_write(&mut self, bytes: &[u8]) -> Checked {
        let mut memory = fresh_bytes(bytes.len());
        let outcome = record::read_record(bytes).map(|_| bytes.len());
        if outcome.is_ok() {
            lent_part(&mut memory).copy_from_slice(bytes);
        }
        let (call, lent) = (Call::ReadThenWrite, bytes.len());
        let request = Request { call, source: Source::Bytes(bytes), lent, number: 0, at: 0 };
        self.queue(request, |expected| put_with_bytes(expected, answer_to_record(outcome), &memory))
    }

    /// The verdict on bytes, as the independent judges have found it. Nothing is lent to be written.
    pub fn verdict(&mut self, bytes: &[u8], verdict: Verdict) -> Checked {
        self.tally.count(verdict);
        let request = Request { call: Call::Verdict, source: Source::Bytes(bytes), lent: 0, number: 0, at: 0 };
        self.queue(request, |expected| put_with_bytes(expected, answer_to_verdict(verdict), &fresh_bytes(0)))
    }

    fn queue(&mut self, request: Request, put_expected: impl FnOnce(&mut Vec<u8>)) -> Checked {
        self.starts.push((self.requests.len(), self.expected.len()));
        request.put_to(&mut self.requests);
        put_expected(&mut self.expected);
        self.tried += 1;
        if self.requests.len() < ENOUGH_REQUESTS && self.expected.len() < ENOUGH_RESPONSES {
            return Ok(());
        }
        self.settle()
    }

    /// Asks the library for what has come together, and compares.
    pub fn settle(&mut self) -> Checked {
        match self.library.ask(&self.requests) {
            Ok(responses) if responses == self.expected => {}
            Ok(responses) => return Err(self.first_disagreement(&responses)),
            Err(error) => return Err(self.first_without_answer(error)),
        }
        self.requests.clear();
        self.expected.clear();
        self.starts.clear();
        Ok(())
    }

    fn first_disagreement(&self, responses: &[u8]) -> Trouble {
        for index in 0..self.starts.len() {
            let (request, expected, part) = self.pending(index);
            let given = responses.get(part).unwrap_or(&[]);
            if given != expected {
                let before = self.starts.len() - index - 1;
                let place = self.tried - before as u64;
                let lines = format!("{}\n{}\n  input {place}", shown(request), differences(request, expected, given));
                return Trouble::Disagreement(lines);
            }
        }
        Trouble::Disagreement("a batch: the host gave more than it was asked for".to_string())
    }

    /// The host ended, so a new one is asked for each request alone, to find the one that it doesn't survive.
    fn first_without_answer(&self, error: io::Error) -> Trouble {
        for index in 0..self.starts.len() {
            let (request, expected, _) = self.pending(index);
            match Library::start().and_then(|mut library| library.ask(request)) {
                Ok(given) if given == expected => {}
                Ok(given) => {
                    let lines = format!("{}\n{}", shown(request), differences(request, expected, &given));
                    return Trouble::Disagreement(lines);
                }
                Err(error) => return Trouble::Disagreement(format!("{}\n  library: {error}", shown(request))),
            }
        }
        Trouble::Host(error)
    }

    /// A request, what is expected of it, and where that stands among the responses.
    fn pending(&self, index: usize) -> (&[u8], &[u8], std::ops::Range<usize>) {
        let (from, expected_from) = self.starts[index];
        let ends = (self.requests.len(), self.expected.len());
        let (to, expected_to) = *self.starts.get(index + 1).unwrap_or(&ends);
        (&self.requests[from..to], &self.expected[expected_from..expected_to], expected_from..expected_to)
    }
}

fn word_at(bytes: &[u8], at: usize) -> u32 {
    u32::from_le_bytes(bytes[at..at + 4].try_into().expect("a word has four bytes"))
}

fn long_at(bytes: &[u8], at: usize) -> u64 {
    u64::from_le_bytes(bytes[at..at + 8].try_into().expect("two words have eight bytes"))
}

fn shown(request: &[u8]) -> String {
    let names = [
        "adze_read_number",
        "adze_write_number",
        "adze_alternating",
        "adze_signed",
        "adze_read_record",
        "adze_write_record",
        "a record written and then read",
        "bytes read and then written",
        "adze_verdict",
    ];
    let name = names[word_at(request, 0) as usize - 1];
    let (source, lent, number, at) =
        (word_at(request, 4), word_at(request, 8), word_at(request, 12), long_at(request, 16));
    let hex = hex(&request[SOURCE_AT..]);
    format!("{name}\n  source ({source} elements): [{hex}]\n  lent: {lent} elements, number {number}, place {at}")
}

/// Both answers, and where lent memory differs first.
fn differences(request: &[u8], expected: &[u8], given: &[u8]) -> String {
    if given.len() != expected.len() {
        return format!("  library: {} bytes of response instead of {}", given.len(), expected.len());
    }
    let in_words = if word_at(request, 0) == Call::Verdict as u32 { verdict_in_words } else { answer_in_words };
    let (paper, library) = (in_words(long_at(expected, 0)), in_words(long_at(given, 0)));
    let mut lines = format!("  paper:   {paper}\n  library: {library}");
    if word_at(given, 8) != 0 {
        lines += "\n  the call wrote to what it was lent to read, or beside it";
    }
    if let Some(at) = (MEMORY_AT..given.len()).find(|at| given[*at] != expected[*at]) {
        let of_words = [Call::ReadRecord as u32, Call::WriteThenRead as u32].contains(&word_at(request, 0));
        let size = if of_words { 4 } else { 1 };
        let place = (at - MEMORY_AT) / size;
        let start = MEMORY_AT + place * size;
        let (paper, library) = (hex(&expected[start..start + size]), hex(&given[start..start + size]));
        let place = place as isize - FENCE as isize;
        lines += &format!("\n  lent memory differs first at element {place}: paper {paper}, library {library}");
    } else {
        lines += "\n  lent memory: the same on both sides";
    }
    lines
}

pub fn hex<T: UpperHex>(elements: &[T]) -> String {
    let written: Vec<String> = elements.iter().map(|element| format!("{element:02X}")).collect();
    written.join(" ")
}
