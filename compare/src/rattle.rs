//! The Rattle library, which runs in the program of host/ and is asked in batches over its standard input and output.
//!
//! Requests and responses are as host/host.c says; answers are as include/adzequarry.h says.

use std::env;
use std::io::{self, Read, Write};
use std::path::PathBuf;
use std::process::{Child, ChildStdin, ChildStdout, Command, Stdio};

/// The calls of the header under the host's numbers, and the two round trips that the host makes of them.
#[derive(Clone, Copy, Debug, PartialEq, Eq)]
#[repr(u32)]
pub enum Call {
    ReadNumber = 1,
    WriteNumber,
    Alternating,
    Signed,
    ReadRecord,
    WriteRecord,
    WriteThenRead,
    ReadThenWrite,
    Verdict,
    RackMade,
    RackSteps,
    RackRun,
}

/// What is lent to a call to be read.
#[derive(Clone, Copy)]
pub enum Source<'lent> {
    Bytes(&'lent [u8]),
    Words(&'lent [u32]),
}

/// One call with all that it is given. `lent` counts the elements that it may write to.
pub struct Request<'lent> {
    pub call: Call,
    pub source: Source<'lent>,
    pub lent: usize,
    pub number: u32,
    pub at: usize,
}

impl Request<'_> {
    pub fn put_to(&self, batch: &mut Vec<u8>) {
        let length = match self.source {
            Source::Bytes(bytes) => bytes.len(),
            Source::Words(words) => words.len(),
        };
        for word in [self.call as u32, length as u32, self.lent as u32, self.number] {
            batch.extend(word.to_le_bytes());
        }
        batch.extend((self.at as u64).to_le_bytes());
        match self.source {
            Source::Bytes(bytes) => batch.extend(bytes),
            Source::Words(words) => batch.extend(words.iter().flat_map(|word| word.to_le_bytes())),
        }
    }
}

/// The host while it runs.
pub struct Library {
    host: Child,
    requests: ChildStdin,
    responses: ChildStdout,
}

impl Library {
    /// Starts the host: `run-host` of the folder above that of this program, or what ADZEQUARRY_HOST names.
    pub fn start() -> io::Result<Library> {
        let path = match env::var_os("ADZEQUARRY_HOST") {
            Some(path) => PathBuf::from(path),
            None => env::current_exe()?.with_file_name("../run-host"),
        };
        let mut host = Command::new(&path)
            .stdin(Stdio::piped())
            .stdout(Stdio::piped())
            .spawn()
            .map_err(|error| io::Error::new(error.kind(), format!("{} can't be run: {error}", path.display())))?;
        let (requests, responses) = (host.stdin.take(), host.stdout.take());
        match (requests, responses) {
            (Some(requests), Some(responses)) => Ok(Library { host, requests, responses }),
            _ => Err(io::Error::other("the host has no pipes")),
        }
    }

    /// Has the host do a batch of requests and gives its responses.
    pub fn ask(&mut self, batch: &[u8]) -> io::Result<Vec<u8>> {
        self.transfer(batch).map_err(|error| {
            // A pipe that is closed is one of a host that has ended, or is about to.
            let how = self.host.wait().map_or_else(|error| error.to_string(), |status| status.to_string());
            io::Error::new(error.kind(), format!("the host with the Rattle library doesn't answer, but ended ({how})"))
        })
    }

    fn transfer(&mut self, batch: &[u8]) -> io::Result<Vec<u8>> {
        self.requests.write_all(&(batch.len() as u32).to_le_bytes())?;
        self.requests.write_all(batch)?;
        self.requests.flush()?;
        let mut length = [0; 4];
        self.responses.read_exact(&mut length)?;
        let mut responses = vec![0; u32::from_le_bytes(length) as usize];
        self.responses.read_exact(&mut responses)?;
        Ok(responses)
    }
}

impl Drop for Library {
    /// The host ends by itself when it waits for a batch and its input ends; one that hangs in a call is ended.
    fn drop(&mut self) {
        let _ = self.host.kill();
        let _ = self.host.wait();
    }
}
