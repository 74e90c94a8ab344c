//! The text of the program `drill`: a script of seven-bit numbers in, lines for people and for comparison out.
//!
//! A script is replicas, clients, cells, allowance and then events, each its code and its fields. A fault anywhere is one
//! line, and nothing is run.

use super::event::Event;
use super::schedule::Ran;
use super::state::{Body, Client, Goal, Message, Operation, Pair, Phase, Rack, Replica, Sizes};
use crate::paper::number::{read_number, signed};
use crate::paper::record::bytes_of;
use std::fmt::{self, Write};

/// A code above 8.
pub const UNKNOWN_CODE: u8 = 15;

#[derive(Clone, Debug, PartialEq, Eq)]
pub struct Script {
    pub sizes: Sizes,
    pub allowance: u32,
    pub events: Vec<Event>,
}

/// 21 to 23 or 15, and the byte at which that number begins.
#[derive(Clone, Copy, Debug, PartialEq, Eq)]
pub struct Fault {
    pub number: u8,
    pub byte: usize,
}

/// All that the program writes for a script.
pub fn drill(script: &[u8]) -> String {
    match read_script(script) {
        Ok(script) => outcome(&script),
        Err(fault) => format!("refused {} at byte {}\n", fault.number, fault.byte),
    }
}

/// A refused maker has no rack that the events were meant for, so nothing is run.
fn outcome(script: &Script) -> String {
    let (mut rack, refusal) = Rack::make(script.sizes);
    let ran = match refusal {
        Some(_) => Ran { done: 0, refusal },
        None => rack.run(script.allowance as usize, &script.events),
    };
    lines_of(ran, &rack)
}

struct Head<'bytes> {
    bytes: &'bytes [u8],
    at: usize,
}

impl Head<'_> {
    fn number(&mut self) -> Result<u32, Fault> {
        let read = read_number(self.bytes, self.at).map_err(|number| Fault { number, byte: self.at })?;
        self.at += read.taken;
        Ok(read.number)
    }

    fn event(&mut self) -> Result<Event, Fault> {
        let byte = self.at;
        Ok(match self.number()? {
            0 => Event::StartRead { client: self.number()?, cell: self.number()? },
            1 => Event::StartWrite { client: self.number()?, cell: self.number()?, value: signed(self.number()?) },
            2 => Event::Deliver { slot: self.number()? },
            3 => Event::Lose { slot: self.number()? },
            4 => Event::Copy { slot: self.number()? },
            5 => Event::Resend { client: self.number()? },
            6 => Event::Stop { client: self.number()? },
            7 => Event::Off { replica: self.number()? },
            8 => Event::On { replica: self.number()? },
            _ => return Err(Fault { number: UNKNOWN_CODE, byte }),
        })
    }
}

pub fn read_script(bytes: &[u8]) -> Result<Script, Fault> {
    let mut head = Head { bytes, at: 0 };
    let sizes = Sizes { replicas: head.number()?, clients: head.number()?, cells: head.number()? };
    let allowance = head.number()?;
    let mut events = Vec::new();
    while head.at < bytes.len() {
        events.push(head.event()?);
    }
    Ok(Script { sizes, allowance, events })
}

/// The lines for a run and the rack that it left.
pub fn lines_of(ran: Ran, rack: &Rack) -> String {
    let mut lines = format!("done {}\n", ran.done);
    let refusal = ran.refusal.map_or("none".to_string(), |number| number.to_string());
    writeln!(lines, "refused {refusal}").and_then(|()| put_rack(&mut lines, rack)).expect("a string takes all");
    lines
}

fn put_rack(lines: &mut String, rack: &Rack) -> fmt::Result {
    let Sizes { replicas, clients, cells } = rack.sizes;
    writeln!(lines, "rack {replicas} {clients} {cells}")?;
    for (number, replica) in rack.own_replicas().iter().enumerate() {
        put_replica(lines, number, replica, cells as usize)?;
    }
    for (number, client) in rack.own_clients().iter().enumerate() {
        put_client(lines, number, client)?;
    }
    for (number, slot) in rack.wire.0.iter().enumerate() {
        if let Some(message) = slot {
            put_slot(lines, number, message)?;
        }
    }
    write!(lines, "record")?;
    for byte in bytes_of(&rack.record) {
        write!(lines, " {byte:02X}")?;
    }
    writeln!(lines)
}

impl fmt::Display for Pair {
    fn fmt(&self, f: &mut fmt::Formatter<'_>) -> fmt::Result {
        write!(f, "{}.{}={}", self.stamp.number, self.stamp.rank, self.value)
    }
}

fn put_replica(lines: &mut String, number: usize, replica: &Replica, cells: usize) -> fmt::Result {
    write!(lines, "replica {number} {}", if replica.on { "on" } else { "off" })?;
    for pair in &replica.pairs[..cells] {
        write!(lines, " {pair}")?;
    }
    writeln!(lines)
}

fn put_client(lines: &mut String, number: usize, client: &Client) -> fmt::Result {
    write!(lines, "client {number}{}", if client.stopped { " stopped" } else { "" })?;
    match &client.open {
        None => writeln!(lines, " idle op {}", client.op),
        Some(operation) => put_operation(lines, client.op, operation),
    }
}

fn put_operation(lines: &mut String, op: u32, operation: &Operation) -> fmt::Result {
    let phase = match operation.phase {
        Phase::Asking { .. } => "asking",
        Phase::Keeping { .. } => "keeping",
    };
    let goal = match operation.goal {
        Goal::Read => "read".to_string(),
        Goal::Write(value) => format!("write {value}"),
    };
    write!(lines, " {phase} {goal} cell {} op {op} from", operation.cell)?;
    if operation.answered.is_empty() {
        write!(lines, " none")?;
    }
    for replica in operation.answered.members() {
        write!(lines, " {replica}")?;
    }
    match operation.phase.held() {
        Some(held) => writeln!(lines, " held {held}"),
        None => writeln!(lines, " held none"),
    }
}

fn put_slot(lines: &mut String, number: usize, message: &Message) -> fmt::Result {
    let kind = match message.body {
        Body::Ask => "ask",
        Body::Tell(_) => "tell",
        Body::Keep(_) => "keep",
        Body::Kept => "kept",
    };
    let Message { client, replica, cell, op, .. } = message;
    write!(lines, "slot {number} {kind} client {client} replica {replica} cell {cell} op {op}")?;
    match message.pair() {
        Some(pair) => writeln!(lines, " pair {pair}"),
        None => writeln!(lines),
    }
}

/// The script of a schedule, with which `drill` can be asked.
pub fn script_of(sizes: Sizes, allowance: u32, events: &[Event]) -> Vec<u8> {
    let mut numbers = vec![sizes.replicas, sizes.clients, sizes.cells, allowance];
    for event in events {
        let words = event.words();
        numbers.extend(&words[..1 + fields_of(*event)]);
    }
    crate::making::bytes_of_numbers(&numbers)
}

fn fields_of(event: Event) -> usize {
    match event {
        Event::StartRead { .. } => 2,
        Event::StartWrite { .. } => 3,
        Event::Unknown { .. } => 0,
        _ => 1,
    }
}
