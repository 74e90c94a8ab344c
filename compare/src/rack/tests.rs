//! The paper's own lines on the engine, each refusal and each unsoundness, the floating pins, the text of `drill`, and what
//! holds of every run.

mod laws;
mod pins;
mod refusals;
mod sheet;
mod text;
mod words;

use super::event::Event;
use super::schedule::Ran;
use super::state::{Body, Message, Pair, Rack, Sizes, Stamp};

fn fresh(replicas: u32, clients: u32, cells: u32) -> Rack {
    let (rack, refusal) = Rack::make(Sizes { replicas, clients, cells });
    assert_eq!(refusal, None);
    rack
}

fn read(client: u32, cell: u32) -> Event {
    Event::StartRead { client, cell }
}

fn write(client: u32, cell: u32, value: i32) -> Event {
    Event::StartWrite { client, cell, value }
}

fn deliver(slot: u32) -> Event {
    Event::Deliver { slot }
}

/// Does all these events; none is refused.
fn done(rack: &mut Rack, events: &[Event]) {
    assert_eq!(rack.run(events.len(), events), Ran { done: events.len(), refusal: None });
}

/// Delivers these slots, one after the other.
fn delivered(rack: &mut Rack, slots: &[u32]) {
    let events: Vec<Event> = slots.iter().map(|slot| deliver(*slot)).collect();
    done(rack, &events);
}

/// The refusal of an event, which leaves the rack as it was; none when it is done.
fn refusal(rack: &Rack, event: Event) -> Option<u8> {
    let mut after = rack.clone();
    let ran = after.run(1, &[event]);
    if ran.refusal.is_some() {
        assert_eq!(ran.done, 0);
        assert_eq!(after, *rack);
    }
    ran.refusal
}

fn pair(number: u32, rank: u32, value: i32) -> Pair {
    Pair { stamp: Stamp { number, rank }, value }
}

/// The bodies in the slots that are used, each with its slot and its replica.
fn wire(rack: &Rack) -> Vec<(usize, u32, Body)> {
    let full = |(slot, message): (usize, &Option<Message>)| message.map(|it| (slot, it.replica, it.body));
    rack.wire.0.iter().enumerate().filter_map(full).collect()
}
