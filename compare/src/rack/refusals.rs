//! "When the rack says no": the paper's table, a line a test, in the paper's order. 1 is the maker's.

use super::event::Event;
use super::refusal::*;
use super::soundness::is_unsound;
use super::state::{self, Body, Goal, Message, Rack, LAST_OP, SLOTS};
use crate::paper::record::MOST_ENTRIES;

type Refusal = (u8, &'static str, fn(&Rack, Event) -> bool);

/// A test may take it that none before it applies: so 4 can look at the slot that 3 found in the rack.
pub const REFUSALS: [Refusal; 12] = [
    (UNSOUND_STATE, "unsound state", |rack, _| is_unsound(rack)),
    (NO_EVENT_OF_THIS_RACK, "no event, or a number not in this rack", is_no_event_of),
    (SLOT_EMPTY, "slot empty (deliver, lose, copy)", slot_is_empty),
    (CLIENT_STOPPED, "client stopped (start, resend, stop)", client_is_stopped),
    (OPERATION_OPEN, "start while an operation is open", starts_while_open),
    (NO_OPERATION_OPEN, "resend with none open", resends_with_none_open),
    (REPLICA_OFF, "delivery to a replica that is off", delivers_to_a_replica_off),
    (POWER_AS_IT_IS, "off when off, on when on", switches_to_what_is),
    (LAST_OPERATION_NUMBER, "start at operation number 65,535", starts_at_the_last_operation_number),
    (RECORD_FULL, "start, and entries + answers owed + 2 exceeds 2,048", starts_without_room_in_the_record),
    (LAST_STAMP_NUMBER, "a write's ask phase would end with held number 4,294,967,295", ends_asking_at_the_last_stamp),
    (WIRE_FULL, "more to send than free slots (start, deliver, copy, resend)", sends_more_than_free_slots),
];

/// "The smallest number that applies is given, and only when it applies."
pub fn refusal_of(rack: &Rack, event: Event) -> Option<u8> {
    REFUSALS.iter().find(|(_, _, applies)| applies(rack, event)).map(|(number, ..)| *number)
}

fn is_no_event_of(rack: &Rack, event: Event) -> bool {
    let sizes = rack.sizes;
    match event {
        Event::StartRead { client, cell } | Event::StartWrite { client, cell, .. } => {
            client >= sizes.clients || cell >= sizes.cells
        }
        Event::Deliver { slot } | Event::Lose { slot } | Event::Copy { slot } => slot >= SLOTS as u32,
        Event::Resend { client } | Event::Stop { client } => client >= sizes.clients,
        Event::Off { replica } | Event::On { replica } => replica >= sizes.replicas,
        Event::Unknown { .. } => true,
    }
}

/// The slot that the event names, and what is in it.
fn slot_named(rack: &Rack, event: Event) -> Option<Option<Message>> {
    match event {
        Event::Deliver { slot } | Event::Lose { slot } | Event::Copy { slot } => Some(rack.wire.0[slot as usize]),
        _ => None,
    }
}

fn slot_is_empty(rack: &Rack, event: Event) -> bool {
    slot_named(rack, event) == Some(None)
}

fn message_delivered(rack: &Rack, event: Event) -> Option<Message> {
    let is_delivery = matches!(event, Event::Deliver { .. });
    slot_named(rack, event).flatten().filter(|_| is_delivery)
}

fn client_started(rack: &Rack, event: Event) -> Option<state::Client> {
    match event {
        Event::StartRead { client, .. } | Event::StartWrite { client, .. } => Some(rack.clients[client as usize]),
        _ => None,
    }
}

fn client_is_stopped(rack: &Rack, event: Event) -> bool {
    let named = match event {
        Event::Resend { client } | Event::Stop { client } => Some(rack.clients[client as usize]),
        _ => client_started(rack, event),
    };
    named.is_some_and(|client| client.stopped)
}

fn starts_while_open(rack: &Rack, event: Event) -> bool {
    client_started(rack, event).is_some_and(|client| client.open.is_some())
}

fn resends_with_none_open(rack: &Rack, event: Event) -> bool {
    matches!(event, Event::Resend { client } if rack.clients[client as usize].open.is_none())
}

/// Asks and keeps go to a replica, tells and kepts to a client.
fn delivers_to_a_replica_off(rack: &Rack, event: Event) -> bool {
    message_delivered(rack, event).is_some_and(|message| match message.body {
        Body::Ask | Body::Keep(_) => !rack.replicas[message.replica as usize].on,
        Body::Tell(_) | Body::Kept => false,
    })
}

fn switches_to_what_is(rack: &Rack, event: Event) -> bool {
    match event {
        Event::Off { replica } => !rack.replicas[replica as usize].on,
        Event::On { replica } => rack.replicas[replica as usize].on,
        _ => false,
    }
}

fn starts_at_the_last_operation_number(rack: &Rack, event: Event) -> bool {
    client_started(rack, event).is_some_and(|client| client.op == LAST_OP)
}

fn starts_without_room_in_the_record(rack: &Rack, event: Event) -> bool {
    client_started(rack, event).is_some() && rack.record.len() + rack.answers_owed() + 2 > MOST_ENTRIES
}

fn ends_asking_at_the_last_stamp(rack: &Rack, event: Event) -> bool {
    let end = message_delivered(rack, event).and_then(|message| rack.ask_phase_end(&message));
    matches!(end, Some((Goal::Write(_), held)) if held.stamp.number == state::LAST_STAMP_NUMBER)
}

/// Tried on a copy: what the event sends, and the slots that are free once its message is taken out.
fn sends_more_than_free_slots(rack: &Rack, event: Event) -> bool {
    let mut after = rack.clone();
    let sent = after.act(event);
    sent.len() > after.wire.free()
}
