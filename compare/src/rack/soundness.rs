//! "A state is unsound exactly when ...": the paper's list, a line a test, in the paper's order.

use super::state::{Operation, Rack, LAST_OP};
use crate::paper::record::MOST_ENTRIES;

type Fault = (&'static str, fn(&Rack) -> bool);

/// Tests after the first are asked only of a rack whose sizes are in range.
pub const FAULTS: [Fault; 9] = [
    ("a size is out of range", |rack| !rack.sizes.are_in_range()),
    ("a message names a client, replica, cell or rank the rack hasn't got", a_message_names_what_is_not_there),
    ("a pair names a rank the rack hasn't got", a_pair_names_a_rank_not_there),
    ("a held pair names a rank the rack hasn't got", a_held_pair_names_a_rank_not_there),
    ("an open operation names a cell the rack hasn't got", an_operation_names_a_cell_not_there),
    ("an operation number is above 65,535", an_operation_number_is_above_the_last),
    ("a set has a replica not there", a_set_has_a_replica_not_there),
    ("a set is already a majority", a_set_is_already_a_majority),
    ("entries + answers owed exceeds 2,048", |rack| rack.record.len() + rack.answers_owed() > MOST_ENTRIES),
];

pub fn is_unsound(rack: &Rack) -> bool {
    FAULTS.iter().any(|(_, applies)| applies(rack))
}

fn open_operations(rack: &Rack) -> impl Iterator<Item = &Operation> {
    rack.own_clients().iter().filter_map(|client| client.open.as_ref())
}

fn a_message_names_what_is_not_there(rack: &Rack) -> bool {
    rack.wire.0.iter().flatten().any(|message| {
        let rank_not_there = message.pair().is_some_and(|pair| pair.stamp.rank >= rack.sizes.clients);
        message.client >= rack.sizes.clients
            || message.replica >= rack.sizes.replicas
            || message.cell >= rack.sizes.cells
            || rank_not_there
    })
}

fn a_pair_names_a_rank_not_there(rack: &Rack) -> bool {
    let cells = rack.sizes.cells as usize;
    let mut own_pairs = rack.own_replicas().iter().flat_map(|replica| &replica.pairs[..cells]);
    own_pairs.any(|pair| pair.stamp.rank >= rack.sizes.clients)
}

fn a_held_pair_names_a_rank_not_there(rack: &Rack) -> bool {
    let mut held = open_operations(rack).filter_map(|operation| operation.phase.held());
    held.any(|pair| pair.stamp.rank >= rack.sizes.clients)
}

fn an_operation_names_a_cell_not_there(rack: &Rack) -> bool {
    open_operations(rack).any(|operation| operation.cell >= rack.sizes.cells)
}

/// A client's operation number, or one that a message names.
fn an_operation_number_is_above_the_last(rack: &Rack) -> bool {
    let of_clients = rack.own_clients().iter().map(|client| client.op);
    let of_messages = rack.wire.0.iter().flatten().map(|message| message.op);
    of_clients.chain(of_messages).any(|op| op > LAST_OP)
}

fn a_set_has_a_replica_not_there(rack: &Rack) -> bool {
    let not_there = |replica| replica >= rack.sizes.replicas;
    open_operations(rack).any(|operation| operation.answered.members().any(not_there))
}

fn a_set_is_already_a_majority(rack: &Rack) -> bool {
    open_operations(rack).any(|operation| operation.answered.count() >= rack.sizes.majority())
}
