//! The bench sheet's lines on the engine.

use super::*;
use crate::paper::record::Entry;
use crate::rack::state::SLOTS;

#[test]
fn three_replicas_and_a_write_of_9() {
    let mut rack = fresh(3, 1, 1);
    done(&mut rack, &[write(0, 0, 9)]);
    assert_eq!(wire(&rack), [(0, 0, Body::Ask), (1, 1, Body::Ask), (2, 2, Body::Ask)]);
    delivered(&mut rack, &[0, 1, 0, 1]);
    let keep = Body::Keep(pair(1, 0, 9));
    assert_eq!(wire(&rack), [(0, 0, keep), (1, 1, keep), (2, 2, Body::Ask), (3, 2, keep)]);
    delivered(&mut rack, &[0, 1, 0, 1]);
    assert_eq!(rack.record, [Entry::WriteAsked { client: 0, cell: 0, value: 9 }, Entry::Done { client: 0 }]);
    assert_eq!(wire(&rack), [(2, 2, Body::Ask), (3, 2, keep)]);
    assert_eq!(rack.replicas[0].pairs[0], pair(1, 0, 9));
    assert_eq!(rack.replicas[1].pairs[0], pair(1, 0, 9));
    assert_eq!(rack.replicas[2].pairs[0], pair(0, 0, 0));
}

/// "Sent 10, delivered 8": three asks, two tells, three keeps, two kepts.
#[test]
fn the_write_of_9_sends_10_and_delivers_8() {
    let mut rack = fresh(3, 1, 1);
    let events: Vec<Event> = [write(0, 0, 9)].into_iter().chain([0, 1, 0, 1, 0, 1, 0, 1].map(deliver)).collect();
    let (mut sent, mut deliveries) = (0, 0);
    for event in events {
        sent += rack.clone().act(event).len();
        deliveries += usize::from(matches!(event, Event::Deliver { .. }));
        done(&mut rack, &[event]);
    }
    assert_eq!((sent, deliveries, rack.wire.used()), (10, 8, 2));
}

#[test]
fn sizes_that_are_made_and_that_are_refused() {
    assert_eq!(Rack::make(Sizes { replicas: 15, clients: 8, cells: 16 }).1, None);
    let of_size_1 = fresh(1, 1, 1);
    for sizes in [[16, 8, 16], [0, 8, 16], [15, 9, 16], [15, 0, 16], [15, 8, 17], [15, 8, 0], [u32::MAX, 1, 1]] {
        let [replicas, clients, cells] = sizes;
        assert_eq!(Rack::make(Sizes { replicas, clients, cells }), (of_size_1.clone(), Some(1)), "{sizes:?}");
    }
}

#[test]
fn majorities() {
    let majority = |replicas| Sizes { replicas, clients: 1, cells: 1 }.majority();
    assert_eq!([1, 2, 3, 4, 15].map(majority), [1, 2, 2, 3, 8]);
}

#[test]
fn all_256_slots_used() {
    let mut rack = fresh(1, 1, 1);
    done(&mut rack, &[read(0, 0)]);
    done(&mut rack, &[Event::Copy { slot: 0 }; SLOTS - 1]);
    assert_eq!(rack.wire.free(), 0);
    assert_eq!(refusal(&rack, Event::Copy { slot: 7 }), Some(13));
    delivered(&mut rack, &[7]);
    assert_eq!(rack.wire.0[7].map(|message| message.body), Some(Body::Tell(pair(0, 0, 0))));
    assert_eq!(rack.wire.free(), 0);
    done(&mut rack, &[Event::Off { replica: 0 }]);
    assert_eq!(refusal(&rack, deliver(8)), Some(8));
}
