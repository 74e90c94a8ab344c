//! Each refusal, each before those after it, and each kind of unsound state.

use super::*;
use crate::making;
use crate::rack::refusals::REFUSALS;
use crate::rack::soundness::{is_unsound, FAULTS};
use crate::rack::starts::{self, UNSOUND};
use crate::rack::state::{LAST_OP, LAST_STAMP_NUMBER, SLOTS};
use crate::random::Random;

fn resend(client: u32) -> Event {
    Event::Resend { client }
}

fn stop(client: u32) -> Event {
    Event::Stop { client }
}

/// A rack whose wire is full of copies of an ask of client 0 to replica 0.
fn full_wire(replicas: u32, clients: u32) -> Rack {
    let mut rack = fresh(replicas, clients, 1);
    done(&mut rack, &[write(0, 0, 1)]);
    done(&mut rack, &vec![Event::Copy { slot: 0 }; SLOTS - replicas as usize]);
    rack
}

#[test]
fn the_table_has_2_to_13_in_order() {
    let numbers: Vec<u8> = REFUSALS.iter().map(|(number, ..)| *number).collect();
    assert_eq!(numbers, (2..=13).collect::<Vec<u8>>());
}

#[test]
fn every_kind_of_unsound_state_is_refused_2_as_soon_as_an_event_is_tried() {
    let mut random = Random::from_seed(31);
    let mut found = [false; FAULTS.len()];
    for edit in UNSOUND {
        for _ in 0..40 {
            let mut rack = starts::unsound(&mut random, edit);
            let first_fault = FAULTS.iter().position(|(_, applies)| applies(&rack));
            found[first_fault.unwrap_or_else(|| panic!("{} is sound", edit.0))] = true;
            for event in [Event::Unknown { kind: 9 }, deliver(0), read(u32::MAX, 0)] {
                assert_eq!(refusal(&rack, event), Some(2), "{}", edit.0);
            }
            assert_eq!(rack.run(0, &[deliver(0)]), Ran { done: 0, refusal: None });
            assert_eq!(rack.run(5, &[]), Ran { done: 0, refusal: None });
        }
    }
    assert_eq!(found, [true; FAULTS.len()]);
}

#[test]
fn what_lies_beyond_the_sizes_is_not_looked_at() {
    let mut random = Random::from_seed(32);
    for _ in 0..500 {
        assert!(!is_unsound(&starts::sound(&mut random)));
    }
}

#[test]
fn refused_3() {
    let rack = fresh(2, 3, 4);
    let not_there = [read(3, 0), read(0, 4), write(3, 0, 1), write(0, 4, 1), resend(3), stop(3), read(256, 0)];
    let not_there_either = [Event::Off { replica: 2 }, Event::On { replica: 2 }, Event::Unknown { kind: 9 }];
    let no_slot = [deliver(256), Event::Lose { slot: 256 }, Event::Copy { slot: u32::MAX }];
    for event in not_there.into_iter().chain(not_there_either).chain(no_slot) {
        assert_eq!(refusal(&rack, event), Some(3), "{event:?}");
    }
}

#[test]
fn refused_4() {
    let rack = fresh(2, 3, 4);
    for event in [deliver(255), Event::Lose { slot: 0 }, Event::Copy { slot: 0 }] {
        assert_eq!(refusal(&rack, event), Some(4), "{event:?}");
    }
}

#[test]
fn refused_5_before_6_7_and_10() {
    let mut rack = fresh(1, 2, 1);
    rack.clients[0].op = LAST_OP - 1;
    done(&mut rack, &[read(0, 0), stop(0), stop(1)]);
    for event in [read(0, 0), write(0, 0, 1), resend(0), stop(0), resend(1), stop(1)] {
        assert_eq!(refusal(&rack, event), Some(5), "{event:?}");
    }
}

#[test]
fn refused_6_before_10_11_and_13_and_refused_7() {
    let mut rack = full_wire(1, 2);
    rack.clients[0].op = LAST_OP;
    rack.record = making::record(&mut Random::from_seed(1), 2047);
    assert_eq!(refusal(&rack, read(0, 0)), Some(6));
    assert_eq!(refusal(&rack, write(0, 0, 1)), Some(6));
    assert_eq!(refusal(&rack, resend(1)), Some(7));
}

#[test]
fn refused_8_for_asks_and_keeps_alone() {
    let mut rack = fresh(1, 1, 1);
    done(&mut rack, &[write(0, 0, 1), Event::Off { replica: 0 }]);
    assert_eq!(refusal(&rack, deliver(0)), Some(8));
    done(&mut rack, &[Event::On { replica: 0 }, deliver(0), Event::Off { replica: 0 }]);
    // A tell goes to a client.
    delivered(&mut rack, &[0]);
    assert_eq!(refusal(&rack, deliver(0)), Some(8));
    done(&mut rack, &[Event::On { replica: 0 }, deliver(0), Event::Off { replica: 0 }, deliver(0)]);
    assert_eq!(rack.record.len(), 2);
}

#[test]
fn refused_9() {
    let mut rack = fresh(2, 1, 1);
    assert_eq!(refusal(&rack, Event::On { replica: 1 }), Some(9));
    done(&mut rack, &[Event::Off { replica: 1 }]);
    assert_eq!(refusal(&rack, Event::Off { replica: 1 }), Some(9));
    done(&mut rack, &[Event::On { replica: 1 }]);
}

#[test]
fn refused_10_before_11_before_13() {
    let mut rack = full_wire(1, 2);
    rack.clients[1].op = LAST_OP;
    // One answer is owed, so 2,045 entries leave room for two more and 2,046 don't.
    rack.record = making::record(&mut Random::from_seed(1), 2046);
    assert_eq!(refusal(&rack, read(1, 0)), Some(10));
    rack.clients[1].op = LAST_OP - 1;
    assert_eq!(refusal(&rack, read(1, 0)), Some(11));
    rack.record.pop();
    assert_eq!(refusal(&rack, read(1, 0)), Some(13));
    done(&mut rack, &[Event::Lose { slot: 0 }, read(1, 0)]);
    assert_eq!((rack.clients[1].op, rack.record.len()), (LAST_OP, 2046));
}

#[test]
fn a_stopped_client_is_owed_nothing() {
    let mut rack = fresh(1, 2, 1);
    done(&mut rack, &[read(0, 0)]);
    rack.record = making::record(&mut Random::from_seed(1), 2046);
    assert_eq!(refusal(&rack, read(1, 0)), Some(11));
    done(&mut rack, &[stop(0), read(1, 0)]);
}

/// A rack in which the delivery of slot 0 ends the ask phase of client 0 with this held number, on a full wire.
fn last_tell(held_number: u32, event: Event) -> Rack {
    let mut rack = fresh(2, 1, 1);
    rack.replicas[0].pairs[0] = pair(held_number, 0, 4);
    done(&mut rack, &[event, deliver(0), deliver(0), deliver(1)]);
    // The tell of replica 1, in slot 0, is the last one: the greatest is held already.
    assert_eq!(wire(&rack), [(0, 1, Body::Tell(pair(0, 0, 0)))]);
    done(&mut rack, &[Event::Copy { slot: 0 }; SLOTS - 1]);
    rack
}

#[test]
fn refused_12_before_13() {
    let mut rack = last_tell(LAST_STAMP_NUMBER, write(0, 0, 1));
    assert_eq!(refusal(&rack, deliver(9)), Some(12));
    done(&mut rack, &[Event::Lose { slot: 200 }]);
    assert_eq!(refusal(&rack, deliver(9)), Some(12));
    // A read chooses no stamp, and neither number is the last here.
    assert_eq!(refusal(&last_tell(LAST_STAMP_NUMBER, read(0, 0)), deliver(9)), Some(13));
    assert_eq!(refusal(&last_tell(LAST_STAMP_NUMBER - 1, write(0, 0, 1)), deliver(9)), Some(13));
}

#[test]
fn refused_13() {
    let mut rack = full_wire(3, 2);
    for event in [read(1, 0), resend(0), Event::Copy { slot: 3 }] {
        assert_eq!(refusal(&rack, event), Some(13), "{event:?}");
    }
    done(&mut rack, &[Event::Lose { slot: 5 }, Event::Lose { slot: 6 }]);
    assert_eq!(refusal(&rack, read(1, 0)), Some(13));
    assert_eq!(refusal(&rack, resend(0)), Some(13));
    done(&mut rack, &[Event::Lose { slot: 7 }, read(1, 0)]);
    assert_eq!([5, 6, 7].map(|slot: usize| rack.wire.0[slot].map(|message| message.client)), [Some(1); 3]);
}

/// A delivered tell leaves one free slot for the keeps that it sends.
#[test]
fn the_delivered_slot_counts_as_free() {
    let mut rack = last_tell(5, write(0, 0, 1));
    assert_eq!(refusal(&rack, deliver(9)), Some(13));
    done(&mut rack, &[Event::Lose { slot: 200 }, deliver(9)]);
    let keep = Body::Keep(pair(6, 0, 1));
    assert_eq!(
        [9, 200].map(|slot: usize| rack.wire.0[slot].map(|it| (it.replica, it.body))),
        [Some((0, keep)), Some((1, keep))]
    );
}

#[test]
fn a_run_stops_at_the_refusal_the_allowance_or_the_end() {
    let events = [read(0, 0), deliver(0), deliver(9), deliver(0)];
    let run = |allowance, events: &[Event]| fresh(1, 1, 1).run(allowance, events);
    assert_eq!(run(9, &events), Ran { done: 2, refusal: Some(4) });
    assert_eq!(run(3, &events), Ran { done: 2, refusal: Some(4) });
    assert_eq!(run(2, &events), Ran { done: 2, refusal: None });
    assert_eq!(run(0, &events), Ran { done: 0, refusal: None });
    assert_eq!(run(9, &events[..2]), Ran { done: 2, refusal: None });
    assert_eq!(run(9, &[]), Ran { done: 0, refusal: None });
}
