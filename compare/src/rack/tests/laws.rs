//! What holds of every run.

use super::*;
use crate::law::{by_rule, by_search, judged_operations, Verdict};
use crate::paper::record::{bytes_of, read_record};
use crate::rack::driver::Driver;
use crate::rack::lockstep::{compare, Followed, Follower};
use crate::rack::quick::QuickRack;
use crate::rack::soundness::is_unsound;
use crate::rack::starts;
use crate::rack::state::Phase;
use crate::random::Random;

#[test]
fn records_of_fresh_racks_are_lawful() {
    let mut random = Random::from_seed(41);
    let (mut searched, mut ended) = (0, 0);
    for turn in 0..200 {
        // Many clients at one cell are what a rack could get wrong.
        let mut rack = if turn % 3 == 0 { starts::fresh(&mut random) } else { fresh(3 + turn % 3, 4, 1) };
        let mut driver = Driver::of_distinct_values(&mut random);
        for _ in 0..if turn % 10 == 0 { 1_000 } else { 300 } {
            let event = Event::from_words(driver.next(&mut random, &rack));
            let _ = rack.step(event);
        }
        let bytes = bytes_of(&rack.record);
        assert_eq!(read_record(&bytes), Ok(rack.record.clone()));
        let operations = judged_operations(&bytes).expect("29 doesn't refuse distinct values");
        assert_eq!(by_rule::verdict(&bytes), Verdict::Lawful, "{bytes:02X?}");
        if by_search::can_decide(&operations) {
            assert_eq!(by_search::verdict(&bytes), Verdict::Lawful, "{bytes:02X?}");
            searched += 1;
        }
        ended += operations.iter().filter(|operation| operation.stop.is_some()).count();
    }
    assert!(searched > 50 && ended > 1_000, "{searched} searched, {ended} operations ended");
}

/// What an event of a rack sends, counted from the event and the state before it.
fn messages_sent(rack: &Rack, event: Event) -> u32 {
    let replicas = rack.sizes.replicas;
    match event {
        Event::StartRead { .. } | Event::StartWrite { .. } => replicas,
        Event::Resend { client } => {
            let open = rack.clients[client as usize].open.expect("a resend that is done has an operation open");
            replicas - open.answered.count()
        }
        Event::Deliver { slot } => {
            let message = rack.wire.0[slot as usize].expect("a delivery that is done has a message");
            match message.body {
                Body::Ask | Body::Keep(_) => 1,
                Body::Tell(_) if rack.ask_phase_end(&message).is_some() => replicas,
                Body::Tell(_) | Body::Kept => 0,
            }
        }
        _ => 0,
    }
}

/// "From a fresh rack: slots in use equal messages sent plus copies, less deliveries, less losses, each counted from the
/// events done."
#[test]
fn slots_in_use_are_what_was_sent_and_copied_less_what_was_delivered_and_lost() {
    let mut random = Random::from_seed(42);
    for _ in 0..60 {
        let mut rack = starts::fresh(&mut random);
        let mut driver = Driver::any(&mut random);
        let (mut come, mut gone) = (0, 0);
        for _ in 0..400 {
            let event = Event::from_words(driver.next(&mut random, &rack));
            let before = rack.clone();
            if rack.step(event).is_ok() {
                come += messages_sent(&before, event) + u32::from(matches!(event, Event::Copy { .. }));
                gone += u32::from(matches!(event, Event::Deliver { .. } | Event::Lose { .. }));
            }
            assert_eq!(rack.wire.used() as u32 + gone, come);
        }
    }
}

/// "A finished operation has cost 2 requests per replica, plus its resends."
#[test]
fn a_finished_operation_has_cost_two_requests_per_replica() {
    for replicas in 1..=15 {
        let mut rack = fresh(replicas, 1, 1);
        let mut requests = messages_sent(&rack, read(0, 0));
        done(&mut rack, &[read(0, 0)]);
        while let Some(slot) = rack.wire.0.iter().position(Option::is_some) {
            let event = deliver(slot as u32);
            let is_request = !matches!(rack.wire.0[slot].map(|it| it.body), Some(Body::Ask | Body::Keep(_)));
            requests += if is_request { messages_sent(&rack, event) } else { 0 };
            done(&mut rack, &[event]);
        }
        assert_eq!((requests, rack.record.len()), (2 * replicas, 2));
    }
}

/// "An idle client has an empty set and holds nothing; so does one that has just started." And a sound rack stays sound.
#[test]
fn a_sound_rack_stays_sound_and_holds_something_exactly_after_a_tell() {
    let mut random = Random::from_seed(43);
    for turn in 0..300 {
        let mut rack = if turn % 3 == 0 { starts::fresh(&mut random) } else { starts::sound(&mut random) };
        let mut driver = Driver::any(&mut random);
        for _ in 0..100 {
            let _ = rack.step(Event::from_words(driver.next(&mut random, &rack)));
            assert!(!is_unsound(&rack));
            for open in rack.own_clients().iter().filter_map(|client| client.open) {
                if let Phase::Asking { held } = open.phase {
                    assert_eq!(held.is_none(), open.answered.is_empty());
                }
            }
        }
    }
}

#[test]
fn the_quick_rack_says_what_the_clear_rack_says() {
    let quick: Box<dyn Follower> = Box::new(Followed::<QuickRack>::default());
    let tally = compare(&mut [("the quick rack", quick)], &mut Random::from_seed(44), 30_000)
        .unwrap_or_else(|trouble| panic!("{trouble}"));
    assert!(tally.done.iter().take(9).all(|times| *times > 0), "{tally:?}");
    assert!(tally.refused[2..].iter().all(|times| *times > 0), "{tally:?}");
    assert!(tally.done.iter().sum::<u64>() > tally.events / 2, "{tally:?}");
}
