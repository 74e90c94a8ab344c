//! The floating pins: "errors that look healthy".

use super::*;
use crate::paper::record::Entry;
use crate::rack::state::{Goal, Phase, ReplySet};

/// "Copies would make one replica a majority."
#[test]
fn copies_of_an_answer_make_no_majority() {
    let mut rack = fresh(3, 1, 1);
    done(&mut rack, &[write(0, 0, 9), deliver(0), Event::Copy { slot: 0 }, Event::Copy { slot: 0 }]);
    delivered(&mut rack, &[0, 3, 4]);
    let open = rack.clients[0].open.expect("the operation is still open");
    assert_eq!((open.answered, open.phase), (ReplySet(1), Phase::Asking { held: Some(pair(0, 0, 0)) }));
    delivered(&mut rack, &[1, 0]);
    // Keeps now in 0, 1 and 3; replica 0's kept is doubled, too.
    assert_eq!(wire(&rack).len(), 4);
    done(&mut rack, &[deliver(0), Event::Copy { slot: 0 }, Event::Copy { slot: 0 }]);
    delivered(&mut rack, &[0, 4, 5]);
    assert_eq!(rack.record.len(), 1);
    delivered(&mut rack, &[1, 0]);
    assert_eq!(rack.record.last(), Some(&Entry::Done { client: 0 }));
}

/// "A missing tell taken as stamp (0, 0) and value 0": the first is held whole, even where its stamp is no greater.
#[test]
fn the_first_tell_is_held_whole() {
    let mut rack = fresh(3, 1, 1);
    rack.replicas[0].pairs[0] = pair(0, 0, 5);
    done(&mut rack, &[read(0, 0), deliver(0), deliver(0)]);
    let open = rack.clients[0].open.expect("the operation is still open");
    assert_eq!(open.phase, Phase::Asking { held: Some(pair(0, 0, 5)) });
    // The second has the same stamp, so the first stays.
    delivered(&mut rack, &[1, 0]);
    let open = rack.clients[0].open.expect("the operation is still open");
    assert_eq!(open.phase, Phase::Keeping { held: pair(0, 0, 5) });
}

/// "Answering kept only when the pair was taken."
#[test]
fn kept_is_answered_either_way() {
    let mut rack = fresh(1, 2, 1);
    done(&mut rack, &[write(0, 0, 9), deliver(0), deliver(0)]);
    rack.replicas[0].pairs[0] = pair(5, 1, 3);
    delivered(&mut rack, &[0]);
    assert_eq!(rack.replicas[0].pairs[0], pair(5, 1, 3));
    assert_eq!(wire(&rack), [(0, 0, Body::Kept)]);
    delivered(&mut rack, &[0]);
    assert_eq!(rack.record.last(), Some(&Entry::Done { client: 0 }));
}

/// "A read that skips its keep: reads may then go backwards."
#[test]
fn a_read_keeps_before_it_tells() {
    let mut rack = fresh(3, 1, 1);
    rack.replicas[1].pairs[0] = pair(4, 0, 8);
    done(&mut rack, &[read(0, 0)]);
    delivered(&mut rack, &[0, 1, 0, 1]);
    assert_eq!(rack.record.len(), 1);
    let keep = Body::Keep(pair(4, 0, 8));
    assert_eq!(wire(&rack), [(0, 0, keep), (1, 1, keep), (2, 2, Body::Ask), (3, 2, keep)]);
    // The second kept finds slot 0 free.
    delivered(&mut rack, &[0, 0, 1, 0]);
    assert_eq!(rack.replicas[0].pairs[0], pair(4, 0, 8));
    assert_eq!(rack.record.last(), Some(&Entry::Told { client: 0, value: 8 }));
}

/// "Which takes the replica's own pair, not the greatest": in whichever order the tells come.
#[test]
fn the_greatest_pair_wins() {
    for order in [[0, 1], [1, 0]] {
        let mut rack = fresh(3, 2, 1);
        rack.replicas[0].pairs[0] = pair(7, 0, -1);
        rack.replicas[1].pairs[0] = pair(7, 1, -2);
        done(&mut rack, &[write(0, 0, 9), deliver(0), deliver(1)]);
        delivered(&mut rack, &order);
        let open = rack.clients[0].open.expect("the operation is still open");
        assert_eq!(open.phase, Phase::Keeping { held: pair(8, 0, 9) });
    }
    let mut rack = fresh(3, 2, 1);
    rack.replicas[0].pairs[0] = pair(7, 1, -1);
    rack.replicas[1].pairs[0] = pair(7, 0, -2);
    done(&mut rack, &[read(0, 0), deliver(0), deliver(1), deliver(0), deliver(1)]);
    assert_eq!(rack.clients[0].open.map(|open| open.phase), Some(Phase::Keeping { held: pair(7, 1, -1) }));
}

/// "The client's present request goes again to each replica not in its set, in order; the stamp isn't chosen anew."
#[test]
fn a_resend_has_the_same_pair_and_leaves_out_the_set() {
    let mut rack = fresh(3, 1, 1);
    done(&mut rack, &[write(0, 0, 9), deliver(1), deliver(1), Event::Resend { client: 0 }]);
    let asks: Vec<(usize, u32)> = wire(&rack).iter().map(|(slot, replica, _)| (*slot, *replica)).collect();
    assert_eq!(asks, [(0, 0), (1, 0), (2, 2), (3, 2)]);
    delivered(&mut rack, &[0, 0]);
    delivered(&mut rack, &[0, 0]);
    assert_eq!(rack.clients[0].open.map(|open| open.answered), Some(ReplySet(1)));
    let before = rack.wire.used();
    done(&mut rack, &[Event::Resend { client: 0 }]);
    assert_eq!(rack.wire.used(), before + 2);
    assert!(wire(&rack).iter().all(|(_, _, body)| matches!(body, Body::Ask) || *body == Body::Keep(pair(1, 0, 9))));
}

/// A stale answer, one for another phase and one to a stopped client are used up and nothing else happens.
#[test]
fn answers_that_do_not_count_are_used_up() {
    let mut rack = fresh(1, 1, 1);
    done(&mut rack, &[write(0, 0, 9), Event::Copy { slot: 0 }, deliver(0), deliver(0), deliver(1)]);
    // A keep in slot 0, the doubled tell in slot 1: the phase doesn't fit.
    let open = rack.clients[0].open;
    delivered(&mut rack, &[1]);
    assert_eq!((rack.clients[0].open, rack.wire.used()), (open, 1));
    done(&mut rack, &[deliver(0), Event::Copy { slot: 0 }, deliver(0), read(0, 0)]);
    // Slot 1 has a kept of operation 1, and operation 2 is open.
    delivered(&mut rack, &[1]);
    assert_eq!(rack.clients[0].open.map(|open| open.goal), Some(Goal::Read));
    done(&mut rack, &[deliver(0), Event::Stop { client: 0 }, deliver(0)]);
    assert_eq!(rack.clients[0].open.map(|open| open.answered), Some(ReplySet::EMPTY));
    assert_eq!((rack.wire.used(), rack.record.len()), (0, 3));
}
