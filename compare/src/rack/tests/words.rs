//! A rack as numbers.

use super::*;
use crate::rack::driver::Driver;
use crate::rack::starts::{self, UNSOUND};
use crate::rack::words::*;
use crate::random::Random;

#[test]
fn the_words_of_a_small_rack() {
    let mut rack = fresh(2, 1, 1);
    done(&mut rack, &[write(0, 0, -3), deliver(0), deliver(0)]);
    let words = encode(&rack);
    assert_eq!(words.len(), 11_301);
    assert_eq!(words[..5], [2, 1, 1, 0x7FFF, 1]);
    // Not stopped, operation 1, asking, cell 0, a write of -3, answered by replica 0, (0, 0) and 0 held.
    assert_eq!(words[CLIENTS_AT..PAIRS_AT][..10], [0, 1, 1, 0, 1, 5, 1, 0, 0, 0]);
    assert_eq!(words[SLOTS_AT..][..9], [0; 9]);
    assert_eq!(words[SLOTS_AT + 9..][..9], [1, 0, 0, 1, 0, 1, 0, 0, 0]);
    assert_eq!(words[ENTRIES_AT..][..8], [1, 0, 0, 5, 0, 0, 0, 0]);
}

#[test]
fn a_rack_is_decoded_as_it_was_encoded() {
    let mut random = Random::from_seed(61);
    let mut racks: Vec<Rack> = (0..300).map(|_| starts::sound(&mut random)).collect();
    racks.extend(UNSOUND.map(|edit| starts::unsound(&mut random, edit)));
    for rack in racks {
        let words = encode(&rack);
        assert_eq!(words.len(), STATE_WORDS);
        assert_eq!(decode(&words), Some(rack));
    }
}

#[test]
fn a_run_on_words_is_the_run_on_the_rack() {
    let mut random = Random::from_seed(62);
    for _ in 0..200 {
        let mut rack = starts::sound(&mut random);
        let (mut words, mut driver) = (encode(&rack), Driver::any(&mut random));
        for _ in 0..10 {
            let event = driver.next(&mut random, &rack);
            let ran = rack.run(1, &[Event::from_words(event)]);
            assert_eq!(run_words(&mut words, 1, &event), ran);
            assert_eq!(words, encode(&rack));
        }
    }
}

#[test]
fn words_that_are_no_state_are_unsound() {
    let good = encode(&fresh(3, 2, 2));
    let edits = [
        (3, 1 << 15),
        (4, 2049),
        (CLIENTS_AT, 2),
        (CLIENTS_AT + 2, 3),
        (SLOTS_AT, 2),
        (4, u32::MAX),
        (CLIENTS_AT + 12, u32::MAX),
    ];
    for (place, word) in edits {
        let mut words = good.clone();
        words[place] = word;
        let before = words.clone();
        assert_eq!(decode(&words), None, "{place}");
        assert_eq!(run_words(&mut words, 1, &[9, 0, 0, 0]), Ran { done: 0, refusal: Some(2) });
        assert_eq!(run_words(&mut words, 1, &[9, 0, 0]), Ran { done: 0, refusal: None });
        assert_eq!(run_words(&mut words, 0, &[9, 0, 0, 0]), Ran { done: 0, refusal: None });
        assert_eq!(words, before);
    }
    assert_eq!(decode(&good[1..]), None);
    assert_eq!(decode(&[]), None);
}

#[test]
fn an_entry_that_no_record_has_is_no_state() {
    let good = encode(&fresh(3, 2, 2));
    let with_entry = |row: [u32; 4], count: u32| {
        let mut words = good.clone();
        words[4] = count;
        words[ENTRIES_AT..ENTRIES_AT + 4].copy_from_slice(&row);
        words
    };
    for row in [[4, 0, 0, 0], [0, 8, 0, 0], [3, 8, 0, 0], [0, 0, 16, 0], [1, 0, 16, 0]] {
        assert_eq!(decode(&with_entry(row, 1)), None, "{row:?}");
        assert!(decode(&with_entry(row, 0)).is_some(), "{row:?} beyond the count");
    }
    // A client and a cell that this rack hasn't got, an end without a start, and fields that the kind hasn't got.
    for row in [[1, 7, 15, 9], [3, 0, 0, 0], [2, 0, 16, 5], [3, 0, 99, 99]] {
        let mut words = with_entry(row, 1);
        assert_eq!(run_words(&mut words, 1, &[0, 0, 0, 0]), Ran { done: 1, refusal: None }, "{row:?}");
    }
}
