//! The Rattle engine, which runs in the program of host/, held to the paper's rack.

use crate::rattle::{Call, Library, Request, Source};
use compare::rack::lockstep::{Follower, Left};
use compare::rack::words::{encode, run_words, STATE_WORDS};
use compare::rack::{Rack, Ran, Sizes};
use compare::random::Random;
use std::io;

/// The library's rack, in the words of a state.
pub struct RattleRack(Library);

impl RattleRack {
    pub fn start() -> io::Result<RattleRack> {
        Library::start().map(RattleRack)
    }

    /// Asks for a call on a state with a schedule.
    fn ask(&mut self, call: Call, state: &[u32], allowance: usize, events: &[u32]) -> Result<Vec<Left>, String> {
        let source = [state, events].concat();
        let number = u32::try_from(allowance).unwrap_or(u32::MAX);
        let request = Request { call, source: Source::Words(&source), lent: state.len(), number, at: 0 };
        let mut batch = Vec::new();
        request.put_to(&mut batch);
        let responses = self.0.ask(&batch).map_err(|error| format!("{error}\n"))?;
        all_left(&responses)
    }

    fn ask_once(&mut self, call: Call, state: &[u32], allowance: usize, events: &[u32]) -> Result<Left, String> {
        let mut left = self.ask(call, state, allowance, events)?;
        left.pop().ok_or_else(|| "the host doesn't answer\n".to_string())
    }
}

impl Follower for RattleRack {
    fn steps(&mut self, start: &Rack, events: &[u32]) -> Result<Vec<Left>, String> {
        self.ask(Call::RackSteps, &encode(start), 1, events)
    }

    fn run(&mut self, start: &Rack, allowance: usize, events: &[u32]) -> Result<Left, String> {
        self.ask_once(Call::RackRun, &encode(start), allowance, events)
    }
}

/// Of each call: the answer in two words, what it changed of the state, and what it changed of the events. These are lent only
/// to be read, so that a change of them, or of what lies beside them, is a disagreement whatever the call answers.
fn all_left(responses: &[u8]) -> Result<Vec<Left>, String> {
    let mut words = responses.chunks_exact(4).map(|word| u32::from_le_bytes([word[0], word[1], word[2], word[3]]));
    let mut left = Vec::new();
    while let (Some(done), Some(refusal)) = (words.next(), words.next()) {
        let (changed, of_events) = (next_changes(&mut words), next_changes(&mut words));
        if let Some((place, word)) = of_events.first() {
            let (call, place) = (left.len(), *place as i32);
            return Err(format!(
                "the Rattle engine DOES NOT AGREE: call {call} of the schedule wrote {word:X} to place {place} of the events, \
                 which it was lent to read, or beside them\n"
            ));
        }
        left.push(Left { ran: ran_of(done, refusal), changed });
    }
    Ok(left)
}

/// A count, and as many places and words.
fn next_changes(words: &mut impl Iterator<Item = u32>) -> Vec<(u32, u32)> {
    let count = words.next().unwrap_or(0);
    (0..count).filter_map(|_| words.next().zip(words.next())).collect()
}

/// Bits 32 and more of an answer are the refusal; one that is no byte is none that the paper has.
fn ran_of(done: u32, refusal: u32) -> Ran {
    let refusal = (refusal != 0).then(|| u8::try_from(refusal).unwrap_or(u8::MAX));
    Ran { done: done as usize, refusal }
}

/// A word that isn't the same in the other words, with its place.
fn changes(before: &[u32], after: &[u32]) -> Vec<(u32, u32)> {
    let places = 0..before.len();
    places.filter(|place| before[*place] != after[*place]).map(|place| (place as u32, after[place])).collect()
}

/// Both answers, and how many words are changed on one side only, with the first of them. Places below 0 lie before the state.
fn side_by_side(paper: &Left, other: &Left) -> String {
    let mut lines = String::new();
    for (who, one, another) in [("the paper", paper, other), ("the other", other, paper)] {
        let alone: Vec<_> = one.changed.iter().filter(|change| !another.changed.contains(change)).collect();
        let first = alone.first().map(|(place, word)| format!(", the first at {}: {word:X}", *place as i32));
        let (ran, count) = (one.ran, alone.len());
        lines += &format!("  {who}: {ran:?}, {count} words changed otherwise{}\n", first.unwrap_or_default());
    }
    lines
}

/// The maker: every size near the limits and some far away, and lengths that are no rack's.
pub fn makers(rack: &mut RattleRack) -> Result<u64, String> {
    let mut tried = 0;
    let sizes = [0, 1, 2, 3, 8, 9, 15, 16, 17, 255, 256, 257, 65_536, u32::MAX];
    for replicas in sizes {
        for clients in [0, 1, 7, 8, 9, 257] {
            for cells in [0, 1, 15, 16, 17, 272] {
                one_maker(rack, Sizes { replicas, clients, cells })?;
                tried += 1;
            }
        }
    }
    for length in [0, 1, 4, STATE_WORDS - 1, STATE_WORDS + 1] {
        let unfit = Left { ran: Ran { done: 0, refusal: Some(20) }, changed: Vec::new() };
        let state = vec![3; length];
        let made = rack.ask_once(Call::RackMade, &state, 0, &[3, 2, 1])?;
        let ran = rack.ask_once(Call::RackRun, &state, 1, &[0, 0, 0, 0])?;
        if [&made, &ran] != [&unfit, &unfit] {
            return Err(format!("{length} words aren't refused 20: {made:?}, {ran:?}\n"));
        }
        tried += 2;
    }
    Ok(tried)
}

fn one_maker(rack: &mut RattleRack, sizes: Sizes) -> Result<(), String> {
    let (fresh, refusal) = Rack::make(sizes);
    let mut words = encode(&fresh);
    // The power of replicas that the rack hasn't got is no part of it.
    words[3] &= (1 << fresh.sizes.replicas) - 1;
    let before = vec![0xA5A5_A5A5; STATE_WORDS];
    let left = rack.ask_once(Call::RackMade, &before, 0, &[sizes.replicas, sizes.clients, sizes.cells])?;
    let expected = Left { ran: Ran { done: 0, refusal }, changed: changes(&before, &words) };
    if left != expected {
        return Err(format!("the maker of {sizes:?}:\n{}", side_by_side(&expected, &left)));
    }
    Ok(())
}

/// Any words in place of some of a state, so that it may be no state at all, or have what isn't looked at other than 0.
pub fn damaged(
    rack: &mut RattleRack,
    random: &mut Random,
    states: u64,
    make: fn(&mut Random) -> Rack,
) -> Result<u64, String> {
    for _ in 0..states {
        let mut before = encode(&make(random));
        for _ in 0..random.below(4) {
            let place = any_place(random);
            before[place] = any_word(random);
        }
        let events: Vec<u32> = (0..1 + random.below(3)).flat_map(|_| any_event(random)).collect();
        let mut after = before.clone();
        let ran = run_words(&mut after, events.len() / 4, &events);
        let expected = Left { ran, changed: changes(&before, &after) };
        let left = rack.ask_once(Call::RackRun, &before, events.len() / 4, &events)?;
        if left != expected {
            return Err(format!("a damaged state with {events:?}:\n{}", side_by_side(&expected, &left)));
        }
    }
    Ok(states)
}

/// The first words of each part more often than its last.
fn any_place(random: &mut Random) -> usize {
    let (from, count) = random.pick(&[(0, 5), (5, 80), (85, 720), (805, 90), (805, 2304), (3109, 40), (3109, 8192)]);
    from + random.below(count)
}

fn any_word(random: &mut Random) -> u32 {
    let small = random.below(18) as u32;
    random.pick(&[small, small, 255, 256, 2048, 2049, 32_767, 32_768, 65_535, 65_536, 65_537, u32::MAX])
}

fn any_event(random: &mut Random) -> [u32; 4] {
    let kind = random.below(9) as u32;
    let first = random.below(if (2..5).contains(&kind) { 12 } else { 4 }) as u32;
    [kind, first, random.below(4) as u32, random.below(9) as u32]
}

#[cfg(test)]
mod tests {
    use super::*;

    fn left_of(words: &[u32]) -> Result<Vec<Left>, String> {
        all_left(&words.iter().flat_map(|word| word.to_le_bytes()).collect::<Vec<u8>>())
    }

    #[test]
    fn answers_are_laid_out_as_the_header_says() {
        assert_eq!(ran_of(0, 0), Ran { done: 0, refusal: None });
        assert_eq!(ran_of(9, 13), Ran { done: 9, refusal: Some(13) });
        assert_eq!(ran_of(9, 1 << 8 | 13), Ran { done: 9, refusal: Some(u8::MAX) });
    }

    #[test]
    fn a_change_of_the_events_is_a_disagreement() {
        let left = Left { ran: Ran { done: 1, refusal: None }, changed: vec![(4, 7)] };
        assert_eq!(left_of(&[1, 0, 1, 4, 7, 0, 1, 0, 1, 4, 7, 0]), Ok(vec![left.clone(), left]));
        assert!(left_of(&[1, 0, 1, 4, 7, 0, 1, 0, 1, 4, 7, 1, 3, 0]).is_err());
    }
}
