//! Holds another engine to the clear rack: the same states, the same events, and after every event the same answer and the
//! same whole state. Then each schedule is run once more in one go, with an allowance.
//!
//! A schedule's events depend on the clear rack alone. So they are made first, with what each left, and then any engine is
//! asked what it leaves, event by event: its answer, and of the state as words all that changed. The same start and the same
//! changes are the same whole state after every event.

use super::driver::Driver;
use super::event::{Event, EVENT_WORDS};
use super::quick::QuickRack;
use super::schedule::Ran;
use super::starts::{self, Edit, UNSOUND};
use super::state::Rack;
use super::words::encode;
use crate::random::Random;
use std::fmt;
use std::marker::PhantomData;

/// A rack that can be held to the clear one.
pub trait Engine: Sized {
    fn load(rack: &Rack) -> Self;
    fn run(&mut self, allowance: usize, events: &[u32]) -> Ran;
    fn state(&self) -> Rack;
}

/// What a call left: its answer, and places and new words of all that it changed.
#[derive(Clone, Debug, PartialEq, Eq)]
pub struct Left {
    pub ran: Ran,
    pub changed: Vec<(u32, u32)>,
}

/// A rack, here or elsewhere, that tells what it leaves.
pub trait Follower {
    /// Tries each event in a call of its own.
    fn steps(&mut self, start: &Rack, events: &[u32]) -> Result<Vec<Left>, String>;
    /// Runs them in one call.
    fn run(&mut self, start: &Rack, allowance: usize, events: &[u32]) -> Result<Left, String>;
}

/// An engine of this program, that is followed where it runs.
pub struct Followed<E>(PhantomData<E>);

impl<E> Default for Followed<E> {
    fn default() -> Followed<E> {
        Followed(PhantomData)
    }
}

impl<E: Engine> Follower for Followed<E> {
    fn steps(&mut self, start: &Rack, events: &[u32]) -> Result<Vec<Left>, String> {
        let (mut engine, mut words) = (E::load(start), encode(start));
        let one = |event| Left { ran: engine.run(1, event), changed: changes(&mut words, encode(&engine.state())) };
        Ok(events.chunks_exact(EVENT_WORDS).map(one).collect())
    }

    fn run(&mut self, start: &Rack, allowance: usize, events: &[u32]) -> Result<Left, String> {
        let mut engine = E::load(start);
        let ran = engine.run(allowance, events);
        Ok(Left { ran, changed: changes(&mut encode(start), encode(&engine.state())) })
    }
}

/// What is other in the new words; the old ones become the new.
fn changes(words: &mut Vec<u32>, new: Vec<u32>) -> Vec<(u32, u32)> {
    let other = |place: &usize| words[*place] != new[*place];
    let changed = (0..new.len()).filter(other).map(|place| (place as u32, new[place])).collect();
    *words = new;
    changed
}

impl Engine for QuickRack {
    fn load(rack: &Rack) -> QuickRack {
        QuickRack::from_rack(rack)
    }

    fn run(&mut self, allowance: usize, events: &[u32]) -> Ran {
        QuickRack::run(self, allowance, events)
    }

    fn state(&self) -> Rack {
        self.to_rack()
    }
}

/// What was compared: events of each kind done (the tenth is what is no event), and how often each refusal came.
#[derive(Clone, Debug, Default)]
pub struct Tally {
    pub schedules: u64,
    pub events: u64,
    pub done: [u64; 10],
    pub refused: [u64; 14],
}

impl Tally {
    /// The two together.
    pub fn and(&self, other: &Tally) -> Tally {
        Tally {
            schedules: self.schedules + other.schedules,
            events: self.events + other.events,
            done: std::array::from_fn(|kind| self.done[kind] + other.done[kind]),
            refused: std::array::from_fn(|refusal| self.refused[refusal] + other.refused[refusal]),
        }
    }

    fn count(&mut self, event: [u32; EVENT_WORDS], ran: Ran) {
        self.events += 1;
        match ran.refusal {
            Some(refusal) => self.refused[usize::from(refusal)] += 1,
            None => self.done[event[0].min(9) as usize] += 1,
        }
    }
}

impl fmt::Display for Tally {
    fn fmt(&self, f: &mut fmt::Formatter<'_>) -> fmt::Result {
        let done: u64 = self.done.iter().sum();
        write!(f, "{} events of {} schedules, {done} done; refused", self.events, self.schedules)?;
        for (number, times) in self.refused.iter().enumerate().skip(2) {
            write!(f, " {number}: {times}")?;
        }
        Ok(())
    }
}

/// Compares until at least so many events were tried, or gives the first disagreement in words.
pub fn compare(followers: &mut [(&str, Box<dyn Follower>)], random: &mut Random, events: u64) -> Result<Tally, String> {
    let mut tally = Tally::default();
    let mut next_edit = UNSOUND.iter().cycle();
    while tally.events < events {
        let (start, length) = beginning(random, &mut next_edit);
        one_schedule(followers, random, &start, length, &mut tally)
            .map_err(|trouble| format!("after {} events: {trouble}", tally.events))?;
    }
    Ok(tally)
}

/// A state to begin with, and how many events to try from it: all unsound states refuse alike, so they come in turn and
/// briefly, and a fresh rack needs a long schedule for much to happen.
fn beginning<'edits>(random: &mut Random, next_edit: &mut impl Iterator<Item = &'edits Edit>) -> (Rack, usize) {
    match random.below(16) {
        0..=3 => {
            let edit = next_edit.next().expect("the kinds of unsoundness come again and again");
            (starts::unsound(random, *edit), 2)
        }
        4..=7 => (starts::fresh(random), 100 + random.below(1_500)),
        8 if random.one_in(3) => (starts::fresh(random), 12_000),
        _ => (starts::sound(random), 10 + random.below(250)),
    }
}

type Followers<'names, 'list> = &'list mut [(&'names str, Box<dyn Follower>)];

fn one_schedule(
    followers: Followers,
    random: &mut Random,
    start: &Rack,
    length: usize,
    tally: &mut Tally,
) -> Result<(), String> {
    let mut driver = Driver::any(random);
    let (mut clear, mut words) = (start.clone(), encode(start));
    let (mut tried, mut done, mut left) = (Vec::new(), Vec::new(), Vec::new());
    for _ in 0..length {
        let event = driver.next(random, &clear);
        let ran = clear.run(1, &[Event::from_words(event)]);
        tried.extend(event);
        left.push(Left { ran, changed: changes(&mut words, encode(&clear)) });
        tally.count(event, ran);
        if ran.done == 1 {
            done.extend(event);
        }
        let mut own_clients = clear.clients.iter().take(start.sizes.clients as usize);
        if own_clients.all(|client| client.stopped) && random.one_in(20) {
            break;
        }
    }
    tally.schedules += 1;
    for (name, follower) in followers.iter_mut() {
        held_to(name, start, &tried, &left, &follower.steps(start, &tried)?)?;
    }
    // What was refused would end a run, so the run has what was done, then an event that may be refused, then a part of one.
    done.extend(driver.next(random, &clear));
    done.extend(&[2, 0, 0][..random.below(4)]);
    in_one_go(followers, random, start, &done)
}

fn in_one_go(followers: Followers, random: &mut Random, start: &Rack, words: &[u32]) -> Result<(), String> {
    let events = Event::schedule(words);
    let any = random.below(events.len() + 1);
    let allowance = random.pick(&[0, 1, any, events.len(), u32::MAX as usize]);
    let mut clear = start.clone();
    let ran = clear.run(allowance, &events);
    let left = Left { ran, changed: changes(&mut encode(start), encode(&clear)) };
    for (name, follower) in followers.iter_mut() {
        let other = follower.run(start, allowance, words)?;
        held_to(name, start, words, std::slice::from_ref(&left), &[other])
            .map_err(|trouble| format!("a run of {} events with allowance {allowance}: {trouble}", events.len()))?;
    }
    Ok(())
}

fn held_to(name: &str, start: &Rack, events: &[u32], clear: &[Left], other: &[Left]) -> Result<(), String> {
    if clear == other {
        return Ok(());
    }
    let step = clear.iter().zip(other).take_while(|(clear, other)| clear == other).count();
    let shown = &events[EVENT_WORDS * step..];
    let event = Event::schedule(&shown[..shown.len().min(EVENT_WORDS)]);
    let mut lines =
        format!("{name} DOES NOT AGREE at event {step} of a schedule, {event:?}, sizes {:?}\n", start.sizes);
    for (who, left) in [("the paper", clear.get(step)), ("the other", other.get(step))] {
        let Some(Left { ran, changed }) = left else { continue };
        lines +=
            &format!("  {who}: {ran:?}, {} words changed: {:?}\n", changed.len(), &changed[..changed.len().min(24)]);
    }
    Err(lines)
}
