//! Long schedules to be timed: 3, 5 and 15 replicas, on a wire that is nearly empty and on one that is nearly full. None of
//! their events is refused.

use super::event::Event;
use super::lockstep::Engine;
use super::refusals::refusal_of;
use super::schedule::Ran;
use super::state::{Rack, Sizes, SLOTS};
use crate::random::Random;
use std::time::Instant;

pub struct Schedule {
    pub name: String,
    pub start: Rack,
    /// Four words an event.
    pub words: Vec<u32>,
    pub events: usize,
}

const CLIENTS: u32 = 4;
const CELLS: u32 = 4;
/// A full record ends a schedule earlier where there are few replicas.
const MOST_EVENTS: usize = 40_000;
/// So many choices in a row that can't be done end a schedule too.
const MOST_IDLE_CHOICES: usize = 1_000;

pub fn schedules() -> Vec<Schedule> {
    let mut schedules = Vec::new();
    for replicas in [3, 5, 15] {
        schedules.push(schedule(format!("{replicas:2} replicas, wire nearly empty"), nearly_empty(replicas)));
        schedules.push(schedule(format!("{replicas:2} replicas, wire nearly full"), nearly_full(replicas)));
    }
    schedules
}

fn nearly_empty(replicas: u32) -> Rack {
    Rack::make(Sizes { replicas, clients: CLIENTS, cells: CELLS }).0
}

/// A client that has stopped leaves so many copies of its ask in the lowest slots that two requests to every replica are
/// about all that still fits. Nobody delivers them.
fn nearly_full(replicas: u32) -> Rack {
    let mut rack = nearly_empty(replicas);
    let stopped = CLIENTS - 1;
    let left_free = 2 * replicas as usize + 2;
    let copies = SLOTS - left_free - replicas as usize;
    let start = [Event::StartRead { client: stopped, cell: 0 }];
    let events = [&start[..], &vec![Event::Copy { slot: 0 }; copies], &[Event::Stop { client: stopped }]].concat();
    let ran = rack.run(usize::MAX, &events);
    assert_eq!(ran, Ran { done: events.len(), refusal: None });
    rack
}

/// Operations one over the other as far as they fit, delivered in any order; now and then a message is lost, and resent.
fn schedule(name: String, start: Rack) -> Schedule {
    let mut random = Random::from_seed(u64::from(start.sizes.replicas));
    let mut rack = start.clone();
    let lowest_slot = start.wire.used();
    let (mut words, mut idle_choices) = (Vec::new(), 0);
    while words.len() < 4 * MOST_EVENTS && idle_choices < MOST_IDLE_CHOICES {
        let event = choice(&mut random, &rack, lowest_slot);
        idle_choices += 1;
        if refusal_of(&rack, event).is_none() {
            rack.run(1, &[event]);
            words.extend(event.words());
            idle_choices = 0;
        }
    }
    Schedule { name, start, events: words.len() / 4, words }
}

fn choice(random: &mut Random, rack: &Rack, lowest_slot: usize) -> Event {
    let (client, cell) = (random.below(CLIENTS as usize) as u32, random.below(CELLS as usize) as u32);
    let under_way: Vec<usize> = (lowest_slot..SLOTS).filter(|slot| rack.wire.0[*slot].is_some()).collect();
    let starts = under_way.is_empty() || random.one_in(8);
    match (starts, random.below(100)) {
        (true, _) if random.one_in(2) => Event::StartRead { client, cell },
        (true, _) => Event::StartWrite { client, cell, value: random.word() as i32 },
        (false, 0 | 1) => Event::Lose { slot: random.pick(&under_way) as u32 },
        (false, 2) => Event::Resend { client },
        (false, _) => Event::Deliver { slot: random.pick(&under_way) as u32 },
    }
}

const ROUNDS: usize = 15;

/// Nanoseconds per event when the whole schedule is one run: the quickest of some rounds.
pub fn of_a_run<E: Engine>(schedule: &Schedule) -> f64 {
    quickest(schedule, |engine: &mut E| engine.run(usize::MAX, &schedule.words).done)
}

/// Nanoseconds per event when each event is a run of its own, so that the state is looked at each time.
pub fn of_steps<E: Engine>(schedule: &Schedule) -> f64 {
    quickest(schedule, |engine: &mut E| schedule.words.chunks_exact(4).map(|event| engine.run(1, event).done).sum())
}

fn quickest<E: Engine>(schedule: &Schedule, run_all: impl Fn(&mut E) -> usize) -> f64 {
    let round = |_| {
        let mut engine = E::load(&schedule.start);
        let begun = Instant::now();
        let done = run_all(&mut engine);
        let seconds = begun.elapsed().as_secs_f64();
        assert_eq!(done, schedule.events, "no event of the schedule is refused");
        seconds * 1e9 / schedule.events as f64
    };
    (0..ROUNDS).map(round).fold(f64::INFINITY, f64::min)
}
