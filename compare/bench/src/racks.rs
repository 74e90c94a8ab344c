//! Times the Rattle engine beside the quick rack: the same schedules, in one run.

use compare::rack::lockstep::Engine;
use compare::rack::quick::QuickRack;
use compare::rack::timing::{self, Schedule};
use compare::rack::words::{decode, encode};
use compare::rack::{Rack, Ran};
use std::fs::{self, File};
use std::process::Command;
use std::time::Instant;

extern "C" {
    fn adze_rack_run(rack: *mut u32, words: usize, allowance: u32, events: *const u32, event_words: usize) -> u64;
}

/// The Rattle engine's rack, in its words.
struct RattleRack(Vec<u32>);

impl Engine for RattleRack {
    fn load(rack: &Rack) -> RattleRack {
        RattleRack(encode(rack))
    }

    fn run(&mut self, allowance: usize, events: &[u32]) -> Ran {
        let allowance = u32::try_from(allowance).unwrap_or(u32::MAX);
        // SAFETY: the call reads and writes these words and reads these events, as many as it is told, and keeps nothing.
        let answer = unsafe { adze_rack_run(self.0.as_mut_ptr(), self.0.len(), allowance, events.as_ptr(), events.len()) };
        let refusal = (answer >> 32) as u8;
        Ran { done: answer as u32 as usize, refusal: (refusal != 0).then_some(refusal) }
    }

    fn state(&self) -> Rack {
        decode(&self.0).expect("a run leaves a state")
    }
}

/// So many rounds of each engine take turns, and the quickest counts: some of them have the processor to themselves even
/// where others use the machine.
const ROUNDS: usize = 60;
const EVENTS_BY_THEMSELVES: usize = 500;

/// Nanoseconds per event of a round, in one run or event by event.
fn round<E: Engine>(schedule: &Schedule, events: usize, by_themselves: bool) -> f64 {
    let mut engine = E::load(&schedule.start);
    let words = &schedule.words[..4 * events];
    let begun = Instant::now();
    let done = if by_themselves {
        words.chunks_exact(4).map(|event| engine.run(1, event).done).sum()
    } else {
        engine.run(usize::MAX, words).done
    };
    let seconds = begun.elapsed().as_secs_f64();
    assert_eq!(done, events, "no event of the schedule is refused");
    seconds * 1e9 / events as f64
}

fn quickest(schedule: &Schedule, events: usize, by_themselves: bool) -> (f64, f64) {
    let (mut rattle, mut rust) = (f64::INFINITY, f64::INFINITY);
    for _ in 0..ROUNDS {
        rattle = rattle.min(round::<RattleRack>(schedule, events, by_themselves));
        rust = rust.min(round::<QuickRack>(schedule, events, by_themselves));
    }
    (rattle, rust)
}

/// The program of crate pace does as many events as it is told, each by `schedule::step`.
const PACE: &str = "../../crates/pace/out/pace";
/// Its standard input: 0 and 131,072 as seven-bit numbers.
const NO_EVENTS: &[u8] = &[0x00];
const MANY_EVENTS: &[u8] = &[0x80, 0x80, 0x08];

/// Seconds that the program takes: the quickest of some rounds.
fn seconds_of_pace(input: &[u8], said: &str) -> std::io::Result<f64> {
    let path = std::env::temp_dir().join(format!("adzequarry-pace-{}", std::process::id()));
    fs::write(&path, input)?;
    let mut least = f64::INFINITY;
    for _ in 0..5 {
        let begun = Instant::now();
        let output = Command::new(PACE).stdin(File::open(&path)?).output()?;
        least = least.min(begun.elapsed().as_secs_f64());
        assert_eq!(output.stdout, said.as_bytes(), "every event is done");
    }
    fs::remove_file(&path)?;
    Ok(least)
}

/// What `schedule::step` costs by itself, on a rack by value, as a program of this processor does it.
fn print_step() {
    if !cfg!(target_arch = "x86_64") {
        println!("schedule::step by itself: only x86-64 runs the program that does it");
        return;
    }
    let seconds = || Ok::<f64, std::io::Error>(seconds_of_pace(MANY_EVENTS, "131072 events done\n")? - seconds_of_pace(NO_EVENTS, "0 events done\n")?);
    match seconds() {
        Ok(seconds) => println!("schedule::step by itself, on a rack by value of 5 replicas: {:.0} ns", seconds * 1e9 / 131_072.0),
        Err(error) => println!("schedule::step by itself: {PACE}: {error}"),
    }
}

/// Prints the times; false where the two engines don't agree.
pub fn times() -> bool {
    println!("\n{:32} {:>7} {:>9} {:>9} {:>6}   an event by itself", "schedule", "events", "Rattle", "Rust", "ratio");
    let mut sums = [0.0; 2];
    for schedule in timing::schedules() {
        let (mut rattle, mut rust) = (RattleRack::load(&schedule.start), QuickRack::load(&schedule.start));
        if rattle.run(usize::MAX, &schedule.words) != rust.run(usize::MAX, &schedule.words) || rattle.state() != rust.state() {
            println!("{}: the two engines DO NOT AGREE", schedule.name);
            return false;
        }
        let run = quickest(&schedule, schedule.events, false);
        let step = quickest(&schedule, EVENTS_BY_THEMSELVES, true);
        sums = [sums[0] + run.0, sums[1] + run.1];
        println!(
            "{:32} {:>7} {:>6.1} ns {:>6.1} ns {:>6.2}   {:>6.0} ns {:>6.0} ns",
            schedule.name, schedule.events, run.0, run.1, run.0 / run.1, step.0, step.1
        );
    }
    println!("{:32} {:>7} {:>6.1} ns {:>6.1} ns {:>6.2}", "all", "", sums[0] / 6.0, sums[1] / 6.0, sums[0] / sums[1]);
    print_step();
    true
}
