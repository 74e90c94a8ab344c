//! The racks: the clear one held to the quick one and to the Rattle engine, the text of `drill`, and times.

use crate::engine::{self, RattleRack};
use compare::rack::drill::drill;
use compare::rack::lockstep::{compare, Followed, Follower, Tally};
use compare::rack::quick::QuickRack;
use compare::rack::scripts;
use compare::rack::starts;
use compare::rack::timing::{of_a_run, of_steps, schedules};
use compare::random::Random;
use std::io::{self, Read, Write};
use std::path::Path;
use std::thread;
use std::time::Instant;

/// What the comparison of the two independent racks tries at least.
const EVENTS: u64 = 1_000_000;
/// Damaged states of each host, for each kind of beginning.
const DAMAGED: u64 = 4_000;
/// So many hosts work beside each other.
const HOSTS: u64 = 2;

/// Compares the two independent racks, event by event.
pub fn compare_racks(seed: u64) -> bool {
    println!("racks: seed {seed}");
    let begun = Instant::now();
    say(begun, hold(&mut [quick()], seed, EVENTS))
}

/// Compares the clear rack with the quick one and with the Rattle engine: the maker, damaged states, then at least so many
/// events, a part of them from each of some seeds beside each other.
pub fn compare_engine(seed: u64, events: u64) -> bool {
    println!("racks: seeds {seed} to {}", seed + HOSTS - 1);
    let begun = Instant::now();
    let tallies = thread::scope(|scope| {
        let parts: Vec<_> =
            (0..HOSTS).map(|part| scope.spawn(move || engine_part(seed + part, events.div_ceil(HOSTS)))).collect();
        parts.into_iter().map(|part| part.join().expect("a part's thread ends")).collect::<Vec<_>>()
    });
    let sum = |sum: Tally, tally: Result<Tally, String>| Ok(sum.and(&tally?));
    say(begun, tallies.into_iter().try_fold(Tally::default(), sum))
}

/// What one host is asked.
fn engine_part(seed: u64, events: u64) -> Result<Tally, String> {
    let mut rattle = RattleRack::start().map_err(|error| format!("FAILED: {error}\n"))?;
    let random = &mut Random::from_seed(seed);
    let makers = engine::makers(&mut rattle)?;
    engine::damaged(&mut rattle, random, DAMAGED, starts::fresh)?;
    engine::damaged(&mut rattle, random, DAMAGED, starts::sound)?;
    println!("racks: {makers} makers and {} damaged states agree", 2 * DAMAGED);
    hold(&mut [quick(), ("the Rattle engine", Box::new(rattle))], seed, events)
}

fn quick() -> (&'static str, Box<dyn Follower>) {
    ("the quick rack", Box::new(Followed::<QuickRack>::default()))
}

fn hold(followers: &mut [(&str, Box<dyn Follower>)], seed: u64, events: u64) -> Result<Tally, String> {
    compare(followers, &mut Random::from_seed(seed), events)
}

fn say(begun: Instant, tally: Result<Tally, String>) -> bool {
    match &tally {
        Ok(tally) => println!("racks: {tally}, {:.1} s", begun.elapsed().as_secs_f64()),
        Err(trouble) => println!("racks: {trouble}racks: the racks DO NOT AGREE"),
    }
    tally.is_ok()
}

/// A script from standard input, what it leaves to standard output.
pub fn drill_program() -> bool {
    let mut script = Vec::new();
    let done = io::stdin().read_to_end(&mut script).and_then(|_| io::stdout().write_all(drill(&script).as_bytes()));
    if let Err(error) = &done {
        eprintln!("drill: {error}");
    }
    done.is_ok()
}

/// Scripts for `drill`, from a seed.
pub fn make_scripts(folder: &Path, seed: u64) -> bool {
    match scripts::write_to(folder, seed) {
        Ok(files) => println!("scripts: {files} made, seed {seed}"),
        Err(error) => {
            println!("scripts: {error}");
            return false;
        }
    }
    true
}

/// Nanoseconds per event, of a whole run and of single events.
pub fn bench_racks() -> bool {
    println!("{:32} {:>7} {:>9} {:>9}", "schedule", "events", "run", "step");
    for schedule in schedules() {
        let (run, step) = (of_a_run::<QuickRack>(&schedule), of_steps::<QuickRack>(&schedule));
        println!("{:32} {:>7} {run:>6.1} ns {step:>6.1} ns", schedule.name, schedule.events);
    }
    true
}
