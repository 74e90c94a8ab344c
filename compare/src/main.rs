//! Compares the Rattle library with the independent program of this folder.

#![forbid(unsafe_code)]

mod check;
mod engine;
mod numbers;
mod racks;
mod rattle;
mod reader;
mod response;
mod round_trips;
mod sheet;
mod tally;
mod verdicts;
mod writer;

use check::{Checked, Checker, Trouble};
use compare::random::Random;
use compare::samples;
use std::path::Path;
use std::process::ExitCode;
use std::sync::Mutex;
use std::thread;
use std::time::Instant;

const USAGE: &str = "usage: compare [all | records | verdicts | bench-sheet] [--seed NUMBER]
       compare samples FOLDER          makes the sample records and scripts
       compare check-samples FOLDER    holds the sample records and scripts to what would be made
       compare racks [--seed NUMBER]   holds the two independent racks to each other
       compare engine EVENTS [--seed NUMBER]   holds them and the Rattle engine to each other
       compare drill                   runs the script on standard input
       compare scripts FOLDER [--seed NUMBER]   makes scripts for drill
       compare bench-rack              times the quick rack";

const USUAL_SEED: u64 = 2048;

fn main() -> ExitCode {
    let arguments: Vec<String> = std::env::args().skip(1).collect();
    let words: Vec<&str> = arguments.iter().map(String::as_str).collect();
    let all_well = match words[..] {
        ["samples", folder] => make_samples(Path::new(folder)),
        ["check-samples", folder] => check_samples(Path::new(folder)),
        [] | ["all"] => all(USUAL_SEED),
        ["bench-sheet"] => bench_sheet(),
        ["racks"] => racks::compare_racks(USUAL_SEED),
        ["racks", "--seed", seed] => seed.parse().map_or_else(|_| usage(), racks::compare_racks),
        ["engine", events] => engine_events(events, USUAL_SEED),
        ["engine", events, "--seed", seed] => seed.parse().map_or_else(|_| usage(), |seed| engine_events(events, seed)),
        ["drill"] => racks::drill_program(),
        ["scripts", folder] => racks::make_scripts(Path::new(folder), USUAL_SEED),
        ["scripts", folder, "--seed", seed] => {
            seed.parse().map_or_else(|_| usage(), |seed| racks::make_scripts(Path::new(folder), seed))
        }
        ["bench-rack"] => racks::bench_racks(),
        ["records"] => run_all(&RECORDS, USUAL_SEED),
        ["verdicts"] => run_all(&[VERDICTS], USUAL_SEED),
        ["--seed", seed] | ["all", "--seed", seed] => seed.parse().map_or_else(|_| usage(), all),
        ["records", "--seed", seed] => seed.parse().map_or_else(|_| usage(), |seed| run_all(&RECORDS, seed)),
        ["verdicts", "--seed", seed] => seed.parse().map_or_else(|_| usage(), |seed| run_all(&[VERDICTS], seed)),
        _ => usage(),
    };
    if all_well {
        ExitCode::SUCCESS
    } else {
        ExitCode::FAILURE
    }
}

fn usage() -> bool {
    eprintln!("{USAGE}");
    false
}

fn engine_events(events: &str, seed: u64) -> bool {
    events.parse().map_or_else(|_| usage(), |events| racks::compare_engine(seed, events))
}

fn all(seed: u64) -> bool {
    bench_sheet() && run_all(&[&RECORDS[..], &[VERDICTS]].concat(), seed)
}

fn bench_sheet() -> bool {
    match sheet::bench_sheet() {
        Ok((lines, 0)) => {
            println!("bench sheet: {lines} lines, all as the paper says");
            return true;
        }
        Ok((_, differing)) => println!("bench sheet: {differing} lines DIFFER from the paper"),
        Err(error) => println!("bench sheet: FAILED: {error}"),
    }
    false
}

/// A family of inputs and its name.
type Family = (&'static str, fn(&mut Checker, &mut Random) -> Checked);

const VERDICTS: Family = ("verdicts", verdicts::verdicts);

const RECORDS: [Family; 5] = [
    ("numbers", numbers::numbers),
    ("values", numbers::values),
    ("reader", reader::reader),
    ("writer", writer::writer),
    ("round trips", round_trips::round_trips),
];

/// Runs a family and says how many inputs it tried, in a line. Each has its own generator from the same seed, so one can be
/// changed and the others see what they saw, and its own host, so they can run beside each other.
fn run((name, try_all): Family, seed: u64) -> (u64, String) {
    let begun = Instant::now();
    let done = Checker::new().map_err(Trouble::from).and_then(|mut checker| {
        try_all(&mut checker, &mut Random::from_seed(seed))?;
        checker.settle()?;
        Ok(checker)
    });
    match done {
        Ok(Checker { tried, tally, .. }) => {
            let verdicts = if name == VERDICTS.0 { format!(" ({tally})") } else { String::new() };
            (tried, format!("{name}: {tried} tried{verdicts}, {:.1} s", begun.elapsed().as_secs_f64()))
        }
        Err(trouble) => end_with(name, trouble, seed),
    }
}

/// The first family in trouble ends the program; another that is in trouble too waits here for that end.
fn end_with(name: &str, trouble: Trouble, seed: u64) -> ! {
    static FIRST: Mutex<()> = Mutex::new(());
    let _held_until_the_end = FIRST.lock();
    println!("{name}: {trouble}\n  seed {seed}");
    println!("compare: the library and the paper DO NOT AGREE");
    std::process::exit(1)
}

fn run_all(families: &[Family], seed: u64) -> bool {
    println!("compare: seed {seed}");
    let outcomes: Vec<(u64, String)> = thread::scope(|scope| {
        let running: Vec<_> = families.iter().map(|family| scope.spawn(move || run(*family, seed))).collect();
        running.into_iter().map(|thread| thread.join().expect("a family's thread ends")).collect()
    });
    for (_, line) in &outcomes {
        println!("{line}");
    }
    let total: u64 = outcomes.iter().map(|(tried, _)| tried).sum();
    println!("compare: {total} inputs, all agree");
    true
}

fn make_samples(folder: &Path) -> bool {
    match samples::write_to(folder) {
        Ok(files) => println!("samples: {files} files made"),
        Err(error) => {
            println!("samples: {error}");
            return false;
        }
    }
    true
}

fn check_samples(folder: &Path) -> bool {
    let faults = samples::faults_of(folder).unwrap_or_else(|error| vec![error.to_string()]);
    for fault in &faults {
        println!("samples: {fault}");
    }
    if faults.is_empty() {
        println!("samples: all as they should be");
    }
    faults.is_empty()
}
