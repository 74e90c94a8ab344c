//! Times the Rattle judge beside the ordinary Rust judge by the rule, and the Rattle engine beside the quick rack: the same
//! full records and the same schedules, in one run.

mod racks;
mod shapes;

use compare::law::{by_rule, Verdict};
use compare::paper::Refusal;
use shapes::Shape;
use std::hint::black_box;
use std::process::ExitCode;
use std::time::Instant;

extern "C" {
    fn adze_verdict(bytes: *const u8, length: usize) -> u64;
}

/// The verdict of the Rattle judge, unpacked as include/adzequarry.h says.
fn rattle_verdict(bytes: &[u8]) -> Verdict {
    // SAFETY: the call reads these bytes, as many as it is told, and keeps nothing.
    let answer = unsafe { adze_verdict(bytes.as_ptr(), bytes.len()) };
    match (answer as u32, (answer >> 32) as u8, (answer >> 40) as u8) {
        (0, 0, 0) => Verdict::Lawful,
        (_, 0, cell) => Verdict::Unlawful { cell: cell - 1 },
        (entry, number, _) => Verdict::Refused(Refusal { number, entry }),
    }
}

type Judge = fn(&[u8]) -> Verdict;

/// A round takes about this long for each judge, and the quickest of so many rounds counts: rounds so short that some of
/// them have the processor to themselves even where others use the machine.
const ROUND_SECONDS: f64 = 0.002;
const ROUNDS: usize = 100;

fn seconds_of(judge: Judge, bytes: &[u8], times: u32) -> f64 {
    let begun = Instant::now();
    for _ in 0..times {
        black_box(judge(black_box(bytes)));
    }
    begun.elapsed().as_secs_f64()
}

/// How often a judge is asked in a round.
fn times_in_a_round(judge: Judge, bytes: &[u8]) -> u32 {
    let once = seconds_of(judge, bytes, 20) / 20.0;
    (ROUND_SECONDS / once).max(1.0) as u32
}

/// Seconds for one record, by the Rattle judge and by the ordinary one, whose rounds take turns.
fn times_of(bytes: &[u8]) -> (f64, f64) {
    let judges: [Judge; 2] = [rattle_verdict, by_rule::verdict];
    let counts = judges.map(|judge| times_in_a_round(judge, bytes));
    let mut least = [f64::INFINITY; 2];
    for _ in 0..ROUNDS {
        for which in 0..2 {
            let seconds = seconds_of(judges[which], bytes, counts[which]) / f64::from(counts[which]);
            least[which] = least[which].min(seconds);
        }
    }
    (least[0], least[1])
}

/// The times of several records together.
#[derive(Default)]
struct Sum {
    rattle: f64,
    rust: f64,
}

impl Sum {
    fn add(&mut self, rattle: f64, rust: f64) {
        self.rattle += rattle;
        self.rust += rust;
    }

    fn print(&self, title: &str) {
        print_row(title, "", "", "", self.rattle, self.rust);
    }
}

fn print_row(title: &str, entries: &str, bytes: &str, verdict: &str, rattle: f64, rust: f64) {
    let (rattle_us, rust_us, ratio) = (rattle * 1e6, rust * 1e6, rattle / rust);
    println!("{title:34} {entries:>7} {bytes:>6}  {verdict:24} {rattle_us:>6.1} us {rust_us:>6.1} us {ratio:>6.2}");
}

fn main() -> ExitCode {
    let racks_only = std::env::args().nth(1).as_deref() == Some("racks");
    if (racks_only || judges()) && racks::times() {
        ExitCode::SUCCESS
    } else {
        ExitCode::FAILURE
    }
}

/// Prints the times of the judges; false where they don't agree.
fn judges() -> bool {
    println!(
        "{:34} {:>7} {:>6}  {:24} {:>9} {:>9} {:>6}",
        "record", "entries", "bytes", "verdict", "Rattle", "Rust", "ratio"
    );
    let (mut usual, mut all) = (Sum::default(), Sum::default());
    for Shape { name, entries, bytes } in shapes::all() {
        let (verdict, other) = (rattle_verdict(&bytes), by_rule::verdict(&bytes));
        if verdict != other {
            println!("{name}: the two judges DO NOT AGREE: Rattle {verdict}, Rust {other}");
            return false;
        }
        let (rattle, rust) = times_of(&bytes);
        print_row(name, &entries.to_string(), &bytes.len().to_string(), &verdict.to_string(), rattle, rust);
        all.add(rattle, rust);
        if !name.starts_with(shapes::WORST) {
            usual.add(rattle, rust);
        }
    }
    usual.print("all but worst hashing");
    all.print("all");
    true
}
