//! Makes scripts for `drill` from a seed: runs of what may happen, with and without a refusal at their end, makers that are
//! refused, long ones, and every kind of fault. Those of `directed` are the same for every seed.

use super::directed;
use super::drill::script_of;
use super::driver::Driver;
use super::event::Event;
use super::starts;
use super::state::{Rack, Sizes};
use crate::making::{self, any_bytes, bytes_with_padded_number, exchanges_for_byte};
use crate::paper::record::MOST_ENTRIES;
use crate::random::Random;
use std::path::Path;
use std::{fs, io};

/// How many scripts of each kind there are, but for the long ones.
const OF_EACH_KIND: usize = 50;

/// A script of about 1 MB.
const LONG: usize = 500_000;

/// Writes the scripts of a seed into a folder, and says how many they are.
pub fn write_to(folder: &Path, seed: u64) -> io::Result<usize> {
    fs::create_dir_all(folder)?;
    let scripts = all(&mut Random::from_seed(seed));
    for (number, script) in scripts.iter().enumerate() {
        fs::write(folder.join(format!("{number:04}.script")), script)?;
    }
    Ok(scripts.len())
}

fn all(random: &mut Random) -> Vec<Vec<u8>> {
    let kinds = [run_to_the_end, run_to_a_refusal, refused_maker, cut_short, exchanged, padded, nonsense];
    let mut scripts = vec![Vec::new(), long(random, full_record), long(random, busy_wire)];
    scripts.extend(directed::all().into_iter().map(|(_, script)| script));
    for kind in kinds {
        scripts.extend((0..OF_EACH_KIND).map(|_| kind(random)));
    }
    scripts
}

/// Events that are done, from a fresh rack, and the rack that they leave.
fn events_done(random: &mut Random, rack: &mut Rack, length: usize) -> Vec<Event> {
    let mut driver = Driver::any(random);
    let mut events = Vec::new();
    for _ in 0..length {
        let event = Event::from_words(driver.next(random, rack));
        if rack.run(1, &[event]).done == 1 {
            events.push(event);
        }
    }
    events
}

fn length(random: &mut Random) -> usize {
    let any = random.below(1_500);
    random.pick(&[0, 1, 8, 40, 200, any])
}

fn run_to_the_end(random: &mut Random) -> Vec<u8> {
    let mut rack = starts::fresh(random);
    let length = length(random);
    let events = events_done(random, &mut rack, length);
    let any = random.below(events.len() + 1) as u32;
    script_of(rack.sizes, random.pick(&[0, 1, any, events.len() as u32, u32::MAX]), &events)
}

/// Any event may come after those that are done, and events that are never reached after that.
fn run_to_a_refusal(random: &mut Random) -> Vec<u8> {
    let mut rack = starts::fresh(random);
    let length = length(random);
    let mut events = events_done(random, &mut rack, length);
    for _ in 0..20 {
        let kind = random.below(9) as u32;
        let words = [kind, random.below(20) as u32, random.below(20) as u32, random.word_of_any_width()];
        events.push(Event::from_words(words));
    }
    script_of(rack.sizes, u32::MAX, &events)
}

fn refused_maker(random: &mut Random) -> Vec<u8> {
    let Sizes { mut replicas, mut clients, mut cells } = starts::sizes(random);
    let wrong = random.word_of_any_width();
    match random.below(3) {
        0 => replicas = random.pick(&[0, 16, 257, u32::MAX, wrong]),
        1 => clients = random.pick(&[0, 9, 256, 258, wrong]),
        _ => cells = random.pick(&[0, 17, 256, 65_537, wrong]),
    }
    let events = [Event::StartRead { client: 0, cell: 0 }, Event::Deliver { slot: 0 }];
    script_of(Sizes { replicas, clients, cells }, 10, &events)
}

fn cut_short(random: &mut Random) -> Vec<u8> {
    let mut script = run_to_the_end(random);
    script.truncate(random.below(script.len() + 1));
    script
}

fn exchanged(random: &mut Random) -> Vec<u8> {
    let mut script = run_to_a_refusal(random);
    let place = random.below(script.len());
    script[place] = random.pick(&exchanges_for_byte(script[place]));
    script
}

fn padded(random: &mut Random) -> Vec<u8> {
    let mut numbers = vec![3, 2, 4, 100];
    for _ in 0..random.below(30) {
        numbers.extend([2 + random.below(7) as u32, random.below(300) as u32]);
    }
    let place = random.below(numbers.len());
    bytes_with_padded_number(&numbers, place, 2 + random.below(4))
}

fn nonsense(random: &mut Random) -> Vec<u8> {
    let length = random.below(60);
    let mut script = vec![1, 1, 1, 9];
    script.extend(any_bytes(random, length));
    script
}

fn long(random: &mut Random, events: fn(&mut Random) -> (Sizes, Vec<Event>)) -> Vec<u8> {
    let (sizes, events) = events(random);
    script_of(sizes, u32::MAX, &events)
}

/// Operations until the record is full: the next start is refused 11. Values of every width stand in the record.
fn full_record(random: &mut Random) -> (Sizes, Vec<Event>) {
    let sizes = Sizes { replicas: 1, clients: 8, cells: 16 };
    let mut events = Vec::new();
    for operation in 0..=MOST_ENTRIES as u32 / 2 {
        let (client, cell) = (operation % 8, random.below(16) as u32);
        events.push(match random.below(2) {
            0 => Event::StartRead { client, cell },
            _ => Event::StartWrite { client, cell, value: making::value(random) },
        });
        events.extend([Event::Deliver { slot: 0 }; 4]);
    }
    (sizes, events)
}

/// One message that is copied and lost, over and over.
fn busy_wire(_: &mut Random) -> (Sizes, Vec<Event>) {
    let sizes = Sizes { replicas: 1, clients: 1, cells: 1 };
    let mut events = vec![Event::StartWrite { client: 0, cell: 0, value: i32::MIN }];
    while events.len() < LONG {
        events.extend([Event::Copy { slot: 0 }, Event::Lose { slot: 1 }]);
    }
    (sizes, events)
}
