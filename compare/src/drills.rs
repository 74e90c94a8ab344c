//! The sample scripts of samples/, the drills that docs/FOR-TEACHERS.md tells of: a module drops out, a message is copied,
//! two benches write at once.

use crate::paper::record::bytes_of;
use crate::rack::drill::{drill, script_of};
use crate::rack::event::Event::{self, Copy, Lose, Off, On, StartRead, StartWrite};
use crate::rack::state::{Rack, Sizes};

/// More than any of the drills needs.
const ALLOWANCE: u32 = 100;

pub struct Drill {
    /// The name of its files, before the dot.
    pub name: &'static str,
    pub what: &'static str,
    /// The line that the judge writes for the record that is left.
    pub right: &'static str,
    pub sizes: Sizes,
    pub events: Vec<Event>,
}

impl Drill {
    pub fn script(&self) -> Vec<u8> {
        self.script_within(ALLOWANCE)
    }

    fn script_within(&self, allowance: u32) -> Vec<u8> {
        script_of(self.sizes, allowance, &self.events)
    }

    /// All that the program drill writes.
    pub fn text(&self) -> String {
        drill(&self.script())
    }

    /// The bytes of the record that is left.
    pub fn record(&self) -> Vec<u8> {
        let (mut rack, _) = Rack::make(self.sizes);
        rack.run(ALLOWANCE as usize, &self.events);
        bytes_of(&rack.record)
    }
}

pub fn all() -> Vec<Drill> {
    vec![module_drops_out(), message_copied(), two_write_at_once()]
}

fn deliver<const COUNT: usize>(slots: [u32; COUNT]) -> Vec<Event> {
    slots.map(|slot| Event::Deliver { slot }).to_vec()
}

fn write(client: u32, value: i32) -> Event {
    StartWrite { client, cell: 0, value }
}

fn read(client: u32) -> Event {
    StartRead { client, cell: 0 }
}

fn module_drops_out() -> Drill {
    let scenes = [
        vec![Off { replica: 2 }, write(0, 9)],
        deliver([0, 1, 0, 1, 0, 1, 0, 1]),
        vec![Lose { slot: 2 }, Lose { slot: 3 }],
        vec![On { replica: 2 }, Off { replica: 0 }, Off { replica: 1 }, read(1)],
        deliver([2, 2]),
        vec![On { replica: 1 }],
        deliver([1, 1, 2, 3, 2, 3]),
    ];
    Drill {
        name: "module-drops-out",
        what: "a write while replica 2 is off; a read that replica 2 alone answers, and that waits until replica 1 is on again",
        right: "lawful",
        sizes: Sizes { replicas: 3, clients: 2, cells: 1 },
        events: scenes.concat(),
    }
}

fn message_copied() -> Drill {
    let scenes = [
        vec![write(0, 9), Copy { slot: 0 }],
        deliver([0, 3, 0, 3, 1, 0, 0]),
        vec![Copy { slot: 0 }],
        deliver([0, 4]),
        vec![Off { replica: 0 }, read(1)],
        deliver([4, 5, 4, 5, 5, 6, 5, 6]),
        deliver([1, 1]),
    ];
    Drill {
        name: "message-copied",
        what: "replica 0's tell and kept come twice and count once; a read in between; the write ends when replica 1 has kept it",
        right: "lawful",
        sizes: Sizes { replicas: 3, clients: 2, cells: 1 },
        events: scenes.concat(),
    }
}

fn two_write_at_once() -> Drill {
    let scenes = [
        vec![write(0, 5), write(1, 7)],
        deliver([0, 1, 2, 3, 0, 1, 2, 3]),
        deliver([2, 0, 1, 3]),
        deliver([0, 1, 2, 3]),
        vec![read(2)],
        deliver([0, 1, 0, 1, 0, 1, 0, 1]),
        vec![write(0, 8)],
        deliver([0, 1, 0, 1, 0, 1, 0, 1]),
    ];
    Drill {
        name: "two-write-at-once",
        what: "clients 0 and 1 write 5 and 7 at once, and their keeps arrive in different orders; then a read; then a write of 8",
        right: "lawful",
        sizes: Sizes { replicas: 2, clients: 3, cells: 1 },
        events: scenes.concat(),
    }
}
/// docs/FOR-TEACHERS.md is held to the drills: what it shows is what they are. What it has the reader type is tried by
/// drill-samples.
#[cfg(test)]
mod tests {
    use super::*;
    use crate::samples;

    const PAGE: &str = include_str!("../../docs/FOR-TEACHERS.md");

    /// The part of the page, from heading to heading, that makes the drill's script.
    fn part_of(drill: &Drill) -> &'static str {
        let makes = format!("> {}.script\n", drill.name);
        let parts: Vec<_> = PAGE.split("\n## ").filter(|part| part.contains(&makes)).collect();
        assert_eq!(parts.len(), 1, "{}", drill.name);
        parts[0]
    }

    /// The blocks of lines that are set in, without the spaces.
    fn blocks(part: &str) -> Vec<String> {
        let set_in = |line: &&str| line.starts_with("    ");
        let mut rest = part.lines().peekable();
        let mut blocks = Vec::new();
        while rest.peek().is_some() {
            let block: String =
                std::iter::from_fn(|| rest.next_if(set_in)).map(|line| format!("{}\n", &line[4..])).collect();
            blocks.extend((!block.is_empty()).then_some(block));
            rest.next_if(|line| !set_in(line));
        }
        blocks
    }

    /// What stands in the first column of a table, if it is set as code.
    fn first_column(line: &str) -> Option<&str> {
        line.strip_prefix("| `")?.split("` |").next()
    }

    /// The bytes of the table of events.
    fn bytes_of_table(part: &str) -> Vec<u8> {
        let byte = |hex: &str| u8::from_str_radix(hex, 16).expect("two hex digits");
        part.lines().filter_map(first_column).flat_map(|bytes| bytes.split(' ')).map(byte).collect()
    }

    /// The allowance that a block gives a script in place of its own.
    fn allowance_given(block: &str) -> Option<u32> {
        let octal = block.strip_prefix("{ head -c 3 ")?.split("printf '\\").nth(1)?.split('\'').next()?;
        u32::from_str_radix(octal, 8).ok()
    }

    #[test]
    fn no_event_of_a_drill_is_refused() {
        for drill in all() {
            let start = format!("done {}\nrefused none\n", drill.events.len());
            assert!(drill.text().starts_with(&start), "{}", drill.name);
        }
    }

    #[test]
    fn the_table_of_each_drill_has_the_bytes_of_its_script() {
        for drill in all() {
            assert_eq!(bytes_of_table(part_of(&drill)), drill.script(), "{}", drill.name);
        }
    }

    #[test]
    fn the_texts_on_the_page_are_those_of_the_drills() {
        for drill in all() {
            let blocks = blocks(part_of(&drill));
            let shown: Vec<_> = blocks.iter().filter(|block| block.starts_with("done ")).cloned().collect();
            let given: Vec<_> = blocks.iter().filter_map(|block| allowance_given(block)).collect();
            let mut right: Vec<_> =
                given.iter().map(|allowance| super::drill(&drill.script_within(*allowance))).collect();
            assert!(!right.is_empty() && !right.contains(&drill.text()), "{}: it stops on the way", drill.name);
            right.push(drill.text());
            assert_eq!(shown, right, "{}", drill.name);
        }
    }

    #[test]
    fn the_page_says_what_the_judge_says() {
        for drill in all() {
            let command = format!("./drill --record samples/{}.script | ./judge -\n{}\n", drill.name, drill.right);
            assert!(blocks(part_of(&drill)).contains(&command), "{}", drill.name);
        }
        let judged: Vec<_> = blocks(PAGE).into_iter().filter(|block| block.starts_with("./judge ")).collect();
        let right = |sample: &samples::Sample| format!("./judge samples/{}\n{}\n", sample.file, sample.right);
        let known: Vec<_> = samples::all().iter().map(right).collect();
        assert!(!judged.is_empty() && judged.iter().all(|block| known.contains(block)), "{judged:?}");
    }
}
