//! Scripts that are refused, one for each number that a drill can print and for each kind of event that the paper's table
//! names beside it. So none of these lines hangs on a seed.
//!
//! Three numbers of that table are out of a script's reach, since its rack is fresh and its record ends at 2,048 entries:
//! 2, because no event makes a sound rack unsound; 10, because it takes 65,535 operations of one client, and each has an
//! entry, so that 11 comes first; 12, because a stamp's number is at most the count of writes asked, and each has an entry
//! too. 3 comes from a number that isn't in the rack: a code that is no event is 15, before anything runs.

use super::drill::script_of;
use super::event::Event;
use super::refusal::*;
use super::state::{Sizes, SLOTS};
use crate::paper::record::MOST_ENTRIES;

const SIZES: Sizes = Sizes { replicas: 2, clients: 2, cells: 2 };
const READ: Event = Event::StartRead { client: 0, cell: 0 };
const WRITE: Event = Event::StartWrite { client: 0, cell: 0, value: -9 };

/// Every number that a drill can print after `refused`, rising.
pub const NUMBERS: [u8; 14] = [1, 3, 4, 5, 6, 7, 8, 9, 11, 13, 15, 21, 22, 23];

/// The scripts, each with the number that it is refused with.
pub fn all() -> Vec<(u8, Vec<u8>)> {
    let groups = [for_the_names(), for_the_client(), for_the_replica(), for_the_record(), for_the_wire()];
    let runs = groups.into_iter().flatten();
    let mut scripts: Vec<_> = runs.map(|(number, events)| (number, script_of(SIZES, u32::MAX, &events))).collect();
    scripts.extend(for_the_sizes());
    scripts.extend(for_the_bytes());
    scripts
}

/// Schedules that are refused at their last event, each with the number.
type Refused = Vec<(u8, Vec<Event>)>;

fn deliver(slot: u32) -> Event {
    Event::Deliver { slot }
}

/// The same events first, and then each of these in a schedule of its own.
fn each_after(number: u8, before: &[Event], last: &[Event]) -> Refused {
    last.iter().map(|event| (number, [before, &[*event]].concat())).collect()
}

/// Client 2, cell 2, replica 2 and slot 256 aren't in the rack; slot 0 is, and empty.
fn for_the_names() -> Refused {
    let not_there = [
        Event::StartRead { client: 2, cell: 0 },
        Event::StartRead { client: 0, cell: 2 },
        Event::StartWrite { client: 2, cell: 0, value: 1 },
        Event::StartWrite { client: 0, cell: 2, value: 1 },
        deliver(SLOTS as u32),
        Event::Lose { slot: SLOTS as u32 },
        Event::Copy { slot: SLOTS as u32 },
        Event::Resend { client: 2 },
        Event::Stop { client: 2 },
        Event::Off { replica: 2 },
        Event::On { replica: 2 },
    ];
    let empty = [deliver(0), Event::Lose { slot: 0 }, Event::Copy { slot: 0 }];
    [each_after(NO_EVENT_OF_THIS_RACK, &[], &not_there), each_after(SLOT_EMPTY, &[], &empty)].concat()
}

fn for_the_client() -> Refused {
    let (resend, stop) = (Event::Resend { client: 0 }, Event::Stop { client: 0 });
    [
        each_after(CLIENT_STOPPED, &[stop], &[READ, WRITE, resend, stop]),
        each_after(OPERATION_OPEN, &[READ], &[READ, WRITE]),
        each_after(NO_OPERATION_OPEN, &[], &[resend]),
    ]
    .concat()
}

/// Slot 0 holds the ask for replica 0, and after a majority of tells the keep for it.
fn for_the_replica() -> Refused {
    let (off, on) = (Event::Off { replica: 0 }, Event::On { replica: 0 });
    let keeping = [WRITE, deliver(0), deliver(1), deliver(0), deliver(1), off];
    [
        each_after(REPLICA_OFF, &[READ, off], &[deliver(0)]),
        each_after(REPLICA_OFF, &keeping, &[deliver(0)]),
        each_after(POWER_AS_IT_IS, &[off], &[off]),
        each_after(POWER_AS_IT_IS, &[], &[on]),
    ]
    .concat()
}

/// A read from its start to its end: two asks, two tells, two keeps and two kepts.
fn whole_read() -> Vec<Event> {
    let slots = [0, 1, 0, 1, 0, 1, 0, 1];
    [READ].into_iter().chain(slots.map(deliver)).collect()
}

fn for_the_record() -> Refused {
    each_after(RECORD_FULL, &whole_read().repeat(MOST_ENTRIES / 2), &[READ, WRITE])
}

/// Copies fill the wire. A tell that ends its phase frees its own slot and sends two keeps.
fn for_the_wire() -> Refused {
    let asked = [vec![READ], vec![Event::Copy { slot: 0 }; SLOTS - 2]].concat();
    let start = Event::StartRead { client: 1, cell: 0 };
    let told_once = [READ, deliver(0), deliver(1), deliver(0)];
    let told = [told_once.to_vec(), vec![Event::Copy { slot: 1 }; SLOTS - 1]].concat();
    [
        each_after(WIRE_FULL, &asked, &[start, Event::Copy { slot: 0 }, Event::Resend { client: 0 }]),
        each_after(WIRE_FULL, &told, &[deliver(1)]),
    ]
    .concat()
}

fn for_the_sizes() -> Vec<(u8, Vec<u8>)> {
    let out_of_range = [[0, 1, 1], [16, 1, 1], [1, 0, 1], [1, 9, 1], [1, 1, 0], [1, 1, 17]];
    let script = |[replicas, clients, cells]: [u32; 3]| script_of(Sizes { replicas, clients, cells }, 9, &[READ]);
    out_of_range.map(|sizes| (SIZE_OUT_OF_RANGE, script(sizes))).to_vec()
}

/// A code 9, a head and an event that end too soon, a number with a last byte 0, and one above 32 bits.
fn for_the_bytes() -> Vec<(u8, Vec<u8>)> {
    let after_the_head = |bytes: &[u8]| [&[2, 2, 2, 9], bytes].concat();
    vec![
        (15, after_the_head(&[9])),
        (21, vec![2, 2, 2]),
        (21, after_the_head(&[0, 0])),
        (21, after_the_head(&[2, 0x80])),
        (22, after_the_head(&[2, 0x80, 0])),
        (23, after_the_head(&[2, 0xFF, 0xFF, 0xFF, 0xFF, 0x10])),
    ]
}

#[cfg(test)]
mod tests {
    use super::super::drill::drill;
    use super::*;

    /// The number after the first `refused` of the text.
    fn number_printed(text: &str) -> &str {
        text.split("refused ").nth(1).and_then(|rest| rest.split_whitespace().next()).expect("each text says it")
    }

    #[test]
    fn each_script_is_refused_with_its_number() {
        for (number, script) in all() {
            assert_eq!(number_printed(&drill(&script)), number.to_string(), "{script:02X?}");
        }
    }

    #[test]
    fn a_run_is_refused_at_its_last_event() {
        for (number, events) in [for_the_names(), for_the_wire(), for_the_record()].concat() {
            let text = drill(&script_of(SIZES, u32::MAX, &events));
            assert!(text.starts_with(&format!("done {}\nrefused {number}\n", events.len() - 1)), "{number}");
        }
    }

    #[test]
    fn each_number_has_a_script() {
        let mut seen: Vec<u8> = all().iter().map(|(number, _)| *number).collect();
        seen.sort_unstable();
        seen.dedup();
        assert_eq!(seen, NUMBERS);
    }
}
