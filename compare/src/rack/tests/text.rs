//! The text of `drill`.

use super::*;
use crate::making::bytes_of_numbers;
use crate::rack::drill::{drill, lines_of, read_script, script_of, Script};
use crate::rack::state::{Client, Goal, Operation, Phase, ReplySet};
use crate::random::Random;

const EXAMPLE: &str = "\
done 9
refused none
rack 3 1 1
replica 0 on 1.0=9
replica 1 on 1.0=9
replica 2 on 0.0=0
client 0 idle op 1
slot 2 ask client 0 replica 2 cell 0 op 1
slot 3 keep client 0 replica 2 cell 0 op 1 pair 1.0=9
record 01 00 00 12 03 00
";

fn example_script() -> Vec<u8> {
    let events: Vec<Event> = [write(0, 0, 9)].into_iter().chain([0, 1, 0, 1, 0, 1, 0, 1].map(deliver)).collect();
    script_of(Sizes { replicas: 3, clients: 1, cells: 1 }, 100, &events)
}

#[test]
fn the_example() {
    assert_eq!(drill(&example_script()), EXAMPLE);
    assert_eq!(example_script()[..10], [3, 1, 1, 100, 1, 0, 0, 18, 2, 0]);
}

#[test]
fn nothing_is_run_at_allowance_0() {
    let lines = drill(&[1, 1, 1, 0, 9 - 1, 0]);
    assert_eq!(lines, "done 0\nrefused none\nrack 1 1 1\nreplica 0 on 0.0=0\nclient 0 idle op 0\nrecord\n");
}

#[test]
fn a_refused_maker() {
    let lines = drill(&[16, 8, 16, 5, 0, 0, 0]);
    assert_eq!(lines, "done 0\nrefused 1\nrack 1 1 1\nreplica 0 on 0.0=0\nclient 0 idle op 0\nrecord\n");
}

#[test]
fn a_refused_event() {
    let lines = drill(&[1, 1, 2, 9, 7, 0, 6, 0, 5, 0, 8, 0]);
    assert_eq!(lines, "done 2\nrefused 5\nrack 1 1 2\nreplica 0 off 0.0=0 0.0=0\nclient 0 stopped idle op 0\nrecord\n");
}

#[test]
fn faults_of_a_script() {
    let line = |number, byte| format!("refused {number} at byte {byte}\n");
    assert_eq!(drill(&[]), line(21, 0));
    assert_eq!(drill(&[1, 1, 1]), line(21, 3));
    assert_eq!(drill(&[1, 1, 1, 0x80]), line(21, 3));
    assert_eq!(drill(&[1, 0x80, 0x00, 1, 1]), line(22, 1));
    assert_eq!(drill(&[1, 1, 1, 1, 2, 0xFF, 0xFF, 0xFF, 0xFF, 0x10]), line(23, 5));
    assert_eq!(drill(&[1, 1, 1, 1, 2]), line(21, 5));
    assert_eq!(drill(&[1, 1, 1, 1, 9]), line(15, 4));
    // Faults come before anything is run, even beyond the allowance, and before a size out of range.
    assert_eq!(drill(&[16, 1, 1, 0, 2, 0, 0x82, 0x02]), line(15, 6));
    assert_eq!(drill(&[1, 1, 1, 1, 9, 0x80]), line(15, 4));
}

#[test]
fn clients_in_words() {
    let mut rack = fresh(3, 4, 3);
    let operation = |goal, answered, phase| Some(Operation { goal, cell: 2, answered: ReplySet(answered), phase });
    let held = Some(pair(1, 0, 9));
    let asking = |held| Phase::Asking { held };
    rack.clients[0] = Client { stopped: true, op: 4, open: None };
    rack.clients[1] = Client { stopped: false, op: 3, open: operation(Goal::Read, 0b101, asking(held)) };
    let keeping = Phase::Keeping { held: pair(2, 1, -5) };
    rack.clients[2] = Client { stopped: false, op: 3, open: operation(Goal::Write(-5), 0, keeping) };
    rack.clients[3] = Client { stopped: true, op: 3, open: operation(Goal::Read, 0, asking(None)) };
    let lines = lines_of(Ran { done: 0, refusal: Some(13) }, &rack);
    let clients: Vec<&str> = lines.lines().filter(|line| line.starts_with("client")).collect();
    assert_eq!(
        clients,
        [
            "client 0 stopped idle op 4",
            "client 1 asking read cell 2 op 3 from 0 2 held 1.0=9",
            "client 2 keeping write -5 cell 2 op 3 from none held 2.1=-5",
            "client 3 stopped asking read cell 2 op 3 from none held none",
        ]
    );
    assert!(lines.starts_with("done 0\nrefused 13\nrack 3 4 3\n"));
}

#[test]
fn a_script_is_read_as_it_was_written() {
    let mut random = Random::from_seed(51);
    let sizes = Sizes { replicas: 300, clients: 2, cells: u32::MAX };
    let any = |random: &mut Random| {
        let [first, second, value] = [(); 3].map(|()| random.word_of_any_width());
        Event::from_words([random.below(9) as u32, first, second, value])
    };
    let events: Vec<Event> = (0..500).map(|_| any(&mut random)).collect();
    let script = script_of(sizes, 77, &events);
    assert_eq!(read_script(&script), Ok(Script { sizes, allowance: 77, events }));
    assert_eq!(bytes_of_numbers(&[300, 2, u32::MAX, 77]), script[..9]);
}
