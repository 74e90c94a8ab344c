//! One event, and a schedule that is run with an allowance.

use super::event::Event;
use super::refusals::refusal_of;
use super::state::Rack;

/// How a schedule was run: the number of events done, and the refusal that stopped it, or none.
#[derive(Clone, Copy, Debug, PartialEq, Eq)]
pub struct Ran {
    pub done: usize,
    pub refusal: Option<u8>,
}

impl Rack {
    /// Does one event, or leaves the rack unchanged and gives the refusal.
    pub fn step(&mut self, event: Event) -> Result<(), u8> {
        if let Some(refusal) = refusal_of(self, event) {
            return Err(refusal);
        }
        for message in self.act(event) {
            self.wire.send(message);
        }
        Ok(())
    }

    /// "Events are taken in order until the allowance is used, the list ends, or one is refused." "No event is tried at
    /// allowance 0 or on an empty list, so nothing is refused there."
    pub fn run(&mut self, allowance: usize, events: &[Event]) -> Ran {
        let mut done = 0;
        for event in events.iter().take(allowance) {
            if let Err(refusal) = self.step(*event) {
                return Ran { done, refusal: Some(refusal) };
            }
            done += 1;
        }
        Ran { done, refusal: None }
    }
}
