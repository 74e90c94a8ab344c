//! How many verdicts of each kind were compared.

use compare::law::Verdict;
use std::fmt::{self, Display};

#[derive(Default)]
pub struct Tally {
    lawful: u64,
    unlawful: u64,
    refused: u64,
}

impl Tally {
    pub fn count(&mut self, verdict: Verdict) {
        match verdict {
            Verdict::Lawful => self.lawful += 1,
            Verdict::Unlawful { .. } => self.unlawful += 1,
            Verdict::Refused(_) => self.refused += 1,
        }
    }
}

impl Display for Tally {
    fn fmt(&self, f: &mut fmt::Formatter<'_>) -> fmt::Result {
        write!(f, "{} lawful, {} unlawful, {} refused", self.lawful, self.unlawful, self.refused)
    }
}
