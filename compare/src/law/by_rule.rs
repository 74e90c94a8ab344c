//! A judge by the rule of source document 002 for distinct values, as an ordinary program would have it: clusters in a hash
//! table, zones sorted by time.

use super::{judged_operations, Act, Operation, Verdict};
use crate::paper::record::CELLS;
use std::collections::HashMap;

pub fn verdict(bytes: &[u8]) -> Verdict {
    match judged_operations(bytes) {
        Ok(operations) => match lowest_unlawful_cell(&operations) {
            Some(cell) => Verdict::Unlawful { cell },
            None => Verdict::Lawful,
        },
        Err(refusal) => Verdict::Refused(refusal),
    }
}

/// The values that are written to a cell are distinct and not zero.
pub fn lowest_unlawful_cell(operations: &[Operation]) -> Option<u8> {
    let mut parts: [Vec<Operation>; CELLS] = Default::default();
    for operation in operations {
        parts[usize::from(operation.cell)].push(*operation);
    }
    let fault = parts.iter().position(|part| !is_lawful(part));
    fault.map(|cell| cell as u8)
}

/// A time at which something starts or stops: its entry's place, after one that is before everything.
type Time = usize;
const BEFORE_EVERYTHING: Time = 0;
const NEVER: Time = Time::MAX;

fn time_of(place: usize) -> Time {
    place + 1
}

/// A write and the finished reads of its value: the least stop and the greatest start among them.
#[derive(Clone, Copy, Debug, PartialEq, Eq)]
struct Cluster {
    written: Time,
    least_stop: Time,
    greatest_start: Time,
}

impl Cluster {
    /// Zero has a pretended write that ended before everything.
    const OF_ZERO: Cluster =
        Cluster { written: BEFORE_EVERYTHING, least_stop: BEFORE_EVERYTHING, greatest_start: BEFORE_EVERYTHING };

    fn of_write(write: &Operation) -> Cluster {
        let start = time_of(write.start);
        Cluster { written: start, least_stop: write.stop.map_or(NEVER, time_of), greatest_start: start }
    }

    fn take_read(&mut self, start: Time, stop: Time) {
        self.least_stop = self.least_stop.min(stop);
        self.greatest_start = self.greatest_start.max(start);
    }
}

fn is_lawful(part: &[Operation]) -> bool {
    match clusters_of(part) {
        Some(clusters) => no_two_cross(&clusters),
        None => false,
    }
}

/// The clusters of one cell; none when a read gives what nobody wrote, or ends before its write starts.
fn clusters_of(part: &[Operation]) -> Option<Vec<Cluster>> {
    let mut clusters = HashMap::with_capacity(part.len() + 1);
    clusters.insert(0, Cluster::OF_ZERO);
    for write in part.iter().filter(|one| one.act == Act::Write) {
        clusters.insert(write.value, Cluster::of_write(write));
    }
    for read in part.iter().filter(|one| one.act == Act::Read) {
        let Some(stop) = read.stop.map(time_of) else { continue };
        let cluster = clusters.get_mut(&read.value)?;
        if stop < cluster.written {
            return None;
        }
        cluster.take_read(time_of(read.start), stop);
    }
    Some(clusters.into_values().collect())
}

/// Two clusters cross when each has an operation that is before one of the other. A cluster with an operation before
/// another of its own is a zone from its least stop to its greatest start: two zones cross when they overlap. Any other
/// cluster crosses a zone when it lies inside it, and never one of its own sort.
fn no_two_cross(clusters: &[Cluster]) -> bool {
    let (mut zones, others): (Vec<Cluster>, Vec<Cluster>) =
        clusters.iter().partition(|cluster| cluster.least_stop < cluster.greatest_start);
    zones.sort_unstable_by_key(|zone| zone.least_stop);
    if zones.windows(2).any(|pair| pair[1].least_stop < pair[0].greatest_start) {
        return false;
    }
    others.iter().all(|other| {
        let zones_begun = zones.partition_point(|zone| zone.least_stop < other.greatest_start);
        zones[..zones_begun].last().is_none_or(|zone| zone.greatest_start <= other.least_stop)
    })
}

#[cfg(test)]
mod tests {
    use super::*;
    use crate::random::Random;

    /// The rule in one line, for any two.
    fn cross(a: &Cluster, b: &Cluster) -> bool {
        a.least_stop < b.greatest_start && b.least_stop < a.greatest_start
    }

    #[test]
    fn sorted_zones_say_what_any_two_clusters_say() {
        let mut random = Random::from_seed(9);
        let mut lawful = 0;
        for _ in 0..100_000 {
            let count = 1 + random.below(5);
            let mut cluster = || {
                let (least_stop, greatest_start) = (random.below(14), random.below(14));
                Cluster { written: BEFORE_EVERYTHING, least_stop, greatest_start }
            };
            let clusters: Vec<Cluster> = (0..count).map(|_| cluster()).collect();
            let any_cross = (0..count).any(|b| (0..b).any(|a| cross(&clusters[a], &clusters[b])));
            assert_eq!(no_two_cross(&clusters), !any_cross, "{clusters:?}");
            lawful += usize::from(!any_cross);
        }
        assert!((10_000..90_000).contains(&lawful), "{lawful}");
    }
}
