//! A judge that tries orders, straight from the definition. It takes repeated values and writes of zero as any others.

use super::{judged_operations, Act, Operation, Verdict};
use crate::paper::record::CELLS;

/// So many operations of one cell can be searched in no time, whatever they are.
pub const MOST_OF_A_CELL: usize = 8;

/// The verdict on bytes whose cells have few operations each, found cell by cell.
pub fn verdict(bytes: &[u8]) -> Verdict {
    match judged_operations(bytes) {
        Ok(operations) => match lowest_unlawful_cell(&operations) {
            Some(cell) => Verdict::Unlawful { cell },
            None => Verdict::Lawful,
        },
        Err(refusal) => Verdict::Refused(refusal),
    }
}

/// Whether a search of each cell is short.
pub fn can_decide(operations: &[Operation]) -> bool {
    let mut counts = [0; CELLS];
    for operation in operations {
        counts[usize::from(operation.cell)] += 1;
    }
    counts.iter().all(|count| *count <= MOST_OF_A_CELL)
}

pub fn lowest_unlawful_cell(operations: &[Operation]) -> Option<u8> {
    (0..CELLS as u8).find(|cell| {
        let part: Vec<Operation> = operations.iter().filter(|one| one.cell == *cell).copied().collect();
        !has_lawful_order(&part)
    })
}

/// Whether the operations, of one cell or of many, have a lawful order.
pub fn has_lawful_order(operations: &[Operation]) -> bool {
    assert!(operations.len() < 64, "the placed ones are kept as bits");
    goes_on(operations, 0, &mut [0; CELLS])
}

/// Whether an order that has placed these (a bit each) and left these values in the cells can be brought to its end. It
/// may end when every finished operation stands in it; what unfinished writes it has are the chosen ones.
fn goes_on(operations: &[Operation], placed: u64, cells: &mut [i32; CELLS]) -> bool {
    let is_placed = |index: usize| placed & 1 << index != 0;
    let waiting = |index: &usize| !is_placed(*index) && operations[*index].stop.is_some();
    if (0..operations.len()).all(|index| !waiting(&index)) {
        return true;
    }
    (0..operations.len()).any(|index| {
        let next = operations[index];
        let is_unfinished_read = next.act == Act::Read && next.stop.is_none();
        let comes_too_early = || (0..operations.len()).filter(waiting).any(|other| operations[other].is_before(&next));
        if is_placed(index) || is_unfinished_read || comes_too_early() {
            return false;
        }
        let content = cells[usize::from(next.cell)];
        if next.act == Act::Read {
            return next.value == content && goes_on(operations, placed | 1 << index, cells);
        }
        cells[usize::from(next.cell)] = next.value;
        let found = goes_on(operations, placed | 1 << index, cells);
        cells[usize::from(next.cell)] = content;
        found
    })
}

#[cfg(test)]
mod tests {
    use super::super::operations_of;
    use super::*;
    use crate::histories::{small_record, Shape};
    use crate::random::Random;

    /// The definition itself, a sentence a line: is this list of operations a lawful order of the record's operations?
    fn is_lawful_order(operations: &[Operation], order: &[usize]) -> bool {
        let times = |index: usize| order.iter().filter(|placed| **placed == index).count();
        let right_times = |index: usize| match (operations[index].stop, operations[index].act) {
            (Some(_), _) => times(index) == 1,
            (None, Act::Write) => times(index) <= 1,
            (None, Act::Read) => times(index) == 0,
        };
        let in_time = |earlier: usize, later: usize| !operations[later].is_before(&operations[earlier]);
        let gives_the_last_value = |place: usize| {
            let read = &operations[order[place]];
            let written = order[..place].iter().map(|index| &operations[*index]);
            let last = written.rev().find(|one| one.act == Act::Write && one.cell == read.cell);
            read.act == Act::Write || read.value == last.map_or(0, |write| write.value)
        };
        (0..operations.len()).all(right_times)
            && (0..order.len()).all(|b| (0..b).all(|a| in_time(order[a], order[b])))
            && (0..order.len()).all(gives_the_last_value)
    }

    /// Tries every list without repeats of the operations' numbers.
    fn some_list_is_lawful(operations: &[Operation], order: &mut Vec<usize>) -> bool {
        if is_lawful_order(operations, order) {
            return true;
        }
        (0..operations.len()).any(|index| {
            if order.contains(&index) {
                return false;
            }
            order.push(index);
            let found = some_list_is_lawful(operations, order);
            order.pop();
            found
        })
    }

    #[test]
    fn the_search_finds_an_order_exactly_when_some_list_is_one() {
        let mut random = Random::from_seed(5);
        let mut unlawful = 0;
        for _ in 0..20_000 {
            let shape = Shape { operations: 5, ..Shape::any(&mut random) };
            let operations = operations_of(&small_record(&mut random, shape));
            let found = has_lawful_order(&operations);
            assert_eq!(found, some_list_is_lawful(&operations, &mut Vec::new()), "{operations:?}");
            unlawful += usize::from(!found);
        }
        assert!((2_000..18_000).contains(&unlawful), "{unlawful}");
    }

    #[test]
    fn a_record_is_lawful_exactly_when_each_cell_is() {
        let mut random = Random::from_seed(6);
        let mut unlawful = 0;
        for _ in 0..20_000 {
            let shape = Shape { cells: 3, ..Shape::any(&mut random) };
            let operations = operations_of(&small_record(&mut random, shape));
            let whole = has_lawful_order(&operations);
            assert_eq!(whole, lowest_unlawful_cell(&operations).is_none(), "{operations:?}");
            unlawful += usize::from(!whole);
        }
        assert!((2_000..18_000).contains(&unlawful), "{unlawful}");
    }
}
