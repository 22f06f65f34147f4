//! Two receivers, one contract: two output types merged into one, which allows a tree exactly if both do.

use super::Refusal;
use crate::contract::OutputType;

/// The most states of an output type.
const MOST_STATES: usize = 4;

/// Writes table and marks of the merged type at the start of the buffers and gives how many states it has; or the first
/// that applies of 51, 52, 50, 53 and 56, which write nothing.
pub fn merge(
    first: OutputType<'_>,
    second: OutputType<'_>,
    table: &mut [u16],
    marks: &mut [u16],
) -> Result<usize, Refusal> {
    if let Some(place) = fault(first) {
        return Err((51, place));
    }
    if let Some(place) = fault(second) {
        return Err((52, place));
    }
    if first.symbols != second.symbols {
        return Err((50, second.symbols));
    }
    let pairs = pairs(first.states, second.states);
    if pairs.len() > MOST_STATES {
        return Err((53, pairs.len()));
    }
    let (merged_table, merged_marks) = merged(first, second, &pairs);
    let too_short = [table.len() < merged_table.len(), marks.len() < merged_marks.len()];
    if let Some(place) = too_short.into_iter().position(|too_short| too_short) {
        return Err((56, place));
    }
    table[..merged_table.len()].copy_from_slice(&merged_table);
    marks[..merged_marks.len()].copy_from_slice(&merged_marks);
    Ok(pairs.len())
}

/// The place of a type's first fault: 0 its symbols, 1 its states, 2 its table's length, 3 its marks' length, else 4 plus
/// the index of the first bad number of table and marks.
fn fault(OutputType { symbols, states, table, marks }: OutputType<'_>) -> Option<usize> {
    if !(1..=16).contains(&symbols) {
        return Some(0);
    }
    if !(1..=MOST_STATES).contains(&states) {
        return Some(1);
    }
    if table.len() != 1 + (symbols - 1) * states * states {
        return Some(2);
    }
    if marks.len() != states {
        return Some(3);
    }
    let bad_entries = table.iter().map(|&state| usize::from(state) >= states);
    let bad_marks = marks.iter().map(|&mark| mark > 1);
    bad_entries.chain(bad_marks).position(|bad| bad).map(|index| 4 + index)
}

/// The merged type's states in their order: one of the first type, one of the second.
fn pairs(first_states: usize, second_states: usize) -> Vec<(usize, usize)> {
    (0..first_states).flat_map(|m| (0..second_states).map(move |n| (m, n))).collect()
}

/// Table and marks of the merged type; the number of a pair is its place in the list.
fn merged(first: OutputType<'_>, second: OutputType<'_>, pairs: &[(usize, usize)]) -> (Vec<u16>, Vec<u16>) {
    let number = |pair: (usize, usize)| pairs.iter().position(|&listed| listed == pair).expect("a state") as u16;
    let mut table = vec![number((first.state_of_empty(), second.state_of_empty()))];
    for symbol in 1..first.symbols {
        for left in pairs {
            for right in pairs {
                table.push(number((first.state(symbol, left.0, right.0), second.state(symbol, left.1, right.1))));
            }
        }
    }
    let marks = pairs.iter().map(|&(m, n)| u16::from(first.accepts(m) && second.accepts(n))).collect();
    (table, marks)
}
