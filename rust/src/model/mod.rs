//! An independent model of the operations, written to be read: bit masks for sets of states, one ascending pass over
//! the nodes for each assignment of parameter states, stay rules in rounds until one adds nothing, no pair of rows visited
//! twice, kinds looked up by hash.

pub mod admission;
pub mod checking;
pub mod documents;
pub mod examining;
pub mod hashing;
pub mod kinds;
pub mod merging;
pub mod running;
pub mod shorter;
pub mod writing;

use crate::contract::{Contract, OutputType};
pub use crate::engine::Refusal;
use crate::engine::{Answer, Engine};

/// The model as an engine.
#[derive(Clone, Copy, Debug, Default)]
pub struct Model;

/// The answer of an outcome.
pub fn answer(outcome: Result<Answer, Refusal>) -> Answer {
    outcome.unwrap_or_else(|(number, place)| Answer::Refused { number, place })
}

impl Engine for Model {
    fn admit(&self, contract: &Contract) -> Answer {
        answer(admission::admission(contract).map(|()| Answer::Admitted))
    }

    fn judge(&self, contract: &Contract, numbers: &[u16], kind: &mut [u64]) -> Answer {
        answer(kinds::judge(contract, numbers, kind))
    }

    fn check(&self, contract: &Contract, limit: usize, rows: &mut [u16], words: &mut [u64]) -> Answer {
        answer(checking::check(contract, limit, rows, words))
    }

    fn run(&self, contract: &Contract, numbers: &[u16], rows: &mut [u16]) -> Answer {
        answer(running::run(contract, numbers, rows))
    }

    fn write_out(&self, rows: &[u16], row: usize, buffer: &mut [u16]) -> Answer {
        answer(writing::write_out(rows, row, buffer))
    }

    fn shorter<'a>(&self, symbols: usize, first: &'a [u16], second: &'a [u16]) -> &'a [u16] {
        shorter::shorter(symbols, first, second).unwrap_or(&first[..0])
    }

    fn shorter_refusal(&self, symbols: usize, first: &[u16], second: &[u16]) -> Option<Refusal> {
        shorter::shorter(symbols, first, second).err()
    }

    fn merge(
        &self,
        first: OutputType<'_>,
        second: OutputType<'_>,
        table: &mut [u16],
        marks: &mut [u16],
    ) -> Result<usize, Refusal> {
        merging::merge(first, second, table, marks)
    }

    fn examine(&self, contract: &Contract, words: &[u64]) -> Result<(), Refusal> {
        examining::examine(contract, words)
    }
}
