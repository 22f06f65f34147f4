//! Admission: refusals 1 to 5, then 30 to 34 for the lowest bad node, then 7 and 8: the first that applies, at its lowest place.

use super::Refusal;
use crate::contract::Contract;

/// The most facts of a contract.
pub const MOST_FACTS: usize = 256;

/// Nothing, or the refusal of a contract.
pub fn admission(contract: &Contract) -> Result<(), Refusal> {
    let (symbols, inputs, outputs) = (contract.symbols, contract.input_states, contract.output_states);
    refuse_first(
        1,
        [
            !(1..=16).contains(&symbols),
            !(1..=32).contains(&inputs),
            !(1..=4).contains(&outputs),
            !(1..=16).contains(&contract.procedures()),
        ],
    )?;
    refuse_first(
        2,
        [
            tuples_wrong(4, 512, contract.input_rows.len()),
            contract.input_marks.len() != inputs,
            contract.output_table.len() != 1 + (symbols - 1) * outputs * outputs,
            contract.output_marks.len() != outputs,
            tuples_wrong(5, 256, contract.nodes.len()),
            tuples_wrong(3, 256, contract.rules.len()),
        ],
    )?;
    refuse_first(3, (0..contract.input_row_count()).map(|row| input_row_wrong(contract, row)))?;
    let marks = |marks: &[u16]| marks.iter().map(|&mark| mark > 1).collect::<Vec<_>>();
    let entries = contract.output_table.iter().map(|&state| usize::from(state) >= outputs);
    refuse_first(4, marks(&contract.input_marks).into_iter().chain(entries).chain(marks(&contract.output_marks)))?;
    refuse_first(
        5,
        contract.counts.iter().enumerate().map(|(procedure, &count)| count > 2 || (procedure == 0 && count != 0)),
    )?;
    (0..contract.node_count()).try_for_each(|node| match node_fault(contract, node) {
        Some(number) => Err((number, node)),
        None => Ok(()),
    })?;
    let uses = node_uses(contract);
    refuse_first(7, (0..contract.rule_count()).map(|rule| rule_wrong(contract, &uses, rule)))?;
    match fact_total(contract) {
        total if total > MOST_FACTS => Err((8, total)),
        _ => Ok(()),
    }
}

/// How many facts there are.
pub fn fact_total(contract: &Contract) -> usize {
    contract.counts.iter().map(|&count| contract.output_states.pow(u32::from(count) + 1)).sum()
}

fn refuse_first(number: u64, wrong: impl IntoIterator<Item = bool>) -> Result<(), Refusal> {
    match wrong.into_iter().position(|wrong| wrong) {
        Some(place) => Err((number, place)),
        None => Ok(()),
    }
}

fn tuples_wrong(width: usize, most: usize, length: usize) -> bool {
    !length.is_multiple_of(width) || length > width * most
}

fn input_row_wrong(contract: &Contract, row: usize) -> bool {
    let [state, symbol, left, right] = contract.input_row(row);
    let states = contract.input_states;
    state >= states
        || symbol >= contract.symbols
        || left >= states
        || right >= states
        || (symbol == 0 && (left, right) != (0, 0))
}

/// What is wrong with a node: 30 its tag, 31 its name, 32 a call's child, 33 a reference that is not below it, 34 an unused
/// field that is filled; the lowest of these.
fn node_fault(contract: &Contract, node: usize) -> Option<u64> {
    let [tag, name, child, first, second] = contract.node_numbers(node);
    let references = match tag {
        0 if name == 1 || name == 2 => 0,
        1 if name == 0 => 0,
        1 if name < contract.symbols => 2,
        2 if name < contract.procedures() => contract.count(name),
        0..=2 => return Some(31),
        _ => return Some(30),
    };
    let fields = [first, second];
    let (used, unused) = fields.split_at(references);
    if tag == 2 && child > 2 {
        Some(32)
    } else if used.iter().any(|&reference| reference >= node) {
        Some(33)
    } else if (tag != 2 && child != 0) || unused.iter().any(|&field| field != 0) {
        Some(34)
    } else {
        None
    }
}

/// What a node uses, directly or below: the greatest parameter, and whether calls stay at the node or go to a child.
#[derive(Clone, Copy, Debug)]
pub struct Uses {
    pub parameter: usize,
    pub stays: bool,
    pub descends: bool,
}

impl Uses {
    fn and(self, other: Uses) -> Uses {
        Uses {
            parameter: self.parameter.max(other.parameter),
            stays: self.stays || other.stays,
            descends: self.descends || other.descends,
        }
    }
}

/// What each node uses; none of them is bad.
pub fn node_uses(contract: &Contract) -> Vec<Uses> {
    let mut uses = Vec::new();
    for node in 0..contract.node_count() {
        uses.push(uses_of(contract, &uses, node));
    }
    uses
}

/// What a node uses, from what the earlier ones do.
pub fn uses_of(contract: &Contract, earlier: &[Uses], node: usize) -> Uses {
    let [tag, name, child, first, second] = contract.node_numbers(node);
    let references = match tag {
        0 => 0,
        1 => usize::from(name != 0) * 2,
        _ => contract.count(name),
    };
    let own = Uses {
        parameter: if tag == 0 { name } else { 0 },
        stays: tag == 2 && child == 0,
        descends: tag == 2 && child != 0,
    };
    [first, second].into_iter().take(references).map(|node| earlier[node]).fold(own, Uses::and)
}

fn rule_wrong(contract: &Contract, uses: &[Uses], rule: usize) -> bool {
    let [procedure, symbol, node] = contract.rule(rule);
    if procedure >= contract.procedures() || symbol > contract.stay() || node >= uses.len() {
        return true;
    }
    let Uses { parameter, stays, descends } = uses[node];
    let wrong_calls = if symbol == contract.stay() { descends } else { stays || (symbol == 0 && descends) };
    parameter > contract.count(procedure) || wrong_calls
}
