//! Lists of kinds from elsewhere: whether a list holds the kinds of all trees, and none that breaks the contract.

use super::hashing::KindSet;
use super::kinds::{Kind, Kinds, Parts, EMPTY, ONE_ROOT};
use super::{admission, Refusal};
use crate::contract::Contract;
use crate::engine::MOST_KINDS;

/// Nothing, or the first that applies of admission's refusals, 70, 71, 72 and 73.
pub fn examine(contract: &Contract, words: &[u64]) -> Result<(), Refusal> {
    admission::admission(contract)?;
    if !words.len().is_multiple_of(5) || words.len() > 5 * MOST_KINDS {
        return Err((70, words.len()));
    }
    let kinds = Kinds::new(contract);
    let list = masked(words, &bits_of_kinds(contract));
    let held: KindSet = list.iter().copied().collect();
    if !held.contains(&kinds.empty()) {
        return Err((71, 0));
    }
    if let Some([symbol, left, right]) = first_missing(&kinds, contract.symbols, &list, &held) {
        return Err((72, (symbol * MOST_KINDS + left) * MOST_KINDS + right));
    }
    match list.iter().position(|kind| kinds.breaks(kind)) {
        Some(number) => Err((73, number)),
        None => Ok(()),
    }
}

/// The bits that stand for something: input states, the two marks, facts.
pub fn bits_of_kinds(contract: &Contract) -> Kind {
    let mut bits = [ONE_ROOT | EMPTY, 0, 0, 0, 0];
    (0..contract.input_states).for_each(|state| bits[0] |= 1 << state);
    (0..admission::fact_total(contract)).for_each(|fact| bits[1 + fact / 64] |= 1 << (fact % 64));
    bits
}

/// The kinds of a list, without the bits that stand for nothing.
fn masked(words: &[u64], bits: &Kind) -> Vec<Kind> {
    words.chunks_exact(5).map(|kind| std::array::from_fn(|word| kind[word] & bits[word])).collect()
}

/// The first symbol over two kinds of the list, by symbol, left and right, whose kind is not held.
fn first_missing(kinds: &Kinds<'_>, symbols: usize, list: &[Kind], held: &KindSet) -> Option<[usize; 3]> {
    let parts: Vec<Parts> = list.iter().map(|kind| kinds.parts(kind)).collect();
    for symbol in 1..symbols {
        for (left, left_parts) in parts.iter().enumerate() {
            for (right, right_parts) in parts.iter().enumerate() {
                if !held.contains(&kinds.kind(symbol, left_parts, right_parts)) {
                    return Some([symbol, left, right]);
                }
            }
        }
    }
    None
}
