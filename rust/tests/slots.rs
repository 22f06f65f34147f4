//! Checks whose kinds crowd the slots by which kinds are found: the proved library answers them as the model does, which has no
//! slots, and leaves the same buffers.

use goosedawn::contract::Contract;
use goosedawn::counters::Counters;
use goosedawn::engine::{Answer, Engine};
use goosedawn::library::Library;
use goosedawn::model::Model;
use std::collections::BTreeSet;

/// The most kinds that a check lists.
const LIMIT: usize = 512;

/// A check's answer, with its rows and words.
fn checked(engine: &impl Engine, contract: &Contract, limit: usize) -> (Answer, Vec<u16>, Vec<u64>) {
    let (mut rows, mut words) = (vec![7; 3 * limit], vec![7; 5 * limit]);
    let answer = engine.check(contract, limit, &mut rows, &mut words);
    (answer, rows, words)
}

/// A kind's words, added without the carry.
fn sum(kind: &[u64]) -> u64 {
    kind.iter().fold(0, |sum, word| sum.wrapping_add(*word))
}

/// The slots at which kinds start.
fn first_slots(words: &[u64], kinds: usize) -> Vec<usize> {
    words.chunks(5).take(kinds).map(|kind| (sum(kind) % 1024) as usize).collect()
}

/// Checks a contract at limits about the number of its kinds, by the library and by the model; gives the slots at which its
/// kinds start.
fn starts(counters: &Counters) -> Vec<usize> {
    let contract = counters.contract();
    let (answer, _, words) = checked(&Library::default(), &contract, LIMIT);
    let Answer::Pass { count: kinds } = answer else { panic!("{answer:?} is no pass") };
    for limit in [1, 2, kinds / 2, kinds - 1, kinds, kinds + 1, LIMIT] {
        assert_eq!(checked(&Library::default(), &contract, limit), checked(&Model, &contract, limit), "limit {limit}");
    }
    first_slots(&words, kinds)
}

fn all_start_at(slot: usize, counters: &Counters) {
    let slots = starts(counters);
    assert_eq!(counters.only_slot(), Some(slot));
    assert!(slots.iter().all(|first| *first == slot));
    println!("{} kinds start at slot {slot}", slots.len());
}

#[test]
fn all_kinds_start_at_the_last_slot() {
    all_start_at(1023, &Counters { symbols: 2, rights: &[7], lefts: &[7], totals: &[7], nodes: 4, idle: 1, common: 9 });
    all_start_at(1023, &Counters { symbols: 3, rights: &[3], lefts: &[2], totals: &[2], nodes: 8, idle: 1, common: 9 });
}

#[test]
fn all_kinds_start_at_an_early_slot() {
    all_start_at(1, &Counters { symbols: 2, rights: &[8], lefts: &[7], totals: &[6], nodes: 4, idle: 10, common: 1 });
    all_start_at(0, &Counters { symbols: 2, rights: &[7], lefts: &[7], totals: &[7], nodes: 4, idle: 0, common: 10 });
}

/// Hundreds of kinds start at a few slots, so that runs of occupied slots are long and may meet.
#[test]
fn kinds_start_at_few_slots() {
    for common in 1..10 {
        let counters = Counters { symbols: 2, rights: &[8], lefts: &[7], totals: &[6], nodes: 4, idle: 0, common };
        let slots = starts(&counters);
        let few: BTreeSet<_> = slots.iter().collect();
        assert!(counters.only_slot().is_none() && 1 < few.len() && 20 * few.len() < slots.len());
        println!("{} kinds start at {} slots", slots.len(), few.len());
    }
}

/// Five counters of three, and of each count a procedure with an output exactly where it is not the count: a kind's states and
/// facts add up to the same for all of them. So distinct kinds have one sum.
#[test]
fn distinct_kinds_have_one_sum() {
    let counts = || (0..5).flat_map(|counter| (0..3).map(move |count| (counter, count)));
    let state = |counter: u16, count: u16| 3 * counter + count % 3;
    let every = 15;
    let mut input_rows: Vec<[u16; 4]> = (0..5).map(|counter| [state(counter, 0), 0, 0, 0]).collect();
    input_rows.push([every, 0, 0, 0]);
    let mut rules: Vec<[u16; 3]> =
        counts().filter(|(_, count)| *count != 0).map(|(counter, count)| [state(counter, count), 0, 0]).collect();
    for symbol in 1..6 {
        input_rows.push([every, symbol, every, every]);
        for (counter, count) in counts() {
            let step = u16::from(symbol == counter + 1);
            input_rows.push([state(counter, count + step), symbol, every, state(counter, count)]);
            rules.push([state(counter, count), symbol, 1 + state(counter, count + 3 - step)]);
        }
    }
    let calls = (0..15).map(|procedure| [2, procedure, 2, 0, 0]);
    let contract = Contract {
        symbols: 6,
        input_states: 16,
        output_states: 1,
        counts: vec![0; 15],
        input_rows: input_rows.concat(),
        input_marks: vec![1; 16],
        output_table: vec![0; 6],
        output_marks: vec![1],
        nodes: std::iter::once([1, 0, 0, 0, 0]).chain(calls).collect::<Vec<_>>().concat(),
        rules: rules.concat(),
    };
    let (answer, rows, words) = checked(&Library::default(), &contract, LIMIT);
    let Answer::Pass { count: kinds } = answer else { panic!("{answer:?} is no pass") };
    assert_eq!((answer, rows, words.clone()), checked(&Model, &contract, LIMIT));
    let sums: Vec<u64> = words.chunks(5).take(kinds).map(sum).collect();
    let most = sums.iter().filter(|other| **other == sums[kinds - 1]).count();
    println!("{most} of {kinds} kinds have one sum");
    assert!(most > 200);
}
