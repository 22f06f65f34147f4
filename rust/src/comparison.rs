//! Two engines asked the same random questions, with buffers that hold the same random numbers before.

use crate::contract::Contract;
use crate::engine::{Answer, Engine, Refusal};
use crate::generator::{self, Merging, Pair, Random};
use std::fmt::Debug;

/// A question on which two engines differ.
#[derive(Debug)]
pub struct Difference {
    pub question: String,
    pub left: String,
    pub right: String,
}

/// How often each answer came, so that a comparison that saw refusals alone is noticed.
#[derive(Clone, Copy, Debug, Default, PartialEq, Eq)]
pub struct Seen {
    pub refused: usize,
    pub answered: usize,
}

fn numbers(random: &mut Random, length: usize) -> Vec<u16> {
    (0..length).map(|_| random.draw() as u16).collect()
}

fn words(random: &mut Random, length: usize) -> Vec<u64> {
    (0..length).map(|_| random.draw()).collect()
}

/// The length asked for, or now and then another.
fn length(random: &mut Random, due: usize) -> usize {
    if random.once_in(16) {
        due + random.below(3) - due.min(1)
    } else {
        due
    }
}

/// Asks both engines; an answer counts with the closing buffers.
pub fn agree<A: PartialEq + Debug, B: Clone + PartialEq + Debug>(
    buffers: B,
    question: impl Fn() -> String,
    left: impl Fn(&mut B) -> A,
    right: impl Fn(&mut B) -> A,
) -> Result<A, Difference> {
    let (mut ours, mut theirs) = (buffers.clone(), buffers);
    let (a, b) = (left(&mut ours), right(&mut theirs));
    if a == b && ours == theirs {
        return Ok(a);
    }
    Err(Difference { question: question(), left: format!("{a:?} {ours:?}"), right: format!("{b:?} {theirs:?}") })
}

/// Asks both engines and counts what they answer.
fn ask<B: Clone + PartialEq + Debug>(
    seen: &mut Seen,
    buffers: B,
    question: impl Fn() -> String,
    left: impl Fn(&mut B) -> Answer,
    right: impl Fn(&mut B) -> Answer,
) -> Result<(), Difference> {
    match agree(buffers, question, left, right)? {
        Answer::Refused { .. } | Answer::Stopped { .. } => seen.refused += 1,
        _ => seen.answered += 1,
    }
    Ok(())
}

fn ask_contract(
    left: &impl Engine,
    right: &impl Engine,
    random: &mut Random,
    contract: &Contract,
    seen: &mut Seen,
) -> Result<(), Difference> {
    ask(seen, (), || format!("admit {contract:?}"), |_| left.admit(contract), |_| right.admit(contract))?;
    let document = generator::numbers(random, contract.symbols.min(16));
    let five = length(random, 5);
    ask(
        seen,
        words(random, five),
        || format!("judge {document:?} {contract:?}"),
        |kind| left.judge(contract, &document, kind),
        |kind| right.judge(contract, &document, kind),
    )?;
    let free = if random.once_in(4) { random.within(0, 4100) } else { random.within(0, 40) };
    let room = length(random, 3 * free);
    ask(
        seen,
        numbers(random, room),
        || format!("run {free} {document:?} {contract:?}"),
        |rows| left.run(contract, &document, rows),
        |rows| right.run(contract, &document, rows),
    )?;
    let limit = if random.once_in(16) { random.within(500, 514) } else { random.within(0, 48) };
    let (rows, kinds) = (length(random, 3 * limit), length(random, 5 * limit));
    ask(
        seen,
        (numbers(random, rows), words(random, kinds)),
        || format!("check {limit} {contract:?}"),
        |(rows, words)| left.check(contract, limit, rows, words),
        |(rows, words)| right.check(contract, limit, rows, words),
    )
}

fn ask_rows(left: &impl Engine, right: &impl Engine, random: &mut Random, seen: &mut Seen) -> Result<(), Difference> {
    let most = if random.once_in(16) { 4100 } else { 24 };
    let rows = generator::rows(random, most);
    let row = random.within(0, rows.len() / 3 + 1);
    let room = random.within(0, 400);
    ask(
        seen,
        numbers(random, room),
        || format!("write {row} {room} {rows:?}"),
        |buffer| left.write_out(&rows, row, buffer),
        |buffer| right.write_out(&rows, row, buffer),
    )
}

/// What an engine says of two buffers: where its stretch starts and how long it is, and what is refused.
fn told(engine: &impl Engine, pair: &Pair) -> (*const [u16], Option<Refusal>) {
    let (symbols, first, second) = (pair.symbols, pair.first(), pair.second());
    (engine.shorter(symbols, first, second), engine.shorter_refusal(symbols, first, second))
}

fn ask_pair(left: &impl Engine, right: &impl Engine, random: &mut Random, seen: &mut Seen) -> Result<(), Difference> {
    let pair = generator::pair(random);
    let question = || format!("shorter at {:p} and {:p} of {pair:?}", pair.first(), pair.second());
    match agree((), question, |_| told(left, &pair), |_| told(right, &pair))? {
        (_, Some(_)) => seen.refused += 1,
        (_, None) => seen.answered += 1,
    }
    Ok(())
}

fn ask_types(left: &impl Engine, right: &impl Engine, random: &mut Random, seen: &mut Seen) -> Result<(), Difference> {
    let Merging { first, second, table_room, marks_room } = generator::merging(random);
    let (first, second) = (first.output_type(), second.output_type());
    let merged = agree(
        (numbers(random, table_room), numbers(random, marks_room)),
        || format!("merge {table_room} {marks_room} {first:?} {second:?}"),
        |(table, marks)| left.merge(first, second, table, marks),
        |(table, marks)| right.merge(first, second, table, marks),
    )?;
    match merged {
        Err(_) => seen.refused += 1,
        Ok(_) => seen.answered += 1,
    }
    Ok(())
}

fn ask_list(
    left: &impl Engine,
    right: &impl Engine,
    random: &mut Random,
    contract: &Contract,
    seen: &mut Seen,
) -> Result<(), Difference> {
    let words = generator::list(random, contract);
    let question = || format!("examine {words:?} {contract:?}");
    match agree((), question, |_| left.examine(contract, &words), |_| right.examine(contract, &words))? {
        Err(_) => seen.refused += 1,
        Ok(_) => seen.answered += 1,
    }
    Ok(())
}

/// Asks as many random questions of each sort; the first difference, or what was seen.
pub fn compare(left: &impl Engine, right: &impl Engine, seed: u64, questions: usize) -> Result<Seen, Difference> {
    let mut random = Random::new(seed);
    let mut seen = Seen::default();
    for _ in 0..questions {
        let contract = generator::contract(&mut random);
        ask_contract(left, right, &mut random, &contract, &mut seen)?;
        ask_rows(left, right, &mut random, &mut seen)?;
        ask_pair(left, right, &mut random, &mut seen)?;
        ask_types(left, right, &mut random, &mut seen)?;
        ask_list(left, right, &mut random, &contract, &mut seen)?;
    }
    Ok(seen)
}
