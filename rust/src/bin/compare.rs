//! Times two builds of the proved library against each other: `compare FILE`. It prints a table of the checks of a script, one
//! of checks of contracts whose kinds all start at one slot, and one of documents that some contracts of the script judge and
//! run: the least times of some questions by the new library and by the old one, and their ratio. If the old one is from before
//! only documents with one root counted, its checks and judgements go by other rules: its answer stands behind the ratio where
//! it is another.

use goosedawn::contract::Contract;
use goosedawn::counters::Counters;
use goosedawn::engine::{Answer, Engine};
use goosedawn::generator::{document, Random};
use goosedawn::library::{Library, STAY_RUN_STACK};
use goosedawn::script::{checks, named_by_argument};
use goosedawn::timing::{heads, in_turns, in_turns_by_other_rules, print_checks, Times};
use std::fmt::Debug;
use std::thread;

const NAMES: [&str; 2] = ["new", "old"];

/// How many inner symbols documents have: two short ones, of which one fits into the small tables, and the longest.
const SIZES: [usize; 3] = [1, 16, 511];

/// Of so many contracts one is tried on documents.
const EVERY: usize = 3;

/// The most rows that an output may have.
const ROWS: usize = 4096;

/// Of some random documents of a size the one whose output has the most rows.
fn document_with_output(contract: &Contract, size: usize) -> Vec<u16> {
    let mut random = Random::new(1);
    let mut rows = vec![0; 3 * ROWS];
    let rows_used = |numbers: &Vec<u16>| match Library::old().run_here(contract, numbers, &mut rows) {
        Answer::Run { used, .. } => used,
        _ => 0,
    };
    let documents = (0..50).map(|_| document(&mut random, contract.symbols, size));
    documents.max_by_key(rows_used).expect("a document")
}

/// A build's answer to a document with nothing behind it: all numbers are taken, though an old one may not tell so.
fn of_whole(document: &[u16], answer: Answer) -> Answer {
    let taken = document.len();
    match answer {
        Answer::Judged { result, .. } => Answer::Judged { result, taken },
        Answer::Run { root, used, .. } => Answer::Run { root, used, taken },
        other => other,
    }
}

/// The old build's answer with the height of the new one's, where both stop: an old build may not tell it.
fn with_height_of(new: Answer, old: Answer) -> Answer {
    match (new, old) {
        (Answer::Stopped { height, .. }, Answer::Stopped { limit, .. }) => Answer::Stopped { limit, height },
        _ => old,
    }
}

/// Whether a build marks the roots in a kind, here in that of the empty forest.
fn marks_roots(library: Library) -> bool {
    let contract = Contract {
        symbols: 1,
        input_states: 1,
        output_states: 1,
        counts: vec![0],
        input_marks: vec![0],
        output_table: vec![0],
        output_marks: vec![0],
        ..Contract::default()
    };
    let mut kind = [0; 5];
    library.judge(&contract, &[0], &mut kind);
    kind[0] != 0
}

/// Times a question of kinds: both builds answer it alike if both mark the roots.
fn of_kinds<B: Clone + PartialEq + Debug>(
    [new, old]: [Library; 2],
    question: impl Fn() -> String,
    buffers: B,
    by_new: impl Fn(&mut B) -> Answer,
    by_old: impl Fn(&mut B) -> Answer,
) -> Times {
    if marks_roots(new) == marks_roots(old) {
        in_turns(question, buffers, by_new, by_old)
    } else {
        in_turns_by_other_rules(buffers, by_new, by_old)
    }
}

fn checking(new: Library, old: Library, contract: &Contract, limit: usize) -> Times {
    let buffers = (vec![7; 3 * limit], vec![7; 5 * limit]);
    let (mut rows, mut words) = buffers.clone();
    let answer = new.check(contract, limit, &mut rows, &mut words);
    of_kinds(
        [new, old],
        || format!("check {limit} {contract:?}"),
        buffers,
        |(rows, words)| new.check(contract, limit, rows, words),
        |(rows, words)| with_height_of(answer, old.check(contract, limit, rows, words)),
    )
}

fn judging(new: Library, old: Library, contract: &Contract, numbers: &[u16]) -> Times {
    of_kinds(
        [new, old],
        || format!("judge {numbers:?} {contract:?}"),
        [7; 5],
        |kind| new.judge(contract, numbers, kind),
        |kind| of_whole(numbers, old.judge(contract, numbers, kind)),
    )
}

fn running(new: Library, old: Library, contract: &Contract, numbers: &[u16]) -> Times {
    in_turns(
        || format!("run {ROWS} {numbers:?} {contract:?}"),
        vec![7; 3 * ROWS],
        |rows| new.run_here(contract, numbers, rows),
        |rows| of_whole(numbers, old.run_here(contract, numbers, rows)),
    )
}

/// Checks of contracts whose kinds all start at one slot, so that a search passes many.
fn one_slot(new: Library, old: Library) {
    println!("{:>4} {:>7} {:>6}  {}", "slot", "symbols", "nodes", heads(NAMES));
    let few = Counters { symbols: 2, rights: &[4], lefts: &[3], totals: &[1], nodes: 4, idle: 1, common: 9 };
    let many = Counters { rights: &[7], lefts: &[7], totals: &[7], ..few };
    let longer = Counters { symbols: 4, nodes: 16, ..many };
    let early = Counters { idle: 10, common: 1, totals: &[6], ..many };
    for counters in [few, many, longer, early] {
        let Counters { symbols, nodes, .. } = counters;
        let slot = counters.only_slot().expect("one slot");
        println!("{slot:>4} {symbols:>7} {nodes:>6}  {}", checking(new, old, &counters.contract(), 512));
    }
}

fn compare() {
    let script = named_by_argument("compare");
    let (new, old) = (Library::default(), Library::old());
    print_checks(&script, NAMES, |contract, limit| checking(new, old, contract, limit));
    println!();
    one_slot(new, old);
    println!();
    println!("{:<16} {:>7}  {:<8} {}", "contract", "numbers", "question", heads(NAMES));
    for (label, contract, _) in checks(&script).iter().step_by(EVERY) {
        for size in SIZES {
            let numbers = document_with_output(contract, size);
            let length = numbers.len();
            println!("{label:<16} {length:>7}  {:<8} {}", "judge", judging(new, old, contract, &numbers));
            println!("{label:<16} {length:>7}  {:<8} {}", "run", running(new, old, contract, &numbers));
        }
    }
}

/// The whole comparison has the stack that runs need, so that no time has the start of a thread in it.
fn main() {
    let thread = thread::Builder::new().stack_size(STAY_RUN_STACK).spawn(compare);
    thread.expect("a thread").join().expect("a comparison");
}
