//! How long the examining of a list of kinds takes: `lists`. It makes its contracts and lists itself, and prints the least time
//! of some examinations by the proved library and by the model, and their ratio.

use goosedawn::contract::Contract;
use goosedawn::counters::{self, Counters};
use goosedawn::engine::MOST_KINDS;
use goosedawn::library::Library;
use goosedawn::model::checking::first_kinds;
use goosedawn::model::kinds::{Kind, EMPTY, ONE_ROOT};
use goosedawn::model::Model;
use goosedawn::timing::{heads, time_examining};

fn line(contract: &Contract, list: &[Kind]) {
    let times = time_examining(&Library::default(), &Model, contract, &list.concat());
    println!("{:>5} {:>7} {:>6}  {times}", list.len(), contract.symbols, contract.node_count());
}

/// The list of all kinds of a contract.
fn of_trees(counters: &Counters) {
    let contract = counters.contract();
    line(&contract, &first_kinds(&contract, MOST_KINDS));
}

/// A contract without an output, in which state 0 comes of any two states that follow one another.
fn neighbours() -> Contract {
    let rows: Vec<[u16; 4]> = (0..32).map(|state| [0, 1, state, (state + 1) % 32]).collect();
    Contract {
        symbols: 2,
        input_states: 32,
        output_states: 1,
        counts: vec![0],
        input_rows: rows.concat(),
        input_marks: vec![1; 32],
        output_table: vec![0; 2],
        output_marks: vec![1],
        ..Contract::default()
    }
}

/// So many kinds for it: what a symbol can have, and others that no tree has, each with states of its own.
fn of_neighbours(count: usize) -> Vec<Kind> {
    let of_symbols = [EMPTY, ONE_ROOT, ONE_ROOT | 1];
    of_symbols.into_iter().chain(0..).take(count).map(|word| [word, 0, 0, 0, 0]).collect()
}

/// As many, of which all that no tree has leave one remainder modulo 4,093, by which the library finds kinds.
fn crowded(count: usize) -> Vec<Kind> {
    let of_symbols = [EMPTY, ONE_ROOT, ONE_ROOT | 1, 0];
    let others = (0..).map(|number| 4093 * number + 1);
    of_symbols.into_iter().chain(others).take(count).map(|word| [word, 0, 0, 0, 0]).collect()
}

fn main() {
    println!("{:>5} {:>7} {:>6}  {}", "kinds", "symbols", "nodes", heads(["proved", "model"]));
    let most = counters::WITH_MOST_KINDS;
    let some = Counters { rights: &[13], lefts: &[12], totals: &[3], ..most };
    for counters in [some, Counters { symbols: 4, ..some }, most] {
        of_trees(&counters);
    }
    println!();
    // they count symbols alone: on either side a symbol sees every count
    let sums = Counters { rights: &[1], lefts: &[1], ..most };
    for totals in [&[4, 7, 9][..], &[4, 5, 9, 11]] {
        of_trees(&Counters { totals, ..sums });
    }
    println!();
    // on either side a symbol sees every state, and there is little to compute
    for count in [500, MOST_KINDS] {
        line(&neighbours(), &of_neighbours(count));
    }
    println!();
    line(&neighbours(), &crowded(1024));
}
