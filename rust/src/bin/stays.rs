//! How long checks of contracts with stay rules take: `stays`. It makes its contracts itself, and prints the least time of some
//! checks by the proved library and by the model, and their ratio. First one transformation written by a rule for each symbol and
//! by a stay rule, for contracts of more and more symbols; then chains of 16 procedures, which take 15 rounds at a node; then
//! contracts whose 256 facts take 192 rounds, one fact each.

use goosedawn::contract::Contract;
use goosedawn::counters::Counters;
use goosedawn::library::Library;
use goosedawn::model::Model;
use goosedawn::stays::{chain, many_rounds, wrapping};
use goosedawn::timing::{heads, time_checks};

fn line(name: &str, contract: &Contract) {
    let times = time_checks(&Library::default(), &Model, contract, 512);
    let (symbols, nodes, rules) = (contract.symbols, contract.node_count(), contract.rule_count());
    println!("{name:<12} {symbols:>7} {nodes:>6} {rules:>6}  {times}");
}

fn main() {
    println!("{:<12} {:>7} {:>6} {:>6}  {}", "", "symbols", "nodes", "rules", heads(["proved", "model"]));
    let few = Counters { symbols: 7, rights: &[3], lefts: &[2], totals: &[1], nodes: 4, idle: 0, common: 1 };
    let some = Counters { rights: &[10], lefts: &[10], ..few };
    for symbols in [4, 8, 15] {
        let types = Counters { symbols, ..some }.contract();
        line("by symbol", &wrapping(&types, 12, false));
        line("by stay rule", &wrapping(&types, 12, true));
    }
    println!();
    for counters in [few, some] {
        line("15 rounds", &chain(&counters.contract()));
    }
    println!();
    // one kind for each number of roots; then some more
    let least = Counters { rights: &[1], lefts: &[1], ..few };
    for counters in [least, few] {
        line("192 rounds", &many_rounds(&counters.contract()));
    }
}
