//! How the time of a check grows with the kinds, the symbols and the nodes: `growth`. It makes its contracts itself, and
//! prints the least time of some checks by the proved library and by the model.

use goosedawn::counters::Counters;
use goosedawn::library::Library;
use goosedawn::model::Model;
use goosedawn::timing::{heads, time_checks};

fn line(counters: &Counters) {
    let times = time_checks(&Library::default(), &Model, &counters.contract(), 512);
    println!("{:>7} {:>6}  {times}", counters.symbols, counters.nodes);
}

fn main() {
    println!("{:>7} {:>6}  {}", "symbols", "nodes", heads(["proved", "model"]));
    let few = Counters { symbols: 4, rights: &[5], lefts: &[2], totals: &[1], nodes: 16, idle: 0, common: 1 };
    let some = Counters { rights: &[10], lefts: &[10], ..few };
    let many = Counters { rights: &[13], lefts: &[12], totals: &[3], ..few };
    for size in [&few, &some, &many] {
        line(size);
    }
    println!();
    for symbols in [2, 4, 8, 15] {
        line(&Counters { symbols, ..many });
    }
    println!();
    for nodes in [4, 16, 64, 256] {
        line(&Counters { nodes, ..some });
    }
}
