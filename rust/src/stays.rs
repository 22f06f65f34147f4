//! Contracts with stay rules, over the input type of a contract that is given: chains that take many rounds, and a
//! transformation that is written with a stay rule and without.

use crate::contract::Contract;

/// A transformation as it is put together.
#[derive(Default)]
struct Transformation {
    nodes: Vec<[u16; 5]>,
    rules: Vec<[u16; 3]>,
}

impl Transformation {
    /// Adds a node, and gives its number.
    fn node(&mut self, fields: [u16; 5]) -> u16 {
        self.nodes.push(fields);
        self.nodes.len() as u16 - 1
    }

    /// An output symbol over two nodes.
    fn symbol(&mut self, symbol: u16, left: u16, right: u16) -> u16 {
        self.node([1, symbol, 0, left, right])
    }

    /// A procedure at the same node.
    fn stay(&mut self, procedure: u16, first: u16, second: u16) -> u16 {
        self.node([2, procedure, 0, first, second])
    }

    fn rule(&mut self, procedure: u16, symbol: usize, node: u16) {
        self.rules.push([procedure, symbol as u16, node]);
    }

    /// The contract with this transformation.
    fn over(self, types: Contract, counts: Vec<u16>) -> Contract {
        Contract { counts, nodes: self.nodes.concat(), rules: self.rules.concat(), ..types }
    }
}

/// Sixteen procedures, each with a stay rule that calls the next; the last makes an element of an element's children: what it
/// gives comes to the first in 15 rounds.
pub fn chain(types: &Contract) -> Contract {
    let mut made = Transformation::default();
    let nothing = made.node([1, 0, 0, 0, 0]);
    let children = [1, 2].map(|child| made.node([2, 15, child, 0, 0]));
    made.rule(15, 0, nothing);
    for symbol in 1..types.symbols {
        let node = made.symbol(symbol as u16, children[0], children[1]);
        made.rule(15, symbol, node);
    }
    for procedure in 0..15 {
        let next = made.stay(procedure + 1, 0, 0);
        made.rule(procedure, types.stay(), next);
    }
    made.over(types.clone(), vec![0; 16])
}

/// How many rounds [`many_rounds`] takes at a node. Each adds one fact to the first 64.
pub const MANY_ROUNDS: usize = 192;

/// Output symbols of [`many_rounds`]: what state they have over two states.
const NEXT: u16 = 1;
const CARRY: u16 = 2;
const BOTH_LAST: u16 = 3;
const LAST: u16 = 4;
const KEEP: u16 = 5;
const RAISE: u16 = 6;

fn state_over(symbol: u16, left: u16, right: u16) -> u16 {
    match symbol {
        NEXT => (left + 1) % 4,
        CARRY => (left + u16::from(right == 3)) % 4,
        BOTH_LAST => u16::from(left == 3 && right == 3),
        LAST => u16::from(left == 3),
        KEEP => left * u16::from(right == 1),
        RAISE => (left + 1).min(3) * u16::from(right == 1),
        _ => 0,
    }
}

/// A contract of 256 facts and seven symbols, in which they come one by one. All procedures give state 0. The last one raises by
/// one what the first gives for the lowest parameters; each other one keeps what the next one gives for them. Both do so for the
/// highest parameters alone, and a state goes down from parameters to the next lower ones, one round each.
pub fn many_rounds(types: &Contract) -> Contract {
    let counts = vec![0, 2, 2, 2, 1, 1, 1, 0, 0, 0];
    let mut made = Transformation::default();
    let nothing = made.node([1, 0, 0, 0, 0]);
    let [first, second] = [1, 2].map(|parameter| made.node([0, parameter, 0, 0, 0]));
    let [next_first, next_second] = [first, second].map(|node| made.symbol(NEXT, node, nothing));
    let carried = made.symbol(CARRY, first, second);
    let one = made.symbol(NEXT, nothing, nothing);
    let last = [one, made.symbol(LAST, first, nothing), made.symbol(BOTH_LAST, first, second)];
    for (procedure, &count) in (0..).zip(&counts) {
        (0..types.symbols).for_each(|symbol| made.rule(procedure, symbol, nothing));
        let before = (procedure + 1) % counts.len() as u16;
        let given = made.stay(before, nothing, nothing);
        let how = if before == 0 { RAISE } else { KEEP };
        let step = made.symbol(how, given, last[usize::from(count)]);
        made.rule(procedure, types.stay(), step);
        let higher = match count {
            0 => continue,
            1 => made.stay(procedure, next_first, nothing),
            _ => made.stay(procedure, carried, next_second),
        };
        made.rule(procedure, types.stay(), higher);
    }
    let squares =
        (1..types.symbols as u16).flat_map(|symbol| (0..16).map(move |at| state_over(symbol, at / 4, at % 4)));
    let types = Contract {
        output_states: 4,
        output_table: [0].into_iter().chain(squares).collect(),
        output_marks: vec![1; 4],
        ..types.clone()
    };
    made.over(types, counts)
}

/// Procedure 1 copies; procedure 0 puts so many elements around the copy, each in the one before: by one stay rule, or by a rule
/// for each symbol, with the same outputs and facts.
pub fn wrapping(types: &Contract, depth: usize, by_stay_rule: bool) -> Contract {
    let mut made = Transformation::default();
    let nothing = made.node([1, 0, 0, 0, 0]);
    let children = [1, 2].map(|child| made.node([2, 1, child, 0, 0]));
    let wrap = |made: &mut Transformation, inside| (0..depth).fold(inside, |node, _| made.symbol(1, node, nothing));
    for symbol in 0..types.symbols {
        let copy = if symbol == 0 { nothing } else { made.symbol(symbol as u16, children[0], children[1]) };
        made.rule(1, symbol, copy);
        if !by_stay_rule {
            let wrapped = wrap(&mut made, copy);
            made.rule(0, symbol, wrapped);
        }
    }
    if by_stay_rule {
        let copy = made.stay(1, 0, 0);
        let wrapped = wrap(&mut made, copy);
        made.rule(0, types.stay(), wrapped);
    }
    made.over(types.clone(), vec![0, 0])
}
