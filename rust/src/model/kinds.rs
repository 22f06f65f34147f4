//! Facts and kinds, and judging a document by its kind.

use super::documents::leading_document;
use super::{admission, Refusal};
use crate::contract::{Contract, Node};
use crate::engine::Answer;

/// Five words: input states and the two marks, then facts.
pub type Kind = [u64; 5];

/// The mark of a tree with one root: its root is not symbol 0, and its right child is.
pub const ONE_ROOT: u64 = 1 << 32;

/// The mark of the empty forest.
pub const EMPTY: u64 = 1 << 33;

/// A set of output states, as a mask.
type States = u8;

/// A kind taken apart: the input states with the marks, and the output states that each procedure gives for each parameter
/// states.
#[derive(Clone)]
pub struct Parts {
    inputs: u64,
    given: [States; 256],
}

/// Where a procedure's facts begin, in the kind and in its parts, and how many parameter states there are for it.
#[derive(Clone, Copy)]
struct Facts {
    fact: usize,
    part: usize,
    parameters: usize,
}

/// No facts: what stands where no call goes.
const NONE: Parts = Parts { inputs: 0, given: [0; 256] };

/// The rules for a symbol, or the stay rules, of the procedures with one number of parameters, with the nodes that they reach, ascending.
struct Pass {
    count: usize,
    rules: Vec<(usize, usize)>,
    nodes: Vec<(usize, Node)>,
}

/// An admitted contract, with what depends on it alone worked out once.
pub struct Kinds<'a> {
    contract: &'a Contract,
    facts: Vec<Facts>,
    /// By symbol: the input rows, as state, left and right.
    rows_of: Vec<Vec<[usize; 3]>>,
    /// By symbol; behind them those of the stay rules.
    passes_of: Vec<Vec<Pass>>,
    /// By symbol, left and right states: the states of the symbol over them.
    joined: Vec<[[States; 16]; 16]>,
    has_stays: bool,
    accepted_inputs: u64,
    breaking_facts: u64,
}

impl<'a> Kinds<'a> {
    pub fn new(contract: &'a Contract) -> Kinds<'a> {
        let mut rows_of = vec![Vec::new(); contract.symbols];
        for [state, symbol, left, right] in (0..contract.input_row_count()).map(|row| contract.input_row(row)) {
            rows_of[symbol].push([state, left, right]);
        }
        let mask = |marks: &[u16], mark: u16| marks.iter().rev().fold(0, |mask, &m| mask << 1 | u64::from(m == mark));
        Kinds {
            contract,
            facts: facts(contract),
            rows_of,
            passes_of: (0..=contract.stay()).map(|symbol| passes(contract, symbol)).collect(),
            joined: (0..contract.symbols).map(|symbol| joined(contract, symbol)).collect(),
            has_stays: contract.has_stay_rules(),
            accepted_inputs: mask(&contract.input_marks, 1),
            breaking_facts: mask(&contract.output_marks, 0),
        }
    }

    /// A kind taken apart.
    pub fn parts(&self, kind: &Kind) -> Parts {
        let mut parts = Parts { inputs: kind[0], given: [0; 256] };
        for facts in &self.facts {
            for state in 0..self.contract.output_states {
                for code in 0..facts.parameters {
                    let fact = facts.fact + state * facts.parameters + code;
                    let holds = kind[1 + fact / 64] >> (fact % 64) & 1;
                    parts.given[facts.part + code] |= (holds as States) << state;
                }
            }
        }
        parts
    }

    /// What a node gives under one assignment, from what the nodes below it give. The parts are those of the tree itself and
    /// of its left and its right child.
    fn value(&self, node: Node, parts: [&Parts; 3], assignment: [usize; 2], values: &[States; 256]) -> States {
        match node {
            Node::Parameter(parameter) => 1 << assignment[parameter],
            Node::Empty => 1 << self.contract.output_table[0],
            Node::Symbol(symbol, left, right) => {
                self.joined[symbol][usize::from(values[left])][usize::from(values[right])]
            }
            Node::Call { procedure, child, first, second } => {
                let part = self.facts[procedure].part;
                let given = &parts[child as usize].given;
                let states = self.contract.output_states;
                match self.contract.count(procedure) {
                    0 => given[part],
                    1 => each(values[first]).fold(0, |value, x| value | given[part + x]),
                    _ => each(values[first])
                        .flat_map(|x| each(values[second]).map(move |y| x * states + y))
                        .fold(0, |value, code| value | given[part + code]),
                }
            }
        }
    }

    /// Adds the facts that the rules for a symbol give, or the stay rules.
    fn add_facts(&self, kind: &mut Kind, symbol: usize, parts: [&Parts; 3]) {
        let mut values = [0; 256];
        let states = self.contract.output_states;
        for pass in &self.passes_of[symbol] {
            let parameters = states.pow(pass.count as u32);
            for code in 0..parameters {
                let assignment = if pass.count == 2 { [code / states, code % states] } else { [code, 0] };
                for &(place, node) in &pass.nodes {
                    values[place] = self.value(node, parts, assignment, &values);
                }
                for &(procedure, node) in &pass.rules {
                    for state in each(values[node]) {
                        let fact = self.facts[procedure].fact + state * parameters + code;
                        kind[1 + fact / 64] |= 1 << (fact % 64);
                    }
                }
            }
        }
    }

    /// The kind of a symbol over two kinds by its own rules, without the stay rules.
    fn before_stays(&self, symbol: usize, left: &Parts, right: &Parts) -> Kind {
        let mut kind = [mark(symbol, right), 0, 0, 0, 0];
        for &[state, first, second] in &self.rows_of[symbol] {
            let reached = symbol == 0 || left.inputs >> first & right.inputs >> second & 1 == 1;
            kind[0] |= u64::from(reached) << state;
        }
        self.add_facts(&mut kind, symbol, [&NONE, left, right]);
        kind
    }

    /// A kind with the facts that the stay rules add to its own.
    pub fn stay_round(&self, kind: &Kind) -> Kind {
        let mut more = *kind;
        self.add_facts(&mut more, self.contract.stay(), [&self.parts(kind), &NONE, &NONE]);
        more
    }

    /// The kind of a symbol over two kinds, which for symbol 0 are not looked at: what its own rules make, and then round by
    /// round what the stay rules add, until a round adds nothing. So its facts are the least set closed under both.
    pub fn kind(&self, symbol: usize, left: &Parts, right: &Parts) -> Kind {
        if !self.has_stays {
            return self.before_stays(symbol, left, right);
        }
        let mut kind = self.before_stays(symbol, left, right);
        loop {
            let more = self.stay_round(&kind);
            if more == kind {
                return kind;
            }
            kind = more;
        }
    }

    /// The kind of the empty forest.
    pub fn empty(&self) -> Kind {
        self.kind(0, &NONE, &NONE)
    }

    /// The kind of a document without a fault.
    pub fn document(&self, numbers: &[u16]) -> Kind {
        let mut kinds: Vec<Kind> = Vec::new();
        for &number in numbers.iter().rev() {
            let kind = if number == 0 {
                self.empty()
            } else {
                let left = self.parts(&kinds.pop().expect("a left child"));
                let right = self.parts(&kinds.pop().expect("a right child"));
                self.kind(usize::from(number), &left, &right)
            };
            kinds.push(kind);
        }
        kinds.pop().expect("a tree")
    }

    /// A contract takes trees with one root alone.
    pub fn takes(&self, kind: &Kind) -> bool {
        kind[0] & ONE_ROOT != 0 && kind[0] & self.accepted_inputs != 0
    }

    /// The facts of procedure 0 come first, one for each state.
    pub fn breaks(&self, kind: &Kind) -> bool {
        self.takes(kind) && kind[1] & self.breaking_facts != 0
    }
}

/// The mark of a symbol over two kinds, if it has one: a symbol has one root if its right child is the empty forest.
fn mark(symbol: usize, right: &Parts) -> u64 {
    match symbol {
        0 => EMPTY,
        _ if right.inputs & EMPTY != 0 => ONE_ROOT,
        _ => 0,
    }
}

/// The states of a set.
fn each(mut set: States) -> impl Iterator<Item = usize> {
    std::iter::from_fn(move || {
        let state = set.trailing_zeros() as usize;
        set &= set.wrapping_sub(1);
        (state < 8).then_some(state)
    })
}

fn facts(contract: &Contract) -> Vec<Facts> {
    let mut next = Facts { fact: 0, part: 0, parameters: 0 };
    let mut facts = Vec::new();
    for &count in &contract.counts {
        next.parameters = contract.output_states.pow(u32::from(count));
        facts.push(next);
        next.fact += contract.output_states * next.parameters;
        next.part += next.parameters;
    }
    facts
}

fn joined(contract: &Contract, symbol: usize) -> [[States; 16]; 16] {
    let mut joined = [[0; 16]; 16];
    let sets = 1 << contract.output_states;
    for left in (0..sets).filter(|_| symbol > 0) {
        for right in 0..sets {
            for x in each(left) {
                for y in each(right) {
                    joined[usize::from(left)][usize::from(right)] |= 1 << contract.output_state(symbol, x, y);
                }
            }
        }
    }
    joined
}

fn passes(contract: &Contract, symbol: usize) -> Vec<Pass> {
    let rules: Vec<_> = (0..contract.rule_count()).map(|rule| contract.rule(rule)).collect();
    let of_count = |count: usize| {
        let rules = rules.iter().filter(|rule| rule[1] == symbol && contract.count(rule[0]) == count);
        let rules: Vec<_> = rules.map(|rule| (rule[0], rule[2])).collect();
        Pass { count, nodes: reached(contract, &rules), rules }
    };
    (0..3).map(of_count).filter(|pass| !pass.rules.is_empty()).collect()
}

/// The nodes that rules reach, directly or below, ascending.
fn reached(contract: &Contract, rules: &[(usize, usize)]) -> Vec<(usize, Node)> {
    let mut marked = vec![false; contract.node_count()];
    rules.iter().for_each(|&(_, node)| marked[node] = true);
    for place in (0..marked.len()).rev() {
        let below = match contract.node(place) {
            Node::Symbol(_, left, right) => vec![left, right],
            Node::Call { procedure, first, second, .. } => [first, second][..contract.count(procedure)].to_vec(),
            _ => Vec::new(),
        };
        if marked[place] {
            below.into_iter().for_each(|node| marked[node] = true);
        }
    }
    (0..marked.len()).filter(|&place| marked[place]).map(|place| (place, contract.node(place))).collect()
}

/// Judging the document that the numbers begin with.
pub fn judge(contract: &Contract, numbers: &[u16], buffer: &mut [u64]) -> Result<Answer, Refusal> {
    admission::admission(contract)?;
    if buffer.len() != 5 {
        return Err((9, 0));
    }
    let document = leading_document(contract.symbols, numbers)?;
    let kinds = Kinds::new(contract);
    let kind = kinds.document(document);
    buffer.copy_from_slice(&kind);
    let result = match (kinds.takes(&kind), kinds.breaks(&kind)) {
        (false, _) => 0,
        (true, false) => 1,
        (true, true) => 2,
    };
    Ok(Answer::Judged { result, taken: document.len() })
}
