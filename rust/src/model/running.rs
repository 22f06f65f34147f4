//! Running a transformation: for each call the first rule for the symbol, or else the first stay rule, in a fixed order of work.

use super::documents::{leading_document, right_children};
use super::{admission, Refusal};
use crate::contract::{Child, Contract, Node};
use crate::engine::Answer;
use std::collections::HashMap;
use std::thread;

/// The most calls of a run.
pub const MOST_CALLS: usize = 65_536;

/// The most calls of a run by a contract that has a stay rule, whether or not the run takes it.
pub const MOST_CALLS_WITH_STAYS: usize = 4_096;

/// The longest row buffer.
pub const MOST_ROW_NUMBERS: usize = 12_288;

/// The most calls within each other that all go to a child: a document is at most 511 high.
const MOST_DESCENTS: usize = 512;

/// Room for an evaluation, in a build that is not optimized too.
const EVALUATION: usize = 1024;

/// Room for what else stands on the stack.
const BESIDE: usize = 1 << 20;

struct Runner<'a> {
    contract: &'a Contract,
    document: &'a [u16],
    right: Vec<usize>,
    /// The node of the first rule for a procedure and a symbol, and of the first stay rule for a procedure.
    first_rules: HashMap<(usize, usize), usize>,
    rows: Vec<u16>,
    free: usize,
    calls: usize,
    most_calls: usize,
}

impl Runner<'_> {
    /// Procedure on the tree at a place, with the rows of its parameters: the row of its result.
    fn call(&mut self, procedure: usize, place: usize, parameters: [u16; 2]) -> Result<u16, Refusal> {
        if self.calls == self.most_calls {
            return Err((15, self.most_calls));
        }
        self.calls += 1;
        match self.first_rule(procedure, usize::from(self.document[place])) {
            Some(node) => self.evaluate(node, place, parameters),
            None => Err((13, procedure)),
        }
    }

    /// The node of the first rule of a procedure for a symbol; if there is none, that of its first stay rule.
    fn first_rule(&self, procedure: usize, symbol: usize) -> Option<usize> {
        let rule = |symbol| self.first_rules.get(&(procedure, symbol)).copied();
        rule(symbol).or_else(|| rule(self.contract.stay()))
    }

    fn evaluate(&mut self, node: usize, place: usize, parameters: [u16; 2]) -> Result<u16, Refusal> {
        match self.contract.node(node) {
            Node::Parameter(parameter) => Ok(parameters[parameter]),
            Node::Empty => self.add([0, 0, 0]),
            Node::Symbol(symbol, left, right) => {
                let left = self.evaluate(left, place, parameters)?;
                let right = self.evaluate(right, place, parameters)?;
                self.add([symbol as u16, left, right])
            }
            Node::Call { procedure, child, first, second } => {
                let count = self.contract.count(procedure);
                let mut arguments = [0, 0];
                for (argument, node) in arguments.iter_mut().zip([first, second]).take(count) {
                    *argument = self.evaluate(node, place, parameters)?;
                }
                let place = match child {
                    Child::Here => place,
                    Child::Left => place + 1,
                    Child::Right => self.right[place],
                };
                self.call(procedure, place, arguments)
            }
        }
    }

    fn add(&mut self, row: [u16; 3]) -> Result<u16, Refusal> {
        let used = self.rows.len() / 3;
        if used == self.free {
            return Err((14, self.free));
        }
        self.rows.extend(row);
        Ok(used as u16)
    }
}

/// Running on the document that the numbers begin with.
pub fn run(contract: &Contract, numbers: &[u16], buffer: &mut [u16]) -> Result<Answer, Refusal> {
    admission::admission(contract)?;
    if !buffer.len().is_multiple_of(3) || buffer.len() > MOST_ROW_NUMBERS {
        return Err((9, 0));
    }
    let document = leading_document(contract.symbols, numbers)?;
    let mut first_rules = HashMap::new();
    for [procedure, symbol, node] in (0..contract.rule_count()).map(|rule| contract.rule(rule)) {
        first_rules.entry((procedure, symbol)).or_insert(node);
    }
    let mut runner = Runner {
        contract,
        document,
        right: right_children(document),
        first_rules,
        rows: Vec::new(),
        free: buffer.len() / 3,
        calls: 0,
        most_calls: if contract.has_stay_rules() { MOST_CALLS_WITH_STAYS } else { MOST_CALLS },
    };
    let root = on_stack(stack(contract), || runner.call(0, 0, [0, 0]));
    buffer.fill(0);
    let root = usize::from(root?);
    buffer[..runner.rows.len()].copy_from_slice(&runner.rows);
    Ok(Answer::Run { root, used: runner.rows.len() / 3, taken: document.len() })
}

/// Enough for the deepest run of a contract: as many calls within each other as can be, each with all nodes within each other.
fn stack(contract: &Contract) -> usize {
    let calls = if contract.has_stay_rules() { MOST_CALLS_WITH_STAYS } else { MOST_DESCENTS };
    calls * (contract.node_count() + 1) * EVALUATION + BESIDE
}

fn on_stack<T: Send>(size: usize, work: impl FnOnce() -> T + Send) -> T {
    thread::scope(|scope| {
        let worker = thread::Builder::new().stack_size(size).spawn_scoped(scope, work).expect("a thread");
        worker.join().expect("a run ends")
    })
}
