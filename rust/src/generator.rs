//! Random questions from a seed: the same seed gives the same questions everywhere.

use crate::contract::{Contract, OutputTables};
use crate::engine::MOST_KINDS;
use crate::model::admission::{admission, node_uses, uses_of, Uses};
use crate::model::checking::first_kinds;
use crate::model::documents::MOST_NUMBERS;
use crate::model::examining::bits_of_kinds;
use crate::model::kinds::Kind;
use std::ops::Range;

/// A small generator of random numbers (xorshift with a multiplication).
#[derive(Clone, Debug)]
pub struct Random(u64);

impl Random {
    pub fn new(seed: u64) -> Random {
        Random(seed.wrapping_mul(0x9E37_79B9_7F4A_7C15) | 1)
    }

    pub fn draw(&mut self) -> u64 {
        self.0 ^= self.0 >> 12;
        self.0 ^= self.0 << 25;
        self.0 ^= self.0 >> 27;
        self.0.wrapping_mul(0x2545_F491_4F6C_DD1D)
    }

    /// A number below `n`, which is not 0.
    pub fn below(&mut self, n: usize) -> usize {
        ((self.draw() >> 33) % n as u64) as usize
    }

    /// A number from `least` to `most`.
    pub fn within(&mut self, least: usize, most: usize) -> usize {
        least + self.below(most - least + 1)
    }

    /// True once in `n` times.
    pub fn once_in(&mut self, n: usize) -> bool {
        self.below(n) == 0
    }

    fn list(&mut self, length: usize, bound: usize) -> Vec<u16> {
        (0..length).map(|_| self.below(bound) as u16).collect()
    }
}

/// How large the tables of a contract become.
#[derive(Clone, Copy, Debug, PartialEq, Eq)]
pub enum Size {
    Small,
    Large,
}

/// A contract that admission takes.
pub fn valid(random: &mut Random, size: Size) -> Contract {
    let (symbols, inputs, outputs, procedures, rows, nodes, rules) = match size {
        Size::Small => (4, 4, 3, 4, 12, 16, 12),
        Size::Large => (16, 32, 4, 16, 512, 256, 256),
    };
    let symbols = random.within(1, symbols);
    let (input_states, input_rows) =
        if random.once_in(4) { states_by_roots(symbols) } else { any_states(random, symbols, inputs, rows) };
    let output_states = random.within(1, outputs);
    let counts = counts(random, procedures, output_states);
    let mut contract = Contract {
        symbols,
        input_states,
        output_states,
        counts,
        input_rows: input_rows.concat().into_iter().map(|field| field as u16).collect(),
        input_marks: random.list(input_states, 2),
        output_table: random.list(1 + (symbols - 1) * output_states * output_states, output_states),
        output_marks: random.list(output_states, 2),
        ..Contract::default()
    };
    let stays = Stays::any(random);
    if stays != Stays::None && random.once_in(3) {
        add_chain(random, &mut contract);
    }
    add_nodes(random, &mut contract, nodes, stays);
    add_rules(random, &mut contract, rules, stays);
    if stays != Stays::None && random.once_in(4) {
        leave_to_itself(random, &mut contract);
    }
    contract
}

/// Whether a contract has stay rules, and others.
#[derive(Clone, Copy, Debug, PartialEq, Eq)]
enum Stays {
    None,
    Some,
    Only,
}

impl Stays {
    fn any(random: &mut Random) -> Stays {
        match random.below(8) {
            0..=3 => Stays::None,
            4..=6 => Stays::Some,
            _ => Stays::Only,
        }
    }

    /// The symbol number of a rule.
    fn symbol(self, random: &mut Random, contract: &Contract) -> usize {
        match self {
            Stays::None => random.below(contract.symbols),
            Stays::Some => random.below(contract.symbols + 1),
            Stays::Only => contract.stay(),
        }
    }

    /// Where the calls of a node go: mostly to where a rule can use it, seldom to both.
    fn calls(self, random: &mut Random) -> Calls {
        match self {
            _ if random.once_in(24) => Calls::Both,
            Stays::None if random.once_in(24) => Calls::Stay,
            Stays::None => Calls::Descend,
            Stays::Some if random.once_in(2) => Calls::Descend,
            Stays::Only if random.once_in(8) => Calls::Descend,
            _ => Calls::Stay,
        }
    }
}

/// Where the calls of an expression go: all to the node itself, all to a child, or to both.
#[derive(Clone, Copy, Debug, PartialEq, Eq)]
enum Calls {
    Stay,
    Descend,
    Both,
}

impl Calls {
    fn allow(self, uses: Uses) -> bool {
        match self {
            Calls::Stay => !uses.descends,
            Calls::Descend => !uses.stays,
            Calls::Both => true,
        }
    }

    fn child(self, random: &mut Random) -> usize {
        match self {
            Calls::Stay => 0,
            Calls::Descend => random.within(1, 2),
            Calls::Both => random.within(0, 2),
        }
    }
}

/// How many input states there are, often as many as may be, and their rows; now and then the empty forest reaches all.
fn any_states(random: &mut Random, symbols: usize, most_states: usize, most_rows: usize) -> (usize, Vec<[usize; 4]>) {
    let states = if random.once_in(3) { most_states } else { random.within(1, most_states) };
    let of_empty = if random.once_in(8) { states } else { 0 };
    let mut rows: Vec<_> = (0..of_empty).map(|state| [state, 0, 0, 0]).collect();
    for _ in 0..random.within(0, most_rows - of_empty) {
        let symbol = random.below(symbols);
        let bound = if symbol == 0 { 1 } else { states };
        rows.push([random.below(states), symbol, random.below(bound), random.below(bound)]);
    }
    (states, rows)
}

/// Input states by how many roots a document has: 0 any number, 1 none, 2 one or more, 3 two or more, 4 one.
fn states_by_roots(symbols: usize) -> (usize, Vec<[usize; 4]>) {
    let of_symbol = |symbol| [[0, symbol, 0, 0], [2, symbol, 0, 0], [3, symbol, 0, 2], [4, symbol, 0, 1]];
    let rows = [[0, 0, 0, 0], [1, 0, 0, 0]].into_iter().chain((1..symbols).flat_map(of_symbol));
    (5, rows.collect())
}

/// Parameter counts with at most 256 facts.
fn counts(random: &mut Random, most: usize, states: usize) -> Vec<u16> {
    let mut counts = vec![0];
    let mut facts = states;
    for _ in 1..random.within(1, most) {
        let count = random.below(3);
        facts += states.pow(count as u32 + 1);
        if facts > 256 {
            break;
        }
        counts.push(count as u16);
    }
    counts
}

/// An earlier node whose calls go where they may.
fn earlier(random: &mut Random, uses: &[Uses], calls: Calls) -> Option<usize> {
    let last = random.below(uses.len().max(1));
    (0..uses.len().min(last + 1)).rev().find(|&node| calls.allow(uses[node]))
}

/// The fields of any node; none if no earlier node fits.
fn any_node(random: &mut Random, contract: &Contract, uses: &[Uses], calls: Calls) -> Option<[usize; 5]> {
    Some(match random.below(6) {
        0 => [0, random.within(1, 2), 0, 0, 0],
        1 => [1, 0, 0, 0, 0],
        2 | 3 if contract.symbols > 1 => {
            let symbol = random.within(1, contract.symbols - 1);
            [1, symbol, 0, earlier(random, uses, calls)?, earlier(random, uses, calls)?]
        }
        _ => {
            let procedure = random.below(contract.procedures());
            let mut call = [2, procedure, calls.child(random), 0, 0];
            for argument in call.iter_mut().skip(3).take(contract.count(procedure)) {
                *argument = earlier(random, uses, calls)?;
            }
            call
        }
    })
}

fn add_node(contract: &mut Contract, fields: [usize; 5]) -> usize {
    contract.nodes.extend(fields.map(|field| field as u16));
    contract.node_count() - 1
}

fn add_rule(contract: &mut Contract, procedure: usize, symbol: usize, node: usize) {
    contract.rules.extend([procedure, symbol, node].map(|field| field as u16));
}

/// Adds nodes to those that there are, up to so many in all.
fn add_nodes(random: &mut Random, contract: &mut Contract, most: usize, stays: Stays) {
    let mut uses = node_uses(contract);
    let wanted = random.within(1, most);
    while uses.is_empty() || uses.len() < wanted {
        let calls = stays.calls(random);
        let fields = any_node(random, contract, &uses, calls).unwrap_or([1, 0, 0, 0, 0]);
        let node = add_node(contract, fields);
        uses.push(uses_of(contract, &uses, node));
    }
}

/// Adds rules to those that there are, up to about so many in all, in any order.
fn add_rules(random: &mut Random, contract: &mut Contract, most: usize, stays: Stays) {
    let uses = node_uses(contract);
    let wanted = random.within(0, most);
    for _ in 0..4 * most {
        if contract.rule_count() >= wanted {
            break;
        }
        let (procedure, node) = (random.below(contract.procedures()), random.below(uses.len()));
        let symbol = stays.symbol(random, contract);
        let calls_fit = match symbol {
            stay if stay == contract.stay() => !uses[node].descends,
            0 => !uses[node].descends && !uses[node].stays,
            _ => !uses[node].stays,
        };
        if uses[node].parameter <= contract.count(procedure) && calls_fit {
            add_rule(contract, procedure, symbol, node);
        }
    }
    if random.once_in(2) {
        let mut rules: Vec<[u16; 3]> =
            contract.rules.chunks(3).map(|rule| rule.try_into().expect("three numbers")).collect();
        shuffle(random, &mut rules);
        contract.rules = rules.concat();
    }
}

/// Procedures in any order, of which each has a stay rule that calls the next one, now and then under an output symbol, and the
/// last calls itself or the first under one and has a rule for a symbol: what it gives comes to the first in as many rounds.
fn add_chain(random: &mut Random, contract: &mut Contract) {
    let nothing = add_node(contract, [1, 0, 0, 0, 0]);
    let parameters = [1, 2].map(|parameter| add_node(contract, [0, parameter, 0, 0, 0]));
    let mut order: Vec<usize> = (0..contract.procedures()).collect();
    if random.once_in(2) {
        order.reverse();
    }
    let last = order[order.len() - 1];
    add_rule(contract, last, random.below(contract.symbols), nothing);
    let back = order[random.below(order.len())];
    for link in order.windows(2).map(|link| [link[0], link[1]]).chain([[last, back]]) {
        let [caller, called] = link;
        let mut call = [2, called, 0, 0, 0];
        for argument in 0..contract.count(called) {
            let own = argument < contract.count(caller) && !random.once_in(4);
            call[3 + argument] = if own { parameters[argument] } else { nothing };
        }
        let mut node = add_node(contract, call);
        if contract.symbols > 1 && (random.once_in(3) || caller == last) {
            node = add_node(contract, [1, random.within(1, contract.symbols - 1), 0, node, nothing]);
        }
        add_rule(contract, caller, contract.stay(), node);
    }
}

/// Makes a procedure that only calls itself, at the same node: it has no output.
fn leave_to_itself(random: &mut Random, contract: &mut Contract) {
    let procedure = random.below(contract.procedures());
    let count = contract.count(procedure);
    if contract.node_count() + count >= 256 {
        return;
    }
    let mut call = [2, procedure, 0, 0, 0];
    for (argument, field) in call.iter_mut().skip(3).take(count).enumerate() {
        *field = add_node(contract, [0, argument + 1, 0, 0, 0]);
    }
    let node = add_node(contract, call);
    contract.rules =
        contract.rules.chunks(3).filter(|rule| usize::from(rule[0]) != procedure).flatten().copied().collect();
    if contract.rule_count() < 256 {
        add_rule(contract, procedure, contract.stay(), node);
    }
}

/// The contract with one or two faults: a number changed, a table cut or lengthened, a size changed, a call or a rule made to
/// stay or not to.
pub fn damaged(random: &mut Random, mut contract: Contract) -> Contract {
    for _ in 0..random.within(1, 2) {
        match random.below(16) {
            0 => contract.symbols = any_size(random, 18),
            1 => contract.input_states = any_size(random, 34),
            2 => contract.output_states = any_size(random, 6),
            12 | 13 => move_call(random, &mut contract),
            14 => move_rule(random, &mut contract),
            15 => mix_calls(random, &mut contract),
            which => {
                let table = match which {
                    3 | 4 => &mut contract.input_rows,
                    5 => &mut contract.input_marks,
                    6 => &mut contract.output_table,
                    7 => &mut contract.output_marks,
                    8 => &mut contract.counts,
                    9 | 10 => &mut contract.nodes,
                    _ => &mut contract.rules,
                };
                damage(random, table);
            }
        }
    }
    contract
}

/// Gives a call another child: the node itself, the left one, the right one, or none that there is.
fn move_call(random: &mut Random, contract: &mut Contract) {
    let calls: Vec<_> = (0..contract.nodes.len() / 5).filter(|node| contract.nodes[5 * node] == 2).collect();
    if !calls.is_empty() {
        contract.nodes[5 * calls[random.below(calls.len())] + 2] = random.below(4) as u16;
    }
}

/// Gives a rule whose node is a call an argument that goes elsewhere: to the node itself or to a child. Now and then the rule
/// keeps its node, so that none uses the other.
fn mix_calls(random: &mut Random, contract: &mut Contract) {
    if admission(contract).is_err() || contract.node_count() > 254 {
        return;
    }
    let arguments = |rule: usize| match contract.node_numbers(contract.rule(rule)[2]) {
        [2, procedure, ..] => contract.count(procedure),
        _ => 0,
    };
    let rules: Vec<_> = (0..contract.rule_count()).filter(|&rule| arguments(rule) > 0).collect();
    if !rules.is_empty() {
        let rule = rules[random.below(rules.len())];
        let argument = random.below(arguments(rule));
        let mut call = contract.node_numbers(contract.rule(rule)[2]);
        let child = if call[2] == 0 { random.within(1, 2) } else { 0 };
        call[3 + argument] = add_node(contract, [2, 0, child, 0, 0]);
        let mixed = add_node(contract, call);
        if !random.once_in(4) {
            contract.rules[3 * rule + 2] = mixed as u16;
        }
    }
}

/// Makes a rule one for symbol 0, for any symbol, a stay rule, or one for a number behind that.
fn move_rule(random: &mut Random, contract: &mut Contract) {
    let symbols = contract.symbols.min(16);
    if !contract.rules.is_empty() {
        let rule = random.below(contract.rules.len().div_ceil(3));
        if let Some(symbol) = contract.rules.get_mut(3 * rule + 1) {
            *symbol = [0, random.below(symbols + 2), symbols, symbols + 1][random.below(4)] as u16;
        }
    }
}

fn any_size(random: &mut Random, most: usize) -> usize {
    if random.once_in(4) {
        65_535
    } else {
        random.within(0, most)
    }
}

fn damage(random: &mut Random, table: &mut Vec<u16>) {
    let value = [0, 1, 2, 3, 4, 16, 255, 65_535][random.below(8)];
    match random.below(6) {
        0 => table.push(value),
        1 => {
            table.pop();
        }
        2 => table.extend(vec![value; random.within(1, 3000)]),
        _ if table.is_empty() => table.push(value),
        _ => {
            let place = random.below(table.len());
            table[place] = value;
        }
    }
}

/// A document over the symbols: of about `size` inner symbols. It has no root, one or several.
pub fn document(random: &mut Random, symbols: usize, size: usize) -> Vec<u16> {
    let mut numbers = Vec::new();
    let mut due = 1;
    let mut inner = size;
    while due > 0 {
        if symbols > 1 && inner > 0 && (due == 1 || !random.once_in(2)) {
            numbers.push(random.within(1, symbols - 1) as u16);
            inner -= 1;
            due += 1;
        } else {
            numbers.push(0);
            due -= 1;
        }
    }
    numbers
}

/// A document with one root and about `size` more inner symbols; the empty one if there is no symbol for a root.
pub fn one_root(random: &mut Random, symbols: usize, size: usize) -> Vec<u16> {
    if symbols < 2 {
        return vec![0];
    }
    let root = random.within(1, symbols - 1) as u16;
    [vec![root], document(random, symbols, size), vec![0]].concat()
}

/// A document of about `size` inner symbols, every other time of one root.
fn rooted_or_not(random: &mut Random, symbols: usize, size: usize) -> Vec<u16> {
    if size > 0 && random.once_in(2) {
        one_root(random, symbols, size - 1)
    } else {
        document(random, symbols, size)
    }
}

fn small_document(random: &mut Random, symbols: usize) -> Vec<u16> {
    let size = random.within(0, 12);
    rooted_or_not(random, symbols, size)
}

fn no_symbol(random: &mut Random, symbols: usize) -> u16 {
    [symbols, symbols + 1, 65_535][random.below(3)] as u16
}

/// What may stand behind a document: nothing, further documents, any numbers, or very many of one.
fn behind(random: &mut Random, symbols: usize) -> Vec<u16> {
    match random.below(6) {
        0 | 1 => Vec::new(),
        2 | 3 => (0..random.within(1, 3)).flat_map(|_| small_document(random, symbols)).collect(),
        4 => (0..random.within(1, 4)).map(|_| random.draw() as u16).collect(),
        _ => {
            let number = [0, 1, no_symbol(random, symbols)][random.below(3)];
            vec![number; random.within(MOST_NUMBERS - 20, MOST_NUMBERS + 20)]
        }
    }
}

/// About as many numbers as a document may have, or more: the tree ends shortly before that many, with them or behind
/// them, and sometimes a number near there is no symbol.
fn about_the_most(random: &mut Random, symbols: usize) -> Vec<u16> {
    let size = random.within(MOST_NUMBERS / 2 - 1, MOST_NUMBERS / 2 + 1);
    let mut numbers = rooted_or_not(random, symbols, size);
    numbers.extend(behind(random, symbols));
    if random.once_in(2) {
        numbers.truncate(random.within(MOST_NUMBERS - 1, MOST_NUMBERS + 2));
    }
    if random.once_in(3) {
        let place = random.within(MOST_NUMBERS - 2, MOST_NUMBERS + 1).min(numbers.len() - 1);
        numbers[place] = no_symbol(random, symbols);
    }
    numbers
}

/// A document, or one that is cut or changed.
fn document_or_damaged(random: &mut Random, symbols: usize) -> Vec<u16> {
    let size = if random.once_in(8) { random.within(0, MOST_NUMBERS / 2) } else { random.within(0, 12) };
    let mut numbers = rooted_or_not(random, symbols, size);
    match random.below(8) {
        0 => numbers.truncate(random.below(numbers.len())),
        1 => {
            let place = random.below(numbers.len());
            numbers[place] = random.below(symbols.max(1) + 2) as u16;
        }
        _ => {}
    }
    numbers
}

/// Any numbers: a document, whole or not, and what stands behind it; now and then about as many as a document may have.
pub fn numbers(random: &mut Random, symbols: usize) -> Vec<u16> {
    if random.once_in(6) {
        return about_the_most(random, symbols);
    }
    let mut numbers = document_or_damaged(random, symbols);
    numbers.extend(behind(random, symbols));
    numbers
}

/// Two buffers that stand in one memory, apart from each other or not, and a symbol count.
#[derive(Clone, Debug, PartialEq, Eq)]
pub struct Pair {
    pub symbols: usize,
    memory: Vec<u16>,
    first: Range<usize>,
    second: Range<usize>,
}

impl Pair {
    pub fn first(&self) -> &[u16] {
        &self.memory[self.first.clone()]
    }

    pub fn second(&self) -> &[u16] {
        &self.memory[self.second.clone()]
    }

    /// The first buffer right before the second, or right behind it.
    fn apart(random: &mut Random, symbols: usize, first: &[u16], second: &[u16]) -> Pair {
        let length = first.len() + second.len();
        if random.once_in(2) {
            let memory = [first, second].concat();
            Pair { symbols, memory, first: 0..first.len(), second: first.len()..length }
        } else {
            let memory = [second, first].concat();
            Pair { symbols, memory, first: second.len()..length, second: 0..second.len() }
        }
    }
}

/// Documents that are as long as each other or nearly so, with something behind them or not.
fn about_as_long(random: &mut Random, symbols: usize) -> Pair {
    let size = random.within(0, 12);
    let mut buffers = [size, size + random.below(2)].map(|size| document(random, symbols, size));
    buffers.iter_mut().for_each(|buffer| buffer.extend(behind(random, symbols)));
    if random.once_in(2) {
        buffers.reverse();
    }
    Pair::apart(random, symbols, &buffers[0], &buffers[1])
}

/// A part of a memory, mostly to its end.
fn part(random: &mut Random, length: usize) -> Range<usize> {
    let start = random.within(0, length);
    let end = if random.once_in(3) { random.within(start, length) } else { length };
    start..end
}

/// Two parts of one memory, now and then the same.
fn overlapping(random: &mut Random, symbols: usize) -> Pair {
    let memory = numbers(random, symbols);
    let first = if random.once_in(2) { 0..memory.len() } else { part(random, memory.len()) };
    let second = if random.once_in(4) { first.clone() } else { part(random, memory.len()) };
    Pair { symbols, memory, first, second }
}

/// Two buffers of any sort; now and then the symbol count is another than that of their documents.
pub fn pair(random: &mut Random) -> Pair {
    let most = if random.once_in(2) { 3 } else { 16 };
    let symbols = random.within(1, most);
    let mut pair = match random.below(4) {
        0 => about_as_long(random, symbols),
        1 => overlapping(random, symbols),
        _ => {
            let (first, second) = (numbers(random, symbols), numbers(random, symbols));
            Pair::apart(random, symbols, &first, &second)
        }
    };
    if random.once_in(8) {
        pair.symbols = [0, 1, 16, 17, 65_536, 1 << 32 | 1, usize::MAX][random.below(7)];
    }
    pair
}

/// Two output types to be merged, and the lengths of the buffers for the merged table and marks.
#[derive(Clone, Debug, PartialEq, Eq)]
pub struct Merging {
    pub first: OutputTables,
    pub second: OutputTables,
    pub table_room: usize,
    pub marks_room: usize,
}

/// An output type without a fault.
pub fn output_tables(random: &mut Random, symbols: usize, states: usize) -> OutputTables {
    let table = random.list(1 + (symbols - 1) * states * states, states);
    OutputTables { symbols, states, table, marks: random.list(states, 2) }
}

/// How many states two types have: mostly at most four pairs of them.
fn states_of_two(random: &mut Random) -> (usize, usize) {
    const FEW: [(usize, usize); 8] = [(1, 1), (1, 2), (1, 3), (1, 4), (2, 1), (2, 2), (3, 1), (4, 1)];
    match random.below(4) {
        0 => (random.within(1, 4), random.within(1, 4)),
        1 => (2, 2),
        _ => FEW[random.below(FEW.len())],
    }
}

/// An index of a list that is not empty: often the first or the last.
fn index(random: &mut Random, length: usize) -> usize {
    [0, length - 1, random.below(length)][random.below(3)]
}

/// Changes an output type, which may have faults already, so that mostly it has one more.
fn damage_type(random: &mut Random, damaged: &mut OutputTables) {
    const LARGE: [usize; 4] = [65_535, 65_536, 1 << 63, usize::MAX];
    let large = LARGE[random.below(LARGE.len())];
    match random.below(8) {
        0 => damaged.symbols = [0, 17, large, damaged.symbols | 1 << 32][random.below(4)],
        1 => damaged.states = [0, 5, large, damaged.states | 1 << 32][random.below(4)],
        2 => damage(random, &mut damaged.table),
        3 => damage(random, &mut damaged.marks),
        4 | 5 if !damaged.table.is_empty() => {
            let place = index(random, damaged.table.len());
            damaged.table[place] = [damaged.states as u16, 4, 65_535][random.below(3)];
        }
        _ if !damaged.marks.is_empty() => {
            let place = index(random, damaged.marks.len());
            damaged.marks[place] = [2, 3, 65_535][random.below(3)];
        }
        _ => damaged.marks.push(2),
    }
}

/// The length of a buffer for so many numbers: just as many, one too few, or any other.
fn room(random: &mut Random, due: usize) -> usize {
    match random.below(8) {
        0 => due - 1,
        1 => due + random.within(1, 9),
        2 => random.within(0, due),
        _ => due,
    }
}

/// Two output types of any sort: without a fault, with faults in one of them or in both, or over differing symbol counts.
pub fn merging(random: &mut Random) -> Merging {
    let most = if random.once_in(2) { 3 } else { 16 };
    let symbols = if random.once_in(8) { 16 } else { random.within(1, most) };
    let second_symbols = if random.once_in(12) { random.within(1, 16) } else { symbols };
    let states = states_of_two(random);
    let mut first = output_tables(random, symbols, states.0);
    let mut second = output_tables(random, second_symbols, states.1);
    let (damage_first, damage_second) = match random.below(12) {
        0 | 1 => (true, false),
        2 | 3 => (false, true),
        4 => (true, true),
        _ => (false, false),
    };
    for (damaged, due) in [(&mut first, damage_first), (&mut second, damage_second)] {
        for _ in 0..if due { random.within(1, 3) } else { 0 } {
            damage_type(random, damaged);
        }
    }
    let pairs = states.0 * states.1;
    let table_room = room(random, 1 + (symbols - 1) * pairs * pairs);
    Merging { first, second, table_room, marks_room: room(random, pairs) }
}

fn any_kind(random: &mut Random) -> Kind {
    std::array::from_fn(|_| random.draw())
}

/// Puts a list into another order.
fn shuffle<T>(random: &mut Random, list: &mut [T]) {
    for place in (1..list.len()).rev() {
        list.swap(place, random.below(place + 1));
    }
}

/// Sets some bits of a list's kinds that stand for nothing.
fn set_idle_bits(random: &mut Random, contract: &Contract, list: &mut [Kind]) {
    let bits = bits_of_kinds(contract);
    for kind in list {
        let idle = any_kind(random);
        (0..5).for_each(|word| kind[word] |= idle[word] & !bits[word]);
    }
}

/// Changes a kind in an input state, a mark or a fact of procedure 0.
fn flip_bit(random: &mut Random, contract: &Contract, kind: &mut Kind) {
    match random.below(3) {
        0 => kind[0] ^= 1 << random.below(contract.input_states),
        1 => kind[0] ^= 1 << random.within(32, 33),
        _ => kind[1] ^= 1 << random.below(contract.output_states),
    }
}

/// Changes a list that is not empty: a kind is left out, added or changed in a bit, some are repeated, or there are others.
fn change_list(random: &mut Random, contract: &Contract, list: &mut Vec<Kind>) {
    let place = index(random, list.len());
    match random.below(6) {
        0 => {
            list.remove(place);
        }
        1 => list.insert(place, any_kind(random)),
        2 => flip_bit(random, contract, &mut list[place]),
        3 | 4 => {
            for _ in 0..random.within(1, 4) {
                let (kind, place) = (list[random.below(list.len())], random.within(0, list.len()));
                list.insert(place, kind);
            }
        }
        _ => *list = (0..random.within(0, 4)).map(|_| any_kind(random)).collect(),
    }
}

/// The kinds of an admitted contract, all of them or the first, in any order, changed or not.
pub fn kinds_of(random: &mut Random, contract: &Contract, most: usize) -> Vec<Kind> {
    let mut list = first_kinds(contract, most);
    if random.once_in(2) {
        shuffle(random, &mut list);
    }
    if random.once_in(2) {
        change_list(random, contract, &mut list);
    }
    if random.once_in(2) {
        set_idle_bits(random, contract, &mut list);
    }
    list
}

/// Words of about as many kinds as a list may have, or of one more: kinds of a list, again and again.
fn about_the_most_kinds(random: &mut Random, list: &[Kind]) -> Vec<u64> {
    let most = 5 * random.within(MOST_KINDS - 1, MOST_KINDS + 1);
    list.iter().flatten().copied().cycle().take(most).collect()
}

/// A list of kinds of any sort, as words: all kinds of the contract or others; now and then of a wrong length, or one kind
/// about 4,096 times, and for a contract of one symbol, which has no pairs to look at, several so often.
pub fn list(random: &mut Random, contract: &Contract) -> Vec<u64> {
    let kinds = match admission(contract) {
        Ok(()) => {
            let most = if random.once_in(4) { random.within(1, 8) } else { 48 };
            kinds_of(random, contract, most)
        }
        Err(_) => (0..random.within(0, 2)).map(|_| any_kind(random)).collect(),
    };
    let mut words = match random.below(24) {
        0 => about_the_most_kinds(random, &kinds[..kinds.len().min(1)]),
        1 | 2 if contract.symbols == 1 => about_the_most_kinds(random, &kinds),
        _ => kinds.concat(),
    };
    if random.once_in(16) {
        words.truncate(words.len().saturating_sub(random.within(1, 4)));
    }
    words
}

/// Rows over smaller rows, sometimes damaged.
pub fn rows(random: &mut Random, most: usize) -> Vec<u16> {
    let mut rows: Vec<u16> = Vec::new();
    for row in 0..random.within(0, most) {
        let symbol = if row == 0 || random.once_in(3) { 0 } else { random.within(1, 15) };
        let fields = if symbol == 0 { [0, 0, 0] } else { [symbol, random.below(row), random.below(row)] };
        rows.extend(fields.map(|field| field as u16));
    }
    if random.once_in(4) {
        damage(random, &mut rows);
    }
    rows
}

/// A contract of any sort: small or large, whole or damaged.
pub fn contract(random: &mut Random) -> Contract {
    let size = if random.once_in(8) { Size::Large } else { Size::Small };
    let contract = valid(random, size);
    if random.once_in(3) {
        damaged(random, contract)
    } else {
        contract
    }
}
