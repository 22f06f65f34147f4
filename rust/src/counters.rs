//! Contracts that count, with as many kinds and nodes as wanted and, if wanted, with all their kinds at one slot.

use crate::contract::Contract;

/// A contract whose input type counts three things at once, each round a cycle: the steps of a tree's right spine, those of
/// its left spine, and its symbols. It has a kind for each three counts; of trees with one root, whose right spine has one
/// step, a kind for each two counts of the others; and that of the empty forest.
///
/// A thing may be counted round several cycles at once. Where no two of their lengths have a common factor, these count as one
/// cycle does whose length is their product, with fewer states.
#[derive(Clone, Copy)]
pub struct Counters {
    pub symbols: u16,
    /// The lengths of the cycles of each thing.
    pub rights: &'static [u16],
    pub lefts: &'static [u16],
    pub totals: &'static [u16],
    pub nodes: u16,
    /// How many states no tree has: the first ones.
    pub idle: u16,
    /// How many states every tree has, at least one: those after the idle ones.
    pub common: u16,
}

/// The states of a cycle.
#[derive(Clone, Copy)]
struct Cycle {
    first: u16,
    length: u16,
}

impl Cycle {
    fn state(&self, count: u16) -> u16 {
        self.first + count % self.length
    }
}

/// Cycles of these lengths, one behind another; `next` is the first state that is free, before and after.
fn cycles(lengths: &[u16], next: &mut u16) -> Vec<Cycle> {
    let cycle = |&length| {
        *next += length;
        Cycle { first: *next - length, length }
    };
    lengths.iter().map(cycle).collect()
}

/// The rows of a symbol that count all symbols round a cycle: those of the left tree, those of the right one and itself.
fn sums(symbol: u16, cycle: Cycle) -> impl Iterator<Item = [u16; 4]> {
    let row = move |m, n| [cycle.state(m + n + 1), symbol, cycle.state(m), cycle.state(n)];
    (0..cycle.length).flat_map(move |m| (0..cycle.length).map(move |n| row(m, n)))
}

/// A contract with 4,096 kinds, as many as a list may have that is examined: 12 counts of the right spine, of trees with one root
/// one more, by 35 of the left spine and 9 of the symbols; and that of the empty forest.
pub const WITH_MOST_KINDS: Counters =
    Counters { symbols: 2, rights: &[3, 4], lefts: &[5, 7], totals: &[9], nodes: 16, idle: 0, common: 1 };

impl Counters {
    /// A check enters a kind into its slots at the sum of the kind's words modulo 1,024. With ten or more idle and common
    /// states the bits of the counts are above the low ten, and all kinds have the one fact that the procedure has an output of
    /// state 0: so all kinds start at one slot, whose number this is.
    pub fn only_slot(&self) -> Option<usize> {
        let common = (1 << self.common) - 1;
        (self.idle + self.common >= 10).then_some(((common << self.idle) + 1) % 1024)
    }

    /// Behind the idle and the common states come the counts of the right spine, of the left spine, and of all symbols.
    fn input_rows(&self) -> Vec<u16> {
        let every = self.idle;
        let mut next = self.idle + self.common;
        let common = every..next;
        let [rights, lefts, totals] = self.lengths().map(|lengths| cycles(lengths, &mut next));
        let all = [&rights[..], &lefts, &totals].concat();
        let mut rows: Vec<_> = all.iter().map(|cycle| [cycle.state(0), 0, 0, 0]).collect();
        rows.extend(common.clone().map(|state| [state, 0, 0, 0]));
        for symbol in 1..self.symbols {
            rows.extend(common.clone().map(|state| [state, symbol, every, every]));
            for cycle in &rights {
                rows.extend((0..cycle.length).map(|n| [cycle.state(n + 1), symbol, every, cycle.state(n)]));
            }
            for cycle in &lefts {
                rows.extend((0..cycle.length).map(|n| [cycle.state(n + 1), symbol, cycle.state(n), every]));
            }
            rows.extend(totals.iter().flat_map(|cycle| sums(symbol, *cycle)));
        }
        rows.concat()
    }

    fn lengths(&self) -> [&'static [u16]; 3] {
        [self.rights, self.lefts, self.totals]
    }

    /// One procedure: nothing on the empty forest; on a symbol a long expression over itself on both children. All outputs
    /// have state 0, so that the counts alone make the kinds.
    pub fn contract(&self) -> Contract {
        let mut nodes = vec![[1, 0, 0, 0, 0], [2, 0, 1, 0, 0], [2, 0, 2, 0, 0]];
        while nodes.len() < usize::from(self.nodes) {
            let last = nodes.len() as u16 - 1;
            nodes.push([1, 1, 0, last, last - 1]);
        }
        let last = nodes.len() as u16 - 1;
        let rules = (0..self.symbols).map(|symbol| [0, symbol, if symbol == 0 { 0 } else { last }]);
        let states = self.idle + self.common + self.lengths().concat().iter().sum::<u16>();
        Contract {
            symbols: usize::from(self.symbols),
            input_states: usize::from(states),
            output_states: 2,
            counts: vec![0],
            input_rows: self.input_rows(),
            input_marks: vec![1; usize::from(states)],
            output_table: vec![0; 1 + 4 * (usize::from(self.symbols) - 1)],
            output_marks: vec![1, 1],
            rules: rules.collect::<Vec<_>>().concat(),
            nodes: nodes.concat(),
        }
    }
}
