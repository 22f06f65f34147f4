//! Checking a contract: kinds in rounds, until one breaks, the list ends or the limit is passed.

use super::hashing::KindSet;
use super::kinds::{Kind, Kinds, Parts};
use super::{admission, Refusal};
use crate::contract::Contract;
use crate::engine::Answer;

/// The kinds listed so far, with their rows.
struct List<'a> {
    kinds: Kinds<'a>,
    limit: usize,
    rows: Vec<[u16; 3]>,
    heights: Vec<usize>,
    words: Vec<Kind>,
    parts: Vec<Parts>,
    listed: KindSet,
}

/// Why the listing stops before its end: a kind breaks, or one is left out, of a tree of this height.
enum Stop {
    Breaks,
    Full(usize),
}

impl List<'_> {
    fn new(contract: &Contract, limit: usize) -> List<'_> {
        List {
            kinds: Kinds::new(contract),
            limit,
            rows: Vec::new(),
            heights: Vec::new(),
            words: Vec::new(),
            parts: Vec::new(),
            listed: KindSet::default(),
        }
    }

    /// The height of the tree of a row over listed ones: one more than the greater height of its children.
    fn height(&self, [symbol, left, right]: [u16; 3]) -> usize {
        match symbol {
            0 => 0,
            _ => 1 + self.heights[left as usize].max(self.heights[right as usize]),
        }
    }

    /// Lists a kind unless it is listed.
    fn offer(&mut self, row: [u16; 3], kind: Kind) -> Result<(), Stop> {
        if self.listed.contains(&kind) {
            return Ok(());
        }
        let height = self.height(row);
        if self.rows.len() == self.limit {
            return Err(Stop::Full(height));
        }
        self.listed.insert(kind);
        self.rows.push(row);
        self.heights.push(height);
        self.words.push(kind);
        self.parts.push(self.kinds.parts(&kind));
        if self.kinds.breaks(&kind) {
            Err(Stop::Breaks)
        } else {
            Ok(())
        }
    }

    /// One round over the first `count` rows; a pair of the first `seen` was visited in an earlier round.
    fn round(&mut self, symbols: usize, seen: usize, count: usize) -> Result<(), Stop> {
        for symbol in 1..symbols {
            for left in 0..count {
                for right in if left < seen { seen } else { 0 }..count {
                    let kind = self.kinds.kind(symbol, &self.parts[left], &self.parts[right]);
                    self.offer([symbol as u16, left as u16, right as u16], kind)?;
                }
            }
        }
        Ok(())
    }

    fn rounds(&mut self, symbols: usize) -> Result<(), Stop> {
        self.offer([0, 0, 0], self.kinds.empty())?;
        let mut seen = 0;
        while seen < self.rows.len() {
            let count = self.rows.len();
            self.round(symbols, seen, count)?;
            seen = count;
        }
        Ok(())
    }
}

/// Checking.
pub fn check(contract: &Contract, limit: usize, rows: &mut [u16], words: &mut [u64]) -> Result<Answer, Refusal> {
    admission::admission(contract)?;
    if !(1..=512).contains(&limit) {
        return Err((9, 0));
    }
    if rows.len() != 3 * limit {
        return Err((9, 1));
    }
    if words.len() != 5 * limit {
        return Err((9, 2));
    }
    let mut list = List::new(contract, limit);
    let ended = list.rounds(contract.symbols);
    rows.fill(0);
    words.fill(0);
    if let Err(Stop::Full(left_out)) = ended {
        // rounds list kinds by height: those of all lower trees are listed
        return Ok(Answer::Stopped { limit, height: left_out - 1 });
    }
    for (place, (row, kind)) in list.rows.iter().zip(&list.words).enumerate() {
        rows[3 * place..3 * place + 3].copy_from_slice(row);
        words[5 * place..5 * place + 5].copy_from_slice(kind);
    }
    Ok(match ended {
        Ok(()) => Answer::Pass { count: list.rows.len() },
        Err(_) => Answer::Tree { row: list.rows.len() - 1 },
    })
}

/// The first kinds of an admitted contract in the order of a check, at most so many, whether or not they break it.
pub fn first_kinds(contract: &Contract, most: usize) -> Vec<Kind> {
    // kinds do not hang on which outputs are allowed; where all are, none breaks
    let allowing = Contract { output_marks: vec![1; contract.output_states], ..contract.clone() };
    let mut list = List::new(&allowing, most);
    // where the rounds stop, the first kinds are listed
    let _ = list.rounds(contract.symbols);
    list.words
}
