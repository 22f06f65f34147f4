//! The five operations, the comparing of two documents, the merging of two output types and the examining of lists of kinds,
//! for whoever performs them.

use crate::contract::{Contract, OutputType};
use std::fmt;

/// What one of the five operations answers, with its numbers; `taken` is how many numbers the document took.
///
/// `Stopped` is refusal 10, a check's stop at its limit: there are more kinds than that, none of those listed breaks the
/// contract, and `height` is the greatest height up to which every tree has its kind among them. So no document of that height
/// or less breaks the contract.
#[derive(Clone, Copy, Debug, PartialEq, Eq)]
pub enum Answer {
    Admitted,
    Judged { result: u64, taken: usize },
    Pass { count: usize },
    Tree { row: usize },
    Run { root: usize, used: usize, taken: usize },
    Written { count: usize },
    Refused { number: u64, place: usize },
    Stopped { limit: usize, height: usize },
}

impl Answer {
    /// How many numbers the document took that was judged or run; none for any other answer.
    pub fn taken(self) -> Option<usize> {
        match self {
            Answer::Judged { taken, .. } | Answer::Run { taken, .. } => Some(taken),
            _ => None,
        }
    }

    /// How many kinds a check lists in the word buffer, from its start on; none for any other answer, so for a stop too.
    pub fn kinds(self) -> Option<usize> {
        match self {
            Answer::Pass { count } => Some(count),
            Answer::Tree { row } => Some(row + 1),
            _ => None,
        }
    }
}

/// The words of a script's answer line: a run's leaves out the numbers taken, a stop's ends with the height.
impl fmt::Display for Answer {
    fn fmt(&self, f: &mut fmt::Formatter<'_>) -> fmt::Result {
        match self {
            Answer::Admitted => write!(f, "admitted"),
            Answer::Judged { result, taken } => write!(f, "judged {result} {taken}"),
            Answer::Pass { count } => write!(f, "pass {count}"),
            Answer::Tree { row } => write!(f, "tree {row}"),
            Answer::Run { root, used, .. } => write!(f, "run {root} {used}"),
            Answer::Written { count } => write!(f, "written {count}"),
            Answer::Refused { number, place } => write!(f, "refused {number} {place}"),
            Answer::Stopped { limit, height } => write!(f, "refused 10 {limit} {height}"),
        }
    }
}

/// Why something is refused: the number and the place.
pub type Refusal = (u64, usize);

/// The words of a script's line of a list that was examined.
pub fn verdict(examined: Result<(), Refusal>) -> String {
    match examined {
        Ok(()) => "accepted".to_string(),
        Err((number, place)) => Answer::Refused { number, place }.to_string(),
    }
}

/// The seam: [`crate::model::Model`] is one engine, the proved library another.
///
/// Judging, running and comparing take the document that the numbers begin with. Only documents with one root count:
/// no other breaks a contract, and judging gives any other 0. A buffer is lent with whatever it holds; after a refusal
/// that writes nothing it still holds that.
pub trait Engine {
    fn admit(&self, contract: &Contract) -> Answer;
    fn judge(&self, contract: &Contract, numbers: &[u16], kind: &mut [u64]) -> Answer;
    fn check(&self, contract: &Contract, limit: usize, rows: &mut [u16], words: &mut [u64]) -> Answer;
    fn run(&self, contract: &Contract, numbers: &[u16], rows: &mut [u16]) -> Answer;
    fn write_out(&self, rows: &[u16], row: usize, buffer: &mut [u16]) -> Answer;

    /// Of two buffers that each begin with a document over the symbols, the stretch of the one with fewer numbers,
    /// where it stands: nothing is copied. On a tie it is the first buffer's. A refusal hands back the empty stretch at
    /// the first buffer's start, and [`Engine::shorter_refusal`] tells it. The buffers may overlap or be the same.
    ///
    /// ```
    /// use goosedawn::engine::Engine;
    /// use goosedawn::library::Library;
    ///
    /// let (old, new) = ([1, 0, 1, 0, 0], [1, 0, 0, 7]);
    /// let shorter = Library::default().shorter(2, &old, &new);
    /// assert_eq!(shorter, [1, 0, 0]);
    /// assert!(std::ptr::eq(shorter, &new[..3]));
    /// ```
    ///
    /// The stretch lives as long as both buffers. It cannot be used after the first one,
    ///
    /// ```compile_fail,E0597
    /// # use goosedawn::engine::Engine;
    /// # use goosedawn::library::Library;
    /// let second = vec![0];
    /// let shorter = {
    ///     let first = vec![0];
    ///     Library::default().shorter(1, &first, &second)
    /// };
    /// assert_eq!(shorter.len(), 1);
    /// ```
    ///
    /// nor after the second:
    ///
    /// ```compile_fail,E0597
    /// # use goosedawn::engine::Engine;
    /// # use goosedawn::library::Library;
    /// let first = vec![0];
    /// let shorter = {
    ///     let second = vec![0];
    ///     Library::default().shorter(1, &first, &second)
    /// };
    /// assert_eq!(shorter.len(), 1);
    /// ```
    ///
    /// It may be used after the engine is gone (but for their scopes the two above are this example):
    ///
    /// ```
    /// # use goosedawn::engine::Engine;
    /// # use goosedawn::library::Library;
    /// let (first, second) = (vec![0], vec![0]);
    /// let shorter = {
    ///     let library = Library::default();
    ///     library.shorter(1, &first, &second)
    /// };
    /// assert_eq!(shorter.len(), 1);
    /// ```
    fn shorter<'a>(&self, symbols: usize, first: &'a [u16], second: &'a [u16]) -> &'a [u16];

    /// Why [`Engine::shorter`] hands back the empty stretch, or `None` where it hands back a document. The first that
    /// applies: 1 with place 0, the symbols are not 1 to 16; 11 and 12 of the first buffer, as in judging; 54 and 55,
    /// the same of the second buffer, which is only looked at if the first is good.
    ///
    /// ```
    /// use goosedawn::engine::Engine;
    /// use goosedawn::library::Library;
    ///
    /// let library = Library::default();
    /// assert_eq!(library.shorter_refusal(2, &[0], &[1, 0, 0]), None);
    /// assert_eq!(library.shorter_refusal(17, &[0], &[0]), Some((1, 0)));
    /// assert_eq!(library.shorter_refusal(2, &[1, 0], &[1, 5]), Some((12, 2)));
    /// assert_eq!(library.shorter_refusal(2, &[0], &[1, 5]), Some((55, 1)));
    /// assert_eq!(library.shorter(2, &[0], &[1, 5]), []);
    /// ```
    fn shorter_refusal(&self, symbols: usize, first: &[u16], second: &[u16]) -> Option<Refusal>;

    /// Merges two output types into one that allows a tree exactly if both do. A tree that has state m in the first and
    /// n in the second has in the merged one the state m × (the second's states) + n. Its table and its marks are
    /// written at the start of the two buffers, which keep what follows, and how many states it has comes back.
    ///
    /// The first refusal that applies, with its lowest place: 51, a fault in the first type; 52, one in the second
    /// (place 0 its symbols are not 1 to 16, 1 its states not 1 to 4, 2 its table's length, 3 its marks' length, else 4
    /// plus the index, through table and marks laid end to end, of an entry that is no state or a mark above 1); 50, the
    /// second type has another number of symbols than the first (the second's); 53, there would be more than 4 states
    /// (how many); 56, a buffer is too short, 0 for the table, 1 for the marks. A refusal writes nothing.
    ///
    /// So where a contract is checked with each of the two types and with the merged one, and no check is refused, the
    /// merged one passes exactly if both others do.
    ///
    /// A merged type may be merged again, as long as there are at most 4 states in all. Neither order nor grouping, nor
    /// merging a type in more than once, changes which trees are allowed in the end.
    ///
    /// ```
    /// use goosedawn::contract::OutputType;
    /// use goosedawn::engine::Engine;
    /// use goosedawn::library::Library;
    ///
    /// // The first allows no element of symbol 1, the second none of symbol 2; in both, state 1 has one.
    /// let first = OutputType { symbols: 3, states: 2, table: &[0, 1, 1, 1, 1, 0, 1, 1, 1], marks: &[1, 0] };
    /// let second = OutputType { table: &[0, 0, 1, 1, 1, 1, 1, 1, 1], ..first };
    /// let (mut table, mut marks) = ([7; 33], [7; 5]);
    /// assert_eq!(Library::default().merge(first, second, &mut table, &mut marks), Ok(4));
    /// assert_eq!(table[..17], [0, 2, 3, 2, 3, 3, 3, 3, 3, 2, 3, 2, 3, 3, 3, 3, 3]);
    /// assert_eq!(marks, [1, 0, 0, 0, 7]);
    ///
    /// assert_eq!(Library::default().merge(first, second, &mut table[1..], &mut marks), Err((56, 0)));
    /// ```
    fn merge(
        &self,
        first: OutputType<'_>,
        second: OutputType<'_>,
        table: &mut [u16],
        marks: &mut [u16],
    ) -> Result<usize, Refusal>;

    /// Examines a list of kinds, five words each, whoever made it. It is accepted exactly if it holds the kind of the empty
    /// forest, holds the kind of every symbol over every two of its kinds, and holds none that breaks the contract. Then no
    /// document breaks the contract. The kinds may stand in any order and be repeated, and there may be some that no tree has; bits that
    /// stand for no input state, mark or fact are ignored.
    ///
    /// The first refusal that applies: those of admission; 70, the length is no multiple of five or above 20480 (the
    /// length); 71, the empty forest's kind is missing (0); 72, the kind of a symbol over two kinds of the list is missing
    /// ((symbol × 4096 + left) × 4096 + right, the first by symbol, then left, then right; [`missing`] takes it apart); 73, a
    /// kind breaks the contract (its number). Left, right and that number count the kinds of the list as it is.
    ///
    /// What a check lists when it passes is accepted:
    ///
    /// ```
    /// use goosedawn::contract::Contract;
    /// use goosedawn::engine::{missing, Answer, Engine};
    /// use goosedawn::library::Library;
    ///
    /// // Any document of one sort of element, copied; every output is allowed.
    /// let contract = Contract {
    ///     symbols: 2,
    ///     input_states: 1,
    ///     output_states: 1,
    ///     counts: vec![0],
    ///     input_rows: vec![0, 0, 0, 0, 0, 1, 0, 0],
    ///     input_marks: vec![1],
    ///     output_table: vec![0, 0],
    ///     output_marks: vec![1],
    ///     nodes: vec![1, 0, 0, 0, 0, 2, 0, 1, 0, 0, 2, 0, 2, 0, 0, 1, 1, 0, 1, 2],
    ///     rules: vec![0, 0, 0, 0, 1, 3],
    /// };
    /// let library = Library::default();
    /// let (mut rows, mut words) = ([0; 3 * 3], [0; 5 * 3]);
    /// assert_eq!(library.check(&contract, 3, &mut rows, &mut words), Answer::Pass { count: 3 });
    /// assert_eq!(library.examine(&contract, &words), Ok(()));
    ///
    /// // Without its last kind, that of several roots, there is none of symbol 1 over kinds 0 and 1.
    /// assert_eq!(library.examine(&contract, &words[..10]), Err((72, 16_777_217)));
    /// assert_eq!(missing(16_777_217), [1, 0, 1]);
    /// ```
    fn examine(&self, contract: &Contract, words: &[u64]) -> Result<(), Refusal>;
}

/// The most kinds of a list that is examined.
pub const MOST_KINDS: usize = 4096;

/// What the place of refusal 72 tells: the symbol, and the numbers of the left and the right kind in the list.
pub fn missing(place: usize) -> [usize; 3] {
    [place / MOST_KINDS / MOST_KINDS, place / MOST_KINDS % MOST_KINDS, place % MOST_KINDS]
}
