//! The shorter of two documents, by the model and by the proved library: the very stretch that is handed back, and what
//! is refused.

use goosedawn::engine::{Engine, Refusal};
use goosedawn::library::Library;
use goosedawn::model::Model;
use std::ptr;

/// Sees that both engines hand back this very stretch, not one that holds the same numbers elsewhere.
fn gives(symbols: usize, first: &[u16], second: &[u16], stretch: &[u16]) {
    fn by(engine: &impl Engine, symbols: usize, first: &[u16], second: &[u16], stretch: &[u16]) {
        let given = engine.shorter(symbols, first, second);
        assert!(ptr::eq(given, stretch), "{given:?} at {given:p} instead of {stretch:?} at {stretch:p}");
        assert_eq!(engine.shorter_refusal(symbols, first, second), None);
    }
    by(&Model, symbols, first, second, stretch);
    by(&Library::default(), symbols, first, second, stretch);
}

/// Sees that both engines tell this refusal, and hand back the empty stretch at the first buffer's start.
fn refuses(symbols: usize, first: &[u16], second: &[u16], refusal: Refusal) {
    fn by(engine: &impl Engine, symbols: usize, first: &[u16], second: &[u16], refusal: Refusal) {
        let given = engine.shorter(symbols, first, second);
        assert!(ptr::eq(given, &first[..0]), "{given:?} at {given:p}, first at {first:p}");
        assert_eq!(engine.shorter_refusal(symbols, first, second), Some(refusal));
    }
    by(&Model, symbols, first, second, refusal);
    by(&Library::default(), symbols, first, second, refusal);
}

/// So many inner symbols, each the first child of the one before: twice as many numbers and one more.
fn tree(inner: usize) -> Vec<u16> {
    [vec![1; inner], vec![0; inner + 1]].concat()
}

#[test]
fn the_one_with_fewer_numbers() {
    let (three, five) = ([1, 0, 0], [2, 0, 1, 0, 0]);
    gives(3, &three, &five, &three);
    gives(3, &five, &three, &three);
}

#[test]
fn on_a_tie_the_first() {
    let (one, other) = ([2, 0, 1, 0, 0], [1, 2, 0, 0, 0]);
    gives(3, &one, &other, &one);
    gives(3, &other, &one, &other);
    let same = one;
    gives(3, &one, &same, &one);
    gives(3, &same, &one, &same);
}

#[test]
fn what_stands_behind_does_not_count() {
    let (three, five) = ([1, 0, 0, 3, 65_535, 1, 1], [2, 0, 1, 0, 0, 9]);
    gives(3, &three, &five, &three[..3]);
    gives(3, &five, &three, &three[..3]);
    let three = [vec![1, 0, 0], vec![9; 70_000]].concat();
    gives(3, &three, &five, &three[..3]);
    gives(3, &five, &three, &three[..3]);
}

#[test]
fn buffers_that_overlap() {
    let memory = [1, 1, 0, 0, 0, 0];
    gives(2, &memory, &memory, &memory[..5]);
    gives(2, &memory, &memory[..5], &memory[..5]);
    gives(2, &memory, &memory[1..], &memory[1..4]);
    gives(2, &memory[1..], &memory, &memory[1..4]);
    gives(2, &memory[..5], &memory[5..], &memory[5..]);
    refuses(2, &memory[..4], &memory, (12, 4));
    refuses(2, &memory, &memory[..4], (55, 4));
}

#[test]
fn a_fault_of_the_first_buffer() {
    refuses(2, &[], &[0], (12, 0));
    refuses(2, &[1, 0], &[0], (12, 2));
    refuses(2, &[1, 2, 0], &[0], (12, 1));
    refuses(2, &[1; 1023], &[0], (12, 1023));
    refuses(2, &[1; 1024], &[0], (11, 1024));
    refuses(2, &[1; 70_000], &[0], (11, 70_000));
}

#[test]
fn a_fault_of_the_second_buffer() {
    let first = [1, 0, 0];
    refuses(2, &[0], &[1, 0, 1, 0], (55, 4));
    refuses(2, &first, &[], (55, 0));
    refuses(2, &first, &[1, 0], (55, 2));
    refuses(2, &first, &[1, 2, 0], (55, 1));
    refuses(2, &first, &[1; 1023], (55, 1023));
    refuses(2, &first, &[1; 1024], (54, 1024));
    refuses(2, &first, &[1; 70_000], (54, 70_000));
}

#[test]
fn the_second_buffer_is_only_looked_at_if_the_first_is_good() {
    refuses(2, &[1, 2, 0], &[], (12, 1));
    refuses(2, &[1, 0], &[1; 1024], (12, 2));
    refuses(2, &[1; 1024], &[2], (11, 1024));
}

#[test]
fn the_longest_documents() {
    let (longest, shorter, too_long) = (tree(511), tree(510), tree(512));
    gives(2, &longest, &longest.clone(), &longest);
    gives(2, &longest, &shorter, &shorter);
    gives(2, &shorter, &longest, &shorter);
    refuses(2, &too_long, &longest, (11, 1025));
    refuses(2, &longest, &too_long, (54, 1025));
    refuses(2, &longest, &too_long[..1023], (55, 1023));
}

#[test]
fn symbol_counts() {
    let (one, three) = ([0, 16], [15, 0, 0]);
    gives(1, &one, &three[1..], &one[..1]);
    gives(16, &three, &one, &one[..1]);
    for symbols in [0, 17, 65_536, 1 << 32, 1 << 32 | 1, usize::MAX] {
        refuses(symbols, &[0], &[0], (1, 0));
        refuses(symbols, &[], &[1; 1024], (1, 0));
    }
}
