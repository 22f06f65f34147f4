//! The document that numbers begin with, as the model reads it: where it ends, and what is refused of it.

use goosedawn::model::documents::leading_document;
use goosedawn::model::Refusal;

/// Of numbers over three symbols.
fn taken(numbers: &[u16]) -> Result<usize, Refusal> {
    leading_document(3, numbers).map(|document| document.len())
}

/// So many inner symbols, each the first child of the one before: twice as many numbers and one more.
fn tree(inner: usize) -> Vec<u16> {
    [vec![1; inner], vec![0; inner + 1]].concat()
}

#[test]
fn the_leading_tree_is_taken() {
    assert_eq!(taken(&[0]), Ok(1));
    assert_eq!(taken(&[2, 0, 1, 0, 0]), Ok(5));
    assert_eq!(taken(&[1, 0, 0, 2, 0, 0]), Ok(3));
    assert_eq!(taken(&[0, 0, 0]), Ok(1));
}

#[test]
fn what_stands_behind_it_is_not_looked_at() {
    assert_eq!(taken(&[1, 0, 0, 3, 65_535]), Ok(3));
    for length in [1022, 1023, 1024, 70_000] {
        assert_eq!(taken(&[vec![1, 0, 0], vec![9; length - 3]].concat()), Ok(3));
    }
}

#[test]
fn a_tree_that_has_not_ended() {
    assert_eq!(taken(&[]), Err((12, 0)));
    assert_eq!(taken(&[1, 0]), Err((12, 2)));
    assert_eq!(taken(&[1; 1022]), Err((12, 1022)));
    assert_eq!(taken(&[1; 1023]), Err((12, 1023)));
    assert_eq!(taken(&[1; 1024]), Err((11, 1024)));
    assert_eq!(taken(&[1; 70_000]), Err((11, 70_000)));
}

#[test]
fn a_number_that_is_no_symbol() {
    assert_eq!(taken(&[3]), Err((12, 0)));
    assert_eq!(taken(&[1, 0, 3, 0, 65_535]), Err((12, 2)));
    for length in [1023, 1024, 70_000] {
        assert_eq!(taken(&[vec![1; 1022], vec![3; length - 1022]].concat()), Err((12, 1022)));
    }
    assert_eq!(taken(&[vec![1; 1023], vec![3]].concat()), Err((11, 1024)));
}

#[test]
fn the_longest_documents() {
    let (longest, too_long) = (tree(511), tree(512));
    assert_eq!(taken(&longest), Ok(1023));
    assert_eq!(taken(&longest.repeat(2)), Ok(1023));
    assert_eq!(taken(&longest[..1022]), Err((12, 1022)));
    assert_eq!(taken(&too_long), Err((11, 1025)));
    assert_eq!(taken(&too_long[..1024]), Err((11, 1024)));
    assert_eq!(taken(&too_long[..1023]), Err((12, 1023)));
}
