//! Documents: symbols in preorder. Numbers begin with one, and anything may stand behind it.

use super::Refusal;

/// The most numbers of a document.
pub const MOST_NUMBERS: usize = 1023;

/// The document that numbers begin with, or refusal 11 or 12. Behind the first 1,023 numbers none is looked at.
pub fn leading_document(symbols: usize, numbers: &[u16]) -> Result<&[u16], Refusal> {
    let looked_at = &numbers[..numbers.len().min(MOST_NUMBERS)];
    let no_symbol = looked_at.iter().position(|&number| usize::from(number) >= symbols);
    let before = &looked_at[..no_symbol.unwrap_or(looked_at.len())];
    match (tree_length(before), no_symbol) {
        (Some(length), _) => Ok(&numbers[..length]),
        (None, Some(place)) => Err((12, place)),
        (None, None) if numbers.len() > MOST_NUMBERS => Err((11, numbers.len())),
        (None, None) => Err((12, numbers.len())),
    }
}

/// How many symbols the tree has that symbols begin with: the least count with one more 0 in it than other symbols.
fn tree_length(symbols: &[u16]) -> Option<usize> {
    let mut surplus = 0;
    let last = symbols.iter().position(|&symbol| {
        surplus += if symbol == 0 { 1 } else { -1 };
        surplus == 1
    });
    last.map(|last| last + 1)
}

/// For each place of a document, the place of the right child of the tree that starts there. (The left child starts at
/// the next place.)
pub fn right_children(numbers: &[u16]) -> Vec<usize> {
    let mut ends = vec![0; numbers.len()];
    let mut right = vec![0; numbers.len()];
    for place in (0..numbers.len()).rev() {
        if numbers[place] == 0 {
            ends[place] = place + 1;
        } else {
            right[place] = ends[place + 1];
            ends[place] = ends[right[place]];
        }
    }
    right
}
