//! The shorter of two examples: of two buffers that each begin with a document, the one with fewer numbers.

use super::documents::leading_document;
use super::Refusal;

/// The stretch of the shorter document, the first buffer's on a tie; or the first that applies of refusal 1, those of
/// the first buffer and those of the second.
pub fn shorter<'a>(symbols: usize, first: &'a [u16], second: &'a [u16]) -> Result<&'a [u16], Refusal> {
    if !(1..=16).contains(&symbols) {
        return Err((1, 0));
    }
    let first = leading_document(symbols, first)?;
    let second = leading_document(symbols, second).map_err(of_second)?;
    Ok(if second.len() < first.len() { second } else { first })
}

/// A refusal of the second buffer: 54 for 11 and 55 for 12, with the same place.
fn of_second((number, place): Refusal) -> Refusal {
    (if number == 11 { 54 } else { 55 }, place)
}
