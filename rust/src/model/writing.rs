//! Writing out the tree of a row.

use super::running::MOST_ROW_NUMBERS;
use super::Refusal;
use crate::contract::tuple;
use crate::engine::Answer;

/// Writing out.
pub fn write_out(rows: &[u16], row: usize, buffer: &mut [u16]) -> Result<Answer, Refusal> {
    if !rows.len().is_multiple_of(3) || rows.len() > MOST_ROW_NUMBERS {
        return Err((16, 0));
    }
    // how many numbers each row's tree has, as far as a number of 64 bits tells
    let mut sizes: Vec<u64> = Vec::new();
    for at in 0..rows.len() / 3 {
        let [symbol, left, right] = tuple(rows, at);
        let good = symbol <= 15 && if symbol == 0 { (left, right) == (0, 0) } else { left < at && right < at };
        if !good {
            return Err((17, at));
        }
        sizes.push(if symbol == 0 { 1 } else { sizes[left].saturating_add(sizes[right]).saturating_add(1) });
    }
    if row >= sizes.len() {
        return Err((18, row));
    }
    if sizes[row] > buffer.len() as u64 {
        return Err((19, buffer.len()));
    }
    let mut count = 0;
    let mut waiting = vec![row];
    while let Some(at) = waiting.pop() {
        let [symbol, left, right] = tuple(rows, at);
        buffer[count] = symbol as u16;
        count += 1;
        if symbol != 0 {
            waiting.extend([right, left]);
        }
    }
    Ok(Answer::Written { count })
}
