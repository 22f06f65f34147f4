//! Trees: all of them up to a height, and the heights of those that rows stand for.

/// All trees over the symbols of at most so much height, as documents.
pub fn all_trees(symbols: usize, height: usize) -> Vec<Vec<u16>> {
    if height == 0 {
        return vec![vec![0]];
    }
    let below = all_trees(symbols, height - 1);
    let over = |symbol: u16, left: &[u16]| below.iter().map(move |right| [&[symbol], left, right].concat()).collect();
    let joined =
        (1..symbols as u16).flat_map(|symbol| below.iter().flat_map(move |left| -> Vec<_> { over(symbol, left) }));
    [vec![0]].into_iter().chain(joined).collect()
}

/// The height of the tree of a row, which is a symbol over two earlier rows.
pub fn row_height(rows: &[[usize; 3]], row: usize) -> usize {
    match rows[row] {
        [0, _, _] => 0,
        [_, left, right] => 1 + row_height(rows, left).max(row_height(rows, right)),
    }
}
