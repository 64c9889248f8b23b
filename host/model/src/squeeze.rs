//! The uncut squeeze, back: samples from averages and residuals, along the rows
//! or along the columns. Sizes are the caller's duty here: along the squeeze
//! there are as many averages as residuals or one more (the tail average), and
//! a neighbour line is empty or has the crossing length.

use crate::pair::unsqueeze;

/// Along the rows: `width` is the output's.
pub fn rows_back(
    width: usize,
    avg: &[i32],
    residual: &[i32],
    next: &[i32],
    prev: &[i32],
    out: &mut [i32],
) {
    if out.is_empty() {
        return;
    }
    let rest = width / 2;
    let half = width - rest;
    for (y, out_row) in out.chunks_exact_mut(width).enumerate() {
        let avg_row = &avg[y * half..][..half];
        let residual_row = &residual[y * rest..][..rest];
        let before = prev.get(y).copied().unwrap_or(avg_row[0]);
        let after = next.get(y).copied().unwrap_or(avg_row[half - 1]);
        row_back(avg_row, residual_row, before, after, out_row);
    }
}

/// One row: `before` is the sample before it, `after` the next average where
/// there is no tail average.
fn row_back(avg: &[i32], residual: &[i32], before: i32, after: i32, out: &mut [i32]) {
    let (pairs, tail) = out.as_chunks_mut::<2>();
    let mut prev = before;
    for ((pair, two), &r) in pairs.iter_mut().zip(avg.windows(2)).zip(residual) {
        let (first, second) = unsqueeze(prev, two[0], two[1], r);
        *pair = [first, second];
        prev = second;
    }
    let last = avg[avg.len() - 1];
    match (tail, pairs) {
        ([tail], _) => *tail = last,
        (_, [.., pair]) => {
            let (first, second) = unsqueeze(prev, last, after, residual[residual.len() - 1]);
            *pair = [first, second];
        }
        _ => {}
    }
}

/// Along the columns: `width` and `height` are the output's.
pub fn columns_back(
    width: usize,
    height: usize,
    avg: &[i32],
    residual: &[i32],
    next: &[i32],
    prev: &[i32],
    out: &mut [i32],
) {
    if out.is_empty() {
        return;
    }
    let row = |rows: usize| rows * width..(rows + 1) * width;
    let pairs = height / 2;
    let averages = height - pairs;
    for y in 0..pairs {
        let (done, rest) = out.split_at_mut(2 * y * width);
        let (first, rest) = rest.split_at_mut(width);
        let above = match y {
            0 if prev.is_empty() => &avg[row(0)],
            0 => prev,
            _ => &done[row(2 * y - 1)],
        };
        let below = match next {
            _ if y + 1 < averages => &avg[row(y + 1)],
            [] => &avg[row(y)],
            _ => next,
        };
        let rows = (above, &avg[row(y)], below, &residual[row(y)]);
        row_pair_back(rows, first, &mut rest[..width]);
    }
    if averages > pairs {
        out[row(height - 1)].copy_from_slice(&avg[row(pairs)]);
    }
}

/// Two rows of output from the rows above, of averages, of next averages and of
/// residuals.
fn row_pair_back(rows: (&[i32], &[i32], &[i32], &[i32]), first: &mut [i32], second: &mut [i32]) {
    let (above, avg, below, residual) = rows;
    let n = first.len();
    let (above, avg, below) = (&above[..n], &avg[..n], &below[..n]);
    let (residual, second) = (&residual[..n], &mut second[..n]);
    for x in 0..n {
        (first[x], second[x]) = unsqueeze(above[x], avg[x], below[x], residual[x]);
    }
}
