//! The uncut squeeze, forward: averages and residuals of samples, as the writer
//! makes them. An odd last sample is the tail average.

use crate::pair::{average, residual};

/// Along the rows: `width` is the samples'.
pub fn rows_forward(width: usize, samples: &[i32], avg: &mut [i32], res: &mut [i32]) {
    if samples.is_empty() {
        return;
    }
    let rest = width / 2;
    let half = width - rest;
    for (y, row) in samples.chunks_exact(width).enumerate() {
        let avg_row = &mut avg[y * half..][..half];
        let res_row = &mut res[y * rest..][..rest];
        row_forward(row, avg_row, res_row);
    }
}

fn row_forward(row: &[i32], avg: &mut [i32], res: &mut [i32]) {
    let (pairs, tail) = row.as_chunks::<2>();
    for (a, pair) in avg.iter_mut().zip(pairs) {
        *a = average(pair[0], pair[1]);
    }
    if let [last] = tail {
        avg[pairs.len()] = *last;
    }
    let n = pairs.len();
    let Some(end) = n.checked_sub(1) else { return };
    let prev = if n > 1 { pairs[n - 2][1] } else { avg[0] };
    let next = avg[avg.len() - 1];
    res[end] = residual(prev, avg[end], next, pairs[end][0], pairs[end][1]);
    if n > 1 {
        res[0] = residual(avg[0], avg[0], avg[1], pairs[0][0], pairs[0][1]);
        inner_residuals(pairs, &avg[1..], &mut res[1..end]);
    }
}

/// The residuals of all pairs but the first and the last; `avg` begins with the
/// second pair's.
fn inner_residuals(pairs: &[[i32; 2]], avg: &[i32], res: &mut [i32]) {
    let n = res.len();
    let (before, pairs) = (&pairs[..n], &pairs[1..n + 1]);
    let (next, avg) = (&avg[1..n + 1], &avg[..n]);
    for x in 0..n {
        let [first, second] = pairs[x];
        res[x] = residual(before[x][1], avg[x], next[x], first, second);
    }
}

/// Along the columns: `width` and `height` are the samples'.
pub fn columns_forward(
    width: usize,
    height: usize,
    samples: &[i32],
    avg: &mut [i32],
    res: &mut [i32],
) {
    if samples.is_empty() {
        return;
    }
    let row = |rows: usize| rows * width..(rows + 1) * width;
    let pairs = height / 2;
    let averages = height - pairs;
    average_row(samples, width, height, 0, &mut avg[row(0)]);
    for y in 0..pairs {
        if y + 1 < averages {
            average_row(samples, width, height, y + 1, &mut avg[row(y + 1)]);
        }
        let above = match y {
            0 => &avg[row(0)],
            _ => &samples[row(2 * y - 1)],
        };
        let below = &avg[row((y + 1).min(averages - 1))];
        let two = (&samples[row(2 * y)], &samples[row(2 * y + 1)]);
        residual_row((above, &avg[row(y)], below), two, &mut res[row(y)]);
    }
}

/// Row `y` of the averages: of two rows, or the odd last row itself.
fn average_row(samples: &[i32], width: usize, height: usize, y: usize, out: &mut [i32]) {
    let first = &samples[2 * y * width..][..width];
    if 2 * y + 1 == height {
        return out.copy_from_slice(first);
    }
    let second = &samples[(2 * y + 1) * width..][..width];
    for ((a, &f), &s) in out.iter_mut().zip(first).zip(second) {
        *a = average(f, s);
    }
}

/// A row of residuals, from the rows above, of averages and of next averages.
fn residual_row(around: (&[i32], &[i32], &[i32]), two: (&[i32], &[i32]), out: &mut [i32]) {
    let n = out.len();
    let (above, avg, below) = (&around.0[..n], &around.1[..n], &around.2[..n]);
    let (first, second) = (&two.0[..n], &two.1[..n]);
    for x in 0..n {
        out[x] = residual(above[x], avg[x], below[x], first[x], second[x]);
    }
}
