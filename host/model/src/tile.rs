//! The tile call: questions 5, 12 and 14, then the rule of the uncut squeeze.

use crate::squeeze::{columns_back, rows_back};
use crate::{marks, refusal, MAX_SAMPLES, MAX_SIDE};

/// Width and height of a rectangle.
pub type Size = (usize, usize);

/// The sizes of a tile call.
#[derive(Clone, Copy, Debug, PartialEq, Eq)]
pub struct Sizes {
    /// Along the rows.
    pub horizontal: bool,
    /// The averages.
    pub avg: Size,
    /// The residuals.
    pub residual: Size,
    /// The output.
    pub output: Size,
}

/// One tile of an inverse squeeze: 0, or a refusal's number and `out` as it was.
pub fn tile(
    sizes: &Sizes,
    avg: &[i32],
    residual: &[i32],
    next: &[i32],
    prev: &[i32],
    out: &mut [i32],
) -> u32 {
    let lengths = [avg.len(), residual.len(), out.len()];
    if let Err(number) = judge(sizes, [next.len(), prev.len()], lengths) {
        return number;
    }
    let (width, height) = sizes.output;
    if sizes.horizontal {
        rows_back(width, avg, residual, next, prev, out);
    } else {
        columns_back(width, height, avg, residual, next, prev, out);
    }
    0
}

/// The same, and its mark (document 02, A.3) over the first number of `mark`, which has
/// one at least.
pub fn tile_marked(
    sizes: &Sizes,
    avg: &[i32],
    residual: &[i32],
    next: &[i32],
    prev: &[i32],
    out: &mut [i32],
    mark: &mut [u32],
) -> u32 {
    let lengths = [avg.len(), residual.len(), out.len()];
    if let Err(number) = judge(sizes, [next.len(), prev.len()], lengths) {
        return number;
    }
    let Some(mark) = mark.first_mut() else {
        return refusal::LENGTH;
    };
    *mark = marks::tile_back(sizes, avg, residual, next, prev).into();
    tile(sizes, avg, residual, next, prev, out)
}

/// Questions 5, 12 and 14, the last of averages, residuals and output.
fn judge(sizes: &Sizes, lines: [usize; 2], lengths: [usize; 3]) -> Result<(), u32> {
    let rectangles = [sizes.avg, sizes.residual, sizes.output];
    if rectangles.iter().any(|&size| samples(size) > MAX_SAMPLES) {
        return Err(refusal::SAMPLES);
    }
    if !fits(sizes, lines[0], lines[1]) {
        return Err(refusal::TILE);
    }
    let fit = |(&size, &length): (&Size, &usize)| samples(size) == length as u64;
    if !rectangles.iter().zip(&lengths).all(fit) {
        return Err(refusal::LENGTH);
    }
    Ok(())
}

/// Samples of a rectangle; a product over 64 bits counts as the largest.
fn samples((width, height): Size) -> u64 {
    (width as u64).saturating_mul(height as u64)
}

/// Question 12.
fn fits(sizes: &Sizes, next: usize, prev: usize) -> bool {
    let turn = |(w, h): Size| if sizes.horizontal { (w, h) } else { (h, w) };
    let (averages, across) = turn(sizes.avg);
    let (residuals, residual_across) = turn(sizes.residual);
    let (along, output_across) = turn(sizes.output);
    let short = |side: usize| side <= MAX_SIDE as usize;
    let line = |length: usize| length == 0 || length == across;
    [averages, residuals, along, across].into_iter().all(short)
        && (averages == residuals || averages == residuals + 1)
        && along == averages + residuals
        && residual_across == across
        && output_across == across
        && line(next)
        && line(prev)
}
