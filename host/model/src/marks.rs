//! Marks (document 02, A.3): whether a line, a tile call or a step leaves the plain
//! range, told pair by pair. What no pair reads doesn't count.

use crate::list::{take_step, total, Channel, Step};
use crate::pair::{average, residual, unsqueeze};
use crate::tile::{Size, Sizes};
use std::ops::RangeInclusive;

/// The plain range.
pub const PLAIN: RangeInclusive<i32> = -268_435_456..=268_435_455;

/// Whether a sample lies outside of it.
pub fn outside(sample: i32) -> bool {
    !PLAIN.contains(&sample)
}

/// A pair's average, residual, next average and previous output, and its two samples.
type Six = [i32; 6];

fn some_outside(six: Six) -> bool {
    six.into_iter().any(outside)
}

/// A line along the squeeze: a row, or a column.
#[derive(Clone, Copy)]
struct Line<'a> {
    samples: &'a [i32],
    start: usize,
    stride: usize,
    length: usize,
}

impl Line<'_> {
    fn at(&self, k: usize) -> i32 {
        self.samples[self.start + k * self.stride]
    }

    /// None past the line's end.
    fn get(&self, k: usize) -> Option<i32> {
        (k < self.length).then(|| self.at(k))
    }
}

/// The lines of a rectangle.
fn lines(
    horizontal: bool,
    (width, height): Size,
    samples: &[i32],
) -> impl Iterator<Item = Line<'_>> {
    let (number, length) = if horizontal {
        (height, width)
    } else {
        (width, height)
    };
    (0..number).map(move |k| Line {
        samples,
        start: if horizontal { k * width } else { k },
        stride: if horizontal { 1 } else { width },
        length,
    })
}

/// A line back: some pair, or the average that is copied, which is a tail or that of a
/// line without residuals. `before` and `after` are of the outer lines.
fn line_back(avg: Line, res: Line, before: Option<i32>, after: Option<i32>) -> bool {
    let mut previous = before;
    let mut marked = false;
    for k in 0..res.length {
        let (own, rest) = (avg.at(k), res.at(k));
        let prev = previous.unwrap_or(own);
        let next = avg.get(k + 1).or(after).unwrap_or(own);
        let (first, second) = unsqueeze(prev, own, next, rest);
        marked |= some_outside([own, rest, next, prev, first, second]);
        previous = Some(second);
    }
    marked || avg.get(res.length).is_some_and(outside)
}

/// A line forward: some pair of the writer's, or an odd last sample, which is the tail
/// average.
fn line_forward(samples: Line) -> bool {
    let average_of = |k| {
        let first = samples.get(2 * k)?;
        let second = samples.get(2 * k + 1);
        Some(second.map_or(first, |second| average(first, second)))
    };
    let mut marked = false;
    for k in 0..samples.length / 2 {
        let (first, second) = (samples.at(2 * k), samples.at(2 * k + 1));
        let own = average(first, second);
        let prev = if k == 0 { own } else { samples.at(2 * k - 1) };
        let next = average_of(k + 1).unwrap_or(own);
        let rest = residual(prev, own, next, first, second);
        marked |= some_outside([own, rest, next, prev, first, second]);
    }
    marked || (samples.length % 2 == 1 && outside(samples.at(samples.length - 1)))
}

/// An accepted tile call: some line of it.
pub fn tile_back(sizes: &Sizes, avg: &[i32], residual: &[i32], next: &[i32], prev: &[i32]) -> bool {
    let averages = lines(sizes.horizontal, sizes.avg, avg);
    let residuals = lines(sizes.horizontal, sizes.residual, residual);
    let mut both = averages.zip(residuals).enumerate();
    both.any(|(k, (avg, res))| {
        let outer = |line: &[i32]| line.get(k).copied();
        line_back(avg, res, outer(prev), outer(next))
    })
}

/// Channel `k` of the samples of a list.
fn samples_of<'a>(list: &[Channel], k: usize, samples: &'a [i32]) -> &'a [i32] {
    &samples[total(&list[..k])..][..list[k].samples()]
}

/// A step back: some channel of its range. `list` is the one before the step, and the
/// samples are those of the list after it.
pub fn step_back(list: &[Channel], step: &Step, samples: &[i32]) -> bool {
    let after = take_step(list, step).expect("the list takes the step");
    let at = step.residuals_at(list.len());
    let mut range = step.range().enumerate();
    range.any(|(n, k)| {
        let sizes = Sizes {
            horizontal: step.horizontal,
            avg: after[k].size(),
            residual: after[at + n].size(),
            output: list[k].size(),
        };
        let avg = samples_of(&after, k, samples);
        let residual = samples_of(&after, at + n, samples);
        tile_back(&sizes, avg, residual, &[], &[])
    })
}

/// A step forward: some channel of its range. `list` is the one before the step, and
/// the samples are its.
pub fn step_forward(list: &[Channel], step: &Step, samples: &[i32]) -> bool {
    let mut range = step.range();
    range.any(|k| {
        let channel = samples_of(list, k, samples);
        lines(step.horizontal, list[k].size(), channel).any(line_forward)
    })
}
