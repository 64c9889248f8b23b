//! Document 02, A.3 by hand: tile calls on one line, and runs, each with its mark.

use super::origins::{plan, H_IN, H_OUT, V_OUT};
use super::{channel, meta};

/// The ends of the plain range, and the samples next to them.
pub const HIGHEST: i32 = 268_435_455;
pub const ABOVE: i32 = 268_435_456;
pub const LOWEST: i32 = -268_435_456;
pub const BELOW: i32 = -268_435_457;

/// A tile call on one line: averages, residuals, next and previous line, each of no
/// sample or one; its mark, and why.
pub type LineRow = ([Vec<i32>; 4], bool, &'static str);

/// Lines, which are rows or columns.
#[rustfmt::skip]
pub fn lines() -> Vec<LineRow> {
    let alone = |avg, res| [vec![avg], vec![res], vec![], vec![]];
    let between = |next, prev| [vec![0], vec![0], vec![next], vec![prev]];
    let tail = |avg, tail| [vec![avg, tail], vec![0], vec![], vec![]];
    let copied = |avg: i32, outer: &[i32]| [vec![avg], vec![], outer.to_vec(), outer.to_vec()];
    let two = |avg: [i32; 2], res: [i32; 2]| [avg.to_vec(), res.to_vec(), vec![], vec![]];
    vec![
        (alone(0, 0), false, "zeros"),
        (alone(HIGHEST, 0), false, "average, highest"),
        (alone(ABOVE, 0), true, "average, above"),
        (alone(LOWEST, 0), false, "average, lowest"),
        (alone(BELOW, 0), true, "average, below"),
        (alone(0, HIGHEST), false, "residual, highest"),
        (alone(0, ABOVE), true, "residual, above"),
        (alone(0, LOWEST), false, "residual, lowest"),
        (alone(0, BELOW), true, "residual, below"),
        (alone(HIGHEST - 1, 2), false, "first sample, highest"),
        (alone(HIGHEST, 2), true, "first sample, above"),
        (alone(LOWEST + 1, -2), false, "first sample, lowest"),
        (alone(LOWEST, -2), true, "first sample, below"),
        (alone(HIGHEST - 1, -1), false, "second sample, highest"),
        (alone(HIGHEST, -1), true, "second sample, above"),
        (alone(LOWEST + 1, 1), false, "second sample, lowest"),
        (alone(LOWEST, 1), true, "second sample, below"),
        (between(HIGHEST, LOWEST), false, "outer lines, both ends"),
        (between(LOWEST, HIGHEST), false, "the other way round"),
        (between(ABOVE, 0), true, "next average, above"),
        (between(BELOW, 0), true, "next average, below"),
        (between(0, ABOVE), true, "previous output, above"),
        (between(0, BELOW), true, "previous output, below"),
        (tail(0, HIGHEST), false, "tail, highest"),
        (tail(0, ABOVE), true, "tail, above"),
        (tail(0, LOWEST), false, "tail, lowest"),
        (tail(0, BELOW), true, "tail, below"),
        ([vec![0, 0], vec![0], vec![ABOVE], vec![]], false, "next line where there is a tail"),
        ([vec![0, 0], vec![0], vec![], vec![BELOW]], true, "previous line where there is a tail"),
        (copied(HIGHEST, &[]), false, "no residual, highest"),
        (copied(ABOVE, &[]), true, "no residual, above"),
        (copied(LOWEST, &[]), false, "no residual, lowest"),
        (copied(BELOW, &[]), true, "no residual, below"),
        (copied(0, &[ABOVE]), false, "outer lines where there is no pair"),
        (copied(ABOVE, &[0]), true, "no residual, between outer lines"),
        (two([LOWEST, LOWEST], [0, 0]), false, "two pairs, lowest"),
        (two([0, ABOVE], [0, 0]), true, "the second average"),
        (two([0, 0], [0, BELOW]), true, "the second residual"),
        (two([0, 0], [ABOVE, 0]), true, "the first residual"),
        (alone(i32::MAX, 2), true, "sums that wrap"),
        (alone(i32::MIN, i32::MIN), true, "the lowest numbers"),
    ]
}

/// A record, a pyramid and its picture, the mark of either run, and why.
pub type RunRow = (Vec<u8>, Vec<i32>, Vec<i32>, bool, &'static str);

/// Runs, there and back.
#[rustfmt::skip]
pub fn runs() -> Vec<RunRow> {
    let row = || channel(2, 1);
    let two = |steps: &[[u8; 3]]| plan([row(), row()].concat(), steps);
    let again = plan(channel(4, 1), &[[H_IN, 0, 1], [H_IN, 1, 1]]);
    let once = plan(channel(4, 1), &[[H_IN, 0, 1]]);
    // Residuals at both ends of the range, around averages of 0.
    let (half, less) = (134_217_728, 134_217_727);
    let crossed = vec![less, -half, -half, half];
    let bad = [vec![0; 63], vec![ABOVE]].concat();
    let palette = [vec![BELOW], vec![0; 9]].concat();
    vec![
        (plan(row(), &[[H_OUT, 0, 1]]), vec![HIGHEST, 0], vec![HIGHEST, HIGHEST], false, "highest"),
        (plan(row(), &[[H_OUT, 0, 1]]), vec![ABOVE, 0], vec![ABOVE, ABOVE], true, "above"),
        (plan(row(), &[[H_OUT, 0, 1]]), vec![0, 536_870_911], vec![HIGHEST, LOWEST], true, "the picture is inside"),
        (plan(channel(1, 2), &[[V_OUT, 0, 1]]), vec![0, 536_870_911], vec![HIGHEST, LOWEST], true, "the same, a column"),
        (plan(channel(1, 1), &[[H_IN, 0, 1]]), vec![HIGHEST], vec![HIGHEST], false, "a line without a residual"),
        (plan(channel(1, 1), &[[H_IN, 0, 1]]), vec![ABOVE], vec![ABOVE], true, "the same, above"),
        (plan(channel(3, 1), &[[H_IN, 0, 1]]), vec![0, HIGHEST, 1], vec![0, 0, HIGHEST], false, "a tail"),
        (plan(channel(3, 1), &[[H_IN, 0, 1]]), vec![0, ABOVE, 1], vec![0, 0, ABOVE], true, "the same, above"),
        (channel(8, 8), bad.clone(), bad, false, "no step"),
        (two(&[[H_IN, 0, 1]]), vec![0, 0, ABOVE, BELOW], vec![0, 0, ABOVE, BELOW], false, "a channel behind the range"),
        (two(&[[H_IN, 1, 1]]), vec![ABOVE, BELOW, 0, 0], vec![ABOVE, BELOW, 0, 0], false, "a channel before the range"),
        (two(&[[H_OUT, 0, 1]]), vec![7, ABOVE, BELOW, 0], vec![7, 7, ABOVE, BELOW], false, "between averages and residuals"),
        (two(&[[H_OUT, 0, 1]]), vec![ABOVE, 7, 7, 0], vec![ABOVE, ABOVE, 7, 7], true, "averages before others"),
        (two(&[[H_OUT, 0, 1]]), vec![0, 7, 7, ABOVE], vec![half, -half, 7, 7], true, "residuals behind others"),
        (two(&[[H_IN, 0, 2]]), vec![0, ABOVE, 0, 0], vec![0, 0, ABOVE, ABOVE], true, "the range's second channel"),
        (two(&[[H_IN, 0, 1], [H_IN, 2, 1]]), vec![ABOVE, 0, 0, 0], vec![ABOVE, ABOVE, 0, 0], true, "the first of two steps"),
        (two(&[[H_IN, 0, 1], [H_IN, 2, 1]]), vec![0, 0, ABOVE, 0], vec![0, 0, ABOVE, ABOVE], true, "the last of two steps"),
        (two(&[[H_IN, 0, 1], [H_IN, 2, 1]]), vec![0, 0, LOWEST, 0], vec![0, 0, LOWEST, LOWEST], false, "neither of them"),
        (once, vec![0, 0, HIGHEST, LOWEST], crossed.clone(), false, "residuals at both ends"),
        (again, vec![0, 0, 0, 536_870_911], crossed, true, "these residuals squeezed again"),
        ([meta(1, 1), channel(9, 1)].concat(), palette.clone(), palette, false, "a palette, default plan"),
        (plan([meta(2, 1), row()].concat(), &[[H_IN, 0, 1]]), vec![BELOW, 0, 7, 7], vec![BELOW, BELOW, 7, 7], true, "a palette that is squeezed"),
    ]
}
