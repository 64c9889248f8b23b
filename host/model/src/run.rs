//! Whole runs: the plan run and the writer over flat slices. A step moves the
//! samples of its region only, through the work slice.

use crate::forward::{columns_forward, rows_forward};
use crate::list::{total, Channel, Step};
use crate::plan::Plan;
use crate::squeeze::{columns_back, rows_back};
use crate::{marks, record, refusal};

/// Rebuilds the picture of a pyramid: 0, or a refusal's number and all slices
/// as they were.
pub fn rebuild(bytes: &[u8], pyramid: &[i32], picture: &mut [i32], work: &mut [i32]) -> u32 {
    match judge(bytes, [pyramid.len(), picture.len(), work.len()]) {
        Ok(plan) => back(&plan, pyramid, picture, work, |_, _, _| {}),
        Err(number) => return number,
    }
    0
}

/// The same, and whether some step was marked over the first number of `mark`, which
/// has one at least.
pub fn rebuild_marked(
    bytes: &[u8],
    pyramid: &[i32],
    picture: &mut [i32],
    work: &mut [i32],
    mark: &mut [u32],
) -> u32 {
    let lengths = [pyramid.len(), picture.len(), work.len()];
    let plan = match judge_marked(bytes, lengths, mark) {
        Ok(plan) => plan,
        Err(number) => return number,
    };
    let mut marked = false;
    back(&plan, pyramid, picture, work, |list, step, samples| {
        marked = marked || marks::step_back(list, step, samples);
    });
    mark[0] = marked.into();
    0
}

/// Writes the pyramid of a picture: 0, or a refusal's number and all slices as
/// they were.
pub fn write(bytes: &[u8], picture: &[i32], pyramid: &mut [i32], work: &mut [i32]) -> u32 {
    match judge(bytes, [picture.len(), pyramid.len(), work.len()]) {
        Ok(plan) => forward(&plan, picture, pyramid, work, |_, _, _| {}),
        Err(number) => return number,
    }
    0
}

/// The same, and the mark as in rebuilding.
pub fn write_marked(
    bytes: &[u8],
    picture: &[i32],
    pyramid: &mut [i32],
    work: &mut [i32],
    mark: &mut [u32],
) -> u32 {
    let lengths = [picture.len(), pyramid.len(), work.len()];
    let plan = match judge_marked(bytes, lengths, mark) {
        Ok(plan) => plan,
        Err(number) => return number,
    };
    let mut marked = false;
    forward(&plan, picture, pyramid, work, |list, step, samples| {
        marked = marked || marks::step_forward(list, step, samples);
    });
    mark[0] = marked.into();
    0
}

/// The accepted steps, last first. `meet` is given the list before each step, the step
/// and the samples that it takes.
fn back(
    plan: &Plan,
    pyramid: &[i32],
    picture: &mut [i32],
    work: &mut [i32],
    mut meet: impl FnMut(&[Channel], &Step, &[i32]),
) {
    picture.copy_from_slice(pyramid);
    for (step, list) in plan.steps.iter().zip(&plan.lists).rev() {
        meet(list, step, picture);
        step_back(list, step, picture, work);
    }
    work.fill(0);
}

/// The steps in order; `meet` as above.
fn forward(
    plan: &Plan,
    picture: &[i32],
    pyramid: &mut [i32],
    work: &mut [i32],
    mut meet: impl FnMut(&[Channel], &Step, &[i32]),
) {
    pyramid.copy_from_slice(picture);
    for (step, list) in plan.steps.iter().zip(&plan.lists) {
        meet(list, step, pyramid);
        step_forward(list, step, pyramid, work);
    }
    work.fill(0);
}

/// Questions 1 to 11, then 14 with the mark's slice among the others.
fn judge_marked(bytes: &[u8], lengths: [usize; 3], mark: &[u32]) -> Result<Plan, u32> {
    let plan = judge(bytes, lengths)?;
    if mark.is_empty() {
        return Err(refusal::LENGTH);
    }
    Ok(plan)
}

/// Questions 1 to 11, then 14.
fn judge(bytes: &[u8], lengths: [usize; 3]) -> Result<Plan, u32> {
    let plan = record::judge(bytes)?;
    let samples = total(plan.layout());
    if lengths.iter().any(|&length| length != samples) {
        return Err(refusal::LENGTH);
    }
    Ok(plan)
}

/// The samples that a step moves: from its first channel to the end of its
/// range, or of the list if it is not in place.
fn region(list: &[Channel], step: &Step) -> std::ops::Range<usize> {
    let start = total(&list[..step.range().start]);
    let moved = &list[step.range().start..step.residuals_at(list.len())];
    start..start + total(moved)
}

/// Where, inside a step's region, residuals begin in the list after it.
fn residuals_start(list: &[Channel], step: &Step) -> usize {
    let averages = list[step.range()]
        .iter()
        .map(|c| c.halves(step.horizontal).0.samples());
    let others = &list[step.range().end..step.residuals_at(list.len())];
    averages.sum::<usize>() + total(others)
}

/// A step back; `list` is the one before the step.
fn step_back(list: &[Channel], step: &Step, samples: &mut [i32], work: &mut [i32]) {
    let region = region(list, step);
    let from = &mut work[..region.len()];
    from.copy_from_slice(&samples[region.clone()]);
    let (mut avgs, mut residuals) = from.split_at(residuals_start(list, step));
    let mut rest = &mut samples[region];
    for channel in &list[step.range()] {
        let (average, residual) = channel.halves(step.horizontal);
        let (avg, res, out);
        (avg, avgs) = avgs.split_at(average.samples());
        (res, residuals) = residuals.split_at(residual.samples());
        (out, rest) = rest.split_at_mut(channel.samples());
        let (w, h) = channel.size();
        if step.horizontal {
            rows_back(w, avg, res, &[], &[], out);
        } else {
            columns_back(w, h, avg, res, &[], &[], out);
        }
    }
    rest.copy_from_slice(avgs);
}

/// A step forward; `list` is the one before the step.
fn step_forward(list: &[Channel], step: &Step, samples: &mut [i32], work: &mut [i32]) {
    let region = region(list, step);
    let from = &mut work[..region.len()];
    from.copy_from_slice(&samples[region.clone()]);
    let mut from = &from[..];
    let (mut avgs, mut residuals) = samples[region].split_at_mut(residuals_start(list, step));
    for channel in &list[step.range()] {
        let (average, residual) = channel.halves(step.horizontal);
        let (input, avg, res);
        (input, from) = from.split_at(channel.samples());
        (avg, avgs) = avgs.split_at_mut(average.samples());
        (res, residuals) = residuals.split_at_mut(residual.samples());
        let (w, h) = channel.size();
        if step.horizontal {
            rows_forward(w, input, avg, res);
        } else {
            columns_forward(w, h, input, avg, res);
        }
    }
    avgs.copy_from_slice(from);
}
