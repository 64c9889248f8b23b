//! The layout of a record as numbers, the interface's form of it, by questions 1 to 11
//! and then 14.

use crate::list::{Channel, Step};
use crate::{record, refusal};

/// Counts (version, steps, channels, coarse count), steps, channels and origins.
pub type Numbers = [Vec<u32>; 4];

/// The numbers of a record's layout; or a refusal's number.
pub fn numbers(bytes: &[u8]) -> Result<Numbers, u32> {
    let plan = record::judge(bytes)?;
    let layout = plan.layout();
    let counts = [plan.steps.len(), layout.len(), plan.coarse()];
    let counts = counts.map(|count| count as u32);
    let origins = plan.origins().into_iter();
    Ok([
        [&[plan.version.number()], &counts[..]].concat(),
        plan.steps.iter().flat_map(Step::numbers).collect(),
        layout.iter().flat_map(Channel::numbers).collect(),
        origins.map(|origin| origin as u32).collect(),
    ])
}

/// Puts the numbers over the fronts of the slices for counts, steps, channels and
/// origins: 0, or a refusal's number and all four as they were.
pub fn layout(bytes: &[u8], slices: [&mut [u32]; 4]) -> u32 {
    let numbers = match numbers(bytes) {
        Ok(numbers) => numbers,
        Err(number) => return number,
    };
    let mut rooms = slices.iter().zip(&numbers);
    if rooms.any(|(slice, needed)| slice.len() < needed.len()) {
        return refusal::LENGTH;
    }
    for (slice, needed) in slices.into_iter().zip(&numbers) {
        slice[..needed.len()].copy_from_slice(needed);
    }
    0
}
