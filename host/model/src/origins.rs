//! Origins: of each channel of a list the position, in the list before the plan, of
//! the channel that it was made from (document 02, A.4).

use crate::list::Step;

/// The origins of a list before the plan: each channel has its own position.
pub fn own_positions(count: usize) -> Vec<usize> {
    (0..count).collect()
}

/// The origins after a step that the list takes. A residual takes the origin of the
/// channel squeezed, also when that was itself a residual; every other channel,
/// averages among them, keeps its own where it now stands.
pub fn after_step(origins: &[usize], step: &Step) -> Vec<usize> {
    let mut next = origins.to_vec();
    let at = step.residuals_at(origins.len());
    for (n, k) in step.range().enumerate() {
        next.insert(at + n, origins[k]);
    }
    next
}
