//! What the layout of a record costs, core beside plain Rust.

use crate::plans::Plan;
use crate::time;
use squeeze::LAYOUT_ROOM;
use squeeze_model::layout::layout;
use std::time::{Duration, Instant};

/// So many calls make one measurement.
const CALLS: usize = 100;

/// A line for each plan.
pub fn print(plans: &[&Plan], budget: Duration) {
    println!("time per layout, in microseconds:");
    for plan in plans {
        let [ours, plain] = times(plan.record.bytes(), budget);
        let ratio = ours / plain;
        println!(
            "  {}: ours {ours:.2}, plain {plain:.2}, / plain {ratio:.2}",
            plan.name
        );
    }
}

/// Best time of each, taken in turns, in microseconds.
fn times(record: &[u8], budget: Duration) -> [f64; 2] {
    let [mut counts, mut steps, mut channels, mut origins] = LAYOUT_ROOM.map(|room| vec![0; room]);
    let mut slices = LAYOUT_ROOM.map(|room| vec![0; room]);
    let mut best = [f64::INFINITY; 2];
    let start = Instant::now();
    let mut rounds = 0;
    while rounds < 3 || start.elapsed() < budget {
        best[0] = best[0].min(time(CALLS, || {
            squeeze::layout_numbers(record, &mut counts, &mut steps, &mut channels, &mut origins)
                .expect("accepted");
        }));
        best[1] = best[1].min(time(CALLS, || {
            let answer = layout(record, slices.each_mut().map(Vec::as_mut_slice));
            assert_eq!(answer, 0);
        }));
        rounds += 1;
    }
    assert!(
        [counts, steps, channels, origins] == slices,
        "another layout"
    );
    best.map(|seconds| seconds * 1e6 / CALLS as f64)
}
