//! Looks for the accepted record that costs the most: families of plans on 16
//! million samples, and some random ones, each timed both ways.
//!
//! `cargo run --release --example worst`
//!
//! What a plan can cost is bounded: its 64 steps move each sample at most once
//! each, and together they squeeze a sample about eight times at most, since every
//! squeeze of a channel makes one more of 256. So the families begin with steps on
//! all channels and go on with steps that move all.

#[path = "bench/clock.rs"]
mod clock;
#[path = "bench/plans.rs"]
mod plans;

use clock::{now, CLOCK};
use plans::{doubled, idle, shifts, Draft, Plan};
use squeeze::{Channel, Record};
use squeeze_compare::random::Random;

fn families() -> Vec<Plan> {
    let mut plans = vec![idle(true), idle(false), shifts()];
    for in_place in [false, true] {
        plans.push(doubled(4096, 4096, &[], in_place));
        for (width, height) in [(4096, 4096), (255, 65_535), (256, 65_535), (65_535, 255)] {
            let across = [true, false].repeat(3);
            for directions in [&[true; 6][..], &[true; 7], &[false; 7], &across] {
                plans.push(doubled(width, height, directions, in_place));
            }
        }
        plans.push(doubled(256, 65_535, &[true; 8], in_place));
        // Strips, along and across.
        plans.push(doubled(1_048_575, 16, &[true; 7], in_place));
        plans.push(doubled(1_048_575, 16, &[false; 4], in_place));
        plans.push(doubled(16, 1_048_575, &[false; 7], in_place));
        plans.push(doubled(16, 1_048_575, &[true; 4], in_place));
    }
    plans.extend((1..=8).map(random));
    plans
}

/// Channels of 16 million samples together, and 64 random steps, most of them not
/// in place and near the front.
fn random(seed: u64) -> Plan {
    let mut random = Random::new(seed);
    let number = 1 + random.below(12);
    let mut channels = Vec::new();
    for _ in 0..number {
        let width = random.pick(&[256, 300, 999, 1024, 4096, 65_535]);
        let height = (16_777_216 / number / width).min(65_535);
        channels.push(Channel::new(width as u32, height as u32));
    }
    let mut draft = Draft::new(&channels);
    for _ in 0..64 {
        let first = random.below(draft.list.len().min(4));
        let most = (draft.list.len() - first).min((256 - draft.list.len()) / 8 + 1);
        let (horizontal, in_place) = (random.once_in(2), random.once_in(4));
        let step = (horizontal, in_place, first, 1 + random.below(most));
        draft = draft.step(step).unwrap_or(draft);
    }
    draft.finish(format!("random, seed {seed}"))
}

/// Nanoseconds per sample of rebuilding and of writing, the better of two.
fn times(plan: &Plan) -> [f64; 2] {
    let samples = plan.samples;
    let input: Vec<i32> = (0..samples).map(|k| (k * k / 999 % 256) as i32).collect();
    let (mut output, mut work) = (vec![1; samples], vec![2; samples]);
    let mut best = [f64::INFINITY; 2];
    for _ in 0..2 {
        for (best, call) in best.iter_mut().zip([squeeze::rebuild, squeeze::write]) {
            let start = now();
            call(plan.record.bytes(), &input, &mut output, &mut work).expect("accepted");
            *best = best.min((now() - start) * 1e9 / samples as f64);
        }
    }
    best
}

fn main() {
    let default = times(&Plan {
        name: String::new(),
        record: Record::new().channel(4096, 4096),
        samples: 4096 * 4096,
    });
    println!("nanoseconds per sample, {CLOCK}; in brackets over the default plan's");
    let mut rows: Vec<_> = families()
        .iter()
        .map(|plan| (times(plan), plan.name.clone()))
        .collect();
    rows.sort_by(|one, other| (other.0[0] + other.0[1]).total_cmp(&(one.0[0] + one.0[1])));
    println!("{:>16} {:>16}", "rebuild", "write");
    for (times, name) in rows {
        let cell = |k: usize| format!("{:.1} ({:.1})", times[k], times[k] / default[k]);
        println!("{:>16} {:>16}  {name}", cell(0), cell(1));
    }
}
