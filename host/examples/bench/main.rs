//! Times the core against the plain Rust of `model/`, against a copy of as many
//! samples, and against an earlier commit's archive where there is one
//! (`bench/runs.sh`); calls with a mark against those without; and layouts against plain
//! Rust.
//!
//! `cargo run --release --example bench -- [SECONDS]` spends about so many
//! seconds on each row (2 if not given).

mod before;
mod clock;
mod layouts;
mod marks;
mod plans;

use clock::{now, CLOCK};
use plans::Plan;
use squeeze::{Record, Size, TileSizes};
use squeeze_compare::random::Random;
use squeeze_model as model;
use std::hint::black_box;
use std::time::{Duration, Instant};

/// Nanoseconds per sample: core, plain Rust, copy, and the core of an earlier
/// commit.
struct Times {
    ours: f64,
    plain: f64,
    copy: f64,
    before: Option<f64>,
}

const SIDES: [usize; 4] = [64, 1024, 2048, 4096];
const STRIPS: [(usize, usize); 2] = [(1_048_575, 16), (16, 1_048_575)];
const NAMES: [&str; 4] = ["tile, rows", "tile, columns", "rebuild", "write"];

fn main() {
    let seconds = match std::env::args().nth(1).map(|word| word.parse::<f64>()) {
        None => 2.0,
        Some(Ok(seconds)) if seconds > 0.0 => seconds,
        Some(_) => {
            eprintln!("usage: bench [SECONDS], the time for a row, above 0");
            std::process::exit(1);
        }
    };
    let budget = Duration::from_secs_f64(seconds);
    println!("best call within {seconds} s per row; core, plain Rust and copy in turns");
    println!("in nanoseconds per sample, {CLOCK}");
    println!(
        "buffers warm: all touched before; at 4096 x 4096 (64 MB a slice) no cache holds them"
    );
    println!();
    println!(
        "{:<16} {:>12} {:>9} {:>9} {:>9} {:>9} {:>9} {:>9} {:>9}",
        "",
        "samples",
        "/ plain",
        "/ copy",
        "/ before",
        "ours ns",
        "plain ns",
        "copy ns",
        "before ns"
    );
    let rows = SIDES.map(|side| measure(side, side, budget));
    let strips = STRIPS.map(|(width, height)| measure(width, height, budget));
    let runs = [
        plans::chroma(64),
        plans::chroma(591),
        plans::chroma(2364),
        plans::out_of_place(),
        plans::pairs_of_128(),
        plans::to_256(),
    ];
    for plan in &runs {
        measure_plan(plan, budget);
    }
    let beside = [
        plans::house(),
        plans::idle(true),
        plans::idle(false),
        plans::shifts(),
        // As costly as any that `examples/worst.rs` finds.
        plans::doubled(255, 65_535, &[true; 7], false),
    ];
    let beside = beside.map(|plan| (measure_plan(&plan, budget), plan.name));
    print_ratios(&rows);
    print_strips(&rows, &strips);
    print_beside(&rows, &beside);
    marks::print(SIDES[3], budget);
    let [small, .., pairs, doubled] = &runs;
    layouts::print(&[small, pairs, doubled], budget);
}

/// The four rows of one picture size.
fn measure(width: usize, height: usize, budget: Duration) -> [Times; 4] {
    let picture = photograph(width, height);
    let record = Record::new().channel(width as u32, height as u32);
    let size = Size { width, height };
    let measured = [
        tile(true, size, &picture, budget),
        tile(false, size, &picture, budget),
        rebuild(record.bytes(), &picture, budget),
        write(record.bytes(), &picture, budget),
    ];
    for (name, times) in NAMES.iter().zip(&measured) {
        print_row(name, &format!("{width} x {height}"), times);
    }
    measured
}

/// Rebuilding and writing by a plan of its own.
fn measure_plan(plan: &Plan, budget: Duration) -> [Times; 2] {
    let mut picture = photograph(4096, 4096);
    picture.truncate(plan.samples);
    let record = plan.record.bytes();
    let measured = [
        rebuild(record, &picture, budget),
        write(record, &picture, budget),
    ];
    println!("{}:", plan.name);
    for (name, times) in NAMES[2..].iter().zip(&measured) {
        print_row(name, &plan.samples.to_string(), times);
    }
    measured
}

/// Eight-bit samples: slow waves, an edge now and then, and some noise.
fn photograph(width: usize, height: usize) -> Vec<i32> {
    let mut random = Random::new(2026);
    let mut picture = Vec::with_capacity(width * height);
    for y in 0..height {
        for x in 0..width {
            let wave = (x as f64 / 61.0).sin() * 50.0 + (y as f64 / 47.0).cos() * 40.0;
            let edge = if (x / 96 + y / 80) % 5 == 0 { 35 } else { 0 };
            let noise = random.below(9) as i32 - 4;
            picture.push((110 + wave as i32 + edge + noise).clamp(0, 255));
        }
    }
    picture
}

/// One squeeze of the whole picture as a single tile: its sizes, those of the model, and
/// averages and residuals.
fn halves(
    horizontal: bool,
    size: Size,
    picture: &[i32],
) -> (TileSizes, model::tile::Sizes, Vec<i32>, Vec<i32>) {
    let Size { width, height } = size;
    let sizes = TileSizes::of_output(horizontal, size);
    let plain_size = |size: Size| (size.width, size.height);
    let plain_sizes = model::tile::Sizes {
        horizontal,
        avg: plain_size(sizes.avg),
        residual: plain_size(sizes.residual),
        output: plain_size(size),
    };
    let samples = |size: Size| vec![0; size.width * size.height];
    let (mut avg, mut residual) = (samples(sizes.avg), samples(sizes.residual));
    if horizontal {
        model::forward::rows_forward(width, picture, &mut avg, &mut residual);
    } else {
        model::forward::columns_forward(width, height, picture, &mut avg, &mut residual);
    }
    (sizes, plain_sizes, avg, residual)
}

/// The inverse of that squeeze.
fn tile(horizontal: bool, size: Size, picture: &[i32], budget: Duration) -> Times {
    let (sizes, plain_sizes, avg, residual) = halves(horizontal, size, picture);
    let ours = |out: &mut [i32], _: &mut [i32]| {
        squeeze::tile(&sizes, &avg, &residual, &[], &[], out).expect("accepted");
    };
    let plain = |out: &mut [i32], _: &mut [i32]| {
        let answer = model::tile::tile(&plain_sizes, &avg, &residual, &[], &[], out);
        assert_eq!(answer, 0);
    };
    let before = before::TILE.map(|tile| {
        let (sizes, avg, residual) = (&sizes, &avg, &residual);
        move |out: &mut [i32], _: &mut [i32]| tile(sizes, avg, residual, out)
    });
    let before = before.as_ref().map(|tile| tile as &Before);
    race(picture, picture, ours, plain, before, budget)
}

fn rebuild(record: &[u8], picture: &[i32], budget: Duration) -> Times {
    let pyramid = squeeze::write_pyramid(record, picture).expect("accepted");
    let ours = |out: &mut [i32], work: &mut [i32]| {
        squeeze::rebuild(record, &pyramid, out, work).expect("accepted");
    };
    let plain = |out: &mut [i32], work: &mut [i32]| {
        assert_eq!(model::run::rebuild(record, &pyramid, out, work), 0);
    };
    let before = before::RUNS.map(|[rebuild, _]| {
        let pyramid = &pyramid;
        move |out: &mut [i32], work: &mut [i32]| rebuild(record, pyramid, out, work)
    });
    let before = before.as_ref().map(|run| run as &Before);
    race(picture, picture, ours, plain, before, budget)
}

fn write(record: &[u8], picture: &[i32], budget: Duration) -> Times {
    let pyramid = squeeze::write_pyramid(record, picture).expect("accepted");
    let ours = |out: &mut [i32], work: &mut [i32]| {
        squeeze::write(record, picture, out, work).expect("accepted");
    };
    let plain = |out: &mut [i32], work: &mut [i32]| {
        assert_eq!(model::run::write(record, picture, out, work), 0);
    };
    let before = before::RUNS.map(|[_, write]| {
        move |out: &mut [i32], work: &mut [i32]| write(record, picture, out, work)
    });
    let before = before.as_ref().map(|run| run as &Before);
    race(picture, &pyramid, ours, plain, before, budget)
}

/// A call of the earlier core: output and work slice to its answer.
type Before<'a> = dyn Fn(&mut [i32], &mut [i32]) -> u32 + 'a;

/// Best time of each, taken in turns, after one untimed call of each whose
/// output must be `expected`. An earlier core that refuses the call isn't timed.
fn race(
    picture: &[i32],
    expected: &[i32],
    ours: impl Fn(&mut [i32], &mut [i32]),
    plain: impl Fn(&mut [i32], &mut [i32]),
    before: Option<&Before>,
    budget: Duration,
) -> Times {
    let number = picture.len();
    let [mut out, mut work] = [7, 8].map(|sample| vec![sample; number]);
    let [mut plain_out, mut plain_work] = [9, 10].map(|sample| vec![sample; number]);
    let mut target = vec![11; number];
    ours(&mut out, &mut work);
    plain(&mut plain_out, &mut plain_work);
    assert!(out == expected, "the core's output is another");
    assert!(plain_out == expected, "plain Rust's output is another");
    let before = before.filter(|before| before(&mut plain_out, &mut plain_work) == 0);
    assert!(
        plain_out == expected,
        "the earlier core's output is another"
    );
    target.copy_from_slice(picture);
    // Several calls make one measurement where a call is short.
    let calls = (1usize << 18).div_ceil(number);
    let mut best = [f64::INFINITY; 4];
    let start = Instant::now();
    let mut rounds = 0;
    while rounds < 3 || start.elapsed() < budget {
        best[0] = best[0].min(time(calls, || ours(&mut out, &mut work)));
        best[1] = best[1].min(time(calls, || plain(&mut plain_out, &mut plain_work)));
        best[2] = best[2].min(time(calls, || {
            target.copy_from_slice(black_box(picture));
            black_box(&mut target);
        }));
        if let Some(before) = before {
            best[3] = best[3].min(time(calls, || {
                before(&mut plain_out, &mut plain_work);
            }));
        }
        rounds += 1;
    }
    let [ours, plain, copy, last] = best.map(|seconds| seconds * 1e9 / (calls * number) as f64);
    Times {
        ours,
        plain,
        copy,
        before: before.map(|_| last),
    }
}

fn time(calls: usize, mut run: impl FnMut()) -> f64 {
    let start = now();
    for _ in 0..calls {
        run();
    }
    now() - start
}

fn print_row(name: &str, samples: &str, times: &Times) {
    let Times {
        ours,
        plain,
        copy,
        before,
    } = *times;
    let cell = |number: Option<f64>| number.map_or("-".into(), |number| format!("{number:.3}"));
    println!(
        "{name:<16} {samples:>12} {:>9.2} {:>9.2} {:>9} {ours:>9.3} {plain:>9.3} {copy:>9.3} {:>9}",
        ours / plain,
        ours / copy,
        cell(before.map(|before| ours / before)),
        cell(before),
    );
}

fn print_ratios(rows: &[[Times; 4]]) {
    let [small, million, _, large] = rows else {
        unreachable!("one row per side")
    };
    println!();
    println!("time per call at 64 x 64, in microseconds:");
    for (name, times) in NAMES.iter().zip(small) {
        let [ours, plain, copy] = [times.ours, times.plain, times.copy].map(|ns| ns * 4.096);
        println!("  {name}: ours {ours:.2}, plain {plain:.2}, copy {copy:.2}");
    }
    println!("time per sample at 4096 x 4096 over that at 1024 x 1024:");
    for (name, k) in [("rebuild", 2), ("write", 3)] {
        let ours = large[k].ours / million[k].ours;
        let plain = large[k].plain / million[k].plain;
        println!("  {name}: ours {ours:.2}, plain {plain:.2}");
    }
    println!("write over rebuild:");
    for (side, row) in SIDES.iter().zip(rows) {
        println!("  {side} x {side}: {:.2}", row[3].ours / row[2].ours);
    }
    println!("rebuild at 4096 x 4096 over one tile call by rows and one by columns:");
    let ours = large[2].ours / (large[0].ours + large[1].ours);
    let plain = large[2].plain / (large[0].plain + large[1].plain);
    println!("  ours {ours:.2}, plain {plain:.2}");
}

fn print_strips(rows: &[[Times; 4]], strips: &[[Times; 4]]) {
    let [.., square] = rows else {
        unreachable!("one row per side")
    };
    println!("time per sample over that at 4096 x 4096:");
    for ((width, height), strip) in STRIPS.iter().zip(strips) {
        let ratios = NAMES.iter().zip(strip).zip(square);
        let ratios =
            ratios.map(|((name, strip), square)| format!("{name} {:.2}", strip.ours / square.ours));
        let ratios: Vec<String> = ratios.collect();
        println!("  {width} x {height}: {}", ratios.join("; "));
    }
}

fn print_beside(rows: &[[Times; 4]], beside: &[([Times; 2], String)]) {
    let [.., [_, _, rebuild, write]] = rows else {
        unreachable!("one row per side")
    };
    println!("time per sample over that of the default plan at 4096 x 4096:");
    for ([back, forward], name) in beside {
        let (rebuild, write) = (back.ours / rebuild.ours, forward.ours / write.ours);
        println!("  {name}: rebuild {rebuild:.2}, write {write:.2}");
    }
}
