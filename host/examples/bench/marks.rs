//! What a mark costs: each call with one beside the same call without, and that beside an
//! earlier commit's where there is one.

use crate::{before, halves, photograph, time, Before};
use squeeze::{Record, Size};
use squeeze_model as model;
use std::time::{Duration, Instant};

/// A line for each call on a picture of that side.
pub fn print(side: usize, budget: Duration) {
    println!("time with a mark over that without, at {side} x {side}, in turns:");
    println!(
        "  {:<14} {:>7} {:>9} {:>9} {:>9} {:>9}",
        "", "ratio", "with ns", "without", "before", "/ before"
    );
    let picture = photograph(side, side);
    let record = Record::new().channel(side as u32, side as u32);
    rebuild(record.bytes(), &picture, budget);
    write(record.bytes(), &picture, budget);
    tile("tile, rows", true, side, &picture, budget);
    tile("tile, columns", false, side, &picture, budget);
}

fn rebuild(record: &[u8], picture: &[i32], budget: Duration) {
    let pyramid = squeeze::write_pyramid(record, picture).expect("accepted");
    let without = |out: &mut [i32], work: &mut [i32]| {
        squeeze::rebuild(record, &pyramid, out, work).expect("accepted");
    };
    let with = |out: &mut [i32], work: &mut [i32]| {
        squeeze::rebuild_marked(record, &pyramid, out, work).expect("accepted")
    };
    let plain = |out: &mut [i32], work: &mut [i32], mark: &mut [u32]| {
        model::run::rebuild_marked(record, &pyramid, out, work, mark)
    };
    let before = before::RUNS.map(|runs| {
        let (run, from) = (runs[0], &pyramid);
        move |out: &mut [i32], work: &mut [i32]| run(record, from, out, work)
    });
    let before = before.as_ref().map(|run| run as &Before);
    print_row("rebuild", picture, without, with, plain, before, budget);
}

fn write(record: &[u8], picture: &[i32], budget: Duration) {
    let pyramid = squeeze::write_pyramid(record, picture).expect("accepted");
    let without = |out: &mut [i32], work: &mut [i32]| {
        squeeze::write(record, picture, out, work).expect("accepted");
    };
    let with = |out: &mut [i32], work: &mut [i32]| {
        squeeze::write_marked(record, picture, out, work).expect("accepted")
    };
    let plain = |out: &mut [i32], work: &mut [i32], mark: &mut [u32]| {
        model::run::write_marked(record, picture, out, work, mark)
    };
    let before = before::RUNS.map(|runs| {
        let (run, from) = (runs[1], picture);
        move |out: &mut [i32], work: &mut [i32]| run(record, from, out, work)
    });
    let before = before.as_ref().map(|run| run as &Before);
    print_row("write", &pyramid, without, with, plain, before, budget);
}

fn tile(name: &str, horizontal: bool, side: usize, picture: &[i32], budget: Duration) {
    let size = Size {
        width: side,
        height: side,
    };
    let (sizes, plain_sizes, avg, residual) = halves(horizontal, size, picture);
    let without = |out: &mut [i32], _: &mut [i32]| {
        squeeze::tile(&sizes, &avg, &residual, &[], &[], out).expect("accepted");
    };
    let with = |out: &mut [i32], _: &mut [i32]| {
        squeeze::tile_marked(&sizes, &avg, &residual, &[], &[], out).expect("accepted")
    };
    let plain = |out: &mut [i32], _: &mut [i32], mark: &mut [u32]| {
        model::tile::tile_marked(&plain_sizes, &avg, &residual, &[], &[], out, mark)
    };
    let before = before::TILE.map(|tile| {
        let (sizes, avg, residual) = (&sizes, &avg, &residual);
        move |out: &mut [i32], _: &mut [i32]| tile(sizes, avg, residual, out)
    });
    let before = before.as_ref().map(|tile| tile as &Before);
    print_row(name, picture, without, with, plain, before, budget);
}

/// Best time of each, taken in turns, after one untimed call of each, whose output must
/// be `expected` and whose mark must be the model's.
fn print_row(
    name: &str,
    expected: &[i32],
    without: impl Fn(&mut [i32], &mut [i32]),
    with: impl Fn(&mut [i32], &mut [i32]) -> bool,
    plain: impl Fn(&mut [i32], &mut [i32], &mut [u32]) -> u32,
    before: Option<&Before>,
    budget: Duration,
) {
    let number = expected.len();
    let [mut out, mut work] = [7, 8].map(|sample| vec![sample; number]);
    let check = |out: &mut [i32], whose: &str| {
        assert!(out == expected, "{name}: {whose} output is another");
        out.fill(7);
    };
    let mut mark = [9];
    assert_eq!(plain(&mut out, &mut work, &mut mark), 0);
    check(&mut out, "plain Rust's");
    without(&mut out, &mut work);
    check(&mut out, "the core's");
    assert_eq!([u32::from(with(&mut out, &mut work))], mark, "another mark");
    check(&mut out, "the marked core's");
    let before = before.filter(|before| before(&mut out, &mut work) == 0);
    if before.is_some() {
        check(&mut out, "the earlier core's");
    }
    let mut best = [f64::INFINITY; 3];
    let start = Instant::now();
    let mut rounds = 0;
    while rounds < 3 || start.elapsed() < budget {
        best[0] = best[0].min(time(1, || _ = with(&mut out, &mut work)));
        best[1] = best[1].min(time(1, || without(&mut out, &mut work)));
        if let Some(before) = before {
            best[2] = best[2].min(time(1, || _ = before(&mut out, &mut work)));
        }
        rounds += 1;
    }
    let [with, without, last] = best.map(|seconds| seconds * 1e9 / number as f64);
    let cell = |number: f64| before.map_or("-".into(), |_| format!("{number:.3}"));
    println!(
        "  {name:<14} {:>7.2} {with:>9.3} {without:>9.3} {:>9} {:>9}",
        with / without,
        cell(last),
        cell(without / last),
    );
}
