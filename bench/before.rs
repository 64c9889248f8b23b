//! Times tile calls and whole runs of two archives in turn, in one run, after
//! comparing the results: `before_*` of an earlier commit, `squeeze_*` of this
//! tree.
//!
//! usage: before [SECONDS-PER-ROW]

mod noise;

use noise::samples;
use std::time::Instant;

type Tile = unsafe extern "C" fn(
    u32, usize, usize, usize, usize, usize, usize,
    *const i32, usize, *const i32, usize, *const i32, usize, *const i32, usize,
    *mut i32, usize,
) -> u32;

type Run = unsafe extern "C" fn(
    *const u8, usize, *const i32, usize, *mut i32, usize, *mut i32, usize,
) -> u32;

/// An archive's functions, under its own names.
macro_rules! archive {
    ($library:literal, $tile:ident, $rebuild:ident, $write:ident) => {
        #[link(name = $library, kind = "static")]
        extern "C" {
            fn $tile(
                horizontal: u32, aw: usize, ah: usize, rw: usize, rh: usize, ow: usize, oh: usize,
                avg: *const i32, avg_len: usize, res: *const i32, res_len: usize,
                next: *const i32, next_len: usize, prev: *const i32, prev_len: usize,
                out: *mut i32, out_len: usize,
            ) -> u32;
            fn $rebuild(
                record: *const u8, record_len: usize, from: *const i32, from_len: usize,
                to: *mut i32, to_len: usize, work: *mut i32, work_len: usize,
            ) -> u32;
            fn $write(
                record: *const u8, record_len: usize, from: *const i32, from_len: usize,
                to: *mut i32, to_len: usize, work: *mut i32, work_len: usize,
            ) -> u32;
        }
    };
}

archive!("before", before_tile, before_rebuild, before_write);
archive!("squeeze", squeeze_tile, squeeze_rebuild, squeeze_write);

/// A call's sides and slices, without outer lines.
struct Call {
    horizontal: bool,
    w: usize,
    h: usize,
    avg: Vec<i32>,
    res: Vec<i32>,
}

impl Call {
    fn new(horizontal: bool, w: usize, h: usize) -> Self {
        let (m, n) = Self::counts(horizontal, w, h);
        let across = if horizontal { h } else { w };
        Call { horizontal, w, h, avg: samples(m * across, 7), res: samples(n * across, 11) }
    }

    /// Averages and residuals along the squeeze.
    fn counts(horizontal: bool, w: usize, h: usize) -> (usize, usize) {
        let size = if horizontal { w } else { h };
        (size - size / 2, size / 2)
    }

    fn run(&self, tile: Tile, out: &mut [i32]) {
        let (m, n) = Self::counts(self.horizontal, self.w, self.h);
        let (aw, ah, rw, rh) =
            if self.horizontal { (m, self.h, n, self.h) } else { (self.w, m, self.w, n) };
        let answer = unsafe {
            tile(
                self.horizontal as u32, aw, ah, rw, rh, self.w, self.h,
                self.avg.as_ptr(), self.avg.len(), self.res.as_ptr(), self.res.len(),
                std::ptr::null(), 0, std::ptr::null(), 0, out.as_mut_ptr(), out.len(),
            )
        };
        assert_eq!(answer, 0);
    }
}

/// Nanoseconds per sample of calls for a hundredth of a second, one at least.
fn round(samples: usize, call: &mut dyn FnMut()) -> f64 {
    let (start, mut runs) = (Instant::now(), 0);
    while runs == 0 || start.elapsed().as_secs_f64() < 0.01 {
        call();
        runs += 1;
    }
    start.elapsed().as_secs_f64() / (runs * samples) as f64 * 1e9
}

/// The least of each over as many rounds as fit, the two in turn; a line of the
/// table.
fn row(name: &str, seconds: f64, samples: usize, old: &mut dyn FnMut(), new: &mut dyn FnMut()) -> (f64, f64) {
    let (mut before, mut after, start) = (f64::MAX, f64::MAX, Instant::now());
    while start.elapsed().as_secs_f64() < seconds {
        before = before.min(round(samples, old));
        after = after.min(round(samples, new));
    }
    println!("{name:<28} {:>10.2} {before:>8.2} {after:>8.2}", after / before);
    (before, after)
}

fn tiles(seconds: f64, horizontal: bool, w: usize, h: usize) -> (f64, f64) {
    let call = Call::new(horizontal, w, h);
    let (mut out, mut other) = (vec![0; w * h], vec![1; w * h]);
    call.run(before_tile, &mut out);
    call.run(squeeze_tile, &mut other);
    assert!(out == other, "the two archives differ");
    let name = format!("{} {w} by {h}", if horizontal { "horizontal" } else { "vertical" });
    row(&name, seconds, w * h, &mut || call.run(before_tile, &mut out), &mut || call.run(squeeze_tile, &mut other))
}

/// Rebuilding or writing one channel by the default plan.
fn run(name: &str, seconds: f64, side: u16, old: Run, new: Run) {
    let [low, high] = side.to_le_bytes();
    let record = [1, 6, 0, low, high, low, high, 0, 0];
    let n = side as usize * side as usize;
    let from = samples(n, 7);
    let (mut to, mut other, mut work) = (vec![0; n], vec![1; n], vec![0; n]);
    let call = |function: Run, to: &mut Vec<i32>, work: &mut Vec<i32>| {
        let answer = unsafe {
            function(
                record.as_ptr(), record.len(), from.as_ptr(), n, to.as_mut_ptr(), n, work.as_mut_ptr(), n,
            )
        };
        assert_eq!(answer, 0);
    };
    call(old, &mut to, &mut work);
    call(new, &mut other, &mut work);
    assert!(to == other, "the two archives differ");
    let mut second = work.clone();
    row(
        &format!("{name} {side} by {side}"), seconds, n,
        &mut || call(old, &mut to, &mut work), &mut || call(new, &mut other, &mut second),
    );
}

fn main() {
    let seconds: f64 = std::env::args().nth(1).and_then(|s| s.parse().ok()).unwrap_or(1.0);
    println!("{:<28} {:>10} {:>8} {:>8}", "ns per output sample", "ratio", "before", "after");
    let mut large = Vec::new();
    for (horizontal, w, h) in [
        (true, 65535, 1), (true, 65535, 8), (true, 4096, 4096), (true, 1024, 1024), (true, 256, 256), (true, 16, 4096),
        (true, 4, 4096), (true, 2, 4096), (true, 1, 4096), (false, 4096, 4096), (false, 1024, 1024), (false, 256, 256),
        (false, 65535, 8), (false, 4096, 2), (false, 4096, 1), (false, 1, 65535),
    ] {
        let pair = tiles(seconds, horizontal, w, h);
        if (w, h) == (4096, 4096) {
            large.push(pair);
        }
    }
    let (along, down) = (large[0], large[1]);
    println!("{:<28} {:>10} {:>8.2} {:>8.2}", "horizontal / vertical, 4096", "", along.0 / down.0, along.1 / down.1);
    for side in [64, 1024, 4096] {
        run("rebuild", seconds, side, before_rebuild, squeeze_rebuild);
        run("write", seconds, side, before_write, squeeze_write);
    }
}
