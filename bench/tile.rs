//! Times the tile call beside a plain Rust of the same rule and a copy of as
//! many samples, in one run, after comparing the results.
//!
//! usage: tile [SECONDS-PER-ROW]

mod noise;
mod plain;

use noise::samples;
use plain::unsqueeze;
use std::time::Instant;

#[link(name = "squeeze", kind = "static")]
extern "C" {
    #[allow(clippy::too_many_arguments)]
    fn squeeze_tile(
        horizontal: u32, aw: usize, ah: usize, rw: usize, rh: usize, ow: usize, oh: usize,
        avg: *const i32, avg_len: usize, res: *const i32, res_len: usize,
        next: *const i32, next_len: usize, prev: *const i32, prev_len: usize,
        out: *mut i32, out_len: usize,
    ) -> u32;
}

/// Row by row, pair by pair.
#[inline(never)]
fn plain_horizontal(avg: &[i32], res: &[i32], m: usize, n: usize, out: &mut [i32]) {
    for ((a, r), o) in avg.chunks_exact(m).zip(res.chunks_exact(n)).zip(out.chunks_exact_mut(m + n)) {
        let mut prev = a[0];
        for i in 0..n {
            let next = if i + 1 < m { a[i + 1] } else { a[i] };
            let (first, second) = unsqueeze(a[i], r[i], next, prev);
            o[2 * i] = first;
            o[2 * i + 1] = second;
            prev = second;
        }
        if m > n {
            o[2 * n] = a[n];
        }
    }
}

/// Column by column, as the published Rust's scalar way goes.
#[inline(never)]
fn plain_vertical(avg: &[i32], res: &[i32], w: usize, m: usize, n: usize, out: &mut [i32]) {
    for x in 0..w {
        let mut prev = avg[x];
        for i in 0..n {
            let a = avg[i * w + x];
            let next = if i + 1 < m { avg[(i + 1) * w + x] } else { a };
            let (first, second) = unsqueeze(a, res[i * w + x], next, prev);
            out[2 * i * w + x] = first;
            out[(2 * i + 1) * w + x] = second;
            prev = second;
        }
        if m > n {
            out[2 * n * w + x] = avg[n * w + x];
        }
    }
}

/// The least of several runs, in nanoseconds per output sample.
fn time(seconds: f64, n: usize, mut run: impl FnMut()) -> f64 {
    run();
    let (mut best, start) = (f64::MAX, Instant::now());
    while start.elapsed().as_secs_f64() < seconds {
        let t = Instant::now();
        let mut runs = 0;
        while runs == 0 || t.elapsed().as_secs_f64() < 0.01 {
            run();
            runs += 1;
        }
        best = best.min(t.elapsed().as_secs_f64() / (runs * n) as f64 * 1e9);
    }
    best
}

fn main() {
    let seconds: f64 = std::env::args().nth(1).and_then(|s| s.parse().ok()).unwrap_or(1.0);
    println!("{:<30} {:>8} {:>8} {:>8} {:>8}", "ns per output sample", "ratio", "proved", "Rust", "copy");
    for (horizontal, w, h) in
        [(true, 4096, 4096), (true, 256, 256), (true, 65535, 1), (true, 65535, 8), (false, 4096, 4096), (false, 256, 256), (false, 65535, 8)]
    {
        let size = if horizontal { w } else { h };
        let (m, n) = ((size + 1) / 2, size / 2);
        let (aw, ah, rw, rh) = if horizontal { (m, h, n, h) } else { (w, m, w, n) };
        let (avg, res) = (samples(aw * ah, 7), samples(rw * rh, 11));
        let (mut ours, mut plain, mut copy) = (vec![0; w * h], vec![0; w * h], vec![0; w * h]);
        let mut proved = || {
            let answer = unsafe {
                squeeze_tile(
                    horizontal as u32, aw, ah, rw, rh, w, h, avg.as_ptr(), avg.len(), res.as_ptr(), res.len(),
                    std::ptr::null(), 0, std::ptr::null(), 0, ours.as_mut_ptr(), ours.len(),
                )
            };
            assert_eq!(answer, 0);
        };
        let mut rust = || {
            if horizontal {
                plain_horizontal(&avg, &res, m, n, &mut plain)
            } else {
                plain_vertical(&avg, &res, w, m, n, &mut plain)
            }
        };
        let (a, b) = (time(seconds, w * h, &mut proved), time(seconds, w * h, &mut rust));
        assert!(ours == plain, "the two sides differ");
        let c = time(seconds / 2.0, w * h, || copy.copy_from_slice(std::hint::black_box(&ours)));
        println!("{:<30} {:>8.2} {a:>8.2} {b:>8.2} {c:>8.2}", format!("{} {w} x {h}", if horizontal { "horizontal" } else { "vertical" }), a / b);
    }
}
