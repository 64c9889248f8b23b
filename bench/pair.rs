//! Compares the proved pair and block with the same formula in plain Rust, and
//! runs both on one stream of inputs so that callgrind can count their
//! instructions. `bench/pair.sh` builds it, runs it and prints the figures.
//!
//! usage: pair CALLS

mod plain;

use plain::{from_difference, monotone, tendency, unsqueeze};
use std::process::exit;

#[link(name = "probe", kind = "static")]
extern "C" {
    fn probe_add(a: i32, b: i32) -> i32;
    fn probe_unsqueeze(avg: i32, res: i32, next: i32, prev: i32, out: *mut i32, len: usize);
    fn probe_squeeze(first: i32, second: i32, next: i32, prev: i32, out: *mut i32, len: usize);
    #[allow(clippy::too_many_arguments)]
    fn probe_block(
        avg: *const i32, avg_len: usize, res: *const i32, res_len: usize,
        next: *const i32, next_len: usize, prev: *const i32, prev_len: usize,
        out: *mut i32, out_len: usize,
    );
}

#[no_mangle]
#[inline(never)]
pub extern "C" fn plain_unsqueeze(avg: i32, res: i32, next: i32, prev: i32, out: &mut [i32; 2]) {
    let (first, second) = unsqueeze(avg, res, next, prev);
    *out = [first, second];
}

#[no_mangle]
#[inline(never)]
pub extern "C" fn plain_squeeze(first: i32, second: i32, next: i32, prev: i32, out: &mut [i32; 2]) {
    let d = first.wrapping_sub(second);
    let avg = first.wrapping_sub(d.wrapping_add((d < 0) as i32) >> 1);
    *out = [avg, d.wrapping_sub(tendency(prev, avg, next))];
}

/// Eight lanes, each computed whole with the turn selected last, which is the
/// form that rustc vectorises.
#[no_mangle]
#[inline(never)]
pub extern "C" fn plain_block(avg: &[i32; 8], res: &[i32; 8], next: &[i32; 8], prev: &[i32; 8], out: &mut [i32; 16]) {
    for i in 0..8 {
        let (x, y) = (prev[i].wrapping_sub(avg[i]), avg[i].wrapping_sub(next[i]));
        let t = monotone(x, y, prev[i].wrapping_sub(next[i]));
        let turn = ((x < 0) & (y > 0)) | ((x > 0) & (y < 0));
        let (first, second) = from_difference(avg[i], res[i].wrapping_add(if turn { 0 } else { t }));
        out[i] = first;
        out[8 + i] = second;
    }
}

/// xorshift64*: the same inputs on every machine.
struct Random(u64);

impl Random {
    fn next(&mut self) -> u64 {
        self.0 ^= self.0 >> 12;
        self.0 ^= self.0 << 25;
        self.0 ^= self.0 >> 27;
        self.0.wrapping_mul(0x2545_F491_4F6C_DD1D)
    }
    /// Every second sample is small, every eighth an end of the 32-bit range.
    fn sample(&mut self) -> i32 {
        let r = self.next();
        match r >> 61 {
            0..=3 => (r as i32) >> 20,
            4 => [i32::MIN, i32::MIN + 1, -1, 0, 1, i32::MAX - 1, i32::MAX, 1 << 30][(r & 7) as usize],
            _ => r as i32,
        }
    }
    fn block(&mut self) -> [i32; 8] {
        std::array::from_fn(|_| self.sample())
    }
}

fn differ(what: &str, input: &[i32], ours: &[i32], plain: &[i32]) -> ! {
    eprintln!("{what} {input:?}: proved {ours:?}, plain Rust {plain:?}");
    exit(1)
}

fn main() {
    let calls: u32 = std::env::args().nth(1).and_then(|n| n.parse().ok()).unwrap_or(100_000);
    let mut random = Random(0x9E37_79B9_7F4A_7C15);
    for _ in 0..calls {
        let [a, r, n, p] = std::array::from_fn(|_| random.sample());
        if unsafe { probe_add(a, r) } != a.wrapping_add(r) {
            differ("sum", &[a, r], &[unsafe { probe_add(a, r) }], &[a.wrapping_add(r)]);
        }
        let (mut ours, mut plain) = ([0; 2], [0; 2]);
        unsafe { probe_unsqueeze(a, r, n, p, ours.as_mut_ptr(), 2) };
        plain_unsqueeze(a, r, n, p, &mut plain);
        if ours != plain {
            differ("unsqueeze", &[a, r, n, p], &ours, &plain);
        }
        unsafe { probe_squeeze(a, r, n, p, ours.as_mut_ptr(), 2) };
        plain_squeeze(a, r, n, p, &mut plain);
        if ours != plain {
            differ("squeeze", &[a, r, n, p], &ours, &plain);
        }
        let [a, r, n, p] = std::array::from_fn(|_| random.block());
        let (mut ours, mut plain) = ([0; 16], [0; 16]);
        unsafe {
            probe_block(a.as_ptr(), 8, r.as_ptr(), 8, n.as_ptr(), 8, p.as_ptr(), 8, ours.as_mut_ptr(), 16)
        };
        plain_block(&a, &r, &n, &p, &mut plain);
        if ours != plain {
            differ("block", &[a, r, n, p].concat(), &ours, &plain);
        }
    }
    println!("{calls} pairs each way and {calls} blocks: equal");
}
