//! The pair: two samples from an average and a residual, and back. All sums
//! wrap at 32 bits.

/// A third, as a fraction of 2^32.
const THIRD: i64 = 0x5555_5556;

/// The tendency at average `b`, between the previous output `a` and the next
/// average `c`.
#[inline(always)]
pub fn tendency(a: i32, b: i32, c: i32) -> i32 {
    let ab = a.wrapping_sub(b);
    let bc = b.wrapping_sub(c);
    let ac = a.wrapping_sub(c);
    let turn = (ab < 0 && bc > 0) || (ab > 0 && bc < 0);
    let p2 = ab.wrapping_abs().wrapping_mul(2);
    let q2 = bc.wrapping_abs().wrapping_mul(2);
    let t = ((i64::from(ab.wrapping_abs()) * THIRD) >> 32) as i32;
    let mut v = ac.wrapping_abs().wrapping_add(2).wrapping_add(t) >> 2;
    if v > p2.wrapping_add(v & 1) {
        v = p2.wrapping_add(1);
    }
    if v.wrapping_add(v & 1) > q2 {
        v = q2;
    }
    if turn {
        0
    } else if ac < 0 {
        v.wrapping_neg()
    } else {
        v
    }
}

/// The two samples of an average and a residual, between the previous output
/// and the next average.
#[inline(always)]
pub fn unsqueeze(prev: i32, avg: i32, next: i32, residual: i32) -> (i32, i32) {
    let d = residual.wrapping_add(tendency(prev, avg, next));
    let first = avg.wrapping_add(d / 2);
    (first, first.wrapping_sub(d))
}

/// The writer's average of two samples.
#[inline(always)]
pub fn average(first: i32, second: i32) -> i32 {
    first.wrapping_sub(first.wrapping_sub(second) / 2)
}

/// The writer's residual of two samples with the average `avg`.
#[inline(always)]
pub fn residual(prev: i32, avg: i32, next: i32, first: i32, second: i32) -> i32 {
    first
        .wrapping_sub(second)
        .wrapping_sub(tendency(prev, avg, next))
}
