//! Document 01's tendency and pair in plain Rust, which bench/pair.rs and
//! bench/tile.rs measure the proved code against.

/// The tendency as document 01 writes it, left early on a turn.
#[inline(always)]
pub fn tendency(a: i32, b: i32, c: i32) -> i32 {
    let x = a.wrapping_sub(b);
    let y = b.wrapping_sub(c);
    if (x < 0 && y > 0) || (x > 0 && y < 0) {
        return 0;
    }
    monotone(x, y, a.wrapping_sub(c))
}

/// The tendency of three samples without a turn, by their three differences.
#[inline(always)]
pub fn monotone(x: i32, y: i32, z: i32) -> i32 {
    let (p, q, r) = (x.wrapping_abs(), y.wrapping_abs(), z.wrapping_abs());
    let t = ((p as i64 * 0x5555_5556) >> 32) as i32;
    let mut v = 2i32.wrapping_add(r).wrapping_add(t) >> 2;
    if v > p.wrapping_mul(2).wrapping_add(v & 1) {
        v = p.wrapping_mul(2).wrapping_add(1);
    }
    if v.wrapping_add(v & 1) > q.wrapping_mul(2) {
        v = q.wrapping_mul(2);
    }
    if z < 0 { v.wrapping_neg() } else { v }
}

/// Both samples from the average and their difference.
#[inline(always)]
pub fn from_difference(avg: i32, d: i32) -> (i32, i32) {
    let first = avg.wrapping_add(d.wrapping_add((d < 0) as i32) >> 1);
    (first, first.wrapping_sub(d))
}

/// The pair back: both samples of a pair.
#[inline(always)]
pub fn unsqueeze(avg: i32, res: i32, next: i32, prev: i32) -> (i32, i32) {
    from_difference(avg, res.wrapping_add(tendency(prev, avg, next)))
}
