//! The samples that bench/tile.rs and bench/before.rs time calls on: small ones,
//! at random, the same for the same seed.

pub fn samples(n: usize, seed: u64) -> Vec<i32> {
    let mut s = seed | 1;
    (0..n)
        .map(|_| {
            s ^= s << 13;
            s ^= s >> 7;
            s ^= s << 17;
            (s >> 56) as i32 - 128
        })
        .collect()
}
