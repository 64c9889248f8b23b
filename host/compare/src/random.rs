//! A small deterministic generator (SplitMix64).

/// The generator.
pub struct Random(u64);

impl Random {
    /// A generator; one seed gives one sequence.
    pub fn new(seed: u64) -> Random {
        Random(seed)
    }

    /// 64 bits.
    pub fn bits(&mut self) -> u64 {
        self.0 = self.0.wrapping_add(0x9e37_79b9_7f4a_7c15);
        let mut z = self.0;
        z = (z ^ (z >> 30)).wrapping_mul(0xbf58_476d_1ce4_e5b9);
        z = (z ^ (z >> 27)).wrapping_mul(0x94d0_49bb_1331_11eb);
        z ^ (z >> 31)
    }

    /// A number below `bound`, which is above 0.
    pub fn below(&mut self, bound: usize) -> usize {
        (self.bits() % bound as u64) as usize
    }

    /// True once in `times`.
    pub fn once_in(&mut self, times: usize) -> bool {
        self.below(times) == 0
    }

    /// One of the values.
    pub fn pick<T: Copy>(&mut self, values: &[T]) -> T {
        values[self.below(values.len())]
    }

    /// A sample: small, near an extreme, or any 32 bits.
    pub fn sample(&mut self) -> i32 {
        const CORNERS: [i32; 8] = [
            i32::MIN,
            i32::MAX,
            0,
            -1,
            1 << 30,
            -(1 << 30),
            (1 << 28) - 1,
            -(1 << 28),
        ];
        match self.below(4) {
            0 => self.below(511) as i32 - 255,
            1 => self.pick(&CORNERS).wrapping_add(self.below(7) as i32 - 3),
            _ => self.bits() as i32,
        }
    }

    /// That many samples.
    pub fn samples(&mut self, number: usize) -> Vec<i32> {
        (0..number).map(|_| self.sample()).collect()
    }

    /// That many samples around 0 or around an end of the plain range (document 02,
    /// A.3), of which some may lie outside by a little; and now and then one more by one.
    pub fn near_plain(&mut self, number: usize) -> Vec<i32> {
        let middle = self.pick(&[0, 0, 0, (1 << 28) - 5, 4 - (1 << 28)]);
        let samples = (0..number).map(|_| middle + self.below(9) as i32 - 4);
        let mut samples: Vec<i32> = samples.collect();
        self.move_to_an_end(&mut samples);
        samples
    }

    /// Moves, now and then, one of the samples to an end of the plain range or past it
    /// by one.
    pub fn move_to_an_end(&mut self, samples: &mut [i32]) {
        const ENDS: [i32; 4] = [(1 << 28) - 1, 1 << 28, -(1 << 28), -(1 << 28) - 1];
        if !samples.is_empty() && self.once_in(4) {
            samples[self.below(samples.len())] = self.pick(&ENDS);
        }
    }
}
