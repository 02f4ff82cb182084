//! A small seeded generator (splitmix64), so that every run tries the same cases.

#[derive(Clone, Debug)]
pub struct Rng(u64);

impl Rng {
    pub fn new(seed: u64) -> Rng {
        Rng(seed)
    }

    pub fn bits(&mut self) -> u64 {
        self.0 = self.0.wrapping_add(0x9e37_79b9_7f4a_7c15);
        let mut z = self.0;
        z = (z ^ (z >> 30)).wrapping_mul(0xbf58_476d_1ce4_e5b9);
        z = (z ^ (z >> 27)).wrapping_mul(0x94d0_49bb_1331_11eb);
        z ^ (z >> 31)
    }

    /// From 0 to `count` − 1; the slight bias of a remainder does no harm here.
    pub fn below(&mut self, count: usize) -> usize {
        (self.bits() % count as u64) as usize
    }

    /// From `low` to `high`, both possible.
    pub fn between(&mut self, low: i64, high: i64) -> i64 {
        let count = (i128::from(high) - i128::from(low) + 1) as u128;
        let offset = (u128::from(self.bits()) % count) as i128;
        (i128::from(low) + offset) as i64
    }

    /// From 0 to `high`, each size of number as likely as the others: tests need small values and large ones.
    pub fn any_size(&mut self, high: i64) -> i64 {
        let bits = self.between(0, 63 - i64::from(high.leading_zeros()) + 1);
        let cap = (1_i128 << bits) - 1;
        self.between(0, cap.min(high.into()) as i64)
    }

    pub fn chance(&mut self, percent: usize) -> bool {
        self.below(100) < percent
    }

    pub fn pick<T: Copy>(&mut self, from: &[T]) -> T {
        from[self.below(from.len())]
    }
}
