// Random numbers (xorshift64*) from a seed.
pub struct Random(u64);

impl Random {
    pub fn new(seed: u64) -> Random {
        let mut r = Random((seed ^ 0x9E37_79B9_7F4A_7C15).max(1));
        for _ in 0..8 {
            r.next();
        }
        r
    }
    // The numbers of the i-th part of a run.
    pub fn part(seed: u64, i: u64) -> Random {
        Random::new(seed.wrapping_mul(0x1_0000_0001_B3).wrapping_add(i))
    }
    pub fn next(&mut self) -> u64 {
        self.0 ^= self.0 >> 12;
        self.0 ^= self.0 << 25;
        self.0 ^= self.0 >> 27;
        self.0.wrapping_mul(0x2545_F491_4F6C_DD1D)
    }
    pub fn below(&mut self, n: u64) -> u64 {
        (self.next() >> 11) % n
    }
    pub fn between(&mut self, a: u64, e: u64) -> u64 {
        a + self.below(e - a + 1)
    }
    pub fn percent(&mut self, p: u64) -> bool {
        self.below(100) < p
    }
    pub fn of<T: Copy>(&mut self, all: &[T]) -> T {
        all[self.below(all.len() as u64) as usize]
    }
}
