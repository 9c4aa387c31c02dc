//! A small generator of pseudo-random numbers (splitmix64), so that a seed names a run for good.

#[derive(Clone)]
pub struct Rng(u64);

impl Rng {
    /// A stream of its own for each seed and number.
    pub fn new(seed: u64, stream: u64) -> Rng {
        let mut rng = Rng(seed ^ stream.wrapping_mul(0x9E37_79B9_7F4A_7C15));
        rng.next();
        Rng(rng.next() ^ stream)
    }

    pub fn next(&mut self) -> u64 {
        self.0 = self.0.wrapping_add(0x9E37_79B9_7F4A_7C15);
        let mut z = self.0;
        z = (z ^ (z >> 30)).wrapping_mul(0xBF58_476D_1CE4_E5B9);
        z = (z ^ (z >> 27)).wrapping_mul(0x94D0_49BB_1331_11EB);
        z ^ (z >> 31)
    }

    /// A number below n, which is not 0.
    pub fn below(&mut self, n: u64) -> u64 {
        self.next() % n
    }

    pub fn size(&mut self, below: usize) -> usize {
        self.below(below as u64) as usize
    }

    /// True once in n times.
    pub fn once_in(&mut self, n: u64) -> bool {
        self.below(n) == 0
    }

    pub fn pick<T: Clone>(&mut self, from: &[T]) -> T {
        from[self.size(from.len())].clone()
    }

    /// A number of random size, often close to a power of two.
    pub fn number(&mut self) -> u64 {
        let any = self.next() >> self.below(64);
        match self.below(8) {
            0 => (1u64 << self.below(64)).wrapping_sub(1),
            1 => 1u64 << self.below(64),
            2 => u64::MAX - self.below(3),
            3 | 4 => any % 200,
            _ => any,
        }
    }

    pub fn bytes(&mut self, len: usize) -> Vec<u8> {
        (0..len).map(|_| self.next() as u8).collect()
    }
}
