//! Numbers from a fixed seed (SplitMix64), the same on every machine.

/// A source of numbers: the same seed gives the same ones.
pub struct Rng(u64);

impl Rng {
    /// The source that begins with this seed.
    pub fn new(seed: u64) -> Rng {
        Rng(seed)
    }

    /// The next number. The other functions make theirs from it.
    pub fn draw(&mut self) -> u64 {
        self.0 = self.0.wrapping_add(0x9E37_79B9_7F4A_7C15);
        let mut z = self.0;
        z = (z ^ (z >> 30)).wrapping_mul(0xBF58_476D_1CE4_E5B9);
        z = (z ^ (z >> 27)).wrapping_mul(0x94D0_49BB_1331_11EB);
        z ^ (z >> 31)
    }

    /// A number below `n`, which is not 0.
    pub fn below(&mut self, n: usize) -> usize {
        (self.draw() % n as u64) as usize
    }

    /// True once in `n` times.
    pub fn once_in(&mut self, n: usize) -> bool {
        self.below(n) == 0
    }

    /// An item by chance of a list that is not empty.
    pub fn pick<'a, T>(&mut self, from: &'a [T]) -> &'a T {
        &from[self.below(from.len())]
    }

    /// Any byte, as likely as every other.
    pub fn byte(&mut self) -> u8 {
        self.draw() as u8
    }

    /// Puts the items into an order by chance.
    pub fn shuffle<T>(&mut self, items: &mut [T]) {
        for i in (1..items.len()).rev() {
            items.swap(i, self.below(i + 1));
        }
    }
}
