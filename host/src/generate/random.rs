//! Numbers that look random and depend only on the seed (splitmix64).

pub struct Random(u64);

impl Random {
    /// The numbers of one round: each round has its own, whatever the rounds before it drew.
    pub fn of_round(seed: u64, round: u64) -> Random {
        let mut first = Random(seed);
        Random(first.next().wrapping_add(round.wrapping_mul(0xD134_2543_DE82_EF95)))
    }

    fn next(&mut self) -> u64 {
        self.0 = self.0.wrapping_add(0x9E37_79B9_7F4A_7C15);
        let mixed = (self.0 ^ (self.0 >> 30)).wrapping_mul(0xBF58_476D_1CE4_E5B9);
        let mixed = (mixed ^ (mixed >> 27)).wrapping_mul(0x94D0_49BB_1331_11EB);
        mixed ^ (mixed >> 31)
    }

    /// A number below the bound, or 0 where there is none.
    pub fn below(&mut self, bound: usize) -> usize {
        (self.next() % bound.max(1) as u64) as usize
    }

    /// A number from the first to the last, both included.
    pub fn from_to(&mut self, first: usize, last: usize) -> usize {
        first + self.below(last - first + 1)
    }

    /// True so many times in a hundred.
    pub fn chance(&mut self, percent: usize) -> bool {
        self.below(100) < percent
    }

    /// One of the values.
    pub fn pick<T: Copy>(&mut self, values: &[T]) -> T {
        values[self.below(values.len())]
    }

    /// Any word.
    pub fn word(&mut self) -> u16 {
        self.next() as u16
    }

    /// A signed constant as a word: mostly near 0, else near an end of the range, else anything.
    pub fn constant(&mut self) -> u16 {
        match self.below(10) {
            0..=5 => (self.below(7) as u16).wrapping_sub(3),
            6 => self.pick(&[32767, 32766, 32768, 32769, 20000, 45536]),
            _ => self.word(),
        }
    }
}
