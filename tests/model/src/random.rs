//! Numbers that only look random: the same seed gives the same histories everywhere.

#[derive(Clone)]
pub struct Random {
    state: u64,
}

impl Random {
    pub fn new(seed: u64) -> Random {
        Random { state: seed }
    }

    /// The generator known as SplitMix64.
    pub fn number(&mut self) -> u64 {
        self.state = self.state.wrapping_add(0x9E37_79B9_7F4A_7C15);
        let mut mixed = self.state;
        mixed = (mixed ^ (mixed >> 30)).wrapping_mul(0xBF58_476D_1CE4_E5B9);
        mixed = (mixed ^ (mixed >> 27)).wrapping_mul(0x94D0_49BB_1331_11EB);
        mixed ^ (mixed >> 31)
    }

    /// A number from 0 up to, but not, the limit.
    pub fn below(&mut self, limit: usize) -> usize {
        (self.number() % limit as u64) as usize
    }

    /// A number from low to high, an end of the range more often than others.
    pub fn within(&mut self, low: u32, high: u32) -> u32 {
        match self.below(4) {
            0 => low,
            1 => high,
            _ => low + (self.number() % (u64::from(high - low) + 1)) as u32,
        }
    }

    pub fn chance(&mut self, percent: usize) -> bool {
        self.below(100) < percent
    }

    pub fn pick<T: Clone>(&mut self, items: &[T]) -> T {
        items[self.below(items.len())].clone()
    }

    pub fn octet(&mut self) -> u8 {
        self.number() as u8
    }

    pub fn octets(&mut self, count: usize) -> Vec<u8> {
        let mut octets: Vec<u8> = (0..count.div_ceil(8)).flat_map(|_| self.number().to_ne_bytes()).collect();
        octets.truncate(count);
        octets
    }

    /// Octets to fill a block or a room with, so that one that is written shows.
    pub fn poison(&mut self, count: usize) -> Vec<u8> {
        let mut octets = self.number().to_ne_bytes().repeat(count.div_ceil(8));
        octets.truncate(count);
        octets
    }

    /// Fewer octets than the limit.
    pub fn some_octets(&mut self, limit: usize) -> Vec<u8> {
        let count = self.below(limit);
        self.octets(count)
    }

    pub fn shuffle<T>(&mut self, items: &mut [T]) {
        for end in (1..items.len()).rev() {
            items.swap(end, self.below(end + 1));
        }
    }
}
