// Numbers that look random and follow from a seed.

#[derive(Clone)]
pub struct Random(u64);

impl Random {
    /// The numbers of one item under a seed, so that each item can be made alone.
    pub fn new(seed: u64, item: u64) -> Random {
        let mut random = Random(seed);
        let start = random.next();
        random.0 = start ^ item.wrapping_mul(0xd134_2543_de82_ef95);
        random.next();
        random
    }

    /// The next 64 bits: a counter with a fixed step, its bits mixed.
    fn next(&mut self) -> u64 {
        self.0 = self.0.wrapping_add(0x9e37_79b9_7f4a_7c15);
        let mut bits = self.0;
        bits = (bits ^ (bits >> 30)).wrapping_mul(0xbf58_476d_1ce4_e5b9);
        bits = (bits ^ (bits >> 27)).wrapping_mul(0x94d0_49bb_1331_11eb);
        bits ^ (bits >> 31)
    }

    /// A number below `end`.
    pub fn below(&mut self, end: usize) -> usize {
        (self.next() % end as u64) as usize
    }

    /// A number from `first` to `last`.
    pub fn within(&mut self, first: usize, last: usize) -> usize {
        first + self.below(last - first + 1)
    }

    /// True in `percent` of a hundred cases.
    pub fn percent(&mut self, percent: usize) -> bool {
        self.below(100) < percent
    }

    pub fn pick<T: Copy>(&mut self, items: &[T]) -> Option<T> {
        (!items.is_empty()).then(|| items[self.below(items.len())])
    }
}
