//! A seeded source of random numbers (SplitMix64), so that every file can be
//! made again from its seed.

use crate::numbers::MOST_DIGITS;

pub struct Random(u64);

impl Random {
    pub fn new(seed: u64) -> Random {
        Random(seed)
    }

    /// The source of one of many batches: neighbouring numbers give unrelated
    /// sources.
    pub fn of_batch(seed: u64, batch: u64) -> Random {
        let mut outer = Random(seed);
        let mut inner = Random(outer.bits() ^ batch);
        Random(inner.bits())
    }

    fn bits(&mut self) -> u64 {
        self.0 = self.0.wrapping_add(0x9e37_79b9_7f4a_7c15);
        let mut mixed = self.0;
        mixed = (mixed ^ (mixed >> 30)).wrapping_mul(0xbf58_476d_1ce4_e5b9);
        mixed = (mixed ^ (mixed >> 27)).wrapping_mul(0x94d0_49bb_1331_11eb);
        mixed ^ (mixed >> 31)
    }

    /// A number from 0 up to the bound, the bound left out.
    pub fn below(&mut self, bound: usize) -> usize {
        (self.bits() % bound as u64) as usize
    }

    /// True in `part` of `whole` cases.
    pub fn chance(&mut self, part: usize, whole: usize) -> bool {
        self.below(whole) < part
    }

    pub fn pick<T: Copy>(&mut self, list: &[T]) -> T {
        list[self.below(list.len())]
    }

    pub fn shuffle<T>(&mut self, list: &mut [T]) {
        for last in (1..list.len()).rev() {
            list.swap(last, self.below(last + 1));
        }
    }

    /// A number of a line, each count of digits as likely as any other, never
    /// 0.
    pub fn digits(&mut self) -> u32 {
        let least = 10_usize.pow(self.below(MOST_DIGITS) as u32);
        (least + self.below(9 * least)) as u32
    }
}
