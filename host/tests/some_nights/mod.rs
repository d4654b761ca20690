//! The nights at random that the program is tried on.

use host::nights::night;
use host::random::Random;

const SEED: u64 = 20_040_707;
pub const NIGHTS: usize = 3_000;

pub fn some_nights() -> impl Iterator<Item = Vec<u8>> {
    let mut random = Random::new(SEED);
    (0..NIGHTS).map(move |_| night(&mut random))
}
