//! Words for draws. The archive takes a word of 64 bits with each call that may draw; its bits are handed out from bit 0.

/// What gives the next word. A closure does, and so does [`SplitMix`].
pub trait Rng {
    /// The next word.
    fn next_word(&mut self) -> u64;
}

impl<F: FnMut() -> u64> Rng for F {
    fn next_word(&mut self) -> u64 {
        self()
    }
}

/// A small generator from a seed (splitmix64): the same seed gives the same words everywhere.
///
/// ```
/// use njunnemar::{Rng, SplitMix};
///
/// let (mut a, mut b) = (SplitMix::new(7), SplitMix::new(7));
/// assert_eq!(a.next_word(), b.next_word());
/// ```
#[derive(Debug, Clone, PartialEq, Eq)]
pub struct SplitMix {
    state: u64,
}

impl SplitMix {
    /// The generator of a seed.
    pub fn new(seed: u64) -> Self {
        SplitMix { state: seed }
    }
}

impl Rng for SplitMix {
    fn next_word(&mut self) -> u64 {
        self.state = self.state.wrapping_add(0x9E37_79B9_7F4A_7C15);
        let mut z = self.state;
        z = (z ^ (z >> 30)).wrapping_mul(0xBF58_476D_1CE4_E5B9);
        z = (z ^ (z >> 27)).wrapping_mul(0x94D0_49BB_1331_11EB);
        z ^ (z >> 31)
    }
}
