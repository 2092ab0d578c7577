//! Stand-in for `rand`: draws come from a word that is given with the call, lowest bit first (docs/RULES.md, Expressions).

/// What an evaluation may draw from.
pub trait Rng {
    fn draw(&mut self) -> bool;
}

/// A word of zeros: a run of a system is made with one and then handed its word.
pub fn make_rng() -> rngs::SmallRng {
    rngs::SmallRng::of_word(0)
}

pub mod rngs {
    use super::Rng;

    /// A word whose bits are handed out from bit 0.
    #[derive(Debug, Clone)]
    pub struct SmallRng {
        rest: u64,
    }

    impl SmallRng {
        pub fn of_word(word: u64) -> Self {
            SmallRng { rest: word }
        }
    }

    impl Rng for SmallRng {
        fn draw(&mut self) -> bool {
            let bit = self.rest & 1 == 1;
            self.rest >>= 1;
            bit
        }
    }
}
