//! A second, independent implementation of the calculus of communicating processes, written from
//! `docs/CALCULUS.md` alone. Section numbers in the comments are those of that page.
//!
//! * [`read`]: words to a program, with all limits (section 7).
//! * [`judge`]: no program, careless, keeps (sections 6 and 8).
//! * [`go`]: run a program that keeps (section 9); [`Runner`] is the same with its memory kept from call to call.
//! * [`orders`]: run any program, kept or not, in an order drawn from a seed, and say what is left (section 5).
//! * [`generate`]: random rows for comparisons.

pub mod generate;
mod judge;
pub mod orders;
mod reader;
pub mod rows;
mod runner;

pub use judge::{judge, keeps, Answer, Kept};
pub use reader::{read, Point, Process, Program};
pub use reader::{MOST_CONVERSATIONS, MOST_NESTING, MOST_POINTS, MOST_PROCESSES, MOST_VARIABLES, MOST_WORDS};
pub use runner::{go, go_limited, Ended, Ran, Runner};

/// A small generator of random numbers (splitmix64).
#[derive(Clone, Debug)]
pub struct Draw(pub u64);

impl Draw {
    pub fn next(&mut self) -> u64 {
        self.0 = self.0.wrapping_add(0x9E37_79B9_7F4A_7C15);
        let mut z = self.0;
        z = (z ^ (z >> 30)).wrapping_mul(0xBF58_476D_1CE4_E5B9);
        z = (z ^ (z >> 27)).wrapping_mul(0x94D0_49BB_1331_11EB);
        z ^ (z >> 31)
    }

    /// A number below `n` (0 if `n` is 0).
    pub fn below(&mut self, n: usize) -> usize {
        ((self.next() as u128 * n as u128) >> 64) as usize
    }

    /// True `a` times out of `b`.
    pub fn chance(&mut self, a: usize, b: usize) -> bool {
        self.below(b) < a
    }
}
