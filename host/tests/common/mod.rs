//! What several tests share: random numbers, tables and sheets made from them, pages of edges, and
//! programs that are run.

#![allow(dead_code)] // each test file uses its own part of this one

pub mod both;
pub mod judged;
pub mod marked;
pub mod programs;
pub mod sheets;
pub mod tables;

/// Random numbers by splitmix64: the same seed gives the same run.
pub struct Random {
    state: u64,
}

impl Random {
    /// Starts from `SEED` in the environment, or from `seed`, and prints which it was.
    pub fn start(test: &str, seed: u64) -> Random {
        let given = std::env::var("SEED").ok();
        let state = given.map_or(seed, |given| given.parse().expect("SEED is a number"));
        println!("{test}: SEED={state}");
        Random { state }
    }

    pub fn number(&mut self) -> u64 {
        self.state = self.state.wrapping_add(0x9e37_79b9_7f4a_7c15);
        let mut mixed = self.state;
        mixed = (mixed ^ (mixed >> 30)).wrapping_mul(0xbf58_476d_1ce4_e5b9);
        mixed = (mixed ^ (mixed >> 27)).wrapping_mul(0x94d0_49bb_1331_11eb);
        mixed ^ (mixed >> 31)
    }

    /// A number below `limit`.
    pub fn below(&mut self, limit: usize) -> usize {
        (self.number() % limit as u64) as usize
    }

    /// A number from `least` to `most`.
    pub fn between(&mut self, least: usize, most: usize) -> usize {
        least + self.below(most - least + 1)
    }

    /// True `times` in `of`.
    pub fn chance(&mut self, times: usize, of: usize) -> bool {
        self.below(of) < times
    }

    pub fn pick<T: Copy>(&mut self, from: &[T]) -> T {
        from[self.below(from.len())]
    }
}

/// A text as it is printed when a test fails.
pub fn shown(text: &[u8]) -> String {
    text.escape_ascii().to_string().replace("\\n", "\\n\n")
}
