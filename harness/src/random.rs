//! A small deterministic source of random numbers (splitmix), and checks over many seeds.

use std::env;
use std::ffi::OsStr;
use std::ops::Range;
use std::thread;

#[derive(Clone, Debug)]
pub struct Random {
    state: u64,
}

impl Random {
    pub fn new(seed: u64) -> Random {
        Random { state: seed }
    }

    pub fn number(&mut self) -> u64 {
        self.state = self.state.wrapping_add(0x9e37_79b9_7f4a_7c15);
        let mut mixed = self.state;
        mixed = (mixed ^ (mixed >> 30)).wrapping_mul(0xbf58_476d_1ce4_e5b9);
        mixed = (mixed ^ (mixed >> 27)).wrapping_mul(0x94d0_49bb_1331_11eb);
        mixed ^ (mixed >> 31)
    }

    /// A number below the bound; 0 where the bound is 0.
    pub fn below(&mut self, bound: u64) -> u64 {
        let product = u128::from(self.number()) * u128::from(bound);
        (product >> 64) as u64
    }

    /// True about once in so many times.
    pub fn once_in(&mut self, times: u64) -> bool {
        self.below(times) == 0
    }

    /// One of the items; None where there is none.
    pub fn pick<T: Copy>(&mut self, items: &[T]) -> Option<T> {
        items.get(self.below(items.len() as u64) as usize).copied()
    }

    /// An index, each as likely as its weight says.
    pub fn weighted(&mut self, weights: &[u64]) -> usize {
        let mut left = self.below(weights.iter().sum());
        for (index, &weight) in weights.iter().enumerate() {
            if left < weight {
                return index;
            }
            left -= weight;
        }
        0
    }
}

/// The seeds of a test: so many, times `SOAK` where that variable is set.
pub fn seeds(count: u64) -> Range<u64> {
    let times = times(env::var_os("SOAK").as_deref());
    0..count * times.unwrap_or_else(|what| panic!("{what}"))
}

/// How many times the usual seeds are asked for: once where nothing is said. None at all is an
/// error: a comparison with no seeds would say nothing.
pub fn times(said: Option<&OsStr>) -> Result<u64, String> {
    let Some(said) = said else {
        return Ok(1);
    };
    let times = said.to_str().and_then(|times| times.parse().ok());
    let some = times.filter(|&times| times > 0);
    some.ok_or_else(|| format!("SOAK must be a number above 0, not {said:?}"))
}

/// Runs the check once to each seed. If it fails, the seed is printed.
pub fn each_seed(seeds: Range<u64>, mut check: impl FnMut(&mut Random)) {
    for seed in seeds {
        let _told_on_failure = Seed(seed);
        check(&mut Random::new(seed));
    }
}

struct Seed(u64);

impl Drop for Seed {
    fn drop(&mut self) {
        if thread::panicking() {
            eprintln!("failed with seed {}", self.0);
        }
    }
}
