//! The plan: how many seats each owner is sure of, and how many it may hold at most.

pub const OWNERS: usize = 16;
pub const SEATS: usize = 64;

#[derive(Clone, Copy, Debug, Default, PartialEq, Eq)]
pub struct Plan {
    pub shares: [u64; OWNERS],
    pub limits: [u64; OWNERS],
}

impl Plan {
    /// Whether Setup takes it: no share above its limit, no limit above 64, no more than 64 shared.
    pub fn is_sound(&self) -> bool {
        let fits = |(share, limit): (&u64, &u64)| share <= limit && *limit <= SEATS as u64;
        self.shares.iter().zip(&self.limits).all(fits) && sum(self.shares) <= SEATS as u128
    }

    /// U: the sum over all owners of the greater of what they hold and their share.
    pub fn claimed(&self, held: &[u64; OWNERS]) -> u128 {
        sum(std::array::from_fn(|owner| held[owner].max(self.shares[owner])))
    }

    pub fn is_exceeded(&self, held: &[u64; OWNERS]) -> bool {
        held.iter().zip(&self.limits).any(|(held, limit)| held > limit)
    }
}

/// Exact for any sixteen numbers.
fn sum(numbers: [u64; OWNERS]) -> u128 {
    numbers.into_iter().map(u128::from).sum()
}
