//! A crowd of callers: random calls that mostly make sense, for histories worth judging.

use crate::answer::Answer;
use crate::call::Call;
use crate::plan::{OWNERS, Plan, SEATS};
use crate::random::Random;

/// How often a crowd opens, reads, writes, advances and abandons.
type Mood = [u64; 5];

const MOODS: [Mood; 6] = [
    [3, 6, 4, 4, 0],
    [2, 10, 2, 4, 0],
    [2, 3, 9, 5, 0],
    [2, 12, 8, 6, 1],
    [1, 40, 24, 1, 0],
    [24, 2, 2, 2, 2],
];

/// The holder of a seat. It has begun to commit with its first Advance.
#[derive(Clone, Copy, Debug, PartialEq, Eq)]
pub struct Holder {
    pub owner: u64,
    pub seat: u64,
    pub committing: bool,
}

#[derive(Clone, Debug)]
pub struct Crowd {
    records: u64,
    mood: Mood,
    holders: Vec<Holder>,
}

impl Crowd {
    /// A crowd in a random mood that calls for this many records.
    pub fn new(random: &mut Random, records: u64) -> Crowd {
        let mood = random.pick(&MOODS).unwrap_or(MOODS[0]);
        Crowd { records, mood, holders: Vec::new() }
    }

    /// Who holds seats, in the order in which they were given.
    pub fn holders(&self) -> &[Holder] {
        &self.holders
    }

    pub fn next_call(&self, random: &mut Random) -> Call {
        if random.once_in(40) {
            return stray_call(random, self.records);
        }
        let open = Call::Open { owner: random.below(OWNERS as u64) };
        let Some(Holder { owner, seat, committing }) = random.pick(&self.holders) else {
            return open;
        };
        let (record, value) = (random.below(self.records), random.number());
        // Who commits has no more use for reads and writes, but may try.
        let done_working = committing && !random.once_in(16);
        match random.weighted(&self.mood) {
            0 => open,
            1 | 2 if done_working => Call::Advance { owner, seat },
            1 => Call::Read { owner, seat, record },
            2 => Call::Write { owner, seat, record, value },
            3 => Call::Advance { owner, seat },
            _ => Call::Abandon { owner, seat },
        }
    }

    /// Takes note of seats given, put to commit and given back.
    pub fn hear(&mut self, call: &Call, answer: Answer) {
        match (*call, answer) {
            (Call::Setup { .. }, Answer::Ready(_)) => self.holders.clear(),
            (Call::Open { owner }, Answer::Seat(seat)) => {
                self.holders.push(Holder { owner, seat, committing: false });
            }
            (_, Answer::Refused(_)) => {}
            (Call::Advance { seat, .. }, Answer::Done(_) | Answer::Aborted(_))
            | (Call::Abandon { seat, .. }, _) => self.holders.retain(|holder| holder.seat != seat),
            (Call::Advance { seat, .. }, _) => {
                let holder = self.holders.iter_mut().find(|holder| holder.seat == seat);
                holder.into_iter().for_each(|holder| holder.committing = true);
            }
            _ => {}
        }
    }
}

/// A call with numbers in and just out of range, whoever holds the seat.
pub fn stray_call(random: &mut Random, records: u64) -> Call {
    let owner = random.below(OWNERS as u64 + 1);
    let seat = random.below(SEATS as u64 + 1);
    let (record, value) = (random.below(records + 1), random.number());
    match random.below(5) {
        0 => Call::Open { owner },
        1 => Call::Read { owner, seat, record },
        2 => Call::Write { owner, seat, record, value },
        3 => Call::Advance { owner, seat },
        _ => Call::Abandon { owner, seat },
    }
}

/// A random plan that Setup takes.
pub fn sound_plan(random: &mut Random) -> Plan {
    let mut plan = Plan::default();
    let seats = SEATS as u64;
    let greatest_share = random.below(17);
    let mut left = seats;
    for owner in 0..OWNERS {
        let share = random.below(greatest_share.min(left) + 1);
        left -= share;
        plan.shares[owner] = share;
        plan.limits[owner] = share + random.below(seats - share + 1);
    }
    plan
}
