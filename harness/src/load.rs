//! Steady work for long tapes: so many transactions at once, each reads, writes and commits.

use crate::answer::Answer;
use crate::plan::OWNERS;
use crate::program::Program;
use crate::random::Random;
use crate::tape::{self, TapeCall, VERSION};

pub struct Load {
    pub name: &'static str,
    records: u16,
    at_once: usize,
    most_reads: u64,
    most_writes: u64,
}

/// Transactions that seldom meet.
pub const ORDINARY: Load =
    Load { name: "ordinary", records: 1024, at_once: 16, most_reads: 6, most_writes: 3 };

/// Many seats for a few records: transactions meet and are aborted all the time.
pub const CONTENDED: Load =
    Load { name: "contended", records: 8, at_once: 48, most_reads: 4, most_writes: 3 };

/// An open transaction, and what it still means to do before it commits.
struct Task {
    owner: u8,
    seat: u8,
    reads: u64,
    writes: u64,
}

impl Load {
    /// The tape of this many calls; always the same one.
    pub fn tape(&self, calls: u64) -> Vec<u8> {
        let mut random = Random::new(calls);
        let mut program = Program::before_setup();
        let (mut tape, mut tasks) = (vec![VERSION], Vec::new());
        for number in 0..calls {
            let call = match number {
                0 => self.setup(),
                _ => self.next_call(&mut random, &mut tasks),
            };
            tape::append(&mut tape, &call);
            self.hear(&mut random, &mut tasks, &call, program.answer(&call));
        }
        tape
    }

    /// Shares small enough that an owner seldom meets a refusal.
    fn setup(&self) -> TapeCall {
        let (shares, limits) = ([1; OWNERS], [64; OWNERS]);
        TapeCall::Setup { count: self.records, start: 0, shares, limits }
    }

    fn next_call(&self, random: &mut Random, tasks: &mut [Task]) -> TapeCall {
        if tasks.len() < self.at_once {
            return TapeCall::Open { owner: random.below(OWNERS as u64) as u8 };
        }
        let picked = random.below(tasks.len() as u64) as usize;
        let record = random.below(self.records.into()) as u16;
        let task = &mut tasks[picked];
        let (owner, seat) = (task.owner, task.seat);
        if task.reads > 0 {
            task.reads -= 1;
            return TapeCall::Read { owner, seat, record };
        }
        if task.writes > 0 {
            task.writes -= 1;
            return TapeCall::Write { owner, seat, record, value: random.number() };
        }
        TapeCall::Advance { owner, seat }
    }

    fn hear(&self, random: &mut Random, tasks: &mut Vec<Task>, call: &TapeCall, answer: Answer) {
        match (call, answer) {
            (&TapeCall::Open { owner }, Answer::Seat(seat)) => {
                let reads = random.below(self.most_reads + 1);
                let writes = random.below(self.most_writes + 1);
                tasks.push(Task { owner, seat: seat as u8, reads, writes });
            }
            (TapeCall::Advance { seat, .. }, Answer::Done(_) | Answer::Aborted(_)) => {
                tasks.retain(|task| task.seat != *seat);
            }
            _ => {}
        }
    }
}
