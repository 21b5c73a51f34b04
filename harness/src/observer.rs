//! What calls and their answers tell an onlooker: who holds which seat, what it is to write, and
//! what the records hold. It takes the answers at their word, and knows none of the rules.

use std::collections::{BTreeMap, BTreeSet};

use crate::answer::Answer;
use crate::answer_counts::AnswerCounts;
use crate::call::Call;

/// An open seat.
#[derive(Clone, Debug, Default, PartialEq, Eq)]
pub struct Seat {
    pub owner: u64,
    /// The records that it has read.
    pub reads: BTreeSet<u64>,
    /// What it is to write: record to value.
    pub writes: BTreeMap<u64, u64>,
    /// Its place in the line of calls, once it has one.
    pub time: Option<u64>,
}

impl Seat {
    fn hear(&mut self, call: &Call, answer: Answer) {
        match (*call, answer) {
            (Call::Read { record, .. }, Answer::Value(_)) => {
                self.reads.insert(record);
            }
            (Call::Write { value, .. }, Answer::Noted(record)) => {
                self.writes.insert(record, value);
            }
            (Call::Advance { .. }, Answer::Timed(time)) => self.time = Some(time),
            _ => {}
        }
    }
}

#[derive(Clone, Debug, Default)]
pub struct Observer {
    records: u64,
    stored: BTreeMap<u64, u64>,
    seats: BTreeMap<u64, Seat>,
    answers: AnswerCounts,
}

impl Observer {
    pub fn hear(&mut self, call: &Call, answer: Answer) {
        self.answers.count(answer);
        match (*call, answer) {
            (Call::Setup { .. }, Answer::Ready(count)) => self.records = count,
            (Call::Open { owner }, Answer::Seat(seat)) => {
                self.seats.insert(seat, Seat { owner, ..Seat::default() });
            }
            (Call::Abandon { seat, .. }, Answer::Dropped(_))
            | (Call::Advance { seat, .. }, Answer::Done(_) | Answer::Aborted(_)) => {
                self.seats.remove(&seat);
            }
            (Call::Advance { seat, .. }, Answer::Stored(record)) => {
                self.stored.extend(self.to_write(seat, record).map(|value| (record, value)));
            }
            _ => self.hear_at_seat(call, answer),
        }
    }

    fn hear_at_seat(&mut self, call: &Call, answer: Answer) {
        if let Some(seat) = call.seat().and_then(|seat| self.seats.get_mut(&seat)) {
            seat.hear(call, answer);
        }
    }

    /// A seat that is open.
    pub fn seat(&self, seat: u64) -> Option<&Seat> {
        self.seats.get(&seat)
    }

    /// What an open seat is to write to this record.
    pub fn to_write(&self, seat: u64, record: u64) -> Option<u64> {
        self.seat(seat)?.writes.get(&record).copied()
    }

    /// The seats that are open, with their owners.
    pub fn open_seats(&self) -> impl Iterator<Item = (u64, u64)> {
        self.seats.iter().map(|(&number, seat)| (number, seat.owner))
    }

    /// How many records there are: none before a Setup is ready.
    pub fn records(&self) -> u64 {
        self.records
    }

    /// The records that are not 0 any more, with their values.
    pub fn changed(&self) -> impl Iterator<Item = (u64, u64)> {
        let stored = self.stored.iter().map(|(&record, &value)| (record, value));
        stored.filter(|&(_, value)| value != 0)
    }

    /// How often each answer was given.
    pub fn answers(&self) -> &AnswerCounts {
        &self.answers
    }
}
