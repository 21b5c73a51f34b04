//! The three tables, of the right lengths and in structured form, and every call but Advance.
//! A call that gives an error is refused and has left all tables as they were.

use crate::answer::{Answer, Refusal};
use crate::clock::{Widths, Word};
use crate::plan::{OWNERS, Plan, SEATS};
use crate::row::{READS, ReadEntry, Row, phase};

#[derive(Clone, Copy, Debug, PartialEq, Eq)]
pub struct Record {
    pub value: u64,
    pub word: Word,
}

#[derive(Clone, Debug, PartialEq, Eq)]
pub struct Tables {
    pub widths: Widths,
    pub records: Vec<Record>,
    pub plan: Plan,
    pub rows: Box<[Row; SEATS]>,
}

impl Tables {
    pub fn values(&self) -> Vec<u64> {
        self.records.iter().map(|record| record.value).collect()
    }

    pub(crate) fn setup(&mut self, start: u64, plan: Plan) -> Result<Answer, Refusal> {
        let word = self.widths.at(start)?;
        if !plan.is_sound() {
            return Err(Refusal::BadPlan);
        }
        for record in &mut self.records {
            record.word = word;
        }
        self.plan = plan;
        self.rows.fill(Row::default());
        Ok(Answer::Ready(self.records.len() as u64))
    }

    pub(crate) fn open(&mut self, owner: u64) -> Result<Answer, Refusal> {
        let index = in_range(owner, OWNERS)?;
        let held = self.held()?;
        let claimed = self.plan.claimed(&held);
        if !self.plan.is_sound() || self.plan.is_exceeded(&held) || claimed > SEATS as u128 {
            return Err(Refusal::Damaged);
        }
        if held[index] >= self.plan.limits[index] {
            return Err(Refusal::AtLimit);
        }
        if held[index] >= self.plan.shares[index] && claimed == SEATS as u128 {
            return Err(Refusal::NoSeat);
        }
        // What is held never exceeds what is claimed, so past the two tests a row is free.
        let seat = self.rows.iter().position(Row::is_free).ok_or(Refusal::NoSeat)?;
        self.rows[seat] = Row::opened(owner);
        Ok(Answer::Seat(seat as u64))
    }

    pub(crate) fn read(&mut self, owner: u64, seat: u64, record: u64) -> Result<Answer, Refusal> {
        let index = in_range(record, self.records.len())?;
        let seat = self.working_seat(owner, seat)?;
        let row = &mut self.rows[seat];
        if let Some(entry) = row.pending_write(record) {
            return Ok(Answer::Value(entry.value));
        }
        if let Some(entry) = row.read_entry(record) {
            return Ok(Answer::Value(entry.value));
        }
        if row.reads == READS as u64 {
            return Err(Refusal::ReadsFull);
        }
        let Record { value, word } = self.records[index];
        if word.locked() {
            return Err(Refusal::RecordLocked);
        }
        let (kept_write, kept_read) = (word.write_time(), word.read_time());
        row.add_read(ReadEntry { record, value, kept_write, kept_read });
        Ok(Answer::Value(value))
    }

    pub(crate) fn write(
        &mut self,
        owner: u64,
        seat: u64,
        record: u64,
        value: u64,
    ) -> Result<Answer, Refusal> {
        in_range(record, self.records.len())?;
        let seat = self.working_seat(owner, seat)?;
        self.rows[seat].note_write(record, value)?;
        Ok(Answer::Noted(record))
    }

    pub(crate) fn abandon(&mut self, owner: u64, seat: u64) -> Result<Answer, Refusal> {
        let seat = self.own_seat(owner, seat)?;
        if self.rows[seat].phase == phase::STORING {
            return Err(Refusal::WrongPhase);
        }
        self.release(seat);
        Ok(Answer::Dropped(seat as u64))
    }

    /// The seat as an index, once the refusals 2, 3 and 4 are past.
    pub(crate) fn own_seat(&self, owner: u64, seat: u64) -> Result<usize, Refusal> {
        in_range(owner, OWNERS)?;
        let seat = in_range(seat, SEATS)?;
        let row = &self.rows[seat];
        if row.is_damaged(self.records.len(), self.widths.greatest_time()) {
            return Err(Refusal::Damaged);
        }
        if row.is_free() || row.owner != owner {
            return Err(Refusal::NotYours);
        }
        Ok(seat)
    }

    fn working_seat(&self, owner: u64, seat: u64) -> Result<usize, Refusal> {
        let seat = self.own_seat(owner, seat)?;
        if self.rows[seat].phase != phase::WORKING {
            return Err(Refusal::WrongPhase);
        }
        Ok(seat)
    }

    /// Clears the locks that the seat holds, keeping the times of their words, and frees its row.
    pub(crate) fn release(&mut self, seat: usize) {
        for entry in self.rows[seat].held_locks() {
            let word = &mut self.records[entry.record as usize].word;
            *word = word.with_lock(false);
        }
        self.rows[seat] = Row::default();
    }

    /// How many rows each owner holds; a row that no owner can hold is damage.
    fn held(&self) -> Result<[u64; OWNERS], Refusal> {
        let mut held = [0; OWNERS];
        for row in self.rows.iter().filter(|row| !row.is_free()) {
            if row.phase > phase::STORING {
                return Err(Refusal::Damaged);
            }
            let owner = in_range(row.owner, OWNERS).map_err(|_| Refusal::Damaged)?;
            held[owner] += 1;
        }
        Ok(held)
    }
}

/// The number as an index below `bound`, or refusal 2.
fn in_range(number: u64, bound: usize) -> Result<usize, Refusal> {
    let index = usize::try_from(number).ok().filter(|&index| index < bound);
    index.ok_or(Refusal::OutOfRange)
}
