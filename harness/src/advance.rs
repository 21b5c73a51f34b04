//! One Advance: each step of a commit, from the first lock to the row's end.

use crate::answer::{Abort, Answer, Refusal};
use crate::clock::Word;
use crate::row::{ReadEntry, Row, phase};
use crate::tables::Tables;

/// What the check of one read entry finds.
enum Check {
    Passes,
    PassesExtended,
    Fails(Abort),
}

impl Tables {
    pub(crate) fn advance(&mut self, owner: u64, seat: u64) -> Result<Answer, Refusal> {
        let seat = self.own_seat(owner, seat)?;
        let row = &self.rows[seat];
        match row.phase {
            phase::WORKING | phase::LOCKING if row.position < row.writes => {
                Ok(self.lock_next(seat))
            }
            phase::WORKING | phase::LOCKING => Ok(self.take_time(seat)),
            phase::CHECKING if row.position < row.reads => self.check_next(seat),
            phase::CHECKING => Ok(self.seal(seat)),
            _ if row.position < row.writes => self.store_next(seat),
            _ => Ok(self.finish(seat)),
        }
    }

    fn lock_next(&mut self, seat: usize) -> Answer {
        let row = &mut self.rows[seat];
        let record = row.write_entries[row.position as usize].record;
        let word = &mut self.records[record as usize].word;
        if word.locked() {
            return self.abort(seat, Abort::LockMet);
        }
        *word = word.with_lock(true);
        row.phase = phase::LOCKING;
        row.position += 1;
        Answer::Locked(record)
    }

    fn take_time(&mut self, seat: usize) -> Answer {
        let time = self.time_of(&self.rows[seat]);
        if time > self.widths.greatest_time() {
            return self.abort(seat, Abort::EndOfTime);
        }
        let row = &mut self.rows[seat];
        row.time = time;
        row.phase = phase::CHECKING;
        row.position = 0;
        Answer::Timed(time)
    }

    /// The commit time: not before any version that was read, and after every read of a version to be replaced.
    fn time_of(&self, row: &Row) -> u64 {
        let read = row.reads_in_use().iter().map(|entry| entry.kept_write);
        let replaced =
            row.writes_in_use().iter().map(|entry| self.word(entry.record).read_time() + 1);
        read.chain(replaced).max().unwrap_or(0)
    }

    fn check_next(&mut self, seat: usize) -> Result<Answer, Refusal> {
        let row = &self.rows[seat];
        let entry = row.read_entries[row.position as usize];
        let word = self.word(entry.record);
        match check(row, &entry, word) {
            Check::Passes => {}
            Check::PassesExtended => {
                self.records[entry.record as usize].word = self.widths.extend(word, row.time)?;
            }
            Check::Fails(abort) => return Ok(self.abort(seat, abort)),
        }
        self.rows[seat].position += 1;
        Ok(Answer::Checked(entry.record))
    }

    fn seal(&mut self, seat: usize) -> Answer {
        let row = &mut self.rows[seat];
        row.phase = phase::STORING;
        row.position = 0;
        Answer::Sealed(row.time)
    }

    fn store_next(&mut self, seat: usize) -> Result<Answer, Refusal> {
        let row = &mut self.rows[seat];
        let entry = row.write_entries[row.position as usize];
        let record = &mut self.records[entry.record as usize];
        record.word = self.widths.at(row.time)?;
        record.value = entry.value;
        row.position += 1;
        Ok(Answer::Stored(entry.record))
    }

    fn finish(&mut self, seat: usize) -> Answer {
        let row = std::mem::take(&mut self.rows[seat]);
        Answer::Done(row.time)
    }

    fn abort(&mut self, seat: usize, abort: Abort) -> Answer {
        self.release(seat);
        abort.into()
    }

    fn word(&self, record: u64) -> Word {
        self.records[record as usize].word
    }
}

fn check(row: &Row, entry: &ReadEntry, word: Word) -> Check {
    // The version was already good at the commit time when it was read.
    if entry.kept_read >= row.time {
        return Check::Passes;
    }
    if word.write_time() != entry.kept_write {
        return Check::Fails(Abort::Overwritten);
    }
    // The lock on a record that the seat writes is its own.
    if row.pending_write(entry.record).is_some() {
        return Check::Passes;
    }
    if word.locked() && word.read_time() <= row.time {
        return Check::Fails(Abort::LockedByAnother);
    }
    if word.read_time() < row.time {
        return Check::PassesExtended;
    }
    Check::Passes
}
