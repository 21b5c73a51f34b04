//! One row of the seat table: a transaction's phase, its entries, and when it counts as damaged.

use crate::answer::Refusal;
use crate::plan::OWNERS;

pub const READS: usize = 16;
pub const WRITES: usize = 8;
/// No transaction takes more Advances than one with every read and write: 2w + r + 3.
pub const MOST_ADVANCES: usize = 2 * WRITES + READS + 3;

/// The phases of a row; any other number is damage.
pub mod phase {
    pub const FREE: u64 = 0;
    pub const WORKING: u64 = 1;
    pub const LOCKING: u64 = 2;
    pub const CHECKING: u64 = 3;
    pub const STORING: u64 = 4;
}

#[derive(Clone, Copy, Debug, Default, PartialEq, Eq)]
pub struct ReadEntry {
    pub record: u64,
    pub value: u64,
    pub kept_write: u64,
    pub kept_read: u64,
}

#[derive(Clone, Copy, Debug, Default, PartialEq, Eq)]
pub struct WriteEntry {
    pub record: u64,
    pub value: u64,
}

/// A free row is the default one. Entries past the counts are kept, whatever they hold.
#[derive(Clone, Copy, Debug, Default, PartialEq, Eq)]
pub struct Row {
    pub phase: u64,
    pub owner: u64,
    pub position: u64,
    pub reads: u64,
    pub writes: u64,
    pub time: u64,
    pub read_entries: [ReadEntry; READS],
    pub write_entries: [WriteEntry; WRITES],
}

impl Row {
    pub fn opened(owner: u64) -> Row {
        Row { phase: phase::WORKING, owner, ..Row::default() }
    }

    pub fn is_free(&self) -> bool {
        self.phase == phase::FREE
    }

    pub fn reads_in_use(&self) -> &[ReadEntry] {
        first(&self.read_entries, self.reads)
    }

    pub fn writes_in_use(&self) -> &[WriteEntry] {
        first(&self.write_entries, self.writes)
    }

    /// The write entries whose locks the seat holds, in the phases that can still be given up.
    pub fn held_locks(&self) -> &[WriteEntry] {
        let held = if self.phase == phase::CHECKING { self.writes } else { self.position };
        first(&self.write_entries, held)
    }

    pub fn pending_write(&self, record: u64) -> Option<&WriteEntry> {
        self.writes_in_use().iter().find(|entry| entry.record == record)
    }

    pub fn read_entry(&self, record: u64) -> Option<&ReadEntry> {
        self.reads_in_use().iter().find(|entry| entry.record == record)
    }

    /// The caller has seen that there is room.
    pub(crate) fn add_read(&mut self, entry: ReadEntry) {
        self.read_entries[self.reads as usize] = entry;
        self.reads += 1;
    }

    /// Gives the record's entry the new value, or places a new entry in record order.
    pub(crate) fn note_write(&mut self, record: u64, value: u64) -> Result<(), Refusal> {
        let used = self.writes_in_use().len();
        let entries = &mut self.write_entries;
        if let Some(entry) = entries[..used].iter_mut().find(|entry| entry.record == record) {
            entry.value = value;
            return Ok(());
        }
        if used == WRITES {
            return Err(Refusal::WritesFull);
        }
        let greater = entries[..used].iter().position(|entry| entry.record > record);
        let place = greater.unwrap_or(used);
        entries.copy_within(place..used, place + 1);
        entries[place] = WriteEntry { record, value };
        self.writes += 1;
        Ok(())
    }

    /// Whether a call that names this seat is refused 3. A free row never is damaged.
    pub fn is_damaged(&self, count: usize, greatest_time: u64) -> bool {
        if self.is_free() {
            return false;
        }
        self.phase > phase::STORING
            || self.owner >= OWNERS as u64
            || self.reads > READS as u64
            || self.writes > WRITES as u64
            || self.names_record_from(count as u64)
            || self.position_is_wrong()
            || self.time_is_wrong(greatest_time)
    }

    fn names_record_from(&self, count: u64) -> bool {
        self.reads_in_use().iter().any(|entry| entry.record >= count)
            || self.writes_in_use().iter().any(|entry| entry.record >= count)
    }

    fn position_is_wrong(&self) -> bool {
        match self.phase {
            phase::WORKING => self.position != 0,
            phase::LOCKING => self.position == 0 || self.position > self.writes,
            phase::CHECKING => self.position > self.reads,
            _ => self.position > self.writes,
        }
    }

    /// The time means something only once it was taken.
    fn time_is_wrong(&self, greatest_time: u64) -> bool {
        if self.phase < phase::CHECKING {
            return false;
        }
        self.time > greatest_time
            || self.reads_in_use().iter().any(|entry| self.time < entry.kept_write)
    }
}

/// The first `count` entries, or all of them where a damaged row counts more.
fn first<T>(entries: &[T], count: u64) -> &[T] {
    let count = usize::try_from(count).unwrap_or(usize::MAX);
    &entries[..count.min(entries.len())]
}
