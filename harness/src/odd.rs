//! Random tables that calls may or may not be able to make: mostly sound, here and there damaged,
//! with anything in the unused places; and calls on them.

use std::array;

use crate::call::Call;
use crate::clock::{Widths, Word};
use crate::crowd::sound_plan;
use crate::flat::Flat;
use crate::plan::{OWNERS, Plan, SEATS};
use crate::random::Random;
use crate::row::{READS, ReadEntry, Row, WRITES, WriteEntry, phase};
use crate::tables::{Record, Tables};

const TOP: u64 = Widths::REAL.greatest_time();

/// Numbers at which something begins or ends.
const EDGES: [u64; 15] = [0, 1, 2, 4, 7, 8, 9, 15, 16, 17, 64, 65, TOP, TOP + 1, u64::MAX];

/// Tables of right lengths.
pub fn tables(random: &mut Random) -> Flat {
    let count = random.pick(&[1, 2, 3, 30]).unwrap_or(1);
    let records: Vec<Record> = (0..count).map(|_| record(random)).collect();
    let free = random.below(12);
    let rows = Box::new(array::from_fn(|_| row(random, &records, free)));
    let plan = if random.once_in(2) { plan(random) } else { tight_plan(random, &rows) };
    Flat::from(&Tables { widths: Widths::REAL, records, plan, rows })
}

/// A call that mostly names a row in use and its owner.
pub fn call(random: &mut Random, tables: &Tables) -> Call {
    let in_use: Vec<usize> = (0..SEATS).filter(|&seat| !tables.rows[seat].is_free()).collect();
    let usual_seat = random.pick(&in_use).unwrap_or(0);
    let owner = nearly(random, tables.rows[usual_seat].owner);
    let seat = nearly(random, usual_seat as u64);
    let usual_record = random.below(tables.records.len() as u64);
    let (record, value) = (nearly(random, usual_record), random.number());
    match random.weighted(&[1, 8, 12, 12, 48, 4]) {
        0 => setup(random),
        1 => Call::Open { owner },
        2 => Call::Read { owner, seat, record },
        3 => Call::Write { owner, seat, record, value },
        4 => Call::Advance { owner, seat },
        _ => Call::Abandon { owner, seat },
    }
}

/// Mostly the usual number, sometimes one at an edge or any at all.
fn nearly(random: &mut Random, usual: u64) -> u64 {
    match random.below(300) {
        0 => random.number(),
        1 | 2 => random.pick(&EDGES).unwrap_or(usual),
        _ => usual,
    }
}

fn setup(random: &mut Random) -> Call {
    let start = random.below(8);
    Call::Setup { start: nearly(random, start), plan: plan(random) }
}

fn plan(random: &mut Random) -> Plan {
    let Plan { shares, limits } = sound_plan(random);
    Plan {
        shares: shares.map(|share| nearly(random, share)),
        limits: limits.map(|limit| nearly(random, limit)),
    }
}

/// A plan that leaves most owners little or nothing beyond what they hold.
fn tight_plan(random: &mut Random, rows: &[Row; SEATS]) -> Plan {
    let mut plan = Plan::default();
    for owner in 0..OWNERS {
        let held = rows.iter().filter(|row| !row.is_free() && row.owner == owner as u64).count();
        plan.shares[owner] = random.below(3);
        plan.limits[owner] = plan.shares[owner].max(held as u64 + random.below(2));
    }
    plan
}

fn record(random: &mut Random) -> Record {
    Record { value: random.number(), word: word(random) }
}

fn word(random: &mut Random) -> Word {
    let widths = Widths::REAL;
    let (distance, write_time) = match random.below(8) {
        0 => return widths.unpack(random.number()),
        1 => (random.below(3), TOP - random.below(4)),
        2 => (widths.greatest_distance() - random.below(3), random.below(8)),
        _ => (random.below(6), random.below(8)),
    };
    let locked = random.once_in(3);
    widths.word(locked, distance, write_time).unwrap_or(widths.unpack(0))
}

/// A row that is free in about `free` of `free + 2` cases.
fn row(random: &mut Random, records: &[Record], free: u64) -> Row {
    let usual = if random.below(free + 2) < free { phase::FREE } else { 1 + random.below(4) };
    let phase = nearly(random, usual);
    let owner = random.below(3);
    let reads = random.pick(&[0, 1, 2, 3, 4, 16]).unwrap_or(0);
    let writes = random.pick(&[0, 1, 2, 3, 8]).unwrap_or(0);
    let position = position(random, phase, reads, writes);
    let mut row = Row {
        phase,
        owner: nearly(random, owner),
        position: nearly(random, position),
        reads: nearly(random, reads),
        writes: nearly(random, writes),
        time: random.below(12),
        read_entries: array::from_fn(|_| read_entry(random, records)),
        write_entries: array::from_fn(|_| write_entry(random, records)),
    };
    if !random.once_in(8) {
        row.time = nearly(random, latest_read(&row));
    }
    if random.once_in(2) {
        clear_unused(&mut row);
    }
    row
}

fn position(random: &mut Random, phase: u64, reads: u64, writes: u64) -> u64 {
    match phase {
        phase::FREE | phase::WORKING => 0,
        phase::LOCKING => 1 + random.below(writes),
        phase::CHECKING => random.below(reads + 1),
        _ => random.below(writes + 1),
    }
}

/// Half of the entries hold what the record holds now.
fn read_entry(random: &mut Random, records: &[Record]) -> ReadEntry {
    let index = random.below(records.len() as u64);
    let Record { value, word } = records[index as usize];
    let record = if random.once_in(8) { nearly(random, index) } else { index };
    if random.once_in(2) {
        let (kept_write, kept_read) = (word.write_time(), word.read_time());
        return ReadEntry { record, value, kept_write, kept_read };
    }
    let kept_write = random.below(8);
    let kept_read = kept_write + random.below(6);
    ReadEntry {
        record,
        value: random.number(),
        kept_write: nearly(random, kept_write),
        kept_read: nearly(random, kept_read),
    }
}

fn write_entry(random: &mut Random, records: &[Record]) -> WriteEntry {
    let index = random.below(records.len() as u64);
    WriteEntry { record: nearly(random, index), value: random.number() }
}

/// The least time that is sound for the row, and not less than the row's own.
fn latest_read(row: &Row) -> u64 {
    let kept_writes = row.reads_in_use().iter().map(|entry| entry.kept_write);
    kept_writes.fold(row.time, u64::max)
}

fn clear_unused(row: &mut Row) {
    let (reads, writes) = (row.reads_in_use().len(), row.writes_in_use().len());
    row.read_entries[reads..READS].fill(ReadEntry::default());
    row.write_entries[writes..WRITES].fill(WriteEntry::default());
}
