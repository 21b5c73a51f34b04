//! The three lent tables as flat numbers: taken into structured tables and written back bit for bit.

use std::array;

use crate::clock::Widths;
use crate::plan::{OWNERS, Plan, SEATS};
use crate::row::{READS, ReadEntry, Row, WRITES, WriteEntry};
use crate::tables::{Record, Tables};

pub const MOST_RECORDS: usize = 1024;
const HEAD: usize = 6;
const READ_ENTRY: usize = 4;
const WRITE_ENTRY: usize = 2;
/// The length of a row, and of the whole seat table.
pub const ROW: usize = HEAD + READS * READ_ENTRY + WRITES * WRITE_ENTRY;
pub const SEAT_TABLE: usize = 2 * OWNERS + SEATS * ROW;

#[derive(Clone, Debug, Default, PartialEq, Eq)]
pub struct Flat {
    pub values: Vec<u64>,
    pub words: Vec<u64>,
    pub seats: Vec<u64>,
}

impl Flat {
    /// The structured tables, with words of the real widths; None where a length is wrong.
    pub fn tables(&self) -> Option<Tables> {
        let records_fit = count_fits(self.values.len()) && self.values.len() == self.words.len();
        if !records_fit || self.seats.len() != SEAT_TABLE {
            return None;
        }
        let widths = Widths::REAL;
        let record = |(&value, &word): (&u64, &u64)| Record { value, word: widths.unpack(word) };
        let records = self.values.iter().zip(&self.words).map(record).collect();
        let (plan, rows) = self.seats.split_at(2 * OWNERS);
        Some(Tables { widths, records, plan: load_plan(plan), rows: load_rows(rows) })
    }
}

impl From<&Tables> for Flat {
    fn from(tables: &Tables) -> Flat {
        let words = tables.records.iter().map(|record| tables.widths.pack(record.word));
        let mut seats = Vec::with_capacity(SEAT_TABLE);
        seats.extend(tables.plan.shares);
        seats.extend(tables.plan.limits);
        tables.rows.iter().for_each(|row| unload_row(row, &mut seats));
        Flat { values: tables.values(), words: words.collect(), seats }
    }
}

/// Whether tables may have so many records.
pub(crate) fn count_fits(count: usize) -> bool {
    (1..=MOST_RECORDS).contains(&count)
}

fn load_plan(numbers: &[u64]) -> Plan {
    Plan {
        shares: array::from_fn(|owner| numbers[owner]),
        limits: array::from_fn(|owner| numbers[OWNERS + owner]),
    }
}

fn load_rows(numbers: &[u64]) -> Box<[Row; SEATS]> {
    Box::new(array::from_fn(|seat| load_row(&numbers[seat * ROW..][..ROW])))
}

fn load_row(numbers: &[u64]) -> Row {
    let (head, entries) = numbers.split_at(HEAD);
    let (reads, writes) = entries.split_at(READS * READ_ENTRY);
    Row {
        phase: head[0],
        owner: head[1],
        position: head[2],
        reads: head[3],
        writes: head[4],
        time: head[5],
        read_entries: array::from_fn(|place| load_read(&reads[place * READ_ENTRY..])),
        write_entries: array::from_fn(|place| load_write(&writes[place * WRITE_ENTRY..])),
    }
}

fn load_read(numbers: &[u64]) -> ReadEntry {
    ReadEntry {
        record: numbers[0],
        value: numbers[1],
        kept_write: numbers[2],
        kept_read: numbers[3],
    }
}

fn load_write(numbers: &[u64]) -> WriteEntry {
    WriteEntry { record: numbers[0], value: numbers[1] }
}

fn unload_row(row: &Row, seats: &mut Vec<u64>) {
    seats.extend([row.phase, row.owner, row.position, row.reads, row.writes, row.time]);
    for entry in &row.read_entries {
        seats.extend([entry.record, entry.value, entry.kept_write, entry.kept_read]);
    }
    for entry in &row.write_entries {
        seats.extend([entry.record, entry.value]);
    }
}

/// Puts a row into a seat table.
pub fn put_row(seats: &mut [u64], seat: usize, row: &Row) {
    let mut numbers = Vec::with_capacity(ROW);
    unload_row(row, &mut numbers);
    let from = 2 * OWNERS + seat * ROW;
    seats[from..from + ROW].copy_from_slice(&numbers);
}
