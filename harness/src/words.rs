//! What a line of the monitor means, in plain words.

use crate::answer::Answer;
use crate::call::Call;
use crate::meaning::{ABORTED, Meaning, REFUSED, STOPPED, meaning};
use crate::observer::{Observer, Seat};

/// What this answer to a call means, after what the observer has heard before it. None where the
/// monitor never answers such a call so.
pub fn answered(observer: &Observer, call: &Call, answer: Answer) -> Option<String> {
    match (*call, answer) {
        (_, Answer::Refused(number)) => sentence(&REFUSED, number),
        (Call::Setup { start, .. }, Answer::Ready(count)) => Some(ready(count, start)),
        (Call::Open { owner }, Answer::Seat(seat)) => {
            Some(format!("owner {owner} has seat {seat}"))
        }
        (Call::Read { seat, record, .. }, Answer::Value(value)) => {
            Some(read(observer.seat(seat)?, record, value))
        }
        (Call::Write { seat, value, .. }, Answer::Noted(record)) => {
            Some(format!("seat {seat} is to write {value} to record {record}"))
        }
        (Call::Advance { seat, .. }, Answer::Stored(record)) => {
            Some(format!("record {record} is now {}", observer.to_write(seat, record)?))
        }
        (Call::Advance { seat, .. }, _) => advanced(seat, observer.seat(seat)?, answer),
        (Call::Abandon { seat, .. }, Answer::Dropped(_)) => {
            Some(format!("seat {seat} is given back; nothing of it was written"))
        }
        _ => None,
    }
}

fn ready(count: u64, start: u64) -> String {
    match count {
        1 => format!("1 record, which is 0, at time {start}"),
        _ => format!("{count} records, all 0, at time {start}"),
    }
}

/// A seat that reads a record again is told what it wrote or read before, whatever others have
/// stored since.
fn read(seat: &Seat, record: u64, value: u64) -> String {
    if seat.writes.contains_key(&record) {
        return format!("record {record} is {value}, as this seat is to write it");
    }
    if seat.reads.contains(&record) {
        return format!("record {record} was {value} when this seat first read it");
    }
    format!("record {record} is {value}")
}

fn advanced(number: u64, seat: &Seat, answer: Answer) -> Option<String> {
    match answer {
        Answer::Locked(record) => Some(format!("seat {number} has locked record {record}")),
        Answer::Timed(time) => Some(format!("seat {number} takes its place at time {time}")),
        Answer::Checked(record) => {
            let time = seat.time?;
            Some(format!("what seat {number} read of record {record} still stands at time {time}"))
        }
        Answer::Sealed(_) => Some(format!("seat {number} can no longer be thrown out")),
        Answer::Done(time) => Some(format!("seat {number} is done at time {time}, and free")),
        Answer::Aborted(abort) => {
            let why = sentence(&ABORTED, abort)?;
            Some(format!("{why}; seat {number} is free again and wrote nothing"))
        }
        _ => None,
    }
}

/// What the last line of a tape that was played whole means.
pub fn ended(calls: u64) -> String {
    format!("the tape ended after {}", counted(calls))
}

/// What the last line of a tape with a fault means.
pub fn stopped(fault: u64, offset: u64, calls: u64) -> Option<String> {
    let why = sentence(&STOPPED, fault)?;
    Some(format!("after {}, at byte {offset}: {why}", counted(calls)))
}

fn counted(calls: u64) -> String {
    match calls {
        1 => "1 call".to_string(),
        _ => format!("{calls} calls"),
    }
}

/// A number's sentence as a part of a line: without its capital letter and its full stop.
pub fn sentence(table: &[Meaning], number: u64) -> Option<String> {
    let sentence = meaning(table, number)?;
    let (first, rest) = sentence.split_at_checked(1)?;
    Some(first.to_lowercase() + rest.trim_end_matches('.'))
}
