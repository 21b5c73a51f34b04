//! Refusal 3: each clause of "Damaged" on both of its sides, and rows that only look damaged.

use second::answer::Answer;
use second::flat::{Flat, ROW, SEAT_TABLE};
use second::monitor::Monitor;
use second::plan::OWNERS;

const TOP: u64 = (1 << 48) - 1;
const FAR: u64 = u64::MAX;
const PLAN: usize = 2 * OWNERS;
const HEAD: usize = 6;
const FIRST_WRITE: usize = HEAD + 16 * 4;

/// Two records at time 5, and a plan under which owner 0 may hold every seat.
fn sound() -> Flat {
    let mut seats = vec![0; SEAT_TABLE];
    seats[OWNERS..PLAN].fill(64);
    Flat { values: vec![7, 8], words: vec![5, 5], seats }
}

/// A row of owner 0 from phase, position, reads, writes and time; its entries are zero.
fn row([phase, position, reads, writes, time]: [u64; 5]) -> [u64; ROW] {
    let mut row = [0; ROW];
    row[..HEAD].copy_from_slice(&[phase, 0, position, reads, writes, time]);
    row
}

fn with(mut row: [u64; ROW], place: usize, number: u64) -> [u64; ROW] {
    row[place] = number;
    row
}

/// A monitor with this row at seat 2.
fn lent(row: &[u64; ROW]) -> Monitor {
    let mut tables = sound();
    tables.seats[PLAN + 2 * ROW..][..ROW].copy_from_slice(row);
    Monitor::load(&tables)
}

/// Whether each of the calls that name the seat is refused 3, and none of them changes anything.
fn is_damaged(row: &[u64; ROW]) -> bool {
    let monitor = lent(row);
    let damaged = Answer::Refused(3);
    let is_damaged = monitor.clone().advance(0, 2) == damaged;
    for call in [
        |monitor: &mut Monitor| monitor.advance(0, 2),
        |monitor: &mut Monitor| monitor.abandon(0, 2),
        |monitor: &mut Monitor| monitor.read(0, 2, 0),
        |monitor: &mut Monitor| monitor.write(0, 2, 0, 1),
        // Before 4: another owner hears of the damage too.
        |monitor: &mut Monitor| monitor.advance(9, 2),
    ] {
        let mut called = monitor.clone();
        assert_eq!(call(&mut called) == damaged, is_damaged);
        assert!(!is_damaged || called == monitor);
    }
    is_damaged
}

#[test]
fn phase_owner_and_counts() {
    assert!(!is_damaged(&row([4, 0, 0, 0, 0])));
    assert!(is_damaged(&row([5, 0, 0, 0, 0])));
    assert!(is_damaged(&row([FAR, 0, 0, 0, 0])));
    assert!(!is_damaged(&with(row([1, 0, 0, 0, 0]), 1, 15)));
    assert!(is_damaged(&with(row([1, 0, 0, 0, 0]), 1, 16)));
    for (reads, writes) in [(16, 0), (0, 8), (16, 8)] {
        assert!(!is_damaged(&row([1, 0, reads, writes, 0])));
    }
    for (reads, writes) in [(17, 0), (0, 9), (FAR, 0), (0, FAR)] {
        assert!(is_damaged(&row([1, 0, reads, writes, 0])));
    }
}

#[test]
fn records_of_entries_in_use() {
    for (place, used) in [(HEAD, [1, 0, 1, 0, 0]), (FIRST_WRITE, [1, 0, 0, 1, 0])] {
        assert!(!is_damaged(&with(row(used), place, 1)));
        assert!(is_damaged(&with(row(used), place, 2)));
        assert!(is_damaged(&with(row(used), place, FAR)));
        assert!(!is_damaged(&with(row([1, 0, 0, 0, 0]), place, FAR)));
    }
}

#[test]
fn positions() {
    let sound =
        [[1, 0, 1, 2], [2, 1, 0, 2], [2, 2, 0, 2], [3, 2, 2, 0], [4, 2, 0, 2], [3, 0, 0, 0]];
    for [phase, position, reads, writes] in sound {
        assert!(!is_damaged(&row([phase, position, reads, writes, 0])));
    }
    let damaged =
        [[1, 1, 1, 2], [2, 0, 0, 2], [2, 3, 9, 2], [3, 3, 2, 8], [4, 3, 9, 2], [2, 1, 9, 0]];
    for [phase, position, reads, writes] in damaged {
        assert!(is_damaged(&row([phase, position, reads, writes, 0])));
        assert!(is_damaged(&row([phase, FAR, reads, writes, 0])));
    }
}

#[test]
fn times_of_phases_3_and_4() {
    for phase in [3, 4] {
        assert!(!is_damaged(&row([phase, 0, 0, 0, TOP])));
        assert!(is_damaged(&row([phase, 0, 0, 0, TOP + 1])));
        let second_write_time = HEAD + 4 + 2;
        assert!(!is_damaged(&with(row([phase, 0, 2, 0, 6]), second_write_time, 6)));
        assert!(is_damaged(&with(row([phase, 0, 2, 0, 6]), second_write_time, 7)));
        assert!(!is_damaged(&with(row([phase, 0, 1, 0, 6]), second_write_time, FAR)));
    }
    assert!(!is_damaged(&row([1, 0, 0, 0, FAR])));
    assert!(!is_damaged(&row([2, 1, 0, 1, FAR])));
}

#[test]
fn a_free_row_is_never_damaged() {
    let mut monitor = lent(&with([FAR; ROW], 0, 0));
    for answer in [monitor.advance(0, 2), monitor.abandon(0, 2), monitor.read(0, 2, 0)] {
        assert_eq!(answer, Answer::Refused(4));
    }
    for seat in 0..3 {
        assert_eq!(monitor.open(3), Answer::Seat(seat));
    }
    let opened = with(with([0; ROW], 0, 1), 1, 3);
    assert_eq!(monitor.unload().seats[PLAN + 2 * ROW..][..ROW], opened);
}

/// What Open answers owner 0 after the seat table was changed.
fn opens(change: impl Fn(&mut [u64])) -> Answer {
    let mut tables = sound();
    change(&mut tables.seats);
    Monitor::load(&tables).open(0)
}

#[test]
fn plans_that_setup_would_refuse() {
    assert_eq!(opens(|_| {}), Answer::Seat(0));
    assert_eq!(opens(|seats| seats[OWNERS + 15] = 65), Answer::Refused(3));
    assert_eq!(opens(|seats| seats[OWNERS + 15] = FAR), Answer::Refused(3));
    assert_eq!(opens(|seats| seats[15] = 64), Answer::Refused(7));
    assert_eq!(opens(|seats| (seats[0], seats[15]) = (1, 64)), Answer::Refused(3));
    assert_eq!(opens(|seats| (seats[15], seats[OWNERS + 15]) = (2, 1)), Answer::Refused(3));
    assert_eq!(opens(|seats| seats[..PLAN].fill(FAR)), Answer::Refused(3));
}

#[test]
fn rows_that_open_looks_at() {
    let last = PLAN + 63 * ROW;
    assert_eq!(opens(|seats| seats[last] = 4), Answer::Seat(0));
    assert_eq!(opens(|seats| seats[last] = 5), Answer::Refused(3));
    assert_eq!(opens(|seats| (seats[last], seats[last + 1]) = (1, 15)), Answer::Seat(0));
    assert_eq!(opens(|seats| (seats[last], seats[last + 1]) = (1, 16)), Answer::Refused(3));
    assert_eq!(opens(|seats| (seats[last], seats[last + 1]) = (0, 16)), Answer::Seat(0));
    // Other damage in a row is not Open's business.
    assert_eq!(opens(|seats| (seats[last], seats[last + 3]) = (2, 99)), Answer::Seat(0));
}

#[test]
fn owners_over_their_limit_and_seats_over_64() {
    let held = |seats: &mut [u64], owner: u64, rows: std::ops::Range<usize>| {
        rows.for_each(|seat| seats[PLAN + seat * ROW..][..2].copy_from_slice(&[1, owner]));
    };
    let limited = |rows| {
        opens(|seats| {
            seats[OWNERS + 5] = 3;
            held(seats, 5, 0..rows);
        })
    };
    assert_eq!(limited(3), Answer::Seat(3));
    assert_eq!(limited(4), Answer::Refused(3));
    let claimed = |rows| {
        opens(|seats| {
            seats[5] = 62;
            held(seats, 6, 0..rows);
        })
    };
    assert_eq!(claimed(1), Answer::Seat(1));
    assert_eq!(claimed(2), Answer::Refused(7));
    assert_eq!(claimed(3), Answer::Refused(3));
    assert_eq!(opens(|seats| held(seats, 6, 0..64)), Answer::Refused(7));
    assert_eq!(opens(|seats| held(seats, 0, 0..64)), Answer::Refused(6));
}

#[test]
fn a_record_named_twice() {
    let mut twice = row([1, 0, 0, 2, 0]);
    twice[FIRST_WRITE..FIRST_WRITE + 4].copy_from_slice(&[1, 30, 1, 31]);
    let mut monitor = lent(&twice);
    assert_eq!(monitor.read(0, 2, 1), Answer::Value(30));
    assert_eq!(monitor.write(0, 2, 1, 40), Answer::Noted(1));
    assert_eq!(monitor.unload().seats[PLAN + 2 * ROW + FIRST_WRITE + 1], 40);
    assert_eq!(monitor.unload().seats[PLAN + 2 * ROW + FIRST_WRITE + 3], 31);
    assert_eq!(monitor.advance(0, 2), Answer::Locked(1));
    assert_eq!(monitor.advance(0, 2), Answer::Aborted(21));
    assert_eq!(monitor.unload().words, [5, 5]);
}

#[test]
fn a_kept_time_beyond_all_times_aborts() {
    let kept_write = HEAD + 2;
    let mut monitor = lent(&with(row([1, 0, 1, 0, 0]), kept_write, FAR));
    assert_eq!(monitor.advance(0, 2), Answer::Aborted(24));
}

#[test]
fn a_write_shifts_the_later_entries_alone() {
    let mut garbage = [9; ROW];
    garbage[..HEAD].copy_from_slice(&[1, 0, 0, 0, 1, 9]);
    garbage[FIRST_WRITE..FIRST_WRITE + 2].copy_from_slice(&[1, 30]);
    let mut monitor = lent(&garbage);
    assert_eq!(monitor.write(0, 2, 0, 20), Answer::Noted(0));
    let mut expected = with(garbage, 4, 2);
    expected[FIRST_WRITE..FIRST_WRITE + 4].copy_from_slice(&[0, 20, 1, 30]);
    assert_eq!(monitor.unload().seats[PLAN + 2 * ROW..][..ROW], expected);
}
