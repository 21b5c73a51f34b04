//! Every refusal and every abort of the monitor, the order of the tests, and what they leave.

use second::answer::Answer;
use second::call::Call;
use second::clock::Widths;
use second::flat::{Flat, SEAT_TABLE};
use second::monitor::Monitor;
use second::plan::{OWNERS, Plan};
use second::row::Row;

const TOP: u64 = (1 << 48) - 1;
const FAR: u64 = u64::MAX;

fn plan(shares: &[u64], limits: &[u64]) -> Plan {
    let mut plan = Plan::default();
    plan.shares[..shares.len()].copy_from_slice(shares);
    plan.limits[..limits.len()].copy_from_slice(limits);
    plan
}

/// Three records, start 5, owners 0 and 1 with two seats each.
fn ready() -> Monitor {
    let mut monitor = Monitor::new(Widths::REAL, &[10, 11, 12]);
    assert_eq!(monitor.setup(5, plan(&[2, 2], &[2, 2])), Answer::Ready(3));
    monitor
}

/// The same, with seat 0 open for owner 0 and seat 1 for owner 1.
fn opened() -> Monitor {
    let mut monitor = ready();
    assert_eq!(monitor.open(0), Answer::Seat(0));
    assert_eq!(monitor.open(1), Answer::Seat(1));
    monitor
}

/// Asserts the refusal, and that every table is as it was.
fn refuses(monitor: &mut Monitor, call: Call, number: u64) {
    let before = monitor.clone();
    assert_eq!(monitor.answer(&call), Answer::Refused(number), "{call:?}");
    assert_eq!(*monitor, before, "{call:?}");
}

fn every_call() -> [Call; 6] {
    let (owner, seat, record, value) = (0, 0, 0, 1);
    [
        Call::Setup { start: 0, plan: plan(&[1], &[1]) },
        Call::Open { owner },
        Call::Read { owner, seat, record },
        Call::Write { owner, seat, record, value },
        Call::Advance { owner, seat },
        Call::Abandon { owner, seat },
    ]
}

/// Asserts the abort, a free row, and that no word is locked.
fn aborts(monitor: &mut Monitor, owner: u64, seat: u64, number: u64) {
    assert_eq!(monitor.advance(owner, seat), Answer::Aborted(number));
    let tables = monitor.tables().unwrap();
    assert_eq!(tables.rows[seat as usize], Row::default());
    assert!(tables.records.iter().all(|record| !record.word.locked()));
}

#[test]
fn refusal_1_lengths() {
    let lengths = [(0, 0, SEAT_TABLE), (1, 2, SEAT_TABLE), (2, 1, SEAT_TABLE)];
    let more = [(1025, 1025, SEAT_TABLE), (1, 1, SEAT_TABLE - 1), (1, 1, SEAT_TABLE + 1)];
    for (values, words, seats) in lengths.into_iter().chain(more).chain([(1, 1, 0)]) {
        let lent = Flat { values: vec![1; values], words: vec![2; words], seats: vec![3; seats] };
        let mut monitor = Monitor::load(&lent);
        for call in every_call() {
            refuses(&mut monitor, call, 1);
        }
        assert_eq!(monitor.unload(), lent);
    }
    for count in [1, 1024] {
        let (values, words) = (vec![1; count], vec![2; count]);
        let mut monitor = Monitor::load(&Flat { values, words, seats: vec![FAR; SEAT_TABLE] });
        assert_eq!(monitor.setup(0, plan(&[], &[])), Answer::Ready(count as u64));
    }
}

#[test]
fn refusal_1_comes_before_2() {
    let mut monitor = Monitor::new(Widths::REAL, &[]);
    refuses(&mut monitor, Call::Setup { start: FAR, plan: plan(&[FAR; 16], &[]) }, 1);
    refuses(&mut monitor, Call::Open { owner: FAR }, 1);
    refuses(&mut monitor, Call::Advance { owner: FAR, seat: FAR }, 1);
}

#[test]
fn refusal_2_out_of_range() {
    let mut monitor = opened();
    for owner in [16, FAR] {
        refuses(&mut monitor, Call::Open { owner }, 2);
        refuses(&mut monitor, Call::Read { owner, seat: 0, record: 0 }, 2);
        refuses(&mut monitor, Call::Write { owner, seat: 0, record: 0, value: 0 }, 2);
        refuses(&mut monitor, Call::Advance { owner, seat: 0 }, 2);
        refuses(&mut monitor, Call::Abandon { owner, seat: 0 }, 2);
    }
    for seat in [64, FAR] {
        refuses(&mut monitor, Call::Read { owner: 0, seat, record: 0 }, 2);
        refuses(&mut monitor, Call::Write { owner: 0, seat, record: 0, value: 0 }, 2);
        refuses(&mut monitor, Call::Advance { owner: 0, seat }, 2);
        refuses(&mut monitor, Call::Abandon { owner: 0, seat }, 2);
    }
    for record in [3, FAR] {
        refuses(&mut monitor, Call::Read { owner: 0, seat: 0, record }, 2);
        refuses(&mut monitor, Call::Write { owner: 0, seat: 0, record, value: 0 }, 2);
        // Before 4: seat 9 is free.
        refuses(&mut monitor, Call::Read { owner: 0, seat: 9, record }, 2);
    }
    for start in [TOP + 1, FAR] {
        refuses(&mut monitor, Call::Setup { start, plan: plan(&[65], &[]) }, 2);
    }
    assert_eq!(monitor.setup(TOP, plan(&[1], &[1])), Answer::Ready(3));
}

#[test]
fn refusal_4_free_or_anothers() {
    let mut monitor = opened();
    for (owner, seat) in [(0, 1), (1, 0), (0, 2), (15, 63)] {
        refuses(&mut monitor, Call::Read { owner, seat, record: 0 }, 4);
        refuses(&mut monitor, Call::Write { owner, seat, record: 0, value: 0 }, 4);
        refuses(&mut monitor, Call::Advance { owner, seat }, 4);
        refuses(&mut monitor, Call::Abandon { owner, seat }, 4);
    }
}

#[test]
fn refusal_5_wrong_phase() {
    let mut monitor = opened();
    monitor.read(0, 0, 0);
    monitor.write(0, 0, 1, 7);
    for phase in [2, 3, 3, 4, 4] {
        monitor.advance(0, 0);
        assert_eq!(monitor.tables().unwrap().rows[0].phase, phase);
        refuses(&mut monitor, Call::Read { owner: 0, seat: 0, record: 0 }, 5);
        refuses(&mut monitor, Call::Write { owner: 0, seat: 0, record: 1, value: 1 }, 5);
        // Before 5: the seat is owner 0's.
        refuses(&mut monitor, Call::Read { owner: 1, seat: 0, record: 0 }, 4);
        if phase == 4 {
            refuses(&mut monitor, Call::Abandon { owner: 0, seat: 0 }, 5);
            continue;
        }
        assert_eq!(monitor.clone().abandon(0, 0), Answer::Dropped(0));
    }
    assert_eq!(monitor.advance(0, 0), Answer::Done(6));
}

#[test]
fn refusals_6_and_7_no_seat() {
    let mut monitor = Monitor::new(Widths::REAL, &[0]);
    monitor.setup(0, plan(&[1, 0, 62], &[2, 4, 64]));
    assert_eq!(monitor.open(1), Answer::Seat(0));
    refuses(&mut monitor, Call::Open { owner: 1 }, 7);
    assert_eq!(monitor.open(0), Answer::Seat(1));
    refuses(&mut monitor, Call::Open { owner: 0 }, 7);
    refuses(&mut monitor, Call::Open { owner: 3 }, 6);
    assert_eq!(monitor.abandon(1, 0), Answer::Dropped(0));
    assert_eq!(monitor.open(0), Answer::Seat(0));
    // 6 before 7: owner 0 is at its limit and no seat is left over.
    refuses(&mut monitor, Call::Open { owner: 0 }, 6);
}

#[test]
fn refusal_10_record_locked() {
    let mut monitor = opened();
    monitor.write(1, 1, 2, 7);
    assert_eq!(monitor.read(0, 0, 1), Answer::Value(11));
    assert_eq!(monitor.advance(1, 1), Answer::Locked(2));
    refuses(&mut monitor, Call::Read { owner: 0, seat: 0, record: 2 }, 10);
    assert_eq!(monitor.write(0, 0, 2, 8), Answer::Noted(2));
    assert_eq!(monitor.read(0, 0, 2), Answer::Value(8));
}

#[test]
fn refusals_8_and_9_full() {
    let mut monitor = Monitor::new(Widths::REAL, &[0; 20]);
    monitor.setup(0, plan(&[2], &[2]));
    monitor.open(0);
    monitor.open(0);
    monitor.write(0, 1, 19, 1);
    for record in 0..16 {
        assert_eq!(monitor.read(0, 0, record), Answer::Value(0));
    }
    for record in 0..8 {
        assert_eq!(monitor.write(0, 0, record, 1), Answer::Noted(record));
    }
    monitor.advance(0, 1);
    // 8 before 10: record 19 is locked.
    refuses(&mut monitor, Call::Read { owner: 0, seat: 0, record: 19 }, 8);
    refuses(&mut monitor, Call::Write { owner: 0, seat: 0, record: 8, value: 1 }, 9);
}

#[test]
fn refusal_11_bad_plan() {
    let mut monitor = opened();
    let bad = [
        plan(&[2], &[1]),
        plan(&[0, FAR], &[0, 0]),
        plan(&[0], &[65]),
        plan(&[FAR; OWNERS], &[FAR; OWNERS]),
        plan(&[33, 32], &[64, 64]),
    ];
    for plan in bad {
        refuses(&mut monitor, Call::Setup { start: 0, plan }, 11);
    }
    for good in [plan(&[32, 32], &[64; OWNERS]), plan(&[4; OWNERS], &[4; OWNERS]), plan(&[], &[])] {
        assert_eq!(monitor.setup(0, good), Answer::Ready(3));
    }
}

#[test]
fn setup_frees_rows_and_keeps_values() {
    let mut monitor = opened();
    monitor.write(0, 0, 1, 7);
    monitor.advance(0, 0);
    assert_eq!(monitor.setup(9, plan(&[3], &[4])), Answer::Ready(3));
    let tables = monitor.tables().unwrap();
    assert!(tables.rows.iter().all(|row| *row == Row::default()));
    assert!(tables.records.iter().all(|record| Ok(record.word) == Widths::REAL.at(9)));
    assert_eq!(monitor.values(), [10, 11, 12]);
}

#[test]
fn abort_21_lock_met() {
    let mut monitor = opened();
    for record in [0, 2] {
        monitor.write(0, 0, record, 1);
    }
    monitor.write(1, 1, 2, 1);
    assert_eq!(monitor.advance(0, 0), Answer::Locked(0));
    assert_eq!(monitor.advance(1, 1), Answer::Locked(2));
    assert_eq!(monitor.advance(0, 0), Answer::Aborted(21));
    // Its own lock on record 0 is cleared, the other seat's on record 2 is not.
    let locked: Vec<bool> =
        monitor.tables().unwrap().records.iter().map(|record| record.word.locked()).collect();
    assert_eq!(locked, [false, false, true]);
    assert_eq!(monitor.advance(1, 1), Answer::Timed(6));
}

#[test]
fn abort_22_overwritten() {
    let mut monitor = opened();
    monitor.read(0, 0, 0);
    monitor.write(0, 0, 1, 1);
    monitor.write(1, 1, 0, 1);
    for _ in 0..5 {
        monitor.advance(1, 1);
    }
    assert_eq!(monitor.advance(0, 0), Answer::Locked(1));
    assert_eq!(monitor.advance(0, 0), Answer::Timed(6));
    aborts(&mut monitor, 0, 0, 22);
}

#[test]
fn abort_22_comes_before_the_own_write() {
    let mut monitor = opened();
    for (owner, seat) in [(0, 0), (1, 1)] {
        monitor.read(owner, seat, 0);
        monitor.write(owner, seat, 0, 1);
    }
    for _ in 0..6 {
        monitor.advance(1, 1);
    }
    assert_eq!(monitor.advance(0, 0), Answer::Locked(0));
    assert_eq!(monitor.advance(0, 0), Answer::Timed(7));
    aborts(&mut monitor, 0, 0, 22);
}

#[test]
fn abort_23_locked_by_another() {
    let mut monitor = opened();
    monitor.read(0, 0, 0);
    monitor.write(0, 0, 1, 1);
    monitor.write(1, 1, 0, 1);
    assert_eq!(monitor.advance(0, 0), Answer::Locked(1));
    assert_eq!(monitor.advance(0, 0), Answer::Timed(6));
    assert_eq!(monitor.advance(1, 1), Answer::Locked(0));
    assert_eq!(monitor.advance(0, 0), Answer::Aborted(23));
    assert_eq!(monitor.advance(1, 1), Answer::Timed(6));
}

/// What seat 0 hears when its check at time 6 meets a lock on record 0, read at 5 and since then
/// extended by so many other commits, the first of them at time 6.
fn check_of_locked_record(extensions: u64) -> Answer {
    let mut monitor = opened();
    monitor.read(0, 0, 0);
    monitor.write(0, 0, 1, 1);
    for time in 6..6 + extensions {
        assert_eq!(monitor.open(1), Answer::Seat(2));
        monitor.read(1, 2, 0);
        monitor.write(1, 2, 2, 1);
        let commit = [Answer::Locked(2), Answer::Timed(time), Answer::Checked(0)];
        let stores = [Answer::Sealed(time), Answer::Stored(2), Answer::Done(time)];
        for step in commit.into_iter().chain(stores) {
            assert_eq!(monitor.advance(1, 2), step);
        }
    }
    monitor.write(1, 1, 0, 1);
    assert_eq!(monitor.advance(1, 1), Answer::Locked(0));
    assert_eq!(monitor.advance(0, 0), Answer::Locked(1));
    assert_eq!(monitor.advance(0, 0), Answer::Timed(6));
    monitor.advance(0, 0)
}

#[test]
fn a_lock_matters_up_to_the_read_time() {
    assert_eq!(check_of_locked_record(0), Answer::Aborted(23));
    assert_eq!(check_of_locked_record(1), Answer::Aborted(23));
    assert_eq!(check_of_locked_record(2), Answer::Checked(0));
}

#[test]
fn abort_24_end_of_time() {
    let mut monitor = Monitor::new(Widths::REAL, &[0, 0]);
    monitor.setup(TOP, plan(&[1], &[1]));
    monitor.open(0);
    monitor.write(0, 0, 0, 1);
    monitor.write(0, 0, 1, 1);
    monitor.advance(0, 0);
    monitor.advance(0, 0);
    aborts(&mut monitor, 0, 0, 24);
    assert_eq!(monitor.values(), [0, 0]);
}
