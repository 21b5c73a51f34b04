//! The judge itself: it takes Tape X, and refuses histories of engines that idle or cheat.

use second::answer::Answer::{self, *};
use second::call::Call;
use second::clock::Widths;
use second::history::Judge;
use second::monitor::Monitor;
use second::plan::Plan;

type Told = (Call, Answer);

/// Two owners with share 1 and limit 2.
fn plan() -> Plan {
    let mut plan = Plan::default();
    plan.shares[..2].fill(1);
    plan.limits[..2].fill(2);
    plan
}

fn open(owner: u64, answer: Answer) -> Told {
    (Call::Open { owner }, answer)
}

/// The owner of a seat has the seat's number in all that follows.
fn read(seat: u64, record: u64, value: u64) -> Told {
    (Call::Read { owner: seat, seat, record }, Value(value))
}

fn write(seat: u64, record: u64, value: u64) -> Told {
    (Call::Write { owner: seat, seat, record, value }, Noted(record))
}

fn advance(seat: u64, answer: Answer) -> Told {
    (Call::Advance { owner: seat, seat }, answer)
}

/// What the judge finds from opening values of zero.
fn judged(history: &[Told], values: &[u64]) -> Result<(), String> {
    let mut judge = Judge::new(&[0; 2], plan());
    for (call, answer) in history {
        judge.observe(call, *answer)?;
    }
    judge.verdict(values)
}

/// Asserts that the judge refuses the history, with this reason. The tables are as it leaves them.
fn refuses(history: &[Told], reason: &str) {
    let found = judged(history, &[7, 0]).expect_err(reason);
    assert!(found.contains(reason), "'{found}' does not say '{reason}'");
}

fn both_opened(more: &[Told]) -> Vec<Told> {
    [&[open(0, Seat(0)), open(1, Seat(1))], more].concat()
}

/// A whole commit of a seat that reads some records and writes one.
fn commit(seat: u64, reads: &[u64], written: u64, time: u64) -> Vec<Told> {
    let mut steps = vec![advance(seat, Locked(written)), advance(seat, Timed(time))];
    steps.extend(reads.iter().map(|&record| advance(seat, Checked(record))));
    let stores = [Sealed(time), Stored(written), Done(time)];
    steps.extend(stores.map(|answer| advance(seat, answer)));
    steps
}

fn tape_x() -> Vec<Told> {
    let mut history = both_opened(&[read(0, 0, 0), write(1, 0, 7)]);
    history.extend(commit(1, &[], 0, 3));
    history.extend([Timed(2), Checked(0), Sealed(2), Done(2)].map(|answer| advance(0, answer)));
    history
}

#[test]
fn tape_x_is_serial_by_time_and_not_by_sealing() {
    assert_eq!(judged(&tape_x(), &[7, 0]), Ok(()));
    let mut monitor = Monitor::new(Widths::REAL, &[0; 2]);
    monitor.setup(2, plan());
    assert!(tape_x().iter().all(|(call, answer)| monitor.answer(call) == *answer));
}

#[test]
fn made_up_times_are_found() {
    let late = tape_x().into_iter().map(|(call, answer)| match answer {
        Timed(2) => (call, Timed(3)),
        Sealed(2) => (call, Sealed(3)),
        Done(2) => (call, Done(3)),
        _ => (call, answer),
    });
    refuses(&late.collect::<Vec<Told>>(), "should have read 7 of record 0");
}

#[test]
fn stores_that_never_happened_are_found() {
    assert!(judged(&tape_x(), &[0, 0]).is_err());
    assert!(judged(&tape_x(), &[7, 1]).is_err());
    // Before Stored and Done nothing is asked of the tables yet.
    assert_eq!(judged(&tape_x()[..7], &[0, 0]), Ok(()));
}

#[test]
fn a_lost_update_is_found() {
    let mut history = both_opened(&[read(0, 0, 0), read(1, 0, 0), write(0, 0, 5), write(1, 0, 6)]);
    history.extend(commit(0, &[0], 0, 1));
    assert_eq!(judged(&history, &[5, 0]), Ok(()));
    history.extend(commit(1, &[0], 0, 2));
    assert!(judged(&history, &[6, 0]).is_err());
}

#[test]
fn write_skew_is_found() {
    let mut history = both_opened(&[read(0, 0, 0), read(1, 1, 0), write(0, 1, 5), write(1, 0, 6)]);
    history.extend(commit(0, &[0], 1, 1));
    history.extend(commit(1, &[1], 0, 1));
    assert!(judged(&history, &[6, 5]).is_err());
}

#[test]
fn reads_that_forget_are_found() {
    assert!(judged(&both_opened(&[read(0, 0, 0), read(0, 0, 1)]), &[0, 0]).is_err());
    assert!(judged(&both_opened(&[write(0, 0, 9), read(0, 0, 0)]), &[0, 0]).is_err());
    assert!(judged(&both_opened(&[write(0, 0, 9), read(0, 0, 9)]), &[0, 0]).is_ok());
}

#[test]
fn reads_and_writes_out_of_place_are_found() {
    let begun = both_opened(&[advance(0, Timed(0))]);
    for late in [read(0, 0, 0), write(0, 0, 9)] {
        assert!(judged(&[&begun[..], &[late]].concat(), &[0, 0]).is_err());
    }
    for stray in [read(0, 2, 0), write(0, 2, 9), read(7, 0, 0), write(7, 0, 9)] {
        assert!(judged(&both_opened(&[stray]), &[0, 0]).is_err());
    }
}

#[test]
fn commits_of_wrong_length_are_found() {
    let opened = both_opened(&[read(0, 0, 0)]);
    let steps = |answers: &[Answer]| {
        let steps = answers.iter().map(|&answer| advance(0, answer));
        judged(&opened.iter().copied().chain(steps).collect::<Vec<Told>>(), &[0, 0])
    };
    assert!(steps(&[Timed(0), Checked(0), Sealed(0), Done(0)]).is_ok());
    assert!(steps(&[Timed(0), Sealed(0), Done(0)]).is_err());
    assert!(steps(&[Timed(0), Checked(0), Checked(0), Sealed(0)]).is_err());
    assert!(steps(&[Done(0)]).is_err());
    assert!(steps(&[Timed(0), Checked(0), Sealed(0), Aborted(22)]).is_err());
    assert!(steps(&[Timed(0), Checked(0), Sealed(0), Done(1)]).is_err());
    assert!(steps(&[Refused(4)]).is_err());
    assert!(steps(&[Timed(0), Checked(0), Sealed(0), Done(0), Refused(4)]).is_ok());
    assert!(steps(&[Timed(0), Checked(0), Sealed(0), Done(0), Timed(0)]).is_err());
}

/// Seat 0 writes 7 to record 0, which takes five Advances. They are answered so.
fn one_write(answers: [Answer; 5]) -> Vec<Told> {
    let steps = answers.map(|answer| advance(0, answer));
    [&both_opened(&[write(0, 0, 7)])[..], &steps].concat()
}

/// In each of the histories that follow, the count of the steps, the time and the values are right,
/// and only the order is not.
#[test]
fn the_steps_of_a_write() {
    let lawful = one_write([Locked(0), Timed(1), Sealed(1), Stored(0), Done(1)]);
    assert_eq!(judged(&lawful, &[7, 0]), Ok(()));
}

#[test]
fn stored_before_sealed_is_found() {
    let early = one_write([Locked(0), Timed(1), Stored(0), Sealed(1), Done(1)]);
    refuses(&early, "stored before sealed");
}

#[test]
fn locked_after_sealed_is_found() {
    let late = one_write([Locked(0), Timed(1), Sealed(1), Locked(0), Done(1)]);
    refuses(&late, "locked after sealed");
}

#[test]
fn timed_after_sealed_is_found() {
    let late = one_write([Locked(0), Timed(1), Sealed(1), Timed(1), Done(1)]);
    refuses(&late, "timed after sealed");
}

#[test]
fn checked_after_sealed_is_found() {
    let late = one_write([Locked(0), Timed(1), Sealed(1), Checked(0), Done(1)]);
    refuses(&late, "checked after sealed");
}

#[test]
fn sealed_twice_is_found() {
    let twice = one_write([Locked(0), Timed(1), Sealed(1), Sealed(1), Done(1)]);
    refuses(&twice, "sealed twice");
}

#[test]
fn an_end_before_sealed_is_found() {
    let early = one_write([Locked(0), Timed(1), Done(1), Refused(4), Refused(4)]);
    refuses(&early, "done before sealed");
    let aborted = one_write([Locked(0), Timed(1), Sealed(1), Aborted(22), Refused(4)]);
    refuses(&aborted, "aborted after sealed");
}

#[test]
fn steps_before_sealed_out_of_order_are_found() {
    let untimed = one_write([Locked(0), Locked(0), Sealed(1), Stored(0), Done(1)]);
    refuses(&untimed, "Advance 2 of 5 is Time");
    let unlocked = one_write([Timed(1), Locked(0), Sealed(1), Stored(0), Done(1)]);
    refuses(&unlocked, "Advance 1 of 5 is Lock(0)");
    let unchecked = one_write([Locked(0), Timed(1), Checked(0), Sealed(1), Stored(0)]);
    refuses(&unchecked, "Advance 3 of 5 is Seal");
}

#[test]
fn another_record_or_time_is_found() {
    let locked = one_write([Locked(1), Timed(1), Sealed(1), Stored(0), Done(1)]);
    refuses(&locked, "Advance 1 of 5 is Lock(0)");
    let stored = one_write([Locked(0), Timed(1), Sealed(1), Stored(1), Done(1)]);
    refuses(&stored, "Advance 4 of 5 is Store(0)");
    let sealed = one_write([Locked(0), Timed(1), Sealed(2), Stored(0), Done(2)]);
    refuses(&sealed, "Advance 3 of 5 is Seal");
    let done = one_write([Locked(0), Timed(1), Sealed(1), Stored(0), Done(2)]);
    refuses(&done, "Advance 5 of 5 is End");
}

/// Locks and stores go up the records, checks in order of first read.
#[test]
fn steps_in_the_entries_order() {
    let calls = [read(0, 1, 0), read(0, 0, 0), write(0, 1, 0), write(0, 0, 7)];
    let steps = |locks: [u64; 2], checks: [u64; 2], stores: [u64; 2]| {
        let before = [locks.map(Locked), [Timed(1), Checked(checks[0])]].concat();
        let after = [[Checked(checks[1]), Sealed(1)], stores.map(Stored)].concat();
        let steps = [before, after, vec![Done(1)]].concat();
        let steps = steps.into_iter().map(|answer| advance(0, answer));
        both_opened(&calls).into_iter().chain(steps).collect::<Vec<Told>>()
    };
    assert_eq!(judged(&steps([0, 1], [1, 0], [0, 1]), &[7, 0]), Ok(()));
    refuses(&steps([1, 0], [1, 0], [0, 1]), "Advance 1 of 9 is Lock(0)");
    refuses(&steps([0, 1], [0, 1], [0, 1]), "Advance 4 of 9 is Check(1)");
    refuses(&steps([0, 1], [1, 0], [1, 0]), "Advance 7 of 9 is Store(0)");
}

/// 21 is told of a lock, 24 of the time, 22 and 23 of a check.
#[test]
fn aborts_out_of_place_are_found() {
    let begun = both_opened(&[read(0, 1, 0), write(0, 0, 7)]);
    let steps = [Locked(0), Timed(1), Checked(1), Sealed(1)].map(|answer| advance(0, answer));
    let lawful: [&[u64]; 4] = [&[21], &[24], &[22, 23], &[]];
    for (taken, lawful) in lawful.into_iter().enumerate() {
        for abort in 20..26 {
            let history = [&begun[..], &steps[..taken], &[advance(0, Aborted(abort))]].concat();
            let found = judged(&history, &[0, 0]);
            assert_eq!(found.is_ok(), lawful.contains(&abort), "{abort} after {taken} steps");
        }
    }
}

#[test]
fn a_sealed_transaction_is_not_dropped() {
    let abandon = (Call::Abandon { owner: 0, seat: 0 }, Dropped(0));
    assert!(judged(&both_opened(&[abandon]), &[0, 0]).is_ok());
    let sealed = both_opened(&[advance(0, Timed(0)), advance(0, Sealed(0)), abandon]);
    assert!(judged(&sealed, &[0, 0]).is_err());
}

#[test]
fn seats_against_the_plan_are_found() {
    assert!(judged(&[open(0, Seat(1))], &[0, 0]).is_err());
    assert!(judged(&[open(0, Refused(7))], &[0, 0]).is_err());
    assert!(judged(&[open(2, Seat(0))], &[0, 0]).is_err());
    assert!(judged(&[open(2, Refused(6))], &[0, 0]).is_ok());
    let two = [open(0, Seat(0)), open(0, Seat(1))];
    assert!(judged(&[&two[..], &[open(0, Seat(2))]].concat(), &[0, 0]).is_err());
    assert!(judged(&[&two[..], &[open(0, Refused(6))]].concat(), &[0, 0]).is_ok());
}

#[test]
fn damage_after_setup_is_found() {
    assert!(judged(&[(Call::Advance { owner: 0, seat: 9 }, Refused(3))], &[0, 0]).is_err());
    assert!(judged(&[(Call::Advance { owner: 0, seat: 9 }, Refused(4))], &[0, 0]).is_ok());
}

/// A seat 0 with these reads, and a seat 1 that holds record 1 and has `steps` Advances behind it.
fn beside_a_lock(reads: &[Told], steps: usize) -> Vec<Told> {
    let mut history = both_opened(&[write(1, 1, 7)]);
    history.extend_from_slice(reads);
    history.extend(commit(1, &[], 1, 3).into_iter().take(steps));
    history
}

fn read_told(record: u64, answer: Answer) -> Told {
    (Call::Read { owner: 0, seat: 0, record }, answer)
}

/// What the judge finds of the answers alone, with so many records.
fn heard(records: usize, history: &[Told]) -> Result<(), String> {
    let mut judge = Judge::new(&vec![0; records], plan());
    history.iter().try_for_each(|(call, answer)| judge.observe(call, *answer))
}

/// Asserts that the call is lawfully answered so after the history, and not with the others.
fn only(history: &[Told], lawful: Told, others: &[Answer]) {
    let then = |answer| heard(2, &[history, &[(lawful.0, answer)]].concat());
    assert_eq!(then(lawful.1), Ok(()), "{:?}", lawful.0);
    for &answer in others {
        let found = then(answer).expect_err("no such answer is lawful here");
        assert!(found.contains("is due"), "'{found}' does not say what is due");
    }
}

#[test]
fn a_read_is_refused_for_a_lock_and_for_nothing_else() {
    let refusals = [2, 4, 5, 8, 9, 10].map(Refused);
    only(&beside_a_lock(&[], 0), read_told(1, Value(0)), &refusals);
    only(&beside_a_lock(&[], 1), read_told(1, Refused(10)), &[Value(0), Refused(8), Refused(5)]);
    only(&beside_a_lock(&[], 1), read_told(0, Value(0)), &refusals);
    only(&beside_a_lock(&[read(0, 1, 0)], 1), read_told(1, Value(0)), &refusals);
    only(&beside_a_lock(&[write(0, 1, 9)], 1), read_told(1, Value(9)), &refusals);
    only(&beside_a_lock(&[], 3), read_told(1, Refused(10)), &[Value(0), Value(7)]);
    only(&beside_a_lock(&[], 4), read_told(1, Value(7)), &refusals);
}

#[test]
fn a_seat_is_refused_by_what_was_told_of_it() {
    let opened = both_opened(&[]);
    let write = |owner, seat, record| Call::Write { owner, seat, record, value: 9 };
    let refusals = [2, 4, 5, 8, 9, 10].map(Refused);
    only(&opened, (write(0, 0, 1), Noted(1)), &refusals);
    only(&opened, (write(0, 1, 1), Refused(4)), &[Noted(1), Refused(2), Refused(5)]);
    only(&opened, (write(0, 0, 2), Refused(2)), &[Noted(2), Refused(4)]);
    only(&opened, (write(16, 0, 1), Refused(2)), &[Noted(1), Refused(4)]);
    let timed = both_opened(&[advance(0, Timed(0))]);
    only(&timed, (write(0, 0, 1), Refused(5)), &[Noted(1), Refused(4), Refused(9)]);
    let abandon = Call::Abandon { owner: 0, seat: 0 };
    only(&timed, (abandon, Dropped(0)), &refusals);
    let sealed = [&timed[..], &[advance(0, Sealed(0))]].concat();
    only(&sealed, (abandon, Refused(5)), &[Dropped(0), Refused(4)]);
}

#[test]
fn full_rows_are_known() {
    let told = |calls: Vec<Told>| heard(17, &[both_opened(&[]), calls].concat());
    let reads = |count| (0..count).map(|record| read(0, record, 0)).collect::<Vec<Told>>();
    let writes = |count| (0..count).map(|record| write(0, record, 9)).collect::<Vec<Told>>();
    let refused = |told: Told, number| vec![(told.0, Refused(number))];
    assert_eq!(told(reads(16)), Ok(()));
    assert!(told(reads(17)).is_err());
    assert_eq!(told([reads(16), refused(read(0, 16, 0), 8)].concat()), Ok(()));
    assert!(told([reads(15), refused(read(0, 16, 0), 8)].concat()).is_err());
    assert!(told([reads(16), refused(read(0, 0, 0), 8)].concat()).is_err());
    assert_eq!(told(writes(8)), Ok(()));
    assert!(told(writes(9)).is_err());
    assert_eq!(told([writes(8), refused(write(0, 8, 9), 9)].concat()), Ok(()));
    assert!(told([writes(7), refused(write(0, 8, 9), 9)].concat()).is_err());
    assert!(told([writes(8), refused(write(0, 0, 9), 9)].concat()).is_err());
}
