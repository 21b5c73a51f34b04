//! Calls on tables that no calls could have made: nothing panics, a refusal leaves all, and
//! every other answer changes what the document lets it change and nothing else.

use second::answer::Answer;
use second::answer_counts::AnswerCounts;
use second::call::Call;
use second::monitor::Monitor;
use second::odd;
use second::random::{Random, each_seed};
use second::row::Row;
use second::tables::{Record, Tables};

const CALLS: usize = 12;

fn run_tables(random: &mut Random, answers: &mut AnswerCounts) {
    let mut monitor = Monitor::load(&odd::tables(random));
    for _ in 0..CALLS {
        let before = monitor.tables().unwrap().clone();
        let call = odd::call(random, &before);
        let answer = monitor.answer(&call);
        let after = monitor.tables().unwrap();
        assert!(is_lawful(&call, answer, &before, after), "{call:?} {answer}");
        answers.count(answer);
    }
}

fn is_lawful(call: &Call, answer: Answer, before: &Tables, after: &Tables) -> bool {
    if answer.is_refused() {
        return before == after;
    }
    if let Answer::Ready(_) = answer {
        return after.rows.iter().all(|row| *row == Row::default());
    }
    let seat = match (answer, call.seat()) {
        (Answer::Seat(seat), _) | (_, Some(seat)) => seat as usize,
        _ => return false,
    };
    let others_stay = (0..64).all(|other| other == seat || before.rows[other] == after.rows[other]);
    others_stay
        && before.plan == after.plan
        && row_is_lawful(answer, &before.rows[seat], &after.rows[seat])
        && records_are_lawful(answer, &before.rows[seat], before, after)
}

fn row_is_lawful(answer: Answer, before: &Row, after: &Row) -> bool {
    let stepped = Row { phase: after.phase, position: after.position, ..*before };
    match answer {
        Answer::Seat(_) => before.is_free() && *after == Row::opened(after.owner),
        Answer::Value(_) => after.writes_in_use() == before.writes_in_use(),
        Answer::Noted(_) => after.reads_in_use() == before.reads_in_use(),
        Answer::Timed(time) => *after == Row { time, ..stepped },
        Answer::Done(_) | Answer::Dropped(_) | Answer::Aborted(_) => *after == Row::default(),
        _ => *after == stepped,
    }
}

fn records_are_lawful(answer: Answer, row: &Row, before: &Tables, after: &Tables) -> bool {
    let unlocked = |record: usize| {
        let held = row.held_locks().iter().any(|entry| entry.record == record as u64);
        let Record { value, word } = before.records[record];
        Record { value, word: word.with_lock(word.locked() && !held) }
    };
    (0..before.records.len()).all(|record| {
        let (old, new) = (before.records[record], after.records[record]);
        let named = answer.number() == record as u64;
        match answer {
            Answer::Locked(_) if named => new == Record { word: old.word.with_lock(true), ..old },
            Answer::Checked(_) if named => is_extended(row.time, &old, &new),
            Answer::Stored(_) if named => Ok(new.word) == after.widths.at(row.time),
            Answer::Aborted(_) | Answer::Dropped(_) => new == unlocked(record),
            _ => new == old,
        }
    })
}

fn is_extended(time: u64, old: &Record, new: &Record) -> bool {
    let grew = new.word.read_time() == time && old.word.read_time() < time;
    new == old || (grew && new.value == old.value && new.word.locked() == old.word.locked())
}

#[test]
fn calls_on_odd_tables() {
    let mut answers = AnswerCounts::default();
    each_seed(0..30_000, |random| run_tables(random, &mut answers));
    for refusal in 2..=11 {
        answers.met_often(&format!("refused {refusal}"), 100);
    }
    for abort in 21..=24 {
        answers.met_often(&format!("aborted {abort}"), 500);
    }
    for spelling in ["ready", "seat", "value", "noted", "locked", "timed", "checked", "sealed"] {
        answers.met_often(spelling, 2_000);
    }
    for spelling in ["stored", "done", "dropped"] {
        answers.met_often(spelling, 2_000);
    }
}
