//! Every call of the proved engine beside the second program: the answer and all three tables,
//! bit for bit, on histories from Setup and on any table contents.

use second::answer::Answer;
use second::answer_counts::{AnswerCounts, FROM_SETUP};
use second::call::Call;
use second::clock::Widths;
use second::crowd::{Crowd, sound_plan};
use second::engine;
use second::flat::{self, Flat, SEAT_TABLE};
use second::lively;
use second::monitor::Monitor;
use second::odd;
use second::plan::{OWNERS, Plan, SEATS};
use second::random::{Random, each_seed, seeds};
use second::row::{Row, phase};

const TOP: u64 = Widths::REAL.greatest_time();

/// The engine's tables and the second program's, which must stay the same.
struct Pair {
    engine: Flat,
    second: Monitor,
}

impl Pair {
    fn new(tables: Flat) -> Pair {
        let second = Monitor::load(&tables);
        Pair { engine: tables, second }
    }

    fn call(&mut self, call: &Call, answers: &mut AnswerCounts) -> Answer {
        let answer = engine::answer(&mut self.engine, call);
        assert_eq!(answer, self.second.answer(call), "answers differ: {call:?}");
        assert!(self.engine == self.second.unload(), "tables differ after {call:?}");
        answers.count(answer);
        answer
    }
}

/// Tables of these lengths with anything in them.
fn any_numbers(random: &mut Random, records: usize) -> Flat {
    let mut numbers = |length| (0..length).map(|_| random.number()).collect();
    Flat { values: numbers(records), words: numbers(records), seats: numbers(SEAT_TABLE) }
}

/// A history from Setup, over tables that held anything before it.
fn compare_history(random: &mut Random, answers: &mut AnswerCounts) {
    let records = random.pick(&[1, 2, 3, 5, 24, 1024]).unwrap_or(1);
    let mut pair = Pair::new(any_numbers(random, records as usize));
    let setup = Call::Setup { start: lively::start(random), plan: sound_plan(random) };
    assert_eq!(pair.call(&setup, answers), Answer::Ready(records));
    let mut crowd = Crowd::new(random, records);
    for _ in 0..100 + random.below(200) {
        let call = crowd.next_call(random);
        let answer = pair.call(&call, answers);
        crowd.hear(&call, answer);
    }
}

#[test]
fn histories_from_setup() {
    let mut answers = AnswerCounts::default();
    each_seed(seeds(4_000), |random| compare_history(random, &mut answers));
    answers.met(&FROM_SETUP);
    assert_eq!(answers.counted("refused 3"), 0, "damage from Setup on");
    assert!(answers.calls() >= 600_000, "only {} calls", answers.calls());
}

/// Tables that calls may or may not be able to make.
#[test]
fn any_table_contents() {
    let mut answers = AnswerCounts::default();
    each_seed(seeds(40_000), |random| {
        let mut pair = Pair::new(odd::tables(random));
        for _ in 0..12 {
            let call = odd::call(random, pair.second.tables().expect("lengths fit"));
            pair.call(&call, &mut answers);
        }
    });
    each_seed(seeds(4_000), |random| {
        let mut pair = Pair::new(any_numbers(random, 3));
        for _ in 0..4 {
            let call = odd::call(random, pair.second.tables().expect("lengths fit"));
            pair.call(&call, &mut answers);
        }
    });
    answers.met(&FROM_SETUP);
    answers.met(&["refused 3", "refused 11"]);
    assert!(answers.calls() >= 400_000, "only {} calls", answers.calls());
}

/// One field of a row in use put out of order, and the phases in which that is damage.
struct Damage {
    name: &'static str,
    phases: &'static [u64],
    apply: fn(&mut Row),
}

const ANY: &[u64] = &[phase::WORKING, phase::LOCKING, phase::CHECKING, phase::STORING];
const TIMED: &[u64] = &[phase::CHECKING, phase::STORING];

const DAMAGES: [Damage; 14] = [
    Damage { name: "phase 5", phases: ANY, apply: |row| row.phase = 5 },
    Damage { name: "any phase", phases: ANY, apply: |row| row.phase = u64::MAX },
    Damage { name: "owner 16", phases: ANY, apply: |row| row.owner = 16 },
    Damage { name: "17 reads", phases: ANY, apply: |row| row.reads = 17 },
    Damage { name: "any reads", phases: ANY, apply: |row| row.reads = u64::MAX },
    Damage { name: "9 writes", phases: ANY, apply: |row| row.writes = 9 },
    Damage { name: "any writes", phases: ANY, apply: |row| row.writes = u64::MAX },
    Damage {
        name: "a read of no record",
        phases: ANY,
        apply: |row| row.read_entries[0].record = 3,
    },
    Damage {
        name: "a write of no record",
        phases: ANY,
        apply: |row| row.write_entries[1].record = u64::MAX,
    },
    Damage { name: "a position past the end", phases: ANY, apply: |row| row.position = 3 },
    Damage { name: "any position", phases: ANY, apply: |row| row.position = u64::MAX },
    Damage { name: "position 0", phases: &[phase::LOCKING], apply: |row| row.position = 0 },
    Damage { name: "a time past T", phases: TIMED, apply: |row| row.time = TOP + 1 },
    Damage {
        name: "a time before a read",
        phases: TIMED,
        apply: |row| row.read_entries[0].kept_write = 10,
    },
];

/// A sound row in the phase, with two reads and two writes, each in the middle of its work.
fn sound_row(phase: u64) -> Row {
    let mut row = Row::opened(1);
    row.phase = phase;
    row.position = u64::from(phase != phase::WORKING);
    (row.reads, row.writes) = (2, 2);
    row.time = if phase >= phase::CHECKING { 9 } else { 0 };
    for (entry, record) in row.read_entries.iter_mut().zip([2, 0]) {
        (entry.record, entry.kept_write, entry.kept_read) = (record, 5, 6);
    }
    for (entry, record) in row.write_entries.iter_mut().zip([0, 1]) {
        (entry.record, entry.value) = (record, 7);
    }
    row
}

/// Good tables of three records, where seat 5 has this row.
fn tables_with(row: Row) -> Flat {
    let mut monitor = Monitor::new(Widths::REAL, &[1, 2, 3]);
    let plan = Plan { shares: [2; OWNERS], limits: [SEATS as u64; OWNERS] };
    assert_eq!(monitor.setup(5, plan), Answer::Ready(3));
    let mut tables = monitor.unload();
    flat::put_row(&mut tables.seats, 5, &row);
    tables
}

/// Every call that could meet the row.
fn calls_on(owner: u64) -> [Call; 6] {
    [
        Call::Open { owner },
        Call::Read { owner, seat: 5, record: 0 },
        Call::Read { owner, seat: 5, record: 1 },
        Call::Write { owner, seat: 5, record: 2, value: 9 },
        Call::Advance { owner, seat: 5 },
        Call::Abandon { owner, seat: 5 },
    ]
}

/// Whether some call on the row is told that it is damaged.
fn is_told_damaged(row: Row, answers: &mut AnswerCounts) -> bool {
    let calls = calls_on(row.owner).into_iter().chain(calls_on(1));
    let told: Vec<Answer> =
        calls.map(|call| Pair::new(tables_with(row)).call(&call, answers)).collect();
    told.contains(&Answer::Refused(3))
}

/// Each damage in each phase, and the sound row itself, under every call.
#[test]
fn single_damaged_fields() {
    let mut answers = AnswerCounts::default();
    for &phase in ANY {
        assert!(!is_told_damaged(sound_row(phase), &mut answers), "a sound row in phase {phase}");
        for Damage { name, phases, apply } in DAMAGES {
            let mut row = sound_row(phase);
            apply(&mut row);
            let told = is_told_damaged(row, &mut answers);
            assert_eq!(told, phases.contains(&phase), "{name} in phase {phase}");
        }
    }
    answers.met(&["refused 3"]);
}

/// Tables of wrong lengths, each beside right ones.
#[test]
fn wrong_lengths() {
    let mut answers = AnswerCounts::default();
    let records = [0, 1, 2, 1024, 1025];
    let seats = [0, 1, SEAT_TABLE - 1, SEAT_TABLE, SEAT_TABLE + 1];
    let plan = Plan { shares: [1; OWNERS], limits: [2; OWNERS] };
    for (values, words) in records.iter().flat_map(|v| records.iter().map(move |w| (*v, *w))) {
        for seats in seats {
            let tables =
                Flat { values: vec![4; values], words: vec![9; words], seats: vec![0; seats] };
            let setup = Call::Setup { start: 3, plan };
            for call in calls_on(0).into_iter().chain([setup]) {
                Pair::new(tables.clone()).call(&call, &mut answers);
            }
        }
    }
    answers.met(&["refused 1", "ready", "refused 4"]);
}

/// Numbers at and past every limit, up to the greatest.
#[test]
fn numbers_at_every_limit() {
    let mut answers = AnswerCounts::default();
    let edges = [0, 1, 2, 3, 5, 15, 16, 63, 64, 65, 1023, 1024, TOP, TOP + 1, 1 << 63, u64::MAX];
    for phase in phase::WORKING..=phase::STORING {
        for (a, b) in edges.iter().flat_map(|a| edges.iter().map(move |b| (*a, *b))) {
            for call in edge_calls(a, b) {
                Pair::new(tables_with(sound_row(phase))).call(&call, &mut answers);
            }
        }
    }
    answers.met(&["ready", "refused 2", "refused 11"]);
}

fn edge_calls(a: u64, b: u64) -> [Call; 9] {
    let mut plan = Plan { shares: [1; OWNERS], limits: [2; OWNERS] };
    (plan.shares[3], plan.limits[3]) = (a, b);
    let small = Plan { shares: [0; OWNERS], limits: [64; OWNERS] };
    [
        Call::Setup { start: 0, plan },
        Call::Setup { start: a, plan: small },
        Call::Open { owner: a },
        Call::Read { owner: a, seat: b, record: 0 },
        Call::Read { owner: 1, seat: 5, record: a },
        Call::Write { owner: 1, seat: a, record: b, value: a },
        Call::Write { owner: 1, seat: 5, record: a, value: b },
        Call::Advance { owner: a, seat: b },
        Call::Abandon { owner: a, seat: b },
    ]
}
