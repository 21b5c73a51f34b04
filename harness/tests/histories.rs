//! Many random histories under narrow clock words, each judged from its calls and answers alone.
//! The counts asserted at the end make sure that the rare events were met, and often.

use second::answer::Answer;
use second::answer_counts::{AnswerCounts, at_least};
use second::call::Call;
use second::clock::{Widths, Word};
use second::crowd::{Crowd, Holder, sound_plan};
use second::history::Judge;
use second::lively::to_the_end;
use second::monitor::Monitor;
use second::random::{Random, each_seed};

/// Distance bits and time bits of the narrow words.
const NARROW: [(u32, u32); 5] = [(2, 4), (0, 5), (1, 5), (2, 6), (3, 8)];
const RECORDS: [u64; 6] = [1, 2, 3, 4, 6, 24];

/// What was met over all histories.
#[derive(Default)]
struct Counts {
    answers: AnswerCounts,
    shifts: u64,
    out_of_order: u64,
    ended_stored: u64,
    ended_storing: u64,
}

/// A monitor under random callers, watched by a judge.
struct History<'a> {
    monitor: Monitor,
    judge: Judge,
    crowd: Crowd,
    counts: &'a mut Counts,
}

impl History<'_> {
    fn new<'a>(random: &mut Random, counts: &'a mut Counts) -> History<'a> {
        let (distance_bits, time_bits) = random.pick(&NARROW).unwrap();
        let widths = Widths::new(distance_bits, time_bits).unwrap();
        let records = random.pick(&RECORDS).unwrap();
        let opening: Vec<u64> = (0..records).map(|_| random.number()).collect();
        let (start, plan) = (random.below(widths.greatest_time() + 1), sound_plan(random));
        let mut monitor = Monitor::new(widths, &opening);
        assert_eq!(monitor.setup(start, plan), Answer::Ready(records));
        let (judge, crowd) = (Judge::new(&opening, plan), Crowd::new(random, records));
        History { monitor, judge, crowd, counts }
    }

    fn call(&mut self, call: Call) -> Answer {
        let before = self.words();
        let answer = self.monitor.answer(&call);
        self.counts.answers.count(answer);
        if let Answer::Checked(record) = answer {
            let (before, after) = (before[record as usize], self.words()[record as usize]);
            self.counts.shifts += u64::from(before.write_time() != after.write_time());
        }
        self.judge.observe(&call, answer).unwrap();
        self.crowd.hear(&call, answer);
        answer
    }

    fn words(&self) -> Vec<Word> {
        self.monitor.tables().unwrap().records.iter().map(|record| record.word).collect()
    }

    /// Advances every seat until none is held.
    fn settle(&mut self) {
        for Holder { owner, seat, .. } in self.crowd.holders().to_vec().into_iter().rev() {
            to_the_end(|| self.call(Call::Advance { owner, seat })).unwrap();
        }
        assert!(!self.judge.store_is_left());
    }

    fn judged(&mut self) {
        self.judge.verdict(&self.monitor.values()).unwrap();
        let sealed = self.judge.sealed();
        self.counts.out_of_order += u64::from(!sealed.is_sorted_by_key(|sealed| sealed.time));
        match self.judge.store_is_left() {
            true => self.counts.ended_storing += 1,
            false => self.counts.ended_stored += 1,
        }
    }
}

fn run_history(random: &mut Random, counts: &mut Counts) {
    let mut history = History::new(random, counts);
    for _ in 0..100 + random.below(300) {
        let call = history.crowd.next_call(random);
        history.call(call);
    }
    if random.once_in(2) {
        history.settle();
    }
    history.judged();
}

#[test]
fn random_histories_are_lawful_and_serial() {
    let mut counts = Counts::default();
    each_seed(0..40_000, |random| run_history(random, &mut counts));
    at_least("write times moved by an extension", counts.shifts, 20_000);
    at_least(
        "histories sealed in another order than their serial one",
        counts.out_of_order,
        20_000,
    );
    at_least("histories with no store left", counts.ended_stored, 20_000);
    at_least("histories with a store left", counts.ended_storing, 5_000);
    for (abort, least) in [(21, 50_000), (22, 10_000), (23, 5_000), (24, 20_000)] {
        counts.answers.met_often(&format!("aborted {abort}"), least);
    }
    for (refusal, least) in [(6, 20_000), (7, 200_000), (8, 1_000), (9, 10_000), (10, 50_000)] {
        counts.answers.met_often(&format!("refused {refusal}"), least);
    }
    for spelling in ["seat", "value", "noted", "checked", "stored", "done", "dropped"] {
        counts.answers.met_often(spelling, 100_000);
    }
}
