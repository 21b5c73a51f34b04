//! Loading and unloading: any three tables come back bit for bit.

use second::answer::Answer;
use second::crowd::stray_call;
use second::flat::{Flat, ROW, SEAT_TABLE};
use second::monitor::Monitor;
use second::odd;
use second::random::{Random, each_seed};

fn numbers(random: &mut Random, length: usize) -> Vec<u64> {
    (0..length).map(|_| random.number()).collect()
}

fn comes_back(tables: &Flat) {
    assert_eq!(Monitor::load(tables).unload(), *tables);
}

#[test]
fn lengths_of_the_document() {
    assert_eq!(ROW, 86);
    assert_eq!(SEAT_TABLE, 5536);
}

#[test]
fn any_contents_come_back() {
    each_seed(0..1000, |random| {
        let count = 1 + random.below(1024) as usize;
        let (values, words) = (numbers(random, count), numbers(random, count));
        let tables = Flat { values, words, seats: numbers(random, SEAT_TABLE) };
        assert!(Monitor::load(&tables).tables().is_some());
        comes_back(&tables);
    });
}

#[test]
fn odd_tables_come_back() {
    each_seed(0..1000, |random| comes_back(&odd::tables(random)));
}

#[test]
fn wrong_lengths_come_back_and_refuse_every_call() {
    each_seed(0..1000, |random| {
        let lengths = [0, 1, 2, 1024, 1025];
        let (values, words) = (random.pick(&lengths).unwrap(), random.pick(&lengths).unwrap());
        let seats = if values == words && (1..=1024).contains(&values) {
            random.pick(&[0, ROW, SEAT_TABLE - 1, SEAT_TABLE + 1]).unwrap()
        } else {
            SEAT_TABLE
        };
        let (values, words) = (numbers(random, values), numbers(random, words));
        let tables = Flat { values, words, seats: numbers(random, seats) };
        comes_back(&tables);
        let mut monitor = Monitor::load(&tables);
        for _ in 0..8 {
            assert_eq!(monitor.answer(&stray_call(random, 3)), Answer::Refused(1));
        }
        assert_eq!(monitor.unload(), tables);
    });
}
