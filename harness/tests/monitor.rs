//! The proved monitor program beside the second program: every line of many tapes must be the
//! same. Each tape is played by a process of its own.

use second::answer_counts::{AnswerCounts, FROM_A_TAPE, FROM_SETUP};
use second::clock::Widths;
use second::lively;
use second::outside;
use second::random::{Random, each_seed, seeds};
use second::stored;

const TOP: u64 = Widths::REAL.greatest_time();

fn told(tape: &[u8]) -> String {
    let told = outside::monitor().and_then(|monitor| outside::told(&monitor, tape));
    told.unwrap_or_else(|error| panic!("{error}"))
}

/// The lines of a tape, which both programs must give.
fn compare(tape: &[u8], answers: &mut AnswerCounts) -> String {
    let lines = told(tape);
    outside::assert_second_tells(tape, &lines);
    answers.count_lines(&lines);
    lines
}

#[test]
fn every_stored_tape_gives_its_lines() {
    for stored in stored::all().unwrap_or_else(|error| panic!("{error}")) {
        assert_eq!(told(&stored.tape), stored.lines, "tapes/{}", stored.name);
    }
}

/// Half of the tapes are damaged, once or twice.
fn compare_lively(random: &mut Random, answers: &mut AnswerCounts) {
    let calls = random.pick(&[20, 80, 80, 300]).unwrap_or(80);
    let mut tape = lively::tape(random, calls);
    for _ in 0..random.pick(&[0, 0, 1, 2]).unwrap_or(0) {
        lively::damage(random, &mut tape);
    }
    compare(&tape, answers);
}

#[test]
fn many_tapes() {
    let (mut tapes, mut answers) = (0, AnswerCounts::default());
    each_seed(seeds(20_000), |random| {
        compare_lively(random, &mut answers);
        tapes += 1;
    });
    println!("{tapes} tapes");
    answers.met(&[&FROM_SETUP[..], &FROM_A_TAPE].concat());
    assert_eq!(answers.counted("refused 3"), 0, "damage from Setup on");
    assert!(answers.calls() >= 1_000_000, "only {} calls", answers.calls());
}

/// Where the distance has no room for it, an extension moves the write time. A seat that has kept
/// the old one is then aborted, though the value is the same.
#[test]
fn an_extension_past_the_greatest_distance() {
    let mut answers = AnswerCounts::default();
    for (time, last) in [
        (32_768, "done 32769\n"),
        (32_769, "done 32770\n"),
        (32_770, "aborted 22\n"),
        (32_771, "aborted 22\n"),
    ] {
        let lines = compare(&lively::far_check(time), &mut answers);
        let (before_end, _) = lines.rsplit_once("end ").expect("the tape ends");
        assert!(before_end.ends_with(last), "not {last} after an extension to {time}");
    }
    answers.met(&["checked", "aborted 22"]);
}

/// One record's time climbs until the words of others can't reach it without moving.
#[test]
fn long_climbs() {
    let (mut moved, mut answers) = (0, AnswerCounts::default());
    each_seed(seeds(4), |random| {
        let (start, commits) = (random.below(3), 32_740 + random.below(60));
        let history = lively::climb(random, start, commits);
        moved += history.moved();
        compare(&history.tape(), &mut answers);
    });
    println!("{moved} write times moved by an extension");
    assert!(moved >= 40, "only {moved} write times moved");
    answers.met(&["checked", "aborted 21", "aborted 22", "aborted 23", "end"]);
}

/// The climb ends at T. After it, reads are done at T and writes are aborted.
#[test]
fn a_climb_to_the_greatest_time() {
    let mut answers = AnswerCounts::default();
    each_seed(seeds(1), |random| {
        let history = lively::climb(random, TOP - 32_800, 40_000);
        let lines = compare(&history.tape(), &mut answers);
        assert!(lines.contains(&format!("done {TOP}\n")), "nothing is done at T");
    });
    answers.met(&["aborted 24", "end"]);
}
