//! What an account is made of: a line's parts, the words of an answer, and colour.

use std::ffi::OsStr;

use second::answer::Answer;
use second::colour::Colour;
use second::line::{Ending, Line};
use second::observer::Observer;
use second::page::Page;
use second::text::parse_line;
use second::words;

/// The words of these calls, each with its answer behind a colon. None where it has none.
fn words_of(told: &[&str]) -> Vec<Option<String>> {
    let mut observer = Observer::default();
    let words = |told: &&str| {
        let (call, answer) = told.split_once(": ").expect("a call, a colon, an answer");
        let call = parse_line(call).expect(call).expect(call).call();
        let Some(Line::Answer { answer, .. }) = Line::parse(&format!("1 {answer}")) else {
            panic!("'{answer}' is no answer");
        };
        let words = words::answered(&observer, &call, answer);
        observer.hear(&call, answer);
        words
    };
    told.iter().map(words).collect()
}

fn last_words(told: &[&str]) -> Option<String> {
    words_of(told).pop().flatten()
}

#[test]
fn a_line_says_one_thing() {
    let answer = |call, answer| Some(Line::Answer { call, answer });
    assert_eq!(Line::parse("12 timed 3"), answer(12, Answer::Timed(3)));
    assert_eq!(Line::parse("1 aborted 24"), answer(1, Answer::Aborted(24)));
    assert_eq!(Line::parse("end 12"), Some(Line::End { calls: 12 }));
    let stopped = Line::Stopped { fault: 33, offset: 5 };
    assert_eq!(Line::parse("stopped 33 5"), Some(stopped));
    assert_eq!(stopped.ending(), Some(Ending::Stopped));
    assert_eq!(Line::parse("1 done 0").and_then(Line::ending), None);
    for odd in ["", "end", "end x", "end 1 2", "stopped 33", "1 ended 0", "1 done", " 1 done 0"] {
        assert_eq!(Line::parse(odd), None, "'{odd}'");
    }
}

/// Every spelling of an answer leads back to it.
#[test]
fn every_answer_is_known_by_its_word() {
    let spellings = [
        "ready", "seat", "value", "noted", "locked", "timed", "checked", "sealed", "stored",
        "done", "dropped", "refused", "aborted",
    ];
    for spelling in spellings {
        let answer = Answer::spelled(spelling, 9).expect(spelling);
        assert_eq!(answer.to_string(), format!("{spelling} 9"));
    }
    assert_eq!(Answer::spelled("end", 9), None);
}

/// A record that is read again is told as the seat knows it, though another has stored over it.
#[test]
fn a_second_read_tells_what_the_seat_knows() {
    let (open, read) = ("open 0: seat 0", "read 0 0 5: value 7");
    assert_eq!(last_words(&[open, read]).as_deref(), Some("record 5 is 7"));
    let again = last_words(&[open, read, read]);
    assert_eq!(again.as_deref(), Some("record 5 was 7 when this seat first read it"));
    let own = last_words(&[open, read, "write 0 0 5 9: noted 5", "read 0 0 5: value 9"]);
    assert_eq!(own.as_deref(), Some("record 5 is 9, as this seat is to write it"));
    // A seat that was given back has read nothing.
    let anew = last_words(&[open, read, "abandon 0 0: dropped 0", open, read]);
    assert_eq!(anew.as_deref(), Some("record 5 is 7"));
}

#[test]
fn one_record_and_one_call_are_not_many() {
    let setup = "setup 1 start 4 shares 1 limits 1: ready 1";
    assert_eq!(last_words(&[setup]).as_deref(), Some("1 record, which is 0, at time 4"));
    assert_eq!(words::ended(1), "the tape ended after 1 call");
    assert_eq!(words::ended(0), "the tape ended after 0 calls");
}

#[test]
fn an_abort_says_why_and_what_became_of_the_seat() {
    let words = last_words(&["open 0: seat 2", "advance 0 2: aborted 21"]).expect("words");
    assert!(words.starts_with("another seat has locked "), "{words}");
    assert!(words.ends_with("; seat 2 is free again and wrote nothing"), "{words}");
}

/// An answer that does not belong to its call, or tells of a seat that nobody holds.
#[test]
fn an_answer_to_another_call_has_no_words() {
    for odd in [
        "open 0: value 0",
        "open 0: ready 1",
        "abandon 0 0: done 0",
        "advance 0 0: locked 0",
        "read 0 0 0: value 0",
        "read 0 0 0: refused 12",
        "advance 0 0: refused 21",
    ] {
        assert_eq!(last_words(&[odd]), None, "{odd}");
    }
    let open = "open 0: seat 0";
    for odd in ["seat 0", "value 0", "dropped 0", "checked 0", "stored 0", "aborted 1"] {
        assert_eq!(last_words(&[open, &format!("advance 0 0: {odd}")]), None, "{odd}");
    }
}

/// A store of 0 leaves a record as it was at the beginning.
#[test]
fn a_record_that_is_0_again_is_not_told_as_changed() {
    let mut observer = Observer::default();
    let mut changed = Vec::new();
    for value in [7, 0] {
        let write = format!("write 0 0 3 {value}");
        let told = [("open 0", Answer::Seat(0)), (&write, Answer::Noted(3))];
        let stored = [("advance 0 0", Answer::Stored(3)), ("advance 0 0", Answer::Done(1))];
        for (call, answer) in told.into_iter().chain(stored) {
            observer.hear(&parse_line(call).expect(call).expect(call).call(), answer);
        }
        changed.push(observer.changed().collect::<Vec<_>>());
    }
    assert_eq!(changed, [vec![(3, 7)], vec![]]);
    assert_eq!(observer.open_seats().count(), 0);
}

/// A list of these items, in the totals of an account.
fn list(items: &[&str]) -> String {
    let mut written = Vec::new();
    let mut page = Page::new(&mut written, Colour::Off);
    page.list("records", items.iter().copied()).expect("memory can be written");
    String::from_utf8(written).expect("text")
}

#[test]
fn a_line_of_a_list_has_at_most_120_characters() {
    let [x, y, longer] = [("x", 51), ("y", 50), ("y", 51)].map(|(of, times)| of.repeat(times));
    let (name, below) = ("records         ", " ".repeat(16));
    let whole = format!("{name}{x} {y} z\n");
    assert_eq!((list(&[&x, &y, "z"]), whole.len()), (whole, 121));
    assert_eq!(list(&[&x, &longer, "z"]), format!("{name}{x} {longer}\n{below}z\n"));
    assert_eq!(list(&["z", &x, &longer, &y]), format!("{name}z {x}\n{below}{longer} {y}\n"));
}

#[test]
fn colour_is_wanted_in_a_terminal_unless_it_is_refused() {
    assert_eq!(Colour::wanted(true, None), Colour::On);
    assert_eq!(Colour::wanted(true, Some(OsStr::new(""))), Colour::On);
    assert_eq!(Colour::wanted(true, Some(OsStr::new("0"))), Colour::Off);
    assert_eq!(Colour::wanted(false, None), Colour::Off);
}

/// Red for what was thrown out, green for what came to its end, yellow and blue for the others.
#[test]
fn a_word_that_says_what_came_of_a_call_has_its_colour() {
    for (outcome, colour) in [
        ("aborted 21", 31),
        ("stopped 33 5", 31),
        ("done 3", 32),
        ("end 4", 32),
        ("refused 2", 33),
        ("dropped 0", 34),
    ] {
        let (word, rest) = outcome.split_once(' ').expect("a word and a number");
        assert_eq!(Colour::On.paint(outcome), format!("\x1b[{colour}m{word}\x1b[0m {rest}"));
        assert_eq!(Colour::Off.paint(outcome), outcome);
    }
    assert_eq!(Colour::On.paint("noted 3"), "noted 3");
}
