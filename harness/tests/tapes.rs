//! The stored tapes, and the trainer's page that shows some of them.

use std::fs;

use second::answer_counts::{AnswerCounts, FROM_A_TAPE, FROM_SETUP};
use second::program::play_bytes;
use second::stored::{self, Stored};

fn all() -> Vec<Stored> {
    stored::all().unwrap_or_else(|error| panic!("{error}"))
}

#[test]
fn every_stored_tape_gives_its_lines() {
    let mut answers = AnswerCounts::default();
    for Stored { name, tape, lines } in all() {
        let told = String::from_utf8(play_bytes(&tape).unwrap()).unwrap();
        assert_eq!(told, lines, "tapes/{name}");
        answers.count_lines(&lines);
    }
    answers.met(&[&FROM_SETUP[..], &FROM_A_TAPE].concat());
    assert_eq!(answers.counted("refused 3"), 0, "no tape can reach refusal 3");
}

#[test]
fn no_lines_without_their_tape() {
    let tapes: Vec<String> = all().into_iter().map(|stored| stored.name).collect();
    let lines = [stored::names("", "lines").unwrap(), stored::names("faults/", "lines").unwrap()];
    assert_eq!(lines.concat(), tapes);
}

/// A tape that is named for an answer shows it.
#[test]
fn tapes_show_what_they_are_named_for() {
    for Stored { name, lines, .. } in all() {
        let promised = match name.split_once('-') {
            Some(("refused", number)) => format!(" refused {number}\n"),
            Some(("aborted", number)) => format!(" aborted {number}\n"),
            Some((fault, _)) if name.starts_with("faults/") => {
                format!("stopped {} ", fault.trim_start_matches("faults/"))
            }
            _ => continue,
        };
        assert!(lines.contains(&promised), "tapes/{name} never gives '{}'", promised.trim());
    }
}

/// Each command of the page is followed by a block with the lines that it prints.
#[test]
fn the_lessons_show_stored_lines() {
    let page = fs::read_to_string(stored::file("docs/LESSONS.md")).expect("the page is there");
    let tapes = all();
    let mut lessons = 0;
    for part in page.split("make run TAPE=tapes/").skip(1) {
        let (name, rest) = part.split_once(".txt\n").expect("a command names a text tape");
        let block = rest.split("```").nth(2).expect("a block of lines follows the command");
        let stored = tapes.iter().find(|stored| stored.name == name).expect("a stored tape");
        assert_eq!(block.strip_prefix("text\n"), Some(&stored.lines[..]), "{name}");
        lessons += 1;
    }
    assert_eq!(lessons, 5);
}
