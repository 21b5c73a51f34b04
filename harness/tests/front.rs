//! `tape run`, `show` and `try` with the proved program: its lines unchanged, what they mean, what
//! is left at the end, and how the output may be lost.

mod called;

use std::collections::{BTreeMap, BTreeSet};
use std::fs::{self, File};
use std::io::{BufRead, BufReader, Read, Write};
use std::iter;
use std::path::PathBuf;
use std::process::{Command, Stdio};

use called::{TAPE, Told, tape, told, told_into};
use second::answer_counts::{AnswerCounts, FROM_A_TAPE, FROM_SETUP};
use second::load::ORDINARY;
use second::outside::{self, PATIENCE, assert_second_tells};
use second::program::{self, Program};
use second::random::{each_seed, seeds};
use second::stored::{self, Stored};
use second::tape::{VERSION, calls};
use second::{lively, meaning, text, typed, words};

/// The column at which a total begins.
const TOTAL: usize = 16;

fn monitor() -> PathBuf {
    outside::monitor().unwrap_or_else(|error| panic!("{error}"))
}

fn front(arguments: &[&str]) -> Command {
    tape(&monitor(), arguments)
}

/// The stored tapes, each with its file.
fn files() -> Vec<(Stored, String)> {
    let stored = stored::all().unwrap_or_else(|error| panic!("{error}"));
    let with_file = |stored: Stored| {
        let ending = if stored.name.starts_with("faults/") { "hex" } else { "txt" };
        let file = stored::file(&format!("tapes/{}.{ending}", stored.name));
        (stored, file.to_str().expect("a plain path").to_string())
    };
    stored.into_iter().map(with_file).collect()
}

/// Plays a stored tape from its file and, where its first byte says that it is a tape, as it is.
fn run_both_ways(stored: &Stored, file: &str) -> Vec<Told> {
    let from_file = told(front(&["run", file]), b"");
    let is_told = stored.tape.first() == Some(&VERSION);
    let from_input = is_told.then(|| told(front(&["run"]), &stored.tape));
    iter::once(from_file).chain(from_input).collect()
}

/// 0 where the tape ended, and 1 where it was stopped.
fn status_of(lines: &str) -> Option<i32> {
    let stopped = lines.lines().last().is_some_and(|line| line.starts_with("stopped "));
    Some(i32::from(stopped))
}

#[test]
fn every_stored_tape_is_run_to_its_lines() {
    let mut statuses = BTreeSet::new();
    for (stored, file) in files() {
        let Stored { name, lines, .. } = &stored;
        for Told { output, errors, status } in run_both_ways(&stored, &file) {
            assert_eq!((output.as_str(), errors.as_str()), (lines.as_str(), ""), "tapes/{name}");
            assert_eq!(status, status_of(lines), "tapes/{name}");
            statuses.extend(status);
        }
    }
    assert_eq!(statuses, BTreeSet::from([0, 1]));
}

#[test]
fn every_stored_account_is_shown() {
    let shown = [stored::names("", "shown"), stored::names("faults/", "shown")];
    let shown: Vec<String> = shown.into_iter().flat_map(|names| names.expect("names")).collect();
    let mut compared = 0;
    for (Stored { name, lines, .. }, file) in files() {
        if !shown.contains(&name) {
            continue;
        }
        let expected = fs::read_to_string(stored::file(&format!("tapes/{name}.shown")));
        let told = told(front(&["show", &file]), b"");
        assert_eq!(told.output, expected.expect("the account is there"), "tapes/{name}");
        assert_eq!((told.errors.as_str(), told.status), ("", status_of(&lines)), "tapes/{name}");
        compared += 1;
    }
    assert_eq!((compared, compared >= 6), (shown.len(), true), "an account without its tape");
}

/// An account without its totals: the rows below the heading.
fn rows(account: &str) -> Vec<&str> {
    let (rows, _) = account.split_once("\n\n").expect("totals after an empty line");
    rows.lines().skip(1).collect()
}

#[test]
fn every_answer_and_every_number_is_met_with_its_words() {
    let mut answers = AnswerCounts::default();
    let mut met = String::new();
    for (Stored { name, lines, .. }, file) in files() {
        let account = told(front(&["show", &file]), b"").output;
        let rows = rows(&account);
        assert_eq!(rows.len(), lines.lines().count(), "tapes/{name}");
        for (row, line) in rows.iter().zip(lines.lines()) {
            let numbered = line.split_once(' ').filter(|(first, _)| first.parse::<u64>().is_ok());
            let (number, answer) = numbered.unwrap_or(("", line));
            assert!(row.contains(&format!(" {number}  ")), "tapes/{name}: {row}");
            assert!(row.contains(&format!("  {answer}  ")), "tapes/{name}: {row}");
        }
        answers.count_lines(&lines);
        met += &rows.join("\n");
    }
    answers.met(&[&FROM_SETUP[..], &FROM_A_TAPE].concat());
    for table in [&meaning::REFUSED[..], &meaning::ABORTED, &meaning::STOPPED] {
        for &(number, _) in table {
            let words = words::sentence(table, number).expect("a sentence");
            assert_eq!(met.contains(&words), number != 3, "{number}: {words}");
        }
    }
}

/// The totals of an account by their names; a folded one as one line.
fn totals(account: &str) -> BTreeMap<String, String> {
    let (_, totals) = account.split_once("\n\n").expect("totals after an empty line");
    let mut whole: Vec<(String, String)> = Vec::new();
    for line in totals.lines() {
        let (name, told) = line.split_at_checked(TOTAL).expect("a name and its total");
        match (name.trim(), whole.last_mut()) {
            ("", Some((_, before))) => *before += &format!(" {told}"),
            (name, _) => whole.push((name.to_string(), told.to_string())),
        }
    }
    whole.into_iter().collect()
}

/// The pairs of numbers of a list, as `seat 3 of owner 0, seat 5 of owner 1`.
fn pairs(list: &str) -> Vec<(u64, u64)> {
    let numbers = |item: &str| {
        let mut numbers = item.split(' ').filter_map(|word| word.parse().ok());
        Some((numbers.next()?, numbers.next()?))
    };
    list.split(", ").filter_map(numbers).collect()
}

/// The records that are not 0 and the seats that are open, each with its owner, as the second
/// program's tables have them after this tape.
fn left_by(tape: &[u8]) -> [Vec<(u64, u64)>; 2] {
    let mut program = Program::before_setup();
    for call in calls(tape).expect("a tape without faults") {
        program.answer(&call);
    }
    let Some(tables) = program.monitor().tables() else {
        return [vec![], vec![]];
    };
    let values = (0..).zip(tables.values()).filter(|&(_, value)| value != 0);
    let rows = (0..).zip(tables.rows.iter()).filter(|(_, row)| !row.is_free());
    [values.collect(), rows.map(|(seat, row)| (seat, row.owner)).collect()]
}

/// How often each answer of the totals is in the lines, without those that are not.
fn counted(lines: &str) -> BTreeMap<String, u64> {
    let mut counted = BTreeMap::new();
    for line in lines.lines() {
        let parts: Vec<&str> = line.split(' ').collect();
        let name = match parts[..] {
            [_, word @ ("done" | "dropped"), _] => word.to_string(),
            [_, word @ ("refused" | "aborted"), number] => format!("{word} {number}"),
            _ => continue,
        };
        *counted.entry(name).or_default() += 1;
    }
    counted
}

/// What `show` tells at the end is what the second program's tables have, and what the lines say.
#[test]
fn what_is_left_and_the_totals_are_true() {
    let (mut left, mut open) = (0, 0);
    each_seed(seeds(300), |random| {
        let tape = lively::tape(random, 200);
        let mut told = totals(&told(front(&["show"]), &tape).output);
        let records = pairs(&told.remove("records").expect("records"));
        let seats = pairs(&told.remove("still open").expect("open seats"));
        left += records.len();
        open += seats.len();
        assert_eq!([records, seats], left_by(&tape));
        let lines = program::play_bytes(&tape).expect("memory can be written");
        let told = told.into_iter().map(|(name, count)| (name, count.parse().expect("a number")));
        let told: BTreeMap<String, u64> = told.filter(|&(_, count)| count > 0).collect();
        assert_eq!(told, counted(&String::from_utf8_lossy(&lines)));
    });
    assert!(left >= 300 && open >= 300, "only {left} records and {open} seats");
}

/// What stands for a call in its row.
fn call_shown(call: &str) -> String {
    let shown = told(front(&["show"]), call.as_bytes());
    let row = rows(&shown.output)[0];
    let (_, call) = row.split_once("   1   1  ").expect("the call's line and number");
    call.split_once("  ").expect("two columns").0.to_string()
}

#[test]
fn a_call_is_shown_whole_with_one_blank_between_its_words() {
    assert_eq!(call_shown("\topen   0 # mine"), "open 0");
    let numbers = " 1".repeat(16);
    let setup = format!("setup 1024 start 0 shares{numbers} limits{numbers}");
    for whole in ["write 0 0 1023 12345678901", "write 0 0 1023 123456789012", &setup] {
        assert_eq!(call_shown(whole), whole);
    }
}

/// From line 10000 and call 100 on, a place is wider than its heading, and every row leaves it room.
#[test]
fn places_have_a_column_as_wide_as_the_last() {
    let text = "\n".repeat(9_998) + "open 0\nopen 0\n";
    let tape = text::to_tape(&"open 0\n".repeat(100)).expect("a good tape");
    let of_text = [" line  no  call  ", " 9999   1  open 0  ", "10000   2  open 0  "];
    let of_tape = [" no  call  ", " 99  open 0  ", "100  open 0  "];
    for (input, expected) in [(text.as_bytes(), of_text), (&tape, of_tape)] {
        let shown = told(front(&["show"]), input).output;
        for row in expected {
            assert!(shown.lines().any(|line| line.starts_with(row)), "{row}");
        }
    }
}

#[test]
fn without_a_setup_there_are_no_records() {
    let shown = told(front(&["show"]), b"open 0\n").output;
    assert!(shown.ends_with("records         there are none\n"), "{shown}");
}

#[test]
fn long_tapes_come_through_whole() {
    let tape = ORDINARY.tape(200_000);
    let run = told(front(&["run"]), &tape);
    assert_second_tells(&tape, &run.output);
    assert_eq!((run.errors.as_str(), run.status), ("", Some(0)));
    let shown = told(front(&["show"]), &tape);
    assert_eq!(rows(&shown.output).len(), 200_001);
    assert_eq!(shown.status, Some(0));
}

#[test]
fn an_output_that_is_full() {
    for command in ["run", "show", "try"] {
        let full = File::options().write(true).open("/dev/full").expect("a device that is full");
        let Told { errors, status, .. } = told_into(full, front(&[command]), b"open 0\n");
        let full = "tape: the lines can't be written: there is no room left\n";
        assert_eq!((errors.as_str(), status), (full, Some(2)), "{command}");
    }
}

/// The reader takes one line of many and goes.
#[test]
fn a_reader_that_goes_away() {
    let tape = ORDINARY.tape(100_000);
    for command in ["run", "show"] {
        let mut front = front(&[command]);
        front.stdin(Stdio::piped()).stdout(Stdio::piped()).stderr(Stdio::piped());
        let mut front = outside::start(&mut front).unwrap_or_else(|error| panic!("{error}"));
        let mut input = front.stdin.take().expect("its input is piped");
        let output = front.stdout.take().expect("its output is piped");
        let read = outside::within(PATIENCE, &mut front, || {
            input.write_all(&tape).expect("it takes the tape");
            drop(input);
            BufReader::new(output).read_line(&mut String::new())
        });
        assert!(read.flatten().is_ok_and(|length| length > 0), "{command}");
        let status = outside::ended(&mut front).expect("it ends");
        let mut errors = String::new();
        front
            .stderr
            .take()
            .expect("its errors are piped")
            .read_to_string(&mut errors)
            .expect("text");
        let gone = "tape: the lines can't be written: nobody reads on\n";
        assert_eq!((errors.as_str(), status.code()), (gone, Some(2)), "{command}");
    }
}

#[test]
fn an_input_that_cannot_be_read_is_told() {
    let folder = env!("CARGO_TARGET_TMPDIR");
    for command in ["run", "show", "try"] {
        let mut unread = Command::new("sh");
        unread.args(["-c", "exec \"$0\" \"$1\" < \"$2\"", TAPE, command, folder]);
        unread.env("MONITOR", monitor());
        let Told { errors, status, .. } = told(unread, b"");
        assert!(errors.starts_with("tape: standard input: "), "{command}: {errors}");
        assert_eq!((errors.lines().count(), status), (1, Some(2)), "{command}");
    }
}

#[test]
fn a_stack_that_is_too_small_is_told() {
    for command in ["run", "show", "try"] {
        let mut small = Command::new("sh");
        small.args(["-c", "ulimit -s 700; exec \"$0\" \"$1\"", TAPE, command]);
        small.env("MONITOR", monitor());
        let Told { errors, status, .. } = told(small, b"open 0\n");
        assert!(errors.starts_with("tape: the monitor was ended by signal 11: "), "{errors}");
        assert_eq!(status, Some(2), "{command}");
    }
}

/// What the program prints in a terminal, where this is typed.
fn in_a_terminal(arguments: &[&str], no_color: Option<&str>, typed: &[u8]) -> String {
    let mut python = Command::new("python3");
    python.args(["-c", "import pty, sys; pty.spawn(sys.argv[1:])", TAPE]).args(arguments);
    python.env("MONITOR", monitor()).env_remove("NO_COLOR");
    python.envs(no_color.map(|said| ("NO_COLOR", said)));
    told(python, typed).output.replace("\r\n", "\n")
}

#[test]
fn colour_is_for_terminals_and_stands_beside_the_word() {
    let file = stored::file("tapes/refused-35.txt");
    let arguments = ["show", file.to_str().expect("a plain path")];
    let plain = told(front(&arguments), b"").output;
    assert!(!plain.contains('\x1b'));
    let coloured = in_a_terminal(&arguments, None, b"");
    assert_eq!(coloured.matches("\x1b[33mrefused\x1b[0m 35").count(), 3);
    assert_eq!(in_a_terminal(&arguments, Some(""), b""), coloured);
    assert_eq!(in_a_terminal(&arguments, Some("0"), b""), plain);
    let words = coloured.replace("\x1b[0m", "");
    let words = (31..=34).fold(words, |words, code| words.replace(&format!("\x1b[{code}m"), ""));
    assert_eq!(words, plain);
}

#[test]
fn calls_are_prompted_for_in_a_terminal_alone() {
    let prompted = in_a_terminal(&["try"], Some("1"), b"open 0\nquit\n");
    assert!(prompted.contains("\n> "), "{prompted}");
    assert!(prompted.contains("refused 1       there are no records"), "{prompted}");
    // The end of the input is typed behind a prompt.
    let ended = in_a_terminal(&["try"], Some("1"), b"\x04");
    assert!(ended.contains("\nend 0 "), "{ended}");
    assert!(!told(front(&["try"]), b"open 0\n").output.contains("> "));
}

#[test]
fn typed_calls_are_answered_with_their_words() {
    let typed = b"setup 2 start 0 shares 1 limits 1\n\n# a remark\nopen 0 # mine\nopne 0\n\
                  open 0\nwrite 0 0 1 7\nread 0 0 1\n\xff\nadvance 0 0";
    let Told { output, errors, status } = told(front(&["try"]), typed);
    let (hint, rest) = output.split_once('\n').expect("a hint");
    assert!(hint.contains("'setup 2 start 0 shares 1 limits 1'") && hint.contains("'help'"));
    let (talk, totals) = rest.split_once("end 6 ").expect("the last line");
    let (mistakes, answers): (Vec<&str>, Vec<&str>) =
        talk.lines().partition(|line| line.starts_with("not sent: "));
    assert_eq!(mistakes.len(), 2);
    let expected = [
        "ready 2         2 records, all 0, at time 0",
        "seat 0          owner 0 has seat 0",
        "refused 6       the owner holds as many seats as its limit allows",
        "noted 1         seat 0 is to write 7 to record 1",
        "value 7         record 1 is 7, as this seat is to write it",
        "locked 1        seat 0 has locked record 1",
    ];
    assert_eq!(answers, expected);
    assert!(totals.ends_with("still open      seat 0 of owner 0\nrecords         all are 0\n"));
    assert_eq!((errors.as_str(), status), ("", Some(0)));
}

/// Each answer comes before the next call is typed.
#[test]
fn typed_calls_are_answered_at_once() {
    let mut front = front(&["try"]);
    front.stdin(Stdio::piped()).stdout(Stdio::piped());
    let mut front = outside::start(&mut front).unwrap_or_else(|error| panic!("{error}"));
    let mut input = front.stdin.take().expect("its input is piped");
    let mut lines = BufReader::new(front.stdout.take().expect("its output is piped")).lines();
    let talked = outside::within(PATIENCE, &mut front, || {
        lines.next().expect("a hint").expect("text");
        for (call, answer) in [("open 0\n", "refused 1 "), ("advance 1 2\n", "refused 1 ")] {
            input.write_all(call.as_bytes()).expect("it takes the call");
            assert!(lines.next().expect("an answer").expect("text").starts_with(answer));
        }
        input.write_all(b"quit\n").expect("it takes the end");
        lines.count()
    });
    // The last line, an empty one and six totals.
    assert_eq!(talked.expect("it answers"), 8);
    assert_eq!(outside::ended(&mut front).expect("it ends").code(), Some(0));
}

#[test]
fn help_and_the_end_may_be_asked_for_in_more_than_one_way() {
    for help in ["help", "Help", " ? # what now"] {
        assert!(told(front(&["try"]), help.as_bytes()).output.contains(typed::HELP), "{help}");
    }
    for quit in ["quit", "QUIT", "exit"] {
        let output = told(front(&["try"]), format!("{quit}\nopen 0").as_bytes()).output;
        assert!(output.contains("\nend 0 ") && !output.contains("not sent"), "{quit}: {output}");
    }
}

/// Every example of the help is a call that can be typed in turn and is not refused.
#[test]
fn the_examples_of_the_help_can_be_typed() {
    let lines: Vec<&str> = typed::HELP.lines().map(str::trim).collect();
    let is_call = |line: &&str| text::parse_line(line).is_ok_and(|call| call.is_some());
    let examples: Vec<&str> = lines.iter().copied().filter(is_call).collect();
    let names = ["setup", "open", "read", "write", "advance", "abandon"];
    assert_eq!(
        examples.iter().map(|call| call.split(' ').next()).collect::<Vec<_>>(),
        names.map(Some)
    );
    let tried = told(
        front(&["try"]),
        format!("help # all\n{}\nquit # now\nno more", examples.join("\n")).as_bytes(),
    );
    assert!(tried.output.contains(typed::HELP) && !tried.output.contains("not sent"));
    let told = totals(&tried.output);
    assert_eq!((told["refused"].as_str(), told["dropped"].as_str()), ("0", "1"));
}
