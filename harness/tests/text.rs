//! The text tape: round trips both ways, canonical text, and errors that a trainer can act on.

use std::fs;

use second::clock::Widths;
use second::lively::any_call;
use second::meaning::{STOPPED, meaning};
use second::plan::{OWNERS, SEATS};
use second::program::play_bytes;
use second::random::{Random, each_seed};
use second::tape::{TapeCall, calls, encode};
use second::text::Written;
use second::{hex, stored, text};

/// The errors of a text, one to a line.
fn errors(text: &str) -> String {
    text::to_tape(text).expect_err(text).to_string()
}

/// Asserts what is told of one line.
fn told(line: &str, what: &str) {
    assert_eq!(errors(line), format!("line 1: {what}"), "{line}");
}

#[test]
fn tapes_come_back() {
    each_seed(0..2000, |random| {
        let made: Vec<TapeCall> = (0..random.below(40)).map(|_| any_call(random)).collect();
        let tape = encode(&made);
        assert_eq!(calls(&tape).unwrap(), made);
        let text = text::from_tape(&tape).text;
        assert_eq!(text::calls(&text).unwrap(), made);
        assert_eq!(text::to_tape(&text), Ok(tape));
    });
}

#[test]
fn a_call_is_shown_as_text_that_reads_as_the_same_call() {
    each_seed(0..2000, |random| {
        let call = any_call(random);
        assert_eq!(text::parse_line(&call.to_string()), Ok(Some(call)));
    });
}

/// Each is the one spelling of its call.
#[test]
fn canonical_text_stays_as_it_is() {
    for line in [
        "setup 2 start 0 shares 0 limits 0",
        "setup 1024 start 281474976710655 shares 0 1 limits 64 0 0 0 0 0 0 0 0 0 0 0 0 0 0 3",
        "open 15",
        "read 0 63 1023",
        "write 1 2 3 18446744073709551615",
        "advance 0 1",
        "abandon 10 20",
    ] {
        assert_eq!(text::parse_line(line).unwrap().unwrap().to_string(), line);
    }
}

#[test]
fn text_becomes_canonical() {
    let loose = "# a tape\n\n  setup 2 start 2 shares 1 0 limits 2\t2 0 # two owners\r\nopen 0#\n";
    let canonical = "setup 2 start 2 shares 1 limits 2 2\nopen 0\n";
    let tape = text::to_tape(loose).unwrap();
    assert_eq!(text::from_tape(&tape).text, canonical);
    assert_eq!(text::to_tape(canonical), Ok(tape));
}

#[test]
fn a_call_keeps_its_line_and_its_words() {
    let written =
        text::written("# two calls\n\n open  1 # the desk\n# and\r\nadvance 1 0").unwrap();
    let kept: Vec<(usize, &str)> =
        written.iter().map(|call| (call.line, &call.words[..])).collect();
    assert_eq!(kept, [(3, "open  1"), (5, "advance 1 0")]);
}

#[test]
fn shares_and_limits_left_out_are_zero() {
    let (mut shares, mut limits) = ([0; OWNERS], [0; OWNERS]);
    (shares[1], limits[0]) = (1, 3);
    let setup = TapeCall::Setup { count: 2, start: 2, shares, limits };
    assert_eq!(text::calls("setup 2 start 2 shares 0 1 limits 3"), Ok(vec![setup]));
}

/// The rules refuse these numbers when the tape is played, and a lesson may show that.
#[test]
fn numbers_that_the_rules_refuse_can_be_written() {
    let refused = "setup 1025 start 281474976710656 shares 65 limits 65\n\
                   open 16\nread 0 64 2000\nabandon 16 64\n";
    assert_eq!(text::from_tape(&text::to_tape(refused).unwrap()).text, refused);
}

#[test]
fn the_greatest_numbers_fit() {
    let greatest = "setup 65535 start 18446744073709551615 shares 255 limits 0 255\n\
                    write 255 255 65535 18446744073709551615\n";
    assert_eq!(text::from_tape(&text::to_tape(greatest).unwrap()).text, greatest);
}

#[test]
fn a_number_that_does_not_fit_is_told_with_the_range_of_the_rules() {
    let top = Widths::REAL.greatest_time();
    told("open 256", &format!("owner 256: owners are 0 to {}", OWNERS - 1));
    told("advance 0 256", &format!("seat 256: seats are 0 to {}", SEATS - 1));
    told(
        "read 0 0 65536",
        "record 65536: a record is 0 to the record count less one, at most 1023",
    );
    let (wide, greatest) = ("18446744073709551616", u64::MAX);
    told(&format!("write 0 0 0 {wide}"), &format!("value {wide}: values are 0 to {greatest}"));
    told(
        "setup 65536 start 0 shares 0 limits 0",
        "record count 65536: a record count is 1 to 1024",
    );
    told(
        &format!("setup 1 start {wide} shares 0 limits 0"),
        &format!("start {wide}: a start is 0 to {top}"),
    );
    told("setup 2 start 2 shares 1 300 limits 0", &format!("share 300: shares are 0 to {SEATS}"));
    told("setup 2 start 2 shares 1 limits 256", &format!("limit 256: limits are 0 to {SEATS}"));
    told("open 000256", "owner 000256: owners are 0 to 15");
}

#[test]
fn a_word_that_is_no_number_is_told_with_the_reason() {
    told("advance 0 x", "seat 'x' is not a number: seats are 0 to 63");
    told("advance 0 1e3", "seat '1e3' is not a number: seats are 0 to 63");
    told("advance 0 -1", "seat '-1' has a minus: seats are 0 to 63");
    told("advance 0 −1", "seat '−1' has a minus: seats are 0 to 63");
    told("advance 0 –1", "seat '–1' has a minus: seats are 0 to 63");
    told("advance 0 -", "seat '-' is not a number: seats are 0 to 63");
    let plus = "has a plus, and numbers are written without one";
    told("advance +0 1", &format!("owner '+0' {plus}: owners are 0 to 15"));
    let point = "has a decimal point, and numbers are whole";
    told("advance 1.5 1", &format!("owner '1.5' {point}: owners are 0 to 15"));
    told("advance 1. 1", "owner '1.' is not a number: owners are 0 to 15");
    let hex = "begins with 0x, and numbers are written with the digits 0 to 9 alone";
    told("advance 0 0x10", &format!("seat '0x10' {hex}: seats are 0 to 63"));
    told("advance 0 0X10", &format!("seat '0X10' {hex}: seats are 0 to 63"));
    told("open １２", "owner '１２' has other digits than 0 to 9: owners are 0 to 15");
}

#[test]
fn a_comma_is_told_before_anything_else() {
    told("read 0,1,2", "'0,1,2' has a comma: put spaces between numbers, and no commas");
    told("read 0, 1, x", "'0,' has a comma: put spaces between numbers, and no commas");
    told("open，0", "'open，0' has a comma: put spaces between numbers, and no commas");
    assert!(text::to_tape("open 0 # once, and again").is_ok());
}

#[test]
fn a_number_has_one_spelling() {
    told("read 0 0 007", "record 007: write it as 7");
    told("open 00", "owner 00: write it as 0");
    told("setup 002 start 0 shares 0 limits 0", "record count 002: write it as 2");
}

#[test]
fn calls_of_the_wrong_form_are_told_with_an_example() {
    let open = "open takes one number, the owner, but";
    told("open", &format!("{open} here is none; for example: open 0"));
    told("open 1 x", &format!("{open} here are 2; for example: open 0"));
    let read = "read takes three numbers, owner, seat and record, but";
    told("read 0", &format!("{read} here is 1; for example: read 0 0 1"));
    let write = "write takes four numbers, owner, seat, record and value, but";
    told("write 0 0 0", &format!("{write} here are 3; for example: write 0 0 1 7"));
    let advance = "advance takes two numbers, owner and seat, but";
    told("advance 0", &format!("{advance} here is 1; for example: advance 0 0"));
    let abandon = "abandon takes two numbers, owner and seat, but";
    told("abandon 0 0 0", &format!("{abandon} here are 3; for example: abandon 0 0"));
}

/// So no error sends its reader to another error.
#[test]
fn the_examples_in_the_errors_are_good_calls() {
    for wrong in ["setup", "open", "read", "write", "advance", "abandon"] {
        let error = text::parse_line(wrong).expect_err(wrong);
        let (_, example) = error.split_once("for example: ").expect("an example");
        let call = text::parse_line(example).unwrap().expect("a call");
        assert_eq!(call.to_string(), example);
        assert!(example.starts_with(wrong));
    }
}

#[test]
fn a_word_that_is_no_call_is_told_with_the_calls_and_the_nearest() {
    let calls = "the calls are setup, open, read, write, advance, abandon";
    for (word, meant) in [
        ("opne", "open"),
        ("OPNE", "open"),
        ("opened", "open"),
        ("stup", "setup"),
        ("raed", "read"),
        ("wrote", "write"),
        ("avdanec", "advance"),
        ("abandom", "abandon"),
    ] {
        told(word, &format!("'{word}' is not a call: {calls}; did you mean {meant}?"));
    }
    for word in ["close", "seat", "end", "x"] {
        told(word, &format!("'{word}' is not a call: {calls}"));
    }
    for mark in ["//", ";", "--", "—"] {
        let what = format!("'{mark}' is not a call: {calls}; a remark begins with #");
        told(&format!("{mark} early"), &what);
    }
}

#[test]
fn a_call_in_capitals_is_told_with_its_spelling() {
    told("Open 1", "'Open' is not a call: calls are written in small letters, as open");
    told("SETUP", "'SETUP' is not a call: calls are written in small letters, as setup");
}

#[test]
fn the_word_hex_between_calls_is_told() {
    for word in ["hex", "HEX"] {
        let what = "is not a call: a file of hex digits begins with the word hex";
        told(word, &format!("'{word}' {what}"));
    }
}

#[test]
fn a_word_is_shown_short_and_without_unseen_characters() {
    let calls = "the calls are setup, open, read, write, advance, abandon";
    let long = format!("'{}...' is not a call: {calls}", "z".repeat(24));
    told(&"z".repeat(25), &long);
    told("\u{feff}open", &format!("'\\u{{feff}}open' is not a call: {calls}; did you mean open?"));
    told("é\u{202e}'\"\\", &format!("'é\\u{{202e}}'\"\\' is not a call: {calls}"));
}

#[test]
fn a_setup_is_told_which_part_is_missing() {
    let ends = |setup: &str, wanted: &str| {
        let example = "for example: setup 2 start 0 shares 1 1 limits 2 2";
        told(setup, &format!("setup ends where {wanted} is wanted; {example}"));
    };
    ends("setup", "the record count");
    ends("setup 2", "'start'");
    ends("setup 2 start", "the start");
    ends("setup 2 start 0", "'shares'");
    ends("setup 2 start 0 shares 1", "'limits'");
}

#[test]
fn a_setup_is_told_which_part_is_out_of_place() {
    let has = |setup: &str, found: &str, wanted: &str| {
        let example = "for example: setup 2 start 0 shares 1 1 limits 2 2";
        told(setup, &format!("setup has '{found}' where {wanted} is wanted; {example}"));
    };
    has("setup start 0 shares 1 limits 1", "start", "the record count");
    has("setup 2 0 shares 1 limits 1", "0", "'start'");
    has("setup 2 shares 1 limits 1", "shares", "'start'");
    has("setup 2 start shares 1 limits 1", "shares", "the start");
    has("setup 2 start 0 limits 1 shares 1", "limits", "'shares'");
    has("setup 2 start 0 shares 1 Limits 1", "Limits", "'limits'");
    has("setup 2 start 0 shares 1 limit 1", "limit", "'limits'");
    has("setup 2 start 0 shares 1 limits 1 limits 1", "limits", "its end");
}

#[test]
fn a_setup_has_one_to_sixteen_shares_and_limits() {
    let sixteen = "1 ".repeat(16);
    assert!(text::to_tape(&format!("setup 2 start 2 shares {sixteen} limits {sixteen}")).is_ok());
    told(
        &format!("setup 2 start 2 shares 1 {sixteen} limits 1"),
        "setup takes up to sixteen shares, but here are 17",
    );
    told(
        &format!("setup 2 start 2 shares 1 limits 1 1 {sixteen}"),
        "setup takes up to sixteen limits, but here are 18",
    );
    told(
        "setup 2 start 2 shares limits 1",
        "'shares' has no number: write at least one, as shares 0",
    );
    told(
        "setup 2 start 2 shares 1 limits",
        "'limits' has no number: write at least one, as limits 0",
    );
}

#[test]
fn all_errors_of_a_text_are_told_at_once() {
    assert_eq!(
        errors("open 256\nopen 0\n\nread x y z # two errors in one line\nread 00 0 0"),
        "line 1: owner 256: owners are 0 to 15\n\
         line 4: owner 'x' is not a number: owners are 0 to 15\n\
         line 5: owner 00: write it as 0"
    );
}

#[test]
fn twenty_errors_are_told_and_the_others_counted() {
    let many = |count: usize| errors(&"open 256\n".repeat(count));
    assert_eq!(many(20).lines().count(), 20);
    assert_eq!(many(21).lines().last(), Some("1 more error"));
    let told = many(25);
    let lines: Vec<&str> = told.lines().collect();
    assert_eq!(lines.len(), 21);
    assert_eq!(lines[19], "line 20: owner 256: owners are 0 to 15");
    assert_eq!(lines[20], "5 more errors");
}

#[test]
fn a_line_that_ends_as_on_an_old_mac_is_told() {
    let mac = "the line ends as on an old Mac: save the file with Unix or Windows line ends";
    told("# two calls\ropen 0\ropen 1\r", mac);
    told("open 0\ropen 1", mac);
    assert_eq!(text::to_tape("open 0\r\nopen 1\r\n\r\n"), text::to_tape("open 0\nopen 1"));
    assert_eq!(text::to_tape("open 0\r"), text::to_tape("open 0"));
}

#[test]
fn a_character_that_is_not_seen_is_told_in_a_remark_too() {
    told("# bell \u{7}", "the character \\u{7} can't be seen: take it out");
    told("open\0 0", "the character \\0 can't be seen: take it out");
    for unseen in ["\u{b}", "\u{85}", "\u{2028}", "\u{2029}"] {
        let what = format!("the character {} can't be seen: take it out", unseen.escape_debug());
        told(&format!("# remark{unseen}open 0"), &what);
    }
}

#[test]
fn a_faulty_tape_is_text_up_to_its_fault() {
    let good = [1, 0, 2, 1, 0];
    for (bytes, number, offset) in [
        (&[0, 3, 4, 0][..], 32, 5),
        (&[0, 2, 1, 7, 0], 32, 9),
        (&[0, 1, 1], 33, 5),
        (&[0, 1, 6, 0, 2, 1, 0], 34, 5),
    ] {
        let decoded = text::from_tape(&[&good[..], bytes].concat());
        let calls = if offset == 9 { "open 0\nopen 7\n" } else { "open 0\n" };
        let sentence = meaning(&STOPPED, number).expect("a sentence");
        let remark = format!("stopped {number} at byte {offset}: {sentence}");
        assert_eq!(decoded.text, format!("{calls}# {remark}\n"));
        assert_eq!(decoded.stop.expect("a fault").to_string(), remark);
        assert_eq!(text::to_tape(&decoded.text), text::to_tape(calls));
    }
    let none = text::from_tape(&[]).text;
    assert_eq!(none, "# stopped 31 at byte 0: The tape does not begin with the version byte 1.\n");
    assert!(text::from_tape(&good).stop.is_none());
}

/// Pieces of which good lines, wrong lines and much between them can be made.
const PIECES: &str = "setup 2 start 0 shares 1 limits 1|setup |start |shares |limits |limit|open |\
                      read |write |advance |abandon |Open|opne|hex | |\t|\n|\n|\r|\r\n|#|0|1 |\
                      0 0 0|007|256|99999999999999999999|-1|+|0x|１|,|é|\u{feff}|\0|\u{2028}";

fn random_text(random: &mut Random) -> String {
    let pieces: Vec<&str> = PIECES.split('|').collect();
    (0..random.below(12)).filter_map(|_| random.pick(&pieces)).collect()
}

#[test]
fn any_text_is_read_or_told_what_is_wrong() {
    let mut read = 0;
    each_seed(0..20_000, |random| {
        let text = random_text(random);
        match text::written(&text) {
            Ok(written) => {
                let calls: Vec<TapeCall> = written.iter().map(|written| written.call).collect();
                assert_eq!(text::calls(&text::from_tape(&encode(&calls)).text), Ok(calls));
                read += 1;
            }
            Err(errors) => {
                let errors = errors.to_string();
                let shown = |error: &str| error.starts_with("line ") && error.len() < 400;
                assert!(errors.lines().all(shown), "{text:?}: {errors}");
                assert!(!errors.contains(['\r', '\0', '\u{feff}', '\u{2028}']), "{text:?}");
            }
        }
    });
    assert!((1000..19_000).contains(&read), "{read} of 20000 texts were good");
}

fn page() -> String {
    fs::read_to_string(stored::file("docs/TAPES.md")).expect("the page is there")
}

/// The blocks of the page that are marked with this word, without their fences.
fn blocks<'a>(page: &'a str, mark: &str) -> Vec<&'a str> {
    let fence = format!("```{mark}\n");
    page.split(&fence[..]).skip(1).filter_map(|rest| rest.split("```").next()).collect()
}

fn block<'a>(page: &'a str, mark: &str) -> &'a str {
    let [block] = blocks(page, mark)[..] else { panic!("one block marked {mark}") };
    block
}

#[test]
fn every_tape_on_the_page_is_good() {
    let page = page();
    let tapes = blocks(&page, "tape");
    assert_eq!(tapes.len(), 3);
    for tape in &tapes {
        assert!(!text::calls(tape).unwrap_or_else(|errors| panic!("{errors}")).is_empty());
    }
    let lines = play_bytes(&text::to_tape(tapes[0]).unwrap()).unwrap();
    assert_eq!(String::from_utf8(lines).unwrap(), block(&page, "lines"));
    let refused = play_bytes(&text::to_tape(tapes[2]).unwrap()).unwrap();
    assert_eq!(refused, b"1 ready 2\n2 refused 2\n3 refused 2\nend 3\n");
}

#[test]
fn the_errors_on_the_page_are_the_ones_that_are_told() {
    let page = page();
    let told = errors(block(&page, "wrong"));
    let told: String = told.lines().map(|error| format!("tape: my.txt: {error}\n")).collect();
    assert_eq!(block(&page, "errors"), told);
}

#[test]
fn the_bytes_on_the_page_are_those_of_the_calls() {
    let page = page();
    assert_eq!(hex::to_bytes(block(&page, "hex")), text::to_tape("open 0"));
    let calls = text::written(blocks(&page, "tape")[1]).unwrap();
    assert_eq!(calls.len(), 6);
    for Written { words, call, .. } in calls {
        let name = words.split(' ').next().unwrap();
        let tape = encode(&[call]);
        let row = format!("| `{name}` | {} | {} |", tape[3], tape.len() - 3);
        assert!(page.contains(&row), "{row}");
    }
    let stored = stored::all().unwrap();
    let cut = stored.iter().find(|stored| stored.name == "faults/32-cut-call").unwrap();
    assert_eq!(block(&page, "decoded"), text::from_tape(&cut.tape).text);
}

#[test]
fn the_ranges_on_the_page_are_those_of_the_rules() {
    let (page, top) = (page(), Widths::REAL.greatest_time());
    for row in [
        format!("| owner | 0 to {} |", OWNERS - 1),
        format!("| seat | 0 to {} |", SEATS - 1),
        format!("| value | 0 to {} |", u64::MAX),
        format!("| start | 0 to {top} |"),
        format!("| share | 0 to {SEATS} |"),
        format!("| limit | 0 to {SEATS} |"),
    ] {
        assert!(page.contains(&row), "{row}");
    }
}
