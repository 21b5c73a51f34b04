//! Files that hold tapes: their kind is told by their content, and what is no tape is told well.

use second::random::{Random, each_seed};
use second::source::{Source, source};
use second::tape::encode;
use second::{hex, stored, text};

const BEGINNINGS: &str = "a text tape begins with a call or a remark, hex digits with the word \
                          hex or a digit, and a tape of bytes with the byte 01";

/// Asserts that a file holds a tape of these bytes.
fn holds(file: &[u8], tape: &[u8]) {
    assert_eq!(source(file.to_vec()), Ok(Source::Bytes(tape.to_vec())));
}

/// Asserts that a file holds a text tape of these calls.
fn holds_calls(file: &[u8], calls: &[&str]) {
    let held = source(file.to_vec()).unwrap_or_else(|errors| panic!("{errors:?}"));
    let Source::Text(written) = &held else { panic!("{held:?} is no text") };
    let words: Vec<&str> = written.iter().map(|written| &written.words[..]).collect();
    assert_eq!(words, calls);
    assert_eq!(Ok(held.tape()), text::to_tape(&calls.join("\n")));
}

/// Asserts the one error of a file.
fn told(file: &[u8], what: &str) {
    assert_eq!(source(file.to_vec()), Err(vec![what.to_string()]), "{file:?}");
}

fn utf_16(text: &str, bytes: fn(u16) -> [u8; 2]) -> Vec<u8> {
    text.encode_utf16().flat_map(bytes).collect()
}

#[test]
fn a_file_that_begins_with_byte_1_is_a_tape_of_bytes() {
    for tape in [&[1][..], &[1, 0, 2, 1, 0], b"\x01open 0\n", &[1, 0xff, 0xff]] {
        holds(tape, tape);
    }
}

#[test]
fn a_file_that_begins_with_hex_or_a_digit_is_hex_digits() {
    holds(b"01 0002 0100", &[1, 0, 2, 1, 0]);
    holds(b"# a remark\n\n  0F fe", &[15, 254]);
    holds(b"hex\n01 0002 0100", &[1, 0, 2, 1, 0]);
    holds(b"# a remark\r\nhex ff # the first\r\n00", &[255, 0]);
    holds(b"# nothing\nhex\n", &[]);
    holds(b"hex", &[]);
}

#[test]
fn any_other_text_is_a_text_tape() {
    holds_calls(b"open 0\r\nadvance 0 0", &["open 0", "advance 0 0"]);
    holds_calls(b"\r\nopen 0\r\n", &["open 0"]);
    holds_calls(b"# hex\nopen 0\n", &["open 0"]);
    holds_calls("# Türen\nopen 0 # früh".as_bytes(), &["open 0"]);
    holds_calls(b"# remarks\n\n   # and blank lines\n", &[]);
    holds_calls(b"\n", &[]);
}

#[test]
fn errors_are_told_by_the_kind_of_the_file() {
    told(b"open 0\nopen 256", "line 2: owner 256: owners are 0 to 15");
    let calls = "the calls are setup, open, read, write, advance, abandon";
    told(b"hexa 01", &format!("line 1: 'hexa' is not a call: {calls}"));
    told(b"01\n0x # not so", "line 2: '0x' begins with 0x: write the hex digits alone");
    let many = source(b"open 256\n".repeat(25)).expect_err("25 errors");
    assert_eq!((many.len(), &many[20][..]), (21, "5 more errors"));
    let many = source([b"hex\n".to_vec(), b"z\n".repeat(25)].concat()).expect_err("25 errors");
    assert_eq!((many.len(), &many[20][..]), (21, "5 more errors"));
}

#[test]
fn what_is_no_hex_digit_is_told() {
    let error = |digits: &str| hex::to_bytes(digits).expect_err(digits).to_string();
    let read_as = "and this file is read as hex digits: a byte is two of 0 to 9 and a to f";
    let odd = format!("has a digit too few or too many, {read_as}");
    assert_eq!(error("1 open 0"), format!("line 1: '1' {odd}"));
    assert_eq!(error("01 open 0"), format!("line 1: 'open' is no byte, {read_as}"));
    assert_eq!(error("hex\nhex 01"), format!("line 2: 'hex' is no byte, {read_as}"));
    assert_eq!(error("0x01"), "line 1: '0x01' begins with 0x: write the hex digits alone");
    assert_eq!(
        error("01,02"),
        "line 1: '01,02' has a comma: put spaces between numbers, and no commas"
    );
    assert_eq!(
        error("hex\n０１\n\n01 zz yy\n"),
        format!("line 2: '０１' is no byte, {read_as}\nline 4: 'zz' is no byte, {read_as}")
    );
}

#[test]
fn an_empty_file_is_told_what_a_tape_begins_with() {
    told(b"", &format!("the file is empty: {BEGINNINGS}"));
}

#[test]
fn a_file_that_is_no_tape_is_told_what_it_begins_with() {
    let no_tape = |file: &[u8], first: &str| {
        let what = format!("the file is no tape: it begins with the bytes {first}, but");
        told(file, &format!("{what} {BEGINNINGS}; save a text tape as plain text"));
    };
    no_tape(b"\x89PNG\r\n\x1a\n\0\0\0\rIHDR", "89 50 4E 47");
    no_tape(b"\x7fELF\x02\x01\x01", "7F 45 4C 46");
    no_tape(b"%PDF-1.4\n\xe2\xe3 \x03", "25 50 44 46");
    no_tape(b"\xe9\0\xe9\0", "E9 00 E9 00");
    no_tape(&[2, 0], "02 00");
    no_tape(&[0, 0, 2, 1, 0], "00 00 02 01");
    no_tape(&[0], "00");
}

#[test]
fn a_text_that_is_not_utf_8_is_told_with_its_line_alone() {
    let mark = "line 1: the file begins with a byte order mark: save it as UTF-8 without one";
    told(b"\xef\xbb\xbfopen 256", mark);
    told(
        b"open 256\n\n# T\xfcr\nopen \xe9",
        "line 3: byte FC is not UTF-8, perhaps Latin-1: save the file as UTF-8",
    );
    told(
        b"hex\n01 # \xe9",
        "line 2: byte E9 is not UTF-8, perhaps Latin-1: save the file as UTF-8",
    );
    told(b"\xe9", "line 1: byte E9 is not UTF-8, perhaps Latin-1: save the file as UTF-8");
}

#[test]
fn utf_16_is_told_with_and_without_its_mark() {
    let what = "line 1: the file is UTF-16: save it as UTF-8";
    for text in ["\u{feff}open 256\n", "open 256\n", "# é\r\nopen 0", "\n", "01"] {
        told(&utf_16(text, u16::to_le_bytes), what);
        told(&utf_16(text, u16::to_be_bytes), what);
    }
    // One zero byte does not make a text UTF-16.
    told(b"o\0pen 0", "line 1: the character \\0 can't be seen: take it out");
}

#[test]
fn a_file_of_an_old_mac_is_told_in_each_kind() {
    let mac =
        "line 1: the line ends as on an old Mac: save the file with Unix or Windows line ends";
    told(b"# two calls\ropen 0\ropen 1\r", mac);
    told(b"hex\r01\r", mac);
}

/// Every stored tape is found by its ending, and told by its content to be of that kind.
#[test]
fn stored_tapes_are_of_the_kind_that_their_ending_says() {
    for (folder, ending) in [("", "txt"), ("faults/", "hex")] {
        for name in stored::names(folder, ending).unwrap() {
            let path = stored::file(&format!("tapes/{name}.{ending}"));
            let held = source(std::fs::read(path).unwrap()).unwrap_or_else(|e| panic!("{e:?}"));
            assert_eq!(matches!(held, Source::Text(_)), ending == "txt", "{name}");
        }
    }
}

/// Pieces of which tapes of all kinds, and files that are none, can be made.
const PIECES: &[u8] = b"open 0|open| |\n|\n|\r|\r\n|#|hex|01|00 02 01|f|0x|\x01|\0|\x07|o\0p\0|\
                        \xe9|\xff\xfe|\xef\xbb\xbf|\xc3\xa9|\xe2\x82";

fn random_file(random: &mut Random) -> Vec<u8> {
    let pieces: Vec<&[u8]> = PIECES.split(|&byte| byte == b'|').collect();
    (0..random.below(10)).filter_map(|_| random.pick(&pieces)).collect::<Vec<_>>().concat()
}

#[test]
fn any_file_is_read_or_told_what_is_wrong() {
    let (mut texts, mut tapes) = (0, 0);
    each_seed(0..20_000, |random| {
        let file = random_file(random);
        match source(file.clone()) {
            Ok(Source::Text(written)) => {
                let calls: Vec<_> = written.iter().map(|written| written.call).collect();
                assert_eq!(Source::Text(written).tape(), encode(&calls));
                texts += 1;
            }
            Ok(Source::Bytes(_)) => tapes += 1,
            Err(errors) => {
                assert!(!errors.is_empty() && errors.len() <= 21, "{file:?}");
                let shown = |error: &String| !error.contains(|c: char| c.is_control());
                assert!(errors.iter().all(shown), "{file:?}: {errors:?}");
            }
        }
    });
    assert!(texts > 500 && tapes > 500, "{texts} texts, {tapes} tapes");
}
