//! The C header beside all that it speaks of: the engine's own source, the declarations of the
//! harness, the second program's numbers, and a host that is built by it in C and in C++. What one
//! edit of the header would break is refused by one of them at least.

use std::collections::BTreeMap;
use std::fmt::Debug;
use std::fs;
use std::path::{Path, PathBuf};
use std::process::{Command, Stdio};

use second::answer::{ANSWERS, Abort, Answer, Refusal};
use second::clock::Widths;
use second::engine::{DECLARED, Declared};
use second::flat::{MOST_RECORDS, ROW, SEAT_TABLE};
use second::meaning;
use second::outside::{self, PATIENCE};
use second::plan::{OWNERS, SEATS};
use second::row::{READS, WRITES};
use second::stored;

/// More bytes than a compiler or a host tells here.
const MOST: usize = 100_000;

/// Every reason of the engine. A second setup is refused by the tape alone.
const REFUSALS: [Refusal; 11] = [
    Refusal::Lengths,
    Refusal::OutOfRange,
    Refusal::Damaged,
    Refusal::NotYours,
    Refusal::WrongPhase,
    Refusal::AtLimit,
    Refusal::NoSeat,
    Refusal::ReadsFull,
    Refusal::WritesFull,
    Refusal::RecordLocked,
    Refusal::BadPlan,
];
const ABORTS: [Abort; 4] =
    [Abort::LockMet, Abort::Overwritten, Abort::LockedByAnother, Abort::EndOfTime];

type Numbers = BTreeMap<String, u64>;

fn text(path: &str) -> String {
    fs::read_to_string(stored::file(path)).unwrap_or_else(|error| panic!("{path}: {error}"))
}

fn header() -> String {
    text("include/ponsevran.h")
}

/// A folder of this name with this header in it, for what else a test makes.
fn folder_with(name: &str, header: &str) -> PathBuf {
    let folder = Path::new(env!("CARGO_TARGET_TMPDIR")).join("header").join(name);
    fs::create_dir_all(&folder).expect("the folder can be made");
    fs::write(folder.join("ponsevran.h"), header).expect("the folder can be written");
    folder
}

/// What a command tells on standard output, or else on standard error.
fn run(mut command: Command) -> Result<String, String> {
    command.stdin(Stdio::null()).stdout(Stdio::piped()).stderr(Stdio::piped());
    let output = outside::output(command, PATIENCE, MOST, |_| Ok(()));
    let output = output.map_err(|error| error.to_string())?;
    match output.status.success() {
        true => Ok(String::from_utf8_lossy(&output.stdout).into_owned()),
        false => Err(String::from_utf8_lossy(&output.stderr).into_owned()),
    }
}

/// Builds the C program of a folder by the header there, and runs it.
fn built_and_run(folder: &Path) -> Result<String, String> {
    let program = folder.join("program");
    let mut gcc = Command::new("gcc");
    gcc.arg("-I").arg(folder).arg(folder.join("program.c"));
    gcc.arg(stored::file("target/staticlib/libboundary.a")).arg("-o").arg(&program);
    run(gcc)?;
    run(Command::new(program))
}

/// Whether the host, built by the header of this folder, runs well as C and as C++.
fn hosted(folder: &Path) -> Result<(), String> {
    let mut tried = Command::new(stored::file("harness/c/try"));
    tried.arg(folder).arg(folder.join("host"));
    run(tried).map(drop)
}

/// Whether the header of this folder says what the engine, the harness and the second program say.
fn compared(folder: &Path) -> Result<(), String> {
    let header = fs::read_to_string(folder.join("ponsevran.h")).expect("the header is there");
    let calls = prototypes(&header);
    same("the harness's declarations", &calls, &DECLARED.iter().map(declared).collect())?;
    same("the engine's source", &calls, &exported(&text("crates/boundary/src/lib.rt")))?;
    same("the archive's source", &calls, &exported(&text("crates/boundary_c/src/lib.rt")))?;
    same("the second program's numbers", &numbers(&header, folder)?, &known())
}

fn same<T: Debug + PartialEq>(whose: &str, header: &T, theirs: &T) -> Result<(), String> {
    match header == theirs {
        true => Ok(()),
        false => Err(format!("the header is not as {whose}:\n{header:#?}\n{theirs:#?}")),
    }
}

fn without_comments(header: &str) -> String {
    let after = |part: &str| part.split_once("*/").map(|(_, code)| code.to_string());
    let mut parts = header.split("/*");
    let before = parts.next().unwrap_or_default().to_string();
    parts.fold(before, |code, part| code + &after(part).expect("a comment ends"))
}

/// The header's calls, each on a line of its own.
fn prototypes(header: &str) -> Vec<String> {
    let code = without_comments(header);
    let code: Vec<&str> = code.lines().filter(|line| !line.starts_with('#')).collect();
    let code = code.join(" ");
    let statements = code.split(';').filter_map(|statement| statement.rsplit(['{', '}']).next());
    let on_a_line = |call: &str| call.split_whitespace().collect::<Vec<_>>().join(" ");
    statements.filter(|statement| statement.contains('(')).map(on_a_line).collect()
}

/// A declaration of the harness, as the header would have it.
fn declared(call: &Declared) -> String {
    assert_eq!(call.result, "u64");
    let parameters = call.parameters.iter().map(|(name, of)| parameter(name, of));
    prototype(call.call, parameters.collect())
}

fn prototype(call: &str, parameters: Vec<String>) -> String {
    format!("uint64_t {call}({})", parameters.join(", "))
}

/// A parameter of a type of the harness, as the header would have it.
fn parameter(name: &str, of: &str) -> String {
    match of {
        "u64" => format!("uint64_t {name}"),
        "usize" => format!("size_t {name}"),
        "Lent" => format!("const uint64_t *{name}"),
        "LentMut" => format!("uint64_t *{name}"),
        "LentPlan" => format!("const uint64_t {name}[PONSEVRAN_PLAN]"),
        _ => panic!("{name}: the header has no type for {of}"),
    }
}

/// What the engine's source exports, as the header would have it.
fn exported(source: &str) -> Vec<String> {
    let calls = source.split("pub extern \"C\" fn ").skip(1);
    calls.map(|call| exported_call(call).expect("parameters and a result")).collect()
}

fn exported_call(source: &str) -> Option<String> {
    let (call, rest) = source.split_once('(')?;
    let (fields, rest) = rest.split_once(") -> ")?;
    assert!(rest.starts_with("u64\n"), "{call} gives no u64");
    let fields = fields.split(",\n").filter_map(|field| field.trim().split_once(": "));
    Some(prototype(call, fields.map(|(name, of)| exported_field(name, of)).collect()))
}

/// A field of the engine's source. A table is lent with its length.
fn exported_field(name: &str, of: &str) -> String {
    // `record` is a word of the proof language, so the engine's source says `item`.
    let name = if name == "item" { "record" } else { name };
    let with_length =
        |table| [parameter(name, table), parameter(&format!("{name}_len"), "usize")].join(", ");
    match of {
        "u64" => parameter(name, "u64"),
        "&mut u64" => parameter(name, "LentMut"),
        "&[u64]" => with_length("Lent"),
        "&mut [u64]" => with_length("LentMut"),
        _ if of == format!("&[u64; {}]", 2 * OWNERS) => parameter(name, "LentPlan"),
        _ => panic!("{name}: the harness has no type for {of}"),
    }
}

/// The header's names with their numbers, as a C compiler takes them.
fn numbers(header: &str, folder: &Path) -> Result<Numbers, String> {
    let shown = |name: &String| format!("    printf(\"{name} %ju\\n\", (uintmax_t)({name}));\n");
    let shown: String = names(header).iter().map(shown).collect();
    let opening = "#include <inttypes.h>\n#include <stdio.h>\n#include \"ponsevran.h\"\n";
    let program = format!("{opening}int main(void) {{\n{shown}    return 0;\n}}\n");
    fs::write(folder.join("program.c"), program).expect("the folder can be written");
    let told = built_and_run(folder)?;
    let number = |line: &str| {
        let (name, number) = line.split_once(' ').expect("a name and its number");
        (name.to_string(), number.parse().expect("a number of 64 bits"))
    };
    Ok(told.lines().map(number).collect())
}

/// The names that have a number: `#define NAME ..`, or `NAME = ..` in a list.
fn names(header: &str) -> Vec<String> {
    let name = |line: &str| match line.split_whitespace().collect::<Vec<_>>()[..] {
        ["#define", name, _, ..] | [name, "=", ..] => Some(name.to_string()),
        _ => None,
    };
    without_comments(header).lines().filter_map(name).collect()
}

/// The same names with the numbers of the second program.
fn known() -> Numbers {
    let sizes = [
        ("OWNERS", OWNERS),
        ("MOST_SEATS", SEATS),
        ("MOST_RECORDS", MOST_RECORDS),
        ("MOST_READS", READS),
        ("MOST_WRITES", WRITES),
        ("PLAN", 2 * OWNERS),
        ("ROW", ROW),
        ("SEAT_TABLE", SEAT_TABLE),
    ];
    let sizes = sizes.map(|(name, size)| (name.to_string(), size as u64));
    let time = [("GREATEST_TIME".to_string(), Widths::REAL.greatest_time())];
    let spelling = |answer: fn(u64) -> Answer| answer(0).spelling().to_uppercase();
    let words = (0..).zip(ANSWERS).map(|(number, answer)| (spelling(answer), number));
    let refusals = REFUSALS.map(|why| (format!("REFUSED{}", in_capitals(why)), why as u64));
    let aborts = ABORTS.map(|why| (format!("ABORTED{}", in_capitals(why)), why as u64));
    let all = sizes.into_iter().chain(time).chain(words).chain(refusals).chain(aborts);
    all.map(|(name, number)| (format!("PONSEVRAN_{name}"), number)).collect()
}

/// A reason's name as C spells it: `AtLimit` is `_AT_LIMIT`.
fn in_capitals(reason: impl Debug) -> String {
    let apart = |letter: char| match letter.is_uppercase() {
        true => format!("_{letter}"),
        false => letter.to_uppercase().to_string(),
    };
    format!("{reason:?}").chars().map(apart).collect()
}

/// Who refuses an edited header.
#[derive(Debug, PartialEq)]
enum By {
    Host,
    Comparison,
    Both,
    Nobody,
}

/// An edit of the header: what it does, what it replaces and by what, and who refuses it.
struct Edit {
    what: String,
    pieces: Vec<(String, String)>,
    refused: By,
}

fn edit(what: &str, pieces: &[(&str, &str)], refused: By) -> Edit {
    let pieces = pieces.iter().map(|(from, to)| (from.to_string(), to.to_string()));
    Edit { what: what.to_string(), pieces: pieces.collect(), refused }
}

/// The lengths stay as they are, so that the number itself has to be found wrong.
fn edits_of_numbers() -> Vec<Edit> {
    let wrong = |what, pieces| edit(what, pieces, By::Both);
    let [owners, seats] = [("2 * PONSEVRAN_OWNERS", "2 * 16"), ("PONSEVRAN_MOST_SEATS *", "64 *")];
    let [reads, writes] =
        [("4 * PONSEVRAN_MOST_READS", "4 * 16"), ("2 * PONSEVRAN_MOST_WRITES", "2 * 8")];
    vec![
        wrong("1025 records", &[("MOST_RECORDS 1024", "MOST_RECORDS 1025")]),
        wrong("17 owners", &[("OWNERS 16", "OWNERS 17"), owners]),
        wrong("65 seats", &[("MOST_SEATS 64", "MOST_SEATS 65"), seats]),
        wrong("17 reads", &[("MOST_READS 16", "MOST_READS 17"), reads]),
        wrong("9 writes", &[("MOST_WRITES 8", "MOST_WRITES 9"), writes]),
        wrong("T - 1", &[(") - 1)", ") - 2)")]),
        wrong("T + 1", &[(") - 1)", ") - 0)")]),
        wrong("a longer row", &[("(6 + 4 *", "(7 + 4 *")]),
    ]
}

fn edits_of_words() -> Vec<Edit> {
    let wrong = |what, pieces| edit(what, pieces, By::Both);
    vec![
        wrong(
            "refused and aborted exchanged",
            &[("REFUSED = 11", "REFUSED = 12"), ("ABORTED = 12", "ABORTED = 11")],
        ),
        wrong(
            "limit and seat exchanged",
            &[("AT_LIMIT = 6", "AT_LIMIT = 7"), ("NO_SEAT = 7", "NO_SEAT = 6")],
        ),
        wrong("another abort", &[("OVERWRITTEN = 22", "OVERWRITTEN = 25")]),
    ]
}

fn edits_of_calls() -> Vec<Edit> {
    let narrow = |call: &Declared| Edit {
        what: format!("32 bits of {}", call.call),
        pieces: vec![(format!("uint64_t {}(", call.call), format!("uint32_t {}(", call.call))],
        refused: By::Both,
    };
    let others = vec![
        edit("a call misspelt", &[("ponsevran_abandon(", "ponsevran_abadon(")], By::Both),
        edit(
            "a narrow number",
            &[("owner, uint64_t *number", "owner, uint32_t *number")],
            By::Both,
        ),
        edit(
            "const dropped",
            &[("open(const uint64_t *values", "open(uint64_t *values")],
            By::Comparison,
        ),
        edit(
            "const put",
            &[("advance(uint64_t *values", "advance(const uint64_t *values")],
            By::Comparison,
        ),
        edit(
            "no C++",
            &[
                ("#ifdef __cplusplus\nextern", "#if 0\nextern"),
                ("#ifdef __cplusplus\n}", "#if 0\n}"),
            ],
            By::Host,
        ),
    ];
    DECLARED.iter().map(narrow).chain(others).collect()
}

/// Who refuses the header with these pieces replaced.
fn refused(name: &str, pieces: &[(String, String)]) -> By {
    let mut header = header();
    for (from, to) in pieces {
        assert_eq!(header.matches(from).count(), 1, "{name}: '{from}' stands once");
        header = header.replace(from, to);
    }
    let folder = folder_with(name, &header);
    match (hosted(&folder), compared(&folder)) {
        (Ok(()), Ok(())) => By::Nobody,
        (Err(_), Ok(())) => By::Host,
        (Ok(()), Err(_)) => By::Comparison,
        (Err(_), Err(_)) => By::Both,
    }
}

fn refuses_each(edits: Vec<Edit>) {
    for Edit { what, pieces, refused: by } in edits {
        assert_eq!(refused(&what, &pieces), by, "{what}");
    }
}

#[test]
fn the_header_says_what_the_engine_and_the_second_program_say() {
    let folder = folder_with("as it stands", &header());
    compared(&folder).unwrap_or_else(|error| panic!("{error}"));
}

#[test]
fn a_host_in_c_and_in_cpp_finds_every_sentence_of_the_header_true() {
    let folder = folder_with("hosted", &header());
    hosted(&folder).unwrap_or_else(|error| panic!("{error}"));
}

#[test]
fn an_edited_number_of_the_header_is_refused() {
    refuses_each(edits_of_numbers());
}

#[test]
fn an_edited_word_of_the_header_is_refused() {
    refuses_each(edits_of_words());
}

#[test]
fn an_edited_call_of_the_header_is_refused() {
    refuses_each(edits_of_calls());
}

#[test]
fn the_host_tells_which_sentence_of_the_header_is_not_true() {
    let wrong = header().replace("MOST_RECORDS 1024", "MOST_RECORDS 1025");
    let told = "host: the engine does not do as the header says: there are 1 to PONSEVRAN_MOST_RECORDS records\n";
    assert_eq!(hosted(&folder_with("a wrong sentence", &wrong)), Err(told.to_string()));
}

/// A number that the header has no reason for would be told to a host that can't name it.
#[test]
fn the_header_has_a_reason_to_each_number_that_has_a_meaning() {
    let numbers = |table: &[meaning::Meaning]| table.iter().map(|row| row.0).collect::<Vec<_>>();
    let of_the_tape = [Refusal::SecondSetup as u64];
    let refusals = REFUSALS.map(|why| why as u64);
    assert_eq!(numbers(&meaning::REFUSED), [&refusals[..], &of_the_tape].concat());
    assert_eq!(numbers(&meaning::ABORTED), ABORTS.map(|why| why as u64));
}

/// The host that the header shows at its top.
#[test]
fn the_example_of_the_header_runs() {
    let header = header();
    let lines = header.lines().map(|line| line.strip_prefix(" *     ").unwrap_or_default());
    let from = lines.skip_while(|line| !line.starts_with("#include"));
    let mut program: Vec<&str> = from.take_while(|line| *line != "}").collect();
    program.push("}\n");
    let folder = folder_with("example", &header);
    fs::write(folder.join("program.c"), program.join("\n")).expect("the folder can be written");
    assert_eq!(built_and_run(&folder), Ok("owner 0 has seat 0\n".to_string()));
}
