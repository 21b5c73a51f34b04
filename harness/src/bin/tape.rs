//! The front of the monitor: plays tapes by the proved program (`run`), tells what its lines mean
//! (`show`), takes calls as they are typed (`try`), and turns text into a tape and back.

use std::env;
use std::ffi::{OsStr, OsString};
use std::fs::File;
use std::io::{self, BufWriter, IsTerminal, Read, Write};
use std::process::ExitCode;
use std::sync::atomic::{AtomicBool, Ordering};

use second::colour::Colour;
use second::line::Ending;
use second::page::Page;
use second::plain::plain;
use second::source::{self, Source};
use second::{player, run, show, text, typed};

const USAGE: &str = "\
tape run [FILE]      plays a tape by the monitor, and prints its lines
tape show [FILE]     plays a tape, and tells what each line means and what is left at the end
tape try             takes calls as you type them, and answers each at once
tape encode [FILE]   turns text or hex digits into the bytes of a tape
tape decode [FILE]   turns a tape into text
tape bytes FILE      prints the bytes of the tape that a file holds in any form
tape help            prints this list

FILE holds a tape as text, as hex digits or as bytes. Without it, or with -, standard input does.
The monitor is the program 'monitor' beside this one, or the one that MONITOR names.
The exit status is 0; 1 where the tape has a fault; 2 where nothing was done or output was lost.
";

/// The most bytes of a file. The monitor itself takes a tape of any length.
const MOST_BYTES: u64 = 256 << 20;

/// What a command comes to, or one message to each error.
type Outcome = Result<Ending, Vec<String>>;

/// Whether standard output was open when the program began. Before `main`, Rust puts the null device
/// in place of one that is not, and every line would be lost without a word: so it is asked earlier.
static OUTPUT_IS_OPEN: AtomicBool = AtomicBool::new(true);

#[used]
#[unsafe(link_section = ".init_array")]
static BEFORE_MAIN: extern "C" fn() = look_at_output;

unsafe extern "C" {
    fn fcntl(descriptor: i32, command: i32, ...) -> i32;
}

extern "C" fn look_at_output() {
    const STANDARD_OUTPUT: i32 = 1;
    const GET_FLAGS: i32 = 1;
    // It asks for a number that the system has of the descriptor, and touches no memory of ours.
    let flags = unsafe { fcntl(STANDARD_OUTPUT, GET_FLAGS) };
    OUTPUT_IS_OPEN.store(flags >= 0, Ordering::Relaxed);
}

fn main() -> ExitCode {
    if !OUTPUT_IS_OPEN.load(Ordering::Relaxed) {
        return failure("tape: standard output is closed\n");
    }
    let arguments: Vec<OsString> = env::args_os().skip(1).collect();
    let (command, file) = match &arguments[..] {
        [command] => (command.to_str(), None),
        [command, file] => (command.to_str(), Some(file.as_os_str())),
        _ => (None, None),
    };
    let outcome = match (command.unwrap_or_default(), file) {
        ("run", _) => run_tape(file),
        ("show", _) => show_tape(file),
        ("try", None) => try_calls(),
        ("encode", _) | ("bytes", Some(_)) => encode(file),
        ("decode", _) => decode(file),
        ("help" | "--help", None) => print(USAGE.as_bytes()),
        _ => return failure(USAGE),
    };
    match outcome {
        Ok(Ending::Ended) => ExitCode::SUCCESS,
        Ok(Ending::Stopped) => ExitCode::from(1),
        Err(errors) => {
            failure(&errors.iter().map(|error| format!("tape: {error}\n")).collect::<String>())
        }
    }
}

/// Where standard error takes nothing either, the status alone has to tell.
fn failure(message: &str) -> ExitCode {
    io::stderr().write_all(message.as_bytes()).ok();
    ExitCode::from(2)
}

fn run_tape(file: Option<&OsStr>) -> Outcome {
    let tape = tape_of(read(file)?);
    let played = player::monitor().and_then(|monitor| run::run(&monitor, tape, io::stdout()));
    played.map_err(one)
}

fn show_tape(file: Option<&OsStr>) -> Outcome {
    let source = read(file)?;
    let shown = player::monitor().and_then(|monitor| show::show(&monitor, source, page()));
    shown.map_err(one)
}

fn try_calls() -> Outcome {
    let input = io::stdin().lock();
    let prompt = if input.is_terminal() { "> " } else { "" };
    let tried =
        player::monitor().and_then(|monitor| typed::converse(&monitor, input, prompt, page()));
    tried.map_err(one)
}

fn encode(file: Option<&OsStr>) -> Outcome {
    print(&tape_of(read(file)?))
}

/// The text of a tape. One with a fault has the calls before it, and then the fault as a remark.
fn decode(file: Option<&OsStr>) -> Outcome {
    let decoded = text::from_tape(&tape_of(read(file)?));
    print(decoded.text.as_bytes())?;
    Ok(if decoded.stop.is_some() { Ending::Stopped } else { Ending::Ended })
}

/// What a file holds; without one, what standard input does.
fn read(file: Option<&OsStr>) -> Result<Source, Vec<String>> {
    if file.is_some_and(OsStr::is_empty) {
        return Err(one("the name of the file is empty".to_string()));
    }
    let (name, bytes) = match file.filter(|&file| file != "-") {
        Some(file) => (file.display().to_string(), File::open(file).and_then(read_from)),
        None => ("standard input".to_string(), read_from(io::stdin())),
    };
    let named = |error: String| format!("{name}: {error}");
    let bytes = bytes.map_err(|error| one(named(plain(&error))))?;
    source::source(bytes).map_err(|errors| errors.into_iter().map(named).collect())
}

/// All bytes of a file. A device never ends, so there is an end to what is read.
fn read_from(input: impl Read) -> io::Result<Vec<u8>> {
    let mut bytes = Vec::new();
    input.take(MOST_BYTES + 1).read_to_end(&mut bytes)?;
    if bytes.len() as u64 > MOST_BYTES {
        return Err(io::Error::other("longer than 256 MiB: give its bytes to monitor itself"));
    }
    Ok(bytes)
}

/// A tape of bytes is long and need not be copied.
fn tape_of(source: Source) -> Vec<u8> {
    match source {
        Source::Bytes(tape) => tape,
        Source::Text(_) => source.tape(),
    }
}

/// Standard output with columns, in colour where that is wanted.
fn page() -> Page<impl Write> {
    let output = io::stdout();
    let no_color = env::var_os("NO_COLOR");
    let colour = Colour::wanted(output.is_terminal(), no_color.as_deref());
    Page::new(BufWriter::new(output), colour)
}

fn print(bytes: &[u8]) -> Outcome {
    let mut output = io::stdout();
    let written = output.write_all(bytes).and_then(|()| output.flush());
    written.map_err(|error| one(format!("standard output: {}", plain(&error))))?;
    Ok(Ending::Ended)
}

fn one(error: String) -> Vec<String> {
    vec![error]
}
