//! The benchmark: the proved monitor program and the second program on the same tapes, in turn.
//! What counts is the ratio of the two in one run; the speeds alone belong to the machine.

use std::env;
use std::fs::{self, File};
use std::io;
use std::path::{Path, PathBuf};
use std::process::{Command, ExitCode, Stdio};
use std::time::Instant;

use second::answer_counts::AnswerCounts;
use second::load::{CONTENDED, Load, ORDINARY};
use second::outside;

const USAGE: &str = "usage: bench [--long]";
const CALLS: u64 = 1_000_000;
const ROUNDS: usize = 15;

/// The programs to compare, and the folder for their tapes.
struct Bench {
    monitor: PathBuf,
    second: PathBuf,
    folder: PathBuf,
}

/// Calls per second of both programs in one round.
struct Round {
    monitor: f64,
    second: f64,
}

fn main() -> ExitCode {
    let arguments: Vec<String> = env::args().skip(1).collect();
    let arguments: Vec<&str> = arguments.iter().map(String::as_str).collect();
    let long = match *arguments {
        [] => false,
        ["--long"] => true,
        _ => return failure(USAGE),
    };
    match run(long) {
        Ok(()) => ExitCode::SUCCESS,
        Err(error) => failure(&error.to_string()),
    }
}

fn failure(message: &str) -> ExitCode {
    eprintln!("bench: {message}");
    ExitCode::FAILURE
}

fn run(long: bool) -> io::Result<()> {
    let bench = Bench::found()?;
    println!(
        "| Tape of {CALLS} calls | monitor, calls/s | second, calls/s | ratio | least to greatest |"
    );
    println!("|---|---|---|---|---|");
    for load in [&ORDINARY, &CONTENDED] {
        bench.compare(load)?;
    }
    println!();
    println!("| Calls | monitor, peak kB | second, peak kB |");
    println!("|---|---|---|");
    let more = if long { &[10_000_000][..] } else { &[] };
    for &calls in [10_000, CALLS].iter().chain(more) {
        bench.memory(calls)?;
    }
    Ok(())
}

impl Bench {
    /// The second program stands beside this one, built in the same way.
    fn found() -> io::Result<Bench> {
        let here = env::current_exe()?;
        let folder = here.parent().unwrap_or(Path::new(".")).to_path_buf();
        Ok(Bench { monitor: outside::monitor()?, second: folder.join("second"), folder })
    }

    /// Prints one line of the table of speeds, once both programs were found to tell the same.
    fn compare(&self, load: &Load) -> io::Result<()> {
        let tape = load.tape(CALLS);
        let path = self.folder.join(load.name).with_extension("tape");
        fs::write(&path, &tape)?;
        let lines = outside::told(&self.monitor, &tape)?;
        outside::assert_second_tells(&tape, &lines);
        let mut rounds = Vec::new();
        for _ in 0..ROUNDS {
            let (monitor, second) = (speed(&self.monitor, &path)?, speed(&self.second, &path)?);
            rounds.push(Round { monitor, second });
        }
        print_speeds(load, &lines, &rounds);
        Ok(())
    }

    /// Prints one line of the table of memory.
    fn memory(&self, calls: u64) -> io::Result<()> {
        let tape = ORDINARY.tape(calls);
        let monitor = outside::peak_memory(&self.monitor, &tape)?;
        let second = outside::peak_memory(&self.second, &tape)?;
        println!("| {calls} | {monitor} | {second} |");
        Ok(())
    }
}

/// Calls per second, from the program's start to its end.
fn speed(program: &Path, tape: &Path) -> io::Result<f64> {
    let mut command = Command::new(program);
    command.stdin(File::open(tape)?).stdout(Stdio::null());
    let started = Instant::now();
    let status = command.status().map_err(|error| outside::failed(program, error))?;
    let seconds = started.elapsed().as_secs_f64();
    if !status.success() {
        return Err(outside::failed(program, status));
    }
    Ok(CALLS as f64 / seconds)
}

fn print_speeds(load: &Load, lines: &str, rounds: &[Round]) {
    let ratios = sorted(rounds.iter().map(|round| round.monitor / round.second));
    let monitor = median(&sorted(rounds.iter().map(|round| round.monitor)));
    let second = median(&sorted(rounds.iter().map(|round| round.second)));
    let (name, mix, ratio) = (load.name, mix(lines), median(&ratios));
    let (least, greatest) = (ratios[0], ratios[ROUNDS - 1]);
    println!(
        "| {name}: {mix} | {monitor:.0} | {second:.0} | {ratio:.2} | {least:.2} to {greatest:.2} |"
    );
}

/// How many transactions were done, and how many were aborted.
fn mix(lines: &str) -> String {
    let mut answers = AnswerCounts::default();
    answers.count_lines(lines);
    let aborted: u64 = (21..=24).map(|abort| answers.counted(&format!("aborted {abort}"))).sum();
    format!("{} done, {aborted} aborted", answers.counted("done"))
}

fn sorted(numbers: impl Iterator<Item = f64>) -> Vec<f64> {
    let mut numbers: Vec<f64> = numbers.collect();
    numbers.sort_by(f64::total_cmp);
    numbers
}

fn median(sorted: &[f64]) -> f64 {
    sorted[sorted.len() / 2]
}
