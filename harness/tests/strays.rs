//! No stray files: every file of `tapes/` is a tape or goes with one, and every file of the harness
//! is built or run.

use std::collections::BTreeMap;
use std::fs;
use std::path::Path;

use second::stored;

/// Files by their path below some folder, each with its text.
type Files = BTreeMap<String, String>;

/// All files below a folder of the repository, but for what a build makes there.
fn files(folder: &str) -> Files {
    let mut files = Files::new();
    collect(&stored::file(folder), "", &mut files);
    files
}

fn collect(folder: &Path, below: &str, files: &mut Files) {
    for entry in fs::read_dir(folder).expect("the folder can be read") {
        let entry = entry.expect("the folder can be read");
        let path = format!("{below}{}", entry.file_name().to_string_lossy());
        match entry.path().is_dir() {
            true if path == "target" => {}
            true => collect(&entry.path(), &format!("{path}/"), files),
            false => {
                let bytes = fs::read(entry.path()).expect("the file can be read");
                files.insert(path, String::from_utf8_lossy(&bytes).into_owned());
            }
        }
    }
}

/// The files of `tapes/` that are none of the page, a tape, its lines and what it shows.
fn stray_tapes(files: &Files) -> Vec<&str> {
    let is_stray = |path: &&str| *path != "README.md" && !goes_with_a_tape(path, files);
    files.keys().map(String::as_str).filter(is_stray).collect()
}

/// A text tape stands at the top, a tape with a fault in `faults/`. Each stands beside its lines.
fn goes_with_a_tape(path: &str, files: &Files) -> bool {
    let Some((name, ending)) = path.rsplit_once('.') else { return false };
    let tape = match path.rsplit_once('/') {
        None => "txt",
        Some(("faults", _)) => "hex",
        Some(_) => return false,
    };
    let stands_beside = |ending: &str| files.contains_key(&format!("{name}.{ending}"));
    match ending {
        "lines" | "shown" => stands_beside(tape),
        _ => ending == tape && stands_beside("lines"),
    }
}

/// The files of the harness that nothing builds or runs. `makefile` is the text of the Makefile.
fn stray_sources<'a>(files: &'a Files, makefile: &str) -> Vec<&'a str> {
    let is_stray = |path: &&str| !is_used(path, files, makefile);
    files.keys().map(String::as_str).filter(is_stray).collect()
}

fn is_used(path: &str, files: &Files, makefile: &str) -> bool {
    let (folder, name) = path.rsplit_once('/').unwrap_or(("", path));
    match folder {
        "" => ["Cargo.toml", "Cargo.lock", "build.rs", "rustfmt.toml"].contains(&name),
        "src" if name == "lib.rs" => true,
        "src/bin" => has(files, "Cargo.toml", &format!("path = \"{path}\"")),
        // Cargo makes a test of each.
        "tests" if name.ends_with(".rs") => true,
        "c" => makefile.contains(&format!("harness/{path}")) || is_built(path, name, files),
        _ => is_module(path, files),
    }
}

fn has(files: &Files, path: &str, text: &str) -> bool {
    files.get(path).is_some_and(|file| file.contains(text))
}

/// Whether a file of `c/` is built: the host's build or a test names it, or another file includes it.
fn is_built(path: &str, name: &str, files: &Files) -> bool {
    let (named, included) = (format!("harness/{path}"), format!("#include \"{name}\""));
    files.iter().any(|(file, text)| match file.split('/').next() {
        Some("c") => text.contains(&included) || file == "c/try" && text.contains(&named),
        Some("tests") => text.contains(&named),
        _ => false,
    })
}

/// Whether a file of Rust in `src/` or `tests/` declares this one as a module.
fn is_module(path: &str, files: &Files) -> bool {
    let Some(module) = path.strip_suffix(".rs") else { return false };
    let module = module.trim_end_matches("/mod").rsplit('/').next().unwrap_or_default();
    let declared = format!("mod {module};");
    let declares = |line: &str| line.trim_start_matches("pub ") == declared;
    let top = path.split('/').next().unwrap_or_default();
    let mut sources = files.iter().filter(|(source, _)| source.starts_with(top));
    sources.any(|(_, text)| text.lines().any(declares))
}

fn assert_none(folder: &str, strays: &[&str]) {
    assert!(strays.is_empty(), "stray files in {folder}/: {}", strays.join(", "));
}

#[test]
fn every_file_of_tapes_goes_with_a_tape() {
    let tapes = files("tapes");
    assert!(tapes.contains_key("faults/31-empty.hex"));
    assert_none("tapes", &stray_tapes(&tapes));
}

#[test]
fn every_file_of_the_harness_is_built_or_run() {
    let makefile = fs::read_to_string(stored::file("Makefile")).expect("the Makefile is there");
    let sources = files("harness");
    assert!(sources.contains_key("tests/strays.rs"));
    assert_none("harness", &stray_sources(&sources, &makefile));
}

fn made_up(files: &[(&str, &str)]) -> Files {
    files.iter().map(|(path, text)| (path.to_string(), text.to_string())).collect()
}

#[test]
fn a_stray_file_of_tapes_is_named() {
    let good = [
        "README.md",
        "a.txt",
        "a.lines",
        "a.shown",
        "faults/b.hex",
        "faults/b.lines",
        "faults/b.shown",
    ];
    let bad = ["a.hex", "c.txt", "d.lines", "e.shown", "faults/b.txt", "notes", "old/a.txt"];
    let files =
        made_up(&[&good[..], &bad].concat().iter().map(|&path| (path, "")).collect::<Vec<_>>());
    assert_eq!(stray_tapes(&files), bad);
}

#[test]
fn a_stray_file_of_the_harness_is_named() {
    let files = made_up(&[
        ("Cargo.toml", "path = \"src/bin/tape.rs\""),
        ("c/host.c", "#include \"host.h\""),
        ("c/host.h", ""),
        ("c/old.c", "/* as host.c */"),
        ("c/slow.c", ""),
        ("c/try", "gcc top/harness/c/host.c"),
        ("notes", ""),
        ("src/bin/old.rs", ""),
        ("src/bin/tape.rs", ""),
        ("src/lib.rs", "pub mod tape;\nmod advance;\n// mod old;\n"),
        ("src/old.rs", ""),
        ("src/advance.rs", ""),
        ("src/tape.rs", ""),
        ("tests/common/mod.rs", ""),
        ("tests/old/mod.rs", ""),
        ("tests/tape.rs", "mod common;\nbuilt(\"harness/c/slow.c\")"),
        ("tests/tape.txt", ""),
    ]);
    let strays =
        ["c/old.c", "notes", "src/bin/old.rs", "src/old.rs", "tests/old/mod.rs", "tests/tape.txt"];
    assert_eq!(stray_sources(&files, "host:\n\tharness/c/try"), strays);
}
