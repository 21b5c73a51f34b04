//! The pages name only what is there: their links, the files of the repository, make's commands and
//! the stored tapes. What they say of the answers' numbers is what the programs say.

use std::collections::BTreeSet;
use std::fs;
use std::path::Path;

use second::meaning::{ABORTED, REFUSED, STOPPED};
use second::stored;

/// The folders of the repository. A word of code that begins with one names a file in it.
const FOLDERS: [&str; 7] = [".ci/", "crates/", "docs/", "harness/", "include/", "tapes/", "tools/"];

/// A line of a page: its code (spans, or the whole line in a block), and the rest of its text.
struct Line<'a> {
    number: usize,
    text: &'a str,
    code: Vec<&'a str>,
    rest: String,
}

fn lines(page: &str) -> Vec<Line<'_>> {
    let mut in_block = false;
    let mut lines = Vec::new();
    for (number, text) in (1..).zip(page.lines()) {
        if text.trim_start().starts_with("```") {
            in_block = !in_block;
            continue;
        }
        let (code, rest) = if in_block { (vec![text], String::new()) } else { spans(text) };
        lines.push(Line { number, text, code, rest });
    }
    lines
}

/// The code of a line outside of blocks, which stands between backticks, and the rest.
fn spans(text: &str) -> (Vec<&str>, String) {
    let parts: Vec<&str> = text.split('`').collect();
    let code = parts.iter().copied().skip(1).step_by(2).collect();
    (code, parts.into_iter().step_by(2).collect())
}

/// What a page names that is not there, each with its line. The page goes by its path from the top.
/// Pages of history speak of what is gone, so of them only the links are asked for.
fn faults(page: &str, text: &str) -> Vec<String> {
    let is_history = page.starts_with("docs/landings/") || page == "docs/DECISIONS.md";
    let mut faults = Vec::new();
    for line in lines(text) {
        let mut found = bad_links(page, text, &line.rest);
        found.extend(open_span(&line));
        if !is_history {
            found.extend(line.code.iter().flat_map(|code| bad_files(code)));
            found.extend(line.code.iter().flat_map(|code| bad_commands(code)));
        }
        faults.extend(found.iter().map(|fault| format!("{page}: line {}: {fault}", line.number)));
    }
    faults
}

/// A span that goes on in the next line would be taken for text, and its files not be asked for. A
/// line of a block is code as a whole, whatever marks it has.
fn open_span(line: &Line) -> Option<String> {
    let is_open = line.code != [line.text] && line.text.matches('`').count() % 2 == 1;
    is_open.then(|| "a code span does not end on its line".to_string())
}

/// The targets of `[..](target)` that are not there. Those in the net are not looked for.
fn bad_links(page: &str, text: &str, rest: &str) -> Vec<String> {
    let targets = rest.split("](").skip(1).filter_map(|part| part.split(')').next());
    let targets = targets.filter(|target| !target.contains("://"));
    targets.filter_map(|target| bad_link(page, text, target)).collect()
}

fn bad_link(page: &str, text: &str, target: &str) -> Option<String> {
    let (path, heading) = target.split_once('#').unwrap_or((target, ""));
    let file = stored::file(page).parent().unwrap_or(Path::new("")).join(path);
    if !path.is_empty() && !file.exists() {
        return Some(format!("{target}: there is no such file"));
    }
    if heading.is_empty() {
        return None;
    }
    let other = fs::read_to_string(file).unwrap_or_default();
    let headings = headings(if path.is_empty() { text } else { &other });
    let is_there = headings.iter().any(|there| there == heading);
    (!is_there).then(|| format!("{target}: there is no such heading"))
}

/// The headings of a page, as links spell them.
fn headings(page: &str) -> Vec<String> {
    let headings = lines(page).into_iter().filter(|line| line.rest.starts_with('#'));
    headings.map(|line| spelled(line.text.trim_start_matches('#').trim())).collect()
}

/// Small letters, a hyphen for each blank, and no other marks.
fn spelled(heading: &str) -> String {
    let kept = heading.chars().filter(|&mark| mark.is_alphanumeric() || " -_".contains(mark));
    kept.map(|mark| if mark == ' ' { '-' } else { mark.to_ascii_lowercase() }).collect()
}

/// The files that a piece of code names and that are not there.
fn bad_files(code: &str) -> Vec<String> {
    let words = code.split(|mark: char| mark.is_whitespace() || "=,;:()|'\"".contains(mark));
    let words = words.map(|word| word.trim_end_matches('.'));
    let files = words.filter(|word| FOLDERS.iter().any(|folder| word.starts_with(folder)));
    let files = files.filter(|file| !is_made(file) && !is_pattern(file));
    let missing = files.filter(|file| !stored::file(file).exists());
    missing.map(|file| format!("{file}: there is no such file")).collect()
}

/// What a build makes is not in the repository.
fn is_made(file: &str) -> bool {
    file.split('/').any(|part| ["target", "out"].contains(&part))
}

/// A pattern stands for many names: it has a mark for anything, or a part in capitals alone. But
/// pages have such names of their own.
fn is_pattern(name: &str) -> bool {
    let is_capitals = |part: &str| {
        let stem = part.split('.').next().unwrap_or_default();
        !part.ends_with(".md") && !stem.is_empty() && stem.chars().all(|mark| mark.is_uppercase())
    };
    name.contains(['*', '<', '{', '$']) || name.contains("..") || name.split('/').any(is_capitals)
}

/// What the commands of make in a piece of code name and the Makefile has not.
fn bad_commands(code: &str) -> Vec<String> {
    let code = code.split('#').next().unwrap_or_default();
    code.split([';', '|', '&']).flat_map(bad_command).collect()
}

fn bad_command(command: &str) -> Vec<String> {
    let is_setting = |word: &&str| word.contains('=');
    let mut words = command.split_whitespace().skip_while(is_setting);
    if words.next() != Some("make") {
        return Vec::new();
    }
    let makefile = fs::read_to_string(stored::file("Makefile")).expect("the Makefile is there");
    let words = words.filter(|word| !word.starts_with('-'));
    words.filter_map(|word| bad_word(&makefile, word)).collect()
}

/// A word after make: a variable with its value, or else a target.
fn bad_word(makefile: &str, word: &str) -> Option<String> {
    if let Some((variable, _)) = word.split_once('=') {
        let uses = [format!("$({variable})"), format!("$(value {variable})")];
        let is_there = uses.iter().any(|used| makefile.contains(used));
        return (!is_there).then(|| format!("make {variable}=: there is no such variable"));
    }
    let is_there = makefile.lines().any(|line| line.starts_with(&format!("{word}:")));
    (!is_there && !is_pattern(word)).then(|| format!("make {word}: there is no such target"))
}

/// The text tapes that a page names in its code without a folder, as the page of `tapes/` does.
fn tapes_named(page: &str) -> BTreeSet<&str> {
    let words = lines(page).into_iter().flat_map(|line| line.code);
    words.filter(|word| word.ends_with(".txt") && !word.contains(['/', ' '])).collect()
}

/// Whether a page that speaks of a document, which is not in the repository, links to the page that
/// says its rules.
fn tells_where_documents_are(page: &str, text: &str) -> bool {
    let small = text.to_lowercase();
    let speaks = ["document 01", "document 02"].iter().any(|name| small.contains(name));
    !speaks || page == "docs/MONITOR.md" || text.contains("MONITOR.md)")
}

/// The rows of a table on a page: a number, a sentence and a tape, of those that begin with a number.
fn numbered_rows(page: &str) -> Vec<(u64, &str, &str)> {
    let cells = page.lines().map(|line| line.split('|').map(str::trim).collect::<Vec<_>>());
    let rows = cells.filter_map(|cells| match cells[..] {
        ["", number, sentence, tape, ""] => Some((number.parse().ok()?, sentence, tape)),
        _ => None,
    });
    rows.collect()
}

/// The pages: the first one, those of `docs/` and its folders, and the one on tapes.
fn pages() -> Vec<String> {
    let mut pages = vec!["README.md".to_string(), "tapes/README.md".to_string()];
    let mut folders = vec!["docs".to_string()];
    while let Some(folder) = folders.pop() {
        for entry in fs::read_dir(stored::file(&folder)).expect("the folder can be read") {
            let entry = entry.expect("the folder can be read");
            let path = format!("{folder}/{}", entry.file_name().to_string_lossy());
            match entry.path().is_dir() {
                true => folders.push(path),
                false if path.ends_with(".md") => pages.push(path),
                false => {}
            }
        }
    }
    pages
}

fn read(page: &str) -> String {
    fs::read_to_string(stored::file(page)).unwrap_or_else(|error| panic!("{page}: {error}"))
}

#[test]
fn every_page_names_only_what_is_there() {
    let faults: Vec<String> = pages().iter().flat_map(|page| faults(page, &read(page))).collect();
    assert!(faults.is_empty(), "\n{}", faults.join("\n"));
}

#[test]
fn the_page_on_tapes_names_every_text_tape_and_no_other() {
    let page = read("tapes/README.md");
    let stored = stored::names("", "txt").expect("the folder can be read");
    let stored: Vec<String> = stored.iter().map(|name| format!("{name}.txt")).collect();
    assert_eq!(tapes_named(&page), stored.iter().map(String::as_str).collect());
}

#[test]
fn every_page_says_where_the_documents_are() {
    let silent: Vec<String> =
        pages().into_iter().filter(|page| !tells_where_documents_are(page, &read(page))).collect();
    assert!(silent.is_empty(), "they do not link to docs/MONITOR.md: {silent:?}");
    assert!(!tells_where_documents_are("docs/A.md", "Document 01 says so."));
}

/// The page in plain words has the one sentence of each number, beside a tape that shows it.
#[test]
fn every_number_has_its_sentence_and_its_tape() {
    let page = read("docs/MONITOR.md");
    let rows = numbered_rows(&page);
    let meanings = [&REFUSED[..], &ABORTED, &STOPPED].concat();
    let told: Vec<(u64, &str)> =
        rows.iter().map(|&(number, sentence, _)| (number, sentence)).collect();
    assert_eq!(told, meanings);
    for (number, _, tape) in rows {
        let Some(tape) = tape.strip_prefix('`').and_then(|tape| tape.strip_suffix('`')) else {
            assert_eq!(number, 3, "number {number} has no tape");
            continue;
        };
        let name = tape.rsplit_once('.').map_or(tape, |(name, _)| name);
        let lines = read(&format!("{name}.lines"));
        let shows = |word: &str| lines.contains(&format!("{word} {number}"));
        assert!(["refused", "aborted", "stopped"].into_iter().any(shows), "{tape}");
    }
}

const MADE_UP: &str = "# A made-up page

Good: [rules](RULES.md), [below](#what-is-bad), [tapes](../tapes/README.md#tapes), `make run TAPE=tapes/tape-x.txt`.
Good: `tapes/NAME.txt`, `tapes/p5*`, `crates/CRATE/src/lib.rt`, `harness/target/release/tape`, `make -s TARGET`.
[no page](NOWHERE.md) and [no heading](RULES.md#nowhere) and [none here](#nowhere)
`tapes/no-such-tape.txt` and `make run TAPES=tapes/tape-x.txt`
`make run

## What is bad

```
# A remark in a block is no heading, and has `marks.
make test && LONG=1 make no-such-target   # make nothing
cat docs/NO-SUCH-PAGE.md
```
";

#[test]
fn what_is_not_there_is_found() {
    let expected = [
        "5: NOWHERE.md: there is no such file",
        "5: RULES.md#nowhere: there is no such heading",
        "5: #nowhere: there is no such heading",
        "6: tapes/no-such-tape.txt: there is no such file",
        "6: make TAPES=: there is no such variable",
        "7: a code span does not end on its line",
        "13: make no-such-target: there is no such target",
        "14: docs/NO-SUCH-PAGE.md: there is no such file",
    ];
    let expected = expected.map(|fault| format!("docs/MADE-UP.md: line {fault}"));
    assert_eq!(faults("docs/MADE-UP.md", MADE_UP), expected);
}

#[test]
fn of_history_only_the_links_are_asked_for() {
    let faults = faults("docs/landings/MADE-UP.md", "`tapes/gone.txt` and [no page](NOWHERE.md)");
    assert_eq!(faults, ["docs/landings/MADE-UP.md: line 1: NOWHERE.md: there is no such file"]);
}
