//! Builds the comparison with each wrong edit in `mutants.txt`, of the oracle's text, the model's or the
//! comparison's own, and looks whether the library is then found to differ, or of an edit of the
//! model's `rules.rs` or of the comparison the model, unless `mutants.txt` names the library. The edits are made in a copy of the sources.
//! Where `mutants.txt` names tests, they are run as well.

use std::collections::BTreeSet;
use std::fs;
use std::io;
use std::path::{Path, PathBuf};
use std::process::{Command, ExitCode, Stdio};
use std::time::Instant;

use compare::tables::{command, Tables};

const USAGE: &str = "\
usage: mutants [--seconds N] [--seed N] [--only N] [--jobs N] [--dir DIR] [--write]

  --seconds  how long a comparison may take to notice (30)
  --seed     the first list's seed (1)
  --only     only the edit with this number, or those from N-M
  --jobs     for cargo (1)
  --dir      as for compare
  --write    writes the table to docs/tables/noticing.md, too; not with --only";

/// Document 01's calls in the model, which are compared with the oracle.
const RULES: &str = "model/src/rules.rs";

struct Settings {
    seconds: String,
    seed: String,
    /// From and to.
    only: Option<(usize, usize)>,
    jobs: String,
    folder: Option<String>,
    write: bool,
    /// As given, but for the folder.
    given: Vec<String>,
}

/// One wrong edit.
struct Edit {
    /// Below the folder of the sources.
    file: String,
    what: String,
    call: String,
    /// What `cargo test` is to run, after `--package`.
    tests: Option<String>,
    /// No answer can differ.
    same: bool,
    /// The comparison cannot notice; the tests have to.
    by_tests: bool,
    /// A withdrawn id is selected, and nothing else is looked at.
    withdrawn: bool,
    /// Of a rule that the oracle has not: the library is compared.
    library: bool,
    old: String,
    new: String,
}

impl Edit {
    /// What is compared with the oracle.
    fn side(&self) -> &'static str {
        let by_oracle = self.file == RULES || self.file.starts_with("compare/");
        match by_oracle && !self.library {
            true => "model",
            false => "library",
        }
    }
}

/// What a comparison said.
enum Seen {
    /// Events until then, seconds, and what differed.
    Difference(String, f64, String),
    /// The oracle's driver met a value that document 01 does not have.
    Stopped(f64, String),
    Nothing(String),
}

fn main() -> ExitCode {
    match settings(std::env::args().skip(1)).and_then(|settings| run(&settings)) {
        Ok(true) => ExitCode::SUCCESS,
        Ok(false) => ExitCode::FAILURE,
        Err(error) => {
            eprintln!("mutants: {error}\n{USAGE}");
            ExitCode::from(2)
        }
    }
}

fn settings(mut arguments: impl Iterator<Item = String>) -> Result<Settings, String> {
    let mut settings = Settings {
        seconds: "30".into(),
        seed: "1".into(),
        only: None,
        jobs: "1".into(),
        folder: None,
        write: false,
        given: Vec::new(),
    };
    while let Some(name) = arguments.next() {
        settings.given.push(name.clone());
        if name == "--write" {
            settings.write = true;
            continue;
        }
        let value = arguments.next().ok_or(format!("{name} needs a value"))?;
        settings.given.push(match name.as_str() {
            "--dir" => "DIR".into(),
            _ => value.clone(),
        });
        match name.as_str() {
            "--seconds" => settings.seconds = value,
            "--seed" => settings.seed = value,
            "--only" => settings.only = Some(range(&value).ok_or("no number")?),
            "--jobs" => settings.jobs = value,
            "--dir" => settings.folder = Some(value),
            _ => return Err(format!("{name} is no option")),
        }
    }
    if settings.write && settings.only.is_some() {
        return Err("--write is for all edits, --only for some".into());
    }
    Ok(settings)
}

fn range(text: &str) -> Option<(usize, usize)> {
    let (from, to) = text.split_once('-').unwrap_or((text, text));
    Some((from.parse().ok()?, to.parse().ok()?))
}

/// Whether all edits were noticed, but for those that cannot show.
fn run(settings: &Settings) -> Result<bool, String> {
    let package = Path::new(env!("CARGO_MANIFEST_DIR"));
    let edits = fs::read_to_string(package.join("mutants.txt"));
    let edits = read(&edits.map_err(|error| error.to_string())?)?;
    let copy = Copy::new(package).map_err(|error| error.to_string())?;
    for edit in &edits {
        let count = copy.text(&edit.file)?.matches(&edit.old).count();
        if count != 1 {
            return Err(format!(
                "{}: the old text is there {count} times",
                edit.what
            ));
        }
    }
    let given: Vec<&str> = settings.given.iter().map(String::as_str).collect();
    let command = command("-p compare --bin mutants", &given);
    let mut tables = Tables::new(
        "noticing.md",
        "Does the comparison notice?",
        "docs/NOTICING.md",
        &command,
    );
    tables.line(format_args!(
        "Each edit of `rust/compare/mutants.txt`, the comparison with seed {} for at most {} seconds.\n",
        settings.seed, settings.seconds
    ));
    tables.line("| no. | edit | call | side | noticed after | seconds | by |");
    tables.line("|---|---|---|---|---|---|---|");
    let (mut noticed, mut right, mut tried) = (0, 0, 0);
    for (number, edit) in (1..).zip(&edits) {
        if (settings.only).is_some_and(|(from, to)| !(from..=to).contains(&number)) {
            continue;
        }
        tried += 1;
        let text = copy.text(&edit.file)?;
        copy.put(&edit.file, &text.replace(&edit.old, &edit.new))?;
        let seen = seen(settings, &copy, edit);
        copy.put(&edit.file, &text)?;
        let (seen, tests) = match seen? {
            Ok(seen) => seen,
            Err(error) => {
                eprintln!("{}: does not build\n{error}", edit.what);
                continue;
            }
        };
        let (after, seconds, by) = match &seen {
            Seen::Difference(events, seconds, what) => (
                format!("{events} events"),
                format!("{seconds:.2}"),
                what.clone(),
            ),
            Seen::Stopped(seconds, what) => {
                ("a stop".into(), format!("{seconds:.2}"), what.clone())
            }
            Seen::Nothing(events) => {
                let silent = edit.same || edit.by_tests;
                let note = if silent { ", as it must be" } else { "" };
                (
                    format!("NOT in {events} events{note}"),
                    "-".into(),
                    "-".into(),
                )
            }
        };
        let failed = tests.is_some_and(|count| count > 0);
        let by = match tests {
            Some(count) if failed => format!("{by}; failing tests: {count}"),
            _ => by,
        };
        let (what, call, side) = (&edit.what, &edit.call, edit.side());
        tables.line(format_args!(
            "| {number} | {what} | {call} | {side} | {after} | {seconds} | {by} |"
        ));
        let is_noticed = !matches!(seen, Seen::Nothing(_));
        noticed += usize::from(is_noticed || (edit.by_tests && failed));
        right += usize::from(match edit.by_tests {
            true => !is_noticed && failed,
            false => is_noticed != edit.same,
        });
    }
    tables.line(format_args!(
        "\n{tried} edits, {noticed} noticed, {right} as they must be."
    ));
    tables.end(settings.write)?;
    Ok(right == tried)
}

/// What the comparison said, and where there are tests for it how many of them failed; or what the
/// compiler said.
type Built = Result<(Seen, Option<usize>), String>;

fn seen(settings: &Settings, copy: &Copy, edit: &Edit) -> Result<Built, String> {
    let said = copy.cargo(
        settings,
        &["build", "--package", "compare", "--bin", "compare"],
    )?;
    if let Err(error) = said {
        return Ok(Err(error));
    }
    let look = if edit.withdrawn { "withdrawn" } else { "all" };
    let program = copy.target.join("debug/compare");
    let seen = compare(settings, &program, edit.side(), look)?;
    let Some(tests) = &edit.tests else {
        return Ok(Ok((seen, None)));
    };
    let words = ["test", "--package"].into_iter();
    let words: Vec<&str> = words.chain(tests.split(' ')).collect();
    let said = copy.cargo(settings, &words)?;
    let said = said.unwrap_or_else(|said| said);
    let failed = between(&said, " passed; ", " failed;").and_then(|count| count.parse().ok());
    Ok(Ok((seen, failed)))
}

/// A copy of the sources, to be edited, with a target folder of its own.
struct Copy {
    root: PathBuf,
    target: PathBuf,
    library: PathBuf,
}

impl Copy {
    fn new(package: &Path) -> io::Result<Copy> {
        let sources = package.join("..").canonicalize()?;
        let target = std::env::current_exe()?.with_file_name("mutants-target");
        let library = match std::env::var_os("POKERBOX_LIB_DIR") {
            Some(folder) => std::path::absolute(folder)?,
            None => sources.join("../target/staticlib"),
        };
        let copy = Copy {
            root: target.join("sources"),
            target,
            library,
        };
        let (wanted, there) = (files(&sources)?, files(&copy.root)?);
        for file in there.difference(&wanted) {
            fs::remove_file(copy.root.join(file))?;
        }
        for file in &wanted {
            let (from, to) = (sources.join(file), copy.root.join(file));
            let bytes = fs::read(&from)?;
            // What is the same stays, so that cargo need not build it again.
            if fs::read(&to).ok().as_ref() != Some(&bytes) {
                fs::create_dir_all(to.parent().expect("a folder"))?;
                fs::write(&to, bytes)?;
            }
        }
        Ok(copy)
    }

    fn text(&self, file: &str) -> Result<String, String> {
        fs::read_to_string(self.root.join(file)).map_err(|error| format!("{file}: {error}"))
    }

    fn put(&self, file: &str, text: &str) -> Result<(), String> {
        fs::write(self.root.join(file), text).map_err(|error| format!("{file}: {error}"))
    }

    /// What cargo said; as an error, if it failed.
    fn cargo(&self, settings: &Settings, what: &[&str]) -> Result<Result<String, String>, String> {
        let cargo = std::env::var_os("CARGO").unwrap_or("cargo".into());
        let done = Command::new(cargo)
            .args(what)
            .args(["--quiet", "--jobs", &settings.jobs])
            .current_dir(&self.root)
            .env("CARGO_TARGET_DIR", &self.target)
            .env("POKERBOX_LIB_DIR", &self.library)
            .env("RUSTFLAGS", "--cap-lints=allow")
            .output()
            .map_err(|error| error.to_string())?;
        let said = [done.stdout, done.stderr].concat();
        let said = String::from_utf8_lossy(&said).into_owned();
        Ok(match done.status.success() {
            true => Ok(said),
            false => Err(said),
        })
    }
}

/// The files below a folder, those of cargo's target folders apart. None if it is not there.
fn files(root: &Path) -> io::Result<BTreeSet<PathBuf>> {
    let (mut files, mut folders) = (BTreeSet::new(), vec![root.to_path_buf()]);
    while let Some(folder) = folders.pop() {
        if folder == root && !root.exists() {
            break;
        }
        for entry in fs::read_dir(folder)? {
            let path = entry?.path();
            if !path.is_dir() {
                let below = path.strip_prefix(root).expect("below the folder");
                files.insert(below.to_path_buf());
            } else if path.file_name() != Some("target".as_ref()) {
                folders.push(path);
            }
        }
    }
    Ok(files)
}

fn read(text: &str) -> Result<Vec<Edit>, String> {
    let (mut edits, mut file, mut tests) = (Vec::new(), String::new(), None);
    let mut lines = text.lines();
    while let Some(line) = lines.next() {
        if let Some(name) = line.strip_prefix("@ ") {
            let (name, run) = match name.split_once(" | ") {
                Some((name, run)) => (name, Some(run)),
                None => (name, None),
            };
            file = name.into();
            tests = run.map(str::to_string);
        }
        let Some(head) = line.strip_prefix("## ") else {
            continue;
        };
        let parts: Vec<&str> = head.split(" | ").collect();
        let (what, call, mark) = match parts[..] {
            [what, call] => (what, call, ""),
            [what, call, mark @ ("same" | "tests" | "withdrawn" | "library")] => (what, call, mark),
            _ => return Err(format!("not the head of an edit: {head}")),
        };
        if lines.next() != Some("<<<") {
            return Err(format!("{what}: no <<<"));
        }
        let old: Vec<&str> = lines.by_ref().take_while(|line| *line != "===").collect();
        let new: Vec<&str> = lines.by_ref().take_while(|line| *line != ">>>").collect();
        edits.push(Edit {
            file: file.clone(),
            what: what.into(),
            call: call.into(),
            tests: tests.clone(),
            same: mark == "same",
            by_tests: mark == "tests",
            withdrawn: mark == "withdrawn",
            library: mark == "library",
            old: old.join("\n"),
            new: new.join("\n"),
        });
    }
    Ok(edits)
}

fn compare(settings: &Settings, program: &Path, side: &str, look: &str) -> Result<Seen, String> {
    let mut command = Command::new(program);
    command.args(["--seconds", &settings.seconds, "--seed", &settings.seed]);
    command.args(["--side", side, "--look", look]);
    command.stderr(Stdio::piped());
    if let Some(folder) = &settings.folder {
        command.args(["--dir", folder]);
    }
    let start = Instant::now();
    let done = command.output().map_err(|error| error.to_string())?;
    let seconds = start.elapsed().as_secs_f64();
    let said = String::from_utf8_lossy(&done.stdout).into_owned();
    match done.status.code() {
        Some(0) => Ok(Seen::Nothing(
            between(&said, "\n", " events in ").unwrap_or_default(),
        )),
        Some(1) => {
            let events = between(&said, "A difference after ", " events").unwrap_or_default();
            let what = said.lines().rfind(|line| line.starts_with("after event "));
            let what = what.and_then(|line| line.split_once(": "));
            let what = what.map_or("", |(_, what)| what);
            Ok(Seen::Difference(events, seconds, what.into()))
        }
        _ => {
            let error = String::from_utf8_lossy(&done.stderr);
            let what = error
                .lines()
                .find(|line| !line.contains("panicked at") && !line.is_empty());
            Ok(Seen::Stopped(seconds, what.unwrap_or("").into()))
        }
    }
}

/// The last text between the two.
fn between(text: &str, before: &str, after: &str) -> Option<String> {
    let (front, _) = text.rsplit_once(after)?;
    let (_, found) = front.rsplit_once(before)?;
    Some(found.to_string())
}
