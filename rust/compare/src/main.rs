//! Compares the exported calls with `PrivateTransactionQueue` on random lists of calls, and stops
//! with the smallest list found at the first difference.

use std::path::PathBuf;
use std::process::ExitCode;
use std::time::{Duration, Instant};

use compare::counts::Counts;
use compare::list::Look;
use compare::run;
use compare::shrink::shrink;
use compare::side::{Library, Model, Side};
use model::Limits;

const USAGE: &str = "\
usage: compare [--seed N] [--steps N] [--seconds N] [--limits P,B,T,K] [--side library|model]
               [--look all|withdrawn] [--dir DIR]

  --seed     the first list's seed (1); the others follow
  --steps    stop after so many events (100000)
  --seconds  stop after so many seconds
  --limits   these limits for every list, in place of random ones
  --side     what is compared with the oracle (library)
  --look     what is looked at after each event (all); withdrawn: only whether one of them, by its
             own answers and writes, selects a withdrawn id
  --dir      where the oracle has its files: best a folder in memory (the temporary folder)";

struct Settings {
    seed: u64,
    steps: u64,
    seconds: Option<u64>,
    limits: Option<Limits>,
    model: bool,
    look: Look,
    folder: PathBuf,
}

fn main() -> ExitCode {
    let settings = match settings(std::env::args().skip(1)) {
        Ok(settings) => settings,
        Err(error) => {
            eprintln!("compare: {error}\n{USAGE}");
            return ExitCode::from(2);
        }
    };
    let folder = settings
        .folder
        .join(format!("pokerbox-compare-{}", std::process::id()));
    if let Err(error) = std::fs::create_dir_all(&folder) {
        eprintln!("compare: cannot make {}: {error}", folder.display());
        return ExitCode::from(2);
    }
    let same = if settings.model {
        println!("Compared with the oracle: the model.");
        compare(&Model, &settings, &folder)
    } else {
        println!("Compared with the oracle: the library.");
        compare(&Library, &settings, &folder)
    };
    let _ = std::fs::remove_dir_all(&folder);
    if same {
        ExitCode::SUCCESS
    } else {
        ExitCode::FAILURE
    }
}

fn settings(mut arguments: impl Iterator<Item = String>) -> Result<Settings, String> {
    let mut settings = Settings {
        seed: 1,
        steps: 100_000,
        seconds: None,
        limits: None,
        model: false,
        look: Look::All,
        folder: std::env::temp_dir(),
    };
    while let Some(name) = arguments.next() {
        let value = arguments.next().ok_or(format!("{name} needs a value"))?;
        match name.as_str() {
            "--seed" => settings.seed = number(&value)?,
            "--steps" => settings.steps = number(&value)?,
            "--seconds" => {
                settings.seconds = Some(number(&value)?);
                settings.steps = u64::MAX;
            }
            "--limits" => settings.limits = Some(limits(&value)?),
            "--side" => settings.model = is_model(&value)?,
            "--look" => settings.look = look(&value)?,
            "--dir" => settings.folder = PathBuf::from(value),
            _ => return Err(format!("{name} is no option")),
        }
    }
    Ok(settings)
}

fn number(text: &str) -> Result<u64, String> {
    text.parse().map_err(|_| format!("{text} is no number"))
}

fn limits(text: &str) -> Result<Limits, String> {
    let numbers: Vec<u64> = text.split(',').map(number).collect::<Result<_, _>>()?;
    let [p, b, t, k] = numbers[..] else {
        return Err(format!("{text} is not four limits"));
    };
    Limits::checked(p, b, t, k).ok_or(format!("{text}: a limit is out of range"))
}

fn is_model(text: &str) -> Result<bool, String> {
    match text {
        "library" => Ok(false),
        "model" => Ok(true),
        _ => Err(format!("{text} is neither library nor model")),
    }
}

fn look(text: &str) -> Result<Look, String> {
    match text {
        "all" => Ok(Look::All),
        "withdrawn" => Ok(Look::Withdrawn),
        _ => Err(format!("{text} is neither all nor withdrawn")),
    }
}

/// Whether no difference was found.
fn compare<S: Side>(side: &S, settings: &Settings, folder: &std::path::Path) -> bool {
    let start = Instant::now();
    let end = settings.seconds.map(Duration::from_secs);
    let mut counts = Counts::default();
    let mut shown = start;
    let mut seed = settings.seed;
    while counts.steps < settings.steps && end.is_none_or(|end| start.elapsed() < end) {
        let (limits, look) = (settings.limits, settings.look);
        if let Err(found) = run::seed(side, folder, seed, limits, look, &mut counts) {
            println!(
                "A difference after {} events, in the list with seed {seed}; the smallest list found:",
                counts.steps
            );
            let (list, found) = shrink(side, folder, *found);
            println!("{list}\n{found}");
            return false;
        }
        seed = seed.wrapping_add(1);
        if shown.elapsed() > Duration::from_secs(5) {
            shown = Instant::now();
            let seconds = start.elapsed().as_secs();
            println!("{seconds} s: {} events, no difference", counts.steps);
        }
    }
    println!(
        "No difference. Seeds {} to {}.",
        settings.seed,
        seed.wrapping_sub(1)
    );
    print!("{counts}");
    true
}
