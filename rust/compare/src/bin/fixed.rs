//! Makes the fixed list of `crates/replay`: its files `stdin` and `stdout`.

use std::path::{Path, PathBuf};
use std::process::ExitCode;

use compare::fixed;

fn main() -> ExitCode {
    match run() {
        Ok(()) => ExitCode::SUCCESS,
        Err(error) => {
            eprintln!("fixed: {error}\nusage: fixed [DIR], DIR where the oracle has its files");
            ExitCode::FAILURE
        }
    }
}

fn run() -> Result<(), String> {
    let folder = std::env::args()
        .nth(1)
        .map_or(std::env::temp_dir(), PathBuf::from)
        .join(format!("pokerbox-fixed-{}", std::process::id()));
    std::fs::create_dir_all(&folder).map_err(|error| error.to_string())?;
    let made = fixed::make(&folder);
    let _ = std::fs::remove_dir_all(&folder);
    let made = made?;
    let replay = Path::new(env!("CARGO_MANIFEST_DIR")).join(fixed::REPLAY);
    for (name, text) in [("stdin", &made.steps), ("stdout", &made.answers)] {
        std::fs::write(replay.join(name), text).map_err(|error| error.to_string())?;
        println!(
            "{name}: {} lines, {} bytes",
            text.lines().count(),
            text.len()
        );
    }
    println!("{}", made.counts());
    Ok(())
}
