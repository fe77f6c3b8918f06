//! The files of docs/tables. What a program measures is printed line by line; a run that is asked to writes it there once it is whole.

use std::fmt::Display;
use std::path::Path;
use std::time::{SystemTime, UNIX_EPOCH};

/// What one file gets.
pub struct Tables {
    file: &'static str,
    text: String,
}

impl Tables {
    /// `document` says what is measured. Of the file's first lines only the title is printed.
    pub fn new(file: &'static str, title: &str, document: &str, command: &str) -> Self {
        println!("# {title}\n");
        let cores = std::thread::available_parallelism().map_or(0, usize::from);
        let text = format!(
            "# {title}\n\n\
            Written on {} (UTC) by `{command}` in `rust`, on {cores} cores; the next such run overwrites it.\n\
            What is measured, and what follows from it: {document}.\n\n",
            today()
        );
        Tables { file, text }
    }

    /// Prints a line and keeps it.
    pub fn line(&mut self, line: impl Display) {
        println!("{line}");
        self.text += &format!("{line}\n");
    }

    /// Overwrites the file, if `write`. Nothing is written before the last line is known.
    pub fn end(self, write: bool) -> Result<(), String> {
        if !write {
            return Ok(());
        }
        let folder = Path::new(env!("CARGO_MANIFEST_DIR")).join("../../docs/tables");
        let path = folder.join(self.file);
        std::fs::create_dir_all(&folder)
            .and_then(|()| std::fs::write(&path, format!("{}\n", self.text.trim_end())))
            .map_err(|error| format!("docs/tables/{}: {error}", self.file))
    }
}

/// How this program was started. `arguments` should name no folder of one machine.
pub fn command(program: &str, arguments: &[&str]) -> String {
    let release = if cfg!(debug_assertions) {
        ""
    } else {
        " --release"
    };
    let mut command = format!("cargo run{release} {program}");
    if !arguments.is_empty() {
        command += &format!(" -- {}", arguments.join(" "));
    }
    command
}

fn today() -> String {
    let since = SystemTime::now().duration_since(UNIX_EPOCH);
    date(since.expect("a clock after 1970").as_secs() / 86_400)
}

/// The date so many days after 1970-01-01.
fn date(days: u64) -> String {
    let leap = |year: u64| year % 4 == 0 && (year % 100 != 0 || year % 400 == 0);
    let (mut year, mut left) = (1970, days);
    while left >= 365 + u64::from(leap(year)) {
        left -= 365 + u64::from(leap(year));
        year += 1;
    }
    let february = 28 + u64::from(leap(year));
    let mut month = 1;
    for days in [31, february, 31, 30, 31, 30, 31, 31, 30, 31, 30] {
        if left < days {
            break;
        }
        left -= days;
        month += 1;
    }
    format!("{year}-{month:02}-{:02}", left + 1)
}

#[cfg(test)]
mod tests {
    use super::date;

    #[test]
    fn dates() {
        for (days, text) in [
            (0, "1970-01-01"),
            (58, "1970-02-28"),
            (59, "1970-03-01"),
            (364, "1970-12-31"),
            (365, "1971-01-01"),
            (11_016, "2000-02-29"),
            (11_017, "2000-03-01"),
            (20_773, "2026-11-16"),
        ] {
            assert_eq!(date(days), text);
        }
    }
}
