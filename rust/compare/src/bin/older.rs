//! Makes random queues, has the library convert their images of kind 06 to kind 01, and writes those that it
//! converts to the standard output, each with what a library of kind 01 has to make of it. `base.sh` hands
//! them to the library of the base.

use std::io::{self, Write};
use std::process::ExitCode;

use compare::wide::{sayable, spoil};
use model::random::{self, Rng};
use model::{image, HeaderKind, Limits, Queue};
use pokerbox::Error;

const USAGE: &str = "\
usage: older [--queues N] [--seed N] [--altered]

  --queues   how many random queues (100000); kind 01 can say half of them
  --seed     the first queue's seed (1); the others follow
  --altered  each text gets one wrong digit, so that it is to be noticed";

struct Settings {
    queues: u64,
    seed: u64,
    altered: bool,
}

fn main() -> ExitCode {
    match settings(std::env::args().skip(1)).and_then(|settings| run(&settings)) {
        Ok(()) => ExitCode::SUCCESS,
        Err(error) => {
            eprintln!("older: {error}");
            ExitCode::FAILURE
        }
    }
}

fn settings(mut arguments: impl Iterator<Item = String>) -> Result<Settings, String> {
    let mut settings = Settings {
        queues: 100_000,
        seed: 1,
        altered: false,
    };
    while let Some(name) = arguments.next() {
        if name == "--altered" {
            settings.altered = true;
            continue;
        }
        let value = arguments.next().and_then(|value| value.parse().ok());
        let value = value.ok_or(format!("{name} needs a number\n{USAGE}"))?;
        match name.as_str() {
            "--queues" => settings.queues = value,
            "--seed" => settings.seed = value,
            _ => return Err(format!("{name} is no option\n{USAGE}")),
        }
    }
    Ok(settings)
}

fn run(settings: &Settings) -> Result<(), String> {
    let mut output = io::BufWriter::new(io::stdout().lock());
    let (mut converted, mut refused, mut records) = (0, 0, 0);
    for n in 0..settings.queues {
        let seed = settings.seed.wrapping_add(n);
        let rng = &mut Rng::new(seed);
        let queue = queue(rng, n % 2 == 0);
        let older = older(&queue).map_err(|what| format!("the queue with seed {seed}: {what}"))?;
        let Some(mut older) = older else {
            refused += 1;
            continue;
        };
        (converted, records) = (converted + 1, records + queue.records.len());
        if settings.altered {
            alter(rng, &mut older);
        }
        // By plain code, from the values.
        let right = image::encode_as(HeaderKind::K01, &queue);
        let put = writeln!(output, "{} {}", older.len(), right.len());
        let put = put.and_then(|()| output.write_all(&older));
        put.and_then(|()| output.write_all(&right))
            .map_err(|error| error.to_string())?;
    }
    output.flush().map_err(|error| error.to_string())?;
    eprintln!(
        "older: {converted} queues with {records} records converted, {refused} refused by 22"
    );
    Ok(())
}

/// A sound queue that kind 01 can say, or one that it cannot.
fn queue(rng: &mut Rng, can: bool) -> Queue {
    loop {
        let queue = any_queue(rng);
        let mut old = sayable(&queue);
        if can {
            return old;
        }
        // With several things in its way, or with one.
        let other = match rng.below(4) {
            0 => random::with_callers(rng, queue),
            1 => random::with_reads(rng, queue),
            2 => random::with_wide(rng, queue),
            _ => {
                spoil(rng, &mut old);
                old
            }
        };
        if !HeaderKind::K01.can_hold(&other) {
            return other;
        }
    }
}

/// Mostly under small limits, rarely with hundreds of records.
fn any_queue(rng: &mut Rng) -> Queue {
    let limits = match rng.below(400) {
        0 => Limits::checked(300, 4_096, 300, 4).expect("limits in range"),
        1..=40 => Limits::checked(20, 200, 20, 8).expect("limits in range"),
        _ => random::small_limits(rng),
    };
    let mut queue = random::queue(rng, limits);
    // An image has no persisted height.
    queue.persisted = queue.cursor;
    queue
}

/// What the library converts of the queue's image, which it has to write itself; nothing where it refuses
/// that, as it has to.
fn older(queue: &Queue) -> Result<Option<Vec<u8>>, String> {
    let text = image::encode(queue);
    let opened = pokerbox::Queue::open(&text).map_err(|error| error.to_string())?;
    let written = opened.image().map_err(|error| error.to_string())?;
    if written != text {
        return Err("the library writes another image of it".into());
    }
    let holds = HeaderKind::K01.can_hold(queue);
    match (pokerbox::Queue::convert(&written), holds) {
        (Ok(older), true) => Ok(Some(older)),
        (Err(Error::NotConvertible), false) => Ok(None),
        (Ok(_), false) => Err("converted, though kind 01 cannot say it".into()),
        (Err(error), _) => Err(error.to_string()),
    }
}

/// Another digit in one place.
fn alter(rng: &mut Rng, text: &mut [u8]) {
    let digits = (0..text.len()).filter(|at| text[*at] != b'\n');
    let at = rng.pick(&digits.collect::<Vec<_>>());
    text[at] = match text[at] {
        b'0' => b'1',
        _ => b'0',
    };
}
