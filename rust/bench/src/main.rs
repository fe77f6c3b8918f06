//! The same work by the exported calls and by `PrivateTransactionQueue`, as a table of times; then best fees, parents first, and how
//! the library's times grow. Each part has a file of its own in docs/tables, which `--write` overwrites.

mod commit;
mod fees;
mod growth;
mod parents;

use std::collections::{BTreeMap, BTreeSet};
use std::hint::black_box;
use std::path::{Path, PathBuf};
use std::process::ExitCode;
use std::time::{Duration, Instant};

use compare::oracle::{hex, options_of, pool_entry, register, set_limits, whole_store};
use compare::side::{Library, Side};
use compare::tables::{command, Tables};
use compare::unit::admit_args;
use model::calls::ReconcileArgs;
use model::random::nth_id;
use model::rules::{reserved_inputs, Admission};
use model::{
    area, image, Caller, Confirmation, FinishNumber, HeaderKind, Height, Holder, Id, Limits, Queue,
    Reason, Record, State, TimeMs, Withdrawn,
};
use pokerbox::raw;
use reference::private_queue::inspect::{self, WholeStore};
use reference::private_queue::PrivateTransactionQueue;

const INPUTS: usize = 2;
const OUTPUTS: usize = 2;
const SIGNED_BYTES: usize = 300;
/// The first of the ids that are only read.
const READ_FROM: usize = 1_000_000;
/// The time at which one record is due.
const DUE: u64 = 5;
/// Runs of one work: at least and at most, and no more after so long.
const LEAST: usize = 5;
const MOST: usize = 201;
const ENOUGH: Duration = Duration::from_millis(200);

const USAGE: &str = "\
usage: bench [--short | --full | --fees | --parents] [--write] [FOLDER]

  --short    the ratios of the growth and of parents first alone
  --full     a full unit at the top limits alone
  --fees     best fees alone
  --parents  parents first alone
  --write    writes each part that is measured to its file in docs/tables, too
  FOLDER     where files are written to be timed: best one in memory (the temporary folder)";

/// What has a file of its own.
#[derive(Clone, Copy)]
enum Part {
    Calls,
    Fees,
    Parents,
    Growth,
    Full,
}

impl Part {
    fn measure(self, settings: &Settings) -> Result<(), String> {
        let (file, title) = match self {
            Part::Calls => (
                "bench.md",
                "Bench: the calls, and the same work by the Rust",
            ),
            Part::Fees => ("bench-fees.md", "Bench: best fees"),
            Part::Parents => ("bench-parents.md", "Bench: parents first"),
            Part::Growth => ("bench-growth.md", "Bench: growth"),
            Part::Full => ("bench-full.md", "Bench: a full unit at the top limits"),
        };
        let mut tables = Tables::new(file, title, "docs/BENCH.md", &settings.command);
        match self {
            Part::Calls => calls(&settings.folder, &mut tables),
            Part::Fees => fees::rows(ENOUGH, &mut tables),
            Part::Parents => parents::rows(ENOUGH, &mut tables),
            Part::Growth => growth::ratios(ENOUGH, &mut tables),
            Part::Full => growth::full_units(ENOUGH, &mut tables),
        }
        tables.end(settings.write)
    }
}

struct Settings {
    parts: Vec<Part>,
    write: bool,
    folder: PathBuf,
    command: String,
}

fn settings(arguments: impl Iterator<Item = String>) -> Result<Settings, String> {
    let (mut only, mut write, mut folder) = (None, false, None);
    let mut given = Vec::new();
    for argument in arguments {
        let part = match argument.as_str() {
            "--short" => Part::Growth,
            "--full" => Part::Full,
            "--fees" => Part::Fees,
            "--parents" => Part::Parents,
            "--write" => {
                write = true;
                given.push(argument);
                continue;
            }
            option if option.starts_with('-') => return Err(format!("{option} is no option")),
            _ if folder.is_some() => return Err("two folders".into()),
            _ => {
                folder = Some(PathBuf::from(argument));
                given.push("FOLDER".into());
                continue;
            }
        };
        if only.replace(part).is_some() {
            return Err("one part or all".into());
        }
        given.push(argument);
    }
    let all = [
        Part::Calls,
        Part::Fees,
        Part::Parents,
        Part::Growth,
        Part::Full,
    ];
    let given: Vec<&str> = given.iter().map(String::as_str).collect();
    Ok(Settings {
        parts: only.map_or(all.to_vec(), |part| vec![part]),
        write,
        folder: folder.unwrap_or(std::env::temp_dir()),
        command: command("-p bench", &given),
    })
}

fn main() -> ExitCode {
    let settings = match settings(std::env::args().skip(1)) {
        Ok(settings) => settings,
        Err(error) => {
            eprintln!("bench: {error}\n{USAGE}");
            return ExitCode::from(2);
        }
    };
    for part in &settings.parts {
        if let Err(error) = part.measure(&settings) {
            eprintln!("bench: {error}");
            return ExitCode::FAILURE;
        }
    }
    ExitCode::SUCCESS
}

/// The same work on both sides.
fn calls(folder: &Path, tables: &mut Tables) {
    let path = folder.join(format!("pokerbox-bench-{}.json", std::process::id()));
    if let Some(name) = commit::file_system(folder) {
        tables.line(format_args!("Files are written to {name}.\n"));
    }
    // K 2 and B 1 MiB: room for the records, without much unused area.
    let roomy = [1_024, 1 << 20, 1_024, 2];
    // Limits that fit the load.
    let close = [1_024, 310_000, 64, 2];
    for (limits, records, tombstones) in [
        (roomy, 10, 0),
        (roomy, 100, 0),
        (roomy, 1_000, 0),
        (roomy, 1_000, 1_024),
        (close, 1_000, 0),
    ] {
        let [p, b, t, k] = limits;
        let limits = Limits::checked(p, b, t, k).expect("limits in range");
        Bench::new(limits, records, tombstones, &path).run(tables);
    }
    let _ = std::fs::remove_file(&path);
}

/// One queue on both sides.
struct Bench<'a> {
    queue: Queue,
    area: Vec<u8>,
    image: Vec<u8>,
    next: Vec<u8>,
    out: Vec<u8>,
    /// A pending record without a deadline.
    id: Id,
    /// The same queue with that record Mined.
    mined_area: Vec<u8>,
    mined_store: WholeStore,
    oracle: PrivateTransactionQueue,
    store: WholeStore,
    path: &'a Path,
}

/// Microseconds, the least and the median.
#[derive(Clone, Copy)]
struct Time {
    least: f64,
    median: f64,
}

/// None where a side has no such work.
struct Row {
    work: String,
    library: Option<Time>,
    oracle: Option<Time>,
}

fn record(n: usize, state: State) -> Record {
    let pending = state == State::Queued;
    let boxes = |from: usize| (0..from).map(|at| nth_id(n * INPUTS + at)).collect();
    Record {
        id: nth_id(n),
        caller: Caller(0),
        state,
        reason: if pending {
            Reason::None
        } else {
            Reason::Cancelled
        },
        created: TimeMs(n as u64),
        time_deadline: (n == 1).then_some(TimeMs(DUE)),
        height_deadline: None,
        priority: (n % 5) as i64,
        label: None,
        fee: 1_000_000,
        size: SIGNED_BYTES as u32,
        cost: 9,
        mined: None,
        withdrawn: Withdrawn::No,
        finish: FinishNumber(0),
        holder: pending.then(|| Holder {
            inputs: boxes(INPUTS),
            outputs: boxes(OUTPUTS),
            reads: Vec::new(),
            bytes: (0..SIGNED_BYTES).map(|at| (n + at) as u8).collect(),
        }),
    }
}

fn queue(limits: Limits, records: usize, tombstones: usize) -> Queue {
    let mut queue = Queue::fresh(limits);
    queue
        .records
        .extend((0..records).map(|n| record(n, State::Queued)));
    for n in 0..tombstones {
        let mut tombstone = record(records + n, State::Cancelled);
        tombstone.finish = FinishNumber(n as u64 + 1);
        queue.records.push(tombstone);
    }
    queue.counter = FinishNumber(tombstones as u64);
    queue.cursor = Height(100);
    queue.persisted = Height(100);
    queue.records.sort_by_key(|record| record.id);
    queue
}

/// The queue with these records Mined.
fn with_mined(queue: &Queue, which: impl Fn(&Record) -> bool) -> Queue {
    let mut queue = queue.clone();
    for record in queue.records.iter_mut().filter(|record| which(record)) {
        record.state = State::Mined;
        record.mined = Some(Confirmation {
            height: Height(99),
            block: nth_id(0),
        });
    }
    queue
}

/// The times of `work`, each run after `ready`.
fn time(mut ready: impl FnMut(), mut work: impl FnMut()) -> Time {
    let mut times = Vec::new();
    let start = Instant::now();
    while times.len() < LEAST || (times.len() < MOST && start.elapsed() < ENOUGH) {
        ready();
        let begin = Instant::now();
        work();
        times.push(begin.elapsed());
    }
    times.sort();
    let micros = |at: usize| times[at].as_secs_f64() * 1e6;
    Time {
        least: micros(0),
        median: micros(times.len() / 2),
    }
}

impl<'a> Bench<'a> {
    fn new(limits: Limits, records: usize, tombstones: usize, path: &'a Path) -> Self {
        let queue = queue(limits, records, tombstones);
        set_limits(&limits);
        for record in &queue.records {
            if let Some(holder) = &record.holder {
                register(&record.id, holder);
            }
        }
        let image = image::encode(&queue);
        let mut oracle = PrivateTransactionQueue::default();
        let store = whole_store(&queue);
        inspect::set_whole_store(&oracle, store.clone());
        // A file for opening; without a path, commits write none.
        inspect::set_path(&mut oracle, path);
        inspect::persist(&oracle).expect("a file for opening");
        let oracle = PrivateTransactionQueue::default();
        inspect::set_whole_store(&oracle, store.clone());
        let id = nth_id(2);
        let mined = with_mined(&queue, |record| record.id == id);
        Bench {
            area: area::encode(&queue),
            next: vec![0; limits.need()],
            out: vec![0; 2 * image.len() + 1_000],
            image,
            id,
            mined_area: area::encode(&mined),
            mined_store: whole_store(&mined),
            queue,
            oracle,
            store,
            path,
        }
    }

    fn run(&mut self, tables: &mut Tables) {
        assert_eq!(raw::sound(&self.area), Ok(()));
        let pending = self.queue.pending().count();
        let limits = &self.queue.limits;
        tables.line(format_args!(
            "## {pending} records, {} tombstones, P {}, B {}, T {}, K {}: an area of {} bytes\n",
            self.queue.tombstones().count(),
            limits.pending,
            limits.bytes,
            limits.tombstones,
            limits.inputs,
            limits.need()
        ));
        tables.line(format_args!(
            "Microseconds, least (median) of {LEAST} to {MOST} runs.\n"
        ));
        tables.line("| work | library | Rust | library / Rust |\n|---|---:|---:|---:|");
        let mut rows = self.changing();
        rows.push(self.admission());
        rows.push(self.shared_admission());
        rows.push(self.reading_admission());
        rows.push(self.reconciliation());
        rows.push(self.commit());
        rows.extend(self.parts());
        rows.extend(self.walks());
        rows.extend(self.readings());
        for row in rows {
            let number = |value: f64| match value {
                value if value < 10.0 => format!("{value:.2}"),
                value => format!("{value:.0}"),
            };
            let both = |time: Option<Time>| match time {
                Some(time) => format!("{} ({})", number(time.least), number(time.median)),
                None => "-".into(),
            };
            let ratio = row.library.zip(row.oracle);
            let ratio = ratio.map(|(library, oracle)| library.least / oracle.least.max(0.01));
            tables.line(format_args!(
                "| {} | {} | {} | {} |",
                row.work,
                both(row.library),
                both(row.oracle),
                ratio.map_or("-".into(), number)
            ));
        }
        tables.line("");
    }

    /// The Rust's time of a work that starts with the queue.
    fn oracle(&self, work: impl Fn(&PrivateTransactionQueue)) -> Option<Time> {
        Some(time(
            || inspect::set_whole_store(&self.oracle, self.store.clone()),
            || work(&self.oracle),
        ))
    }

    fn changing(&mut self) -> Vec<Row> {
        let limits = self.queue.limits;
        let ([p, b, t, k], shares) = (limits.numbers(), limits.share_bytes());
        let id = hex(&self.id);
        let ids = BTreeSet::from([id.clone()]);
        let mut rows = Vec::new();
        rows.push(Row {
            work: "fresh".into(),
            oracle: Some(time(
                || (),
                || {
                    black_box(PrivateTransactionQueue::default());
                },
            )),
            library: Some(time(
                || (),
                || raw::fresh(p, b, t, k, &shares, &mut self.next).expect("fresh"),
            )),
        });
        rows.push(Row {
            work: "cancel and image / JSON".into(),
            oracle: self.oracle(|queue| {
                queue.cancel(&id).expect("cancelled");
                black_box(inspect::json(queue));
            }),
            library: Some(time(
                || (),
                || {
                    let out = &mut self.out;
                    raw::cancel(&self.area, &mut self.next, &self.id, out).expect("cancelled");
                    raw::image(&self.next, out, &mut 0).expect("an image");
                },
            )),
        });
        rows.push(Row {
            work: "expire (one) and image / JSON".into(),
            oracle: self.oracle(|queue| {
                assert_eq!(queue.expire(DUE, 0).expect("expired").len(), 1);
                black_box(inspect::json(queue));
            }),
            library: Some(time(
                || (),
                || {
                    let out = &mut self.out;
                    raw::expire(&self.area, &mut self.next, DUE, 0, out).expect("expired");
                    raw::image(&self.next, out, &mut 0).expect("an image");
                },
            )),
        });
        rows.push(Row {
            work: "reopen (one) and image / JSON".into(),
            oracle: Some(time(
                || inspect::set_whole_store(&self.oracle, self.mined_store.clone()),
                || {
                    assert_eq!(self.oracle.reopen_rolled_back(&ids), Ok(true));
                    black_box(inspect::json(&self.oracle));
                },
            )),
            library: Some(time(
                || (),
                || {
                    let out = &mut self.out;
                    raw::reopen(&self.mined_area, &mut self.next, &self.id).expect("reopened");
                    raw::image(&self.next, out, &mut 0).expect("an image");
                },
            )),
        });
        rows.push(Row {
            work: "set_cursor (no image)".into(),
            oracle: self.oracle(|queue| queue.set_observation_cursor(7, None)),
            library: Some(time(
                || (),
                || {
                    raw::set_cursor(&self.area, &mut self.next, 7, 0, &[]).expect("set");
                },
            )),
        });
        rows.push(Row {
            work: "open".into(),
            oracle: Some(time(
                || (),
                || {
                    black_box(PrivateTransactionQueue::open(self.path).expect("opened"));
                },
            )),
            library: Some(time(
                || (),
                || {
                    raw::open(&self.image, &mut self.next).expect("opened");
                },
            )),
        });
        let older = image::encode_as(HeaderKind::K01, &self.queue);
        rows.push(Row {
            work: "open, an image of kind 01".into(),
            oracle: None,
            library: Some(time(
                || (),
                || raw::open(&older, &mut self.next).expect("opened"),
            )),
        });
        rows.push(Row {
            work: "convert, to an image of kind 01".into(),
            oracle: None,
            library: Some(time(
                || (),
                || raw::convert(&self.image, &mut self.out, &mut 0).expect("converted"),
            )),
        });
        rows
    }

    /// One more transaction of the same size, by this caller.
    fn one_more(&self, caller: Caller) -> Admission {
        let new = self.queue.records.len();
        let holder = record(new, State::Queued).holder.expect("a holder");
        Admission {
            id: nth_id(new),
            caller,
            inputs: holder.inputs,
            outputs: holder.outputs,
            reads: Vec::new(),
            signed: holder.bytes,
            now: TimeMs(DUE),
            time_deadline: None,
            height_deadline: None,
            priority: 0,
            label: None,
            fee: 1_000_000,
            cost: 9,
            tip_height: Height(100),
            tip: None,
        }
    }

    /// The same by the last of 16 callers, among which the records and their room are shared out.
    fn shared_admission(&mut self) -> Row {
        let mut queue = self.queue.clone();
        for (n, record) in queue.records.iter_mut().enumerate() {
            record.caller = Caller((n % Caller::COUNT) as u8);
        }
        let last = Caller(15);
        let share = queue.pending_of(last).count() as u32 + 1;
        queue.limits.shares = [share.min(queue.limits.pending); Caller::COUNT];
        let area = area::encode(&queue);
        let given = self.one_more(last);
        let lists = [&given.inputs, &given.outputs, &given.reads].map(|ids| ids.concat());
        let args = admit_args(&given, &lists);
        Row {
            work: "admit and image, 16 callers with a share each".into(),
            oracle: None,
            library: Some(time(
                || (),
                || {
                    let out = &mut self.out;
                    let number = Library.admit(&area, &mut self.next, &args, out);
                    assert_eq!(number, 102);
                    raw::image(&self.next, out, &mut 0).expect("an image");
                },
            )),
        }
    }

    /// The same where each record reads ids of its own, as many as it has inputs, and so does the new one.
    fn reading_admission(&mut self) -> Row {
        let own = |n: usize| -> Vec<Id> {
            let from = READ_FROM + n * INPUTS;
            (from..from + INPUTS).map(nth_id).collect()
        };
        let mut queue = self.queue.clone();
        for (n, record) in queue.records.iter_mut().enumerate() {
            if let Some(holder) = &mut record.holder {
                holder.reads = own(n);
            }
        }
        let area = area::encode(&queue);
        assert_eq!(raw::sound(&area), Ok(()));
        let given = Admission {
            reads: own(queue.records.len()),
            ..self.one_more(Caller(0))
        };
        let lists = [&given.inputs, &given.outputs, &given.reads].map(|ids| ids.concat());
        let args = admit_args(&given, &lists);
        // Its image is longer.
        let mut out = vec![0; 2 * area.len()];
        Row {
            work: "admit and image, 2 read ids in each record".into(),
            oracle: None,
            library: Some(time(
                || (),
                || {
                    let number = Library.admit(&area, &mut self.next, &args, &mut out);
                    assert_eq!(number, 102);
                    raw::image(&self.next, &mut out, &mut 0).expect("an image");
                },
            )),
        }
    }

    fn admission(&mut self) -> Row {
        let given = self.one_more(Caller(0));
        let lists = [&given.inputs, &given.outputs, &given.reads].map(|ids| ids.concat());
        let args = admit_args(&given, &lists);
        let entry = pool_entry(&given);
        Row {
            work: "admit and image / JSON".into(),
            oracle: self.oracle(|queue| {
                let options = options_of(&given);
                let admitted = queue.admit_at_tip(&entry, options, DUE, 100, None);
                admitted.expect("admitted");
                black_box(inspect::json(queue));
            }),
            library: Some(time(
                || (),
                || {
                    let out = &mut self.out;
                    let number = Library.admit(&self.area, &mut self.next, &args, out);
                    assert_eq!(number, 102);
                    raw::image(&self.next, out, &mut 0).expect("an image");
                },
            )),
        }
    }

    /// One record is found in a block, all inputs are available.
    fn reconciliation(&mut self) -> Row {
        let (block, window) = (nth_id(0), 720);
        let height = 101u32;
        let found = BTreeMap::from([(hex(&self.id), (height, hex(&block)))]);
        let applied = [&self.id[..], &height.to_be_bytes(), &block].concat();
        let inputs = reserved_inputs(&self.queue);
        let available: Vec<u8> = inputs.iter().flatten().copied().collect();
        let args = ReconcileArgs {
            height,
            tip: &block,
            applied: &applied,
            caught_up: 1,
            available: &available,
            window,
        };
        let tip = hex(&block);
        Row {
            work: "reconcile (one found) and image / JSON".into(),
            oracle: self.oracle(|queue| {
                let is_available = |id: &Id| inputs.contains(id);
                let tip = tip.clone();
                let done = queue.reconcile(height, tip, &found, true, is_available, window);
                assert!(done.expect("reconciled").changed);
                black_box(inspect::json(queue));
            }),
            library: Some(time(
                || (),
                || {
                    let out = &mut self.out;
                    let number = Library.reconcile(&self.area, &mut self.next, &args, out);
                    assert_eq!(number, 102);
                    raw::image(&self.next, out, &mut 0).expect("an image");
                },
            )),
        }
    }

    /// Where the time goes.
    fn parts(&mut self) -> Vec<Row> {
        let id = hex(&self.id);
        let mut rows = Vec::new();
        rows.push(Row {
            work: "part: sound, the area's check alone".into(),
            library: Some(time(|| (), || raw::sound(&self.area).expect("sound"))),
            oracle: None,
        });
        rows.push(Row {
            work: "part: a plain copy of the area / the store's clone".into(),
            library: Some(time(
                || (),
                || self.next.copy_from_slice(black_box(&self.area)),
            )),
            oracle: Some(time(
                || (),
                || {
                    black_box(inspect::whole_store(black_box(&self.oracle)));
                },
            )),
        });
        rows.push(Row {
            work: "part: cancel alone, with its check".into(),
            library: Some(time(
                || (),
                || {
                    raw::cancel(&self.area, &mut self.next, &self.id, &mut self.out).expect("done");
                },
            )),
            oracle: self.oracle(|queue| {
                queue.cancel(&id).expect("cancelled");
            }),
        });
        rows.push(Row {
            work: "part: image with its check / JSON".into(),
            library: Some(time(
                || (),
                || {
                    raw::image(&self.area, &mut self.out, &mut 0).expect("an image");
                },
            )),
            oracle: self.oracle(|queue| {
                black_box(inspect::json(queue));
            }),
        });
        for (kind, outcome, work) in [
            (2, 0, "settle kept, kind 2"),
            (2, 1, "settle failed, kind 2"),
            (3, 1, "settle failed, kind 3"),
        ] {
            self.next.copy_from_slice(&self.area);
            rows.push(Row {
                work: format!("part: {work}"),
                library: Some(time(
                    || (),
                    || {
                        let _ = black_box(raw::settle(&self.area, &mut self.next, kind, outcome));
                    },
                )),
                oracle: None,
            });
        }
        rows
    }

    /// The walk over the confirmations: all records are Mined; none is released, or all are.
    fn walks(&mut self) -> [Row; 2] {
        let mined = with_mined(&self.queue, |record| record.holder.is_some());
        let (area, store) = (area::encode(&mined), whole_store(&mined));
        let (block, height) = (nth_id(0), 101);
        let (tip, found) = (hex(&block), BTreeMap::new());
        [
            (720, 0, 101, "none released"),
            (0, mined.holders().count(), 102, "all released"),
        ]
        .map(|(window, released, number, work)| {
            let args = ReconcileArgs {
                height,
                tip: &block,
                applied: &[],
                caught_up: 1,
                available: &[],
                window,
            };
            Row {
                work: format!("part: reconcile alone, all Mined, {work}"),
                oracle: Some(time(
                    || inspect::set_whole_store(&self.oracle, store.clone()),
                    || {
                        let (queue, tip) = (&self.oracle, tip.clone());
                        let done = queue.reconcile(height, tip, &found, true, |_| false, window);
                        assert_eq!(done.expect("reconciled").released.len(), released);
                    },
                )),
                library: Some(time(
                    || (),
                    || {
                        let out = &mut self.out;
                        let given = Library.reconcile(&area, &mut self.next, &args, out);
                        assert_eq!(given, number);
                    },
                )),
            }
        })
    }

    fn readings(&mut self) -> Vec<Row> {
        let (mut rows, mut value) = (Vec::new(), 0);
        let (id, text) = (self.id, hex(&self.id));
        inspect::set_whole_store(&self.oracle, self.store.clone());
        let (area, out, oracle) = (&self.area, &mut self.out, &self.oracle);
        macro_rules! reading {
            ($name:literal, $library:expr, $oracle:expr) => {
                rows.push(Row {
                    work: $name.into(),
                    library: Some(time(|| (), || $library.expect("answered"))),
                    oracle: Some(time(
                        || (),
                        || {
                            black_box($oracle);
                        },
                    )),
                });
            };
        }
        reading!(
            "revision",
            raw::revision(area, &mut value),
            oracle.revision()
        );
        reading!(
            "is_empty",
            raw::is_empty(area, &mut value),
            oracle.is_empty()
        );
        reading!(
            "deadline_due",
            raw::deadline_due(area, 0, 0, &mut value),
            oracle.deadline_due(0, 0)
        );
        reading!(
            "observed_height",
            raw::observed_height(area, &mut value),
            oracle.observed_height()
        );
        reading!(
            "observation_cursor",
            raw::observation_cursor(area, out),
            oracle.observation_cursor()
        );
        reading!(
            "record_ids",
            raw::record_ids(area, out),
            oracle.record_ids()
        );
        reading!(
            "guarded_ids",
            raw::guarded_ids(area, out),
            oracle.guarded_ids()
        );
        reading!(
            "reserved_inputs",
            raw::reserved_inputs(area, out),
            oracle.reserved_inputs()
        );
        reading!(
            "reservation_snapshot",
            raw::reservation_snapshot(area, out),
            oracle.reservation_snapshot()
        );
        reading!(
            "guard_snapshot",
            raw::guard_snapshot(area, out),
            oracle.guard_snapshot()
        );
        reading!("list", raw::list(area, out), oracle.list());
        reading!("entry", raw::entry(area, &id, out), oracle.entry(&text));
        reading!(
            "selection_entries",
            raw::selection_entries(area, out),
            oracle.selection_entries()
        );
        reading!(
            "selection_entries_at",
            raw::selection_entries_at(area, DUE, 0, out),
            oracle.selection_entries_at(DUE, 0)
        );
        rows.push(Row {
            work: "selection_parents_first".into(),
            library: Some(time(
                || (),
                || raw::selection_parents_first(area, DUE, 0, out).expect("answered"),
            )),
            oracle: None,
        });
        reading!("due", raw::due(area, DUE, 0, out), oracle.due(DUE, 0));
        inspect::set_whole_store(oracle, self.mined_store.clone());
        reading!(
            "confirmations (one)",
            raw::confirmations(&self.mined_area, out),
            oracle.confirmations()
        );
        rows.push(Row {
            work: "signed_bytes".into(),
            library: Some(time(
                || (),
                || raw::signed_bytes(area, &id, &mut value, &mut 0).expect("answered"),
            )),
            oracle: None,
        });
        rows
    }
}
