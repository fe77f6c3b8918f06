//! How the library's times grow, and with which ids: the rows that ratios and bounds are wanted for.

use std::time::{Duration, Instant};

use compare::side::{Library, Side};
use compare::tables::Tables;
use model::calls::ReconcileArgs;
use model::load::{self, Ids, Links, Load, Reads};
use model::random::nth_id;
use model::{area, image, HeaderKind, Id, Queue, State};
use pokerbox::raw;

const ALL: [(Ids, Links, &str); 5] = [
    (Ids::Random, Links::Apart, "random ids"),
    (Ids::Front, Links::Apart, "first 24 bytes alike"),
    (Ids::Ends, Links::Apart, "first and last 8 bytes alike"),
    (Ids::Filter, Links::Apart, "chosen against the filter"),
    (Ids::Random, Links::Ring, "chained records"),
];

/// The least and the median time of `work`, in seconds.
pub fn times(enough: Duration, mut work: impl FnMut()) -> (f64, f64) {
    let mut times = Vec::new();
    let start = Instant::now();
    while times.len() < 3 || (times.len() < 201 && start.elapsed() < enough) {
        let begin = Instant::now();
        work();
        times.push(begin.elapsed().as_secs_f64());
        // A long work is timed once.
        if start.elapsed() > 10 * enough {
            break;
        }
    }
    times.sort_by(f64::total_cmp);
    (times[0], times[times.len() / 2])
}

/// One queue, and what the calls are lent.
pub struct Lent {
    area: Vec<u8>,
    next: Vec<u8>,
    out: Vec<u8>,
    image: Vec<u8>,
    /// Of kind 01.
    older: Vec<u8>,
    /// Without read ids, which kind 01 has not.
    to_convert: Vec<u8>,
    id: Id,
    mined: Vec<u8>,
    /// All inputs and read ids, rising.
    asked_for: Vec<Id>,
    enough: Duration,
}

impl Lent {
    pub fn new(load: &Load, enough: Duration) -> Self {
        let queue = load::queue(load);
        let area = area::encode(&queue);
        assert_eq!(raw::sound(&area), Ok(()));
        let first = |state: State| {
            let mut records = queue.records.iter();
            records.find(|record| record.state == state)
        };
        let id = first(State::Queued).map_or([0; 32], |record| record.id);
        let mined = first(State::Mined).map_or(vec![], |record| record.id.to_vec());
        let records = queue.records.iter();
        let mut asked_for: Vec<Id> = records.flat_map(|of| of.asks_for().copied()).collect();
        asked_for.sort();
        asked_for.dedup();
        let image = image::encode(&queue);
        Lent {
            next: vec![0; area.len()],
            out: vec![0; 2 * image.len() + 1_000],
            area,
            image,
            older: image::encode_as(HeaderKind::K01, &queue),
            to_convert: image::encode(&without_reads(queue)),
            id,
            mined,
            asked_for,
            enough,
        }
    }

    pub fn area(&self) -> &[u8] {
        &self.area
    }

    pub fn sound(&self) -> (f64, f64) {
        times(self.enough, || raw::sound(&self.area).expect("sound"))
    }

    pub fn copy(&mut self) -> (f64, f64) {
        times(self.enough, || {
            self.next.copy_from_slice(std::hint::black_box(&self.area));
        })
    }

    /// One record found in a block; of what is spent or read every `step`-th is unavailable, none for 0.
    pub fn reconcile(&mut self, step: usize, with_image: bool) -> (f64, f64) {
        let kept = self.asked_for.iter().enumerate();
        let kept = kept.filter(|(at, _)| step == 0 || at % step != 0);
        let available: Vec<u8> = kept.flat_map(|(_, id)| *id).collect();
        let (block, height) = (nth_id(0), 101u32);
        let applied = [&self.id[..], &height.to_be_bytes(), &block].concat();
        let args = ReconcileArgs {
            height,
            tip: &block,
            applied: &applied,
            caught_up: 1,
            available: &available,
            window: 720,
        };
        times(self.enough, || {
            let number = Library.reconcile(&self.area, &mut self.next, &args, &mut self.out);
            assert_eq!(number, 102);
            if with_image {
                raw::image(&self.next, &mut self.out, &mut 0).expect("an image");
            }
        })
    }

    /// Every call on this queue, by name.
    pub fn every(&mut self) -> Vec<(&'static str, (f64, f64))> {
        let mut rows = vec![("sound", self.sound())];
        let (mut value, enough) = (0, self.enough);
        macro_rules! timed {
            ($name:literal, $work:expr) => {
                let work = || {
                    std::hint::black_box($work.expect("answered"));
                };
                rows.push(($name, times(enough, work)));
            };
        }
        {
            let (area, out, id) = (&self.area, &mut self.out, &self.id);
            timed!("revision", raw::revision(area, &mut value));
            timed!("deadline_due", raw::deadline_due(area, 0, 0, &mut value));
            timed!("record_ids", raw::record_ids(area, out));
            timed!("list", raw::list(area, out));
            timed!("entry", raw::entry(area, id, out));
            timed!("selection_entries", raw::selection_entries(area, out));
            timed!(
                "selection_parents_first",
                raw::selection_parents_first(area, 0, 0, out)
            );
            timed!("due", raw::due(area, 5, 0, out));
            timed!("confirmations", raw::confirmations(area, out));
            timed!("reserved_inputs", raw::reserved_inputs(area, out));
            timed!("reservation_snapshot", raw::reservation_snapshot(area, out));
            timed!("guard_snapshot", raw::guard_snapshot(area, out));
        }
        {
            let (area, next, out) = (&self.area, &mut self.next, &mut self.out);
            let (id, mined) = (&self.id, &self.mined);
            timed!("cancel", raw::cancel(area, next, id, out));
            timed!("expire", raw::expire(area, next, 5, 0, out));
            timed!("reopen", raw::reopen(area, next, mined));
            timed!("set_cursor", raw::set_cursor(area, next, 7, 0, &[]));
        }
        rows.push(("reconcile, all available", self.reconcile(0, false)));
        rows.push(("reconcile, half unavailable", self.reconcile(2, false)));
        rows.push(("reconcile, none available", self.reconcile(1, false)));
        let (area, next, out) = (&self.area, &mut self.next, &mut self.out);
        next.copy_from_slice(area);
        timed!("settle", raw::settle(area, next, 2, 0));
        timed!("image", raw::image(area, out, &mut 0));
        timed!("open", raw::open(&self.image, next));
        timed!("open, an image of kind 01", raw::open(&self.older, next));
        timed!(
            "convert, to an image of kind 01",
            raw::convert(&self.to_convert, out, &mut 0)
        );
        let ([p, b, t, k, need], shares) = (&mut [0; 5], &mut [0; 64]);
        let image = &self.image;
        timed!(
            "image_limits",
            raw::image_limits(image, p, b, t, k, shares, need)
        );
        rows
    }
}

fn without_reads(mut queue: Queue) -> Queue {
    let records = queue.records.iter_mut();
    for holder in records.filter_map(|record| record.holder.as_mut()) {
        holder.reads.clear();
    }
    queue
}

const TOP: [u64; 4] = [1_024, 16_777_216, 1_024, 128];

/// A full unit at the top limits; there is room for one more pending record.
pub fn full(ids: Ids, links: Links) -> Load {
    Load {
        limits: TOP,
        queued: 1_023,
        mined: 1_024,
        tombstones: 1_024,
        boxes: 128,
        bytes: 8_000,
        ids,
        links,
        reads: Reads::None,
    }
}

/// Records of two inputs, as in the table above.
pub fn plain(queued: u64, ids: Ids, links: Links) -> Load {
    Load {
        limits: [1_024, 1 << 20, 1_024, 2],
        queued,
        mined: 0,
        tombstones: 0,
        boxes: 2,
        bytes: 300,
        ids,
        links,
        reads: Reads::None,
    }
}

/// The same number of records with more inputs each.
fn wide(boxes: u64) -> Load {
    Load {
        mined: 0,
        boxes,
        ..full(Ids::Random, Links::Apart)
    }
}

/// 2,048 records of 128 inputs and outputs, which all read 128 ids.
pub fn reading(reads: Reads) -> Load {
    Load {
        queued: 1_024,
        reads,
        ..full(Ids::Random, Links::Apart)
    }
}

/// What records read at the top limits.
pub const READS: [(Reads, &str); 2] = [
    (Reads::Apart, "128 read ids of its own in each record"),
    (Reads::Same, "the same 128 read ids in all records"),
];

/// The check of a queue with read ids may take so many seconds.
const MOST_SECONDS: f64 = 2.0;

pub fn ratio(tables: &mut Tables, name: &str, value: f64, most: f64) {
    let verdict = if value <= most { "yes" } else { "no" };
    tables.line(format_args!("| {name} | {value:.2} | {most} | {verdict} |"));
}

/// The ratios alone.
pub fn ratios(enough: Duration, tables: &mut Tables) {
    tables.line("Records of 2 inputs and outputs and 300 signed bytes, P 1024, B 1048576, T 1024, K 2; the row of 128 and 32 inputs: 1,023 Queued");
    tables.line("records of 8,000 signed bytes and 1,024 tombstones, at the top limits; the rows with read ids: 1,024 Queued and 1,024 Mined records of");
    tables.line("128 inputs and outputs and 8,000 signed bytes and 1,024 tombstones, random ids, at the top limits, and no ratio but seconds.\n");
    tables.line("| ratio of least times | is | at most | reached |\n|---|---:|---:|---|");
    for (queued, most) in [(10, 0.7), (1_000, 1.0)] {
        let mut lent = Lent::new(&plain(queued, Ids::Random, Links::Apart), enough);
        let (sound, copy) = (lent.sound().0, lent.copy().0);
        ratio(
            tables,
            &format!("sound / copy, {queued} records"),
            sound / copy,
            most,
        );
    }
    for (ids, links, name) in ALL {
        let mut lent = Lent::new(&plain(1_000, ids, links), enough);
        let (half, one) = (lent.reconcile(2, true).0, lent.reconcile(0, true).0);
        let name = format!("reconcile, half unavailable / one found, {name}");
        ratio(tables, &name, half / one, 2.0);
    }
    let [few, many] = [32, 128].map(|boxes| Lent::new(&wide(boxes), enough).sound().0);
    let name = "sound, 1,023 x 128 / 1,023 x 32 inputs";
    ratio(tables, name, many / few, 6.0);
    for (reads, name) in READS {
        let sound = Lent::new(&reading(reads), enough).sound().0;
        let name = format!("sound in seconds, 2,048 x 128 inputs, {name}");
        ratio(tables, &name, sound, MOST_SECONDS);
    }
    crate::parents::ratios(enough, tables);
    tables.line("");
}

/// A full unit with each kind of ids, in milliseconds: least and median.
pub fn full_units(enough: Duration, tables: &mut Tables) {
    let [p, b, t, k] = TOP;
    tables.line(format_args!("P {p}, B {b}, T {t}, K {k}: 1,023 Queued and 1,024 Mined records of 128 inputs and outputs and 8,000 signed bytes, 1,024 tombstones.\n"));
    let loads = ALL.map(|(ids, links, name)| (full(ids, links), name.to_string()));
    let reading = READS.map(|(reads, name)| {
        let load = Load {
            reads,
            ..full(Ids::Random, Links::Apart)
        };
        (load, format!("random ids, {name}"))
    });
    for (load, name) in loads.into_iter().chain(reading) {
        tables.line(format_args!("## A full unit at the top limits, {name}\n"));
        tables.line("| call | least, ms | median, ms |\n|---|---:|---:|");
        for (call, (least, median)) in Lent::new(&load, enough).every() {
            let [least, median] = [least, median].map(|seconds| seconds * 1e3);
            tables.line(format_args!("| {call} | {least:.1} | {median:.1} |"));
        }
        tables.line("");
    }
}
