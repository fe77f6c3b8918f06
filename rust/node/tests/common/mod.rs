//! Random cases, and the comparison of a call with the model on all lent bytes.

#![allow(dead_code)]

pub mod counters;
mod folder;

use std::collections::BTreeMap;

use model::random::{self, Rng};
use model::{area, Limits, Queue};
use pokerbox::{Error, Kind};

#[allow(unused_imports)]
pub use folder::Folder;

/// An example's program, beside the test's own, where cargo puts it.
pub fn example(name: &str) -> std::path::PathBuf {
    let test = std::env::current_exe().expect("the test's path");
    let profile = test.ancestors().nth(2).expect("target's profile folder");
    let program = profile.join("examples").join(name);
    assert!(
        program.exists(),
        "{} is missing: run `cargo build -p pokerbox --examples`",
        program.display()
    );
    program
}

/// The number that an exported call gave back.
pub trait Number {
    fn number(self) -> u64;
}

impl Number for Result<Kind, Error> {
    fn number(self) -> u64 {
        match self {
            Ok(kind) => 100 + kind as u64,
            Err(error) => error.number(),
        }
    }
}

impl Number for Result<(), Error> {
    fn number(self) -> u64 {
        match self {
            Ok(()) => 100,
            Err(error) => error.number(),
        }
    }
}

/// The model's calls give numbers.
impl Number for u64 {
    fn number(self) -> u64 {
        self
    }
}

/// How often each number was met.
#[derive(Default)]
pub struct Met(BTreeMap<u64, u64>);

impl Met {
    pub fn count(&mut self, number: u64) {
        *self.0.entry(number).or_default() += 1;
    }

    /// How many were counted.
    pub fn total(&self) -> u64 {
        self.0.values().sum()
    }

    /// Exactly these numbers were met, each a few times.
    pub fn expect(&self, numbers: &[u64]) {
        let met: Vec<u64> = self.0.keys().copied().collect();
        assert_eq!(met, numbers, "{:?}", self.0);
        assert!(self.0.values().all(|count| *count >= 5), "{:?}", self.0);
    }
}

/// Runs `case` with many generators and says which one failed.
pub fn many(cases: u64, mut case: impl FnMut(&mut Rng)) {
    for seed in 0..cases {
        let run = std::panic::AssertUnwindSafe(|| case(&mut Rng::new(seed)));
        if let Err(panic) = std::panic::catch_unwind(run) {
            eprintln!("failed in the case with seed {seed}");
            std::panic::resume_unwind(panic);
        }
    }
}

/// A sound queue: of caller 0 alone under all to caller 0, or with other shares and callers; with read
/// ids, or without; with priorities of 32 bits, or of more.
pub fn sound_queue(rng: &mut Rng) -> Queue {
    let limits = random::small_limits(rng);
    let mut queue = random::queue(rng, limits);
    if !rng.once_in(3) {
        queue = random::with_callers(rng, queue);
    }
    if !rng.once_in(3) {
        queue = random::with_reads(rng, queue);
    }
    match rng.once_in(2) {
        true => queue,
        false => random::with_wide(rng, queue),
    }
}

/// A sound queue of which kind 01 can say all, or nearly all: one of four has wide priorities, callers, other
/// shares or read ids, and half of those with marks may have mark 3.
pub fn nearly_old_queue(rng: &mut Rng) -> Queue {
    let limits = random::small_limits(rng);
    let mut queue = random::queue(rng, limits);
    let old = rng.once_in(2);
    let tombstones = queue.records.iter_mut().filter(|of| of.holder.is_none());
    for record in tombstones.filter(|_| old) {
        if record.withdrawn == model::Withdrawn::RolledBackAfterRelease {
            record.withdrawn = model::Withdrawn::Expired;
        }
    }
    match rng.below(20) {
        0 => random::with_callers(rng, queue),
        1 => random::with_reads(rng, queue),
        2 => random::with_wide(rng, queue),
        3 => {
            queue.limits.shares = random::shares(rng, &limits);
            queue
        }
        4 if !queue.records.is_empty() => {
            let n = rng.below(queue.records.len());
            queue.records[n].caller = random::caller(rng);
            queue
        }
        _ => queue,
    }
}

/// A priority, of 32 bits or of more, in two's complement.
pub fn lent_priority(rng: &mut Rng) -> u64 {
    let priority = match rng.below(5) {
        0 => rng.u64() as i64,
        1 | 2 => random::wide_priority(rng),
        _ => random::priority(rng),
    };
    priority as u64
}

/// A sound queue and bytes that mostly are its area: exact, with later bytes, or damaged.
pub fn lent_queue(rng: &mut Rng) -> (Queue, Vec<u8>) {
    let queue = sound_queue(rng);
    let mut bytes = area::encode(&queue);
    match rng.below(12) {
        0 => random::damage(rng, &mut bytes, 900),
        1 => bytes = area::encode(&random::altered(rng, &queue)),
        2 => bytes = short(rng),
        3..=6 => {
            let later = 1 + rng.below(9);
            bytes.extend(rng.bytes(later));
        }
        _ => {}
    }
    (queue, bytes)
}

/// Few bytes, none of them a queue.
fn short(rng: &mut Rng) -> Vec<u8> {
    let length = rng.below(60);
    rng.bytes(length)
}

/// An area to write: noise, of a length around the need.
pub fn area_to_write(rng: &mut Rng, limits: &Limits) -> Vec<u8> {
    let need = limits.need();
    let length = match rng.below(12) {
        0 => 0,
        1 => need - 1,
        2 => rng.below(need),
        3..=6 => need + 1 + rng.below(9),
        _ => need,
    };
    rng.bytes(length)
}

/// An output for a call that the model answers with `answer_len` bytes: noise, mostly long enough.
pub fn output(rng: &mut Rng, answer_len: usize) -> Vec<u8> {
    let length = match rng.below(8) {
        0 => rng.below(answer_len.max(1)),
        1 => answer_len.saturating_sub(1),
        2 | 3 => answer_len,
        _ => answer_len + rng.below(40),
    };
    rng.bytes(length)
}

/// The least output for which the model does not give 4.
pub fn answer_len(call: impl Fn(&mut [u8]) -> u64) -> usize {
    let (mut short, mut long) = (0, 1 << 14);
    if call(&mut vec![0; long]) < 100 {
        return 40;
    }
    while short < long {
        let middle = (short + long) / 2;
        if call(&mut vec![0; middle]) == 4 {
            short = middle + 1;
        } else {
            long = middle;
        }
    }
    long
}

/// An id: of a record mostly, rarely not 32 bytes long.
pub fn lent_id(rng: &mut Rng, queue: &Queue) -> Vec<u8> {
    let id = match rng.below(4) {
        0 => random::tx_id(rng, &queue.limits),
        _ if queue.records.is_empty() => random::tx_id(rng, &queue.limits),
        _ => queue.records[rng.below(queue.records.len())].id,
    };
    sometimes_cut(rng, id.to_vec())
}

pub fn sometimes_cut(rng: &mut Rng, mut bytes: Vec<u8>) -> Vec<u8> {
    match rng.below(24) {
        0 => bytes.truncate(bytes.len().saturating_sub(1)),
        1 => bytes.push(0),
        2 => bytes.clear(),
        _ => {}
    }
    bytes
}

/// A flag, rarely an unlisted one.
pub fn lent_flag(rng: &mut Rng) -> u8 {
    rng.pick(&[0, 0, 0, 0, 1, 1, 1, 1, 2, 255])
}

/// A caller, rarely one that there is not.
pub fn lent_caller(rng: &mut Rng) -> u8 {
    match rng.below(16) {
        0 => 16,
        1 => rng.pick(&[17, 0x80, 0xff]),
        _ => random::caller(rng).0,
    }
}

/// Shares, rarely one over P, rarely not 64 bytes.
pub fn lent_shares(rng: &mut Rng, limits: &Limits) -> Vec<u8> {
    let mut shares = random::shares(rng, limits);
    if rng.once_in(6) {
        let over = limits.pending.saturating_add(1);
        shares[rng.below(16)] = rng.pick(&[over, over, 1 << 8, 1 << 24, u32::MAX]);
    }
    let bytes = shares.iter().flat_map(|share| share.to_be_bytes());
    let mut bytes: Vec<u8> = bytes.collect();
    match rng.below(12) {
        0 => bytes.truncate(63),
        1 => bytes.push(0),
        2 => bytes.resize(rng.pick(&[0, 1, 60, 68, 128]), 0xff),
        _ => {}
    }
    bytes
}

/// Compares a call that writes `lent` and `out` with the model's.
pub fn same<N: Number>(
    met: &mut Met,
    lent: &[u8],
    out: &[u8],
    library: impl Fn(&mut [u8], &mut [u8]) -> N,
    model: impl Fn(&mut [u8], &mut [u8]) -> u64,
) {
    let (mut model_lent, mut model_out) = (lent.to_vec(), out.to_vec());
    let expected = model(&mut model_lent, &mut model_out);
    let (mut library_lent, mut library_out) = (lent.to_vec(), out.to_vec());
    let number = library(&mut library_lent, &mut library_out).number();
    assert_eq!(number, expected, "the number given back");
    assert!(library_lent == model_lent, "the area lent to write");
    assert_eq!(library_out, model_out, "the output");
    if expected < 100 && expected != 17 {
        assert!(
            library_lent == lent && library_out == out,
            "a refusal wrote"
        );
    }
    met.count(number);
}

/// Compares a changing call with the model's; `cur` stays as it was.
pub fn same_change(
    met: &mut Met,
    rng: &mut Rng,
    (queue, cur): &(Queue, Vec<u8>),
    library: impl Fn(&[u8], &mut [u8], &mut [u8]) -> Result<Kind, Error>,
    model: impl Fn(&[u8], &mut [u8], &mut [u8]) -> u64,
) {
    let next = area_to_write(rng, &queue.limits);
    let length = answer_len(|out| model(cur, &mut next.clone(), out));
    let out = output(rng, length);
    let before = cur.clone();
    same(
        met,
        &next,
        &out,
        |next, out| library(cur, next, out),
        |next, out| model(cur, next, out),
    );
    assert!(*cur == before, "the current area");
}

/// Compares a reading call that answers bytes with the model's.
pub fn same_reading(
    met: &mut Met,
    rng: &mut Rng,
    area: &[u8],
    library: impl Fn(&[u8], &mut [u8]) -> Result<(), Error>,
    model: impl Fn(&[u8], &mut [u8]) -> u64,
) {
    let length = answer_len(|out| model(area, out));
    let out = output(rng, length);
    let before = area.to_vec();
    same(
        met,
        &[],
        &out,
        |_, out| library(area, out),
        |_, out| model(area, out),
    );
    assert!(*area == before, "the area");
}

/// Compares what is said of an image's limits with the model's, with an output for the shares that is
/// rarely too short.
#[cfg(exported = "image_limits")]
pub fn same_image_limits(met: &mut Met, rng: &mut Rng, text: &[u8]) {
    let shares = output(rng, 64);
    let before: [u64; 5] = std::array::from_fn(|_| rng.u64());
    let (mut expected, mut values) = (before, before);
    let (mut expected_shares, mut given_shares) = (shares.clone(), shares.clone());
    let [p, b, t, k, need] = &mut expected;
    let number = model::calls::image_limits(text, p, b, t, k, &mut expected_shares, need);
    let [p, b, t, k, need] = &mut values;
    let given = pokerbox::raw::image_limits(text, p, b, t, k, &mut given_shares, need);
    assert_eq!(given.number(), number);
    assert_eq!(values, expected);
    assert_eq!(given_shares, expected_shares);
    if number < 100 {
        assert_eq!((values, given_shares), (before, shares), "a refusal wrote");
    }
    met.count(number);
}

/// Compares what is made of an image for a unit of kind 01 with the model's.
#[cfg(exported = "convert")]
pub fn same_convert(met: &mut Met, rng: &mut Rng, text: &[u8]) {
    let answer = model::image::decode(text).map_or(40, |queue| {
        let older = model::image::encode_as(model::HeaderKind::K01, &queue);
        older.len()
    });
    let (out, before) = (output(rng, answer), rng.u64());
    let (mut expected, mut expected_length) = (out.clone(), before);
    let number = model::calls::convert(text, &mut expected, &mut expected_length);
    let (mut written, mut length) = (out.clone(), before);
    let given = pokerbox::raw::convert(text, &mut written, &mut length);
    assert_eq!(given.number(), number);
    assert_eq!((&written, length), (&expected, expected_length));
    if number < 100 {
        assert_eq!((written, length), (out, before), "a refusal wrote");
    }
    met.count(number);
}

/// Compares a reading call that answers numbers with the model's.
pub fn same_values<const N: usize>(
    met: &mut Met,
    rng: &mut Rng,
    library: impl Fn(&mut [u64; N]) -> Result<(), Error>,
    model: impl Fn(&mut [u64; N]) -> u64,
) {
    let before: [u64; N] = std::array::from_fn(|_| rng.u64());
    let (mut expected, mut values) = (before, before);
    let number = model(&mut expected);
    assert_eq!(library(&mut values).number(), number);
    assert_eq!(values, expected);
    if number < 100 {
        assert_eq!(values, before, "a refusal wrote");
    }
    met.count(number);
}
