//! Each exported call against the model: numbers given back and all lent bytes, on good, short and
//! damaged input.

// Some parts wait for calls that are not exported yet.
#![cfg_attr(not(all_exported), allow(dead_code, unused_imports))]

mod common;

use std::collections::BTreeSet;

use common::{
    area_to_write, counters, lent_caller, lent_flag, lent_id, lent_priority, lent_queue,
    lent_shares, many, nearly_old_queue, output, same, same_change, same_convert,
    same_image_limits, same_reading, same_values, sometimes_cut, sound_queue, Met,
};
use model::load::{self, Ids, Links, Load, Reads};
use model::random::{self, Rng};
use model::{area, calls, image, HeaderKind, Height, Id, Limits, Queue, Record, TimeMs};
use pokerbox::raw;

const CASES: u64 = 6_000;

#[test]
#[cfg(exported = "fresh")]
fn fresh() {
    let mut met = Met::default();
    many(CASES, |rng| {
        let limits = random::small_limits(rng);
        let mut numbers = limits.numbers();
        if rng.once_in(3) {
            let tops = [1_024, 16_777_216, 1_024, 128];
            let at = rng.below(4);
            numbers[at] = rng.pick(&[0, tops[at] + 1, u64::MAX, 1 << 32 | 1]);
        }
        let [p, b, t, k] = numbers;
        let lent = area_to_write(rng, &limits);
        let shares = lent_shares(rng, &limits);
        same(
            &mut met,
            &lent,
            &[],
            |lent, _| raw::fresh(p, b, t, k, &shares, lent),
            |lent, _| calls::fresh(p, b, t, k, &shares, lent),
        );
    });
    met.expect(&[1, 2, 5, 100]);
}

/// Each share at each end of its range, and in each of its bytes beyond it; every length of the shares
/// from none to two more than 64, for which no share is read.
#[test]
#[cfg(exported = "fresh")]
fn fresh_at_each_end_of_the_shares() {
    let mut met = Met::default();
    for p in [1, 2, 255, 256, 1_024] {
        let limits = Limits::checked(p, 1, 1, 1).expect("limits in range");
        for length in [limits.need() - 1, limits.need()] {
            let lent = vec![0xee; length];
            let mut compare = |shares: &[u8]| {
                same(
                    &mut met,
                    &lent,
                    &[],
                    |lent, _| raw::fresh(p, 1, 1, 1, shares, lent),
                    |lent, _| calls::fresh(p, 1, 1, 1, shares, lent),
                );
            };
            let top = limits.pending;
            for share in [0, top - 1, top, top + 1, 1 << 11, 1 << 16, 1 << 24, 1 << 31] {
                for caller in 0..16 {
                    let shares = Limits {
                        shares: std::array::from_fn(|at| if at == caller { share } else { 0 }),
                        ..limits
                    };
                    compare(&shares.share_bytes());
                }
            }
            for count in 0..=66 {
                compare(&vec![0xff; count]);
                compare(&vec![0; count]);
            }
        }
    }
    met.expect(&[1, 2, 5, 100]);
}

#[test]
#[cfg(exported = "fresh")]
fn fresh_at_each_end_of_the_ranges() {
    let mut met = Met::default();
    let none = [0; 64];
    for p in [0, 1, 1_024, 1_025] {
        for t in [0, 1, 1_024, 1_025] {
            for k in [0, 1, 128, 129] {
                let limits = Limits::checked(p, 1, t, k);
                let lent = vec![0xee; limits.map_or(600, |limits| limits.need() + 1)];
                same(
                    &mut met,
                    &lent,
                    &[],
                    |lent, _| raw::fresh(p, 1, t, k, &none, lent),
                    |lent, _| calls::fresh(p, 1, t, k, &none, lent),
                );
            }
        }
    }
    for b in [0, 1, 16_777_216, 16_777_217] {
        let lent = vec![0xee; 2 * 16_777_216 + 2_240];
        same(
            &mut met,
            &lent,
            &[],
            |lent, _| raw::fresh(1, b, 1, 1, &none, lent),
            |lent, _| calls::fresh(1, b, 1, 1, &none, lent),
        );
    }
    met.expect(&[1, 100]);
}

#[test]
#[cfg(exported = "sound")]
fn sound() {
    let mut met = Met::default();
    many(4 * CASES, |rng| {
        let (queue, mut lent) = lent_queue(rng);
        if rng.once_in(3) {
            lent = area::encode(&random::altered(rng, &queue));
        }
        same(
            &mut met,
            &[],
            &[],
            |_, _| raw::sound(&lent),
            |_, _| calls::sound(&lent),
        );
    });
    met.expect(&[3, 100]);
}

#[test]
#[cfg(exported = "cancel")]
fn cancel() {
    let mut met = Met::default();
    many(2 * CASES, |rng| {
        let lent = lent_queue(rng);
        let id = lent_id(rng, &lent.0);
        same_change(
            &mut met,
            rng,
            &lent,
            |cur, next, out| raw::cancel(cur, next, &id, out),
            |cur, next, out| calls::cancel(cur, next, &id, out),
        );
    });
    met.expect(&[2, 3, 4, 5, 13, 14, 15, 100, 102]);
}

#[test]
#[cfg(exported = "expire")]
fn expire() {
    let mut met = Met::default();
    many(2 * CASES, |rng| {
        let lent = lent_queue(rng);
        let (now, height) = (random::time(rng).0, random::height(rng).0);
        same_change(
            &mut met,
            rng,
            &lent,
            |cur, next, out| raw::expire(cur, next, now, height, out),
            |cur, next, out| calls::expire(cur, next, now, height, out),
        );
    });
    met.expect(&[2, 3, 4, 15, 100, 102]);
}

#[test]
#[cfg(exported = "set_cursor")]
fn set_cursor() {
    let mut met = Met::default();
    many(CASES, |rng| {
        let lent = lent_queue(rng);
        let (height, flag) = (random::height(rng).0, lent_flag(rng));
        let tip = random::block_id(rng).to_vec();
        let tip = sometimes_cut(rng, tip);
        same_change(
            &mut met,
            rng,
            &lent,
            |cur, next, _| raw::set_cursor(cur, next, height, flag, &tip),
            |cur, next, _| calls::set_cursor(cur, next, height, flag, &tip),
        );
    });
    met.expect(&[2, 3, 5, 101]);
}

#[test]
#[cfg(exported = "admit")]
fn admit() {
    let mut met = Met::default();
    many(8 * CASES, |rng| {
        let lent = lent_queue(rng);
        let given = Given::new(rng, &lent.0);
        let (args, model_args) = (given.raw(), given.model());
        same_change(
            &mut met,
            rng,
            &lent,
            |cur, next, out| raw::admit(cur, next, &args, out),
            |cur, next, out| calls::admit(cur, next, &model_args, out),
        );
    });
    met.expect(&[2, 3, 4, 5, 6, 7, 8, 9, 10, 11, 12, 18, 20, 100, 102]);
}

/// Inputs and read ids that records spend or read, with nothing else to refuse.
#[test]
#[cfg(exported = "admit")]
fn admit_what_is_read_or_spent() {
    let mut met = Met::default();
    many(2 * CASES, |rng| {
        let mut queue = sound_queue(rng);
        queue.limits.shares = [queue.limits.pending; 16];
        let lent = (queue.clone(), area::encode(&queue));
        let mut given = Given::new(rng, &queue);
        (given.flags, given.caller) = ([0, 0, 0, 0], 0);
        given.id = random::tx_id(rng, &queue.limits).to_vec();
        given.signed.clear();
        given.outputs.clear();
        let (spent, read) = (
            of_all(&queue, Record::inputs),
            of_all(&queue, Record::reads),
        );
        let from = |rng: &mut Rng, ids: &[Id]| match ids.is_empty() {
            true => random::box_id(rng, &queue.limits),
            false => rng.pick(ids),
        };
        let some = |rng: &mut Rng, often: &[Id]| -> Vec<Id> {
            let count = rng.up_to(queue.limits.inputs as usize);
            let one = |rng: &mut Rng| match rng.below(3) {
                0 => from(rng, often),
                _ => random::box_id(rng, &queue.limits),
            };
            (0..count).map(|_| one(rng)).collect()
        };
        let mut inputs = some(rng, &read);
        if rng.once_in(2) {
            inputs.retain(|id| !spent.contains(id));
        }
        let mut reads = some(rng, &read);
        match rng.below(3) {
            0 => reads = some(rng, &spent),
            1 => reads.extend(inputs.first()),
            _ => {}
        }
        (given.inputs, given.reads) = (inputs.concat(), reads.concat());
        let (args, model_args) = (given.raw(), given.model());
        same_change(
            &mut met,
            rng,
            &lent,
            |cur, next, out| raw::admit(cur, next, &args, out),
            |cur, next, out| calls::admit(cur, next, &model_args, out),
        );
    });
    met.expect(&[2, 4, 6, 10, 11, 12, 20, 100, 102]);
}

/// The ids that all records have.
fn of_all(queue: &Queue, ids: fn(&Record) -> &[Id]) -> Vec<Id> {
    queue.records.iter().flat_map(ids).copied().collect()
}

/// Every caller byte, into a queue where each caller has a share of its own and some pending.
#[test]
#[cfg(exported = "admit")]
fn admit_by_every_caller() {
    let mut met = Met::default();
    many(CASES, |rng| {
        let queue = sound_queue(rng);
        let lent = (queue.clone(), area::encode(&queue));
        let mut given = Given::new(rng, &queue);
        given.flags = [0, 0, 0, 0];
        for list in [&mut given.inputs, &mut given.outputs, &mut given.reads] {
            list.truncate(list.len() / 32 * 32);
        }
        // All of them with some of the queues.
        let last = if rng.once_in(40) { 255 } else { 16 };
        for caller in 0..=last {
            given.caller = caller;
            let (args, model_args) = (given.raw(), given.model());
            same_change(
                &mut met,
                rng,
                &lent,
                |cur, next, out| raw::admit(cur, next, &args, out),
                |cur, next, out| calls::admit(cur, next, &model_args, out),
            );
        }
    });
    met.expect(&[2, 4, 5, 6, 10, 11, 12, 18, 20, 100, 102]);
}

/// The arguments of an admission.
struct Given {
    id: Vec<u8>,
    caller: u8,
    inputs: Vec<u8>,
    outputs: Vec<u8>,
    reads: Vec<u8>,
    signed: Vec<u8>,
    label: Vec<u8>,
    tip: Vec<u8>,
    flags: [u8; 4],
    numbers: [u64; 4],
    heights: [u32; 2],
    priority: u64,
}

impl Given {
    fn new(rng: &mut Rng, queue: &Queue) -> Self {
        let signed = rng.below(queue.limits.bytes as usize / 2 + 3);
        let label = rng.pick(&[0, 1, 5, 200, 201]);
        let tip = random::block_id(rng).to_vec();
        Given {
            id: lent_id(rng, queue),
            caller: lent_caller(rng),
            inputs: Self::list(rng, &queue.limits),
            outputs: Self::list(rng, &queue.limits),
            reads: Self::list(rng, &queue.limits),
            signed: rng.bytes(signed),
            label: rng.bytes(label),
            tip: sometimes_cut(rng, tip),
            flags: std::array::from_fn(|_| match rng.once_in(8) {
                true => lent_flag(rng),
                false => rng.pick(&[0, 0, 1]),
            }),
            numbers: [
                random::time(rng).0,
                random::time(rng).0,
                rng.u64(),
                rng.u64(),
            ],
            heights: [random::height(rng).0, random::height(rng).0],
            priority: lent_priority(rng),
        }
    }

    /// Rarely more than K ids.
    fn list(rng: &mut Rng, limits: &Limits) -> Vec<u8> {
        let mut ids = random::box_ids(rng, limits);
        if rng.once_in(10) {
            ids.push(random::box_id(rng, limits));
        }
        let bytes = ids.concat();
        sometimes_cut(rng, bytes)
    }

    fn raw(&self) -> raw::AdmitArgs<'_> {
        raw::AdmitArgs {
            id: &self.id,
            caller: self.caller,
            inputs: &self.inputs,
            outputs: &self.outputs,
            reads: &self.reads,
            signed: &self.signed,
            now: self.numbers[0],
            time_flag: self.flags[0],
            time: self.numbers[1],
            height_flag: self.flags[1],
            height: self.heights[0],
            priority: self.priority,
            label_flag: self.flags[2],
            label: &self.label,
            fee: self.numbers[2],
            cost: self.numbers[3],
            tip_height: self.heights[1],
            tip_flag: self.flags[3],
            tip: &self.tip,
        }
    }

    fn model(&self) -> calls::AdmitArgs<'_> {
        let args = self.raw();
        calls::AdmitArgs {
            id: args.id,
            caller: args.caller,
            inputs: args.inputs,
            outputs: args.outputs,
            reads: args.reads,
            signed: args.signed,
            now: args.now,
            time_flag: args.time_flag,
            time: args.time,
            height_flag: args.height_flag,
            height: args.height,
            priority: args.priority,
            label_flag: args.label_flag,
            label: args.label,
            fee: args.fee,
            cost: args.cost,
            tip_height: args.tip_height,
            tip_flag: args.tip_flag,
            tip: args.tip,
        }
    }
}

/// Ids of the queue's set: mostly rising, without repeats.
fn id_list(rng: &mut Rng, limits: &Limits) -> Vec<[u8; 32]> {
    let mut ids: Vec<[u8; 32]> = (0..rng.below(8))
        .map(|_| random::tx_id(rng, limits))
        .collect();
    if !rng.once_in(8) {
        ids.sort();
        ids.dedup();
    }
    ids
}

/// Most of what the records spend and read, rising.
fn asked_for(rng: &mut Rng, queue: &Queue) -> Vec<Id> {
    let all: BTreeSet<Id> = queue
        .records
        .iter()
        .flat_map(Record::asks_for)
        .copied()
        .collect();
    all.into_iter().filter(|_| !rng.once_in(6)).collect()
}

#[test]
#[cfg(exported = "reconcile")]
fn reconcile() {
    let mut met = Met::default();
    many(4 * CASES, |rng| {
        let lent = lent_queue(rng);
        let limits = lent.0.limits;
        let applied: Vec<u8> = match rng.once_in(2) {
            true => Vec::new(),
            false => id_list(rng, &limits)
                .into_iter()
                .flat_map(|id| {
                    let height = random::height(rng).0.to_be_bytes();
                    [&id[..], &height, &random::block_id(rng)].concat()
                })
                .collect(),
        };
        let applied = sometimes_cut(rng, applied);
        let available = match rng.once_in(2) {
            true => id_list(rng, &limits),
            false => asked_for(rng, &lent.0),
        };
        let available = sometimes_cut(rng, available.concat());
        let tip = random::block_id(rng).to_vec();
        let tip = sometimes_cut(rng, tip);
        let (height, caught_up) = (random::height(rng).0, lent_flag(rng));
        let window = rng.pick(&[0, 1, 2, 10, 31, 32, 100, u32::MAX, u32::MAX]);
        let args = raw::ReconcileArgs {
            height,
            tip: &tip,
            applied: &applied,
            caught_up,
            available: &available,
            window,
        };
        let model_args = calls::ReconcileArgs {
            height,
            tip: &tip,
            applied: &applied,
            caught_up,
            available: &available,
            window,
        };
        same_change(
            &mut met,
            rng,
            &lent,
            |cur, next, out| raw::reconcile(cur, next, &args, out),
            |cur, next, out| calls::reconcile(cur, next, &model_args, out),
        );
    });
    met.expect(&[2, 3, 4, 5, 15, 101, 102, 103]);
}

#[test]
#[cfg(exported = "reopen")]
fn reopen() {
    let mut met = Met::default();
    many(CASES, |rng| {
        let lent = lent_queue(rng);
        let ids = id_list(rng, &lent.0.limits).concat();
        let ids = sometimes_cut(rng, ids);
        same_change(
            &mut met,
            rng,
            &lent,
            |cur, next, _| raw::reopen(cur, next, &ids),
            |cur, next, _| calls::reopen(cur, next, &ids),
        );
    });
    met.expect(&[2, 3, 5, 100, 102]);
}

#[test]
#[cfg(exported = "settle")]
fn settle() {
    let mut met = Met::default();
    many(4 * CASES, |rng| {
        let (queue, cur) = lent_queue(rng);
        let next = match rng.below(3) {
            0 => area_to_write(rng, &queue.limits),
            1 => lent_queue(rng).1,
            _ => {
                let mut next = random::queue(rng, queue.limits);
                next.persisted = random::height(rng);
                let mut bytes = area::encode(&next);
                bytes.extend([7; 3]);
                bytes
            }
        };
        let kind = rng.pick(&[2, 2, 3, 3, 0, 1, 4, u64::MAX]);
        let outcome = rng.pick(&[0, 1, 0, 1, 2, u64::MAX]);
        same(
            &mut met,
            &next,
            &[],
            |next, _| raw::settle(&cur, next, kind, outcome),
            |next, _| calls::settle(&cur, next, kind, outcome),
        );
    });
    met.expect(&[2, 3, 5, 17, 100]);
}

#[test]
#[cfg(exported = "image")]
fn image_writer() {
    let mut met = Met::default();
    many(CASES, |rng| {
        let (queue, lent) = lent_queue(rng);
        let out = output(rng, image::encode(&queue).len());
        let length = rng.u64();
        let (mut expected, mut written) = (out.clone(), out.clone());
        let (mut expected_length, mut written_length) = (length, length);
        let number = calls::image(&lent, &mut expected, &mut expected_length);
        let given = raw::image(&lent, &mut written, &mut written_length);
        assert_eq!(common::Number::number(given), number);
        assert_eq!(written, expected);
        assert_eq!(written_length, expected_length);
        met.count(number);
    });
    met.expect(&[3, 4, 100]);
}

#[test]
#[cfg(exported = "open")]
fn open() {
    let mut met = Met::default();
    many(4 * CASES, |rng| {
        let queue = sound_queue(rng);
        let mut text = image::encode_as(rng.pick(&HeaderKind::ALL), &queue);
        let length = text.len();
        match rng.below(4) {
            0 => random::damage(rng, &mut text, length),
            1 => text = image::encode(&random::altered(rng, &queue)),
            _ => {}
        }
        let lent = area_to_write(rng, &queue.limits);
        same(
            &mut met,
            &lent,
            &[],
            |lent, _| raw::open(&text, lent),
            |lent, _| calls::open(&text, lent),
        );
    });
    met.expect(&[2, 16, 100]);
}

/// Limits of which some are out of range.
fn limits_or_not(rng: &mut Rng) -> [u64; 4] {
    let mut numbers = random::small_limits(rng).numbers();
    let tops = [1_024, 16_777_216, 1_024, 128];
    for (number, top) in numbers.iter_mut().zip(tops) {
        if rng.once_in(4) {
            *number = rng.pick(&[0, 1, top - 1, top, top, top + 1, u64::MAX, 1 << 32 | 1]);
        }
    }
    numbers
}

#[test]
#[cfg(exported = "need")]
fn need() {
    let mut met = Met::default();
    many(4 * CASES, |rng| {
        let [p, b, t, k] = limits_or_not(rng);
        same_values(
            &mut met,
            rng,
            |[value]| raw::need(p, b, t, k, value),
            |[value]| calls::need(p, b, t, k, value),
        );
    });
    met.expect(&[1, 100]);
}

#[test]
#[cfg(exported = "image_limits")]
fn image_limits() {
    let mut met = Met::default();
    many(4 * CASES, |rng| {
        let queue = sound_queue(rng);
        let mut text = image::encode_as(rng.pick(&HeaderKind::ALL), &queue);
        let length = text.len();
        match rng.below(4) {
            0 => random::damage(rng, &mut text, length),
            1 => text = image::encode(&random::altered(rng, &queue)),
            _ => {}
        }
        same_image_limits(&mut met, rng, &text);
        // What it says to lend is enough, and no byte too much.
        let (mut numbers, mut shares, mut lent) = ([0; 5], [0; 64], Vec::new());
        let [p, b, t, k, need] = &mut numbers;
        if raw::image_limits(&text, p, b, t, k, &mut shares, need).is_ok() {
            lent.resize(numbers[4] as usize, 0);
            assert_eq!(raw::open(&text, &mut lent), Ok(()));
            lent.pop();
            let short = raw::open(&text, &mut lent);
            assert_eq!(short, Err(pokerbox::Error::AreaTooShort));
        } else {
            let refused = raw::open(&text, &mut lent);
            assert_eq!(refused, Err(pokerbox::Error::NotAnImage));
        }
    });
    met.expect(&[4, 16, 100]);
}

/// Images of kind 06 that kind 01 can say, and such that it cannot; older ones, and damaged ones.
#[test]
#[cfg(exported = "convert")]
fn convert() {
    let mut met = Met::default();
    many(4 * CASES, |rng| {
        let queue = match rng.once_in(4) {
            true => sound_queue(rng),
            false => nearly_old_queue(rng),
        };
        let mut text = image::encode(&queue);
        let length = text.len();
        match rng.below(8) {
            0 => random::damage(rng, &mut text, length),
            1 => text = image::encode(&random::altered(rng, &queue)),
            2 => text = image::encode_as(rng.pick(&HeaderKind::ALL), &queue),
            _ => {}
        }
        same_convert(&mut met, rng, &text);
        // What it gives opens as what it was given does.
        let (mut older, mut length) = (vec![0; text.len()], 0);
        if raw::convert(&text, &mut older, &mut length).is_ok() {
            older.truncate(length as usize);
            let queue = image::decode(&text).expect("an image");
            let mut opened = [0, 1].map(|_| vec![0; queue.limits.need()]);
            assert_eq!(raw::open(&text, &mut opened[0]), Ok(()));
            assert_eq!(raw::open(&older, &mut opened[1]), Ok(()));
            assert!(opened[0] == opened[1]);
            let refused = raw::convert(&older, &mut text.clone(), &mut length);
            assert_eq!(refused, Err(pokerbox::Error::NotAnImage));
        }
    });
    met.expect(&[4, 16, 22, 100]);
}

/// Each end of 32 bits and of 64, of every record: 22 beyond 32.
#[test]
#[cfg(exported = "convert")]
fn convert_at_the_ends_of_the_priorities() {
    const END: i64 = 1 << 31;
    let mut met = Met::default();
    many(300, |rng| {
        let mut queue = nearly_old_queue(rng);
        let holds = HeaderKind::K01.can_hold(&queue);
        for n in 0..queue.records.len() {
            let kept = queue.records[n].priority;
            for (priority, narrow) in [
                (END - 1, true),
                (END, false),
                (-END, true),
                (-END - 1, false),
                (2 * END, false),
                (-2 * END, false),
                (2 * END - 1, false),
                (i64::MAX, false),
                (i64::MIN, false),
                (-1, true),
            ] {
                queue.records[n].priority = priority;
                let text = image::encode(&queue);
                same_convert(&mut met, rng, &text);
                let (mut older, mut length) = (vec![0; text.len()], 0);
                let given = raw::convert(&text, &mut older, &mut length);
                if holds {
                    assert_eq!(given.is_ok(), narrow, "{priority}");
                }
            }
            queue.records[n].priority = kept;
        }
    });
    met.expect(&[4, 22, 100]);
}

#[test]
#[cfg(exported = "entry")]
fn entry() {
    let mut met = Met::default();
    many(CASES, |rng| {
        let (queue, lent) = lent_queue(rng);
        let id = lent_id(rng, &queue);
        same_reading(
            &mut met,
            rng,
            &lent,
            |area, out| raw::entry(area, &id, out),
            |area, out| calls::entry(area, &id, out),
        );
    });
    met.expect(&[3, 4, 5, 13, 100]);
}

#[test]
#[cfg(exported = "signed_bytes")]
fn signed_bytes() {
    let mut met = Met::default();
    many(CASES, |rng| {
        let (queue, lent) = lent_queue(rng);
        let id = lent_id(rng, &queue);
        same_values(
            &mut met,
            rng,
            |[start, length]| raw::signed_bytes(&lent, &id, start, length),
            |[start, length]| calls::signed_bytes(&lent, &id, start, length),
        );
    });
    met.expect(&[3, 5, 13, 100]);
}

/// Reading calls that take an area, a time and a height and answer bytes.
macro_rules! moment_readings {
    ($($call:literal $name:ident;)*) => {$(
        #[test]
        #[cfg(exported = $call)]
        fn $name() {
            let mut met = Met::default();
            many(CASES, |rng| {
                let (_, lent) = lent_queue(rng);
                let (now, height) = (random::time(rng).0, random::height(rng).0);
                same_reading(
                    &mut met,
                    rng,
                    &lent,
                    |area, out| raw::$name(area, now, height, out),
                    |area, out| calls::$name(area, now, height, out),
                );
            });
            met.expect(&[3, 4, 100]);
        }
    )*};
}

moment_readings! {
    "selection_entries_at" selection_entries_at;
    "selection_parents_first" selection_parents_first;
    "due" due;
}

/// What parents first answers, with an output around the answer's length.
#[cfg(exported = "selection_parents_first")]
fn parents_first_is(
    met: &mut Met,
    rng: &mut Rng,
    queue: &Queue,
    (now, height): (TimeMs, Height),
    listed: &[Id],
) {
    let lent = area::encode(queue);
    let answer = calls::ids_bytes(listed);
    let out = output(rng, answer.len());
    same(
        met,
        &[],
        &out,
        |_, out| raw::selection_parents_first(&lent, now.0, height.0, out),
        |_, out| match out.get_mut(..answer.len()) {
            Some(out) => {
                out.copy_from_slice(&answer);
                calls::ANSWERED
            }
            None => calls::OUTPUT_SHORT,
        },
    );
}

/// As the model has it, or for a large queue as counters have it.
#[cfg(exported = "selection_parents_first")]
fn same_parents_first(met: &mut Met, rng: &mut Rng, queue: &Queue, large: bool) {
    let (now, height) = (random::time(rng), random::height(rng));
    for (now, height) in [(now, height), (TimeMs(0), Height(0))] {
        let listed = match large {
            true => counters::parents_first(queue, now, height),
            false => {
                let listed = model::parents::parents_first(queue, now, height);
                listed.iter().map(|record| record.id).collect()
            }
        };
        parents_first_is(met, rng, queue, (now, height), &listed);
    }
}

/// Chains, rings, outputs that two records name, parents that are not selected; inputs that are only
/// read, and others that are read besides.
#[test]
#[cfg(exported = "selection_parents_first")]
fn parents_first_of_many() {
    for count in [0, 1, 2, 3, 5, 9, 20, 60] {
        let mut met = Met::default();
        many(400, |rng| {
            let inputs = 1 + rng.below(4);
            let mut queue = random::parents_queue(rng, count, inputs);
            match rng.below(3) {
                0 => queue = random::inputs_read(rng, queue),
                1 => queue = random::with_reads(rng, queue),
                _ => {}
            }
            same_parents_first(&mut met, rng, &queue, false);
            // The judge of large ones.
            let moment = (random::time(rng), random::height(rng));
            let listed = model::parents::parents_first(&queue, moment.0, moment.1);
            let listed: Vec<Id> = listed.iter().map(|record| record.id).collect();
            let counted = counters::parents_first(&queue, moment.0, moment.1);
            assert_eq!(counted, listed);
        });
        met.expect(&[4, 100]);
    }
}

/// As many selected records, and as many inputs, as a call may have a bound at, and more.
#[test]
#[cfg(exported = "selection_parents_first")]
fn parents_first_of_large_queues() {
    let mut met = Met::default();
    for (count, inputs) in [
        (64, 128),
        (128, 64),
        (200, 128),
        (511, 2),
        (512, 16),
        (513, 16),
        (520, 3),
        (1_024, 2),
        (2_047, 8),
        (2_048, 1),
    ] {
        many(4, |rng| {
            let queue = random::parents_queue(rng, count, inputs);
            same_parents_first(&mut met, rng, &queue, true);
            let read = random::inputs_read(rng, queue);
            same_parents_first(&mut met, rng, &read, true);
        });
    }
    met.expect(&[4, 100]);
}

/// Every kind of ids, and every way of waiting.
#[test]
#[cfg(exported = "selection_parents_first")]
fn parents_first_of_loads() {
    let mut met = Met::default();
    let rng = &mut Rng::new(1);
    for (ids, links) in load::kinds() {
        // 8,192 inputs are the most but for the last three.
        for (queued, boxes) in [
            (1, 5),
            (63, 5),
            (64, 128),
            (65, 1),
            (512, 16),
            (513, 15),
            (1_024, 8),
            (2_048, 4),
            (65, 128),
            (512, 17),
            (2_048, 5),
        ] {
            let load = Load {
                limits: [1_024, 2_048, 2, boxes],
                queued,
                mined: 0,
                tombstones: 2,
                boxes,
                bytes: 1,
                ids,
                links,
                reads: Reads::None,
            };
            let (queue, listed) = (load::queue(&load), load::parents_first(&load));
            let moment = (TimeMs(0), Height(0));
            parents_first_is(&mut met, rng, &queue, moment, &listed);
            // One of them is due, and nobody waits for it any more.
            let moment = (TimeMs(5), Height(0));
            let listed = counters::parents_first(&queue, moment.0, moment.1);
            parents_first_is(&mut met, rng, &queue, moment, &listed);
        }
    }
    met.expect(&[4, 100]);
}

/// In an output that is just long enough.
#[cfg(exported = "selection_parents_first")]
fn parents_first_of(load: &Load) {
    let lent = area::encode(&load::queue(load));
    let answer = calls::ids_bytes(&load::parents_first(load));
    let mut out = vec![0xee; answer.len()];
    let given = raw::selection_parents_first(&lent, 0, 0, &mut out);
    assert_eq!(given, Ok(()), "{load:?}");
    assert!(out == answer, "{load:?}");
}

/// At the top limits: 262,144 inputs and as many outputs.
#[test]
#[cfg(exported = "selection_parents_first")]
fn parents_first_of_full_units() {
    for (ids, links) in [
        (Ids::Random, Links::Apart),
        (Ids::Front, Links::Ring),
        (Ids::Random, Links::Chain),
        (Ids::Repeated, Links::Reversed),
        (Ids::Ends, Links::Spread),
        (Ids::Filter, Links::Reversed),
        (Ids::Sum, Links::Spread),
    ] {
        let load = Load {
            limits: [1_024, 16_777_216, 1_024, 128],
            queued: 2_048,
            mined: 0,
            tombstones: 1_024,
            boxes: 128,
            bytes: 100,
            ids,
            links,
            reads: Reads::None,
        };
        parents_first_of(&load);
    }
}

/// Parents first where records read the same ids, which are nobody's outputs or everybody's.
#[test]
#[cfg(exported = "selection_parents_first")]
fn parents_first_of_shared_read_ids() {
    for (ids, queued, reads) in [
        (Ids::Random, 2_048, Reads::Same),
        (Ids::Random, 1_000, Reads::Made),
        (Ids::Repeated, 1_000, Reads::Made),
        (Ids::Sum, 300, Reads::Made),
        (Ids::Random, 1, Reads::Made),
    ] {
        let load = Load {
            limits: [1_024, 16_777_216, 1_024, 32],
            queued,
            mined: 0,
            tombstones: 0,
            boxes: 32,
            bytes: 1,
            ids,
            links: Links::Apart,
            reads,
        };
        parents_first_of(&load);
    }
}

/// Read ids at the top limits: each record its own, or all the same.
#[test]
#[cfg(all(exported = "sound", exported = "reconcile", exported = "open"))]
fn read_ids_of_full_units() {
    for (ids, reads) in [
        (Ids::Random, Reads::Apart),
        (Ids::Random, Reads::Same),
        (Ids::Ends, Reads::Apart),
        (Ids::Filter, Reads::Same),
        (Ids::Repeated, Reads::Apart),
    ] {
        let load = Load {
            limits: [1_024, 16_777_216, 1_024, 128],
            queued: 1_024,
            mined: 1_024,
            tombstones: 1_024,
            boxes: 128,
            bytes: 100,
            ids,
            links: Links::Apart,
            reads,
        };
        let queue = load::queue(&load);
        let lent = area::encode(&queue);
        assert_eq!(raw::sound(&lent), Ok(()), "{ids:?}, {reads:?}");
        let mut opened = vec![0; lent.len()];
        assert_eq!(raw::open(&image::encode(&queue), &mut opened), Ok(()));
        assert!(opened == lent, "{ids:?}, {reads:?}");
        // The last record reads what the first one spends.
        let mut meets = queue.clone();
        let spent = meets.holders().next().expect("a holder").inputs()[127];
        let last = meets.records.iter_mut().rfind(|one| one.holder.is_some());
        last.and_then(|one| one.holder.as_mut())
            .expect("a holder")
            .reads[127] = spent;
        assert!(!model::sound::is_sound(&meets));
        let meets = raw::sound(&area::encode(&meets));
        assert_eq!(
            meets,
            Err(pokerbox::Error::AreaNotSound),
            "{ids:?}, {reads:?}"
        );
        // All inputs are available, and of the read ids all but the last one's last.
        let mut available: BTreeSet<Id> = BTreeSet::new();
        available.extend(queue.records.iter().flat_map(Record::asks_for));
        let last = queue.pending().last().expect("a pending record");
        available.remove(&last.reads()[127]);
        let available = Vec::from_iter(available).concat();
        let (tip, mut out) = ([7; 32], vec![0; 4 + 32 * 2_048 + 1]);
        let args = raw::ReconcileArgs {
            height: 100,
            tip: &tip,
            applied: &[],
            caught_up: 1,
            available: &available,
            window: 10,
        };
        let model_args = calls::ReconcileArgs {
            height: 100,
            tip: &tip,
            applied: &[],
            caught_up: 1,
            available: &available,
            window: 10,
        };
        let (mut next, mut right) = (lent.clone(), lent.clone());
        let given = raw::reconcile(&lent, &mut next, &args, &mut out);
        assert_eq!(given, Ok(pokerbox::Kind::Whole));
        assert_eq!(
            calls::reconcile(&lent, &mut right, &model_args, &mut out),
            102
        );
        assert!(next == right, "{ids:?}, {reads:?}");
    }
}

/// Outputs that are each named by many records.
#[test]
#[cfg(exported = "selection_parents_first")]
fn parents_first_of_shared_outputs() {
    let mut met = Met::default();
    many(60, |rng| {
        let inputs = 1 + rng.below(4);
        let count = rng.pick(&[3, 10, 70]);
        let mut queue = random::parents_queue(rng, count, inputs);
        let wanted = model::rules::reserved_inputs(&queue);
        let wanted: Vec<Id> = wanted.into_iter().collect();
        if wanted.is_empty() {
            return;
        }
        // Few ids for all outputs.
        let few = (1 + rng.below(6)).min(wanted.len());
        for holder in queue.records.iter_mut().filter_map(|r| r.holder.as_mut()) {
            let named = (0..rng.up_to(inputs)).map(|_| wanted[rng.below(few)]);
            holder.outputs = named.collect();
        }
        same_parents_first(&mut met, rng, &queue, false);
    });
    met.expect(&[4, 100]);
}

/// What best fees is given beside the area and the output.
#[derive(Debug, Clone, Copy)]
struct Fees {
    limit: u64,
    budget: u64,
    now: u64,
    height: u32,
}

#[cfg(exported = "best_fees")]
impl Fees {
    fn new(rng: &mut Rng, queue: &Queue) -> Self {
        let (now, height) = (random::time(rng), random::height(rng));
        Fees {
            limit: random::fees_limit(rng, queue, now, height),
            budget: random::fees_budget(rng),
            now: now.0,
            height: height.0,
        }
    }

    fn library(&self, lent: &[u8], out: &mut [u8]) -> Result<(), pokerbox::Error> {
        raw::best_fees(lent, self.limit, self.budget, self.now, self.height, out)
    }

    fn model(&self, lent: &[u8], out: &mut [u8]) -> u64 {
        calls::best_fees(lent, self.limit, self.budget, self.now, self.height, out)
    }

    /// The number and the answer by the model.
    fn answer(&self, lent: &[u8]) -> (u64, Vec<u8>) {
        let mut out = vec![0; 24 + 32 * 20];
        let number = self.model(lent, &mut out);
        let count = u32::from_be_bytes(out[20..24].try_into().expect("4 bytes"));
        out.truncate(24 + 32 * count as usize);
        (number, out)
    }

    fn same(&self, met: &mut Met, lent: &[u8], out: &[u8]) {
        let before = lent.to_vec();
        same(
            met,
            &[],
            out,
            |_, out| self.library(lent, out),
            |_, out| self.model(lent, out),
        );
        assert!(*lent == before, "the area");
    }
}

#[test]
#[cfg(exported = "best_fees")]
fn best_fees() {
    let mut met = Met::default();
    many(2 * CASES, |rng| {
        let (queue, lent) = lent_queue(rng);
        let fees = Fees::new(rng, &queue);
        let out = output(rng, fees.answer(&lent).1.len());
        fees.same(&mut met, &lent, &out);
    });
    met.expect(&[3, 4, 5, 21, 100]);
}

/// Few and many candidates, records of one priority, fees around the top, every sort of budget.
#[test]
#[cfg(exported = "best_fees")]
fn best_fees_of_many() {
    for count in [0, 1, 2, 3, 6, 12, 19, 20, 21, 22, 40] {
        let (mut met, mut whole) = (Met::default(), 0);
        many(300, |rng| {
            let queue = random::fees_queue(rng, count);
            let lent = area::encode(&queue);
            let fees = Fees::new(rng, &queue);
            let (number, answer) = fees.answer(&lent);
            whole += u64::from(number == 100 && fees.budget == model::fees::MAX_BUDGET);
            let out = output(rng, answer.len());
            fees.same(&mut met, &lent, &out);
        });
        // One record's fee alone is never too large.
        match count {
            0 | 1 => met.expect(&[4, 5, 100]),
            _ => met.expect(&[4, 5, 21, 100]),
        }
        assert!(whole > 0, "{count}: the top budget was not met");
    }
}

/// Each end of the ranges: budgets around the whole tree, limits around the sums, outputs around
/// the answer.
#[test]
#[cfg(exported = "best_fees")]
fn best_fees_at_the_edges() {
    const TOP: u64 = model::fees::MAX_BUDGET;
    let mut met = Met::default();
    for count in [0, 1, 4, 7] {
        many(6, |rng| {
            let queue = random::fees_queue(rng, count);
            let lent = area::encode(&queue);
            let sizes = queue.pending().map(|record| record.byte_count() as u64);
            let all: u64 = sizes.sum();
            for limit in [0, 1, all / 2, all.max(1) - 1, all, all + 1, u64::MAX] {
                let whole = Fees {
                    limit,
                    budget: TOP,
                    now: 0,
                    height: 0,
                };
                let nodes = whole.answer(&lent).1[8..12].try_into().expect("4 bytes");
                let nodes = u64::from(u32::from_be_bytes(nodes));
                for budget in [
                    0,
                    1,
                    2,
                    3,
                    nodes,
                    nodes + 1,
                    TOP - 1,
                    TOP,
                    TOP + 1,
                    u64::MAX,
                ]
                .into_iter()
                .chain(nodes.checked_sub(1))
                {
                    let fees = Fees { budget, ..whole };
                    let length = fees.answer(&lent).1.len();
                    for length in [0, length - 1, length, length + 1] {
                        fees.same(&mut met, &lent, &vec![0xee; length]);
                    }
                }
            }
        });
    }
    met.expect(&[4, 5, 21, 100]);
}

/// Sums of 64 bits and of more, and which records they go by.
#[test]
#[cfg(exported = "best_fees")]
fn best_fees_at_the_top_sum() {
    const TOP: u64 = u64::MAX;
    let cases: [(&[(usize, u64)], u64); 8] = [
        (&[], 100),
        (&[(0, TOP)], 100),
        (&[(0, TOP), (1, 1)], 21),
        (&[(18, TOP - 1), (19, 1)], 100),
        (&[(18, TOP), (19, 1)], 21),
        // The 21st and later are no candidates.
        (&[(19, TOP), (20, 1)], 100),
        (&[(20, TOP), (21, TOP)], 100),
        // Of 64 bits only zeros are left.
        (&[(3, 1 << 63), (9, 1 << 63)], 21),
    ];
    for (given, expected) in cases {
        let mut met = Met::default();
        many(8, |rng| {
            let mut queue = random::fees_queue(rng, 24);
            let selected = model::rules::selection_at(&queue, model::TimeMs(9), model::Height(9));
            let order: Vec<_> = selected.iter().map(|record| record.id).collect();
            for record in &mut queue.records {
                let at = order.iter().position(|id| *id == record.id);
                let fee = given.iter().find(|(place, _)| Some(*place) == at);
                record.fee = fee.map_or(0, |(_, fee)| *fee);
            }
            let lent = area::encode(&queue);
            // None fits, or all; with 21 that plays no part.
            for limit in [0, u64::MAX] {
                let fees = Fees {
                    limit,
                    budget: 1 + rng.below(60) as u64,
                    now: 9,
                    height: 9,
                };
                fees.same(&mut met, &lent, &[0xee; 664]);
            }
        });
        met.expect(&[expected]);
    }
}

#[test]
#[cfg(exported = "deadline_due")]
fn deadline_due() {
    let mut met = Met::default();
    many(CASES, |rng| {
        let (_, lent) = lent_queue(rng);
        let (now, height) = (random::time(rng).0, random::height(rng).0);
        same_values(
            &mut met,
            rng,
            |[value]| raw::deadline_due(&lent, now, height, value),
            |[value]| calls::deadline_due(&lent, now, height, value),
        );
    });
    met.expect(&[3, 100]);
}

/// Reading calls that take an area alone and answer bytes.
macro_rules! byte_readings {
    ($($call:literal $name:ident;)*) => {$(
        #[test]
        #[cfg(exported = $call)]
        fn $name() {
            let mut met = Met::default();
            many(CASES, |rng| {
                let (_, lent) = lent_queue(rng);
                same_reading(&mut met, rng, &lent, raw::$name, calls::$name);
            });
            met.expect(&[3, 4, 100]);
        }
    )*};
}

byte_readings! {
    "selection_entries" selection_entries;
    "observation_cursor" observation_cursor;
    "record_ids" record_ids;
    "guarded_ids" guarded_ids;
    "reserved_inputs" reserved_inputs;
    "reservation_snapshot" reservation_snapshot;
    "guard_snapshot" guard_snapshot;
    "list" list;
    "confirmations" confirmations;
}

/// Reading calls that take an area alone and answer one number.
macro_rules! value_readings {
    ($($call:literal $name:ident;)*) => {$(
        #[test]
        #[cfg(exported = $call)]
        fn $name() {
            let mut met = Met::default();
            many(CASES, |rng| {
                let (_, lent) = lent_queue(rng);
                same_values(
                    &mut met,
                    rng,
                    |[value]| raw::$name(&lent, value),
                    |[value]| calls::$name(&lent, value),
                );
            });
            met.expect(&[3, 100]);
        }
    )*};
}

value_readings! {
    "revision" revision;
    "is_empty" is_empty;
    "observed_height" observed_height;
}

/// Queues with thousands of records.
#[test]
#[cfg(all(
    exported = "sound",
    exported = "cancel",
    exported = "expire",
    exported = "image",
    exported = "open",
    exported = "convert",
    exported = "selection_entries_at",
    exported = "selection_parents_first"
))]
fn many_records() {
    let limits = Limits::checked(1_024, 65_536, 1_024, 2).unwrap();
    many(4, |rng| {
        let queue = random::queue(rng, limits);
        let lent = area::encode(&queue);
        assert_eq!(raw::sound(&lent), Ok(()));
        let id = lent_id(rng, &queue);
        let next = vec![0xee; limits.need()];
        let out = vec![0xee; 100_000];
        let mut met = Met::default();
        same(
            &mut met,
            &next,
            &out,
            |next, out| raw::cancel(&lent, next, &id, out),
            |next, out| calls::cancel(&lent, next, &id, out),
        );
        same(
            &mut met,
            &next,
            &out,
            |next, out| raw::expire(&lent, next, 6, 8, out),
            |next, out| calls::expire(&lent, next, 6, 8, out),
        );
        same(
            &mut met,
            &next,
            &out,
            |_, out| raw::selection_entries_at(&lent, 3, 4, out),
            |_, out| calls::selection_entries_at(&lent, 3, 4, out),
        );
        same(
            &mut met,
            &next,
            &out,
            |_, out| raw::selection_parents_first(&lent, 3, 4, out),
            |_, out| calls::selection_parents_first(&lent, 3, 4, out),
        );
        let text = image::encode(&queue);
        let mut written = vec![0; text.len()];
        let mut length = 0;
        assert_eq!(raw::image(&lent, &mut written, &mut length), Ok(()));
        assert!(written == text && length == text.len() as u64);
        let mut old = queue.clone();
        for record in &mut old.records {
            if record.withdrawn == model::Withdrawn::RolledBackAfterRelease {
                record.withdrawn = model::Withdrawn::Expired;
            }
        }
        let older = image::encode_as(HeaderKind::K01, &old);
        let given = raw::convert(&image::encode(&old), &mut written, &mut length);
        assert_eq!(given, Ok(()));
        assert!(written[..length as usize] == older);
        same(
            &mut met,
            &next,
            &[],
            |next, _| raw::open(&text, next),
            |next, _| calls::open(&text, next),
        );
    });
}
