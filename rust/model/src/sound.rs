//! Sound queues: document 01, "A queue is sound when"; document 02, P8: no share over P and no caller
//! over 15, while a caller may have more pending than its share; and P11: no record spends what another
//! reads, and none reads over K ids.

use std::collections::{BTreeMap, BTreeSet};

use crate::values::{Id, Limits, Queue, Reason, Record, State, Withdrawn};

pub fn is_sound(queue: &Queue) -> bool {
    broken_rule(queue).is_none()
}

/// The first rule that the queue breaks, in words; nothing for a sound queue.
pub fn broken_rule(queue: &Queue) -> Option<&'static str> {
    let rules: [(&'static str, bool); 18] = [
        ("limits are in range", limits_in_range(&queue.limits)),
        ("no share is over P", queue.limits.shares_fit()),
        ("records number at most 2P + T", few_records(queue)),
        ("ids rise strictly", ids_rise(queue)),
        ("holders number at most 2P", few_holders(queue)),
        ("holders have at most 2B bytes", holder_bytes(queue)),
        ("Mined holders number at most P", few_mined(queue)),
        ("Mined holders have at most B bytes", mined_bytes(queue)),
        ("tombstones number at most T", few_tombstones(queue)),
        ("callers are 0 to 15", callers_fit(queue)),
        ("states fit holding", queue.records.iter().all(state_fits)),
        ("no input is in two records", inputs_apart(queue)),
        ("no record spends what another reads", reads_apart(queue)),
        ("reasons fit states", queue.records.iter().all(reason_fits)),
        (
            "mined parts fit states",
            queue.records.iter().all(mined_fits),
        ),
        ("finish numbers", finish_numbers(queue)),
        ("labels and lists are short", lists_fit(queue)),
        ("a holder's size is its byte length", sizes_fit(queue)),
    ];
    rules
        .into_iter()
        .find(|(_, holds)| !holds)
        .map(|(rule, _)| rule)
}

fn limits_in_range(limits: &Limits) -> bool {
    let [p, b, t, k] = limits.numbers();
    Limits::checked(p, b, t, k).is_some()
}

fn few_records(queue: &Queue) -> bool {
    let limits = &queue.limits;
    queue.records.len() as u64 <= 2 * u64::from(limits.pending) + u64::from(limits.tombstones)
}

fn ids_rise(queue: &Queue) -> bool {
    queue.records.windows(2).all(|two| two[0].id < two[1].id)
}

fn few_holders(queue: &Queue) -> bool {
    queue.holders().count() as u64 <= 2 * u64::from(queue.limits.pending)
}

fn holder_bytes(queue: &Queue) -> bool {
    total_bytes(queue.holders()) <= 2 * u64::from(queue.limits.bytes)
}

fn mined_holders(queue: &Queue) -> impl Iterator<Item = &Record> {
    queue
        .records
        .iter()
        .filter(|record| record.is_mined_holder())
}

fn few_mined(queue: &Queue) -> bool {
    mined_holders(queue).count() as u64 <= u64::from(queue.limits.pending)
}

fn mined_bytes(queue: &Queue) -> bool {
    total_bytes(mined_holders(queue)) <= u64::from(queue.limits.bytes)
}

fn total_bytes<'a>(records: impl Iterator<Item = &'a Record>) -> u64 {
    records.map(|record| record.byte_count() as u64).sum()
}

fn few_tombstones(queue: &Queue) -> bool {
    queue.tombstones().count() as u64 <= u64::from(queue.limits.tombstones)
}

/// Of every record, tombstones too.
fn callers_fit(queue: &Queue) -> bool {
    queue.records.iter().all(|record| record.caller.is_one())
}

/// Pending records are holders, 4 and 5 are tombstones, Mined may be either.
fn state_fits(record: &Record) -> bool {
    match record.state {
        State::Queued | State::Conflicted => record.holder.is_some(),
        State::Cancelled | State::Expired => record.holder.is_none(),
        State::Mined => true,
    }
}

/// No input id is in two records; one record may repeat one.
fn inputs_apart(queue: &Queue) -> bool {
    let mut owners: BTreeMap<Id, Id> = BTreeMap::new();
    queue.records.iter().all(|record| {
        record
            .inputs()
            .iter()
            .all(|input| *owners.entry(*input).or_insert(record.id) == record.id)
    })
}

/// No read id is an input of another record; its own may be.
fn reads_apart(queue: &Queue) -> bool {
    let spent = queue.records.iter().flat_map(|record| {
        let inputs = record.inputs().iter();
        inputs.map(|input| (*input, record.id))
    });
    let spent: BTreeSet<(Id, Id)> = spent.collect();
    let by_another = |record: &Record, read: &Id| {
        let mut by = spent.range((*read, [0; 32])..=(*read, [0xff; 32]));
        by.any(|(_, id)| *id != record.id)
    };
    let mut records = queue.records.iter();
    records.all(|record| !record.reads().iter().any(|read| by_another(record, read)))
}

fn reason_fits(record: &Record) -> bool {
    match record.state {
        State::Queued => matches!(record.reason, Reason::None | Reason::RolledBack),
        State::Conflicted => record.reason == Reason::InputsUnavailable,
        State::Mined => record.reason == Reason::None,
        State::Cancelled => record.reason == Reason::Cancelled,
        State::Expired => matches!(
            record.reason,
            Reason::DeadlineElapsed | Reason::RolledBackAfterRelease
        ),
    }
}

/// Mined height and block exactly when Mined; a mark only on a Mined tombstone.
fn mined_fits(record: &Record) -> bool {
    let mined = record.state == State::Mined;
    let may_be_marked = mined && record.holder.is_none();
    record.mined.is_some() == mined && (may_be_marked || record.withdrawn == Withdrawn::No)
}

/// Finish numbers of tombstones are distinct, from 1 to the counter; holders have 0.
fn finish_numbers(queue: &Queue) -> bool {
    let mut seen = BTreeSet::new();
    queue.records.iter().all(|record| match record.holder {
        Some(_) => record.finish.0 == 0,
        None => (1..=queue.counter.0).contains(&record.finish.0) && seen.insert(record.finish.0),
    })
}

/// Label ≤ 200 bytes; inputs, outputs, read ids ≤ K, each by themselves.
fn lists_fit(queue: &Queue) -> bool {
    let k = queue.limits.inputs as usize;
    queue.records.iter().all(|record| {
        let label = record.label.as_ref().map_or(0, Vec::len);
        let mut lists = [record.inputs(), record.outputs(), record.reads()].into_iter();
        label <= 200 && lists.all(|list| list.len() <= k)
    })
}

fn sizes_fit(queue: &Queue) -> bool {
    queue
        .holders()
        .all(|record| record.size as usize == record.byte_count())
}
