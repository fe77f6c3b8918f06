//! Document 02, P11: lists with read ids. The oracle has none: [`crate::beside`].

use std::collections::BTreeSet;

use model::random::{self, Rng};
use model::rules::{selection_at, Admission, Reconciliation};
use model::{area, image, Id, Queue, Record, State};

use crate::beside::Two;
use crate::counts::{Counts, Reads};
use crate::generate;
use crate::list::Call;
use crate::run::{put_digits, Difference};
use crate::side::Side;
use crate::unit::Done;

/// What is refused, what is altered, and whether a record waits for what it reads.
pub(crate) fn seen<S: Side>(
    two: &Two<'_, S>,
    queue: &Queue,
    counts: &mut Counts,
) -> Result<(), Difference> {
    counts.reads.waiting += u64::from(waits(queue, two));
    refused(two, queue, counts)?;
    altered(two, queue, counts)
}

/// A selected record reads another one's output, and spends none.
fn waits<S: Side>(queue: &Queue, two: &Two<'_, S>) -> bool {
    let selected = selection_at(queue, two.probe.0, two.probe.1);
    let makes = |one: &Record, ids: &[Id]| {
        let others = selected.iter().filter(|other| other.id != one.id);
        let mut made = others.flat_map(|other| other.outputs());
        made.any(|id| ids.contains(id))
    };
    let mut all = selected.iter();
    all.any(|one| makes(one, one.reads()) && !makes(one, one.inputs()))
}

/// Read lists over K, and such that are not whole.
fn refused<S: Side>(
    two: &Two<'_, S>,
    queue: &Queue,
    counts: &mut Counts,
) -> Result<(), Difference> {
    let rng = &mut Rng::new(two.seed.wrapping_add(two.at as u64));
    let given = Admission::plain(generate::record_id(rng, queue));
    let k = queue.limits.inputs as usize;
    let count = rng.pick(&[k, k + 1, k + 1, k + 2]);
    let ids = (0..count).map(|_| random::box_id(rng, &queue.limits));
    let mut reads = ids.collect::<Vec<Id>>().concat();
    match rng.below(4) {
        0 => reads.truncate(reads.len() - 1),
        1 => reads.push(0),
        _ => {}
    }
    let right = two.model.admission_reading(&given, &reads);
    let answer = two.unit.admission_reading(&given, &reads);
    counts.reads.over_k += u64::from(right == 6);
    counts.reads.not_whole += u64::from(right == 5);
    let length = reads.len();
    two.same("the read ids of admit", (length, answer), (length, right))
}

/// The area and the image with another read count, another read id, or one read id more.
fn altered<S: Side>(
    two: &Two<'_, S>,
    queue: &Queue,
    counts: &mut Counts,
) -> Result<(), Difference> {
    // In each list the same draws, so that shorter lists show the same.
    let rng = &mut Rng::new(two.seed);
    let records = 0..queue.records.len();
    let holders: Vec<usize> = records
        .filter(|n| queue.records[*n].holder.is_some())
        .collect();
    if holders.is_empty() {
        return Ok(());
    }
    let n = rng.pick(&holders);
    let (bytes, text) = match rng.below(3) {
        0 => {
            let mut bytes = two.model.area().to_vec();
            let mut text = image::encode(queue);
            let count = rng.pick(&[0, 1, 2, 3, 0x100, 0xffff_u16]).to_be_bytes();
            let place = area::reads_place(queue, n).expect("a holder");
            let digits = image::reads_place(queue, n).expect("a holder");
            for (at, byte) in count.into_iter().enumerate() {
                bytes[place + at] = byte;
                put_digits(&mut text, digits + 2 * at, byte);
            }
            (bytes, text)
        }
        how => {
            let mut other = queue.clone();
            let read = any_id(rng, queue);
            let reads = &mut other.records[n].holder.as_mut().expect("a holder").reads;
            match reads.is_empty() || how == 1 {
                true => reads.push(read),
                false => {
                    let at = rng.below(reads.len());
                    reads[at] = read;
                }
            }
            let mut bytes = area::encode(&other);
            // The later bytes are those of the area.
            bytes.extend(&two.model.area()[queue.limits.need()..]);
            (bytes, image::encode(&other))
        }
    };
    let names = ["areas with other read ids", "texts with other read ids"];
    two.same_altered(&bytes, &text, names, counts)
}

/// Mostly one that a record spends or reads.
fn any_id(rng: &mut Rng, queue: &Queue) -> Id {
    let asked_for: Vec<Id> = (queue.records.iter())
        .flat_map(|of| of.asks_for().copied())
        .collect();
    match asked_for.is_empty() || rng.once_in(3) {
        true => random::box_id(rng, &queue.limits),
        false => rng.pick(&asked_for),
    }
}

pub(crate) fn count(call: &Call, before: &Queue, after: &Queue, done: &Done, counts: &mut Counts) {
    let counts = &mut counts.reads;
    counts.finished += before
        .holders()
        .filter(|of| !of.reads().is_empty())
        .filter(|of| after.record(&of.id).is_none_or(|of| of.holder.is_none()))
        .count() as u64;
    match call {
        Call::Admit(given) if done.number == 20 => count_refused(given, before, counts),
        Call::Admit(given) if done.kind == Some(2) && done.number == 100 => {
            counts.admitted += u64::from(!given.reads.is_empty());
            let shared = |id: &Id| before.holders().any(|other| other.reads().contains(id));
            counts.shared += u64::from(given.reads.iter().any(shared));
            let own = |id: &Id| given.inputs.contains(id);
            counts.own += u64::from(given.reads.iter().any(own));
        }
        Call::Reconcile(given) if done.number == 100 => {
            count_reconciled(given, before, after, counts)
        }
        _ => {}
    }
}

fn count_refused(given: &Admission, before: &Queue, counts: &mut Reads) {
    counts.refused += 1;
    let has = |ids: &[Id], of: &[Id]| ids.iter().any(|id| of.contains(id));
    let input_read = |other: &Record| has(&given.inputs, other.reads());
    let read_spent = |other: &Record| has(&given.reads, other.inputs());
    counts.input_read += u64::from(before.records.iter().any(input_read));
    counts.read_spent += u64::from(before.records.iter().any(read_spent));
    let mut against = (before.records.iter()).filter(|of| input_read(of) || read_spent(of));
    counts.by_mined += u64::from(against.all(|of| of.state == State::Mined));
}

fn count_reconciled(given: &Reconciliation, before: &Queue, after: &Queue, counts: &mut Reads) {
    let queued = before.records.iter().filter(|of| of.state == State::Queued);
    let made: BTreeSet<&Id> = queued.flat_map(Record::outputs).collect();
    let there = |id: &Id| given.available.contains(id) || made.contains(id);
    for record in after.records.iter().filter(|of| !of.reads().is_empty()) {
        let old = before.record(&record.id).map(|old| old.state);
        match (old, record.state) {
            (Some(State::Queued), State::Conflicted) => {
                counts.conflicted += u64::from(record.inputs().iter().all(there));
            }
            (Some(State::Conflicted), State::Queued) => counts.queued_again += 1,
            _ => {}
        }
    }
}

#[cfg(test)]
mod tests {
    use model::Limits;

    use super::*;
    use crate::list::Start;
    use crate::oracle::admitted;

    const ID: [u8; 32] = [1; 32];

    /// What the oracle, in a folder of its own, makes of the start and of an admission with these read
    /// ids.
    fn given(name: &str, start: Start, reads: &[Id]) -> Result<u64, String> {
        let limits = Limits::checked(2, 10, 1, 1).expect("limits in range");
        let given = Admission {
            reads: reads.to_vec(),
            ..Admission::plain([2; 32])
        };
        admitted(&format!("reads-{name}"), limits, &start, given)
    }

    #[test]
    fn the_oracle_is_given_no_read_ids() {
        assert_eq!(given("right", Start::Fresh, &[]), Ok(100));
        let other = given("admission", Start::Fresh, &[ID]);
        assert_eq!(other, Err("the oracle has no read ids".into()));
        let limits = Limits::checked(2, 10, 1, 1).expect("limits in range");
        for (reads, expected) in [
            (vec![], Ok(100)),
            (vec![ID], Err("the oracle has no read ids".into())),
        ] {
            let record = Admission {
                reads,
                ..Admission::plain(ID)
            };
            let queue = model::rules::admit(&Queue::fresh(limits), &record);
            let queue = Box::new(queue.expect("admitted").next);
            let start = Start::Queue(queue, model::HeaderKind::NEWEST);
            assert_eq!(given("record", start, &[]), expected);
        }
    }
}
