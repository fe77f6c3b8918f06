//! Document 02, P7, "Parents first", on queues.

use crate::rules::selection_at;
use crate::values::{Height, Queue, Record, TimeMs};

/// "A record waits for every other selected record that has one of its inputs among its outputs", and
/// "waits for [read ids] as for inputs" (P11). Both are selected.
pub fn waits_for(record: &Record, other: &Record) -> bool {
    let has = |id| other.outputs().contains(id);
    record.id != other.id && record.asks_for().any(has)
}

/// The place of "the first, in the old order, of those that wait for nothing unlisted".
fn first_free(unlisted: &[&Record]) -> Option<usize> {
    let waits = |record: &Record| unlisted.iter().any(|other| waits_for(record, other));
    unlisted.iter().position(|record| !waits(record))
}

/// The second selection order. "Records that still wait at the end are left off."
pub fn parents_first(queue: &Queue, now: TimeMs, height: Height) -> Vec<&Record> {
    let mut unlisted = selection_at(queue, now, height);
    let mut listed = Vec::new();
    while let Some(at) = first_free(&unlisted) {
        listed.push(unlisted.remove(at));
    }
    listed
}
