//! Parents first in a quicker way than the model's, for large queues.

use std::collections::{BTreeMap, BTreeSet};

use model::{rules, Height, Id, Queue, TimeMs};

/// Of each selected record the number of those that it waits for is counted, and lowered when one of
/// them is listed. Records are their places in the old order.
pub fn parents_first(queue: &Queue, now: TimeMs, height: Height) -> Vec<Id> {
    let selected = rules::selection_at(queue, now, height);
    let mut children: BTreeMap<&Id, BTreeSet<usize>> = BTreeMap::new();
    for (at, record) in selected.iter().enumerate() {
        // No input is in two records, but a read id may be.
        for id in record.asks_for() {
            children.entry(id).or_default().insert(at);
        }
    }
    let wanted_by = |at: usize| -> BTreeSet<usize> {
        let outputs = selected[at].outputs().iter();
        let children = outputs.filter_map(|output| children.get(output));
        let children = children.flatten().copied();
        children.filter(|child| *child != at).collect()
    };
    let mut waits = vec![0; selected.len()];
    for child in (0..selected.len()).flat_map(wanted_by) {
        waits[child] += 1;
    }
    let mut free: BTreeSet<usize> = (0..selected.len()).filter(|at| waits[*at] == 0).collect();
    let mut listed = Vec::new();
    while let Some(at) = free.pop_first() {
        listed.push(selected[at].id);
        for child in wanted_by(at) {
            waits[child] -= 1;
            if waits[child] == 0 {
                free.insert(child);
            }
        }
    }
    listed
}
