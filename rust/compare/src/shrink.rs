//! Makes a list that shows a difference smaller, as long as it shows one.

use std::path::Path;

use model::HeaderKind;

use crate::list::{Call, Event, List, Start, Write};
use crate::run::{run_list, Difference};
use crate::side::Side;

/// The smallest list found, and its difference.
pub fn shrink<S: Side>(side: &S, folder: &Path, found: (List, Difference)) -> (List, Difference) {
    let mut smallest = found;
    smallest.0.events.truncate(smallest.1.at + 1);
    loop {
        let found = smaller(&smallest.0)
            .into_iter()
            .find_map(|list| Some((run_list(side, folder, &list).err()?, list)));
        match found {
            Some((difference, mut list)) => {
                list.events.truncate(difference.at + 1);
                smallest = (list, difference);
            }
            None => return smallest,
        }
    }
}

/// Lists that are a little smaller, the smallest first.
fn smaller(list: &List) -> Vec<List> {
    let mut lists = Vec::new();
    let count = list.events.len();
    for part in [count / 2, count / 4, 1] {
        let starts = (0..count).step_by(part.max(1));
        lists.extend(starts.map(|at| without(list, at, (at + part.max(1)).min(count))));
    }
    lists.extend(smaller_starts(list));
    for at in 0..count {
        let events = smaller_events(&list.events[at]);
        lists.extend(events.into_iter().map(|event| {
            let mut list = list.clone();
            list.events[at] = event;
            list
        }));
    }
    lists
}

fn without(list: &List, from: usize, to: usize) -> List {
    let mut list = list.clone();
    list.events.drain(from..to);
    list
}

fn smaller_starts(list: &List) -> Vec<List> {
    let Start::Queue(queue, kind) = &list.start else {
        return Vec::new();
    };
    let mut starts = vec![Start::Fresh];
    if *kind != HeaderKind::NEWEST {
        starts.push(Start::Queue(queue.clone(), HeaderKind::NEWEST));
    }
    for at in 0..queue.records.len() {
        let mut queue = queue.clone();
        queue.records.remove(at);
        starts.push(Start::Queue(queue, *kind));
    }
    for at in 0..queue.records.len() {
        for list in 0..3 {
            let mut queue = queue.clone();
            let Some(holder) = &mut queue.records[at].holder else {
                continue;
            };
            let ids = match list {
                0 => &mut holder.inputs,
                1 => &mut holder.outputs,
                _ => &mut holder.reads,
            };
            if ids.pop().is_some() {
                starts.push(Start::Queue(queue, *kind));
            }
        }
    }
    let with_start = |start| List {
        start,
        ..list.clone()
    };
    starts.into_iter().map(with_start).collect()
}

fn smaller_events(event: &Event) -> Vec<Event> {
    let Event::Call(call, write) = event else {
        return Vec::new();
    };
    let mut events = Vec::new();
    if *write != Write::Kept {
        events.push(Event::Call(call.clone(), Write::Kept));
    }
    let with_call = |call| Event::Call(Box::new(call), *write);
    events.extend(smaller_calls(call).into_iter().map(with_call));
    events
}

fn smaller_calls(call: &Call) -> Vec<Call> {
    match call {
        Call::Admit(given) => {
            let mut calls = Vec::new();
            let mut add = |change: &dyn Fn(&mut model::rules::Admission)| {
                let mut smaller = given.clone();
                change(&mut smaller);
                if smaller != *given {
                    calls.push(Call::Admit(smaller));
                }
            };
            add(&|given| given.inputs.clear());
            add(&|given| given.outputs.clear());
            add(&|given| given.reads.clear());
            add(&|given| given.signed.clear());
            add(&|given| given.label = None);
            add(&|given| given.time_deadline = None);
            add(&|given| given.height_deadline = None);
            add(&|given| given.tip = None);
            add(&|given| given.priority = 0);
            add(&|given| given.caller = model::Caller(0));
            calls
        }
        Call::Reconcile(given) => {
            let mut calls = Vec::new();
            for id in given.applied.keys() {
                let mut smaller = given.clone();
                smaller.applied.remove(id);
                calls.push(Call::Reconcile(smaller));
            }
            for id in &given.available {
                let mut smaller = given.clone();
                smaller.available.remove(id);
                calls.push(Call::Reconcile(smaller));
            }
            calls
        }
        Call::Reopen(ids) => ids
            .iter()
            .map(|id| {
                let mut smaller = ids.clone();
                smaller.remove(id);
                Call::Reopen(smaller)
            })
            .collect(),
        Call::Cancel(_) | Call::Expire(..) | Call::SetCursor(..) => Vec::new(),
    }
}
