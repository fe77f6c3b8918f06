//! Queues made to measure: how many records, how many inputs and outputs each, with which ids, and
//! who waits for whom.

use std::cmp::Reverse;

use crate::random::{nth_id, Rng};
use crate::values::{
    Caller, Confirmation, FinishNumber, Height, Holder, Id, Limits, Queue, Reason, Record, State,
    TimeMs, Withdrawn,
};

/// Which ids the inputs and outputs have.
#[derive(Debug, Clone, Copy, PartialEq, Eq)]
pub enum Ids {
    Random,
    /// The first 24 bytes alike.
    Front,
    /// The first and the last 8 bytes alike.
    Ends,
    /// The sum of the first and the last 8 bytes alike: one number in the filter (`FilterAs.hash_l`).
    Filter,
    /// The sum of all four words of 8 bytes alike: one number where parents are looked for.
    Sum,
    /// Random, and each record has one input and one output, again and again. Not with
    /// [`Links::Spread`].
    Repeated,
}

/// Which inputs of Queued records are outputs of which others.
#[derive(Debug, Clone, Copy, PartialEq, Eq)]
pub enum Links {
    /// None.
    Apart,
    /// All are outputs of the record before, the first one's of the last one: each one waits.
    Ring,
    /// The same, but the first one waits for nobody; the selection has parents first.
    Chain,
    /// All are outputs of the record behind; the selection has children first.
    Reversed,
    /// Each is an output of another one of the records behind: a record waits for as many as it has
    /// inputs.
    Spread,
}

/// What the holders read without spending it: as many ids as they have inputs, or none.
#[derive(Debug, Clone, Copy, PartialEq, Eq)]
pub enum Reads {
    None,
    /// Each its own.
    Apart,
    /// All of them the same.
    Same,
    /// All of them the same, which are also the outputs of each of them: with [`Links::Apart`] each waits for all
    /// others.
    Made,
}

const IDS: [Ids; 6] = [
    Ids::Random,
    Ids::Front,
    Ids::Ends,
    Ids::Filter,
    Ids::Sum,
    Ids::Repeated,
];

const LINKS: [Links; 5] = [
    Links::Apart,
    Links::Ring,
    Links::Chain,
    Links::Reversed,
    Links::Spread,
];

/// All pairs that a load can have.
pub fn kinds() -> impl Iterator<Item = (Ids, Links)> {
    let with = |ids| LINKS.into_iter().map(move |links| (ids, links));
    let made = |kind: &(Ids, Links)| *kind != (Ids::Repeated, Links::Spread);
    IDS.into_iter().flat_map(with).filter(made)
}

fn box_id(ids: Ids, n: u64) -> Id {
    let mut rng = Rng::new(n);
    let (front, a, b, end) = (rng.u64(), rng.u64(), rng.u64(), rng.u64());
    let words = match ids {
        Ids::Random | Ids::Repeated => [front, a, b, end],
        Ids::Front => [7, 7, 7, front],
        Ids::Ends => [7, a, b, 7],
        Ids::Filter => [front, a, b, 7u64.wrapping_sub(front)],
        Ids::Sum => {
            let sum = front.wrapping_add(a).wrapping_add(b);
            [front, a, b, 7u64.wrapping_sub(sum)]
        }
    };
    let mut id = [0; 32];
    for (at, word) in words.iter().enumerate() {
        id[8 * at..8 * at + 8].copy_from_slice(&word.to_be_bytes());
    }
    id
}

/// What a queue is made of: `queued` and `mined` holders of `boxes` inputs, as many outputs and perhaps read
/// ids, and tombstones.
#[derive(Debug, Clone, Copy)]
pub struct Load {
    pub limits: [u64; 4],
    pub queued: u64,
    pub mined: u64,
    pub tombstones: u64,
    pub boxes: u64,
    pub bytes: usize,
    pub ids: Ids,
    pub links: Links,
    pub reads: Reads,
}

/// An input, an output or a read id: of which record, and which one of its.
fn box_of(load: &Load, side: u64, n: u64, at: u64) -> Id {
    let at = if load.ids == Ids::Repeated { 0 } else { at };
    box_id(load.ids, (side << 40) + n * load.boxes + at)
}

/// The record whose output this input is.
fn parent(load: &Load, n: u64, at: u64) -> Option<u64> {
    let behind = match load.links {
        // Mined records have inputs of their own.
        _ if n >= load.queued => return None,
        Links::Apart => return None,
        Links::Ring => return Some((n + load.queued - 1) % load.queued),
        Links::Chain => return n.checked_sub(1),
        Links::Reversed => n + 1,
        Links::Spread => n + 1 + at,
    };
    (behind < load.queued).then_some(behind)
}

fn holder(load: &Load, n: u64) -> Holder {
    let input = |at: u64| match parent(load, n, at) {
        Some(parent) => box_of(load, 1, parent, at),
        None => box_of(load, 0, n, at),
    };
    let shared = (0..load.boxes).map(|at| box_of(load, 3, 0, at));
    Holder {
        inputs: (0..load.boxes).map(input).collect(),
        outputs: match load.reads {
            Reads::Made => shared.clone().collect(),
            _ => (0..load.boxes).map(|at| box_of(load, 1, n, at)).collect(),
        },
        reads: match load.reads {
            Reads::None => Vec::new(),
            Reads::Apart => (0..load.boxes).map(|at| box_of(load, 3, n, at)).collect(),
            Reads::Same | Reads::Made => shared.collect(),
        },
        bytes: vec![n as u8; load.bytes],
    }
}

fn record_id(n: u64) -> Id {
    box_id(Ids::Random, (2 << 40) + n)
}

fn record(load: &Load, n: u64) -> Record {
    let holders = load.queued + load.mined;
    let state = match n {
        _ if n < load.queued => State::Queued,
        _ if n < holders => State::Mined,
        _ => State::Cancelled,
    };
    Record {
        id: record_id(n),
        caller: Caller(0),
        state,
        reason: if state == State::Cancelled {
            Reason::Cancelled
        } else {
            Reason::None
        },
        created: TimeMs(n),
        time_deadline: (n == 1).then_some(TimeMs(5)),
        height_deadline: None,
        priority: priority(load, n),
        label: None,
        fee: 1_000_000,
        size: load.bytes as u32,
        cost: 9,
        mined: (state == State::Mined).then(|| Confirmation {
            height: Height(99),
            block: nth_id(0),
        }),
        withdrawn: Withdrawn::No,
        finish: FinishNumber(if n < holders { 0 } else { n - holders + 1 }),
        holder: (n < holders).then(|| holder(load, n)),
    }
}

fn priority(load: &Load, n: u64) -> i64 {
    match load.links {
        Links::Apart | Links::Ring => (n % 5) as i64,
        Links::Chain | Links::Reversed | Links::Spread => 0,
    }
}

/// The ids that parents first has to list of the queue, at time 0 and height 0.
pub fn parents_first(load: &Load) -> Vec<Id> {
    let mut order: Vec<u64> = (0..load.queued).collect();
    if load.reads == Reads::Made && load.queued > 1 {
        return Vec::new();
    }
    match load.links {
        // By priority, then by time of creation.
        Links::Apart => order.sort_by_key(|n| (Reverse(priority(load, *n)), *n)),
        // One alone waits for nobody.
        Links::Ring if load.queued > 1 => order.clear(),
        Links::Ring | Links::Chain => {}
        Links::Reversed | Links::Spread => order.reverse(),
    }
    order.into_iter().map(record_id).collect()
}

/// The queue, sound.
pub fn queue(load: &Load) -> Queue {
    let [p, b, t, k] = load.limits;
    let limits = Limits::checked(p, b, t, k).expect("limits in range");
    let mut queue = Queue::fresh(limits);
    let all = load.queued + load.mined + load.tombstones;
    queue.records.extend((0..all).map(|n| record(load, n)));
    queue.records.sort_by_key(|record| record.id);
    queue.counter = FinishNumber(load.tombstones);
    queue.cursor = Height(100);
    queue.persisted = Height(100);
    queue
}
