//! Random lists of events. The next event is chosen with the queue in view, so that calls meet
//! records.

use std::collections::{BTreeMap, BTreeSet};

use model::random::{self, Rng};
use model::rules::{reserved_inputs, Admission, Reconciliation};
use model::{Caller, Confirmation, HeaderKind, Height, Id, Limits, Queue, Record, TimeMs};

use crate::list::{Call, Event, List, Look, Start, Write};
use crate::side::Fees;

/// A list without events.
pub fn list(rng: &mut Rng, limits: Limits) -> List {
    let start = if rng.once_in(3) {
        any_queue(rng, limits)
    } else {
        Start::Fresh
    };
    let probe = (random::time(rng), random::height(rng));
    List {
        limits,
        start,
        events: Vec::new(),
        probe,
        // The other draws stay what they are.
        fees: rng.clone().u64(),
        look: Look::All,
    }
}

/// A list without events, whose start has few or many candidates for best fees.
pub fn fees_list(rng: &mut Rng) -> List {
    let count = rng.pick(&[1, 2, 3, 5, 8, 19, 20, 21, 22, 30]);
    let queue = random::fees_queue(rng, count);
    List {
        limits: queue.limits,
        start: Start::Queue(Box::new(queue), HeaderKind::NEWEST),
        events: Vec::new(),
        probe: (random::time(rng), random::height(rng)),
        fees: rng.u64(),
        look: Look::All,
    }
}

/// A list without events, many of whose records wait for others.
pub fn parents_list(rng: &mut Rng) -> List {
    let count = rng.pick(&[2, 3, 4, 5, 6, 8, 12, 20, 40]);
    let inputs = 1 + rng.below(4);
    let queue = random::parents_queue(rng, count, inputs);
    List {
        limits: queue.limits,
        start: Start::Queue(Box::new(queue), HeaderKind::NEWEST),
        events: Vec::new(),
        probe: (random::time(rng), random::height(rng)),
        fees: 0,
        look: Look::Parents,
    }
}

fn without_events(rng: &mut Rng, limits: Limits, start: Start, look: Look) -> List {
    List {
        limits,
        start,
        events: Vec::new(),
        probe: (random::time(rng), random::height(rng)),
        fees: rng.u64(),
        look,
    }
}

/// With room for more pending records, so that they meet before 10 and have an order.
fn roomy_limits(rng: &mut Rng) -> Limits {
    let small = random::small_limits(rng).numbers();
    let limits = Limits::checked(small[0] + 3, 10, small[2], small[3]);
    limits.expect("limits in range")
}

/// Leaves 7, 8, 9 and 11 nothing to refuse.
fn leave_in(given: &mut Admission) {
    given.signed.clear();
    given.label = None;
    (given.time_deadline, given.height_deadline) = (None, None);
}

/// A list without events under limits with shares. Some begin with a queue that has records of other
/// callers, and some with one of caller 0 alone, also in an older image.
pub fn callers_list(rng: &mut Rng) -> List {
    let small = random::small_limits(rng).numbers();
    let limits = Limits::checked(small[0] + 1, small[1], small[2], small[3]);
    let limits = limits.expect("limits in range");
    let mut shares = random::shares(rng, &limits);
    // Those that admit most have few, so that shares are used up before P.
    for caller in FREQUENT {
        if !rng.once_in(4) {
            shares[usize::from(caller.0)] = 1 + rng.below(2) as u32;
        }
    }
    let (limits, start) = match rng.below(4) {
        0 => (limits, any_queue(rng, limits)),
        1 | 2 => (Limits { shares, ..limits }, Start::Fresh),
        _ => {
            let queue = random::queue(rng, limits);
            let queue = random::with_callers(rng, queue);
            let limits = queue.limits;
            (limits, Start::Queue(Box::new(queue), HeaderKind::NEWEST))
        }
    };
    without_events(rng, limits, start, Look::Callers)
}

/// The callers that admit most.
const FREQUENT: [Caller; 3] = [Caller(0), Caller(1), Caller(15)];

/// An event of such a list: an admission has any caller.
pub fn callers_event(rng: &mut Rng, queue: &Queue) -> Event {
    let mut event = event(rng, queue);
    if let Event::Call(call, _) = &mut event {
        // Confirmed with the signed bytes kept, and rolled back, more often than in other lists.
        match &mut **call {
            Call::Reconcile(given) if rng.once_in(2) => given.window = u32::MAX,
            call @ (Call::Expire(..) | Call::SetCursor(..)) if rng.once_in(2) => {
                *call = Call::Reopen(rolled_back(rng, queue));
            }
            _ => {}
        }
        if let Call::Admit(given) = &mut **call {
            given.caller = match rng.once_in(4) {
                true => random::caller(rng),
                false => rng.pick(&FREQUENT),
            };
            // With nothing but the share to refuse.
            if !rng.once_in(3) {
                leave_in(given);
                given.inputs.clear();
            }
        }
    }
    event
}

/// A list without events whose records read. Some begin with a queue that has read ids, and some with one
/// that has none, also in an older image.
pub fn reads_list(rng: &mut Rng) -> List {
    let limits = roomy_limits(rng);
    let start = match rng.below(4) {
        0 => any_queue(rng, limits),
        1 => Start::Fresh,
        _ => {
            let queue = random::queue(rng, limits);
            let queue = random::with_reads(rng, queue);
            Start::Queue(Box::new(queue), HeaderKind::NEWEST)
        }
    };
    without_events(rng, limits, start, Look::Reads)
}

/// An event of such a list: an admission reads, and mostly nothing but 20 is there to refuse it.
pub fn reads_event(rng: &mut Rng, queue: &Queue) -> Event {
    let mut event = event(rng, queue);
    if let Event::Call(call, _) = &mut event {
        match &mut **call {
            // Confirmed with the signed bytes kept, and classified, more often than in other lists.
            Call::Reconcile(given) => {
                if rng.once_in(2) {
                    given.window = u32::MAX;
                }
                if rng.once_in(2) {
                    given.caught_up = true;
                    given.available = reads_available(rng, queue);
                }
            }
            call @ (Call::Expire(..) | Call::SetCursor(..)) if rng.once_in(2) => {
                *call = Call::Reopen(rolled_back(rng, queue));
            }
            Call::Admit(given) => read_by(rng, queue, given),
            _ => {}
        }
    }
    event
}

/// All inputs, and mostly not all of what is read.
fn reads_available(rng: &mut Rng, queue: &Queue) -> BTreeSet<Id> {
    let share = rng.pick(&[0, 2, 3, 4]);
    let mut available = reserved_inputs(queue);
    let reads = queue.records.iter().flat_map(Record::reads);
    available.extend(reads.filter(|_| rng.below(4) < share));
    available
}

/// Gives the admission read ids: what another record spends or reads, what it spends itself, what
/// another makes, or any. Its inputs are read by another once in a while.
fn read_by(rng: &mut Rng, queue: &Queue, given: &mut Admission) {
    let all = |ids: fn(&Record) -> &[Id]| -> Vec<Id> {
        queue.records.iter().flat_map(ids).copied().collect()
    };
    let (spent, read) = (all(Record::inputs), all(Record::reads));
    let made = all(Record::outputs);
    if !rng.once_in(4) {
        leave_in(given);
        given
            .inputs
            .retain(|id| !spent.contains(id) && !read.contains(id));
    }
    let k = queue.limits.inputs as usize;
    let some = |rng: &mut Rng, from: &[Id]| -> Vec<Id> {
        let from: Vec<Id> = match from.is_empty() {
            true => random::box_ids(rng, &queue.limits),
            false => from.to_vec(),
        };
        let count = if from.is_empty() { 0 } else { 1 + rng.below(k) };
        (0..count).map(|_| rng.pick(&from)).collect()
    };
    let apart: Vec<Id> = read
        .iter()
        .filter(|id| !spent.contains(id))
        .copied()
        .collect();
    given.reads = match rng.below(12) {
        0..=2 => some(rng, &spent),
        3 | 4 => some(rng, &apart),
        5 | 6 => some(rng, &given.inputs),
        7 => {
            let free: Vec<Id> = made.into_iter().filter(|id| !spent.contains(id)).collect();
            some(rng, &free)
        }
        8 => some(rng, &given.outputs),
        9 => Vec::new(),
        _ => random::box_ids(rng, &queue.limits),
    };
    if rng.once_in(4) {
        given.inputs.extend(some(rng, &apart));
        given.inputs.truncate(k);
    }
}

/// A list without events whose records have priorities of 64 bits. Some begin with a queue that has them, and
/// some with one of 32 bits, also in an older image.
pub fn wide_list(rng: &mut Rng) -> List {
    let limits = roomy_limits(rng);
    let start = match rng.below(4) {
        0 | 1 => any_queue(rng, limits),
        2 => Start::Fresh,
        _ => {
            let queue = random::queue(rng, limits);
            let queue = random::with_wide(rng, queue);
            Start::Queue(Box::new(queue), HeaderKind::NEWEST)
        }
    };
    without_events(rng, limits, start, Look::Wide)
}

/// An event of such a list: an admission has a priority of 64 bits mostly, and mostly nothing to refuse it.
pub fn wide_event(rng: &mut Rng, queue: &Queue) -> Event {
    let mut event = event(rng, queue);
    if let Event::Call(call, _) = &mut event {
        if let Call::Admit(given) = &mut **call {
            if !rng.once_in(4) {
                given.priority = random::wide_priority(rng);
            }
            if !rng.once_in(4) {
                leave_in(given);
                given.inputs.clear();
            }
        }
    }
    event
}

/// What best fees is asked of this queue; the draws are the same for all queues.
pub fn fees(seed: u64, queue: &Queue, (now, height): (TimeMs, Height)) -> [Fees; 3] {
    let mut rng = Rng::new(seed);
    std::array::from_fn(|_| Fees {
        limit: random::fees_limit(&mut rng, queue, now, height),
        budget: random::fees_budget(&mut rng),
        now: now.0,
        height: height.0,
    })
}

/// Any sound queue of caller 0 alone; some of those that can be in an image of an older kind are stored
/// in one.
pub(crate) fn any_queue(rng: &mut Rng, limits: Limits) -> Start {
    let mut queue = random::queue(rng, limits);
    // Half of them as after opening.
    if rng.once_in(2) {
        queue.persisted = queue.cursor;
    }
    // The other draws stay what they are.
    let kind = rng.clone().pick(&HeaderKind::ALL);
    let kind = match kind.can_hold(&queue) {
        true => kind,
        false => HeaderKind::NEWEST,
    };
    Start::Queue(Box::new(queue), kind)
}

/// Mostly small limits, rarely many records.
pub fn limits(rng: &mut Rng) -> Limits {
    if rng.once_in(2_000) {
        let pending = u64::from(Limits::MAX_PENDING) - rng.below(2) as u64;
        let bytes = rng.pick(&[1, 4_096, 65_536]);
        let tombstones = u64::from(Limits::MAX_TOMBSTONES) - rng.below(2) as u64;
        let inputs = 1 + rng.below(2) as u64;
        let limits = Limits::checked(pending, bytes, tombstones, inputs);
        return limits.expect("limits in range");
    }
    random::small_limits(rng)
}

pub fn event(rng: &mut Rng, queue: &Queue) -> Event {
    if rng.once_in(40) {
        return Event::Cut;
    }
    let write = match rng.below(24) {
        0 | 1 => Write::NotCreated,
        2 => Write::NotRenamed,
        3 => Write::CutBeforeRename,
        4 => Write::CutAfterRename,
        _ => Write::Kept,
    };
    Event::Call(Box::new(call(rng, queue)), write)
}

fn call(rng: &mut Rng, queue: &Queue) -> Call {
    match rng.below(20) {
        0..=7 => Call::Admit(admission(rng, queue)),
        8 | 9 => Call::Cancel(record_id(rng, queue)),
        10 | 11 => Call::Expire(random::time(rng), near_height(rng, queue)),
        12..=16 => Call::Reconcile(reconciliation(rng, queue)),
        17 | 18 => Call::Reopen(rolled_back(rng, queue)),
        _ => Call::SetCursor(near_height(rng, queue), rng.optional(random::block_id)),
    }
}

/// The id of a record mostly.
pub(crate) fn record_id(rng: &mut Rng, queue: &Queue) -> Id {
    if queue.records.is_empty() || rng.once_in(4) {
        return random::tx_id(rng, &queue.limits);
    }
    queue.records[rng.below(queue.records.len())].id
}

fn some_ids(rng: &mut Rng, queue: &Queue) -> BTreeSet<Id> {
    (0..rng.below(4)).map(|_| record_id(rng, queue)).collect()
}

/// Some ids, or those of all Mined records, so that records are confirmed and rolled back in turn.
fn rolled_back(rng: &mut Rng, queue: &Queue) -> BTreeSet<Id> {
    if rng.once_in(2) {
        return some_ids(rng, queue);
    }
    let mined = queue.records.iter().filter(|record| record.mined.is_some());
    mined.map(|record| record.id).collect()
}

/// A height at an edge of what the queue holds, or any.
fn near_height(rng: &mut Rng, queue: &Queue) -> Height {
    let edge = match rng.below(5) {
        0 => queue.cursor.0,
        1 => queue.cursor.0.saturating_add(1),
        2 => queue.persisted.0.saturating_add(31),
        3 => queue.persisted.0.saturating_add(32),
        _ => random::height(rng).0,
    };
    Height(edge)
}

fn admission(rng: &mut Rng, queue: &Queue) -> Admission {
    let limits = &queue.limits;
    // Twice a record's fair share at most, rarely around B.
    let share = 2 * limits.bytes as usize / limits.pending as usize;
    let signed = match rng.below(10) {
        0 => limits.bytes as usize + rng.below(2),
        1 => 0,
        _ => rng.up_to(share),
    };
    let mut label = rng.optional(random::label);
    if rng.once_in(30) {
        label = Some(vec![b'x'; 201]);
    }
    Admission {
        id: random::tx_id(rng, limits),
        caller: Caller(0),
        inputs: inputs(rng, queue),
        outputs: random::box_ids(rng, limits),
        reads: Vec::new(),
        signed: rng.bytes(signed),
        now: random::time(rng),
        time_deadline: sometimes(rng, random::time),
        height_deadline: sometimes(rng, random::height),
        priority: random::priority(rng),
        label,
        fee: rng.pick(&[0, 7, u64::MAX]),
        cost: rng.pick(&[0, 9, u64::MAX]),
        tip_height: random::height(rng),
        tip: rng.optional(random::block_id),
    }
}

fn sometimes<T>(rng: &mut Rng, make: impl FnOnce(&mut Rng) -> T) -> Option<T> {
    if rng.once_in(4) {
        Some(make(rng))
    } else {
        None
    }
}

/// At most K inputs; mostly none that a record has.
fn inputs(rng: &mut Rng, queue: &Queue) -> Vec<Id> {
    let mut inputs = random::box_ids(rng, &queue.limits);
    if !rng.once_in(3) {
        let reserved = reserved_inputs(queue);
        inputs.retain(|input| !reserved.contains(input));
    }
    inputs
}

fn reconciliation(rng: &mut Rng, queue: &Queue) -> Reconciliation {
    let height = near_height(rng, queue);
    Reconciliation {
        height,
        tip: random::block_id(rng),
        applied: applied(rng, queue, height),
        caught_up: rng.once_in(2),
        available: available(rng, queue),
        window: rng.pick(&[0, 1, 2, 5, 31, 32, u32::MAX, u32::MAX]),
    }
}

fn applied(rng: &mut Rng, queue: &Queue, height: Height) -> BTreeMap<Id, Confirmation> {
    let often = rng.pick(&[0, 0, 0, 2, 4]);
    if often == 0 {
        return BTreeMap::new();
    }
    let mut applied = BTreeMap::new();
    for record in &queue.records {
        if rng.once_in(often) {
            applied.insert(record.id, found(rng, record, height));
        }
    }
    if rng.once_in(4) {
        applied.insert(random::tx_id(rng, &queue.limits), random::confirmation(rng));
    }
    applied
}

/// Where the record was found: where it was before, near the height, or anywhere.
fn found(rng: &mut Rng, record: &Record, height: Height) -> Confirmation {
    match (rng.below(4), record.mined) {
        (0, Some(before)) => before,
        (1, _) => random::confirmation(rng),
        _ => Confirmation {
            height: Height(height.0.saturating_sub(rng.below(3) as u32)),
            block: random::block_id(rng),
        },
    }
}

fn available(rng: &mut Rng, queue: &Queue) -> BTreeSet<Id> {
    let share = rng.pick(&[0, 1, 3, 4, 4]);
    queue
        .records
        .iter()
        .flat_map(|record| record.asks_for().copied())
        .filter(|_| rng.below(4) < share)
        .collect()
}
