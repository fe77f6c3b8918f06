//! Each call of document 01 as a function on queues. Refusals 1 to 6 and 16 are about bytes and
//! stand in [`crate::calls`]; here are 7 to 15, 18 and 20, in document 01's order, 18 after 10 and 20
//! after 12.

use std::collections::{BTreeMap, BTreeSet};

use crate::values::{
    Caller, Confirmation, FinishNumber, Height, Holder, Id, Queue, Reason, Record, State, TimeMs,
    Withdrawn,
};

/// A number of document 01's table.
pub type Refusal = u64;

pub const TIME_DEADLINE: Refusal = 7;
pub const HEIGHT_DEADLINE: Refusal = 8;
pub const LABEL: Refusal = 9;
pub const FULL: Refusal = 10;
pub const BYTE_BUDGET: Refusal = 11;
pub const INPUT_RESERVED: Refusal = 12;
pub const ABSENT: Refusal = 13;
pub const CONFIRMED: Refusal = 14;
pub const COUNTER: Refusal = 15;
pub const SHARE: Refusal = 18;
pub const READ_AND_SPENT: Refusal = 20;

/// What is due after a changing call.
#[derive(Debug, Clone, Copy, PartialEq, Eq, PartialOrd, Ord)]
pub enum Kind {
    Nothing = 0,
    Memory = 1,
    Whole = 2,
    Cursor = 3,
}

/// A changing call that was not refused. With kind 0, `next` is the queue as it was.
#[derive(Debug, Clone, PartialEq, Eq)]
pub struct Change<A> {
    pub kind: Kind,
    pub next: Queue,
    pub answer: A,
}

/// A transaction as it is given to an admission.
#[derive(Debug, Clone, PartialEq, Eq)]
pub struct Admission {
    pub id: Id,
    pub caller: Caller,
    pub inputs: Vec<Id>,
    pub outputs: Vec<Id>,
    pub reads: Vec<Id>,
    pub signed: Vec<u8>,
    pub now: TimeMs,
    pub time_deadline: Option<TimeMs>,
    pub height_deadline: Option<Height>,
    pub priority: i64,
    pub label: Option<Vec<u8>>,
    pub fee: u64,
    pub cost: u64,
    pub tip_height: Height,
    pub tip: Option<Id>,
}

impl Admission {
    /// Of this id by caller 0 at time 5 and height 1, with nothing beside it.
    pub fn plain(id: Id) -> Self {
        Self {
            id,
            caller: Caller(0),
            inputs: Vec::new(),
            outputs: Vec::new(),
            reads: Vec::new(),
            signed: Vec::new(),
            now: TimeMs(5),
            time_deadline: None,
            height_deadline: None,
            priority: 0,
            label: None,
            fee: 1,
            cost: 1,
            tip_height: Height(1),
            tip: None,
        }
    }
}

/// Admission: checks 7, 8, 9; a pending or Mined id then gives its old record, kind 0; then 10,
/// 18, 11, 12, 20. The answer is the record.
pub fn admit(queue: &Queue, given: &Admission) -> Result<Change<Record>, Refusal> {
    check_deadlines_and_label(given)?;
    if let Some(old) = queue.record(&given.id) {
        if old.state.is_pending() || old.state == State::Mined {
            return Ok(unchanged(queue, old.clone()));
        }
    }
    check_room(queue, given)?;
    let record = queued_record(given);
    let mut next = queue.clone();
    if next.records.is_empty() {
        next.cursor = given.tip_height;
        next.tip = given.tip;
    }
    // A tombstone of that id is replaced.
    next.records.retain(|other| other.id != given.id);
    next.records.push(record.clone());
    next.records.sort_by_key(|record| record.id);
    Ok(whole_write(next, record))
}

fn check_deadlines_and_label(given: &Admission) -> Result<(), Refusal> {
    if given.time_deadline.is_some_and(|time| time <= given.now) {
        return Err(TIME_DEADLINE);
    }
    if given
        .height_deadline
        .is_some_and(|height| height <= given.tip_height)
    {
        return Err(HEIGHT_DEADLINE);
    }
    if given.label.as_ref().is_some_and(|label| label.len() > 200) {
        return Err(LABEL);
    }
    Ok(())
}

fn check_room(queue: &Queue, given: &Admission) -> Result<(), Refusal> {
    if queue.pending().count() as u64 >= u64::from(queue.limits.pending) {
        return Err(FULL);
    }
    let share = queue.limits.shares[usize::from(given.caller.0)];
    if queue.pending_of(given.caller).count() as u64 >= u64::from(share) {
        return Err(SHARE);
    }
    let pending_bytes: usize = queue.pending().map(Record::byte_count).sum();
    if (pending_bytes + given.signed.len()) as u64 > u64::from(queue.limits.bytes) {
        return Err(BYTE_BUDGET);
    }
    let inputs: BTreeSet<&Id> = given.inputs.iter().collect();
    let reserved = |record: &Record| record.inputs().iter().any(|id| inputs.contains(id));
    if queue.records.iter().any(reserved) {
        return Err(INPUT_RESERVED);
    }
    // "an input is read, or a read id spent, by another record"
    let reads: BTreeSet<&Id> = given.reads.iter().collect();
    let read = |record: &Record| record.reads().iter().any(|id| inputs.contains(id));
    let spent = |record: &Record| record.inputs().iter().any(|id| reads.contains(id));
    if queue.records.iter().any(|of| read(of) || spent(of)) {
        return Err(READ_AND_SPENT);
    }
    Ok(())
}

/// Queued, reason 0, created now, unwithdrawn, its size the byte count.
fn queued_record(given: &Admission) -> Record {
    Record {
        id: given.id,
        caller: given.caller,
        state: State::Queued,
        reason: Reason::None,
        created: given.now,
        time_deadline: given.time_deadline,
        height_deadline: given.height_deadline,
        priority: given.priority,
        label: given.label.clone(),
        fee: given.fee,
        size: u32::try_from(given.signed.len()).expect("at most B bytes"),
        cost: given.cost,
        mined: None,
        withdrawn: Withdrawn::No,
        finish: FinishNumber(0),
        holder: Some(Holder {
            inputs: given.inputs.clone(),
            outputs: given.outputs.clone(),
            reads: given.reads.clone(),
            bytes: given.signed.clone(),
        }),
    }
}

/// Cancellation: 13, 14; a tombstone answers its record, kind 0; else finish as 4, reason 1.
pub fn cancel(queue: &Queue, id: &Id) -> Result<Change<Record>, Refusal> {
    let record = queue.record(id).ok_or(ABSENT)?;
    if record.state == State::Mined {
        return Err(CONFIRMED);
    }
    if record.holder.is_none() {
        return Ok(unchanged(queue, record.clone()));
    }
    check_counter(queue, 1)?;
    let mut next = queue.clone();
    withdraw(&mut next, id, State::Cancelled, Reason::Cancelled);
    forget(&mut next);
    let answer = next.record(id).expect("the newest tombstone stays").clone();
    Ok(whole_write(next, answer))
}

/// Expiry finishes, rising by id, the due records as 5, reason 2. The answer is their ids.
pub fn expire(queue: &Queue, now: TimeMs, height: Height) -> Result<Change<Vec<Id>>, Refusal> {
    let due: Vec<Id> = due(queue, now, height)
        .iter()
        .map(|record| record.id)
        .collect();
    if due.is_empty() {
        return Ok(unchanged(queue, due));
    }
    check_counter(queue, due.len())?;
    let mut next = queue.clone();
    for id in &due {
        withdraw(&mut next, id, State::Expired, Reason::DeadlineElapsed);
    }
    forget(&mut next);
    Ok(whole_write(next, due))
}

/// What a reconciliation is given.
#[derive(Debug, Clone, PartialEq, Eq)]
pub struct Reconciliation {
    pub height: Height,
    pub tip: Id,
    pub applied: BTreeMap<Id, Confirmation>,
    pub caught_up: bool,
    pub available: BTreeSet<Id>,
    pub window: u32,
}

/// What a reconciliation answers.
#[derive(Debug, Clone, PartialEq, Eq)]
pub struct Reconciled {
    pub changed: bool,
    /// In the order in which they were finished.
    pub released: Vec<Id>,
}

pub fn reconcile(queue: &Queue, given: &Reconciliation) -> Result<Change<Reconciled>, Refusal> {
    let decisions = decisions(queue, given);
    let released = decisions.iter().filter(|decision| decision.released);
    let released: Vec<Id> = released.map(|decision| decision.id).collect();
    check_counter(queue, released.len())?;
    let mut next = queue.clone();
    next.records = reconciled_records(queue, given);
    let changed = next.records != queue.records || !released.is_empty();
    for id in &released {
        finish(&mut next, id);
    }
    if !released.is_empty() {
        forget(&mut next);
    }
    next.cursor = given.height;
    next.tip = Some(given.tip);
    let answer = Reconciled { changed, released };
    if changed {
        return Ok(whole_write(next, answer));
    }
    // Persisted + 32 stops at 4,294,967,295.
    let kind = if given.height.0 >= queue.persisted.0.saturating_add(32) {
        next.persisted = given.height;
        Kind::Cursor
    } else {
        Kind::Memory
    };
    Ok(Change { kind, next, answer })
}

fn reconciled_records(queue: &Queue, given: &Reconciliation) -> Vec<Record> {
    // Outputs count by the state at entry.
    let queued_outputs: BTreeSet<Id> = queue
        .records
        .iter()
        .filter(|record| record.state == State::Queued)
        .filter_map(|record| record.holder.as_ref())
        .flat_map(|holder| holder.outputs.iter().copied())
        .collect();
    let is_available = |id: &Id| given.available.contains(id) || queued_outputs.contains(id);
    let mut records = entered(queue, given);
    for record in &mut records {
        if given.caught_up && record.state.is_pending() {
            let available = record.asks_for().all(is_available);
            *record = classified(record, available);
        }
    }
    records
}

/// The records after `applied` was entered.
fn entered(queue: &Queue, given: &Reconciliation) -> Vec<Record> {
    let records = queue.records.iter();
    records
        .map(|record| match given.applied.get(&record.id) {
            Some(found) => confirmed(record, found),
            None => record.clone(),
        })
        .collect()
}

/// Mined there, reason 0, in any state; 4 or 5 becomes its withdrawn mark, and 5 with reason 3
/// mark 3 (document 02, P4).
fn confirmed(record: &Record, found: &Confirmation) -> Record {
    let withdrawn = match (record.state, record.reason) {
        (State::Cancelled, _) => Withdrawn::Cancelled,
        (State::Expired, Reason::RolledBackAfterRelease) => Withdrawn::RolledBackAfterRelease,
        (State::Expired, _) => Withdrawn::Expired,
        _ => record.withdrawn,
    };
    Record {
        state: State::Mined,
        reason: Reason::None,
        mined: Some(*found),
        withdrawn,
        ..record.clone()
    }
}

fn classified(record: &Record, available: bool) -> Record {
    let (state, reason) = if available {
        (State::Queued, Reason::None)
    } else {
        (State::Conflicted, Reason::InputsUnavailable)
    };
    Record {
        state,
        reason,
        ..record.clone()
    }
}

/// What a reconciliation decides of a Mined holder: document 02, P5.
#[derive(Debug, Clone, Copy, PartialEq, Eq)]
pub struct Decision {
    pub id: Id,
    /// Else it is kept.
    pub released: bool,
}

/// "Every Mined holder, kept or released, exactly once", after `applied` was entered: by (mined
/// height, id), highest first, counting all seen. Released are those whose depth is at least the
/// window, or before which P were seen, or with which the bytes so far exceed B.
pub fn decisions(queue: &Queue, given: &Reconciliation) -> Vec<Decision> {
    let entered = entered(queue, given);
    let mut mined: Vec<(Height, Id, usize)> = entered
        .iter()
        .filter(|record| record.is_mined_holder())
        .filter_map(|record| Some((record.mined?.height, record.id, record.byte_count())))
        .collect();
    mined.sort_by(|a, b| b.cmp(a));
    let limits = &queue.limits;
    let mut bytes = 0;
    let decide = |(seen, (height, id, count)): (usize, (Height, Id, usize))| {
        bytes += count;
        let deep = given.height.0.saturating_sub(height.0) >= given.window;
        let released = deep || seen >= limits.pending as usize || bytes > limits.bytes as usize;
        Decision { id, released }
    };
    mined.into_iter().enumerate().map(decide).collect()
}

/// Reopening: each Mined record of these loses height and block. None is Mined: kind 0.
pub fn reopen(queue: &Queue, ids: &[Id]) -> Change<()> {
    let mut next = queue.clone();
    for record in &mut next.records {
        if record.state == State::Mined && ids.contains(&record.id) {
            reopen_record(record);
        }
    }
    if next.records == queue.records {
        return unchanged(queue, ());
    }
    whole_write(next, ())
}

fn reopen_record(record: &mut Record) {
    let (state, reason) = match (record.withdrawn, &record.holder) {
        (Withdrawn::Cancelled, _) => (State::Cancelled, Reason::Cancelled),
        (Withdrawn::Expired, _) => (State::Expired, Reason::DeadlineElapsed),
        (Withdrawn::RolledBackAfterRelease, _) => (State::Expired, Reason::RolledBackAfterRelease),
        (Withdrawn::No, None) => (State::Expired, Reason::RolledBackAfterRelease),
        (Withdrawn::No, Some(_)) => (State::Queued, Reason::RolledBack),
    };
    record.state = state;
    record.reason = reason;
    record.mined = None;
    record.withdrawn = Withdrawn::No;
}

/// Cursor setting: kind 1.
pub fn set_cursor(queue: &Queue, height: Height, tip: Option<Id>) -> Change<()> {
    let mut next = queue.clone();
    next.cursor = height;
    next.tip = tip;
    Change {
        kind: Kind::Memory,
        next,
        answer: (),
    }
}

/// Kind 0: nothing.
fn unchanged<A>(queue: &Queue, answer: A) -> Change<A> {
    Change {
        kind: Kind::Nothing,
        next: queue.clone(),
        answer,
    }
}

/// Kind 2 steps the revision and sets the persisted height to the cursor height.
fn whole_write<A>(mut next: Queue, answer: A) -> Change<A> {
    next.revision = next.revision.wrapping_add(1);
    next.persisted = next.cursor;
    Change {
        kind: Kind::Whole,
        next,
        answer,
    }
}

fn check_counter(queue: &Queue, count: usize) -> Result<(), Refusal> {
    match queue.counter.0.checked_add(count as u64) {
        Some(_) => Ok(()),
        None => Err(COUNTER),
    }
}

/// Adds 1 to the counter, stamps it on the record, drops bytes, inputs, outputs and read ids.
fn finish(queue: &mut Queue, id: &Id) {
    queue.counter.0 += 1;
    let counter = queue.counter;
    if let Some(record) = queue.records.iter_mut().find(|record| record.id == *id) {
        record.finish = counter;
        record.holder = None;
    }
}

fn withdraw(queue: &mut Queue, id: &Id, state: State, reason: Reason) {
    finish(queue, id);
    if let Some(record) = queue.records.iter_mut().find(|record| record.id == *id) {
        record.state = state;
        record.reason = reason;
    }
}

/// Forgets the lowest finish numbers beyond T.
fn forget(queue: &mut Queue) {
    let mut numbers: Vec<FinishNumber> = queue.tombstones().map(|record| record.finish).collect();
    numbers.sort();
    let excess = numbers
        .len()
        .saturating_sub(queue.limits.tombstones as usize);
    let forgotten = &numbers[..excess];
    queue
        .records
        .retain(|record| record.holder.is_some() || !forgotten.contains(&record.finish));
}

/// Queued, deadlines > now and height; priority falling, then created, id rising.
pub fn selection_at(queue: &Queue, now: TimeMs, height: Height) -> Vec<&Record> {
    let mut selected: Vec<&Record> = queue
        .records
        .iter()
        .filter(|record| record.state == State::Queued && !record.is_due(now, height))
        .collect();
    selected.sort_by_key(|record| {
        (
            std::cmp::Reverse(record.priority),
            record.created,
            record.id,
        )
    });
    selected
}

/// The records that expiry would finish, by id.
pub fn due(queue: &Queue, now: TimeMs, height: Height) -> Vec<&Record> {
    queue
        .records
        .iter()
        .filter(|record| record.is_due(now, height))
        .collect()
}

/// Rises, each once. Read ids are not among them.
pub fn reserved_inputs(queue: &Queue) -> BTreeSet<Id> {
    queue
        .records
        .iter()
        .flat_map(|record| record.inputs().iter().copied())
        .collect()
}
