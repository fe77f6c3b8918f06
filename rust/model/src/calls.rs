//! The calls as docs/CALLS.md has them: lent bytes, numbers, and one number back. Document 01's
//! order of checks is 1, 16, 3, 2, 5, 6, then each call's own, 15, 4, 17; document 02's 22 comes after 16.

use std::collections::{BTreeMap, BTreeSet};

use crate::rules::{self, Admission, Change, Kind, Reconciliation, ABSENT};
use crate::values::{Caller, Confirmation, Height, Id, Limits, Queue, Record, Shares, TimeMs};
use crate::{area, fees, frame, image, parents, HeaderKind};

pub const LIMIT: u64 = 1;
pub const AREA_SHORT: u64 = 2;
pub const NOT_SOUND: u64 = 3;
pub const OUTPUT_SHORT: u64 = 4;
pub const SHAPE: u64 = 5;
pub const OVER_K: u64 = 6;
pub const NOT_AN_IMAGE: u64 = 16;
pub const FAILED: u64 = 17;
pub const NOT_CONVERTIBLE: u64 = 22;
/// A call was answered; a changing call's kind is added.
pub const ANSWERED: u64 = 100;

/// A refusal as `Err`, else what comes back is `ANSWERED` and the kind.
type Answer = Result<u64, u64>;

fn number(answer: Answer) -> u64 {
    answer.unwrap_or_else(|refusal| refusal)
}

// What is lent.

/// 3: lent queue area not sound.
fn read_area(lent: &[u8]) -> Result<Queue, u64> {
    area::decode(lent).ok_or(NOT_SOUND)
}

/// 3, then 2: area to write shorter than needed.
fn read_current(cur: &[u8], next: &[u8]) -> Result<Queue, u64> {
    let queue = read_area(cur)?;
    check_need(&queue.limits, next)?;
    Ok(queue)
}

fn check_need(limits: &Limits, lent: &[u8]) -> Result<(), u64> {
    if lent.len() < limits.need() {
        return Err(AREA_SHORT);
    }
    Ok(())
}

fn write_area(queue: &Queue, lent: &mut [u8]) {
    let bytes = area::encode(queue);
    lent[..bytes.len()].copy_from_slice(&bytes);
}

/// 4: output shorter than the answer.
fn check_output(answer: &[u8], out: &[u8]) -> Result<(), u64> {
    if out.len() < answer.len() {
        return Err(OUTPUT_SHORT);
    }
    Ok(())
}

fn write_output(answer: &[u8], out: &mut [u8]) -> Answer {
    check_output(answer, out)?;
    out[..answer.len()].copy_from_slice(answer);
    Ok(ANSWERED)
}

/// The last check, 4, then the next area and the output are written.
fn write_change<A>(change: &Change<A>, next: &mut [u8], answer: &[u8], out: &mut [u8]) -> Answer {
    write_output(answer, out)?;
    if change.kind != Kind::Nothing {
        write_area(&change.next, next);
    }
    Ok(ANSWERED + change.kind as u64)
}

// What is given, and refusal 5.

fn read_id(bytes: &[u8]) -> Result<Id, u64> {
    bytes.try_into().map_err(|_| SHAPE)
}

fn read_flag(flag: u8) -> Result<bool, u64> {
    match flag {
        0 => Ok(false),
        1 => Ok(true),
        _ => Err(SHAPE),
    }
}

/// What stands beside a flag of 0 is not looked at.
fn optional<T>(flag: u8, read: impl FnOnce() -> Result<T, u64>) -> Result<Option<T>, u64> {
    match read_flag(flag)? {
        false => Ok(None),
        true => read().map(Some),
    }
}

fn read_caller(number: u8) -> Result<Caller, u64> {
    let caller = Caller(number);
    caller.is_one().then_some(caller).ok_or(SHAPE)
}

/// Sixteen numbers of 4 bytes.
fn read_shares(bytes: &[u8]) -> Result<Shares, u64> {
    let mut reader = frame::Reader::new(bytes);
    let shares = reader.shares().ok_or(SHAPE)?;
    reader.rest().is_empty().then_some(shares).ok_or(SHAPE)
}

fn read_ids(bytes: &[u8]) -> Result<Vec<Id>, u64> {
    if !bytes.len().is_multiple_of(32) {
        return Err(SHAPE);
    }
    bytes.chunks(32).map(read_id).collect()
}

fn read_rising_ids(bytes: &[u8]) -> Result<Vec<Id>, u64> {
    let ids = read_ids(bytes)?;
    check_rising(&ids)?;
    Ok(ids)
}

fn check_rising(ids: &[Id]) -> Result<(), u64> {
    match ids.windows(2).all(|two| two[0] < two[1]) {
        true => Ok(()),
        false => Err(SHAPE),
    }
}

/// Entries of id 32, height 4, block id 32, rising strictly by id.
fn read_applied(bytes: &[u8]) -> Result<BTreeMap<Id, Confirmation>, u64> {
    if !bytes.len().is_multiple_of(68) {
        return Err(SHAPE);
    }
    let mut ids = Vec::new();
    let mut applied = BTreeMap::new();
    for entry in bytes.chunks(68) {
        let (id, found) = entry.split_at(32);
        let id = read_id(id)?;
        let found = frame::Reader::new(found).confirmation().ok_or(SHAPE)?;
        ids.push(id);
        applied.insert(id, found);
    }
    check_rising(&ids)?;
    Ok(applied)
}

// Answers.

/// An entry: a record frame's fields from the id to the confirmation, then the inputs and the read ids.
pub fn entry_bytes(record: &Record) -> Vec<u8> {
    let mut bytes = Vec::new();
    frame::put_head(&mut bytes, HeaderKind::NEWEST, record);
    frame::put_list(&mut bytes, record.inputs());
    frame::put_list(&mut bytes, record.reads());
    bytes
}

/// A count of 4 bytes and as many ids.
pub fn ids_bytes<'a>(ids: impl IntoIterator<Item = &'a Id>) -> Vec<u8> {
    let ids: Vec<&Id> = ids.into_iter().collect();
    let mut bytes = count_bytes(ids.len());
    bytes.extend(ids.into_iter().flatten());
    bytes
}

fn count_bytes(count: usize) -> Vec<u8> {
    (count as u32).to_be_bytes().to_vec()
}

// Changing calls.

/// What `pokerbox_admit` is given beside the areas and the output, in its order.
#[derive(Debug, Clone, Copy)]
pub struct AdmitArgs<'a> {
    pub id: &'a [u8],
    pub caller: u8,
    pub inputs: &'a [u8],
    pub outputs: &'a [u8],
    pub reads: &'a [u8],
    pub signed: &'a [u8],
    pub now: u64,
    pub time_flag: u8,
    pub time: u64,
    pub height_flag: u8,
    pub height: u32,
    /// In two's complement.
    pub priority: u64,
    pub label_flag: u8,
    pub label: &'a [u8],
    pub fee: u64,
    pub cost: u64,
    pub tip_height: u32,
    pub tip_flag: u8,
    pub tip: &'a [u8],
}

impl AdmitArgs<'_> {
    fn read(&self) -> Result<Admission, u64> {
        Ok(Admission {
            id: read_id(self.id)?,
            caller: read_caller(self.caller)?,
            inputs: read_ids(self.inputs)?,
            outputs: read_ids(self.outputs)?,
            reads: read_ids(self.reads)?,
            signed: self.signed.to_vec(),
            now: TimeMs(self.now),
            time_deadline: optional(self.time_flag, || Ok(TimeMs(self.time)))?,
            height_deadline: optional(self.height_flag, || Ok(Height(self.height)))?,
            priority: self.priority as i64,
            label: optional(self.label_flag, || Ok(self.label.to_vec()))?,
            fee: self.fee,
            cost: self.cost,
            tip_height: Height(self.tip_height),
            tip: optional(self.tip_flag, || read_id(self.tip))?,
        })
    }
}

pub fn admit(cur: &[u8], next: &mut [u8], args: &AdmitArgs<'_>, out: &mut [u8]) -> u64 {
    number(try_admit(cur, next, args, out))
}

fn try_admit(cur: &[u8], next: &mut [u8], args: &AdmitArgs<'_>, out: &mut [u8]) -> Answer {
    let queue = read_current(cur, next)?;
    let given = args.read()?;
    let k = queue.limits.inputs as usize;
    let lists = [&given.inputs, &given.outputs, &given.reads];
    if lists.iter().any(|list| list.len() > k) {
        return Err(OVER_K);
    }
    let change = rules::admit(&queue, &given)?;
    write_change(&change, next, &entry_bytes(&change.answer), out)
}

pub fn cancel(cur: &[u8], next: &mut [u8], id: &[u8], out: &mut [u8]) -> u64 {
    number(try_cancel(cur, next, id, out))
}

fn try_cancel(cur: &[u8], next: &mut [u8], id: &[u8], out: &mut [u8]) -> Answer {
    let queue = read_current(cur, next)?;
    let id = read_id(id)?;
    let change = rules::cancel(&queue, &id)?;
    write_change(&change, next, &entry_bytes(&change.answer), out)
}

pub fn expire(cur: &[u8], next: &mut [u8], now: u64, height: u32, out: &mut [u8]) -> u64 {
    number(try_expire(cur, next, now, height, out))
}

fn try_expire(cur: &[u8], next: &mut [u8], now: u64, height: u32, out: &mut [u8]) -> Answer {
    let queue = read_current(cur, next)?;
    let change = rules::expire(&queue, TimeMs(now), Height(height))?;
    write_change(&change, next, &ids_bytes(&change.answer), out)
}

/// What `pokerbox_reconcile` is given beside the areas and the output, in its order.
#[derive(Debug, Clone, Copy)]
pub struct ReconcileArgs<'a> {
    pub height: u32,
    pub tip: &'a [u8],
    pub applied: &'a [u8],
    pub caught_up: u8,
    pub available: &'a [u8],
    pub window: u32,
}

impl ReconcileArgs<'_> {
    fn read(&self) -> Result<Reconciliation, u64> {
        let available: BTreeSet<Id> = read_rising_ids(self.available)?.into_iter().collect();
        Ok(Reconciliation {
            height: Height(self.height),
            tip: read_id(self.tip)?,
            applied: read_applied(self.applied)?,
            caught_up: read_flag(self.caught_up)?,
            available,
            window: self.window,
        })
    }
}

pub fn reconcile(cur: &[u8], next: &mut [u8], args: &ReconcileArgs<'_>, out: &mut [u8]) -> u64 {
    number(try_reconcile(cur, next, args, out))
}

fn try_reconcile(cur: &[u8], next: &mut [u8], args: &ReconcileArgs<'_>, out: &mut [u8]) -> Answer {
    let queue = read_current(cur, next)?;
    let given = args.read()?;
    let change = rules::reconcile(&queue, &given)?;
    let mut answer = vec![u8::from(change.answer.changed)];
    answer.extend(ids_bytes(&change.answer.released));
    write_change(&change, next, &answer, out)
}

pub fn reopen(cur: &[u8], next: &mut [u8], ids: &[u8]) -> u64 {
    number(try_reopen(cur, next, ids))
}

fn try_reopen(cur: &[u8], next: &mut [u8], ids: &[u8]) -> Answer {
    let queue = read_current(cur, next)?;
    let ids = read_rising_ids(ids)?;
    let change = rules::reopen(&queue, &ids);
    write_change(&change, next, &[], &mut [])
}

pub fn set_cursor(cur: &[u8], next: &mut [u8], height: u32, tip_flag: u8, tip: &[u8]) -> u64 {
    number(try_set_cursor(cur, next, height, tip_flag, tip))
}

fn try_set_cursor(cur: &[u8], next: &mut [u8], height: u32, tip_flag: u8, tip: &[u8]) -> Answer {
    let queue = read_current(cur, next)?;
    let tip = optional(tip_flag, || read_id(tip))?;
    let change = rules::set_cursor(&queue, Height(height), tip);
    write_change(&change, next, &[], &mut [])
}

// Settling, the image and the fresh queue.

pub fn fresh(
    pending: u64,
    bytes: u64,
    tombstones: u64,
    inputs: u64,
    shares: &[u8],
    lent: &mut [u8],
) -> u64 {
    let limits = Limits::checked(pending, bytes, tombstones, inputs);
    number(try_fresh(limits, shares, lent))
}

/// 1, 2, then 5; of shares that are not 64 bytes none is read.
fn try_fresh(limits: Option<Limits>, shares: &[u8], lent: &mut [u8]) -> Answer {
    let limits = limits.ok_or(LIMIT)?;
    let limits = match read_shares(shares) {
        Ok(shares) => limits.shared(shares).ok_or(LIMIT)?,
        Err(shape) => {
            check_need(&limits, lent)?;
            return Err(shape);
        }
    };
    put_queue(&Queue::fresh(limits), lent)
}

fn put_queue(queue: &Queue, lent: &mut [u8]) -> Answer {
    check_need(&queue.limits, lent)?;
    write_area(queue, lent);
    Ok(ANSWERED)
}

pub fn sound(lent: &[u8]) -> u64 {
    number(read_area(lent).map(|_| ANSWERED))
}

pub fn settle(cur: &[u8], next: &mut [u8], kind: u64, outcome: u64) -> u64 {
    number(try_settle(cur, next, kind, outcome))
}

fn try_settle(cur: &[u8], next: &mut [u8], kind: u64, outcome: u64) -> Answer {
    let current = read_area(cur)?;
    if (kind, outcome) == (2, 1) {
        check_need(&current.limits, next)?;
        write_area(&current, next);
        return Err(FAILED);
    }
    let mut queue = read_area(next)?;
    match (kind, outcome) {
        (2 | 3, 0) => Ok(ANSWERED),
        (3, 1) => {
            queue.persisted = current.persisted;
            write_area(&queue, next);
            Err(FAILED)
        }
        _ => Err(SHAPE),
    }
}

pub fn need(pending: u64, bytes: u64, tombstones: u64, inputs: u64, value: &mut u64) -> u64 {
    let Some(limits) = Limits::checked(pending, bytes, tombstones, inputs) else {
        return LIMIT;
    };
    *value = limits.need() as u64;
    ANSWERED
}

pub fn image_limits(
    text: &[u8],
    pending: &mut u64,
    bytes: &mut u64,
    tombstones: &mut u64,
    inputs: &mut u64,
    shares: &mut [u8],
    need: &mut u64,
) -> u64 {
    let Some(queue) = image::decode(text) else {
        return NOT_AN_IMAGE;
    };
    if let Err(short) = write_output(&queue.limits.share_bytes(), shares) {
        return short;
    }
    [*pending, *bytes, *tombstones, *inputs] = queue.limits.numbers();
    *need = queue.limits.need() as u64;
    ANSWERED
}

pub fn image(lent: &[u8], out: &mut [u8], length: &mut u64) -> u64 {
    number(try_image(lent, out, length))
}

fn try_image(lent: &[u8], out: &mut [u8], length: &mut u64) -> Answer {
    let text = image::encode(&read_area(lent)?);
    write_output(&text, out)?;
    *length = text.len() as u64;
    Ok(ANSWERED)
}

/// 16, 22, then 4.
pub fn convert(text: &[u8], out: &mut [u8], length: &mut u64) -> u64 {
    number(try_convert(text, out, length))
}

fn try_convert(text: &[u8], out: &mut [u8], length: &mut u64) -> Answer {
    let queue = image::decode_as(HeaderKind::K06, text).ok_or(NOT_AN_IMAGE)?;
    if !HeaderKind::K01.can_hold(&queue) {
        return Err(NOT_CONVERTIBLE);
    }
    let older = image::encode_as(HeaderKind::K01, &queue);
    write_output(&older, out)?;
    *length = older.len() as u64;
    Ok(ANSWERED)
}

pub fn open(text: &[u8], lent: &mut [u8]) -> u64 {
    let Some(queue) = image::decode(text) else {
        return NOT_AN_IMAGE;
    };
    number(put_queue(&queue, lent))
}

// Reading calls.

fn read_value(lent: &[u8], value: &mut u64, read: impl FnOnce(&Queue) -> u64) -> u64 {
    number(read_area(lent).map(|queue| {
        *value = read(&queue);
        ANSWERED
    }))
}

fn read_bytes(lent: &[u8], out: &mut [u8], read: impl FnOnce(&Queue) -> Vec<u8>) -> u64 {
    number(read_area(lent).and_then(|queue| write_output(&read(&queue), out)))
}

pub fn revision(lent: &[u8], value: &mut u64) -> u64 {
    read_value(lent, value, |queue| queue.revision)
}

pub fn is_empty(lent: &[u8], value: &mut u64) -> u64 {
    read_value(lent, value, |queue| u64::from(queue.records.is_empty()))
}

pub fn deadline_due(lent: &[u8], now: u64, height: u32, value: &mut u64) -> u64 {
    read_value(lent, value, |queue| {
        u64::from(!rules::due(queue, TimeMs(now), Height(height)).is_empty())
    })
}

pub fn observed_height(lent: &[u8], value: &mut u64) -> u64 {
    read_value(lent, value, |queue| u64::from(queue.cursor.0))
}

pub fn observation_cursor(lent: &[u8], out: &mut [u8]) -> u64 {
    read_bytes(lent, out, |queue| {
        let mut bytes = Vec::new();
        frame::put_cursor(&mut bytes, queue);
        bytes
    })
}

pub fn record_ids(lent: &[u8], out: &mut [u8]) -> u64 {
    read_bytes(lent, out, |queue| {
        ids_bytes(queue.records.iter().map(|record| &record.id))
    })
}

fn guarded_ids_bytes(queue: &Queue) -> Vec<u8> {
    ids_bytes(queue.holders().map(|record| &record.id))
}

fn reserved_inputs_bytes(queue: &Queue) -> Vec<u8> {
    ids_bytes(&rules::reserved_inputs(queue))
}

pub fn guarded_ids(lent: &[u8], out: &mut [u8]) -> u64 {
    read_bytes(lent, out, guarded_ids_bytes)
}

pub fn reserved_inputs(lent: &[u8], out: &mut [u8]) -> u64 {
    read_bytes(lent, out, reserved_inputs_bytes)
}

pub fn reservation_snapshot(lent: &[u8], out: &mut [u8]) -> u64 {
    read_bytes(lent, out, |queue| {
        let mut bytes = queue.revision.to_be_bytes().to_vec();
        bytes.extend(reserved_inputs_bytes(queue));
        bytes
    })
}

pub fn guard_snapshot(lent: &[u8], out: &mut [u8]) -> u64 {
    read_bytes(lent, out, |queue| {
        let mut bytes = guarded_ids_bytes(queue);
        bytes.extend(reserved_inputs_bytes(queue));
        bytes
    })
}

pub fn list(lent: &[u8], out: &mut [u8]) -> u64 {
    read_bytes(lent, out, |queue| {
        let mut bytes = count_bytes(queue.records.len());
        bytes.extend(queue.records.iter().flat_map(entry_bytes));
        bytes
    })
}

pub fn entry(lent: &[u8], id: &[u8], out: &mut [u8]) -> u64 {
    number(try_entry(lent, id, out))
}

fn try_entry(lent: &[u8], id: &[u8], out: &mut [u8]) -> Answer {
    let queue = read_area(lent)?;
    let id = read_id(id)?;
    let record = queue.record(&id).ok_or(ABSENT)?;
    write_output(&entry_bytes(record), out)
}

pub fn signed_bytes(lent: &[u8], id: &[u8], start: &mut u64, length: &mut u64) -> u64 {
    number(try_signed_bytes(lent, id, start, length))
}

fn try_signed_bytes(lent: &[u8], id: &[u8], start: &mut u64, length: &mut u64) -> Answer {
    let queue = read_area(lent)?;
    let id = read_id(id)?;
    let place = area::signed_bytes_place(&queue, &id).ok_or(ABSENT)?;
    *start = place.0 as u64;
    *length = place.1 as u64;
    Ok(ANSWERED)
}

pub fn selection_entries(lent: &[u8], out: &mut [u8]) -> u64 {
    selection_entries_at(lent, 0, 0, out)
}

pub fn selection_entries_at(lent: &[u8], now: u64, height: u32, out: &mut [u8]) -> u64 {
    read_bytes(lent, out, |queue| {
        let selected = rules::selection_at(queue, TimeMs(now), Height(height));
        ids_bytes(selected.into_iter().map(|record| &record.id))
    })
}

pub fn selection_parents_first(lent: &[u8], now: u64, height: u32, out: &mut [u8]) -> u64 {
    read_bytes(lent, out, |queue| {
        let listed = parents::parents_first(queue, TimeMs(now), Height(height));
        ids_bytes(listed.into_iter().map(|record| &record.id))
    })
}

/// Fee 8, nodes 4, distance 8, then ids.
pub fn best_fees(
    lent: &[u8],
    limit: u64,
    budget: u64,
    now: u64,
    height: u32,
    out: &mut [u8],
) -> u64 {
    number(try_best_fees(lent, limit, budget, now, height, out))
}

fn try_best_fees(
    lent: &[u8],
    limit: u64,
    budget: u64,
    now: u64,
    height: u32,
    out: &mut [u8],
) -> Answer {
    let queue = read_area(lent)?;
    if !(1..=fees::MAX_BUDGET).contains(&budget) {
        return Err(SHAPE);
    }
    let best = fees::best_fees(&queue, limit, budget, TimeMs(now), Height(height))?;
    let mut answer = best.fee.to_be_bytes().to_vec();
    answer.extend(best.nodes.to_be_bytes());
    answer.extend(best.distance.to_be_bytes());
    answer.extend(ids_bytes(&best.ids));
    write_output(&answer, out)
}

pub fn due(lent: &[u8], now: u64, height: u32, out: &mut [u8]) -> u64 {
    read_bytes(lent, out, |queue| {
        let due = rules::due(queue, TimeMs(now), Height(height));
        let mut bytes = count_bytes(due.len());
        for record in due {
            bytes.extend(record.id);
            bytes.push(record.state as u8);
        }
        bytes
    })
}

pub fn confirmations(lent: &[u8], out: &mut [u8]) -> u64 {
    read_bytes(lent, out, |queue| {
        let confirmed: Vec<(Id, Confirmation)> = queue
            .records
            .iter()
            .filter_map(|record| Some((record.id, record.mined?)))
            .collect();
        let mut bytes = count_bytes(confirmed.len());
        for (id, found) in confirmed {
            bytes.extend(id);
            bytes.extend(found.height.0.to_be_bytes());
            bytes.extend(found.block);
        }
        bytes
    })
}
