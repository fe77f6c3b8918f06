//! Random values for tests: small numbers and small sets of ids, so that edges are met often.

use std::collections::BTreeSet;

use crate::fees::{MAX_BUDGET, MAX_CANDIDATES};
use crate::rules::selection_at;
use crate::sound::is_sound;
use crate::values::{
    Caller, Confirmation, FinishNumber, Height, Holder, Id, Limits, Queue, Reason, Record, Shares,
    State, TimeMs, Withdrawn,
};

/// A pseudo-random generator (SplitMix64).
#[derive(Debug, Clone)]
pub struct Rng(u64);

impl Rng {
    pub fn new(seed: u64) -> Self {
        Self(seed)
    }

    pub fn u64(&mut self) -> u64 {
        self.0 = self.0.wrapping_add(0x9e37_79b9_7f4a_7c15);
        let mut z = self.0;
        z = (z ^ (z >> 30)).wrapping_mul(0xbf58_476d_1ce4_e5b9);
        z = (z ^ (z >> 27)).wrapping_mul(0x94d0_49bb_1331_11eb);
        z ^ (z >> 31)
    }

    /// From 0 to `bound` - 1; 0 for a bound of 0.
    pub fn below(&mut self, bound: usize) -> usize {
        (self.u64() % (bound.max(1) as u64)) as usize
    }

    /// From 0 to `top`.
    pub fn up_to(&mut self, top: usize) -> usize {
        self.below(top + 1)
    }

    /// True once in `of` times.
    pub fn once_in(&mut self, of: usize) -> bool {
        self.below(of) == 0
    }

    pub fn pick<T: Copy>(&mut self, from: &[T]) -> T {
        from[self.below(from.len())]
    }

    pub fn bytes(&mut self, length: usize) -> Vec<u8> {
        (0..length).map(|_| self.u64() as u8).collect()
    }

    pub fn optional<T>(&mut self, make: impl FnOnce(&mut Self) -> T) -> Option<T> {
        if self.once_in(2) {
            Some(make(self))
        } else {
            None
        }
    }
}

/// The `n`-th id of a set. Some differ in the first byte alone, some in the last ones alone.
pub fn nth_id(n: usize) -> Id {
    let mut id = [0x80; 32];
    id[0] = (n % 3) as u8 * 0x7f;
    id[28..].copy_from_slice(&(n as u32 / 3).to_be_bytes());
    id
}

/// An id for a transaction: of a set not much larger than the queue.
pub fn tx_id(rng: &mut Rng, limits: &Limits) -> Id {
    nth_id(rng.below(tx_id_count(limits)))
}

fn tx_id_count(limits: &Limits) -> usize {
    (2 * limits.pending + limits.tombstones + 2) as usize
}

/// An id for an input or an output.
pub fn box_id(rng: &mut Rng, limits: &Limits) -> Id {
    nth_id(rng.below(box_id_count(limits)))
}

fn box_id_count(limits: &Limits) -> usize {
    (2 * limits.pending * limits.inputs + 3) as usize
}

/// At most K ids for inputs or outputs.
pub fn box_ids(rng: &mut Rng, limits: &Limits) -> Vec<Id> {
    let count = rng.up_to(limits.inputs as usize);
    (0..count).map(|_| box_id(rng, limits)).collect()
}

pub fn block_id(rng: &mut Rng) -> Id {
    nth_id(rng.below(3))
}

/// All to caller 0.
pub fn small_limits(rng: &mut Rng) -> Limits {
    limits([
        1 + rng.below(3),
        rng.pick(&[1, 2, 5, 10]),
        1 + rng.below(3),
        1 + rng.below(3),
    ])
}

/// P, B, T and K in range, all to caller 0.
fn limits(numbers: [usize; 4]) -> Limits {
    let [p, b, t, k] = numbers.map(|limit| limit as u64);
    Limits::checked(p, b, t, k).expect("limits in range")
}

/// A share for each caller, from 0 to P: often the edges.
pub fn shares(rng: &mut Rng, limits: &Limits) -> Shares {
    let top = limits.pending;
    let mut shares = [0; Caller::COUNT];
    for share in &mut shares {
        *share = match rng.below(4) {
            0 => 0,
            1 => top,
            _ => rng.up_to(top as usize) as u32,
        };
    }
    shares
}

/// A caller: of few, so that one has several records, and often the last.
pub fn caller(rng: &mut Rng) -> Caller {
    Caller(rng.pick(&[0, 0, 1, 1, 2, 7, 14, 15, 15]))
}

/// The queue with other shares, and with a caller for each record.
pub fn with_callers(rng: &mut Rng, mut queue: Queue) -> Queue {
    queue.limits.shares = shares(rng, &queue.limits);
    for record in &mut queue.records {
        record.caller = caller(rng);
    }
    debug_assert!(is_sound(&queue));
    queue
}

/// The queue with read ids: some inputs only read, and others read besides.
pub fn with_reads(rng: &mut Rng, mut queue: Queue) -> Queue {
    if rng.once_in(2) {
        queue = inputs_read(rng, queue);
    }
    for n in 0..queue.records.len() {
        let more = free_reads(rng, &queue, n);
        if let Some(holder) = &mut queue.records[n].holder {
            let room = queue.limits.inputs as usize - holder.reads.len();
            holder.reads.extend(more.into_iter().take(room));
        }
    }
    debug_assert!(is_sound(&queue));
    queue
}

/// The queue with some of its inputs read and not spent.
pub fn inputs_read(rng: &mut Rng, mut queue: Queue) -> Queue {
    let mask = rng.u64();
    let is_read = |id: &Id| mask >> ((id[0] ^ id[31]) % 64) & 1 == 1;
    let holders = queue.records.iter_mut();
    for holder in holders.filter_map(|record| record.holder.as_mut()) {
        let inputs = std::mem::take(&mut holder.inputs).into_iter();
        let (read, spent): (Vec<Id>, Vec<Id>) = inputs.partition(is_read);
        (holder.inputs, holder.reads) = (spent, read);
    }
    debug_assert!(is_sound(&queue));
    queue
}

/// At most K ids that no record but the `n`-th spends: its own inputs and outputs, what others read or
/// have as outputs, one again, or any.
pub fn free_reads(rng: &mut Rng, queue: &Queue, n: usize) -> Vec<Id> {
    let own = &queue.records[n];
    let others = || queue.records.iter().filter(|other| other.id != own.id);
    let ids = |of: fn(&Record) -> &[Id]| -> Vec<Id> { others().flat_map(of).copied().collect() };
    let (spent, read, made) = (
        ids(Record::inputs),
        ids(Record::reads),
        ids(Record::outputs),
    );
    let mut reads = Vec::new();
    for _ in 0..rng.up_to(queue.limits.inputs as usize) {
        let any = [box_id(rng, &queue.limits)];
        let from = match rng.below(8) {
            0 => own.inputs(),
            1 => own.outputs(),
            2 | 3 => &read[..],
            4 | 5 => &made[..],
            6 => &reads.clone()[..],
            _ => &any[..],
        };
        let from = if from.is_empty() { &any[..] } else { from };
        let id = rng.pick(from);
        if !spent.contains(&id) {
            reads.push(id);
        }
    }
    reads
}

pub fn time(rng: &mut Rng) -> TimeMs {
    TimeMs(match rng.below(8) {
        0 => 0,
        1 => u64::MAX,
        _ => rng.below(10) as u64,
    })
}

pub fn height(rng: &mut Rng) -> Height {
    Height(match rng.below(12) {
        0 => 0,
        1 => u32::MAX,
        2 => u32::MAX - rng.below(40) as u32,
        3..=6 => 30 + rng.below(10) as u32,
        _ => rng.below(10) as u32,
    })
}

/// The ends of 32 bits.
const NARROW: [i64; 2] = [i32::MIN as i64, i32::MAX as i64];
/// Priorities that meet the ends of 32 bits.
const EDGES: [i64; 5] = [NARROW[0], -1, 0, 1, NARROW[1]];
/// Those that 32 bits have not: around their ends, around the ends of 64, such whose last 32 bits are a
/// small number or one of another sign, and times in milliseconds.
const WIDE: [i64; 15] = [
    NARROW[0] - 1,
    NARROW[1] + 1,
    i64::MIN,
    i64::MIN + 1,
    i64::MAX,
    i64::MAX - 1,
    1 << 32,
    (1 << 32) - 1,
    (1 << 32) + 1,
    -(1 << 32),
    -(1 << 32) - 1,
    1 << 62,
    1_700_000_000_000,
    1_700_000_000_001,
    -1_700_000_000_000,
];

/// One of 32 bits: often an end of them, 0 or -1.
pub fn priority(rng: &mut Rng) -> i64 {
    rng.pick(&[0, 0, 1, -1, NARROW[1], NARROW[0]])
}

/// One that 32 bits have not.
pub fn wide_priority(rng: &mut Rng) -> i64 {
    rng.pick(&WIDE)
}

/// The queue with other priorities: of all records, or of one alone.
pub fn with_wide(rng: &mut Rng, mut queue: Queue) -> Queue {
    let only = rng.once_in(2).then(|| rng.below(queue.records.len()));
    for (n, record) in queue.records.iter_mut().enumerate() {
        if only.is_none_or(|only| only == n) && (only.is_some() || !rng.once_in(4)) {
            record.priority = wide_priority(rng);
        }
    }
    debug_assert!(is_sound(&queue));
    queue
}

/// A label in UTF-8, rarely a long one.
pub fn label(rng: &mut Rng) -> Vec<u8> {
    let length = match rng.below(10) {
        0 => 200,
        1 => 199,
        _ => rng.below(4),
    };
    vec![b'a' + rng.below(26) as u8; length]
}

/// Any sound queue under these limits, reachable by calls or not, with records of caller 0 alone.
pub fn queue(rng: &mut Rng, limits: Limits) -> Queue {
    let mut queue = Queue {
        limits,
        persisted: height(rng),
        revision: rng.pick(&[0, 1, 7, u64::MAX - 1, u64::MAX]),
        cursor: height(rng),
        tip: rng.optional(block_id),
        counter: FinishNumber(0),
        records: Vec::new(),
    };
    let mut room = Room::new(&limits);
    let density = rng.below(4);
    for n in 0..tx_id_count(&limits) {
        if rng.below(4) <= density {
            queue.records.extend(room.record(rng, nth_id(n)));
        }
    }
    queue.records.sort_by_key(|record| record.id);
    number_tombstones(rng, &mut queue);
    debug_assert!(is_sound(&queue));
    queue
}

/// What the limits still allow.
struct Room {
    limits: Limits,
    holders: usize,
    holder_bytes: usize,
    mined: usize,
    mined_bytes: usize,
    tombstones: usize,
    inputs: Vec<Id>,
}

impl Room {
    fn new(limits: &Limits) -> Self {
        Self {
            limits: *limits,
            holders: 2 * limits.pending as usize,
            holder_bytes: 2 * limits.bytes as usize,
            mined: limits.pending as usize,
            mined_bytes: limits.bytes as usize,
            tombstones: limits.tombstones as usize,
            inputs: (0..box_id_count(limits)).map(nth_id).collect(),
        }
    }

    /// A record of a random state; nothing where the limits do not allow one.
    fn record(&mut self, rng: &mut Rng, id: Id) -> Option<Record> {
        let state = rng.pick(&[
            State::Queued,
            State::Queued,
            State::Mined,
            State::Conflicted,
            State::Cancelled,
            State::Expired,
        ]);
        let holds = state.is_pending() || (state == State::Mined && rng.once_in(2));
        let holder = if holds {
            Some(self.holder(rng, state)?)
        } else {
            self.tombstones = self.tombstones.checked_sub(1)?;
            None
        };
        Some(self.filled(rng, id, state, holder))
    }

    fn holder(&mut self, rng: &mut Rng, state: State) -> Option<Holder> {
        let mined = state == State::Mined;
        if mined {
            self.mined = self.mined.checked_sub(1)?;
        }
        self.holders = self.holders.checked_sub(1)?;
        let room = if mined {
            self.mined_bytes.min(self.holder_bytes)
        } else {
            self.holder_bytes
        };
        // Half of them so small that many have some bytes.
        let share = (2 * self.limits.bytes / self.limits.pending) as usize;
        let count = if rng.once_in(2) {
            rng.up_to(room)
        } else {
            rng.up_to(room.min(share))
        };
        self.holder_bytes -= count;
        if mined {
            self.mined_bytes -= count;
        }
        Some(Holder {
            inputs: self.take_inputs(rng),
            outputs: box_ids(rng, &self.limits),
            reads: Vec::new(),
            bytes: rng.bytes(count),
        })
    }

    /// At most K inputs that no other record has; one may be repeated.
    fn take_inputs(&mut self, rng: &mut Rng) -> Vec<Id> {
        let mut inputs: Vec<Id> = Vec::new();
        for _ in 0..rng.up_to(self.limits.inputs as usize) {
            if !inputs.is_empty() && rng.once_in(4) {
                inputs.push(rng.pick(&inputs.clone()));
            } else if !self.inputs.is_empty() {
                let at = rng.below(self.inputs.len());
                inputs.push(self.inputs.swap_remove(at));
            }
        }
        inputs
    }

    fn filled(&self, rng: &mut Rng, id: Id, state: State, holder: Option<Holder>) -> Record {
        let reason = match state {
            State::Queued => rng.pick(&[Reason::None, Reason::RolledBack]),
            State::Conflicted => Reason::InputsUnavailable,
            State::Mined => Reason::None,
            State::Cancelled => Reason::Cancelled,
            State::Expired => rng.pick(&[Reason::DeadlineElapsed, Reason::RolledBackAfterRelease]),
        };
        let withdrawn = match (state, &holder) {
            (State::Mined, None) => rng.pick(&Withdrawn::ALL),
            _ => Withdrawn::No,
        };
        let size = match &holder {
            Some(holder) => holder.bytes.len() as u32,
            None => rng.pick(&[0, 3, u32::MAX]),
        };
        Record {
            id,
            caller: Caller(0),
            state,
            reason,
            created: time(rng),
            time_deadline: rng.optional(time),
            height_deadline: rng.optional(height),
            priority: priority(rng),
            label: rng.optional(label),
            fee: rng.pick(&[0, 7, u64::MAX]),
            size,
            cost: rng.pick(&[0, 9, u64::MAX]),
            mined: (state == State::Mined).then(|| confirmation(rng)),
            withdrawn,
            finish: FinishNumber(0),
            holder,
        }
    }
}

pub fn confirmation(rng: &mut Rng) -> Confirmation {
    Confirmation {
        height: height(rng),
        block: block_id(rng),
    }
}

/// Distinct finish numbers and a counter that is not below them, rarely near the top.
fn number_tombstones(rng: &mut Rng, queue: &mut Queue) {
    let tombstones = queue.tombstones().count() as u64;
    let spare = rng.below(4) as u64;
    let first = if rng.once_in(6) {
        u64::MAX - tombstones - spare
    } else {
        rng.below(3) as u64
    };
    queue.counter = FinishNumber(first + tombstones + rng.up_to(spare as usize) as u64);
    let span = queue.counter.0.min(tombstones + 3);
    let mut used = BTreeSet::from([0]);
    for record in &mut queue.records {
        if record.holder.is_none() {
            let mut number = 0;
            while !used.insert(number) {
                number = queue.counter.0 - rng.below(span as usize) as u64;
            }
            record.finish = FinishNumber(number);
        }
    }
}

/// A sound queue of which every moment selects so many records, and a few that none selects: due
/// already, Conflicted, Mined or finished. Sizes and priorities are small, so that many are equal.
pub fn fees_queue(rng: &mut Rng, selected: usize) -> Queue {
    let others = rng.below(4);
    let count = selected + others;
    let size = rng.pick(&[0, 1, 5, 12]);
    let inputs = 1 + rng.below(2);
    let mut queue = Queue::fresh(limits([1 + count, 1 + count * size, 1 + others, inputs]));
    let mut room = Room::new(&queue.limits);
    let priorities = rng.pick(&[&[4][..], &[0, 1], &EDGES]);
    // Which of the ids are not selected is left to chance.
    let mut ids: Vec<Id> = (0..count).map(nth_id).collect();
    for n in 0..count {
        let at = rng.below(ids.len());
        let id = ids.swap_remove(at);
        let state = if n < selected || rng.once_in(3) {
            State::Queued
        } else {
            rng.pick(&[State::Conflicted, State::Mined, State::Cancelled])
        };
        let holder = (state != State::Cancelled).then(|| Holder {
            inputs: room.take_inputs(rng),
            outputs: box_ids(rng, &queue.limits),
            reads: Vec::new(),
            bytes: vec![n as u8; rng.up_to(size)],
        });
        let mut record = room.filled(rng, id, state, holder);
        record.priority = rng.pick(priorities);
        record.height_deadline = None;
        record.time_deadline = (n >= selected).then_some(TimeMs(0));
        queue.records.push(record);
    }
    queue.records.sort_by_key(|record| record.id);
    number_tombstones(rng, &mut queue);
    put_fees(rng, &mut queue);
    debug_assert!(is_sound(&queue));
    queue
}

/// Gives the selected records other fees, by their places in the order.
fn put_fees(rng: &mut Rng, queue: &mut Queue) {
    let order: Vec<Id> = selection_at(queue, TimeMs(0), Height(0))
        .iter()
        .map(|record| record.id)
        .collect();
    let fees = fees(rng, order.len());
    for record in &mut queue.records {
        if let Some(at) = order.iter().position(|id| *id == record.id) {
            record.fee = fees[at];
        }
    }
}

/// Fees of so many selected records: small ones, equal ones, and sums at the edge of 64 bits.
pub fn fees(rng: &mut Rng, count: usize) -> Vec<u64> {
    let candidates = count.min(MAX_CANDIDATES);
    let mut fees = match rng.below(8) {
        0 => vec![rng.below(3) as u64; count],
        1 => (0..count).map(|_| rng.u64() >> 5).collect(),
        2 | 3 => (0..count).map(|_| rng.below(4) as u64).collect(),
        4 | 5 => (0..count).map(|_| rng.below(1_000) as u64).collect(),
        // The candidates' sum is the top, or 1 more where that can be.
        _ => {
            let mut fees = parts(rng, candidates);
            let more = rng.once_in(2);
            if let (true, Some(fee)) = (more, fees.iter_mut().find(|fee| **fee < u64::MAX)) {
                *fee += 1;
            }
            fees
        }
    };
    // Those behind the candidates have any.
    while fees.len() < count {
        fees.push(rng.pick(&[0, 1, u64::MAX]));
    }
    fees
}

/// So many numbers whose sum is the top of 64 bits.
fn parts(rng: &mut Rng, count: usize) -> Vec<u64> {
    let mut left = u64::MAX;
    let mut parts = Vec::new();
    for n in 0..count {
        let part = match rng.below(4) {
            _ if n + 1 == count => left,
            0 => 0,
            1 => left,
            _ => left / (1 + rng.below(count) as u64),
        };
        left -= part;
        parts.push(part);
    }
    parts
}

/// A byte limit for best fees: what some of the candidates have together, or about that, or far
/// from it.
pub fn fees_limit(rng: &mut Rng, queue: &Queue, now: TimeMs, height: Height) -> u64 {
    let mask = rng.u64();
    let selected = selection_at(queue, now, height);
    let first = selected.iter().take(MAX_CANDIDATES).enumerate();
    let sizes: Vec<(usize, u64)> = first
        .map(|(at, record)| (at, record.byte_count() as u64))
        .collect();
    let some = sizes.iter().filter(|(at, _)| mask >> at & 1 == 1);
    let sum: u64 = some.map(|(_, size)| size).sum();
    let all: u64 = sizes.iter().map(|(_, size)| size).sum();
    match rng.below(12) {
        0 => 0,
        1 => u64::MAX,
        2 => all,
        3 => all.saturating_sub(1),
        // Large, with small last bytes.
        4 => (1 << rng.pick(&[32, 40, 63])) + sum,
        5 => rng.below(8) as u64,
        6 => sum + 1,
        7 => sum.saturating_sub(1),
        _ => sum,
    }
}

/// A budget for best fees: mostly small, rarely the top, rarely out of range.
pub fn fees_budget(rng: &mut Rng) -> u64 {
    match rng.below(40) {
        0 => 0,
        1 => rng.pick(&[MAX_BUDGET + 1, MAX_BUDGET + 1, (1 << 32) + 9, u64::MAX]),
        2 => MAX_BUDGET,
        3 => 1,
        4 => 2,
        5..=9 => 1 + rng.below(3_000) as u64,
        10..=24 => 1 + rng.below(130) as u64,
        _ => 1 + rng.below(40) as u64,
    }
}

/// A sound queue of so many records, at most 2,048, many of which name inputs of others among their
/// outputs: in chains, in rings, two the same one, or one of their own. Some are Mined, Conflicted,
/// finished, or have a deadline.
pub fn parents_queue(rng: &mut Rng, count: usize, inputs: usize) -> Queue {
    let limit = (1 + count).min(Limits::MAX_PENDING as usize);
    let mut queue = Queue::fresh(limits([limit, 1 + count, limit, inputs]));
    let mut room = Room::new(&queue.limits);
    room.inputs.truncate(count * queue.limits.inputs as usize);
    let inputs: Vec<Vec<Id>> = (0..count).map(|_| room.take_inputs(rng)).collect();
    // How often an output is not of a later one, so that rings come about.
    let wild = rng.pick(&[1, 2, 6, usize::MAX]);
    let priorities = rng.pick(&[&[4][..], &[0, 1], &EDGES]);
    let states = rng.pick(&[&[State::Queued][..], &PARENT_STATES]);
    let mut ids: Vec<Id> = (0..count).map(nth_id).collect();
    for n in 0..count {
        let at = rng.below(ids.len());
        let id = ids.swap_remove(at);
        let state = rng.pick(states);
        let holder = (state != State::Cancelled).then(|| Holder {
            inputs: inputs[n].clone(),
            outputs: parents_outputs(rng, &queue.limits, &inputs, n, wild),
            reads: Vec::new(),
            bytes: vec![n as u8; rng.below(2)],
        });
        let mut record = room.filled(rng, id, state, holder);
        record.priority = rng.pick(priorities);
        record.time_deadline = rng.once_in(8).then(|| time(rng));
        record.height_deadline = rng.once_in(8).then(|| height(rng));
        queue.records.push(record);
    }
    queue.records.sort_by_key(|record| record.id);
    number_tombstones(rng, &mut queue);
    debug_assert!(is_sound(&queue));
    queue
}

const PARENT_STATES: [State; 8] = [
    State::Queued,
    State::Queued,
    State::Queued,
    State::Queued,
    State::Queued,
    State::Mined,
    State::Conflicted,
    State::Cancelled,
];

/// At most K outputs of the `n`-th record: mostly inputs of later ones, the next above all; once in
/// `wild` times the one before or any; rarely its own.
fn parents_outputs(
    rng: &mut Rng,
    limits: &Limits,
    inputs: &[Vec<Id>],
    n: usize,
    wild: usize,
) -> Vec<Id> {
    let mut outputs = Vec::new();
    let most = limits.inputs as usize;
    for _ in 0..rng.up_to(most).max(rng.up_to(most)) {
        let child = match rng.below(8) {
            0..=3 if rng.once_in(wild) => n.saturating_sub(1),
            _ if rng.once_in(wild) => rng.below(inputs.len()),
            0 => n,
            1..=4 => n + 1,
            _ => n + 1 + rng.below(inputs.len() - n),
        };
        match inputs.get(child) {
            Some(wanted) if !wanted.is_empty() => outputs.push(rng.pick(wanted)),
            _ => outputs.push(box_id(rng, limits)),
        }
    }
    outputs
}

/// The queue with one value changed; mostly no longer sound.
pub fn altered(rng: &mut Rng, queue: &Queue) -> Queue {
    let mut queue = queue.clone();
    match rng.below(9) {
        0 => queue.limits = altered_limits(rng, queue.limits),
        8 => {
            let share = rng.below(Caller::COUNT);
            let over = queue.limits.pending.saturating_add(1);
            queue.limits.shares[share] = rng.pick(&[0, over, over, u32::MAX]);
        }
        1 => queue.counter = FinishNumber(rng.below(3) as u64),
        2 if !queue.records.is_empty() => {
            let at = rng.below(queue.records.len());
            queue.records.remove(at);
        }
        3 if !queue.records.is_empty() => {
            let copy = queue.records[rng.below(queue.records.len())].clone();
            let at = rng.up_to(queue.records.len());
            queue.records.insert(at, copy);
        }
        4 if queue.records.len() > 1 => {
            let (a, b) = (
                rng.below(queue.records.len()),
                rng.below(queue.records.len()),
            );
            queue.records.swap(a, b);
        }
        _ if !queue.records.is_empty() => {
            let limits = queue.limits;
            let at = rng.below(queue.records.len());
            alter_record(rng, &limits, &mut queue.records[at]);
        }
        _ => {}
    }
    queue
}

/// One limit changed, to a small one or just beyond its range.
fn altered_limits(rng: &mut Rng, mut limits: Limits) -> Limits {
    let (limit, top) = match rng.below(4) {
        0 => (&mut limits.pending, Limits::MAX_PENDING),
        // An area for B beyond its range is large.
        1 if rng.once_in(50) => (&mut limits.bytes, Limits::MAX_BYTES),
        1 => (&mut limits.bytes, 2),
        2 => (&mut limits.tombstones, Limits::MAX_TOMBSTONES),
        _ => (&mut limits.inputs, Limits::MAX_INPUTS),
    };
    *limit = rng.pick(&[0, 1, 2, top + 1]);
    limits
}

fn alter_record(rng: &mut Rng, limits: &Limits, record: &mut Record) {
    match rng.below(13) {
        12 => record.caller = Caller(rng.pick(&[0, 15, 16, 16, u8::MAX])),
        0 => record.id = tx_id(rng, limits),
        1 => record.state = random_state(rng),
        2 => record.reason = random_reason(rng),
        3 => record.mined = rng.optional(confirmation),
        4 => record.withdrawn = rng.pick(&Withdrawn::ALL),
        5 => record.finish = FinishNumber(rng.below(5) as u64),
        6 => record.size = rng.below(5) as u32,
        7 => record.holder = None,
        8 => {
            let length = 198 + rng.below(6);
            record.label = Some(vec![b'x'; length]);
        }
        _ => alter_holder(
            rng,
            limits,
            record.holder.get_or_insert_with(Holder::default),
        ),
    }
}

fn alter_holder(rng: &mut Rng, limits: &Limits, holder: &mut Holder) {
    match rng.below(6) {
        0 => holder.bytes.push(0),
        1 => holder.outputs.push(box_id(rng, limits)),
        2 | 3 => holder.reads.push(box_id(rng, limits)),
        _ => holder.inputs.push(box_id(rng, limits)),
    }
}

fn random_state(rng: &mut Rng) -> State {
    rng.pick(&[
        State::Queued,
        State::Mined,
        State::Conflicted,
        State::Cancelled,
        State::Expired,
    ])
}

fn random_reason(rng: &mut Rng) -> Reason {
    rng.pick(&[
        Reason::None,
        Reason::Cancelled,
        Reason::DeadlineElapsed,
        Reason::RolledBackAfterRelease,
        Reason::RolledBack,
        Reason::InputsUnavailable,
    ])
}

/// Damages bytes: some changed, cut off, added or moved. `used` is the length of the part that
/// says something.
pub fn damage(rng: &mut Rng, bytes: &mut Vec<u8>, used: usize) {
    let used = used.min(bytes.len());
    match rng.below(8) {
        0 => bytes.truncate(rng.below(bytes.len().max(1))),
        1 => bytes.truncate(bytes.len().saturating_sub(1)),
        2 => bytes.push(rng.u64() as u8),
        3 if used > 0 => {
            bytes.remove(rng.below(used));
        }
        4 => bytes.insert(rng.up_to(used), rng.u64() as u8),
        _ if !bytes.is_empty() => change_bytes(rng, bytes, used),
        _ => {}
    }
}

fn change_bytes(rng: &mut Rng, bytes: &mut [u8], used: usize) {
    for _ in 0..1 + rng.below(2) {
        let within = if rng.once_in(6) { bytes.len() } else { used };
        let at = rng.below(within);
        bytes[at] = match rng.below(4) {
            0 => rng.u64() as u8,
            1 => bytes[at].wrapping_add(1),
            2 => bytes[at].wrapping_sub(1),
            _ => bytes[at] ^ 1 << rng.below(8),
        };
    }
}
