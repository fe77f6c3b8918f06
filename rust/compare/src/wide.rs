//! Document 02, P13: lists with priorities of 64 bits, of which the oracle has 32 ([`crate::beside`]); and, in
//! every list, texts that are made images of kind 01, which the oracle has not.

use model::random::{self, Rng};
use model::{area, image, Caller, HeaderKind, Queue, Record, Withdrawn};

use crate::beside::Two;
use crate::counts::Counts;
use crate::list::Call;
use crate::run::{put_digits, Difference};
use crate::side::{Model, Side};
use crate::unit::{Done, UNTOUCHED};

/// A text that is given to the converter, and how many bytes are lent for its output.
pub(crate) struct Text {
    pub what: &'static str,
    pub bytes: Vec<u8>,
    pub lent: usize,
    /// What alone is in the way of kind 01.
    cause: Option<Cause>,
}

/// One cause of 22.
#[derive(Debug, Clone, Copy, PartialEq, Eq)]
pub enum Cause {
    /// In a holder, or in a tombstone.
    Priority(Place),
    Caller(Place),
    Shares,
    Mark,
    Reads,
}

#[derive(Debug, Clone, Copy, PartialEq, Eq)]
pub enum Place {
    Holder,
    Tombstone,
}

impl Place {
    fn of(record: &Record) -> Place {
        match record.holder {
            Some(_) => Place::Holder,
            None => Place::Tombstone,
        }
    }
}

impl Text {
    /// By the model: the number, the output, and what stands behind the pointer.
    pub fn right(&self) -> (u64, Vec<u8>, u64) {
        let (mut out, mut length) = (vec![UNTOUCHED; self.lent], UNTOUCHED.into());
        let number = Model.convert(&self.bytes, &mut out, &mut length);
        (number, out, length)
    }

    pub fn count(&self, number: u64, counts: &mut Counts) {
        counts.reading("convert");
        let counts = &mut counts.converted;
        match (number, &self.cause) {
            (100, _) => {
                counts.answered += 1;
                counts.with_records +=
                    u64::from(self.bytes.iter().filter(|b| **b == 10).count() > 1);
            }
            (16, _) if image::decode(&self.bytes).is_some() => counts.older += 1,
            (16, _) => counts.no_image += 1,
            (4, _) => counts.short += 1,
            (22, Some(cause)) => *counts.by(*cause) += 1,
            (22, None) => counts.refused += 1,
            _ => {}
        }
    }
}

/// Outputs are shown as texts.
pub(crate) fn as_texts((number, out, length): (u64, Vec<u8>, u64)) -> (u64, String, u64) {
    (number, String::from_utf8_lossy(&out).into_owned(), length)
}

/// What the converter is given of a queue: its image, with an output of one byte too few, as many as are needed,
/// or more; its image of another kind, or with a byte that is another; what is stored, often of an older kind;
/// what kind 01 can say of it, or that but for one thing, mostly with no output.
pub(crate) fn text(rng: &mut Rng, queue: &Queue, stored: Option<&[u8]>) -> Text {
    let need = image::encode_as(HeaderKind::K01, queue).len();
    let (what, bytes, lent, cause) = match (rng.below(12), stored) {
        (0..=2, _) => {
            let lent = rng.pick(&[need - 1, need, need + 3]);
            ("the image", image::encode(queue), lent, None)
        }
        (3, Some(stored)) => ("what is stored", stored.to_vec(), need, None),
        (3 | 4, _) => {
            let mut wrong = image::encode(queue);
            let at = rng.below(wrong.len());
            wrong[at] = rng.pick(b"0f1\n8A");
            ("the image with another byte", wrong, need, None)
        }
        (5 | 6, _) => {
            let other = image::encode_as(rng.pick(&HeaderKind::ALL), queue);
            ("the image of another kind", other, need, None)
        }
        (7, _) => {
            let old = image::encode(&sayable(queue));
            ("what kind 01 can say", old, need, None)
        }
        _ => {
            let mut old = sayable(queue);
            let cause = spoil(rng, &mut old);
            let lent = if rng.once_in(4) { need } else { 0 };
            let what = "what kind 01 can say but for one thing";
            (what, image::encode(&old), lent, cause)
        }
    };
    Text {
        what,
        bytes,
        lent,
        cause,
    }
}

/// The queue without what kind 01 has not.
pub fn sayable(queue: &Queue) -> Queue {
    let mut queue = queue.clone();
    queue.limits.shares = model::values::all_to_caller_0(queue.limits.pending);
    for record in &mut queue.records {
        record.caller = Caller(0);
        record.priority = i64::from(record.priority as i32);
        if record.withdrawn == Withdrawn::RolledBackAfterRelease {
            record.withdrawn = Withdrawn::Expired;
        }
        if let Some(holder) = &mut record.holder {
            holder.reads.clear();
        }
    }
    queue
}

/// Puts one thing into the queue that kind 01 has not; nothing where there is no record for it.
pub fn spoil(rng: &mut Rng, queue: &mut Queue) -> Option<Cause> {
    let how = rng.below(6);
    if how == 0 {
        let p = queue.limits.pending;
        let at = rng.below(Caller::COUNT);
        let share = &mut queue.limits.shares[at];
        *share = if *share == p { p - 1 } else { 1 };
        return Some(Cause::Shares);
    }
    if queue.records.is_empty() {
        return None;
    }
    let n = rng.below(queue.records.len());
    let record = &mut queue.records[n];
    let place = Place::of(record);
    match (how, &mut record.holder) {
        (1 | 2, _) => {
            record.priority = random::wide_priority(rng);
            Some(Cause::Priority(place))
        }
        (3, _) => {
            record.caller = Caller(rng.pick(&[1, 2, 7, 14, 15]));
            Some(Cause::Caller(place))
        }
        (_, Some(holder)) => {
            // Nobody spends it.
            holder.reads.push([0xfa; 32]);
            Some(Cause::Reads)
        }
        (_, None) if record.mined.is_some() => {
            record.withdrawn = Withdrawn::RolledBackAfterRelease;
            Some(Cause::Mark)
        }
        (_, None) => None,
    }
}

/// Whether the order is another one by fewer bits or without the sign; and what is altered.
pub(crate) fn seen<S: Side>(
    two: &Two<'_, S>,
    queue: &Queue,
    counts: &mut Counts,
) -> Result<(), Difference> {
    let selected = model::rules::selection_at(queue, two.probe.0, two.probe.1);
    let falls = |key: fn(i64) -> i64| {
        let mut pairs = selected.windows(2);
        pairs.all(|two| key(two[0].priority) >= key(two[1].priority))
    };
    counts.wide.by_sign += u64::from(!falls(|priority| priority ^ i64::MIN));
    counts.wide.by_last += u64::from(!falls(|priority| i64::from(priority as i32)));
    counts.wide.by_first += u64::from(!falls(|priority| priority >> 32) || ties(&selected));
    altered(two, queue, counts)
}

/// Two with the same first 32 bits stand one after the other by their last.
fn ties(selected: &[&Record]) -> bool {
    let mut pairs = selected.windows(2);
    pairs.any(|two| {
        let [first, second] = [two[0].priority, two[1].priority];
        first >> 32 == second >> 32 && first != second
    })
}

/// The area and the image with another priority, or with one byte of it another.
fn altered<S: Side>(
    two: &Two<'_, S>,
    queue: &Queue,
    counts: &mut Counts,
) -> Result<(), Difference> {
    // In each list the same draws, so that shorter lists show the same.
    let rng = &mut Rng::new(two.seed);
    if queue.records.is_empty() {
        return Ok(());
    }
    let n = rng.below(queue.records.len());
    let (mut bytes, mut text) = (two.model.area().to_vec(), image::encode(queue));
    let place = area::priority_place(queue, n);
    let digits = image::priority_place(HeaderKind::NEWEST, queue, n);
    let priority = random::wide_priority(rng).to_be_bytes();
    let from = rng.below(8);
    for (at, byte) in priority.into_iter().enumerate().skip(from) {
        bytes[place + at] = byte;
        put_digits(&mut text, digits + 2 * at, byte);
    }
    let names = ["areas with another priority", "texts with another priority"];
    two.same_altered(&bytes, &text, names, counts)
}

pub(crate) fn count(call: &Call, done: &Done, counts: &mut Counts) {
    if let (Call::Admit(given), Some(2), 100) = (call, done.kind, done.number) {
        let wide = !model::frame::is_narrow(given.priority);
        counts.wide.admitted += u64::from(wide);
        counts.wide.beyond += u64::from([1 << 31, -(1 << 31) - 1].contains(&given.priority));
    }
}

#[cfg(test)]
mod tests {
    use model::rules::Admission;
    use model::{Limits, Reason, State};

    use super::*;
    use crate::list::Start;
    use crate::oracle::admitted;

    fn limits() -> Limits {
        Limits::checked(2, 10, 1, 1).expect("limits in range")
    }

    /// What the oracle, in a folder of its own, makes of the start and of an admission with this priority.
    fn given(name: &str, start: Start, priority: i64) -> Result<u64, String> {
        let given = Admission {
            priority,
            ..Admission::plain([2; 32])
        };
        admitted(&format!("wide-{name}"), limits(), &start, given)
    }

    #[test]
    fn the_oracle_is_given_no_priority_outside_32_bits() {
        const END: i64 = 1 << 31;
        let refused = || Err("the oracle has priorities of 32 bits".into());
        for (priority, expected) in [
            (0, Ok(100)),
            (END - 1, Ok(100)),
            (-END, Ok(100)),
            (END, refused()),
            (-END - 1, refused()),
            (i64::MAX, refused()),
            (i64::MIN, refused()),
        ] {
            assert_eq!(given("admission", Start::Fresh, priority), expected);
            let mut queue = Queue::fresh(limits());
            let record = Record::tombstone([1; 32], State::Cancelled, Reason::Cancelled);
            queue.records.push(Record { priority, ..record });
            queue.counter.0 = 1;
            let start = Start::Queue(Box::new(queue), HeaderKind::NEWEST);
            assert_eq!(given("record", start, 0), expected);
        }
    }

    /// Each cause alone makes 22 of what kind 01 can say.
    #[test]
    fn one_thing_is_in_the_way() {
        let (mut causes, mut rng) = (Vec::new(), Rng::new(1));
        for _ in 0..400 {
            let limits = random::small_limits(&mut rng);
            let queue = random::queue(&mut rng, limits);
            let mut old = sayable(&random::with_reads(&mut rng, queue));
            assert!(HeaderKind::K01.can_hold(&old));
            let cause = spoil(&mut rng, &mut old);
            assert_eq!(model::sound::broken_rule(&old), None);
            assert_eq!(HeaderKind::K01.can_hold(&old), cause.is_none());
            if let Some(cause) = cause.filter(|cause| !causes.contains(cause)) {
                causes.push(cause);
            }
        }
        assert_eq!(causes.len(), 7);
    }
}
