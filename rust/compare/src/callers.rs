//! Document 02, P8: lists with callers and shares. The oracle has neither: [`crate::beside`].

use model::random::Rng;
use model::rules::Admission;
use model::{area, image, Caller, Queue};

use crate::beside::Two;
use crate::counts::Counts;
use crate::generate;
use crate::list::Call;
use crate::run::{put_digits, Difference};
use crate::side::Side;
use crate::unit::Done;

/// What is refused, and what is altered.
pub(crate) fn seen<S: Side>(
    two: &Two<'_, S>,
    queue: &Queue,
    counts: &mut Counts,
) -> Result<(), Difference> {
    refused(two, queue, counts)?;
    altered(two, queue, counts)
}

/// Callers over 15, shares over P, and shares that are not 64 bytes.
fn refused<S: Side>(
    two: &Two<'_, S>,
    queue: &Queue,
    counts: &mut Counts,
) -> Result<(), Difference> {
    let rng = &mut Rng::new(two.seed.wrapping_add(two.at as u64));
    let id = generate::record_id(rng, queue);
    let caller = rng.pick(&[16, 16, 17, 0x80, 0xff]);
    let answer = two.unit.admission_by(&Admission::plain(id), caller);
    let right = two.model.admission_by(&Admission::plain(id), caller);
    two.same("the caller of admit", (caller, answer), (caller, right))?;
    counts.callers.over_15 += u64::from(right == 5);
    let (limits, mut shares) = (queue.limits.numbers(), queue.limits.share_bytes());
    let over = queue.limits.pending + 1;
    let share = rng.pick(&[over - 1, over, over, 1 << 8, 1 << 24, u32::MAX]);
    let place = 4 * rng.below(Caller::COUNT);
    shares[place..place + 4].copy_from_slice(&share.to_be_bytes());
    match rng.below(4) {
        0 => shares.truncate(63),
        1 => shares.push(0),
        _ => {}
    }
    let short = rng.once_in(4);
    let right = two.model.fresh(limits, &shares, short);
    counts.callers.over_p += u64::from(right.0 == 1);
    counts.callers.not_whole += u64::from(right.0 == 5);
    let answer = two.unit.fresh(limits, &shares, short);
    let what = "the shares of fresh";
    two.same(what, (&shares, answer.0), (&shares, right.0))?;
    two.same_area(what, &answer.1, &right.1)
}

/// The area and the image with another caller, or another share.
fn altered<S: Side>(
    two: &Two<'_, S>,
    queue: &Queue,
    counts: &mut Counts,
) -> Result<(), Difference> {
    let rng = &mut Rng::new(two.seed.wrapping_add(two.at as u64));
    let (mut bytes, mut text) = (two.model.area().to_vec(), image::encode(queue));
    if rng.once_in(2) && !queue.records.is_empty() {
        let n = rng.below(queue.records.len());
        let caller = rng.pick(&[0, 1, 15, 16, 16, 0x1f, 0xff]);
        bytes[area::caller_place(queue, n)] = caller;
        put_digits(&mut text, image::caller_place(queue, n), caller);
    } else {
        let caller = Caller(rng.below(Caller::COUNT) as u8);
        let p = queue.limits.pending;
        let share = rng.pick(&[0, p, p + 1, p + 1, 1 << 8, 1 << 16, 1 << 24, u32::MAX]);
        for (at, byte) in share.to_be_bytes().into_iter().enumerate() {
            bytes[area::share_place(caller) + at] = byte;
            put_digits(&mut text, image::share_place(caller) + 2 * at, byte);
        }
    }
    let names = [
        "areas with another caller or share",
        "texts with another caller or share",
    ];
    two.same_altered(&bytes, &text, names, counts)
}

pub(crate) fn count_restart(area: &[u8], fresh: bool, counts: &mut Counts) {
    let shared = area::decode(area);
    let shared = shared.is_some_and(|queue| !queue.limits.is_all_to_caller_0());
    counts.callers.restarted += u64::from(fresh && shared);
}

pub(crate) fn count(call: &Call, before: &Queue, after: &Queue, done: &Done, counts: &mut Counts) {
    let counts = &mut counts.callers;
    match call {
        Call::Admit(given) if done.number == 18 => {
            counts.refused += 1;
            let share = before.limits.shares[usize::from(given.caller.0)];
            counts.used_up += u64::from(share > 0);
        }
        Call::Admit(given) if done.kind == Some(2) && done.number == 100 => {
            counts.admitted += u64::from(given.caller != Caller(0));
            let old = before.record(&given.id);
            counts.replaced += u64::from(old.is_some_and(|old| old.caller != given.caller));
        }
        Call::Reopen(_) => {
            let over = |queue: &Queue, caller: u8| {
                let share = queue.limits.shares[usize::from(caller)];
                queue.pending_of(Caller(caller)).count() > share as usize
            };
            let lifted = |caller: &u8| over(after, *caller) && !over(before, *caller);
            counts.lifted += (0..16).filter(lifted).count() as u64;
        }
        _ => {}
    }
}

#[cfg(test)]
mod tests {
    use model::{Limits, Record};

    use super::*;
    use crate::list::Start;
    use crate::oracle::admitted;

    const ID: [u8; 32] = [1; 32];

    fn limits() -> Limits {
        Limits::checked(2, 10, 1, 1).expect("limits in range")
    }

    /// What the oracle, in a folder of its own, makes of the start and of an admission by this caller.
    fn given(name: &str, limits: Limits, start: Start, caller: u8) -> Result<u64, String> {
        let given = Admission {
            caller: Caller(caller),
            ..Admission::plain(ID)
        };
        admitted(&format!("callers-{name}"), limits, &start, given)
    }

    #[test]
    fn the_oracle_is_given_nothing_but_caller_0_whose_share_is_p() {
        assert_eq!(given("right", limits(), Start::Fresh, 0), Ok(100));
        let other = given("caller", limits(), Start::Fresh, 1);
        assert_eq!(other, Err("the oracle has no callers".into()));
        for shares in [[0; 16], [2; 16]] {
            let shared = limits().shared(shares).expect("shares in range");
            let other = given("shares", shared, Start::Fresh, 0);
            assert_eq!(other, Err("the oracle has no shares".into()));
        }
        let mut queue = Queue::fresh(limits());
        let (state, reason) = (model::State::Cancelled, model::Reason::Cancelled);
        queue.records.push(Record::tombstone(ID, state, reason));
        queue.counter.0 = 1;
        let start = |queue: &Queue| {
            let kind = model::HeaderKind::NEWEST;
            Start::Queue(Box::new(queue.clone()), kind)
        };
        assert_eq!(given("record", limits(), start(&queue), 0), Ok(100));
        queue.records[0].caller = Caller(3);
        let other = given("records", limits(), start(&queue), 0);
        assert_eq!(other, Err("the oracle has no callers".into()));
    }
}
