//! One pass over the confirmations: what a reconciliation decides of each Mined holder.

use std::collections::{BTreeMap, BTreeSet};

use model::random::{self, Rng};
use model::rules::{decisions, reconcile, Reconciliation, COUNTER};
use model::{
    Caller, Confirmation, FinishNumber, Height, Holder, Id, Limits, Queue, Reason, Record, State,
    TimeMs, Withdrawn,
};

const HEIGHT: Height = Height(60);
/// No confirmation is so deep.
const WIDE: u32 = 100;

fn confirmation(height: u32) -> Confirmation {
    Confirmation {
        height: Height(height),
        block: [7; 32],
    }
}

/// A record of this number with so many signed bytes, Mined at this height.
fn mined(n: u8, height: u32, bytes: usize) -> Record {
    Record {
        id: [n; 32],
        caller: Caller(0),
        state: State::Mined,
        reason: Reason::None,
        created: TimeMs(1),
        time_deadline: None,
        height_deadline: None,
        priority: 0,
        label: None,
        fee: 1,
        size: bytes as u32,
        cost: 1,
        mined: Some(confirmation(height)),
        withdrawn: Withdrawn::No,
        finish: FinishNumber(0),
        holder: Some(Holder {
            bytes: vec![n; bytes],
            ..Holder::default()
        }),
    }
}

fn queued(n: u8, bytes: usize) -> Record {
    Record {
        state: State::Queued,
        mined: None,
        ..mined(n, 0, bytes)
    }
}

fn tombstone(n: u8, height: u32, finish: u64) -> Record {
    Record {
        finish: FinishNumber(finish),
        holder: None,
        ..mined(n, height, 0)
    }
}

/// P 3, B 10, T 2, K 1.
fn queue(records: &[Record]) -> Queue {
    let mut queue = Queue::fresh(Limits::checked(3, 10, 2, 1).expect("limits in range"));
    queue.records.extend_from_slice(records);
    queue.counter = FinishNumber(2);
    assert!(model::sound::is_sound(&queue));
    queue
}

/// At `HEIGHT`, with the records of these numbers found at these heights.
fn given(window: u32, applied: &[(u8, u32)]) -> Reconciliation {
    let found = applied.iter();
    Reconciliation {
        height: HEIGHT,
        tip: [8; 32],
        applied: found
            .map(|(n, height)| ([*n; 32], confirmation(*height)))
            .collect(),
        caught_up: true,
        available: BTreeSet::new(),
        window,
    }
}

/// The numbers of the decided in the order of the walk, and whether they are released.
fn decided(queue: &Queue, given: &Reconciliation) -> Vec<(u8, bool)> {
    let decisions = decisions(queue, given).into_iter();
    decisions
        .map(|decision| (decision.id[0], decision.released))
        .collect()
}

#[test]
fn nothing_to_decide() {
    let queue = queue(&[queued(1, 1), tombstone(2, 50, 1)]);
    assert_eq!(decided(&queue, &given(0, &[])), []);
}

/// By the height first, then by the id, the highest first.
#[test]
fn the_order_of_the_walk() {
    let queue = queue(&[mined(1, 50, 1), mined(2, 51, 1), mined(3, 50, 1)]);
    let kept = [(2, false), (3, false), (1, false)];
    assert_eq!(decided(&queue, &given(WIDE, &[])), kept);
}

/// Also where it was Mined before, at the height where it is now.
#[test]
fn those_confirmed_by_this_call_are_among_them() {
    let queue = queue(&[mined(1, 50, 1), queued(2, 1), queued(3, 1)]);
    let given = given(10, &[(1, 51), (2, 50)]);
    assert_eq!(decided(&queue, &given), [(1, false), (2, true)]);
}

/// Neither one that was there nor one that the call confirms; they count for nothing.
#[test]
fn tombstones_are_not() {
    let mut cancelled = tombstone(4, 0, 2);
    cancelled.state = State::Cancelled;
    cancelled.reason = Reason::Cancelled;
    cancelled.mined = None;
    let three = [mined(1, 50, 1), mined(2, 50, 1), mined(3, 50, 1)];
    let queue = queue(&[&three[..], &[cancelled, tombstone(5, 59, 1)]].concat());
    let kept = [(3, false), (2, false), (1, false)];
    assert_eq!(decided(&queue, &given(WIDE, &[(4, 60)])), kept);
}

#[test]
fn the_walk_goes_on_after_one_released() {
    let queue = queue(&[mined(1, 40, 1), mined(2, 50, 1), mined(3, 51, 1)]);
    let all = [(3, false), (2, true), (1, true)];
    assert_eq!(decided(&queue, &given(10, &[])), all);
}

#[test]
fn the_walk_goes_on_after_p_were_seen() {
    let five: Vec<Record> = (1..=5).map(|n| queued(n, 1)).collect();
    let found: Vec<(u8, u32)> = (1..=5).map(|n| (n, 60)).collect();
    let all = [(5, false), (4, false), (3, false), (2, true), (1, true)];
    assert_eq!(decided(&queue(&five), &given(WIDE, &found)), all);
}

/// The bytes of those released count too: the last one has none of its own.
#[test]
fn the_walk_goes_on_after_b_was_exceeded() {
    let queue = queue(&[queued(1, 0), queued(2, 1), mined(3, 60, 10)]);
    let given = given(WIDE, &[(1, 60), (2, 60)]);
    assert_eq!(decided(&queue, &given), [(3, false), (2, true), (1, true)]);
}

/// 15 goes by those released, not by all that are decided.
#[test]
fn refusal_15_at_the_edge() {
    let mut queue = queue(&[mined(1, 40, 1), mined(2, 50, 1), mined(3, 51, 1)]);
    for (window, released) in [(WIDE, 0), (20, 1), (10, 2), (0, 3)] {
        let given = given(window, &[]);
        queue.counter = FinishNumber(u64::MAX - released);
        assert!(reconcile(&queue, &given).is_ok(), "{released}");
        if released > 0 {
            queue.counter.0 += 1;
            assert_eq!(reconcile(&queue, &given), Err(COUNTER), "{released}");
        }
    }
}

fn reconciliation(rng: &mut Rng, queue: &Queue) -> Reconciliation {
    let often = rng.pick(&[1, 2, 4]);
    let found = queue.records.iter().filter(|_| rng.once_in(often));
    let found: Vec<Id> = found.map(|record| record.id).collect();
    let applied = found.into_iter().map(|id| (id, random::confirmation(rng)));
    Reconciliation {
        applied: applied.collect(),
        height: random::height(rng),
        tip: random::block_id(rng),
        caught_up: rng.once_in(2),
        available: BTreeSet::new(),
        window: rng.pick(&[0, 1, 5, 30, u32::MAX]),
    }
}

/// The Mined holders after `applied` was entered: their heights, ids and bytes, by the queue before.
fn mined_holders(queue: &Queue, given: &Reconciliation) -> Vec<(Height, Id, usize)> {
    let mined = queue.holders().filter_map(|record| {
        let found = given.applied.get(&record.id).or(record.mined.as_ref())?;
        Some((found.height, record.id, record.byte_count()))
    });
    mined.collect()
}

#[test]
fn every_mined_holder_once_and_15_by_those_released() {
    let mut met: BTreeMap<&str, u64> = BTreeMap::new();
    for seed in 0..20_000 {
        let mut rng = Rng::new(seed);
        let limits = random::small_limits(&mut rng);
        let queue = random::queue(&mut rng, limits);
        let given = reconciliation(&mut rng, &queue);
        let decisions = decisions(&queue, &given);
        let mut mined = mined_holders(&queue, &given);
        assert_eq!(decisions.len(), mined.len(), "seed {seed}");
        mined.sort();
        mined.reverse();
        let mut released = Vec::new();
        for (at, (decision, (height, id, _))) in decisions.iter().zip(&mined).enumerate() {
            assert_eq!(decision.id, *id, "seed {seed}");
            let bytes: usize = mined[..=at].iter().map(|(_, _, bytes)| bytes).sum();
            let deep = given.height.0.saturating_sub(height.0) >= given.window;
            let (crowded, heavy) = (at as u32 >= limits.pending, bytes as u32 > limits.bytes);
            assert_eq!(decision.released, deep || crowded || heavy, "seed {seed}");
            released.extend(decision.released.then_some(*id));
            *met.entry("deep alone").or_default() += u64::from(deep && !crowded && !heavy);
            *met.entry("crowded alone").or_default() += u64::from(crowded && !deep && !heavy);
            *met.entry("heavy alone").or_default() += u64::from(heavy && !deep && !crowded);
            *met.entry("kept").or_default() += u64::from(!decision.released);
        }
        let counter = queue.counter.0.checked_add(released.len() as u64);
        match (reconcile(&queue, &given), counter) {
            (Err(refusal), None) => {
                assert_eq!(refusal, COUNTER, "seed {seed}");
                *met.entry("15").or_default() += 1;
            }
            (Ok(change), Some(counter)) => {
                assert_eq!(change.answer.released, released, "seed {seed}");
                assert_eq!(change.next.counter.0, counter, "seed {seed}");
                *met.entry("released").or_default() += u64::from(!released.is_empty());
                let full = counter.checked_add((decisions.len() - released.len()) as u64);
                *met.entry("no 15 by those kept").or_default() += u64::from(full.is_none());
            }
            (done, _) => panic!("seed {seed}: {:?}", done.err()),
        }
    }
    assert_eq!(met.len(), 7, "{met:?}");
    assert!(met.values().all(|count| *count > 100), "{met:?}");
}
