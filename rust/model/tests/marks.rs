//! Why a record expired: what a confirmation and its rollback keep of it (document 02, P4).

use std::collections::{BTreeMap, BTreeSet};

use model::random::{self, Rng};
use model::rules::{admit, cancel, reconcile, reopen, Admission, Kind, Reconciliation};
use model::{
    Confirmation, FinishNumber, Height, Holder, Id, Limits, Queue, Reason, Record, State, Withdrawn,
};

const ID: Id = [0x0a; 32];
/// No confirmation is so deep.
const WIDE: u32 = 100;

/// Cancelled, or Expired by one of the two reasons.
fn tombstone(state: State, reason: Reason) -> Record {
    Record::tombstone(ID, state, reason)
}

/// P 2, B 10, T 1, K 1.
fn limits() -> Limits {
    Limits::checked(2, 10, 1, 1).expect("limits in range")
}

fn queue(record: Record) -> Queue {
    let mut queue = Queue::fresh(limits());
    queue.counter = FinishNumber(1);
    queue.records.push(record);
    assert!(model::sound::is_sound(&queue));
    queue
}

/// In a block at this height.
fn given(height: u32, window: u32) -> Reconciliation {
    let found = Confirmation {
        height: Height(height),
        block: [height as u8; 32],
    };
    Reconciliation {
        height: Height(height),
        tip: [height as u8; 32],
        applied: BTreeMap::from([(ID, found)]),
        caught_up: true,
        available: BTreeSet::new(),
        window,
    }
}

fn confirmed(queue: &Queue, height: u32) -> Queue {
    let change = reconcile(queue, &given(height, WIDE)).expect("not refused");
    assert_eq!(change.kind, Kind::Whole);
    change.next
}

fn rolled_back(queue: &Queue) -> Queue {
    let change = reopen(queue, &[ID]);
    assert_eq!(change.kind, Kind::Whole);
    change.next
}

fn shown(queue: &Queue) -> (State, Reason, Withdrawn) {
    let record = queue.record(&ID).expect("a record");
    (record.state, record.reason, record.withdrawn)
}

#[test]
fn each_withdrawal_has_its_mark_and_comes_back_as_it_was() {
    for (state, reason, mark) in [
        (State::Cancelled, Reason::Cancelled, Withdrawn::Cancelled),
        (State::Expired, Reason::DeadlineElapsed, Withdrawn::Expired),
        (
            State::Expired,
            Reason::RolledBackAfterRelease,
            Withdrawn::RolledBackAfterRelease,
        ),
    ] {
        let mut queue = queue(tombstone(state, reason));
        for height in [10, 20] {
            queue = confirmed(&queue, height);
            assert_eq!(shown(&queue), (State::Mined, Reason::None, mark));
            // At another place it stays.
            queue = confirmed(&queue, height + 1);
            assert_eq!(shown(&queue), (State::Mined, Reason::None, mark));
            assert!(model::sound::is_sound(&queue));
            queue = rolled_back(&queue);
            assert_eq!(shown(&queue), (state, reason, Withdrawn::No));
            assert!(model::sound::is_sound(&queue));
        }
        assert_eq!(queue.record(&ID).expect("a record").mined, None);
    }
}

#[test]
fn without_a_mark_a_tombstone_comes_back_with_reason_3_and_a_holder_queued() {
    let mined = Record {
        state: State::Mined,
        mined: Some(Confirmation {
            height: Height(9),
            block: [9; 32],
        }),
        ..tombstone(State::Mined, Reason::None)
    };
    let released = rolled_back(&queue(mined.clone()));
    let expired = (State::Expired, Reason::RolledBackAfterRelease);
    assert_eq!(shown(&released), (expired.0, expired.1, Withdrawn::No));
    let holder = Record {
        size: 0,
        finish: FinishNumber(0),
        holder: Some(Holder::default()),
        ..mined
    };
    let queued = (State::Queued, Reason::RolledBack, Withdrawn::No);
    assert_eq!(shown(&rolled_back(&queue(holder))), queued);
}

/// The request's list: released, rolled back, confirmed, rolled back.
#[test]
fn a_released_confirmation_rolled_back_twice_has_no_deadline_as_its_reason() {
    let admission = Admission {
        inputs: vec![[1; 32]],
        signed: vec![1; 3],
        ..Admission::plain(ID)
    };
    let admitted = admit(&Queue::fresh(limits()), &admission).expect("admitted");
    let released = reconcile(&admitted.next, &given(2, 0)).expect("not refused");
    assert_eq!(released.answer.released, [ID]);
    let mut queue = released.next;
    for height in [3, 4] {
        queue = rolled_back(&queue);
        let expired = (State::Expired, Reason::RolledBackAfterRelease);
        assert_eq!(shown(&queue), (expired.0, expired.1, Withdrawn::No));
        let answer = cancel(&queue, &ID).expect("a tombstone").answer;
        assert_eq!((answer.state, answer.reason), expired);
        queue = confirmed(&queue, height);
    }
    // Admitted again after another rollback, it has none of this.
    let again = admit(&rolled_back(&queue), &admission).expect("admitted");
    assert_eq!(
        shown(&again.next),
        (State::Queued, Reason::None, Withdrawn::No)
    );
}

/// Of any queue's withdrawn records: confirmed and rolled back, each is as it was.
#[test]
fn withdrawn_records_come_back_whole() {
    let mut rng = Rng::new(7);
    let mut seen = BTreeMap::new();
    for _ in 0..3_000 {
        let limits = random::small_limits(&mut rng);
        let queue = random::queue(&mut rng, limits);
        let withdrawn = |record: &&Record| record.holder.is_none() && record.mined.is_none();
        let Some(record) = queue.records.iter().find(withdrawn) else {
            continue;
        };
        let given = Reconciliation {
            applied: BTreeMap::from([(record.id, random::confirmation(&mut rng))]),
            ..given(9, u32::MAX)
        };
        // No Mined holder is new, so that none is released.
        let change = reconcile(&queue, &given).expect("not refused");
        let back = reopen(&change.next, &[record.id]).next;
        assert_eq!(back.record(&record.id), Some(record));
        *seen.entry(record.reason as u8).or_insert(0) += 1;
    }
    let least = seen.values().min();
    assert!(least.is_some_and(|count| *count > 100), "{seen:?}");
    assert!(seen.keys().eq(&[1, 2, 3]), "{seen:?}");
}
