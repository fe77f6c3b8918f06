//! A share of the queue for each caller: document 02, P8.

use std::collections::{BTreeMap, BTreeSet};

use model::calls::{self, AdmitArgs};
use model::random::{self, Rng};
use model::rules::{
    admit, cancel, expire, reconcile, reopen, Admission, Kind, Reconciliation, BYTE_BUDGET, FULL,
    INPUT_RESERVED, SHARE,
};
use model::{
    area, image, sound, Caller, Confirmation, Height, Id, Limits, Queue, Record, Shares, State,
    TimeMs,
};

/// P 3, B 10, T 2, K 1; caller 0 has a share of 1, caller 1 of 2, caller 15 of 3.
fn limits() -> Limits {
    let mut shares = [0; 16];
    (shares[0], shares[1], shares[15]) = (1, 2, 3);
    let limits = Limits::checked(3, 10, 2, 1).expect("limits in range");
    limits.shared(shares).expect("shares up to P")
}

/// Of this number by this caller, with an input of its own and one byte.
fn given(n: u8, caller: u8) -> Admission {
    Admission {
        caller: Caller(caller),
        inputs: vec![[n; 32]],
        signed: vec![n],
        ..Admission::plain([n; 32])
    }
}

/// The queue after admissions of these numbers by these callers.
fn admitted(all: &[(u8, u8)]) -> Queue {
    let mut queue = Queue::fresh(limits());
    for (n, caller) in all {
        queue = admit(&queue, &given(*n, *caller)).expect("room").next;
        assert_eq!(sound::broken_rule(&queue), None);
    }
    queue
}

fn refusal(queue: &Queue, given: &Admission) -> Option<u64> {
    admit(queue, given).err()
}

fn found(ids: &[u8], height: u32, window: u32) -> Reconciliation {
    let place = Confirmation {
        height: Height(height),
        block: [height as u8; 32],
    };
    Reconciliation {
        height: Height(height),
        tip: [height as u8; 32],
        applied: ids.iter().map(|n| ([*n; 32], place)).collect(),
        caught_up: true,
        available: (1..=9).map(|n| [n; 32]).collect(),
        window,
    }
}

fn callers(queue: &Queue) -> Vec<(u8, u8)> {
    let records = queue.records.iter();
    records.map(|of| (of.id[0], of.caller.0)).collect()
}

#[test]
fn a_caller_admits_up_to_its_share_and_not_one_more() {
    let queue = admitted(&[(1, 0)]);
    assert_eq!(refusal(&queue, &given(2, 0)), Some(SHARE));
    let queue = admitted(&[(1, 0), (2, 1)]);
    let last = admit(&queue, &given(3, 1)).expect("a share of 2");
    assert_eq!(callers(&last.next), [(1, 0), (2, 1), (3, 1)]);
    // Caller 15 may have all.
    let queue = admitted(&[(1, 15), (2, 15), (3, 15)]);
    assert_eq!(refusal(&queue, &given(4, 15)), Some(FULL));
}

#[test]
fn a_share_of_0_lets_none_in() {
    for caller in 2..15 {
        let empty = Queue::fresh(limits());
        assert_eq!(refusal(&empty, &given(1, caller)), Some(SHARE), "{caller}");
    }
}

/// 10 comes before 18, and 18 before 11 and 12.
#[test]
fn the_place_of_18() {
    let full = admitted(&[(1, 0), (2, 1), (3, 1)]);
    assert_eq!(refusal(&full, &given(4, 0)), Some(FULL));
    let queue = admitted(&[(1, 0)]);
    let both = Admission {
        inputs: vec![[1; 32]],
        signed: vec![0; 10],
        ..given(2, 0)
    };
    assert_eq!(refusal(&queue, &both), Some(SHARE));
    let other = Admission {
        caller: Caller(1),
        ..both.clone()
    };
    assert_eq!(refusal(&queue, &other), Some(BYTE_BUDGET));
    let short = Admission {
        signed: vec![0; 9],
        ..other
    };
    assert_eq!(refusal(&queue, &short), Some(INPUT_RESERVED));
}

/// Whoever asks: also a caller without a share, or one that has all of its share.
#[test]
fn a_pending_or_mined_id_answers_its_record() {
    let queue = admitted(&[(1, 0), (2, 1)]);
    let mined = reconcile(&queue, &found(&[2], 5, 100)).expect("entered");
    for queue in [queue, mined.next] {
        for n in [1, 2] {
            for caller in 0..16 {
                let change = admit(&queue, &given(n, caller)).expect("its record");
                assert_eq!(change.kind, Kind::Nothing);
                assert_eq!(Some(&change.answer), queue.record(&[n; 32]));
                assert_eq!(change.next, queue);
            }
        }
    }
}

/// Queued and Conflicted ones count; Mined ones, with signed bytes or without, and withdrawn ones do
/// not.
#[test]
fn what_counts() {
    let queue = admitted(&[(1, 0)]);
    let conflicted = Reconciliation {
        available: BTreeSet::new(),
        ..found(&[], 5, 100)
    };
    let conflicted = reconcile(&queue, &conflicted).expect("entered").next;
    assert_eq!(conflicted.records[0].state, State::Conflicted);
    assert_eq!(refusal(&conflicted, &given(2, 0)), Some(SHARE));
    let mined = reconcile(&queue, &found(&[1], 5, 100))
        .expect("entered")
        .next;
    let released = reconcile(&queue, &found(&[1], 5, 0)).expect("entered").next;
    assert!(mined.records[0].holder.is_some() && released.records[0].holder.is_none());
    let cancelled = cancel(&queue, &[1; 32]).expect("pending").next;
    let rolled_back = reopen(&released, &[[1; 32]]).next;
    assert_eq!(rolled_back.records[0].state, State::Expired);
    for freed in [mined, released, cancelled, rolled_back] {
        assert_eq!(refusal(&freed, &given(2, 0)), None);
    }
}

/// The example of docs/CALLS.md, 'Callers and shares'.
#[test]
fn the_example_of_the_calls() {
    let (a, b, c, d) = (1, 2, 3, 4);
    let mut queue = Queue::fresh(limits());
    let mut admitted_by = |n: u8, caller: u8| {
        let change = admit(&queue, &given(n, caller))?;
        queue = change.next;
        Ok((change.kind, change.answer.caller.0))
    };
    assert_eq!(admitted_by(a, 0), Ok((Kind::Whole, 0)));
    assert_eq!(admitted_by(b, 0), Err(SHARE));
    assert_eq!(admitted_by(b, 2), Err(SHARE));
    assert_eq!(admitted_by(a, 2), Ok((Kind::Nothing, 0)));
    let mined = reconcile(&queue, &found(&[a], 5, 100)).expect("entered");
    assert_eq!(mined.kind, Kind::Whole);
    let second = admit(&mined.next, &given(b, 0)).expect("none is pending");
    assert_eq!(second.kind, Kind::Whole);
    let lifted = reopen(&second.next, &[[a; 32]]);
    assert_eq!(lifted.kind, Kind::Whole);
    assert_eq!(lifted.next.pending_of(Caller(0)).count(), 2);
    let third = admit(&lifted.next, &given(c, 1)).expect("its share is free");
    assert_eq!(third.kind, Kind::Whole);
    assert_eq!(refusal(&third.next, &given(d, 0)), Some(FULL));
}

/// Reopening asks for no share.
#[test]
fn a_rollback_lifts_a_caller_above_its_share() {
    let queue = admitted(&[(1, 0)]);
    let mined = reconcile(&queue, &found(&[1], 5, 100))
        .expect("entered")
        .next;
    let second = admit(&mined, &given(2, 0)).expect("none is pending").next;
    let lifted = reopen(&second, &[[1; 32]]).next;
    assert_eq!(lifted.pending_of(Caller(0)).count(), 2);
    assert_eq!(sound::broken_rule(&lifted), None);
    assert_eq!(area::decode(&area::encode(&lifted)), Some(lifted.clone()));
    assert_eq!(image::decode(&image::encode(&lifted)), Some(lifted.clone()));
    assert_eq!(refusal(&lifted, &given(3, 0)), Some(SHARE));
    // Others are not touched by it, up to P.
    let full = admit(&lifted, &given(3, 1))
        .expect("its share is free")
        .next;
    assert_eq!(refusal(&full, &given(4, 1)), Some(FULL));
    // It comes back below its share by two that leave.
    let one = cancel(&lifted, &[1; 32]).expect("pending").next;
    assert_eq!(refusal(&one, &given(3, 0)), Some(SHARE));
    let none = cancel(&one, &[2; 32]).expect("pending").next;
    assert_eq!(refusal(&none, &given(3, 0)), None);
}

#[test]
fn a_tombstone_keeps_its_caller_and_a_new_admission_brings_its_own() {
    let cancelled = cancel(&admitted(&[(1, 1)]), &[1; 32]).expect("pending");
    assert_eq!(cancelled.answer.caller, Caller(1));
    assert_eq!(callers(&cancelled.next), [(1, 1)]);
    let again = admit(&cancelled.next, &given(1, 15)).expect("withdrawn");
    assert_eq!(again.answer.caller, Caller(15));
    assert_eq!(callers(&again.next), [(1, 15)]);
    // Its share counts for the new caller from then on.
    assert_eq!(again.next.pending_of(Caller(1)).count(), 0);
    // A caller without a share replaces none.
    assert_eq!(refusal(&cancelled.next, &given(1, 2)), Some(SHARE));
}

/// A step of a list; its caller is of no use to calls other than an admission.
fn step(rng: &mut Rng, queue: &Queue) -> Queue {
    let limits = &queue.limits;
    let ids: Vec<Id> = (0..3).map(|_| random::tx_id(rng, limits)).collect();
    let next = match rng.below(8) {
        0..=3 => {
            let given = Admission {
                caller: random::caller(rng),
                inputs: random::box_ids(rng, limits),
                time_deadline: rng.optional(|_| TimeMs(9)),
                ..Admission::plain(ids[0])
            };
            admit(queue, &given).map(|change| change.next)
        }
        4 => cancel(queue, &ids[0]).map(|change| change.next),
        5 => expire(queue, random::time(rng), Height(0)).map(|change| change.next),
        6 => {
            let given = Reconciliation {
                applied: ids
                    .iter()
                    .map(|id| (*id, random::confirmation(rng)))
                    .collect(),
                available: BTreeSet::from_iter(random::box_ids(rng, limits)),
                ..found(&[], 5, rng.pick(&[0, 3, u32::MAX]))
            };
            reconcile(queue, &given).map(|change| change.next)
        }
        _ => Ok(reopen(queue, &ids).next),
    };
    next.unwrap_or_else(|_| queue.clone())
}

/// No call but an admission of that id gives a record another caller, and none changes the shares.
#[test]
fn every_call_keeps_callers_and_shares() {
    let mut rng = Rng::new(10);
    let (mut kept, mut finished, mut replaced, mut lifted) = (0, 0, 0, 0);
    for _ in 0..12_000 {
        let limits = random::small_limits(&mut rng);
        let mut queue = random::with_callers(&mut rng, Queue::fresh(limits));
        let shares = queue.limits.shares;
        for _ in 0..20 {
            let next = step(&mut rng, &queue);
            assert_eq!(sound::broken_rule(&next), None);
            assert_eq!(next.limits.shares, shares);
            for record in &next.records {
                let Some(old) = queue.record(&record.id) else {
                    continue;
                };
                // Only an admission makes a pending record of a withdrawn one.
                if old.holder.is_none() && record.holder.is_some() {
                    replaced += u64::from(old.caller != record.caller);
                    continue;
                }
                assert_eq!(old.caller, record.caller);
                kept += u64::from(record.caller.0 > 0);
                let dropped = old.holder.is_some() && record.holder.is_none();
                finished += u64::from(dropped && record.caller.0 > 0);
            }
            let over = |queue: &Queue, caller: u8| {
                let pending = queue.pending_of(Caller(caller)).count();
                pending > queue.limits.shares[usize::from(caller)] as usize
            };
            lifted += (0..16)
                .filter(|caller| over(&next, *caller) && !over(&queue, *caller))
                .count();
            queue = next;
        }
    }
    let counts = (kept, finished, replaced, lifted);
    assert!(kept > 1_000 && finished > 300, "{counts:?}");
    assert!(replaced > 300 && lifted > 50, "{counts:?}");
}

// The calls.

fn shares_of(pairs: &[(usize, u32)]) -> Vec<u8> {
    let mut shares: Shares = [0; 16];
    for (caller, share) in pairs {
        shares[*caller] = *share;
    }
    shares
        .iter()
        .flat_map(|share| share.to_be_bytes())
        .collect()
}

/// 1, 2, 5: of shares that are not 64 bytes none is read.
#[test]
fn fresh_checks_shares() {
    let need = limits().need();
    let fresh = |shares: &[u8], length: usize| {
        let mut lent = vec![0xee; length];
        let answer = calls::fresh(3, 10, 2, 1, shares, &mut lent);
        assert_eq!(answer == 100, lent[..4] == [0; 4]);
        answer
    };
    for caller in 0..16 {
        assert_eq!(fresh(&shares_of(&[(caller, 3)]), need), 100);
        for over in [4, 1 << 8, 1 << 16, 1 << 24, u32::MAX] {
            assert_eq!(fresh(&shares_of(&[(caller, over)]), need), 1);
            assert_eq!(fresh(&shares_of(&[(caller, over)]), need - 1), 1);
        }
    }
    assert_eq!(fresh(&shares_of(&[(0, 3)]), need - 1), 2);
    for length in [0, 1, 4, 60, 63, 65, 68, 128] {
        let mut shares = shares_of(&[(0, u32::MAX)]);
        shares.resize(length, 0xff);
        assert_eq!(fresh(&shares, need), 5, "{length}");
        assert_eq!(fresh(&shares, need - 1), 2, "{length}");
    }
    let mut lent = vec![0; need];
    assert_eq!(calls::fresh(0, 10, 2, 1, &[], &mut lent), 1);
    // All shares are P.
    let all: Vec<(usize, u32)> = (0..16).map(|caller| (caller, 3)).collect();
    assert_eq!(calls::fresh(3, 10, 2, 1, &shares_of(&all), &mut lent), 100);
    let queue = area::decode(&lent).expect("sound");
    assert_eq!(queue.limits.shares, [3; 16]);
}

fn args(n: &[u8], caller: u8) -> AdmitArgs<'_> {
    AdmitArgs {
        id: n,
        caller,
        inputs: &[],
        outputs: &[],
        reads: &[],
        signed: &[],
        now: 5,
        time_flag: 0,
        time: 0,
        height_flag: 0,
        height: 0,
        priority: 0,
        label_flag: 0,
        label: &[],
        fee: 1,
        cost: 1,
        tip_height: 1,
        tip_flag: 0,
        tip: &[],
    }
}

/// A caller over 15 is 5, before 6 and all that follows; also of an id that is there.
#[test]
fn admit_checks_the_caller() {
    let cur = area::encode(&admitted(&[(1, 0)]));
    let mut out = [0; 500];
    for id in [[1; 32], [2; 32]] {
        for caller in 0..=255 {
            let mut next = cur.clone();
            let answer = calls::admit(&cur, &mut next, &args(&id, caller), &mut out);
            let expected = match caller {
                16.. => 5,
                _ if id == [1; 32] => 100,
                1 | 15 => 102,
                _ => 18,
            };
            assert_eq!(answer, expected, "caller {caller}");
            let two = [[7; 64]].concat();
            let over_k = AdmitArgs {
                inputs: &two,
                ..args(&id, caller)
            };
            let expected = if caller > 15 { 5 } else { 6 };
            let answer = calls::admit(&cur, &mut next, &over_k, &mut out);
            assert_eq!(answer, expected, "caller {caller}");
        }
    }
}

/// The caller stands after the id, and the output needs a byte for it. The last two bytes are the read
/// count.
#[test]
fn entries_show_the_caller() {
    let queue = admitted(&[(1, 15)]);
    let area = area::encode(&queue);
    let entry = calls::entry_bytes(&queue.records[0]);
    assert_eq!(
        entry.len(),
        32 + 1 + 2 + 8 + 2 + 8 + 1 + 20 + 1 + 2 + 32 + 2
    );
    assert_eq!(entry[..34], [&[1; 32][..], &[15, 0]].concat());
    let mut out = vec![0; entry.len()];
    let short = entry.len() - 1;
    assert_eq!(calls::entry(&area, &[1; 32], &mut out[..short]), 4);
    assert_eq!(calls::entry(&area, &[1; 32], &mut out), 100);
    assert_eq!(out, entry);
}

/// 16, then 4 where fewer than 64 bytes are lent; a refusal leaves all as it was.
#[test]
fn image_limits_give_the_shares() {
    let text = image::encode(&admitted(&[(1, 15)]));
    for (text, length, expected) in [
        (&text[..], 0, 4),
        (&text[..], 63, 4),
        (&text[..1], 63, 16),
        (&text[..1], 64, 16),
        (&text[..], 64, 100),
        (&text[..], 70, 100),
    ] {
        let mut shares = vec![0xee; length];
        let [mut p, mut b, mut t, mut k, mut need] = [1 << 40; 5];
        let answer =
            calls::image_limits(text, &mut p, &mut b, &mut t, &mut k, &mut shares, &mut need);
        assert_eq!(answer, expected);
        if answer == 100 {
            let expected = limits().share_bytes();
            assert_eq!([p, b, t, k, need], [3, 10, 2, 1, limits().need() as u64]);
            assert_eq!(shares[..64], expected);
            assert!(shares[64..].iter().all(|byte| *byte == 0xee));
        } else {
            assert_eq!([p, b, t, k, need], [1 << 40; 5]);
            assert!(shares.iter().all(|byte| *byte == 0xee));
        }
    }
}

/// Under all to caller 0 its calls answer as without callers: 18 is never met, since 10 comes first.
#[test]
fn all_to_caller_0_never_gives_18() {
    let mut rng = Rng::new(11);
    let mut met: BTreeMap<Option<u64>, u64> = BTreeMap::new();
    for _ in 0..12_000 {
        let limits = random::small_limits(&mut rng);
        let queue = random::queue(&mut rng, limits);
        let id = random::tx_id(&mut rng, &limits);
        let admission = Admission {
            inputs: random::box_ids(&mut rng, &limits),
            signed: vec![0; rng.up_to(2)],
            ..Admission::plain(id)
        };
        let answer = admit(&queue, &admission);
        *met.entry(answer.err()).or_default() += 1;
    }
    assert!(!met.contains_key(&Some(SHARE)), "{met:?}");
    for refusal in [None, Some(FULL), Some(BYTE_BUDGET), Some(INPUT_RESERVED)] {
        assert!(met[&refusal] > 100, "{met:?}");
    }
}

/// What is written is of the newest kind; of an older text all is of caller 0.
#[test]
fn an_older_image_opens_for_caller_0_alone() {
    let limits = Limits::checked(3, 10, 2, 1).expect("limits in range");
    let mut queue = Queue::fresh(limits);
    queue.records.push(Record::tombstone(
        [1; 32],
        State::Cancelled,
        model::Reason::Cancelled,
    ));
    queue.counter.0 = 1;
    for kind in [model::HeaderKind::K01, model::HeaderKind::K03] {
        let opened = image::decode(&image::encode_as(kind, &queue)).expect("an image");
        assert_eq!(opened, queue);
        assert_eq!(image::encode(&opened)[..2], *b"06");
        assert_eq!(refusal(&opened, &given(2, 0)), None);
        for caller in 1..16 {
            assert_eq!(refusal(&opened, &given(2, caller)), Some(SHARE));
        }
    }
}
