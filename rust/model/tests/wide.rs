//! Priorities of 64 bits, and the way back to kind 01: document 02, P13.

use model::calls::{self, AdmitArgs};
use model::fees::best_fees;
use model::parents::parents_first;
use model::random::{self, Rng};
use model::rules::{admit, cancel, expire, reconcile, selection_at, Admission, Kind};
use model::{
    area, image, sound, Caller, Confirmation, FinishNumber, HeaderKind, Height, Holder, Id, Limits,
    Queue, Reason, Record, State, TimeMs, Withdrawn,
};

/// P 8, B 10, T 4, K 2, all to caller 0.
fn limits() -> Limits {
    Limits::checked(8, 10, 4, 2).expect("limits in range")
}

fn given(n: u8, priority: i64) -> Admission {
    Admission {
        priority,
        ..Admission::plain([n; 32])
    }
}

fn admitted(all: &[Admission]) -> Queue {
    let mut queue = Queue::fresh(limits());
    for given in all {
        let change = admit(&queue, given).expect("admitted");
        assert_eq!(change.kind, Kind::Whole);
        queue = change.next;
        assert_eq!(sound::broken_rule(&queue), None);
    }
    queue
}

/// A holder of number 1 and tombstones of numbers 2 to 4, the last one Mined, all of kind 01.
fn mixed() -> Queue {
    let mut queue = admitted(&[given(1, 7)]);
    for (n, state, reason) in [
        (2, State::Cancelled, Reason::Cancelled),
        (3, State::Expired, Reason::DeadlineElapsed),
        (4, State::Mined, Reason::None),
    ] {
        let mut record = Record::tombstone([n; 32], state, reason);
        record.finish = FinishNumber(u64::from(n));
        record.mined = (n == 4).then_some(Confirmation {
            height: Height(1),
            block: [9; 32],
        });
        queue.records.push(record);
    }
    queue.counter = FinishNumber(4);
    assert_eq!(sound::broken_rule(&queue), None);
    queue
}

/// What the converter gives back, with so many bytes lent: the number, the output and the length.
fn converted_into(text: &[u8], lent: usize) -> (u64, Vec<u8>, u64) {
    let (mut out, mut length) = (vec![0xee; lent], 7);
    let number = calls::convert(text, &mut out, &mut length);
    (number, out, length)
}

/// The number, and the text where it was answered; a refusal leaves all as it was.
fn converted(text: &[u8]) -> Result<Vec<u8>, u64> {
    let lent = text.len() + 3;
    let (number, mut out, length) = converted_into(text, lent);
    if number != 100 {
        assert_eq!((&out, length), (&vec![0xee; lent], 7), "a refusal wrote");
        return Err(number);
    }
    assert!(out[length as usize..].iter().all(|byte| *byte == 0xee));
    out.truncate(length as usize);
    Ok(out)
}

/// As the image of the newest kind.
fn converted_queue(queue: &Queue) -> Result<Vec<u8>, u64> {
    assert_eq!(sound::broken_rule(queue), None);
    converted(&image::encode(queue))
}

fn opened(queue: &Queue) -> Queue {
    Queue {
        persisted: queue.cursor,
        ..queue.clone()
    }
}

const MIN: i64 = -(1 << 31);
const MAX: i64 = (1 << 31) - 1;

// 64 bits.

/// 2^32 is admitted and shown, and so are the ends of 64 bits.
#[test]
fn a_wide_priority_is_admitted_and_shown() {
    for priority in [1 << 32, 1 << 31, MIN - 1, i64::MAX, i64::MIN, -1, 0] {
        let fresh = Queue::fresh(limits());
        let cur = area::encode(&fresh);
        let (mut next, mut out) = (vec![0; cur.len()], vec![0; 111]);
        let args = AdmitArgs {
            id: &[1; 32],
            caller: 0,
            inputs: &[],
            outputs: &[],
            reads: &[],
            signed: &[],
            now: 5,
            time_flag: 0,
            time: 0,
            height_flag: 0,
            height: 0,
            priority: priority as u64,
            label_flag: 0,
            label: &[],
            fee: 1,
            cost: 1,
            tip_height: 1,
            tip_flag: 0,
            tip: &[],
        };
        // 79 bytes: one less is 4.
        assert_eq!(calls::admit(&cur, &mut next, &args, &mut out[..78]), 4);
        assert_eq!(calls::admit(&cur, &mut next, &args, &mut out[..79]), 102);
        let queue = area::decode(&next).expect("a sound area");
        assert_eq!(queue.records[0].priority, priority);
        let mut entry = vec![0; 79];
        assert_eq!(calls::entry(&next, &[1; 32], &mut entry), 100);
        assert_eq!(out[..79], entry);
        assert_eq!(entry[45..53], priority.to_be_bytes());
        let text = image::encode(&queue);
        assert_eq!(image::decode(&text), Some(queue));
    }
}

/// Finishing, reopening and confirming keep it.
#[test]
fn a_record_keeps_its_priority() {
    let queue = admitted(&[given(1, 1 << 40), given(2, -(1 << 40))]);
    let kept = |queue: &Queue| -> Vec<i64> { queue.records.iter().map(|of| of.priority).collect() };
    let both = vec![1 << 40, -(1 << 40)];
    let cancelled = cancel(&queue, &[1; 32]).expect("pending").next;
    assert_eq!(kept(&cancelled), both);
    assert_eq!(
        image::decode(&image::encode(&cancelled)),
        Some(opened(&cancelled))
    );
    let found = Confirmation {
        height: Height(3),
        block: [3; 32],
    };
    for window in [0, 9] {
        let given = model::rules::Reconciliation {
            height: Height(3),
            tip: [3; 32],
            applied: [([1; 32], found), ([2; 32], found)].into(),
            caught_up: true,
            available: Default::default(),
            window,
        };
        let mined = reconcile(&queue, &given).expect("not refused").next;
        assert_eq!(kept(&mined), both);
        let back = model::rules::reopen(&mined, &[[1; 32], [2; 32]]).next;
        assert_eq!(kept(&back), both);
    }
    let mut due = queue.clone();
    due.records[0].time_deadline = Some(TimeMs(9));
    let expired = expire(&due, TimeMs(9), Height(0)).expect("not refused");
    assert_eq!(kept(&expired.next), both);
}

fn listed(records: Vec<&Record>) -> Vec<u8> {
    records.iter().map(|record| record.id[0]).collect()
}

/// 64 signed bits, in both selections and in best fees: neither unsigned, nor the first or the last 32.
#[test]
fn the_order_is_that_of_64_signed_bits() {
    // Falling.
    let falling = [
        i64::MAX,
        (1 << 32) + 1,
        1 << 32,
        MAX + 1,
        MAX,
        0,
        MIN,
        i64::MIN,
    ];
    let queue = admitted(
        &falling
            .iter()
            .enumerate()
            // Ids that rise against the order.
            .map(|(at, priority)| given(8 - at as u8, *priority))
            .collect::<Vec<_>>(),
    );
    let (now, height) = (TimeMs(0), Height(0));
    let expected = [8, 7, 6, 5, 4, 3, 2, 1];
    assert_eq!(listed(selection_at(&queue, now, height)), expected);
    assert_eq!(listed(parents_first(&queue, now, height)), expected);
    let best = best_fees(&queue, 10, 2_097_151, now, height).expect("a set");
    let best: Vec<u8> = best.ids.iter().map(|id| id[0]).collect();
    assert_eq!(best, expected);
    // Equal ones by the time of creation, then by id.
    let equal = admitted(&[
        given(3, 1 << 40),
        Admission {
            now: TimeMs(4),
            ..given(9, 1 << 40)
        },
        given(2, 1 << 40),
    ]);
    assert_eq!(listed(selection_at(&equal, now, height)), [9, 2, 3]);
}

/// Which 20 are candidates goes by 64 bits, too.
#[test]
fn candidates_are_the_first_of_64_bits() {
    let limits = Limits::checked(24, 10, 1, 1).expect("limits in range");
    let mut queue = Queue::fresh(limits);
    for n in 1..=22 {
        // The last 32 bits are of the other order.
        let priority = (i64::from(n) << 32) - i64::from(n);
        queue = admit(&queue, &given(n, priority)).expect("admitted").next;
    }
    let best = best_fees(&queue, 10, 2_097_151, TimeMs(0), Height(0)).expect("a set");
    let ids: Vec<u8> = best.ids.iter().map(|id| id[0]).collect();
    assert_eq!(ids, (3..=22).rev().collect::<Vec<u8>>());
}

// Older kinds.

/// ffffffff is -1, and not 4,294,967,295, under each kind that has four bytes; of holders and tombstones.
#[test]
fn older_kinds_carry_the_sign() {
    for priority in [-1, MIN, MAX, 0, -2] {
        let mut queue = mixed();
        for record in &mut queue.records {
            record.priority = priority;
        }
        for kind in HeaderKind::ALL {
            assert!(kind.can_hold(&queue));
            let text = image::encode_as(kind, &queue);
            let found = image::decode(&text).expect("an image");
            assert_eq!(found, opened(&queue), "{kind:?}");
            for n in 0..queue.records.len() {
                let place = image::priority_place(kind, &queue, n);
                let digits = match kind.is_wide() {
                    true => format!("{priority:016x}"),
                    false => format!("{:08x}", priority as i32),
                };
                assert!(text[place..].starts_with(digits.as_bytes()), "{kind:?}");
            }
            // Written again it is of kind 06, with the sign in the first four bytes.
            let again = image::encode(&found);
            let place = image::priority_place(HeaderKind::K06, &queue, 0);
            let digits = format!("{priority:016x}");
            assert_eq!(again[place..place + 16], *digits.as_bytes());
        }
    }
}

#[test]
fn no_older_kind_holds_a_wide_priority() {
    for n in 0..4 {
        for (priority, narrow) in [
            (MAX, true),
            (MAX + 1, false),
            (MIN, true),
            (MIN - 1, false),
            (1 << 32, false),
            (i64::MIN, false),
            (i64::MAX, false),
        ] {
            let mut queue = mixed();
            queue.records[n].priority = priority;
            for kind in HeaderKind::ALL {
                let holds = narrow || kind == HeaderKind::K06;
                assert_eq!(kind.can_hold(&queue), holds, "{kind:?}, {priority}");
            }
        }
    }
}

// The converter.

/// Only a text and an output are lent; what it gives opens as the same queue, and is written again as it
/// was.
#[test]
fn what_is_converted_opens_as_the_same_queue() {
    for queue in [Queue::fresh(limits()), mixed(), admitted(&[given(1, -1)])] {
        let text = image::encode(&queue);
        let older = converted(&text).expect("kind 01 can hold it");
        assert_eq!(older[..2], *b"01");
        assert_eq!(older, image::encode_as(HeaderKind::K01, &queue));
        assert_eq!(image::decode(&older), Some(opened(&queue)));
        assert_eq!(
            image::encode(&image::decode(&older).expect("an image")),
            text
        );
    }
}

/// Every queue that the model makes: converted exactly where kind 01 can hold it.
#[test]
fn random_queues_are_converted_or_22() {
    let mut rng = Rng::new(1);
    let (mut accepted, mut refused, mut records) = (0, 0, 0);
    for _ in 0..6_000 {
        let limits = random::small_limits(&mut rng);
        let mut queue = random::queue(&mut rng, limits);
        match rng.below(8) {
            0 => queue = random::with_callers(&mut rng, queue),
            1 => queue = random::with_reads(&mut rng, queue),
            2 => queue = random::with_wide(&mut rng, queue),
            _ => {}
        }
        let text = image::encode(&queue);
        match converted(&text) {
            Ok(older) => {
                accepted += 1;
                records += queue.records.len();
                assert!(sayable(&queue));
                assert_eq!(image::decode(&older), Some(opened(&queue)));
                assert_eq!(
                    image::decode_as(HeaderKind::K01, &older),
                    Some(opened(&queue))
                );
                // No field of kind 01 is longer.
                assert!(older.len() < text.len());
            }
            Err(number) => {
                refused += 1;
                assert_eq!(number, 22);
                assert!(!sayable(&queue));
            }
        }
    }
    assert!(accepted > 1_000 && refused > 500 && records > 2_000);
}

/// The request's words.
fn sayable(queue: &Queue) -> bool {
    let shares = queue.limits.shares;
    let mut sayable = shares[0] == queue.limits.pending && shares[1..] == [0; 15];
    for record in &queue.records {
        sayable &= record.priority >= -2_147_483_648 && record.priority <= 2_147_483_647;
        sayable &= record.caller == Caller(0);
        sayable &= record.withdrawn as u8 != 3;
        sayable &= record.holder.as_ref().is_none_or(|of| of.reads.is_empty());
    }
    sayable
}

/// Each record alone, holder and tombstones; both ends, and one beyond them.
#[test]
fn a_priority_outside_32_bits_is_22() {
    for n in 0..4 {
        for (priority, expected) in [
            (MAX, None),
            (MIN, None),
            (-1, None),
            (MAX + 1, Some(22)),
            (MIN - 1, Some(22)),
            (1 << 32, Some(22)),
            (-(1 << 32), Some(22)),
            (i64::MAX, Some(22)),
            (i64::MIN, Some(22)),
        ] {
            let mut queue = mixed();
            queue.records[n].priority = priority;
            let found = converted_queue(&queue);
            assert_eq!(found.as_ref().err().copied(), expected, "{n}: {priority}");
            if let Ok(older) = found {
                assert_eq!(image::decode(&older), Some(opened(&queue)));
            }
        }
    }
}

#[test]
fn a_caller_other_than_0_is_22() {
    for n in 0..4 {
        for caller in 0..16 {
            let mut queue = mixed();
            queue.records[n].caller = Caller(caller);
            let expected = (caller > 0).then_some(22);
            assert_eq!(converted_queue(&queue).err(), expected, "{n}: {caller}");
        }
    }
}

/// Also where no record has another caller, and where there is no record.
#[test]
fn shares_other_than_p_and_fifteen_zeros_are_22() {
    for queue in [Queue::fresh(limits()), mixed()] {
        let p = queue.limits.pending;
        assert!(converted_queue(&queue).is_ok());
        for at in 0..16 {
            for share in [0, 1, p - 1, p] {
                let mut other = queue.clone();
                other.limits.shares[at] = share;
                let same = other.limits.shares == queue.limits.shares;
                let expected = (!same).then_some(22);
                assert_eq!(converted_queue(&other).err(), expected, "{at}: {share}");
            }
        }
    }
}

/// Mark 3 alone: 4 and 5 are marks of kind 01.
#[test]
fn a_withdrawn_mark_3_is_22() {
    for (mark, expected) in [
        (Withdrawn::No, None),
        (Withdrawn::Cancelled, None),
        (Withdrawn::Expired, None),
        (Withdrawn::RolledBackAfterRelease, Some(22)),
    ] {
        let mut queue = mixed();
        queue.records[3].withdrawn = mark;
        let found = converted_queue(&queue);
        assert_eq!(found.as_ref().err().copied(), expected, "{mark:?}");
        if let Ok(older) = found {
            assert_eq!(image::decode(&older), Some(opened(&queue)));
        }
    }
    // Expired with reason 3 is no mark.
    let mut queue = mixed();
    queue.records[2].reason = Reason::RolledBackAfterRelease;
    assert!(converted_queue(&queue).is_ok());
}

#[test]
fn a_read_id_is_22() {
    for state in [State::Queued, State::Conflicted, State::Mined] {
        for reads in [vec![], vec![[8; 32]], vec![[8; 32], [8; 32]]] {
            let expected = (!reads.is_empty()).then_some(22);
            let mut queue = mixed();
            let found = queue.records[3].mined;
            let record = &mut queue.records[0];
            record.holder.as_mut().expect("a holder").reads = reads;
            record.state = state;
            (record.reason, record.mined) = match state {
                State::Conflicted => (Reason::InputsUnavailable, None),
                State::Mined => (Reason::None, found),
                _ => (Reason::None, None),
            };
            assert_eq!(converted_queue(&queue).err(), expected, "{state:?}");
        }
    }
}

/// Images of all other kinds, 01 among them, and what is no image, also where 22 or 4 would apply.
#[test]
fn another_kind_is_16() {
    let mut wide = mixed();
    wide.records[0].priority = 1 << 32;
    for queue in [Queue::fresh(limits()), mixed(), wide] {
        for kind in HeaderKind::ALL {
            if kind == HeaderKind::K06 {
                continue;
            }
            let text = image::encode_as(kind, &queue);
            for lent in [0, text.len()] {
                let (number, out, length) = converted_into(&text, lent);
                assert_eq!((number, out, length), (16, vec![0xee; lent], 7), "{kind:?}");
            }
        }
        let text = image::encode(&queue);
        for number in 0..=255_u8 {
            if number == 6 {
                continue;
            }
            let mut text = text.clone();
            text[..2].copy_from_slice(format!("{number:02x}").as_bytes());
            assert_eq!(converted(&text), Err(16), "{number}");
        }
        for text in [&text[..text.len() - 1], &[], b"06", b"06\n", &text[1..]] {
            assert_eq!(converted(text), Err(16));
            assert_eq!(converted_into(text, 0).0, 16);
        }
    }
}

/// Also where kind 01 could not say it: a caller, other shares, a mark 3 or a read id in an image of a kind that
/// has them.
#[test]
fn another_kind_that_kind_01_cannot_say_is_16() {
    let mut causes = [mixed(), mixed(), mixed(), mixed()];
    causes[0].records[1].caller = Caller(3);
    causes[1].limits.shares[2] = 1;
    causes[2].records[3].withdrawn = Withdrawn::RolledBackAfterRelease;
    let holder = causes[3].records[0].holder.as_mut();
    holder.expect("a holder").reads = vec![[8; 32]];
    let mut tried = 0;
    for queue in causes {
        assert_eq!(converted_queue(&queue), Err(22));
        for kind in HeaderKind::ALL {
            if kind == HeaderKind::K06 || !kind.can_hold(&queue) {
                continue;
            }
            let text = image::encode_as(kind, &queue);
            assert_eq!(image::decode(&text), Some(opened(&queue)));
            assert_eq!(converted(&text), Err(16), "{kind:?}");
            tried += 1;
        }
    }
    assert_eq!(tried, 2 + 2 + 3 + 1);
}

/// A queue that is not sound is 16, also where kind 01 could not say it.
#[test]
fn sixteen_comes_before_22() {
    let mut queue = mixed();
    queue.records[0].priority = 1 << 32;
    queue.records[1].caller = Caller(3);
    assert_eq!(converted_queue(&queue), Err(22));
    let mut other = queue.clone();
    other.counter = FinishNumber(1);
    assert!(!sound::is_sound(&other));
    assert_eq!(converted(&image::encode(&other)), Err(16));
    let mut other = queue.clone();
    other.records[1].caller = Caller(16);
    assert_eq!(converted(&image::encode(&other)), Err(16));
    let mut other = queue;
    other.limits.shares[3] = 9;
    assert_eq!(converted(&image::encode(&other)), Err(16));
}

/// 22 with an output of no bytes; 4 for one that is a byte too short; as many as the answer has are enough.
#[test]
fn twenty_two_comes_before_4() {
    let queue = mixed();
    let mut causes = Vec::new();
    for n in 0..4 {
        let mut other = queue.clone();
        other.records[n].priority = MAX + 1;
        causes.push(other);
        let mut other = queue.clone();
        other.records[n].caller = Caller(1);
        causes.push(other);
    }
    let mut other = queue.clone();
    other.limits.shares[1] = 1;
    causes.push(other);
    let mut other = queue.clone();
    other.records[3].withdrawn = Withdrawn::RolledBackAfterRelease;
    causes.push(other);
    let mut other = queue.clone();
    other.records[0].holder = Some(Holder {
        reads: vec![[8; 32]],
        ..Holder::default()
    });
    causes.push(other);
    for cause in causes {
        assert_eq!(sound::broken_rule(&cause), None);
        assert_eq!(converted_into(&image::encode(&cause), 0), (22, vec![], 7));
    }
    let text = image::encode(&queue);
    let older = image::encode_as(HeaderKind::K01, &queue);
    for lent in [0, 1, older.len() - 1] {
        let expected = (4, vec![0xee; lent], 7);
        assert_eq!(converted_into(&text, lent), expected);
    }
    let length = older.len() as u64;
    let expected = (100, older.clone(), length);
    assert_eq!(converted_into(&text, older.len()), expected);
    let longer = [&older[..], &[0xee; 2]].concat();
    assert_eq!(converted_into(&text, longer.len()), (100, longer, length));
}

/// A line of the text, and each of its digits: what is converted is the image of what it says.
#[test]
fn altered_texts() {
    let mut rng = Rng::new(7);
    let mut met = std::collections::BTreeMap::new();
    for _ in 0..20_000 {
        let limits = random::small_limits(&mut rng);
        let queue = random::queue(&mut rng, limits);
        let mut text = image::encode(&queue);
        let length = text.len();
        random::damage(&mut rng, &mut text, length);
        let found = converted(&text);
        let right = match image::decode_as(HeaderKind::K06, &text) {
            None => Err(16),
            Some(queue) if !sayable(&queue) => Err(22),
            Some(queue) => Ok(image::encode_as(HeaderKind::K01, &queue)),
        };
        let number = found.as_ref().err().copied().unwrap_or(100);
        *met.entry(number).or_insert(0) += 1;
        assert_eq!(found, right);
    }
    assert!(
        met.values().all(|count| *count > 100) && met.len() == 3,
        "{met:?}"
    );
}

/// The worked record of docs/AREA.md's cancelled queue, of caller 0.
#[test]
fn a_worked_conversion() {
    let limits = Limits::checked(2, 10, 1, 1).expect("limits in range");
    let mut queue = Queue::fresh(limits);
    queue.revision = 2;
    queue.cursor = Height(6);
    queue.counter = FinishNumber(1);
    let id: Id = [0x11; 32];
    queue.records.push(Record {
        priority: -1,
        fee: 7,
        cost: 9,
        ..Record::tombstone(id, State::Cancelled, Reason::Cancelled)
    });
    let older = converted_queue(&queue).expect("kind 01 can hold it");
    let lines = [
        "01 00000002 0000000a 00000001 00000001 0000000000000002 00000006 00 0000000000000001 00000001",
        "02 1111111111111111111111111111111111111111111111111111111111111111 04 01 0000000000000005 \
         00 00 ffffffff 00 0000000000000007 00000003 0000000000000009 00 00 0000000000000001 00",
    ];
    let lines = lines.map(|line| line.split_whitespace().collect::<String>() + "\n");
    assert_eq!(String::from_utf8(older).expect("digits"), lines.concat());
}
