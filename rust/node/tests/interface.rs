//! The safe interface.

use pokerbox::store::StoreError;
use pokerbox::{
    Admission, BestFees, Caller, Error, Height, InputId, Kind, Limits, Outcome, OutputId,
    ParseIdError, Queue, Reason, Shares, State, TimeMs, TxId,
};

fn limits() -> Limits {
    Limits::new(2, 10, 1, 1).unwrap()
}

#[test]
fn limits_have_ranges() {
    assert_eq!(limits().area_len(), 3_476);
    assert_eq!(Limits::new(0, 1, 1, 1), Err(Error::LimitOutOfRange));
    assert_eq!(Limits::new(1_025, 1, 1, 1), Err(Error::LimitOutOfRange));
    assert_eq!(Limits::new(1_024, 16_777_216, 1_024, 128), Ok(Limits::MAX));
    assert_eq!(Limits::MAX.area_len(), 60_293_632);
    for at in 0..4 {
        let tops = [1_024, 16_777_216, 1_024, 128];
        for (limit, in_range) in [
            (0, false),
            (1, true),
            (tops[at], true),
            (tops[at] + 1, false),
        ] {
            let mut numbers = tops;
            numbers[at] = limit;
            let [p, b, t, k] = numbers;
            let limits = Limits::new(p, b, t, k);
            assert_eq!(limits.is_ok(), in_range, "{numbers:?}");
            let right = model::Limits::checked(p.into(), b.into(), t.into(), k.into());
            let need = limits.ok().map(|limits| limits.area_len());
            assert_eq!(need, right.map(|limits| limits.need()), "{numbers:?}");
        }
    }
}

#[test]
fn every_refusal_says_what_to_do() {
    let numbers: Vec<u64> = (1..=18).chain([20, 21, 22]).collect();
    assert_eq!(Error::ALL.len(), numbers.len());
    for (number, error) in numbers.iter().zip(Error::ALL) {
        assert_eq!(error.number(), *number);
        let text = error.to_string();
        assert!(text.starts_with(&format!("refusal {number}: ")), "{text}");
        assert!(text.matches(':').count() >= 2, "what to do: {text}");
    }
    for number in 0..200 {
        let error = Error::from_number(number).map(Error::number);
        assert_eq!(error, numbers.contains(&number).then_some(number));
    }
}

#[test]
fn ids_are_printed_and_read_as_hexadecimal() {
    let mut bytes = [0xab; 32];
    bytes[0] = 1;
    let id = TxId::from(bytes);
    assert_eq!(id.to_string(), "01".to_string() + &"ab".repeat(31));
    assert_eq!(id.to_string().parse(), Ok(id));
    assert_eq!(id.to_string().to_uppercase().parse(), Ok(id));
    assert_eq!("cd".repeat(32).parse(), Ok(InputId([0xcd; 32])));
    let (short, long) = ("ab".repeat(31), "ab".repeat(33));
    let (signed, wide) = ("+b".repeat(32), "é".repeat(32));
    for text in ["", "ab", &short, &long, &signed, &wide] {
        assert_eq!(text.parse::<TxId>(), Err(ParseIdError), "{text}");
    }
}

#[test]
fn states_reasons_and_times_are_printed() {
    let states = State::ALL.map(|state| state.to_string());
    let expected = ["Queued", "Mined", "Conflicted", "Cancelled", "Expired"];
    assert_eq!(states, expected);
    let reason = Reason::RolledBackAfterRelease;
    assert_eq!(reason.to_string(), "rolled back after release");
    for number in 0..=255 {
        let reason = Reason::from_number(number).map(|reason| reason as u8);
        assert_eq!(reason, (number <= 5).then_some(number));
    }
    assert_eq!(TimeMs(1_500).to_string(), "1500 ms");
    assert_eq!(Height(7).to_string(), "7");
}

#[test]
fn an_admission_needs_few_fields() {
    let (inputs, outputs) = (vec![InputId([2; 32])], vec![OutputId([3; 32])]);
    let given = Admission::new(
        TxId([1; 32]),
        inputs,
        outputs,
        vec![9],
        TimeMs(5),
        Height(6),
    );
    let mut queue = Queue::fresh(limits()).unwrap();
    let entry = queue.admit(&given).unwrap().settle(Outcome::Kept).unwrap();
    assert_eq!((entry.priority, entry.fee, entry.cost), (0, 0, 0));
    assert_eq!((entry.time_deadline, entry.height_deadline), (None, None));
    assert_eq!((entry.created, entry.label), (TimeMs(5), None));
    assert_eq!(entry.caller, Caller::ZERO);
    assert_eq!(entry.reads, []);
    assert_eq!(queue.observation_cursor(), Ok((Height(6), None)));
}

/// What a store's error rests on can be looked at.
#[test]
fn errors_of_a_store_have_sources() {
    use std::error::Error as _;
    let io = || std::io::Error::other("why");
    let path = || std::path::PathBuf::from("queue/image");
    for (error, source) in [
        (StoreError::WriteFailed(io()), Some("why")),
        (StoreError::OutcomeUnknown(io()), Some("why")),
        (StoreError::Unusable(path(), io()), Some("why")),
        (StoreError::Refused(Error::QueueFull), Some("refusal 10")),
        (StoreError::Damaged(path()), Some("refusal 16")),
        (StoreError::NoStore(path()), None),
        (StoreError::StoreStands(path()), None),
        (StoreError::InUse(path()), None),
    ] {
        let text = error.source().map(|source| source.to_string());
        match source {
            Some(source) => assert!(text.unwrap().contains(source), "{error}"),
            None => {
                assert_eq!(text, None);
                assert!(error.to_string().contains("queue/image"), "{error}");
            }
        }
    }
}

#[test]
fn a_fresh_queue_refuses_what_is_absent() {
    let mut queue = Queue::fresh(limits()).unwrap();
    let id = TxId([1; 32]);
    assert_eq!(queue.cancel(id).unwrap_err(), Error::NotFound);
    assert_eq!(queue.entry(id), Err(Error::NotFound));
    assert_eq!(queue.signed_bytes(id), Err(Error::NotFound));
    assert_eq!(queue.selection_entries(), Ok(vec![]));
}

/// Times as priorities: admitted, shown, and selected by 64 signed bits.
#[test]
fn priorities_of_64_bits() {
    let mut queue = Queue::fresh(Limits::new(6, 10, 2, 1).unwrap()).unwrap();
    for (n, priority) in [
        (1, i64::MIN),
        (2, 1 << 32),
        (3, -1),
        (4, 1_700_000_000_000),
        (5, i64::MAX),
        (6, 0),
    ] {
        let given = Admission {
            priority,
            ..Admission::new(TxId([n; 32]), vec![], vec![], vec![], TimeMs(5), Height(6))
        };
        let entry = queue.admit(&given).unwrap().settle(Outcome::Kept).unwrap();
        assert_eq!(entry.priority, priority);
        assert_eq!(queue.entry(TxId([n; 32])).unwrap().priority, priority);
    }
    let selected = queue.selection_entries().unwrap();
    let selected: Vec<u8> = selected.iter().map(|id| id.0[0]).collect();
    assert_eq!(selected, [5, 4, 2, 6, 3, 1]);
    let image = queue.image().unwrap();
    let listed = Queue::open(&image).unwrap().list().unwrap();
    let priorities: Vec<i64> = listed.iter().map(|entry| entry.priority).collect();
    let wide = [i64::MIN, 1 << 32, -1, 1_700_000_000_000, i64::MAX, 0];
    assert_eq!(priorities, wide);
    assert_eq!(Queue::convert(&image), Err(Error::NotConvertible));
    // As tombstones they are in the way, too, until they are forgotten: T is 2.
    let mut cancel = |n| {
        let change = queue.cancel(TxId([n; 32])).unwrap();
        change.settle(Outcome::Kept).unwrap();
        Queue::convert(&queue.image().unwrap())
    };
    for n in [1, 2, 4, 5, 3] {
        assert_eq!(cancel(n), Err(Error::NotConvertible));
    }
    let older = cancel(6).unwrap();
    assert!(older.starts_with(b"01"));
    let opened = Queue::open(&older).unwrap();
    assert_eq!(opened.image(), queue.image());
    assert_eq!(opened.entry(TxId([3; 32])).unwrap().priority, -1);
}

#[test]
#[cfg(exported = "selection_parents_first")]
fn parents_first() {
    let mut queue = Queue::fresh(Limits::new(4, 10, 1, 2).unwrap()).unwrap();
    let (now, height) = (TimeMs(5), Height(6));
    assert_eq!(queue.selection_parents_first(now, height), Ok(vec![]));
    // 1 waits for 2 and 3, of which 3 has a deadline; 4 waits for nobody.
    for (n, priority, inputs, outputs) in [
        (1, 9, [11, 12], [21]),
        (2, 8, [13, 14], [11]),
        (3, 5, [15, 16], [12]),
        (4, 7, [17, 18], [24]),
    ] {
        let inputs = inputs.map(|n| InputId([n; 32])).to_vec();
        let outputs = outputs.map(|n| OutputId([n; 32])).to_vec();
        let given = Admission {
            priority,
            time_deadline: (n == 3).then_some(TimeMs(9)),
            ..Admission::new(TxId([n; 32]), inputs, outputs, vec![], now, height)
        };
        let change = queue.admit(&given).unwrap();
        change.settle(Outcome::Kept).unwrap();
    }
    let listed = |now| {
        let listed = queue.selection_parents_first(TimeMs(now), height);
        let numbers = listed.unwrap().into_iter().map(|id| id.0[0]);
        numbers.collect::<Vec<u8>>()
    };
    assert_eq!(listed(5), [2, 4, 3, 1]);
    assert_eq!(listed(9), [2, 1, 4]);
}

/// A queue of three with fees 5, 4, 3 and 6, 5, 5 signed bytes.
fn three() -> Queue {
    let mut queue = Queue::fresh(Limits::new(3, 16, 1, 1).unwrap()).unwrap();
    for (n, fee, bytes) in [(1, 5, 6), (2, 4, 5), (3, 3, 5)] {
        let (id, inputs) = (TxId([n; 32]), vec![InputId([n; 32])]);
        let given = Admission {
            fee,
            time_deadline: (n == 3).then_some(TimeMs(9)),
            ..Admission::new(id, inputs, vec![], vec![n; bytes], TimeMs(5), Height(6))
        };
        let change = queue.admit(&given).unwrap();
        change.settle(Outcome::Kept).unwrap();
    }
    queue
}

#[test]
fn best_fees_for_a_block() {
    let queue = three();
    let best = |limit, budget, now| {
        let best = queue.best_fees(limit, budget, TimeMs(now), Height(6))?;
        let ids: Vec<u8> = best.ids.iter().map(|id| id.0[0]).collect();
        Ok((ids, best.fee, best.nodes, best.distance))
    };
    assert_eq!(best(10, 1, 5), Ok((vec![], 0, 1, 7)));
    assert_eq!(best(10, 2, 5), Ok((vec![1], 5, 2, 2)));
    assert_eq!(best(10, 100, 5), Ok((vec![2, 3], 7, 11, 0)));
    assert_eq!(best(u64::MAX, 100, 5), Ok((vec![1, 2, 3], 12, 15, 0)));
    assert_eq!(best(0, BestFees::MAX_BUDGET, 5), Ok((vec![], 0, 4, 0)));
    // The third one is due.
    assert_eq!(best(10, 100, 9), Ok((vec![1], 5, 6, 0)));
    for budget in [0, BestFees::MAX_BUDGET + 1, u64::MAX] {
        assert_eq!(best(10, budget, 5), Err(Error::Malformed));
    }
}

#[test]
fn fees_without_a_sum_are_refused() {
    let mut queue = three();
    let change = queue.cancel(TxId([1; 32])).unwrap();
    change.settle(Outcome::Kept).unwrap();
    let (inputs, now, height) = (vec![InputId([1; 32])], TimeMs(5), Height(6));
    let given = Admission {
        fee: u64::MAX,
        ..Admission::new(TxId([1; 32]), inputs, vec![], vec![], now, height)
    };
    let change = queue.admit(&given).unwrap();
    change.settle(Outcome::Kept).unwrap();
    let refused = queue.best_fees(0, 1, now, height);
    assert_eq!(refused, Err(Error::FeesTooLarge));
}

#[test]
fn a_change_takes_effect_when_it_is_settled() {
    let mut queue = Queue::fresh(limits()).unwrap();
    let before = queue.area().to_vec();
    let change = queue.set_cursor(Height(6), None).unwrap();
    assert_eq!(change.kind(), Kind::Memory);
    assert!(!change.write_is_due());
    drop(change);
    assert_eq!(queue.area(), before);
    let change = queue.set_cursor(Height(6), None).unwrap();
    change.settle(Outcome::Kept).unwrap();
    let read = model::area::decode(queue.area()).unwrap();
    assert_eq!(read.cursor, model::Height(6));
    assert_eq!(read.persisted, model::Height(0));
}

#[test]
fn callers_are_0_to_15() {
    for number in 0..=255 {
        let caller = Caller::new(number).map(Caller::number);
        assert_eq!(caller, (number <= 15).then_some(number));
    }
    assert_eq!(Caller::all().count(), Caller::COUNT);
    assert_eq!(Caller::all().next(), Some(Caller::ZERO));
    assert_eq!(Caller::all().last(), Caller::new(15));
    assert_eq!(Caller::ZERO.to_string(), "caller 0");
}

#[test]
fn shares_are_at_most_p() {
    assert_eq!(limits().shares(), Shares::all_to_caller_0(2));
    for caller in 0..16 {
        for (share, right) in [(0, true), (2, true), (3, false), (u32::MAX, false)] {
            let mut shares = [1; 16];
            shares[caller] = share;
            let shared = limits().shared(Shares::new(shares));
            let expected = match right {
                true => Ok(Shares::new(shares)),
                false => Err(Error::LimitOutOfRange),
            };
            assert_eq!(shared.map(|limits| limits.shares()), expected);
        }
    }
}

/// An admission of this number by this caller.
fn by(caller: Caller, n: u8) -> Admission {
    let inputs = vec![InputId([n; 32])];
    Admission {
        caller,
        ..Admission::new(TxId([n; 32]), inputs, vec![], vec![n], TimeMs(5), Height(6))
    }
}

#[test]
fn each_caller_has_its_share() {
    let last = Caller::new(15).unwrap();
    let mut shares = [0; 16];
    (shares[0], shares[15]) = (1, 2);
    let limits = Limits::new(3, 10, 2, 1).unwrap();
    let limits = limits.shared(Shares::new(shares)).unwrap();
    let mut queue = Queue::fresh(limits).unwrap();
    let entry = queue.admit(&by(Caller::ZERO, 1)).unwrap();
    assert_eq!(entry.settle(Outcome::Kept).unwrap().caller, Caller::ZERO);
    for (caller, n) in [(Caller::ZERO, 2), (Caller::new(1).unwrap(), 2)] {
        let refused = queue.admit(&by(caller, n)).unwrap_err();
        assert_eq!(refused, Error::ShareExhausted);
    }
    let change = queue.admit(&by(last, 2)).unwrap();
    change.settle(Outcome::Kept).unwrap();
    // Whoever asks, a pending id answers its record.
    let known = queue.admit(&by(Caller::ZERO, 2)).unwrap();
    assert_eq!((known.kind(), known.answer().caller), (Kind::Nothing, last));
    drop(known);
    let callers: Vec<Caller> = queue.list().unwrap().iter().map(|of| of.caller).collect();
    assert_eq!(callers, [Caller::ZERO, last]);
    // Opened again, it has the same shares and callers.
    let opened = Queue::open(&queue.image().unwrap()).unwrap();
    assert_eq!(opened.limits(), limits);
    assert_eq!(opened.entry(TxId([2; 32])).unwrap().caller, last);
    assert!(opened.area() == queue.area());
    // A tombstone has its caller, too.
    let cancelled = queue.cancel(TxId([2; 32])).unwrap();
    assert_eq!(cancelled.settle(Outcome::Kept).unwrap().caller, last);
}

/// Read ids of an admission, in its entry, and in refusal 20.
#[test]
fn what_is_only_read() {
    let limits = Limits::new(3, 10, 2, 2).unwrap();
    let mut queue = Queue::fresh(limits).unwrap();
    let given = |n: u8, inputs: &[u8], reads: &[u8]| {
        let ids = |numbers: &[u8]| numbers.iter().map(|n| InputId([*n; 32])).collect();
        Admission {
            reads: ids(reads),
            ..Admission::new(
                TxId([n; 32]),
                ids(inputs),
                vec![],
                vec![n],
                TimeMs(5),
                Height(1),
            )
        }
    };
    for (n, inputs, reads) in [(1, &[11][..], &[21, 22][..]), (2, &[12], &[21, 12])] {
        let change = queue.admit(&given(n, inputs, reads)).unwrap();
        let entry = change.settle(Outcome::Kept).unwrap();
        assert_eq!(entry.reads, given(n, inputs, reads).reads);
        assert_eq!(entry, queue.entry(TxId([n; 32])).unwrap());
    }
    for (inputs, reads, error) in [
        (&[21][..], &[][..], Error::ReadAndSpent),
        (&[], &[11], Error::ReadAndSpent),
        (&[12], &[11], Error::InputReserved),
        (&[13], &[1, 2, 3], Error::TooManyInputs),
    ] {
        let refused = queue.admit(&given(3, inputs, reads)).unwrap_err();
        assert_eq!(refused, error);
    }
    let reserved = [11, 12].map(|n| InputId([n; 32]));
    assert_eq!(queue.reserved_inputs().unwrap(), reserved);
    let opened = Queue::open(&queue.image().unwrap()).unwrap();
    assert_eq!(opened.list(), queue.list());
    let cancelled = queue.cancel(TxId([2; 32])).unwrap();
    assert_eq!(cancelled.settle(Outcome::Kept).unwrap().reads, []);
}

/// The worked image of documents 01 and 02.
#[test]
fn the_worked_image_opens() {
    let frame = "06 00000002 0000000a 00000001 00000001 \
                 00000002 00000000 00000000 00000000 00000000 00000000 00000000 00000000 \
                 00000000 00000000 00000000 00000000 00000000 00000000 00000000 00000000 \
                 0000000000000000 00000000 00 0000000000000000 00000000";
    let image = frame.replace(' ', "") + "\n";
    assert_eq!(image.len(), 213);
    let fresh = Queue::fresh(limits()).unwrap();
    assert_eq!(fresh.image().unwrap(), image.as_bytes());
    let opened = Queue::open(image.as_bytes()).unwrap();
    assert_eq!(opened.limits(), limits());
    assert!(opened.area() == fresh.area());
}

#[test]
fn what_is_no_image_is_refused() {
    for text in [
        "",
        "0A",
        "03",
        "zz00000002",
        "+3000000020000000a00000001000000010000000000000000000000000000000000000000000000000000\n",
        "0300000002000000010000000100000001\n",
        "04000000020000000a00000001000000010000000000000000000000000000000000000000000000000000\n",
        "05000000020000000a00000001000000010000000000000000000000000000000000000000000000000000\n",
        "06000000020000000a00000001000000010000000000000000000000000000000000000000000000000000\n",
        "07000000020000000a00000001000000010000000000000000000000000000000000000000000000000000\n",
    ] {
        assert_eq!(Queue::open(text.as_bytes()).unwrap_err(), Error::NotAnImage);
    }
}
