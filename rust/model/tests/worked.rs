//! The worked examples of docs/AREA.md and document 01, byte for byte.

use model::rules::{admit, Admission};
use model::{
    area, calls, image, Caller, FinishNumber, Height, Limits, Queue, Reason, Record, State, TimeMs,
    Withdrawn,
};

const HEADER: &str = "06 00000002 0000000a 00000001 00000001 \
    00000002 00000000 00000000 00000000 00000000 00000000 00000000 00000000 \
    00000000 00000000 00000000 00000000 00000000 00000000 00000000 00000000 \
    0000000000000000 00000000 00 0000000000000000 00000000";

/// As document 01 has it, but for the kind.
const REST: &str =
    "00000002 0000000a 00000001 00000001 0000000000000000 00000000 00 0000000000000000 00000000";

/// Caller 0 may have one pending, and so may caller 5, whose record it was.
const CANCELLED: &str = "00000006 \
    06 00000002 0000000a 00000001 00000001 \
    00000001 00000000 00000000 00000000 00000000 00000001 00000000 00000000 \
    00000000 00000000 00000000 00000000 00000000 00000000 00000000 00000000 \
    0000000000000002 00000006 00 0000000000000001 00000001 \
    02 1111111111111111111111111111111111111111111111111111111111111111 05 04 01 0000000000000005 \
    00 00 ffffffffffffffff 00 0000000000000007 00000003 0000000000000009 00 00 0000000000000001 00";

/// A queue with one record, of caller 0, that spends one id and reads another.
const READING: &str = "00000001 \
    06 00000002 0000000a 00000001 00000001 \
    00000002 00000000 00000000 00000000 00000000 00000000 00000000 00000000 \
    00000000 00000000 00000000 00000000 00000000 00000000 00000000 00000000 \
    0000000000000001 00000001 00 0000000000000000 00000001 \
    02 2222222222222222222222222222222222222222222222222222222222222222 00 00 00 0000000000000005 \
    00 00 0000000000000000 00 0000000000000001 00000002 0000000000000001 00 00 0000000000000000 \
    01 0001 3333333333333333333333333333333333333333333333333333333333333333 0000 \
    0001 4444444444444444444444444444444444444444444444444444444444444444 00000002 abcd";

fn limits() -> Limits {
    Limits::checked(2, 10, 1, 1).unwrap()
}

fn without_blanks(text: &str) -> String {
    text.split_whitespace().collect()
}

fn unhex(text: &str) -> Vec<u8> {
    let digits = without_blanks(text);
    (0..digits.len())
        .step_by(2)
        .map(|at| u8::from_str_radix(&digits[at..at + 2], 16).unwrap())
        .collect()
}

/// The bytes, then zeros up to the need.
fn area_of(text: &str) -> Vec<u8> {
    let mut bytes = unhex(text);
    bytes.resize(limits().need(), 0);
    bytes
}

#[test]
fn fresh_area() {
    assert_eq!(limits().need(), 3_476);
    let expected = area_of(&format!("00000000 {HEADER}"));
    assert_eq!(area::encode(&Queue::fresh(limits())), expected);
    assert_eq!(area::decode(&expected), Some(Queue::fresh(limits())));
    let mut lent = vec![0xee; 3_478];
    let shares = limits().share_bytes();
    assert_eq!(calls::fresh(2, 10, 1, 1, &shares, &mut lent), 100);
    assert_eq!(lent[..3_476], expected);
    assert_eq!(lent[3_476..], [0xee, 0xee]);
}

#[test]
fn cancelled_area() {
    let mut shares = [0; 16];
    (shares[0], shares[5]) = (1, 1);
    let mut queue = Queue::fresh(limits().shared(shares).unwrap());
    queue.persisted = Height(6);
    queue.revision = 2;
    queue.cursor = Height(6);
    queue.counter = FinishNumber(1);
    queue.records.push(Record {
        id: [0x11; 32],
        caller: Caller(5),
        state: State::Cancelled,
        reason: Reason::Cancelled,
        created: TimeMs(5),
        time_deadline: None,
        height_deadline: None,
        priority: -1,
        label: None,
        fee: 7,
        size: 3,
        cost: 9,
        mined: None,
        withdrawn: Withdrawn::No,
        finish: FinishNumber(1),
        holder: None,
    });
    let expected = area_of(CANCELLED);
    assert_eq!(area::encode(&queue), expected);
    assert_eq!(area::decode(&expected), Some(queue));
}

#[test]
fn reading_area() {
    let given = Admission {
        inputs: vec![[0x33; 32]],
        reads: vec![[0x44; 32]],
        signed: vec![0xab, 0xcd],
        ..Admission::plain([0x22; 32])
    };
    let queue = admit(&Queue::fresh(limits()), &given).unwrap().next;
    let expected = area_of(READING);
    assert_eq!(area::encode(&queue), expected);
    assert_eq!(area::decode(&expected), Some(queue));
}

#[test]
fn fresh_image() {
    let expected = format!("{}\n", without_blanks(HEADER));
    assert_eq!(expected.len(), 213);
    let fresh = Queue::fresh(limits());
    assert_eq!(image::encode(&fresh), expected.as_bytes());
    assert_eq!(image::decode(expected.as_bytes()), Some(fresh.clone()));
    for kind in ["04", "05"] {
        let older = format!("{kind}{}", &expected[2..]);
        assert_eq!(image::decode(older.as_bytes()), Some(fresh.clone()));
    }
    for kind in ["01", "03"] {
        let older = format!("{kind}{}\n", without_blanks(REST));
        assert_eq!(older.len(), 85);
        assert_eq!(image::decode(older.as_bytes()), Some(fresh.clone()));
    }
    let older = format!("01{}\n", without_blanks(REST));
    let (mut out, mut length) = ([0xee; 87], 7);
    assert_eq!(
        calls::convert(expected.as_bytes(), &mut out, &mut length),
        100
    );
    assert_eq!(
        (&out[..85], &out[85..], length),
        (older.as_bytes(), &[0xee; 2][..], 85)
    );
    assert_eq!(image::decode(b"0A"), None);
    assert_eq!(calls::open(b"0A", &mut []), 16);
}
