//! The worked examples of docs/AREA.md and document 01 through the exported calls, byte for byte.

use pokerbox::{raw, Error, Kind};

const NEED: usize = 3_476;

/// All to caller 0.
const SHARES: &str = "00000002 00000000 00000000 00000000 00000000 00000000 00000000 00000000 \
                      00000000 00000000 00000000 00000000 00000000 00000000 00000000 00000000";

const HEADER: &str = "06 00000002 0000000a 00000001 00000001 \
     00000002 00000000 00000000 00000000 00000000 00000000 00000000 00000000 \
     00000000 00000000 00000000 00000000 00000000 00000000 00000000 00000000 \
     0000000000000000 00000000 00 0000000000000000 00000000";

/// As document 01 has it, but for the kind.
const REST: &str =
    "00000002 0000000a 00000001 00000001 0000000000000000 00000000 00 0000000000000000 00000000";

/// Callers 0 and 5 have a share of 1 each.
const CANCELLED_HEADER: &str = "06 00000002 0000000a 00000001 00000001 \
     00000001 00000000 00000000 00000000 00000000 00000001 00000000 00000000 \
     00000000 00000000 00000000 00000000 00000000 00000000 00000000 00000000 \
     0000000000000002 00000006 00 0000000000000001 00000001";

/// From the id to the confirmation's flag: what the record's frame and its entry share.
const CANCELLED_HEAD: &str =
    "1111111111111111111111111111111111111111111111111111111111111111 05 04 01 \
     0000000000000005 00 00 ffffffffffffffff 00 0000000000000007 00000003 0000000000000009 00";

/// The withdrawn mark, the finish number and the holder flag.
const CANCELLED_END: &str = "00 0000000000000001 00";

const ID: [u8; 32] = [0x11; 32];

fn digits(text: &str) -> String {
    text.split_whitespace().collect()
}

fn unhex(text: &str) -> Vec<u8> {
    let digits = digits(text);
    (0..digits.len())
        .step_by(2)
        .map(|at| u8::from_str_radix(&digits[at..at + 2], 16).expect("digits"))
        .collect()
}

fn area(text: &str) -> Vec<u8> {
    let mut bytes = unhex(text);
    bytes.resize(NEED, 0);
    bytes
}

fn cancelled_area() -> Vec<u8> {
    area(&format!(
        "00000006 {CANCELLED_HEADER} 02 {CANCELLED_HEAD} {CANCELLED_END}"
    ))
}

fn image(area: &[u8]) -> String {
    let mut out = vec![0; 1_000];
    let mut length = 0;
    raw::image(area, &mut out, &mut length).expect("a sound area");
    out.truncate(length as usize);
    String::from_utf8(out).expect("digits and line ends")
}

#[test]
fn the_fresh_area() {
    let mut lent = vec![0xee; NEED + 2];
    let shares = unhex(SHARES);
    assert_eq!(raw::fresh(2, 10, 1, 1, &shares, &mut lent), Ok(()));
    assert!(lent[..NEED] == area(&format!("00000000 {HEADER}")));
    assert_eq!(lent[NEED..], [0xee, 0xee]);
    assert_eq!(
        raw::fresh(2, 10, 1, 1, &shares, &mut lent[1..NEED]),
        Err(Error::AreaTooShort)
    );
}

#[test]
fn the_fresh_image() {
    let text = image(&area(&format!("00000000 {HEADER}")));
    assert_eq!(text, digits(HEADER) + "\n");
    assert_eq!(text.len(), 213);
    let mut lent = vec![0; NEED];
    assert_eq!(raw::open(text.as_bytes(), &mut lent), Ok(()));
    assert!(lent == area(&format!("00000000 {HEADER}")));
    // Those of kinds 04 and 05 differ in their kind alone.
    for kind in ["04", "05"] {
        let (older, mut lent) = (format!("{kind}{}", &text[2..]), vec![0; NEED]);
        assert_eq!(raw::open(older.as_bytes(), &mut lent), Ok(()));
        assert!(lent == area(&format!("00000000 {HEADER}")));
    }
    for kind in ["01", "03"] {
        let (older, mut lent) = (format!("{kind}{}\n", digits(REST)), vec![0; NEED]);
        assert_eq!(older.len(), 85);
        assert_eq!(raw::open(older.as_bytes(), &mut lent), Ok(()));
        assert!(lent == area(&format!("00000000 {HEADER}")));
    }
    assert_eq!(raw::open(b"0A", &mut lent), Err(Error::NotAnImage));
    // As document 01 has it, from that of kind 06.
    let older = format!("01{}\n", digits(REST));
    let (mut out, mut length) = ([0xee; 87], 7);
    assert_eq!(raw::convert(text.as_bytes(), &mut out, &mut length), Ok(()));
    assert_eq!((&out[..85], length), (older.as_bytes(), 85));
    assert_eq!(out[85..], [0xee; 2]);
    let short = raw::convert(text.as_bytes(), &mut out[..84], &mut length);
    assert_eq!(short, Err(Error::OutputTooShort));
    let other = raw::convert(older.as_bytes(), &mut out, &mut length);
    assert_eq!(other, Err(Error::NotAnImage));
}

#[test]
fn the_cancelled_record() {
    let cancelled = cancelled_area();
    assert_eq!(raw::sound(&cancelled), Ok(()));
    // The entry has no inputs and no read ids.
    let entry = unhex(&format!("{CANCELLED_HEAD} 0000 0000"));
    let mut out = vec![0xee; entry.len()];
    assert_eq!(raw::entry(&cancelled, &ID, &mut out), Ok(()));
    assert_eq!(out, entry);
    let (mut next, mut out) = (vec![0xee; NEED], vec![0xee; entry.len()]);
    let kind = raw::cancel(&cancelled, &mut next, &ID, &mut out);
    assert_eq!(kind, Ok(Kind::Nothing));
    assert_eq!(out, entry);
    assert!(next == vec![0xee; NEED]);
    let lines = [
        digits(CANCELLED_HEADER),
        digits(&format!("02 {CANCELLED_HEAD} {CANCELLED_END}")),
        String::new(),
    ];
    assert_eq!(image(&cancelled), lines.join("\n"));
    // It is of caller 5.
    let (mut out, mut length) = (vec![0xee; 1_000], 7);
    let refused = raw::convert(image(&cancelled).as_bytes(), &mut out, &mut length);
    assert_eq!((refused, length), (Err(Error::NotConvertible), 7));
    assert!(out == vec![0xee; 1_000]);
}

/// A queue with one record that spends one id and reads another.
#[test]
fn the_reading_record() {
    let header = "06 00000002 0000000a 00000001 00000001 \
         00000002 00000000 00000000 00000000 00000000 00000000 00000000 00000000 \
         00000000 00000000 00000000 00000000 00000000 00000000 00000000 00000000 \
         0000000000000001 00000001 00 0000000000000000 00000001";
    let head = "2222222222222222222222222222222222222222222222222222222222222222 00 00 00 \
         0000000000000005 00 00 0000000000000000 00 0000000000000001 00000002 0000000000000001 00";
    let input = "0001 3333333333333333333333333333333333333333333333333333333333333333";
    let read = "0001 4444444444444444444444444444444444444444444444444444444444444444";
    let record = format!("02 {head} 00 0000000000000000 01 {input} 0000 {read} 00000002 abcd");
    let expected = area(&format!("00000001 {header} {record}"));
    let fresh = area(&format!("00000000 {HEADER}"));
    let args = raw::AdmitArgs {
        id: &[0x22; 32],
        caller: 0,
        inputs: &[0x33; 32],
        outputs: &[],
        reads: &[0x44; 32],
        signed: &[0xab, 0xcd],
        now: 5,
        time_flag: 0,
        time: 0,
        height_flag: 0,
        height: 0,
        priority: 0,
        label_flag: 0,
        label: &[],
        fee: 1,
        cost: 1,
        tip_height: 1,
        tip_flag: 0,
        tip: &[],
    };
    let entry = unhex(&format!("{head} {input} {read}"));
    let (mut next, mut out) = (vec![0; NEED], vec![0xee; entry.len()]);
    let kind = raw::admit(&fresh, &mut next, &args, &mut out);
    assert_eq!(kind, Ok(Kind::Whole));
    assert!(next == expected);
    assert_eq!(out, entry);
    let lines = [digits(header), digits(&record), String::new()];
    assert_eq!(image(&next), lines.join("\n"));
    // Whole lists, and over K by itself.
    for (reads, error) in [
        (&[0x44; 31][..], Error::Malformed),
        (&[0x44; 64], Error::TooManyInputs),
    ] {
        let wrong = raw::AdmitArgs { reads, ..args };
        let refused = raw::admit(&fresh, &mut next, &wrong, &mut out);
        assert_eq!(refused, Err(error));
    }
    // Both halves of 20.
    let (cur, mut next) = (next, vec![0; NEED]);
    let other = raw::AdmitArgs {
        id: &[0x23; 32],
        ..args
    };
    for (inputs, reads) in [([0x44; 32], [0x55; 32]), ([0x55; 32], [0x33; 32])] {
        let meets = raw::AdmitArgs {
            inputs: &inputs,
            reads: &reads,
            ..other
        };
        let refused = raw::admit(&cur, &mut next, &meets, &mut out);
        assert_eq!(refused, Err(Error::ReadAndSpent));
    }
    // The same is read by both.
    let apart = raw::AdmitArgs {
        inputs: &[0x55; 32],
        ..other
    };
    assert_eq!(
        raw::admit(&cur, &mut next, &apart, &mut out),
        Ok(Kind::Whole)
    );
}

/// Of the kinds that older images have.
#[test]
fn a_fresh_area_with_an_older_kind_byte() {
    for kind in [1, 3, 4, 5] {
        let mut lent = area(&format!("00000000 {HEADER}"));
        lent[4] = kind;
        assert_eq!(raw::sound(&lent), Err(Error::AreaNotSound));
        // Nor is what a library before P8 had as its area one.
        let lent = area(&format!("00000000 {kind:02x} {REST}"));
        assert_eq!(raw::sound(&lent), Err(Error::AreaNotSound));
    }
}

#[test]
fn one_wrong_byte_in_the_cancelled_record() {
    let cancelled = cancelled_area();
    let used = 4 + unhex(CANCELLED_HEADER).len() + 1 + unhex(CANCELLED_HEAD).len() + 10;
    // Bytes that may have any value: the persisted height, the revision, the cursor, the id,
    // created, the priority, fee, size and cost.
    let free = [0..4, 85..97, 111..143, 146..154, 156..164, 165..185];
    for at in 0..NEED {
        let mut damaged = cancelled.clone();
        damaged[at] ^= 0x40;
        let sound = free.iter().any(|range| range.contains(&at));
        // The counter may be higher.
        let sound = sound || (98..106).contains(&at);
        assert_eq!(raw::sound(&damaged).is_ok(), sound, "byte {at} of {used}");
    }
}
