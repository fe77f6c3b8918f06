//! Random and damaged areas and images, lent to every exported call: refused with 3 or 16 exactly
//! when the model's decoder finds no sound queue in them, and nothing lent is changed by a refusal.
//! `POKERBOX_DAMAGED_CASES` sets the number of cases; `damaged.sh` runs some under valgrind.

// Some parts wait for calls that are not exported yet.
#![cfg_attr(not(all_exported), allow(dead_code))]

mod common;
mod every;

use common::{
    area_to_write, lent_caller, lent_id, lent_priority, many, nearly_old_queue, sometimes_cut,
    sound_queue, Met,
};
use every::Args;
use model::random::{self, Rng};
use model::{area, calls, image, Caller, HeaderKind, Holder, Id, Queue, Record, State};
use pokerbox::raw;

fn cases() -> u64 {
    match std::env::var("POKERBOX_DAMAGED_CASES") {
        Ok(text) => text.parse().expect("a number of cases"),
        Err(_) => 4_000,
    }
}

/// Checks counts of answers only in a run that is long enough for them.
fn expect(met: &Met, numbers: &[u64]) {
    if cases() >= 4_000 {
        met.expect(numbers);
    }
}

/// Bytes that may or may not be a sound queue's area, with no room after them.
fn damaged_area(rng: &mut Rng) -> Vec<u8> {
    let queue = sound_queue(rng);
    let good = area::encode(&queue);
    let used = used_length(&good);
    let mut bytes = good;
    match rng.below(17) {
        0 => bytes = noise(rng),
        1 => bytes = area::encode(&random::altered(rng, &queue)),
        2 => {
            let other = area::encode(&sound_queue(rng));
            bytes = spliced(rng, &bytes, used, &other);
        }
        3 => bytes.truncate(rng.up_to(used)),
        4 => {
            // The header with noise after it.
            let from = rng.up_to(used);
            for byte in &mut bytes[from..used] {
                *byte = rng.u64() as u8;
            }
        }
        5 | 6 => put_extreme(rng, &mut bytes, used),
        7 => {}
        8 => bytes[4] = kind(rng),
        9 if !queue.records.is_empty() => {
            let n = rng.below(queue.records.len());
            bytes[area::mark_place(&queue, n)] = mark(rng);
        }
        10 if !queue.records.is_empty() => {
            let n = rng.below(queue.records.len());
            bytes[area::caller_place(&queue, n)] = caller(rng);
        }
        11 => {
            let place = area::share_place(random_caller(rng)) + rng.below(4);
            bytes[place] = share_byte(rng, &queue);
        }
        12 | 13 => {
            if let Some((n, at, put)) = other_reads(rng, &queue) {
                let place = area::reads_place(&queue, n).expect("a holder") + at;
                bytes[place..place + put.len()].copy_from_slice(&put);
            }
        }
        14 if !queue.records.is_empty() => {
            let n = rng.below(queue.records.len());
            let (at, put) = other_priority(rng);
            let place = area::priority_place(&queue, n) + at;
            bytes[place..place + put.len()].copy_from_slice(&put);
        }
        _ => {
            for _ in 0..1 + rng.below(3) {
                random::damage(rng, &mut bytes, used);
            }
        }
    }
    // So that valgrind sees a read behind the end.
    bytes.shrink_to_fit();
    bytes
}

/// A header's kind, or another number.
fn kind(rng: &mut Rng) -> u8 {
    rng.pick(&[0, 1, 1, 2, 3, 3, 4, 4, 5, 5, 6, 6, 7, 0x16, 0xff])
}

/// A caller, or another number.
fn caller(rng: &mut Rng) -> u8 {
    rng.pick(&[0, 1, 14, 15, 15, 16, 16, 17, 0x1f, 0x80, 0xff])
}

fn random_caller(rng: &mut Rng) -> Caller {
    Caller(rng.below(Caller::COUNT) as u8)
}

/// A byte of a share; in its last place around P.
fn share_byte(rng: &mut Rng, queue: &Queue) -> u8 {
    let p = queue.limits.pending as u8;
    rng.pick(&[0, 1, p, p, p + 1, p + 1, 0xff])
}

/// Other bytes for the read count of a holder or for one of its read ids: which record's, where from the
/// count on, and the bytes. Nothing where the queue has no holder.
fn other_reads(rng: &mut Rng, queue: &Queue) -> Option<(usize, usize, Vec<u8>)> {
    let holders: Vec<usize> = (0..queue.records.len())
        .filter(|n| queue.records[*n].holder.is_some())
        .collect();
    if holders.is_empty() {
        return None;
    }
    let n = rng.pick(&holders);
    let count = queue.records[n].reads().len();
    Some(match rng.below(3) {
        0 => {
            let k = queue.limits.inputs as u16;
            let other = rng.pick(&[0, 1, 2, 3, k, k + 1, 0x100, 0x7fff, 0xffff]);
            (n, 0, other.to_be_bytes().to_vec())
        }
        1 if count > 0 => {
            let at = 2 + 32 * rng.below(count);
            (n, at, random::box_id(rng, &queue.limits).to_vec())
        }
        _ => {
            let at = rng.below(2 + 32 * count);
            (n, at, vec![rng.pick(&[0, 1, 2, 0x7f, 0x80, 0xfe, 0xff])])
        }
    })
}

/// Other bytes for a priority, all eight or one: where from its first on, and the bytes.
fn other_priority(rng: &mut Rng) -> (usize, Vec<u8>) {
    match rng.once_in(2) {
        true => (0, lent_priority(rng).to_be_bytes().to_vec()),
        false => (rng.below(8), vec![rng.pick(&[0, 1, 0x7f, 0x80, 0xff])]),
    }
}

/// A withdrawn mark, or another number.
fn mark(rng: &mut Rng) -> u8 {
    rng.pick(&[0, 1, 2, 3, 3, 4, 5, 6, 0x13, 0xff])
}

/// Without the zeros at the end.
fn used_length(bytes: &[u8]) -> usize {
    bytes
        .iter()
        .rposition(|byte| *byte != 0)
        .map_or(0, |at| at + 1)
}

fn noise(rng: &mut Rng) -> Vec<u8> {
    let length = match rng.below(4) {
        0 => rng.below(4),
        1 => rng.below(80),
        _ => rng.below(4_000),
    };
    let mut bytes = rng.bytes(length);
    // Often with the kind of a header frame, so that more of it is read.
    if length > 4 && rng.once_in(2) {
        bytes[4] = HeaderKind::NEWEST as u8;
    }
    bytes
}

/// The front of one and the back of the other.
fn spliced(rng: &mut Rng, front: &[u8], used: usize, back: &[u8]) -> Vec<u8> {
    let at = rng.up_to(used);
    let from = if rng.once_in(2) {
        at
    } else {
        rng.below(back.len())
    };
    [&front[..at], &back[from.min(back.len())..]].concat()
}

/// A field that may be a count or a length becomes very large, or small.
fn put_extreme(rng: &mut Rng, bytes: &mut [u8], used: usize) {
    let width = rng.pick(&[1, 2, 4, 8]).min(used.max(1));
    let at = rng.up_to(used.saturating_sub(width));
    let field = &mut bytes[at..at + width];
    match rng.below(4) {
        0 => field.fill(0xff),
        1 => field.fill(0),
        2 => {
            field.fill(0xff);
            field[0] = 0x7f;
        }
        _ => {
            field.fill(0);
            field[0] = 0x80;
        }
    }
}

/// Rarely over K, or not whole.
fn lent_reads(rng: &mut Rng, queue: &Queue) -> Vec<u8> {
    let mut reads = random::box_ids(rng, &queue.limits);
    if rng.once_in(10) {
        reads.push(random::box_id(rng, &queue.limits));
    }
    sometimes_cut(rng, reads.concat())
}

fn args(rng: &mut Rng, queue: &Queue) -> Args {
    let mut ids: Vec<_> = (0..rng.below(5))
        .map(|_| random::tx_id(rng, &queue.limits))
        .collect();
    ids.sort();
    ids.dedup();
    let (now, height) = (random::time(rng), random::height(rng));
    Args {
        id: lent_id(rng, queue),
        caller: lent_caller(rng),
        priority: lent_priority(rng),
        ids: ids.concat(),
        reads: lent_reads(rng, queue),
        now: now.0,
        height: height.0,
        kind: rng.pick(&[2, 3, 0, u64::MAX]),
        outcome: rng.pick(&[0, 1, 2]),
        limit: random::fees_limit(rng, queue, now, height),
        budget: random::fees_budget(rng),
    }
}

/// Lends the area to every call.
#[test]
fn areas() {
    let (mut met, calls) = (Met::default(), every::calls());
    many(cases(), |rng| {
        let lent = damaged_area(rng);
        let sound = area::decode(&lent);
        let queue = sound.clone().unwrap_or_else(|| sound_queue(rng));
        let args = args(rng, &queue);
        let next = area_to_write(rng, &queue.limits);
        let length = every::VALUES + rng.below(3_000);
        let out = rng.bytes(length);
        for call in &calls {
            let (mut library_next, mut library_out) = (next.clone(), out.clone());
            let before = lent.clone();
            let number = (call.library)(&args, &lent, &mut library_next, &mut library_out);
            assert!(lent == before, "{}: the lent area was changed", call.name);
            let refused = number < 100 && number != 17;
            if refused || !call.changes {
                assert!(library_next == next, "{}: next was changed", call.name);
            }
            if refused {
                assert!(library_out == out, "{}: a refusal wrote", call.name);
            }
            if sound.is_none() {
                assert_eq!(number, 3, "{} of an area that is not sound", call.name);
            } else if call.name != "settle" {
                // Settling may find that its next area is not sound.
                assert_ne!(number, 3, "{} of a sound area", call.name);
            }
            let (mut model_next, mut model_out) = (next.clone(), out.clone());
            let expected = (call.model)(&args, &lent, &mut model_next, &mut model_out);
            assert_eq!(number, expected, "{}", call.name);
            assert!(library_next == model_next, "{}: the next area", call.name);
            assert!(library_out == model_out, "{}: the output", call.name);
        }
        met.count(if sound.is_none() { 3 } else { 100 });
    });
    expect(&met, &[3, 100]);
}

/// Lends the area as settling's next area.
#[test]
#[cfg(exported = "settle")]
fn next_areas() {
    let mut met = Met::default();
    many(cases(), |rng| {
        let cur = area::encode(&sound_queue(rng));
        let next = damaged_area(rng);
        let (kind, outcome) = (rng.pick(&[2, 3]), rng.pick(&[0, 1]));
        common::same(
            &mut met,
            &next,
            &[],
            |next, _| raw::settle(&cur, next, kind, outcome),
            |next, _| calls::settle(&cur, next, kind, outcome),
        );
        if (kind, outcome) != (2, 1) {
            let number =
                common::Number::number(raw::settle(&cur, &mut next.clone(), kind, outcome));
            assert_eq!(number == 3, area::decode(&next).is_none());
        }
    });
    expect(&met, &[2, 3, 17, 100]);
}

/// Bytes that may or may not be a sound queue's image.
fn damaged_image(rng: &mut Rng) -> Vec<u8> {
    let queue = sound_queue(rng);
    let kind_of = rng.pick(&HeaderKind::ALL);
    damaged_image_of(rng, &queue, kind_of)
}

fn damaged_image_of(rng: &mut Rng, queue: &Queue, kind_of: HeaderKind) -> Vec<u8> {
    let mut text = image::encode_as(kind_of, queue);
    let length = text.len();
    match rng.below(20) {
        0 => text = noise(rng),
        1 => text = image::encode(&random::altered(rng, queue)),
        2 => {
            let other = image::encode(&sound_queue(rng));
            text = spliced(rng, &text, length, &other);
        }
        3 => text.truncate(rng.up_to(length)),
        4 => text = area::encode(queue),
        5 | 6 => put_digits(rng, &mut text),
        7 => {
            let at = rng.below(length);
            text[at] = rng.pick(b"\n\r 0fFgG/:`@\0");
        }
        8 => text.to_ascii_uppercase().clone_into(&mut text),
        9 => {}
        10 => put_byte(&mut text, 0, kind(rng)),
        11 if !queue.records.is_empty() => {
            let n = rng.below(queue.records.len());
            put_byte(&mut text, image::mark_place(kind_of, queue, n), mark(rng));
        }
        12 if !queue.records.is_empty() => {
            let n = rng.below(queue.records.len());
            text = image::encode(queue);
            put_byte(&mut text, image::caller_place(queue, n), caller(rng));
        }
        13 => {
            text = image::encode(queue);
            let place = image::share_place(random_caller(rng)) + 2 * rng.below(4);
            put_byte(&mut text, place, share_byte(rng, queue));
        }
        14 | 15 => {
            text = image::encode(queue);
            if let Some((n, at, put)) = other_reads(rng, queue) {
                let place = image::reads_place(queue, n).expect("a holder") + 2 * at;
                for (at, byte) in put.into_iter().enumerate() {
                    put_byte(&mut text, place + 2 * at, byte);
                }
            }
        }
        16 | 17 if !queue.records.is_empty() => {
            let n = rng.below(queue.records.len());
            let (at, put) = other_priority(rng);
            text = image::encode(queue);
            let place = image::priority_place(HeaderKind::NEWEST, queue, n) + 2 * at;
            for (at, byte) in put.into_iter().enumerate() {
                put_byte(&mut text, place + 2 * at, byte);
            }
        }
        _ => {
            for _ in 0..1 + rng.below(3) {
                random::damage(rng, &mut text, length);
            }
        }
    }
    text.shrink_to_fit();
    text
}

/// The two digits of a byte.
fn put_byte(text: &mut [u8], at: usize, byte: u8) {
    text[at..at + 2].copy_from_slice(format!("{byte:02x}").as_bytes());
}

/// A field that may be a count or a length becomes very large, or small.
fn put_digits(rng: &mut Rng, text: &mut [u8]) {
    let width = 2 * rng.pick(&[1, 2, 4, 8]);
    // Frames begin at even places in the first line alone.
    let at = rng.below(text.len() - width);
    let digit = rng.pick(b"f0f8");
    for place in &mut text[at..at + width] {
        if *place != b'\n' {
            *place = digit;
        }
    }
}

#[test]
#[cfg(exported = "open")]
fn images() {
    let mut met = Met::default();
    many(4 * cases(), |rng| {
        let text = damaged_image(rng);
        let queue = image::decode(&text);
        let limits = match &queue {
            Some(queue) => queue.limits,
            None => random::small_limits(rng),
        };
        let lent = area_to_write(rng, &limits);
        let before = text.clone();
        common::same(
            &mut met,
            &lent,
            &[],
            |lent, _| raw::open(&text, lent),
            |lent, _| calls::open(&text, lent),
        );
        assert!(text == before, "the lent image was changed");
        let number = common::Number::number(raw::open(&text, &mut lent.clone()));
        assert_eq!(number == 16, queue.is_none());
    });
    expect(&met, &[2, 16, 100]);
}

/// The same, lent for their limits alone.
#[test]
#[cfg(exported = "image_limits")]
fn limits_of_images() {
    let mut met = Met::default();
    many(4 * cases(), |rng| {
        let text = damaged_image(rng);
        let before = text.clone();
        common::same_image_limits(&mut met, rng, &text);
        assert!(text == before, "the lent image was changed");
    });
    expect(&met, &[4, 16, 100]);
}

/// The same, lent to be made images of kind 01: often such that this can say, and damaged after that.
#[test]
#[cfg(exported = "convert")]
fn images_to_convert() {
    let mut met = Met::default();
    many(4 * cases(), |rng| {
        let text = match rng.once_in(4) {
            true => damaged_image(rng),
            false => {
                let queue = nearly_old_queue(rng);
                damaged_image_of(rng, &queue, HeaderKind::K06)
            }
        };
        let before = text.clone();
        common::same_convert(&mut met, rng, &text);
        assert!(text == before, "the lent image was changed");
        // 16 where it does not open, and where it is of another kind.
        let (mut out, mut length) = (vec![0; text.len()], 0);
        let number = common::Number::number(raw::convert(&text, &mut out, &mut length));
        let opens = image::decode(&text).is_some();
        assert_eq!(number == 16, !opens || !text.starts_with(b"06"));
    });
    expect(&met, &[4, 16, 22, 100]);
}

/// Every digit of a text that is converted, and every byte in its place: what comes of it is what the model
/// has.
#[test]
#[cfg(exported = "convert")]
fn every_digit_of_an_image_to_convert() {
    let mut met = Met::default();
    let queue = loop {
        let mut rng = Rng::new(met.total());
        let queue = nearly_old_queue(&mut rng);
        met.count(0);
        let (holders, all) = (queue.holders().count(), queue.records.len());
        if HeaderKind::K01.can_hold(&queue) && holders > 0 && all > holders {
            break queue;
        }
    };
    let text = image::encode(&queue);
    let (mut met, mut rng) = (Met::default(), Rng::new(1));
    let step = if cases() >= 4_000 { 1 } else { 7 };
    for at in (0..text.len()).step_by(step) {
        for byte in *b"0178fF\n" {
            let mut text = text.clone();
            text[at] = byte;
            common::same_convert(&mut met, &mut rng, &text);
        }
    }
    expect(&met, &[4, 16, 22, 100]);
}

/// Every kind byte and every mark byte of areas and images, by document 02's words and not by the
/// model. A text of kind 01 or 03 has no shares and no callers, one of 04 has both and no read ids, one
/// of 05 has all in which priorities have four bytes, one of 06 has eight.
#[test]
#[cfg(all(exported = "open", exported = "sound"))]
fn kinds_and_marks() {
    let (mut met, mut opened) = (Met::default(), Met::default());
    many(cases() / 40, |rng| {
        let queue = sound_queue(rng);
        let (bytes, text) = (area::encode(&queue), image::encode(&queue));
        let older = image::encode_as(HeaderKind::K03, &queue);
        let four = image::encode_as(HeaderKind::K04, &queue);
        let five = image::encode_as(HeaderKind::K05, &queue);
        // Without a holder there is no read count to tell 04 from 05, and without a record no priority to
        // tell 05 from 06.
        let no_holder = queue.holders().next().is_none();
        let no_record = queue.records.is_empty();
        let has_mark_3 = (queue.records.iter()).any(|record| record.withdrawn as u8 == 3);
        for kind in 0..=255 {
            let (mut bytes, mut text, mut older) = (bytes.clone(), text.clone(), older.clone());
            bytes[4] = kind;
            assert_eq!(raw::sound(&bytes).is_ok(), kind == 6, "area of kind {kind}");
            put_byte(&mut text, 0, kind);
            let taken = kind == 6 || ([4, 5].contains(&kind) && no_record);
            assert_eq!(opens(&text, &queue), taken, "image of kind {kind}");
            let mut five = five.clone();
            put_byte(&mut five, 0, kind);
            let taken = kind == 5 || (kind == 4 && no_holder) || (kind == 6 && no_record);
            assert_eq!(opens(&five, &queue), taken, "image of 05 as {kind}");
            let mut four = four.clone();
            put_byte(&mut four, 0, kind);
            let taken = kind == 4 || (kind == 5 && no_holder) || (kind == 6 && no_record);
            assert_eq!(opens(&four, &queue), taken, "image of 04 as {kind}");
            put_byte(&mut older, 0, kind);
            let taken = kind == 3 || (kind == 1 && !has_mark_3);
            assert_eq!(opens(&older, &queue), taken, "older image of kind {kind}");
        }
        for (n, record) in queue.records.iter().enumerate() {
            let may_be_marked = record.state == State::Mined && record.holder.is_none();
            let others = queue.records.iter().filter(|other| other.id != record.id);
            let other_mark_3 = others.clone().any(|other| other.withdrawn as u8 == 3);
            for mark in 0..=255 {
                let right = mark == 0 || (may_be_marked && [3, 4, 5].contains(&mark));
                let (mut bytes, mut text, mut older) = (bytes.clone(), text.clone(), older.clone());
                bytes[area::mark_place(&queue, n)] = mark;
                assert_eq!(raw::sound(&bytes).is_ok(), right, "mark {mark}");
                met.count(u64::from(right));
                let place = image::mark_place(HeaderKind::K06, &queue, n);
                put_byte(&mut text, place, mark);
                assert_eq!(opens(&text, &queue), right, "mark {mark} under 06");
                put_byte(
                    &mut older,
                    image::mark_place(HeaderKind::K03, &queue, n),
                    mark,
                );
                assert_eq!(opens(&older, &queue), right, "mark {mark} under 03");
                put_byte(&mut older, 0, 1);
                let right = right && mark != 3 && !other_mark_3;
                assert_eq!(opens(&older, &queue), right, "mark {mark} under 01");
                opened.count(u64::from(right));
            }
        }
    });
    expect(&met, &[0, 1]);
    expect(&opened, &[0, 1]);
}

/// Every caller byte of every record, and shares around P and in each of their bytes, by document 02's
/// words and not by the model.
#[test]
#[cfg(all(exported = "open", exported = "sound"))]
fn callers_and_shares() {
    let mut met = Met::default();
    many(cases() / 40, |rng| {
        let queue = sound_queue(rng);
        let (bytes, text) = (area::encode(&queue), image::encode(&queue));
        let mut check = |place: usize, digits: usize, put: &[u8], right: bool| {
            let (mut bytes, mut text) = (bytes.clone(), text.clone());
            bytes[place..place + put.len()].copy_from_slice(put);
            for (at, byte) in put.iter().enumerate() {
                put_byte(&mut text, digits + 2 * at, *byte);
            }
            assert_eq!(raw::sound(&bytes).is_ok(), right, "{put:02x?} at {place}");
            assert_eq!(opens(&text, &queue), right, "{put:02x?} at digit {digits}");
            met.count(u64::from(right));
        };
        for n in 0..queue.records.len() {
            let (place, digits) = (
                area::caller_place(&queue, n),
                image::caller_place(&queue, n),
            );
            for caller in 0..=255 {
                check(place, digits, &[caller], caller <= 15);
            }
        }
        let p = queue.limits.pending;
        for caller in (0..16).map(Caller) {
            let (place, digits) = (area::share_place(caller), image::share_place(caller));
            for share in [0, p - 1, p, p + 1, 0x100, 0x1_0000, 0x100_0000, u32::MAX] {
                check(place, digits, &share.to_be_bytes(), share <= p);
            }
        }
    });
    expect(&met, &[0, 1]);
}

/// All eight bytes of every record's priority may have any value, and under each older kind all four: the
/// sign is carried. By document 02's words, read from the area.
#[test]
#[cfg(all(exported = "open", exported = "sound"))]
fn priorities() {
    let mut met = Met::default();
    many(cases() / 40, |rng| {
        let queue = sound_queue(rng);
        let (bytes, text) = (area::encode(&queue), image::encode(&queue));
        let mut lent = vec![0; queue.limits.need()];
        for n in 0..queue.records.len() {
            let place = area::priority_place(&queue, n);
            let digits = image::priority_place(HeaderKind::NEWEST, &queue, n);
            for _ in 0..8 {
                let (at, put) = other_priority(rng);
                let (mut bytes, mut text) = (bytes.clone(), text.clone());
                bytes[place + at..place + at + put.len()].copy_from_slice(&put);
                for (at, byte) in (at..).zip(put) {
                    put_byte(&mut text, digits + 2 * at, byte);
                }
                assert_eq!(raw::sound(&bytes), Ok(()));
                assert_eq!(raw::open(&text, &mut lent), Ok(()));
                assert_eq!(lent[place..place + 8], bytes[place..place + 8]);
                met.count(6);
            }
            for kind in [
                HeaderKind::K01,
                HeaderKind::K03,
                HeaderKind::K04,
                HeaderKind::K05,
            ] {
                let mut text = image::encode_as(kind, &queue);
                let digits = image::priority_place(kind, &queue, n);
                for put in [u32::MAX, 1 << 31, i32::MAX as u32, 0, 1, rng.u64() as u32] {
                    text[digits..digits + 8].copy_from_slice(format!("{put:08x}").as_bytes());
                    if raw::open(&text, &mut lent).is_err() {
                        // Mark 3 in one of kind 01.
                        assert_eq!(kind, HeaderKind::K01);
                        continue;
                    }
                    let sign = if put < 1 << 31 { 0 } else { 0xff };
                    // Where the record stands by the queue as it was opened.
                    let opened = area::decode(&lent).expect("a sound area");
                    let place = area::priority_place(&opened, n);
                    assert_eq!(
                        lent[place..place + 4],
                        [sign; 4],
                        "{put:08x} under {kind:?}"
                    );
                    assert_eq!(lent[place + 4..place + 8], put.to_be_bytes());
                    met.count(kind as u64);
                }
            }
        }
    });
    expect(&met, &[1, 3, 4, 5, 6]);
}

/// Read ids and inputs that meet, and over K of them, by document 02's words and not by the model; and
/// other read counts.
#[test]
#[cfg(all(exported = "open", exported = "sound"))]
fn read_ids() {
    let mut met = Met::default();
    many(cases() / 8, |rng| {
        let queue = sound_queue(rng);
        let (bytes, text) = (area::encode(&queue), image::encode(&queue));
        let mut check = |other: &Queue, right: bool| {
            assert_eq!(raw::sound(&area::encode(other)).is_ok(), right);
            assert_eq!(opens(&image::encode(other), &queue), right);
            met.count(u64::from(right));
        };
        for (n, record) in queue.records.iter().enumerate() {
            let Some(old) = &record.holder else {
                continue;
            };
            let with = |holder: Holder| {
                let mut queue = queue.clone();
                queue.records[n].holder = Some(holder);
                queue
            };
            let others = || queue.records.iter().filter(|other| other.id != record.id);
            let spent: Vec<Id> = others().flat_map(Record::inputs).copied().collect();
            let read: Vec<Id> = others().flat_map(Record::reads).copied().collect();
            let own = record.asks_for().chain(record.outputs()).copied();
            let some: Vec<Id> = spent.iter().chain(&read).copied().chain(own).collect();
            for id in some {
                for at in 0..old.reads.len() {
                    let mut holder = old.clone();
                    holder.reads[at] = id;
                    check(&with(holder), !spent.contains(&id));
                }
                for at in 0..old.inputs.len() {
                    let mut holder = old.clone();
                    holder.inputs[at] = id;
                    check(&with(holder), !spent.contains(&id) && !read.contains(&id));
                }
            }
            let k = queue.limits.inputs as usize;
            for count in [k, k + 1] {
                let mut holder = old.clone();
                // One that no other record spends.
                let free = [0xfb; 32];
                holder.reads = vec![free; count];
                check(&with(holder), count == k);
            }
            let place = area::reads_place(&queue, n).expect("a holder");
            let digits = image::reads_place(&queue, n).expect("a holder");
            for count in [0, 1, 2, 3, 4, 0x80, 0x100, 0x8000, 0xffff_u16] {
                let (mut bytes, mut text) = (bytes.clone(), text.clone());
                for (at, byte) in count.to_be_bytes().into_iter().enumerate() {
                    bytes[place + at] = byte;
                    put_byte(&mut text, digits + 2 * at, byte);
                }
                // In an area zeros may follow, which are an id and a byte count, too.
                let right = area::decode(&bytes).is_some();
                assert_eq!(raw::sound(&bytes).is_ok(), right, "count {count}");
                let right = usize::from(count) == old.reads.len();
                assert_eq!(opens(&text, &queue), right, "count {count}");
            }
        }
    });
    expect(&met, &[0, 1]);
}

/// Whether the text opens, or is refused by 16, into an area for this queue.
#[cfg(exported = "open")]
fn opens(text: &[u8], queue: &Queue) -> bool {
    let mut lent = vec![0; queue.limits.need()];
    match common::Number::number(raw::open(text, &mut lent)) {
        100 => true,
        16 => false,
        other => panic!("opening gave back {other}"),
    }
}

/// Areas of no bytes, and all limits that a header may claim, in an area too short for them.
#[test]
fn short_areas() {
    let calls = every::calls();
    let mut rng = Rng::new(1);
    let args = args(&mut rng, &sound_queue(&mut Rng::new(2)));
    for limit in [0, 1, 2, 127, 128, 1_024, 16_777_216, 1 << 31, u32::MAX] {
        for length in [0, 1, 3, 4, 5, 20, 21, 22, 84, 85, 109, 110, 111, 511, 2_177] {
            let mut bytes = vec![0, 0, 0, 0, HeaderKind::NEWEST as u8];
            for _ in 0..4 {
                bytes.extend(limit.to_be_bytes());
            }
            bytes.resize(length, 0);
            let lent = bytes.clone();
            assert!(area::decode(&lent).is_none());
            for call in &calls {
                let (mut next, mut out) = (vec![7; 4_000], vec![7; 400]);
                let number = (call.library)(&args, &lent, &mut next, &mut out);
                assert_eq!(number, 3, "{} of {length} bytes", call.name);
                assert!(next == [7; 4_000] && out == [7; 400] && lent == bytes);
            }
        }
    }
}
