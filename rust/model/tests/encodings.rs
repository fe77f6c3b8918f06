//! Encodings of random queues: read back whole, and refused when damaged.

use model::random::{self, Rng};
use model::{area, image, sound, Caller, HeaderKind, Queue, State};

/// Of caller 0 alone under all to caller 0, or with other shares and callers; with read ids or without;
/// with priorities of 32 bits or of more.
fn queue(rng: &mut Rng) -> Queue {
    let limits = random::small_limits(rng);
    let mut queue = random::queue(rng, limits);
    if rng.once_in(2) {
        queue = random::with_callers(rng, queue);
    }
    if rng.once_in(2) {
        queue = random::with_reads(rng, queue);
    }
    match rng.once_in(3) {
        true => random::with_wide(rng, queue),
        false => queue,
    }
}

#[test]
fn random_queues_are_sound_and_read_back() {
    let mut rng = Rng::new(1);
    let mut records = 0;
    for _ in 0..20_000 {
        let queue = queue(&mut rng);
        assert_eq!(sound::broken_rule(&queue), None);
        let bytes = area::encode(&queue);
        assert_eq!(bytes.len(), queue.limits.need());
        assert_eq!(area::decode(&bytes).as_ref(), Some(&queue));
        assert_eq!(image::decode(&image::encode(&queue)), Some(opened(&queue)));
        records += queue.records.len();
    }
    assert!(records > 40_000, "too few records: {records}");
}

/// The queue as opening gives it.
fn opened(queue: &Queue) -> Queue {
    Queue {
        persisted: queue.cursor,
        ..queue.clone()
    }
}

/// An image with these digits as its header's kind.
fn with_kind(text: &[u8], kind: u8) -> Vec<u8> {
    [format!("{kind:02x}").as_bytes(), &text[2..]].concat()
}

/// The queue with nothing in it that this kind has not: all of caller 0, nothing read, or of each priority
/// the last 32 bits with their sign.
fn bared(queue: &Queue, kind: HeaderKind) -> Queue {
    let mut queue = queue.clone();
    if !kind.has_callers() {
        queue.limits.shares = [0; 16];
        queue.limits.shares[0] = queue.limits.pending;
    }
    for record in &mut queue.records {
        if !kind.has_callers() {
            record.caller = Caller(0);
        }
        if !kind.is_wide() {
            record.priority = i64::from(record.priority as i32);
        }
        if let (false, Some(holder)) = (kind.has_reads(), &mut record.holder) {
            holder.reads.clear();
        }
    }
    queue
}

fn has_holders(queue: &Queue) -> bool {
    queue.holders().next().is_some()
}

/// A text with priorities of 8 bytes is an image of kind 06; one of 4 bytes with shares, callers and read
/// ids is of kind 05; one without read ids is of kind 04; one without shares and callers besides is of kind
/// 03, and of 01 where no mark is 3. An older one opens with every value unchanged, priorities with their
/// sign, without read ids before 05 and, before 04, all to caller 0. No other kind is one.
#[test]
fn images_of_every_kind() {
    let mut rng = Rng::new(4);
    let mut of = [0; 5];
    for _ in 0..2_000 {
        let queue = queue(&mut rng);
        assert_eq!(image::encode(&queue)[..2], *b"06");
        let has_mark_3 = (queue.records.iter()).any(|record| record.withdrawn as u8 == 3);
        // Kinds whose frames of this queue have the same fields.
        let alike = |form: HeaderKind, kind: HeaderKind| {
            let counts = form.has_reads() == kind.has_reads() || !has_holders(&queue);
            let widths = form.is_wide() == kind.is_wide() || queue.records.is_empty();
            form.has_callers() == kind.has_callers() && counts && widths
        };
        for form in HeaderKind::ALL {
            let (text, bare) = (image::encode_as(form, &queue), bared(&queue, form));
            assert_eq!(text[..2], *format!("{:02x}", form as u8).as_bytes());
            for number in 0..=255 {
                let kind = HeaderKind::from_number(number);
                let opens = kind.is_some_and(|kind| alike(form, kind));
                let expected = (opens && !(number == 1 && has_mark_3)).then(|| opened(&bare));
                let found = image::decode(&with_kind(&text, number));
                assert_eq!(found, expected, "{form:?} as {number}");
                if let Some(kind) = kind {
                    let text = with_kind(&text, number);
                    assert_eq!(image::decode_as(kind, &text), expected);
                    let mut others = HeaderKind::ALL.into_iter().filter(|other| *other != kind);
                    assert!(others.all(|other| image::decode_as(other, &text).is_none()));
                }
            }
            let marked = form == HeaderKind::K01 && has_mark_3;
            assert_eq!(form.can_hold(&queue), bare == queue && !marked, "{form:?}");
        }
        let oldest = HeaderKind::ALL
            .iter()
            .position(|kind| kind.can_hold(&queue));
        of[oldest.expect("kind 06 can")] += 1;
    }
    assert!(of.iter().min() > Some(&15), "{of:?}");
}

/// The eight bytes of a priority, of holders and tombstones, under the newest kind; and the four under each
/// other, with their sign.
#[test]
fn priorities_of_every_record() {
    let mut rng = Rng::new(13);
    let (mut holders, mut tombstones) = (0, 0);
    for _ in 0..300 {
        let queue = queue(&mut rng);
        let (bytes, text) = (area::encode(&queue), image::encode(&queue));
        for (n, record) in queue.records.iter().enumerate() {
            let place = area::priority_place(&queue, n);
            assert_eq!(bytes[place..place + 8], record.priority.to_be_bytes());
            let digits = image::priority_place(HeaderKind::NEWEST, &queue, n);
            for priority in PRIORITIES {
                let mut other = queue.clone();
                other.records[n].priority = priority;
                let mut bytes = bytes.clone();
                bytes[place..place + 8].copy_from_slice(&priority.to_be_bytes());
                assert_eq!(area::decode(&bytes).as_ref(), Some(&other));
                let mut text = text.clone();
                text[digits..digits + 16].copy_from_slice(format!("{priority:016x}").as_bytes());
                assert_eq!(image::decode(&text), Some(opened(&other)));
            }
            *(match record.holder {
                Some(_) => &mut holders,
                None => &mut tombstones,
            }) += 1;
        }
        for kind in HeaderKind::ALL {
            let bare = bared(&queue, kind);
            if kind == HeaderKind::NEWEST || !kind.can_hold(&bare) {
                continue;
            }
            let text = image::encode_as(kind, &bare);
            for n in 0..bare.records.len() {
                let digits = image::priority_place(kind, &bare, n);
                for (shown, priority) in SIGNS {
                    let mut text = text.clone();
                    text[digits..digits + 8].copy_from_slice(shown.as_bytes());
                    let mut other = bare.clone();
                    other.records[n].priority = priority;
                    assert_eq!(image::decode(&text), Some(opened(&other)), "{kind:?}");
                    assert!(kind.can_hold(&other));
                    assert_eq!(image::encode_as(kind, &other), text);
                }
                for priority in PRIORITIES {
                    let mut other = bare.clone();
                    other.records[n].priority = priority;
                    let narrow = i32::try_from(priority).is_ok();
                    assert_eq!(kind.can_hold(&other), narrow, "{kind:?}, {priority}");
                }
            }
        }
    }
    assert!(holders > 100 && tombstones > 100, "{holders}, {tombstones}");
}

const PRIORITIES: [i64; 13] = [
    0,
    1,
    -1,
    (1 << 31) - 1,
    1 << 31,
    -(1 << 31),
    -(1 << 31) - 1,
    (1 << 32) - 1,
    1 << 32,
    -(1 << 32),
    i64::MAX,
    i64::MIN,
    1_700_000_000_000,
];

/// The digits under an older kind, and the priority.
const SIGNS: [(&str, i64); 6] = [
    ("00000000", 0),
    ("00000001", 1),
    ("ffffffff", -1),
    ("7fffffff", 2_147_483_647),
    ("80000000", -2_147_483_648),
    ("fffffffe", -2),
];

/// Of a holder's read count every byte and of its read ids each one: what is sound is read back, and
/// all else is refused.
#[test]
fn reads_of_every_holder() {
    let mut rng = Rng::new(12);
    let (mut sound, mut refused) = (0, 0);
    for _ in 0..300 {
        let queue = queue(&mut rng);
        let (bytes, text) = (area::encode(&queue), image::encode(&queue));
        for (n, record) in queue.records.iter().enumerate() {
            let place = area::reads_place(&queue, n);
            assert_eq!(place.is_some(), record.holder.is_some());
            let Some(place) = place else {
                assert_eq!(image::reads_place(&queue, n), None);
                continue;
            };
            let digits = image::reads_place(&queue, n).expect("a holder");
            let count = record.reads().len();
            assert_eq!(bytes[place..place + 2], (count as u16).to_be_bytes());
            let shown = format!("{count:04x}");
            assert_eq!(text[digits..digits + 4], *shown.as_bytes());
            for other in [0, 1, 2, 3, 4, 0x100, 0xffff] {
                if other == count {
                    continue;
                }
                let mut bytes = bytes.clone();
                bytes[place..place + 2].copy_from_slice(&(other as u16).to_be_bytes());
                match area::decode(&bytes) {
                    Some(queue) => assert!(bytes.starts_with(&area::encode(&queue))),
                    None => refused += 1,
                }
                let mut text = text.clone();
                text[digits..digits + 4].copy_from_slice(format!("{other:04x}").as_bytes());
                // A line is as long as its frame: another count leaves no other whole frame here.
                let decoded = image::decode(&text);
                assert!(decoded.is_none_or(|queue| image::encode(&queue) == text));
            }
            for at in 0..count {
                let read = random::box_id(&mut rng, &queue.limits);
                let mut other = queue.clone();
                other.records[n].holder.as_mut().expect("a holder").reads[at] = read;
                let expected = sound::is_sound(&other).then_some(other);
                sound += usize::from(expected.is_some());
                refused += usize::from(expected.is_none());
                let mut bytes = bytes.clone();
                let id = place + 2 + 32 * at;
                bytes[id..id + 32].copy_from_slice(&read);
                assert_eq!(area::decode(&bytes), expected);
            }
        }
    }
    assert!(sound > 100 && refused > 100, "{sound}, {refused}");
}

/// Of every record, tombstones too: 0 to 15, and no other byte.
#[test]
fn callers_of_every_record() {
    let mut rng = Rng::new(8);
    let (mut holders, mut tombstones) = (0, 0);
    for _ in 0..200 {
        let queue = queue(&mut rng);
        let (bytes, text) = (area::encode(&queue), image::encode(&queue));
        for (n, record) in queue.records.iter().enumerate() {
            let place = area::caller_place(&queue, n);
            assert_eq!(bytes[place], record.caller.0);
            let digits = image::caller_place(&queue, n);
            for caller in 0..=255 {
                let mut other = queue.clone();
                other.records[n].caller = Caller(caller);
                let expected = (caller <= 15).then_some(other);
                let mut bytes = bytes.clone();
                bytes[place] = caller;
                assert_eq!(area::decode(&bytes), expected, "caller {caller}");
                let mut text = text.clone();
                text[digits..digits + 2].copy_from_slice(format!("{caller:02x}").as_bytes());
                let expected = expected.as_ref().map(opened);
                assert_eq!(image::decode(&text), expected, "caller {caller}");
            }
            *(match record.holder {
                Some(_) => &mut holders,
                None => &mut tombstones,
            }) += 1;
        }
    }
    assert!(holders > 100 && tombstones > 100, "{holders}, {tombstones}");
}

/// Each from 0 to P, whatever its caller has pending.
#[test]
fn shares_of_every_caller() {
    let mut rng = Rng::new(9);
    let mut above = 0;
    for _ in 0..500 {
        let queue = queue(&mut rng);
        let (bytes, text) = (area::encode(&queue), image::encode(&queue));
        let top = queue.limits.pending;
        for caller in (0..16).map(Caller) {
            let place = area::share_place(caller);
            let at = usize::from(caller.0);
            assert_eq!(
                bytes[place..place + 4],
                queue.limits.shares[at].to_be_bytes()
            );
            let digits = image::share_place(caller);
            for share in [0, top - 1, top, top + 1, top + 256, 1 << 24, u32::MAX] {
                let mut other = queue.clone();
                other.limits.shares[at] = share;
                let expected = (share <= top).then_some(other);
                above += u64::from(
                    expected
                        .as_ref()
                        .is_some_and(|queue| queue.pending_of(caller).count() > share as usize),
                );
                let mut bytes = bytes.clone();
                bytes[place..place + 4].copy_from_slice(&share.to_be_bytes());
                assert_eq!(area::decode(&bytes), expected, "share {share}");
                let mut text = text.clone();
                text[digits..digits + 8].copy_from_slice(format!("{share:08x}").as_bytes());
                let expected = expected.as_ref().map(opened);
                assert_eq!(image::decode(&text), expected, "share {share}");
            }
        }
    }
    assert!(above > 100, "{above}");
}

/// An area has the newest kind alone.
#[test]
fn areas_of_other_kinds_are_refused() {
    let mut rng = Rng::new(5);
    for _ in 0..200 {
        let queue = queue(&mut rng);
        let mut bytes = area::encode(&queue);
        for kind in 0..=255 {
            bytes[4] = kind;
            let expected = (kind == 6).then_some(&queue);
            assert_eq!(area::decode(&bytes).as_ref(), expected, "kind {kind}");
        }
    }
}

/// The marks are 0, 3, 4 and 5; only a Mined tombstone has one other than 0.
#[test]
fn marks_of_every_record() {
    let mut rng = Rng::new(6);
    let mut taken = std::collections::BTreeMap::new();
    for _ in 0..300 {
        let queue = queue(&mut rng);
        let (bytes, text) = (area::encode(&queue), image::encode(&queue));
        for (n, record) in queue.records.iter().enumerate() {
            let place = area::mark_place(&queue, n);
            assert_eq!(bytes[place], record.withdrawn as u8);
            let digits = image::mark_place(HeaderKind::NEWEST, &queue, n);
            assert_eq!(text[digits..digits + 2], [b'0', b'0' + bytes[place]]);
            let may_be_marked = record.state == State::Mined && record.holder.is_none();
            for mark in 0..=255 {
                let mut bytes = bytes.clone();
                bytes[place] = mark;
                let expected = mark == 0 || (may_be_marked && [3, 4, 5].contains(&mark));
                assert_eq!(area::decode(&bytes).is_some(), expected, "mark {mark}");
                *taken.entry((mark, expected)).or_insert(0) += 1;
            }
        }
    }
    assert!(taken[&(3, true)] > 50 && taken[&(3, false)] > 50);
}

/// Every rule is met by a queue that breaks it first.
#[test]
fn altered_queues_break_every_rule() {
    let mut rng = Rng::new(2);
    let mut broken = std::collections::BTreeMap::new();
    for _ in 0..60_000 {
        let queue = queue(&mut rng);
        let altered = random::altered(&mut rng, &queue);
        let rule = sound::broken_rule(&altered);
        let decoded = area::decode(&area::encode(&altered));
        match rule {
            None => assert_eq!(decoded.as_ref(), Some(&altered)),
            Some(_) => assert_eq!(decoded, None),
        }
        *broken.entry(rule).or_insert(0) += 1;
    }
    // Eighteen rules, and the altered queues that are sound.
    assert_eq!(broken.len(), 19, "{broken:#?}");
}

/// What is decoded is always the queue whose encoding was given.
#[test]
fn damaged_bytes_are_refused_or_canonical() {
    let mut rng = Rng::new(3);
    let mut refused = 0;
    for _ in 0..40_000 {
        let queue = queue(&mut rng);
        let mut bytes = area::encode(&queue);
        random::damage(&mut rng, &mut bytes, 700);
        match area::decode(&bytes) {
            Some(queue) => assert!(bytes.starts_with(&area::encode(&queue))),
            None => refused += 1,
        }
        let mut text = image::encode(&queue);
        let length = text.len();
        random::damage(&mut rng, &mut text, length);
        match image::decode(&text) {
            Some(queue) => assert!(is_a_text_of(&text, &queue)),
            None => refused += 1,
        }
    }
    assert!(refused > 20_000, "too few refused: {refused}");
}

fn is_a_text_of(text: &[u8], queue: &Queue) -> bool {
    let mut kinds = HeaderKind::ALL.into_iter();
    kinds.any(|kind| image::encode_as(kind, queue) == text)
}
