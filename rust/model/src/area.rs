//! The area: docs/AREA.md.

use crate::frame::{self, HeaderKind, Reader};
use crate::sound::is_sound;
use crate::values::{Caller, Height, Id, Queue};

/// Persisted height, header frame, record frames, zeros up to the need. A queue that is not
/// sound may take more than the need.
pub fn encode(queue: &Queue) -> Vec<u8> {
    let mut bytes = used(queue);
    let length = bytes.len().max(queue.limits.need());
    bytes.resize(length, 0);
    bytes
}

/// The encoding without the zeros.
fn used(queue: &Queue) -> Vec<u8> {
    let mut bytes = queue.persisted.0.to_be_bytes().to_vec();
    bytes.extend(frame::header(HeaderKind::NEWEST, queue));
    for record in &queue.records {
        bytes.extend(frame::record(HeaderKind::NEWEST, record));
    }
    bytes
}

/// The queue whose encoding, of the newest kind, the area starts with; nothing unless that queue is
/// sound and the area is as long as its limits need.
pub fn decode(area: &[u8]) -> Option<Queue> {
    let queue = parse(area)?;
    let need = queue.limits.need();
    let sound = area.len() >= need && is_sound(&queue) && area[..need] == encode(&queue);
    sound.then_some(queue)
}

fn parse(area: &[u8]) -> Option<Queue> {
    let mut reader = Reader::new(area);
    let persisted = Height(reader.u32()?);
    let header = reader.header()?;
    let mut queue = header.queue;
    queue.persisted = persisted;
    for _ in 0..header.record_count {
        queue.records.push(reader.record(header.kind)?);
    }
    Some(queue)
}

/// Where a holder's signed bytes stand in the area of this queue: start and length.
pub fn signed_bytes_place(queue: &Queue, id: &Id) -> Option<(usize, usize)> {
    let mut end = 4 + frame::header(HeaderKind::NEWEST, queue).len();
    for record in &queue.records {
        end += frame::record(HeaderKind::NEWEST, record).len();
        if record.id == *id {
            // The signed bytes are the last field of a holder's frame.
            let length = record.holder.as_ref()?.bytes.len();
            return Some((end - length, length));
        }
    }
    None
}

/// Where the `n`-th record's withdrawn mark stands in the area of this queue.
pub fn mark_place(queue: &Queue, n: usize) -> usize {
    4 + frame::mark_place(HeaderKind::NEWEST, queue, n)
}

/// Where the `n`-th record's caller stands in the area of this queue.
pub fn caller_place(queue: &Queue, n: usize) -> usize {
    4 + frame::caller_place(queue, n)
}

/// Where the `n`-th record's priority stands in the area of this queue.
pub fn priority_place(queue: &Queue, n: usize) -> usize {
    4 + frame::priority_place(HeaderKind::NEWEST, queue, n)
}

/// Where the `n`-th record's read count stands in the area of this queue; nothing for a tombstone.
pub fn reads_place(queue: &Queue, n: usize) -> Option<usize> {
    frame::reads_place(queue, n).map(|place| 4 + place)
}

/// Where a caller's share stands in an area.
pub fn share_place(caller: Caller) -> usize {
    4 + frame::share_place(caller)
}
