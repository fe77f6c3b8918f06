//! The image: lines of lowercase hexadecimal, one frame a line, each ended by byte 10.

use crate::frame::{self, HeaderKind, Reader};
use crate::sound::is_sound;
use crate::values::{Caller, Queue};

const LINE_END: u8 = 10;

/// The image, of the newest kind.
pub fn encode(queue: &Queue) -> Vec<u8> {
    encode_as(HeaderKind::NEWEST, queue)
}

/// The text under a header of this kind. It is an image where that kind can hold the queue.
pub fn encode_as(kind: HeaderKind, queue: &Queue) -> Vec<u8> {
    let mut text = Vec::new();
    put_line(&mut text, &frame::header(kind, queue));
    for record in &queue.records {
        put_line(&mut text, &frame::record(kind, record));
    }
    text
}

/// Where the digits of the `n`-th record's withdrawn mark begin in the queue's image of this kind.
pub fn mark_place(kind: HeaderKind, queue: &Queue, n: usize) -> usize {
    let lines = 1 + n;
    2 * frame::mark_place(kind, queue, n) + lines
}

/// Where the digits of the `n`-th record's caller begin in the queue's newest image.
pub fn caller_place(queue: &Queue, n: usize) -> usize {
    let lines = 1 + n;
    2 * frame::caller_place(queue, n) + lines
}

/// Where the digits of the `n`-th record's priority begin in the queue's image of this kind.
pub fn priority_place(kind: HeaderKind, queue: &Queue, n: usize) -> usize {
    let lines = 1 + n;
    2 * frame::priority_place(kind, queue, n) + lines
}

/// Where the digits of the `n`-th record's read count begin in the queue's newest image; nothing for a
/// tombstone.
pub fn reads_place(queue: &Queue, n: usize) -> Option<usize> {
    let lines = 1 + n;
    frame::reads_place(queue, n).map(|place| 2 * place + lines)
}

/// Where the digits of a caller's share begin in a newest image.
pub fn share_place(caller: Caller) -> usize {
    2 * frame::share_place(caller)
}

fn put_line(text: &mut Vec<u8>, frame: &[u8]) {
    for byte in frame {
        text.push(digit(byte >> 4));
        text.push(digit(byte & 15));
    }
    text.push(LINE_END);
}

fn digit(value: u8) -> u8 {
    b"0123456789abcdef"[usize::from(value)]
}

/// The queue of which this is the image, in any kind, persisted set to the cursor height; nothing
/// unless that queue is sound.
pub fn decode(text: &[u8]) -> Option<Queue> {
    whole(text).map(|(_, queue)| queue)
}

/// The same of an image of this kind alone.
pub fn decode_as(kind: HeaderKind, text: &[u8]) -> Option<Queue> {
    whole(text).and_then(|(own, queue)| (own == kind).then_some(queue))
}

fn whole(text: &[u8]) -> Option<(HeaderKind, Queue)> {
    let (kind, queue) = parse(text)?;
    (is_sound(&queue) && encode_as(kind, &queue) == text).then_some((kind, queue))
}

/// Each record is read under the header's kind.
fn parse(text: &[u8]) -> Option<(HeaderKind, Queue)> {
    let mut lines = text.split_inclusive(|byte| *byte == LINE_END);
    let header = whole_frame(lines.next()?, |reader| reader.header())?;
    let mut queue = header.queue;
    queue.persisted = queue.cursor;
    for line in lines {
        queue
            .records
            .push(whole_frame(line, |reader| reader.record(header.kind))?);
    }
    let whole = queue.records.len() as u64 == u64::from(header.record_count);
    whole.then_some((header.kind, queue))
}

/// What `read` reads from the line's bytes, all of them.
fn whole_frame<T>(line: &[u8], read: impl Fn(&mut Reader<'_>) -> Option<T>) -> Option<T> {
    let bytes = line_bytes(line)?;
    let mut reader = Reader::new(&bytes);
    let value = read(&mut reader)?;
    reader.rest().is_empty().then_some(value)
}

fn line_bytes(line: &[u8]) -> Option<Vec<u8>> {
    let (end, digits) = line.split_last()?;
    if *end != LINE_END || digits.len() % 2 != 0 {
        return None;
    }
    digits
        .chunks(2)
        .map(|two| Some(value(two[0])? << 4 | value(two[1])?))
        .collect()
}

fn value(digit: u8) -> Option<u8> {
    match digit {
        b'0'..=b'9' => Some(digit - b'0'),
        b'a'..=b'f' => Some(digit - b'a' + 10),
        _ => None,
    }
}
