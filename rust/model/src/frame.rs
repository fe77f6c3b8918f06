//! The frames that the area and the image share. Numbers are big-endian; a flag is 0 or 1;
//! an absent value has no bytes.

use crate::values::{
    Caller, Confirmation, FinishNumber, Height, Holder, Id, Limits, Queue, Reason, Record, Shares,
    State, TimeMs, Withdrawn,
};

const RECORD_KIND: u8 = 2;

/// The kind of a header: which values the frames after it may have.
#[derive(Debug, Clone, Copy, PartialEq, Eq, PartialOrd, Ord)]
pub enum HeaderKind {
    /// Document 01.
    K01 = 1,
    /// Document 02, P4: the withdrawn mark 3.
    K03 = 3,
    /// Document 02, P8: a share for each caller, and each record's caller.
    K04 = 4,
    /// Document 02, P11: each holder's read ids.
    K05 = 5,
    /// Document 02, P13: priorities of 64 bits.
    K06 = 6,
}

impl HeaderKind {
    pub const ALL: [HeaderKind; 5] = [
        HeaderKind::K01,
        HeaderKind::K03,
        HeaderKind::K04,
        HeaderKind::K05,
        HeaderKind::K06,
    ];
    /// What areas and new images have.
    pub const NEWEST: HeaderKind = HeaderKind::K06;

    pub fn from_number(number: u8) -> Option<HeaderKind> {
        match number {
            1 => Some(HeaderKind::K01),
            3 => Some(HeaderKind::K03),
            4 => Some(HeaderKind::K04),
            5 => Some(HeaderKind::K05),
            6 => Some(HeaderKind::K06),
            _ => None,
        }
    }

    /// Whether a record under such a header may have this withdrawn mark.
    pub fn has_mark(self, mark: Withdrawn) -> bool {
        mark != Withdrawn::RolledBackAfterRelease || self >= HeaderKind::K03
    }

    /// Whether frames of this kind have shares and callers. Where they have not, all is of caller 0.
    pub fn has_callers(self) -> bool {
        self >= HeaderKind::K04
    }

    /// Whether record frames of this kind have read ids. Where they have not, nothing is read.
    pub fn has_reads(self) -> bool {
        self >= HeaderKind::K05
    }

    /// Whether record frames of this kind have priorities of 8 bytes. Where they have not, of 4.
    pub fn is_wide(self) -> bool {
        self >= HeaderKind::K06
    }

    /// Whether an image of this kind can hold the queue.
    pub fn can_hold(self, queue: &Queue) -> bool {
        let records = || queue.records.iter();
        let shares = self.has_callers() || queue.limits.is_all_to_caller_0();
        let callers = self.has_callers() || records().all(|of| of.caller.0 == 0);
        let reads = self.has_reads() || records().all(|of| of.reads().is_empty());
        let marks = records().all(|of| self.has_mark(of.withdrawn));
        let priorities = self.is_wide() || records().all(|of| is_narrow(of.priority));
        shares && callers && reads && marks && priorities
    }
}

/// Whether 32 signed bits have it.
pub fn is_narrow(priority: i64) -> bool {
    (-(1 << 31)..1 << 31).contains(&priority)
}

/// The header's values and the number of records that follow.
pub struct Header {
    pub kind: HeaderKind,
    pub queue: Queue,
    pub record_count: u32,
}

pub fn header(kind: HeaderKind, queue: &Queue) -> Vec<u8> {
    let limits = &queue.limits;
    let mut bytes = vec![kind as u8];
    for limit in [
        limits.pending,
        limits.bytes,
        limits.tombstones,
        limits.inputs,
    ] {
        bytes.extend(limit.to_be_bytes());
    }
    if kind.has_callers() {
        bytes.extend(limits.share_bytes());
    }
    bytes.extend(queue.revision.to_be_bytes());
    put_cursor(&mut bytes, queue);
    bytes.extend(queue.counter.0.to_be_bytes());
    bytes.extend((queue.records.len() as u32).to_be_bytes());
    bytes
}

/// Cursor height 4, tip flag, tip 32.
pub fn put_cursor(bytes: &mut Vec<u8>, queue: &Queue) {
    bytes.extend(queue.cursor.0.to_be_bytes());
    put_optional(bytes, queue.tip);
}

/// A record frame after a header of this kind.
pub fn record(kind: HeaderKind, record: &Record) -> Vec<u8> {
    let mut bytes = vec![RECORD_KIND];
    put_head(&mut bytes, kind, record);
    bytes.push(record.withdrawn as u8);
    bytes.extend(record.finish.0.to_be_bytes());
    bytes.push(u8::from(record.holder.is_some()));
    if let Some(holder) = &record.holder {
        put_list(&mut bytes, &holder.inputs);
        put_list(&mut bytes, &holder.outputs);
        if kind.has_reads() {
            put_list(&mut bytes, &holder.reads);
        }
        bytes.extend((holder.bytes.len() as u32).to_be_bytes());
        bytes.extend(&holder.bytes);
    }
    bytes
}

/// From the id to the confirmation: what a record frame and an entry share.
pub fn put_head(bytes: &mut Vec<u8>, kind: HeaderKind, record: &Record) {
    bytes.extend(record.id);
    if kind.has_callers() {
        bytes.push(record.caller.0);
    }
    bytes.push(record.state as u8);
    bytes.push(record.reason as u8);
    bytes.extend(record.created.0.to_be_bytes());
    put_optional(bytes, record.time_deadline.map(|time| time.0.to_be_bytes()));
    put_optional(
        bytes,
        record.height_deadline.map(|height| height.0.to_be_bytes()),
    );
    // The last four of the eight are the number of 32 bits.
    let priority = record.priority.to_be_bytes();
    bytes.extend(if kind.is_wide() {
        &priority[..]
    } else {
        &priority[4..]
    });
    bytes.push(u8::from(record.label.is_some()));
    if let Some(label) = &record.label {
        bytes.push(label.len() as u8);
        bytes.extend(label);
    }
    bytes.extend(record.fee.to_be_bytes());
    bytes.extend(record.size.to_be_bytes());
    bytes.extend(record.cost.to_be_bytes());
    bytes.push(u8::from(record.mined.is_some()));
    if let Some(mined) = &record.mined {
        bytes.extend(mined.height.0.to_be_bytes());
        bytes.extend(mined.block);
    }
}

/// Where the `n`-th record's withdrawn mark stands under this kind, counted from the header frame's
/// first byte.
pub fn mark_place(kind: HeaderKind, queue: &Queue, n: usize) -> usize {
    let mut head = Vec::new();
    put_head(&mut head, kind, &queue.records[n]);
    id_place(kind, queue, n) + head.len()
}

/// Where the `n`-th record's caller stands in the newest kind, counted so.
pub fn caller_place(queue: &Queue, n: usize) -> usize {
    id_place(HeaderKind::NEWEST, queue, n) + 32
}

/// Where the `n`-th record's priority stands in this kind, counted so.
pub fn priority_place(kind: HeaderKind, queue: &Queue, n: usize) -> usize {
    let record = &queue.records[n];
    let caller = usize::from(kind.has_callers());
    let time = 1 + record.time_deadline.map_or(0, |_| 8);
    let height = 1 + record.height_deadline.map_or(0, |_| 4);
    id_place(kind, queue, n) + 32 + caller + 2 + 8 + time + height
}

/// Where the `n`-th record's read count stands in the newest kind, counted so; nothing for a tombstone.
pub fn reads_place(queue: &Queue, n: usize) -> Option<usize> {
    let holder = queue.records[n].holder.as_ref()?;
    let end = id_place(HeaderKind::NEWEST, queue, n + 1) - 1;
    Some(end - holder.bytes.len() - 4 - 32 * holder.reads.len() - 2)
}

/// Where the `n`-th record's id stands, counted so.
fn id_place(kind: HeaderKind, queue: &Queue, n: usize) -> usize {
    let before = queue.records[..n].iter();
    let before: usize = before.map(|before| record(kind, before).len()).sum();
    header(kind, queue).len() + before + 1
}

/// Where a caller's share stands in the header of the newest kind.
pub fn share_place(caller: Caller) -> usize {
    1 + 4 * (4 + usize::from(caller.0))
}

fn put_optional<const N: usize>(bytes: &mut Vec<u8>, value: Option<[u8; N]>) {
    bytes.push(u8::from(value.is_some()));
    bytes.extend(value.iter().flatten());
}

/// Count 2, ids.
pub fn put_list(bytes: &mut Vec<u8>, ids: &[Id]) {
    bytes.extend((ids.len() as u16).to_be_bytes());
    bytes.extend(ids.iter().flatten());
}

/// Reads frames from the start of a slice.
pub struct Reader<'a> {
    rest: &'a [u8],
}

impl<'a> Reader<'a> {
    pub fn new(bytes: &'a [u8]) -> Self {
        Self { rest: bytes }
    }

    /// What is left.
    pub fn rest(&self) -> &'a [u8] {
        self.rest
    }

    fn take(&mut self, count: usize) -> Option<&'a [u8]> {
        let (taken, rest) = self.rest.split_at_checked(count)?;
        self.rest = rest;
        Some(taken)
    }

    fn array<const N: usize>(&mut self) -> Option<[u8; N]> {
        self.take(N)?.try_into().ok()
    }

    fn byte(&mut self) -> Option<u8> {
        self.array::<1>().map(|[byte]| byte)
    }

    pub fn u32(&mut self) -> Option<u32> {
        self.array().map(u32::from_be_bytes)
    }

    fn u64(&mut self) -> Option<u64> {
        self.array().map(u64::from_be_bytes)
    }

    fn flag(&mut self) -> Option<bool> {
        match self.byte()? {
            0 => Some(false),
            1 => Some(true),
            _ => None,
        }
    }

    /// A flag, and with flag 1 what `read` reads.
    fn optional<T>(&mut self, read: impl Fn(&mut Self) -> Option<T>) -> Option<Option<T>> {
        match self.flag()? {
            false => Some(None),
            true => read(self).map(Some),
        }
    }

    fn ids(&mut self) -> Option<Vec<Id>> {
        let count = self.array().map(u16::from_be_bytes)?;
        (0..count).map(|_| self.array()).collect()
    }

    /// Without shares, as an older kind has them, all is of caller 0.
    fn limits(&mut self, kind: HeaderKind) -> Option<Limits> {
        let [p, b, t, k] = [self.u32()?, self.u32()?, self.u32()?, self.u32()?].map(u64::from);
        let limits = Limits::checked(p, b, t, k)?;
        let shares = match kind.has_callers() {
            true => self.shares()?,
            false => limits.shares,
        };
        Some(Limits { shares, ..limits })
    }

    /// Sixteen numbers of 4 bytes, whatever they are.
    pub fn shares(&mut self) -> Option<Shares> {
        let mut shares = [0; Caller::COUNT];
        for share in &mut shares {
            *share = self.u32()?;
        }
        Some(shares)
    }

    /// A header frame with P, B, T and K in range. The queue has no records yet, and persisted 0.
    pub fn header(&mut self) -> Option<Header> {
        let kind = HeaderKind::from_number(self.byte()?)?;
        let queue = Queue {
            limits: self.limits(kind)?,
            revision: self.u64()?,
            cursor: Height(self.u32()?),
            tip: self.optional(Self::array)?,
            counter: FinishNumber(self.u64()?),
            persisted: Height(0),
            records: Vec::new(),
        };
        let record_count = self.u32()?;
        Some(Header {
            kind,
            queue,
            record_count,
        })
    }

    /// A record frame after a header of this kind.
    pub fn record(&mut self, kind: HeaderKind) -> Option<Record> {
        if self.byte()? != RECORD_KIND {
            return None;
        }
        Some(Record {
            id: self.array()?,
            caller: self.caller(kind)?,
            state: State::from_number(self.byte()?)?,
            reason: Reason::from_number(self.byte()?)?,
            created: TimeMs(self.u64()?),
            time_deadline: self.optional(Self::u64)?.map(TimeMs),
            height_deadline: self.optional(Self::u32)?.map(Height),
            priority: self.priority(kind)?,
            label: self.optional(Self::label)?,
            fee: self.u64()?,
            size: self.u32()?,
            cost: self.u64()?,
            mined: self.optional(Self::confirmation)?,
            withdrawn: self.mark(kind)?,
            finish: FinishNumber(self.u64()?),
            holder: self.optional(|reader| reader.holder(kind))?,
        })
    }

    /// Any byte; without one, as in an older kind, caller 0.
    fn caller(&mut self, kind: HeaderKind) -> Option<Caller> {
        match kind.has_callers() {
            true => self.byte().map(Caller),
            false => Some(Caller(0)),
        }
    }

    /// In an older kind 4 bytes, with their sign.
    fn priority(&mut self, kind: HeaderKind) -> Option<i64> {
        match kind.is_wide() {
            true => self.array().map(i64::from_be_bytes),
            false => self.array().map(i32::from_be_bytes).map(i64::from),
        }
    }

    fn mark(&mut self, kind: HeaderKind) -> Option<Withdrawn> {
        let mark = Withdrawn::from_number(self.byte()?)?;
        kind.has_mark(mark).then_some(mark)
    }

    fn label(&mut self) -> Option<Vec<u8>> {
        let length = self.byte()?;
        self.take(usize::from(length)).map(<[u8]>::to_vec)
    }

    pub fn confirmation(&mut self) -> Option<Confirmation> {
        Some(Confirmation {
            height: Height(self.u32()?),
            block: self.array()?,
        })
    }

    fn holder(&mut self, kind: HeaderKind) -> Option<Holder> {
        Some(Holder {
            inputs: self.ids()?,
            outputs: self.ids()?,
            reads: self.reads(kind)?,
            bytes: self.bytes()?,
        })
    }

    /// Without a count, as in an older kind, there are none.
    fn reads(&mut self, kind: HeaderKind) -> Option<Vec<Id>> {
        match kind.has_reads() {
            true => self.ids(),
            false => Some(Vec::new()),
        }
    }

    /// Count 4, bytes.
    fn bytes(&mut self) -> Option<Vec<u8>> {
        let count = usize::try_from(self.u32()?).ok()?;
        self.take(count).map(<[u8]>::to_vec)
    }
}
