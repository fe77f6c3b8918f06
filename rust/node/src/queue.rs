//! A queue that owns its two areas.

use std::collections::{BTreeMap, BTreeSet};
use std::fmt;

use crate::answer::{BestFees, Entry, Reader};
use crate::error::Error;
use crate::raw;
use crate::types::{BlockId, Caller, Height, InputId, Kind, Limits, OutputId, TimeMs, TxId};

/// A queue with its current and its next area.
#[derive(Clone)]
pub struct Queue {
    limits: Limits,
    current: Vec<u8>,
    next: Vec<u8>,
}

/// Without the areas, which are long and hold signed bytes.
impl fmt::Debug for Queue {
    fn fmt(&self, f: &mut fmt::Formatter<'_>) -> fmt::Result {
        f.debug_struct("Queue")
            .field("limits", &self.limits)
            .finish_non_exhaustive()
    }
}

/// The outcome of a write.
#[derive(Debug, Clone, Copy, PartialEq, Eq)]
pub enum Outcome {
    /// The image is in place: the rename has happened.
    Kept = 0,
    /// The first file is as it was.
    Failed = 1,
}

/// A changing call that was not refused. It takes effect when it is settled: where `kind` is
/// `Whole` or `Cursor`, write `image` first and settle with the outcome. Dropped unsettled, the
/// queue stays as it was.
#[must_use = "a change takes effect when it is settled"]
#[derive(Debug)]
pub struct Change<'q, T> {
    queue: &'q mut Queue,
    kind: Kind,
    answer: T,
}

impl<T> Change<'_, T> {
    /// What is due.
    pub fn kind(&self) -> Kind {
        self.kind
    }

    /// The call's answer, if it is settled as kept.
    pub fn answer(&self) -> &T {
        &self.answer
    }

    /// Whether the image has to be written before settling.
    pub fn write_is_due(&self) -> bool {
        matches!(self.kind, Kind::Whole | Kind::Cursor)
    }

    /// The image to write where a write is due.
    pub fn image(&self) -> Result<Vec<u8>, Error> {
        image_of(&self.queue.next, &self.queue.limits)
    }

    /// Settles the change and gives its answer; [`Error::WriteFailed`] after a failed write.
    /// Without a due write the outcome plays no part.
    pub fn settle(self, outcome: Outcome) -> Result<T, Error> {
        let queue = self.queue;
        match self.kind {
            Kind::Nothing => Ok(self.answer),
            Kind::Memory => {
                queue.swap();
                Ok(self.answer)
            }
            Kind::Whole | Kind::Cursor => {
                let settled = raw::settle(
                    &queue.current,
                    &mut queue.next,
                    self.kind as u64,
                    outcome as u64,
                );
                // Kept or failed, the next area now holds the queue.
                if matches!(settled, Ok(()) | Err(Error::WriteFailed)) {
                    queue.swap();
                }
                settled.map(|()| self.answer)
            }
        }
    }
}

/// A transaction to be queued. Commit it only after normal validation has succeeded.
///
/// ```
/// use pokerbox::{Admission, Height, InputId, OutputId, TimeMs, TxId};
///
/// let (id, inputs, outputs) = (TxId([1; 32]), vec![InputId([2; 32])], vec![OutputId([3; 32])]);
/// let signed = b"signed bytes".to_vec();
/// let admission = Admission {
///     height_deadline: Some(Height(120)),
///     priority: 7,
///     ..Admission::new(id, inputs, outputs, signed, TimeMs(1_000), Height(100))
/// };
/// assert_eq!(admission.time_deadline, None);
/// // The same one, reading a box besides.
/// let reading = Admission {
///     reads: vec![InputId([4; 32])],
///     ..admission
/// };
/// assert_eq!(reading.inputs, [InputId([2; 32])]);
/// ```
#[derive(Debug, Clone, PartialEq, Eq)]
pub struct Admission {
    /// The transaction's id.
    pub id: TxId,
    /// Who admits it; its share counts.
    pub caller: Caller,
    /// What it spends.
    pub inputs: Vec<InputId>,
    /// What it makes.
    pub outputs: Vec<OutputId>,
    /// What it reads without spending it: no other record may spend it, and others may read it too.
    pub reads: Vec<InputId>,
    /// The transaction as it goes into a block.
    pub signed: Vec<u8>,
    /// The time of the admission.
    pub now: TimeMs,
    /// It is withdrawn from this time on.
    pub time_deadline: Option<TimeMs>,
    /// It is withdrawn from this height on.
    pub height_deadline: Option<Height>,
    /// Higher ones are selected first. Any number, for instance a time in milliseconds.
    pub priority: i64,
    /// Any text, at most 200 bytes.
    pub label: Option<Vec<u8>>,
    /// The transaction's fee.
    pub fee: u64,
    /// The cost of its validation.
    pub cost: u64,
    /// The height of the chain's tip.
    pub tip_height: Height,
    /// The chain's tip.
    pub tip: Option<BlockId>,
}

impl Admission {
    /// By caller 0, without read ids, deadlines, label and tip, with priority, fee and cost 0.
    pub fn new(
        id: TxId,
        inputs: Vec<InputId>,
        outputs: Vec<OutputId>,
        signed: Vec<u8>,
        now: TimeMs,
        tip_height: Height,
    ) -> Admission {
        Admission {
            id,
            caller: Caller::ZERO,
            inputs,
            outputs,
            reads: Vec::new(),
            signed,
            now,
            time_deadline: None,
            height_deadline: None,
            priority: 0,
            label: None,
            fee: 0,
            cost: 0,
            tip_height,
            tip: None,
        }
    }
}

/// The transactions found in blocks, with the height and the id of the block.
pub type Applied = BTreeMap<TxId, (Height, BlockId)>;

/// One step of applied history.
#[derive(Debug, Clone, PartialEq, Eq)]
pub struct Reconciliation {
    /// The height that the scan has reached.
    pub height: Height,
    /// The block at that height.
    pub tip: BlockId,
    /// The transactions that were found in blocks.
    pub applied: Applied,
    /// Whether the scan has caught up with the tip, so that pending records are classified.
    pub caught_up: bool,
    /// The boxes that are there, to be spent or read; looked at when the scan has caught up.
    pub available: BTreeSet<InputId>,
    /// Confirmations this deep release their signed bytes.
    pub window: u32,
}

fn image_of(area: &[u8], limits: &Limits) -> Result<Vec<u8>, Error> {
    let mut image = vec![0; limits.max_image_len()];
    let mut length = 0;
    raw::image(area, &mut image, &mut length)?;
    image.truncate(length as usize);
    Ok(image)
}

impl Queue {
    /// A fresh queue under these limits.
    pub fn fresh(limits: Limits) -> Result<Queue, Error> {
        let mut queue = Queue::with_areas(limits, limits.area_len());
        raw::fresh(
            limits.pending().into(),
            limits.bytes().into(),
            limits.tombstones().into(),
            limits.inputs().into(),
            &limits.shares().to_bytes(),
            &mut queue.current,
        )?;
        Ok(queue)
    }

    /// The queue of a stored image, under the limits that the image names.
    pub fn open(image: &[u8]) -> Result<Queue, Error> {
        let (limits, need) = Limits::of_image(image)?;
        let mut queue = Queue::with_areas(limits, need);
        raw::open(image, &mut queue.current)?;
        Ok(queue)
    }

    /// For a unit with the first version: the image of kind 01 of the queue that this image, of kind
    /// 06, has. There it opens as the same queue.
    ///
    /// [`Error::NotAnImage`] where the text is not the image of a sound queue, or one of another kind,
    /// kind 01 among them; [`Error::NotConvertible`] where kind 01 cannot hold the queue.
    ///
    /// ```
    /// use pokerbox::{Admission, Error, Height, Limits, Outcome, Queue, TimeMs, TxId};
    ///
    /// let mut queue = Queue::fresh(Limits::new(4, 100, 4, 2)?)?;
    /// let image = queue.image()?;
    /// let older = Queue::convert(&image)?;
    /// assert!(image.starts_with(b"06") && older.starts_with(b"01"));
    /// assert_eq!(Queue::open(&older)?.image()?, image);
    /// assert_eq!(Queue::convert(&older), Err(Error::NotAnImage));
    /// // A time as the priority does not fit into 32 bits.
    /// let given = Admission {
    ///     priority: 1_700_000_000_000,
    ///     ..Admission::new(TxId([1; 32]), vec![], vec![], vec![7], TimeMs(5), Height(9))
    /// };
    /// queue.admit(&given)?.settle(Outcome::Kept)?;
    /// assert_eq!(Queue::convert(&queue.image()?), Err(Error::NotConvertible));
    /// # Ok::<(), Error>(())
    /// ```
    #[cfg(exported = "convert")]
    pub fn convert(image: &[u8]) -> Result<Vec<u8>, Error> {
        // Kind 01 has no field that kind 06 has not, and none is longer.
        let mut older = vec![0; image.len()];
        let mut length = 0;
        raw::convert(image, &mut older, &mut length)?;
        older.truncate(length as usize);
        Ok(older)
    }

    fn with_areas(limits: Limits, need: usize) -> Queue {
        Queue {
            limits,
            current: vec![0; need],
            next: vec![0; need],
        }
    }

    fn swap(&mut self) {
        std::mem::swap(&mut self.current, &mut self.next);
    }

    /// Its limits.
    pub fn limits(&self) -> Limits {
        self.limits
    }

    /// The area that holds the queue: docs/AREA.md.
    pub fn area(&self) -> &[u8] {
        &self.current
    }

    /// The image of the queue as it is now.
    pub fn image(&self) -> Result<Vec<u8>, Error> {
        image_of(&self.current, &self.limits)
    }

    /// A changing call with an answer of at most `max_len` bytes, which `read` reads.
    fn change<T>(
        &mut self,
        max_len: usize,
        call: impl FnOnce(&[u8], &mut [u8], &mut [u8]) -> Result<Kind, Error>,
        read: impl FnOnce(&mut Reader<'_>) -> T,
    ) -> Result<Change<'_, T>, Error> {
        let mut out = vec![0; max_len];
        let kind = call(&self.current, &mut self.next, &mut out)?;
        let answer = read(&mut Reader::new(&out));
        Ok(Change {
            queue: self,
            kind,
            answer,
        })
    }

    /// A reading call with an answer of at most `max_len` bytes, which `read` reads.
    fn read<T>(
        &self,
        max_len: usize,
        call: impl FnOnce(&[u8], &mut [u8]) -> Result<(), Error>,
        read: impl FnOnce(&mut Reader<'_>) -> T,
    ) -> Result<T, Error> {
        let mut out = vec![0; max_len];
        call(&self.current, &mut out)?;
        Ok(read(&mut Reader::new(&out)))
    }

    /// The length of a list of so many ids.
    fn ids_len(count: usize) -> usize {
        4 + 32 * count
    }

    fn max_holders(&self) -> usize {
        2 * self.limits.pending() as usize
    }
}

/// Changing calls.
impl Queue {
    /// Queues a transaction. The answer is its entry, the old one where it is queued or mined, whoever
    /// asks.
    #[cfg(exported = "admit")]
    pub fn admit(&mut self, given: &Admission) -> Result<Change<'_, Entry>, Error> {
        let inputs = joined(given.inputs.iter().map(|id| id.0));
        let outputs = joined(given.outputs.iter().map(|id| id.0));
        let reads = joined(given.reads.iter().map(|id| id.0));
        let args = raw::AdmitArgs {
            id: &given.id.0,
            caller: given.caller.number(),
            inputs: &inputs,
            outputs: &outputs,
            reads: &reads,
            signed: &given.signed,
            now: given.now.0,
            time_flag: u8::from(given.time_deadline.is_some()),
            time: given.time_deadline.map_or(0, |time| time.0),
            height_flag: u8::from(given.height_deadline.is_some()),
            height: given.height_deadline.map_or(0, |height| height.0),
            priority: given.priority as u64,
            label_flag: u8::from(given.label.is_some()),
            label: given.label.as_deref().unwrap_or_default(),
            fee: given.fee,
            cost: given.cost,
            tip_height: given.tip_height.0,
            tip_flag: u8::from(given.tip.is_some()),
            tip: tip_bytes(&given.tip),
        };
        self.change(
            Entry::max_len(&self.limits),
            |cur, next, out| raw::admit(cur, next, &args, out),
            |answer| answer.entry(),
        )
    }

    /// Withdraws a pending record. The answer is its entry after the call.
    #[cfg(exported = "cancel")]
    pub fn cancel(&mut self, id: TxId) -> Result<Change<'_, Entry>, Error> {
        self.change(
            Entry::max_len(&self.limits),
            |cur, next, out| raw::cancel(cur, next, &id.0, out),
            |answer| answer.entry(),
        )
    }

    /// Withdraws the records whose deadline is due. The answer is their ids, rising.
    #[cfg(exported = "expire")]
    pub fn expire(&mut self, now: TimeMs, height: Height) -> Result<Change<'_, Vec<TxId>>, Error> {
        self.change(
            Self::ids_len(self.max_holders()),
            |cur, next, out| raw::expire(cur, next, now.0, height.0, out),
            |answer| answer.counted(Reader::tx_id),
        )
    }

    /// Applies one step of applied history.
    #[cfg(exported = "reconcile")]
    pub fn reconcile(
        &mut self,
        given: &Reconciliation,
    ) -> Result<Change<'_, crate::answer::Reconciled>, Error> {
        let applied = applied_bytes(&given.applied);
        let available = joined(given.available.iter().map(|id| id.0));
        let args = raw::ReconcileArgs {
            height: given.height.0,
            tip: &given.tip.0,
            applied: &applied,
            caught_up: u8::from(given.caught_up),
            available: &available,
            window: given.window,
        };
        self.change(
            1 + Self::ids_len(self.max_holders()),
            |cur, next, out| raw::reconcile(cur, next, &args, out),
            |answer| answer.reconciled(),
        )
    }

    /// Undoes confirmations whose block left the applied chain.
    #[cfg(exported = "reopen")]
    pub fn reopen(&mut self, ids: &BTreeSet<TxId>) -> Result<Change<'_, ()>, Error> {
        let ids = joined(ids.iter().map(|id| id.0));
        self.change(0, |cur, next, _| raw::reopen(cur, next, &ids), |_| ())
    }

    /// Sets the observation cursor, in memory alone.
    #[cfg(exported = "set_cursor")]
    pub fn set_cursor(
        &mut self,
        height: Height,
        tip: Option<BlockId>,
    ) -> Result<Change<'_, ()>, Error> {
        let flag = u8::from(tip.is_some());
        self.change(
            0,
            |cur, next, _| raw::set_cursor(cur, next, height.0, flag, tip_bytes(&tip)),
            |_| (),
        )
    }
}

/// Reading calls.
impl Queue {
    /// What the queue says of one record.
    #[cfg(exported = "entry")]
    pub fn entry(&self, id: TxId) -> Result<Entry, Error> {
        self.read(
            Entry::max_len(&self.limits),
            |area, out| raw::entry(area, &id.0, out),
            |answer| answer.entry(),
        )
    }

    /// The record's signed bytes, a part of the area.
    #[cfg(exported = "signed_bytes")]
    pub fn signed_bytes(&self, id: TxId) -> Result<&[u8], Error> {
        let (mut start, mut length) = (0, 0);
        raw::signed_bytes(&self.current, &id.0, &mut start, &mut length)?;
        let start = start as usize;
        Ok(&self.current[start..start + length as usize])
    }

    /// The Queued records, best first, without regard to deadlines of 1 and later.
    #[cfg(exported = "selection_entries")]
    pub fn selection_entries(&self) -> Result<Vec<TxId>, Error> {
        self.read(
            Self::ids_len(self.max_holders()),
            raw::selection_entries,
            |answer| answer.counted(Reader::tx_id),
        )
    }

    /// The Queued records with deadlines after `now` and above `height`, best first.
    #[cfg(exported = "selection_entries_at")]
    pub fn selection_entries_at(&self, now: TimeMs, height: Height) -> Result<Vec<TxId>, Error> {
        self.read(
            Self::ids_len(self.max_holders()),
            |area, out| raw::selection_entries_at(area, now.0, height.0, out),
            |answer| answer.counted(Reader::tx_id),
        )
    }

    /// The records that [`Queue::selection_entries_at`] gives at this moment, parents first: a template
    /// may list them in this order.
    ///
    /// A record waits for every other one of them that has one of its inputs or read ids among its
    /// outputs. The next one listed is always the first, in the order of `selection_entries_at`, of
    /// those that wait for nothing unlisted. Records that wait for each other, and all that wait for them, are left
    /// off; no list that has each record after all that it waits for has more.
    ///
    /// ```
    /// use pokerbox::{
    ///     Admission, Height, InputId, Limits, Outcome, OutputId, Queue, TimeMs, TxId,
    /// };
    ///
    /// let mut queue = Queue::fresh(Limits::new(16, 65_536, 16, 8)?)?;
    /// // The first one spends the output 9 of the second, and is wanted more.
    /// for (n, priority, input, output) in [(1, 7, 9, 10), (2, 0, 8, 9)] {
    ///     let (inputs, outputs) = (vec![InputId([input; 32])], vec![OutputId([output; 32])]);
    ///     let (id, signed) = (TxId([n; 32]), vec![n]);
    ///     let given = Admission {
    ///         priority,
    ///         ..Admission::new(id, inputs, outputs, signed, TimeMs(1_000), Height(100))
    ///     };
    ///     queue.admit(&given)?.settle(Outcome::Kept)?;
    /// }
    /// let (child, parent) = (TxId([1; 32]), TxId([2; 32]));
    /// let (now, height) = (TimeMs(1_000), Height(100));
    /// assert_eq!(queue.selection_entries_at(now, height)?, [child, parent]);
    /// assert_eq!(queue.selection_parents_first(now, height)?, [parent, child]);
    /// # Ok::<(), pokerbox::Error>(())
    /// ```
    #[cfg(exported = "selection_parents_first")]
    pub fn selection_parents_first(&self, now: TimeMs, height: Height) -> Result<Vec<TxId>, Error> {
        self.read(
            Self::ids_len(self.max_holders()),
            |area, out| raw::selection_parents_first(area, now.0, height.0, out),
            |answer| answer.counted(Reader::tx_id),
        )
    }

    /// What to put into a block: of the first 20 records that [`Queue::selection_entries_at`] gives
    /// at this moment, the set with the most fee whose signed bytes are at most `limit` together. A
    /// child may be in it without its parent, or before it.
    ///
    /// The search tries sets until `budget` steps are used up, 1 to [`BestFees::MAX_BUDGET`], and
    /// gives the best set that it met; the answer says how much better another could be.
    /// [`Error::Malformed`] is for a budget out of range, [`Error::FeesTooLarge`] for candidates
    /// whose fees have no sum of 64 bits.
    ///
    /// ```
    /// use pokerbox::{Admission, BestFees, Height, InputId, Limits, Outcome, Queue, TimeMs, TxId};
    ///
    /// let mut queue = Queue::fresh(Limits::new(16, 65_536, 16, 8)?)?;
    /// // Fees 5, 4, 3 for 6, 5, 5 bytes.
    /// for (n, fee, bytes) in [(1, 5, 6), (2, 4, 5), (3, 3, 5)] {
    ///     let (id, inputs) = (TxId([n; 32]), vec![InputId([n; 32])]);
    ///     let signed = vec![n; bytes];
    ///     let given = Admission {
    ///         fee,
    ///         ..Admission::new(id, inputs, vec![], signed, TimeMs(1_000), Height(100))
    ///     };
    ///     queue.admit(&given)?.settle(Outcome::Kept)?;
    /// }
    /// // Two steps find the first record, and that 2 more may be possible.
    /// let best = queue.best_fees(10, 2, TimeMs(1_000), Height(100))?;
    /// assert_eq!((best.ids, best.fee, best.distance), (vec![TxId([1; 32])], 5, 2));
    /// // Enough steps find the second and the third.
    /// let best = queue.best_fees(10, BestFees::MAX_BUDGET, TimeMs(1_000), Height(100))?;
    /// assert_eq!(best.ids, [TxId([2; 32]), TxId([3; 32])]);
    /// assert_eq!((best.fee, best.nodes, best.distance), (7, 11, 0));
    /// # Ok::<(), pokerbox::Error>(())
    /// ```
    #[cfg(exported = "best_fees")]
    pub fn best_fees(
        &self,
        limit: u64,
        budget: u64,
        now: TimeMs,
        height: Height,
    ) -> Result<BestFees, Error> {
        self.read(
            20 + Self::ids_len(BestFees::MAX_CANDIDATES as usize),
            |area, out| raw::best_fees(area, limit, budget, now.0, height.0, out),
            |answer| answer.best_fees(),
        )
    }

    /// The number of changes that were kept; it wraps.
    #[cfg(exported = "revision")]
    pub fn revision(&self) -> Result<u64, Error> {
        self.read_value(raw::revision)
    }

    /// Whether there are no records.
    #[cfg(exported = "is_empty")]
    pub fn is_empty(&self) -> Result<bool, Error> {
        Ok(self.read_value(raw::is_empty)? != 0)
    }

    /// Whether a pending record's deadline is due.
    #[cfg(exported = "deadline_due")]
    pub fn deadline_due(&self, now: TimeMs, height: Height) -> Result<bool, Error> {
        let due = self.read_value(|area, value| raw::deadline_due(area, now.0, height.0, value))?;
        Ok(due != 0)
    }

    /// The cursor height.
    #[cfg(exported = "observed_height")]
    pub fn observed_height(&self) -> Result<Height, Error> {
        let height = self.read_value(raw::observed_height)?;
        Ok(Height(u32::try_from(height).expect("a height")))
    }

    /// The observation cursor: its height and its tip.
    #[cfg(exported = "observation_cursor")]
    pub fn observation_cursor(&self) -> Result<(Height, Option<BlockId>), Error> {
        self.read(37, raw::observation_cursor, |answer| answer.cursor())
    }

    /// The ids of all records, rising.
    #[cfg(exported = "record_ids")]
    pub fn record_ids(&self) -> Result<Vec<TxId>, Error> {
        self.read(
            Self::ids_len(self.limits.max_records()),
            raw::record_ids,
            |answer| answer.counted(Reader::tx_id),
        )
    }

    /// The ids of the holders, rising.
    #[cfg(exported = "guarded_ids")]
    pub fn guarded_ids(&self) -> Result<Vec<TxId>, Error> {
        self.read(
            Self::ids_len(self.max_holders()),
            raw::guarded_ids,
            |answer| answer.counted(Reader::tx_id),
        )
    }

    /// The inputs of all records, rising, each once. What is only read is not among them.
    #[cfg(exported = "reserved_inputs")]
    pub fn reserved_inputs(&self) -> Result<Vec<InputId>, Error> {
        self.read(
            Self::ids_len(self.max_inputs()),
            raw::reserved_inputs,
            |answer| answer.counted(Reader::input_id),
        )
    }

    /// The revision, and the reserved inputs that it owns.
    #[cfg(exported = "reservation_snapshot")]
    pub fn reservation_snapshot(&self) -> Result<(u64, Vec<InputId>), Error> {
        self.read(
            8 + Self::ids_len(self.max_inputs()),
            raw::reservation_snapshot,
            |answer| (answer.u64(), answer.counted(Reader::input_id)),
        )
    }

    /// The guarded ids and the reserved inputs.
    #[cfg(exported = "guard_snapshot")]
    pub fn guard_snapshot(&self) -> Result<(Vec<TxId>, Vec<InputId>), Error> {
        self.read(
            Self::ids_len(self.max_holders()) + Self::ids_len(self.max_inputs()),
            raw::guard_snapshot,
            |answer| {
                (
                    answer.counted(Reader::tx_id),
                    answer.counted(Reader::input_id),
                )
            },
        )
    }

    /// The entries of all records, by id.
    #[cfg(exported = "list")]
    pub fn list(&self) -> Result<Vec<Entry>, Error> {
        self.read(
            4 + self.limits.max_records() * Entry::max_len(&self.limits),
            raw::list,
            |answer| answer.counted(Reader::entry),
        )
    }

    /// The records that expiry would finish, by id.
    #[cfg(exported = "due")]
    pub fn due(&self, now: TimeMs, height: Height) -> Result<Vec<crate::answer::Due>, Error> {
        self.read(
            4 + 33 * self.max_holders(),
            |area, out| raw::due(area, now.0, height.0, out),
            |answer| answer.counted(Reader::due),
        )
    }

    /// The Mined records, by id.
    #[cfg(exported = "confirmations")]
    pub fn confirmations(&self) -> Result<Vec<crate::answer::Confirmation>, Error> {
        self.read(
            4 + 68 * self.limits.max_records(),
            raw::confirmations,
            |answer| answer.counted(Reader::confirmation),
        )
    }

    fn read_value(
        &self,
        call: impl FnOnce(&[u8], &mut u64) -> Result<(), Error>,
    ) -> Result<u64, Error> {
        let mut value = 0;
        call(&self.current, &mut value)?;
        Ok(value)
    }

    fn max_inputs(&self) -> usize {
        self.max_holders() * self.limits.inputs() as usize
    }
}

fn joined(ids: impl Iterator<Item = [u8; 32]>) -> Vec<u8> {
    ids.flatten().collect()
}

fn tip_bytes(tip: &Option<BlockId>) -> &[u8] {
    tip.as_ref().map_or(&[], |tip| &tip.0)
}

/// Entries of id 32, height 4, block id 32, by id.
fn applied_bytes(applied: &Applied) -> Vec<u8> {
    let mut bytes = Vec::with_capacity(68 * applied.len());
    for (id, (height, block)) in applied {
        bytes.extend(id.0);
        bytes.extend(height.0.to_be_bytes());
        bytes.extend(block.0);
    }
    bytes
}
