//! The exported calls on lent byte slices: docs/CALLS.md says what each does. A refusal is an
//! [`Error`]; nothing lent has then changed, except the next area after [`Error::WriteFailed`].

use crate::error::Error;
use crate::ffi;
use crate::types::Kind;

const ANSWERED: u64 = 100;

/// What `admit` is given beside the areas and the output. What stands beside a flag of 0 is not
/// looked at.
#[derive(Debug, Clone, Copy)]
pub struct AdmitArgs<'a> {
    /// The transaction's id, 32 bytes.
    pub id: &'a [u8],
    /// Who admits it, 0 to 15.
    pub caller: u8,
    /// Input ids, 32 bytes each.
    pub inputs: &'a [u8],
    /// Output ids, 32 bytes each.
    pub outputs: &'a [u8],
    /// Ids that are only read, 32 bytes each.
    pub reads: &'a [u8],
    /// The signed bytes.
    pub signed: &'a [u8],
    /// The time of the admission.
    pub now: u64,
    /// Whether there is a time deadline.
    pub time_flag: u8,
    /// The time deadline.
    pub time: u64,
    /// Whether there is a height deadline.
    pub height_flag: u8,
    /// The height deadline.
    pub height: u32,
    /// The priority in two's complement.
    pub priority: u64,
    /// Whether there is a label.
    pub label_flag: u8,
    /// The label.
    pub label: &'a [u8],
    /// The fee.
    pub fee: u64,
    /// The cost of its validation.
    pub cost: u64,
    /// The height of the chain's tip.
    pub tip_height: u32,
    /// Whether there is a tip.
    pub tip_flag: u8,
    /// The chain's tip, 32 bytes.
    pub tip: &'a [u8],
}

/// What `reconcile` is given beside the areas and the output.
#[derive(Debug, Clone, Copy)]
pub struct ReconcileArgs<'a> {
    /// The height that the scan has reached.
    pub height: u32,
    /// The block at that height, 32 bytes.
    pub tip: &'a [u8],
    /// Entries of id 32, height 4, block id 32, strictly rising by id.
    pub applied: &'a [u8],
    /// Whether the scan has caught up.
    pub caught_up: u8,
    /// Ids of what can be spent and read, strictly rising.
    pub available: &'a [u8],
    /// Confirmations this deep are released.
    pub window: u32,
}

fn answered(number: u64) -> Result<(), Error> {
    match number {
        ANSWERED => Ok(()),
        refusal => Err(error(refusal)),
    }
}

fn kind(number: u64) -> Result<Kind, Error> {
    const KINDS: [Kind; 4] = [Kind::Nothing, Kind::Memory, Kind::Whole, Kind::Cursor];
    match KINDS
        .into_iter()
        .find(|kind| ANSWERED + *kind as u64 == number)
    {
        Some(kind) => Ok(kind),
        None => Err(error(number)),
    }
}

fn error(number: u64) -> Error {
    Error::from_number(number).unwrap_or_else(|| {
        panic!(
            "libpokerbox.a gave back {number}, which docs/CALLS.md does not list: build the \
             library and this crate from the same sources"
        )
    })
}

// Changing calls: `cur` is only read, `next` gets the next queue unless the kind is `Nothing`.

/// Admits a transaction. `out` gets its entry, the old one with [`Kind::Nothing`].
#[cfg(exported = "admit")]
pub fn admit(
    cur: &[u8],
    next: &mut [u8],
    args: &AdmitArgs<'_>,
    out: &mut [u8],
) -> Result<Kind, Error> {
    kind(ffi::admit(cur, next, args, out))
}

/// Withdraws a pending record. `out` gets its entry after the call.
#[cfg(exported = "cancel")]
pub fn cancel(cur: &[u8], next: &mut [u8], id: &[u8], out: &mut [u8]) -> Result<Kind, Error> {
    kind(ffi::cancel(cur, next, id, out))
}

/// Withdraws the records whose deadline is due. `out` gets a count and their ids, rising.
#[cfg(exported = "expire")]
pub fn expire(
    cur: &[u8],
    next: &mut [u8],
    now: u64,
    height: u32,
    out: &mut [u8],
) -> Result<Kind, Error> {
    kind(ffi::expire(cur, next, now, height, out))
}

/// Reconciles with the chain. `out` gets a flag, whether anything changed, a count and the ids
/// released.
#[cfg(exported = "reconcile")]
pub fn reconcile(
    cur: &[u8],
    next: &mut [u8],
    args: &ReconcileArgs<'_>,
    out: &mut [u8],
) -> Result<Kind, Error> {
    kind(ffi::reconcile(cur, next, args, out))
}

/// Reopens the Mined records of these ids, strictly rising.
#[cfg(exported = "reopen")]
pub fn reopen(cur: &[u8], next: &mut [u8], ids: &[u8]) -> Result<Kind, Error> {
    kind(ffi::reopen(cur, next, ids))
}

/// Sets the observation cursor.
#[cfg(exported = "set_cursor")]
pub fn set_cursor(
    cur: &[u8],
    next: &mut [u8],
    height: u32,
    tip_flag: u8,
    tip: &[u8],
) -> Result<Kind, Error> {
    kind(ffi::set_cursor(cur, next, height, tip_flag, tip))
}

// Settling, the image and the fresh queue.

/// A fresh queue under the limits P, B, T, K into `area`. `shares` has one for each caller, 4 bytes
/// each, from 0 to P.
#[cfg(exported = "fresh")]
pub fn fresh(
    pending: u64,
    bytes: u64,
    tombstones: u64,
    inputs: u64,
    shares: &[u8],
    area: &mut [u8],
) -> Result<(), Error> {
    answered(ffi::fresh(pending, bytes, tombstones, inputs, shares, area))
}

/// Whether the area holds a sound queue.
#[cfg(exported = "sound")]
pub fn sound(area: &[u8]) -> Result<(), Error> {
    answered(ffi::sound(area))
}

/// Settles a due write. Outcome 0 is kept, 1 failed; failed gives [`Error::WriteFailed`], and
/// `next` then holds the queue that goes on.
#[cfg(exported = "settle")]
pub fn settle(cur: &[u8], next: &mut [u8], kind: u64, outcome: u64) -> Result<(), Error> {
    answered(ffi::settle(cur, next, kind, outcome))
}

/// The image of the queue at the start of `out`, and its length.
#[cfg(exported = "image")]
pub fn image(area: &[u8], out: &mut [u8], length: &mut u64) -> Result<(), Error> {
    answered(ffi::image(area, out, length))
}

/// The queue of an image into `area`.
#[cfg(exported = "open")]
pub fn open(text: &[u8], area: &mut [u8]) -> Result<(), Error> {
    answered(ffi::open(text, area))
}

/// The bytes that an area needs under the limits P, B, T, K.
#[cfg(exported = "need")]
pub fn need(
    pending: u64,
    bytes: u64,
    tombstones: u64,
    inputs: u64,
    value: &mut u64,
) -> Result<(), Error> {
    answered(ffi::need(pending, bytes, tombstones, inputs, value))
}

/// The limits P, B, T, K of an image's queue, its shares over the first 64 bytes of `shares`, and the
/// bytes that an area needs under them. [`Error::NotAnImage`] exactly where [`open`] gives it; then
/// [`Error::OutputTooShort`] where `shares` has fewer than 64 bytes.
#[cfg(exported = "image_limits")]
pub fn image_limits(
    text: &[u8],
    pending: &mut u64,
    bytes: &mut u64,
    tombstones: &mut u64,
    inputs: &mut u64,
    shares: &mut [u8],
    need: &mut u64,
) -> Result<(), Error> {
    answered(ffi::image_limits(
        text, pending, bytes, tombstones, inputs, shares, need,
    ))
}

/// The image of kind 01 of an image's queue at the start of `out`, and its length.
/// [`Error::NotAnImage`] where [`open`] gives it, and for an image of another kind than 06; then
/// [`Error::NotConvertible`] where kind 01 cannot hold the queue.
#[cfg(exported = "convert")]
pub fn convert(text: &[u8], out: &mut [u8], length: &mut u64) -> Result<(), Error> {
    answered(ffi::convert(text, out, length))
}

// Reading calls.

/// The entry of one record.
#[cfg(exported = "entry")]
pub fn entry(area: &[u8], id: &[u8], out: &mut [u8]) -> Result<(), Error> {
    answered(ffi::entry(area, id, out))
}

/// Where the record's signed bytes stand in the area.
#[cfg(exported = "signed_bytes")]
pub fn signed_bytes(
    area: &[u8],
    id: &[u8],
    start: &mut u64,
    length: &mut u64,
) -> Result<(), Error> {
    answered(ffi::signed_bytes(area, id, start, length))
}

/// A count and the ids of the Queued records with deadlines after `now` and above `height`, best
/// first.
#[cfg(exported = "selection_entries_at")]
pub fn selection_entries_at(
    area: &[u8],
    now: u64,
    height: u32,
    out: &mut [u8],
) -> Result<(), Error> {
    answered(ffi::selection_entries_at(area, now, height, out))
}

/// A count and the ids of the records that [`selection_entries_at`] gives, each after all of them that
/// it waits for: the others that have one of its inputs among their outputs. Those that still wait at
/// the end are left off.
#[cfg(exported = "selection_parents_first")]
pub fn selection_parents_first(
    area: &[u8],
    now: u64,
    height: u32,
    out: &mut [u8],
) -> Result<(), Error> {
    answered(ffi::selection_parents_first(area, now, height, out))
}

/// Of the first 20 records that [`selection_entries_at`] gives, a set with the most fee whose signed
/// bytes are at most `limit`, as good as `budget` steps allow. `out` gets its fee, 8 bytes, the steps
/// used, 4, the distance, 8, a count and the ids: at most 664 bytes.
#[cfg(exported = "best_fees")]
pub fn best_fees(
    area: &[u8],
    limit: u64,
    budget: u64,
    now: u64,
    height: u32,
    out: &mut [u8],
) -> Result<(), Error> {
    answered(ffi::best_fees(area, limit, budget, now, height, out))
}

/// A count, then id and state of each record that expiry would finish, by id.
#[cfg(exported = "due")]
pub fn due(area: &[u8], now: u64, height: u32, out: &mut [u8]) -> Result<(), Error> {
    answered(ffi::due(area, now, height, out))
}

/// 1 if a pending record's deadline is due, else 0.
#[cfg(exported = "deadline_due")]
pub fn deadline_due(area: &[u8], now: u64, height: u32, value: &mut u64) -> Result<(), Error> {
    answered(ffi::deadline_due(area, now, height, value))
}

/// Reading calls that take an area and answer bytes, or one number.
macro_rules! readings {
    ($($(#[$doc:meta])* $call:literal $name:ident $lent:ident: $lent_type:ty;)*) => {$(
        $(#[$doc])*
        #[cfg(exported = $call)]
        pub fn $name(area: &[u8], $lent: &mut $lent_type) -> Result<(), Error> {
            answered(ffi::$name(area, $lent))
        }
    )*};
}

readings! {
    /// The revision.
    "revision" revision value: u64;
    /// 1 without records, else 0.
    "is_empty" is_empty value: u64;
    /// The cursor height.
    "observed_height" observed_height value: u64;
    /// Height of 4 bytes, tip flag, and the tip of 32 bytes if there is one.
    "observation_cursor" observation_cursor out: [u8];
    /// A count and the ids of all records, rising.
    "record_ids" record_ids out: [u8];
    /// A count and the ids of the holders, rising.
    "guarded_ids" guarded_ids out: [u8];
    /// A count and the input ids of all records, rising, each once.
    "reserved_inputs" reserved_inputs out: [u8];
    /// The revision, 8 bytes, then as [`reserved_inputs`].
    "reservation_snapshot" reservation_snapshot out: [u8];
    /// As [`guarded_ids`], then as [`reserved_inputs`].
    "guard_snapshot" guard_snapshot out: [u8];
    /// A count and the entries of all records, by id.
    "list" list out: [u8];
    /// As [`selection_entries_at`] with now 0 and height 0.
    "selection_entries" selection_entries out: [u8];
    /// A count, then id, mined height and block id of each Mined record, by id.
    "confirmations" confirmations out: [u8];
}
