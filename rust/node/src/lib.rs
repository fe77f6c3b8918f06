//! The private transaction queue for a node: transactions that a template builder takes by itself
//! and that are never passed to the public pool. The queue itself is `libpokerbox.a`, whose calls
//! are proved; this crate links it and keeps its image in a file.
//!
//! - [`store::FileStore`]: a queue in a file. Its calls write what is due and settle; reading calls
//!   are those of its [`Queue`].
//! - [`Queue`]: a queue with its two areas, for a node that stores the image itself. A changing
//!   call gives a [`Change`], which says what is due and is settled with the outcome of the write.
//! - [`raw`]: the exported calls on lent byte slices, for a node that owns its areas.
//!
//! A refusal is an [`Error`] with its number, 1 to 18, 20, 21 or 22, and a sentence that says what to do.
//! A thread that makes calls needs at least 1 MiB of stack; 160 KiB while the queue holds at most
//! 8,192 inputs and read ids together.
//!
//! What a node does, from the first start to the next:
//!
//! ```
#![doc = include_str!("../examples/node.rs")]
//! ```

#![warn(missing_docs)]
// Some parts wait for calls that are not exported yet.
#![cfg_attr(not(all_exported), allow(dead_code))]

mod answer;
mod error;
#[allow(unsafe_code)]
mod ffi;
mod queue;
pub mod raw;
pub mod store;
mod types;

pub use answer::{BestFees, Confirmation, Due, Entry, Reconciled};
pub use error::Error;
pub use queue::{Admission, Applied, Change, Outcome, Queue, Reconciliation};
pub use types::{
    BlockId, Caller, Height, InputId, Kind, Limits, OutputId, ParseIdError, Reason, Shares, State,
    TimeMs, TxId,
};

/// For which target the linked libpokerbox.a was built (see `build.rs`).
pub const LIBRARY_TARGET: &str = env!("POKERBOX_LIBRARY_TARGET");

/// The calls of docs/CALLS.md that libpokerbox.a does not export yet (see `build.rs`).
pub fn not_exported_yet() -> Vec<&'static str> {
    env!("POKERBOX_MISSING_CALLS")
        .split(',')
        .filter(|name| !name.is_empty())
        .collect()
}
