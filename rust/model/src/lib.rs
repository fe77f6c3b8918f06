//! The private transaction queue of document 01 in plain Rust, written from document 01,
//! docs/AREA.md and docs/CALLS.md. Tests compare other implementations with it.
//!
//! - [`values`]: limits, records and the queue.
//! - [`sound`]: which queues are sound, rule by rule.
//! - [`frame`], [`area`], [`image`]: the encodings.
//! - [`rules`]: each call as a function on queues.
//! - [`fees`]: document 02's best fees for a block, as a function on queues.
//! - [`parents`]: document 02's second selection order, as a function on queues.
//! - [`calls`]: each call as the exported function of that name has it, on lent bytes.
//! - [`load`]: large sound queues with chosen ids, to measure with.
//! - [`random`]: random sound queues and damaged bytes for tests.

pub mod area;
pub mod calls;
pub mod fees;
pub mod frame;
pub mod image;
pub mod load;
pub mod parents;
pub mod random;
pub mod rules;
pub mod sound;
pub mod values;

pub use frame::HeaderKind;
pub use values::{
    Caller, Confirmation, FinishNumber, Height, Holder, Id, Limits, Queue, Reason, Record, Shares,
    State, TimeMs, Withdrawn,
};
