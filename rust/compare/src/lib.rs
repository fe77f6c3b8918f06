//! Compares the calls on lent areas with `PrivateTransactionQueue`, the oracle, on random lists of
//! calls with failed writes and cuts.
//!
//! - [`list`]: lists of events.
//! - [`generate`]: random events.
//! - [`side`]: the calls, by the library or by the model.
//! - [`unit`]: runs events on areas as a node does.
//! - [`oracle`]: runs events on the oracle.
//! - [`withdrawn`]: which ids may not be selected.
//! - [`marks`]: the one reason in which the two part.
//! - [`beside`]: lists that the oracle cannot run, compared with the model.
//! - [`callers`]: those with callers and shares.
//! - [`reads`]: those with read ids.
//! - [`wide`]: those with priorities of 64 bits; and images that are made ones of kind 01.
//! - [`run`]: compares the two after each event.
//! - [`fixed`]: the fixed list that a Rattle program replays.
//! - [`shrink`]: makes a list that shows a difference smaller.
//! - [`tables`]: the files of docs/tables, which `bench` and `mutants` write.

pub mod beside;
pub mod callers;
pub mod counts;
pub mod fixed;
pub mod generate;
pub mod list;
pub mod marks;
pub mod oracle;
pub mod reads;
pub mod run;
pub mod shrink;
pub mod side;
pub mod tables;
pub mod unit;
pub mod wide;
pub mod withdrawn;
