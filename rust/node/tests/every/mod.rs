//! Every exported call with the model's beside it, all on the same lent bytes.

// Some parts wait for calls that are not exported yet.
#![cfg_attr(not(all_exported), allow(dead_code, unused_imports, unused_macros))]

use crate::common::Number;
use model::calls;
use pokerbox::raw;

/// What calls are given beside areas and outputs.
#[derive(Clone)]
pub struct Args {
    pub id: Vec<u8>,
    pub caller: u8,
    /// In two's complement.
    pub priority: u64,
    /// Rising.
    pub ids: Vec<u8>,
    /// Of an admission.
    pub reads: Vec<u8>,
    pub now: u64,
    pub height: u32,
    pub kind: u64,
    pub outcome: u64,
    /// Of best fees.
    pub limit: u64,
    pub budget: u64,
}

/// Reads the area, writes the next area and the output, and gives back a number. A call that
/// answers numbers has them in the output's first bytes.
pub type Made = fn(&Args, &[u8], &mut [u8], &mut [u8]) -> u64;

pub struct Call {
    pub name: &'static str,
    /// Whether the next area is written.
    pub changes: bool,
    pub library: Made,
    pub model: Made,
}

/// The bytes of an output that answers in numbers may take.
pub const VALUES: usize = 16;

fn values<const N: usize>(out: &mut [u8], call: impl FnOnce(&mut [u64; N]) -> u64) -> u64 {
    let (parts, _) = out[..8 * N].as_chunks::<8>();
    let mut numbers: [u64; N] = std::array::from_fn(|at| u64::from_be_bytes(parts[at]));
    let number = call(&mut numbers);
    out[..8 * N].copy_from_slice(&numbers.map(u64::to_be_bytes).concat());
    number
}

macro_rules! admit_args {
    ($from:ident, $args:expr) => {
        $from::AdmitArgs {
            id: &$args.id,
            caller: $args.caller,
            inputs: &$args.id,
            outputs: &$args.id,
            reads: &$args.reads,
            signed: b"s",
            now: $args.now,
            time_flag: 0,
            time: 0,
            height_flag: 0,
            height: 0,
            priority: $args.priority,
            label_flag: 1,
            label: b"label",
            fee: 7,
            cost: 9,
            tip_height: $args.height,
            tip_flag: 1,
            tip: &$args.id,
        }
    };
}

macro_rules! reconcile_args {
    ($from:ident, $args:expr) => {
        $from::ReconcileArgs {
            height: $args.height,
            tip: &$args.id,
            applied: &[],
            caught_up: 1,
            available: &$args.ids,
            window: 10,
        }
    };
}

/// A call with the cfg of its export: the same expression by `raw` and by `calls`.
macro_rules! call {
    ($list:ident, $call:literal, $changes:literal, |$raw:ident, $a:pat_param, $c:pat_param, $n:pat_param, $o:pat_param| $body:expr) => {
        #[cfg(exported = $call)]
        $list.push(Call {
            name: $call,
            changes: $changes,
            library: |$a, $c, $n, $o| {
                use raw as $raw;
                $body.number()
            },
            model: |$a, $c, $n, $o| {
                use calls as $raw;
                $body.number()
            },
        });
    };
}

/// Reading calls that take an area alone.
macro_rules! readings {
    ($list:ident bytes $($call:literal $name:ident),*; values $($value:literal $value_name:ident),*) => {
        $(call!($list, $call, false, |m, _, area, _, out| m::$name(area, out));)*
        $(call!($list, $value, false, |m, _, area, _, out| values(out, |[value]| {
            m::$value_name(area, value).number()
        }));)*
    };
}

/// The exported calls that are lent a queue's area: all but `fresh`, `open`, `need`, `image_limits` and
/// `convert`.
pub fn calls() -> Vec<Call> {
    let mut list = Vec::new();
    call!(list, "admit", true, |m, a, cur, next, out| m::admit(
        cur,
        next,
        &admit_args!(m, a),
        out
    ));
    call!(list, "cancel", true, |m, a, cur, next, out| m::cancel(
        cur, next, &a.id, out
    ));
    call!(list, "expire", true, |m, a, cur, next, out| m::expire(
        cur, next, a.now, a.height, out
    ));
    call!(
        list,
        "reconcile",
        true,
        |m, a, cur, next, out| m::reconcile(cur, next, &reconcile_args!(m, a), out)
    );
    call!(list, "reopen", true, |m, a, cur, next, _| m::reopen(
        cur, next, &a.ids
    ));
    call!(
        list,
        "set_cursor",
        true,
        |m, a, cur, next, _| m::set_cursor(cur, next, a.height, 1, &a.id)
    );
    call!(list, "settle", true, |m, a, cur, next, _| m::settle(
        cur, next, a.kind, a.outcome
    ));
    call!(list, "sound", false, |m, _, area, _, _| m::sound(area));
    call!(list, "image", false, |m, _, area, _, out| {
        let (length, text) = out.split_at_mut(8);
        values(length, |[length]| m::image(area, text, length).number())
    });
    call!(list, "deadline_due", false, |m, a, area, _, out| values(
        out,
        |[value]| m::deadline_due(area, a.now, a.height, value).number()
    ));
    call!(list, "entry", false, |m, a, area, _, out| m::entry(
        area, &a.id, out
    ));
    call!(list, "signed_bytes", false, |m, a, area, _, out| values(
        out,
        |[start, length]| m::signed_bytes(area, &a.id, start, length).number()
    ));
    call!(list, "selection_entries_at", false, |m, a, area, _, out| {
        m::selection_entries_at(area, a.now, a.height, out)
    });
    call!(
        list,
        "selection_parents_first",
        false,
        |m, a, area, _, out| { m::selection_parents_first(area, a.now, a.height, out) }
    );
    call!(list, "best_fees", false, |m, a, area, _, out| {
        m::best_fees(area, a.limit, a.budget, a.now, a.height, out)
    });
    call!(list, "due", false, |m, a, area, _, out| m::due(
        area, a.now, a.height, out
    ));
    readings!(list bytes
        "observation_cursor" observation_cursor, "record_ids" record_ids,
        "guarded_ids" guarded_ids, "reserved_inputs" reserved_inputs,
        "reservation_snapshot" reservation_snapshot, "guard_snapshot" guard_snapshot,
        "list" list, "selection_entries" selection_entries, "confirmations" confirmations;
        values "revision" revision, "is_empty" is_empty, "observed_height" observed_height);
    list
}
