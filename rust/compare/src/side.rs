//! The calls on lent areas, by the library or by the model.

use model::calls;
use model::calls::{AdmitArgs, ReconcileArgs};
use pokerbox::raw;

/// The calls of docs/CALLS.md. Each side has every call: none is made by another in its place.
pub trait Side {
    fn admit(&self, cur: &[u8], next: &mut [u8], args: &AdmitArgs<'_>, out: &mut [u8]) -> u64;

    fn cancel(&self, cur: &[u8], next: &mut [u8], id: &[u8], out: &mut [u8]) -> u64;

    fn expire(&self, cur: &[u8], next: &mut [u8], now: u64, height: u32, out: &mut [u8]) -> u64;

    fn reconcile(
        &self,
        cur: &[u8],
        next: &mut [u8],
        args: &ReconcileArgs<'_>,
        out: &mut [u8],
    ) -> u64;

    fn reopen(&self, cur: &[u8], next: &mut [u8], ids: &[u8]) -> u64;

    fn set_cursor(&self, cur: &[u8], next: &mut [u8], height: u32, flag: u8, tip: &[u8]) -> u64;

    /// Of P, B, T, K and the shares.
    fn fresh(&self, limits: [u64; 4], shares: &[u8], area: &mut [u8]) -> u64;

    fn settle(&self, cur: &[u8], next: &mut [u8], kind: u64, outcome: u64) -> u64;

    fn image(&self, area: &[u8], out: &mut [u8], length: &mut u64) -> u64;

    fn open(&self, text: &[u8], area: &mut [u8]) -> u64;

    fn need(&self, limits: [u64; 4], value: &mut u64) -> u64;

    /// P, B, T, K and the need; the shares.
    fn image_limits(&self, text: &[u8], numbers: &mut [u64; 5], shares: &mut [u8]) -> u64;

    fn convert(&self, text: &[u8], out: &mut [u8], length: &mut u64) -> u64;

    fn sound(&self, area: &[u8]) -> u64;

    fn entry(&self, area: &[u8], id: &[u8], out: &mut [u8]) -> u64;

    fn signed_bytes(&self, area: &[u8], id: &[u8], start: &mut u64, length: &mut u64) -> u64;

    fn best_fees(&self, area: &[u8], asked: &Fees, out: &mut [u8]) -> u64;

    fn parents_first(&self, area: &[u8], now: u64, height: u32, out: &mut [u8]) -> u64;

    /// The other reading calls.
    fn read(&self, reading: Reading, area: &[u8], out: &mut [u8]) -> u64;
}

/// What best fees is given beside the area and the output.
#[derive(Debug, Clone, Copy, PartialEq, Eq)]
pub struct Fees {
    pub limit: u64,
    pub budget: u64,
    pub now: u64,
    pub height: u32,
}

/// A reading call that the oracle has, too, without an id. One that answers a number writes it as 8
/// bytes here.
#[derive(Debug, Clone, Copy, PartialEq, Eq)]
pub enum Reading {
    Revision,
    IsEmpty,
    DeadlineDue(u64, u32),
    ObservedHeight,
    ObservationCursor,
    RecordIds,
    GuardedIds,
    ReservedInputs,
    ReservationSnapshot,
    GuardSnapshot,
    List,
    SelectionEntries,
    SelectionEntriesAt(u64, u32),
    Due(u64, u32),
    Confirmations,
}

impl Reading {
    pub fn all(now: u64, height: u32) -> [Reading; 15] {
        [
            Reading::Revision,
            Reading::IsEmpty,
            Reading::DeadlineDue(now, height),
            Reading::ObservedHeight,
            Reading::ObservationCursor,
            Reading::RecordIds,
            Reading::GuardedIds,
            Reading::ReservedInputs,
            Reading::ReservationSnapshot,
            Reading::GuardSnapshot,
            Reading::List,
            Reading::SelectionEntries,
            Reading::SelectionEntriesAt(now, height),
            Reading::Due(now, height),
            Reading::Confirmations,
        ]
    }

    pub fn name(self) -> &'static str {
        match self {
            Reading::Revision => "revision",
            Reading::IsEmpty => "is_empty",
            Reading::DeadlineDue(..) => "deadline_due",
            Reading::ObservedHeight => "observed_height",
            Reading::ObservationCursor => "observation_cursor",
            Reading::RecordIds => "record_ids",
            Reading::GuardedIds => "guarded_ids",
            Reading::ReservedInputs => "reserved_inputs",
            Reading::ReservationSnapshot => "reservation_snapshot",
            Reading::GuardSnapshot => "guard_snapshot",
            Reading::List => "list",
            Reading::SelectionEntries => "selection_entries",
            Reading::SelectionEntriesAt(..) => "selection_entries_at",
            Reading::Due(..) => "due",
            Reading::Confirmations => "confirmations",
        }
    }
}

/// The number that a call wrote behind its pointer, as 8 bytes.
fn put_value(out: &mut [u8], call: impl FnOnce(&mut u64) -> u64) -> u64 {
    let mut value = 0;
    let number = call(&mut value);
    if number == calls::ANSWERED {
        out[..8].copy_from_slice(&value.to_be_bytes());
    }
    number
}

/// The model.
#[derive(Debug, Clone, Copy, Default)]
pub struct Model;

impl Side for Model {
    fn admit(&self, cur: &[u8], next: &mut [u8], args: &AdmitArgs<'_>, out: &mut [u8]) -> u64 {
        calls::admit(cur, next, args, out)
    }

    fn cancel(&self, cur: &[u8], next: &mut [u8], id: &[u8], out: &mut [u8]) -> u64 {
        calls::cancel(cur, next, id, out)
    }

    fn expire(&self, cur: &[u8], next: &mut [u8], now: u64, height: u32, out: &mut [u8]) -> u64 {
        calls::expire(cur, next, now, height, out)
    }

    fn reconcile(
        &self,
        cur: &[u8],
        next: &mut [u8],
        args: &ReconcileArgs<'_>,
        out: &mut [u8],
    ) -> u64 {
        calls::reconcile(cur, next, args, out)
    }

    fn reopen(&self, cur: &[u8], next: &mut [u8], ids: &[u8]) -> u64 {
        calls::reopen(cur, next, ids)
    }

    fn set_cursor(&self, cur: &[u8], next: &mut [u8], height: u32, flag: u8, tip: &[u8]) -> u64 {
        calls::set_cursor(cur, next, height, flag, tip)
    }

    fn fresh(&self, [p, b, t, k]: [u64; 4], shares: &[u8], area: &mut [u8]) -> u64 {
        calls::fresh(p, b, t, k, shares, area)
    }

    fn settle(&self, cur: &[u8], next: &mut [u8], kind: u64, outcome: u64) -> u64 {
        calls::settle(cur, next, kind, outcome)
    }

    fn image(&self, area: &[u8], out: &mut [u8], length: &mut u64) -> u64 {
        calls::image(area, out, length)
    }

    fn open(&self, text: &[u8], area: &mut [u8]) -> u64 {
        calls::open(text, area)
    }

    fn need(&self, [p, b, t, k]: [u64; 4], value: &mut u64) -> u64 {
        calls::need(p, b, t, k, value)
    }

    fn image_limits(&self, text: &[u8], numbers: &mut [u64; 5], shares: &mut [u8]) -> u64 {
        let [p, b, t, k, need] = numbers;
        calls::image_limits(text, p, b, t, k, shares, need)
    }

    fn convert(&self, text: &[u8], out: &mut [u8], length: &mut u64) -> u64 {
        calls::convert(text, out, length)
    }

    fn sound(&self, area: &[u8]) -> u64 {
        calls::sound(area)
    }

    fn entry(&self, area: &[u8], id: &[u8], out: &mut [u8]) -> u64 {
        calls::entry(area, id, out)
    }

    fn signed_bytes(&self, area: &[u8], id: &[u8], start: &mut u64, length: &mut u64) -> u64 {
        calls::signed_bytes(area, id, start, length)
    }

    fn best_fees(&self, area: &[u8], asked: &Fees, out: &mut [u8]) -> u64 {
        let Fees { limit, budget, .. } = *asked;
        calls::best_fees(area, limit, budget, asked.now, asked.height, out)
    }

    fn parents_first(&self, area: &[u8], now: u64, height: u32, out: &mut [u8]) -> u64 {
        calls::selection_parents_first(area, now, height, out)
    }

    fn read(&self, reading: Reading, area: &[u8], out: &mut [u8]) -> u64 {
        match reading {
            Reading::Revision => put_value(out, |value| calls::revision(area, value)),
            Reading::IsEmpty => put_value(out, |value| calls::is_empty(area, value)),
            Reading::DeadlineDue(now, height) => {
                put_value(out, |value| calls::deadline_due(area, now, height, value))
            }
            Reading::ObservedHeight => put_value(out, |value| calls::observed_height(area, value)),
            Reading::ObservationCursor => calls::observation_cursor(area, out),
            Reading::RecordIds => calls::record_ids(area, out),
            Reading::GuardedIds => calls::guarded_ids(area, out),
            Reading::ReservedInputs => calls::reserved_inputs(area, out),
            Reading::ReservationSnapshot => calls::reservation_snapshot(area, out),
            Reading::GuardSnapshot => calls::guard_snapshot(area, out),
            Reading::List => calls::list(area, out),
            Reading::SelectionEntries => calls::selection_entries(area, out),
            Reading::SelectionEntriesAt(now, height) => {
                calls::selection_entries_at(area, now, height, out)
            }
            Reading::Due(now, height) => calls::due(area, now, height, out),
            Reading::Confirmations => calls::confirmations(area, out),
        }
    }
}

/// The library.
#[derive(Debug, Clone, Copy, Default)]
pub struct Library;

/// The number of docs/CALLS.md.
trait Number {
    fn number(self) -> u64;
}

impl Number for Result<pokerbox::Kind, pokerbox::Error> {
    fn number(self) -> u64 {
        self.map_or_else(|error| error.number(), |kind| 100 + kind as u64)
    }
}

impl Number for Result<(), pokerbox::Error> {
    fn number(self) -> u64 {
        self.map_or_else(|error| error.number(), |()| 100)
    }
}

fn number(answer: impl Number) -> u64 {
    answer.number()
}

fn admit_args<'a>(args: &AdmitArgs<'a>) -> raw::AdmitArgs<'a> {
    raw::AdmitArgs {
        id: args.id,
        caller: args.caller,
        inputs: args.inputs,
        outputs: args.outputs,
        reads: args.reads,
        signed: args.signed,
        now: args.now,
        time_flag: args.time_flag,
        time: args.time,
        height_flag: args.height_flag,
        height: args.height,
        priority: args.priority,
        label_flag: args.label_flag,
        label: args.label,
        fee: args.fee,
        cost: args.cost,
        tip_height: args.tip_height,
        tip_flag: args.tip_flag,
        tip: args.tip,
    }
}

fn reconcile_args<'a>(args: &ReconcileArgs<'a>) -> raw::ReconcileArgs<'a> {
    raw::ReconcileArgs {
        height: args.height,
        tip: args.tip,
        applied: args.applied,
        caught_up: args.caught_up,
        available: args.available,
        window: args.window,
    }
}

impl Side for Library {
    fn admit(&self, cur: &[u8], next: &mut [u8], args: &AdmitArgs<'_>, out: &mut [u8]) -> u64 {
        number(raw::admit(cur, next, &admit_args(args), out))
    }

    fn cancel(&self, cur: &[u8], next: &mut [u8], id: &[u8], out: &mut [u8]) -> u64 {
        number(raw::cancel(cur, next, id, out))
    }

    fn expire(&self, cur: &[u8], next: &mut [u8], now: u64, height: u32, out: &mut [u8]) -> u64 {
        number(raw::expire(cur, next, now, height, out))
    }

    fn reconcile(
        &self,
        cur: &[u8],
        next: &mut [u8],
        args: &ReconcileArgs<'_>,
        out: &mut [u8],
    ) -> u64 {
        number(raw::reconcile(cur, next, &reconcile_args(args), out))
    }

    fn reopen(&self, cur: &[u8], next: &mut [u8], ids: &[u8]) -> u64 {
        number(raw::reopen(cur, next, ids))
    }

    fn set_cursor(&self, cur: &[u8], next: &mut [u8], height: u32, flag: u8, tip: &[u8]) -> u64 {
        number(raw::set_cursor(cur, next, height, flag, tip))
    }

    fn fresh(&self, [p, b, t, k]: [u64; 4], shares: &[u8], area: &mut [u8]) -> u64 {
        number(raw::fresh(p, b, t, k, shares, area))
    }

    fn settle(&self, cur: &[u8], next: &mut [u8], kind: u64, outcome: u64) -> u64 {
        number(raw::settle(cur, next, kind, outcome))
    }

    fn image(&self, area: &[u8], out: &mut [u8], length: &mut u64) -> u64 {
        number(raw::image(area, out, length))
    }

    fn open(&self, text: &[u8], area: &mut [u8]) -> u64 {
        number(raw::open(text, area))
    }

    fn need(&self, [p, b, t, k]: [u64; 4], value: &mut u64) -> u64 {
        number(raw::need(p, b, t, k, value))
    }

    fn image_limits(&self, text: &[u8], numbers: &mut [u64; 5], shares: &mut [u8]) -> u64 {
        let [p, b, t, k, need] = numbers;
        number(raw::image_limits(text, p, b, t, k, shares, need))
    }

    fn convert(&self, text: &[u8], out: &mut [u8], length: &mut u64) -> u64 {
        number(raw::convert(text, out, length))
    }

    fn sound(&self, area: &[u8]) -> u64 {
        number(raw::sound(area))
    }

    fn entry(&self, area: &[u8], id: &[u8], out: &mut [u8]) -> u64 {
        number(raw::entry(area, id, out))
    }

    fn signed_bytes(&self, area: &[u8], id: &[u8], start: &mut u64, length: &mut u64) -> u64 {
        number(raw::signed_bytes(area, id, start, length))
    }

    fn best_fees(&self, area: &[u8], asked: &Fees, out: &mut [u8]) -> u64 {
        let Fees { limit, budget, .. } = *asked;
        let answer = raw::best_fees(area, limit, budget, asked.now, asked.height, out);
        number(answer)
    }

    fn parents_first(&self, area: &[u8], now: u64, height: u32, out: &mut [u8]) -> u64 {
        number(raw::selection_parents_first(area, now, height, out))
    }

    fn read(&self, reading: Reading, area: &[u8], out: &mut [u8]) -> u64 {
        match reading {
            Reading::Revision => put_value(out, |value| number(raw::revision(area, value))),
            Reading::IsEmpty => put_value(out, |value| number(raw::is_empty(area, value))),
            Reading::DeadlineDue(now, height) => put_value(out, |value| {
                number(raw::deadline_due(area, now, height, value))
            }),
            Reading::ObservedHeight => {
                put_value(out, |value| number(raw::observed_height(area, value)))
            }
            Reading::ObservationCursor => number(raw::observation_cursor(area, out)),
            Reading::RecordIds => number(raw::record_ids(area, out)),
            Reading::GuardedIds => number(raw::guarded_ids(area, out)),
            Reading::ReservedInputs => number(raw::reserved_inputs(area, out)),
            Reading::ReservationSnapshot => number(raw::reservation_snapshot(area, out)),
            Reading::GuardSnapshot => number(raw::guard_snapshot(area, out)),
            Reading::List => number(raw::list(area, out)),
            Reading::SelectionEntries => number(raw::selection_entries(area, out)),
            Reading::SelectionEntriesAt(now, height) => {
                number(raw::selection_entries_at(area, now, height, out))
            }
            Reading::Due(now, height) => number(raw::due(area, now, height, out)),
            Reading::Confirmations => number(raw::confirmations(area, out)),
        }
    }
}
