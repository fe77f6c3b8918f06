//! The exported calls of libpokerbox.a as docs/CALLS.md declares them. A slice crosses as a pointer
//! and a length, `&mut u64` as a pointer. All unsafe code of this crate is here: each function
//! passes on the parts of Rust slices and references, which are never null, and which Rust keeps
//! from overlapping what is lent to write.

mod c {
    #[allow(dead_code)]
    extern "C" {
        pub fn pokerbox_admit(
            cur: *const u8,
            cur_len: usize,
            next: *mut u8,
            next_len: usize,
            id: *const u8,
            id_len: usize,
            caller: u8,
            inputs: *const u8,
            inputs_len: usize,
            outputs: *const u8,
            outputs_len: usize,
            reads: *const u8,
            reads_len: usize,
            signed: *const u8,
            signed_len: usize,
            now: u64,
            time_flag: u8,
            time: u64,
            height_flag: u8,
            height: u32,
            priority: u64,
            label_flag: u8,
            label: *const u8,
            label_len: usize,
            fee: u64,
            cost: u64,
            tip_height: u32,
            tip_flag: u8,
            tip: *const u8,
            tip_len: usize,
            out: *mut u8,
            out_len: usize,
        ) -> u64;
        pub fn pokerbox_cancel(
            cur: *const u8,
            cur_len: usize,
            next: *mut u8,
            next_len: usize,
            id: *const u8,
            id_len: usize,
            out: *mut u8,
            out_len: usize,
        ) -> u64;
        pub fn pokerbox_expire(
            cur: *const u8,
            cur_len: usize,
            next: *mut u8,
            next_len: usize,
            now: u64,
            height: u32,
            out: *mut u8,
            out_len: usize,
        ) -> u64;
        pub fn pokerbox_reconcile(
            cur: *const u8,
            cur_len: usize,
            next: *mut u8,
            next_len: usize,
            height: u32,
            tip: *const u8,
            tip_len: usize,
            applied: *const u8,
            applied_len: usize,
            caught_up: u8,
            available: *const u8,
            available_len: usize,
            window: u32,
            out: *mut u8,
            out_len: usize,
        ) -> u64;
        pub fn pokerbox_reopen(
            cur: *const u8,
            cur_len: usize,
            next: *mut u8,
            next_len: usize,
            ids: *const u8,
            ids_len: usize,
        ) -> u64;
        pub fn pokerbox_set_cursor(
            cur: *const u8,
            cur_len: usize,
            next: *mut u8,
            next_len: usize,
            height: u32,
            tip_flag: u8,
            tip: *const u8,
            tip_len: usize,
        ) -> u64;
        pub fn pokerbox_fresh(
            pending: u64,
            bytes: u64,
            tombstones: u64,
            inputs: u64,
            shares: *const u8,
            shares_len: usize,
            area: *mut u8,
            area_len: usize,
        ) -> u64;
        pub fn pokerbox_sound(area: *const u8, area_len: usize) -> u64;
        pub fn pokerbox_settle(
            cur: *const u8,
            cur_len: usize,
            next: *mut u8,
            next_len: usize,
            kind: u64,
            outcome: u64,
        ) -> u64;
        pub fn pokerbox_image(
            area: *const u8,
            area_len: usize,
            out: *mut u8,
            out_len: usize,
            length: *mut u64,
        ) -> u64;
        pub fn pokerbox_open(
            text: *const u8,
            text_len: usize,
            area: *mut u8,
            area_len: usize,
        ) -> u64;
        pub fn pokerbox_need(
            pending: u64,
            bytes: u64,
            tombstones: u64,
            inputs: u64,
            value: *mut u64,
        ) -> u64;
        pub fn pokerbox_image_limits(
            text: *const u8,
            text_len: usize,
            pending: *mut u64,
            bytes: *mut u64,
            tombstones: *mut u64,
            inputs: *mut u64,
            shares: *mut u8,
            shares_len: usize,
            need: *mut u64,
        ) -> u64;
        pub fn pokerbox_convert(
            text: *const u8,
            text_len: usize,
            out: *mut u8,
            out_len: usize,
            length: *mut u64,
        ) -> u64;
        pub fn pokerbox_revision(area: *const u8, area_len: usize, value: *mut u64) -> u64;
        pub fn pokerbox_is_empty(area: *const u8, area_len: usize, value: *mut u64) -> u64;
        pub fn pokerbox_deadline_due(
            area: *const u8,
            area_len: usize,
            now: u64,
            height: u32,
            value: *mut u64,
        ) -> u64;
        pub fn pokerbox_observed_height(area: *const u8, area_len: usize, value: *mut u64) -> u64;
        pub fn pokerbox_observation_cursor(
            area: *const u8,
            area_len: usize,
            out: *mut u8,
            out_len: usize,
        ) -> u64;
        pub fn pokerbox_record_ids(
            area: *const u8,
            area_len: usize,
            out: *mut u8,
            out_len: usize,
        ) -> u64;
        pub fn pokerbox_guarded_ids(
            area: *const u8,
            area_len: usize,
            out: *mut u8,
            out_len: usize,
        ) -> u64;
        pub fn pokerbox_reserved_inputs(
            area: *const u8,
            area_len: usize,
            out: *mut u8,
            out_len: usize,
        ) -> u64;
        pub fn pokerbox_reservation_snapshot(
            area: *const u8,
            area_len: usize,
            out: *mut u8,
            out_len: usize,
        ) -> u64;
        pub fn pokerbox_guard_snapshot(
            area: *const u8,
            area_len: usize,
            out: *mut u8,
            out_len: usize,
        ) -> u64;
        pub fn pokerbox_list(area: *const u8, area_len: usize, out: *mut u8, out_len: usize)
            -> u64;
        pub fn pokerbox_entry(
            area: *const u8,
            area_len: usize,
            id: *const u8,
            id_len: usize,
            out: *mut u8,
            out_len: usize,
        ) -> u64;
        pub fn pokerbox_signed_bytes(
            area: *const u8,
            area_len: usize,
            id: *const u8,
            id_len: usize,
            start: *mut u64,
            length: *mut u64,
        ) -> u64;
        pub fn pokerbox_selection_entries(
            area: *const u8,
            area_len: usize,
            out: *mut u8,
            out_len: usize,
        ) -> u64;
        pub fn pokerbox_selection_entries_at(
            area: *const u8,
            area_len: usize,
            now: u64,
            height: u32,
            out: *mut u8,
            out_len: usize,
        ) -> u64;
        pub fn pokerbox_selection_parents_first(
            area: *const u8,
            area_len: usize,
            now: u64,
            height: u32,
            out: *mut u8,
            out_len: usize,
        ) -> u64;
        pub fn pokerbox_best_fees(
            area: *const u8,
            area_len: usize,
            limit: u64,
            budget: u64,
            now: u64,
            height: u32,
            out: *mut u8,
            out_len: usize,
        ) -> u64;
        pub fn pokerbox_due(
            area: *const u8,
            area_len: usize,
            now: u64,
            height: u32,
            out: *mut u8,
            out_len: usize,
        ) -> u64;
        pub fn pokerbox_confirmations(
            area: *const u8,
            area_len: usize,
            out: *mut u8,
            out_len: usize,
        ) -> u64;
    }
}

#[cfg(exported = "admit")]
pub fn admit(cur: &[u8], next: &mut [u8], args: &crate::raw::AdmitArgs<'_>, out: &mut [u8]) -> u64 {
    unsafe {
        c::pokerbox_admit(
            cur.as_ptr(),
            cur.len(),
            next.as_mut_ptr(),
            next.len(),
            args.id.as_ptr(),
            args.id.len(),
            args.caller,
            args.inputs.as_ptr(),
            args.inputs.len(),
            args.outputs.as_ptr(),
            args.outputs.len(),
            args.reads.as_ptr(),
            args.reads.len(),
            args.signed.as_ptr(),
            args.signed.len(),
            args.now,
            args.time_flag,
            args.time,
            args.height_flag,
            args.height,
            args.priority,
            args.label_flag,
            args.label.as_ptr(),
            args.label.len(),
            args.fee,
            args.cost,
            args.tip_height,
            args.tip_flag,
            args.tip.as_ptr(),
            args.tip.len(),
            out.as_mut_ptr(),
            out.len(),
        )
    }
}

#[cfg(exported = "cancel")]
pub fn cancel(cur: &[u8], next: &mut [u8], id: &[u8], out: &mut [u8]) -> u64 {
    unsafe {
        c::pokerbox_cancel(
            cur.as_ptr(),
            cur.len(),
            next.as_mut_ptr(),
            next.len(),
            id.as_ptr(),
            id.len(),
            out.as_mut_ptr(),
            out.len(),
        )
    }
}

#[cfg(exported = "expire")]
pub fn expire(cur: &[u8], next: &mut [u8], now: u64, height: u32, out: &mut [u8]) -> u64 {
    unsafe {
        c::pokerbox_expire(
            cur.as_ptr(),
            cur.len(),
            next.as_mut_ptr(),
            next.len(),
            now,
            height,
            out.as_mut_ptr(),
            out.len(),
        )
    }
}

#[cfg(exported = "reconcile")]
pub fn reconcile(
    cur: &[u8],
    next: &mut [u8],
    args: &crate::raw::ReconcileArgs<'_>,
    out: &mut [u8],
) -> u64 {
    unsafe {
        c::pokerbox_reconcile(
            cur.as_ptr(),
            cur.len(),
            next.as_mut_ptr(),
            next.len(),
            args.height,
            args.tip.as_ptr(),
            args.tip.len(),
            args.applied.as_ptr(),
            args.applied.len(),
            args.caught_up,
            args.available.as_ptr(),
            args.available.len(),
            args.window,
            out.as_mut_ptr(),
            out.len(),
        )
    }
}

#[cfg(exported = "reopen")]
pub fn reopen(cur: &[u8], next: &mut [u8], ids: &[u8]) -> u64 {
    unsafe {
        c::pokerbox_reopen(
            cur.as_ptr(),
            cur.len(),
            next.as_mut_ptr(),
            next.len(),
            ids.as_ptr(),
            ids.len(),
        )
    }
}

#[cfg(exported = "set_cursor")]
pub fn set_cursor(cur: &[u8], next: &mut [u8], height: u32, tip_flag: u8, tip: &[u8]) -> u64 {
    unsafe {
        c::pokerbox_set_cursor(
            cur.as_ptr(),
            cur.len(),
            next.as_mut_ptr(),
            next.len(),
            height,
            tip_flag,
            tip.as_ptr(),
            tip.len(),
        )
    }
}

#[cfg(exported = "fresh")]
pub fn fresh(
    pending: u64,
    bytes: u64,
    tombstones: u64,
    inputs: u64,
    shares: &[u8],
    area: &mut [u8],
) -> u64 {
    unsafe {
        c::pokerbox_fresh(
            pending,
            bytes,
            tombstones,
            inputs,
            shares.as_ptr(),
            shares.len(),
            area.as_mut_ptr(),
            area.len(),
        )
    }
}

#[cfg(exported = "sound")]
pub fn sound(area: &[u8]) -> u64 {
    unsafe { c::pokerbox_sound(area.as_ptr(), area.len()) }
}

#[cfg(exported = "settle")]
pub fn settle(cur: &[u8], next: &mut [u8], kind: u64, outcome: u64) -> u64 {
    unsafe {
        c::pokerbox_settle(
            cur.as_ptr(),
            cur.len(),
            next.as_mut_ptr(),
            next.len(),
            kind,
            outcome,
        )
    }
}

#[cfg(exported = "image")]
pub fn image(area: &[u8], out: &mut [u8], length: &mut u64) -> u64 {
    unsafe {
        c::pokerbox_image(
            area.as_ptr(),
            area.len(),
            out.as_mut_ptr(),
            out.len(),
            length,
        )
    }
}

#[cfg(exported = "open")]
pub fn open(text: &[u8], area: &mut [u8]) -> u64 {
    unsafe { c::pokerbox_open(text.as_ptr(), text.len(), area.as_mut_ptr(), area.len()) }
}

#[cfg(exported = "need")]
pub fn need(pending: u64, bytes: u64, tombstones: u64, inputs: u64, value: &mut u64) -> u64 {
    unsafe { c::pokerbox_need(pending, bytes, tombstones, inputs, value) }
}

#[cfg(exported = "image_limits")]
pub fn image_limits(
    text: &[u8],
    pending: &mut u64,
    bytes: &mut u64,
    tombstones: &mut u64,
    inputs: &mut u64,
    shares: &mut [u8],
    need: &mut u64,
) -> u64 {
    unsafe {
        c::pokerbox_image_limits(
            text.as_ptr(),
            text.len(),
            pending,
            bytes,
            tombstones,
            inputs,
            shares.as_mut_ptr(),
            shares.len(),
            need,
        )
    }
}

#[cfg(exported = "convert")]
pub fn convert(text: &[u8], out: &mut [u8], length: &mut u64) -> u64 {
    unsafe {
        c::pokerbox_convert(
            text.as_ptr(),
            text.len(),
            out.as_mut_ptr(),
            out.len(),
            length,
        )
    }
}

#[cfg(exported = "entry")]
pub fn entry(area: &[u8], id: &[u8], out: &mut [u8]) -> u64 {
    unsafe {
        c::pokerbox_entry(
            area.as_ptr(),
            area.len(),
            id.as_ptr(),
            id.len(),
            out.as_mut_ptr(),
            out.len(),
        )
    }
}

#[cfg(exported = "signed_bytes")]
pub fn signed_bytes(area: &[u8], id: &[u8], start: &mut u64, length: &mut u64) -> u64 {
    unsafe {
        c::pokerbox_signed_bytes(
            area.as_ptr(),
            area.len(),
            id.as_ptr(),
            id.len(),
            start,
            length,
        )
    }
}

#[cfg(exported = "selection_entries_at")]
pub fn selection_entries_at(area: &[u8], now: u64, height: u32, out: &mut [u8]) -> u64 {
    unsafe {
        c::pokerbox_selection_entries_at(
            area.as_ptr(),
            area.len(),
            now,
            height,
            out.as_mut_ptr(),
            out.len(),
        )
    }
}

#[cfg(exported = "selection_parents_first")]
pub fn selection_parents_first(area: &[u8], now: u64, height: u32, out: &mut [u8]) -> u64 {
    unsafe {
        c::pokerbox_selection_parents_first(
            area.as_ptr(),
            area.len(),
            now,
            height,
            out.as_mut_ptr(),
            out.len(),
        )
    }
}

#[cfg(exported = "best_fees")]
pub fn best_fees(
    area: &[u8],
    limit: u64,
    budget: u64,
    now: u64,
    height: u32,
    out: &mut [u8],
) -> u64 {
    unsafe {
        c::pokerbox_best_fees(
            area.as_ptr(),
            area.len(),
            limit,
            budget,
            now,
            height,
            out.as_mut_ptr(),
            out.len(),
        )
    }
}

#[cfg(exported = "due")]
pub fn due(area: &[u8], now: u64, height: u32, out: &mut [u8]) -> u64 {
    unsafe {
        c::pokerbox_due(
            area.as_ptr(),
            area.len(),
            now,
            height,
            out.as_mut_ptr(),
            out.len(),
        )
    }
}

#[cfg(exported = "deadline_due")]
pub fn deadline_due(area: &[u8], now: u64, height: u32, value: &mut u64) -> u64 {
    unsafe { c::pokerbox_deadline_due(area.as_ptr(), area.len(), now, height, value) }
}

/// Reading calls that take an area and answer bytes, or one number.
macro_rules! readings {
    ($($call:literal $name:ident $symbol:ident bytes;)* ;
     $($value_call:literal $value_name:ident $value_symbol:ident value;)*) => {
        $(
            #[cfg(exported = $call)]
            pub fn $name(area: &[u8], out: &mut [u8]) -> u64 {
                unsafe { c::$symbol(area.as_ptr(), area.len(), out.as_mut_ptr(), out.len()) }
            }
        )*
        $(
            #[cfg(exported = $value_call)]
            pub fn $value_name(area: &[u8], value: &mut u64) -> u64 {
                unsafe { c::$value_symbol(area.as_ptr(), area.len(), value) }
            }
        )*
    };
}

readings! {
    "observation_cursor" observation_cursor pokerbox_observation_cursor bytes;
    "record_ids" record_ids pokerbox_record_ids bytes;
    "guarded_ids" guarded_ids pokerbox_guarded_ids bytes;
    "reserved_inputs" reserved_inputs pokerbox_reserved_inputs bytes;
    "reservation_snapshot" reservation_snapshot pokerbox_reservation_snapshot bytes;
    "guard_snapshot" guard_snapshot pokerbox_guard_snapshot bytes;
    "list" list pokerbox_list bytes;
    "selection_entries" selection_entries pokerbox_selection_entries bytes;
    "confirmations" confirmations pokerbox_confirmations bytes;
    ;
    "revision" revision pokerbox_revision value;
    "is_empty" is_empty pokerbox_is_empty value;
    "observed_height" observed_height pokerbox_observed_height value;
}
