//! Best fees for a block: what the search takes beyond the check of the area.

use std::time::Duration;

use compare::tables::Tables;
use model::fees::{MAX_BUDGET, MAX_CANDIDATES};
use model::load::{Ids, Links};
use pokerbox::raw;

use crate::growth::{full, plain, times, Lent};

/// The whole tree of 20 may take so many milliseconds beyond the check.
const MOST: f64 = 50.0;

/// All sets of the candidates fit, so that the whole tree has as many nodes as the top budget.
pub fn rows(enough: Duration, tables: &mut Tables) {
    tables.line(format_args!("Milliseconds, least (median). All sets of the {MAX_CANDIDATES} candidates fit. 20 and 1,000 records: of 2 inputs and outputs and 300 signed"));
    tables.line("bytes, P 1024, B 1048576, T 1024, K 2.\n");
    tables.line(format_args!("| queue | sound | 1 step | 1,000 steps | {MAX_BUDGET} steps | of these beyond sound | at most | reached |"));
    tables.line("|---|---:|---:|---:|---:|---:|---:|---|");
    let loads = [
        ("20 records", plain(20, Ids::Random, Links::Apart)),
        ("1,000 records", plain(1_000, Ids::Random, Links::Apart)),
        (
            "a full unit at the top limits",
            full(Ids::Random, Links::Apart),
        ),
    ];
    for (name, load) in loads {
        let lent = Lent::new(&load, enough);
        let sound = lent.sound();
        let mut out = [0; 24 + 32 * MAX_CANDIDATES];
        let [one, some, whole] = [1, 1_000, MAX_BUDGET].map(|budget| {
            let time = times(enough, || {
                let answer = raw::best_fees(lent.area(), u64::MAX, budget, 0, 0, &mut out);
                answer.expect("answered");
            });
            assert_eq!(out[8..12], (budget as u32).to_be_bytes(), "the nodes");
            time
        });
        let both =
            |(least, median): (f64, f64)| format!("{:.2} ({:.2})", least * 1e3, median * 1e3);
        let beyond = (whole.0 - sound.0) * 1e3;
        let verdict = if beyond <= MOST { "yes" } else { "no" };
        tables.line(format_args!(
            "| {name} | {} | {} | {} | {} | {beyond:.1} | {MOST} | {verdict} |",
            both(sound),
            both(one),
            both(some),
            both(whole)
        ));
    }
    tables.line("");
}
