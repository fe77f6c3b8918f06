//! Parents first: how much longer it takes than the selection, and than the check of the area.

use std::time::Duration;

use compare::tables::Tables;
use model::calls::ids_bytes;
use model::load::{self, Ids, Links, Load, Reads};
use pokerbox::raw;

use crate::growth::{full, plain, ratio, times, Lent, READS};

/// With 1,000 records of 2 inputs it may take so many times as long as the selection.
const MOST_TIMES: f64 = 2.0;
/// At the top limits it may take so many milliseconds beyond the check.
const MOST_MS: f64 = 1_000.0;

const LINKS: [(Links, &str); 5] = [
    (Links::Apart, "unchained"),
    (Links::Ring, "chained in a ring: all are left off"),
    (Links::Chain, "chained, the selection has parents first"),
    (Links::Reversed, "chained, the selection has children first"),
    (Links::Spread, "each input another record's output"),
];

const IDS: [(Ids, &str); 5] = [
    (Ids::Random, "random ids"),
    (Ids::Front, "first 24 bytes alike"),
    (Ids::Ends, "first and last 8 bytes alike"),
    (Ids::Filter, "chosen against the filter"),
    (Ids::Sum, "chosen against the call's own hash"),
];

/// The times of the call, which lists what it should.
fn parents_first(lent: &Lent, load: &Load, enough: Duration) -> (f64, f64) {
    let mut out = vec![0; 4 + 32 * load.queued as usize];
    let time = times(enough, || {
        raw::selection_parents_first(lent.area(), 0, 0, &mut out).expect("answered");
    });
    let listed = ids_bytes(&load::parents_first(load));
    assert!(out.starts_with(&listed), "the list");
    time
}

/// The times of the selection and of parents first, of 1,000 records.
fn both(links: Links, enough: Duration) -> [(f64, f64); 2] {
    let load = plain(1_000, Ids::Random, links);
    let lent = Lent::new(&load, enough);
    let mut out = vec![0; 4 + 32 * load.queued as usize];
    let selection = times(enough, || {
        raw::selection_entries_at(lent.area(), 0, 0, &mut out).expect("answered");
    });
    [selection, parents_first(&lent, &load, enough)]
}

/// The ratios alone.
pub fn ratios(enough: Duration, tables: &mut Tables) {
    for (links, name) in LINKS {
        let [selection, first] = both(links, enough);
        let name = format!("selection_parents_first / selection_entries_at, {name}");
        ratio(tables, &name, first.0 / selection.0, MOST_TIMES);
    }
}

/// 2,048 Queued records of 128 inputs and as many outputs: as many as there can be after rollbacks.
fn top(ids: Ids, links: Links) -> Load {
    Load {
        queued: 2_048,
        mined: 0,
        ..full(ids, links)
    }
}

fn at_the_top(tables: &mut Tables, name: &str, load: &Load, enough: Duration) {
    let lent = Lent::new(load, enough);
    let (sound, first) = (lent.sound(), parents_first(&lent, load, enough));
    let ms = |(least, median): (f64, f64)| format!("{:.1} ({:.1})", least * 1e3, median * 1e3);
    let beyond = (first.0 - sound.0) * 1e3;
    let verdict = if beyond <= MOST_MS { "yes" } else { "no" };
    tables.line(format_args!(
        "| {name} | {} | {} | {beyond:.0} | {MOST_MS} | {verdict} |",
        ms(sound),
        ms(first)
    ));
}

pub fn rows(enough: Duration, tables: &mut Tables) {
    tables.line("1,000 records of 2 inputs and outputs, P 1024, B 1048576, T 1024, K 2. Microseconds, least (median).\n");
    tables.line(
        "| records | selection_entries_at | selection_parents_first | ratio | at most | reached |",
    );
    tables.line("|---|---:|---:|---:|---:|---|");
    for (links, name) in LINKS {
        let [selection, first] = both(links, enough);
        let us = |(least, median): (f64, f64)| format!("{:.0} ({:.0})", least * 1e6, median * 1e6);
        let value = first.0 / selection.0;
        let verdict = if value <= MOST_TIMES { "yes" } else { "no" };
        tables.line(format_args!(
            "| {name} | {} | {} | {value:.2} | {MOST_TIMES} | {verdict} |",
            us(selection),
            us(first)
        ));
    }
    tables.line("\n2,048 Queued records of 128 inputs and outputs, top limits. Milliseconds, least (median).\n");
    tables.line(
        "| ids and records | sound | selection_parents_first | beyond sound | at most | reached |",
    );
    tables.line("|---|---:|---:|---:|---:|---|");
    for (ids, ids_name) in IDS {
        for (links, name) in LINKS {
            let name = format!("{ids_name}; {name}");
            at_the_top(tables, &name, &top(ids, links), enough);
        }
    }
    for (links, name) in &LINKS[..4] {
        let name = format!("one input and one output 128 times; {name}");
        at_the_top(tables, &name, &top(Ids::Repeated, *links), enough);
    }
    for (reads, name) in READS {
        let load = Load {
            reads,
            ..top(Ids::Random, Links::Chain)
        };
        let name = format!("random ids; chained, the selection has parents first; {name}");
        at_the_top(tables, &name, &load, enough);
    }
    for (ids, name) in [
        (Ids::Random, "random ids"),
        (Ids::Repeated, "one id 128 times"),
    ] {
        let load = Load {
            reads: Reads::Made,
            ..top(ids, Links::Apart)
        };
        let name = format!("{name}; all read the same, which are the outputs of all");
        at_the_top(tables, &name, &load, enough);
    }
    tables.line("");
}
