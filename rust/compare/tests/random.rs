//! Short comparisons with the oracle, and faulty sides that a comparison has to notice.

mod common;

use std::ops::Range;

use common::Folder;
use compare::counts::Counts;
use compare::list::{List, Look};
use compare::run::{self, Difference, Found};
use compare::shrink::shrink;
use compare::side::{Fees, Library, Model, Reading, Side};
use model::calls::{self, AdmitArgs, ReconcileArgs};
use model::{FinishNumber, Holder, Queue, Reason, Record, State, Withdrawn};

/// Runs the random lists of these seeds; the first one that shows a difference.
fn lists<S: Side>(
    side: &S,
    folder: &Folder,
    seeds: Range<u64>,
    look: Look,
) -> Result<Counts, Found> {
    let mut counts = Counts::default();
    for seed in seeds {
        run::seed(side, folder.path(), seed, None, look, &mut counts)?;
    }
    Ok(counts)
}

fn no_difference<S: Side>(side: &S, name: &str, seeds: Range<u64>, look: Look) -> Counts {
    let folder = Folder::new(name);
    match lists(side, &folder, seeds, look) {
        Ok(counts) => counts,
        Err(found) => {
            let (list, found) = shrink(side, folder.path(), *found);
            panic!("{list}\n{found}");
        }
    }
}

#[test]
fn the_model_answers_as_the_oracle() {
    let counts = no_difference(&Model, "model", 0..150, Look::All);
    let met = [
        (
            "admit",
            &["7", "8", "9", "10", "11", "12", "kind 0", "kind 2"][..],
        ),
        ("cancel", &["13", "14", "15", "kind 0", "kind 2"]),
        ("expire", &["15", "kind 0", "kind 2"]),
        ("reconcile", &["15", "kind 1", "kind 2", "kind 3"]),
        ("reopen", &["kind 0", "kind 2"]),
        ("set_cursor", &["kind 1"]),
    ];
    for (call, answers) in met {
        for answer in answers {
            assert!(counts.met(call, answer), "{call} never gave {answer}");
        }
    }
    assert_eq!(counts.met_by_fees(), [4, 5, 21, 100]);
    marks_were_met(&counts);
    // Of caller 0 alone, whose share is P: 10 comes first. Nothing is read.
    assert!(!counts.met("admit", "18"));
    assert!(!counts.met("admit", "20"));
}

/// In the lists that the model judges, each rule about callers and shares was met often.
fn callers_were_met(counts: &Counts) {
    let met = counts.callers;
    assert!(met.lists >= 100, "{met}");
    assert!(met.events > 1_500, "{met}");
    assert!(met.refused > met.used_up, "{met}");
    for (count, least) in [
        (met.used_up, 30),
        (met.admitted, 50),
        (met.replaced, 5),
        (met.lifted, 5),
        (met.restarted, 5),
        (met.over_15, 500),
        (met.over_p, 300),
        (met.not_whole, 300),
    ] {
        assert!(count > least, "{met}");
    }
    let altered = |lent| counts.met_by_kind(lent, 6);
    assert_eq!(altered("areas with another caller or share"), [3, 100]);
    assert_eq!(altered("texts with another caller or share"), [16, 100]);
}

/// In the lists that the model judges, each rule about read ids was met often.
fn reads_were_met(counts: &Counts) {
    let met = counts.reads;
    assert!(met.lists >= 100, "{met}");
    assert!(met.events > 1_500, "{met}");
    for (count, least) in [
        (met.refused, 100),
        (met.input_read, 50),
        (met.read_spent, 50),
        (met.by_mined, 10),
        (met.admitted, 100),
        (met.shared, 30),
        (met.own, 30),
        (met.conflicted, 50),
        (met.queued_again, 30),
        (met.finished, 100),
        (met.waiting, 50),
        (met.over_k, 500),
        (met.not_whole, 500),
    ] {
        assert!(count > least, "{met}");
    }
    let altered = |lent| counts.met_by_kind(lent, 6);
    assert_eq!(altered("areas with other read ids"), [3, 100]);
    assert_eq!(altered("texts with other read ids"), [16, 100]);
}

/// In the lists that the model judges, priorities of 64 bits were met often; and in all lists the converter
/// answered, and refused by each number and for each cause alone.
fn wide_were_met(counts: &Counts) {
    let met = counts.wide;
    assert!(met.lists >= 100, "{met}");
    assert!(met.events > 1_500, "{met}");
    for (count, least) in [
        (met.admitted, 200),
        (met.beyond, 20),
        (met.by_sign, 200),
        (met.by_last, 200),
        (met.by_first, 200),
    ] {
        assert!(count > least, "{met}");
    }
    assert_eq!(counts.met_by_kind("areas with another priority", 6), [100]);
    assert_eq!(counts.met_by_kind("texts with another priority", 6), [100]);
    converted_were_met(counts);
}

fn converted_were_met(counts: &Counts) {
    let met = counts.converted;
    let [of_holders, of_tombstones] = met.priority;
    let [by_holders, by_tombstones] = met.caller;
    for (count, least) in [
        (met.answered, 2_000),
        (met.with_records, 1_800),
        (met.older, 1_000),
        (met.no_image, 200),
        (met.short, 500),
        (met.refused, 1_500),
        (of_holders, 300),
        (of_tombstones, 200),
        (by_holders, 150),
        (by_tombstones, 80),
        (met.shares, 200),
        (met.mark, 50),
        (met.reads, 300),
    ] {
        assert!(count > least, "{met}");
    }
}

/// The reason that is left out was there often enough, and so were other kinds and marks.
fn marks_were_met(counts: &Counts) {
    let met = counts.marks;
    assert!(met.events > 100, "{met}");
    assert!(met.confirmed >= met.rolled_back, "{met}");
    assert!(met.rolled_back > met.released, "{met}");
    assert!(met.released > 5, "{met}");
    for (kind, texts, areas) in [
        (1, &[16, 100][..], &[3][..]),
        (3, &[16, 100], &[3]),
        (4, &[16, 100], &[3]),
        (5, &[16, 100], &[3]),
        (6, &[16, 100], &[3, 100]),
        (0, &[16], &[3]),
        (2, &[16], &[3]),
        (7, &[16], &[3]),
    ] {
        assert_eq!(counts.met_by_kind("texts", kind), texts, "{kind}");
        assert_eq!(counts.met_by_kind("areas", kind), areas, "{kind}");
    }
}

#[test]
fn the_library_answers_as_the_oracle() {
    // The gate's run begins with these.
    let counts = no_difference(&Library, "library", 1..101, Look::All);
    assert_eq!(counts.met_by_fees(), [4, 5, 21, 100]);
    // Records waited, and were left off or listed in another order, often enough.
    let met = counts.parents;
    assert!(met.compared > counts.steps, "{met}");
    for count in [met.waiting, met.left_off, met.turned] {
        assert!(count > 200, "{met}");
    }
    // What may not be selected was there, in each of the ways in which it comes and goes.
    let met = counts.withdrawn;
    assert!(met.events > counts.steps / 4, "{met}");
    assert!(met.ids > met.ids_by_cut, "{met}");
    assert!(met.admitted > met.admitted_by_cut, "{met}");
    for count in [
        met.ids_by_cut,
        met.forgotten_at_once,
        met.admitted_by_cut,
        met.kind_0,
    ] {
        assert!(count > 0, "{met}");
    }
    marks_were_met(&counts);
    callers_were_met(&counts);
    reads_were_met(&counts);
    wide_were_met(&counts);
}

type Admit = fn(&[u8], &mut [u8], &AdmitArgs<'_>, &mut [u8]) -> u64;
type Reconcile = fn(&[u8], &mut [u8], &ReconcileArgs<'_>, &mut [u8]) -> u64;
type BestFees = fn(&[u8], &Fees, &mut [u8]) -> u64;
type ParentsFirst = fn(&[u8], u64, u32, &mut [u8]) -> u64;

/// The model, some of whose calls may be wrong.
struct Faulty {
    admit: Admit,
    fresh: fn([u64; 4], &[u8], &mut [u8]) -> u64,
    settle: fn(&[u8], &mut [u8], u64, u64) -> u64,
    cancel: fn(&[u8], &mut [u8], &[u8], &mut [u8]) -> u64,
    reconcile: Reconcile,
    reopen: fn(&[u8], &mut [u8], &[u8]) -> u64,
    sound: fn(&[u8]) -> u64,
    open: fn(&[u8], &mut [u8]) -> u64,
    need: fn([u64; 4], &mut u64) -> u64,
    image_limits: fn(&[u8], &mut [u64; 5], &mut [u8]) -> u64,
    convert: fn(&[u8], &mut [u8], &mut u64) -> u64,
    read: fn(Reading, &[u8], &mut [u8]) -> u64,
    best_fees: BestFees,
    parents_first: ParentsFirst,
}

const RIGHT: Faulty = Faulty {
    admit: calls::admit,
    fresh: |limits, shares, area| Model.fresh(limits, shares, area),
    settle: calls::settle,
    cancel: calls::cancel,
    reconcile: calls::reconcile,
    reopen: calls::reopen,
    sound: calls::sound,
    open: calls::open,
    need: |limits, value| Model.need(limits, value),
    image_limits: |text, numbers, shares| Model.image_limits(text, numbers, shares),
    convert: calls::convert,
    read: |reading, area, out| Model.read(reading, area, out),
    best_fees: |area, asked, out| Model.best_fees(area, asked, out),
    parents_first: calls::selection_parents_first,
};

impl Side for Faulty {
    fn admit(&self, cur: &[u8], next: &mut [u8], args: &AdmitArgs<'_>, out: &mut [u8]) -> u64 {
        (self.admit)(cur, next, args, out)
    }

    fn cancel(&self, cur: &[u8], next: &mut [u8], id: &[u8], out: &mut [u8]) -> u64 {
        (self.cancel)(cur, next, id, out)
    }

    fn expire(&self, cur: &[u8], next: &mut [u8], now: u64, height: u32, out: &mut [u8]) -> u64 {
        Model.expire(cur, next, now, height, out)
    }

    fn reconcile(
        &self,
        cur: &[u8],
        next: &mut [u8],
        args: &ReconcileArgs<'_>,
        out: &mut [u8],
    ) -> u64 {
        (self.reconcile)(cur, next, args, out)
    }

    fn reopen(&self, cur: &[u8], next: &mut [u8], ids: &[u8]) -> u64 {
        (self.reopen)(cur, next, ids)
    }

    fn set_cursor(&self, cur: &[u8], next: &mut [u8], height: u32, flag: u8, tip: &[u8]) -> u64 {
        Model.set_cursor(cur, next, height, flag, tip)
    }

    fn fresh(&self, limits: [u64; 4], shares: &[u8], area: &mut [u8]) -> u64 {
        (self.fresh)(limits, shares, area)
    }

    fn settle(&self, cur: &[u8], next: &mut [u8], kind: u64, outcome: u64) -> u64 {
        (self.settle)(cur, next, kind, outcome)
    }

    fn image(&self, area: &[u8], out: &mut [u8], length: &mut u64) -> u64 {
        Model.image(area, out, length)
    }

    fn open(&self, text: &[u8], area: &mut [u8]) -> u64 {
        (self.open)(text, area)
    }

    fn need(&self, limits: [u64; 4], value: &mut u64) -> u64 {
        (self.need)(limits, value)
    }

    fn image_limits(&self, text: &[u8], numbers: &mut [u64; 5], shares: &mut [u8]) -> u64 {
        (self.image_limits)(text, numbers, shares)
    }

    fn convert(&self, text: &[u8], out: &mut [u8], length: &mut u64) -> u64 {
        (self.convert)(text, out, length)
    }

    fn sound(&self, area: &[u8]) -> u64 {
        (self.sound)(area)
    }

    fn entry(&self, area: &[u8], id: &[u8], out: &mut [u8]) -> u64 {
        Model.entry(area, id, out)
    }

    fn signed_bytes(&self, area: &[u8], id: &[u8], start: &mut u64, length: &mut u64) -> u64 {
        Model.signed_bytes(area, id, start, length)
    }

    fn best_fees(&self, area: &[u8], asked: &Fees, out: &mut [u8]) -> u64 {
        (self.best_fees)(area, asked, out)
    }

    fn parents_first(&self, area: &[u8], now: u64, height: u32, out: &mut [u8]) -> u64 {
        (self.parents_first)(area, now, height, out)
    }

    fn read(&self, reading: Reading, area: &[u8], out: &mut [u8]) -> u64 {
        (self.read)(reading, area, out)
    }
}

/// The smallest list that shows the fault beside the oracle, and the difference.
fn noticed(side: Faulty, name: &str) -> (List, Difference) {
    noticed_by(Look::All, side, name)
}

/// Lists that the model judges are passed over: they are the last of a seed.
fn noticed_by(look: Look, side: Faulty, name: &str) -> (List, Difference) {
    let folder = Folder::new(name);
    for seed in 0..500 {
        match lists(&side, &folder, seed..seed + 1, look) {
            Err(found) if !found.0.look.is_by_model() => {
                return shrink(&side, folder.path(), *found)
            }
            _ => {}
        }
    }
    panic!("{name} was not noticed");
}

/// What is right for caller 0 under all to caller 0, or for records that read nothing, is noticed by the
/// model alone, in lists with this look.
fn noticed_by_model(look: Look, side: Faulty, name: &str) -> (List, Difference) {
    let folder = Folder::new(name);
    let Err(found) = lists(&side, &folder, 0..100, Look::All) else {
        panic!("{name} was not noticed");
    };
    assert_eq!(found.0.look, look, "{name}: {}{}", found.0, found.1);
    shrink(&side, folder.path(), *found)
}

/// An admission without 18: made in the same queue with all shares P, which are then stored.
fn without_share(cur: &[u8], next: &mut [u8], args: &AdmitArgs<'_>, out: &mut [u8]) -> u64 {
    match calls::admit(cur, next, args, out) {
        18 => {
            let Some(mut queue) = model::area::decode(cur) else {
                return 3;
            };
            queue.limits.shares = [queue.limits.pending; 16];
            let area = model::area::encode(&queue);
            calls::admit(&area, next, args, out)
        }
        number => number,
    }
}

/// The next area with the callers of its records changed, where a record is changed or new.
fn with_callers(number: u64, next: &mut [u8], change: impl Fn(&mut Record)) -> u64 {
    if number == 102 {
        with_records(next, change);
    }
    number
}

#[test]
fn a_wrong_caller_or_share_is_noticed() {
    let sides: [(Faulty, &str, &str); 9] = [
        (
            Faulty {
                admit: without_share,
                ..RIGHT
            },
            "no-18",
            "what admit did, by the model",
        ),
        (
            Faulty {
                admit: |cur, next, args, out| match calls::admit(cur, next, args, out) {
                    5 if args.caller == 16 => 18,
                    number => number,
                },
                ..RIGHT
            },
            "18-for-caller-16",
            "the caller of admit, by the model",
        ),
        (
            Faulty {
                admit: |cur, next, args, out| {
                    let number = calls::admit(cur, next, args, out);
                    with_callers(number, next, |record| {
                        if record.id == args.id {
                            record.caller.0 &= 7;
                        }
                    })
                },
                ..RIGHT
            },
            "caller-15-as-7",
            "the image, by the model",
        ),
        (
            Faulty {
                cancel: |cur, next, id, out| {
                    let number = calls::cancel(cur, next, id, out);
                    with_callers(number, next, |record| {
                        if record.id == id {
                            record.caller.0 = 0;
                        }
                    })
                },
                ..RIGHT
            },
            "finishing-loses-the-caller",
            "the image, by the model",
        ),
        (
            Faulty {
                reopen: |cur, next, ids| {
                    let number = calls::reopen(cur, next, ids);
                    with_callers(number, next, |record| record.caller.0 = 0)
                },
                ..RIGHT
            },
            "reopening-loses-callers",
            "the image, by the model",
        ),
        (
            Faulty {
                fresh: |[p, b, t, k], shares, area| {
                    let number = Model.fresh([p, b, t, k], shares, area);
                    if number == 100 {
                        let all = [&(p as u32).to_be_bytes()[..], &[0; 60]].concat();
                        Model.fresh([p, b, t, k], &all, area);
                    }
                    number
                },
                ..RIGHT
            },
            "all-to-caller-0",
            "the area, by the model",
        ),
        (
            Faulty {
                fresh: |limits, shares, area| match Model.fresh(limits, shares, area) {
                    5 if shares.len() > 64 => Model.fresh(limits, &shares[..64], area),
                    number => number,
                },
                ..RIGHT
            },
            "longer-shares",
            "the shares of fresh, by the model",
        ),
        (
            Faulty {
                sound: |area| match calls::sound(area) {
                    3 if area.len() > 4 => {
                        let mut other = area.to_vec();
                        other[21..85].fill(0);
                        calls::sound(&other)
                    }
                    number => number,
                },
                ..RIGHT
            },
            "shares-over-p-are-sound",
            "the answer of sound, by the model",
        ),
        (
            Faulty {
                read: |reading, area, out| {
                    let mut shown = area.to_vec();
                    if reading == Reading::List {
                        with_records(&mut shown, |record| record.caller.0 = 0);
                    }
                    Model.read(reading, &shown, out)
                },
                ..RIGHT
            },
            "shows-caller-0",
            "the answer of list, by the model",
        ),
    ];
    for (side, name, what) in sides {
        let (list, found) = noticed_by_model(Look::Callers, side, name);
        assert_eq!(found.what, what, "{list}{found}");
        assert!(list.events.len() <= 4, "{list}{found}");
    }
}

/// An admission that would be refused by 20 is made without its read ids, or without its inputs too.
fn admitted_without(
    cur: &[u8],
    next: &mut [u8],
    args: &AdmitArgs<'_>,
    out: &mut [u8],
    inputs_too: bool,
) -> u64 {
    let number = calls::admit(cur, next, args, out);
    if number != 20 {
        return number;
    }
    let bare = AdmitArgs {
        reads: &[],
        inputs: if inputs_too { &[] } else { args.inputs },
        ..*args
    };
    calls::admit(cur, next, &bare, out)
}

/// The next area of a queue that is not sound may be longer than what is lent.
fn put_some(area: &mut [u8], queue: &Queue) {
    let bytes = model::area::encode(queue);
    let length = bytes.len().min(area.len());
    area[..length].copy_from_slice(&bytes[..length]);
}

#[test]
fn a_wrong_read_id_is_noticed() {
    let sides: [(Faulty, &str, &str); 11] = [
        (
            // The read ids are left out where another record spends one.
            Faulty {
                admit: |cur, next, args, out| admitted_without(cur, next, args, out, false),
                ..RIGHT
            },
            "no-20-for-read-ids",
            "what admit did, by the model",
        ),
        (
            Faulty {
                admit: |cur, next, args, out| admitted_without(cur, next, args, out, true),
                ..RIGHT
            },
            "no-20",
            "what admit did, by the model",
        ),
        (
            // 12 in its place.
            Faulty {
                admit: |cur, next, args, out| match calls::admit(cur, next, args, out) {
                    20 => 12,
                    number => number,
                },
                ..RIGHT
            },
            "12-for-20",
            "what admit did, by the model",
        ),
        (
            // A record may not read what it spends.
            Faulty {
                admit: |cur, next, args, out| {
                    let before = next.to_vec();
                    let number = calls::admit(cur, next, args, out);
                    let (inputs, reads) = (args.inputs.chunks(32), args.reads.chunks(32));
                    let own = inputs
                        .clone()
                        .any(|id| reads.clone().any(|read| id == read));
                    if number == 102 && own {
                        next.copy_from_slice(&before);
                        return 20;
                    }
                    number
                },
                ..RIGHT
            },
            "own-read-ids-refused",
            "what admit did, by the model",
        ),
        (
            // What another reads may not be read.
            Faulty {
                admit: |cur, next, args, out| {
                    let before = next.to_vec();
                    let number = calls::admit(cur, next, args, out);
                    let queue = model::area::decode(cur).expect("a sound area");
                    let read: Vec<_> = queue.records.iter().flat_map(Record::reads).collect();
                    let shared = |id: &[u8]| read.iter().any(|read| read[..] == *id);
                    if number == 102 && args.reads.chunks(32).any(shared) {
                        next.copy_from_slice(&before);
                        return 20;
                    }
                    number
                },
                ..RIGHT
            },
            "shared-read-ids-refused",
            "what admit did, by the model",
        ),
        (
            // The stored record has none.
            Faulty {
                admit: |cur, next, args, out| {
                    let number = calls::admit(cur, next, args, out);
                    if number == 102 {
                        with_records(next, |record| {
                            if let (true, Some(holder)) = (record.id == args.id, &mut record.holder)
                            {
                                holder.reads.clear();
                            }
                        });
                    }
                    number
                },
                ..RIGHT
            },
            "drops-read-ids",
            "the image, by the model",
        ),
        (
            // What is read counts as reserved.
            Faulty {
                read: |reading, area, out| {
                    let mut shown = area.to_vec();
                    if reading == Reading::ReservedInputs {
                        if let Some(mut queue) = model::area::decode(area) {
                            for holder in
                                queue.records.iter_mut().filter_map(|of| of.holder.as_mut())
                            {
                                holder.inputs.append(&mut holder.reads);
                            }
                            let reserved = model::rules::reserved_inputs(&queue);
                            let answer = calls::ids_bytes(&reserved);
                            out[..answer.len()].copy_from_slice(&answer);
                            return 100;
                        }
                        shown.truncate(0);
                    }
                    Model.read(reading, &shown, out)
                },
                ..RIGHT
            },
            "reserves-read-ids",
            "the answer of reserved_inputs, by the model",
        ),
        (
            // Read ids are not asked for availability.
            Faulty {
                reconcile: |cur, next, args, out| {
                    let queue = model::area::decode(cur).expect("a sound area");
                    let reads = queue.records.iter().flat_map(Record::reads).copied();
                    let (given, _) = args.available.as_chunks::<32>();
                    let all: std::collections::BTreeSet<_> = reads.chain(given.to_vec()).collect();
                    let available = Vec::from_iter(all).concat();
                    let args = ReconcileArgs {
                        available: &available,
                        ..*args
                    };
                    calls::reconcile(cur, next, &args, out)
                },
                ..RIGHT
            },
            "asks-for-inputs-alone",
            "the image, by the model",
        ),
        (
            // Nobody waits for what is only read.
            Faulty {
                parents_first: |area, now, height, out| {
                    let mut shown = area.to_vec();
                    with_records(&mut shown, |record| {
                        if let Some(holder) = &mut record.holder {
                            holder.reads.clear();
                        }
                    });
                    calls::selection_parents_first(&shown, now, height, out)
                },
                ..RIGHT
            },
            "waits-for-inputs-alone",
            "the answer of selection_parents_first, by the model",
        ),
        (
            // What another spends may be read in a sound area.
            Faulty {
                sound: |area| match (calls::sound(area), area.get(4)) {
                    (3, Some(6)) => {
                        // As if nothing were read, but for over K ids.
                        let Some(mut queue) = parsed(area) else {
                            return 3;
                        };
                        let k = queue.limits.inputs as usize;
                        for holder in queue.records.iter_mut().filter_map(|of| of.holder.as_mut()) {
                            if holder.reads.len() <= k {
                                holder.reads.clear();
                            }
                        }
                        let mut other = area.to_vec();
                        put_some(&mut other, &queue);
                        calls::sound(&other)
                    }
                    (number, _) => number,
                },
                ..RIGHT
            },
            "meeting-ids-are-sound",
            "the answer of sound, by the model",
        ),
        (
            Faulty {
                read: |reading, area, out| {
                    let mut shown = area.to_vec();
                    if reading == Reading::List {
                        with_records(&mut shown, |record| {
                            if let Some(holder) = &mut record.holder {
                                holder.reads.reverse();
                            }
                        });
                    }
                    Model.read(reading, &shown, out)
                },
                ..RIGHT
            },
            "shows-read-ids-turned",
            "the answer of list, by the model",
        ),
    ];
    for (side, name, what) in sides {
        let (list, found) = noticed_by_model(Look::Reads, side, name);
        assert_eq!(found.what, what, "{name}: {list}{found}");
        assert!(list.events.len() <= 4, "{list}{found}");
    }
}

/// The queue that the area's frames have, sound or not; nothing where they are not whole.
fn parsed(area: &[u8]) -> Option<Queue> {
    let mut reader = model::frame::Reader::new(area.get(4..)?);
    let header = reader.header()?;
    let mut queue = header.queue;
    for _ in 0..header.record_count {
        queue.records.push(reader.record(header.kind)?);
    }
    queue.persisted = model::Height(u32::from_be_bytes(area[..4].try_into().ok()?));
    Some(queue)
}

/// The selection of a queue whose priorities are changed so, before it is asked.
fn selection_by(key: fn(i64) -> i64, reading: Reading, area: &[u8], out: &mut [u8]) -> u64 {
    let mut shown = area.to_vec();
    if matches!(
        reading,
        Reading::SelectionEntries | Reading::SelectionEntriesAt(..)
    ) {
        with_records(&mut shown, |record| record.priority = key(record.priority));
    }
    Model.read(reading, &shown, out)
}

/// What is right for priorities of 32 bits.
#[test]
fn a_wrong_wide_priority_is_noticed() {
    let sides: [(Faulty, &str, &str); 6] = [
        (
            // The last 32 bits, with their sign.
            Faulty {
                admit: |cur, next, args, out| {
                    let priority = i64::from(args.priority as i32) as u64;
                    calls::admit(cur, next, &AdmitArgs { priority, ..*args }, out)
                },
                ..RIGHT
            },
            "admits-32-bits",
            "what admit did, by the model",
        ),
        (
            Faulty {
                admit: |cur, next, args, out| {
                    let wide = i64::from(args.priority as i32) as u64 != args.priority;
                    match wide {
                        true => 5,
                        false => calls::admit(cur, next, args, out),
                    }
                },
                ..RIGHT
            },
            "refuses-64-bits",
            "what admit did, by the model",
        ),
        (
            Faulty {
                read: |reading, area, out| {
                    selection_by(|of| i64::from(of as i32), reading, area, out)
                },
                ..RIGHT
            },
            "selects-by-the-last-32-bits",
            "the answer of selection_entries, by the model",
        ),
        (
            // At the ends of 32 bits all beyond them are alike.
            Faulty {
                read: |reading, area, out| {
                    let key = |of: i64| of.clamp(i32::MIN.into(), i32::MAX.into());
                    selection_by(key, reading, area, out)
                },
                ..RIGHT
            },
            "selects-by-the-nearest-of-32-bits",
            "the answer of selection_entries, by the model",
        ),
        (
            // Parents first by the last 32 bits.
            Faulty {
                parents_first: |area, now, height, out| {
                    let mut shown = area.to_vec();
                    with_records(&mut shown, |record| {
                        record.priority = i64::from(record.priority as i32);
                    });
                    calls::selection_parents_first(&shown, now, height, out)
                },
                ..RIGHT
            },
            "lists-by-the-last-32-bits",
            "the answer of selection_parents_first, by the model",
        ),
        (
            // A tombstone's priority is cut.
            Faulty {
                cancel: |cur, next, id, out| {
                    let number = calls::cancel(cur, next, id, out);
                    if number == 102 {
                        with_records(next, |record| {
                            if record.holder.is_none() && record.id == *id {
                                record.priority = i64::from(record.priority as i32);
                            }
                        });
                    }
                    number
                },
                ..RIGHT
            },
            "finishes-with-32-bits",
            "the image, by the model",
        ),
    ];
    for (side, name, what) in sides {
        let (list, found) = noticed_by_model(Look::Wide, side, name);
        assert_eq!(found.what, what, "{list}{found}");
    }
}

/// The number and the text of the queue that `change` makes of the text's.
fn converted_as(text: &[u8], out: &mut [u8], length: &mut u64, change: impl Fn(&mut Queue)) -> u64 {
    let Some(mut queue) = model::image::decode_as(model::HeaderKind::K06, text) else {
        return 16;
    };
    change(&mut queue);
    calls::convert(&model::image::encode(&queue), out, length)
}

/// Judged by the model in the lists that the oracle runs.
#[test]
fn a_wrong_conversion_is_noticed() {
    let sides: [(Faulty, &str); 12] = [
        (
            Faulty {
                convert: |text, out, length| match text.strip_prefix(b"05") {
                    // As it would be written.
                    Some(_) => match model::image::decode(text) {
                        Some(queue) => calls::convert(&model::image::encode(&queue), out, length),
                        None => 16,
                    },
                    None => calls::convert(text, out, length),
                },
                ..RIGHT
            },
            "converts-05",
        ),
        (
            Faulty {
                convert: |text, out, length| match model::image::decode(text) {
                    Some(queue) if text.starts_with(b"01") => {
                        calls::convert(&model::image::encode(&queue), out, length)
                    }
                    _ => calls::convert(text, out, length),
                },
                ..RIGHT
            },
            "converts-01",
        ),
        (
            Faulty {
                convert: |text, out, length| {
                    converted_as(text, out, length, |queue| {
                        let tombstones = queue.records.iter_mut().filter(|of| of.holder.is_none());
                        tombstones.for_each(|of| of.priority = i64::from(of.priority as i32));
                    })
                },
                ..RIGHT
            },
            "no-22-by-priorities-of-tombstones",
        ),
        (
            Faulty {
                convert: |text, out, length| {
                    converted_as(text, out, length, |queue| {
                        let tombstones = queue.records.iter_mut().filter(|of| of.holder.is_none());
                        tombstones.for_each(|of| of.caller = model::Caller(0));
                    })
                },
                ..RIGHT
            },
            "no-22-by-callers-of-tombstones",
        ),
        (
            Faulty {
                convert: |text, out, length| {
                    converted_as(text, out, length, |queue| {
                        let p = queue.limits.pending;
                        queue.limits.shares = model::values::all_to_caller_0(p);
                    })
                },
                ..RIGHT
            },
            "no-22-by-shares",
        ),
        (
            // Mark 5 in its place.
            Faulty {
                convert: |text, out, length| {
                    converted_as(text, out, length, |queue| {
                        let mut marked = queue.records.iter_mut();
                        if let Some(record) = marked.find(|of| of.withdrawn == MARK_3) {
                            record.withdrawn = Withdrawn::Expired;
                        }
                    })
                },
                ..RIGHT
            },
            "no-22-by-marks",
        ),
        (
            Faulty {
                convert: |text, out, length| {
                    let queue = model::image::decode_as(model::HeaderKind::K06, text);
                    let marked = |queue: &Queue| {
                        let mut marks = queue.records.iter();
                        marks.any(|of| of.withdrawn == Withdrawn::Expired)
                    };
                    match queue.is_some_and(|queue| marked(&queue)) {
                        true => 22,
                        false => calls::convert(text, out, length),
                    }
                },
                ..RIGHT
            },
            "22-by-mark-5",
        ),
        (
            Faulty {
                convert: |text, out, length| {
                    converted_as(text, out, length, |queue| {
                        let holders = queue.records.iter_mut().filter_map(|of| of.holder.as_mut());
                        holders.for_each(|holder| holder.reads.clear());
                    })
                },
                ..RIGHT
            },
            "no-22-by-read-ids",
        ),
        (
            // 4 before 22.
            Faulty {
                convert: |text, out, length| match calls::convert(text, out, length) {
                    22 if out.is_empty() => 4,
                    number => number,
                },
                ..RIGHT
            },
            "4-before-22",
        ),
        (
            // A later byte is written.
            Faulty {
                convert: |text, out, length| {
                    let number = calls::convert(text, out, length);
                    if number == 100 {
                        if let Some(byte) = out.get_mut(*length as usize) {
                            *byte = 0;
                        }
                    }
                    number
                },
                ..RIGHT
            },
            "converts-and-writes-later-bytes",
        ),
        (
            // A refusal sets the length.
            Faulty {
                convert: |text, out, length| {
                    let number = calls::convert(text, out, length);
                    if number == 22 {
                        *length = 0;
                    }
                    number
                },
                ..RIGHT
            },
            "22-sets-the-length",
        ),
        (
            // A digit of a priority is lost.
            Faulty {
                convert: |text, out, length| {
                    converted_as(text, out, length, |queue| {
                        for record in &mut queue.records {
                            if record.priority == i64::from(i32::MIN) {
                                record.priority = 0;
                            }
                        }
                    })
                },
                ..RIGHT
            },
            "loses-the-least-priority",
        ),
    ];
    for (side, name) in sides {
        let (list, found) = noticed(side, name);
        let what = "the answer of convert for ";
        assert!(found.what.starts_with(what), "{name}: {list}{found}");
    }
}

#[test]
fn a_persisted_height_that_moves_on_a_failed_write_is_noticed() {
    // Settles a failed cursor write as kept.
    let side = Faulty {
        settle: |cur, next, kind, outcome| match (kind, outcome) {
            (3, 1) => 17,
            _ => calls::settle(cur, next, kind, outcome),
        },
        ..RIGHT
    };
    let (list, _) = noticed(side, "keeps-persisted");
    assert_eq!(list.events.len(), 1, "{list}");
}

#[test]
fn a_wrong_refusal_is_noticed() {
    // Takes a record's repeated cancellation for an absent one.
    let side = Faulty {
        cancel: |cur, next, id, out| match calls::cancel(cur, next, id, out) {
            100 => 13,
            number => number,
        },
        ..RIGHT
    };
    let (list, _) = noticed(side, "forgets-tombstones");
    assert!(list.events.len() <= 3, "{list}");
}

#[test]
fn a_wrong_selection_is_noticed() {
    // Leaves out the order by time of creation.
    let side = Faulty {
        read: |reading, area, out| match reading {
            Reading::SelectionEntries => Model.read(Reading::GuardedIds, area, out),
            other => Model.read(other, area, out),
        },
        ..RIGHT
    };
    let (list, _) = noticed(side, "wrong-order");
    assert!(list.events.len() <= 3, "{list}");
}

#[test]
fn an_empty_queue_after_a_cut_is_noticed() {
    // Opens an image as an empty queue.
    let side = Faulty {
        open: |text, area| {
            let number = calls::open(text, area);
            if let Some(queue) = model::area::decode(area) {
                let fresh = model::area::encode(&model::Queue::fresh(queue.limits));
                area[..fresh.len()].copy_from_slice(&fresh);
            }
            number
        },
        ..RIGHT
    };
    let (list, _) = noticed(side, "opens-empty");
    assert!(list.events.len() <= 3, "{list}");
}

#[test]
fn wrong_numbers_to_lend_are_noticed() {
    let sides: [(Faulty, &str); 4] = [
        (
            // The room for inputs without the outputs'.
            Faulty {
                need: |limits, value| {
                    let number = Model.need(limits, value);
                    if number == 100 {
                        *value -= 64 * limits[0] * limits[3];
                    }
                    number
                },
                ..RIGHT
            },
            "the answer of need",
        ),
        (
            // A number for limits that are refused.
            Faulty {
                need: |limits, value| {
                    let number = Model.need(limits, value);
                    if number == 1 {
                        *value = 0;
                    }
                    number
                },
                ..RIGHT
            },
            "the answer of need",
        ),
        (
            // Of the header alone.
            Faulty {
                image_limits: |text, numbers, shares| {
                    let line = text.iter().position(|byte| *byte == b'\n');
                    match Model.image_limits(text, numbers, shares) {
                        16 if line.is_some_and(|end| end + 1 < text.len()) => 100,
                        number => number,
                    }
                },
                ..RIGHT
            },
            "the answer of image_limits",
        ),
        (
            // T for P.
            Faulty {
                image_limits: |text, numbers, shares| {
                    let number = Model.image_limits(text, numbers, shares);
                    numbers[0] = numbers[2];
                    number
                },
                ..RIGHT
            },
            "the answer of image_limits",
        ),
    ];
    for (at, (side, what)) in sides.into_iter().enumerate() {
        let (list, found) = noticed(side, &format!("wrong-to-lend-{at}"));
        assert_eq!(found.what, what, "{list}{found}");
    }
}

/// The number, once an answer of two records or more was changed by `change`, which has their ids.
fn changed(area: &[u8], asked: &Fees, out: &mut [u8], change: fn(&mut [u8])) -> u64 {
    let number = Model.best_fees(area, asked, out);
    if number == 100 && out[23] >= 2 {
        let length = 24 + 32 * usize::from(out[23]);
        change(&mut out[24..length]);
    }
    number
}

/// As many records, the first of the selection, where they break the limit.
fn first_that_break(area: &[u8], asked: &Fees, out: &mut [u8]) -> u64 {
    let number = Model.best_fees(area, asked, out);
    if number != 100 {
        return number;
    }
    let queue = model::area::decode(area).expect("a sound area");
    let (now, height) = (model::TimeMs(asked.now), model::Height(asked.height));
    let mut first = model::fees::candidates(&queue, now, height);
    first.truncate(usize::from(out[23]));
    let bytes: u64 = first.iter().map(|one| one.size).sum();
    if bytes > asked.limit {
        let fee: u64 = first.iter().map(|one| one.fee).sum();
        out[..8].copy_from_slice(&fee.to_be_bytes());
        for (at, one) in first.iter().enumerate() {
            out[24 + 32 * at..][..32].copy_from_slice(&one.id);
        }
    }
    number
}

#[test]
fn a_wrong_set_is_noticed_by_the_oracles_selection() {
    let sides: [(BestFees, &str, &str); 3] = [
        (
            |area, asked, out| changed(area, asked, out, |ids| ids.rotate_left(32)),
            "turned-set",
            "it is no part of the selection, in its order",
        ),
        (
            |area, asked, out| changed(area, asked, out, |ids| ids.copy_within(32..64, 0)),
            "repeated-id",
            "an id is there twice",
        ),
        (first_that_break, "breaks-the-limit", "it does not fit"),
    ];
    for (best_fees, name, wrong) in sides {
        let side = Faulty { best_fees, ..RIGHT };
        let (list, found) = noticed(side, name);
        assert_eq!(found.what, "the set of best_fees", "{list}{found}");
        assert!(found.side.contains(wrong), "{list}{found}");
    }
}

#[test]
fn a_wrong_distance_is_noticed() {
    let side = Faulty {
        best_fees: |area, asked, out| {
            let number = Model.best_fees(area, asked, out);
            if number == 100 {
                out[19] ^= 1;
            }
            number
        },
        ..RIGHT
    };
    let (list, found) = noticed(side, "wrong-distance");
    assert_eq!(found.what, "the answer of best_fees", "{list}{found}");
    assert!(list.events.is_empty(), "{list}{found}");
}

/// The number, once a list of two records or more was changed by `change`, which has their ids.
fn changed_list(
    area: &[u8],
    (now, height): (u64, u32),
    out: &mut [u8],
    change: fn(&mut [u8]),
) -> u64 {
    let number = calls::selection_parents_first(area, now, height, out);
    if number == 100 && out[3] >= 2 {
        let length = 4 + 32 * usize::from(out[3]);
        change(&mut out[4..length]);
    }
    number
}

#[test]
fn a_wrong_list_is_noticed_by_the_oracles_selection() {
    let sides: [(ParentsFirst, &str, &str); 2] = [
        (
            |area, now, height, out| {
                changed_list(area, (now, height), out, |ids| ids.copy_within(32..64, 0))
            },
            "listed-twice",
            "an id is there twice",
        ),
        (
            |area, now, height, out| {
                changed_list(area, (now, height), out, |ids| ids[..32].fill(0x55))
            },
            "lists-another",
            "an id is not selected",
        ),
    ];
    for (parents_first, name, wrong) in sides {
        let side = Faulty {
            parents_first,
            ..RIGHT
        };
        let (list, found) = noticed(side, name);
        let what = "the list of selection_parents_first";
        assert_eq!(found.what, what, "{list}{found}");
        assert!(found.side.contains(wrong), "{list}{found}");
    }
}

#[test]
fn a_wrong_order_is_noticed() {
    let sides: [(ParentsFirst, &str); 2] = [
        // The old selection.
        (calls::selection_entries_at, "not-parents-first"),
        (
            |area, now, height, out| {
                changed_list(area, (now, height), out, |ids| ids.rotate_left(32))
            },
            "turned-list",
        ),
    ];
    for (parents_first, name) in sides {
        let side = Faulty {
            parents_first,
            ..RIGHT
        };
        let (list, found) = noticed(side, name);
        let what = "the answer of selection_parents_first";
        assert_eq!(found.what, what, "{list}{found}");
    }
    // A short output that is taken.
    let side = Faulty {
        parents_first: |area, now, height, out| match calls::selection_parents_first(
            area, now, height, out,
        ) {
            4 => 100,
            number => number,
        },
        ..RIGHT
    };
    let (list, found) = noticed(side, "takes-short-lists");
    let what = "the list of selection_parents_first";
    assert_eq!(found.what, what, "{list}{found}");
    assert!(found.side.contains("it is not whole"), "{list}{found}");
}

/// The area with other records, where it is a sound one.
fn with_records(area: &mut [u8], change: impl Fn(&mut Record)) {
    let Some(mut queue) = model::area::decode(area) else {
        return;
    };
    queue.records.iter_mut().for_each(change);
    put(area, &queue);
}

fn put(area: &mut [u8], queue: &Queue) {
    let bytes = model::area::encode(queue);
    area[..bytes.len()].copy_from_slice(&bytes);
}

/// The marks that this reconciliation gave, changed from one to the other.
fn with_marks(
    cur: &[u8],
    next: &mut [u8],
    args: &ReconcileArgs<'_>,
    out: &mut [u8],
    (from, to): (Withdrawn, Withdrawn),
) -> u64 {
    let number = calls::reconcile(cur, next, args, out);
    let before = model::area::decode(cur).expect("a sound area");
    if number == 102 {
        with_records(next, |record| {
            let marked = before.record(&record.id).map(|old| old.withdrawn);
            if record.withdrawn == from && marked == Some(Withdrawn::No) {
                record.withdrawn = to;
            }
        });
    }
    number
}

const MARK_3: Withdrawn = Withdrawn::RolledBackAfterRelease;

#[test]
fn a_wrong_mark_or_reason_is_noticed() {
    let sides: [(Faulty, &str, &str); 4] = [
        (
            // As before the request, and as the oracle has it.
            Faulty {
                reconcile: |cur, next, args, out| {
                    with_marks(cur, next, args, out, (MARK_3, Withdrawn::Expired))
                },
                ..RIGHT
            },
            "marks-5-for-3",
            "the stored image",
        ),
        (
            Faulty {
                reconcile: |cur, next, args, out| {
                    with_marks(cur, next, args, out, (Withdrawn::Expired, MARK_3))
                },
                ..RIGHT
            },
            "marks-3-for-5",
            "the stored image",
        ),
        (
            // The oracle's reason.
            Faulty {
                reopen: |cur, next, ids| {
                    let number = calls::reopen(cur, next, ids);
                    let before = model::area::decode(cur).expect("a sound area");
                    if number == 102 {
                        with_records(next, |record| {
                            let old = before.record(&record.id).map(|old| old.withdrawn);
                            if old == Some(MARK_3) && record.state == State::Expired {
                                record.reason = Reason::DeadlineElapsed;
                            }
                        });
                    }
                    number
                },
                ..RIGHT
            },
            "restores-reason-2",
            "the stored image",
        ),
        (
            // The same in the list's answer alone, of every Expired record.
            Faulty {
                read: |reading, area, out| {
                    let mut shown = area.to_vec();
                    if reading == Reading::List {
                        with_records(&mut shown, |record| {
                            if record.state == State::Expired {
                                record.reason = Reason::DeadlineElapsed;
                            }
                        });
                    }
                    Model.read(reading, &shown, out)
                },
                ..RIGHT
            },
            "shows-reason-2",
            "the answer of list",
        ),
    ];
    for (side, name, what) in sides {
        let (list, found) = noticed(side, name);
        assert_eq!(found.what, what, "{list}{found}");
        assert!(list.events.len() <= 5, "{list}{found}");
    }
}

#[test]
fn a_wrong_kind_is_noticed() {
    let sides: [(Faulty, &str, &str); 4] = [
        (
            Faulty {
                open: |text, area| match text.starts_with(b"01") {
                    true => 16,
                    false => calls::open(text, area),
                },
                ..RIGHT
            },
            "opens-no-01",
            "the answer of open",
        ),
        (
            // As one of kind 03, so that mark 3 is taken.
            Faulty {
                open: |text, area| match text.strip_prefix(b"01") {
                    Some(rest) => calls::open(&[b"03", rest].concat(), area),
                    None => calls::open(text, area),
                },
                ..RIGHT
            },
            "opens-mark-3-in-01",
            "the answer of open",
        ),
        (
            // Mark 5 of an older image as 3.
            Faulty {
                open: |text, area| {
                    let number = calls::open(text, area);
                    if number == 100 && text.starts_with(b"01") {
                        with_records(area, |record| {
                            if record.withdrawn == Withdrawn::Expired {
                                record.withdrawn = MARK_3;
                            }
                        });
                    }
                    number
                },
                ..RIGHT
            },
            "opens-5-as-3",
            "the opened area",
        ),
        (
            Faulty {
                sound: |area| {
                    let mut newest = area.to_vec();
                    if newest.get(4) == Some(&1) {
                        newest[4] = 6;
                    }
                    calls::sound(&newest)
                },
                ..RIGHT
            },
            "takes-areas-of-01",
            "the answer of sound",
        ),
    ];
    for (side, name, what) in sides {
        let (list, found) = noticed(side, name);
        assert_eq!(found.what, what, "{list}{found}");
    }
}

/// Tombstones as Queued holders of no bytes.
fn with_tombstones_queued(area: &mut [u8], which: impl Fn(&Record) -> bool) {
    let mut queue = model::area::decode(area).expect("a sound area");
    for record in &mut queue.records {
        if record.holder.is_none() && record.state != State::Mined && which(record) {
            record.state = State::Queued;
            record.reason = Reason::None;
            record.size = 0;
            record.finish = FinishNumber(0);
            record.holder = Some(Holder {
                inputs: Vec::new(),
                outputs: Vec::new(),
                reads: Vec::new(),
                bytes: Vec::new(),
            });
        }
    }
    put(area, &queue);
}

#[test]
fn a_selected_withdrawn_id_is_noticed_by_the_history_alone() {
    let sides: [(Faulty, &str); 5] = [
        (
            // A cancellation that leaves the record, told and stored as if it had not.
            Faulty {
                cancel: |cur, next, id, out| {
                    let number = calls::cancel(cur, next, id, out);
                    if number == 102 {
                        with_tombstones_queued(next, |record| record.id[..] == *id);
                    }
                    number
                },
                ..RIGHT
            },
            "cancels-nothing",
        ),
        (
            // Opening queues what was withdrawn.
            Faulty {
                open: |text, area| {
                    let number = calls::open(text, area);
                    with_tombstones_queued(area, |_| true);
                    number
                },
                ..RIGHT
            },
            "opens-tombstones",
        ),
        (
            // All records are selected.
            Faulty {
                read: |reading, area, out| match reading {
                    Reading::SelectionEntries => Model.read(Reading::RecordIds, area, out),
                    other => Model.read(other, area, out),
                },
                ..RIGHT
            },
            "selects-tombstones",
        ),
        (
            // The same at the list's time and height alone.
            Faulty {
                read: |reading, area, out| match reading {
                    Reading::SelectionEntriesAt(..) => Model.read(Reading::RecordIds, area, out),
                    other => Model.read(other, area, out),
                },
                ..RIGHT
            },
            "selects-tombstones-at",
        ),
        (
            // All records are listed parents first.
            Faulty {
                parents_first: |area, _, _, out| calls::record_ids(area, out),
                ..RIGHT
            },
            "lists-tombstones",
        ),
    ];
    for (side, name) in sides {
        let (list, found) = noticed_by(Look::Withdrawn, side, name);
        assert!(found.what.starts_with("withdrawn ids in "), "{list}{found}");
        assert_eq!(found.oracle, "[]", "{list}{found}");
        assert!(list.events.len() <= 3, "{list}{found}");
    }
}

#[test]
fn another_fault_is_nothing_to_the_history() {
    // The cursor goes back when its write fails.
    let side = || Faulty {
        settle: |cur, next, kind, outcome| match calls::settle(cur, next, kind, outcome) {
            17 => {
                next.copy_from_slice(cur);
                17
            }
            number => number,
        },
        ..RIGHT
    };
    no_difference(&side(), "settles-back", 0..20, Look::Withdrawn);
    let (list, found) = noticed(side(), "settles-back-all");
    assert_eq!(found.what, "the queue", "{list}{found}");
}
