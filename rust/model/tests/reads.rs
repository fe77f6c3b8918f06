//! Inputs that are only read: document 02, P11.

use std::collections::{BTreeMap, BTreeSet};

use model::calls::{self, AdmitArgs};
use model::load::{self, Ids, Links, Load, Reads};
use model::parents::parents_first;
use model::random::{self, Rng};
use model::rules::{
    admit, cancel, expire, reconcile, reopen, reserved_inputs, Admission, Kind, Reconciliation,
    BYTE_BUDGET, FULL, INPUT_RESERVED, READ_AND_SPENT, SHARE,
};
use model::{
    area, image, sound, Caller, Confirmation, FinishNumber, HeaderKind, Height, Id, Limits, Queue,
    Reason, Record, State, TimeMs,
};

/// P 4, B 10, T 2, K 2.
fn limits() -> Limits {
    Limits::checked(4, 10, 2, 2).expect("limits in range")
}

fn ids(numbers: &[u8]) -> Vec<Id> {
    numbers.iter().map(|n| [*n; 32]).collect()
}

/// Of this number, with these inputs, outputs and read ids.
fn given(n: u8, inputs: &[u8], outputs: &[u8], reads: &[u8]) -> Admission {
    Admission {
        inputs: ids(inputs),
        outputs: ids(outputs),
        reads: ids(reads),
        ..Admission::plain([n; 32])
    }
}

fn admitted(all: &[Admission]) -> Queue {
    let mut queue = Queue::fresh(limits());
    for given in all {
        let change = admit(&queue, given).expect("admitted");
        assert_eq!(change.kind, Kind::Whole);
        queue = change.next;
        assert_eq!(sound::broken_rule(&queue), None);
    }
    queue
}

fn refusal(queue: &Queue, given: &Admission) -> Option<u64> {
    admit(queue, given).err()
}

/// At this height with these records found there, and these ids available.
fn found(applied: &[u8], available: &[u8], height: u32, window: u32) -> Reconciliation {
    let place = Confirmation {
        height: Height(height),
        block: [height as u8; 32],
    };
    Reconciliation {
        height: Height(height),
        tip: [height as u8; 32],
        applied: ids(applied).into_iter().map(|id| (id, place)).collect(),
        caught_up: true,
        available: ids(available).into_iter().collect(),
        window,
    }
}

fn reconciled(queue: &Queue, given: &Reconciliation) -> Queue {
    let next = reconcile(queue, given).expect("not refused").next;
    assert_eq!(sound::broken_rule(&next), None);
    next
}

fn state(queue: &Queue, n: u8) -> (State, Reason) {
    let record = queue.record(&[n; 32]).expect("a record");
    (record.state, record.reason)
}

// 20.

#[test]
fn a_record_has_its_read_ids() {
    let queue = admitted(&[given(1, &[11], &[12], &[21, 22])]);
    assert_eq!(queue.records[0].reads(), ids(&[21, 22]));
    assert_eq!(area::decode(&area::encode(&queue)), Some(queue.clone()));
    assert_eq!(image::decode(&image::encode(&queue)), Some(queue));
}

/// The first half: an input of the new one is read by another.
#[test]
fn an_input_that_another_reads_is_20() {
    let queue = admitted(&[given(1, &[11], &[], &[20, 21])]);
    for inputs in [&[20][..], &[21], &[31, 21]] {
        let given = given(2, inputs, &[], &[]);
        assert_eq!(refusal(&queue, &given), Some(READ_AND_SPENT));
    }
    assert_eq!(refusal(&queue, &given(2, &[31], &[20, 21], &[])), None);
}

/// The second half: a read id of the new one is an input of another.
#[test]
fn a_read_id_that_another_spends_is_20() {
    let queue = admitted(&[given(1, &[10, 11], &[12], &[])]);
    for reads in [&[10][..], &[11], &[31, 11]] {
        let given = given(2, &[], &[], reads);
        assert_eq!(refusal(&queue, &given), Some(READ_AND_SPENT));
    }
    // What another makes can be read.
    assert_eq!(refusal(&queue, &given(2, &[], &[], &[12])), None);
}

#[test]
fn two_records_read_one_id() {
    let queue = admitted(&[
        given(1, &[11], &[], &[20]),
        given(2, &[12], &[], &[20, 21]),
        given(3, &[13], &[], &[21, 20]),
    ]);
    assert_eq!(queue.records.len(), 3);
    // While one of them is left, nobody spends it.
    let spending = given(4, &[20], &[], &[]);
    let mut queue = queue;
    for n in [1, 2, 3] {
        assert_eq!(refusal(&queue, &spending), Some(READ_AND_SPENT));
        queue = cancel(&queue, &[n; 32]).expect("pending").next;
    }
    assert_eq!(refusal(&queue, &spending), None);
}

#[test]
fn a_record_reads_what_it_spends() {
    let queue = admitted(&[given(1, &[11, 12], &[], &[11, 12])]);
    // Another may neither spend nor read it: 12 comes first.
    assert_eq!(
        refusal(&queue, &given(2, &[11], &[], &[])),
        Some(INPUT_RESERVED)
    );
    assert_eq!(
        refusal(&queue, &given(2, &[], &[], &[11])),
        Some(READ_AND_SPENT)
    );
}

#[test]
fn repeated_read_ids_and_a_read_id_that_is_its_own_output() {
    let queue = admitted(&[given(1, &[], &[12], &[20, 20]), given(2, &[], &[13], &[13])]);
    assert_eq!(queue.records[0].reads(), ids(&[20, 20]));
    assert_eq!(queue.records[1].reads(), ids(&[13]));
}

/// 10, 18, 11 and 12 come before 20.
#[test]
fn the_place_of_20() {
    let one = given(1, &[11], &[], &[20]);
    let both = given(2, &[11], &[], &[11]);
    let mut queue = admitted(std::slice::from_ref(&one));
    assert_eq!(refusal(&queue, &both), Some(INPUT_RESERVED));
    let read = given(2, &[20], &[], &[]);
    let spent = given(2, &[], &[], &[11]);
    for meets in [read, spent] {
        assert_eq!(refusal(&queue, &meets), Some(READ_AND_SPENT));
        let long = Admission {
            signed: vec![0; 11],
            ..meets.clone()
        };
        assert_eq!(refusal(&queue, &long), Some(BYTE_BUDGET));
        let other = Admission {
            caller: Caller(1),
            ..long.clone()
        };
        assert_eq!(refusal(&queue, &other), Some(SHARE));
        let mut full = queue.clone();
        full.limits = Limits::checked(1, 10, 2, 2).expect("limits in range");
        assert_eq!(refusal(&full, &other), Some(FULL));
    }
    // A pending or Mined id answers its record, also where another one stands against it.
    let two = admitted(&[one.clone(), given(3, &[13], &[], &[23])]);
    for queue in [two.clone(), reconciled(&two, &found(&[1], &[], 5, 9))] {
        for (inputs, reads) in [(20, 11), (23, 20), (20, 13), (23, 13), (98, 99)] {
            let change = admit(&queue, &given(1, &[inputs], &[], &[reads])).expect("its record");
            assert_eq!(change.kind, Kind::Nothing);
            assert_eq!(change.answer.reads(), ids(&[20]));
            assert_eq!(change.next, queue);
        }
    }
    // A tombstone of the id is no other record, and neither reads nor spends.
    queue = cancel(&queue, &[1; 32]).expect("pending").next;
    let again = admit(&queue, &given(1, &[20], &[], &[11])).expect("withdrawn");
    assert_eq!(again.answer.reads(), ids(&[11]));
    assert_eq!(again.answer.inputs(), ids(&[20]));
}

/// In both halves, and until they are released.
#[test]
fn mined_holders_count_until_they_are_released() {
    let queue = admitted(&[given(1, &[11], &[], &[20])]);
    let mined = reconciled(&queue, &found(&[1], &[], 5, 9));
    assert_eq!(mined.records[0].state, State::Mined);
    let (spending, reading) = (given(2, &[20], &[], &[]), given(2, &[], &[], &[11]));
    for given in [&spending, &reading] {
        assert_eq!(refusal(&mined, given), Some(READ_AND_SPENT));
    }
    let released = reconciled(&mined, &found(&[], &[], 14, 9));
    assert!(released.records[0].holder.is_none());
    for given in [&spending, &reading] {
        assert_eq!(refusal(&released, given), None);
    }
}

/// A Conflicted one counts as a Queued one does.
#[test]
fn conflicted_records_count() {
    let queue = admitted(&[given(1, &[11], &[], &[20])]);
    let conflicted = reconciled(&queue, &found(&[], &[], 5, 9));
    assert_eq!(state(&conflicted, 1).0, State::Conflicted);
    for given in [given(2, &[20], &[], &[]), given(2, &[], &[], &[11])] {
        assert_eq!(refusal(&conflicted, &given), Some(READ_AND_SPENT));
    }
}

// Reconciliation.

#[test]
fn a_read_id_that_is_not_available() {
    let queue = admitted(&[given(1, &[11], &[], &[20, 21])]);
    let conflicted = (State::Conflicted, Reason::InputsUnavailable);
    for available in [&[11, 20][..], &[11, 21], &[20, 21], &[]] {
        let next = reconciled(&queue, &found(&[], available, 5, 9));
        assert_eq!(state(&next, 1), conflicted, "{available:?}");
        assert_eq!(next.records[0].reads(), ids(&[20, 21]));
        // And back.
        let back = reconciled(&next, &found(&[], &[11, 20, 21], 6, 9));
        assert_eq!(state(&back, 1), (State::Queued, Reason::None));
    }
    let same = reconcile(&queue, &found(&[], &[11, 20, 21], 5, 9)).expect("not refused");
    assert_eq!(same.kind, Kind::Memory);
    // Only when caught up.
    let behind = Reconciliation {
        caught_up: false,
        ..found(&[], &[], 5, 9)
    };
    assert_eq!(state(&reconciled(&queue, &behind), 1).0, State::Queued);
}

/// Of a record Queued at entry, its own among them; a Conflicted parent does not help in this call.
#[test]
fn an_output_of_a_queued_record_is_available() {
    let queue = admitted(&[given(1, &[11], &[30], &[]), given(2, &[], &[], &[30])]);
    let next = reconciled(&queue, &found(&[], &[11], 5, 9));
    assert_eq!(state(&next, 2), (State::Queued, Reason::None));
    // The parent becomes Conflicted in the call that still counts it.
    let next = reconciled(&queue, &found(&[], &[], 5, 9));
    assert_eq!(state(&next, 1).0, State::Conflicted);
    assert_eq!(state(&next, 2).0, State::Queued);
    let next = reconciled(&next, &found(&[], &[11], 6, 9));
    assert_eq!(state(&next, 1).0, State::Queued);
    assert_eq!(state(&next, 2).0, State::Conflicted);
    let next = reconciled(&next, &found(&[], &[11], 7, 9));
    assert_eq!(state(&next, 2).0, State::Queued);
    let own = admitted(&[given(1, &[], &[30], &[30])]);
    let next = reconciled(&own, &found(&[], &[], 5, 9));
    assert_eq!(state(&next, 1).0, State::Queued);
}

/// Of a queue with some inputs only read every verdict, and who waits for whom, is that with them spent.
#[test]
fn read_ids_are_asked_for_as_inputs_are() {
    let (mut moved, mut conflicted, mut waiting) = (0, 0, 0);
    for seed in 0..3_000 {
        let mut rng = Rng::new(seed);
        let count = 1 + rng.below(8);
        let inputs = 1 + rng.below(3);
        let spent = random::parents_queue(&mut rng, count, inputs);
        let read = random::inputs_read(&mut rng, spent.clone());
        moved += usize::from(read != spent);
        let (now, height) = (random::time(&mut rng), random::height(&mut rng));
        let listed = |queue: &Queue| -> Vec<Id> {
            let listed = parents_first(queue, now, height);
            listed.iter().map(|record| record.id).collect()
        };
        assert_eq!(listed(&read), listed(&spent), "seed {seed}");
        let of_old: Vec<Id> = model::rules::selection_at(&read, now, height)
            .iter()
            .map(|record| record.id)
            .collect();
        waiting += usize::from(read != spent && listed(&read) != of_old);
        let share = rng.below(5);
        let all = spent.records.iter().flat_map(Record::inputs);
        let available: BTreeSet<Id> = all.filter(|_| rng.below(4) < share).copied().collect();
        let given = Reconciliation {
            available,
            ..found(&[], &[], 5, u32::MAX)
        };
        let states = |queue: &Queue| -> Vec<(State, Reason)> {
            let next = reconcile(queue, &given).expect("not refused").next;
            let records = next.records.iter();
            records
                .map(|record| (record.state, record.reason))
                .collect()
        };
        assert_eq!(states(&read), states(&spent), "seed {seed}");
        let by_read = |record: &Record| {
            let there = |id: &Id| given.available.contains(id);
            record.state == State::Queued
                && record.inputs().iter().all(there)
                && !record.reads().iter().all(there)
        };
        conflicted += read.records.iter().filter(|record| by_read(record)).count();
    }
    let met = format!("{moved}, {conflicted}, {waiting}");
    assert!(moved > 1_000 && conflicted > 500 && waiting > 300, "{met}");
}

/// The example of docs/CALLS.md, 'Inputs that are only read'.
#[test]
fn the_example_of_the_calls() {
    let (a, b, c, d) = (1, 2, 3, 4);
    let queue = admitted(&[given(a, &[11], &[], &[19]), given(b, &[12], &[], &[19])]);
    let spending = given(c, &[19], &[], &[]);
    assert_eq!(refusal(&queue, &spending), Some(READ_AND_SPENT));
    let reading = given(c, &[13], &[], &[11]);
    assert_eq!(refusal(&queue, &reading), Some(READ_AND_SPENT));
    let change = admit(&queue, &given(c, &[13], &[], &[13])).expect("its own");
    assert_eq!(change.kind, Kind::Whole);
    let change = reconcile(&change.next, &found(&[], &[11, 12, 13], 5, 9)).expect("entered");
    assert_eq!(change.kind, Kind::Whole);
    let states = [a, b, c].map(|n| state(&change.next, n).0);
    assert_eq!(
        states,
        [State::Conflicted, State::Conflicted, State::Queued]
    );
    let spending = given(d, &[19], &[], &[]);
    let one = cancel(&change.next, &[a; 32]).expect("pending").next;
    assert_eq!(refusal(&one, &spending), Some(READ_AND_SPENT));
    let none = cancel(&one, &[b; 32]).expect("pending").next;
    assert_eq!(admit(&none, &spending).map(|of| of.kind), Ok(Kind::Whole));
}

// What holds them, and until when.

#[test]
fn reserved_inputs_are_spent_ids_alone() {
    let queue = admitted(&[
        given(1, &[11], &[12], &[20, 11]),
        given(2, &[], &[], &[20, 21]),
    ]);
    assert_eq!(reserved_inputs(&queue), BTreeSet::from([[11; 32]]));
    let lent = area::encode(&queue);
    let one = [&[0, 0, 0, 1][..], &[11; 32]].concat();
    let guarded = [&[0, 0, 0, 2][..], &[1; 32], &[2; 32]].concat();
    let revision = 2u64.to_be_bytes().to_vec();
    type Reading = fn(&[u8], &mut [u8]) -> u64;
    let readings: [(Reading, Vec<u8>); 3] = [
        (calls::reserved_inputs, one.clone()),
        (
            calls::reservation_snapshot,
            [revision, one.clone()].concat(),
        ),
        (calls::guard_snapshot, [guarded, one].concat()),
    ];
    for (reading, expected) in readings {
        let mut out = vec![0; expected.len()];
        assert_eq!(reading(&lent, &mut out), 100);
        assert_eq!(out, expected);
    }
}

/// Read ids go with the inputs, by each call that finishes, and no rollback brings them back.
#[test]
fn finishing_drops_them() {
    let one = Admission {
        time_deadline: Some(TimeMs(9)),
        ..given(1, &[11], &[12], &[20])
    };
    let queue = admitted(&[one]);
    let cancelled = cancel(&queue, &[1; 32]).expect("pending");
    assert_eq!(cancelled.answer.reads(), ids(&[]));
    let expired = expire(&queue, TimeMs(9), Height(0)).expect("due");
    let released = reconciled(&queue, &found(&[1], &[], 5, 0));
    let rolled_back = reopen(&released, &[[1; 32]]).next;
    for finished in [cancelled.next, expired.next, released, rolled_back] {
        assert_eq!(finished.records[0].holder, None);
        assert_eq!(finished.records[0].reads(), ids(&[]));
        // Free to be spent and to be read.
        assert_eq!(refusal(&finished, &given(2, &[20], &[], &[11])), None);
    }
    // A holder that is rolled back has kept them.
    let mined = reconciled(&queue, &found(&[1], &[], 5, 9));
    let back = reopen(&mined, &[[1; 32]]).next;
    assert_eq!(back.records[0].reads(), ids(&[20]));
    assert_eq!(
        refusal(&back, &given(2, &[20], &[], &[])),
        Some(READ_AND_SPENT)
    );
}

// Sound.

/// A sound queue of two holders with these inputs and read ids.
fn two(first: (&[u8], &[u8]), second: (&[u8], &[u8])) -> Queue {
    let mut queue = Queue::fresh(limits());
    for (n, (inputs, reads)) in [(1, first), (2, second)] {
        let mut record = Record::tombstone([n; 32], State::Queued, Reason::None);
        (record.size, record.finish) = (0, FinishNumber(0));
        record.holder = Some(model::Holder {
            inputs: ids(inputs),
            reads: ids(reads),
            ..model::Holder::default()
        });
        queue.records.push(record);
    }
    queue
}

#[test]
fn no_record_of_a_sound_queue_spends_what_another_reads() {
    let meet = Some("no record spends what another reads");
    let cases: [((&[u8], &[u8]), (&[u8], &[u8]), Option<&str>); 8] = [
        ((&[11], &[20]), (&[12], &[21]), None),
        ((&[11], &[20]), (&[12], &[20]), None),
        ((&[11], &[11]), (&[12], &[12]), None),
        ((&[11, 11], &[11, 11]), (&[], &[20, 20]), None),
        ((&[11], &[]), (&[12], &[11]), meet),
        ((&[11], &[12]), (&[12], &[]), meet),
        ((&[11, 13], &[]), (&[12], &[20, 13]), meet),
        ((&[], &[12]), (&[12], &[12]), meet),
    ];
    // Whichever of them is Mined.
    let mined = [[false, false], [true, false], [false, true], [true, true]];
    let all = cases.iter().flat_map(|of| mined.map(|mined| (*of, mined)));
    for ((first, second, rule), mined) in all {
        let mut queue = two(first, second);
        for (record, mined) in queue.records.iter_mut().zip(mined) {
            if mined {
                record.state = State::Mined;
                record.mined = Some(Confirmation {
                    height: Height(1),
                    block: [1; 32],
                });
            }
        }
        assert_eq!(sound::broken_rule(&queue), rule);
        let lent = area::encode(&queue);
        assert_eq!(calls::sound(&lent), if rule.is_some() { 3 } else { 100 });
        let mut opened = vec![0; limits().need()];
        let number = calls::open(&image::encode(&queue), &mut opened);
        assert_eq!(number, if rule.is_some() { 16 } else { 100 });
    }
}

/// A Mined one too; each list by itself.
#[test]
fn no_record_of_a_sound_queue_reads_over_k_ids() {
    let most = two((&[11, 12], &[20, 21]), (&[13, 14], &[20, 21]));
    assert_eq!(sound::broken_rule(&most), None);
    let mut over = two((&[], &[20, 20, 20]), (&[], &[]));
    for mined in [false, true] {
        if mined {
            over.records[0].state = State::Mined;
            over.records[0].mined = Some(Confirmation {
                height: Height(1),
                block: [1; 32],
            });
        }
        let rule = Some("labels and lists are short");
        assert_eq!(sound::broken_rule(&over), rule);
        assert_eq!(calls::sound(&area::encode(&over)), 3);
        assert_eq!(calls::open(&image::encode(&over), &mut []), 16);
    }
}

/// Whatever calls are made, spent and read ids of two records do not meet.
#[test]
fn every_call_keeps_a_queue_sound() {
    let mut met: BTreeMap<String, u64> = BTreeMap::new();
    for seed in 0..2_000 {
        let mut rng = Rng::new(seed);
        let small = random::small_limits(&mut rng);
        let queue = random::queue(&mut rng, small);
        let mut queue = random::with_reads(&mut rng, queue);
        for _ in 0..30 {
            queue = step(&mut rng, &queue, &mut met);
            assert_eq!(sound::broken_rule(&queue), None, "seed {seed}");
        }
    }
    assert!(met["20"] > 500 && met["read"] > 1_000, "{met:?}");
    assert!(met["finished"] > 500 && met["shared"] > 2_000, "{met:?}");
}

fn step(rng: &mut Rng, queue: &Queue, met: &mut BTreeMap<String, u64>) -> Queue {
    let limits = &queue.limits;
    let some: Vec<Id> = (0..3).map(|_| random::tx_id(rng, limits)).collect();
    let next = match rng.below(8) {
        0..=4 => {
            let given = Admission {
                inputs: random::box_ids(rng, limits),
                outputs: random::box_ids(rng, limits),
                reads: random::box_ids(rng, limits),
                time_deadline: rng.optional(|_| TimeMs(9)),
                ..Admission::plain(some[0])
            };
            admit(queue, &given).map(|change| change.next)
        }
        5 => cancel(queue, &some[0]).map(|change| change.next),
        6 => {
            let given = Reconciliation {
                applied: some
                    .iter()
                    .map(|id| (*id, random::confirmation(rng)))
                    .collect(),
                available: BTreeSet::from_iter(random::box_ids(rng, limits)),
                ..found(&[], &[], 5, rng.pick(&[0, 3, u32::MAX]))
            };
            reconcile(queue, &given).map(|change| change.next)
        }
        _ => Ok(reopen(queue, &some).next),
    };
    let reading = |queue: &Queue| {
        let reads = queue.records.iter().filter(|of| !of.reads().is_empty());
        reads.count() as u64
    };
    let mut count = |name: &str, by: u64| *met.entry(name.into()).or_default() += by;
    match next {
        Ok(next) => {
            count("read", reading(&next).saturating_sub(reading(queue)));
            count("finished", reading(queue).saturating_sub(reading(&next)));
            let all: Vec<&Id> = next.records.iter().flat_map(Record::reads).collect();
            let each: BTreeSet<&&Id> = all.iter().collect();
            count("shared", (all.len() - each.len()) as u64);
            next
        }
        Err(refusal) => {
            count(&refusal.to_string(), 1);
            queue.clone()
        }
    }
}

// The calls.

fn args<'a>(id: &'a Id, inputs: &'a [u8], outputs: &'a [u8], reads: &'a [u8]) -> AdmitArgs<'a> {
    AdmitArgs {
        id,
        caller: 0,
        inputs,
        outputs,
        reads,
        signed: &[],
        now: 5,
        time_flag: 0,
        time: 0,
        height_flag: 0,
        height: 0,
        priority: 0,
        label_flag: 0,
        label: &[],
        fee: 1,
        cost: 1,
        tip_height: 1,
        tip_flag: 0,
        tip: &[],
    }
}

/// A list that is not whole is 5, before 6; over K is 6, each list by itself, before 20 and also of an
/// id that is there.
#[test]
fn admit_checks_the_read_list() {
    let cur = area::encode(&admitted(&[given(1, &[11], &[], &[20])]));
    let admit = |args: &AdmitArgs<'_>| {
        let (mut next, mut out) = (cur.clone(), [0; 500]);
        calls::admit(&cur, &mut next, args, &mut out)
    };
    let list = |n: u8, count: usize| vec![n; 32 * count];
    let (old, new) = ([1; 32], [2; 32]);
    for length in [1, 31, 33, 63, 65, 95, 97] {
        let reads = vec![30; length];
        for id in [&old, &new] {
            assert_eq!(admit(&args(id, &[], &[], &reads)), 5, "{length}");
            let three = list(31, 3);
            assert_eq!(admit(&args(id, &three, &[], &reads)), 5, "{length}");
        }
    }
    for (inputs, outputs, reads, expected) in [
        (2, 2, 2, 102),
        (2, 2, 3, 6),
        (2, 3, 2, 6),
        (3, 2, 2, 6),
        (0, 0, 3, 6),
        (0, 0, 2, 102),
        (0, 0, 0, 102),
    ] {
        let lists = [list(31, inputs), list(32, outputs), list(33, reads)];
        let number = admit(&args(&new, &lists[0], &lists[1], &lists[2]));
        assert_eq!(number, expected, "{inputs}, {outputs}, {reads}");
        let number = admit(&args(&old, &lists[0], &lists[1], &lists[2]));
        let expected = if expected == 6 { 6 } else { 100 };
        assert_eq!(number, expected, "{inputs}, {outputs}, {reads}");
    }
    // Over K of what another spends: 6 comes first.
    assert_eq!(admit(&args(&new, &[], &[], &list(11, 3))), 6);
    assert_eq!(admit(&args(&new, &[], &[], &list(11, 2))), 20);
    assert_eq!(admit(&args(&new, &list(20, 1), &[], &[])), 20);
}

/// 20 comes before 4.
#[test]
fn a_short_output_comes_after_20() {
    let cur = area::encode(&admitted(&[given(1, &[11], &[], &[20])]));
    let mut next = cur.clone();
    for (reads, expected) in [([11; 32], 20), ([12; 32], 4)] {
        let args = args(&[2; 32], &[], &[], &reads);
        assert_eq!(calls::admit(&cur, &mut next, &args, &mut []), expected);
        assert_eq!(next, cur);
    }
}

/// Count and ids after the inputs, also in the list and in the answers of admission and cancellation.
#[test]
fn entries_show_the_read_ids() {
    let without = 32 + 1 + 2 + 8 + 2 + 8 + 1 + 20 + 1 + 2;
    let queue = admitted(&[given(1, &[11], &[12], &[21, 20])]);
    let entry = calls::entry_bytes(&queue.records[0]);
    assert_eq!(entry.len(), without + 32 + 2 + 64);
    let end = [&[0, 1][..], &[11; 32], &[0, 2], &[21; 32], &[20; 32]].concat();
    assert!(entry.ends_with(&end));
    let lent = area::encode(&queue);
    let mut out = vec![0; entry.len()];
    let short = entry.len() - 1;
    assert_eq!(calls::entry(&lent, &[1; 32], &mut out[..short]), 4);
    assert_eq!(calls::entry(&lent, &[1; 32], &mut out), 100);
    assert_eq!(out, entry);
    let mut out = vec![0; 4 + entry.len()];
    assert_eq!(calls::list(&lent, &mut out), 100);
    assert_eq!(out[4..], entry);
    // Admitted, and asked for again.
    for (cur, number) in [(Queue::fresh(limits()), 102), (queue.clone(), 100)] {
        let cur = area::encode(&cur);
        let reads = ids(&[21, 20]).concat();
        let (mut next, mut out) = (cur.clone(), vec![0; entry.len()]);
        let args = args(&[1; 32], &[11; 32], &[12; 32], &reads);
        assert_eq!(calls::admit(&cur, &mut next, &args, &mut out[1..]), 4);
        assert_eq!(calls::admit(&cur, &mut next, &args, &mut out), number);
        assert_eq!(out, entry);
    }
    // A tombstone has none.
    let (mut next, mut out) = (lent.clone(), vec![0; without + 2]);
    assert_eq!(calls::cancel(&lent, &mut next, &[1; 32], &mut out[1..]), 4);
    assert_eq!(calls::cancel(&lent, &mut next, &[1; 32], &mut out), 102);
    assert!(out.ends_with(&[0; 4]));
}

// Parents first.

#[test]
fn a_record_waits_for_what_it_reads() {
    let priority = |priority, given| Admission { priority, ..given };
    let queue = admitted(&[
        priority(9, given(1, &[11], &[], &[30])),
        priority(8, given(2, &[12], &[], &[])),
        priority(7, given(3, &[13], &[30], &[])),
    ]);
    let listed = |queue: &Queue| -> Vec<u8> {
        let listed = parents_first(queue, TimeMs(0), Height(0));
        listed.iter().map(|record| record.id[0]).collect()
    };
    assert_eq!(listed(&queue), [2, 3, 1]);
    // A reader of its own output waits for nobody; two that read each other's wait for ever.
    let queue = admitted(&[
        priority(9, given(1, &[], &[30], &[30])),
        priority(8, given(2, &[], &[31], &[32])),
        priority(7, given(3, &[], &[32], &[31])),
        priority(6, given(4, &[], &[], &[32])),
    ]);
    assert_eq!(listed(&queue), [1]);
}

#[test]
fn loads_with_read_ids() {
    for reads in [Reads::None, Reads::Apart, Reads::Same, Reads::Made] {
        for ids in [
            Ids::Random,
            Ids::Front,
            Ids::Ends,
            Ids::Filter,
            Ids::Sum,
            Ids::Repeated,
        ] {
            let load = Load {
                limits: [20, 100, 2, 4],
                queued: 20,
                mined: 2,
                tombstones: 2,
                boxes: 4,
                bytes: 3,
                ids,
                links: Links::Chain,
                reads,
            };
            let queue = load::queue(&load);
            assert_eq!(sound::broken_rule(&queue), None);
            let listed = parents_first(&queue, TimeMs(0), Height(0));
            let listed: Vec<Id> = listed.iter().map(|record| record.id).collect();
            assert_eq!(listed, load::parents_first(&load), "{load:?}");
            let all: Vec<&Id> = queue.records.iter().flat_map(Record::reads).collect();
            let each: BTreeSet<&&Id> = all.iter().collect();
            let own = if ids == Ids::Repeated { 1 } else { 4 };
            let (every, different) = match reads {
                Reads::None => (0, 0),
                Reads::Apart => (22 * 4, 22 * own),
                Reads::Same | Reads::Made => (22 * 4, own),
            };
            assert_eq!((all.len(), each.len()), (every, different), "{load:?}");
        }
    }
}

// Kinds.

/// Without read ids; what is written then is of the newest kind, with counts of 0.
#[test]
fn an_older_image_opens_without_read_ids() {
    let reading = admitted(&[
        given(1, &[11], &[12], &[20]),
        given(2, &[13], &[], &[20, 21]),
    ]);
    let mut bare = reading.clone();
    for record in &mut bare.records {
        record.holder.as_mut().expect("a holder").reads.clear();
    }
    bare.persisted = bare.cursor;
    for kind in HeaderKind::ALL {
        assert_eq!(kind.has_reads(), kind >= HeaderKind::K05);
        assert_eq!(kind.can_hold(&reading), kind >= HeaderKind::K05);
        assert!(kind.can_hold(&bare));
        let text = image::encode_as(kind, &bare);
        assert_eq!(image::decode(&text), Some(bare.clone()));
        let frames = if kind.has_reads() { 2 * 2 * 2 } else { 0 };
        let shares = if kind.has_callers() { 2 * (64 + 2) } else { 0 };
        let priorities = if kind.is_wide() { 2 * 2 * 4 } else { 0 };
        let of_01 = image::encode_as(HeaderKind::K01, &bare).len();
        assert_eq!(text.len(), of_01 + frames + shares + priorities);
        assert_eq!(image::encode(&bare)[..2], *b"06");
    }
    // A text of 04 under kind 05, or one of 05 under kind 04, is no image.
    for (kind, digits) in [(HeaderKind::K04, b"05"), (HeaderKind::K05, b"04")] {
        let mut text = image::encode_as(kind, &bare);
        text[..2].copy_from_slice(digits);
        assert_eq!(image::decode(&text), None);
    }
}

#[test]
fn the_needs_of_the_request() {
    assert_eq!(Limits::MAX.need(), 60_293_632);
    let worked = Limits::checked(2, 10, 1, 1).expect("limits in range");
    assert_eq!(worked.need(), 3_476);
    let mut value = 0;
    assert_eq!(calls::need(2, 10, 1, 2, &mut value), 100);
    // One more for K: 96 bytes for each of 2P.
    assert_eq!(value, 3_476 + 4 * 96);
}

/// K of everything, the longest label, and all bytes, in as many holders as there can be: it fits.
#[test]
fn the_longest_queue_fits_its_area() {
    let limits = Limits::checked(2, 10, 1, 3).expect("limits in range");
    let mut queue = Queue::fresh(limits);
    queue.tip = Some([7; 32]);
    queue.cursor = Height(9);
    for n in 1..=5 {
        let mut record = Record::tombstone([n; 32], State::Mined, Reason::None);
        record.label = Some(vec![b'x'; 200]);
        record.time_deadline = Some(TimeMs(1));
        record.height_deadline = Some(Height(1));
        record.mined = Some(Confirmation {
            height: Height(1),
            block: [1; 32],
        });
        if n < 5 {
            record.holder = Some(model::Holder {
                inputs: ids(&[10 * n, 10 * n + 1, 10 * n + 2]),
                outputs: ids(&[10 * n + 3; 3]),
                reads: ids(&[99, 98, 97]),
                bytes: vec![n; 5],
            });
            (record.size, record.finish) = (5, FinishNumber(0));
        }
        if n < 3 {
            (record.state, record.mined) = (State::Queued, None);
        }
        queue.records.push(record);
    }
    queue.counter = FinishNumber(1);
    assert_eq!(sound::broken_rule(&queue), None);
    let bytes = area::encode(&queue);
    assert_eq!(bytes.len(), limits.need());
    assert_eq!(area::decode(&bytes), Some(queue));
}
