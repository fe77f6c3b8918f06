//! Parents first: worked examples, the list against all lists of small selections, and the call on
//! queues.

use std::collections::{BTreeMap, BTreeSet};

use model::load::{self, Load, Reads};
use model::parents::parents_first;
use model::random::{self, Rng};
use model::{
    area, calls, rules, Caller, Confirmation, FinishNumber, Height, Holder, Id, Limits, Queue,
    Reason, Record, State, TimeMs, Withdrawn,
};

const NOW: TimeMs = TimeMs(50);
const HEIGHT: Height = Height(60);

/// A Queued record of this number and priority, with inputs and outputs of these.
fn record(n: u8, priority: i64, inputs: &[u8], outputs: &[u8]) -> Record {
    let ids = |numbers: &[u8]| numbers.iter().map(|n| [*n; 32]).collect();
    Record {
        id: [n; 32],
        caller: Caller(0),
        state: State::Queued,
        reason: Reason::None,
        created: TimeMs(1),
        time_deadline: None,
        height_deadline: None,
        priority,
        label: None,
        fee: 1,
        size: 0,
        cost: 1,
        mined: None,
        withdrawn: Withdrawn::No,
        finish: FinishNumber(0),
        holder: Some(Holder {
            inputs: ids(inputs),
            outputs: ids(outputs),
            reads: Vec::new(),
            bytes: Vec::new(),
        }),
    }
}

fn queue(records: &[Record]) -> Queue {
    let mut queue = Queue::fresh(Limits::checked(8, 10, 2, 4).expect("limits in range"));
    queue.records.extend_from_slice(records);
    queue.records.sort_by_key(|record| record.id);
    assert!(model::sound::is_sound(&queue));
    queue
}

/// The numbers of the listed records.
fn listed_at(records: &[Record], now: TimeMs, height: Height) -> Vec<u8> {
    let queue = queue(records);
    let listed = parents_first(&queue, now, height);
    listed.iter().map(|record| record.id[0]).collect()
}

fn listed(records: &[Record]) -> Vec<u8> {
    listed_at(records, NOW, HEIGHT)
}

#[test]
fn nothing_selected() {
    assert_eq!(listed(&[]), []);
    let mut due = record(1, 0, &[11], &[12]);
    due.time_deadline = Some(NOW);
    assert_eq!(listed(&[due]), []);
}

#[test]
fn records_that_wait_for_nobody_stay_in_the_old_order() {
    let (a, b) = (record(1, 0, &[11], &[21]), record(2, 7, &[12], &[22]));
    let mut c = record(3, 0, &[13], &[23]);
    c.created = TimeMs(0);
    assert_eq!(listed(&[a, b, c]), [2, 3, 1]);
}

#[test]
fn a_parent_behind_its_child() {
    let (child, parent) = (record(1, 9, &[11], &[12]), record(2, 1, &[13], &[11]));
    assert_eq!(listed(&[child, parent]), [2, 1]);
}

#[test]
fn a_grandparent_behind_all() {
    let child = record(1, 9, &[11], &[]);
    let parent = record(2, 8, &[12], &[11]);
    let grandparent = record(3, 7, &[13], &[12]);
    assert_eq!(listed(&[child, parent, grandparent]), [3, 2, 1]);
}

#[test]
fn its_own_output() {
    let own = record(1, 9, &[11], &[11]);
    assert_eq!(listed(&[own.clone(), record(2, 1, &[12], &[])]), [1, 2]);
    // It still waits for another that has the same output.
    assert_eq!(listed(&[own, record(2, 1, &[12], &[11])]), [2, 1]);
}

#[test]
fn two_in_a_ring_and_one_that_waits_for_them() {
    let ring = [record(1, 9, &[11], &[12]), record(2, 8, &[12], &[11, 13])];
    let third = record(3, 7, &[13], &[14]);
    let fourth = record(4, 6, &[15], &[]);
    let all = [ring[0].clone(), ring[1].clone(), third, fourth];
    assert_eq!(listed(&all), [4]);
    assert_eq!(listed(&ring), []);
}

/// The parent of a ring is listed.
#[test]
fn a_ring_that_waits() {
    let ring = [record(1, 9, &[11, 16], &[12]), record(2, 8, &[12], &[11])];
    let parent = record(3, 7, &[15], &[16]);
    assert_eq!(listed(&[ring[0].clone(), ring[1].clone(), parent]), [3]);
}

/// Right after the last of its parents, before others of lower priority that were free all the time.
#[test]
fn two_parents() {
    let child = record(1, 9, &[11, 12], &[]);
    let parents = [record(2, 8, &[13], &[11]), record(3, 5, &[14], &[12])];
    let [first, second] = parents;
    let (before, after) = (record(4, 6, &[15], &[]), record(5, 4, &[16], &[]));
    let all = [child, first, second, before, after];
    assert_eq!(listed(&all), [2, 4, 3, 1, 5]);
}

/// What was passed over is looked at again after each one listed.
#[test]
fn looking_from_the_front_again() {
    let all = [
        record(1, 9, &[11], &[]),
        record(2, 8, &[12], &[]),
        record(3, 7, &[13], &[12]),
        record(4, 6, &[14], &[11]),
        record(5, 5, &[15], &[]),
    ];
    assert_eq!(listed(&all), [3, 2, 4, 1, 5]);
}

#[test]
fn an_output_that_two_records_name() {
    let child = record(1, 9, &[11], &[]);
    let two = [record(2, 8, &[12], &[11]), record(3, 7, &[13], &[11])];
    let [first, second] = two;
    let all = [child, first, second, record(4, 6, &[14], &[])];
    assert_eq!(listed(&all), [2, 3, 1, 4]);
}

#[test]
fn ids_that_are_repeated() {
    let child = record(1, 9, &[11, 11], &[12, 12]);
    let parent = record(2, 8, &[13, 13], &[11, 11]);
    assert_eq!(listed(&[child, parent]), [2, 1]);
}

/// Who is not selected is not waited for.
#[test]
fn parents_that_are_not_selected() {
    let child = record(1, 9, &[11], &[]);
    let parent = || record(2, 8, &[12], &[11]);
    let mut mined = parent();
    mined.state = State::Mined;
    mined.mined = Some(Confirmation {
        height: Height(9),
        block: [7; 32],
    });
    let mut conflicted = parent();
    conflicted.state = State::Conflicted;
    conflicted.reason = Reason::InputsUnavailable;
    for parent in [mined, conflicted] {
        assert_eq!(listed(&[child.clone(), parent]), [1]);
    }
    let mut late = parent();
    late.time_deadline = Some(NOW);
    let both = [child.clone(), late];
    assert_eq!(listed(&both), [1]);
    assert_eq!(listed_at(&both, TimeMs(49), HEIGHT), [2, 1]);
    assert_eq!(listed_at(&both, TimeMs(0), Height(0)), [2, 1]);
    let mut high = parent();
    high.height_deadline = Some(HEIGHT);
    let both = [child, high];
    assert_eq!(listed(&both), [1]);
    assert_eq!(listed_at(&both, NOW, Height(59)), [2, 1]);
}

/// A ring of which one is not selected is none.
#[test]
fn a_ring_with_one_that_is_not_selected() {
    let mut late = record(1, 9, &[11], &[12]);
    late.time_deadline = Some(NOW);
    let other = record(2, 8, &[12], &[11]);
    assert_eq!(listed(&[late, other]), [2]);
}

/// The example of docs/CALLS.md, A to E as 1 to 5.
#[test]
fn the_example_of_the_documents() {
    let mut all = [
        record(1, 9, &[101, 102], &[103]),
        record(2, 8, &[104], &[101]),
        record(3, 7, &[105], &[106]),
        record(4, 6, &[107], &[102, 108]),
        record(5, 5, &[109], &[110]),
    ];
    assert_eq!(listed(&all), [2, 3, 4, 1, 5]);
    all[3].time_deadline = Some(NOW);
    assert_eq!(listed(&all), [2, 1, 3, 5]);
    all[3] = record(4, 6, &[107], &[102, 108, 105]);
    all[2] = record(3, 7, &[105], &[106, 107]);
    assert_eq!(listed(&all), [2, 5]);
}

/// Whether another has one of the record's inputs among its outputs.
fn waits_for(record: &Record, other: &Record) -> bool {
    let set = |ids: &[Id]| ids.iter().copied().collect::<BTreeSet<Id>>();
    let (inputs, outputs) = (set(record.inputs()), set(other.outputs()));
    record.id != other.id && !inputs.is_disjoint(&outputs)
}

/// Selected records, none twice, each after all selected ones that it waits for. `waits` has for each
/// record whether it waits for each.
fn fits(waits: &[Vec<bool>], list: &[usize]) -> bool {
    let once = (0..list.len()).all(|at| !list[..at].contains(&list[at]));
    let after = (0..list.len()).all(|at| {
        let mut waited = (0..waits.len()).filter(|place| waits[list[at]][*place]);
        waited.all(|place| list[..at].contains(&place))
    });
    once && after
}

/// All lists of some of the places 0 to `count` - 1, in every order.
fn all_lists(count: usize) -> Vec<Vec<usize>> {
    let mut lists = vec![Vec::new()];
    let mut from = 0;
    while from < lists.len() {
        let list: Vec<usize> = lists[from].clone();
        let others = (0..count).filter(|place| !list.contains(place));
        lists.extend(others.map(|place| [&list[..], &[place]].concat()));
        from += 1;
    }
    lists
}

#[test]
fn no_list_that_fits_has_more_and_none_of_as_many_is_before_it() {
    let lists: Vec<Vec<Vec<usize>>> = (0..=8).map(all_lists).collect();
    assert_eq!(lists[8].len(), 109_601);
    let (mut met, mut off) = (BTreeMap::new(), BTreeMap::new());
    for seed in 0..1_500 {
        let mut rng = Rng::new(seed);
        let count = if seed % 5 == 0 { 8 } else { rng.below(8) };
        let inputs = 1 + rng.below(4);
        let queue = random::parents_queue(&mut rng, count, inputs);
        let (now, height) = (random::time(&mut rng), random::height(&mut rng));
        let selected = rules::selection_at(&queue, now, height);
        let listed = parents_first(&queue, now, height);
        let place = |record: &&Record| {
            let mut places = selected.iter();
            places.position(|other| other.id == record.id)
        };
        let list: Option<Vec<usize>> = listed.iter().map(place).collect();
        let list = list.expect("selected records");
        let row = |one: &&Record| selected.iter().map(|other| waits_for(one, other)).collect();
        let waits: Vec<Vec<bool>> = selected.iter().map(row).collect();
        assert!(fits(&waits, &list), "seed {seed}");
        let all = lists[selected.len()].iter();
        let fitting: Vec<_> = all.filter(|list| fits(&waits, list)).collect();
        let most = fitting.iter().map(|list| list.len()).max();
        assert_eq!(most, Some(list.len()), "seed {seed}");
        // By the places in the old order, it is the first of those with as many.
        let longest = fitting
            .into_iter()
            .filter(|other| other.len() == list.len());
        assert_eq!(longest.min(), Some(&list), "seed {seed}");
        *met.entry(selected.len()).or_insert(0) += 1;
        *off.entry(selected.len() - list.len()).or_insert(0) += 1;
    }
    let often = |met: &BTreeMap<usize, u64>, count| met.get(&count).is_some_and(|met| *met > 2);
    assert!((0..=8).all(|count| often(&met, count)), "{met:?}");
    // One alone is never left off.
    assert!((2..=6).all(|count| often(&off, count)), "{off:?}");
    assert!(!off.contains_key(&1), "{off:?}");
}

/// The number, and where it is 100 the ids in an output of the right length.
fn answer(lent: &[u8], now: TimeMs, height: Height) -> (u64, Vec<Id>) {
    const LATER: u8 = 0xee;
    let ask = |out: &mut [u8]| calls::selection_parents_first(lent, now.0, height.0, out);
    let mut out = vec![LATER; 4 + 32 * 64 + 1];
    let number = ask(&mut out);
    if number != 100 {
        assert!(out.iter().all(|byte| *byte == LATER), "a refusal wrote");
        return (number, Vec::new());
    }
    let count = u32::from_be_bytes(out[..4].try_into().expect("4 bytes")) as usize;
    let length = 4 + 32 * count;
    assert!(out[length..].iter().all(|byte| *byte == LATER));
    // The output may be no shorter.
    let mut short = vec![LATER; length - 1];
    assert_eq!(ask(&mut short), 4);
    assert!(short.iter().all(|byte| *byte == LATER));
    assert_eq!(ask(&mut vec![LATER; length]), 100);
    let ids = out[4..length].chunks(32);
    (
        number,
        ids.map(|id| id.try_into().expect("an id")).collect(),
    )
}

#[test]
fn the_call_on_queues() {
    let (mut waiting, mut left_off, mut turned) = (0, 0, 0);
    for seed in 0..3_000 {
        let mut rng = Rng::new(seed);
        let count = rng.pick(&[0, 1, 2, 3, 5, 9, 20, 40]);
        let inputs = 1 + rng.below(4);
        let queue = random::parents_queue(&mut rng, count, inputs);
        let (now, height) = (random::time(&mut rng), random::height(&mut rng));
        let (number, ids) = answer(&area::encode(&queue), now, height);
        assert_eq!(number, 100);
        let listed = parents_first(&queue, now, height);
        let expected: Vec<Id> = listed.iter().map(|record| record.id).collect();
        assert_eq!(ids, expected, "seed {seed}");
        let selected = rules::selection_at(&queue, now, height);
        let waits = |one: &&Record| selected.iter().any(|other| waits_for(one, other));
        waiting += usize::from(selected.iter().any(waits));
        left_off += usize::from(ids.len() < selected.len());
        let mut rest = selected.iter();
        turned += usize::from(!ids.iter().all(|id| rest.any(|one| one.id == *id)));
    }
    let met = format!("{waiting}, {left_off}, {turned}");
    assert!(waiting > 1_000 && left_off > 400 && turned > 500, "{met}");
}

/// Of each load the list that it has to give.
#[test]
fn loads() {
    for (ids, links) in load::kinds() {
        for queued in [0, 1, 2, 3, 20] {
            let load = Load {
                limits: [20, 100, 2, 4],
                queued,
                mined: 2,
                tombstones: 2,
                boxes: 4,
                bytes: 3,
                ids,
                links,
                reads: Reads::None,
            };
            let queue = load::queue(&load);
            assert!(model::sound::is_sound(&queue));
            let listed = parents_first(&queue, TimeMs(0), Height(0));
            let listed: Vec<Id> = listed.iter().map(|record| record.id).collect();
            assert_eq!(listed, load::parents_first(&load), "{load:?}");
        }
    }
}

/// 3, then 4.
#[test]
fn refusals_in_their_order() {
    let lent = area::encode(&queue(&[record(1, 0, &[], &[])]));
    for length in [0, 3, 4, 35] {
        let out = &mut vec![0; length];
        assert_eq!(calls::selection_parents_first(&lent, 0, 0, out), 4);
        assert_eq!(calls::selection_parents_first(&lent[1..], 0, 0, out), 3);
    }
    assert_eq!(answer(&lent, NOW, HEIGHT), (100, vec![[1; 32]]));
}
