//! Best fees for a block: worked examples, the search against the words of the text and against
//! all sets, and the call on queues.

use std::collections::BTreeSet;

use model::fees::{self, BestFees, Candidate, MAX_BUDGET};
use model::random::{self, nth_id, Rng};
use model::{area, calls, rules, Height, Queue, TimeMs};

/// Candidates of these fees and sizes, whose ids say their places.
fn list(given: &[(u64, u64)]) -> Vec<Candidate> {
    let numbered = given.iter().enumerate();
    numbered
        .map(|(n, &(fee, size))| Candidate {
            id: [n as u8; 32],
            size,
            fee,
        })
        .collect()
}

/// An answer with the candidates of these places.
fn says(set: &[u8], fee: u64, nodes: u32, distance: u64) -> BestFees {
    BestFees {
        ids: set.iter().map(|n| [*n; 32]).collect(),
        fee,
        nodes,
        distance,
    }
}

#[test]
fn fees_5_4_3_and_sizes_6_5_5() {
    let three = list(&[(5, 6), (4, 5), (3, 5)]);
    for (budget, expected) in [
        (1, says(&[], 0, 1, 7)),
        (2, says(&[0], 5, 2, 2)),
        (3, says(&[0], 5, 3, 2)),
        (4, says(&[0], 5, 4, 2)),
        (5, says(&[0], 5, 5, 2)),
        (6, says(&[0], 5, 6, 2)),
        (7, says(&[1, 2], 7, 7, 0)),
        (8, says(&[1, 2], 7, 8, 0)),
        (9, says(&[1, 2], 7, 9, 0)),
        (10, says(&[1, 2], 7, 10, 0)),
        (11, says(&[1, 2], 7, 11, 0)),
        (100, says(&[1, 2], 7, 11, 0)),
    ] {
        assert_eq!(fees::search(&three, 10, budget), expected, "{budget}");
    }
    // None of them fits.
    assert_eq!(fees::search(&three, 0, 100), says(&[], 0, 4, 0));
}

#[test]
fn no_candidates() {
    for budget in [1, 2, MAX_BUDGET] {
        assert_eq!(fees::search(&[], 10, budget), says(&[], 0, 1, 0));
    }
}

#[test]
fn a_limit_of_0_takes_what_has_no_bytes() {
    let one = list(&[(5, 0)]);
    assert_eq!(fees::search(&one, 0, 100), says(&[0], 5, 3, 0));
}

#[test]
fn of_equals_the_first_visited_stays() {
    let two = list(&[(2, 5), (2, 4)]);
    assert_eq!(fees::search(&two, 5, 100), says(&[0], 2, 6, 0));
    // The first node with this fee takes both, and not the third.
    let three = list(&[(1, 1), (1, 1), (2, 2)]);
    assert_eq!(fees::search(&three, 2, 100).ids, says(&[0, 1], 2, 0, 0).ids);
}

#[test]
fn a_fee_of_0_is_not_taken() {
    assert_eq!(fees::search(&list(&[(0, 1)]), 5, 100), says(&[], 0, 3, 0));
    let two = list(&[(0, 1), (3, 1)]);
    // With the first or without it the fee is 3; the first one is visited with it.
    assert_eq!(fees::search(&two, 5, 100), says(&[0, 1], 3, 7, 0));
}

#[test]
fn the_largest_fee() {
    let one = list(&[(u64::MAX, 50)]);
    assert_eq!(fees::search(&one, 100, 1), says(&[], 0, 1, u64::MAX));
    assert_eq!(fees::search(&one, 100, 2), says(&[0], u64::MAX, 2, 0));
    // It does not fit: there is no node that takes it.
    assert_eq!(fees::search(&one, 10, 1), says(&[], 0, 1, 0));
}

#[test]
fn a_distance_above_0_though_the_set_is_best() {
    let three = list(&[(5, 4), (3, 4), (3, 4)]);
    assert_eq!(fees::search(&three, 7, 2), says(&[0], 5, 2, 1));
    assert_eq!(most(&three, 7), 5);
}

/// 4 fits into the 7 left before the first is taken, not into the 3 left after it.
#[test]
fn a_bound_goes_by_the_bytes_left_after_the_take() {
    let two = list(&[(1, 4), (9, 4)]);
    assert_eq!(fees::search(&two, 7, 1), says(&[], 0, 1, 9));
}

#[test]
fn the_whole_tree_of_20() {
    let many = list(&[(3, 1); 20]);
    let all: Vec<u8> = (0..20).collect();
    let found = fees::search(&many, 20, MAX_BUDGET);
    assert_eq!(found, says(&all, 60, 2_097_151, 0));
    let found = fees::search(&many, u64::MAX, MAX_BUDGET - 1);
    // The last node of all leaves everyone.
    assert_eq!(found, says(&all, 60, 2_097_150, 0));
}

/// Up to so many candidates, a limit and a budget.
fn small_case(rng: &mut Rng, most: usize) -> (Vec<Candidate>, u64, u64) {
    let count = rng.up_to(most);
    let (top_fee, top_size) = (rng.pick(&[1, 3, 9, 1_000]), rng.pick(&[0, 1, 3, 9]));
    let given: Vec<(u64, u64)> = (0..count)
        .map(|_| (rng.up_to(top_fee) as u64, rng.up_to(top_size) as u64))
        .collect();
    let limit = rng.up_to((count * top_size).max(3)) as u64;
    let budget = match rng.below(4) {
        0 => 1 + rng.below(6) as u64,
        1 => 2_u64 << count,
        _ => 1 + rng.below(2 << count) as u64,
    };
    (list(&given), limit, budget)
}

/// The decisions for the first candidates.
type Decisions = Vec<bool>;

/// The nodes in the order of visits: the root, those that take the first candidate if it fits,
/// those that leave it.
fn tree(candidates: &[Candidate], left: u64) -> Vec<Decisions> {
    let mut nodes = vec![Decisions::new()];
    let Some((first, rest)) = candidates.split_first() else {
        return nodes;
    };
    let below = |taken: bool, left: u64| {
        let nodes = tree(rest, left).into_iter();
        nodes.map(move |node| [vec![taken], node].concat())
    };
    if first.size <= left {
        nodes.extend(below(true, left - first.size));
    }
    nodes.extend(below(false, left));
    nodes
}

/// The answer by the words of the text, sentence by sentence.
fn by_the_words(candidates: &[Candidate], limit: u64, budget: u64) -> BestFees {
    let tree = tree(candidates, limit);
    let visited = &tree[..tree.len().min(budget as usize)];
    let set = |node: &Decisions| -> Vec<Candidate> {
        let all = candidates.iter().zip(node).filter(|(_, taken)| **taken);
        all.map(|(one, _)| *one).collect()
    };
    let fee = |node: &Decisions| -> u64 { set(node).iter().map(|one| one.fee).sum() };
    let bound = |node: &Decisions| -> u64 {
        let taken: u64 = set(node).iter().map(|one| one.size).sum();
        let undecided = &candidates[node.len()..];
        let fit = undecided.iter().filter(|one| one.size <= limit - taken);
        fee(node) + fit.map(|one| one.fee).sum::<u64>()
    };
    let unvisited = tree.iter().filter(|node| !visited.contains(node));
    let outside = unvisited.filter(|node| visited.contains(&node[..node.len() - 1].to_vec()));
    let most = visited.iter().map(&fee).max().expect("the root is visited");
    let best = visited.iter().find(|node| fee(node) == most);
    BestFees {
        ids: set(best.expect("one has it"))
            .iter()
            .map(|one| one.id)
            .collect(),
        fee: most,
        nodes: visited.len() as u32,
        distance: outside.map(bound).max().unwrap_or(0).saturating_sub(most),
    }
}

#[test]
fn the_search_is_as_the_words_have_it() {
    let (mut above, mut cut) = (0, 0);
    for seed in 0..20_000 {
        let mut rng = Rng::new(seed);
        let (candidates, limit, budget) = small_case(&mut rng, 6);
        let found = fees::search(&candidates, limit, budget);
        let expected = by_the_words(&candidates, limit, budget);
        assert_eq!(found, expected, "{candidates:?}, limit {limit}, {budget}");
        above += usize::from(found.distance > 0);
        cut += usize::from(u64::from(found.nodes) == budget);
    }
    assert!(above > 2_000 && cut > 5_000, "{above}, {cut}");
}

/// The places of each set of candidates that fits, by its bits.
fn fitting(candidates: &[Candidate], limit: u64) -> impl Iterator<Item = u32> + '_ {
    (0..1_u32 << candidates.len()).filter(move |set| sum(candidates, *set, |one| one.size) <= limit)
}

fn sum(candidates: &[Candidate], set: u32, value: impl Fn(&Candidate) -> u64) -> u64 {
    let all = candidates.iter().enumerate();
    let taken = all.filter(|(at, _)| set >> at & 1 == 1);
    taken.map(|(_, one)| value(one)).sum()
}

/// The most fee of all sets that fit.
fn most(candidates: &[Candidate], limit: u64) -> u64 {
    let fees = fitting(candidates, limit).map(|set| sum(candidates, set, |one| one.fee));
    fees.max().expect("the empty set fits")
}

#[test]
fn no_set_that_fits_has_more_than_fee_and_distance() {
    for seed in 0..4_000 {
        let mut rng = Rng::new(seed);
        let (candidates, limit, budget) = small_case(&mut rng, 10);
        let most = most(&candidates, limit);
        let found = fees::search(&candidates, limit, budget);
        let case = format!("{candidates:?}, limit {limit}, {budget}: {found:?}");
        assert!(most <= found.fee + found.distance, "{case}");
        assert!(found.fee <= most, "{case}");
        // The set: some candidates in their order, which fit and have this fee.
        let places: Vec<u8> = found.ids.iter().map(|id| id[0]).collect();
        assert!(places.windows(2).all(|two| two[0] < two[1]), "{case}");
        let set = places.iter().map(|at| 1 << at).sum();
        assert!(sum(&candidates, set, |one| one.size) <= limit, "{case}");
        assert_eq!(sum(&candidates, set, |one| one.fee), found.fee, "{case}");
        // More budget, never a smaller fee; the whole tree, the best set.
        let more = budget + rng.below(200) as u64;
        assert!(fees::search(&candidates, limit, more).fee >= found.fee);
        let whole = fees::search(&candidates, limit, MAX_BUDGET);
        assert_eq!((whole.fee, whole.distance), (most, 0), "{case}");
        assert!(found.nodes as u64 <= budget && found.nodes <= whole.nodes);
        if budget >= u64::from(whole.nodes) {
            assert_eq!(found, whole, "{case}");
        }
    }
}

/// What is asked of a queue.
#[derive(Debug, Clone, Copy)]
struct Question {
    limit: u64,
    budget: u64,
    now: TimeMs,
    height: Height,
}

impl Question {
    fn ask(&self, lent: &[u8], out: &mut [u8]) -> u64 {
        let Question { limit, budget, .. } = *self;
        calls::best_fees(lent, limit, budget, self.now.0, self.height.0, out)
    }
}

/// The number, and where it is 100 the fee, the nodes, the distance and the ids in an output of
/// the right length.
fn answer(queue: &Queue, question: &Question) -> (u64, BestFees) {
    const LATER: u8 = 0xee;
    let lent = area::encode(queue);
    let mut out = [LATER; 24 + 32 * 20 + 1];
    let number = question.ask(&lent, &mut out);
    if number != 100 {
        assert_eq!(out, [LATER; 665], "a refusal wrote");
        return (number, says(&[], 0, 0, 0));
    }
    let u32_at = |at: usize| u32::from_be_bytes(out[at..at + 4].try_into().unwrap());
    let u64_at = |at: usize| u64::from_be_bytes(out[at..at + 8].try_into().unwrap());
    let count = u32_at(20) as usize;
    let length = 24 + 32 * count;
    assert!(out[length..].iter().all(|byte| *byte == LATER));
    let found = BestFees {
        ids: out[24..length]
            .chunks(32)
            .map(|id| id.try_into().unwrap())
            .collect(),
        fee: u64_at(0),
        nodes: u32_at(8),
        distance: u64_at(12),
    };
    // The output may be no shorter.
    let mut short = vec![LATER; length - 1];
    assert_eq!(question.ask(&lent, &mut short), 4);
    assert!(short.iter().all(|byte| *byte == LATER));
    assert_eq!(question.ask(&lent, &mut vec![LATER; length]), 100);
    (number, found)
}

#[test]
fn the_call_on_queues() {
    let mut met = std::collections::BTreeMap::new();
    for seed in 0..3_000 {
        let mut rng = Rng::new(seed);
        let queue = match rng.once_in(3) {
            true => {
                let limits = random::small_limits(&mut rng);
                random::queue(&mut rng, limits)
            }
            false => {
                let count = rng.pick(&[0, 1, 2, 5, 12, 19, 20, 21, 22, 30]);
                random::fees_queue(&mut rng, count)
            }
        };
        let (now, height) = (random::time(&mut rng), random::height(&mut rng));
        let question = Question {
            limit: random::fees_limit(&mut rng, &queue, now, height),
            budget: random::fees_budget(&mut rng),
            now,
            height,
        };
        let (number, found) = answer(&queue, &question);
        let selected = rules::selection_at(&queue, now, height);
        let fees = selected.iter().take(20).map(|one| u128::from(one.fee));
        let overflow = fees.sum::<u128>() > u128::from(u64::MAX);
        let case = format!("seed {seed}, {question:?}, {} selected", selected.len());
        let expected = match question.budget {
            0 | 2_097_152.. => 5,
            _ if overflow => 21,
            _ => 100,
        };
        assert_eq!(number, expected, "{case}");
        *met.entry((number, selected.len().min(21))).or_insert(0) += 1;
        if number != 100 {
            continue;
        }
        // Selected records, in their order, none twice, which share no input.
        let mut rest = selected.iter().take(20);
        let set: Vec<_> = found
            .ids
            .iter()
            .map(|id| rest.find(|one| one.id == *id).expect("in the old order"))
            .collect();
        let inputs: Vec<BTreeSet<_>> = set
            .iter()
            .map(|one| one.inputs().iter().collect())
            .collect();
        let all: BTreeSet<_> = inputs.iter().flatten().collect();
        assert_eq!(all.len(), inputs.iter().map(BTreeSet::len).sum::<usize>());
        let bytes: usize = set.iter().map(|one| one.byte_count()).sum();
        assert!(bytes as u64 <= question.limit, "{case}");
        assert_eq!(set.iter().map(|one| one.fee).sum::<u64>(), found.fee);
        assert!(1 <= found.nodes && u64::from(found.nodes) <= question.budget);
    }
    for count in [0, 1, 2, 5, 12, 19, 20, 21] {
        for number in [5, 100] {
            assert!(met.contains_key(&(number, count)), "{number} with {count}");
        }
    }
    assert!(met.contains_key(&(21, 20)) && met.contains_key(&(21, 21)));
}

/// Selected records whose fees are given, in this order.
fn queue_of(fees: &[u64]) -> Queue {
    let mut queue = random::fees_queue(&mut Rng::new(7), fees.len());
    let order: Vec<_> = rules::selection_at(&queue, TimeMs(9), Height(9))
        .iter()
        .map(|record| record.id)
        .collect();
    assert_eq!(order.len(), fees.len());
    for (id, fee) in order.iter().zip(fees) {
        let mut records = queue.records.iter_mut();
        records.find(|one| one.id == *id).expect("a record").fee = *fee;
    }
    queue
}

/// 3, then 5, then 21, then 4.
#[test]
fn refusals_in_their_order() {
    let mut over = vec![0; 21];
    (over[0], over[19]) = (u64::MAX, 1);
    let mut sound = area::encode(&queue_of(&over));
    let ask = |lent: &[u8], budget: u64| {
        let (now, height) = (TimeMs(9), Height(9));
        let question = Question {
            limit: 0,
            budget,
            now,
            height,
        };
        question.ask(lent, &mut [])
    };
    for budget in [0, MAX_BUDGET + 1, u64::MAX] {
        assert_eq!(ask(&sound, budget), 5);
        assert_eq!(ask(&sound[1..], budget), 3);
    }
    for budget in [1, MAX_BUDGET] {
        assert_eq!(ask(&sound, budget), 21);
        // The 21st of the selection is no candidate.
        over[19..].copy_from_slice(&[0, 1]);
        sound = area::encode(&queue_of(&over));
        assert_eq!(ask(&sound, budget), 4);
        over[19..].copy_from_slice(&[1, 0]);
        sound = area::encode(&queue_of(&over));
    }
}

/// Ids whose order is not that of their candidates.
#[test]
fn the_set_is_in_the_old_order() {
    let mut queue = queue_of(&[1, 1, 1]);
    for (n, record) in queue.records.iter_mut().enumerate() {
        record.priority = n as i64;
    }
    let question = Question {
        limit: u64::MAX,
        budget: 4,
        now: TimeMs(9),
        height: Height(9),
    };
    let falling: Vec<_> = (queue.records.iter().rev().map(|one| one.id)).collect();
    let selected = |id: &[u8; 32]| {
        let all = rules::selection_at(&queue, TimeMs(9), Height(9));
        all.iter().any(|one| one.id == *id)
    };
    let expected: Vec<_> = falling.into_iter().filter(selected).collect();
    assert_ne!(expected[0], nth_id(0));
    assert_eq!(answer(&queue, &question).1.ids, expected);
}
