//! Document 02, P12, "Best fees for a block", on queues.

use crate::rules::{selection_at, Refusal};
use crate::values::{Height, Id, Queue, Record, TimeMs};

/// The candidates' fees sum over 18,446,744,073,709,551,615.
pub const FEES: Refusal = 21;

/// "Candidates are the first 20 of the old selection."
pub const MAX_CANDIDATES: usize = 20;
/// "a budget from 1 to 2,097,151": the nodes of the whole tree of 20.
pub const MAX_BUDGET: u64 = 2_097_151;

/// What a candidate is to the search.
#[derive(Debug, Clone, Copy, PartialEq, Eq)]
pub struct Candidate {
    pub id: Id,
    /// The number of its signed bytes.
    pub size: u64,
    pub fee: u64,
}

impl Candidate {
    fn of(record: &Record) -> Candidate {
        Candidate {
            id: record.id,
            size: record.byte_count() as u64,
            fee: record.fee,
        }
    }
}

/// "The answer has the set in the old order, its fee, the nodes counted and the distance".
#[derive(Debug, Clone, PartialEq, Eq)]
pub struct BestFees {
    pub ids: Vec<Id>,
    pub fee: u64,
    pub nodes: u32,
    pub distance: u64,
}

pub fn candidates(queue: &Queue, now: TimeMs, height: Height) -> Vec<Candidate> {
    let selected = selection_at(queue, now, height);
    let first = selected.into_iter().take(MAX_CANDIDATES);
    first.map(Candidate::of).collect()
}

/// 21, then the search. The budget is in its range.
pub fn best_fees(
    queue: &Queue,
    limit: u64,
    budget: u64,
    now: TimeMs,
    height: Height,
) -> Result<BestFees, Refusal> {
    let candidates = candidates(queue, now, height);
    let sum: u128 = candidates.iter().map(|one| u128::from(one.fee)).sum();
    if sum > u128::from(u64::MAX) {
        return Err(FEES);
    }
    Ok(search(&candidates, limit, budget))
}

/// A choice for the first candidates.
#[derive(Debug, Clone, Copy)]
struct Node {
    decided: usize,
    /// Of each decided one, whether it is taken.
    taken: [bool; MAX_CANDIDATES],
    /// The fees taken.
    fee: u64,
    bytes_left: u64,
}

impl Node {
    fn root(limit: u64) -> Node {
        Node {
            decided: 0,
            taken: [false; MAX_CANDIDATES],
            fee: 0,
            bytes_left: limit,
        }
    }

    /// The node that takes the next candidate; none where that breaks the limit, or where all are
    /// decided.
    fn take(&self, candidates: &[Candidate]) -> Option<Node> {
        let next = candidates.get(self.decided)?;
        let mut taken = self.taken;
        taken[self.decided] = true;
        Some(Node {
            decided: self.decided + 1,
            taken,
            bytes_left: self.bytes_left.checked_sub(next.size)?,
            fee: self.fee + next.fee,
        })
    }

    /// The node that leaves the next candidate; none where all are decided.
    fn leave(&self, candidates: &[Candidate]) -> Option<Node> {
        candidates.get(self.decided)?;
        Some(Node {
            decided: self.decided + 1,
            ..*self
        })
    }

    /// "the fees taken plus the fees of the undecided candidates that fit singly into the bytes
    /// left"
    fn bound(&self, candidates: &[Candidate]) -> u64 {
        let undecided = candidates[self.decided..].iter();
        let fit = undecided.filter(|one| one.size <= self.bytes_left);
        self.fee + fit.map(|one| one.fee).sum::<u64>()
    }

    fn ids(&self, candidates: &[Candidate]) -> Vec<Id> {
        let all = candidates.iter().zip(self.taken);
        all.filter_map(|(one, taken)| taken.then_some(one.id))
            .collect()
    }
}

/// "The search, depth first, decides the candidates in order, taking before leaving". There are at
/// most 20, and their fees have a sum of 64 bits.
pub fn search(candidates: &[Candidate], limit: u64, budget: u64) -> BestFees {
    // Unvisited nodes whose parent is visited, the next to visit last. The root begins.
    let mut waiting = vec![Node::root(limit)];
    let mut best = Node::root(limit);
    let mut nodes = 0;
    while nodes < budget {
        let Some(node) = waiting.pop() else {
            break;
        };
        nodes += 1;
        // "of equals the one visited first"
        if node.fee > best.fee {
            best = node;
        }
        waiting.extend(node.leave(candidates));
        waiting.extend(node.take(candidates));
    }
    let bounds = waiting.iter().map(|node| node.bound(candidates));
    BestFees {
        ids: best.ids(candidates),
        fee: best.fee,
        nodes: u32::try_from(nodes).expect("at most the budget"),
        // "the largest of these bounds minus the fee, not below 0"
        distance: bounds.max().unwrap_or(0).saturating_sub(best.fee),
    }
}
