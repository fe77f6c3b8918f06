//! Document 02, P4: the one reason that the comparison leaves out.
//!
//! A record that is confirmed while it is Expired with reason 3 gets mark 3, and rolled back it is
//! Expired with reason 3 again. The oracle marks it Expired, which is mark 5, and then shows reason 2.
//! Its mark is taken for 3 and its reason for 3, of these records alone; no other pair passes.
//!
//! Which records these are is told by the oracle's own records, so that mark 3 on another one is a
//! difference.

use std::collections::BTreeSet;

use model::{Id, Queue, Reason, Record, State, Withdrawn};

/// The ids of the records that have had mark 3 since their last admission.
#[derive(Debug, Clone, Default, PartialEq, Eq)]
pub struct Marked {
    /// Of the queue in memory.
    memory: BTreeSet<Id>,
    /// Of what is stored. None while nothing is.
    stored: BTreeSet<Id>,
}

/// What a call did.
#[derive(Debug, Clone, Default, PartialEq, Eq)]
pub struct Moved {
    /// Given mark 3.
    pub confirmed: Vec<Id>,
    /// Back from mark 3.
    pub rolled_back: Vec<Id>,
}

impl Marked {
    /// Of a queue that is stored as it is.
    pub fn new(queue: &Queue) -> Marked {
        let marked = queue.records.iter().filter(|record| has_mark_3(record));
        let memory: BTreeSet<Id> = marked.map(|record| record.id).collect();
        Marked {
            stored: memory.clone(),
            memory,
        }
    }

    /// A call, by the oracle's records before and after it. `stored`: they are in its file now.
    pub fn called(&mut self, before: &[Record], after: &[Record], stored: bool) -> Moved {
        let mut moved = Moved::default();
        for (old, new) in before.iter().flat_map(|old| Some((old, find(after, old)?))) {
            let was_mined = old.state == State::Mined;
            let is_mined = new.state == State::Mined;
            let released = rolled_back_after_release(old) || self.has(&old.id);
            if old.state == State::Expired && is_mined && released {
                moved.confirmed.push(old.id);
            }
            if was_mined && new.state == State::Expired && self.has(&old.id) {
                moved.rolled_back.push(old.id);
            }
        }
        self.memory.extend(&moved.confirmed);
        // Forgotten, or admitted again.
        let is_tombstone = |id: &Id| {
            let mut records = after.iter();
            records.any(|record| record.id == *id && record.holder.is_none())
        };
        self.memory.retain(is_tombstone);
        if stored {
            self.stored = self.memory.clone();
        }
        moved
    }

    /// Power was cut: the queue is the stored one.
    pub fn cut(&mut self) {
        self.memory = self.stored.clone();
    }

    pub fn is_empty(&self) -> bool {
        self.memory.is_empty() && self.stored.is_empty()
    }

    pub fn has(&self, id: &Id) -> bool {
        self.memory.contains(id)
    }

    /// What the oracle's record has to be here.
    pub fn taken(&self, record: Record) -> Record {
        if !self.has(&record.id) {
            return record;
        }
        let withdrawn = match record.withdrawn {
            Withdrawn::Expired => Withdrawn::RolledBackAfterRelease,
            other => other,
        };
        let reason = match (record.state, record.reason) {
            (State::Expired, Reason::DeadlineElapsed) => Reason::RolledBackAfterRelease,
            // A difference: no Expired record here has reason 0.
            (State::Expired, _) => Reason::None,
            (_, reason) => reason,
        };
        Record {
            withdrawn,
            reason,
            ..record
        }
    }
}

fn has_mark_3(record: &Record) -> bool {
    record.withdrawn == Withdrawn::RolledBackAfterRelease
}

fn rolled_back_after_release(record: &Record) -> bool {
    record.state == State::Expired && record.reason == Reason::RolledBackAfterRelease
}

/// The record of the same id.
fn find<'a>(records: &'a [Record], record: &Record) -> Option<&'a Record> {
    let at = records.binary_search_by_key(&record.id, |other| other.id);
    at.ok().map(|at| &records[at])
}

#[cfg(test)]
mod tests {
    use model::{Confirmation, FinishNumber, Height, Holder, Limits};

    use super::*;

    const A: Id = [0x0a; 32];
    const B: Id = [0x0b; 32];

    /// A tombstone, as the oracle has it.
    fn tombstone(id: Id, state: State, reason: Reason, withdrawn: Withdrawn) -> Record {
        let found = Confirmation {
            height: Height(10),
            block: [7; 32],
        };
        Record {
            mined: (state == State::Mined).then_some(found),
            withdrawn,
            ..Record::tombstone(id, state, reason)
        }
    }

    fn expired(id: Id, reason: Reason) -> Record {
        tombstone(id, State::Expired, reason, Withdrawn::No)
    }

    fn mined(id: Id, withdrawn: Withdrawn) -> Record {
        tombstone(id, State::Mined, Reason::None, withdrawn)
    }

    fn admitted(id: Id) -> Record {
        Record {
            finish: FinishNumber(0),
            holder: Some(Holder::default()),
            ..tombstone(id, State::Queued, Reason::None, Withdrawn::No)
        }
    }

    /// A has had mark 3: rolled back after its release, confirmed.
    fn confirmed() -> Marked {
        let mut marked = Marked::default();
        let before = [expired(A, Reason::RolledBackAfterRelease)];
        let moved = marked.called(&before, &[mined(A, Withdrawn::Expired)], true);
        assert_eq!((moved.confirmed, moved.rolled_back), (vec![A], vec![]));
        marked
    }

    /// Every tombstone that a record of this id can be, as numbers: state, reason, mark.
    fn every(id: Id) -> Vec<Record> {
        let cancelled = tombstone(id, State::Cancelled, Reason::Cancelled, Withdrawn::No);
        let mut all = Withdrawn::ALL.map(|mark| mined(id, mark)).to_vec();
        all.push(expired(id, Reason::DeadlineElapsed));
        all.push(expired(id, Reason::RolledBackAfterRelease));
        all.push(cancelled);
        all
    }

    fn numbers(record: &Record) -> [u8; 3] {
        [
            record.state as u8,
            record.reason as u8,
            record.withdrawn as u8,
        ]
    }

    /// The pairs, ours and the oracle's, that pass though they are not equal; and how many equal
    /// ones do not.
    fn left_out(marked: &Marked, id: Id) -> (Vec<[[u8; 3]; 2]>, usize) {
        let (mut pairs, mut refused) = (Vec::new(), 0);
        for ours in every(id) {
            for oracle in every(id) {
                let passes = marked.taken(oracle.clone()) == ours;
                if passes && ours != oracle {
                    pairs.push([numbers(&ours), numbers(&oracle)]);
                }
                refused += usize::from(ours == oracle && !passes);
            }
        }
        (pairs, refused)
    }

    #[test]
    fn one_reason_and_one_mark_are_left_out_of_such_records_alone() {
        let marked = confirmed();
        let mark = [[2, 0, 3], [2, 0, 5]];
        let reason = [[5, 3, 0], [5, 2, 0]];
        // Equal, but not what they have to be: mark 5, reason 2 and reason 3.
        assert_eq!(left_out(&marked, A), (vec![mark, reason], 3));
        assert_eq!(left_out(&marked, B), (vec![], 0));
        assert_eq!(left_out(&Marked::default(), A), (vec![], 0));
        // Holders are never looked at.
        assert_eq!(marked.taken(admitted(A)), admitted(A));
    }

    #[test]
    fn only_reason_3_confirmed_makes_one() {
        for (before, after) in [
            (
                expired(A, Reason::DeadlineElapsed),
                mined(A, Withdrawn::Expired),
            ),
            (
                mined(A, Withdrawn::Expired),
                expired(A, Reason::DeadlineElapsed),
            ),
            (
                mined(A, Withdrawn::No),
                expired(A, Reason::RolledBackAfterRelease),
            ),
            // A write that failed.
            (
                expired(A, Reason::RolledBackAfterRelease),
                expired(A, Reason::RolledBackAfterRelease),
            ),
        ] {
            let mut marked = Marked::default();
            let moved = marked.called(&[before], &[after], true);
            assert_eq!((moved, marked), (Moved::default(), Marked::default()));
        }
    }

    #[test]
    fn a_starts_marks_count_and_its_reasons_do_not() {
        let mut queue = Queue::fresh(Limits::MAX);
        queue.records = vec![
            mined(A, Withdrawn::RolledBackAfterRelease),
            expired(B, Reason::RolledBackAfterRelease),
        ];
        let mut marked = Marked::new(&queue);
        assert!(marked.has(&A) && !marked.has(&B));
        marked.cut();
        assert!(marked.has(&A), "it is stored as it is");
    }

    #[test]
    fn it_lasts_through_rollbacks_until_an_admission_or_until_it_is_forgotten() {
        let (there, back) = (
            [mined(A, Withdrawn::Expired)],
            [expired(A, Reason::DeadlineElapsed)],
        );
        let mut marked = confirmed();
        let moved = marked.called(&there, &back, true);
        assert_eq!((moved.confirmed, moved.rolled_back), (vec![], vec![A]));
        let moved = marked.called(&back, &there, true);
        assert_eq!((moved.confirmed, moved.rolled_back), (vec![A], vec![]));
        marked.called(&there, &there, true);
        assert!(marked.has(&A));
        for after in [&[admitted(A)][..], &[]] {
            let mut marked = marked.clone();
            marked.called(&back, after, true);
            assert_eq!(marked, Marked::default());
        }
    }

    #[test]
    fn a_cut_goes_back_to_what_is_stored() {
        let mut marked = Marked {
            memory: BTreeSet::from([A]),
            stored: BTreeSet::from([B]),
        };
        marked.cut();
        assert!(marked.has(&B) && !marked.has(&A));
        // A confirmation, and an admission, that are not stored.
        let before = [expired(A, Reason::RolledBackAfterRelease)];
        let mut marked = Marked::default();
        marked.called(&before, &[mined(A, Withdrawn::Expired)], false);
        assert!(marked.has(&A));
        marked.cut();
        assert_eq!(marked, Marked::default());
        let mut marked = confirmed();
        marked.called(&[mined(A, Withdrawn::Expired)], &[admitted(A)], false);
        assert!(!marked.has(&A));
        marked.cut();
        assert!(marked.has(&A));
    }
}
