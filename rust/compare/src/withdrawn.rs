//! Document 02, P1: once a cancellation or an expiry was kept, that id is in no selection until a
//! later admission of that id was kept. A write that is cut after its rename counts as kept.
//!
//! A history knows what one side answered and what became of its writes, and nothing else. Of a
//! failed withdrawal, and of the current area while a write is under way, nothing is claimed.

use std::collections::BTreeSet;

use model::Id;

use crate::list::{Call, Write};
use crate::unit::ids_of;

/// The ids that were withdrawn and not admitted since.
#[derive(Debug, Clone, Default, PartialEq, Eq)]
pub struct History {
    /// Of the queue in memory.
    memory: BTreeSet<Id>,
    /// Of what is stored. None while nothing is.
    stored: BTreeSet<Id>,
}

/// What a call did to a history.
#[derive(Debug, Clone, Default, PartialEq, Eq)]
pub struct Moved {
    pub withdrawn: Vec<Id>,
    /// The id was withdrawn before.
    pub admitted: Vec<Id>,
}

impl History {
    /// A call with a write that was due: its kind is 2 or 3. Others change nothing. `answer` is what
    /// was answered before the write.
    pub fn written(&mut self, call: &Call, answer: &[u8], write: Write) -> Result<Moved, String> {
        let mut moved = Moved::default();
        if matches!(write, Write::Kept | Write::CutAfterRename) {
            let mut next = self.memory.clone();
            match call {
                Call::Admit(given) if next.remove(&given.id) => moved.admitted.push(given.id),
                Call::Cancel(id) => moved.withdrawn.push(*id),
                // Also those that T makes it forget in the same call.
                Call::Expire(..) => {
                    moved.withdrawn = ids_of(answer).ok_or("an expiry's answer is not whole")?;
                }
                Call::Admit(_) | Call::Reconcile(_) | Call::Reopen(_) | Call::SetCursor(..) => {}
            }
            next.extend(&moved.withdrawn);
            self.stored = next;
        }
        if !matches!(write, Write::NotCreated | Write::NotRenamed) {
            // A kept write's queue is the one in memory, a cut goes back to the stored one.
            self.memory = self.stored.clone();
        }
        Ok(moved)
    }

    /// Power was cut between two calls.
    pub fn cut(&mut self) {
        self.memory = self.stored.clone();
    }

    pub fn is_empty(&self) -> bool {
        self.memory.is_empty()
    }

    pub fn has(&self, id: &Id) -> bool {
        self.memory.contains(id)
    }

    /// The ids of a selection that may not be there.
    pub fn wrong(&self, selected: &[Id]) -> Vec<Id> {
        let wrong = selected.iter().filter(|id| self.has(id));
        wrong.copied().collect()
    }
}

#[cfg(test)]
mod tests {
    use std::collections::BTreeMap;

    use model::calls::ids_bytes;
    use model::rules::{Admission, Reconciliation};
    use model::{Confirmation, Height, TimeMs};

    use super::*;

    const A: Id = [0x0a; 32];
    const B: Id = [0x0b; 32];

    fn admission(id: Id) -> Call {
        Call::Admit(Admission::plain(id))
    }

    fn confirmation(id: Id) -> Call {
        let found = Confirmation {
            height: Height(10),
            block: [7; 32],
        };
        Call::Reconcile(Reconciliation {
            height: Height(10),
            tip: [7; 32],
            applied: BTreeMap::from([(id, found)]),
            caught_up: true,
            available: BTreeSet::new(),
            window: 5,
        })
    }

    fn expiry() -> Call {
        Call::Expire(TimeMs(10), Height(10))
    }

    /// A history after these writes, each with what the call answered.
    fn after(written: &[(Call, &[Id], Write)]) -> History {
        let mut history = History::default();
        for (call, ids, write) in written {
            let answer = ids_bytes(*ids);
            history.written(call, &answer, *write).unwrap();
        }
        history
    }

    #[test]
    fn a_side_that_selects_a_withdrawn_id_is_noticed() {
        for write in [Write::Kept, Write::CutAfterRename] {
            let history = after(&[
                (admission(A), &[], Write::Kept),
                (Call::Cancel(A), &[], write),
            ]);
            assert_eq!(history.wrong(&[B, A]), [A], "cancelled, {}", write.name());
            assert_eq!(history.wrong(&[B]), [[0; 32]; 0]);
            let history = after(&[(expiry(), &[A, B], write)]);
            assert_eq!(history.wrong(&[B, A]), [B, A], "expired, {}", write.name());
        }
    }

    #[test]
    fn an_expirys_ids_are_those_of_its_answer() {
        let mut history = History::default();
        let answer = [ids_bytes(&[A]), vec![0xee; 40]].concat();
        let moved = history.written(&expiry(), &answer, Write::Kept).unwrap();
        assert_eq!((moved.withdrawn, moved.admitted), (vec![A], vec![]));
        // An answer that has fewer ids than it says.
        let answer = &ids_bytes(&[A, B])[..40];
        assert!(history.written(&expiry(), answer, Write::Kept).is_err());
    }

    #[test]
    fn a_failed_or_lost_withdrawal_promises_nothing() {
        for write in [Write::NotCreated, Write::NotRenamed, Write::CutBeforeRename] {
            for call in [Call::Cancel(A), expiry()] {
                let history = after(&[(call, &[A], write)]);
                assert!(history.is_empty(), "{}", write.name());
            }
        }
    }

    #[test]
    fn an_admission_ends_it_where_its_write_was_kept_or_cut_after_its_rename() {
        for (write, covered) in [
            (Write::Kept, false),
            (Write::CutAfterRename, false),
            (Write::NotCreated, true),
            (Write::NotRenamed, true),
            (Write::CutBeforeRename, true),
        ] {
            let history = after(&[
                (Call::Cancel(A), &[], Write::Kept),
                (Call::Cancel(B), &[], Write::Kept),
                (admission(A), &[], write),
            ]);
            assert_eq!(history.has(&A), covered, "{}", write.name());
            assert!(history.has(&B), "another id's admission");
        }
        // Of kind 0 it has no write, and the id stays covered: cancelled, confirmed, admitted, rolled
        // back.
        let history = after(&[
            (Call::Cancel(A), &[], Write::Kept),
            (confirmation(A), &[], Write::Kept),
            (Call::Reopen(BTreeSet::from([A])), &[], Write::Kept),
        ]);
        assert_eq!(history.wrong(&[A]), [A]);
    }

    #[test]
    fn a_cut_goes_back_to_what_is_stored() {
        // The history of the queue in memory is not that of the stored one: no list has this before
        // P6, but a cut must not keep it.
        let mut history = History {
            memory: BTreeSet::from([A]),
            stored: BTreeSet::from([B]),
        };
        history.cut();
        assert_eq!(history.wrong(&[A, B]), [B]);
        let mut history = History {
            memory: BTreeSet::from([A]),
            stored: BTreeSet::new(),
        };
        let cut = Write::CutBeforeRename;
        history.written(&admission(B), &[], cut).unwrap();
        assert!(history.is_empty(), "nothing is stored");
    }

    #[test]
    fn a_second_withdrawal_after_an_admission_counts_again() {
        let history = after(&[
            (Call::Cancel(A), &[], Write::Kept),
            (admission(A), &[], Write::CutAfterRename),
            (expiry(), &[A], Write::CutAfterRename),
        ]);
        assert!(history.has(&A));
    }
}
