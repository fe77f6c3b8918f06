//! Document 01's bench cards, the points that it leaves to the Rust, and examples for document 02's
//! P1 and P4, each run on the model and the oracle, with what is expected written out.

mod common;

use std::collections::{BTreeMap, BTreeSet};

use common::Folder;
use compare::counts::Counts;
use compare::list::{Call, Event, List, Look, Start, Write};
use compare::run::Pair;
use compare::side::Model;
use model::rules::{Admission, Reconciliation};
use model::{
    Confirmation, HeaderKind, Height, Id, Limits, Queue, Reason, State, TimeMs, Withdrawn,
};

const A: Id = [0x0a; 32];
const B: Id = [0x0b; 32];
const T1: Id = [0x71; 32];
const T2: Id = [0x72; 32];

/// The model and the oracle, compared after each call.
struct Cards {
    pair: Pair<'static, Model>,
    _folder: Folder,
    counts: Counts,
}

impl Cards {
    fn new(name: &str, limits: [u64; 4], start: Option<Queue>) -> Self {
        let folder = Folder::new(name);
        let [p, b, t, k] = limits;
        let list = List {
            limits: Limits::checked(p, b, t, k).unwrap(),
            start: start.map_or(Start::Fresh, |queue| {
                Start::Queue(Box::new(queue), HeaderKind::NEWEST)
            }),
            events: Vec::new(),
            probe: (TimeMs(0), Height(0)),
            fees: 0,
            look: Look::All,
        };
        let pair = Pair::new(&Model, folder.path(), &list).map_err(|found| found.to_string());
        Cards {
            pair: pair.unwrap(),
            _folder: folder,
            counts: Counts::default(),
        }
    }

    /// The call's answer as the counts name it.
    fn call(&mut self, call: Call) -> String {
        self.with_write(call, Write::Kept)
    }

    fn with_write(&mut self, call: Call, write: Write) -> String {
        self.counts = Counts::default();
        let event = Event::Call(Box::new(call), write);
        if let Err(found) = self.pair.event(&event, &mut self.counts) {
            panic!("{found}");
        }
        self.counts.only_answer()
    }

    /// Power is cut between two calls.
    fn cut(&mut self) {
        if let Err(found) = self.pair.event(&Event::Cut, &mut self.counts) {
            panic!("{found}");
        }
    }

    fn queue(&self) -> Queue {
        self.pair.queue()
    }

    /// Whether the id may not be selected; the comparison looks at that after each event.
    fn withdrawn(&self, id: Id) -> bool {
        let [model, oracle] = self.pair.withdrawn(&id);
        assert_eq!(model, oracle);
        oracle
    }

    fn state(&self, id: Id) -> (State, Reason) {
        let queue = self.queue();
        let record = queue.record(&id).expect("a record");
        (record.state, record.reason)
    }
}

fn admission(id: Id, input: u8, signed: usize) -> Admission {
    Admission {
        inputs: vec![[input; 32]],
        signed: vec![1; signed],
        ..Admission::plain(id)
    }
}

fn admit(id: Id, input: u8, signed: usize) -> Call {
    Call::Admit(admission(id, input, signed))
}

fn reconciliation(height: u32, applied: &[(Id, u32, Id)], window: u32) -> Reconciliation {
    let applied: BTreeMap<Id, Confirmation> = applied
        .iter()
        .map(|(id, height, block)| {
            let found = Confirmation {
                height: Height(*height),
                block: *block,
            };
            (*id, found)
        })
        .collect();
    Reconciliation {
        height: Height(height),
        tip: T1,
        applied,
        caught_up: false,
        available: BTreeSet::new(),
        window,
    }
}

fn reconcile(height: u32, applied: &[(Id, u32, Id)], window: u32) -> Call {
    Call::Reconcile(reconciliation(height, applied, window))
}

fn reopen(id: Id) -> Call {
    Call::Reopen(BTreeSet::from([id]))
}

#[test]
fn a_deadline_6_at_5_enters_5_does_not() {
    let mut cards = Cards::new("deadline", [2, 10, 1, 1], None);
    for (deadline, answer) in [(5, "7"), (6, "kind 2")] {
        let mut given = admission(A, 1, 1);
        given.time_deadline = Some(TimeMs(deadline));
        assert_eq!(cards.call(Call::Admit(given)), answer);
    }
    let mut given = admission(B, 2, 1);
    given.height_deadline = Some(Height(9));
    given.tip_height = Height(9);
    assert_eq!(cards.call(Call::Admit(given)), "8");
}

#[test]
fn b_10_takes_6_and_4_but_not_6_and_5() {
    let mut cards = Cards::new("bytes", [2, 10, 1, 1], None);
    assert_eq!(cards.call(admit(A, 1, 6)), "kind 2");
    assert_eq!(cards.call(admit(B, 2, 5)), "11");
    assert_eq!(cards.call(admit(B, 2, 4)), "kind 2");
    assert_eq!(cards.call(admit([3; 32], 3, 0)), "10");
}

#[test]
fn the_window_releases_by_depth() {
    for (height, window, released) in [(50, 0, true), (50, 1, false), (51, 1, true)] {
        let mut cards = Cards::new("window", [2, 10, 1, 1], None);
        cards.call(admit(A, 1, 6));
        cards.call(reconcile(49, &[(A, 50, T1)], 9));
        assert_eq!(cards.state(A), (State::Mined, Reason::None));
        cards.call(reconcile(height, &[], window));
        let queue = cards.queue();
        assert_eq!(queue.record(&A).unwrap().holder.is_none(), released);
    }
}

#[test]
fn a_cursor_write_is_due_after_32_blocks() {
    let mut start = Queue::fresh(Limits::checked(2, 10, 1, 1).unwrap());
    start.persisted = Height(100);
    start.cursor = Height(100);
    for (height, kind) in [(131, "kind 1"), (132, "kind 3"), (99, "kind 1")] {
        let mut cards = Cards::new("cursor", [2, 10, 1, 1], Some(start.clone()));
        assert_eq!(cards.call(reconcile(height, &[], 1)), kind);
    }
}

#[test]
fn a_failed_cursor_write_is_due_again() {
    let mut cards = Cards::new("cursor-failed", [2, 10, 1, 1], None);
    let call = reconcile(32, &[], 1);
    assert_eq!(
        cards.with_write(call.clone(), Write::NotCreated),
        "17 after kind 3"
    );
    assert_eq!(cards.queue().cursor, Height(32));
    assert_eq!(cards.queue().persisted, Height(0));
    assert_eq!(cards.call(call), "kind 3");
    assert_eq!(cards.queue().persisted, Height(32));
}

#[test]
fn cancelled_confirmed_reopened_is_cancelled() {
    let mut cards = Cards::new("cancelled", [2, 10, 1, 1], None);
    cards.call(admit(A, 1, 6));
    cards.call(Call::Cancel(A));
    cards.call(reconcile(2, &[(A, 2, T1)], 9));
    // Confirmed at another place it keeps its mark.
    assert_eq!(cards.call(reconcile(3, &[(A, 3, T2)], 9)), "kind 2");
    let queue = cards.queue();
    assert_eq!(queue.record(&A).unwrap().withdrawn, Withdrawn::Cancelled);
    assert_eq!(cards.call(Call::Cancel(A)), "14");
    assert_eq!(cards.call(admit(A, 1, 1)), "kind 0");
    assert_eq!(cards.call(reopen(A)), "kind 2");
    assert_eq!(cards.state(A), (State::Cancelled, Reason::Cancelled));
    assert_eq!(cards.queue().record(&A).unwrap().finish.0, 1);
}

#[test]
fn released_reopened_is_expired() {
    let mut cards = Cards::new("released", [2, 10, 1, 1], None);
    cards.call(admit(A, 1, 6));
    assert_eq!(cards.call(reconcile(2, &[(A, 2, T1)], 0)), "kind 2");
    assert_eq!(cards.call(reopen(A)), "kind 2");
    assert_eq!(
        cards.state(A),
        (State::Expired, Reason::RolledBackAfterRelease)
    );
    assert_eq!(cards.call(reopen(A)), "kind 0");
}

/// Whether the oracle shows another reason of some record.
fn left_out(cards: &Cards) -> bool {
    cards.counts.marks.events == 1
}

/// Document 02, P4, and the one reason that the comparison leaves out.
#[test]
fn released_reopened_confirmed_reopened_keeps_its_reason() {
    let mut cards = Cards::new("reason-3", [2, 10, 1, 1], None);
    let expired = (State::Expired, Reason::RolledBackAfterRelease);
    cards.call(admit(A, 1, 6));
    cards.call(reconcile(2, &[(A, 2, T1)], 0));
    cards.call(reopen(A));
    assert_eq!(cards.state(A), expired);
    assert!(!left_out(&cards), "the oracle has reason 3, too");
    assert_eq!(cards.call(reconcile(3, &[(A, 3, T1)], 9)), "kind 2");
    // Confirmed at another place it keeps its mark.
    assert_eq!(cards.call(reconcile(4, &[(A, 4, T2)], 9)), "kind 2");
    let mark = cards.queue().record(&A).unwrap().withdrawn;
    assert_eq!(mark, Withdrawn::RolledBackAfterRelease);
    cards.call(reopen(A));
    assert_eq!(cards.state(A), expired);
    assert!(left_out(&cards));
    assert_eq!(cards.counts.marks.released, 1);
    // The answer of a cancellation has it.
    assert_eq!(cards.call(Call::Cancel(A)), "kind 0");
    assert!(left_out(&cards));
    assert_eq!(cards.call(admit(A, 1, 6)), "kind 2");
    assert!(!left_out(&cards), "an admission ends it");
}

/// Released, and rolled back.
fn expired_with_reason_3(name: &str) -> Cards {
    let mut cards = Cards::new(name, [2, 10, 1, 1], None);
    cards.call(admit(A, 1, 6));
    cards.call(reconcile(2, &[(A, 2, T1)], 0));
    cards.call(reopen(A));
    cards
}

/// Mark 3 counts once its image is in place, and so does the admission that ends it.
#[test]
fn a_reason_is_left_out_by_what_is_stored() {
    for (write, kept) in [
        (Write::Kept, true),
        (Write::NotCreated, false),
        (Write::NotRenamed, false),
        (Write::CutBeforeRename, false),
        (Write::CutAfterRename, true),
    ] {
        let mut cards = expired_with_reason_3("reason-3-mark");
        cards.with_write(reconcile(3, &[(A, 3, T1)], 9), write);
        cards.cut();
        let kind = cards.call(reopen(A));
        assert_eq!(kind == "kind 2", kept, "{}", write.name());
        assert_eq!(left_out(&cards), kept, "{}", write.name());
        drop(cards);

        let mut cards = expired_with_reason_3("reason-3-admission");
        cards.call(reconcile(3, &[(A, 3, T1)], 9));
        cards.call(reopen(A));
        cards.with_write(admit(A, 1, 6), write);
        assert_eq!(left_out(&cards), !kept, "{}", write.name());
        cards.cut();
        cards.call(Call::SetCursor(Height(9), None));
        assert_eq!(left_out(&cards), !kept, "{}, then a cut", write.name());
    }
}

/// An Expired record with reason 3 that a list begins with is not left out, one with mark 3 is.
#[test]
fn reasons_and_marks_that_a_list_begins_with() {
    let limits = Limits::checked(2, 10, 2, 1).unwrap();
    let mut cards = Cards::new("reason-3-made", limits.numbers(), None);
    for (id, input) in [(A, 1), (B, 2)] {
        cards.call(admit(id, input, 1));
    }
    cards.call(reconcile(2, &[(A, 2, T1), (B, 2, T1)], 0));
    cards.call(Call::Reopen(BTreeSet::from([A, B])));
    cards.call(reconcile(3, &[(A, 3, T1)], 9));
    let start = cards.queue();
    drop(cards);
    let mut cards = Cards::new("reason-3-start", limits.numbers(), Some(start));
    cards.call(Call::SetCursor(Height(3), None));
    assert!(!left_out(&cards), "B has reason 3 on both");
    cards.cut();
    cards.call(reopen(A));
    assert!(left_out(&cards), "A had mark 3");
    assert_eq!(cards.state(A), cards.state(B));
}

#[test]
fn of_two_cancelled_under_t_1_the_second_remains() {
    let mut cards = Cards::new("forgotten", [2, 10, 1, 1], None);
    cards.call(admit(A, 1, 1));
    cards.call(admit(B, 2, 1));
    cards.call(Call::Cancel(B));
    cards.call(Call::Cancel(A));
    let ids: Vec<Id> = cards
        .queue()
        .records
        .iter()
        .map(|record| record.id)
        .collect();
    assert_eq!(ids, [A]);
    assert_eq!(cards.call(Call::Cancel(B)), "13");
}

#[test]
fn the_revision_wraps() {
    let mut start = Queue::fresh(Limits::checked(2, 10, 1, 1).unwrap());
    start.revision = u64::MAX;
    let mut cards = Cards::new("revision", [2, 10, 1, 1], Some(start));
    cards.call(admit(A, 1, 1));
    assert_eq!(cards.queue().revision, 0);
}

#[test]
fn an_admission_into_no_records_moves_the_cursor() {
    let mut cards = Cards::new("tip", [2, 10, 1, 1], None);
    cards.call(Call::SetCursor(Height(5), Some(T2)));
    let mut given = admission(A, 1, 1);
    given.tip_height = Height(3);
    cards.call(Call::Admit(given.clone()));
    assert_eq!((cards.queue().cursor, cards.queue().tip), (Height(3), None));
    // Tombstones are records.
    cards.call(Call::Cancel(A));
    given.tip_height = Height(9);
    cards.call(Call::Admit(given));
    assert_eq!(cards.queue().cursor, Height(3));
}

#[test]
fn outputs_count_by_the_state_at_entry() {
    let mut cards = Cards::new("outputs", [3, 10, 1, 1], None);
    let mut parent = admission(A, 1, 1);
    parent.outputs = vec![[2; 32]];
    cards.call(Call::Admit(parent));
    cards.call(admit(B, 2, 1));
    let mut given = reconciliation(2, &[], 9);
    given.caught_up = true;
    cards.call(Call::Reconcile(given.clone()));
    // The parent's input is unavailable; the child's is the parent's output, Queued at entry.
    assert_eq!(cards.state(A).0, State::Conflicted);
    assert_eq!(cards.state(B).0, State::Queued);
    cards.call(Call::Reconcile(given.clone()));
    assert_eq!(cards.state(B).0, State::Conflicted);
    given.available = BTreeSet::from([[1; 32]]);
    cards.call(Call::Reconcile(given.clone()));
    assert_eq!(cards.state(A).0, State::Queued);
    assert_eq!(cards.state(B).0, State::Conflicted);
    cards.call(Call::Reconcile(given));
    assert_eq!(cards.state(B).0, State::Queued);
}

#[test]
fn an_applied_height_above_the_call_has_depth_0() {
    for (window, released) in [(0, true), (1, false)] {
        let mut cards = Cards::new("depth", [2, 10, 1, 1], None);
        cards.call(admit(A, 1, 1));
        cards.call(reconcile(2, &[(A, 7, T1)], window));
        let queue = cards.queue();
        assert_eq!(queue.record(&A).unwrap().holder.is_none(), released);
    }
}

#[test]
fn withdrawn_it_stays_so_through_a_confirmation_and_an_admission_of_kind_0() {
    let mut cards = Cards::new("withdrawn-kind-0", [2, 10, 1, 1], None);
    cards.call(admit(A, 1, 6));
    assert!(!cards.withdrawn(A));
    cards.call(Call::Cancel(A));
    assert!(cards.withdrawn(A));
    cards.call(reconcile(2, &[(A, 2, T1)], 9));
    assert_eq!(cards.call(admit(A, 1, 6)), "kind 0");
    assert_eq!(cards.counts.withdrawn.kind_0, 1);
    assert_eq!(cards.call(reopen(A)), "kind 2");
    assert!(cards.withdrawn(A));
    assert_eq!(cards.state(A), (State::Cancelled, Reason::Cancelled));
}

#[test]
fn expired_under_t_1_the_forgotten_one_is_withdrawn_too() {
    let mut cards = Cards::new("withdrawn-forgotten", [2, 10, 1, 1], None);
    for (id, input) in [(A, 1), (B, 2)] {
        let mut given = admission(id, input, 1);
        given.time_deadline = Some(TimeMs(6));
        cards.call(Call::Admit(given));
    }
    assert_eq!(cards.call(Call::Expire(TimeMs(6), Height(0))), "kind 2");
    assert_eq!(cards.counts.withdrawn.forgotten_at_once, 1);
    assert!(cards.withdrawn(A) && cards.withdrawn(B));
    assert!(cards.queue().record(&A).is_none());
    // A block, a rollback and a cut bring nothing back.
    cards.call(reconcile(2, &[(A, 2, T1)], 9));
    cards.call(reopen(A));
    cards.cut();
    assert!(cards.withdrawn(A) && cards.queue().record(&A).is_none());
    assert_eq!(cards.call(admit(A, 1, 1)), "kind 2");
    assert!(!cards.withdrawn(A) && cards.withdrawn(B));
}

#[test]
fn a_withdrawal_counts_once_its_image_is_in_place() {
    for (write, counts) in [
        (Write::Kept, true),
        (Write::NotCreated, false),
        (Write::NotRenamed, false),
        (Write::CutBeforeRename, false),
        (Write::CutAfterRename, true),
    ] {
        let mut cards = Cards::new("withdrawn-writes", [2, 10, 1, 1], None);
        cards.call(admit(A, 1, 6));
        cards.with_write(Call::Cancel(A), write);
        assert_eq!(cards.withdrawn(A), counts, "{}", write.name());
        let state = if counts {
            State::Cancelled
        } else {
            State::Queued
        };
        assert_eq!(cards.state(A).0, state);
        // A second one is of kind 0, and changes nothing.
        if counts {
            assert_eq!(cards.call(Call::Cancel(A)), "kind 0");
            assert!(cards.withdrawn(A));
        }
    }
}

#[test]
fn an_admission_ends_it_once_its_image_is_in_place() {
    for (write, ends) in [
        (Write::Kept, true),
        (Write::NotCreated, false),
        (Write::NotRenamed, false),
        (Write::CutBeforeRename, false),
        (Write::CutAfterRename, true),
    ] {
        let mut cards = Cards::new("admitted-writes", [2, 10, 1, 1], None);
        cards.call(admit(A, 1, 6));
        cards.call(Call::Cancel(A));
        cards.with_write(admit(A, 1, 6), write);
        assert_eq!(cards.withdrawn(A), !ends, "{}", write.name());
        cards.cut();
        assert_eq!(cards.withdrawn(A), !ends, "{}, then a cut", write.name());
        let state = if ends {
            State::Queued
        } else {
            State::Cancelled
        };
        assert_eq!(cards.state(A).0, state);
    }
}
