//! Runs events on `PrivateTransactionQueue`.

use std::collections::{BTreeMap, BTreeSet};
use std::fs;
use std::os::unix::fs::MetadataExt;
use std::path::{Path, PathBuf};
use std::sync::Arc;

use ergo_mempool::pool::Entry;
use ergo_mempool::types::TxSource;
use ergo_primitives::digest::Digest32;
use ergo_primitives::registry::{self, Transaction};
use model::calls::{entry_bytes, ids_bytes};
use model::frame::is_narrow;
use model::rules::{self, Admission, Reconciliation};
use model::{
    Caller, Confirmation, FinishNumber, Height, Holder, Id, Limits, Queue, Reason, Record, State,
    TimeMs, Withdrawn,
};
use reference::limits;
use reference::private_queue::inspect::{self, WholeRecord, WholeStore};
use reference::private_queue::{
    PrivateQueueError, PrivateTransactionEntry, PrivateTransactionOptions, PrivateTransactionQueue,
    PrivateTransactionState,
};

use crate::list::{Call, Start, Write};
use crate::marks::{Marked, Moved};
use crate::side::Reading;

/// What the oracle made of a call.
#[derive(Debug, Clone, PartialEq, Eq)]
pub struct Done {
    /// A refusal, 17 among them, or 100.
    pub number: u64,
    /// What docs/CALLS.md would have as the answer's bytes.
    pub answer: Vec<u8>,
    /// Whether the file was replaced, or would have been without the fault.
    pub wrote: bool,
    /// Power was cut; the queue was opened again.
    pub cut: bool,
    pub moved: Moved,
}

/// An answer's bytes, or a refusal's number.
type Answer = Result<Vec<u8>, u64>;

/// The oracle with its file in a folder of its own. Its records are shown as they have to be here:
/// [`crate::marks`].
pub struct Oracle {
    queue: PrivateTransactionQueue,
    marked: Marked,
    limits: Limits,
    path: PathBuf,
    /// Its folder is a plain file, so that no second file can be made.
    uncreatable: PathBuf,
    /// A directory, so that the rename fails.
    unrenamable: PathBuf,
}

impl Oracle {
    /// Uses `folder`, which must exist, and removes what an earlier oracle left there. The oracle has no
    /// callers, no shares and no read ids, and priorities of 32 bits: all is of caller 0, whose share is P,
    /// nothing is only read, and nothing else is taken.
    pub fn new(folder: &Path, limits: Limits, start: &Start) -> Result<Oracle, String> {
        if !limits.is_all_to_caller_0() {
            return Err("the oracle has no shares".into());
        }
        set_limits(&limits);
        registry::clear();
        let path = folder.join("queue.json");
        let _ = fs::remove_file(&path);
        let plain = folder.join("plain");
        let directory = folder.join("directory.json");
        fs::write(&plain, b"").map_err(|error| error.to_string())?;
        fs::create_dir_all(directory.join("full")).map_err(|error| error.to_string())?;
        let queue = PrivateTransactionQueue::open(&path)?;
        let mut oracle = Oracle {
            queue,
            marked: Marked::default(),
            limits,
            path,
            uncreatable: plain.join("queue.json"),
            unrenamable: directory,
        };
        if let Start::Queue(queue, _) = start {
            oracle.set(queue)?;
        }
        Ok(oracle)
    }

    /// Starts with this queue, stored as it is.
    fn set(&mut self, queue: &Queue) -> Result<(), String> {
        let of_caller_0 = |record: &Record| record.caller == Caller(0);
        if queue.limits != self.limits || !queue.records.iter().all(of_caller_0) {
            return Err("the oracle has no callers".into());
        }
        if !queue.records.iter().all(|record| record.reads().is_empty()) {
            return Err("the oracle has no read ids".into());
        }
        let narrow = |record: &Record| is_narrow(record.priority);
        if !queue.records.iter().all(narrow) {
            return Err("the oracle has priorities of 32 bits".into());
        }
        self.marked = Marked::new(queue);
        for record in &queue.records {
            if let Some(holder) = &record.holder {
                register(&record.id, holder);
            }
        }
        inspect::set_whole_store(&self.queue, whole_store(queue));
        inspect::persist(&self.queue)
    }

    /// Opens what is stored.
    pub fn restart(&mut self) -> Result<(), String> {
        self.queue = PrivateTransactionQueue::open(&self.path)?;
        self.marked.cut();
        Ok(())
    }

    /// The oracle's own records.
    fn records(&self) -> Vec<Record> {
        let store = inspect::whole_store(&self.queue);
        store.records.iter().map(record_of).collect()
    }

    /// How many records there are whose reason is left out.
    pub fn left_out(&self) -> usize {
        if self.marked.is_empty() {
            return 0;
        }
        let records = self.records();
        let left_out =
            |record: &&Record| record.state == State::Expired && self.marked.has(&record.id);
        records.iter().filter(left_out).count()
    }

    /// The queue as document 01 has it.
    pub fn queue(&self) -> Queue {
        let store = inspect::whole_store(&self.queue);
        let records = store.records.iter().map(record_of);
        Queue {
            limits: self.limits,
            persisted: Height(store.persisted_height),
            revision: store.revision,
            cursor: Height(store.observed_height),
            tip: store.observed_tip.map(|tip| id_of(&tip)),
            counter: FinishNumber(store.finished_seq),
            records: records.map(|record| self.marked.taken(record)).collect(),
        }
    }

    /// Transactions that could not be found; must stay 0.
    pub fn failed() -> u64 {
        registry::failed()
    }

    pub fn call(&mut self, call: &Call, write: Write) -> Result<Done, String> {
        if matches!(call, Call::Admit(given) if given.caller != Caller(0)) {
            return Err("the oracle has no callers".into());
        }
        if matches!(call, Call::Admit(given) if !given.reads.is_empty()) {
            return Err("the oracle has no read ids".into());
        }
        if matches!(call, Call::Admit(given) if !is_narrow(given.priority)) {
            return Err("the oracle has priorities of 32 bits".into());
        }
        let fails = match write {
            Write::Kept | Write::CutAfterRename => None,
            Write::NotCreated | Write::CutBeforeRename => Some(self.uncreatable.clone()),
            Write::NotRenamed => Some(self.unrenamable.clone()),
        };
        let before = self.file();
        // Only a confirmation makes a marked record.
        let follows = !self.marked.is_empty() || matches!(call, Call::Reconcile(_));
        let records = follows.then(|| self.records());
        if let Some(path) = &fails {
            inspect::set_path(&mut self.queue, path);
        }
        let answer = self.make(call);
        if fails.is_some() {
            let path = self.path.clone();
            inspect::set_path(&mut self.queue, &path);
        }
        let failed = answer == Err(17);
        let stored = self.file() != before;
        let moved = records.map(|before| self.marked.called(&before, &self.records(), stored));
        let wrote = failed || stored;
        let cut = wrote && matches!(write, Write::CutBeforeRename | Write::CutAfterRename);
        if cut {
            self.restart()?;
        }
        Ok(Done {
            number: answer.as_ref().map_or_else(|number| *number, |_| 100),
            answer: answer.unwrap_or_default(),
            wrote,
            cut,
            moved: moved.unwrap_or_default(),
        })
    }

    /// A write makes a new file before the old one goes, so that their numbers differ.
    fn file(&self) -> Option<u64> {
        fs::metadata(&self.path).ok().map(|file| file.ino())
    }

    fn make(&self, call: &Call) -> Answer {
        match call {
            Call::Admit(given) => self.admit(given),
            Call::Cancel(id) => self.answer_entry(self.queue.cancel(&hex(id))),
            Call::Expire(now, height) => match self.queue.expire(now.0, height.0) {
                Ok(ids) => Ok(ids_answer(&ids)),
                Err(_) => Err(17),
            },
            Call::Reconcile(given) => self.reconcile(given),
            Call::Reopen(ids) => {
                let ids: BTreeSet<String> = ids.iter().map(hex).collect();
                self.queue
                    .reopen_rolled_back(&ids)
                    .map(|_| Vec::new())
                    .map_err(|_| 17)
            }
            Call::SetCursor(height, tip) => {
                self.queue
                    .set_observation_cursor(height.0, tip.as_ref().map(hex));
                Ok(Vec::new())
            }
        }
    }

    fn admit(&self, given: &Admission) -> Answer {
        let before = self.queue.revision();
        let answer = self.answer_entry(self.queue.admit_at_tip(
            &pool_entry(given),
            options_of(given),
            given.now.0,
            given.tip_height.0,
            given.tip.as_ref().map(hex),
        ));
        if self.queue.revision() != before {
            register(
                &given.id,
                &Holder {
                    inputs: given.inputs.clone(),
                    outputs: given.outputs.clone(),
                    reads: Vec::new(),
                    bytes: given.signed.clone(),
                },
            );
        }
        answer
    }

    fn reconcile(&self, given: &Reconciliation) -> Answer {
        let applied: BTreeMap<String, (u32, String)> = given
            .applied
            .iter()
            .map(|(id, found)| (hex(id), (found.height.0, hex(&found.block))))
            .collect();
        let reconciled = self.queue.reconcile(
            given.height.0,
            hex(&given.tip),
            &applied,
            given.caught_up,
            |id| given.available.contains(id),
            given.window,
        );
        match reconciled {
            Ok(reconciled) => {
                let mut answer = vec![u8::from(reconciled.changed)];
                answer.extend(ids_answer(&reconciled.released));
                Ok(answer)
            }
            Err(_) => Err(17),
        }
    }

    /// What docs/CALLS.md would have as the reading call's answer; a number as 8 bytes.
    pub fn read(&self, reading: Reading) -> Vec<u8> {
        let queue = &self.queue;
        match reading {
            Reading::Revision => value_answer(queue.revision()),
            Reading::IsEmpty => value_answer(u64::from(queue.is_empty())),
            Reading::DeadlineDue(now, height) => {
                value_answer(u64::from(queue.deadline_due(now, height)))
            }
            Reading::ObservedHeight => value_answer(u64::from(queue.observed_height())),
            Reading::ObservationCursor => cursor_answer(queue.observation_cursor()),
            Reading::RecordIds => ids_bytes(&rising(queue.record_ids())),
            Reading::GuardedIds => ids_bytes(&queue.guarded_ids()),
            Reading::ReservedInputs => ids_bytes(&queue.reserved_inputs()),
            Reading::ReservationSnapshot => {
                let (revision, inputs) = queue.reservation_snapshot();
                [value_answer(revision), ids_bytes(&inputs)].concat()
            }
            Reading::GuardSnapshot => {
                let (ids, inputs) = queue.guard_snapshot();
                [ids_bytes(&rising(ids)), ids_bytes(&inputs)].concat()
            }
            Reading::List => {
                let entries = queue.list();
                let mut answer = (entries.len() as u32).to_be_bytes().to_vec();
                answer.extend(entries.iter().flat_map(|entry| self.entry_answer(entry)));
                answer
            }
            Reading::SelectionEntries => selection_answer(&queue.selection_entries()),
            Reading::SelectionEntriesAt(now, height) => {
                selection_answer(&queue.selection_entries_at(now, height))
            }
            Reading::Due(now, height) => {
                let due = queue.due(now, height);
                let mut answer = (due.len() as u32).to_be_bytes().to_vec();
                for (id, state) in due {
                    answer.extend(id_of(&id));
                    answer.push(state_of(state) as u8);
                }
                answer
            }
            Reading::Confirmations => {
                let confirmed = queue.confirmations();
                let mut answer = (confirmed.len() as u32).to_be_bytes().to_vec();
                for (id, height, block) in confirmed {
                    answer.extend(id_of(&id));
                    answer.extend(height.to_be_bytes());
                    answer.extend(id_of(&block));
                }
                answer
            }
        }
    }

    pub fn entry(&self, id: &Id) -> Answer {
        match self.queue.entry(&hex(id)) {
            Some(entry) => Ok(self.entry_answer(&entry)),
            None => Err(rules::ABSENT),
        }
    }

    fn entry_answer(&self, entry: &PrivateTransactionEntry) -> Vec<u8> {
        entry_bytes(&self.marked.taken(shown_of(entry)))
    }

    fn answer_entry(&self, answer: Result<PrivateTransactionEntry, PrivateQueueError>) -> Answer {
        match answer {
            Ok(entry) => Ok(self.entry_answer(&entry)),
            Err(PrivateQueueError::Storage(_)) => Err(17),
            Err(PrivateQueueError::Rejected(reason)) => Err(refusal_of(&reason)),
        }
    }
}

/// The transaction as the oracle is given it.
pub fn pool_entry(given: &Admission) -> Entry {
    let digests = |ids: &[Id]| ids.iter().copied().map(Digest32::from_bytes).collect();
    Entry::new(
        Digest32::from_bytes(given.id),
        Arc::from(given.signed.clone()),
        digests(&given.inputs),
        digests(&given.outputs),
        Vec::new(),
        given.fee,
        0,
        given.signed.len() as u32,
        given.cost,
        TxSource::Wallet,
    )
}

/// The rest of what an admission is given.
pub fn options_of(given: &Admission) -> PrivateTransactionOptions {
    PrivateTransactionOptions {
        expires_at_ms: given.time_deadline.map(|time| time.0),
        expires_at_height: given.height_deadline.map(|height| height.0),
        priority: narrow(given.priority),
        label: given
            .label
            .clone()
            .map(|label| String::from_utf8(label).expect("labels are UTF-8")),
    }
}

/// The priority as the oracle has it.
fn narrow(priority: i64) -> i32 {
    i32::try_from(priority).expect("a priority of 32 bits")
}

/// Sets this thread's limits of the oracle.
pub fn set_limits(limits: &Limits) {
    let [p, b, t] = [limits.pending, limits.bytes, limits.tombstones].map(|limit| limit as usize);
    limits::set(p, b, t);
}

/// Makes the transaction known to the oracle.
pub fn register(id: &Id, holder: &Holder) {
    registry::register(Transaction {
        id: *id,
        bytes: holder.bytes.clone(),
        inputs: holder.inputs.clone(),
        outputs: holder.outputs.clone(),
    });
}

// Answers.

fn value_answer(value: u64) -> Vec<u8> {
    value.to_be_bytes().to_vec()
}

fn ids_answer(ids: &[String]) -> Vec<u8> {
    ids_bytes(&ids.iter().map(|id| id_of(id)).collect::<Vec<Id>>())
}

fn selection_answer(entries: &[Entry]) -> Vec<u8> {
    ids_bytes(entries.iter().map(|entry| entry.tx_id.as_bytes()))
}

fn cursor_answer((height, tip): (u32, Option<String>)) -> Vec<u8> {
    let mut answer = height.to_be_bytes().to_vec();
    answer.push(u8::from(tip.is_some()));
    answer.extend(tip.iter().flat_map(|tip| id_of(tip)));
    answer
}

fn rising(ids: impl IntoIterator<Item = Id>) -> BTreeSet<Id> {
    ids.into_iter().collect()
}

fn refusal_of(reason: &str) -> u64 {
    match reason {
        "private transaction deadline has already elapsed" => rules::TIME_DEADLINE,
        "private transaction height deadline has already elapsed" => rules::HEIGHT_DEADLINE,
        "private transaction label exceeds 200 bytes" => rules::LABEL,
        "private transaction queue is full" => rules::FULL,
        "private transaction queue byte budget exhausted" => rules::BYTE_BUDGET,
        "an input is already reserved by another private transaction" => rules::INPUT_RESERVED,
        "private transaction not found" => rules::ABSENT,
        "a confirmed transaction cannot be cancelled" => rules::CONFIRMED,
        other => panic!("the oracle has a refusal without a number: {other}"),
    }
}

// From the oracle's values to document 01's.

pub fn hex(id: &Id) -> String {
    hex_bytes(id)
}

pub fn hex_bytes(bytes: &[u8]) -> String {
    bytes.iter().map(|byte| format!("{byte:02x}")).collect()
}

fn id_of(hex: &str) -> Id {
    assert_eq!(hex.len(), 64, "an id of the oracle");
    std::array::from_fn(|at| {
        u8::from_str_radix(&hex[2 * at..2 * at + 2], 16).expect("an id of the oracle")
    })
}

fn state_of(state: PrivateTransactionState) -> State {
    match state {
        PrivateTransactionState::Queued => State::Queued,
        PrivateTransactionState::InCandidate => panic!("InCandidate is dropped"),
        PrivateTransactionState::Mined => State::Mined,
        PrivateTransactionState::Conflicted => State::Conflicted,
        PrivateTransactionState::Cancelled => State::Cancelled,
        PrivateTransactionState::Expired => State::Expired,
    }
}

const REASONS: [(Reason, &str); 5] = [
    (Reason::Cancelled, "cancelled by operator"),
    (Reason::DeadlineElapsed, "local mining deadline elapsed"),
    (
        Reason::RolledBackAfterRelease,
        "mined block rolled back after its signed bytes were released",
    ),
    (
        Reason::RolledBack,
        "mined block rolled back; confirming applied history",
    ),
    (
        Reason::InputsUnavailable,
        "one or more inputs are unavailable on the applied chain",
    ),
];

fn reason_of(reason: Option<&str>) -> Reason {
    let Some(reason) = reason else {
        return Reason::None;
    };
    let found = REASONS.iter().find(|(_, text)| *text == reason);
    found.expect("a reason with a number").0
}

fn mined_of(entry: &PrivateTransactionEntry) -> Option<Confirmation> {
    match (entry.mined_height, &entry.mined_block_id) {
        (Some(height), Some(block)) => Some(Confirmation {
            height: Height(height),
            block: id_of(block),
        }),
        (None, None) => None,
        other => panic!("the oracle has half a confirmation: {other:?}"),
    }
}

/// The parts that an entry shows; a holder with its inputs alone.
fn shown_of(entry: &PrivateTransactionEntry) -> Record {
    Record {
        id: id_of(&entry.tx_id),
        caller: Caller(0),
        state: state_of(entry.state),
        reason: reason_of(entry.reason.as_deref()),
        created: TimeMs(entry.created_at_ms),
        time_deadline: entry.expires_at_ms.map(TimeMs),
        height_deadline: entry.expires_at_height.map(Height),
        priority: entry.priority.into(),
        label: entry.label.clone().map(String::into_bytes),
        fee: entry.fee_nano_erg.parse().expect("a fee of 64 bits"),
        size: entry.size_bytes,
        cost: entry.validation_cost,
        mined: mined_of(entry),
        withdrawn: Withdrawn::No,
        finish: FinishNumber(0),
        holder: Some(Holder {
            inputs: entry.input_ids.iter().map(|id| id_of(id)).collect(),
            ..Holder::default()
        }),
    }
}

fn record_of(whole: &WholeRecord) -> Record {
    assert_eq!(whole.key, whole.entry.tx_id);
    let shown = shown_of(&whole.entry);
    let holder = whole.signed_bytes.as_ref().map(|bytes| Holder {
        inputs: shown.inputs().to_vec(),
        // The store has no outputs: `materialize` gives those named at admission.
        outputs: registry::known(&shown.id)
            .expect("a registered transaction")
            .outputs
            .clone(),
        reads: Vec::new(),
        bytes: bytes.clone(),
    });
    assert!(holder.is_some() || shown.inputs().is_empty());
    Record {
        withdrawn: match whole.withdrawn.map(state_of) {
            None => Withdrawn::No,
            Some(State::Cancelled) => Withdrawn::Cancelled,
            Some(State::Expired) => Withdrawn::Expired,
            Some(other) => panic!("the oracle has a withdrawn mark of {other:?}"),
        },
        finish: FinishNumber(whole.finished_seq),
        holder,
        ..shown
    }
}

// From document 01's values to the oracle's.

fn state_to(state: State) -> PrivateTransactionState {
    match state {
        State::Queued => PrivateTransactionState::Queued,
        State::Mined => PrivateTransactionState::Mined,
        State::Conflicted => PrivateTransactionState::Conflicted,
        State::Cancelled => PrivateTransactionState::Cancelled,
        State::Expired => PrivateTransactionState::Expired,
    }
}

fn reason_to(reason: Reason) -> Option<String> {
    let found = REASONS.iter().find(|(other, _)| *other == reason);
    found.map(|(_, text)| text.to_string())
}

fn whole_record(record: &Record) -> WholeRecord {
    WholeRecord {
        key: hex(&record.id),
        entry: PrivateTransactionEntry {
            tx_id: hex(&record.id),
            state: state_to(record.state),
            reason: reason_to(record.reason),
            created_at_ms: record.created.0,
            expires_at_ms: record.time_deadline.map(|time| time.0),
            expires_at_height: record.height_deadline.map(|height| height.0),
            priority: narrow(record.priority),
            label: record
                .label
                .clone()
                .map(|label| String::from_utf8(label).expect("labels are UTF-8")),
            input_ids: record.inputs().iter().map(hex).collect(),
            fee_nano_erg: record.fee.to_string(),
            size_bytes: record.size,
            validation_cost: record.cost,
            mined_block_id: record.mined.map(|mined| hex(&mined.block)),
            mined_height: record.mined.map(|mined| mined.height.0),
        },
        signed_bytes: record.holder.as_ref().map(|holder| holder.bytes.clone()),
        withdrawn: match record.withdrawn {
            Withdrawn::No => None,
            Withdrawn::Cancelled => Some(PrivateTransactionState::Cancelled),
            Withdrawn::Expired | Withdrawn::RolledBackAfterRelease => {
                Some(PrivateTransactionState::Expired)
            }
        },
        finished_seq: record.finish.0,
    }
}

/// The queue as the oracle has it.
pub fn whole_store(queue: &Queue) -> WholeStore {
    WholeStore {
        version: 1,
        records: queue.records.iter().map(whole_record).collect(),
        revision: queue.revision,
        observed_height: queue.cursor.0,
        observed_tip: queue.tip.as_ref().map(hex),
        finished_seq: queue.counter.0,
        persisted_height: queue.persisted.0,
        // Worked out anew when the store is set.
        next_deadline: (None, None),
    }
}

/// For tests: what the oracle, in a folder of its own, gives back of this admission after the start.
#[cfg(test)]
pub(crate) fn admitted(
    name: &str,
    limits: Limits,
    start: &Start,
    given: Admission,
) -> Result<u64, String> {
    let name = format!("pokerbox-{name}-{}", std::process::id());
    let folder = std::env::temp_dir().join(name);
    fs::create_dir_all(&folder).map_err(|error| error.to_string())?;
    let done = Oracle::new(&folder, limits, start)
        .and_then(|mut oracle| oracle.call(&Call::Admit(given), Write::Kept));
    fs::remove_dir_all(&folder).map_err(|error| error.to_string())?;
    done.map(|done| done.number)
}
