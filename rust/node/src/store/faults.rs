//! Every fault at every call of commits, openings and creations, on a simulated disk, and every
//! loss of what was not synced: what a commit says is what is stored, and what is opened is a state
//! that document 01's machine allows. `POKERBOX_STORE_COMMITS` sets the number of commits.

use std::collections::{BTreeMap, BTreeSet};
use std::path::Path;

use model::random::{self, Rng};
use model::{area, image, rules, Confirmation, Id};

use super::disk::{Disk, Fault};
use super::files::Store;
use super::{StoreError, Warning};
use crate::types::{BlockId, Caller, Height, InputId, Limits, OutputId, Shares, TimeMs, TxId};
use crate::{Admission, Reconciliation};

/// Two folders are made for it.
const PATH: &str = "/card/queue/image";
/// Of each so many commits one is cut short, and opened with every fault.
const COMMITS_AN_OPENING: usize = 5;
/// Of a pair of faults the second is at most so many calls after the first.
const MOST_AFTER: usize = 5;
/// The length of a list of calls.
const STEPS: usize = 20;

/// The first file: an image, or nothing.
type Stored = Option<Vec<u8>>;

fn limits(of: &model::Limits) -> Limits {
    Limits::new(of.pending, of.bytes, of.tombstones, of.inputs)
        .and_then(|limits| limits.shared(Shares::new(of.shares)))
        .expect("limits in range")
}

fn open(disk: &Disk, of: &model::Limits) -> Result<Store<Disk>, StoreError> {
    Store::open(disk.clone(), Path::new(PATH), limits(of))
}

fn create(disk: &Disk, of: &model::Limits) -> Result<Store<Disk>, StoreError> {
    Store::create(disk.clone(), Path::new(PATH), limits(of))
}

fn stands(disk: &Disk) -> Stored {
    disk.text(Path::new(PATH))
}

/// Whether a cut may still undo what the store did last.
fn is_warned(store: &mut Store<Disk>) -> bool {
    let warnings = store.take_warnings();
    warnings
        .iter()
        .any(|warning| matches!(warning, Warning::DirectoryNotSynced(..)))
}

/// A changing call.
#[derive(Debug, Clone)]
enum Call {
    Admit(rules::Admission),
    Cancel(Id),
    Expire(model::TimeMs, model::Height),
    Reconcile(rules::Reconciliation),
    Reopen(Vec<Id>),
    SetCursor(model::Height),
}

impl Call {
    fn random(rng: &mut Rng, queue: &model::Queue) -> Call {
        let limits = &queue.limits;
        match rng.below(10) {
            0..=3 => Call::Admit(admission(rng, limits)),
            4 => Call::Cancel(random::tx_id(rng, limits)),
            5 => Call::Expire(random::time(rng), random::height(rng)),
            6 | 7 => Call::Reconcile(reconciliation(rng, queue)),
            8 => Call::Reopen(queue.records.iter().map(|record| record.id).collect()),
            _ => Call::SetCursor(random::height(rng)),
        }
    }

    /// Kind and next queue by the model; nothing where it refuses.
    fn expected(&self, queue: &model::Queue) -> Option<(rules::Kind, model::Queue)> {
        fn parts<A>(change: rules::Change<A>) -> (rules::Kind, model::Queue) {
            (change.kind, change.next)
        }
        match self {
            Call::Admit(given) => rules::admit(queue, given).ok().map(parts),
            Call::Cancel(id) => rules::cancel(queue, id).ok().map(parts),
            Call::Expire(now, height) => rules::expire(queue, *now, *height).ok().map(parts),
            Call::Reconcile(given) => rules::reconcile(queue, given).ok().map(parts),
            Call::Reopen(ids) => Some(parts(rules::reopen(queue, ids))),
            Call::SetCursor(height) => Some(parts(rules::set_cursor(queue, *height, None))),
        }
    }

    fn make(&self, store: &mut Store<Disk>) -> Result<(), StoreError> {
        match self {
            Call::Admit(given) => store.commit(|queue| queue.admit(&lent(given))).map(drop),
            Call::Cancel(id) => store.commit(|queue| queue.cancel(TxId(*id))).map(drop),
            Call::Expire(now, height) => store
                .commit(|queue| queue.expire(TimeMs(now.0), Height(height.0)))
                .map(drop),
            Call::Reconcile(given) => store
                .commit(|queue| queue.reconcile(&lent_reconciliation(given)))
                .map(drop),
            Call::Reopen(ids) => {
                let ids = ids.iter().map(|id| TxId(*id)).collect();
                store.commit(|queue| queue.reopen(&ids))
            }
            Call::SetCursor(height) => {
                store.commit(|queue| queue.set_cursor(Height(height.0), None))
            }
        }
    }
}

fn admission(rng: &mut Rng, limits: &model::Limits) -> rules::Admission {
    let length = rng.up_to(limits.bytes as usize);
    rules::Admission {
        id: random::tx_id(rng, limits),
        caller: random::caller(rng),
        inputs: random::box_ids(rng, limits),
        outputs: random::box_ids(rng, limits),
        reads: random::box_ids(rng, limits),
        signed: rng.bytes(length),
        now: model::TimeMs(0),
        time_deadline: rng.optional(random::time),
        height_deadline: None,
        priority: match rng.once_in(2) {
            true => random::wide_priority(rng),
            false => random::priority(rng),
        },
        label: rng.optional(random::label),
        fee: 7,
        cost: 9,
        tip_height: random::height(rng),
        tip: rng.optional(random::block_id),
    }
}

fn lent(given: &rules::Admission) -> Admission {
    Admission {
        id: TxId(given.id),
        caller: Caller::new(given.caller.0).expect("a caller"),
        inputs: given.inputs.iter().map(|id| InputId(*id)).collect(),
        outputs: given.outputs.iter().map(|id| OutputId(*id)).collect(),
        reads: given.reads.iter().map(|id| InputId(*id)).collect(),
        signed: given.signed.clone(),
        now: TimeMs(given.now.0),
        time_deadline: given.time_deadline.map(|time| TimeMs(time.0)),
        height_deadline: given.height_deadline.map(|height| Height(height.0)),
        priority: given.priority,
        label: given.label.clone(),
        fee: given.fee,
        cost: given.cost,
        tip_height: Height(given.tip_height.0),
        tip: given.tip.map(BlockId),
    }
}

/// Often 32 blocks on, which makes a cursor write due.
fn reconciliation(rng: &mut Rng, queue: &model::Queue) -> rules::Reconciliation {
    let height = model::Height(queue.persisted.0.saturating_add(rng.pick(&[1, 31, 32])));
    let block = random::block_id(rng);
    let found = |record: &model::Record| (record.id, Confirmation { height, block });
    let applied: BTreeMap<Id, Confirmation> = match rng.below(3) {
        0 => queue.records.first().map(found).into_iter().collect(),
        _ => BTreeMap::new(),
    };
    rules::Reconciliation {
        height,
        tip: block,
        applied,
        caught_up: rng.once_in(3),
        available: BTreeSet::new(),
        window: rng.pick(&[0, 1, 40]),
    }
}

fn lent_reconciliation(given: &rules::Reconciliation) -> Reconciliation {
    let found = |(id, at): (&Id, &Confirmation)| {
        let place = (Height(at.height.0), BlockId(at.block));
        (TxId(*id), place)
    };
    Reconciliation {
        height: Height(given.height.0),
        tip: BlockId(given.tip),
        applied: given.applied.iter().map(found).collect(),
        caught_up: given.caught_up,
        available: given.available.iter().map(|id| InputId(*id)).collect(),
        window: given.window,
    }
}

/// Document 01's plain machine, with P6's set of what a cut may leave.
#[derive(Debug, Clone)]
struct Machine {
    /// Those of the fresh queue.
    limits: model::Limits,
    queue: model::Queue,
    stored: Stored,
    /// What a cut may leave: `stored` alone, save after writes and openings that were warned.
    left: Vec<Stored>,
}

impl Machine {
    fn fresh(limits: model::Limits) -> Machine {
        Machine {
            limits,
            queue: model::Queue::fresh(limits),
            stored: None,
            left: vec![None],
        }
    }

    fn put(&mut self, stored: Stored, warned: bool) {
        if !warned {
            self.left.clear();
        }
        self.left.push(stored.clone());
        self.stored = stored;
    }

    fn keep(&mut self, next: model::Queue, warned: bool) {
        self.put(Some(image::encode(&next)), warned);
        self.queue = next;
    }

    fn fail(&mut self, kind: rules::Kind, next: model::Queue) {
        if kind == rules::Kind::Cursor {
            let persisted = self.queue.persisted;
            self.queue = model::Queue { persisted, ..next };
        }
    }

    fn open(&mut self, found: Stored, warned: bool) {
        self.queue = match &found {
            Some(text) => image::decode(text).expect("an image"),
            None => model::Queue::fresh(self.limits),
        };
        self.put(found, warned);
    }

    /// After a commit that was cut short and left this disk: its write is among those that may be
    /// left once its rename has happened.
    fn cut_short(mut self, disk: &Disk) -> Machine {
        let found = stands(disk);
        if found != self.stored {
            self.put(found, true);
        }
        self
    }

    fn is_queue_of(&self, store: &Store<Disk>) -> bool {
        area::decode(store.queue().area()).as_ref() == Some(&self.queue)
    }

    /// Opens the disk of a process that has ended; what is there is opened, and stays.
    fn opened(&self, disk: &Disk) -> (Store<Disk>, Machine) {
        let mut machine = self.clone();
        let found = stands(disk);
        let mut store = open(disk, &self.limits).expect("it opens");
        let warned = is_warned(&mut store);
        assert!(!warned, "a warning without a fault");
        machine.open(found, warned);
        assert!(machine.is_queue_of(&store), "opened other than stored");
        for cut in disk.cuts() {
            assert!(stands(&cut) == machine.stored, "what was opened is gone");
        }
        (store, machine)
    }

    /// Whatever a cut leaves opens, and is one of `left`.
    fn check_cuts(&self, disk: &Disk) {
        for cut in disk.cuts() {
            assert!(
                self.left.contains(&stands(&cut)),
                "a cut left what it may not"
            );
            self.opened(&cut);
        }
    }
}

/// How often faults were tried, and what was told.
#[derive(Debug, Default)]
struct Tried {
    commits: usize,
    openings: usize,
    faults_of_commits: usize,
    faults_of_openings: usize,
    told: BTreeMap<&'static str, usize>,
}

impl Tried {
    fn count(&mut self, told: &'static str) {
        *self.told.entry(told).or_default() += 1;
    }
}

struct Unit {
    disk: Disk,
    store: Store<Disk>,
    machine: Machine,
}

impl Unit {
    fn create(limits: model::Limits) -> Unit {
        let disk = Disk::new();
        Unit {
            store: create(&disk, &limits).expect("it can be made"),
            disk,
            machine: Machine::fresh(limits),
        }
    }

    /// The same unit, apart.
    fn fork(&self) -> Unit {
        let disk = self.disk.copy_locked();
        Unit {
            store: self.store.over(disk.clone()),
            disk,
            machine: self.machine.clone(),
        }
    }

    /// Makes a call whose write is due, with or without faults, and compares what is told with
    /// what is stored.
    fn commit(&mut self, call: &Call, faults: &[(usize, Fault)]) -> Result<(), StoreError> {
        let (kind, next) = call.expected(&self.machine.queue).expect("not refused");
        let (old, new) = (self.machine.stored.clone(), Some(image::encode(&next)));
        self.disk.set_faults(faults);
        let told = call.make(&mut self.store);
        let stands = stands(&self.disk);
        let warned = is_warned(&mut self.store);
        match &told {
            Ok(()) => {
                assert!(stands == new, "told as kept, and not stored");
                self.machine.keep(next, warned);
            }
            Err(StoreError::WriteFailed(_)) => {
                assert!(stands == old, "told as failed, and stored is another");
                self.machine.fail(kind, next);
            }
            Err(StoreError::OutcomeUnknown(_)) => {
                assert!(stands == old || stands == new, "neither old nor new");
                self.machine.put(stands, true);
            }
            Err(other) => panic!("{other}"),
        }
        assert!(self.machine.is_queue_of(&self.store), "the queue after it");
        told
    }

    /// The calls of this commit, made apart.
    fn calls(&self, call: &Call) -> Vec<&'static str> {
        let mut unit = self.fork();
        unit.commit(call, &[]).expect("no fault");
        unit.machine.check_cuts(&unit.disk);
        unit.disk.calls()
    }

    /// Every fault at every call; and for one of the calls, with each fault after it at one of the
    /// calls that follow.
    fn try_commit(&self, rng: &mut Rng, call: &Call, tried: &mut Tried) {
        tried.commits += 1;
        let calls = self.calls(call);
        for (at, name) in calls.iter().enumerate() {
            for fault in Fault::ALL.into_iter().filter(|fault| fault.fits(name)) {
                self.try_faults(call, &[(at, fault)], tried);
            }
        }
        let at = rng.below(calls.len());
        for first in [Fault::Fail, Fault::FailAfter] {
            for next in at + 1..at + 1 + MOST_AFTER {
                for second in [Fault::Fail, Fault::FailAfter, Fault::Stop, Fault::StopAfter] {
                    self.try_faults(call, &[(at, first), (next, second)], tried);
                }
            }
        }
    }

    fn try_faults(&self, call: &Call, faults: &[(usize, Fault)], tried: &mut Tried) {
        tried.faults_of_commits += 1;
        let case = format!("{faults:?} in the commit of {call:?}");
        let told = said_on_panic(&case, || self.fork().try_commit_with(call, faults));
        tried.count(told);
    }

    /// Gives what was told.
    fn try_commit_with(mut self, call: &Call, faults: &[(usize, Fault)]) -> &'static str {
        let before = self.machine.clone();
        let told = self.commit(call, faults);
        self.machine.check_cuts(&self.disk);
        let word = match &told {
            Ok(()) if self.machine.left.len() > 1 => "kept with a warning",
            Ok(()) => "kept",
            Err(StoreError::WriteFailed(_)) => "failed",
            Err(_) => "unknown",
        };
        if faults.iter().any(|(_, fault)| fault.is_stop()) {
            Unit::killed(before, &self.disk);
        } else {
            self.go_on(call, told);
        }
        word
    }

    /// The unit of a process that was killed in a commit, opened again. `before` is the machine
    /// before the commit.
    fn killed(before: Machine, disk: &Disk) -> Unit {
        let machine = before.cut_short(disk);
        let disk = disk.copy();
        machine.check_cuts(&disk);
        let (store, machine) = machine.opened(&disk);
        Unit {
            disk,
            store,
            machine,
        }
    }

    /// After a fault: a write that failed succeeds when it is made again, and one whose outcome is
    /// not known is taken up by opening.
    fn go_on(mut self, call: &Call, told: Result<(), StoreError>) {
        match told {
            Ok(()) => {}
            Err(StoreError::OutcomeUnknown(_)) => {
                self.disk.set_faults(&[]);
                let again = call.make(&mut self.store);
                assert!(matches!(again, Err(StoreError::OutcomeUnknown(_))));
                self.machine.opened(&self.disk.copy());
            }
            Err(_) if self.is_due(call) => {
                self.commit(call, &[]).expect("no fault");
                self.machine.check_cuts(&self.disk);
            }
            Err(_) => {}
        }
    }

    fn is_due(&self, call: &Call) -> bool {
        let expected = call.expected(&self.machine.queue);
        expected.is_some_and(|(kind, _)| kind >= rules::Kind::Whole)
    }

    /// Goes on with the call, now and then with a fault or a kill.
    fn step(self, rng: &mut Rng, call: &Call) -> Unit {
        let calls = self.calls(call);
        let (at, fault) = (rng.below(calls.len()), rng.pick(&Fault::ALL));
        let mut unit = self;
        if rng.below(3) > 0 || !fault.fits(calls[at]) {
            // Often the directory does not sync.
            let fault = rng.once_in(4).then_some((calls.len() - 1, Fault::Fail));
            unit.commit(call, fault.as_slice()).expect("kept");
            return unit;
        }
        let before = unit.machine.clone();
        let told = unit.commit(call, &[(at, fault)]);
        unit.disk.set_faults(&[]);
        if fault.is_stop() || matches!(told, Err(StoreError::OutcomeUnknown(_))) {
            return Unit::killed(before, &unit.disk);
        }
        unit
    }

    /// A commit that is cut short leaves a disk that is opened with every fault at every call.
    fn try_opening(&self, rng: &mut Rng, call: &Call, tried: &mut Tried) {
        let calls = self.calls(call);
        let mut unit = self.fork();
        let _ = unit.commit(call, &[(rng.below(calls.len()), Fault::StopAfter)]);
        let machine = self.machine.clone().cut_short(&unit.disk);
        tried.openings += 1;
        let dry = unit.disk.copy();
        machine.opened(&dry);
        for (at, name) in dry.calls().into_iter().enumerate() {
            for fault in Fault::ALL.into_iter().filter(|fault| fault.fits(name)) {
                tried.faults_of_openings += 1;
                let case = format!("{fault:?} at call {at}, {name}, of an opening");
                let machine = machine.clone();
                let told = said_on_panic(&case, || machine.try_open(unit.disk.copy(), at, fault));
                tried.count(told);
            }
        }
    }
}

impl Machine {
    /// Opens with a fault. An error takes nothing away, and the next opening succeeds. Gives what
    /// was told.
    fn try_open(mut self, disk: Disk, at: usize, fault: Fault) -> &'static str {
        disk.set_faults(&[(at, fault)]);
        let told = open(&disk, &self.limits);
        disk.set_faults(&[]);
        assert!(stands(&disk) == self.stored, "opening changed the image");
        let word = match told {
            Ok(mut store) => {
                let warned = is_warned(&mut store);
                self.open(self.stored.clone(), warned);
                assert!(self.is_queue_of(&store), "opened other than stored");
                if warned {
                    "opened with a warning"
                } else {
                    "opened"
                }
            }
            Err(StoreError::Unusable(..)) => "not opened",
            Err(other) => panic!("{other}"),
        };
        self.check_cuts(&disk);
        self.opened(&disk.copy());
        word
    }
}

/// Says which case it was when a check fails.
fn said_on_panic<T>(case: &str, run: impl FnOnce() -> T) -> T {
    std::panic::catch_unwind(std::panic::AssertUnwindSafe(run)).unwrap_or_else(|panic| {
        eprintln!("failed with {case}");
        std::panic::resume_unwind(panic)
    })
}

fn wanted_commits() -> usize {
    match std::env::var("POKERBOX_STORE_COMMITS") {
        Ok(text) => text.parse().expect("a number of commits"),
        Err(_) => 500,
    }
}

#[test]
fn every_fault_of_commits_and_openings() {
    let mut tried = Tried::default();
    let mut seed = 0;
    while tried.commits < wanted_commits() {
        let mut rng = Rng::new(seed);
        seed += 1;
        let mut limits = random::small_limits(&mut rng);
        limits.shares = random::shares(&mut rng, &limits);
        let mut unit = Unit::create(limits);
        for _ in 0..STEPS {
            let call = Call::random(&mut rng, &unit.machine.queue);
            if !unit.is_due(&call) {
                let _ = call.make(&mut unit.store);
                if let Some((_, next)) = call.expected(&unit.machine.queue) {
                    unit.machine.queue = next;
                }
                assert!(unit.machine.is_queue_of(&unit.store), "{call:?}");
                continue;
            }
            unit.try_commit(&mut rng, &call, &mut tried);
            if tried.commits % COMMITS_AN_OPENING == 0 {
                unit.try_opening(&mut rng, &call, &mut tried);
            }
            unit = unit.step(&mut rng, &call);
        }
    }
    println!("{tried:#?}");
    assert!(tried.openings >= tried.commits / COMMITS_AN_OPENING);
    // Each of these was told, so that each was compared with what is stored.
    let told: Vec<&str> = tried.told.into_keys().collect();
    let all = [
        "failed",
        "kept",
        "kept with a warning",
        "not opened",
        "opened",
        "opened with a warning",
        "unknown",
    ];
    assert_eq!(told, all);
}

/// A unit in which nothing is stored, and a call whose write is due.
fn unit_and_call() -> (Unit, Call) {
    let limits = model::Limits::checked(2, 10, 1, 1).expect("limits in range");
    let mut given = admission(&mut Rng::new(1), &limits);
    given.time_deadline = None;
    given.caller = model::Caller(0);
    (Unit::create(limits), Call::Admit(given))
}

/// The number of the call with this name in a commit.
fn nth(unit: &Unit, call: &Call, name: &str) -> usize {
    let calls = unit.calls(call);
    calls.iter().position(|other| *other == name).expect(name)
}

#[test]
fn a_commit_syncs_the_file_and_the_directory() {
    let (unit, call) = unit_and_call();
    let calls = unit.calls(&call);
    let changes = |name: &&str| !name.starts_with("status");
    let changing: Vec<&str> = calls.into_iter().filter(changes).collect();
    let expected = ["open", "write", "sync", "rename", "sync_directory"];
    assert_eq!(changing, expected);
}

/// A process killed between the rename and the sync of the directory; what the next one opens, a
/// power cut does not take back.
#[test]
fn what_was_opened_is_durable() {
    let (mut unit, call) = unit_and_call();
    let rename = nth(&unit, &call, "rename");
    let _ = unit.commit(&call, &[(rename, Fault::StopAfter)]);
    let disk = unit.disk.copy();
    let old_is_left = |disk: &Disk| disk.cuts().iter().any(|cut| stands(cut).is_none());
    assert!(old_is_left(&disk), "before opening");
    let store = open(&disk, &unit.machine.limits).expect("it opens");
    assert_eq!(store.queue().is_empty(), Ok(false));
    assert!(!old_is_left(&disk), "after opening");
}

/// An image that was brought back from elsewhere and is not synced yet.
#[test]
fn an_image_that_was_copied_there_is_durable_once_opened() {
    let (unit, call) = unit_and_call();
    let (_, next) = call.expected(&unit.machine.queue).expect("not refused");
    let disk = unit.disk.copy();
    disk.copy_to(Path::new(PATH), &image::encode(&next));
    let is_lost = |disk: &Disk| disk.cuts().iter().any(|cut| stands(cut) != stands(&disk));
    assert!(is_lost(&disk), "before opening");
    unit.machine.opened(&disk);
    assert!(!is_lost(&disk), "after opening");
}

#[test]
fn a_directory_that_does_not_sync_is_a_warning() {
    let (mut unit, call) = unit_and_call();
    let sync = nth(&unit, &call, "sync_directory");
    unit.disk.set_faults(&[(sync, Fault::Fail)]);
    call.make(&mut unit.store).expect("kept");
    assert!(is_warned(&mut unit.store));
    assert!(unit.store.take_warnings().is_empty(), "told once");
    // So it is at an opening, whose last call is that sync.
    let (disk, dry) = (unit.disk.copy(), unit.disk.copy());
    open(&dry, &unit.machine.limits).expect("no fault");
    disk.set_faults(&[(dry.calls().len() - 1, Fault::Fail)]);
    let mut opened = open(&disk, &unit.machine.limits).expect("it opens");
    assert!(is_warned(&mut opened));
}

#[test]
fn a_rename_that_happened_and_reports_an_error_is_kept() {
    let (mut unit, call) = unit_and_call();
    let rename = nth(&unit, &call, "rename");
    unit.disk.set_faults(&[(rename, Fault::FailAfter)]);
    call.make(&mut unit.store).expect("kept");
    let warnings = unit.store.take_warnings();
    assert!(matches!(warnings[..], [Warning::RenameReported(_)]));
    assert!(stands(&unit.disk).is_some());
}

#[test]
fn a_store_whose_write_may_have_happened_takes_no_more() {
    for fault in [Fault::Stop, Fault::StopAfter] {
        let (mut unit, call) = unit_and_call();
        let rename = nth(&unit, &call, "rename");
        let told = unit.commit(&call, &[(rename, fault)]);
        assert!(matches!(told, Err(StoreError::OutcomeUnknown(_))));
        assert_eq!(told.unwrap_err().refusal(), None);
        unit.disk.set_faults(&[]);
        for call in [call, Call::SetCursor(model::Height(3))] {
            let again = call.make(&mut unit.store);
            assert!(matches!(again, Err(StoreError::OutcomeUnknown(_))));
        }
        open(&unit.disk.copy(), &unit.machine.limits).expect("it opens again");
    }
}

/// A full card is opened all the same.
#[test]
fn a_full_disk_can_be_opened() {
    let unit = unit_and_call().0;
    let dry = unit.disk.copy();
    open(&dry, &unit.machine.limits).expect("no fault");
    let last = dry.calls().iter().rposition(|name| *name == "open");
    let disk = unit.disk.copy();
    disk.set_faults(&[(last.expect("the second file"), Fault::Full)]);
    open(&disk, &unit.machine.limits).expect("it opens");
}

#[test]
fn a_file_system_without_locks_is_a_warning() {
    let limits = unit_and_call().0.machine.limits;
    let dry = Disk::new();
    create(&dry, &limits).expect("no fault");
    let lock = dry.calls().iter().position(|name| *name == "try_lock");
    let disk = Disk::new();
    disk.set_faults(&[(lock.expect("a lock"), Fault::Fail)]);
    let mut store = create(&disk, &limits).expect("it can be made");
    let warnings = store.take_warnings();
    assert!(matches!(warnings[..], [Warning::NotLocked(..)]));
}

/// Whatever becomes of a creation: where it was told to have succeeded, the store stands after
/// every cut; otherwise one stands or none does, and nothing is stored.
#[test]
fn every_fault_of_a_creation() {
    let limits = random::small_limits(&mut Rng::new(1));
    let dry = Disk::new();
    create(&dry, &limits).expect("no fault");
    for (at, name) in dry.calls().into_iter().enumerate() {
        for fault in Fault::ALL.into_iter().filter(|fault| fault.fits(name)) {
            let case = format!("{fault:?} at call {at}, {name}, of a creation");
            said_on_panic(&case, || try_create(&limits, at, fault));
        }
    }
}

fn try_create(limits: &model::Limits, at: usize, fault: Fault) {
    let disk = Disk::new();
    disk.set_faults(&[(at, fault)]);
    let told = create(&disk, limits);
    let warned = told
        .map(|mut store| !store.take_warnings().is_empty())
        .map_err(drop);
    disk.set_faults(&[]);
    for cut in disk.cuts() {
        let left = open(&cut, limits);
        match (&left, warned) {
            (Ok(_), _) => assert_eq!(stands(&cut), None),
            (Err(StoreError::NoStore(_)), Ok(true) | Err(())) => {}
            _ => panic!("{:?}", left.err()),
        }
    }
    if warned == Ok(true) {
        return;
    }
    // The process may as well have ended there: the next one makes what is missing, for good.
    let disk = disk.copy();
    let next = match open(&disk, limits) {
        Err(StoreError::NoStore(_)) => create(&disk, limits),
        opened => opened,
    };
    next.expect("no fault");
    for cut in disk.cuts() {
        Machine::fresh(*limits).opened(&cut);
    }
}
