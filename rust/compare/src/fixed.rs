//! The fixed list of `crates/replay`: steps, and the oracle's answers to them. `crates/replay/README.md` has the form of
//! both and says which answers are not the oracle's.

use std::collections::{BTreeMap, BTreeSet};
use std::fmt::Write as _;
use std::path::Path;

use model::calls::{AdmitArgs, ReconcileArgs};
use model::random::{self, Rng};
use model::rules::{reserved_inputs, Admission, Reconciliation};
use model::{
    area, calls, image, Caller, Confirmation, HeaderKind, Height, Id, Limits, Queue, Record, State,
    TimeMs, Withdrawn,
};

use crate::generate;
use crate::list::{Call, Event, Start, Write};
use crate::oracle::{hex_bytes, Oracle};
use crate::run::{model_number, put_digits};
use crate::side::Reading;
use crate::unit::{admit_args, applied_bytes, optional_id, reconcile_args, UNTOUCHED};

/// The Rattle program's folder, from this package's.
pub const REPLAY: &str = "../../crates/replay";

const LISTS: u64 = 36;
const EVENTS: usize = 7;
/// What the program has of each area, and of an image.
const AREA: usize = 8_192;
const IMAGE: usize = 16_384;

/// The numbers that each step has to meet.
const TO_MEET: [(char, &[u64]); 29] = [
    ('f', &[1, 2, 5, 100]),
    ('o', &[2, 16, 100]),
    ('v', &[3, 100]),
    ('w', &[3, 4, 100]),
    ('q', &[3, 100]),
    ('s', &[2, 3, 5, 17, 100]),
    ('c', &[2, 3, 4, 5, 13, 14, 15, 100, 102]),
    ('d', &[2, 3, 4, 5, 6, 7, 8, 9, 10, 11, 12, 18, 20, 100, 102]),
    ('e', &[2, 3, 4, 15, 100, 102]),
    ('n', &[2, 3, 4, 5, 15, 101, 102, 103]),
    ('r', &[2, 3, 5, 100, 102]),
    ('u', &[2, 3, 5, 101]),
    ('B', &[3, 5, 13, 100]),
    ('C', &[3, 4, 100]),
    ('D', &[3, 100]),
    ('E', &[3, 100]),
    ('F', &[3, 4, 100]),
    ('G', &[3, 4, 100]),
    ('H', &[3, 100]),
    ('I', &[3, 4, 100]),
    ('L', &[3, 4, 100]),
    ('N', &[3, 4, 5, 13, 100]),
    ('R', &[3, 100]),
    ('S', &[3, 4, 100]),
    ('T', &[3, 4, 100]),
    ('U', &[3, 4, 100]),
    ('X', &[3, 4, 100]),
    ('Y', &[3, 4, 100]),
    ('Z', &[3, 4, 100]),
];

/// The list and the answers.
#[derive(Debug, Default)]
pub struct Fixed {
    pub steps: String,
    pub answers: String,
    met: BTreeMap<(char, u64), u64>,
    writes: BTreeSet<(char, u64, Write)>,
    /// How often a queue was shown of which a reason is not the oracle's.
    left_out: u64,
}

/// Makes both; the oracle has its files in `folder`.
pub fn make(folder: &Path) -> Result<Fixed, String> {
    let mut fixed = Fixed::default();
    for seed in 0..LISTS {
        let mut rng = Rng::new(seed);
        List::new(&mut fixed, folder, &mut rng)?.run(&mut rng)?;
    }
    rolled_back_twice(&mut fixed, folder)?;
    refusals(&mut fixed);
    fixed.check()?;
    Ok(fixed)
}

impl Fixed {
    fn both(&mut self, line: &str) {
        for text in [&mut self.steps, &mut self.answers] {
            writeln!(text, "# {line}").expect("a String");
        }
    }

    /// A step that answers nothing.
    fn step(&mut self, letter: char, arguments: &[u8]) {
        let digits = hex_bytes(arguments);
        let line = format!("{letter} {digits}");
        writeln!(self.steps, "{}", line.trim_end()).expect("a String");
    }

    /// A step that answers a number and, after a blank, `more`.
    fn call(&mut self, letter: char, arguments: &[u8], number: u64, more: &str) {
        self.step(letter, arguments);
        *self.met.entry((letter, number)).or_default() += 1;
        writeln!(self.answers, "{letter} {number}{more}").expect("a String");
    }

    /// A step with an output, which is all written.
    fn output(&mut self, letter: char, arguments: &[u8], number: u64, out: &[u8]) {
        let arguments = [&(out.len() as u16).to_be_bytes(), arguments].concat();
        self.call(letter, &arguments, number, &format!(" {}", hex_bytes(out)));
    }

    /// A step that answers an image.
    fn image(&mut self, letter: char, text: &[u8]) {
        self.call(letter, &[], 100, "");
        self.answers.push_str(as_text(text));
    }

    /// An area, given by the list.
    fn area(&mut self, letter: char, area: &[u8]) {
        let used = area.iter().rposition(|byte| *byte != 0);
        self.step(letter, &area[..used.map_or(0, |at| at + 1)]);
    }

    /// A stored image, given by the list.
    fn stored(&mut self, text: &[u8]) {
        self.step('m', &[]);
        self.steps.push_str(as_text(text));
    }

    fn persisted(&mut self, queue: &Queue) {
        self.step('p', &[]);
        writeln!(self.answers, "p {:08x}", queue.persisted.0).expect("a String");
    }

    fn check(&self) -> Result<(), String> {
        for (letter, numbers) in TO_MEET {
            for number in numbers {
                if !self.met.contains_key(&(letter, *number)) {
                    return Err(format!("step {letter} never gave {number}"));
                }
            }
        }
        // Reconciliation is the only call with both kinds.
        for (letter, kind) in [('d', 2), ('n', 2), ('n', 3)] {
            for write in Write::ALL {
                if !self.writes.contains(&(letter, kind, write)) {
                    let name = write.name();
                    return Err(format!("no write of kind {kind} by {letter} was {name}"));
                }
            }
        }
        match self.left_out {
            0 => Err("no record has had mark 3".into()),
            _ => Ok(()),
        }
    }

    /// How often each step gave each number.
    pub fn counts(&self) -> String {
        let mut text = String::new();
        let mut last = ' ';
        for ((letter, number), count) in &self.met {
            let break_at = if last == *letter { ", " } else { "\n" };
            write!(text, "{break_at}{letter} {number}: {count}").expect("a String");
            last = *letter;
        }
        text.trim_start().to_string()
    }
}

fn as_text(image: &[u8]) -> &str {
    std::str::from_utf8(image).expect("an image is a text")
}

fn head(limits: &Limits) -> String {
    let [p, b, t, k] = limits.numbers();
    format!("P {p}, B {b}, T {t}, K {k}")
}

// ---- lists, by the oracle

/// One list: a queue in areas and a stored image, as a node has them.
struct List<'a> {
    fixed: &'a mut Fixed,
    limits: Limits,
    oracle: Oracle,
    /// Where a second oracle makes each call with its write kept.
    trial: std::path::PathBuf,
    /// Whether an image is stored.
    stored: bool,
}

/// What a call gives before its write.
struct Given {
    /// A refusal, or 100 and the kind.
    number: u64,
    answer: Vec<u8>,
    next: Queue,
}

impl<'a> List<'a> {
    fn new(fixed: &'a mut Fixed, folder: &Path, rng: &mut Rng) -> Result<Self, String> {
        // Of these the texts are short.
        let (pending, bytes) = (1 + rng.below(2) as u64, rng.pick(&[1, 2, 5, 10]));
        let (tombstones, inputs) = (1 + rng.below(2) as u64, 1 + rng.below(2) as u64);
        let limits = Limits::checked(pending, bytes, tombstones, inputs);
        let limits = limits.expect("limits in range");
        let start = if rng.once_in(4) {
            Start::Fresh
        } else {
            generate::any_queue(rng, limits)
        };
        List::start(fixed, folder, limits, start)
    }

    fn start(
        fixed: &'a mut Fixed,
        folder: &Path,
        limits: Limits,
        start: Start,
    ) -> Result<Self, String> {
        let (own, trial) = (folder.join("own"), folder.join("trial"));
        for folder in [&own, &trial] {
            std::fs::create_dir_all(folder).map_err(|error| error.to_string())?;
        }
        let mut list = List {
            fixed,
            limits,
            oracle: Oracle::new(&own, limits, &start)?,
            trial,
            stored: start != Start::Fresh,
        };
        list.begin(&start);
        Ok(list)
    }

    fn begin(&mut self, start: &Start) {
        self.fixed.both(&format!("a list: {}", head(&self.limits)));
        match start {
            Start::Queue(_, kind) => {
                let queue = self.oracle.queue();
                self.fixed.area('a', &area::encode(&queue));
                self.fixed.stored(&image::encode_as(*kind, &queue));
                self.fixed.call('v', &[], 100, "");
            }
            Start::Fresh => {
                self.fixed.step('m', &[]);
                self.restart();
            }
        }
    }

    fn run(&mut self, rng: &mut Rng) -> Result<(), String> {
        self.readings(rng);
        for _ in 0..EVENTS {
            match self.event(rng) {
                Event::Cut => {
                    self.fixed.both("power cut");
                    self.oracle.restart()?;
                    self.restart();
                }
                // Writes fail and are cut more often than in other lists.
                Event::Call(call, Write::Kept) if rng.once_in(2) => {
                    let write = rng.pick(&Write::ALL);
                    self.call(rng, &call, write)?
                }
                Event::Call(call, write) => self.call(rng, &call, write)?,
            }
            self.readings(rng);
        }
        Ok(())
    }

    /// Reopened records, reserved inputs and cursor writes are met more often than in other lists.
    fn event(&self, rng: &mut Rng) -> Event {
        let queue = self.oracle.queue();
        let mut event = generate::event(rng, &queue);
        if let Event::Call(call, _) = &mut event {
            match &mut **call {
                Call::Reopen(ids) if rng.once_in(2) => {
                    let mined = queue.records.iter().filter(|record| record.mined.is_some());
                    *ids = mined.map(|record| record.id).collect();
                }
                // An input of another record, and nothing else to refuse.
                Call::Admit(given) if rng.once_in(4) => {
                    given.inputs = reserved_inputs(&queue).into_iter().take(1).collect();
                    given.signed.clear();
                    given.label = None;
                    (given.time_deadline, given.height_deadline) = (None, None);
                }
                // No record changes, and a cursor write is due.
                Call::Reconcile(given) if rng.once_in(3) => {
                    given.applied.clear();
                    given.caught_up = false;
                    given.window = u32::MAX;
                    given.height = Height(queue.persisted.0.saturating_add(32));
                }
                _ => {}
            }
        }
        event
    }

    /// Opening what is stored, or a fresh queue: what the oracle then has.
    fn restart(&mut self) {
        if self.stored {
            self.fixed.call('o', &[], 100, "");
        } else {
            let arguments = fresh_bytes(self.limits.numbers(), &self.limits.share_bytes());
            self.fixed.call('f', &arguments, 100, "");
        }
        self.show();
    }

    /// The queue in the current area.
    fn show(&mut self) {
        self.fixed.left_out += u64::from(self.oracle.left_out() > 0);
        let queue = self.oracle.queue();
        self.fixed.persisted(&queue);
        self.fixed.image('q', &image::encode(&queue));
    }

    fn call(&mut self, rng: &mut Rng, call: &Call, write: Write) -> Result<(), String> {
        let before = self.oracle.queue();
        // 15 is not the oracle's.
        if model_number(call, &before) == 15 {
            return Ok(());
        }
        let given = self.given(call, &before)?;
        let due = matches!(given.number, 102 | 103);
        let how = if due { write.name() } else { "not due" };
        self.fixed.both(&format!("{}, write {how}", call.name()));
        self.answered(rng, call, &given);
        let done = self.oracle.call(call, write)?;
        match given.number {
            101 => {
                self.fixed.step('k', &[]);
                self.show();
            }
            102 | 103 => {
                self.same(done.wrote, true, "a write was due")?;
                self.fixed
                    .writes
                    .insert((letter(call), given.number - 100, write));
                self.write(rng, given.number - 100, write, &given.next)?;
            }
            number => {
                self.same(done.number, number, "the number given back")?;
                self.same(self.oracle.queue(), before, "the queue")?;
            }
        }
        Ok(())
    }

    /// The same call on the same queue by a second oracle, whose write is kept.
    fn given(&self, call: &Call, before: &Queue) -> Result<Given, String> {
        let start = Start::Queue(Box::new(before.clone()), HeaderKind::NEWEST);
        let mut trial = Oracle::new(&self.trial, self.limits, &start)?;
        let done = trial.call(call, Write::Kept)?;
        let next = trial.queue();
        let kind = match (done.wrote, call) {
            (true, _) if next.revision != before.revision => 2,
            (true, _) => 3,
            (false, Call::SetCursor(..) | Call::Reconcile(_)) => 1,
            (false, _) => 0,
        };
        Ok(Given {
            number: if done.number == 100 {
                100 + kind
            } else {
                done.number
            },
            answer: done.answer,
            next,
        })
    }

    fn answered(&mut self, rng: &mut Rng, call: &Call, given: &Given) {
        let out = longer(rng, &given.answer);
        let out = if given.number < 100 {
            vec![UNTOUCHED; 2]
        } else {
            out
        };
        self.fixed
            .output(letter(call), &arguments(call), given.number, &out);
    }

    /// The image of the next area, the write, settling.
    fn write(
        &mut self,
        rng: &mut Rng,
        kind: u64,
        write: Write,
        next: &Queue,
    ) -> Result<(), String> {
        self.fixed.image('w', &image::encode(next));
        if matches!(write, Write::Kept | Write::CutAfterRename) {
            self.fixed.step('t', &[]);
            self.stored = true;
        }
        let after = self.oracle.queue();
        match write {
            Write::Kept => {
                self.same(&after, next, "the queue")?;
                self.settle(kind, 0, 100);
                self.fixed.persisted(&after);
                if rng.once_in(4) {
                    self.show();
                }
            }
            Write::NotCreated | Write::NotRenamed => {
                self.settle(kind, 1, 17);
                self.show();
            }
            Write::CutBeforeRename | Write::CutAfterRename => self.restart(),
        }
        Ok(())
    }

    /// Settling, after which the next area is the current one.
    fn settle(&mut self, kind: u64, outcome: u8, number: u64) {
        self.fixed.call('s', &[kind as u8, outcome], number, "");
        self.fixed.step('k', &[]);
    }

    fn same<T: PartialEq>(&self, one: T, other: T, what: &str) -> Result<(), String> {
        if one == other {
            return Ok(());
        }
        Err(format!("two oracles part: {what}"))
    }

    /// Some reading calls.
    fn readings(&mut self, rng: &mut Rng) {
        let (now, height) = (random::time(rng).0, random::height(rng).0);
        for reading in Reading::all(now, height) {
            if rng.once_in(8) {
                self.reading(rng, reading_letter(reading), reading);
            }
        }
        if rng.once_in(3) {
            let queue = self.oracle.queue();
            let id = generate::record_id(rng, &queue);
            self.entry(rng, &id, queue.record(&id));
        }
    }

    fn reading(&mut self, rng: &mut Rng, letter: char, reading: Reading) {
        let answer = self.oracle.read(reading);
        let arguments = match reading {
            Reading::DeadlineDue(now, height)
            | Reading::SelectionEntriesAt(now, height)
            | Reading::Due(now, height) => moment(now, height),
            _ => Vec::new(),
        };
        match reading {
            Reading::Revision
            | Reading::IsEmpty
            | Reading::DeadlineDue(..)
            | Reading::ObservedHeight => {
                let value = u64::from_be_bytes(answer.try_into().expect("a number"));
                self.fixed
                    .call(letter, &arguments, 100, &format!(" {value}"));
            }
            _ => {
                let out = longer(rng, &answer);
                self.fixed.output(letter, &arguments, 100, &out);
            }
        }
    }

    fn entry(&mut self, rng: &mut Rng, id: &Id, record: Option<&Record>) {
        match self.oracle.entry(id) {
            Ok(answer) => {
                let out = longer(rng, &answer);
                self.fixed.output('N', id, 100, &out);
            }
            Err(number) => self.fixed.output('N', id, number, &[UNTOUCHED]),
        }
        let holder = record.and_then(|record| record.holder.as_ref());
        match holder {
            Some(holder) => {
                let more = format!(" {}", hex_bytes(&holder.bytes));
                self.fixed.call('B', id, 100, &more);
            }
            None => self.fixed.call('B', id, 13, " "),
        }
    }
}

/// Document 02, P4: released, rolled back, confirmed, rolled back. From there on the oracle's reason is
/// another.
fn rolled_back_twice(fixed: &mut Fixed, folder: &Path) -> Result<(), String> {
    let limits = Limits::checked(2, 10, 1, 1).expect("limits in range");
    let mut list = List::start(fixed, folder, limits, Start::Fresh)?;
    let mut rng = Rng::new(0);
    let id = random::nth_id(0);
    let reopen = || Call::Reopen(BTreeSet::from([id]));
    for (call, write) in [
        (Call::Admit(plain(id)), Write::Kept),
        (found(id, 7, 0), Write::Kept),
        (reopen(), Write::Kept),
        (Call::Cancel(id), Write::Kept),
        (found(id, 8, 9), Write::NotRenamed),
        (found(id, 8, 9), Write::CutAfterRename),
        (found(id, 9, 9), Write::Kept),
        (Call::Cancel(id), Write::Kept),
        (reopen(), Write::CutBeforeRename),
        (reopen(), Write::Kept),
        (Call::Cancel(id), Write::Kept),
        (found(id, 10, 9), Write::Kept),
        (reopen(), Write::CutAfterRename),
        (Call::Admit(plain(id)), Write::Kept),
    ] {
        list.call(&mut rng, &call, write)?;
        list.show();
        list.reading(&mut rng, 'L', Reading::List);
        let queue = list.oracle.queue();
        list.entry(&mut rng, &id, queue.record(&id));
    }
    Ok(())
}

/// An admission with nothing beside the id, at height 5.
fn plain(id: Id) -> Admission {
    Admission {
        tip_height: Height(5),
        ..Admission::plain(id)
    }
}

/// The record is in a block at this height.
fn found(id: Id, height: u32, window: u32) -> Call {
    let block = random::nth_id(height as usize);
    let found = Confirmation {
        height: Height(height),
        block,
    };
    Call::Reconcile(Reconciliation {
        height: Height(height),
        tip: block,
        applied: BTreeMap::from([(id, found)]),
        caught_up: true,
        available: BTreeSet::new(),
        window,
    })
}

/// The answer in an output that is as long, or a little longer.
fn longer(rng: &mut Rng, answer: &[u8]) -> Vec<u8> {
    let mut out = answer.to_vec();
    out.resize(answer.len() + rng.pick(&[0, 0, 3]), UNTOUCHED);
    out
}

/// The letter of a changing call.
fn letter(call: &Call) -> char {
    match call {
        Call::Admit(_) => 'd',
        Call::Cancel(_) => 'c',
        Call::Expire(..) => 'e',
        Call::Reconcile(_) => 'n',
        Call::Reopen(_) => 'r',
        Call::SetCursor(..) => 'u',
    }
}

/// P, B, T and K, then the shares.
fn fresh_bytes(limits: [u64; 4], shares: &[u8]) -> Vec<u8> {
    [&limits.map(u64::to_be_bytes).concat(), shares].concat()
}

fn arguments(call: &Call) -> Vec<u8> {
    match call {
        Call::Admit(given) => admission(given),
        Call::Reconcile(given) => reconciliation(given),
        Call::Cancel(id) => id.to_vec(),
        Call::Expire(now, height) => moment(now.0, height.0),
        Call::Reopen(ids) => ids.iter().flatten().copied().collect(),
        Call::SetCursor(height, tip) => {
            let flag = u8::from(tip.is_some());
            [&height.0.to_be_bytes(), &[flag][..], optional_id(tip)].concat()
        }
    }
}

fn admission(given: &Admission) -> Vec<u8> {
    let lists = [&given.inputs, &given.outputs, &given.reads].map(|ids| ids.concat());
    admission_bytes(&admit_args(given, &lists))
}

/// What has one length, then the lengths of the rest, then the rest.
fn admission_bytes(args: &AdmitArgs<'_>) -> Vec<u8> {
    let mut bytes = args.now.to_be_bytes().to_vec();
    bytes.push(args.time_flag);
    bytes.extend(args.time.to_be_bytes());
    bytes.push(args.height_flag);
    bytes.extend(args.height.to_be_bytes());
    bytes.extend(args.priority.to_be_bytes());
    bytes.push(args.label_flag);
    bytes.extend(args.fee.to_be_bytes());
    bytes.extend(args.cost.to_be_bytes());
    bytes.extend(args.tip_height.to_be_bytes());
    bytes.push(args.tip_flag);
    bytes.push(args.caller);
    let AdmitArgs {
        id,
        inputs,
        outputs,
        reads,
        signed,
        label,
        tip,
        ..
    } = *args;
    let lists = [id, inputs, outputs, reads, signed, label, tip];
    put_lists(&mut bytes, &lists);
    bytes
}

fn reconciliation(given: &Reconciliation) -> Vec<u8> {
    let applied = applied_bytes(given);
    let available: Vec<u8> = given.available.iter().flatten().copied().collect();
    reconciliation_bytes(&reconcile_args(given, &applied, &available))
}

/// As an admission's.
fn reconciliation_bytes(args: &ReconcileArgs<'_>) -> Vec<u8> {
    let mut bytes = args.height.to_be_bytes().to_vec();
    bytes.push(args.caught_up);
    bytes.extend(args.window.to_be_bytes());
    put_lists(&mut bytes, &[args.tip, args.applied, args.available]);
    bytes
}

/// The length of each, 2 bytes, then their bytes.
fn put_lists(bytes: &mut Vec<u8>, lists: &[&[u8]]) {
    bytes.extend(
        lists
            .iter()
            .flat_map(|list| (list.len() as u16).to_be_bytes()),
    );
    bytes.extend(lists.concat());
}

fn moment(now: u64, height: u32) -> Vec<u8> {
    [&now.to_be_bytes()[..], &height.to_be_bytes()].concat()
}

fn reading_letter(reading: Reading) -> char {
    match reading {
        Reading::Revision => 'R',
        Reading::IsEmpty => 'E',
        Reading::DeadlineDue(..) => 'D',
        Reading::ObservedHeight => 'H',
        Reading::ObservationCursor => 'C',
        Reading::RecordIds => 'I',
        Reading::GuardedIds => 'G',
        Reading::ReservedInputs => 'X',
        Reading::ReservationSnapshot => 'Y',
        Reading::GuardSnapshot => 'Z',
        Reading::List => 'L',
        Reading::SelectionEntries => 'S',
        Reading::SelectionEntriesAt(..) => 'T',
        Reading::Due(..) => 'U',
        Reading::Confirmations => 'F',
    }
}

// ---- refusals that the oracle has not, by the model

const READINGS: [char; 12] = ['C', 'F', 'G', 'I', 'L', 'N', 'S', 'T', 'U', 'X', 'Y', 'Z'];
const VALUES: [char; 4] = ['D', 'E', 'H', 'R'];

/// What the program has: two areas, an image, and how much of each it lends.
struct Lent<'a> {
    fixed: &'a mut Fixed,
    cur: Vec<u8>,
    next: Vec<u8>,
    lengths: [usize; 3],
}

impl Lent<'_> {
    fn lend(&mut self, cur: usize, next: usize, image: usize) {
        self.lengths = [cur, next, image];
        let arguments = self
            .lengths
            .map(|length| (length as u32).to_be_bytes())
            .concat();
        self.fixed.step('l', &arguments);
    }

    fn lend_all(&mut self) {
        self.lend(AREA, AREA, IMAGE);
    }

    fn put(&mut self, letter: char, area: &[u8]) {
        let lent = if letter == 'a' {
            &mut self.cur
        } else {
            &mut self.next
        };
        lent.fill(0);
        lent[..area.len()].copy_from_slice(area);
        self.fixed.area(letter, area);
    }

    fn change(&mut self, letter: char, length: usize, a: &[u8]) -> u64 {
        let [cur, next, _] = self.lengths;
        let (cur, next) = (&self.cur[..cur], &mut self.next[..next]);
        next.fill(UNTOUCHED);
        let mut out = vec![UNTOUCHED; length];
        let number = match letter {
            'c' => calls::cancel(cur, next, a, &mut out),
            'e' => calls::expire(cur, next, number_64(a), number_32(&a[8..]), &mut out),
            'r' => calls::reopen(cur, next, a),
            _ => calls::set_cursor(cur, next, number_32(a), a[4], &a[5..]),
        };
        self.fixed.output(letter, a, number, &out);
        number
    }

    fn admit(&mut self, length: usize, args: &AdmitArgs<'_>) -> u64 {
        let [cur, next, _] = self.lengths;
        let (cur, next) = (&self.cur[..cur], &mut self.next[..next]);
        next.fill(UNTOUCHED);
        let mut out = vec![UNTOUCHED; length];
        let number = calls::admit(cur, next, args, &mut out);
        self.fixed.output('d', &admission_bytes(args), number, &out);
        number
    }

    fn reconcile(&mut self, length: usize, args: &ReconcileArgs<'_>) -> u64 {
        let [cur, next, _] = self.lengths;
        let (cur, next) = (&self.cur[..cur], &mut self.next[..next]);
        next.fill(UNTOUCHED);
        let mut out = vec![UNTOUCHED; length];
        let number = calls::reconcile(cur, next, args, &mut out);
        self.fixed
            .output('n', &reconciliation_bytes(args), number, &out);
        number
    }

    fn read(&mut self, letter: char, length: usize, a: &[u8]) -> u64 {
        let cur = &self.cur[..self.lengths[0]];
        let mut out = vec![UNTOUCHED; length];
        let o = &mut out[..];
        let number = match letter {
            'C' => calls::observation_cursor(cur, o),
            'F' => calls::confirmations(cur, o),
            'G' => calls::guarded_ids(cur, o),
            'I' => calls::record_ids(cur, o),
            'L' => calls::list(cur, o),
            'N' => calls::entry(cur, a, o),
            'S' => calls::selection_entries(cur, o),
            'T' => calls::selection_entries_at(cur, number_64(a), number_32(&a[8..]), o),
            'X' => calls::reserved_inputs(cur, o),
            'Y' => calls::reservation_snapshot(cur, o),
            'Z' => calls::guard_snapshot(cur, o),
            _ => calls::due(cur, number_64(a), number_32(&a[8..]), o),
        };
        self.fixed.output(letter, a, number, &out);
        number
    }

    fn value(&mut self, letter: char, a: &[u8]) {
        let cur = &self.cur[..self.lengths[0]];
        let mut value = 0;
        let number = match letter {
            'D' => calls::deadline_due(cur, number_64(a), number_32(&a[8..]), &mut value),
            'E' => calls::is_empty(cur, &mut value),
            'H' => calls::observed_height(cur, &mut value),
            _ => calls::revision(cur, &mut value),
        };
        self.fixed.call(letter, a, number, &format!(" {value}"));
    }

    fn signed(&mut self, id: &[u8]) {
        let cur = &self.cur[..self.lengths[0]];
        let (mut start, mut length) = (0, 0);
        let number = calls::signed_bytes(cur, id, &mut start, &mut length);
        let bytes = &cur[start as usize..(start + length) as usize];
        let more = format!(" {}", hex_bytes(bytes));
        self.fixed.call('B', id, number, &more);
    }

    fn settle(&mut self, kind: u8, outcome: u8) {
        let [cur, next, _] = self.lengths;
        let (cur, next) = (&self.cur[..cur], &mut self.next[..next]);
        let number = calls::settle(cur, next, kind.into(), outcome.into());
        self.fixed.call('s', &[kind, outcome], number, "");
    }

    /// The image of the next area, or of the current one.
    fn image(&mut self, letter: char) {
        let [cur, next, room] = self.lengths;
        let (area, room) = match letter {
            'w' => (&self.next[..next], room),
            _ => (&self.cur[..cur], IMAGE),
        };
        let (mut out, mut length) = (vec![0; room], 0);
        let number = calls::image(area, &mut out, &mut length);
        self.fixed.call(letter, &[], number, "");
        self.fixed
            .answers
            .push_str(as_text(&out[..length as usize]));
    }

    fn sound(&mut self) {
        let number = calls::sound(&self.cur[..self.lengths[0]]);
        self.fixed.call('v', &[], number, "");
    }

    /// With all to caller 0.
    fn fresh(&mut self, limits: [u64; 4]) {
        let share = (limits[0] as u32).to_be_bytes();
        self.fresh_shared(limits, &[&share[..], &[0; 60]].concat());
    }

    fn fresh_shared(&mut self, limits: [u64; 4], shares: &[u8]) {
        let [p, b, t, k] = limits;
        let number = calls::fresh(p, b, t, k, shares, &mut self.cur[..self.lengths[0]]);
        let arguments = fresh_bytes(limits, shares);
        self.fixed.call('f', &arguments, number, "");
    }

    /// Opens a text of whole lines that begin with 0.
    fn open(&mut self, text: &[u8]) {
        self.fixed.stored(text);
        self.open_stored(text);
    }

    /// Opens the last text's first bytes.
    fn open_cut(&mut self, text: &[u8], length: usize) {
        self.fixed.stored(text);
        self.fixed.step('x', &(length as u32).to_be_bytes());
        self.open_stored(&text[..length]);
    }

    fn open_stored(&mut self, text: &[u8]) {
        let number = calls::open(text, &mut self.cur[..self.lengths[0]]);
        self.fixed.call('o', &[], number, "");
    }

    /// Reconciliations with all that is spent available, and all, some or nothing of what is read; with the
    /// record of this id found, kept or released; and with the scan behind.
    fn reconciled_by(&mut self, id: &Id) {
        let found = [&id[..], &[0, 0, 0, 5], &[7; 32]].concat();
        let available = [&[][..], &[11, 12, 21], &[11, 12], &[11, 12, 22], &[11, 21]];
        for applied in [&[][..], &found] {
            for available in available {
                for (caught_up, window) in [(1, 9), (1, 0), (0, 9)] {
                    let args = ReconcileArgs {
                        applied,
                        caught_up,
                        available: &boxes(available).concat(),
                        window,
                        ..settling(id)
                    };
                    if self.reconcile(80, &args) == 102 {
                        self.image('w');
                    }
                }
            }
        }
    }

    /// Every call that reads the current area, with outputs of this length.
    fn every_call(&mut self, length: usize, id: &Id) {
        self.sound();
        self.image('q');
        self.admit(length, &known(id));
        self.change('c', length, id);
        self.change('e', length, &moment(5, 5));
        self.reconcile(length, &settling(id));
        self.change('r', 0, id);
        self.change('u', 0, &[0, 0, 0, 7, 0]);
        for letter in READINGS {
            self.read(letter, length, &reading_arguments(letter, id));
        }
        for letter in VALUES {
            self.value(letter, &reading_arguments(letter, id));
        }
        self.signed(id);
    }
}

/// The admission of this id with nothing else.
fn known(id: &Id) -> AdmitArgs<'_> {
    AdmitArgs {
        id,
        caller: 0,
        inputs: &[],
        outputs: &[],
        reads: &[],
        signed: &[],
        now: 5,
        time_flag: 0,
        time: 0,
        height_flag: 0,
        height: 0,
        priority: 0,
        label_flag: 0,
        label: &[],
        fee: 0,
        cost: 0,
        tip_height: 0,
        tip_flag: 0,
        tip: &[],
    }
}

/// A reconciliation in the block `tip` that finds no record and releases every Mined holder.
fn settling(tip: &Id) -> ReconcileArgs<'_> {
    ReconcileArgs {
        height: 5,
        tip,
        applied: &[],
        caught_up: 0,
        available: &[],
        window: 0,
    }
}

fn reading_arguments(letter: char, id: &Id) -> Vec<u8> {
    match letter {
        'N' => id.to_vec(),
        'D' | 'T' | 'U' => moment(5, 5),
        _ => Vec::new(),
    }
}

fn number_64(bytes: &[u8]) -> u64 {
    u64::from_be_bytes(bytes[..8].try_into().expect("8 bytes"))
}

fn number_32(bytes: &[u8]) -> u32 {
    u32::from_be_bytes(bytes[..4].try_into().expect("4 bytes"))
}

/// A queue with a pending record that is due, a Mined one and a tombstone; its pending record's id.
fn some_queue() -> (Queue, Id) {
    let limits = Limits::checked(2, 10, 2, 2).expect("limits in range");
    for seed in 0.. {
        let queue = random::queue(&mut Rng::new(seed), limits);
        let due = model::rules::due(&queue, TimeMs(5), Height(5));
        let pending = due.first().map(|record| record.id);
        let mined = queue
            .records
            .iter()
            .any(|record| record.state == State::Mined);
        let low = queue.counter.0 < 100 && queue.tombstones().next().is_some();
        if let (Some(id), true, true) = (pending, mined, low) {
            return (queue, id);
        }
    }
    unreachable!("there is no last seed");
}

fn refusals(fixed: &mut Fixed) {
    let (queue, id) = some_queue();
    let (bytes, text) = (area::encode(&queue), image::encode(&queue));
    let need = bytes.len();
    let what = "refusals that the oracle has not, by the model";
    fixed.both(&format!("{what}: {}", head(&queue.limits)));
    let mut lent = Lent {
        fixed,
        cur: vec![0; AREA],
        next: vec![0; AREA],
        lengths: [AREA, AREA, IMAGE],
    };
    lent.put('a', &bytes);
    shapes(&mut lent, &bytes, &id);
    short_outputs(&mut lent, &bytes, &text, &id);

    lent.fixed.both("the next area too short, 2");
    lent.lend(AREA, need - 1, IMAGE);
    lent.every_call(300, &id);
    lent.settle(2, 1);
    lent.fixed
        .both("the current area too short, 3; to write, 2");
    lent.lend(need - 1, AREA, IMAGE);
    lent.every_call(300, &id);
    lent.open(&text);
    lent.fresh([2, 10, 2, 2]);
    lent.settle(2, 1);
    lent.lend(0, 0, 0);
    lent.every_call(0, &id);
    lent.lend_all();

    damaged(&mut lent, &queue, &bytes, &id);
    limits(&mut lent);
    not_images(&mut lent, &queue, &text);
    kinds(&mut lent);
    shares(&mut lent);
    callers(&mut lent);
    reads(&mut lent);
    wide(&mut lent);
    top_counter(&mut lent, queue, &id);
}

fn shapes(lent: &mut Lent<'_>, bytes: &[u8], id: &Id) {
    lent.fixed.both("ids, flags, kinds and outcomes, 5");
    let long = [&id[..], &[0]].concat();
    for wrong in [&id[..31], &long, &[]] {
        lent.change('c', 0, wrong);
        lent.read('N', 0, wrong);
        lent.signed(wrong);
    }
    let higher = [0xff; 32];
    for wrong in [
        &id[..31],
        &long,
        &[*id, *id].concat(),
        &[higher, *id].concat(),
    ] {
        lent.change('r', 0, wrong);
    }
    lent.change('u', 0, &[0, 0, 0, 1, 2]);
    for length in [0, 31, 33] {
        let tip = [&[0, 0, 0, 1, 1][..], &vec![7; length]].concat();
        lent.change('u', 0, &tip);
    }
    admissions(lent, id, &long);
    reconciliations(lent, id, &long);
    lent.put('b', bytes);
    for (kind, outcome) in [(0, 0), (1, 1), (4, 0), (2, 2), (3, 2)] {
        lent.settle(kind, outcome);
    }
}

/// Each wrong by itself: 5, and 6 for one more than K.
fn admissions(lent: &mut Lent<'_>, id: &Id, long: &[u8]) {
    let right = known(id);
    let many = [*id; 3].concat();
    for wrong in [
        AdmitArgs { id: long, ..right },
        AdmitArgs {
            id: &id[..31],
            ..right
        },
        AdmitArgs {
            inputs: long,
            ..right
        },
        AdmitArgs {
            outputs: &id[..31],
            ..right
        },
        AdmitArgs {
            reads: long,
            ..right
        },
        AdmitArgs {
            reads: &id[..31],
            ..right
        },
        AdmitArgs {
            caller: 16,
            ..right
        },
        AdmitArgs {
            caller: 255,
            ..right
        },
        AdmitArgs {
            time_flag: 2,
            ..right
        },
        AdmitArgs {
            height_flag: 255,
            ..right
        },
        AdmitArgs {
            label_flag: 2,
            ..right
        },
        AdmitArgs {
            tip_flag: 2,
            ..right
        },
        AdmitArgs {
            tip_flag: 1,
            tip: long,
            ..right
        },
        AdmitArgs {
            inputs: &many,
            ..right
        },
        AdmitArgs {
            outputs: &many,
            ..right
        },
        AdmitArgs {
            reads: &many,
            ..right
        },
    ] {
        lent.admit(0, &wrong);
    }
}

/// Each wrong by itself, 5; then lists that rise.
fn reconciliations(lent: &mut Lent<'_>, id: &Id, long: &[u8]) {
    let right = settling(id);
    let (lower, higher) = ([0; 32], [0xff; 32]);
    let found = |id: &Id| [&id[..], &[0, 0, 0, 4], &[7; 32]].concat();
    let one = found(id);
    for wrong in [
        ReconcileArgs { tip: long, ..right },
        ReconcileArgs {
            tip: &id[..31],
            ..right
        },
        ReconcileArgs { tip: &[], ..right },
        ReconcileArgs {
            caught_up: 2,
            ..right
        },
        ReconcileArgs {
            applied: &one[..67],
            ..right
        },
        ReconcileArgs {
            applied: &[&one[..], &[0]].concat(),
            ..right
        },
        ReconcileArgs {
            applied: &[&one[..], &one].concat(),
            ..right
        },
        ReconcileArgs {
            applied: &[found(&higher), one.clone()].concat(),
            ..right
        },
        ReconcileArgs {
            available: &id[..31],
            ..right
        },
        ReconcileArgs {
            available: long,
            ..right
        },
        ReconcileArgs {
            available: &[*id, *id].concat(),
            ..right
        },
        ReconcileArgs {
            available: &[*id, lower].concat(),
            ..right
        },
    ] {
        lent.reconcile(0, &wrong);
    }
    let risen = ReconcileArgs {
        applied: &[found(&lower), one, found(&higher)].concat(),
        caught_up: 1,
        available: &[lower, *id, higher].concat(),
        ..right
    };
    lent.reconcile(80, &risen);
}

fn short_outputs(lent: &mut Lent<'_>, bytes: &[u8], text: &[u8], id: &Id) {
    lent.fixed.both("outputs too short, 4");
    for letter in READINGS {
        let a = reading_arguments(letter, id);
        let length = shortest(|length| {
            let mut silent = Fixed::default();
            silent_lent(&mut silent, bytes).read(letter, length, &a)
        });
        lent.read(letter, length - 1, &a);
        lent.read(letter, length, &a);
    }
    let length = shortest(|length| {
        let mut silent = Fixed::default();
        silent_lent(&mut silent, bytes).admit(length, &known(id))
    });
    lent.admit(length - 1, &known(id));
    lent.admit(length, &known(id));
    let length = shortest(|length| {
        let mut silent = Fixed::default();
        silent_lent(&mut silent, bytes).reconcile(length, &settling(id))
    });
    lent.reconcile(length - 1, &settling(id));
    lent.reconcile(length, &settling(id));
    for (letter, a) in [('c', id.to_vec()), ('e', moment(5, 5))] {
        let length = shortest(|length| {
            let mut silent = Fixed::default();
            silent_lent(&mut silent, bytes).change(letter, length, &a)
        });
        lent.change(letter, length - 1, &a);
        lent.change(letter, length, &a);
    }
    lent.put('b', bytes);
    for room in [0, text.len() - 1, text.len()] {
        lent.lend(AREA, AREA, room);
        lent.image('w');
    }
    lent.lend_all();
}

/// The same area lent, with steps that go nowhere.
fn silent_lent<'a>(fixed: &'a mut Fixed, bytes: &[u8]) -> Lent<'a> {
    let mut lent = Lent {
        fixed,
        cur: vec![0; AREA],
        next: vec![0; AREA],
        lengths: [AREA, AREA, IMAGE],
    };
    lent.put('a', bytes);
    lent
}

/// The least length of an output that is not too short.
fn shortest(mut give: impl FnMut(usize) -> u64) -> usize {
    (1..AREA)
        .find(|length| give(*length) != calls::OUTPUT_SHORT)
        .expect("an answer fits an area")
}

fn damaged(lent: &mut Lent<'_>, queue: &Queue, bytes: &[u8], id: &Id) {
    lent.fixed.both("areas that are not sound, 3");
    let mut rng = Rng::new(0);
    for _ in 0..12 {
        // A value changed, then bytes changed.
        let mut area = area::encode(&random::altered(&mut rng, queue));
        if rng.once_in(2) {
            area = bytes.to_vec();
            random::damage(&mut rng, &mut area, 400);
        }
        area.truncate(AREA);
        lent.put('a', &area);
        lent.sound();
    }
    let mut area = bytes.to_vec();
    *area.last_mut().expect("an area") = 1;
    lent.put('a', &area);
    lent.every_call(300, id);
    lent.put('b', bytes);
    lent.settle(2, 0);
    lent.put('a', bytes);
    lent.put('b', &area);
    lent.image('w');
    lent.settle(2, 0);
    lent.settle(3, 1);
}

fn limits(lent: &mut Lent<'_>) {
    lent.fixed.both("limits out of range, 1");
    let tops = [1_024, 16_777_216, 1_024, 128];
    for at in 0..4 {
        for wrong in [0, tops[at] + 1, u64::MAX] {
            let mut given = [1; 4];
            given[at] = wrong;
            lent.fresh(given);
        }
    }
    lent.fixed.both("limits in range: an area too short, 2");
    lent.fresh(tops);
    lent.fresh([1; 4]);
}

fn not_images(lent: &mut Lent<'_>, queue: &Queue, text: &[u8]) {
    lent.fixed.both("texts that are not images, 16");
    lent.open(b"");
    let lines: Vec<&[u8]> = text.split_inclusive(|byte| *byte == b'\n').collect();
    lent.open(&lines[..lines.len() - 1].concat());
    lent.open(&lines[1..].concat());
    lent.open(&[lines[0], lines[0]].concat());
    lent.open(&text.to_ascii_uppercase());
    lent.open_cut(text, text.len() - 1);
    let mut rng = Rng::new(0);
    for _ in 0..6 {
        lent.open(&image::encode(&random::altered(&mut rng, queue)));
        let mut wrong = text.to_vec();
        let at = rng.below(lines[0].len() - 2) + 1;
        wrong[at] = b"0123456789abcdefg"[rng.below(17)];
        lent.open(&wrong);
    }
    lent.open(text);
    lent.image('q');
}

/// A queue whose first record is a Mined tombstone with mark 5, as an image of kind 01 can have, and that
/// has a holder.
fn marked_queue() -> Queue {
    let limits = Limits::checked(2, 10, 2, 2).expect("limits in range");
    let queues = (0..).map(|seed| random::queue(&mut Rng::new(seed), limits));
    let marked = |queue: &Queue| {
        let first = queue.records.first();
        let marked = first.is_some_and(|record| record.withdrawn == Withdrawn::Expired);
        marked && HeaderKind::K01.can_hold(queue) && queue.holders().next().is_some()
    };
    let mut queues = queues.filter(marked);
    queues.next().expect("there is no last seed")
}

fn kinds(lent: &mut Lent<'_>) {
    let queue = marked_queue();
    let bytes = area::encode(&queue);
    let of_kind = |kind: &str, form| {
        let text = image::encode_as(form, &queue);
        [kind.as_bytes(), &text[2..]].concat()
    };
    lent.fixed.both(
        "images of kinds 01, 03, 04, 05 and 06, and of no others: without shares and callers, with them, with read counts, and with wide priorities",
    );
    for form in [
        HeaderKind::K03,
        HeaderKind::K04,
        HeaderKind::K05,
        HeaderKind::K06,
    ] {
        for kind in ["01", "03", "04", "05", "06", "00", "02", "07", "0f"] {
            lent.open(&of_kind(kind, form));
            lent.image('q');
        }
    }
    lent.fixed.both("marks under kinds 01, 03, 04, 05 and 06");
    for form in HeaderKind::ALL {
        let digits = image::mark_place(form, &queue, 0);
        for mark in 0..7 {
            let mut text = image::encode_as(form, &queue);
            text[digits + 1] = b'0' + mark;
            lent.open(&text);
            lent.image('q');
        }
    }
    lent.fixed.both("areas of other kinds, and other marks");
    for kind in [0, 1, 2, 3, 4, 5, 7, 6] {
        let mut wrong = bytes.clone();
        wrong[4] = kind;
        lent.put('a', &wrong);
        lent.sound();
    }
    for mark in 0..7 {
        let mut wrong = bytes.clone();
        wrong[area::mark_place(&queue, 0)] = mark;
        lent.put('a', &wrong);
        lent.sound();
    }
}

/// Shares for a fresh queue: one over P, 1; an area too short, 2; not 64 bytes, 5.
fn shares(lent: &mut Lent<'_>) {
    lent.fixed.both("shares: one over P, 1; not 64 bytes, 5");
    let limits = [2, 10, 2, 2];
    let with = |caller: usize, share: u32| {
        let mut shares = vec![0; 64];
        shares[4 * caller..4 * caller + 4].copy_from_slice(&share.to_be_bytes());
        shares
    };
    for caller in [0, 1, 15] {
        for share in [0, 2, 3, 1 << 8, 1 << 24, u32::MAX] {
            lent.fresh_shared(limits, &with(caller, share));
        }
    }
    for length in [0, 1, 60, 63, 65, 68] {
        // None of them is read.
        lent.fresh_shared(limits, &vec![0xff; length]);
    }
    lent.lend(100, AREA, IMAGE);
    lent.fresh_shared(limits, &with(15, 3));
    lent.fresh_shared(limits, &with(15, 2));
    lent.fresh_shared(limits, &[0; 63]);
    lent.lend_all();
}

/// P 3, B 10, T 2, K 1; caller 0 has a share of 1, caller 1 of 2, caller 15 of 3. Caller 0 and caller 15
/// have a pending record each, and caller 1 a tombstone.
fn shared_queue() -> (Queue, [Id; 3]) {
    let mut shares = [0; 16];
    (shares[0], shares[1], shares[15]) = (1, 2, 3);
    let limits = Limits::checked(3, 10, 2, 1).and_then(|limits| limits.shared(shares));
    let mut queue = Queue::fresh(limits.expect("limits and shares in range"));
    let ids = [0, 1, 2].map(random::nth_id);
    for (id, caller) in ids.iter().zip([0, 1, 15]) {
        let given = Admission {
            caller: Caller(caller),
            inputs: vec![*id],
            ..plain(*id)
        };
        let change = model::rules::admit(&queue, &given);
        queue = change.expect("room").next;
    }
    let change = model::rules::cancel(&queue, &ids[1]);
    (change.expect("pending").next, ids)
}

/// Admissions by each caller, 18; the caller in answers, areas and images; what each call makes of it.
fn callers(lent: &mut Lent<'_>) {
    let (queue, [first, cancelled, last]) = shared_queue();
    let bytes = area::encode(&queue);
    let what = "callers and shares, 18";
    lent.fixed.both(&format!("{what}: {}", head(&queue.limits)));
    lent.put('a', &bytes);
    let other = random::nth_id(9);
    for id in [&other, &cancelled, &first] {
        for caller in [0, 1, 2, 14, 15, 16] {
            let given = AdmitArgs {
                caller,
                ..known(id)
            };
            if lent.admit(200, &given) == 102 {
                lent.image('w');
            }
        }
    }
    // 18 before 11 and 12; 10 before 18.
    let both = AdmitArgs {
        inputs: &last,
        signed: &[0; 11],
        ..known(&other)
    };
    for caller in [0, 1, 2] {
        lent.admit(0, &AdmitArgs { caller, ..both });
    }
    let full = model::rules::admit(
        &queue,
        &Admission {
            caller: Caller(1),
            ..plain(other)
        },
    );
    lent.put('a', &area::encode(&full.expect("room").next));
    for caller in [0, 1, 2, 15] {
        let next = random::nth_id(10);
        lent.admit(
            0,
            &AdmitArgs {
                caller,
                ..known(&next)
            },
        );
    }
    lent.fixed.both("what calls make of a caller");
    lent.put('a', &bytes);
    for letter in ['L', 'N'] {
        lent.read(letter, 400, &reading_arguments(letter, &last));
    }
    lent.change('c', 200, &last);
    lent.image('w');
    lent.change('c', 200, &cancelled);
    let found = [&last[..], &[0, 0, 0, 5], &[7; 32]].concat();
    let mined = ReconcileArgs {
        applied: &found,
        ..settling(&last)
    };
    for window in [0, 9] {
        lent.reconcile(80, &ReconcileArgs { window, ..mined });
        lent.image('w');
    }
    rolled_back_above_a_share(lent, &queue, &first);
    lent.fixed.both("callers and shares in areas and images");
    let text = image::encode(&queue);
    for (n, caller) in [(0, 15), (0, 16), (1, 15), (1, 16), (1, 255), (2, 0)] {
        let (mut bytes, mut text) = (bytes.clone(), text.clone());
        bytes[area::caller_place(&queue, n)] = caller;
        put_digits(&mut text, image::caller_place(&queue, n), caller);
        lent.put('a', &bytes);
        lent.sound();
        lent.open(&text);
        lent.image('q');
    }
    for (caller, share) in [
        (0, 0),
        (0, 3),
        (0, 4),
        (7, 3),
        (7, 4),
        (15, 1),
        (15, 1 << 24),
    ] {
        let mut other = queue.clone();
        other.limits.shares[caller] = share;
        lent.put('a', &area::encode(&other));
        lent.sound();
        lent.open(&image::encode(&other));
        lent.image('q');
    }
}

/// The first record is confirmed, its caller admits another one, and the block is rolled back.
fn rolled_back_above_a_share(lent: &mut Lent<'_>, queue: &Queue, first: &Id) {
    lent.fixed.both("a rollback lifts a caller above its share");
    let Call::Reconcile(given) = found(*first, 7, 9) else {
        unreachable!("a reconciliation");
    };
    let mined = model::rules::reconcile(queue, &given)
        .expect("entered")
        .next;
    let second = random::nth_id(9);
    let two = model::rules::admit(&mined, &plain(second)).expect("its share is free");
    lent.put('a', &area::encode(&two.next));
    lent.change('r', 0, first);
    lent.image('w');
    let lifted = model::rules::reopen(&two.next, &[*first]).next;
    lent.put('a', &area::encode(&lifted));
    lent.sound();
    lent.image('q');
    let third = random::nth_id(10);
    for caller in [0, 1, 15] {
        let given = AdmitArgs {
            caller,
            ..known(&third)
        };
        lent.admit(200, &given);
    }
}

/// P 3, B 10, T 2, K 2. The first record spends 11 and reads 21; the second spends 12, makes 22 and reads
/// 21 and 12; the third reads 22. The second is a Mined holder where `mined`.
fn reading_queue(mined: bool) -> (Queue, [Id; 3]) {
    let limits = Limits::checked(3, 10, 2, 2).expect("limits in range");
    let mut queue = Queue::fresh(limits);
    let ids = [0, 1, 2].map(random::nth_id);
    let lists: [[&[u8]; 3]; 3] = [
        [&[11], &[], &[21]],
        [&[12], &[22], &[21, 12]],
        [&[], &[], &[22]],
    ];
    for (id, lists) in ids.iter().zip(lists) {
        let [inputs, outputs, reads] = lists.map(boxes);
        let given = Admission {
            inputs,
            outputs,
            reads,
            ..plain(*id)
        };
        let change = model::rules::admit(&queue, &given);
        queue = change.expect("room").next;
    }
    if mined {
        let Call::Reconcile(given) = found(ids[1], 7, 9) else {
            unreachable!("a reconciliation");
        };
        let given = Reconciliation {
            caught_up: false,
            ..given
        };
        let change = model::rules::reconcile(&queue, &given);
        queue = change.expect("entered").next;
    }
    (queue, ids)
}

fn boxes(numbers: &[u8]) -> Vec<Id> {
    numbers.iter().map(|n| [*n; 32]).collect()
}

/// Read ids: 20 and what comes before it; in answers, areas and images; what each call makes of them.
fn reads(lent: &mut Lent<'_>) {
    let (queue, [first, second, third]) = reading_queue(false);
    lent.fixed
        .both(&format!("read ids, 20: {}", head(&queue.limits)));
    let other = random::nth_id(9);
    let two = model::rules::cancel(&queue, &third).expect("pending").next;
    let (mined, _) = reading_queue(true);
    let mined = model::rules::cancel(&mined, &third).expect("pending").next;
    for queue in [&two, &mined] {
        lent.put('a', &area::encode(queue));
        for (id, inputs, reads) in [
            // Both halves, each at its first and its last place.
            (&other, &[21][..], &[][..]),
            (&other, &[31, 21], &[]),
            (&other, &[], &[11]),
            (&other, &[], &[31, 12]),
            // 12 comes first, and 6 and 5 before that.
            (&other, &[12], &[11]),
            (&other, &[12], &[11, 11, 11]),
            // Others may read the same, and a record what it spends or makes.
            (&other, &[], &[21, 22]),
            (&other, &[31], &[31, 32]),
            (&other, &[], &[33, 33]),
            // A tombstone neither reads nor spends.
            (&third, &[31], &[22]),
            // A pending or Mined id answers its record.
            (&first, &[21], &[12]),
            (&second, &[21], &[]),
        ] {
            let lists = [boxes(inputs).concat(), boxes(reads).concat()];
            let given = AdmitArgs {
                inputs: &lists[0],
                outputs: &[32; 32],
                reads: &lists[1],
                ..known(id)
            };
            if lent.admit(200, &given) == 102 {
                lent.image('w');
            }
        }
        // 11 before 20, and 20 before 4.
        let meets = AdmitArgs {
            reads: &[11; 32],
            ..known(&other)
        };
        lent.admit(0, &meets);
        lent.admit(
            0,
            &AdmitArgs {
                signed: &[0; 11],
                ..meets
            },
        );
        lent.admit(
            0,
            &AdmitArgs {
                reads: &[31; 32],
                ..meets
            },
        );
    }
    lent.fixed.both("what calls make of read ids");
    lent.put('a', &area::encode(&queue));
    for letter in ['L', 'N', 'X', 'Y', 'Z', 'T'] {
        for id in [&first, &second] {
            lent.read(letter, 700, &reading_arguments(letter, id));
        }
    }
    lent.change('c', 200, &first);
    lent.image('w');
    lent.reconciled_by(&second);
    lent.fixed.both("read ids in areas and images");
    for (n, reads) in [
        (0, &[21][..]),
        (0, &[11, 11]),
        (0, &[12]),
        (0, &[21, 12]),
        (0, &[21, 21, 21]),
        (2, &[11]),
        (2, &[21, 22]),
        (2, &[12]),
        (2, &[]),
    ] {
        let mut other = queue.clone();
        other.records[n].holder.as_mut().expect("a holder").reads = boxes(reads);
        lent.put('a', &area::encode(&other));
        lent.sound();
        lent.open(&image::encode(&other));
        lent.image('q');
    }
    let (bytes, text) = (area::encode(&queue), image::encode(&queue));
    for count in [0, 1, 2, 3, 0x100] {
        let (mut bytes, mut text) = (bytes.clone(), text.clone());
        let place = area::reads_place(&queue, 1).expect("a holder");
        let digits = image::reads_place(&queue, 1).expect("a holder");
        for (at, byte) in (count as u16).to_be_bytes().into_iter().enumerate() {
            bytes[place + at] = byte;
            put_digits(&mut text, digits + 2 * at, byte);
        }
        lent.put('a', &bytes);
        lent.sound();
        lent.open(&text);
        lent.image('q');
    }
    lent.fixed
        .both("an image of kind 04 opens without read ids");
    lent.open(&image::encode_as(HeaderKind::K04, &queue));
    lent.image('q');
}

/// Priorities of 64 bits, and the signs of those of 32.
fn wide(lent: &mut Lent<'_>) {
    const END: i64 = 1 << 31;
    lent.fixed
        .both("priorities of 64 bits: admitted, shown, and in the order of the selection");
    let limits = Limits::checked(4, 10, 2, 1).expect("limits in range");
    for priorities in [
        [0, 1 << 32, END, -END - 1],
        [i64::MIN, i64::MAX, -1, 1_700_000_000_000],
    ] {
        let mut queue = Queue::fresh(limits);
        for (n, priority) in (1..).zip(priorities) {
            let id = [n; 32];
            lent.put('a', &area::encode(&queue));
            let given = AdmitArgs {
                priority: priority as u64,
                ..known(&id)
            };
            lent.admit(78, &given);
            lent.admit(79, &given);
            lent.image('w');
            let given = Admission {
                priority,
                ..Admission::plain(id)
            };
            let next = model::rules::admit(&queue, &given);
            queue = next.expect("admitted").next;
        }
        lent.put('a', &area::encode(&queue));
        for letter in ['S', 'T', 'L'] {
            lent.read(letter, 400, &reading_arguments(letter, &[1; 32]));
        }
        lent.change('c', 79, &[1; 32]);
        lent.image('w');
    }
    lent.fixed.both("the sign is carried from older kinds");
    let mut queue = marked_queue();
    for priority in [-1, -END, END - 1, 0] {
        for record in &mut queue.records {
            record.priority = priority;
        }
        for kind in HeaderKind::ALL {
            lent.open(&image::encode_as(kind, &queue));
            lent.image('q');
        }
    }
}

fn top_counter(lent: &mut Lent<'_>, mut queue: Queue, id: &Id) {
    lent.fixed.both("the finish counter at its top, 15");
    queue.counter.0 = u64::MAX;
    lent.put('a', &area::encode(&queue));
    lent.change('c', 0, id);
    lent.change('e', 0, &moment(5, 5));
    lent.change('e', 4, &moment(0, 0));
    lent.reconcile(0, &settling(id));
    let kept = ReconcileArgs {
        window: u32::MAX,
        ..settling(id)
    };
    lent.reconcile(5, &kept);
}
