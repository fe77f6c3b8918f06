//! Compares a side with the oracle after each event.

use std::collections::{BTreeMap, BTreeSet};
use std::fmt;
use std::path::Path;

use model::random::Rng;
use model::{area, calls, image, HeaderKind, Height, Id, Limits, Queue, Record, TimeMs};

use crate::beside;
use crate::counts::Counts;
use crate::generate;
use crate::list::{Call, Event, List, Look, Short, Write};
use crate::oracle::{self, Oracle};
use crate::side::{Fees, Model, Reading, Side};
use crate::unit::{self, ids_of, output, Fault, Unit, UNTOUCHED};
use crate::wide::{self, as_texts};
use crate::withdrawn::{History, Moved};

/// Refusals outside the domain of demand 2 that lists meet: the oracle is not asked.
const OUTSIDE: [u64; 1] = [15];

/// Where a side and the oracle part.
#[derive(Debug, Clone)]
pub struct Difference {
    /// The event after which it was seen.
    pub at: usize,
    pub what: String,
    pub side: String,
    pub oracle: String,
}

impl fmt::Display for Difference {
    fn fmt(&self, f: &mut fmt::Formatter<'_>) -> fmt::Result {
        writeln!(f, "after event {}: {}", self.at, self.what)?;
        writeln!(f, "  compared: {}", self.side)?;
        writeln!(f, "  oracle:   {}", self.oracle)
    }
}

/// A side and the oracle, run together.
pub struct Pair<'a, S: Side> {
    unit: Unit<'a, S>,
    oracle: Oracle,
    withdrawn: Histories,
    /// The ids that were released.
    released: BTreeSet<Id>,
    look: Look,
    probe: (TimeMs, Height),
    fees: u64,
    at: usize,
}

/// Which ids were withdrawn, by the answers and the writes of each by itself.
#[derive(Default)]
struct Histories {
    unit: History,
    oracle: History,
}

/// What both made of an event.
enum Made {
    Opened,
    Call(unit::Done, oracle::Done),
    /// A call that the oracle is not asked: the number, and the model's.
    Outside(u64, u64),
}

impl<'a, S: Side> Pair<'a, S> {
    pub fn new(side: &'a S, folder: &Path, list: &List) -> Result<Self, Difference> {
        let unit = Unit::new(side, list.limits, &list.start);
        let oracle = Oracle::new(folder, list.limits, &list.start);
        match (unit, oracle) {
            (Ok(unit), Ok(oracle)) => Ok(Pair {
                unit,
                oracle,
                withdrawn: Histories::default(),
                released: BTreeSet::new(),
                look: list.look,
                probe: list.probe,
                fees: list.fees,
                at: 0,
            }),
            (unit, oracle) => Err(Difference {
                at: 0,
                what: "the start".into(),
                side: format!("{:?}", unit.err()),
                oracle: format!("{:?}", oracle.err()),
            }),
        }
    }

    /// Compares what the list begins with.
    fn start(&self, counts: &mut Counts) -> Result<(), Difference> {
        if self.look == Look::Withdrawn {
            return Ok(());
        }
        let queue = self.unit.queue().map_err(|fault| self.fault(fault))?;
        self.same("the queue", &queue, &self.oracle.queue())?;
        if self.look == Look::All {
            self.need(&queue.limits, counts)?;
            self.fees(&queue, counts)?;
        }
        self.parents(&queue, counts)
    }

    /// The queue of both.
    pub fn queue(&self) -> Queue {
        self.oracle.queue()
    }

    /// Whether the id was withdrawn and not admitted since, by each one's history.
    pub fn withdrawn(&self, id: &Id) -> [bool; 2] {
        [&self.withdrawn.unit, &self.withdrawn.oracle].map(|history| history.has(id))
    }

    /// Runs one event on both and compares all that can be seen.
    pub fn event(&mut self, event: &Event, counts: &mut Counts) -> Result<(), Difference> {
        counts.steps += 1;
        let made = match event {
            Event::Cut => {
                counts.cuts_between_calls += 1;
                self.withdrawn.unit.cut();
                self.withdrawn.oracle.cut();
                let (unit, oracle) = (self.unit.restart(), self.oracle.restart());
                self.same("opening after a cut", unit, oracle)?;
                Made::Opened
            }
            Event::Call(call, write) => {
                let made = self.make(call, *write, counts);
                made.map_err(|fault| self.fault(fault))?
            }
        };
        self.selections(counts)?;
        if self.look == Look::All {
            self.made(event, &made)?;
            self.queues(counts)?;
        }
        self.at += 1;
        Ok(())
    }

    /// Makes the call on both, and enters into each one's history what it answered.
    fn make(&mut self, call: &Call, write: Write, counts: &mut Counts) -> Result<Made, Fault> {
        let before = self.unit.queue()?;
        let done = self.unit.call(call, write)?;
        count(call, write, &done, counts);
        if OUTSIDE.contains(&done.number) {
            return Ok(Made::Outside(done.number, model_number(call, &before)));
        }
        let oracle = self.oracle.call(call, write)?;
        self.count_marks(call, &oracle, counts);
        if matches!(done.kind, Some(2 | 3)) {
            let history = &mut self.withdrawn.unit;
            history.written(call, &done.out, write)?;
        }
        if oracle.wrote {
            let history = &mut self.withdrawn.oracle;
            let moved = history.written(call, &oracle.answer, write)?;
            self.count_moved(&moved, write, counts);
        } else if let (Call::Admit(given), 100) = (call, oracle.number) {
            counts.withdrawn.kind_0 += u64::from(self.withdrawn.oracle.has(&given.id));
        }
        Ok(Made::Call(done, oracle))
    }

    fn count_marks(&mut self, call: &Call, done: &oracle::Done, counts: &mut Counts) {
        if matches!(call, Call::Reconcile(_)) {
            let ids = done.answer.get(1..).and_then(ids_of);
            self.released.extend(ids.unwrap_or_default());
        }
        let rolled_back = &done.moved.rolled_back;
        let released = |id: &&Id| self.released.contains(*id);
        let counts = &mut counts.marks;
        counts.confirmed += done.moved.confirmed.len() as u64;
        counts.rolled_back += rolled_back.len() as u64;
        counts.released += rolled_back.iter().filter(released).count() as u64;
    }

    fn count_moved(&self, moved: &Moved, write: Write, counts: &mut Counts) {
        let counts = &mut counts.withdrawn;
        let (withdrawn, admitted) = (moved.withdrawn.len() as u64, moved.admitted.len() as u64);
        counts.ids += withdrawn;
        counts.admitted += admitted;
        if write == Write::CutAfterRename {
            counts.ids_by_cut += withdrawn;
            counts.admitted_by_cut += admitted;
        }
        let absent = |id: &&Id| self.oracle.entry(id).is_err();
        counts.forgotten_at_once += moved.withdrawn.iter().filter(absent).count() as u64;
    }

    /// Neither selects an id that it withdrew and did not admit since. At time 0 and height 0 the
    /// selection has all others.
    fn selections(&self, counts: &mut Counts) -> Result<(), Difference> {
        counts.withdrawn.events += u64::from(!self.withdrawn.oracle.is_empty());
        let at = Reading::SelectionEntriesAt(self.probe.0 .0, self.probe.1 .0);
        for reading in [Reading::SelectionEntries, at] {
            let unit = self.unit.selected(reading);
            let unit = unit.map_err(|fault| self.fault(fault))?;
            let oracle = ids_of(&self.oracle.read(reading));
            let oracle = oracle.ok_or_else(|| self.fault("no selection of the oracle".into()))?;
            let unit = self.withdrawn.unit.wrong(&unit);
            let oracle = self.withdrawn.oracle.wrong(&oracle);
            if !unit.is_empty() || !oracle.is_empty() {
                return Err(Difference {
                    at: self.at,
                    what: format!("withdrawn ids in {}", reading.name()),
                    side: Short(unit).to_string(),
                    oracle: Short(oracle).to_string(),
                });
            }
        }
        // The library's list, parents first, is a part of its selection.
        for (now, height) in self.moments() {
            let listed = self.unit.listed(now, height);
            let listed = listed.map_err(|fault| self.fault(fault))?;
            let wrong = self.withdrawn.unit.wrong(&listed);
            self.same("withdrawn ids in selection_parents_first", wrong, vec![])?;
        }
        Ok(())
    }

    /// The list's moment, and time 0 and height 0, when the selection has nearly all Queued records.
    fn moments(&self) -> [(u64, u32); 2] {
        [(self.probe.0 .0, self.probe.1 .0), (0, 0)]
    }

    fn same<T: PartialEq + fmt::Debug>(
        &self,
        what: &str,
        side: T,
        oracle: T,
    ) -> Result<(), Difference> {
        if side == oracle {
            return Ok(());
        }
        Err(Difference {
            at: self.at,
            what: what.into(),
            side: Short(side).to_string(),
            oracle: Short(oracle).to_string(),
        })
    }

    /// Both made the same of the event.
    fn made(&self, event: &Event, made: &Made) -> Result<(), Difference> {
        match (made, event) {
            (Made::Call(done, oracle), Event::Call(call, write)) => {
                self.call(call, *write, done, oracle)
            }
            (Made::Outside(number, model), _) => {
                self.same("a refusal that the oracle has not", number, model)
            }
            (Made::Opened | Made::Call(..), _) => Ok(()),
        }
    }

    fn call(
        &self,
        call: &Call,
        write: Write,
        done: &unit::Done,
        oracle: &oracle::Done,
    ) -> Result<(), Difference> {
        self.same("power was cut", done.cut, oracle.cut)?;
        if !done.cut {
            self.same("the number given back", done.number, oracle.number)?;
        }
        let wrote = matches!(done.kind, Some(2 | 3));
        self.same("a write was due", wrote, oracle.wrote)?;
        if done.number == 100 && !done.cut {
            self.answers(call, done, oracle)?;
        }
        if wrote && matches!(write, Write::Kept | Write::CutAfterRename) {
            let image = image::encode(&self.oracle.queue());
            self.same("the stored image", self.unit.stored.as_ref(), Some(&image))?;
        }
        Ok(())
    }

    fn answers(
        &self,
        call: &Call,
        done: &unit::Done,
        oracle: &oracle::Done,
    ) -> Result<(), Difference> {
        let answer = padded(&oracle.answer, done.out.len());
        self.same(
            &format!("the answer of {}", call.name()),
            &done.out,
            &answer,
        )
    }

    fn fault(&self, fault: String) -> Difference {
        Difference {
            at: self.at,
            what: "a fault".into(),
            side: fault,
            oracle: "-".into(),
        }
    }

    /// Every value of the queue, the stored image, and every reading call.
    fn queues(&self, counts: &mut Counts) -> Result<(), Difference> {
        let queue = self.unit.queue().map_err(|fault| self.fault(fault))?;
        self.same("the queue", &queue, &self.oracle.queue())?;
        self.same("transactions not found", Oracle::failed(), 0)?;
        counts.marks.events += u64::from(self.oracle.left_out() > 0);
        self.readings(&queue, counts)?;
        self.kinds(&queue, counts)?;
        self.converted(&queue, counts)?;
        self.fees(&queue, counts)?;
        self.parents(&queue, counts)?;
        self.stored(&queue, counts)
    }

    /// The need of limits, which the oracle has not, is judged by the model: of the list's limits, and
    /// of those where one is at an end of its range or beyond it.
    fn need(&self, limits: &Limits, counts: &mut Counts) -> Result<(), Difference> {
        let limits = limits.numbers();
        let tops = Limits::MAX.numbers();
        let ends = (0..4).flat_map(|at| [0, 1, tops[at], tops[at] + 1].map(|end| (at, end)));
        for (at, end) in ends.chain([(0, limits[0])]) {
            let mut limits = limits;
            limits[at] = end;
            let mut value = UNTOUCHED.into();
            let number = Model.need(limits, &mut value);
            let what = "the answer of need";
            self.same(
                what,
                (limits, self.unit.need(limits)),
                (limits, (number, value)),
            )?;
            counts.reading("need");
        }
        Ok(())
    }

    /// The limits and the need of an image, which the oracle has not, are judged by the model: of the
    /// stored one, and of that one with a byte that is another.
    fn image_limits(&self, text: &[u8], counts: &mut Counts) -> Result<(), Difference> {
        let mut wrong = text.to_vec();
        // In each list one place and one byte, so that shorter lists show the same.
        let mut rng = Rng::new(self.fees);
        let at = rng.below(text.len());
        wrong[at] = rng.pick(b"0f1\n8A");
        for (text, length) in [(text, 64), (&wrong, 66), (text, 63)] {
            let right = unit::image_limits(&Model, text, length);
            let answer = self.unit.image_limits(text, length);
            self.same("the answer of image_limits", answer, right)?;
            counts.reading("image_limits");
        }
        Ok(())
    }

    /// Texts and areas with other header kinds and other marks, which the oracle has not, are judged by
    /// the model: in each list one kind, mostly with a mark of one record.
    fn kinds(&self, queue: &Queue, counts: &mut Counts) -> Result<(), Difference> {
        let mut rng = Rng::new(self.fees);
        let (kind, mark) = (rng.pick(&KINDS), rng.pick(&MARKS));
        // With wide priorities, without them, without read counts besides, or without all of them and
        // shares and callers: often as the kind has it.
        let form = rng.pick(&[
            HeaderKind::K06,
            HeaderKind::K05,
            HeaderKind::K04,
            HeaderKind::K03,
        ]);
        let form = match HeaderKind::from_number(kind) {
            Some(own) if rng.once_in(2) => own,
            _ => form,
        };
        let (mut bytes, mut text) = (self.unit.area().to_vec(), image::encode_as(form, queue));
        bytes[4] = kind;
        put_digits(&mut text, 0, kind);
        if let (Some(mark), false) = (mark, queue.records.is_empty()) {
            let n = rng.below(queue.records.len());
            bytes[area::mark_place(queue, n)] = mark;
            put_digits(&mut text, image::mark_place(form, queue, n), mark);
        }
        self.judged(kind, &bytes, &text, counts)
    }

    fn judged(
        &self,
        kind: u8,
        area: &[u8],
        text: &[u8],
        counts: &mut Counts,
    ) -> Result<(), Difference> {
        let number = self.unit.soundness(area);
        self.same("the answer of sound", number, Model.sound(area))?;
        counts.kind("areas", kind, number);
        let (number, opened) = self.unit.opened(text);
        let mut expected = self.unit.to_open();
        self.same(
            "the answer of open",
            number,
            Model.open(text, &mut expected),
        )?;
        self.same("the opened area", opened, expected)?;
        counts.kind("texts", kind, number);
        Ok(())
    }

    /// What is made an image of kind 01, which the oracle has not, is judged by the model.
    fn converted(&self, queue: &Queue, counts: &mut Counts) -> Result<(), Difference> {
        // In each list the same draws, so that shorter lists show the same.
        let rng = &mut Rng::new(self.fees);
        let text = wide::text(rng, queue, self.unit.stored.as_deref());
        let right = text.right();
        text.count(right.0, counts);
        let what = format!("the answer of convert for {}", text.what);
        let answer = self.unit.convert(&text.bytes, text.lent);
        self.same(&what, as_texts(answer), as_texts(right))
    }

    /// The stored image is that of a sound queue with these records.
    fn stored(&self, queue: &Queue, counts: &mut Counts) -> Result<(), Difference> {
        let Some(text) = &self.unit.stored else {
            return Ok(());
        };
        self.image_limits(text, counts)?;
        let opened = image::decode(text);
        let Some(opened) = opened else {
            return Err(self.fault("the stored image is not that of a sound queue".into()));
        };
        // Records change by writes alone.
        self.same("the stored records", &opened.records, &queue.records)?;
        self.same("the stored revision", opened.revision, queue.revision)
    }

    fn readings(&self, queue: &Queue, counts: &mut Counts) -> Result<(), Difference> {
        for reading in Reading::all(self.probe.0 .0, self.probe.1 .0) {
            let expected = self.oracle.read(reading);
            let length = expected.len() + 3;
            let answer = self.unit.read(reading, length);
            counts.reading(reading.name());
            let what = format!("the answer of {}", reading.name());
            self.same(&what, answer, Ok(padded(&expected, length)))?;
        }
        // All records of a small queue, others after other events of a large one.
        let stride = queue.records.len() / 10 + 1;
        for record in queue.records.iter().skip(self.at % stride).step_by(stride) {
            let expected = self.oracle.entry(&record.id);
            let length = expected.as_ref().map_or(0, Vec::len) + 3;
            let answer = self.unit.entry(&record.id, length);
            let expected = expected.map(|bytes| padded(&bytes, length));
            self.same("the answer of entry", answer, expected)?;
            let signed = record.holder.as_ref().map(|holder| &holder.bytes[..]);
            let answer = self.unit.signed_bytes(&record.id);
            self.same("the answer of signed_bytes", answer, signed.ok_or(13))?;
        }
        counts.reading("entry and signed_bytes");
        Ok(())
    }

    /// Best fees, which the oracle has not: its set is looked at beside the oracle's selection, and
    /// all of its answer is judged by the model.
    fn fees(&self, queue: &Queue, counts: &mut Counts) -> Result<(), Difference> {
        for asked in generate::fees(self.fees, queue, self.probe) {
            let (number, expected) = model_fees(self.unit.area(), &asked);
            let length = expected.len() + 3;
            let answer = self.unit.best_fees(&asked, length);
            if let Ok(answer) = &answer {
                let found = self.set_of(queue, &asked, answer);
                self.same("the set of best_fees", (asked, found), (asked, Ok(())))?;
            }
            let right = match number {
                calls::ANSWERED => Ok(padded(&expected, length)),
                refusal => Err(refusal),
            };
            self.same("the answer of best_fees", (asked, answer), (asked, right))?;
            counts.fees(number);
            // An output that is a byte too short.
            let short = expected.len() - 1;
            let refusal = Model.best_fees(self.unit.area(), &asked, &mut vec![0; short]);
            let answer = self.unit.best_fees(&asked, short);
            let what = "best_fees with a short output";
            self.same(what, (asked, answer), (asked, Err(refusal)))?;
            counts.fees(refusal);
        }
        Ok(())
    }

    /// Parents first, which the oracle has not: its list is looked at beside the oracle's selection,
    /// and all of its answer is judged by the model.
    fn parents(&self, queue: &Queue, counts: &mut Counts) -> Result<(), Difference> {
        for (now, height) in self.moments() {
            let selected = Reading::SelectionEntriesAt(now, height);
            let selected = ids_of(&self.oracle.read(selected));
            let selected =
                selected.ok_or_else(|| self.fault("no selection of the oracle".into()))?;
            let model = output(4 + 32 * queue.records.len(), |out| {
                Model.parents_first(self.unit.area(), now, height, out)
            });
            let listed = model.ok().and_then(|answer| ids_of(&answer));
            let listed = listed.ok_or_else(|| self.fault("no list of the model".into()))?;
            let length = 4 + 32 * listed.len();
            // Some bytes more, and one too few.
            for length in [length + 3, length - 1] {
                let answer = self.unit.parents_first(now, height, length);
                if let Ok(answer) = &answer {
                    let found = part_of(&selected, answer);
                    let what = "the list of selection_parents_first";
                    self.same(what, (now, height, found), (now, height, Ok(())))?;
                }
                let right = output(length, |out| {
                    Model.parents_first(self.unit.area(), now, height, out)
                });
                let what = "the answer of selection_parents_first";
                self.same(what, (now, height, answer), (now, height, right))?;
            }
            count_parents(queue, &selected, &listed, counts);
        }
        Ok(())
    }

    /// What is wrong with the set, by the oracle's selection and the records of both.
    fn set_of(&self, queue: &Queue, asked: &Fees, answer: &[u8]) -> Result<(), &'static str> {
        let selected = Reading::SelectionEntriesAt(asked.now, asked.height);
        let selected = ids_of(&self.oracle.read(selected)).ok_or("no selection")?;
        let ids = ids_of(&answer[20..]).ok_or("it is not whole")?;
        if ids.iter().collect::<BTreeSet<_>>().len() != ids.len() {
            return Err("an id is there twice");
        }
        let mut rest = selected.iter();
        if !ids.iter().all(|id| rest.any(|other| other == id)) {
            return Err("it is no part of the selection, in its order");
        }
        let records: Option<Vec<&Record>> = ids.iter().map(|id| queue.record(id)).collect();
        let records = records.ok_or("an id is no record's")?;
        let mut owners: BTreeMap<&Id, &Id> = BTreeMap::new();
        for record in &records {
            for input in record.inputs() {
                if *owners.entry(input).or_insert(&record.id) != &record.id {
                    return Err("two records have one input");
                }
            }
        }
        let bytes: usize = records.iter().map(|record| record.byte_count()).sum();
        if bytes as u64 > asked.limit {
            return Err("it does not fit");
        }
        let fee: u128 = records.iter().map(|record| u128::from(record.fee)).sum();
        match answer[..8] == (fee as u64).to_be_bytes() && fee <= u128::from(u64::MAX) {
            true => Ok(()),
            false => Err("its fee is not the sum"),
        }
    }
}

/// Header kinds, mostly those that there are.
const KINDS: [u8; 15] = [1, 3, 4, 5, 6, 1, 3, 4, 5, 6, 1, 3, 0, 2, 7];
/// Withdrawn marks, two numbers that are none, and the mark that is there.
const MARKS: [Option<u8>; 7] = [Some(3), Some(5), Some(4), Some(0), Some(1), Some(2), None];

pub(crate) fn put_digits(text: &mut [u8], at: usize, byte: u8) {
    text[at..at + 2].copy_from_slice(format!("{byte:02x}").as_bytes());
}

/// The number that the model gives for best fees, and the answer's bytes.
fn model_fees(area: &[u8], asked: &Fees) -> (u64, Vec<u8>) {
    let mut out = vec![0; 24 + 32 * model::fees::MAX_CANDIDATES];
    let number = Model.best_fees(area, asked, &mut out);
    let count = ids_of(&out[20..]).map_or(0, |ids| ids.len());
    out.truncate(24 + 32 * count);
    (number, out)
}

/// What is wrong with the list, by the oracle's selection.
fn part_of(selected: &[Id], answer: &[u8]) -> Result<(), &'static str> {
    let ids = ids_of(answer).ok_or("it is not whole")?;
    if ids.iter().collect::<BTreeSet<_>>().len() != ids.len() {
        return Err("an id is there twice");
    }
    match ids.iter().all(|id| selected.contains(id)) {
        true => Ok(()),
        false => Err("an id is not selected"),
    }
}

fn count_parents(queue: &Queue, selected: &[Id], listed: &[Id], counts: &mut Counts) {
    let records = selected.iter().filter_map(|id| queue.record(id));
    let holders: Vec<&Record> = records.collect();
    let outputs = holders
        .iter()
        .flat_map(|one| one.outputs().iter().map(|id| (id, one.id)));
    let mut named: BTreeMap<&Id, BTreeSet<Id>> = BTreeMap::new();
    for (output, id) in outputs {
        named.entry(output).or_default().insert(id);
    }
    let waits = |one: &&Record| {
        let inputs = one.inputs().iter().filter_map(|input| named.get(input));
        inputs.flatten().any(|id| *id != one.id)
    };
    let mut rest = selected.iter();
    let in_order = listed.iter().all(|id| rest.any(|other| other == id));
    let counts = &mut counts.parents;
    counts.compared += 1;
    counts.waiting += u64::from(holders.iter().any(waits));
    counts.left_off += u64::from(listed.len() < selected.len());
    counts.turned += u64::from(!in_order);
}

/// An output of so many bytes that held this answer.
fn padded(answer: &[u8], length: usize) -> Vec<u8> {
    let mut out = answer.to_vec();
    out.resize(length.max(answer.len()), UNTOUCHED);
    out
}

/// The number that the model gives for the call.
pub(crate) fn model_number(call: &Call, queue: &Queue) -> u64 {
    use model::rules;
    let refusal = match call {
        Call::Admit(given) => rules::admit(queue, given).err(),
        Call::Cancel(id) => rules::cancel(queue, id).err(),
        Call::Expire(now, height) => rules::expire(queue, *now, *height).err(),
        Call::Reconcile(given) => rules::reconcile(queue, given).err(),
        Call::Reopen(_) | Call::SetCursor(..) => None,
    };
    refusal.unwrap_or(calls::ANSWERED)
}

fn count(call: &Call, write: Write, done: &unit::Done, counts: &mut Counts) {
    let answer = match (done.number, done.kind) {
        (100, Some(kind)) => format!("kind {kind}"),
        (17, Some(kind)) => format!("17 after kind {kind}"),
        (number, _) => number.to_string(),
    };
    counts.call(call.name(), answer);
    if matches!(done.kind, Some(2 | 3)) {
        counts.write(write.name());
    }
}

/// Runs a whole list; the first difference.
pub fn run_list<S: Side>(side: &S, folder: &Path, list: &List) -> Result<(), Difference> {
    let mut counts = Counts::default();
    if list.look.is_by_model() {
        return beside::run_list(side, list, &mut counts);
    }
    let mut pair = Pair::new(side, folder, list)?;
    pair.start(&mut counts)?;
    list.events
        .iter()
        .try_for_each(|event| pair.event(event, &mut counts))
}

/// A list and the difference that it shows.
pub type Found = Box<(List, Difference)>;

fn started<'a, S: Side>(
    side: &'a S,
    folder: &Path,
    list: &List,
    counts: &mut Counts,
) -> Result<Pair<'a, S>, Found> {
    let pair = Pair::new(side, folder, list).and_then(|pair| {
        pair.start(counts)?;
        Ok(pair)
    });
    pair.map_err(|found| Box::new((list.clone(), found)))
}

/// Queues for parents first that belong to one seed.
const PARENTS: u64 = 12;

/// What belongs to one seed: a random list, under these limits or random ones, a queue for best fees,
/// some for parents first, a list with callers and shares, one with read ids, and one with priorities of 64
/// bits.
pub fn seed<S: Side>(
    side: &S,
    folder: &Path,
    seed: u64,
    limits: Option<Limits>,
    look: Look,
    counts: &mut Counts,
) -> Result<(), Found> {
    let mut rng = Rng::new(seed);
    let limits = limits.unwrap_or_else(|| generate::limits(&mut rng));
    random_list(side, folder, &mut rng, limits, look, counts)?;
    if look == Look::Withdrawn {
        return Ok(());
    }
    let list = generate::fees_list(&mut Rng::new(seed));
    started(side, folder, &list, counts)?;
    for n in 0..PARENTS {
        let seed = seed.wrapping_mul(PARENTS).wrapping_add(n);
        let list = generate::parents_list(&mut Rng::new(seed));
        started(side, folder, &list, counts)?;
    }
    for look in [Look::Callers, Look::Reads, Look::Wide] {
        beside::random_list(side, &mut Rng::new(seed), look, counts)?;
    }
    Ok(())
}

/// Makes and runs one random list. A difference comes with the list up to it.
fn random_list<S: Side>(
    side: &S,
    folder: &Path,
    rng: &mut Rng,
    limits: Limits,
    look: Look,
    counts: &mut Counts,
) -> Result<(), Found> {
    let mut list = generate::list(rng, limits);
    list.look = look;
    // Long lists in small areas; a few events where each takes long.
    let length = if limits.need() > 1_000_000 {
        1 + rng.below(10)
    } else {
        1 + rng.below(120)
    };
    counts.lists += 1;
    let mut pair = started(side, folder, &list, counts)?;
    for _ in 0..length {
        let queue = match pair.unit.queue() {
            Ok(queue) => queue,
            Err(fault) => return Err(Box::new((list, pair.fault(fault)))),
        };
        let event = generate::event(rng, &queue);
        list.events.push(event.clone());
        if let Err(found) = pair.event(&event, counts) {
            return Err(Box::new((list, found)));
        }
    }
    Ok(())
}
