//! Runs events on lent areas as a node does: a call, the image, the write, settling.

use model::calls::{AdmitArgs, ReconcileArgs};
use model::rules::{Admission, Reconciliation};
use model::{area, image, Id, Limits, Queue};

use crate::list::{Call, Start, Write};
use crate::side::{Fees, Reading, Side};

/// Bytes lent after the need; no call may change them.
const LATER: [u8; 5] = [0xee; 5];
/// What an output holds before the call.
pub const UNTOUCHED: u8 = 0xee;

/// What became of a call.
#[derive(Debug, Clone, PartialEq, Eq)]
pub struct Done {
    /// A refusal, 17 among them, or 100.
    pub number: u64,
    /// The kind, unless the call was refused by another number than 17.
    pub kind: Option<u64>,
    /// The whole output, as the call left it before its write; empty after a refusal, 17 among them.
    pub out: Vec<u8>,
    /// Power was cut; the queue was opened again.
    pub cut: bool,
}

/// A queue in two areas and a stored image.
pub struct Unit<'s, S: Side> {
    side: &'s S,
    /// The limits and shares for a fresh queue after a cut with nothing stored.
    first_limits: Limits,
    need: usize,
    current: Vec<u8>,
    next: Vec<u8>,
    pub stored: Option<Vec<u8>>,
}

/// Something is wrong that needs no oracle to see.
pub type Fault = String;

impl<'s, S: Side> Unit<'s, S> {
    pub fn new(side: &'s S, limits: Limits, start: &Start) -> Result<Self, Fault> {
        let mut unit = Unit {
            side,
            first_limits: limits,
            need: limits.need(),
            current: Vec::new(),
            next: Vec::new(),
            stored: None,
        };
        match start {
            Start::Fresh => unit.restart()?,
            Start::Queue(queue, kind) => {
                unit.current = lent(limits.need());
                unit.next = lent(limits.need());
                let bytes = area::encode(queue);
                unit.current[..bytes.len()].copy_from_slice(&bytes);
                unit.stored = Some(image::encode_as(*kind, queue));
            }
        }
        Ok(unit)
    }

    /// Opening what is stored, or a fresh queue where nothing is.
    pub fn restart(&mut self) -> Result<(), Fault> {
        self.current = lent(self.need);
        self.next = lent(self.need);
        let (call, number) = match &self.stored {
            Some(text) => ("open", self.side.open(text, &mut self.current)),
            None => {
                let (limits, shares) =
                    (self.first_limits.numbers(), self.first_limits.share_bytes());
                ("fresh", self.side.fresh(limits, &shares, &mut self.current))
            }
        };
        expect(call, number, 100)
    }

    /// The number that opening this text gives back, and the area as it is then.
    pub fn opened(&self, text: &[u8]) -> (u64, Vec<u8>) {
        let mut area = self.to_open();
        (self.side.open(text, &mut area), area)
    }

    /// An area to write, before the call.
    pub fn to_open(&self) -> Vec<u8> {
        lent(self.need)
    }

    /// The number for bytes lent as an area.
    pub fn soundness(&self, area: &[u8]) -> u64 {
        self.side.sound(area)
    }

    pub fn area(&self) -> &[u8] {
        &self.current
    }

    /// The queue in the current area.
    pub fn queue(&self) -> Result<Queue, Fault> {
        if self.current[self.need..] != LATER || self.next[self.need..] != LATER {
            return Err("a call changed bytes after the area's need".into());
        }
        expect("sound", self.side.sound(&self.current), 100)?;
        area::decode(&self.current).ok_or("the current area is not sound".into())
    }

    pub fn call(&mut self, call: &Call, write: Write) -> Result<Done, Fault> {
        let before = self.current.clone();
        let mut out = vec![UNTOUCHED; answer_bound(&self.first_limits)];
        let number = self.make(call, &mut out);
        if self.current != before {
            return Err("a call changed the current area".into());
        }
        match number {
            1..=16 | 18 | 20 => Ok(done(number, None, Vec::new())),
            100 => Ok(done(100, Some(0), out)),
            101 => {
                std::mem::swap(&mut self.current, &mut self.next);
                Ok(done(100, Some(1), out))
            }
            102 | 103 => self.write(number - 100, write, out),
            _ => Err(format!("{} gave back {number}", call.name())),
        }
    }

    fn make(&mut self, call: &Call, out: &mut [u8]) -> u64 {
        let (side, cur, next) = (self.side, &self.current, &mut self.next);
        match call {
            Call::Admit(given) => {
                let lists = [&given.inputs, &given.outputs, &given.reads].map(|ids| ids.concat());
                side.admit(cur, next, &admit_args(given, &lists), out)
            }
            Call::Cancel(id) => side.cancel(cur, next, id, out),
            Call::Expire(now, height) => side.expire(cur, next, now.0, height.0, out),
            Call::Reconcile(given) => {
                let applied = applied_bytes(given);
                let available: Vec<u8> = given.available.iter().flatten().copied().collect();
                let args = reconcile_args(given, &applied, &available);
                side.reconcile(cur, next, &args, out)
            }
            Call::Reopen(ids) => {
                let ids: Vec<u8> = ids.iter().flatten().copied().collect();
                side.reopen(cur, next, &ids)
            }
            Call::SetCursor(height, tip) => {
                let flag = u8::from(tip.is_some());
                side.set_cursor(cur, next, height.0, flag, optional_id(tip))
            }
        }
    }

    fn write(&mut self, kind: u64, write: Write, out: Vec<u8>) -> Result<Done, Fault> {
        let text = self.image_of_next()?;
        match write {
            Write::Kept => {
                self.stored = Some(text);
                let number = self.side.settle(&self.current, &mut self.next, kind, 0);
                expect("settle", number, 100)?;
                std::mem::swap(&mut self.current, &mut self.next);
                Ok(done(100, Some(kind), out))
            }
            Write::NotCreated | Write::NotRenamed => {
                let number = self.side.settle(&self.current, &mut self.next, kind, 1);
                expect("settle", number, 17)?;
                std::mem::swap(&mut self.current, &mut self.next);
                Ok(done(17, Some(kind), Vec::new()))
            }
            Write::CutBeforeRename | Write::CutAfterRename => {
                if write == Write::CutAfterRename {
                    self.stored = Some(text);
                }
                self.restart()?;
                Ok(Done {
                    cut: true,
                    ..done(100, Some(kind), out)
                })
            }
        }
    }

    fn image_of_next(&self) -> Result<Vec<u8>, Fault> {
        let mut text = vec![0; 3 * self.need];
        let mut length = 0;
        let number = self.side.image(&self.next, &mut text, &mut length);
        expect("image", number, 100)?;
        text.truncate(length as usize);
        Ok(text)
    }

    pub fn read(&self, reading: Reading, length: usize) -> Result<Vec<u8>, u64> {
        output(length, |out| self.side.read(reading, &self.current, out))
    }

    /// No answer of ids is longer: no queue has more records than there is room for.
    fn ids_bound(&self) -> usize {
        let limits = &self.first_limits;
        4 + 32 * (2 * limits.pending + limits.tombstones) as usize
    }

    /// The ids that a selection has.
    pub fn selected(&self, reading: Reading) -> Result<Vec<Id>, Fault> {
        let answer = self.read(reading, self.ids_bound());
        ids_in(reading.name(), answer)
    }

    /// The ids that are listed parents first.
    pub fn listed(&self, now: u64, height: u32) -> Result<Vec<Id>, Fault> {
        let answer = self.parents_first(now, height, self.ids_bound());
        ids_in("selection_parents_first", answer)
    }

    pub fn entry(&self, id: &Id, length: usize) -> Result<Vec<u8>, u64> {
        output(length, |out| self.side.entry(&self.current, id, out))
    }

    pub fn best_fees(&self, asked: &Fees, length: usize) -> Result<Vec<u8>, u64> {
        output(length, |out| self.side.best_fees(&self.current, asked, out))
    }

    pub fn parents_first(&self, now: u64, height: u32, length: usize) -> Result<Vec<u8>, u64> {
        let area = &self.current;
        output(length, |out| {
            self.side.parents_first(area, now, height, out)
        })
    }

    /// The number given back, and what stands behind the pointer.
    pub fn need(&self, limits: [u64; 4]) -> (u64, u64) {
        let mut value = UNTOUCHED.into();
        (self.side.need(limits, &mut value), value)
    }

    /// The number given back, what stands behind the five pointers, and the shares, for which so many
    /// bytes are lent.
    pub fn image_limits(&self, text: &[u8], length: usize) -> (u64, [u64; 5], Vec<u8>) {
        image_limits(self.side, text, length)
    }

    /// The number given back for a text to convert, the output of so many bytes, and what stands behind the
    /// pointer.
    pub fn convert(&self, text: &[u8], length: usize) -> (u64, Vec<u8>, u64) {
        let (mut out, mut written) = (vec![UNTOUCHED; length], UNTOUCHED.into());
        let number = self.side.convert(text, &mut out, &mut written);
        (number, out, written)
    }

    /// The number that a fresh queue under these limits gives back, and the area as it is then: one
    /// that is long enough, or a byte too short.
    pub fn fresh(&self, limits: [u64; 4], shares: &[u8], short: bool) -> (u64, Vec<u8>) {
        let mut area = self.to_open();
        if short {
            area.truncate(self.need - 1);
        }
        (self.side.fresh(limits, shares, &mut area), area)
    }

    /// The number that an admission of the caller with this number gives back; it has no effect.
    pub fn admission_by(&self, given: &Admission, caller: u8) -> u64 {
        let lists = [&given.inputs, &given.outputs, &given.reads].map(|ids| ids.concat());
        let args = AdmitArgs {
            caller,
            ..admit_args(given, &lists)
        };
        self.admission(&args)
    }

    /// The number that an admission with these read ids, whole or not, gives back; it has no effect.
    pub fn admission_reading(&self, given: &Admission, reads: &[u8]) -> u64 {
        let lists = [
            given.inputs.concat(),
            given.outputs.concat(),
            reads.to_vec(),
        ];
        self.admission(&admit_args(given, &lists))
    }

    fn admission(&self, args: &AdmitArgs<'_>) -> u64 {
        let mut out = vec![UNTOUCHED; answer_bound(&self.first_limits)];
        let mut next = self.next.clone();
        self.side.admit(&self.current, &mut next, args, &mut out)
    }

    pub fn signed_bytes(&self, id: &Id) -> Result<&[u8], u64> {
        let (mut start, mut length) = (0, 0);
        match self
            .side
            .signed_bytes(&self.current, id, &mut start, &mut length)
        {
            100 => Ok(&self.current[start as usize..(start + length) as usize]),
            number => Err(number),
        }
    }
}

/// What a side says of an image: [`Unit::image_limits`].
pub(crate) fn image_limits<S: Side>(
    side: &S,
    text: &[u8],
    length: usize,
) -> (u64, [u64; 5], Vec<u8>) {
    let (mut numbers, mut shares) = ([UNTOUCHED.into(); 5], vec![UNTOUCHED; length]);
    let number = side.image_limits(text, &mut numbers, &mut shares);
    (number, numbers, shares)
}

/// The output of `length` bytes that a call leaves, or its refusal.
pub(crate) fn output(length: usize, call: impl FnOnce(&mut [u8]) -> u64) -> Result<Vec<u8>, u64> {
    let mut out = vec![UNTOUCHED; length];
    match call(&mut out) {
        100 => Ok(out),
        number => Err(number),
    }
}

fn done(number: u64, kind: Option<u64>, out: Vec<u8>) -> Done {
    Done {
        number,
        kind,
        out,
        cut: false,
    }
}

fn lent(need: usize) -> Vec<u8> {
    let mut bytes = vec![0; need];
    bytes.extend(LATER);
    bytes
}

fn expect(call: &str, number: u64, expected: u64) -> Result<(), Fault> {
    if number != expected {
        return Err(format!("{call} gave back {number}, not {expected}"));
    }
    Ok(())
}

/// The ids that a call answered.
fn ids_in(call: &str, answer: Result<Vec<u8>, u64>) -> Result<Vec<Id>, Fault> {
    let answer = answer.map_err(|number| format!("{call} gave back {number}"))?;
    ids_of(&answer).ok_or(format!("{call} is not whole"))
}

/// The ids behind their count; nothing where they are not all there.
pub(crate) fn ids_of(bytes: &[u8]) -> Option<Vec<Id>> {
    let (count, ids) = bytes.split_first_chunk()?;
    let count = u32::from_be_bytes(*count) as usize;
    let (ids, _) = ids.split_at_checked(32 * count)?.0.as_chunks::<32>();
    Some(ids.to_vec())
}

/// What `admit` is given for this admission; its inputs, outputs and read ids, each list as its bytes.
pub fn admit_args<'a>(
    given: &'a Admission,
    [inputs, outputs, reads]: &'a [Vec<u8>; 3],
) -> AdmitArgs<'a> {
    AdmitArgs {
        id: &given.id,
        caller: given.caller.0,
        inputs,
        outputs,
        reads,
        signed: &given.signed,
        now: given.now.0,
        time_flag: u8::from(given.time_deadline.is_some()),
        time: given.time_deadline.map_or(0, |time| time.0),
        height_flag: u8::from(given.height_deadline.is_some()),
        height: given.height_deadline.map_or(0, |height| height.0),
        priority: given.priority as u64,
        label_flag: u8::from(given.label.is_some()),
        label: given.label.as_deref().unwrap_or_default(),
        fee: given.fee,
        cost: given.cost,
        tip_height: given.tip_height.0,
        tip_flag: u8::from(given.tip.is_some()),
        tip: optional_id(&given.tip),
    }
}

pub(crate) fn reconcile_args<'a>(
    given: &'a Reconciliation,
    applied: &'a [u8],
    available: &'a [u8],
) -> ReconcileArgs<'a> {
    ReconcileArgs {
        height: given.height.0,
        tip: &given.tip,
        applied,
        caught_up: u8::from(given.caught_up),
        available,
        window: given.window,
    }
}

/// Entries of id, height and block id.
pub(crate) fn applied_bytes(given: &Reconciliation) -> Vec<u8> {
    let entries = given.applied.iter();
    entries
        .flat_map(|(id, found)| [&id[..], &found.height.0.to_be_bytes(), &found.block].concat())
        .collect()
}

pub(crate) fn optional_id(id: &Option<Id>) -> &[u8] {
    id.as_ref().map_or(&[], |id| id)
}

/// No changing call's answer is longer.
fn answer_bound(limits: &Limits) -> usize {
    400 + 64 * limits.inputs as usize + 64 * limits.pending as usize
}
