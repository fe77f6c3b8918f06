//! Lists that the oracle cannot run: a side and the model run beside each other, and all that can be
//! seen of the one is to be that of the other.

use model::calls::entry_bytes;
use model::random::Rng;
use model::{area, HeaderKind, Height, Queue, Record, TimeMs};

use crate::counts::Counts;
use crate::list::{Event, List, Look, Short};
use crate::run::{Difference, Found};
use crate::side::{Model, Reading, Side};
use crate::unit::{Fault, Unit};
use crate::wide::as_texts;
use crate::{callers, generate, reads, wide};

/// The most events of a list.
const EVENTS: usize = 60;
/// No answer of best fees is longer.
const BEST_FEES: usize = 664;

/// A side and the model, run together.
pub(crate) struct Two<'a, S: Side> {
    pub unit: Unit<'a, S>,
    pub model: Unit<'a, Model>,
    /// Of what is put into texts and areas.
    pub seed: u64,
    pub probe: (TimeMs, Height),
    pub at: usize,
    look: Look,
}

impl<'a, S: Side> Two<'a, S> {
    fn new(side: &'a S, list: &List) -> Result<Self, Difference> {
        let unit = Unit::new(side, list.limits, &list.start);
        let model = Unit::new(&Model, list.limits, &list.start);
        let (unit, model) = match (unit, model) {
            (Ok(unit), Ok(model)) => (unit, model),
            (unit, model) => return Err(differ(0, "the start", unit.err(), model.err())),
        };
        Ok(Two {
            unit,
            model,
            seed: list.fees,
            probe: list.probe,
            at: 0,
            look: list.look,
        })
    }

    fn event(&mut self, event: &Event, counts: &mut Counts) -> Result<(), Difference> {
        match self.look {
            Look::Reads => counts.reads.events += 1,
            Look::Wide => counts.wide.events += 1,
            _ => counts.callers.events += 1,
        }
        let before = self.queue()?;
        let restarts = self.model.stored.is_none();
        match event {
            Event::Cut => {
                let opened = (self.unit.restart(), self.model.restart());
                self.same("opening after a cut", opened.0, opened.1)?;
                self.restarted(restarts, counts);
            }
            Event::Call(call, write) => {
                let done = self.unit.call(call, *write);
                let right = self.model.call(call, *write);
                let right = right.map_err(|fault| self.fault(fault))?;
                let what = format!("what {} did", call.name());
                self.same(&what, done, Ok(right.clone()))?;
                if right.cut {
                    self.restarted(restarts && self.model.stored.is_none(), counts);
                } else {
                    let after = self.queue()?;
                    match self.look {
                        Look::Reads => reads::count(call, &before, &after, &right, counts),
                        Look::Wide => wide::count(call, &right, counts),
                        _ => callers::count(call, &before, &after, &right, counts),
                    }
                }
            }
        }
        self.seen(counts)?;
        self.at += 1;
        Ok(())
    }

    /// After a cut, with a fresh queue or what was stored.
    fn restarted(&self, fresh: bool, counts: &mut Counts) {
        if self.look == Look::Callers {
            callers::count_restart(self.model.area(), fresh, counts);
        }
    }

    /// Every byte of the areas and of what is stored, and every reading call.
    fn seen(&self, counts: &mut Counts) -> Result<(), Difference> {
        let text = |stored: &Option<Vec<u8>>| stored.as_deref().map(as_text);
        self.same(
            "the image",
            text(&self.unit.stored),
            text(&self.model.stored),
        )?;
        self.same_area("the area", self.unit.area(), self.model.area())?;
        let queue = self.queue()?;
        self.same("the queue", self.unit.queue(), Ok(queue.clone()))?;
        let entries = queue.records.iter().map(|of| entry_bytes(of).len());
        // Enough for every one of them: a snapshot has two lists.
        let length = 100 + 2 * entries.sum::<usize>();
        let (now, height) = (self.probe.0 .0, self.probe.1 .0);
        for reading in Reading::all(now, height) {
            let answer = self.unit.read(reading, length);
            let what = format!("the answer of {}", reading.name());
            self.same(&what, answer, self.model.read(reading, length))?;
        }
        let listed = self.unit.parents_first(now, height, length);
        let right = self.model.parents_first(now, height, length);
        self.same("the answer of selection_parents_first", listed, right)?;
        for asked in generate::fees(self.seed, &queue, self.probe) {
            let best = self.unit.best_fees(&asked, BEST_FEES);
            let right = self.model.best_fees(&asked, BEST_FEES);
            self.same("the answer of best_fees", best, right)?;
        }
        for (n, record) in queue.records.iter().enumerate() {
            // Of one record after each event also with other outputs.
            self.entry(record, n == self.at % queue.records.len())?;
        }
        if let Some(text) = &self.model.stored {
            for length in [63, 64] {
                let right = self.model.image_limits(text, length);
                let answer = self.unit.image_limits(text, length);
                self.same("the answer of image_limits", answer, right)?;
            }
        }
        self.converted(&queue, counts)?;
        match self.look {
            Look::Reads => reads::seen(self, &queue, counts),
            Look::Wide => wide::seen(self, &queue, counts),
            _ => callers::seen(self, &queue, counts),
        }
    }

    /// What is made an image of kind 01.
    fn converted(&self, queue: &Queue, counts: &mut Counts) -> Result<(), Difference> {
        let rng = &mut Rng::new(self.seed);
        let text = wide::text(rng, queue, self.model.stored.as_deref());
        let right = text.right();
        text.count(right.0, counts);
        let what = format!("the answer of convert for {}", text.what);
        let answer = self.unit.convert(&text.bytes, text.lent);
        self.same(&what, as_texts(answer), as_texts(right))
    }

    /// The entry, with an output that is long enough, or also with one that is longer and with one that is a
    /// byte too short; the signed bytes.
    fn entry(&self, record: &Record, others: bool) -> Result<(), Difference> {
        let length = entry_bytes(record).len();
        let lengths = [length, length - 1, length + 3];
        for length in lengths.into_iter().take(if others { 3 } else { 1 }) {
            let right = self.model.entry(&record.id, length);
            let answer = self.unit.entry(&record.id, length);
            self.same("the answer of entry", answer, right)?;
        }
        let signed = self.unit.signed_bytes(&record.id);
        let right = self.model.signed_bytes(&record.id);
        self.same("the answer of signed_bytes", signed, right)
    }

    /// The model's queue.
    fn queue(&self) -> Result<Queue, Difference> {
        self.model.queue().map_err(|fault| self.fault(fault))
    }

    fn fault(&self, fault: Fault) -> Difference {
        differ(self.at, "a fault of the model", "-", fault)
    }

    /// Whether this area is sound, and what this text opens as; the answers are counted by these names.
    pub fn same_altered(
        &self,
        area: &[u8],
        text: &[u8],
        names: [&'static str; 2],
        counts: &mut Counts,
    ) -> Result<(), Difference> {
        let right = self.model.soundness(area);
        self.same("the answer of sound", self.unit.soundness(area), right)?;
        let newest = HeaderKind::NEWEST as u8;
        counts.kind(names[0], newest, right);
        let right = self.model.opened(text);
        counts.kind(names[1], newest, right.0);
        let answer = self.unit.opened(text);
        self.same("the answer of open", answer.0, right.0)?;
        self.same_area("the opened area", &answer.1, &right.1)
    }

    /// Areas are shown as the queues that they hold.
    pub fn same_area(&self, what: &str, side: &[u8], model: &[u8]) -> Result<(), Difference> {
        match side == model {
            true => Ok(()),
            false => Err(differ(
                self.at,
                what,
                area::decode(side),
                area::decode(model),
            )),
        }
    }

    pub fn same<T: PartialEq + std::fmt::Debug>(
        &self,
        what: &str,
        side: T,
        model: T,
    ) -> Result<(), Difference> {
        match side == model {
            true => Ok(()),
            false => Err(differ(self.at, what, side, model)),
        }
    }
}

fn as_text(image: &[u8]) -> String {
    String::from_utf8_lossy(image).into_owned()
}

fn differ(
    at: usize,
    what: &str,
    side: impl std::fmt::Debug,
    model: impl std::fmt::Debug,
) -> Difference {
    Difference {
        at,
        what: format!("{what}, by the model"),
        side: Short(side).to_string(),
        oracle: Short(model).to_string(),
    }
}

/// Runs a whole list; the first difference.
pub(crate) fn run_list<S: Side>(
    side: &S,
    list: &List,
    counts: &mut Counts,
) -> Result<(), Difference> {
    let mut two = Two::new(side, list)?;
    two.seen(counts)?;
    list.events
        .iter()
        .try_for_each(|event| two.event(event, counts))
}

/// Makes and runs one random list, with callers and shares, with read ids or with wide priorities. A
/// difference comes with the list up to it.
pub(crate) fn random_list<S: Side>(
    side: &S,
    rng: &mut Rng,
    look: Look,
    counts: &mut Counts,
) -> Result<(), Found> {
    let mut list = match look {
        Look::Reads => generate::reads_list(rng),
        Look::Wide => generate::wide_list(rng),
        _ => generate::callers_list(rng),
    };
    match look {
        Look::Reads => counts.reads.lists += 1,
        Look::Wide => counts.wide.lists += 1,
        _ => counts.callers.lists += 1,
    }
    let started = Two::new(side, &list).and_then(|two| two.seen(counts).map(|()| two));
    let mut two = started.map_err(|found| Box::new((list.clone(), found)))?;
    for _ in 0..1 + rng.below(EVENTS) {
        let queue = two.queue();
        let queue = queue.map_err(|found| Box::new((list.clone(), found)))?;
        let event = match look {
            Look::Reads => generate::reads_event(rng, &queue),
            Look::Wide => generate::wide_event(rng, &queue),
            _ => generate::callers_event(rng, &queue),
        };
        list.events.push(event.clone());
        if let Err(found) = two.event(&event, counts) {
            return Err(Box::new((list, found)));
        }
    }
    Ok(())
}
