//! How often each call, kind, refusal and write outcome was met.

use std::collections::BTreeMap;
use std::fmt;

use crate::wide::Cause;

#[derive(Debug, Clone, Default)]
pub struct Counts {
    pub steps: u64,
    pub lists: u64,
    /// By call, then by what was answered.
    calls: BTreeMap<&'static str, BTreeMap<String, u64>>,
    writes: BTreeMap<&'static str, u64>,
    readings: BTreeMap<&'static str, u64>,
    /// Best fees, by the number given back.
    fees: BTreeMap<u64, u64>,
    pub cuts_between_calls: u64,
    pub withdrawn: Withdrawn,
    pub parents: Parents,
    pub marks: Marks,
    pub callers: Callers,
    pub reads: Reads,
    pub wide: Wide,
    pub converted: Converted,
    /// Texts and areas with other kinds and marks, by what was lent, its kind and the number given back.
    kinds: BTreeMap<(&'static str, u8), BTreeMap<u64, u64>>,
}

/// Records that were confirmed with reason 3 (document 02, P4).
#[derive(Debug, Clone, Copy, Default)]
pub struct Marks {
    /// After which the reason of some record is left out.
    pub events: u64,
    /// Given mark 3.
    pub confirmed: u64,
    /// Back from mark 3.
    pub rolled_back: u64,
    /// Those that were released in the same list.
    pub released: u64,
}

/// Lists with callers and shares, which the model judges (document 02, P8).
#[derive(Debug, Clone, Copy, Default)]
pub struct Callers {
    pub lists: u64,
    pub events: u64,
    /// Admissions that were refused by 18.
    pub refused: u64,
    /// Those of a caller that has a share.
    pub used_up: u64,
    /// Admissions that were kept, of a caller other than 0.
    pub admitted: u64,
    /// Tombstones that were replaced by another caller's record.
    pub replaced: u64,
    /// Callers that a rollback lifted above their share.
    pub lifted: u64,
    /// Fresh queues after a cut with nothing stored, with other shares than all to caller 0.
    pub restarted: u64,
    /// Callers over 15, each refused by 5 where the area is sound.
    pub over_15: u64,
    /// Shares over P, refused by 1.
    pub over_p: u64,
    /// Shares that are not 64 bytes, refused by 5.
    pub not_whole: u64,
}

/// Lists with read ids, which the model judges (document 02, P11).
#[derive(Debug, Clone, Copy, Default)]
pub struct Reads {
    pub lists: u64,
    pub events: u64,
    /// Admissions that were refused by 20.
    pub refused: u64,
    /// Those of which another record reads an input.
    pub input_read: u64,
    /// Those of which another record spends a read id.
    pub read_spent: u64,
    /// Those that none but Mined holders stand against.
    pub by_mined: u64,
    /// Admissions that were kept, with read ids.
    pub admitted: u64,
    /// Those that read what another record reads.
    pub shared: u64,
    /// Those that read what they spend.
    pub own: u64,
    /// Records whose inputs were all there and that a read id made Conflicted.
    pub conflicted: u64,
    /// Records with read ids that became Queued again.
    pub queued_again: u64,
    /// Records with read ids that were finished.
    pub finished: u64,
    /// Events after which a selected record waits for what it reads alone.
    pub waiting: u64,
    /// Read lists over K, refused by 6.
    pub over_k: u64,
    /// Read lists that are not whole, refused by 5.
    pub not_whole: u64,
}

/// Lists with priorities of 64 bits, which the model judges (document 02, P13).
#[derive(Debug, Clone, Copy, Default)]
pub struct Wide {
    pub lists: u64,
    pub events: u64,
    /// Admissions that were kept, with a priority outside 32 bits.
    pub admitted: u64,
    /// Those with the first one beyond an end of 32 bits.
    pub beyond: u64,
    /// Events after which the selection is in another order without the sign, by the last 32 bits alone, or
    /// by the first 32 alone.
    pub by_sign: u64,
    pub by_last: u64,
    pub by_first: u64,
}

/// Texts that the converter was given, in all lists (document 02, P13). The model is the judge.
#[derive(Debug, Clone, Copy, Default)]
pub struct Converted {
    pub answered: u64,
    /// Those with records.
    pub with_records: u64,
    /// Images of older kinds, refused by 16.
    pub older: u64,
    /// Other texts that were refused by 16.
    pub no_image: u64,
    /// Refused by 4.
    pub short: u64,
    /// Refused by 22, for one cause or several.
    pub refused: u64,
    /// For one cause alone: in a holder, and in a tombstone.
    pub priority: [u64; 2],
    pub caller: [u64; 2],
    pub shares: u64,
    pub mark: u64,
    pub reads: u64,
}

impl Converted {
    /// The count of this cause alone.
    pub fn by(&mut self, cause: Cause) -> &mut u64 {
        match cause {
            Cause::Priority(place) => &mut self.priority[place as usize],
            Cause::Caller(place) => &mut self.caller[place as usize],
            Cause::Shares => &mut self.shares,
            Cause::Mark => &mut self.mark,
            Cause::Reads => &mut self.reads,
        }
    }
}

/// Selections that were compared parents first (document 02, P7).
#[derive(Debug, Clone, Copy, Default)]
pub struct Parents {
    pub compared: u64,
    /// Those in which a record waits.
    pub waiting: u64,
    /// Those of which one is left off.
    pub left_off: u64,
    /// Those of which two stand the other way round.
    pub turned: u64,
}

/// How often the oracle had something to keep out of its selections (document 02, P1).
#[derive(Debug, Clone, Copy, Default)]
pub struct Withdrawn {
    /// After which some id was withdrawn and not admitted since.
    pub events: u64,
    /// Withdrawn by a write that was kept or cut after its rename.
    pub ids: u64,
    /// Those by a write that was cut after its rename.
    pub ids_by_cut: u64,
    /// Those that T made the call forget.
    pub forgotten_at_once: u64,
    /// Admitted after that, by a write that was kept or cut after its rename.
    pub admitted: u64,
    pub admitted_by_cut: u64,
    /// Admissions of such ids that were answered without a write.
    pub kind_0: u64,
}

impl Counts {
    pub fn call(&mut self, call: &'static str, answer: String) {
        *self
            .calls
            .entry(call)
            .or_default()
            .entry(answer)
            .or_default() += 1;
    }

    pub fn write(&mut self, write: &'static str) {
        *self.writes.entry(write).or_default() += 1;
    }

    pub fn reading(&mut self, reading: &'static str) {
        *self.readings.entry(reading).or_default() += 1;
    }

    pub fn fees(&mut self, number: u64) {
        *self.fees.entry(number).or_default() += 1;
    }

    pub fn kind(&mut self, lent: &'static str, kind: u8, number: u64) {
        let numbers = self.kinds.entry((lent, kind)).or_default();
        *numbers.entry(number).or_default() += 1;
    }

    /// The numbers that were given back for what was lent in this kind.
    pub fn met_by_kind(&self, lent: &'static str, kind: u8) -> Vec<u64> {
        let numbers = self.kinds.get(&(lent, kind));
        numbers.map_or(Vec::new(), |numbers| numbers.keys().copied().collect())
    }

    /// The numbers that best fees gave back.
    pub fn met_by_fees(&self) -> Vec<u64> {
        self.fees.keys().copied().collect()
    }

    /// The answer of the one call that was counted.
    pub fn only_answer(&self) -> String {
        let mut answers = self.calls.values().flat_map(BTreeMap::keys);
        let answer = answers.next().cloned().unwrap_or_default();
        assert!(answers.next().is_none(), "more than one answer was counted");
        answer
    }

    /// Whether a call was answered so.
    pub fn met(&self, call: &str, answer: &str) -> bool {
        self.calls
            .get(call)
            .is_some_and(|answers| answers.contains_key(answer))
    }
}

impl fmt::Display for Counts {
    fn fmt(&self, f: &mut fmt::Formatter<'_>) -> fmt::Result {
        writeln!(f, "{} events in {} lists", self.steps, self.lists)?;
        for (call, answers) in &self.calls {
            let answers: Vec<String> = answers
                .iter()
                .map(|(answer, count)| format!("{answer}: {count}"))
                .collect();
            writeln!(f, "  {call}: {}", answers.join(", "))?;
        }
        for (write, count) in &self.writes {
            writeln!(f, "  writes {write}: {count}")?;
        }
        writeln!(f, "  cuts between calls: {}", self.cuts_between_calls)?;
        let readings: Vec<String> = self
            .readings
            .iter()
            .map(|(reading, count)| format!("{reading} {count}"))
            .collect();
        writeln!(f, "  reading calls: {}", readings.join(", "))?;
        let fees: Vec<String> = self
            .fees
            .iter()
            .map(|(number, count)| format!("{number}: {count}"))
            .collect();
        writeln!(f, "  best_fees: {}", fees.join(", "))?;
        writeln!(f, "  {}", self.parents)?;
        for ((lent, kind), numbers) in &self.kinds {
            let numbers: Vec<String> = numbers
                .iter()
                .map(|(number, count)| format!("{number}: {count}"))
                .collect();
            let numbers = numbers.join(", ");
            writeln!(f, "  {lent} with header kind {kind:02x}: {numbers}")?;
        }
        writeln!(f, "  {}", self.marks)?;
        writeln!(f, "  {}", self.callers)?;
        writeln!(f, "  {}", self.reads)?;
        writeln!(f, "  {}", self.wide)?;
        writeln!(f, "  {}", self.converted)?;
        writeln!(f, "  {}", self.withdrawn)
    }
}

impl fmt::Display for Parents {
    fn fmt(&self, f: &mut fmt::Formatter<'_>) -> fmt::Result {
        write!(
            f,
            "selection_parents_first: {} selections; a record waits in {}, one is left off in {}, the \
             order is another in {}",
            self.compared, self.waiting, self.left_off, self.turned
        )
    }
}

impl fmt::Display for Callers {
    fn fmt(&self, f: &mut fmt::Formatter<'_>) -> fmt::Result {
        write!(
            f,
            "callers and shares, by the model: {} lists, {} events; refused by 18: {} ({} of a caller \
             with a share); {} admitted by callers 1 to 15, {} tombstones replaced by another caller's \
             record, {} callers lifted above their share, {} fresh queues after a cut; callers over 15: \
             {}, shares over P: {}, not 64 bytes: {}",
            self.lists,
            self.events,
            self.refused,
            self.used_up,
            self.admitted,
            self.replaced,
            self.lifted,
            self.restarted,
            self.over_15,
            self.over_p,
            self.not_whole
        )
    }
}

impl fmt::Display for Reads {
    fn fmt(&self, f: &mut fmt::Formatter<'_>) -> fmt::Result {
        write!(
            f,
            "read ids, by the model: {} lists, {} events; refused by 20: {} ({} with an input that is \
             read, {} with a read id that is spent, {} by Mined records alone); {} admitted with read \
             ids, {} of them with what another reads, {} with what they spend; {} Conflicted by a read \
             id alone, {} Queued again, {} finished; after {} events a record waits for what it reads \
             alone; read lists over K: {}, not whole: {}",
            self.lists,
            self.events,
            self.refused,
            self.input_read,
            self.read_spent,
            self.by_mined,
            self.admitted,
            self.shared,
            self.own,
            self.conflicted,
            self.queued_again,
            self.finished,
            self.waiting,
            self.over_k,
            self.not_whole
        )
    }
}

impl fmt::Display for Wide {
    fn fmt(&self, f: &mut fmt::Formatter<'_>) -> fmt::Result {
        write!(
            f,
            "priorities of 64 bits, by the model: {} lists, {} events; {} admitted with one outside 32 \
             bits, {} of them the first beyond; the order is another without the sign after {} events, by \
             the last 32 bits after {}, by the first 32 after {}",
            self.lists,
            self.events,
            self.admitted,
            self.beyond,
            self.by_sign,
            self.by_last,
            self.by_first
        )
    }
}

impl fmt::Display for Converted {
    fn fmt(&self, f: &mut fmt::Formatter<'_>) -> fmt::Result {
        write!(
            f,
            "texts to convert, by the model: {} converted ({} with records); refused by 16: {} of an older \
             kind, {} others; by 22: {}, and for one cause alone {} priorities of holders, {} of \
             tombstones, {} callers of holders, {} of tombstones, {} shares, {} marks, {} read ids; by 4: {}",
            self.answered,
            self.with_records,
            self.older,
            self.no_image,
            self.refused,
            self.priority[0],
            self.priority[1],
            self.caller[0],
            self.caller[1],
            self.shares,
            self.mark,
            self.reads,
            self.short
        )
    }
}

impl fmt::Display for Marks {
    fn fmt(&self, f: &mut fmt::Formatter<'_>) -> fmt::Result {
        write!(
            f,
            "a reason left out after {} events; {} confirmed with reason 3, {} rolled back after that \
             ({} of them released in the same list)",
            self.events, self.confirmed, self.rolled_back, self.released
        )
    }
}

impl fmt::Display for Withdrawn {
    fn fmt(&self, f: &mut fmt::Formatter<'_>) -> fmt::Result {
        write!(
            f,
            "withdrawn ids, in no selection: some after {} events; {} withdrawn ({} by a write cut after \
             its rename, {} forgotten in the same call), {} admitted again ({} by a write cut after its \
             rename), {} admissions of kind 0",
            self.events,
            self.ids,
            self.ids_by_cut,
            self.forgotten_at_once,
            self.admitted,
            self.admitted_by_cut,
            self.kind_0
        )
    }
}
