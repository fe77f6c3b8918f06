//! Answers, read from the bytes that a call wrote.

use crate::types::{BlockId, Caller, Height, InputId, Limits, Reason, State, TimeMs, TxId};

/// What the queue says of one record. Signed bytes are handed out by another call.
#[derive(Debug, Clone, PartialEq, Eq)]
pub struct Entry {
    /// The transaction's id.
    pub id: TxId,
    /// Who admitted it.
    pub caller: Caller,
    /// The record's state.
    pub state: State,
    /// Why it has that state.
    pub reason: Reason,
    /// When it was admitted.
    pub created: TimeMs,
    /// It is withdrawn from this time on.
    pub time_deadline: Option<TimeMs>,
    /// It is withdrawn from this height on.
    pub height_deadline: Option<Height>,
    /// Higher ones are selected first.
    pub priority: i64,
    /// The label given at the admission.
    pub label: Option<Vec<u8>>,
    /// The fee given at the admission.
    pub fee: u64,
    /// The number of its signed bytes, also when they were dropped.
    pub size: u32,
    /// The cost given at the admission.
    pub cost: u64,
    /// Where a Mined record was found.
    pub mined: Option<(Height, BlockId)>,
    /// What it spends; none when its signed bytes were dropped.
    pub inputs: Vec<InputId>,
    /// What it reads without spending it; none when its signed bytes were dropped.
    pub reads: Vec<InputId>,
}

impl Entry {
    /// No entry is longer: 128 bytes and what a label, K inputs and K read ids take.
    pub(crate) fn max_len(limits: &Limits) -> usize {
        128 + 200 + 64 * limits.inputs() as usize
    }
}

/// What a reconciliation answers.
#[derive(Debug, Clone, PartialEq, Eq)]
pub struct Reconciled {
    /// Whether a record was changed or released.
    pub changed: bool,
    /// Whose signed bytes were released, in the order in which they were finished.
    pub released: Vec<TxId>,
}

/// A set of records for a block.
#[derive(Debug, Clone, PartialEq, Eq)]
pub struct BestFees {
    /// The set, in the order of the selection. No two of its records spend the same input.
    pub ids: Vec<TxId>,
    /// The sum of its fees.
    pub fee: u64,
    /// The steps that were used, at most the budget.
    pub nodes: u32,
    /// No set of the candidates that fits has more than `fee` plus this. 0 when the budget was
    /// enough to try all sets; above 0, a larger budget may find more fee, or only prove that there
    /// is none.
    pub distance: u64,
}

impl BestFees {
    /// So many records, the first of the selection, are candidates.
    pub const MAX_CANDIDATES: u32 = 20;
    /// The largest budget: enough to try all sets of the candidates.
    pub const MAX_BUDGET: u64 = 2_097_151;
}

/// A record that expiry would finish.
#[derive(Debug, Clone, Copy, PartialEq, Eq)]
pub struct Due {
    /// The transaction's id.
    pub id: TxId,
    /// The record's state now.
    pub state: State,
}

/// A record that was found in a block.
#[derive(Debug, Clone, Copy, PartialEq, Eq)]
pub struct Confirmation {
    /// The transaction's id.
    pub id: TxId,
    /// The height of the block.
    pub height: Height,
    /// The block.
    pub block: BlockId,
}

/// Reads an answer from its start. The library writes whole answers; anything else is a fault of
/// the library and stops the program.
pub(crate) struct Reader<'a> {
    rest: &'a [u8],
}

impl<'a> Reader<'a> {
    pub fn new(answer: &'a [u8]) -> Self {
        Self { rest: answer }
    }

    fn take(&mut self, count: usize) -> &'a [u8] {
        let (taken, rest) = self
            .rest
            .split_at_checked(count)
            .expect("libpokerbox.a wrote an answer that is not whole");
        self.rest = rest;
        taken
    }

    fn array<const N: usize>(&mut self) -> [u8; N] {
        self.take(N).try_into().expect("as long as asked for")
    }

    fn byte(&mut self) -> u8 {
        self.array::<1>()[0]
    }

    fn u32(&mut self) -> u32 {
        u32::from_be_bytes(self.array())
    }

    pub fn u64(&mut self) -> u64 {
        u64::from_be_bytes(self.array())
    }

    pub fn flag(&mut self) -> bool {
        self.byte() != 0
    }

    fn optional<T>(&mut self, read: impl FnOnce(&mut Self) -> T) -> Option<T> {
        if self.flag() {
            Some(read(self))
        } else {
            None
        }
    }

    fn many<T>(&mut self, count: usize, mut read: impl FnMut(&mut Self) -> T) -> Vec<T> {
        (0..count).map(|_| read(self)).collect()
    }

    /// A count of 4 bytes, then as many of what `read` reads.
    pub fn counted<T>(&mut self, read: impl FnMut(&mut Self) -> T) -> Vec<T> {
        let count = self.u32() as usize;
        self.many(count, read)
    }

    pub fn tx_id(&mut self) -> TxId {
        TxId(self.array())
    }

    pub fn input_id(&mut self) -> InputId {
        InputId(self.array())
    }

    fn block_id(&mut self) -> BlockId {
        BlockId(self.array())
    }

    fn height(&mut self) -> Height {
        Height(self.u32())
    }

    fn caller(&mut self) -> Caller {
        Caller::new(self.byte()).expect("libpokerbox.a wrote a caller over 15")
    }

    fn state(&mut self) -> State {
        State::from_number(self.byte()).expect("libpokerbox.a wrote an unlisted state")
    }

    fn reason(&mut self) -> Reason {
        Reason::from_number(self.byte()).expect("libpokerbox.a wrote an unlisted reason")
    }

    fn label(&mut self) -> Vec<u8> {
        let length = usize::from(self.byte());
        self.take(length).to_vec()
    }

    /// Height 4, tip flag 1, tip 32.
    pub fn cursor(&mut self) -> (Height, Option<BlockId>) {
        (self.height(), self.optional(Self::block_id))
    }

    pub fn reconciled(&mut self) -> Reconciled {
        Reconciled {
            changed: self.flag(),
            released: self.counted(Self::tx_id),
        }
    }

    pub fn best_fees(&mut self) -> BestFees {
        let (fee, nodes, distance) = (self.u64(), self.u32(), self.u64());
        BestFees {
            ids: self.counted(Self::tx_id),
            fee,
            nodes,
            distance,
        }
    }

    pub fn due(&mut self) -> Due {
        Due {
            id: self.tx_id(),
            state: self.state(),
        }
    }

    pub fn confirmation(&mut self) -> Confirmation {
        Confirmation {
            id: self.tx_id(),
            height: self.height(),
            block: self.block_id(),
        }
    }

    pub fn entry(&mut self) -> Entry {
        Entry {
            id: self.tx_id(),
            caller: self.caller(),
            state: self.state(),
            reason: self.reason(),
            created: TimeMs(self.u64()),
            time_deadline: self.optional(|reader| TimeMs(reader.u64())),
            height_deadline: self.optional(Self::height),
            priority: i64::from_be_bytes(self.array()),
            label: self.optional(Self::label),
            fee: self.u64(),
            size: self.u32(),
            cost: self.u64(),
            mined: self.optional(|reader| (reader.height(), reader.block_id())),
            inputs: self.box_ids(),
            reads: self.box_ids(),
        }
    }

    /// Count 2, ids of inputs or of what is read.
    fn box_ids(&mut self) -> Vec<InputId> {
        let count = usize::from(u16::from_be_bytes(self.array()));
        self.many(count, Self::input_id)
    }
}
