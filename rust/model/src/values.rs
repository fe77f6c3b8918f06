//! The values of document 01.

/// A transaction, input, output or block id.
pub type Id = [u8; 32];

/// A time in milliseconds.
#[derive(Debug, Clone, Copy, PartialEq, Eq, PartialOrd, Ord)]
pub struct TimeMs(pub u64);

/// A block height.
#[derive(Debug, Clone, Copy, PartialEq, Eq, PartialOrd, Ord)]
pub struct Height(pub u32);

/// The place of a tombstone in the order of finishing.
#[derive(Debug, Clone, Copy, PartialEq, Eq, PartialOrd, Ord)]
pub struct FinishNumber(pub u64);

/// Which wallet admits: 0 to 15 (document 02, P8).
#[derive(Debug, Clone, Copy, PartialEq, Eq, PartialOrd, Ord)]
pub struct Caller(pub u8);

impl Caller {
    pub const COUNT: usize = 16;

    /// Of the callers there are, not one above them.
    pub fn is_one(self) -> bool {
        usize::from(self.0) < Self::COUNT
    }
}

/// How many pending records each caller may have before 18.
pub type Shares = [u32; Caller::COUNT];

/// P, B, T and K, and the shares.
#[derive(Debug, Clone, Copy, PartialEq, Eq)]
pub struct Limits {
    /// P: pending records.
    pub pending: u32,
    /// B: signed bytes of pending records.
    pub bytes: u32,
    /// T: tombstones.
    pub tombstones: u32,
    /// K: inputs, and likewise outputs and read ids, of a transaction.
    pub inputs: u32,
    /// Each from 0 to P.
    pub shares: Shares,
}

impl Limits {
    pub const MAX_PENDING: u32 = 1_024;
    pub const MAX_BYTES: u32 = 16_777_216;
    pub const MAX_TOMBSTONES: u32 = 1_024;
    pub const MAX_INPUTS: u32 = 128;

    /// The top settings, all to caller 0.
    pub const MAX: Limits = Limits {
        pending: Self::MAX_PENDING,
        bytes: Self::MAX_BYTES,
        tombstones: Self::MAX_TOMBSTONES,
        inputs: Self::MAX_INPUTS,
        shares: all_to_caller_0(Self::MAX_PENDING),
    };

    /// The limits with these numbers, all to caller 0, if each is in range.
    pub fn checked(pending: u64, bytes: u64, tombstones: u64, inputs: u64) -> Option<Limits> {
        let pending = in_range(pending, Self::MAX_PENDING)?;
        Some(Limits {
            pending,
            bytes: in_range(bytes, Self::MAX_BYTES)?,
            tombstones: in_range(tombstones, Self::MAX_TOMBSTONES)?,
            inputs: in_range(inputs, Self::MAX_INPUTS)?,
            shares: all_to_caller_0(pending),
        })
    }

    /// The same P, B, T and K with these shares, if none is over P.
    pub fn shared(self, shares: Shares) -> Option<Limits> {
        let limits = Limits { shares, ..self };
        limits.shares_fit().then_some(limits)
    }

    /// No share is over P.
    pub fn shares_fit(&self) -> bool {
        self.shares.iter().all(|share| *share <= self.pending)
    }

    /// Share 0 is P and the fifteen others 0, as under a header kind without shares.
    pub fn is_all_to_caller_0(&self) -> bool {
        self.shares == all_to_caller_0(self.pending)
    }

    /// The shares as a call is given them: 4 bytes each.
    pub fn share_bytes(&self) -> Vec<u8> {
        let shares = self.shares.iter();
        shares.flat_map(|share| share.to_be_bytes()).collect()
    }

    /// P, B, T and K as a call is given them.
    pub fn numbers(&self) -> [u64; 4] {
        [self.pending, self.bytes, self.tombstones, self.inputs].map(u64::from)
    }

    /// The bytes that an area needs: 2B + 2P × (512 + 96K) + 512T + 512.
    pub fn need(&self) -> usize {
        let [p, b, t, k] = self
            .numbers()
            .map(|limit| usize::try_from(limit).expect("a limit fits"));
        2 * b + 2 * p * (512 + 96 * k) + 512 * t + 512
    }
}

/// Share 0 is P, and the fifteen others are 0.
pub const fn all_to_caller_0(pending: u32) -> Shares {
    let mut shares = [0; Caller::COUNT];
    shares[0] = pending;
    shares
}

fn in_range(limit: u64, top: u32) -> Option<u32> {
    let limit = u32::try_from(limit).ok()?;
    (1..=top).contains(&limit).then_some(limit)
}

#[derive(Debug, Clone, Copy, PartialEq, Eq)]
pub enum State {
    Queued = 0,
    Mined = 2,
    Conflicted = 3,
    Cancelled = 4,
    Expired = 5,
}

impl State {
    pub fn from_number(number: u8) -> Option<State> {
        match number {
            0 => Some(State::Queued),
            2 => Some(State::Mined),
            3 => Some(State::Conflicted),
            4 => Some(State::Cancelled),
            5 => Some(State::Expired),
            _ => None,
        }
    }

    /// Pending is 0 or 3.
    pub fn is_pending(self) -> bool {
        matches!(self, State::Queued | State::Conflicted)
    }
}

#[derive(Debug, Clone, Copy, PartialEq, Eq)]
pub enum Reason {
    None = 0,
    Cancelled = 1,
    DeadlineElapsed = 2,
    RolledBackAfterRelease = 3,
    RolledBack = 4,
    InputsUnavailable = 5,
}

impl Reason {
    pub fn from_number(number: u8) -> Option<Reason> {
        match number {
            0 => Some(Reason::None),
            1 => Some(Reason::Cancelled),
            2 => Some(Reason::DeadlineElapsed),
            3 => Some(Reason::RolledBackAfterRelease),
            4 => Some(Reason::RolledBack),
            5 => Some(Reason::InputsUnavailable),
            _ => None,
        }
    }
}

/// The withdrawn mark: the state that a confirmation overrode, and why the record was Expired.
#[derive(Debug, Clone, Copy, PartialEq, Eq)]
pub enum Withdrawn {
    No = 0,
    /// Expired with reason 3 (document 02, P4).
    RolledBackAfterRelease = 3,
    Cancelled = 4,
    /// Expired with reason 2.
    Expired = 5,
}

impl Withdrawn {
    pub const ALL: [Withdrawn; 4] = [
        Withdrawn::No,
        Withdrawn::RolledBackAfterRelease,
        Withdrawn::Cancelled,
        Withdrawn::Expired,
    ];

    pub fn from_number(number: u8) -> Option<Withdrawn> {
        match number {
            0 => Some(Withdrawn::No),
            3 => Some(Withdrawn::RolledBackAfterRelease),
            4 => Some(Withdrawn::Cancelled),
            5 => Some(Withdrawn::Expired),
            _ => None,
        }
    }
}

/// The block in which a record was found.
#[derive(Debug, Clone, Copy, PartialEq, Eq)]
pub struct Confirmation {
    pub height: Height,
    pub block: Id,
}

/// What a holder has and a tombstone has not.
#[derive(Debug, Clone, PartialEq, Eq, Default)]
pub struct Holder {
    pub inputs: Vec<Id>,
    pub outputs: Vec<Id>,
    /// What it reads without spending it (document 02, P11).
    pub reads: Vec<Id>,
    pub bytes: Vec<u8>,
}

/// One transaction with its state.
#[derive(Debug, Clone, PartialEq, Eq)]
pub struct Record {
    pub id: Id,
    /// Who admitted it; a tombstone keeps it.
    pub caller: Caller,
    pub state: State,
    pub reason: Reason,
    pub created: TimeMs,
    pub time_deadline: Option<TimeMs>,
    pub height_deadline: Option<Height>,
    /// 64 bits since document 02, P13.
    pub priority: i64,
    pub label: Option<Vec<u8>>,
    pub fee: u64,
    pub size: u32,
    pub cost: u64,
    pub mined: Option<Confirmation>,
    pub withdrawn: Withdrawn,
    pub finish: FinishNumber,
    /// Absent in a tombstone.
    pub holder: Option<Holder>,
}

impl Record {
    /// A tombstone of caller 0 with finish number 1, and with nothing beside what is given.
    pub fn tombstone(id: Id, state: State, reason: Reason) -> Self {
        Self {
            id,
            caller: Caller(0),
            state,
            reason,
            created: TimeMs(5),
            time_deadline: None,
            height_deadline: None,
            priority: 0,
            label: None,
            fee: 1,
            size: 3,
            cost: 1,
            mined: None,
            withdrawn: Withdrawn::No,
            finish: FinishNumber(1),
            holder: None,
        }
    }

    /// The input ids; a tombstone has none.
    pub fn inputs(&self) -> &[Id] {
        self.holder.as_ref().map_or(&[], |holder| &holder.inputs)
    }

    /// The output ids; a tombstone has none.
    pub fn outputs(&self) -> &[Id] {
        self.holder.as_ref().map_or(&[], |holder| &holder.outputs)
    }

    /// The read ids; a tombstone has none.
    pub fn reads(&self) -> &[Id] {
        self.holder.as_ref().map_or(&[], |holder| &holder.reads)
    }

    /// The inputs, then the read ids: what has to be there.
    pub fn asks_for(&self) -> impl Iterator<Item = &Id> {
        self.inputs().iter().chain(self.reads())
    }

    /// The number of signed bytes; 0 for a tombstone.
    pub fn byte_count(&self) -> usize {
        self.holder.as_ref().map_or(0, |holder| holder.bytes.len())
    }

    pub fn is_mined_holder(&self) -> bool {
        self.state == State::Mined && self.holder.is_some()
    }

    /// Pending, with a time deadline ≤ now or a height deadline ≤ height.
    pub fn is_due(&self, now: TimeMs, height: Height) -> bool {
        let elapsed = self.time_deadline.is_some_and(|deadline| deadline <= now)
            || self
                .height_deadline
                .is_some_and(|deadline| deadline <= height);
        self.state.is_pending() && elapsed
    }
}

#[derive(Debug, Clone, PartialEq, Eq)]
pub struct Queue {
    pub limits: Limits,
    /// The cursor height that was last stored.
    pub persisted: Height,
    pub revision: u64,
    /// The cursor: the height and, where given, the block that was observed last.
    pub cursor: Height,
    pub tip: Option<Id>,
    /// The finish number that was given last.
    pub counter: FinishNumber,
    /// By id, rising.
    pub records: Vec<Record>,
}

impl Queue {
    pub fn fresh(limits: Limits) -> Queue {
        Queue {
            limits,
            persisted: Height(0),
            revision: 0,
            cursor: Height(0),
            tip: None,
            counter: FinishNumber(0),
            records: Vec::new(),
        }
    }

    pub fn record(&self, id: &Id) -> Option<&Record> {
        self.records.iter().find(|record| record.id == *id)
    }

    pub fn pending(&self) -> impl Iterator<Item = &Record> {
        self.records
            .iter()
            .filter(|record| record.state.is_pending())
    }

    /// The pending records of this caller.
    pub fn pending_of(&self, caller: Caller) -> impl Iterator<Item = &Record> {
        self.pending().filter(move |record| record.caller == caller)
    }

    pub fn tombstones(&self) -> impl Iterator<Item = &Record> {
        self.records.iter().filter(|record| record.holder.is_none())
    }

    pub fn holders(&self) -> impl Iterator<Item = &Record> {
        self.records.iter().filter(|record| record.holder.is_some())
    }
}
