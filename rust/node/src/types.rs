//! Ids, times, heights, callers, limits and kinds.

use std::fmt;
use std::str::FromStr;

use crate::error::Error;
use crate::raw;

/// A text that is not the 64 hexadecimal digits of an id.
#[derive(Debug, Clone, Copy, PartialEq, Eq)]
pub struct ParseIdError;

impl fmt::Display for ParseIdError {
    fn fmt(&self, f: &mut fmt::Formatter<'_>) -> fmt::Result {
        write!(f, "not an id: give 64 hexadecimal digits")
    }
}

impl std::error::Error for ParseIdError {}

fn id_of(digits: &str) -> Option<[u8; 32]> {
    // `from_str_radix` takes a sign, too.
    if digits.len() != 64 || !digits.bytes().all(|digit| digit.is_ascii_hexdigit()) {
        return None;
    }
    let mut id = [0; 32];
    for (at, byte) in id.iter_mut().enumerate() {
        *byte = u8::from_str_radix(&digits[2 * at..2 * at + 2], 16).ok()?;
    }
    Some(id)
}

macro_rules! ids {
    ($($(#[$doc:meta])* $name:ident;)*) => {$(
        $(#[$doc])*
        #[derive(Clone, Copy, PartialEq, Eq, PartialOrd, Ord, Hash)]
        pub struct $name(pub [u8; 32]);

        impl fmt::Display for $name {
            fn fmt(&self, f: &mut fmt::Formatter<'_>) -> fmt::Result {
                self.0.iter().try_for_each(|byte| write!(f, "{byte:02x}"))
            }
        }

        impl fmt::Debug for $name {
            fn fmt(&self, f: &mut fmt::Formatter<'_>) -> fmt::Result {
                write!(f, "{}({self})", stringify!($name))
            }
        }

        impl From<[u8; 32]> for $name {
            fn from(id: [u8; 32]) -> Self {
                $name(id)
            }
        }

        /// Of 64 hexadecimal digits.
        impl FromStr for $name {
            type Err = ParseIdError;

            fn from_str(digits: &str) -> Result<Self, ParseIdError> {
                id_of(digits).map($name).ok_or(ParseIdError)
            }
        }
    )*};
}

ids! {
    /// The id of a transaction, and so of its record.
    TxId;
    /// The id of a box that a transaction spends, or reads without spending it.
    InputId;
    /// The id of a box that a transaction makes.
    OutputId;
    /// The id of a block.
    BlockId;
}

/// The input that spends this output has the same id, and so has who reads it.
impl From<OutputId> for InputId {
    fn from(output: OutputId) -> InputId {
        InputId(output.0)
    }
}

/// A time in milliseconds.
#[derive(Debug, Clone, Copy, PartialEq, Eq, PartialOrd, Ord, Hash)]
pub struct TimeMs(pub u64);

impl fmt::Display for TimeMs {
    fn fmt(&self, f: &mut fmt::Formatter<'_>) -> fmt::Result {
        write!(f, "{} ms", self.0)
    }
}

/// A block height.
#[derive(Debug, Clone, Copy, PartialEq, Eq, PartialOrd, Ord, Hash)]
pub struct Height(pub u32);

impl fmt::Display for Height {
    fn fmt(&self, f: &mut fmt::Formatter<'_>) -> fmt::Result {
        write!(f, "{}", self.0)
    }
}

/// Who admits a transaction: one of sixteen, for which a unit has a wallet or none.
///
/// ```
/// use pokerbox::Caller;
///
/// assert_eq!(Caller::new(15).map(Caller::number), Some(15));
/// assert_eq!(Caller::new(16), None);
/// ```
#[derive(Debug, Clone, Copy, PartialEq, Eq, PartialOrd, Ord, Hash)]
pub struct Caller(u8);

impl Caller {
    /// How many there are.
    pub const COUNT: usize = 16;

    /// Who admits where a unit does not tell its callers apart.
    pub const ZERO: Caller = Caller(0);

    /// The caller of this number; none above 15.
    pub const fn new(number: u8) -> Option<Caller> {
        match number {
            0..=15 => Some(Caller(number)),
            _ => None,
        }
    }

    /// All callers, rising.
    pub fn all() -> impl Iterator<Item = Caller> {
        (0..=15).map(Caller)
    }

    /// From 0 to 15.
    pub const fn number(self) -> u8 {
        self.0
    }
}

impl fmt::Display for Caller {
    fn fmt(&self, f: &mut fmt::Formatter<'_>) -> fmt::Result {
        write!(f, "caller {}", self.0)
    }
}

/// How many pending records each caller may have, and admit one more only below that. A share is from
/// 0, which lets nothing in, to P; together they may be more than P.
#[derive(Debug, Clone, Copy, PartialEq, Eq)]
pub struct Shares([u32; Caller::COUNT]);

impl Shares {
    /// The length of shares as bytes, 4 each.
    pub(crate) const LEN: usize = 4 * Caller::COUNT;

    /// One for each caller, from caller 0 on.
    pub const fn new(shares: [u32; Caller::COUNT]) -> Shares {
        Shares(shares)
    }

    /// All to caller 0: its share is P, and the fifteen others are 0. So does an image that was
    /// written before there were shares open.
    pub const fn all_to_caller_0(pending: u32) -> Shares {
        let mut shares = [0; Caller::COUNT];
        shares[0] = pending;
        Shares(shares)
    }

    /// The share of this caller.
    pub fn of(&self, caller: Caller) -> u32 {
        self.0[usize::from(caller.0)]
    }

    pub(crate) fn to_bytes(self) -> [u8; Self::LEN] {
        let mut bytes = [0; Self::LEN];
        for (at, share) in self.0.iter().enumerate() {
            bytes[4 * at..4 * at + 4].copy_from_slice(&share.to_be_bytes());
        }
        bytes
    }

    fn from_bytes(bytes: [u8; Self::LEN]) -> Shares {
        let (shares, _) = bytes.as_chunks::<4>();
        Shares(std::array::from_fn(|at| u32::from_be_bytes(shares[at])))
    }
}

/// The limits of a queue and the shares of its callers, each in range.
#[derive(Debug, Clone, Copy, PartialEq, Eq)]
pub struct Limits {
    pending: u32,
    bytes: u32,
    tombstones: u32,
    inputs: u32,
    shares: Shares,
}

impl Limits {
    /// The top setting of P.
    pub const MAX_PENDING: u32 = 1_024;
    /// The top setting of B.
    pub const MAX_BYTES: u32 = 16_777_216;
    /// The top setting of T.
    pub const MAX_TOMBSTONES: u32 = 1_024;
    /// The top setting of K.
    pub const MAX_INPUTS: u32 = 128;

    /// The top settings, all to caller 0.
    pub const MAX: Limits = Limits {
        pending: Self::MAX_PENDING,
        bytes: Self::MAX_BYTES,
        tombstones: Self::MAX_TOMBSTONES,
        inputs: Self::MAX_INPUTS,
        shares: Shares::all_to_caller_0(Self::MAX_PENDING),
    };

    /// P pending records, B signed bytes, T tombstones, K inputs and likewise outputs and read ids in
    /// a transaction; all to caller 0.
    pub fn new(pending: u32, bytes: u32, tombstones: u32, inputs: u32) -> Result<Limits, Error> {
        let limits = Limits {
            pending,
            bytes,
            tombstones,
            inputs,
            shares: Shares::all_to_caller_0(pending),
        };
        // The library knows the ranges.
        limits.need().map(|_| limits)
    }

    /// The same limits with these shares; [`Error::LimitOutOfRange`] where one is over P.
    ///
    /// ```
    /// use pokerbox::{Caller, Error, Limits, Shares};
    ///
    /// // Two wallets, of which neither fills the queue.
    /// let mut shares = [0; Caller::COUNT];
    /// (shares[0], shares[1]) = (12, 12);
    /// let limits = Limits::new(16, 65_536, 16, 8)?.shared(Shares::new(shares))?;
    /// assert_eq!(limits.shares().of(Caller::ZERO), 12);
    /// shares[1] = 17;
    /// assert_eq!(limits.shared(Shares::new(shares)), Err(Error::LimitOutOfRange));
    /// # Ok::<(), Error>(())
    /// ```
    pub fn shared(self, shares: Shares) -> Result<Limits, Error> {
        match shares.0.iter().all(|share| *share <= self.pending) {
            true => Ok(Limits { shares, ..self }),
            false => Err(Error::LimitOutOfRange),
        }
    }

    /// The limits of the queue whose image this is, and the bytes that an area needs under them.
    pub(crate) fn of_image(image: &[u8]) -> Result<(Limits, usize), Error> {
        let (mut p, mut b, mut t, mut k, mut need) = (0, 0, 0, 0, 0);
        let mut shares = [0; Shares::LEN];
        raw::image_limits(
            image,
            &mut p,
            &mut b,
            &mut t,
            &mut k,
            &mut shares,
            &mut need,
        )?;
        // Those of a sound queue: none is above 16,777,216.
        let [pending, bytes, tombstones, inputs] = [p, b, t, k].map(|limit| limit as u32);
        let limits = Limits {
            pending,
            bytes,
            tombstones,
            inputs,
            shares: Shares::from_bytes(shares),
        };
        Ok((limits, need as usize))
    }

    fn need(&self) -> Result<usize, Error> {
        let mut need = 0;
        let [p, b, t, k] = [self.pending, self.bytes, self.tombstones, self.inputs].map(u64::from);
        raw::need(p, b, t, k, &mut need)?;
        Ok(need as usize)
    }

    /// P.
    pub fn pending(&self) -> u32 {
        self.pending
    }

    /// B.
    pub fn bytes(&self) -> u32 {
        self.bytes
    }

    /// T.
    pub fn tombstones(&self) -> u32 {
        self.tombstones
    }

    /// K.
    pub fn inputs(&self) -> u32 {
        self.inputs
    }

    /// The shares of the callers.
    pub fn shares(&self) -> Shares {
        self.shares
    }

    /// The bytes that an area needs: 2B + 2P × (512 + 96K) + 512T + 512.
    pub fn area_len(&self) -> usize {
        self.need().expect("limits in range")
    }

    /// The most records that a queue may have: 2P + T.
    pub fn max_records(&self) -> usize {
        2 * self.pending as usize + self.tombstones as usize
    }

    /// No image is longer: two digits for each byte of an area, and a line end for each frame.
    pub fn max_image_len(&self) -> usize {
        2 * self.area_len() + self.max_records() + 1
    }
}

/// What is due after a changing call.
#[derive(Debug, Clone, Copy, PartialEq, Eq, PartialOrd, Ord, Hash)]
pub enum Kind {
    /// Nothing changed, and the next area is untouched.
    Nothing = 0,
    /// The next area holds the queue; no write is due.
    Memory = 1,
    /// A write is due for a changed record.
    Whole = 2,
    /// A write is due for the cursor alone.
    Cursor = 3,
}

/// The state of a record. Queued and Conflicted records are pending.
#[derive(Debug, Clone, Copy, PartialEq, Eq, PartialOrd, Ord, Hash)]
pub enum State {
    /// Waits for a block.
    Queued = 0,
    /// Found in a block.
    Mined = 2,
    /// Waits, but what it spends or reads is not available.
    Conflicted = 3,
    /// Withdrawn by a cancellation.
    Cancelled = 4,
    /// Withdrawn at a deadline, or rolled back after its signed bytes were released.
    Expired = 5,
}

impl State {
    /// All states.
    pub const ALL: [State; 5] = [
        State::Queued,
        State::Mined,
        State::Conflicted,
        State::Cancelled,
        State::Expired,
    ];

    /// The state of document 01's number.
    pub fn from_number(number: u8) -> Option<State> {
        Self::ALL.into_iter().find(|state| *state as u8 == number)
    }
}

impl fmt::Display for State {
    fn fmt(&self, f: &mut fmt::Formatter<'_>) -> fmt::Result {
        f.write_str(match self {
            State::Queued => "Queued",
            State::Mined => "Mined",
            State::Conflicted => "Conflicted",
            State::Cancelled => "Cancelled",
            State::Expired => "Expired",
        })
    }
}

/// Why a record has its state.
#[derive(Debug, Clone, Copy, PartialEq, Eq, PartialOrd, Ord, Hash)]
pub enum Reason {
    /// No reason is needed.
    None = 0,
    /// It was cancelled.
    Cancelled = 1,
    /// Its deadline has elapsed.
    DeadlineElapsed = 2,
    /// Its block was rolled back after its signed bytes were released.
    RolledBackAfterRelease = 3,
    /// Its block was rolled back.
    RolledBack = 4,
    /// What it spends or reads is not available.
    InputsUnavailable = 5,
}

impl Reason {
    /// All reasons.
    pub const ALL: [Reason; 6] = [
        Reason::None,
        Reason::Cancelled,
        Reason::DeadlineElapsed,
        Reason::RolledBackAfterRelease,
        Reason::RolledBack,
        Reason::InputsUnavailable,
    ];

    /// The reason of document 01's number.
    pub fn from_number(number: u8) -> Option<Reason> {
        Self::ALL.into_iter().find(|reason| *reason as u8 == number)
    }
}

impl fmt::Display for Reason {
    fn fmt(&self, f: &mut fmt::Formatter<'_>) -> fmt::Result {
        f.write_str(match self {
            Reason::None => "none",
            Reason::Cancelled => "cancelled",
            Reason::DeadlineElapsed => "deadline elapsed",
            Reason::RolledBackAfterRelease => "rolled back after release",
            Reason::RolledBack => "rolled back",
            Reason::InputsUnavailable => "inputs unavailable",
        })
    }
}
