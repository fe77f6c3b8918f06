//! The refusals of documents 01 and 02.

use std::fmt;

/// A refusal: the numbers 1 to 17 of document 01, and 18, 20, 21 and 22 of document 02. Nothing lent
/// has changed, except the next area after [`Error::WriteFailed`].
#[derive(Debug, Clone, Copy, PartialEq, Eq, PartialOrd, Ord, Hash)]
pub enum Error {
    /// A limit is out of range, or a share is over P.
    LimitOutOfRange = 1,
    /// An area to write is too short.
    AreaTooShort = 2,
    /// A lent area does not hold a sound queue.
    AreaNotSound = 3,
    /// The output is shorter than the answer.
    OutputTooShort = 4,
    /// An argument is malformed.
    Malformed = 5,
    /// More inputs, outputs or read ids than K.
    TooManyInputs = 6,
    /// The time deadline is not after now.
    TimeDeadlineElapsed = 7,
    /// The height deadline is not above the tip.
    HeightDeadlineElapsed = 8,
    /// The label has more than 200 bytes.
    LabelTooLong = 9,
    /// P records are pending.
    QueueFull = 10,
    /// The signed bytes of pending records would exceed B.
    ByteBudgetExhausted = 11,
    /// An input is in another record.
    InputReserved = 12,
    /// No such record, or it has no signed bytes any more.
    NotFound = 13,
    /// The transaction is confirmed in a block.
    AlreadyMined = 14,
    /// The finish counter has no number left.
    CounterExhausted = 15,
    /// Not the image of a sound queue, in any kind that this version knows.
    NotAnImage = 16,
    /// The write failed.
    WriteFailed = 17,
    /// As many records of this caller are pending as its share allows.
    ShareExhausted = 18,
    /// An input is read by another record, or a read id is spent by another record.
    ReadAndSpent = 20,
    /// The candidates' fees have no sum of 64 bits.
    FeesTooLarge = 21,
    /// An image of kind 01 cannot hold the queue.
    NotConvertible = 22,
}

impl Error {
    /// All refusals, in the order of their numbers.
    pub const ALL: [Error; 21] = [
        Error::LimitOutOfRange,
        Error::AreaTooShort,
        Error::AreaNotSound,
        Error::OutputTooShort,
        Error::Malformed,
        Error::TooManyInputs,
        Error::TimeDeadlineElapsed,
        Error::HeightDeadlineElapsed,
        Error::LabelTooLong,
        Error::QueueFull,
        Error::ByteBudgetExhausted,
        Error::InputReserved,
        Error::NotFound,
        Error::AlreadyMined,
        Error::CounterExhausted,
        Error::NotAnImage,
        Error::WriteFailed,
        Error::ShareExhausted,
        Error::ReadAndSpent,
        Error::FeesTooLarge,
        Error::NotConvertible,
    ];

    /// The number in the table of docs/CALLS.md.
    pub fn number(self) -> u64 {
        self as u64
    }

    /// The refusal with this number.
    pub fn from_number(number: u64) -> Option<Error> {
        Self::ALL.into_iter().find(|error| error.number() == number)
    }

    /// What is wrong, and what to do.
    fn sentence(self) -> &'static str {
        match self {
            Error::LimitOutOfRange => {
                "a limit is out of range: take P from 1 to 1,024, B from 1 to 16,777,216, T from 1 \
                 to 1,024, K from 1 to 128, and each share from 0 to P"
            }
            Error::AreaTooShort => {
                "the area to write is too short: lend as many bytes as Limits::area_len says"
            }
            Error::AreaNotSound => {
                "the lent area does not hold a sound queue: lend the area that the last call left, \
                 or open the stored image again"
            }
            Error::OutputTooShort => {
                "the output is shorter than the answer: lend a longer one and call again"
            }
            Error::Malformed => {
                "an argument is malformed: an id has 32 bytes, a list is whole, shares have 64 bytes, \
                 the ids of applied, available and reopening lists rise strictly, a caller is from 0 \
                 to 15, a flag, kind or outcome is a listed one, and a budget is from 1 to 2,097,151; \
                 correct it and call again"
            }
            Error::TooManyInputs => {
                "the transaction has more inputs, outputs or read ids than the limit K: queue a smaller \
                 one"
            }
            Error::TimeDeadlineElapsed => {
                "the time deadline is not after now: give a later one, or none"
            }
            Error::HeightDeadlineElapsed => {
                "the height deadline is not above the tip: give a higher one, or none"
            }
            Error::LabelTooLong => "the label has more than 200 bytes: give a shorter one",
            Error::QueueFull => {
                "as many records are pending as the limit P allows: cancel one, or wait for a block"
            }
            Error::ByteBudgetExhausted => {
                "the signed bytes of pending records would exceed the limit B: cancel a record, or \
                 wait for a block"
            }
            Error::InputReserved => {
                "an input is already in another record: cancel that record, or spend another input"
            }
            Error::NotFound => {
                "no record has this id, or the record has no signed bytes any more: ask for an id \
                 that the queue lists"
            }
            Error::AlreadyMined => {
                "the transaction is confirmed in a block and cannot be cancelled: leave it"
            }
            Error::CounterExhausted => {
                "the finish counter has no number left: start a fresh queue in another file and \
                 queue the pending transactions there"
            }
            Error::NotAnImage => {
                "this is not the image of a sound queue, or one of a later version: bring back that \
                 version or a good copy of the file, or move it away to start with an empty queue"
            }
            Error::WriteFailed => {
                "the image was not written, and the call took no effect beyond the cursor: free or \
                 replace the disk and make the call again"
            }
            Error::ShareExhausted => {
                "as many records of this caller are pending as its share allows, none with share 0: \
                 cancel one of its records, wait for a block, or start with another share"
            }
            Error::ReadAndSpent => {
                "another record reads what this one spends, or spends what this one reads: cancel that \
                 record, or wait until it is released after its block"
            }
            Error::FeesTooLarge => {
                "the fees of the first 20 selected records sum to more than \
                 18,446,744,073,709,551,615: look for a fee that cannot be true among their \
                 entries, and cancel that record"
            }
            Error::NotConvertible => {
                "an image of kind 01 cannot hold the queue: a record has a priority outside 32 bits, a \
                 caller other than 0, a read id or the withdrawn mark 3, or the shares are not P and \
                 fifteen zeros; keep this version, or start a fresh queue on the older unit and queue \
                 the pending transactions there"
            }
        }
    }
}

impl fmt::Display for Error {
    fn fmt(&self, f: &mut fmt::Formatter<'_>) -> fmt::Result {
        write!(f, "refusal {}: {}", self.number(), self.sentence())
    }
}

impl std::error::Error for Error {}
