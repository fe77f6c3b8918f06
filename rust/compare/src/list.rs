//! Lists of events.

use std::collections::BTreeSet;
use std::fmt;

use model::rules::{Admission, Reconciliation};
use model::{HeaderKind, Height, Id, Limits, Queue, TimeMs};

/// A changing call with its arguments.
#[derive(Debug, Clone, PartialEq, Eq)]
pub enum Call {
    Admit(Admission),
    Cancel(Id),
    Expire(TimeMs, Height),
    Reconcile(Reconciliation),
    Reopen(BTreeSet<Id>),
    SetCursor(Height, Option<Id>),
}

impl Call {
    pub fn name(&self) -> &'static str {
        match self {
            Call::Admit(_) => "admit",
            Call::Cancel(_) => "cancel",
            Call::Expire(..) => "expire",
            Call::Reconcile(_) => "reconcile",
            Call::Reopen(_) => "reopen",
            Call::SetCursor(..) => "set_cursor",
        }
    }
}

/// What becomes of a call's write, if one is due.
#[derive(Debug, Clone, Copy, PartialEq, Eq, PartialOrd, Ord)]
pub enum Write {
    Kept,
    /// No second file can be made.
    NotCreated,
    /// The rename fails.
    NotRenamed,
    CutBeforeRename,
    CutAfterRename,
}

impl Write {
    pub const ALL: [Write; 5] = [
        Write::Kept,
        Write::NotCreated,
        Write::NotRenamed,
        Write::CutBeforeRename,
        Write::CutAfterRename,
    ];

    pub fn name(self) -> &'static str {
        match self {
            Write::Kept => "kept",
            Write::NotCreated => "failed (second file)",
            Write::NotRenamed => "failed (rename)",
            Write::CutBeforeRename => "cut before the rename",
            Write::CutAfterRename => "cut after the rename",
        }
    }
}

#[derive(Debug, Clone, PartialEq, Eq)]
pub enum Event {
    Call(Box<Call>, Write),
    /// Power is cut between two calls.
    Cut,
}

/// The queue that a list begins with.
#[derive(Debug, Clone, PartialEq, Eq)]
pub enum Start {
    /// A fresh queue, with nothing stored.
    Fresh,
    /// Any sound queue, stored as it is, in an image of this kind.
    Queue(Box<Queue>, HeaderKind),
}

#[derive(Debug, Clone, PartialEq, Eq)]
pub struct List {
    pub limits: Limits,
    pub start: Start,
    pub events: Vec<Event>,
    /// The time and height with which reading calls are asked after each event.
    pub probe: (TimeMs, Height),
    /// The seed of what best fees is asked, at the start and after each event, and of the kind and the
    /// mark, caller, share, read id or priority that are put into texts and areas.
    pub fees: u64,
    pub look: Look,
}

/// What is looked at, at the start and after each event.
#[derive(Debug, Clone, Copy, PartialEq, Eq)]
pub enum Look {
    /// All that can be seen on both, and what `Withdrawn` looks at.
    All,
    /// Whether one of them, by its own answers and writes, selects a withdrawn id (document 02, P1).
    Withdrawn,
    /// The queue and parents first (document 02, P7), of a list without events.
    Parents,
    /// All that can be seen, of a list with callers and shares (document 02, P8): the oracle has
    /// neither and is not asked; the model is the judge.
    Callers,
    /// The same of a list with read ids (document 02, P11), which the oracle has not.
    Reads,
    /// The same of a list with priorities of 64 bits (document 02, P13); the oracle has 32.
    Wide,
}

impl Look {
    /// Whether the oracle cannot run such a list, and the model is the judge.
    pub fn is_by_model(self) -> bool {
        matches!(self, Look::Callers | Look::Reads | Look::Wide)
    }
}

impl fmt::Display for List {
    fn fmt(&self, f: &mut fmt::Formatter<'_>) -> fmt::Result {
        let limits = &self.limits;
        writeln!(
            f,
            "limits P {}, B {}, T {}, K {}",
            limits.pending, limits.bytes, limits.tombstones, limits.inputs
        )?;
        if !limits.is_all_to_caller_0() {
            writeln!(f, "shares {:?}", limits.shares)?;
        }
        match &self.start {
            Start::Fresh => writeln!(f, "start: fresh, nothing stored")?,
            Start::Queue(queue, kind) => {
                let kind = *kind as u8;
                writeln!(f, "start, stored in kind {kind:02x}: {}", Short(queue))?
            }
        }
        for (at, event) in self.events.iter().enumerate() {
            match event {
                Event::Cut => writeln!(f, "{at}: power cut")?,
                Event::Call(call, write) => {
                    writeln!(f, "{at}: {}, write {}", Short(call), write.name())?
                }
            }
        }
        writeln!(
            f,
            "reading calls at {:?}, best fees, kinds and marks by seed {}",
            self.probe, self.fees
        )
    }
}

/// The debug text, with ids as their first and last bytes.
pub struct Short<T>(pub T);

impl<T: fmt::Debug> fmt::Display for Short<T> {
    fn fmt(&self, f: &mut fmt::Formatter<'_>) -> fmt::Result {
        let text = format!("{:?}", self.0);
        // An id is printed as 32 numbers; those in the middle say nothing.
        f.write_str(&text.replace(&"128, ".repeat(27), ".. "))
    }
}
