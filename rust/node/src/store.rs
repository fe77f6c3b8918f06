//! The image in a file.
//!
//! A [`FileStore`] is a queue and the files that keep it: the image; a second file beside it, which
//! a write fills, syncs and renames over the first; and a lock file, held for as long as the store
//! lives, which is also the mark that a store was made here.
//!
//! - [`FileStore::create`] makes a store where none stands, [`FileStore::open`] opens one that
//!   stands. On a card, make the store once and open it at each start: a card that is not there is
//!   then an error, and never an empty queue.
//! - A changing call of the store makes the call on its queue, writes what is due and settles with
//!   the outcome. After [`StoreError::WriteFailed`] the queue is as document 01 settles it, and the
//!   next call may be made.
//! - [`FileStore::look`] reads what is stored without a lock and changes nothing.

use std::collections::BTreeSet;
use std::fmt;
use std::io;
use std::path::{Path, PathBuf};

use crate::answer::{Entry, Reconciled};
use crate::error::Error;
use crate::queue::{Admission, Queue, Reconciliation};
use crate::types::{BlockId, Height, Limits, TimeMs, TxId};

#[cfg(test)]
mod disk;
#[cfg(test)]
mod faults;
mod files;
mod system;

use files::Store;
use system::Os;

/// Why a store did not do what it was asked for.
#[derive(Debug)]
#[non_exhaustive]
pub enum StoreError {
    /// The queue refused.
    Refused(Error),
    /// No store stands at this path.
    NoStore(PathBuf),
    /// A store stands at this path already.
    StoreStands(PathBuf),
    /// Another store, of this process or of another one, holds the files at this path.
    InUse(PathBuf),
    /// What stands at this path cannot be used.
    Unusable(PathBuf, io::Error),
    /// The file at this path is not the image of a sound queue: [`Error::NotAnImage`].
    Damaged(PathBuf),
    /// The write failed and was settled so: [`Error::WriteFailed`], and why.
    WriteFailed(io::Error),
    /// Whether the write took place cannot be told. The queue is as it was before the call, and the
    /// store takes no further changes: drop it and open it again.
    OutcomeUnknown(io::Error),
}

impl StoreError {
    /// Document 01's refusal, where there is one.
    pub fn refusal(&self) -> Option<Error> {
        match self {
            StoreError::Refused(error) => Some(*error),
            StoreError::Damaged(_) => Some(Error::NotAnImage),
            StoreError::WriteFailed(_) => Some(Error::WriteFailed),
            _ => None,
        }
    }
}

impl From<Error> for StoreError {
    fn from(error: Error) -> Self {
        StoreError::Refused(error)
    }
}

impl fmt::Display for StoreError {
    fn fmt(&self, f: &mut fmt::Formatter<'_>) -> fmt::Result {
        match self {
            StoreError::Refused(error) => write!(f, "{error}"),
            StoreError::NoStore(path) => write!(
                f,
                "no store stands at {}: see that its card is mounted, or create the store",
                path.display()
            ),
            StoreError::StoreStands(path) => write!(
                f,
                "a store stands at {} already: open it, or take another path",
                path.display()
            ),
            StoreError::InUse(path) => write!(
                f,
                "{} is in use by another store: end the process that holds it",
                path.display()
            ),
            StoreError::Unusable(path, error) => write!(
                f,
                "cannot use {}: {error}; see that it can be read and written by this program",
                path.display()
            ),
            StoreError::Damaged(path) => write!(f, "{}: {}", path.display(), Error::NotAnImage),
            StoreError::WriteFailed(error) => write!(f, "{} ({error})", Error::WriteFailed),
            StoreError::OutcomeUnknown(error) => write!(
                f,
                "whether the image was written cannot be told ({error}): open the store again"
            ),
        }
    }
}

impl std::error::Error for StoreError {
    fn source(&self) -> Option<&(dyn std::error::Error + 'static)> {
        match self {
            StoreError::Refused(error) => Some(error),
            StoreError::Damaged(_) => Some(&Error::NotAnImage),
            StoreError::Unusable(_, error)
            | StoreError::WriteFailed(error)
            | StoreError::OutcomeUnknown(error) => Some(error),
            StoreError::NoStore(_) | StoreError::StoreStands(_) | StoreError::InUse(_) => None,
        }
    }
}

/// What went wrong while the store did what it was asked for. Tell the operator.
#[derive(Debug)]
#[non_exhaustive]
pub enum Warning {
    /// This directory could not be synced. What was written or opened counts as kept, but a power
    /// cut may still undo it.
    DirectoryNotSynced(PathBuf, io::Error),
    /// The file system does not lock this file: see that no second process uses the store.
    NotLocked(PathBuf, io::Error),
    /// The image was renamed into place, though the system reported an error.
    RenameReported(io::Error),
}

impl fmt::Display for Warning {
    fn fmt(&self, f: &mut fmt::Formatter<'_>) -> fmt::Result {
        match self {
            Warning::DirectoryNotSynced(path, error) => write!(
                f,
                "{} could not be synced ({error}): a power cut may undo what was kept",
                path.display()
            ),
            Warning::NotLocked(path, error) => write!(
                f,
                "{} could not be locked ({error}): see that no second process uses the store",
                path.display()
            ),
            Warning::RenameReported(error) => write!(
                f,
                "the image was renamed into place, though the system reported an error ({error})"
            ),
        }
    }
}

/// What [`FileStore::open_or_create`] did.
#[derive(Debug, Clone, Copy, PartialEq, Eq)]
pub enum Opened {
    /// A store stood there and was opened.
    Found,
    /// None stood there, and one was made.
    Created,
}

/// A queue in a file. It holds a lock for as long as it lives.
pub struct FileStore(Store<Os>);

impl fmt::Debug for FileStore {
    fn fmt(&self, f: &mut fmt::Formatter<'_>) -> fmt::Result {
        f.debug_struct("FileStore")
            .field("path", &self.path())
            .field("queue", self.queue())
            .finish_non_exhaustive()
    }
}

impl FileStore {
    /// Makes a store whose image is to be the file `path`, with a fresh queue; an error where a
    /// store stands. Missing folders are made. No image is written: nothing is stored yet.
    pub fn create(path: impl AsRef<Path>, limits: Limits) -> Result<FileStore, StoreError> {
        Store::create(Os, path.as_ref(), limits).map(FileStore)
    }

    /// Opens the store whose image is the file `path`; an error where none stands. The queue is
    /// the stored one, under the limits and shares in its image, and durable; where nothing is stored
    /// yet it is a fresh one under `limits`.
    pub fn open(path: impl AsRef<Path>, limits: Limits) -> Result<FileStore, StoreError> {
        Store::open(Os, path.as_ref(), limits).map(FileStore)
    }

    /// As [`FileStore::open`] where a store stands, else as [`FileStore::create`], and says which.
    /// A card that is not mounted is taken for a place without a store.
    pub fn open_or_create(
        path: impl AsRef<Path>,
        limits: Limits,
    ) -> Result<(FileStore, Opened), StoreError> {
        match FileStore::open(&path, limits) {
            Err(StoreError::NoStore(_)) => {
                FileStore::create(&path, limits).map(|store| (store, Opened::Created))
            }
            opened => opened.map(|store| (store, Opened::Found)),
        }
    }

    /// The queue that is stored at `path`, also while another process holds the store; nothing
    /// where a store stands in which nothing is stored yet. It takes no lock and changes nothing.
    /// What it shows may not be durable yet.
    pub fn look(path: impl AsRef<Path>) -> Result<Option<Queue>, StoreError> {
        Store::look(Os, path.as_ref())
    }

    /// The file that holds the image, absolute.
    pub fn path(&self) -> PathBuf {
        self.0.place().image()
    }

    /// The queue, for all reading calls. It is changed by the calls of its store alone:
    ///
    /// ```compile_fail,E0596
    /// fn cancel(store: &pokerbox::store::FileStore, id: pokerbox::TxId) {
    ///     let _ = store.queue().cancel(id);
    /// }
    /// ```
    pub fn queue(&self) -> &Queue {
        self.0.queue()
    }

    /// The warnings since the last time, of each kind the latest.
    pub fn take_warnings(&mut self) -> Vec<Warning> {
        self.0.take_warnings()
    }

    /// [`Queue::admit`] with its write: queues a transaction. The answer is its entry, the old one
    /// where it is queued or mined.
    #[cfg(exported = "admit")]
    pub fn admit(&mut self, given: &Admission) -> Result<Entry, StoreError> {
        self.0.commit(|queue| queue.admit(given))
    }

    /// [`Queue::cancel`] with its write: withdraws a pending record. The answer is its entry after
    /// the call.
    #[cfg(exported = "cancel")]
    pub fn cancel(&mut self, id: TxId) -> Result<Entry, StoreError> {
        self.0.commit(|queue| queue.cancel(id))
    }

    /// [`Queue::expire`] with its write: withdraws the records whose deadline is due. The answer is
    /// their ids, rising.
    #[cfg(exported = "expire")]
    pub fn expire(&mut self, now: TimeMs, height: Height) -> Result<Vec<TxId>, StoreError> {
        self.0.commit(|queue| queue.expire(now, height))
    }

    /// [`Queue::reconcile`] with its write: applies one step of applied history.
    #[cfg(exported = "reconcile")]
    pub fn reconcile(&mut self, given: &Reconciliation) -> Result<Reconciled, StoreError> {
        self.0.commit(|queue| queue.reconcile(given))
    }

    /// [`Queue::reopen`] with its write: undoes confirmations whose block left the applied chain.
    #[cfg(exported = "reopen")]
    pub fn reopen(&mut self, ids: &BTreeSet<TxId>) -> Result<(), StoreError> {
        self.0.commit(|queue| queue.reopen(ids))
    }

    /// [`Queue::set_cursor`]: sets the observation cursor, in memory alone.
    #[cfg(exported = "set_cursor")]
    pub fn set_cursor(&mut self, height: Height, tip: Option<BlockId>) -> Result<(), StoreError> {
        self.0.commit(|queue| queue.set_cursor(height, tip))
    }
}
