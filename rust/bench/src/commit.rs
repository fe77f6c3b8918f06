//! A commit with its write: the call, the image in a second file, syncs, rename, settling.

use std::cell::RefCell;
use std::path::Path;

use compare::oracle::hex;
use pokerbox::store::FileStore;
use pokerbox::{Height, InputId, Limits, OutputId, TimeMs, TxId};
use reference::private_queue::inspect;
use reference::private_queue::PrivateTransactionQueue;

use crate::{time, Bench, Row, Time};

/// The kind of the file system that a folder is on, where the system lists what is mounted.
pub fn file_system(folder: &Path) -> Option<String> {
    let folder = folder.canonicalize().ok()?;
    let mounts = std::fs::read_to_string("/proc/mounts").ok()?;
    let mounts = mounts.lines().filter_map(|line| {
        let mut words = line.split(' ').skip(1);
        Some((words.next()?, words.next()?))
    });
    let above = mounts.filter(|(place, _)| folder.starts_with(place));
    let (_, name) = above.max_by_key(|(place, _)| place.len())?;
    Some(name.into())
}

impl Bench<'_> {
    /// A cancellation, written into the folder that the bench was given.
    pub fn commit(&self) -> Row {
        Row {
            work: "cancel with its write".into(),
            library: Some(self.library_commit()),
            oracle: Some(self.oracle_commit()),
        }
    }

    /// The record is queued again before each run.
    fn library_commit(&self) -> Time {
        let folder = self.path.with_extension("store");
        let path = folder.join("image");
        std::fs::create_dir(&folder).expect("a folder for the store");
        std::fs::write(&path, &self.image).expect("an image");
        let store = FileStore::open(&path, Limits::MAX).expect("opened");
        let given = self.admission_of_id();
        let store = RefCell::new(store);
        store
            .borrow_mut()
            .cancel(given.id)
            .expect("a pending record");
        let taken = time(
            || drop(store.borrow_mut().admit(&given).expect("admitted")),
            || drop(store.borrow_mut().cancel(given.id).expect("cancelled")),
        );
        std::fs::remove_dir_all(folder).expect("removed");
        taken
    }

    fn admission_of_id(&self) -> pokerbox::Admission {
        let record = self.queue.record(&self.id).expect("a record");
        let holder = record.holder.as_ref().expect("a holder");
        pokerbox::Admission {
            priority: record.priority,
            fee: record.fee,
            cost: record.cost,
            ..pokerbox::Admission::new(
                TxId(self.id),
                holder.inputs.iter().map(|id| InputId(*id)).collect(),
                holder.outputs.iter().map(|id| OutputId(*id)).collect(),
                holder.bytes.clone(),
                TimeMs(record.created.0),
                Height(100),
            )
        }
    }

    fn oracle_commit(&self) -> Time {
        let path = self.path.with_extension("commit.json");
        let mut oracle = PrivateTransactionQueue::default();
        inspect::set_path(&mut oracle, &path);
        let id = hex(&self.id);
        let taken = time(
            || inspect::set_whole_store(&oracle, self.store.clone()),
            || drop(oracle.cancel(&id).expect("cancelled")),
        );
        std::fs::remove_file(path).expect("removed");
        taken
    }
}
