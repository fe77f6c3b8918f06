//! Appended to the reference as a child module, so that the parts that have
//! no public name can be compared, and set for cards such as a revision at
//! the top.

use super::{PrivateTransactionEntry, PrivateTransactionQueue, PrivateTransactionState, Record};

/// A record with its private parts.
#[derive(Debug, Clone)]
pub struct WholeRecord {
    pub key: String,
    pub entry: PrivateTransactionEntry,
    pub signed_bytes: Option<Vec<u8>>,
    pub withdrawn: Option<PrivateTransactionState>,
    pub finished_seq: u64,
}

/// The store.
#[derive(Debug, Clone)]
pub struct WholeStore {
    pub version: u32,
    pub records: Vec<WholeRecord>,
    pub revision: u64,
    pub observed_height: u32,
    pub observed_tip: Option<String>,
    pub finished_seq: u64,
    pub persisted_height: u32,
    pub next_deadline: (Option<u64>, Option<u32>),
}

pub fn whole_store(queue: &PrivateTransactionQueue) -> WholeStore {
    let store = queue.lock();
    WholeStore {
        version: store.version,
        records: store
            .records
            .iter()
            .map(|(key, r)| WholeRecord {
                key: key.clone(),
                entry: r.entry.clone(),
                signed_bytes: r.signed_bytes.as_deref().map(|s| hex::decode(s).unwrap()),
                withdrawn: r.withdrawn,
                finished_seq: r.finished_seq,
            })
            .collect(),
        revision: store.revision,
        observed_height: store.observed_height,
        observed_tip: store.observed_tip.clone(),
        finished_seq: store.finished_seq,
        persisted_height: store.persisted_height,
        next_deadline: store.next_deadline,
    }
}

/// Where the next write goes; a path that cannot be written makes it fail.
pub fn set_path(queue: &mut PrivateTransactionQueue, path: &std::path::Path) {
    queue.path = Some(path.to_path_buf());
}

/// Write the store as it is.
pub fn persist(queue: &PrivateTransactionQueue) -> Result<(), String> {
    queue.persist(&queue.lock())
}

/// The bytes that a write puts into the file.
pub fn json(queue: &PrivateTransactionQueue) -> Vec<u8> {
    serde_json::to_vec(&*queue.lock()).unwrap()
}

/// Replace the store in memory; nothing is written.
pub fn set_whole_store(queue: &PrivateTransactionQueue, whole: WholeStore) {
    let mut store = queue.lock();
    store.version = whole.version;
    store.records = whole
        .records
        .into_iter()
        .map(|r| {
            let signed_bytes = r.signed_bytes.map(|bytes| {
                let bytes: std::sync::Arc<[u8]> = bytes.into();
                std::sync::Arc::from(hex::encode(&bytes))
            });
            let record =
                Record { entry: r.entry, signed_bytes, withdrawn: r.withdrawn, finished_seq: r.finished_seq };
            (r.key, record)
        })
        .collect();
    store.revision = whole.revision;
    store.observed_height = whole.observed_height;
    store.observed_tip = whole.observed_tip;
    store.finished_seq = whole.finished_seq;
    store.persisted_height = whole.persisted_height;
    store.refresh_deadlines();
}
