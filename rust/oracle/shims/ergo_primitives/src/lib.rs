//! Shim of `ergo_primitives`: a 32-byte digest and a byte reader.
//!
//! It also holds the registry by which the shim's transactions are found.
//! The paper says that `materialize` succeeds and gives the outputs named at
//! admission, for any signed bytes: also none, and the same ones in two
//! records. Bytes alone therefore do not say which transaction is meant. The
//! driver registers each transaction under its id when its admission made a
//! record, and the shim finds it when the reference compares the transaction's
//! id with the record's (see `registry` and the `hex` shim).

pub mod digest {
    #[derive(Debug, Clone, Copy, PartialEq, Eq, PartialOrd, Ord, Hash)]
    pub struct Digest32([u8; 32]);

    impl Digest32 {
        pub fn from_bytes(bytes: [u8; 32]) -> Self {
            Self(bytes)
        }

        pub fn as_bytes(&self) -> &[u8; 32] {
            &self.0
        }
    }
}

pub mod reader {
    /// A reader that is either untouched or wholly read.
    pub struct VlqReader<'a> {
        rest: &'a [u8],
    }

    impl<'a> VlqReader<'a> {
        pub fn new(bytes: &'a [u8]) -> Self {
            Self { rest: bytes }
        }

        pub fn is_empty(&self) -> bool {
            self.rest.is_empty()
        }

        /// Shim only: take all that is left.
        pub fn take_all(&mut self) -> &'a [u8] {
            std::mem::take(&mut self.rest)
        }
    }
}

/// The transactions that the driver made known, by id, for this thread.
pub mod registry {
    use std::cell::RefCell;
    use std::collections::HashMap;
    use std::rc::Rc;

    #[derive(Debug, Clone, PartialEq, Eq)]
    pub struct Transaction {
        pub id: [u8; 32],
        pub bytes: Vec<u8>,
        pub inputs: Vec<[u8; 32]>,
        pub outputs: Vec<[u8; 32]>,
    }

    thread_local! {
        static KNOWN: RefCell<HashMap<[u8; 32], Rc<Transaction>>> = RefCell::new(HashMap::new());
        /// The transaction that `materialize` is at work on.
        static CURRENT: RefCell<Option<Rc<Transaction>>> = const { RefCell::new(None) };
        /// One leaked copy of each id ever seen, so that a late id can lend it.
        static IDS: RefCell<HashMap<[u8; 32], &'static [u8; 32]>> = RefCell::new(HashMap::new());
        /// Materializations that failed: must stay 0.
        static FAILED: RefCell<u64> = const { RefCell::new(0) };
    }

    /// To be called right after an admission that made a record.
    pub fn register(transaction: Transaction) {
        KNOWN.with(|known| {
            known
                .borrow_mut()
                .insert(transaction.id, Rc::new(transaction))
        });
    }

    /// The transaction that was registered last under this id.
    pub fn known(id: &[u8; 32]) -> Option<Rc<Transaction>> {
        KNOWN.with(|known| known.borrow().get(id).cloned())
    }

    pub fn clear() {
        KNOWN.with(|known| known.borrow_mut().clear());
        CURRENT.with(|current| *current.borrow_mut() = None);
    }

    /// The reference now compares the id of the transaction that was read
    /// from `bytes` with a record's id. True, and the transaction is fixed, if
    /// that id was registered with these very bytes.
    pub fn resolve(id: &[u8; 32], bytes: &[u8]) -> bool {
        let found = KNOWN.with(|known| known.borrow().get(id).cloned());
        match found {
            Some(transaction) if transaction.bytes == bytes => {
                CURRENT.with(|current| *current.borrow_mut() = Some(transaction));
                true
            }
            _ => {
                FAILED.with(|failed| *failed.borrow_mut() += 1);
                CURRENT.with(|current| *current.borrow_mut() = None);
                false
            }
        }
    }

    pub fn failed() -> u64 {
        FAILED.with(|failed| *failed.borrow())
    }

    pub fn current() -> Rc<Transaction> {
        CURRENT.with(|current| {
            current
                .borrow()
                .clone()
                .expect("no transaction was resolved")
        })
    }

    pub fn lent_id(id: [u8; 32]) -> &'static [u8; 32] {
        IDS.with(|ids| {
            *ids.borrow_mut()
                .entry(id)
                .or_insert_with(|| Box::leak(Box::new(id)))
        })
    }
}
