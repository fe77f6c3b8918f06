//! Shim of `ergo_ser`. Every byte string is a transaction; which one is
//! settled when its id is compared with a record's (see the `hex` shim). Its
//! inputs and outputs are those registered at admission.

#![allow(clippy::result_unit_err)]

pub mod transaction {
    use std::rc::Rc;

    use ergo_primitives::digest::Digest32;
    use ergo_primitives::reader::VlqReader;
    use ergo_primitives::registry;

    pub struct Transaction {
        pub inputs: LateInputs,
        pub output_candidates: LateOutputs,
        signed: Rc<Vec<u8>>,
    }

    pub struct Input {
        pub box_id: Digest32,
    }

    #[derive(Debug, Clone, Copy, PartialEq, Eq)]
    pub struct OutputCandidate {
        pub box_id: Digest32,
    }

    pub struct LateInputs;
    pub struct LateOutputs;

    impl LateInputs {
        pub fn iter(&self) -> std::vec::IntoIter<Input> {
            LateInputs.into_iter()
        }
    }

    impl IntoIterator for LateInputs {
        type Item = Input;
        type IntoIter = std::vec::IntoIter<Input>;
        fn into_iter(self) -> Self::IntoIter {
            let inputs: Vec<Input> = registry::current()
                .inputs
                .iter()
                .map(|id| Input {
                    box_id: Digest32::from_bytes(*id),
                })
                .collect();
            inputs.into_iter()
        }
    }

    impl IntoIterator for LateOutputs {
        type Item = OutputCandidate;
        type IntoIter = std::vec::IntoIter<OutputCandidate>;
        fn into_iter(self) -> Self::IntoIter {
            let outputs: Vec<OutputCandidate> = registry::current()
                .outputs
                .iter()
                .map(|id| OutputCandidate {
                    box_id: Digest32::from_bytes(*id),
                })
                .collect();
            outputs.into_iter()
        }
    }

    pub fn read_transaction(reader: &mut VlqReader<'_>) -> Result<Transaction, ()> {
        Ok(Transaction {
            inputs: LateInputs,
            output_candidates: LateOutputs,
            signed: Rc::new(reader.take_all().to_vec()),
        })
    }

    #[derive(Debug, Clone, Copy)]
    pub struct TransactionId;

    thread_local! {
        static SIGNED: std::cell::RefCell<Rc<Vec<u8>>> = std::cell::RefCell::new(Rc::new(Vec::new()));
    }

    impl TransactionId {
        pub fn as_bytes(&self) -> hex::LateId {
            hex::LateId {
                signed: SIGNED.with(|s| s.borrow().clone()),
            }
        }
    }

    pub fn transaction_id(tx: &Transaction) -> Result<TransactionId, ()> {
        SIGNED.with(|s| *s.borrow_mut() = tx.signed.clone());
        Ok(TransactionId)
    }
}

pub mod ergo_box {
    use super::transaction::{OutputCandidate, TransactionId};
    use ergo_primitives::digest::Digest32;

    #[derive(Debug, Clone, Copy)]
    pub struct ErgoBox {
        pub candidate: OutputCandidate,
        pub transaction_id: TransactionId,
        pub index: u16,
    }

    impl ErgoBox {
        pub fn box_id(&self) -> Result<Digest32, ()> {
            Ok(self.candidate.box_id)
        }
    }
}
