//! Shim of `hex`. Bytes are encoded and decoded by the real crate. A
//! [`LateId`] is encoded to a [`LateString`], which becomes the id of the
//! record that it is compared with.

use std::ops::Deref;
use std::rc::Rc;
use std::sync::Arc;

use ergo_primitives::registry;

pub use real_hex::{decode, FromHexError};

pub trait Encodable {
    type Encoded;
    fn encoded(self) -> Self::Encoded;
}

pub fn encode<T: Encodable>(data: T) -> T::Encoded {
    data.encoded()
}

impl Encodable for &[u8; 32] {
    type Encoded = String;
    fn encoded(self) -> String {
        real_hex::encode(self)
    }
}

impl Encodable for &Arc<[u8]> {
    type Encoded = String;
    fn encoded(self) -> String {
        real_hex::encode(self)
    }
}

/// The bytes of a transaction's id: known once it was compared.
#[derive(Clone)]
pub struct LateId {
    pub signed: Rc<Vec<u8>>,
}

impl Deref for LateId {
    type Target = [u8; 32];
    fn deref(&self) -> &[u8; 32] {
        registry::lent_id(registry::current().id)
    }
}

pub struct LateString(LateId);

impl Encodable for LateId {
    type Encoded = LateString;
    fn encoded(self) -> LateString {
        LateString(self)
    }
}

impl PartialEq<String> for LateString {
    fn eq(&self, record_id: &String) -> bool {
        let Some(id) = real_hex::decode(record_id)
            .ok()
            .and_then(|b| <[u8; 32]>::try_from(b).ok())
        else {
            return false;
        };
        registry::resolve(&id, &self.0.signed)
    }
}
