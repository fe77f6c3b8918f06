//! What the tests share.

#[path = "../../../node/tests/common/folder.rs"]
mod folder;

pub use folder::Folder;
