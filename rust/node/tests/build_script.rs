//! The build script knows for which target a library was built.

#[allow(dead_code)]
#[path = "../build.rs"]
mod build_script;

use build_script::{library_target, Target};

/// The front of an archive with an ELF object for this machine.
fn archive(bits: u8, machine: u8) -> Vec<u8> {
    let mut bytes = b"!<arch>\n".to_vec();
    bytes.resize(77, b' ');
    bytes.extend(b"\x7fELF");
    bytes.extend([bits, 1, 1]);
    bytes.extend([0; 9]);
    bytes.extend([1, 0, machine, 0]);
    bytes
}

fn target(arch: &str, pointer_width: &str) -> Option<Target> {
    Some(Target {
        arch: arch.into(),
        pointer_width: pointer_width.into(),
    })
}

#[test]
fn the_target_is_read_from_the_library() {
    assert_eq!(library_target(&archive(2, 62)), target("x86_64", "64"));
    assert_eq!(library_target(&archive(2, 183)), target("aarch64", "64"));
    assert_eq!(library_target(&archive(1, 40)), target("arm", "32"));
    // x86_64 with pointers of 32 bits is another target.
    assert_ne!(library_target(&archive(1, 62)), target("x86_64", "64"));
    assert_eq!(library_target(b"!<arch>\n"), None);
}

#[test]
fn the_linked_library_is_for_this_target() {
    assert!(pokerbox::LIBRARY_TARGET.starts_with(std::env::consts::ARCH));
}
