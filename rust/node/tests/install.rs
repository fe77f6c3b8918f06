//! What `tools/install.sh` installs serves a C program: it is compiled and linked by the lines in the
//! header, and run.

mod common;

use std::path::{Path, PathBuf};
use std::process::Command;

use common::Folder;

fn repository() -> PathBuf {
    Path::new(env!("CARGO_MANIFEST_DIR")).join("../..")
}

/// What a command says; it has to succeed.
fn said(command: &mut Command) -> String {
    let ended = command
        .output()
        .unwrap_or_else(|error| panic!("{command:?}: {error}; tools/packages.sh installs it"));
    assert!(ended.status.success(), "{command:?}: {ended:?}");
    String::from_utf8(ended.stdout).expect("text")
}

fn compile_and_run(folder: &Path, flags: &[&str]) {
    let program = folder.join("unit");
    let source = Path::new(env!("CARGO_MANIFEST_DIR")).join("tests/c/unit.c");
    said(
        Command::new("cc")
            .args(["-std=c99", "-Wall", "-Wextra", "-Wpedantic", "-Werror"])
            .arg(source)
            .args(flags)
            .arg("-o")
            .arg(&program),
    );
    let answer = said(&mut Command::new(program));
    assert_eq!(answer, "all answers as expected\n");
}

#[test]
fn a_c_program_uses_what_is_installed() {
    let folder = Folder::new("install");
    let prefix = folder.path().join("prefix");
    said(
        Command::new("bash")
            .arg(repository().join("tools/install.sh"))
            .arg(&prefix),
    );
    let ask = |what: &[&str]| {
        said(
            Command::new("pkg-config")
                .args(what)
                .arg("pokerbox")
                .env("PKG_CONFIG_PATH", prefix.join("lib/pkgconfig")),
        )
    };
    assert_eq!(ask(&["--modversion"]).trim(), env!("CARGO_PKG_VERSION"));
    let flags = ask(&["--cflags", "--libs"]);
    compile_and_run(folder.path(), &flags.split_whitespace().collect::<Vec<_>>());
    // The other line.
    let include = format!("-I{}", prefix.join("include").display());
    let library = format!("-L{}", prefix.join("lib").display());
    compile_and_run(folder.path(), &[&include, &library, "-lpokerbox"]);
}

#[test]
fn installing_needs_a_prefix() {
    for arguments in [&[][..], &["--help"], &["a", "b"]] {
        let ended = Command::new("bash")
            .arg(repository().join("tools/install.sh"))
            .args(arguments)
            .output()
            .expect("bash");
        assert_eq!(ended.status.code(), Some(2), "{arguments:?}");
    }
}
