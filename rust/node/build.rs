//! Links libpokerbox.a and says which of its calls can be used.

use std::path::{Path, PathBuf};
use std::{env, fs};

/// The calls of docs/CALLS.md that libpokerbox.a does not export yet. Take a name off when its
/// export has arrived; the rest of the crate follows by `cfg(exported = "name")`.
const NOT_EXPORTED_YET: &[&str] = &[];

/// The calls of docs/CALLS.md.
const CALLS: &[&str] = &[
    "admit",
    "cancel",
    "expire",
    "reconcile",
    "reopen",
    "set_cursor",
    "fresh",
    "sound",
    "settle",
    "image",
    "open",
    "need",
    "image_limits",
    "convert",
    "revision",
    "is_empty",
    "deadline_due",
    "observed_height",
    "observation_cursor",
    "record_ids",
    "guarded_ids",
    "reserved_inputs",
    "reservation_snapshot",
    "guard_snapshot",
    "list",
    "entry",
    "signed_bytes",
    "selection_entries",
    "selection_entries_at",
    "selection_parents_first",
    "best_fees",
    "due",
    "confirmations",
];

/// A folder with libpokerbox.a, in place of the repository's target/staticlib.
const FOLDER_VARIABLE: &str = "POKERBOX_LIB_DIR";
/// Names with commas between them, in place of [`NOT_EXPORTED_YET`]; for a library that differs.
const LIST_VARIABLE: &str = "POKERBOX_NOT_EXPORTED_YET";

fn main() {
    let missing = not_exported_yet();
    let folder = library_folder();
    check_library(&folder.join("libpokerbox.a"), &missing);
    println!("cargo:rustc-link-search=native={}", folder.display());
    println!("cargo:rustc-link-lib=static=pokerbox");
    let values: Vec<String> = CALLS.iter().map(|call| format!("\"{call}\"")).collect();
    println!(
        "cargo:rustc-check-cfg=cfg(exported, values({}))",
        values.join(", ")
    );
    for call in CALLS.iter().filter(|call| !is_in(&missing, call)) {
        println!("cargo:rustc-cfg=exported=\"{call}\"");
    }
    println!("cargo:rustc-check-cfg=cfg(all_exported)");
    if missing.is_empty() {
        println!("cargo:rustc-cfg=all_exported");
    }
    println!(
        "cargo:rustc-env=POKERBOX_MISSING_CALLS={}",
        missing.join(",")
    );
    println!("cargo:rerun-if-changed=build.rs");
    println!("cargo:rerun-if-env-changed={FOLDER_VARIABLE}");
    println!("cargo:rerun-if-env-changed={LIST_VARIABLE}");
}

fn is_in(names: &[String], name: &str) -> bool {
    names.iter().any(|other| other == name)
}

fn not_exported_yet() -> Vec<String> {
    match env::var(LIST_VARIABLE) {
        Ok(list) => list
            .split(',')
            .filter(|name| !name.is_empty())
            .map(str::to_string)
            .collect(),
        Err(_) => NOT_EXPORTED_YET
            .iter()
            .map(|name| name.to_string())
            .collect(),
    }
}

fn library_folder() -> PathBuf {
    match env::var_os(FOLDER_VARIABLE) {
        Some(folder) => PathBuf::from(folder),
        None => {
            let package = PathBuf::from(env::var_os("CARGO_MANIFEST_DIR").expect("set by cargo"));
            package.join("../../target/staticlib")
        }
    }
}

/// What a library was built for: the processor and the bits of a pointer.
#[derive(Debug, Clone, PartialEq, Eq)]
pub struct Target {
    pub arch: String,
    pub pointer_width: String,
}

impl std::fmt::Display for Target {
    fn fmt(&self, f: &mut std::fmt::Formatter<'_>) -> std::fmt::Result {
        write!(f, "{} with {} bits, Linux", self.arch, self.pointer_width)
    }
}

/// Read from the header of the first ELF object in the archive.
pub fn library_target(archive: &[u8]) -> Option<Target> {
    let at = archive.windows(4).position(|window| window == b"\x7fELF")?;
    let header = archive.get(at..at + 20)?;
    // Bits, byte order, machine.
    let (pointer_width, arch) = match (header[4], header[5], [header[18], header[19]]) {
        (2, 1, [62, 0]) => ("64", "x86_64".into()),
        (2, 1, [183, 0]) => ("64", "aarch64".into()),
        (2, 1, [243, 0]) => ("64", "riscv64".into()),
        (1, 1, [40, 0]) => ("32", "arm".into()),
        (bits, _, machine) => (
            if bits == 1 { "32" } else { "64" },
            format!("ELF machine {machine:?}"),
        ),
    };
    Some(Target {
        arch,
        pointer_width: pointer_width.into(),
    })
}

/// Stops where the library was built for another target than this build's.
fn check_target(library: &Path, archive: &[u8]) {
    let cargo = |name: &str| env::var(name).unwrap_or_default();
    let wanted = Target {
        arch: cargo("CARGO_CFG_TARGET_ARCH"),
        pointer_width: cargo("CARGO_CFG_TARGET_POINTER_WIDTH"),
    };
    let Some(built) = library_target(archive) else {
        stop(&format!("{} has no ELF object", library.display()))
    };
    if built != wanted || cargo("CARGO_CFG_TARGET_OS") != "linux" {
        stop(&format!(
            "{} was built for {built}, and this build is for {}: build for that target, or set \
             {FOLDER_VARIABLE} to a folder with a library for this one",
            library.display(),
            cargo("TARGET")
        ));
    }
    // For this crate.
    println!("cargo:rustc-env=POKERBOX_LIBRARY_TARGET={built}");
}

/// Stops unless the library is there and exports what it should.
fn check_library(library: &Path, missing: &[String]) {
    println!("cargo:rerun-if-changed={}", library.display());
    let archive = fs::read(library).unwrap_or_else(|error| {
        stop(&format!(
            "cannot read {}: {error}. Run `bash tools/staticlib.sh` in the repository's root, or \
             set {FOLDER_VARIABLE} to the folder that holds libpokerbox.a",
            library.display()
        ))
    });
    check_target(library, &archive);
    for call in CALLS {
        let exported = has_symbol(&archive, &format!("pokerbox_{call}"));
        if exported && is_in(missing, call) {
            println!(
                "cargo:warning=libpokerbox.a exports pokerbox_{call}: take it off \
                 NOT_EXPORTED_YET in node/build.rs"
            );
        }
        if !exported && !is_in(missing, call) {
            stop(&format!(
                "{} does not export pokerbox_{call}: run `bash tools/staticlib.sh` again, or put \
                 the name on NOT_EXPORTED_YET in node/build.rs",
                library.display()
            ));
        }
    }
}

fn stop(message: &str) -> ! {
    eprintln!("{message}");
    std::process::exit(1)
}

/// The name stands whole in the archive's index or in a string table: between zero bytes, or at
/// the start of the index's names.
fn has_symbol(archive: &[u8], name: &str) -> bool {
    let ended = format!("{name}\0");
    archive
        .windows(ended.len())
        .any(|window| window == ended.as_bytes())
}
