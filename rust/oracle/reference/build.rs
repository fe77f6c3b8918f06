//! Makes the oracle's module from the reference's text. Six lines, the
//! definitions of the limit constants, are replaced, and one line is added at
//! the end. Each replaced line must be there exactly once, else the build
//! stops. All uses of the constants stay as written (see `limits`).

use std::{env, fs, path::Path};

const REPLACED: [(&str, &str); 6] = [
    (
        "pub const MAX_PRIVATE_TRANSACTIONS: usize = 1024;",
        "pub const MAX_PRIVATE_TRANSACTIONS: crate::limits::Limit = crate::limits::Limit::Pending;",
    ),
    (
        "const MAX_PRIVATE_BYTES: usize = 16 * 1024 * 1024;",
        "const MAX_PRIVATE_BYTES: crate::limits::Limit = crate::limits::Limit::Bytes;",
    ),
    (
        "const MAX_RECOVERABLE_MINED: usize = MAX_PRIVATE_TRANSACTIONS;",
        "const MAX_RECOVERABLE_MINED: crate::limits::Limit = MAX_PRIVATE_TRANSACTIONS;",
    ),
    (
        "const MAX_RECOVERABLE_MINED_BYTES: usize = MAX_PRIVATE_BYTES;",
        "const MAX_RECOVERABLE_MINED_BYTES: crate::limits::Limit = MAX_PRIVATE_BYTES;",
    ),
    (
        "const MAX_FINISHED_RECORDS: usize = 1024;",
        "const MAX_FINISHED_RECORDS: crate::limits::Limit = crate::limits::Limit::Tombstones;",
    ),
    // A bound on the JSON file, which the port leaves to the node; under a
    // small B it would refuse every file. It keeps its value for the top B.
    (
        "const MAX_FILE_BYTES: usize = 9 * MAX_PRIVATE_BYTES;",
        "const MAX_FILE_BYTES: usize = 9 * 16 * 1024 * 1024;",
    ),
];

fn main() {
    let root = env::var("CARGO_MANIFEST_DIR").unwrap();
    let source = Path::new(&root).join("private_queue.rs.txt");
    let inspect = Path::new(&root).join("src/inspect.rs");
    println!("cargo:rerun-if-changed={}", source.display());
    println!("cargo:rerun-if-changed=build.rs");
    let mut text = fs::read_to_string(&source).unwrap();
    for (old, new) in REPLACED {
        let lines = text.lines().filter(|line| *line == old).count();
        assert_eq!(lines, 1, "expected exactly once: {old}");
        text = text
            .lines()
            .map(|line| if line == old { new } else { line })
            .collect::<Vec<_>>()
            .join("\n")
            + "\n";
    }
    text.push_str(&format!(
        "\n#[path = {:?}]\npub mod inspect;\n",
        inspect.display().to_string()
    ));
    let out_dir = env::var("OUT_DIR").unwrap();
    // The module's own tests are not part of the text; this stands for what it calls of them.
    let tests = "pub(super) fn fail_directory_sync() -> std::io::Result<()> {\n    Ok(())\n}\n";
    fs::write(Path::new(&out_dir).join("tests.rs"), tests).unwrap();
    let out = Path::new(&out_dir).join("private_queue.rs");
    fs::write(&out, text).unwrap();
    let part = format!(
        "#[path = {:?}]\n#[allow(dead_code, clippy::all)]\npub mod private_queue;\n",
        out.display().to_string()
    );
    fs::write(Path::new(&out_dir).join("lib_part.rs"), part).unwrap();
}
