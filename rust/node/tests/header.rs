//! The C header declares what `src/ffi.rs` declares, and marks what is not exported yet.

use std::collections::{BTreeMap, BTreeSet};

use pokerbox::{BestFees, Caller, Error, Kind, Limits, Outcome, Reason, State};

/// By function, the types of its parameters in Rust's words.
type Declarations = BTreeMap<String, Vec<String>>;

fn text(file: &str) -> String {
    let path = std::path::Path::new(env!("CARGO_MANIFEST_DIR")).join(file);
    std::fs::read_to_string(path).expect("a file of this crate")
}

/// The names and parameter lists of the prototypes that begin with `before`.
fn prototypes(text: &str, before: &str) -> Vec<(String, String)> {
    text.split(&format!("{before}pokerbox_"))
        .skip(1)
        .filter_map(|rest| {
            let (name, rest) = rest.split_once('(')?;
            let (parameters, _) = rest.split_once(')')?;
            Some((format!("pokerbox_{name}"), parameters.to_string()))
        })
        .collect()
}

fn rust_declarations() -> Declarations {
    prototypes(&text("src/ffi.rs"), "pub fn ")
        .into_iter()
        .map(|(name, parameters)| {
            let types = parameters
                .split(',')
                .filter_map(|parameter| Some(parameter.split_once(':')?.1.trim().to_string()))
                .collect();
            (name, types)
        })
        .collect()
}

fn c_declarations(header: &str) -> Declarations {
    prototypes(header, "uint64_t ")
        .into_iter()
        .map(|(name, parameters)| (name, parameters.split(',').map(rust_type).collect()))
        .collect()
}

fn rust_type(parameter: &str) -> String {
    let words: Vec<&str> = parameter.split_whitespace().collect();
    let pointer = words.last().is_some_and(|name| name.starts_with('*'));
    match (&words[..words.len() - 1], pointer) {
        (["const", "uint8_t"], true) => "*const u8",
        (["uint8_t"], true) => "*mut u8",
        (["uint64_t"], true) => "*mut u64",
        (["size_t"], false) => "usize",
        (["uint64_t"], false) => "u64",
        (["uint32_t"], false) => "u32",
        (["uint8_t"], false) => "u8",
        _ => panic!("a parameter of another type: {parameter}"),
    }
    .to_string()
}

#[test]
fn the_header_declares_what_rust_declares() {
    let header = text("include/pokerbox.h");
    let declarations = c_declarations(&header);
    assert_eq!(declarations, rust_declarations());
    assert_eq!(declarations.len(), 33);
}

#[test]
fn the_header_marks_what_is_not_exported_yet() {
    if std::env::var_os("POKERBOX_NOT_EXPORTED_YET").is_some() {
        return; // Built with another list than the one in build.rs.
    }
    let header = text("include/pokerbox.h");
    let marked = header
        .split_once("NOT EXPORTED YET")
        .map_or("", |two| two.1);
    let marked: BTreeSet<String> = c_declarations(marked).into_keys().collect();
    let missing: BTreeSet<String> = pokerbox::not_exported_yet()
        .into_iter()
        .map(|name| format!("pokerbox_{name}"))
        .collect();
    assert_eq!(marked, missing);
}

/// By name, without `POKERBOX_`, the numbers that the header defines.
fn constants(header: &str) -> BTreeMap<String, u64> {
    header
        .lines()
        .filter_map(|line| line.strip_prefix("#define POKERBOX_"))
        .filter_map(|line| line.split_once(' '))
        .filter_map(|(name, number)| Some((name.to_string(), number.parse().ok()?)))
        .collect()
}

/// What the header says of refusals is what there is: a list, never a range.
#[test]
fn the_header_names_the_refusals() {
    let numbers: Vec<u64> = (1..=18).chain([20, 21, 22]).collect();
    assert_eq!(Error::ALL.map(Error::number), *numbers);
    assert!(text("include/pokerbox.h").contains("\n *   1 to 18, 20, 21, 22  a refusal;"));
}

/// A variant's name as a constant's: `QueueFull` is `QUEUE_FULL`.
fn constant(prefix: &str, variant: impl std::fmt::Debug) -> String {
    let mut name = String::from(prefix);
    for letter in format!("{variant:?}").chars() {
        if letter.is_uppercase() && !name.is_empty() {
            name.push('_');
        }
        name.extend(letter.to_uppercase());
    }
    name
}

#[test]
fn the_header_defines_the_numbers_of_rust() {
    const KINDS: [Kind; 4] = [Kind::Nothing, Kind::Memory, Kind::Whole, Kind::Cursor];
    let mut expected = BTreeMap::from([
        ("ANSWERED".to_string(), 100),
        ("MAX_PENDING".to_string(), Limits::MAX_PENDING.into()),
        ("MAX_BYTES".to_string(), Limits::MAX_BYTES.into()),
        ("MAX_TOMBSTONES".to_string(), Limits::MAX_TOMBSTONES.into()),
        ("MAX_INPUTS".to_string(), Limits::MAX_INPUTS.into()),
        (
            "MAX_CANDIDATES".to_string(),
            BestFees::MAX_CANDIDATES.into(),
        ),
        ("MAX_BUDGET".to_string(), BestFees::MAX_BUDGET),
        ("CALLERS".to_string(), Caller::COUNT as u64),
        ("SHARES_LEN".to_string(), 4 * Caller::COUNT as u64),
    ]);
    expected.extend(Error::ALL.map(|error| (constant("", error), error.number())));
    expected.extend(KINDS.map(|kind| (constant("KIND", kind), kind as u64)));
    expected.extend(KINDS.map(|kind| (constant("ANSWERED", kind), 100 + kind as u64)));
    expected.extend(State::ALL.map(|state| (constant("STATE", state), state as u64)));
    expected.extend(Reason::ALL.map(|reason| (constant("REASON", reason), reason as u64)));
    let outcomes = [Outcome::Kept, Outcome::Failed];
    expected.extend(outcomes.map(|outcome| (constant("OUTCOME", outcome), outcome as u64)));
    assert_eq!(constants(&text("include/pokerbox.h")), expected);
}
