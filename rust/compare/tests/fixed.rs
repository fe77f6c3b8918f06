//! The fixed list in the repository is what the program makes now.

mod common;

use std::path::Path;

use common::Folder;
use compare::fixed;

#[test]
fn the_fixed_list_is_as_it_is_made() {
    let folder = Folder::new("fixed");
    let made = fixed::make(folder.path()).expect("a list");
    let replay = Path::new(env!("CARGO_MANIFEST_DIR")).join(fixed::REPLAY);
    for (name, text) in [("stdin", &made.steps), ("stdout", &made.answers)] {
        let kept = std::fs::read_to_string(replay.join(name)).expect("a file");
        let at = kept
            .lines()
            .zip(text.lines())
            .position(|(kept, made)| kept != made);
        assert!(
            kept == *text,
            "{name} differs from what is made, first at line {:?}",
            at.map(|at| at + 1)
        );
    }
}
