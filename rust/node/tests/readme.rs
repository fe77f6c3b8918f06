//! The README's example is the example `node`, which is also the front page's, where it is compiled
//! and run; and the example `unit` shows what it says.

mod common;

use std::path::Path;
use std::process::{Command, Output};

use common::Folder;

fn text(file: &str) -> String {
    let path = Path::new(env!("CARGO_MANIFEST_DIR")).join(file);
    std::fs::read_to_string(path).expect("a file of the repository")
}

fn run(example: &str, arguments: &[&str]) -> Output {
    let mut program = Command::new(common::example(example));
    program.args(arguments).output().expect("it starts")
}

fn said(output: &Output) -> String {
    assert!(output.status.success(), "{output:?}");
    String::from_utf8(output.stdout.clone()).expect("text")
}

#[test]
fn the_readme_has_the_example() {
    let readme = text("../../README.md");
    let block = readme.split("```rust\n").nth(1).expect("a block of Rust");
    let block = block.split("```\n").next().expect("its end");
    assert_eq!(block, text("examples/node.rs"));
}

#[test]
fn the_example_runs() {
    let said = said(&run("node", &[]));
    assert!(said.contains(": 12 signed bytes"), "{said}");
    assert!(said.contains("fee 1000000, at most 0 more"), "{said}");
    assert!(said.contains("not cancelled: "), "{said}");
    assert!(said.contains("caller 2 has no share"), "{said}");
    assert!(said.contains("it is read"), "{said}");
    assert!(said.contains("changed: true"), "{said}");
}

#[test]
fn the_demonstration_shows_what_a_unit_lives_through() {
    let folder = Folder::new("demo");
    let path = folder.path().join("queue");
    let path = path.to_str().expect("text");
    let shown = said(&run("unit", &[path, "--demo"]));
    for part in [
        "Mined, reason none",
        "Queued, reason rolled back",
        "refusal 17: ",
        "refusal 18: ",
        "refusal 20: ",
        "refusal 22: ",
        "priority 1700000000005",
        "reads 1",
        "caller 0: ",
        "was killed",
        "Opened after it: revision ",
    ] {
        assert!(shown.contains(part), "{part}: {shown}");
    }
    // For an older unit: this queue is refused, and nothing is written.
    let older = folder.path().join("older");
    let older = older.to_str().expect("text");
    let refused = run("unit", &[path, "--older", older]);
    assert!(!refused.status.success());
    assert!(String::from_utf8_lossy(&refused.stderr).contains("refusal 22: "));
    assert!(!Path::new(older).exists());
    // It puts nothing into a queue that is already there.
    let stored = said(&run("unit", &[path]));
    let again = run("unit", &[path, "--demo"]);
    assert!(!again.status.success());
    assert!(String::from_utf8_lossy(&again.stderr).contains("a store stands at"));
    assert_eq!(said(&run("unit", &[path])), stored);
}

#[test]
fn the_image_for_an_older_unit() {
    let folder = Folder::new("older");
    let path = folder.path().to_str().expect("text");
    let limits = pokerbox::Limits::new(2, 10, 1, 1).expect("limits in range");
    let queue = pokerbox::Queue::fresh(limits).expect("a queue");
    let image = queue.image().expect("an image");
    std::fs::write(folder.path().join("queue.image"), &image).expect("a file");
    let file = folder.path().join("older");
    let shown = said(&run(
        "unit",
        &[path, "--older", file.to_str().expect("text")],
    ));
    assert!(shown.contains("85 bytes of kind 01"), "{shown}");
    let older = std::fs::read(&file).expect("a file");
    assert_eq!(pokerbox::Queue::convert(&image), Ok(older));
}
