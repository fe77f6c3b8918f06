//! The example `unit`, killed at random moments, opens again each time.

mod common;

use std::path::Path;
use std::process::{Command, Stdio};
use std::time::Duration;

use model::random::Rng;
use pokerbox::store::{FileStore, StoreError};
use pokerbox::Limits;

const KILLS: usize = 40;

fn stored(folder: &Path) -> Option<model::Queue> {
    let image = std::fs::read(folder.join("queue.image")).ok()?;
    Some(model::image::decode(&image).expect("the image of a sound queue"))
}

#[test]
fn killed_at_any_moment_it_opens_again() {
    let folder = common::Folder::new("kill");
    let mut rng = Rng::new(std::process::id().into());
    let limits = Limits::new(8, 4_096, 8, 4).expect("limits in range");
    let mut revisions = std::collections::BTreeSet::new();
    for kill in 0..KILLS {
        let mut running = Command::new(common::example("unit"))
            .arg(folder.path())
            .args(["--run", "0"])
            .stdout(Stdio::null())
            .spawn()
            .expect("unit starts");
        std::thread::sleep(Duration::from_micros(1_000 + rng.below(50_000) as u64));
        running.kill().expect("unit was running");
        running.wait().expect("unit ends");
        let left = stored(folder.path());
        revisions.insert(left.as_ref().map(|queue| queue.revision));
        let opened = FileStore::open(folder.path().join("queue.image"), limits);
        // Before anything was made there is no store.
        if let Err(StoreError::NoStore(_)) = opened {
            assert_eq!(left, None);
            continue;
        }
        let opened = opened.unwrap_or_else(|error| panic!("after kill {kill}: {error}"));
        let queue = model::area::decode(opened.queue().area());
        assert_eq!(stored(folder.path()), left, "opening wrote");
        match left {
            Some(_) => assert_eq!(queue, left, "opened other than stored"),
            None => assert_eq!(opened.queue().is_empty(), Ok(true)),
        }
    }
    assert!(revisions.len() > 5, "too few writes: {revisions:?}");
}
