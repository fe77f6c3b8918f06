//! The file store on a real file system. Faults at every system call are in `src/store/faults.rs`.

mod common;

use std::error::Error as _;
use std::fs;
use std::os::unix::fs::{symlink, PermissionsExt};
use std::path::{Path, PathBuf};
use std::process::Command;
use std::sync::mpsc;
use std::time::Duration;

use common::Folder;
use model::random::{self, Rng};
use model::{area, image, rules};
use pokerbox::store::{FileStore, Opened, StoreError};
use pokerbox::{Admission, Error, Height, Limits, State, TimeMs, TxId};

const ID: TxId = TxId([0x11; 32]);

fn limits() -> Limits {
    Limits::new(2, 10, 1, 1).unwrap()
}

/// A queue of the model with one Queued record.
fn queued() -> model::Queue {
    let fresh = model::Queue::fresh(model::Limits::checked(2, 10, 1, 1).unwrap());
    let given = rules::Admission {
        id: ID.0,
        caller: model::Caller(0),
        inputs: vec![[0x21; 32]],
        outputs: vec![[0x31; 32]],
        reads: vec![[0x41; 32]],
        signed: vec![1, 2, 3],
        now: model::TimeMs(5),
        time_deadline: Some(model::TimeMs(9)),
        height_deadline: None,
        priority: -1,
        label: Some(b"one".to_vec()),
        fee: 7,
        cost: 9,
        tip_height: model::Height(6),
        tip: None,
    };
    rules::admit(&fresh, &given).unwrap().next
}

fn cancelled() -> model::Queue {
    rules::cancel(&queued(), &ID.0).unwrap().next
}

/// A folder for a test, with the paths of a store in it.
struct Card {
    folder: Folder,
}

impl Card {
    fn new(name: &str) -> Card {
        Card {
            folder: Folder::new(name),
        }
    }

    /// With the image of a queue with one Queued record.
    fn queued(name: &str) -> Card {
        let card = Card::new(name);
        fs::write(card.image(), image::encode(&queued())).unwrap();
        card
    }

    fn path(&self) -> &Path {
        self.folder.path()
    }

    fn image(&self) -> PathBuf {
        self.path().join("image")
    }

    fn second(&self) -> PathBuf {
        self.path().join("image.new")
    }

    fn lock(&self) -> PathBuf {
        self.path().join("image.lock")
    }

    fn create(&self) -> Result<FileStore, StoreError> {
        FileStore::create(self.image(), limits())
    }

    fn open(&self) -> Result<FileStore, StoreError> {
        FileStore::open(self.image(), limits())
    }

    fn stored(&self) -> Vec<u8> {
        fs::read(self.image()).unwrap()
    }

    /// The names in the folder.
    fn names(&self) -> Vec<String> {
        let mut names: Vec<String> = fs::read_dir(self.path())
            .unwrap()
            .map(|entry| entry.unwrap().file_name().into_string().unwrap())
            .collect();
        names.sort();
        names
    }
}

fn is_queue(store: &FileStore, queue: &model::Queue) -> bool {
    area::decode(store.queue().area()).as_ref() == Some(queue)
}

/// The call ends at once.
fn at_once<T: Send + 'static>(call: impl FnOnce() -> T + Send + 'static) -> T {
    let (send, receive) = mpsc::channel();
    std::thread::spawn(move || send.send(call()));
    receive
        .recv_timeout(Duration::from_secs(10))
        .expect("the call hangs")
}

fn assert_unusable<T>(result: Result<T, StoreError>, path: &Path) {
    match result.map(drop).unwrap_err() {
        StoreError::Unusable(at, _) => assert_eq!(at, path),
        other => panic!("{other}"),
    }
}

fn mode(path: &Path) -> u32 {
    fs::metadata(path).unwrap().permissions().mode() & 0o777
}

// Creating, opening, looking.

#[test]
fn a_store_that_was_made_opens_as_a_fresh_queue() {
    let card = Card::new("made");
    drop(card.create().unwrap());
    assert_eq!(card.names(), ["image.lock"], "nothing is stored");
    let store = card.open().unwrap();
    assert_eq!(store.queue().limits(), limits());
    assert_eq!(store.queue().is_empty(), Ok(true));
    assert!(FileStore::look(card.image()).unwrap().is_none());
    assert_eq!(card.names(), ["image.lock"]);
}

#[test]
fn creating_refuses_where_a_store_stands() {
    let card = Card::new("stands");
    drop(card.create().unwrap());
    let refused = card.create().unwrap_err();
    assert!(matches!(refused, StoreError::StoreStands(path) if path == card.image()));
    // An image without a lock file is a store, too.
    let card = Card::queued("stands-image");
    assert!(matches!(card.create(), Err(StoreError::StoreStands(_))));
    assert_eq!(card.names(), ["image"]);
}

#[test]
fn a_missing_card_is_no_empty_queue() {
    let card = Card::new("missing");
    let beneath = card.path().join("mount/queue/image");
    let refused = FileStore::open(&beneath, limits()).unwrap_err();
    assert!(matches!(&refused, StoreError::NoStore(path) if *path == beneath));
    assert!(refused.to_string().contains(beneath.to_str().unwrap()));
    assert!(matches!(
        FileStore::look(&beneath),
        Err(StoreError::NoStore(_))
    ));
    assert!(card.names().is_empty(), "nothing was made");
    // The folder is there, and no store in it.
    assert!(matches!(card.open(), Err(StoreError::NoStore(_))));
    assert!(card.names().is_empty(), "nothing was made");
}

#[test]
fn opening_or_creating_says_which() {
    let card = Card::new("which");
    let open = || FileStore::open_or_create(card.path().join("queue/image"), limits());
    assert_eq!(open().unwrap().1, Opened::Created);
    assert_eq!(open().unwrap().1, Opened::Found);
}

#[test]
fn folders_and_files_are_for_the_owner_alone() {
    let card = Card::new("owner");
    let path = card.path().join("a/b/image");
    let mut store = FileStore::create(&path, limits()).unwrap();
    let given = Admission::new(ID, vec![], vec![], vec![1], TimeMs(0), Height(1));
    store.admit(&given).unwrap();
    for made in ["a", "a/b"] {
        assert_eq!(mode(&card.path().join(made)), 0o700, "{made}");
    }
    assert_eq!(mode(&path), 0o600);
    assert_eq!(mode(&card.path().join("a/b/image.lock")), 0o600);
}

#[test]
fn a_kept_write_is_opened_again() {
    let card = Card::queued("kept");
    let mut store = card.open().unwrap();
    let entry = store.cancel(ID).unwrap();
    assert_eq!(entry.state, State::Cancelled);
    assert_eq!(entry.label.as_deref(), Some(&b"one"[..]));
    assert_eq!(card.stored(), image::encode(&cancelled()));
    assert!(is_queue(&store, &cancelled()));
    assert!(store.take_warnings().is_empty());
    drop(store);
    let other = Limits::new(5, 5, 5, 5).unwrap();
    let opened = FileStore::open(card.image(), other).unwrap();
    let header = opened.queue().limits();
    assert_eq!(header, limits(), "the limits are the image's");
    assert!(is_queue(&opened, &cancelled()));
    assert_eq!(card.names(), ["image", "image.lock"]);
}

#[test]
fn damaged_files_are_refused() {
    let card = Card::queued("damaged");
    drop(card.open().unwrap());
    let good = card.stored();
    let mut rng = Rng::new(7);
    for text in [&b""[..], b"0A", b"0a\n", &good[..good.len() - 1]] {
        fs::write(card.image(), text).unwrap();
        let refused = card.open().unwrap_err();
        assert_eq!(refused.refusal(), Some(Error::NotAnImage));
        assert!(refused.to_string().contains("image"), "{refused}");
    }
    for _ in 0..50 {
        let mut text = good.clone();
        random::damage(&mut rng, &mut text, good.len());
        fs::write(card.image(), &text).unwrap();
        assert_eq!(card.open().is_ok(), image::decode(&text).is_some());
    }
}

// One owner.

#[test]
fn a_second_store_is_refused_while_the_first_lives() {
    let card = Card::queued("owned");
    let store = card.open().unwrap();
    let refused = card.open().unwrap_err();
    assert!(matches!(&refused, StoreError::InUse(path) if *path == card.image()));
    assert!(refused.to_string().contains(card.image().to_str().unwrap()));
    drop(store);
    card.open().unwrap();
}

/// The second file of a writer is neither deleted nor changed by a look or by a refused opening.
#[test]
fn a_look_changes_nothing() {
    let card = Card::queued("look");
    let store = card.open().unwrap();
    fs::write(card.second(), "half-written").unwrap();
    let looked = FileStore::look(card.image()).unwrap().unwrap();
    assert!(looked.area() == store.queue().area());
    assert!(card.open().is_err());
    assert_eq!(fs::read(card.second()).unwrap(), b"half-written");
    // Nor does it make a lock file.
    let card = Card::queued("look-only");
    assert!(FileStore::look(card.image()).unwrap().is_some());
    assert_eq!(card.names(), ["image"]);
}

#[test]
fn a_left_over_second_file_is_removed_after_a_good_opening_alone() {
    let card = Card::queued("left-over");
    fs::write(card.second(), "half-written").unwrap();
    fs::write(card.image(), "damaged").unwrap();
    assert!(card.open().is_err());
    assert_eq!(card.names(), ["image", "image.lock", "image.new"]);
    fs::write(card.image(), image::encode(&queued())).unwrap();
    let store = card.open().unwrap();
    assert_eq!(card.names(), ["image", "image.lock"]);
    assert!(is_queue(&store, &queued()));
}

/// A lock file that is taken away would let a second store in: the first one stops writing.
#[test]
fn a_removed_lock_file_stops_the_store() {
    let card = Card::queued("unlocked");
    let mut store = card.open().unwrap();
    fs::remove_file(card.lock()).unwrap();
    let other = card.open().unwrap();
    fs::write(card.second(), "half-written").unwrap();
    let failed = store.cancel(ID).unwrap_err();
    assert_eq!(failed.refusal(), Some(Error::WriteFailed));
    assert_eq!(card.stored(), image::encode(&queued()));
    assert_eq!(fs::read(card.second()).unwrap(), b"half-written");
    drop(other);
}

// The card goes away, or something else stands in its place.

#[test]
fn a_commit_after_the_card_went_away_fails() {
    let card = Card::new("gone");
    let (mount, away) = (card.path().join("mount"), card.path().join("away"));
    let mut store = FileStore::create(mount.join("image"), limits()).unwrap();
    fs::write(mount.join("image"), image::encode(&queued())).unwrap();
    drop(store);
    store = FileStore::open(mount.join("image"), limits()).unwrap();

    let assert_fails = |store: &mut FileStore, what: &str| {
        let failed = store.cancel(ID).unwrap_err();
        assert!(failed.source().is_some());
        assert_eq!(failed.refusal(), Some(Error::WriteFailed), "{what}");
        assert!(is_queue(store, &queued()), "{what}");
        let left = fs::read(away.join("image")).unwrap();
        assert_eq!(left, image::encode(&queued()), "{what}");
    };
    fs::rename(&mount, &away).unwrap();
    assert_fails(&mut store, "nothing in its place");
    assert!(!mount.exists());
    fs::create_dir(&mount).unwrap();
    assert_fails(&mut store, "an empty folder in its place");
    assert_eq!(fs::read_dir(&mount).unwrap().count(), 0);
    // Another store in its place.
    drop(FileStore::create(mount.join("image"), limits()).unwrap());
    assert_fails(&mut store, "another store in its place");
    assert!(!mount.join("image").exists());

    fs::remove_dir_all(&mount).unwrap();
    fs::rename(&away, &mount).unwrap();
    store.cancel(ID).unwrap();
    let stored = fs::read(mount.join("image")).unwrap();
    assert_eq!(stored, image::encode(&cancelled()));
}

/// The only test that uses or sets the current folder.
#[test]
fn the_path_is_made_absolute_once() {
    let card = Card::queued("absolute");
    std::env::set_current_dir(card.path()).unwrap();
    let mut store = FileStore::open("image", limits()).unwrap();
    assert_eq!(store.path(), card.image());
    std::env::set_current_dir("/").unwrap();
    store.cancel(ID).unwrap();
    assert_eq!(card.stored(), image::encode(&cancelled()));
}

#[test]
fn a_link_in_the_images_place_is_an_error() {
    let card = Card::new("link");
    let target = card.path().join("target");
    fs::write(&target, image::encode(&queued())).unwrap();
    symlink(&target, card.image()).unwrap();
    assert_unusable(card.open(), &card.image());
    assert_unusable(card.create(), &card.image());
    assert_unusable(FileStore::look(card.image()), &card.image());
    // Also while a store is open.
    fs::rename(&target, card.image()).unwrap();
    let mut store = card.open().unwrap();
    fs::rename(card.image(), &target).unwrap();
    symlink(&target, card.image()).unwrap();
    let failed = store.cancel(ID).unwrap_err();
    assert_eq!(failed.refusal(), Some(Error::WriteFailed));
    assert!(card.image().is_symlink());
    assert_eq!(fs::read(&target).unwrap(), image::encode(&queued()));
    // Nor is a link that leads nowhere a missing image.
    drop(store);
    fs::remove_file(&target).unwrap();
    assert_unusable(card.open(), &card.image());
}

#[test]
fn what_can_be_no_image_is_an_error_at_once() {
    let made: [(&str, fn(&Path)); 3] = [
        ("fifo", |path| {
            let made = Command::new("mkfifo").arg(path).status().unwrap();
            assert!(made.success());
        }),
        ("folder", |path| fs::create_dir(path).unwrap()),
        ("long", |path| {
            let longer = Limits::MAX.max_image_len() as u64 + 1;
            fs::File::create(path).unwrap().set_len(longer).unwrap();
        }),
    ];
    for (name, make) in made {
        for end in ["", ".lock"] {
            if (name, end) == ("long", ".lock") {
                continue; // What is in it plays no part.
            }
            let card = Card::new(name);
            let mut path = card.image().into_os_string();
            path.push(end);
            let path = PathBuf::from(path);
            make(&path);
            let image = card.image();
            let told = at_once(move || FileStore::open(image, limits()));
            assert_unusable(told, &path);
        }
    }
    let card = Card::new("device");
    symlink("/dev/zero", card.image()).unwrap();
    let image = card.image();
    assert_unusable(at_once(move || FileStore::look(image)), &card.image());
}

// Errors that come in time.

#[test]
fn what_can_never_be_written_is_told_at_opening() {
    // A name that is too long with the ends of the other files.
    let card = Card::new("name");
    let path = card.path().join("n".repeat(252));
    fs::write(&path, image::encode(&queued())).unwrap();
    assert!(matches!(
        FileStore::open(&path, limits()),
        Err(StoreError::Unusable(..))
    ));
    // A folder in the second file's place.
    let card = Card::queued("in-the-way");
    fs::create_dir(card.second()).unwrap();
    assert_unusable(card.open(), &card.second());
    fs::remove_file(card.image()).unwrap();
    fs::remove_file(card.lock()).unwrap();
    assert_unusable(card.create(), &card.second());
    assert_eq!(card.names(), ["image.new"], "no store was made");
}

/// A folder in which files can be read and written, but not made. Root may make them anywhere, so
/// that root has another user try it.
#[test]
fn a_read_only_folder_is_told_at_opening() {
    let card = Card::new("read-only");
    let (image, program) = (card.path().join("queue.image"), card.path().join("unit"));
    fs::write(&image, image::encode(&queued())).unwrap();
    fs::copy(common::example("unit"), &program).unwrap();
    fs::write(card.path().join("queue.image.lock"), "").unwrap();
    for entry in fs::read_dir(card.path()).unwrap() {
        let everybody = fs::Permissions::from_mode(0o777);
        fs::set_permissions(entry.unwrap().path(), everybody).unwrap();
    }
    fs::set_permissions(card.path(), fs::Permissions::from_mode(0o555)).unwrap();
    let mut run = Command::new(&program);
    run.arg(card.path()).args(["--run", "1"]);
    if fs::write(card.path().join("root"), "").is_ok() {
        std::os::unix::process::CommandExt::uid(&mut run, 65_534);
    }
    let ended = run.output().expect("unit starts");
    fs::set_permissions(card.path(), fs::Permissions::from_mode(0o755)).unwrap();
    let said = String::from_utf8_lossy(&ended.stderr).into_owned();
    assert!(
        said.contains("queue.image.new: Permission denied"),
        "{said}"
    );
    assert_eq!(fs::read(&image).unwrap(), image::encode(&queued()));
}

#[test]
fn what_comes_into_the_way_later_is_a_failed_write() {
    let card = Card::queued("later");
    let mut store = card.open().unwrap();
    fs::create_dir(card.second()).unwrap();
    let failed = store.cancel(ID).unwrap_err();
    assert_eq!(failed.refusal(), Some(Error::WriteFailed));
    assert!(is_queue(&store, &queued()));
    fs::remove_dir(card.second()).unwrap();
    // What is left there by others, or a link, is made anew.
    symlink(card.path().join("elsewhere"), card.second()).unwrap();
    store.cancel(ID).unwrap();
    assert_eq!(card.names(), ["image", "image.lock"]);
    assert_eq!(card.stored(), image::encode(&cancelled()));
}
