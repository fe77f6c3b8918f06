//! Kept images: what libraries wrote, a folder for each header kind. Each opens with every value
//! unchanged. `cargo run -p compare --bin images` writes those of the newest kind.

mod common;

use std::collections::{BTreeMap, BTreeSet};
use std::fs;
use std::path::Path;

use common::Folder;
use model::{area, image, Caller, HeaderKind, Queue, Record, Withdrawn};
use pokerbox::store::FileStore;
use pokerbox::Error;

const NAMES: [&str; 4] = ["every", "fresh", "full", "worked"];

/// An image as it was written.
struct Kept {
    kind: HeaderKind,
    name: &'static str,
    text: Vec<u8>,
}

impl Kept {
    fn new(kind: HeaderKind, name: &'static str) -> Kept {
        let folder = Path::new(env!("CARGO_MANIFEST_DIR")).join("tests/images");
        let path = folder.join(format!("{:02x}/{name}.txt", kind as u8));
        let text = fs::read(&path);
        Kept {
            kind,
            name,
            text: text.unwrap_or_else(|error| panic!("{}: {error}", path.display())),
        }
    }

    fn what(&self) -> String {
        format!("{:02x}/{}", self.kind as u8, self.name)
    }

    /// By the model.
    fn queue(&self) -> Queue {
        image::decode(&self.text).unwrap_or_else(|| panic!("{} is no image", self.what()))
    }

    fn with_kind(&self, digits: &str) -> Vec<u8> {
        [digits.as_bytes(), &self.text[2..]].concat()
    }
}

/// All images of all kinds.
fn kept() -> impl Iterator<Item = Kept> {
    let kinds = HeaderKind::ALL.into_iter();
    kinds.flat_map(|kind| NAMES.map(|name| Kept::new(kind, name)))
}

/// What the library opens, as the model reads its area.
fn opened(text: &[u8]) -> Result<Queue, Error> {
    let opened = pokerbox::Queue::open(text)?;
    Ok(area::decode(opened.area()).expect("a sound area"))
}

#[test]
fn every_kind_has_a_folder_and_every_folder_is_a_kind() {
    let folder = Path::new(env!("CARGO_MANIFEST_DIR")).join("tests/images");
    let names = fs::read_dir(folder).expect("a folder").map(|entry| {
        let name = entry.expect("an entry").file_name();
        name.into_string().expect("a name")
    });
    let kinds = HeaderKind::ALL.map(|kind| format!("{:02x}", kind as u8));
    assert_eq!(names.collect::<BTreeSet<_>>(), BTreeSet::from(kinds));
}

#[test]
fn kept_images_open_with_every_value_unchanged() {
    for kept in kept() {
        let queue = kept.queue();
        let what = kept.what();
        // The model's reading is all that is there: written again, it is the same text.
        assert!(
            image::encode_as(kept.kind, &queue) == kept.text,
            "{what} by the model"
        );
        let opened = opened(&kept.text).unwrap_or_else(|error| panic!("{what}: {error}"));
        assert!(opened == queue, "{what} as it is opened");
    }
}

/// The text with what kind 04 has: after K shares that give all to caller 0, and in each record caller 0
/// after the id.
fn with_callers(text: &[u8]) -> Vec<u8> {
    let text = std::str::from_utf8(text).expect("digits and line ends");
    let mut lines = text.lines();
    let header = lines.next().expect("a header");
    let (limits, rest) = header[2..].split_at(32);
    let mut written = format!("04{limits}{}{}{rest}\n", &limits[..8], "0".repeat(120));
    for record in lines {
        let (id, rest) = record.split_at(66);
        written += &format!("{id}00{rest}\n");
    }
    written.into_bytes()
}

/// The text of kind 05 with the digits of kind 06: before the four bytes of each priority four of its sign.
fn with_wide(text: &[u8], queue: &Queue) -> Vec<u8> {
    let text = std::str::from_utf8(text).expect("digits and line ends");
    let mut lines = text.lines();
    let header = lines.next().expect("a header");
    let mut written = format!("06{}\n", &header[2..]);
    for (line, record) in lines.zip(&queue.records) {
        // Kind 1, id 32, caller 1, state 1, reason 1, created 8, then the deadlines.
        let time = record.time_deadline.map_or(1, |_| 9);
        let height = record.height_deadline.map_or(1, |_| 5);
        let (front, end) = line.split_at(2 * (44 + time + height));
        let sign = match end.as_bytes()[0] {
            b'0'..=b'7' => "00000000",
            _ => "ffffffff",
        };
        written += &format!("{front}{sign}{end}\n");
    }
    written.into_bytes()
}

/// The text of kind 04 with the digits of kind 05: in each holder a read count of 0 before its byte count.
fn with_reads(text: &[u8], queue: &Queue) -> Vec<u8> {
    let text = std::str::from_utf8(text).expect("digits and line ends");
    let mut lines = text.lines();
    let header = lines.next().expect("a header");
    let mut written = format!("05{}\n", &header[2..]);
    for (line, record) in lines.zip(&queue.records) {
        // The byte count and the signed bytes are the last.
        let last = record.holder.as_ref().map(|of| 8 + 2 * of.bytes.len());
        let (front, end) = line.split_at(line.len() - last.unwrap_or(0));
        let count = if last.is_some() { "0000" } else { "" };
        written += &format!("{front}{count}{end}\n");
    }
    written.into_bytes()
}

/// What is written next has the newest kind.
#[test]
fn kept_images_are_written_again_in_the_newest_kind() {
    for kept in kept() {
        let opened = pokerbox::Queue::open(&kept.text).expect("an image");
        assert_eq!(opened.area()[4], 6, "{}: the area", kept.what());
        let written = opened.image().expect("an image");
        let queue = kept.queue();
        let mut expected = kept.text.clone();
        if kept.kind < HeaderKind::K04 {
            expected = with_callers(&expected);
        }
        if kept.kind < HeaderKind::K05 {
            expected = with_reads(&expected, &queue);
        }
        if kept.kind < HeaderKind::K06 {
            expected = with_wide(&expected, &queue);
        }
        assert!(written == expected, "{}", kept.what());
    }
}

/// The way back: an image of kind 01, opened, written in the newest kind and converted, is the kept file
/// again. So is one of another kind where kind 01 can say it all, but for the kind.
#[test]
fn kept_images_are_converted_back() {
    let mut met = BTreeMap::new();
    for kept in kept() {
        let opened = pokerbox::Queue::open(&kept.text).expect("an image");
        let written = opened.image().expect("an image");
        let older = pokerbox::Queue::convert(&written);
        let sayable = HeaderKind::K01.can_hold(&kept.queue());
        match &older {
            Ok(older) => {
                assert!(sayable, "{}", kept.what());
                if kept.kind < HeaderKind::K04 {
                    assert!(*older == kept.with_kind("01"), "{}", kept.what());
                }
                let again = pokerbox::Queue::open(older).expect("an image");
                assert!(again.image() == Ok(written), "{}", kept.what());
            }
            Err(error) => {
                assert_eq!(*error, Error::NotConvertible, "{}", kept.what());
                assert!(!sayable, "{}", kept.what());
            }
        }
        *met.entry((kept.kind, older.is_ok())).or_insert(0) += 1;
        // An older one itself is none to convert.
        if kept.kind != HeaderKind::K06 {
            let refused = pokerbox::Queue::convert(&kept.text);
            assert_eq!(refused, Err(Error::NotAnImage), "{}", kept.what());
        }
    }
    // All four of kind 01; of 03 all but that with mark 3; since 04 those without records.
    let (yes, no) = (true, false);
    let expected = [
        ((HeaderKind::K01, yes), 4),
        ((HeaderKind::K03, no), 1),
        ((HeaderKind::K03, yes), 3),
        ((HeaderKind::K04, no), 2),
        ((HeaderKind::K04, yes), 2),
        ((HeaderKind::K05, no), 2),
        ((HeaderKind::K05, yes), 2),
        ((HeaderKind::K06, no), 2),
        ((HeaderKind::K06, yes), 2),
    ];
    assert_eq!(met, BTreeMap::from(expected));
}

/// The image `every` has priorities at both ends of 32 bits, and none beyond them in an older kind; since kind
/// 06 such of 64, in holders and in tombstones.
#[test]
fn every_sort_of_priority_is_kept() {
    const END: i64 = 1 << 31;
    for kept in kept().filter(|kept| kept.name == "every") {
        let queue = kept.queue();
        let wide = kept.kind >= HeaderKind::K06;
        let priorities = |holders: &[bool]| -> BTreeSet<i64> {
            let records = queue.records.iter();
            let records = records.filter(|of| holders.contains(&of.holder.is_some()));
            records.map(|of| of.priority).collect()
        };
        let narrow = BTreeSet::from([0, -1, END - 1, -END]);
        if !wide {
            let with_1 = narrow.into_iter().chain([1]).collect();
            assert_eq!(priorities(&[true, false]), with_1, "{}", kept.what());
            continue;
        }
        let beyond = [END, -END - 1, 1 << 32, i64::MAX, i64::MIN];
        let all: BTreeSet<i64> = narrow.into_iter().chain(beyond).collect();
        for holder in [true, false] {
            assert_eq!(priorities(&[holder]), all, "{}", kept.what());
        }
    }
}

/// An older image has nothing but caller 0; the image `every` has since kind 04 a record of each caller,
/// and shares from 0 to P.
#[test]
fn every_caller_is_kept() {
    for kept in kept() {
        let queue = kept.queue();
        let callers = || queue.records.iter().map(|record| record.caller);
        if kept.kind < HeaderKind::K04 {
            assert!(queue.limits.is_all_to_caller_0(), "{}", kept.what());
            assert!(callers().all(|caller| caller == Caller(0)));
        } else if kept.name == "every" {
            assert_eq!(callers().collect::<BTreeSet<_>>().len(), 16);
            let shares = BTreeSet::from(queue.limits.shares);
            assert!(shares.contains(&0) && shares.contains(&queue.limits.pending));
            assert!(shares.len() > 2);
        }
    }
}

/// An older image has no read ids; the image `every` has since kind 05 holders with none, one, two and K
/// of them, one twice, what another reads, what it spends itself, and what another makes; and holders in
/// each state read.
#[test]
fn every_sort_of_read_id_is_kept() {
    for kept in kept() {
        let queue = kept.queue();
        let all = || queue.holders();
        if kept.kind < HeaderKind::K05 {
            assert!(all().all(|of| of.reads().is_empty()), "{}", kept.what());
        } else if kept.name == "every" {
            let counts: BTreeSet<usize> = all().map(|of| of.reads().len()).collect();
            assert_eq!(counts, BTreeSet::from([0, 1, 2, 3]));
            let reading = |what: &dyn Fn(&Record, &[u8; 32]) -> bool| {
                all().any(|of| of.reads().iter().any(|read| what(of, read)))
            };
            assert!(reading(&|of, read| of
                .reads()
                .iter()
                .filter(|id| *id == read)
                .count()
                > 1));
            assert!(reading(&|of, read| of.inputs().contains(read)));
            assert!(reading(&|of, read| of.outputs().contains(read)));
            assert!(reading(
                &|of, read| all().any(|other| other.id != of.id && other.reads().contains(read))
            ));
            assert!(reading(&|of, read| all().any(
                |other| other.id != of.id && other.outputs().contains(read)
            )));
            let states = all().filter(|of| !of.reads().is_empty());
            let states: BTreeSet<u8> = states.map(|of| of.state as u8).collect();
            assert_eq!(states, BTreeSet::from([0, 2, 3]));
        }
    }
}

#[test]
fn no_other_kind_is_an_image() {
    for kept in kept() {
        for kind in ["00", "02", "07", "10", "16", "40", "60", "ff"] {
            let refused = opened(&kept.with_kind(kind));
            assert_eq!(refused, Err(Error::NotAnImage), "{} as {kind}", kept.what());
        }
    }
}

/// State, reason, mark, and whether it is a holder.
fn sort(record: &Record) -> [u8; 4] {
    let holder = u8::from(record.holder.is_some());
    let mark = record.withdrawn as u8;
    [record.state as u8, record.reason as u8, mark, holder]
}

/// Every sort of record that a kind can have is in its image `every`, and every shape of its parts.
#[test]
fn every_sort_of_record_is_kept() {
    for kind in HeaderKind::ALL {
        let queue = Kept::new(kind, "every").queue();
        let sorts: BTreeSet<[u8; 4]> = queue.records.iter().map(sort).collect();
        let mut expected = BTreeSet::from([
            [0, 0, 0, 1],
            [0, 4, 0, 1],
            [3, 5, 0, 1],
            [2, 0, 0, 1],
            [4, 1, 0, 0],
            [5, 2, 0, 0],
            [5, 3, 0, 0],
        ]);
        let marks = Withdrawn::ALL.into_iter();
        let marks = marks.filter(|mark| kind.has_mark(*mark));
        expected.extend(marks.map(|mark| [2, 0, mark as u8, 0]));
        assert_eq!(sorts, expected, "{kind:?}");
        for sort_of in &sorts {
            let records = queue.records.iter().filter(|one| sort(one) == *sort_of);
            let labels = records.clone().map(|one| one.label.as_ref().map(Vec::len));
            let labels: BTreeSet<Option<usize>> = labels.collect();
            assert_eq!(labels, BTreeSet::from([None, Some(0), Some(200)]));
            let deadlines = records.clone().map(|one| {
                let (time, height) = (one.time_deadline, one.height_deadline);
                (time.is_some(), height.is_some())
            });
            assert_eq!(deadlines.collect::<BTreeSet<_>>().len(), 4);
        }
        let holders = || queue.records.iter().filter_map(|one| one.holder.as_ref());
        assert!(holders().any(|holder| holder.inputs.is_empty()));
        assert!(holders().any(|holder| holder.bytes.is_empty()));
        assert!(holders().any(|holder| holder.inputs.len() == 3));
        let repeats = |inputs: &[[u8; 32]]| inputs.len() == 2 && inputs[0] == inputs[1];
        assert!(holders().any(|holder| repeats(&holder.inputs)));
    }
}

/// The image `full` is as large as its limits allow.
#[test]
fn a_full_queue_is_kept() {
    for kind in HeaderKind::ALL {
        let queue = Kept::new(kind, "full").queue();
        let limits = queue.limits;
        let bytes: usize = queue.holders().map(Record::byte_count).sum();
        assert_eq!(queue.holders().count(), 2 * limits.pending as usize);
        assert_eq!(bytes, 2 * limits.bytes as usize);
        assert_eq!(queue.tombstones().count(), limits.tombstones as usize);
        let k = limits.inputs as usize;
        assert!(queue
            .holders()
            .all(|one| one.inputs().len() == k && one.outputs().len() == k));
        let reads = if kind.has_reads() { k } else { 0 };
        assert!(queue.holders().all(|one| one.reads().len() == reads));
    }
}

/// Mark 5 of an older image stays 5; where it is made 3, the text is no image of kind 01, and one of
/// kind 03.
#[test]
fn mark_3_is_in_no_image_of_kind_01() {
    let kept = Kept::new(HeaderKind::K01, "every");
    let queue = kept.queue();
    let mut tried = 0;
    for (n, record) in queue.records.iter().enumerate() {
        if record.withdrawn != Withdrawn::Expired {
            continue;
        }
        let place = image::mark_place(kept.kind, &queue, n);
        let mut text = kept.text.clone();
        assert_eq!(text[place..place + 2], *b"05");
        text[place + 1] = b'3';
        assert_eq!(opened(&text), Err(Error::NotAnImage));
        text[..2].copy_from_slice(b"03");
        let mut expected = queue.clone();
        expected.records[n].withdrawn = Withdrawn::RolledBackAfterRelease;
        assert!(opened(&text) == Ok(expected));
        tried += 1;
    }
    assert_eq!(tried, 6);
}

/// A store whose image an older library wrote: it opens, stays as it is until a call writes, and is
/// of the newest kind then.
#[test]
fn a_store_goes_on_from_a_kept_image() {
    for kept in kept().filter(|kept| kept.name == "full") {
        let queue = kept.queue();
        let folder = Folder::new(&format!("kept-{:02x}", kept.kind as u8));
        let path = folder.path().join("image");
        fs::write(&path, &kept.text).expect("a file");
        let limits = pokerbox::Limits::new(1, 1, 1, 1).expect("limits");
        let mut store = FileStore::open(&path, limits).expect("a store");
        assert!(area::decode(store.queue().area()) == Some(queue.clone()));
        assert!(fs::read(&path).expect("a file") == kept.text);
        let id = queue.pending().next().expect("a pending record").id;
        store.cancel(pokerbox::TxId(id)).expect("cancelled");
        let next = model::rules::cancel(&queue, &id).expect("cancelled").next;
        assert!(fs::read(&path).expect("a file") == image::encode(&next));
    }
}
