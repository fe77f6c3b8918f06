//! Writes images of some queues, as the library makes them, to `rust/node/tests/images`: a folder for
//! each header kind. They are kept: a later library has to open what this one wrote.

use std::collections::{BTreeMap, BTreeSet};
use std::fs;
use std::path::{Path, PathBuf};
use std::process::ExitCode;

use model::random::nth_id;
use model::{
    image, sound, Caller, Confirmation, FinishNumber, Height, Holder, Id, Limits, Queue, Reason,
    Record, Shares, State, TimeMs, Withdrawn,
};
use pokerbox::{Error, Outcome};

/// The folder of the kept images, from this package's.
const IMAGES: &str = "../node/tests/images";

fn main() -> ExitCode {
    match run() {
        Ok(()) => ExitCode::SUCCESS,
        Err(error) => {
            eprintln!("images: {error}\nusage: images [FOLDER], FOLDER in place of {IMAGES}");
            ExitCode::FAILURE
        }
    }
}

fn run() -> Result<(), String> {
    let kept = Path::new(env!("CARGO_MANIFEST_DIR")).join(IMAGES);
    let folder = std::env::args().nth(1).map_or(kept, PathBuf::from);
    let images = images().map_err(|error| error.to_string())?;
    let mut images = images.iter();
    images.try_for_each(|(name, text)| keep(&folder, name, text))
}

fn images() -> Result<[(&'static str, Vec<u8>); 4], Error> {
    Ok([
        ("fresh", fresh(Limits::MAX)?),
        ("worked", fresh(worked_limits())?),
        ("every", every()?),
        ("full", full()?),
    ])
}

/// Writes the image below the folder of its kind, its first two digits. What is kept never changes.
fn keep(folder: &Path, name: &str, text: &[u8]) -> Result<(), String> {
    let kind = std::str::from_utf8(&text[..2]).map_err(|error| error.to_string())?;
    let folder = folder.join(kind);
    let path = folder.join(format!("{name}.txt"));
    match fs::read(&path) {
        Ok(kept) if kept != text => return Err(format!("{} is kept, and other", path.display())),
        Ok(_) => {}
        Err(_) => {
            fs::create_dir_all(&folder).map_err(|error| error.to_string())?;
            fs::write(&path, text).map_err(|error| error.to_string())?;
        }
    }
    println!("{kind}/{name}: {} bytes", text.len());
    Ok(())
}

fn fresh(limits: Limits) -> Result<Vec<u8>, Error> {
    pokerbox::Queue::fresh(node_limits(limits)?)?.image()
}

fn node_limits(limits: Limits) -> Result<pokerbox::Limits, Error> {
    let Limits {
        pending,
        bytes,
        tombstones,
        inputs,
        shares,
    } = limits;
    let limits = pokerbox::Limits::new(pending, bytes, tombstones, inputs)?;
    limits.shared(pokerbox::Shares::new(shares))
}

/// Those of document 01's worked image.
fn worked_limits() -> Limits {
    Limits::checked(2, 10, 1, 1).expect("limits in range")
}

// ---- every kind of record, from the model's encoder

/// Opened by the library, and written again by it.
fn every() -> Result<Vec<u8>, Error> {
    let queue = every_record();
    assert_eq!(sound::broken_rule(&queue), None);
    let text = image::encode(&queue);
    let written = pokerbox::Queue::open(&text)?.image()?;
    assert!(written == text, "the library writes another image");
    Ok(written)
}

/// How often each sort of record is there, with other values each time.
const VARIANTS: usize = 6;

/// A queue with each state, reason, mark and caller, holder or not, each sort of read id and of priority; with every two of: time deadline or not,
/// height deadline or not, no label, an empty and the longest one.
fn every_record() -> Queue {
    let mut sorts: Vec<(State, Reason, Option<Withdrawn>)> = vec![
        (State::Queued, Reason::None, None),
        (State::Queued, Reason::RolledBack, None),
        (State::Conflicted, Reason::InputsUnavailable, None),
        // A holder.
        (State::Mined, Reason::None, None),
        (State::Cancelled, Reason::Cancelled, Some(Withdrawn::No)),
        (State::Expired, Reason::DeadlineElapsed, Some(Withdrawn::No)),
        (
            State::Expired,
            Reason::RolledBackAfterRelease,
            Some(Withdrawn::No),
        ),
    ];
    let marks = Withdrawn::ALL.into_iter();
    sorts.extend(marks.map(|mark| (State::Mined, Reason::None, Some(mark))));
    // Shares from 0 to P; some callers have more pending.
    let shares: Shares = std::array::from_fn(|caller| [0, 18, 1, 9][caller % 4]);
    let limits = Limits::checked(18, 64, 64, 3).and_then(|limits| limits.shared(shares));
    let mut queue = Queue::fresh(limits.expect("limits and shares in range"));
    for variant in 0..VARIANTS {
        for (state, reason, mark) in &sorts {
            let n = queue.records.len();
            queue.records.push(Record {
                state: *state,
                reason: *reason,
                ..record(n, variant, *mark, *state == State::Mined)
            });
        }
    }
    queue.records.sort_by_key(|record| record.id);
    queue.revision = 0x0102_0304_0506_0708;
    queue.cursor = Height(0x090a_0b0c);
    queue.tip = Some(nth_id(1));
    queue.counter = FinishNumber(1 << 40);
    queue
}

/// Of 32 bits and of 64: their ends, and one beyond each end of 32. Holders and tombstones have each, since
/// the number of sorts is no multiple of theirs.
const PRIORITIES: [i64; 9] = [
    0,
    -1,
    i32::MAX as i64,
    i32::MIN as i64,
    i32::MAX as i64 + 1,
    i32::MIN as i64 - 1,
    1 << 32,
    i64::MAX,
    i64::MIN,
];

/// The `n`-th record, without state and reason; a tombstone has a mark.
fn record(n: usize, variant: usize, mark: Option<Withdrawn>, mined: bool) -> Record {
    let holder = match mark {
        None => Some(holder(n, variant)),
        Some(_) => None,
    };
    let size = match &holder {
        Some(holder) => holder.bytes.len() as u32,
        None => [0, 3, u32::MAX][variant % 3],
    };
    let (time, height) = (variant % 2 == 1, variant / 3 == 1);
    Record {
        id: nth_id(n),
        caller: Caller((n % Caller::COUNT) as u8),
        state: State::Queued,
        reason: Reason::None,
        created: TimeMs([0, 5, u64::MAX][n % 3]),
        time_deadline: time.then_some(TimeMs([0, 1 << 40, u64::MAX][n % 3])),
        height_deadline: height.then_some(Height([0, 900_000, u32::MAX][n % 3])),
        priority: PRIORITIES[n % PRIORITIES.len()],
        label: [None, Some(Vec::new()), Some(vec![n as u8; 200])][variant % 3].clone(),
        fee: [0, 1_000_000, u64::MAX][n % 3],
        size,
        cost: [9, u64::MAX, 0][n % 3],
        mined: mined.then(|| Confirmation {
            height: Height([0, 900_000, u32::MAX][variant % 3]),
            block: nth_id(n % 7),
        }),
        withdrawn: mark.unwrap_or(Withdrawn::No),
        finish: FinishNumber(mark.map_or(0, |_| 1 + 1_000_003 * n as u64)),
        holder,
    }
}

/// Up to three inputs, one of them repeated, and outputs; with signed bytes or none.
fn holder(n: usize, variant: usize) -> Holder {
    let input = |at: usize| nth_id(3 * n + at);
    let inputs = match variant % 4 {
        0 => Vec::new(),
        1 => vec![input(0)],
        2 => vec![input(0), input(0)],
        _ => vec![input(0), input(2), input(1)],
    };
    let outputs = (0..variant % 4).map(|at| nth_id(n + at));
    Holder {
        outputs: outputs.chain((variant == 5).then(|| made(n))).collect(),
        reads: reads(n, variant, &inputs),
        inputs,
        bytes: (0..[0, 3, 1][variant % 3])
            .map(|at| (n + at) as u8)
            .collect(),
    }
}

/// Up to three read ids: one that others read as well, one twice, what it spends itself, what it makes, and
/// what another one makes. Ids from 900 on are spent by none.
fn reads(n: usize, variant: usize, inputs: &[Id]) -> Vec<Id> {
    let (shared, own) = (nth_id(900), nth_id(901 + n));
    match variant {
        0 => Vec::new(),
        1 => vec![shared],
        2 => vec![own, own],
        3 => vec![shared, inputs[0], own],
        4 => vec![made(n)],
        _ => vec![made(n), own],
    }
}

/// An output of a record of the last variant, which it reads itself, and another one as well; none spends it.
fn made(n: usize) -> Id {
    nth_id(800 + n % 11)
}

// ---- as many records, bytes, inputs, outputs and read ids as the limits allow, by calls

fn full() -> Result<Vec<u8>, Error> {
    let limits = Limits::checked(2, 10, 2, 2).expect("limits in range");
    let mut shares = [0; 16];
    (shares[1], shares[15]) = (1, 1);
    let limits = limits.shared(shares).expect("shares in range");
    let mut queue = pokerbox::Queue::fresh(node_limits(limits)?)?;
    for n in [1, 2] {
        admit(&mut queue, n)?;
    }
    for n in [1, 2] {
        queue.cancel(tx_id(n))?.settle(Outcome::Kept)?;
    }
    for n in [3, 4] {
        admit(&mut queue, n)?;
    }
    let block = pokerbox::BlockId([9; 32]);
    let found = (pokerbox::Height(9), block);
    let given = pokerbox::Reconciliation {
        height: pokerbox::Height(9),
        tip: block,
        applied: BTreeMap::from([(tx_id(3), found), (tx_id(4), found)]),
        caught_up: true,
        available: BTreeSet::new(),
        window: 100,
    };
    queue.reconcile(&given)?.settle(Outcome::Kept)?;
    for n in [5, 6] {
        admit(&mut queue, n)?;
    }
    assert_eq!(queue.record_ids()?.len(), 6);
    queue.image()
}

fn tx_id(n: u8) -> pokerbox::TxId {
    pokerbox::TxId([n; 32])
}

/// K inputs, outputs and read ids, half of B, and the longest label.
fn admit(queue: &mut pokerbox::Queue, n: u8) -> Result<(), Error> {
    let id = |at: u8| -> Id { [0x10 * n + at; 32] };
    let given = pokerbox::Admission {
        // 1 and 15 in turn.
        caller: pokerbox::Caller::new([1, 15][usize::from(n % 2)]).expect("a caller"),
        time_deadline: Some(pokerbox::TimeMs(1_000)),
        height_deadline: Some(pokerbox::Height(1_000)),
        // Of more than 32 bits.
        priority: i64::from(n) << 32,
        label: Some(vec![b'a' + n; 200]),
        fee: u64::from(n),
        cost: 1,
        // What all of them read, and one of its own.
        reads: [pokerbox::InputId([0xee; 32]), pokerbox::InputId(id(5))].to_vec(),
        tip: Some(pokerbox::BlockId([8; 32])),
        ..pokerbox::Admission::new(
            tx_id(n),
            [1, 2].map(|at| pokerbox::InputId(id(at))).to_vec(),
            [3, 4].map(|at| pokerbox::OutputId(id(at))).to_vec(),
            vec![n; 5],
            pokerbox::TimeMs(5),
            pokerbox::Height(8),
        )
    };
    queue.admit(&given)?.settle(Outcome::Kept)?;
    Ok(())
}
