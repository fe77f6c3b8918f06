//! A queue in a folder, with real writes.
//!
//! - `unit DIR` prints what is stored and changes nothing;
//! - `unit DIR --demo` makes a store, where none stands, and shows what a unit lives through;
//! - `unit DIR --run ROUNDS` opens or makes a store and makes calls with writes, over and over;
//!   with 0 rounds until it is killed;
//! - `unit DIR --older FILE` writes what is stored to FILE as a unit with the first version reads it.
//!
//! Killed at any moment, it opens again.

use std::collections::{BTreeMap, BTreeSet};
use std::error::Error;
use std::path::{Path, PathBuf};
use std::process::{Command, ExitCode, Stdio};
use std::time::Duration;

use pokerbox::store::{FileStore, Opened, StoreError};
use pokerbox::{
    Admission, BlockId, Caller, Height, InputId, Limits, OutputId, Queue, Reconciliation, Shares,
    TimeMs, TxId,
};

const USAGE: &str = "usage: unit DIR [--demo | --run ROUNDS | --older FILE]";
/// Transactions that are put in at a time.
const BATCH: u8 = 6;
const BLOCK: BlockId = BlockId([0xbb; 32]);
/// What every transaction of a batch reads.
const READ: InputId = InputId([0xcc; 32]);

fn main() -> ExitCode {
    let arguments: Vec<String> = std::env::args().skip(1).collect();
    match run(&arguments) {
        Ok(()) => ExitCode::SUCCESS,
        Err(error) => {
            eprintln!("unit: {error}");
            ExitCode::FAILURE
        }
    }
}

fn run(arguments: &[String]) -> Result<(), Box<dyn Error>> {
    let arguments: Vec<&str> = arguments.iter().map(String::as_str).collect();
    match arguments[..] {
        [folder] => print_stored(&image_in(folder)),
        [folder, "--demo"] => demo(folder),
        [folder, "--run", rounds] => Unit::open_or_create(folder)?.run(rounds.parse()?),
        [folder, "--older", file] => write_older(&image_in(folder), Path::new(file)),
        _ => Err(USAGE.into()),
    }
}

fn image_in(folder: &str) -> PathBuf {
    Path::new(folder).join("queue.image")
}

/// Two wallets: caller 0 may have 6 pending, caller 1 may have 4.
fn limits() -> Result<Limits, pokerbox::Error> {
    let mut shares = [0; Caller::COUNT];
    (shares[0], shares[1]) = (6, 4);
    Limits::new(8, 4_096, 8, 4)?.shared(Shares::new(shares))
}

/// Of a batch, who admits it: caller 1 every third.
fn caller(n: u8) -> Caller {
    Caller::new(u8::from(n % 3 == 2)).unwrap_or(Caller::ZERO)
}

struct Unit {
    store: FileStore,
}

impl Unit {
    fn new(mut store: FileStore) -> Unit {
        for warning in store.take_warnings() {
            eprintln!("unit: {warning}");
        }
        Unit { store }
    }

    fn create(folder: &str) -> Result<Unit, Box<dyn Error>> {
        let store = FileStore::create(image_in(folder), limits()?)?;
        println!(
            "Made a store; its image is to be {}",
            store.path().display()
        );
        Ok(Unit::new(store))
    }

    fn open(folder: &str) -> Result<Unit, Box<dyn Error>> {
        let store = FileStore::open(image_in(folder), limits()?)?;
        Ok(Unit::new(store))
    }

    fn open_or_create(folder: &str) -> Result<Unit, Box<dyn Error>> {
        let (store, opened) = FileStore::open_or_create(image_in(folder), limits()?)?;
        match opened {
            Opened::Found => println!("Opened {}", store.path().display()),
            Opened::Created => println!("Made {}", store.path().display()),
        }
        Ok(Unit::new(store))
    }

    fn queue(&self) -> &Queue {
        self.store.queue()
    }

    fn print_queued(&self, heading: &str) -> Result<(), Box<dyn Error>> {
        println!("{heading}");
        for id in self.queue().selection_entries()? {
            let (entry, signed) = (self.queue().entry(id)?, self.queue().signed_bytes(id)?);
            let (priority, length, caller) = (entry.priority, signed.len(), entry.caller);
            let reads = entry.reads.len();
            println!("  {id}: {caller}, priority {priority}, {length} signed bytes, reads {reads}");
        }
        Ok(())
    }

    fn print_entry(&self, id: TxId) -> Result<(), Box<dyn Error>> {
        let entry = self.queue().entry(id)?;
        println!("  {id}: {}, reason {}", entry.state, entry.reason);
        Ok(())
    }

    fn withdraw(&mut self) -> Result<(), Box<dyn Error>> {
        println!("One is cancelled, and another one's deadline is due:");
        self.store.cancel(id(5))?;
        self.print_entry(id(5))?;
        for id in self.store.expire(deadline(0), Height(0))? {
            self.print_entry(id)?;
        }
        Ok(())
    }

    fn block(&mut self) -> Result<(), Box<dyn Error>> {
        println!("A block at height 6 has one of them:");
        self.store.reconcile(&Reconciliation {
            height: Height(6),
            tip: BLOCK,
            applied: BTreeMap::from([(id(4), (Height(6), BLOCK))]),
            caught_up: false,
            available: BTreeSet::new(),
            window: 10,
        })?;
        self.print_entry(id(4))
    }

    fn rollback(&mut self) -> Result<(), Box<dyn Error>> {
        println!("The block is rolled back:");
        self.store.reopen(&BTreeSet::from([id(4)]))?;
        self.print_entry(id(4))
    }

    /// A caller that has no share.
    fn refused(&mut self) -> Result<(), Box<dyn Error>> {
        println!("A wallet without a share:");
        let given = Admission {
            caller: Caller::new(2).ok_or("a caller")?,
            ..transaction(BATCH)
        };
        match self.store.admit(&given) {
            Err(error @ StoreError::Refused(pokerbox::Error::ShareExhausted)) => {
                println!("  {error}");
                Ok(())
            }
            other => Err(format!("it was not refused: {other:?}").into()),
        }
    }

    /// One that spends what the others read.
    fn meets(&mut self) -> Result<(), Box<dyn Error>> {
        println!("A transaction that spends what others read:");
        let given = Admission {
            inputs: vec![READ],
            reads: vec![],
            ..transaction(BATCH)
        };
        match self.store.admit(&given) {
            Err(error @ StoreError::Refused(pokerbox::Error::ReadAndSpent)) => {
                println!("  {error}");
                Ok(())
            }
            other => Err(format!("it was not refused: {other:?}").into()),
        }
    }

    /// For a unit with the first version, which has neither such priorities nor callers and read ids.
    fn older(&self) -> Result<(), Box<dyn Error>> {
        println!("Its image for a unit with the first version:");
        match Queue::convert(&self.queue().image()?) {
            Err(error @ pokerbox::Error::NotConvertible) => {
                println!("  {error}");
                Ok(())
            }
            other => Err(format!("it was not refused: {other:?}").into()),
        }
    }

    /// A folder stands in the way of the second file.
    fn failed_write(&mut self, folder: &str) -> Result<(), Box<dyn Error>> {
        println!("A write that fails:");
        let in_the_way = Path::new(folder).join("queue.image.new");
        std::fs::create_dir(&in_the_way)?;
        let failed = self.store.cancel(id(3));
        std::fs::remove_dir(&in_the_way)?;
        match failed {
            Err(error @ StoreError::WriteFailed(_)) => println!("  {error}"),
            other => return Err(format!("it did not fail: {other:?}").into()),
        }
        self.print_entry(id(3))?;
        println!("The same call again:");
        self.store.cancel(id(3))?;
        self.print_entry(id(3))
    }

    fn run(&mut self, rounds: u64) -> Result<(), Box<dyn Error>> {
        let mut round = 0;
        while rounds == 0 || round < rounds {
            round += 1;
            self.round(round)?;
            if round % 100 == 0 {
                println!("{round} rounds done");
            }
        }
        print_stored(&self.store.path())
    }

    /// One changing call; transactions are put in when none is queued.
    fn round(&mut self, round: u64) -> Result<(), Box<dyn Error>> {
        let selected = self.queue().selection_entries()?;
        let Some(id) = selected.first() else {
            return self.fill();
        };
        match round % 3 {
            0 => self.store.set_cursor(Height(round as u32), None)?,
            1 => {
                let entry = self.queue().entry(*id)?;
                let now = entry.time_deadline.unwrap_or(TimeMs(0));
                self.store.expire(now, Height(0))?;
            }
            _ => drop(self.store.cancel(*id)?),
        }
        Ok(())
    }

    /// Puts a batch of transactions in.
    fn fill(&mut self) -> Result<(), Box<dyn Error>> {
        for n in 0..BATCH {
            self.store.admit(&transaction(n))?;
        }
        Ok(())
    }
}

fn demo(folder: &str) -> Result<(), Box<dyn Error>> {
    let mut unit = Unit::create(folder)?;
    unit.fill()?;
    unit.print_queued("Queued, best first:")?;
    unit.refused()?;
    unit.meets()?;
    unit.older()?;
    unit.withdraw()?;
    unit.block()?;
    unit.rollback()?;
    unit.failed_write(folder)?;
    unit.print_queued("Queued now, best first:")?;
    // The lock is given up, so that another process can take the store.
    drop(unit);
    cut(folder)?;
    print_stored(&image_in(folder))
}

/// Writes the image of kind 01.
fn write_older(image: &Path, file: &Path) -> Result<(), Box<dyn Error>> {
    let older = Queue::convert(&std::fs::read(image)?)?;
    std::fs::write(file, &older)?;
    println!("{} bytes of kind 01", older.len());
    Ok(())
}

/// Another process writes to the same store and is killed at whatever it does.
fn cut(folder: &str) -> Result<(), Box<dyn Error>> {
    let mut running = Command::new(std::env::current_exe()?)
        .args([folder, "--run", "0"])
        .stdout(Stdio::null())
        .spawn()?;
    std::thread::sleep(Duration::from_millis(100));
    running.kill()?;
    running.wait()?;
    let left = Path::new(folder).join("queue.image.new").exists();
    println!(
        "Cut: another process made calls on this store and was killed. It left {} second file.",
        if left { "a" } else { "no" }
    );
    let unit = Unit::open(folder)?;
    println!(
        "Opened after it: revision {}, {} records",
        unit.queue().revision()?,
        unit.queue().record_ids()?.len()
    );
    Ok(())
}

/// Each transaction of a batch has a deadline of its own.
fn deadline(n: u8) -> TimeMs {
    TimeMs(1_000 + u64::from(n))
}

fn id(n: u8) -> TxId {
    TxId([0x10 + n; 32])
}

fn transaction(n: u8) -> Admission {
    let (inputs, outputs) = ([InputId([0xa0 + n; 32])], [OutputId([0xb0 + n; 32])]);
    let signed = vec![n; 100 + usize::from(n)];
    Admission {
        caller: caller(n),
        reads: vec![READ],
        time_deadline: Some(deadline(n)),
        // As a wallet has it that takes the time for it.
        priority: 1_700_000_000_000 + i64::from(n),
        label: Some(format!("transaction {n}").into_bytes()),
        fee: 1_000_000,
        cost: 12_000,
        ..Admission::new(
            id(n),
            inputs.into(),
            outputs.into(),
            signed,
            TimeMs(10),
            Height(5),
        )
    }
}

/// What is stored; nothing is locked, and nothing changes.
fn print_stored(path: &Path) -> Result<(), Box<dyn Error>> {
    let stored = FileStore::look(path)?;
    println!("Stored in {}:", path.display());
    match stored {
        None => println!("  nothing yet"),
        Some(queue) => print_image(&queue.image()?)?,
    }
    Ok(())
}

/// Read by the model and not by the library.
fn print_image(image: &[u8]) -> Result<(), Box<dyn Error>> {
    let queue = model::image::decode(image).ok_or("the file is not the image of a sound queue")?;
    let limits = queue.limits;
    println!("  {} bytes", image.len());
    println!(
        "  limits: {} pending, {} bytes, {} tombstones, {} inputs",
        limits.pending, limits.bytes, limits.tombstones, limits.inputs
    );
    for (caller, share) in limits.shares.iter().enumerate() {
        let pending = queue.pending_of(model::Caller(caller as u8)).count();
        if *share > 0 || pending > 0 {
            println!("  caller {caller}: {pending} pending of a share of {share}");
        }
    }
    let tip = queue
        .tip
        .map_or("no tip".to_string(), |tip| format!("tip {}", BlockId(tip)));
    println!(
        "  revision {}, finish counter {}",
        queue.revision, queue.counter.0
    );
    println!("  cursor at height {}, {tip}", queue.cursor.0);
    println!("  {} records", queue.records.len());
    for record in &queue.records {
        print_record(record);
    }
    Ok(())
}

fn print_record(record: &model::Record) {
    let held = match &record.holder {
        Some(holder) => {
            let (bytes, reads) = (holder.bytes.len(), holder.reads.len());
            format!("{bytes} signed bytes, reads {reads}")
        }
        None => format!("tombstone {}", record.finish.0),
    };
    let label = record.label.as_deref().map_or(String::new(), |label| {
        format!(", label {:?}", String::from_utf8_lossy(label))
    });
    println!(
        "    {}: caller {}, {:?}, reason {:?}, {held}{label}",
        TxId(record.id),
        record.caller.0,
        record.state,
        record.reason
    );
}
