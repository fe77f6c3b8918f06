use std::collections::{BTreeMap, BTreeSet};

use pokerbox::store::{FileStore, StoreError};
use pokerbox::{
    Admission, BlockId, Caller, Error, Height, InputId, Limits, OutputId, Reconciliation, Shares,
    State, TimeMs, TxId,
};

fn main() -> Result<(), Box<dyn std::error::Error>> {
    let folder = std::env::temp_dir().join(format!("pokerbox-node-{}", std::process::id()));
    // 16 pending, 65,536 signed bytes, 16 tombstones, 8 inputs, outputs or read ids each. As they stand
    // they are all for caller 0; here two wallets share them, and neither fills the queue.
    let mut shares = [0; Caller::COUNT];
    (shares[0], shares[1]) = (12, 12);
    let limits = Limits::new(16, 65_536, 16, 8)?.shared(Shares::new(shares))?;
    // Once, when the unit is set up. At each start `open`, which refuses where no store stands.
    let mut store = FileStore::create(folder.join("image"), limits)?;

    // A call of the store is made, its image written, and the call settled with the outcome.
    let (id, block) = (TxId([1; 32]), BlockId([4; 32]));
    let (inputs, outputs) = (vec![InputId([2; 32])], vec![OutputId([3; 32])]);
    let signed = b"signed bytes".to_vec();
    let transaction = Admission {
        // What it reads without spending it: others may read it, too.
        reads: vec![InputId([5; 32])],
        priority: 7,
        fee: 1_000_000,
        ..Admission::new(id, inputs, outputs, signed, TimeMs(1_000), Height(100))
    };
    store.admit(&transaction)?;

    // A wallet that has used up its share, or that has none, is told so: refusal 18.
    let other = Admission {
        id: TxId([9; 32]),
        caller: Caller::new(2).expect("0 to 15"),
        ..transaction
    };
    match store.admit(&other) {
        Err(StoreError::Refused(Error::ShareExhausted)) => {
            println!("{} has no share", other.caller)
        }
        other => println!("{other:?}"),
    }

    // While it is there, nobody spends what it reads: refusal 20.
    let spending = Admission {
        id: TxId([8; 32]),
        caller: Caller::ZERO,
        inputs: vec![InputId([5; 32])],
        ..other
    };
    match store.admit(&spending) {
        Err(StoreError::Refused(Error::ReadAndSpent)) => println!("it is read"),
        other => println!("{other:?}"),
    }

    // What the template builder takes: all that can stand in a block now, no child before its parent.
    let queue = store.queue();
    for id in queue.selection_parents_first(TimeMs(1_000), Height(100))? {
        let signed: &[u8] = queue.signed_bytes(id)?;
        println!("{id}: {} signed bytes", signed.len());
    }
    // Where they do not all fit: the most fee in at most 500,000 bytes, by 10,000 steps of a search
    // over the first 20 records of `selection_entries_at`. A child may be in it without its parent.
    let best = queue.best_fees(500_000, 10_000, TimeMs(1_000), Height(100))?;
    println!("fee {}, at most {} more", best.fee, best.distance);

    // A write that fails is refusal 17: the queue is as before, and the call can be made again.
    std::fs::create_dir(folder.join("image.new"))?; // in the way of the second file
    match store.cancel(id) {
        Err(StoreError::WriteFailed(cause)) => println!("not cancelled: {cause}"),
        other => println!("{other:?}"),
    }
    std::fs::remove_dir(folder.join("image.new"))?;
    assert_eq!(store.queue().entry(id)?.state, State::Queued);

    // A block has the transaction.
    let reconciled = store.reconcile(&Reconciliation {
        height: Height(101),
        tip: block,
        applied: BTreeMap::from([(id, (Height(101), block))]),
        caught_up: true,
        available: BTreeSet::new(),
        window: 10,
    })?;
    println!("changed: {}", reconciled.changed);

    // What was kept, but not as safely as it should be: for the operator.
    for warning in store.take_warnings() {
        eprintln!("{warning}");
    }

    // The next start.
    drop(store);
    let store = FileStore::open(folder.join("image"), limits)?;
    assert_eq!(store.queue().entry(id)?.state, State::Mined);
    std::fs::remove_dir_all(folder)?;
    Ok(())
}
