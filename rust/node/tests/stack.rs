//! The stack that calls use: every exported call, on small queues and on large ones, in a thread
//! with little stack, or with the most where the queue is one for which a call may take that.
//! `POKERBOX_STACK` and `POKERBOX_STACK_TOP` set other numbers of bytes, to find how few are enough;
//! with too few the process ends.

// Of the shared module `every` this test needs a part.
#![allow(dead_code)]

mod common;
mod every;

use every::Args;
use model::load::{self, Ids, Links, Load, Reads};
use model::random::{self, Rng};
use model::{area, calls, image, rules, Height, Limits, Queue, State, TimeMs, Withdrawn};
use pokerbox::raw;

/// While the queue has at most [`FEW_INPUTS`] inputs and read ids together; parents first, while it also selects at most
/// [`FEW_SELECTED`] records.
const STACK: usize = 160 * 1024;

/// Ever.
const TOP: usize = 1_000_000;

const FEW_INPUTS: usize = 8_192;
const FEW_SELECTED: usize = 512;

const PARENTS_FIRST: &str = "selection_parents_first";

fn stack(name: &str, bytes: usize) -> usize {
    match std::env::var(name) {
        Ok(text) => text.parse().expect("a number of bytes"),
        Err(_) => bytes,
    }
}

/// What every call is lent, and room for what it writes.
struct Lent {
    queue: Queue,
    area: Vec<u8>,
    image: Vec<u8>,
    /// Of what kind 01 can say of the queue.
    old_image: Vec<u8>,
    args: Args,
    /// The same with an id that no record has, and as many read ids as there can be.
    new: Args,
    next: Vec<u8>,
    out: Vec<u8>,
}

impl Lent {
    fn new(rng: &mut Rng, mut queue: Queue) -> Self {
        // Best fees has to search, and not to refuse their sum.
        for record in &mut queue.records {
            record.fee = record.fee.min(1_000_000);
        }
        let pending = queue
            .records
            .iter()
            .rfind(|record| record.state == State::Queued);
        let id = pending.map_or([0; 32], |record| record.id);
        let ids: Vec<_> = queue.records.iter().map(|record| record.id).collect();
        let image = image::encode(&queue);
        let args = Args {
            id: id.to_vec(),
            caller: 0,
            priority: u64::MAX,
            ids: ids.concat(),
            reads: Vec::new(),
            now: rng.pick(&[0, u64::MAX]),
            height: rng.pick(&[0, u32::MAX]),
            kind: rng.pick(&[2, 3]),
            outcome: rng.pick(&[0, 1]),
            // The whole tree of all candidates.
            limit: u64::MAX,
            budget: 2_097_151,
        };
        let reads = (0..queue.limits.inputs).map(|n| [&[0xfd; 28][..], &n.to_be_bytes()].concat());
        Lent {
            area: area::encode(&queue),
            new: Args {
                id: vec![0xfe; 32],
                reads: reads.flatten().collect(),
                ..args.clone()
            },
            args,
            next: vec![0; queue.limits.need()],
            // No answer is longer than the image.
            out: vec![0; image.len() + 16],
            old_image: image::encode(&old(queue.clone())),
            image,
            queue,
        }
    }

    fn few_inputs(&self) -> bool {
        let records = self.queue.records.iter();
        let asked_for = records.map(|record| record.asks_for().count());
        asked_for.sum::<usize>() <= FEW_INPUTS
    }

    /// At time 0 and height 0, when the most are selected.
    fn few_selected(&self) -> bool {
        rules::selection_at(&self.queue, TimeMs(0), Height(0)).len() <= FEW_SELECTED
    }

    /// The number that parents first gives back, by the library or by the model. The model is asked
    /// for the selection instead, which is refused where parents first is: it takes long to find
    /// who waits for whom.
    #[cfg(exported = "selection_parents_first")]
    fn parents_first(&mut self, library: bool) -> u64 {
        let (area, out) = (&self.area, &mut self.out);
        match library {
            true => common::Number::number(raw::selection_parents_first(area, 0, 0, out)),
            false => calls::selection_entries_at(area, 0, 0, out),
        }
    }

    /// The numbers that all other calls give back, by the library or by the model.
    fn numbers(&mut self, library: bool) -> Vec<(&'static str, u64)> {
        let mut numbers = Vec::new();
        for call in every::calls() {
            if call.name == PARENTS_FIRST {
                continue;
            }
            // Settling gets a sound next area.
            self.next.copy_from_slice(&self.area);
            let made = if library { call.library } else { call.model };
            let number = made(&self.args, &self.area, &mut self.next, &mut self.out);
            numbers.push((call.name, number));
            if call.name == "admit" {
                let number = made(&self.new, &self.area, &mut self.next, &mut self.out);
                numbers.push(("admit, a new id", number));
            }
        }
        #[cfg(exported = "open")]
        numbers.push(("open", self.open(library)));
        #[cfg(exported = "fresh")]
        numbers.push(("fresh", self.fresh(library)));
        #[cfg(exported = "need")]
        numbers.push(("need", self.need(library)));
        #[cfg(exported = "image_limits")]
        numbers.push(("image_limits", self.image_limits(library)));
        #[cfg(exported = "convert")]
        numbers.push(("convert", self.convert(library)));
        numbers
    }

    #[cfg(exported = "open")]
    fn open(&mut self, library: bool) -> u64 {
        match library {
            true => common::Number::number(raw::open(&self.image, &mut self.next)),
            false => calls::open(&self.image, &mut self.next),
        }
    }

    #[cfg(exported = "fresh")]
    fn fresh(&mut self, library: bool) -> u64 {
        let [p, b, t, k] = self.queue.limits.numbers();
        let shares = self.queue.limits.share_bytes();
        match library {
            true => common::Number::number(raw::fresh(p, b, t, k, &shares, &mut self.next)),
            false => calls::fresh(p, b, t, k, &shares, &mut self.next),
        }
    }
}

#[cfg(exported = "need")]
impl Lent {
    fn need(&self, library: bool) -> u64 {
        let ([p, b, t, k], mut value) = (self.queue.limits.numbers(), 0);
        match library {
            true => common::Number::number(raw::need(p, b, t, k, &mut value)),
            false => calls::need(p, b, t, k, &mut value),
        }
    }
}

#[cfg(exported = "image_limits")]
impl Lent {
    fn image_limits(&self, library: bool) -> u64 {
        let (mut numbers, mut shares) = ([0; 5], [0; 64]);
        let ([p, b, t, k, need], image) = (&mut numbers, &self.image);
        let shares = &mut shares;
        match library {
            true => common::Number::number(raw::image_limits(image, p, b, t, k, shares, need)),
            false => calls::image_limits(image, p, b, t, k, shares, need),
        }
    }
}

#[cfg(exported = "convert")]
impl Lent {
    /// What kind 01 can say of the queue, so that it is converted.
    fn convert(&mut self, library: bool) -> u64 {
        let mut length = 0;
        let (image, out) = (&self.old_image, &mut self.out);
        match library {
            true => common::Number::number(raw::convert(image, out, &mut length)),
            false => calls::convert(image, out, &mut length),
        }
    }
}

/// The queue without what kind 01 cannot say: here read ids and mark 3.
fn old(mut queue: Queue) -> Queue {
    for record in &mut queue.records {
        if record.withdrawn == Withdrawn::RolledBackAfterRelease {
            record.withdrawn = Withdrawn::Expired;
        }
        if let Some(holder) = &mut record.holder {
            holder.reads.clear();
        }
    }
    queue
}

/// What `made` gives in a thread with so much stack, which is little or the most.
fn in_thread<T: Send>(little: bool, made: impl FnOnce() -> T + Send) -> T {
    let bytes = match little {
        true => stack("POKERBOX_STACK", STACK),
        false => stack("POKERBOX_STACK_TOP", TOP),
    };
    std::thread::scope(|scope| {
        let thread = std::thread::Builder::new().stack_size(bytes);
        let thread = thread.spawn_scoped(scope, made).expect("a thread");
        thread.join().expect("no panic")
    })
}

/// Every call, each in the stack that it may take for this queue.
fn in_stack(mut lent: Lent) {
    let little = lent.few_inputs();
    let expected = lent.numbers(false);
    let given = in_thread(little, || lent.numbers(true));
    assert_eq!(given, expected);
    #[cfg(exported = "best_fees")]
    assert!(given.contains(&("best_fees", 100)), "{given:?}");
    #[cfg(exported = "convert")]
    assert!(given.contains(&("convert", 100)), "{given:?}");
    #[cfg(exported = "selection_parents_first")]
    {
        let little = little && lent.few_selected();
        let given = in_thread(little, || lent.parents_first(true));
        assert_eq!((given, lent.parents_first(false)), (100, 100));
    }
}

#[test]
fn small_queues() {
    for seed in 0..50 {
        let mut rng = Rng::new(seed);
        let limits = random::small_limits(&mut rng);
        let queue = random::queue(&mut rng, limits);
        in_stack(Lent::new(&mut rng, queue));
    }
}

/// Some hundred records, some of them with up to 128 inputs.
#[test]
fn large_limits() {
    let limits = Limits::checked(1_024, 65_536, 1_024, 128).expect("limits in range");
    let mut rng = Rng::new(1);
    let mut queue = random::queue(&mut rng, limits);
    queue.records.truncate(300);
    for record in queue.records.iter_mut().skip(20) {
        if let Some(holder) = &mut record.holder {
            holder.inputs.truncate(4);
        }
    }
    let lent = Lent::new(&mut rng, queue);
    assert!(lent.few_inputs() && lent.few_selected());
    in_stack(lent);
}

/// As many records as there can be.
#[test]
fn many_records() {
    let limits = Limits::checked(1_024, 65_536, 1_024, 2).expect("limits in range");
    let mut rng = Rng::new(1);
    let queue = random::queue(&mut rng, limits);
    let lent = Lent::new(&mut rng, queue);
    assert!(lent.few_inputs());
    in_stack(lent);
}

/// Under limits that have room: the top ones for more than 512 records. In reconciliation no input is
/// available: each is looked for among the outputs.
fn loaded(queued: u64, mined: u64, boxes: u64, ids: Ids, links: Links) -> Lent {
    let limits = match queued + mined {
        ..=512 => [256, 65_536, 128, 128],
        _ => TOP_LIMITS,
    };
    loaded_under(limits, queued, mined, boxes, (ids, links, Reads::None))
}

const TOP_LIMITS: [u64; 4] = [1_024, 16_777_216, 1_024, 128];

fn loaded_under(
    limits: [u64; 4],
    queued: u64,
    mined: u64,
    boxes: u64,
    (ids, links, reads): (Ids, Links, Reads),
) -> Lent {
    let queue = load::queue(&Load {
        limits,
        queued,
        mined,
        tombstones: limits[2],
        boxes,
        bytes: 100,
        ids,
        links,
        reads,
    });
    Lent::new(&mut Rng::new(1), queue)
}

const LOADS: [(Ids, Links); 10] = [
    (Ids::Random, Links::Apart),
    (Ids::Front, Links::Apart),
    (Ids::Ends, Links::Apart),
    (Ids::Filter, Links::Apart),
    (Ids::Sum, Links::Apart),
    (Ids::Random, Links::Ring),
    (Ids::Random, Links::Chain),
    (Ids::Repeated, Links::Reversed),
    (Ids::Random, Links::Spread),
    (Ids::Sum, Links::Spread),
];

/// 8,192 inputs, whatever their ids, of few records and of 512.
#[test]
fn few_inputs() {
    for (ids, links) in LOADS {
        for (queued, mined, boxes) in [(40, 24, 128), (64, 0, 128), (512, 0, 16)] {
            let lent = loaded(queued, mined, boxes, ids, links);
            assert!(lent.few_inputs() && lent.few_selected());
            in_stack(lent);
        }
    }
}

/// The same few inputs in the largest area.
#[test]
fn few_inputs_under_the_top_limits() {
    for (ids, links) in LOADS.into_iter().take(6) {
        let load = (ids, links, Reads::None);
        let lent = loaded_under(TOP_LIMITS, 40, 24, 128, load);
        assert!(lent.few_inputs() && lent.few_selected());
        in_stack(lent);
    }
}

/// 8,192 inputs and read ids, whatever their ids: each record reads its own, or all the same.
#[test]
fn few_inputs_and_read_ids() {
    for (ids, links) in LOADS {
        for reads in [Reads::Apart, Reads::Same] {
            let limits = [256, 65_536, 128, 128];
            for (queued, mined, boxes) in [(20, 12, 128), (512, 0, 8)] {
                let lent = loaded_under(limits, queued, mined, boxes, (ids, links, reads));
                assert!(lent.few_inputs() && lent.few_selected());
                in_stack(lent);
            }
        }
    }
    for reads in [Reads::Apart, Reads::Same] {
        let load = (Ids::Random, Links::Ring, reads);
        let lent = loaded_under(TOP_LIMITS, 20, 12, 128, load);
        assert!(lent.few_inputs() && lent.few_selected());
        in_stack(lent);
    }
}

/// More than 512 selected records, or more than 8,192 inputs: parents first may take the most.
#[test]
fn above_what_is_few() {
    let (ids, links) = (Ids::Random, Links::Spread);
    let many = loaded(513, 0, 15, ids, links);
    assert!(many.few_inputs() && !many.few_selected());
    let wide = loaded(512, 0, 17, ids, links);
    assert!(!wide.few_inputs() && wide.few_selected());
    let most = loaded(2_048, 0, 4, ids, links);
    assert!(most.few_inputs() && !most.few_selected());
    let limits = [256, 65_536, 128, 128];
    let read = loaded_under(limits, 512, 0, 9, (ids, links, Reads::Apart));
    assert!(!read.few_inputs() && read.few_selected());
    for lent in [many, wide, most, read] {
        in_stack(lent);
    }
}

/// 262,144 inputs and as many outputs.
#[test]
fn full_unit() {
    for (queued, mined, ids, links) in [
        (1_024, 1_024, Ids::Random, Links::Ring),
        (1_024, 1_024, Ids::Filter, Links::Apart),
        (2_048, 0, Ids::Random, Links::Spread),
        (2_048, 0, Ids::Sum, Links::Reversed),
    ] {
        let lent = loaded(queued, mined, 128, ids, links);
        assert!(!lent.few_inputs());
        in_stack(lent);
    }
}

/// As many read ids besides: each record its own, or all the same. With 1,023 pending an admission is
/// looked at to the end.
#[test]
fn full_unit_with_read_ids() {
    for (queued, mined, ids, links, reads) in [
        (2_048, 0, Ids::Random, Links::Spread, Reads::Apart),
        (1_023, 1_024, Ids::Filter, Links::Chain, Reads::Same),
    ] {
        let lent = loaded_under(TOP_LIMITS, queued, mined, 128, (ids, links, reads));
        assert!(!lent.few_inputs());
        in_stack(lent);
    }
}
