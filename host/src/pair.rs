//! Pairs of stores, for the last sentences of demand 3: two stores with equal starting pages, page size and last
//! number are given the same transaction calls, with power losses at the same places among them. Frames, online table
//! and log are of different sizes, and each evicts, compacts, closes and checkpoints as it likes, also inside a loss.
//! Until one of them reports a full table or log, their transaction answers agree, counts apart.
//!
//! No second program and no history judge here: each store is held to the other one's answers alone.

use crate::areas::{Areas, Lent, Reply, Sizes};
use crate::calls::{Call, Store};
use crate::machine::{self, cut_down};
use crate::random::Random;
use crate::session::Maker;
use crate::twin::Twin;
use crate::wrong::{Fault, Wrong};
use std::fmt;
use std::time::Duration;

/// Transaction calls in a pair, if no table and no log gets full.
const LENGTH: u64 = 300;

const SIDES: [&str; 2] = ["one", "two"];

#[derive(Clone)]
pub enum Step {
    /// A transaction call, given to both and compared.
    Both(Call),
    /// A call that this side likes to make: evict, compact, close, checkpoint.
    Own(usize, Call),
    /// Both lose power, each between two calls or inside a checkpoint of its own; a restart follows on both. A side
    /// whose step here is the restart itself has lost nothing: a loss that leaves the old bytes.
    Loss([machine::Step; 2]),
}

impl fmt::Display for Step {
    fn fmt(&self, f: &mut fmt::Formatter) -> fmt::Result {
        match self {
            Step::Both(call) => write!(f, "both: {call}"),
            Step::Own(side, call) => write!(f, "{}: {call}", SIDES[*side]),
            Step::Loss(losses) => {
                let [one, two] = losses.each_ref().map(|loss| match loss {
                    machine::Step::Call(_) => "(nothing is lost)".to_string(),
                    loss => loss.to_string(),
                });
                write!(f, "one: {one}, two: {two}, both: restart")
            }
        }
    }
}

/// The two stores of a pair. New ones for each run: a wrong store remembers things.
pub type Stores = [Box<dyn Store>; 2];

/// What the seed decides before the first step.
#[derive(Clone)]
pub struct Start {
    sizes: [Sizes; 2],
    last: u32,
    /// Of the starting pages, the same ones for both, and of what else the areas hold before the format.
    bytes: u64,
    /// How often, in percent, each side makes a call of its own.
    own: [u32; 2],
}

impl Start {
    fn of(seed: u64) -> Start {
        let mut random = Random::new(seed ^ 0x2a12);
        let (page_size, pages) = (random.pick(&[512, 512, 512, 1024, 2048, 4096]), random.between(1, 8));
        let mut sizes = || Sizes {
            page_size,
            pages,
            frames: random.pick(&[1, 1, 2, 3, 5, 8, 64]),
            online_size: random.pick(&[4, 8, 12, 20, 40, 512]),
            log_size: random.pick(&[5, 10, 20, 40, 100, 2048]),
        };
        let sizes = [sizes(), sizes()];
        let last = random.pick(&[0, 0, 1, 1000, u32::MAX - 25]);
        let own = [0; 2].map(|_: u32| random.pick(&[0, 4, 15, 40]));
        Start { sizes, last, bytes: random.next(), own }
    }
}

/// A pair under way.
struct Pair {
    stores: Stores,
    areas: [Areas; 2],
    /// What both have answered last.
    replies: [Reply; 2],
}

impl Pair {
    fn new(stores: Stores, start: &Start) -> Result<Pair, String> {
        let areas = [0, 1].map(|side| {
            let mut areas = Areas::for_sizes(&start.sizes[side]);
            let mut random = Random::new(start.bytes.wrapping_add(1 + side as u64));
            areas.each_mut().into_iter().for_each(|area| random.fill(area));
            Random::new(start.bytes).fill(&mut areas.stored);
            areas
        });
        let mut pair = Pair { stores, areas, replies: [Reply::default(); 2] };
        for side in 0..2 {
            let sizes = start.sizes[side];
            let reply = pair.call(side, &Call::Format { sizes, last: start.last }, &mut Lent::zeros(0));
            if !reply.accepted() || pair.areas[side].sizes() != sizes {
                return Err(format!("{}: the format was not done", SIDES[side]));
            }
        }
        Ok(pair)
    }

    fn call(&mut self, side: usize, call: &Call, buffer: &mut Lent) -> Reply {
        self.replies[side] = self.stores[side].call(&mut self.areas[side], call, buffer);
        self.replies[side]
    }

    /// Does a step. True if the pair goes on, false if one of them has reported a full table or log.
    fn step(&mut self, step: &Step) -> Result<bool, String> {
        match step {
            Step::Own(side, call) => {
                self.call(*side, call, &mut Lent::zeros(0));
                return Ok(true);
            }
            Step::Both(call) => {
                let mut buffers = [call.buffer(), call.buffer()];
                let [one, two] = [0, 1].map(|side| self.call(side, call, &mut buffers[side]));
                if self.is_full() {
                    return Ok(false);
                }
                if (one.code, one.note) != (two.code, two.note) {
                    return Err(format!("one answers {one}, two answers {two}"));
                }
                if let Some(at) = (0..buffers[0].len()).find(|&at| buffers[0][at] != buffers[1][at]) {
                    let [one, two] = [buffers[0][at], buffers[1][at]];
                    return Err(format!("byte {at} of the buffer is {one} with one, {two} with two"));
                }
            }
            Step::Loss(losses) => {
                for (side, loss) in losses.iter().enumerate() {
                    let areas = &mut self.areas[side];
                    match *loss {
                        machine::Step::Loss { fill } => machine::lose(areas, fill),
                        machine::Step::LossInCheckpoint { min_del, max_age, steps, fill } => {
                            self.stores[side].part(areas, min_del, max_age, steps);
                            machine::lose(areas, fill);
                        }
                        _ => (),
                    }
                    self.call(side, &Call::Restart, &mut Lent::zeros(0));
                }
                if self.is_full() {
                    return Ok(false);
                }
                if let Some(side) = (0..2).find(|&side| !self.replies[side].accepted()) {
                    return Err(format!("{}: the restart answers {}", SIDES[side], self.replies[side]));
                }
            }
        }
        Ok(true)
    }

    fn is_full(&self) -> bool {
        self.replies.iter().any(|reply| matches!(reply.code, 7 | 8))
    }
}

/// What one pair came to, or several of them.
#[derive(Default)]
pub struct Ran {
    pub pairs: u64,
    /// Transaction calls compared, calls of one side's own, losses.
    pub calls: u64,
    pub own: u64,
    pub losses: u64,
    /// How many ended because a table or log was full.
    pub full: u64,
    /// The steps up to the failing one, and why it failed.
    pub failure: Option<(Vec<Step>, String)>,
}

impl Ran {
    pub fn add(&mut self, more: Ran) {
        self.pairs += more.pairs;
        self.calls += more.calls;
        self.own += more.own;
        self.losses += more.losses;
        self.full += more.full;
        self.failure = more.failure;
    }
}

/// Runs the pair of a seed.
pub fn run(stores: Stores, seed: u64) -> Ran {
    let start = Start::of(seed);
    let mut ran = Ran { pairs: 1, ..Ran::default() };
    let mut pair = match Pair::new(stores, &start) {
        Ok(pair) => pair,
        Err(why) => return Ran { failure: Some((Vec::new(), why)), ..ran },
    };
    let mut random = Random::new(seed);
    let mut maker = Maker::for_pair(random.next(), start.sizes[0], start.last);
    let mut steps = Vec::new();
    // True if the pair goes on.
    let mut make = |pair: &mut Pair, ran: &mut Ran, step: Step| {
        match step {
            Step::Both(_) => ran.calls += 1,
            Step::Own(..) => ran.own += 1,
            Step::Loss(_) => ran.losses += 1,
        }
        let result = pair.step(&step);
        steps.push(step);
        match result {
            Ok(true) => return true,
            Ok(false) => ran.full = 1,
            Err(why) => ran.failure = Some((steps.clone(), why)),
        }
        false
    };
    while ran.calls < LENGTH {
        let step = next(&pair, &start, &mut random, &mut maker);
        if !make(&mut pair, &mut ran, step) {
            return ran;
        }
    }
    for step in ending(&pair, &start, &mut maker) {
        if !make(&mut pair, &mut ran, step) {
            break;
        }
    }
    ran
}

fn next(pair: &Pair, start: &Start, random: &mut Random, maker: &mut Maker) -> Step {
    for side in 0..2 {
        let (a, sizes) = (&pair.areas[side], start.sizes[side]);
        if random.percent(start.own[side]) {
            return Step::Own(side, maker.own(a));
        }
        // Before it gets full: a pair that has ended shows nothing any more.
        let nearly = |held: u32, size: u32| held + 2 >= size;
        let scarce = nearly(a.online_count(), sizes.online_size) || nearly(a.logged(), sizes.log_size);
        if scarce && a.logged() > 0 && random.percent(85) {
            return Step::Own(side, Call::Checkpoint { min_del: 1, max_age: 0 });
        }
    }
    if random.percent(3) {
        return Step::Loss([0, 1].map(|side| maker.loss(&pair.areas[side])));
    }
    Step::Both(maker.transaction(&pair.areas[0]))
}

/// A last loss, then every page is read whole.
fn ending(pair: &Pair, start: &Start, maker: &mut Maker) -> Vec<Step> {
    let Sizes { page_size, pages, .. } = start.sizes[0];
    let read = |page| Call::Read { number: 1, page, offset: 0, length: page_size, room: page_size };
    let mut steps = vec![Step::Loss([0, 1].map(|side| maker.loss(&pair.areas[side])))];
    steps.push(Step::Both(Call::Begin { number: 1 }));
    steps.extend((0..pages).map(|page| Step::Both(read(page))));
    steps
}

/// Runs the steps again from nothing. Gives the place of the step that fails.
fn failing(stores: Stores, start: &Start, steps: &[Step]) -> Option<usize> {
    let Ok(mut pair) = Pair::new(stores, start) else { return None };
    for (i, step) in steps.iter().enumerate() {
        match pair.step(step) {
            Ok(true) => (),
            Ok(false) => return None,
            Err(_) => return Some(i),
        }
    }
    None
}

/// Cuts the failing pair of a seed down and prints it as calls with both answers.
pub fn print_failing(stores: impl Fn() -> Stores, seed: u64, steps: Vec<Step>) {
    let start = Start::of(seed);
    let steps = cut_down(steps, Duration::from_secs(60), |steps| failing(stores(), &start, steps));
    println!("  its shortest form, {} steps, starting pages of garbage {:#x}:", steps.len(), start.bytes);
    for (side, sizes) in SIDES.iter().zip(start.sizes) {
        println!("    {side}: {}", Call::Format { sizes, last: start.last });
    }
    let mut pair = match Pair::new(stores(), &start) {
        Ok(pair) => pair,
        Err(why) => return println!("    WRONG: {why}"),
    };
    for step in &steps {
        let result = pair.step(step);
        let [one, two] = pair.replies;
        match (step, result) {
            (_, Err(why)) => println!("    {step}: WRONG: {why}"),
            (Step::Own(side, _), _) => println!("    {step}: {}", pair.replies[*side]),
            _ => println!("    {step}: {one}; {two}"),
        }
    }
}

/// Wrong stores that a pair must catch: their lies reach a transaction's answers by way of what one side does on its
/// own. Wrong counts, a wrong order of use, a wrong 7 or 8 are not for pairs to see.
pub const MUST_CATCH: &[Fault] = &[
    Fault::AbortTakesCommitted,
    Fault::AbortForgetsOthers,
    Fault::RestartIgnoresStamp,
    Fault::CompactWritesUncommitted,
    Fault::CompactTakesFrameBytes,
    Fault::RestartFromInfinity,
    Fault::RestartKeepsLive,
    Fault::StampSmallest,
    Fault::FoldsInReverse,
    Fault::CloseDropsOneMore,
    Fault::CommitKeepsOwner,
    Fault::CommitReversed,
    Fault::EndOffByOne,
    Fault::AbortKeepsFrame,
    Fault::EvictForgetsDirty,
    Fault::FetchForgetsRecords,
    Fault::FetchReverses,
];

/// After how many transaction calls the fault is caught beside the second program, if it is.
pub fn caught(fault: Fault, seed: u64, most: u64) -> Option<u64> {
    let mut sum = Ran::default();
    while sum.calls < most {
        sum.add(run([Box::new(Wrong::new(fault)), Box::new(Twin)], seed.wrapping_add(sum.pairs)));
        if sum.failure.is_some() {
            return Some(sum.calls);
        }
    }
    None
}

#[cfg(test)]
mod tests {
    use super::*;

    fn twins() -> Stores {
        [Box::new(Twin), Box::new(Twin)]
    }

    #[test]
    fn two_of_the_second_program_agree() {
        let mut sum = Ran::default();
        for seed in 0..40 {
            sum.add(run(twins(), seed));
            assert!(sum.failure.is_none(), "seed {seed}: {}", sum.failure.unwrap().1);
        }
        assert!(sum.calls > 2000 && sum.own > 1000 && sum.losses > 100, "the pairs end too early");
    }

    #[test]
    fn a_failing_pair_is_cut_down() {
        let stores = || -> Stores { [Box::new(Wrong::new(Fault::RestartIgnoresStamp)), Box::new(Twin)] };
        let found = (0..).find_map(|seed| run(stores(), seed).failure.map(|(steps, _)| (seed, steps)));
        let (seed, steps) = found.unwrap();
        let start = Start::of(seed);
        assert_eq!(failing(stores(), &start, &steps), Some(steps.len() - 1));
        let short = cut_down(steps, Duration::from_secs(10), |steps| failing(stores(), &start, steps));
        // Begin, add, commit, compact, loss, begin, read.
        assert!(short.len() <= 8, "{} steps", short.len());
    }
}
