//! The workload "usage ledger": transactions that each add to k rows, picked by a zipf law over a fixed shuffle.
//! It runs on any store of this interface, and sums up the store's own counts.

use crate::areas::{Areas, Lent, Reply, Sizes};
use crate::calls::{Call, Store};
use crate::random::Random;
use crate::record::ADD;
use crate::states::shuffle;

pub const TRANSACTIONS: u32 = 10_000;
/// How many rows a transaction adds to.
pub const KS: [u32; 3] = [1, 4, 16];
pub const FRAMES: u32 = 16;
const ROWS: u32 = 4096;
const ROW_BYTES: u32 = 16;
const ABORTED_PERCENT: u32 = 5;
const SKEW: f64 = 0.99;

/// The one transaction number that the workload uses.
const NUMBER: u32 = 1;

/// How the rows lie on pages.
#[derive(Clone, Copy)]
pub struct Layout {
    pub name: &'static str,
    pub page_size: u32,
    pub rows_a_page: u32,
}

pub const SPREAD: Layout = Layout { name: "spread", page_size: 4096, rows_a_page: 16 };
const PACKED: Layout = Layout { name: "packed512", page_size: 512, rows_a_page: 32 };
/// Sixteen pages: the whole working set fits as many frames.
const DENSE: Layout = Layout { name: "dense", page_size: 4096, rows_a_page: 256 };
pub const LAYOUTS: [Layout; 3] = [SPREAD, PACKED, DENSE];

impl Layout {
    pub fn pages(&self) -> u32 {
        ROWS / self.rows_a_page
    }

    pub fn page_of(&self, row: u32) -> u32 {
        row / self.rows_a_page
    }

    fn offset_of(&self, row: u32) -> u32 {
        row % self.rows_a_page * ROW_BYTES
    }

    /// A store for this layout: so many frames, online table and log as large as they can be.
    pub fn sizes(&self, frames: u32) -> Sizes {
        Sizes { page_size: self.page_size, pages: self.pages(), frames, online_size: 512, log_size: 2048 }
    }
}

pub struct Transaction {
    pub rows: Vec<u32>,
    pub aborts: bool,
}

/// The first transactions of the workload, always the same ones. A row may be picked twice in one of them.
pub fn transactions(k: u32, count: u32) -> Vec<Transaction> {
    let mut random = Random::new(1);
    let mut shuffled: Vec<u32> = (0..ROWS).collect();
    shuffle(&mut shuffled, &mut random);
    // Whole numbers: the last bit of a power, which may differ by machine, then decides nothing.
    let mut sum = 0;
    let mut up_to = Vec::new();
    for rank in 1..=ROWS {
        sum += (f64::from(rank).powf(-SKEW) * f64::from(1u32 << 30)) as u64;
        up_to.push(sum);
    }
    let pick = |random: &mut Random| {
        let at = random.next() % sum;
        shuffled[up_to.partition_point(|&end| end <= at)]
    };
    let one =
        |_| Transaction { rows: (0..k).map(|_| pick(&mut random)).collect(), aborts: random.percent(ABORTED_PERCENT) };
    (0..count).map(one).collect()
}

/// What a run has cost.
#[derive(Clone, Copy, Default, PartialEq, Eq, Debug)]
pub struct Costs {
    pub calls: u64,
    pub commits: u64,
    pub reads: u64,
    pub writes: u64,
    pub logs: u64,
    pub checkpoints: u64,
}

impl Costs {
    /// A count for each 1,000 commits.
    pub fn per_thousand(&self, count: u64) -> f64 {
        count as f64 * 1000.0 / self.commits as f64
    }
}

/// When a page is due, as a checkpoint is told.
#[derive(Clone, Copy)]
pub struct Policy {
    pub min_del: u32,
    pub max_age: u32,
}

pub const POLICY: Policy = Policy { min_del: 16, max_age: 512 };

/// The ledger on a store, with the areas that it lends.
#[derive(Clone)]
pub struct Ledger<S> {
    store: S,
    pub areas: Areas,
    /// Where read would copy to: the ledger does not read.
    buffer: Lent,
    layout: Layout,
    policy: Policy,
    pub costs: Costs,
}

impl<S: Store> Ledger<S> {
    pub fn new(store: S, layout: Layout, frames: u32, policy: Policy) -> Ledger<S> {
        let sizes = layout.sizes(frames);
        let areas = Areas::for_sizes(&sizes);
        let buffer = Lent::zeros(0);
        let mut ledger = Ledger { store, areas, buffer, layout, policy, costs: Costs::default() };
        assert!(ledger.call(&Call::Format { sizes, last: 0 }).accepted(), "format");
        ledger
    }

    fn call(&mut self, call: &Call) -> Reply {
        let reply = self.store.call(&mut self.areas, call, &mut self.buffer);
        self.costs.calls += 1;
        self.costs.reads += u64::from(reply.reads);
        self.costs.writes += u64::from(reply.writes);
        self.costs.logs += u64::from(reply.logs);
        reply
    }

    fn checkpoint(&mut self, policy: Policy) {
        self.costs.checkpoints += 1;
        let Policy { min_del, max_age } = policy;
        assert!(self.call(&Call::Checkpoint { min_del, max_age }).accepted(), "checkpoint");
    }

    /// Makes the call; where a table is full, frees room by a checkpoint, and then by one with min_del 1.
    fn make(&mut self, call: &Call) {
        if self.call(call).accepted() {
            return;
        }
        self.checkpoint(self.policy);
        if self.call(call).accepted() {
            return;
        }
        self.checkpoint(Policy { min_del: 1, ..self.policy });
        let reply = self.call(call);
        assert!(reply.accepted(), "{call} after a checkpoint with min_del 1: {reply}");
    }

    /// One transaction, and before it a checkpoint if less than a tenth of the online table is free.
    pub fn run(&mut self, transaction: &Transaction) {
        let size = self.areas.sizes().online_size;
        if 10 * (size - self.areas.online_count()) < size {
            self.checkpoint(self.policy);
        }
        self.make(&Call::Begin { number: NUMBER });
        for &row in &transaction.rows {
            let (page, offset) = (self.layout.page_of(row), self.layout.offset_of(row));
            self.make(&Call::Update { number: NUMBER, page, offset, length: 8, kind: ADD.into(), value: 1 });
        }
        if transaction.aborts {
            self.make(&Call::Abort { number: NUMBER });
        } else {
            self.make(&Call::Commit { number: NUMBER });
            self.costs.commits += 1;
        }
    }

    pub fn run_all(&mut self, transactions: &[Transaction]) {
        transactions.iter().for_each(|transaction| self.run(transaction));
    }
}

#[cfg(test)]
mod tests {
    use super::*;
    use crate::twin::Twin;

    #[test]
    fn few_rows_are_picked_often() {
        let mut picked = vec![0; ROWS as usize];
        let all = transactions(4, 5000);
        all.iter().flat_map(|transaction| &transaction.rows).for_each(|&row| picked[row as usize] += 1);
        picked.sort_by_key(|&times| std::cmp::Reverse(times));
        // The first of 4,096 ranks has about 1 in 8.6 of the picks, the first hundred have more than half.
        assert!((2100..2550).contains(&picked[0]), "{}", picked[0]);
        assert!(picked[..100].iter().sum::<u32>() > 10_000);
        let aborted = all.iter().filter(|transaction| transaction.aborts).count();
        assert!((200..300).contains(&aborted), "{aborted}");
    }

    #[test]
    fn every_committed_add_is_counted() {
        let all = transactions(4, 500);
        let mut ledger = Ledger::new(Twin, DENSE, 4, POLICY);
        ledger.run_all(&all);
        ledger.checkpoint(Policy { min_del: 1, max_age: 0 });
        let sum: u64 = ledger.areas.stored.chunks_exact(8).map(|n| u64::from_le_bytes(n.try_into().unwrap())).sum();
        assert_eq!(sum, 4 * ledger.costs.commits);
    }
}
