//! What the scheme spares the flash: the store's own counts on the ledger, beside a conventional pool of frames.
//!
//! The pool is simulated: the least recently used page leaves, and is written if it was changed; a commit is one log
//! write; a full redo log makes a checkpoint, which writes every changed page in a frame. What is open is decided in
//! the pool's favour: undo costs it nothing, neither at an abort nor where a page leaves with uncommitted bytes.

use crate::calls::Store;
use crate::ledger::{
    transactions, Costs, Layout, Ledger, Policy, Transaction, FRAMES, KS, LAYOUTS, POLICY, SPREAD, TRANSACTIONS,
};
use crate::plot::{Line, Panel};
use crate::progress::Progress;

/// For the plot, and for the table of policies: frames, max_age with min_del 16, and the rows of a transaction.
const FRAMES_ACROSS: [u32; 6] = [2, 4, 8, 16, 32, 64];
const MAX_AGES: [u32; 5] = [0, 256, 512, 768, 1024];
const ONE_K: u32 = 4;

/// The conventional pool.
struct Pool {
    layout: Layout,
    frames: usize,
    /// Pages in frames and whether they were changed, the least recently used first.
    held: Vec<(u32, bool)>,
    log_size: u32,
    logged: u32,
    costs: Costs,
}

impl Pool {
    fn new(layout: Layout, frames: u32) -> Pool {
        let log_size = layout.sizes(frames).log_size;
        Pool { layout, frames: frames as usize, held: Vec::new(), log_size, logged: 0, costs: Costs::default() }
    }

    fn update(&mut self, page: u32) {
        if let Some(at) = self.held.iter().position(|held| held.0 == page) {
            self.held.remove(at);
        } else {
            self.costs.reads += 1;
            if self.held.len() == self.frames {
                let (_, changed) = self.held.remove(0);
                self.costs.writes += u64::from(changed);
            }
        }
        self.held.push((page, true));
    }

    fn checkpoint(&mut self) {
        for (_, changed) in &mut self.held {
            self.costs.writes += u64::from(*changed);
            *changed = false;
        }
        self.costs.logs += 1;
        self.costs.checkpoints += 1;
        self.logged = 0;
    }

    fn run(&mut self, transaction: &Transaction) {
        let records = transaction.rows.len() as u32;
        if self.logged + records > self.log_size {
            self.checkpoint();
        }
        for &row in &transaction.rows {
            self.update(self.layout.page_of(row));
        }
        if !transaction.aborts {
            self.logged += records;
            self.costs.logs += 1;
            self.costs.commits += 1;
        }
    }
}

/// What the workload costs the store, and what it costs the pool.
fn both<S: Store + Clone>(store: &S, layout: Layout, frames: u32, k: u32, policy: Policy) -> [Costs; 2] {
    let all = transactions(k, TRANSACTIONS);
    let mut ledger = Ledger::new(store.clone(), layout, frames, policy);
    ledger.run_all(&all);
    let mut pool = Pool::new(layout, frames);
    all.iter().for_each(|transaction| pool.run(transaction));
    [ledger.costs, pool.costs]
}

/// The cells of a row: reads, writes and log writes for each 1,000 commits.
fn cells(costs: [Costs; 2]) -> String {
    let counts: [fn(&Costs) -> u64; 3] = [|costs| costs.reads, |costs| costs.writes, |costs| costs.logs];
    let cell = |count: fn(&Costs) -> u64| {
        let [store, pool] = costs.map(|costs| costs.per_thousand(count(&costs)));
        format!(" {store:.0} / {pool:.0} = {:.2} |", store / pool)
    };
    counts.map(cell).concat()
}

fn row<S: Store + Clone>(store: &S, layout: Layout, k: u32) -> String {
    format!("| {} | {k} |{}\n", layout.name, cells(both(store, layout, FRAMES, k, POLICY)))
}

/// By layout and k; and for one of these by what a checkpoint is told.
pub fn tables<S: Store + Clone>(store: &S) -> String {
    let mut progress = Progress::new("flash");
    let mut text = "| Layout | k | Page reads | Page writes | Log writes |\n|---|---|---|---|---|\n".to_string();
    for (layout, k) in LAYOUTS.into_iter().flat_map(|layout| KS.map(|k| (layout, k))) {
        progress.tell(|| format!("{}, k = {k}", layout.name));
        text += &row(store, layout, k);
    }
    text += &format!("\n**{}, k = {ONE_K}, by what a checkpoint is told**\n\n", SPREAD.name);
    text += "| min_del | max_age | Page reads | Page writes | Log writes |\n|---|---|---|---|---|\n";
    let policies = MAX_AGES.map(|max_age| Policy { max_age, ..POLICY });
    for policy in [Policy { min_del: 1, ..POLICY }].into_iter().chain(policies) {
        let Policy { min_del, max_age } = policy;
        progress.tell(|| format!("max_age {max_age}"));
        text += &format!("| {min_del} | {max_age} |{}\n", cells(both(store, SPREAD, FRAMES, ONE_K, policy)));
    }
    text
}

/// Page writes by the number of frames.
pub fn panels<S: Store + Clone>(store: &S) -> Vec<Panel> {
    let mut progress = Progress::new("flash, plot");
    let panel = |layout: Layout| {
        let writes = FRAMES_ACROSS.map(|frames| {
            progress.tell(|| format!("{}, {frames} frames", layout.name));
            both(store, layout, frames, ONE_K, POLICY).map(|costs| costs.per_thousand(costs.writes))
        });
        let line = |which: usize, name| Line { name, values: writes.iter().map(|both| both[which]).collect() };
        Panel {
            title: format!("{}: {} pages", layout.name, layout.pages()),
            across: FRAMES_ACROSS.to_vec(),
            up: "page writes for 1,000 commits",
            lines: [line(0, "this store"), line(1, "LRU write-back pool")],
            powers: true,
        }
    };
    LAYOUTS.map(panel).into()
}

#[cfg(test)]
mod tests {
    use super::*;
    use crate::twin::Twin;

    #[test]
    fn the_page_of_figures_has_these_counts() {
        for layout in LAYOUTS {
            let row = row(&Twin, layout, 1);
            assert!(include_str!("../../docs/FIGURES.md").contains(&row), "next: host/bench flash write\n{row}");
        }
    }

    #[test]
    fn the_pool_writes_what_leaves_changed() {
        let mut pool = Pool::new(SPREAD, 2);
        let rows = |pages: &[u32]| pages.iter().map(|page| page * SPREAD.rows_a_page).collect();
        pool.run(&Transaction { rows: rows(&[0, 1, 0, 2]), aborts: false });
        let costs = pool.costs;
        assert_eq!((costs.reads, costs.writes, costs.logs, costs.commits), (3, 1, 1, 1), "page 1 leaves");
        pool.checkpoint();
        pool.run(&Transaction { rows: rows(&[3]), aborts: true });
        let costs = pool.costs;
        assert_eq!((costs.reads, costs.writes, costs.logs, costs.commits), (4, 3, 2, 1), "page 0 leaves unchanged");
    }

    #[test]
    fn a_full_log_makes_a_checkpoint() {
        let mut pool = Pool::new(SPREAD, 2);
        (0..2049).for_each(|_| pool.run(&Transaction { rows: vec![0], aborts: false }));
        assert_eq!((pool.costs.checkpoints, pool.costs.writes, pool.costs.logs), (1, 1, 2050));
    }
}
