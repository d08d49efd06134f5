//! What the runs have shown: each call by each answer it can give, and the situations inside the accepted ones.
//! A cell or a situation that was expected and never came makes the run fail: silence is not coverage.

use crate::areas::{get4, Areas, Reply};
use crate::calls::{Call, CALL_NAMES};
use crate::machine::Fill;
use crate::record::Record;
use std::collections::BTreeMap;

/// Where the store under test came from.
#[derive(Clone, Copy, PartialEq, Eq)]
pub enum Origin {
    /// From a format, by calls and power losses alone.
    Reachable,
    /// Tables changed behind the store's back: sound or not, no history need lead there.
    Tampered,
}

/// Answers in the table's order: done, not due, then refusals 1 to 10.
const ANSWERS: usize = 12;

/// The refusals that each call can give, in the order of CALL_NAMES.
const REFUSALS: [&[u32]; 11] = [
    &[2],
    &[1, 2, 5],
    &[1, 2, 3, 4, 6],
    &[1, 2, 4, 6, 7],
    &[1, 2, 4, 8, 9],
    &[1, 2, 4],
    &[1, 2, 10],
    &[1, 2],
    &[1],
    &[1, 2],
    &[1, 7],
];

/// Why a reachable store never shows an answer that the call can give.
fn unreachable(call: usize, code: u32) -> Option<&'static str> {
    match (CALL_NAMES[call], code) {
        (_, 1) => Some("every call keeps sound tables sound, so 1 needs tampering"),
        ("restart", 7) => Some("the records that enter are the committed ones that were online: they fitted before"),
        _ => None,
    }
}

/// When the power goes: after a durable write, after a call that made none, inside a checkpoint.
#[derive(Clone, Copy)]
pub enum Moment {
    Formatted,
    Committed,
    Compacted,
    Closed,
    Checkpointed,
    NothingWritten,
    BeforeFirstStep,
    BetweenPages,
    BeforeClose,
    AfterClose,
}

const MOMENTS: [&str; 10] = [
    "after a format",
    "after a commit",
    "after a compaction",
    "after a close",
    "after a checkpoint",
    "after a call that wrote nothing durable",
    "in a checkpoint, before its first step",
    "in a checkpoint, between two pages",
    "in a checkpoint, before its close",
    "in a checkpoint, after its close",
];

impl Moment {
    pub fn after(call: &Call, reply: &Reply) -> Moment {
        match call {
            Call::Format { .. } if reply.accepted() => Moment::Formatted,
            _ if reply.writes + reply.logs == 0 => Moment::NothingWritten,
            Call::Commit { .. } => Moment::Committed,
            Call::Compact { .. } => Moment::Compacted,
            Call::Close => Moment::Closed,
            _ => Moment::Checkpointed,
        }
    }
}

/// Situations that a reachable store shows.
const SITUATIONS: &[&str] = &[
    "abort: no record",
    "abort: page evicted, none remains",
    "abort: page evicted, records remain",
    "abort: page in a frame, none remains",
    "abort: page in a frame, records remain",
    "begin: number of the commit just before, whose records are online",
    "begin: number that the call before has ended",
    "checkpoint: several open transactions have records",
    "close: drops all",
    "close: drops none",
    "close: drops some",
    "close: log empty",
    "commit: L comes to its end",
    "commit: log comes to its end",
    "commit: no record",
    "commit: one record",
    "commit: refused 8 at a log of 2,048",
    "commit: refused 8 with L at its end too",
    "commit: refused 9",
    "commit: rows of others between its own",
    "commit: several records",
    "compact: due by age alone",
    "compact: due by count",
    "compact: evicted page",
    "compact: from the frame",
    "compact: not due",
    "compact: nothing committed",
    "compact: uncommitted too, in a frame",
    "compact: uncommitted too, page evicted",
    "evict: clean",
    "evict: dirty",
    "fetch: clean victim",
    "fetch: dirty victim",
    "fetch: free frame, page absent",
    "fetch: free frame, page evicted",
    "fetch: page in a frame",
    "format: L lowered",
    "format: page size 1,024",
    "format: page size 2,048",
    "format: page size 4,096",
    "format: page size 512",
    "format: smallest of everything",
    "format: largest of everything",
    "restart: nothing enters",
    "restart: online table comes to its end",
    "restart: passed over by its stamp alone",
    "restart: record enters",
    "restart: record up to K enters",
    "restart: transactions were live",
    "restart: without a loss",
    "update: refused 7 at 512 records",
    "update: refused 7, page in no frame",
];

/// Situations that only tampering shows.
const TAMPERED: &[&str] = &["restart: passed over by the dirty table alone"];

pub struct Coverage {
    counts: bool,
    cells: [[[u64; ANSWERS]; 11]; 2],
    situations: BTreeMap<&'static str, u64>,
    /// Power losses, by the moment and by what the lost part holds then.
    losses: [[u64; 3]; MOMENTS.len()],
    /// The number that the call before has ended, and whether it left records online.
    ended: Option<(u32, bool)>,
}

impl Coverage {
    pub fn new() -> Coverage {
        let situations = SITUATIONS.iter().chain(TAMPERED).map(|name| (*name, 0)).collect();
        let losses = [[0; 3]; MOMENTS.len()];
        Coverage { counts: true, cells: [[[0; ANSWERS]; 11]; 2], situations, losses, ended: None }
    }

    /// For runs that do not count: of wrong stores, and again of a session that failed.
    pub fn off() -> Coverage {
        Coverage { counts: false, ..Coverage::new() }
    }

    pub fn count(&mut self, origin: Origin, call: &Call, reply: &Reply) {
        let answer = if reply.code == 0 { reply.note as usize } else { 1 + reply.code as usize };
        self.cells[origin as usize][call.kind()][answer.min(ANSWERS - 1)] += 1;
    }

    pub fn saw(&mut self, situation: &'static str) {
        if !self.counts {
            return;
        }
        *self.situations.get_mut(situation).expect("every situation is in the lists above") += 1;
    }

    pub fn lost(&mut self, moment: Moment, fill: Fill) {
        let holds = match fill {
            Fill::Zeros => 0,
            Fill::Old => 1,
            Fill::Garbage(_) => 2,
        };
        self.losses[moment as usize][holds] += u64::from(self.counts);
    }

    /// Counts the situations that the store before the call and the answer make.
    pub fn judge(&mut self, before: &Glance, origin: Origin, call: &Call, reply: &Reply, after: &Areas) {
        if !self.counts {
            return;
        }
        self.count(origin, call, reply);
        if origin == Origin::Tampered {
            if reply.accepted() && before.by_dirty_table {
                self.saw(TAMPERED[0]);
            }
            return;
        }
        let ended = self.ended.take();
        match (call, reply.code) {
            (Call::Begin { number }, 0) => match ended {
                Some((last, true)) if last == *number => {
                    self.saw("begin: number of the commit just before, whose records are online");
                }
                Some((last, false)) if last == *number => self.saw("begin: number that the call before has ended"),
                _ => (),
            },
            (Call::Checkpoint { .. }, 0) => {
                if before.several_owners {
                    self.saw("checkpoint: several open transactions have records");
                }
            }
            (Call::Update { .. }, 7) => {
                if !before.in_frame {
                    self.saw("update: refused 7, page in no frame");
                }
                if before.online == 512 {
                    self.saw("update: refused 7 at 512 records");
                }
            }
            (Call::Commit { .. }, 8) => {
                if after.sizes().log_size == 2048 {
                    self.saw("commit: refused 8 at a log of 2,048");
                }
                if before.last == u32::MAX {
                    self.saw("commit: refused 8 with L at its end too");
                }
            }
            (Call::Commit { .. }, 9) => self.saw("commit: refused 9"),
            (_, 1..) => (),
            (Call::Read { .. } | Call::Update { .. }, _) => {
                if before.in_frame {
                    self.saw("fetch: page in a frame");
                } else if let Some(dirty) = before.victim_dirty {
                    self.saw(if dirty { "fetch: dirty victim" } else { "fetch: clean victim" });
                } else if before.entry == 1 {
                    self.saw("fetch: free frame, page evicted");
                } else {
                    self.saw("fetch: free frame, page absent");
                }
            }
            (Call::Commit { number }, _) => {
                self.ended = Some((*number, before.own > 0));
                self.saw(match before.own {
                    0 => "commit: no record",
                    1 => "commit: one record",
                    _ => "commit: several records",
                });
                if before.own_apart {
                    self.saw("commit: rows of others between its own");
                }
                if before.own > 0 && after.last() == u32::MAX {
                    self.saw("commit: L comes to its end");
                }
                if before.own > 0 && after.logged() == after.sizes().log_size {
                    self.saw("commit: log comes to its end");
                }
            }
            (Call::Abort { number }, _) => {
                self.ended = Some((*number, false));
                if before.own == 0 {
                    self.saw("abort: no record");
                }
                for &(page, in_frame) in &before.own_pages {
                    self.saw(match (in_frame, after.entry(page) == 1) {
                        (true, true) => "abort: page in a frame, records remain",
                        (true, false) => "abort: page in a frame, none remains",
                        (false, true) => "abort: page evicted, records remain",
                        (false, false) => "abort: page evicted, none remains",
                    });
                }
            }
            (Call::Evict { .. }, _) => {
                self.saw(if before.entry % 2 == 1 { "evict: dirty" } else { "evict: clean" });
            }
            (Call::Compact { min_del, .. }, _) => {
                if reply.note == 1 {
                    self.saw(if before.committed == 0 { "compact: nothing committed" } else { "compact: not due" });
                    return;
                }
                let by_count = before.committed >= *min_del;
                self.saw(if by_count { "compact: due by count" } else { "compact: due by age alone" });
                self.saw(match (before.in_frame, before.uncommitted > 0) {
                    (true, false) => "compact: from the frame",
                    (false, false) => "compact: evicted page",
                    (true, true) => "compact: uncommitted too, in a frame",
                    (false, true) => "compact: uncommitted too, page evicted",
                });
            }
            (Call::Close, _) => self.saw(match (before.logged, after.logged()) {
                (0, _) => "close: log empty",
                (_, 0) => "close: drops all",
                (n, m) if n == m => "close: drops none",
                _ => "close: drops some",
            }),
            (Call::Restart, _) => {
                if before.was_live {
                    self.saw("restart: transactions were live");
                }
                if before.by_stamp {
                    self.saw("restart: passed over by its stamp alone");
                }
                if before.enters_up_to_kay {
                    self.saw("restart: record up to K enters");
                }
                self.saw(if after.online_count() == 0 { "restart: nothing enters" } else { "restart: record enters" });
                if after.online_count() == after.sizes().online_size {
                    self.saw("restart: online table comes to its end");
                }
            }
            (Call::Format { sizes: s, last }, _) => {
                self.saw(match s.page_size {
                    512 => "format: page size 512",
                    1024 => "format: page size 1,024",
                    2048 => "format: page size 2,048",
                    _ => "format: page size 4,096",
                });
                match s.lengths() {
                    [20, 20, 14, 512, 37, 19, 512] => self.saw("format: smallest of everything"),
                    [20, 8204, 28_672, 4_194_304, 1123, 9728, 262_144] => self.saw("format: largest of everything"),
                    _ => (),
                }
                if *last < before.last {
                    self.saw("format: L lowered");
                }
            }
        }
    }

    /// Prints both tables and the situations. Gives what is missing, or present against document 01.
    pub fn print(&self) -> Vec<String> {
        let mut wrong = Vec::new();
        for (origin, title) in [(0, "stores from a format"), (1, "tampered stores (wild sessions and damage)")] {
            println!("\nanswers by call: {title}");
            print!("{:<11}{:>9}{:>9}", "", "done", "not due");
            (1..=10).for_each(|code| print!("{code:>9}"));
            println!();
            for (call, name) in CALL_NAMES.iter().enumerate() {
                print!("{name:<11}");
                for answer in 0..ANSWERS {
                    let count = self.cells[origin][call][answer];
                    let can = match answer {
                        0 => true,
                        1 => *name == "compact",
                        _ => REFUSALS[call].contains(&(answer as u32 - 1)),
                    };
                    let reason = if answer >= 2 { unreachable(call, answer as u32 - 1) } else { None };
                    let wanted = can && !(origin == 0 && reason.is_some());
                    let mark = match (count, can, wanted) {
                        (0, false, _) => "·".to_string(),
                        (0, true, false) => "-".to_string(),
                        _ => count.to_string(),
                    };
                    print!("{mark:>9}");
                    let said = if answer < 2 { "accepted".to_string() } else { format!("{}", answer - 1) };
                    if count > 0 && !wanted {
                        wrong.push(format!("{name} answered {said}, which {title} never do"));
                    }
                    // A tampered store need not show every answer; every one that only it can show it must.
                    if count == 0 && wanted && (origin == 0 || reason.is_some()) {
                        wrong.push(format!("{name} never answered {said}: {title}; run more calls"));
                    }
                }
                println!();
            }
        }
        println!("\n· document 01 gives no such answer   - a reachable store never shows it:");
        for (call, name) in CALL_NAMES.iter().enumerate() {
            for &code in REFUSALS[call] {
                if let Some(reason) = unreachable(call, code) {
                    println!("    {name} {code}: {reason}");
                }
            }
        }
        println!("\npower losses: what the lost part holds");
        println!("{:<50}{:>10}{:>10}{:>10}", "", "zeros", "old bytes", "garbage");
        for (moment, row) in MOMENTS.iter().zip(self.losses) {
            println!("    {moment:<46}{:>10}{:>10}{:>10}", row[0], row[1], row[2]);
            if row.contains(&0) {
                wrong.push(format!("a power loss was never tried {moment}, or not with each filling; run more calls"));
            }
        }
        println!("\nsituations:");
        for (name, count) in &self.situations {
            println!("    {name:<66}{count:>10}");
            if *count == 0 {
                wrong.push(format!("situation never seen: {name}; run more calls"));
            }
        }
        wrong
    }
}

/// What must be known of a store before the call, to say afterwards which situation it was.
#[derive(Default)]
pub struct Glance {
    last: u32,
    logged: u32,
    online: u32,
    entry: u8,
    in_frame: bool,
    victim_dirty: Option<bool>,
    committed: u32,
    uncommitted: u32,
    own: u32,
    own_apart: bool,
    several_owners: bool,
    own_pages: Vec<(u32, bool)>,
    was_live: bool,
    by_stamp: bool,
    by_dirty_table: bool,
    enters_up_to_kay: bool,
}

impl Glance {
    /// Only of stores that are sound, or about to be restarted or formatted: of any other it sees nothing.
    pub fn at(a: &Areas, call: &Call, readable: bool, coverage: &Coverage) -> Glance {
        let mut g = Glance::default();
        if !readable || !coverage.counts {
            return g;
        }
        let sizes = a.sizes();
        (g.last, g.logged) = (a.last(), a.logged());
        match *call {
            Call::Read { page, .. } | Call::Update { page, .. } | Call::Evict { page } | Call::Compact { page, .. }
                if page < sizes.pages =>
            {
                g.online = a.online_count();
                g.entry = a.entry(page);
                g.in_frame = g.entry >= 2;
                if a.in_use() == sizes.frames && !g.in_frame && matches!(call, Call::Read { .. } | Call::Update { .. })
                {
                    let oldest = 2 * (a.use_order()[0] + 1);
                    g.victim_dirty = Some((0..sizes.pages).any(|page| a.entry(page) == oldest + 1));
                }
                if matches!(call, Call::Compact { .. }) {
                    for row in a.online_rows().filter(|row| u32::from(Record::read(row).page) == page) {
                        if row[14] == 0 {
                            g.committed += 1;
                        } else {
                            g.uncommitted += 1;
                        }
                    }
                }
            }
            Call::Commit { number } | Call::Abort { number } => {
                let mut gap = false;
                for row in a.online_rows() {
                    if u32::from(row[14]) == number {
                        g.own += 1;
                        g.own_apart |= gap && g.own > 1;
                        gap = false;
                        let page = u32::from(Record::read(row).page);
                        if !g.own_pages.iter().any(|&(other, _)| other == page) {
                            g.own_pages.push((page, a.entry(page) >= 2));
                        }
                    } else {
                        gap = true;
                    }
                }
            }
            Call::Checkpoint { .. } => {
                let mut owners = a.online_rows().map(|row| row[14]).filter(|&owner| owner != 0);
                let first = owners.next();
                g.several_owners = owners.any(|owner| Some(owner) != first);
            }
            Call::Restart => {
                g.was_live = a.tables[3..35].contains(&1);
                for (i, row) in a.log.chunks_exact(14).take(g.logged as usize).enumerate() {
                    let page = u32::from(get4(row, 0) as u16);
                    let number = a.first() + i as u64;
                    let at_close = number <= a.kay().into() && a.dirty(page) == 0;
                    let on_page = number <= a.stamp(page).into();
                    g.by_stamp |= on_page && !at_close;
                    g.by_dirty_table |= at_close && !on_page;
                    g.enters_up_to_kay |= !at_close && !on_page && number <= a.kay().into();
                }
            }
            _ => (),
        }
        g
    }
}

#[cfg(test)]
mod tests {
    use super::*;

    #[test]
    fn an_empty_run_covers_nothing() {
        let missing = Coverage::new().print();
        assert!(missing.iter().any(|line| line.contains("begin never answered 5")));
        assert!(!missing.iter().any(|line| line.contains("restart never answered 7: stores from a format")));
    }
}
