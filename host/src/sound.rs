//! "Sound tables" of document 01, clause by clause, in one pass over each table.
//!
//! Scratch marks on the stack (frames, pages, log slots, the bytes of one page) keep the whole check linear in the
//! tables' lengths. The answer is the set of broken clauses, not a mere yes or no: a damage run must know that it
//! broke the clause that it meant to, and no other. Where a broken clause leaves others without a meaning (a wrong
//! length, a count past its table, n above L) the check stops there; a row that is not well formed, or whose owner and
//! number do not go together, is asked nothing more.

use crate::areas::{get4, Areas, Sizes, FIXED_LENGTH, LOG_ROW, MARKS_HEAD, ONLINE_ROW, TABLES_HEAD};
use crate::record::Record;

/// The clauses S1 to S20 of docs/TRACE.md: in the order of document 01, then the one that LAYOUT.md adds.
#[derive(Clone, Copy, PartialEq, Eq, Debug)]
pub enum Clause {
    Params,
    Lengths,
    Counts,
    Entry,
    FrameOnce,
    Order,
    Record,
    Owner,
    NumberOnce,
    InLog,
    AboveStamp,
    DirtyIffRecord,
    NoSharedByte,
    RowsZero,
    StampKLeL,
    NLeL,
    DirtyLeK,
    FirstLeK1,
    FirstLeDirty,
    LiveByte,
}

impl Clause {
    /// Every clause with its name: label and words are those of docs/TRACE.md.
    pub const ALL: [(Clause, &'static str); 20] = [
        (Clause::Params, "S1 parameters in range"),
        (Clause::Lengths, "S2 lent lengths exact"),
        (Clause::Counts, "S3 counts within sizes"),
        (Clause::Entry, "S4 each entry is absent, in a frame or evicted"),
        (Clause::FrameOnce, "S5 no frame serves two pages"),
        (Clause::Order, "S6 the use order names each frame in use once and no other"),
        (Clause::Record, "S7 records are well formed"),
        (Clause::Owner, "S8 owners live; owner and number of a row"),
        (Clause::NumberOnce, "S9 no nonzero number occurs twice"),
        (Clause::InLog, "S10 each committed online record is the log's record of its number"),
        (Clause::AboveStamp, "S11 above its page's stamp"),
        (Clause::DirtyIffRecord, "S12 an entry is dirty exactly if the online table has a record for the page"),
        (Clause::NoSharedByte, "S13 uncommitted records of different owners share no byte"),
        (Clause::RowsZero, "S14 rows past a count are zero"),
        (Clause::StampKLeL, "S15 stamps and K are at most L"),
        (Clause::NLeL, "S16 n at most L"),
        (Clause::DirtyLeK, "S17 each nonzero dirty number is at most K"),
        (Clause::FirstLeK1, "S18 the log's first number is at most K+1"),
        (Clause::FirstLeDirty, "S19 and at most each nonzero dirty number"),
        (Clause::LiveByte, "S20 one canonical value: a live byte is 0 or 1 (ours)"),
    ];

    /// The clauses as docs/RULES.md says them, in the same order.
    pub const SENTENCES: [&'static str; 20] = [
        "The area fixed has 20 bytes, and page size, pages, frames, online size and log size are in their ranges.",
        "Each of the other six areas has exactly the length that the sizes give.",
        "n is at most the log size, m at most the online size, u at most the frames.",
        "Each page entry is absent, evicted, or in a frame of the store, clean or dirty.",
        "At most one entry is in each frame.",
        "The use order names frames of the store only: each that an entry is in once, and no other.",
        "Each record of the log and of the online table is well formed.",
        "Each online record is committed, with owner 0 and a number from 1 to L, or uncommitted, with an owner from 1 to 32 \
         that is live and the number 0.",
        "No two online records have the same number, 0 apart.",
        "Each committed online record has a number that the log has, and is the log's record of it, byte for byte.",
        "The number of each committed online record is above the stamp of its page.",
        "A page's entry is dirty exactly if the online table has a record for the page.",
        "Two uncommitted online records of different owners share no byte.",
        "Every byte of the log rows from n on, of the online rows from m on, and of the use order's places from u on is 0.",
        "K and every stamp are at most L.",
        "n is at most L.",
        "Each dirty number other than 0 is at most K.",
        "The log's first number, L − n + 1, is at most K + 1, also when the log is empty.",
        "The log's first number is at most each dirty number other than 0.",
        "Each byte of the live set is 0 or 1.",
    ];

    pub fn sentence(self) -> &'static str {
        Clause::SENTENCES[self as usize]
    }

    /// S1 to S20.
    pub fn label(self) -> &'static str {
        let name = Clause::ALL[self as usize].1;
        name.split_once(' ').map_or(name, |(label, _)| label)
    }
}

/// A set of clauses.
#[derive(Clone, Copy, PartialEq, Eq, Debug, Default)]
pub struct Clauses(u32);

impl Clauses {
    pub fn only(clause: Clause) -> Clauses {
        Clauses(1 << clause as u32)
    }
    pub fn none(self) -> bool {
        self.0 == 0
    }
    pub fn has(self, clause: Clause) -> bool {
        self.0 >> clause as u32 & 1 == 1
    }
    fn add(&mut self, clause: Clause) {
        self.0 |= 1 << clause as u32;
    }
    /// Adds the clause if it is broken.
    fn ask(&mut self, clause: Clause, holds: bool) {
        self.0 |= u32::from(!holds) << clause as u32;
    }
}

impl std::fmt::Display for Clauses {
    fn fmt(&self, f: &mut std::fmt::Formatter) -> std::fmt::Result {
        let labels: Vec<_> = Clause::ALL.iter().filter(|(c, _)| self.has(*c)).map(|(c, _)| c.label()).collect();
        write!(f, "{}", if labels.is_empty() { "none".to_string() } else { labels.join(" ") })
    }
}

/// The clauses broken by the whole store: what every call but restart and format asks.
pub fn broken(a: &Areas) -> Clauses {
    let (sizes, mut broken) = shape(a);
    if !broken.none() {
        return broken;
    }
    broken.ask(
        Clause::Counts,
        a.logged() <= sizes.log_size && a.online_count() <= sizes.online_size && a.in_use() <= sizes.frames,
    );
    broken.ask(Clause::NLeL, a.logged() <= a.last());
    if !broken.none() {
        return broken;
    }
    durable(a, &sizes, &mut broken);
    lost(a, &sizes, &mut broken);
    broken
}

/// The clauses broken among those that restart asks: parameters, lengths and the durable part.
pub fn broken_durable(a: &Areas) -> Clauses {
    let (sizes, mut broken) = shape(a);
    if !broken.none() {
        return broken;
    }
    broken.ask(Clause::Counts, a.logged() <= sizes.log_size);
    broken.ask(Clause::NLeL, a.logged() <= a.last());
    if broken.none() {
        durable(a, &sizes, &mut broken);
    }
    broken
}

/// Parameters in range, lent lengths exact.
fn shape(a: &Areas) -> (Sizes, Clauses) {
    let mut broken = Clauses::default();
    if a.fixed.len() != FIXED_LENGTH {
        broken.add(Clause::Lengths);
        return (Sizes { page_size: 0, pages: 0, frames: 0, online_size: 0, log_size: 0 }, broken);
    }
    let sizes = a.sizes();
    if !sizes.in_range() {
        broken.add(Clause::Params);
    } else {
        broken.ask(Clause::Lengths, lengths_fit(a, &sizes));
    }
    (sizes, broken)
}

/// Whether the seven lent lengths are those of the sizes.
pub fn lengths_fit(a: &Areas, sizes: &Sizes) -> bool {
    a.each().map(|area| area.len()) == sizes.lengths()
}

/// The durable clauses. Shape and counts hold, and n is at most L.
fn durable(a: &Areas, sizes: &Sizes, broken: &mut Clauses) {
    let (last, kay, logged) = (a.last(), a.kay(), a.logged() as usize);
    let first = a.first();
    // 64 bits: K + 1 and the first number of an empty log may be 2 to the 32nd.
    broken.ask(Clause::StampKLeL, kay <= last);
    broken.ask(Clause::FirstLeK1, first <= u64::from(kay) + 1);
    let (stamps, dirties) = a.marks[MARKS_HEAD..].split_at(4 * sizes.pages as usize);
    for stamp in stamps.chunks_exact(4) {
        broken.ask(Clause::StampKLeL, get4(stamp, 0) <= last);
    }
    for dirty in dirties.chunks_exact(4) {
        let dirty = get4(dirty, 0);
        if dirty != 0 {
            broken.ask(Clause::DirtyLeK, dirty <= kay);
            broken.ask(Clause::FirstLeDirty, first <= u64::from(dirty));
        }
    }
    let (rows, spare) = a.log.split_at(LOG_ROW * logged);
    for row in rows.chunks_exact(LOG_ROW) {
        broken.ask(Clause::Record, Record::read(row).well_formed(sizes));
    }
    broken.ask(Clause::RowsZero, all_zero(spare));
}

/// The clauses on the lost part. Shape and counts hold, and n is at most L.
fn lost(a: &Areas, sizes: &Sizes, broken: &mut Clauses) {
    let (pages, frames) = (sizes.pages as usize, sizes.frames as usize);
    let (last, first) = (a.last(), a.first());
    let live = &a.tables[3..TABLES_HEAD];
    broken.ask(Clause::LiveByte, live.iter().all(|&byte| byte <= 1));

    // Frames: the entries say which serve, the use order must say the same.
    let (order, entries) = a.tables[TABLES_HEAD..].split_at(frames);
    let mut serves = [false; 64];
    for &entry in entries {
        if entry >= 2 {
            let frame = usize::from(entry / 2 - 1);
            if frame >= frames {
                broken.add(Clause::Entry);
            } else {
                broken.ask(Clause::FrameOnce, !serves[frame]);
                serves[frame] = true;
            }
        }
    }
    let (order, spare) = order.split_at(a.in_use() as usize);
    broken.ask(Clause::RowsZero, all_zero(spare));
    let mut named = [false; 64];
    for &frame in order {
        let frame = usize::from(frame);
        if frame >= frames || named[frame] {
            broken.add(Clause::Order);
        } else {
            named[frame] = true;
        }
    }
    broken.ask(Clause::Order, serves == named);

    // Online records. Uncommitted ones are chained page by page, for the overlaps below.
    const NO_ROW: u16 = u16::MAX;
    let mut has_record = [false; 1024];
    let mut slot_taken = [false; 2048];
    let mut newest = [NO_ROW; 1024];
    let mut older = [NO_ROW; 512];
    let (rows, spare) = a.online.split_at(ONLINE_ROW * a.online_count() as usize);
    broken.ask(Clause::RowsZero, all_zero(spare));
    for (i, row) in rows.chunks_exact(ONLINE_ROW).enumerate() {
        let record = Record::read(row);
        let page = usize::from(record.page);
        if page < pages {
            has_record[page] = true;
        }
        if !record.well_formed(sizes) {
            broken.add(Clause::Record);
            continue;
        }
        match (row[14], get4(row, 15)) {
            (owner @ 1..=32, 0) => {
                broken.ask(Clause::Owner, live[usize::from(owner) - 1] == 1);
                older[i] = newest[page];
                newest[page] = i as u16;
            }
            (0, number) if number >= 1 && number <= last => {
                broken.ask(Clause::AboveStamp, number > a.stamp(record.page.into()));
                if u64::from(number) < first {
                    broken.add(Clause::InLog);
                } else {
                    let slot = (u64::from(number) - first) as usize;
                    broken.ask(Clause::InLog, row[..LOG_ROW] == a.log[LOG_ROW * slot..][..LOG_ROW]);
                    // A number without a slot is broken already, so marks on the slots are enough here.
                    broken.ask(Clause::NumberOnce, !slot_taken[slot]);
                    slot_taken[slot] = true;
                }
            }
            _ => broken.add(Clause::Owner),
        }
    }
    for (page, &entry) in entries.iter().enumerate() {
        broken.ask(Clause::DirtyIffRecord, (entry & 1 == 1) == has_record[page]);
    }

    // Overlaps: a page's uncommitted records write their owner over their bytes, then wipe them for the next page.
    let mut holder = [0; 4096];
    for &start in newest[..pages].iter().filter(|&&row| row != NO_ROW && older[usize::from(row)] != NO_ROW) {
        for wipe in [false, true] {
            let mut i = start;
            while i != NO_ROW {
                let row = &rows[ONLINE_ROW * usize::from(i)..][..ONLINE_ROW];
                let (record, owner) = (Record::read(row), row[14]);
                for byte in &mut holder[usize::from(record.offset)..][..usize::from(record.length)] {
                    broken.ask(Clause::NoSharedByte, wipe || *byte == 0 || *byte == owner);
                    *byte = if wipe { 0 } else { owner };
                }
                i = older[usize::from(i)];
            }
        }
    }
}

/// Many bytes at a time: most of a large empty table is looked at here, by every call.
fn all_zero(bytes: &[u8]) -> bool {
    bytes.chunks(256).all(|chunk| chunk.iter().fold(0, |any, &byte| any | byte) == 0)
}

#[cfg(test)]
mod tests {
    use super::*;

    #[test]
    fn names_are_those_of_the_trace() {
        let trace = include_str!("../../docs/TRACE.md");
        for (i, (clause, name)) in Clause::ALL.into_iter().enumerate() {
            assert_eq!(clause as usize, i);
            let (label, words) = name.split_once(' ').unwrap();
            assert_eq!(label, format!("S{}", i + 1));
            assert_eq!(Clauses::only(clause).to_string(), label);
            assert!(trace.contains(&format!("\n| {label} | {words} |")), "docs/TRACE.md has other words for {name}");
        }
    }

    #[test]
    fn sentences_are_those_of_the_rules() {
        let rules = include_str!("../../docs/RULES.md");
        for (clause, name) in Clause::ALL {
            let (label, words) = name.split_once(' ').unwrap();
            let row = format!("\n| {label} | {} | {} |\n", words.trim_end_matches(" (ours)"), clause.sentence());
            assert!(rules.contains(&row), "docs/RULES.md has other words: {row}");
        }
    }

    #[test]
    fn the_rules_name_definitions_that_are_there() {
        let root = std::path::Path::new(env!("CARGO_MANIFEST_DIR")).join("..");
        let rules = include_str!("../../docs/RULES.md");
        let (_, section) = rules.split_once("\n## 13 ").unwrap();
        let (section, _) = section.split_once("\n## 14 ").unwrap();
        let mut names = 0;
        for row in section.lines().filter(|line| line.starts_with("| ") && line.contains("crates/")) {
            let cells: Vec<_> = row.split('|').collect();
            // Every spec file of the crates that the row names.
            let specs: String = cells[2]
                .split("crates/")
                .skip(1)
                .filter_map(|place| place.split('/').next())
                .flat_map(|name| std::fs::read_dir(root.join("crates").join(name).join("specs")).unwrap())
                .map(|file| std::fs::read_to_string(file.unwrap().path()).unwrap())
                .collect();
            for name in cells[3].split('`').skip(1).step_by(2) {
                let declared = [format!("pub {name} "), format!("pub record {name} "), format!("pub data {name} ")];
                assert!(declared.iter().any(|words| specs.contains(words)), "docs/RULES.md names {name}: {row}");
                names += 1;
            }
        }
        assert!(names > 50, "only {names} names were found");
    }

    #[test]
    fn nothing_lent_is_not_sound() {
        assert_eq!(broken(&Areas::none()), Clauses::only(Clause::Lengths));
        let sizes = Sizes { page_size: 512, pages: 1, frames: 1, online_size: 1, log_size: 1 };
        assert_eq!(broken(&Areas::for_sizes(&sizes)), Clauses::only(Clause::Params), "zero bytes hold no sizes");
    }

    #[test]
    fn an_empty_log_at_the_last_number_is_sound() {
        let sizes = Sizes { page_size: 512, pages: 1, frames: 1, online_size: 1, log_size: 1 };
        let mut a = Areas::for_sizes(&sizes);
        sizes.write(&mut a.fixed);
        a.marks[..8].fill(0xff);
        assert_eq!(broken(&a), Clauses::default(), "the first number is 2 to the 32nd and K + 1 too");
    }
}
