//! The seven lent areas of bytes, the sizes that fix their lengths, and what a call answers.
//! docs/LAYOUT.md says what each byte means; every number here is lowest byte first.

use std::ops::{Deref, DerefMut};

/// Guard bytes stand on both sides of every lent slice, so that a stray write beside it is seen.
pub const GUARD: usize = 64;

/// No two neighbours are alike, so that a copy that runs over the edge is seen as well.
const GUARDS: [u8; GUARD] = {
    let mut bytes = [0; GUARD];
    let mut i = 0;
    while i < GUARD {
        bytes[i] = (i as u8).wrapping_mul(37) ^ 0x5a;
        i += 1;
    }
    bytes
};

/// A slice to lend: its bytes with guard bytes on both sides. It reads and writes as a plain slice.
#[derive(Clone, PartialEq, Eq)]
pub struct Lent {
    held: Vec<u8>,
}

impl Lent {
    /// That many zero bytes.
    pub fn zeros(length: usize) -> Lent {
        let mut held = Vec::with_capacity(length + 2 * GUARD);
        held.extend_from_slice(&GUARDS);
        held.resize(GUARD + length, 0);
        held.extend_from_slice(&GUARDS);
        Lent { held }
    }

    /// Makes it longer (by zero bytes) or shorter.
    pub fn set_length(&mut self, length: usize) {
        let mut longer = Lent::zeros(length);
        let kept = length.min(self.len());
        longer[..kept].copy_from_slice(&self[..kept]);
        *self = longer;
    }

    pub fn guards_hold(&self) -> bool {
        self.held[..GUARD] == GUARDS && self.held[self.held.len() - GUARD..] == GUARDS
    }
}

impl Deref for Lent {
    type Target = [u8];
    fn deref(&self) -> &[u8] {
        &self.held[GUARD..self.held.len() - GUARD]
    }
}

impl DerefMut for Lent {
    fn deref_mut(&mut self) -> &mut [u8] {
        let end = self.held.len() - GUARD;
        &mut self.held[GUARD..end]
    }
}

/// What format is given, the last log number apart.
#[derive(Clone, Copy, PartialEq, Eq, Debug)]
pub struct Sizes {
    pub page_size: u32,
    pub pages: u32,
    pub frames: u32,
    pub online_size: u32,
    pub log_size: u32,
}

pub const FIXED_LENGTH: usize = 20;
pub const MARKS_HEAD: usize = 12;
pub const TABLES_HEAD: usize = 35;
pub const LOG_ROW: usize = 14;
pub const ONLINE_ROW: usize = 19;

impl Sizes {
    /// Reads the fixed area, whatever it holds. It must be 20 bytes long.
    pub fn of(fixed: &[u8]) -> Sizes {
        Sizes {
            page_size: get4(fixed, 0),
            pages: get4(fixed, 4),
            frames: get4(fixed, 8),
            online_size: get4(fixed, 12),
            log_size: get4(fixed, 16),
        }
    }

    pub fn write(&self, fixed: &mut [u8]) {
        let fields = [self.page_size, self.pages, self.frames, self.online_size, self.log_size];
        for (i, field) in fields.into_iter().enumerate() {
            put4(fixed, 4 * i, field);
        }
    }

    pub fn in_range(&self) -> bool {
        matches!(self.page_size, 512 | 1024 | 2048 | 4096)
            && (1..=1024).contains(&self.pages)
            && (1..=64).contains(&self.frames)
            && (1..=512).contains(&self.online_size)
            && (1..=2048).contains(&self.log_size)
    }

    /// The exact lengths of the seven areas, in their order.
    pub fn lengths(&self) -> [usize; 7] {
        let [size, pages, frames, online, log] =
            [self.page_size, self.pages, self.frames, self.online_size, self.log_size].map(|n| n as usize);
        [
            FIXED_LENGTH,
            MARKS_HEAD + 8 * pages,
            LOG_ROW * log,
            size * pages,
            TABLES_HEAD + frames + pages,
            ONLINE_ROW * online,
            size * frames,
        ]
    }
}

/// The areas in the order in which every call is lent them. The first four are the durable part.
#[derive(Clone, PartialEq, Eq)]
pub struct Areas {
    pub fixed: Lent,
    pub marks: Lent,
    pub log: Lent,
    pub stored: Lent,
    pub tables: Lent,
    pub online: Lent,
    pub pool: Lent,
}

pub const AREA_NAMES: [&str; 7] = ["fixed", "marks", "log", "stored", "tables", "online", "pool"];

impl Areas {
    /// Zero bytes, of the lengths that belong to these sizes.
    pub fn for_sizes(sizes: &Sizes) -> Areas {
        let [fixed, marks, log, stored, tables, online, pool] = sizes.lengths().map(Lent::zeros);
        Areas { fixed, marks, log, stored, tables, online, pool }
    }

    /// No bytes at all: what a machine holds before it is lent anything.
    pub fn none() -> Areas {
        let [fixed, marks, log, stored, tables, online, pool] = [0; 7].map(Lent::zeros);
        Areas { fixed, marks, log, stored, tables, online, pool }
    }

    pub fn each(&self) -> [&Lent; 7] {
        [&self.fixed, &self.marks, &self.log, &self.stored, &self.tables, &self.online, &self.pool]
    }

    pub fn each_mut(&mut self) -> [&mut Lent; 7] {
        [
            &mut self.fixed,
            &mut self.marks,
            &mut self.log,
            &mut self.stored,
            &mut self.tables,
            &mut self.online,
            &mut self.pool,
        ]
    }

    /// The first byte that differs, in words; `self` is what was expected.
    pub fn difference(&self, got: &Areas) -> Option<String> {
        for ((name, right), got) in AREA_NAMES.iter().zip(self.each()).zip(got.each()) {
            if right.len() != got.len() {
                return Some(format!("{name} is {} bytes long, expected {}", got.len(), right.len()));
            }
            if right[..] != got[..] {
                let at = (0..right.len()).find(|&i| right[i] != got[i])?;
                return Some(format!("{name}, byte {at}: expected {}, got {}", right[at], got[at]));
            }
        }
        None
    }

    /// The first area with a guard byte overwritten.
    pub fn stray_write(&self) -> Option<&'static str> {
        AREA_NAMES.iter().zip(self.each()).find(|(_, area)| !area.guards_hold()).map(|(name, _)| *name)
    }

    // Single fields, for tests that look into a sound store. None of them checks anything.

    pub fn sizes(&self) -> Sizes {
        Sizes::of(&self.fixed)
    }
    /// L, the last log number.
    pub fn last(&self) -> u32 {
        get4(&self.marks, 0)
    }
    /// K, the checkpoint number.
    pub fn kay(&self) -> u32 {
        get4(&self.marks, 4)
    }
    /// n, the number of log records.
    pub fn logged(&self) -> u32 {
        get4(&self.marks, 8)
    }
    /// The number that the log's first record carries, or would carry.
    pub fn first(&self) -> u64 {
        (u64::from(self.last()) + 1).saturating_sub(u64::from(self.logged()))
    }
    pub fn stamp(&self, page: u32) -> u32 {
        get4(&self.marks, stamp_at(page))
    }
    pub fn dirty(&self, page: u32) -> u32 {
        get4(&self.marks, dirty_at(self.sizes().pages, page))
    }
    /// m, the number of online records.
    pub fn online_count(&self) -> u32 {
        get2(&self.tables, 0).into()
    }
    /// u, the number of frames in use.
    pub fn in_use(&self) -> u32 {
        self.tables[2].into()
    }
    pub fn is_live(&self, number: u32) -> bool {
        (1..=32).contains(&number) && self.tables[2 + number as usize] == 1
    }
    pub fn use_order(&self) -> &[u8] {
        &self.tables[TABLES_HEAD..][..self.in_use() as usize]
    }
    /// The entry byte of a page: 0 absent, 1 evicted, 2 × (frame + 1) and 1 more if dirty.
    pub fn entry(&self, page: u32) -> u8 {
        self.tables[entry_at(self.sizes().frames, page)]
    }
    /// The frame that holds the page, if one does.
    pub fn frame_of(&self, page: u32) -> Option<usize> {
        let entry = self.entry(page);
        (entry >= 2).then(|| usize::from(entry / 2 - 1))
    }
    pub fn stored_page(&self, page: u32) -> &[u8] {
        let size = self.sizes().page_size as usize;
        &self.stored[size * page as usize..][..size]
    }
    pub fn frame(&self, frame: usize) -> &[u8] {
        let size = self.sizes().page_size as usize;
        &self.pool[size * frame..][..size]
    }
    /// The online rows in table order, as bytes.
    pub fn online_rows(&self) -> impl DoubleEndedIterator<Item = &[u8]> {
        self.online.chunks_exact(ONLINE_ROW).take(self.online_count() as usize)
    }
}

/// Where a page's stamp stands in marks.
pub fn stamp_at(page: u32) -> usize {
    MARKS_HEAD + 4 * page as usize
}

/// Where a page's dirty number stands in marks.
pub fn dirty_at(pages: u32, page: u32) -> usize {
    MARKS_HEAD + 4 * (pages + page) as usize
}

/// Where a page's entry stands in tables.
pub fn entry_at(frames: u32, page: u32) -> usize {
    TABLES_HEAD + (frames + page) as usize
}

/// What a call answers, as the C header has it.
#[repr(C)]
#[derive(Clone, Copy, PartialEq, Eq, Debug, Default)]
pub struct Reply {
    /// 0 done, else the refusal's number.
    pub code: u32,
    /// 1: compact was not due; else 0.
    pub note: u32,
    /// Pages read from stored.
    pub reads: u32,
    /// Pages written to stored.
    pub writes: u32,
    /// Log writes.
    pub logs: u32,
}

impl Reply {
    pub fn refused(code: u32) -> Reply {
        Reply { code, ..Reply::default() }
    }
    pub fn done(reads: u32, writes: u32, logs: u32) -> Reply {
        Reply { code: 0, note: 0, reads, writes, logs }
    }
    pub fn not_due() -> Reply {
        Reply { note: 1, ..Reply::default() }
    }
    pub fn accepted(&self) -> bool {
        self.code == 0
    }
}

impl std::fmt::Display for Reply {
    fn fmt(&self, f: &mut std::fmt::Formatter) -> std::fmt::Result {
        let note = if self.note == 0 { String::new() } else { format!(" note {}", self.note) };
        write!(f, "{}{note} (reads {}, writes {}, log writes {})", self.code, self.reads, self.writes, self.logs)
    }
}

pub fn get2(bytes: &[u8], at: usize) -> u16 {
    u16::from_le_bytes([bytes[at], bytes[at + 1]])
}
pub fn get4(bytes: &[u8], at: usize) -> u32 {
    u32::from_le_bytes(bytes[at..at + 4].try_into().unwrap())
}
pub fn put2(bytes: &mut [u8], at: usize, number: u16) {
    bytes[at..at + 2].copy_from_slice(&number.to_le_bytes());
}
pub fn put4(bytes: &mut [u8], at: usize, number: u32) {
    bytes[at..at + 4].copy_from_slice(&number.to_le_bytes());
}

#[cfg(test)]
mod tests {
    use super::*;

    #[test]
    fn a_stray_write_is_seen() {
        let mut lent = Lent::zeros(3);
        lent.fill(9);
        assert!(lent.guards_hold());
        lent.held[GUARD + 3] ^= 1;
        assert!(!lent.guards_hold());
    }

    #[test]
    fn lengths_are_those_of_the_layout() {
        let small = Sizes { page_size: 512, pages: 8, frames: 2, online_size: 4, log_size: 8 };
        assert_eq!(small.lengths(), [20, 76, 112, 4096, 45, 76, 1024]);
    }

    #[test]
    fn a_difference_is_named() {
        let sizes = Sizes { page_size: 512, pages: 1, frames: 1, online_size: 1, log_size: 1 };
        let right = Areas::for_sizes(&sizes);
        let mut got = right.clone();
        assert_eq!(right.difference(&got), None);
        got.log[5] = 7;
        assert_eq!(right.difference(&got).unwrap(), "log, byte 5: expected 0, got 7");
    }
}
