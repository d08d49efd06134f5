//! SQLite's write-ahead log, a second writer and judge: from the published layout (SQLite's file format, section 4),
//! requests Two and Four, and docs/LAYOUT.md alone. include/ventarico_wal.h has the same calls.
//!
//! A header of 32 bytes, then frames of 24 bytes and a page. Every number is stored highest byte first, the sums too;
//! the order that the magic number names is only that in which the summed words are read.

use crate::areas::{Areas, Reply, Sizes};
use crate::journal::{get, put};
use crate::record::Record;
use crate::sound;
use std::fmt;

/// The lowest bit says the order.
pub const MAGIC: u32 = 0x377f_0682;
pub const VERSION: u32 = 3_007_000;
pub const HEADER: usize = 32;
/// What a frame has before its page.
pub const FRAME: usize = 24;

pub const NOT_SOUND: u32 = 1;
/// A listed page past the last one, or page 0 asked for.
pub const BAD_PAGE: u32 = 2;
/// A byte order that is none.
pub const BAD_ORDER: u32 = 2;
pub const SHORT_TARGET: u32 = 14;
pub const EMPTY_LIST: u32 = 15;
pub const BAD_HEADER: u32 = 16;
pub const BAD_SUM: u32 = 17;

/// What judge answers, as the C header has it.
#[repr(C)]
#[derive(Clone, Copy, PartialEq, Eq, Debug, Default)]
pub struct Judged {
    pub code: u32,
    pub frames: u64,
    pub end: u64,
}

/// What find answers, as the C header has it.
#[repr(C)]
#[derive(Clone, Copy, PartialEq, Eq, Debug, Default)]
pub struct Found {
    pub code: u32,
    pub found: u32,
    pub at: u64,
}

impl fmt::Display for Judged {
    fn fmt(&self, f: &mut fmt::Formatter) -> fmt::Result {
        write!(f, "{} (frames {}, end {})", self.code, self.frames, self.end)
    }
}

impl fmt::Display for Found {
    fn fmt(&self, f: &mut fmt::Formatter) -> fmt::Result {
        write!(f, "{} (found {}, at {})", self.code, self.found, self.at)
    }
}

/// What a log is given beside its pages.
#[derive(Clone, Copy, PartialEq, Eq, Debug)]
pub struct Given {
    pub salts: [u32; 2],
    pub sequence: u32,
    /// 0: the summed words are read lowest byte first; 1: highest byte first.
    pub order: u32,
}

/// Something that writes and judges logs: the proved library, this program, or a wrong one.
pub trait Wal {
    /// The listed pages are numbered from 0.
    fn write(&self, store: &Areas, list: &[u32], target: &mut [u8], given: &Given) -> Reply;
    fn judge(&self, file: &[u8]) -> Judged;
    /// The page is numbered from 1.
    fn find(&self, file: &[u8], page: u32) -> Found;
}

/// The two running sums.
pub type Sums = [u32; 2];

/// Goes on summing over bytes, a pair of words at a time.
pub fn sum(order: u32, from: Sums, bytes: &[u8]) -> Sums {
    let word = |bytes: &[u8]| {
        let bytes = bytes.try_into().unwrap();
        if order == 0 {
            u32::from_le_bytes(bytes)
        } else {
            u32::from_be_bytes(bytes)
        }
    };
    let [mut s0, mut s1] = from;
    for pair in bytes.chunks_exact(8) {
        s0 = s0.wrapping_add(word(&pair[..4])).wrapping_add(s1);
        s1 = s1.wrapping_add(word(&pair[4..])).wrapping_add(s0);
    }
    [s0, s1]
}

/// The header's bytes, and the sums with which the frames go on.
pub fn header(page_size: u32, given: &Given) -> ([u8; HEADER], Sums) {
    let mut bytes = [0; HEADER];
    let [salt_1, salt_2] = given.salts;
    let fields = [MAGIC + given.order, VERSION, page_size, given.sequence, salt_1, salt_2];
    for (i, field) in fields.into_iter().enumerate() {
        put(&mut bytes, 4 * i, field);
    }
    let sums = sum(given.order, [0, 0], &bytes[..24]);
    put(&mut bytes, 24, sums[0]);
    put(&mut bytes, 28, sums[1]);
    (bytes, sums)
}

/// Writes a frame around the image that stands in it already. Gives the sums with which the next one goes on.
pub fn seal(frame: &mut [u8], page: u32, commit: u32, given: &Given, sums: Sums) -> Sums {
    put(frame, 0, page);
    put(frame, 4, commit);
    put(frame, 8, given.salts[0]);
    put(frame, 12, given.salts[1]);
    let sums = sum(given.order, sum(given.order, sums, &frame[..8]), &frame[FRAME..]);
    put(frame, 16, sums[0]);
    put(frame, 20, sums[1]);
    sums
}

/// How long a log of so many frames is.
pub fn length(frames: usize, page_size: u32) -> usize {
    HEADER + frames * (FRAME + page_size as usize)
}

/// The stored page with its committed online records, in table order.
pub fn image(store: &Areas, page: u32) -> Vec<u8> {
    let mut image = store.stored_page(page).to_vec();
    let committed = store.online_rows().filter(|row| row[14] == 0).map(Record::read);
    committed.filter(|record| u32::from(record.page) == page).for_each(|record| record.apply(&mut image));
    image
}

/// A header that is accepted.
#[derive(Clone, Copy)]
pub struct Log {
    pub page_size: u32,
    pub given: Given,
    sums: Sums,
}

impl Log {
    /// Judges the header.
    pub fn open(file: &[u8]) -> Result<Log, u32> {
        if file.len() < HEADER {
            return Err(BAD_HEADER);
        }
        let [magic, version, page_size, sequence, salt_1, salt_2, s0, s1] =
            [0, 1, 2, 3, 4, 5, 6, 7].map(|i| get(file, 4 * i));
        let right_size = page_size.is_power_of_two() && (512..=65_536).contains(&page_size);
        if magic & !1 != MAGIC || version != VERSION || !right_size {
            return Err(BAD_HEADER);
        }
        let order = magic & 1;
        let sums = sum(order, [0, 0], &file[..24]);
        if sums != [s0, s1] {
            return Err(BAD_SUM);
        }
        Ok(Log { page_size, given: Given { salts: [salt_1, salt_2], sequence, order }, sums })
    }
}

/// A valid frame: its fields, and where its image begins.
#[derive(Clone, Copy, PartialEq, Eq, Debug)]
pub struct Frame {
    pub page: u32,
    pub commit: u32,
    pub at: usize,
}

/// Why the valid frames end.
#[derive(Clone, Copy, PartialEq, Eq, Debug)]
pub enum Stop {
    /// The file ends with a frame.
    End,
    /// So many bytes of a next frame are there.
    Cut(usize),
    Salt,
    Sum,
}

/// The longest valid beginning, and why it ends. A frame that is not whole is no frame.
pub fn valid_frames(file: &[u8], log: &Log) -> (Vec<Frame>, Stop) {
    let whole = FRAME + log.page_size as usize;
    let mut frames = Vec::new();
    let mut sums = log.sums;
    let mut pieces = file[HEADER..].chunks_exact(whole);
    for piece in &mut pieces {
        if [get(piece, 8), get(piece, 12)] != log.given.salts {
            return (frames, Stop::Salt);
        }
        sums = sum(log.given.order, sum(log.given.order, sums, &piece[..8]), &piece[FRAME..]);
        if [get(piece, 16), get(piece, 20)] != sums {
            return (frames, Stop::Sum);
        }
        let at = HEADER + frames.len() * whole + FRAME;
        frames.push(Frame { page: get(piece, 0), commit: get(piece, 4), at });
    }
    match pieces.remainder().len() {
        0 => (frames, Stop::End),
        left => (frames, Stop::Cut(left)),
    }
}

/// How many of the frames stand up to the last commit frame, it included.
pub fn up_to_commit(frames: &[Frame]) -> usize {
    frames.iter().rposition(|frame| frame.commit != 0).map_or(0, |last| last + 1)
}

pub struct Second;

impl Wal for Second {
    fn write(&self, store: &Areas, list: &[u32], target: &mut [u8], given: &Given) -> Reply {
        if !sound::broken(store).none() {
            return Reply::refused(NOT_SOUND);
        }
        let Sizes { page_size, pages, .. } = store.sizes();
        if list.iter().any(|&page| page >= pages) {
            return Reply::refused(BAD_PAGE);
        }
        if given.order > 1 {
            return Reply::refused(BAD_ORDER);
        }
        let whole = length(list.len(), page_size);
        if target.len() < whole {
            return Reply::refused(SHORT_TARGET);
        }
        if list.is_empty() {
            return Reply::refused(EMPTY_LIST);
        }
        let (bytes, mut sums) = header(page_size, given);
        target[..HEADER].copy_from_slice(&bytes);
        let frames = target[HEADER..whole].chunks_exact_mut(FRAME + page_size as usize);
        for (i, (frame, &page)) in frames.zip(list).enumerate() {
            frame[FRAME..].copy_from_slice(&image(store, page));
            let commit = if i + 1 == list.len() { pages } else { 0 };
            sums = seal(frame, page + 1, commit, given, sums);
        }
        Reply::done(list.len() as u32, 0, 0)
    }

    fn judge(&self, file: &[u8]) -> Judged {
        match Log::open(file) {
            Err(code) => Judged { code, ..Judged::default() },
            Ok(log) => {
                let (frames, _) = valid_frames(file, &log);
                let end = match up_to_commit(&frames) {
                    0 => 0,
                    count => length(count, log.page_size) as u64,
                };
                Judged { code: 0, frames: frames.len() as u64, end }
            }
        }
    }

    fn find(&self, file: &[u8], page: u32) -> Found {
        if page == 0 {
            return Found { code: BAD_PAGE, ..Found::default() };
        }
        match Log::open(file) {
            Err(code) => Found { code, ..Found::default() },
            Ok(log) => {
                let (frames, _) = valid_frames(file, &log);
                let last = frames[..up_to_commit(&frames)].iter().rev().find(|frame| frame.page == page);
                last.map_or(Found::default(), |frame| Found { code: 0, found: 1, at: frame.at as u64 })
            }
        }
    }
}

#[cfg(test)]
mod tests {
    use super::*;

    #[test]
    fn sums_in_both_orders() {
        let bytes = [1, 2, 3, 4, 5, 6, 7, 8];
        assert_eq!(sum(0, [0, 0], &bytes), [0x0403_0201, 0x0c0a_0806]);
        assert_eq!(sum(1, [0, 0], &bytes), [0x0102_0304, 0x0608_0a0c]);
    }
}
