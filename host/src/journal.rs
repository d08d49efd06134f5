//! SQLite's rollback journal, a second player and writer: from the published layout (SQLite's file format, section 3)
//! and request Thirteen alone. include/ventarico_journal.h has the same calls. Every number is highest byte first.
//!
//! A header fills a sector: first bytes, page count, nonce, size in pages, sector size, page size, padding. A record
//! is page number, page, checksum; the records stand close together behind their header's sector.

use std::fmt;

pub const FIRST_BYTES: [u8; 8] = [0xd9, 0xd5, 0x05, 0xf9, 0x20, 0xa1, 0x63, 0xd7];
/// The fields of a header, without its padding.
pub const HEADER: usize = 28;
/// A page count that says: as many records as the file holds.
pub const ALL: u32 = u32::MAX;
pub const MOST_PAGES: usize = 1024;
/// What a record has beside its page.
pub const BESIDE_PAGE: usize = 8;

pub const SHORT_TARGET: u32 = 14;
pub const EMPTY_LIST: u32 = 15;
pub const BAD_PAGE: u32 = 20;
pub const BAD_PARAMETER: u32 = 26;
pub const BAD_LENGTH: u32 = 27;
pub const BAD_HEADER: u32 = 29;
pub const WRONG_PAGE: u32 = 30;

/// Why no further record was restored.
pub const COUNTED: u32 = 0;
pub const CUT_SHORT: u32 = 1;
pub const BAD_CHECKSUM: u32 = 2;

/// What a call answers, as the C header has it.
#[repr(C)]
#[derive(Clone, Copy, PartialEq, Eq, Debug, Default)]
pub struct Reply {
    pub code: u32,
    pub ended: u32,
    pub records: u32,
}

impl Reply {
    pub fn refused(code: u32) -> Reply {
        Reply { code, ended: 0, records: 0 }
    }
    pub fn done(ended: u32, records: u32) -> Reply {
        Reply { code: 0, ended, records }
    }
}

impl fmt::Display for Reply {
    fn fmt(&self, f: &mut fmt::Formatter) -> fmt::Result {
        write!(f, "{} (ended {}, records {})", self.code, self.ended, self.records)
    }
}

/// Something that plays and writes journals: the proved library, this program, or a wrong one.
pub trait Journal {
    fn play(&self, journal: &[u8], pages: &mut [u8], page_size: u32) -> Reply;
    /// The listed pages are numbered from 0.
    fn write(&self, pages: &[u8], list: &[u32], target: &mut [u8], page_size: u32, nonce: u32, sector: u32) -> Reply;
}

/// The fields of a header, whatever they hold.
#[derive(Clone, Copy, PartialEq, Eq, Debug)]
pub struct Header {
    pub count: u32,
    pub nonce: u32,
    pub size_in_pages: u32,
    pub sector: u32,
    pub page_size: u32,
}

impl Header {
    /// None where there is no whole header, or other first bytes.
    pub fn read(journal: &[u8]) -> Option<Header> {
        if journal.len() < HEADER || journal[..8] != FIRST_BYTES {
            return None;
        }
        let [count, nonce, size_in_pages, sector, page_size] = [8, 12, 16, 20, 24].map(|at| get(journal, at));
        Some(Header { count, nonce, size_in_pages, sector, page_size })
    }

    /// The header's own bytes; the padding is left to the caller.
    pub fn bytes(&self) -> [u8; HEADER] {
        let mut bytes = [0; HEADER];
        bytes[..8].copy_from_slice(&FIRST_BYTES);
        let fields = [self.count, self.nonce, self.size_in_pages, self.sector, self.page_size];
        for (i, field) in fields.into_iter().enumerate() {
            put(&mut bytes, 8 + 4 * i, field);
        }
        bytes
    }
}

pub fn get(bytes: &[u8], at: usize) -> u32 {
    u32::from_be_bytes(bytes[at..at + 4].try_into().unwrap())
}

pub fn put(bytes: &mut [u8], at: usize, number: u32) {
    bytes[at..at + 4].copy_from_slice(&number.to_be_bytes());
}

pub fn is_page_size(size: u32) -> bool {
    matches!(size, 512 | 1024 | 2048 | 4096)
}

pub fn is_sector(size: u32) -> bool {
    size.is_power_of_two() && (32..=65_536).contains(&size)
}

/// The nonce, and every 200th byte counted from the page's end: those at P - 200, P - 400 and so on, above 0.
pub fn checksum(nonce: u32, page: &[u8]) -> u32 {
    let mut sum = nonce;
    let mut left = page.len();
    while left > 200 {
        left -= 200;
        sum = sum.wrapping_add(page[left].into());
    }
    sum
}

/// 1 to 1,024 whole pages.
fn right_length(pages: &[u8], page_size: u32) -> bool {
    let size = page_size as usize;
    pages.len() % size == 0 && (1..=MOST_PAGES).contains(&(pages.len() / size))
}

/// A record's page, counted from 0 in the lent ones, and its bytes.
struct Restored<'a> {
    number: u32,
    page: &'a [u8],
}

/// The records to be restored, in their order, and why there are no more of them. Nothing is judged but their
/// checksums.
fn to_restore<'a>(journal: &'a [u8], header: &Header) -> (Vec<Restored<'a>>, u32) {
    let size = header.page_size as usize;
    let behind = journal.get(header.sector as usize..).unwrap_or(&[]);
    let mut records = behind.chunks_exact(size + BESIDE_PAGE);
    let mut restored = Vec::new();
    while header.count == ALL || restored.len() < header.count as usize {
        let Some(record) = records.next() else {
            return (restored, if header.count == ALL { COUNTED } else { CUT_SHORT });
        };
        let page = &record[4..4 + size];
        if get(record, 4 + size) != checksum(header.nonce, page) {
            return (restored, BAD_CHECKSUM);
        }
        restored.push(Restored { number: get(record, 0), page });
    }
    (restored, COUNTED)
}

pub struct Second;

impl Journal for Second {
    fn play(&self, journal: &[u8], pages: &mut [u8], page_size: u32) -> Reply {
        if !is_page_size(page_size) {
            return Reply::refused(BAD_PARAMETER);
        }
        if !right_length(pages, page_size) {
            return Reply::refused(BAD_LENGTH);
        }
        let header = match Header::read(journal) {
            Some(header) if is_sector(header.sector) && header.page_size == page_size => header,
            _ => return Reply::refused(BAD_HEADER),
        };
        let size = page_size as usize;
        let (records, ended) = to_restore(journal, &header);
        // All are looked at before the first page is changed.
        if records.iter().any(|record| record.number == 0 || record.number as usize > pages.len() / size) {
            return Reply::refused(WRONG_PAGE);
        }
        for Restored { number, page } in &records {
            pages[size * (*number as usize - 1)..][..size].copy_from_slice(page);
        }
        Reply::done(ended, records.len() as u32)
    }

    fn write(&self, pages: &[u8], list: &[u32], target: &mut [u8], page_size: u32, nonce: u32, sector: u32) -> Reply {
        let size = page_size as usize;
        // A page is lent if its last byte is; so one of no size always is, and what is wrong then is that size.
        if list.iter().any(|&page| (page as usize + 1) * size > pages.len()) {
            return Reply::refused(BAD_PAGE);
        }
        if !is_page_size(page_size) || !is_sector(sector) {
            return Reply::refused(BAD_PARAMETER);
        }
        if !right_length(pages, page_size) {
            return Reply::refused(BAD_LENGTH);
        }
        let whole = sector as usize + list.len() * (size + BESIDE_PAGE);
        if target.len() < whole {
            return Reply::refused(SHORT_TARGET);
        }
        if list.is_empty() {
            return Reply::refused(EMPTY_LIST);
        }
        let size_in_pages = (pages.len() / size) as u32;
        let header = Header { count: list.len() as u32, nonce, size_in_pages, sector, page_size };
        target[..HEADER].copy_from_slice(&header.bytes());
        target[HEADER..sector as usize].fill(0);
        let records = target[sector as usize..whole].chunks_exact_mut(size + BESIDE_PAGE);
        for (record, &number) in records.zip(list) {
            let page = &pages[size * number as usize..][..size];
            put(record, 0, number + 1);
            record[4..4 + size].copy_from_slice(page);
            put(record, 4 + size, checksum(nonce, page));
        }
        Reply::done(COUNTED, list.len() as u32)
    }
}

#[cfg(test)]
mod tests {
    use super::*;

    #[test]
    fn the_summed_places() {
        // The nonce alone where none of these bytes is set, and one more for each that is.
        for (size, places) in [(512, vec![312, 112]), (1024, vec![824, 624, 424, 224, 24])] {
            for i in 0..size {
                let mut page = vec![0; size];
                page[i] = 1;
                assert_eq!(checksum(7, &page), 7 + u32::from(places.contains(&i)), "byte {i} of {size}");
            }
        }
        assert_eq!(checksum(0, &vec![1; 2048]), 10);
        assert_eq!(checksum(0, &vec![1; 4096]), 20);
    }
}
