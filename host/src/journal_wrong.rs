//! Wrong players and writers of rollback journals, each named after the lie it tells. The runs must catch every one.
//!
//! A player of its own, with a place for each lie; so the second program (journal.rs) stays a plain reading. Without a
//! lie it must agree with the second program everywhere: the runs are held to that too.

use crate::journal::{is_page_size, is_sector, put, Journal, Reply, ALL, FIRST_BYTES};

macro_rules! lies {
    ($($(#[doc = $said:literal])+ $name:ident,)*) => {
        #[derive(Clone, Copy, PartialEq, Eq, Debug)]
        pub enum Lie {
            None,
            $($(#[doc = $said])+ $name,)*
        }
        pub const LIES: &[(Lie, &str)] = &[$((Lie::$name, concat!($($said),+)),)*];
    };
}

lies! {
    /// the checksum is taken from the wrong end
    FromFront,
    /// the checksum leaves the nonce out
    NoNonce,
    /// the checksum leaves its last place out
    PlaceLeftOut,
    /// a count of all ones is taken as a number
    AllOnesNumber,
    /// a count of all ones is taken as none
    AllOnesNone,
    /// padding is looked at: it must be zero
    PaddingLooked,
    /// a bad record is passed over, and the next one restored
    PassesOver,
    /// 30 is found after a page was written
    LateThirty,
    /// of a page restored twice the first record stays
    FirstStays,
    /// a wrong page gets 30 though its checksum is wrong too
    ThirtyFirst,
    /// a wrong page gets 30 though it stands behind a bad record
    ThirtyBehind,
    /// page 0 ends the records instead of being refused
    ZeroEnds,
    /// a page beyond the lent set is passed over
    BeyondPassed,
    /// page numbers are counted from 0 when played
    PlayedFromZero,
    /// page numbers are counted from 0 when written
    WrittenFromZero,
    /// records begin right behind the header's fields
    NoSector,
    /// the count is not looked at: all that the file holds is restored
    CountIgnored,
    /// a record that is cut short restores what there is of it
    CutRestores,
    /// a journal under a sector is refused
    SectorWanted,
    /// a page size of 0 in the header is taken as the one given
    OldPageSize,
    /// the size in pages is acted on
    SizeActedOn,
    /// a sector of 16 bytes is taken
    SmallSector,
    /// a sector of 65,536 bytes is refused
    LargeSector,
    /// 27 is judged before 26
    LengthFirst,
    /// 29 is judged before 27
    HeaderFirst,
    /// 26 is judged before 20
    ParameterFirst,
    /// 15 is judged before 14
    EmptyFirst,
    /// 1,025 pages are taken
    OneMorePage,
    /// a written journal has a count of all ones
    WritesAllOnes,
    /// a written journal's padding is what the target held
    PaddingLeft,
    /// target bytes past the end are cleared
    ClearsBehind,
    /// the size in pages is written as the list's length
    SizeOfList,
    /// a target that just fits is refused
    WantsMore,
    /// lengths are kept in 32 bits
    ThirtyTwoBits,
}

pub struct Wrong(pub Lie);

impl Wrong {
    fn is(&self, lie: Lie) -> bool {
        self.0 == lie
    }

    /// How much of a slice it sees.
    fn seen(&self, length: usize) -> usize {
        if self.is(Lie::ThirtyTwoBits) {
            length as u32 as usize
        } else {
            length
        }
    }

    fn checksum(&self, nonce: u32, page: &[u8]) -> u32 {
        let size = page.len();
        let steps = (size - 1) / 200 - usize::from(self.is(Lie::PlaceLeftOut));
        let place = |i: usize| if self.is(Lie::FromFront) { 200 * i } else { size - 200 * i };
        let nonce = if self.is(Lie::NoNonce) { 0 } else { nonce };
        (1..=steps).fold(nonce, |sum, i| sum.wrapping_add(page[place(i)].into()))
    }

    fn sector_taken(&self, sector: u32) -> bool {
        (is_sector(sector) && !(self.is(Lie::LargeSector) && sector == 65_536))
            || (self.is(Lie::SmallSector) && sector == 16)
    }

    fn length_taken(&self, length: usize, size: usize) -> bool {
        let most = 1024 + usize::from(self.is(Lie::OneMorePage));
        size > 0 && length % size == 0 && length / size >= 1 && length / size <= most
    }

    fn header_refused(&self, journal: &[u8], page_size: u32) -> bool {
        let word = |at: usize| u32::from_be_bytes(journal[at..at + 4].try_into().unwrap());
        journal.len() < 28
            || journal[..8] != FIRST_BYTES
            || !self.sector_taken(word(20))
            || (word(24) != page_size && !(self.is(Lie::OldPageSize) && word(24) == 0))
            || (self.is(Lie::SectorWanted) && journal.len() < word(20) as usize)
            || (self.is(Lie::PaddingLooked)
                && journal[28..journal.len().min(word(20) as usize)].iter().any(|&byte| byte != 0))
    }
}

impl Journal for Wrong {
    fn play(&self, journal: &[u8], pages: &mut [u8], page_size: u32) -> Reply {
        let journal = &journal[..self.seen(journal.len())];
        let seen = self.seen(pages.len());
        let pages = &mut pages[..seen];
        let size = page_size as usize;
        let (parameter, length) = (!is_page_size(page_size), !self.length_taken(pages.len(), size));
        let header = self.header_refused(journal, page_size);
        let judged = match self.0 {
            Lie::LengthFirst => [(length, 27), (parameter, 26), (header, 29)],
            Lie::HeaderFirst => [(parameter, 26), (header, 29), (length, 27)],
            _ => [(parameter, 26), (length, 27), (header, 29)],
        };
        if let Some((_, code)) = judged.into_iter().find(|(refused, _)| *refused) {
            return Reply::refused(code);
        }
        let word = |at: usize| u32::from_be_bytes(journal[at..at + 4].try_into().unwrap());
        let (count, nonce, size_in_pages) = (word(8), word(12), word(16));
        let start = if self.is(Lie::NoSector) { 28 } else { word(20) as usize };
        let lent = match self.0 {
            Lie::SizeActedOn => (pages.len() / size).min(size_in_pages as usize),
            _ => pages.len() / size,
        };
        let all = match self.0 {
            Lie::AllOnesNumber | Lie::AllOnesNone => false,
            Lie::CountIgnored => true,
            _ => count == ALL,
        };
        let count = if self.is(Lie::AllOnesNone) && count == ALL { 0 } else { count };
        // First what is to be restored: places of records. Then all pages are judged. Then they are written.
        let (mut restored, mut ended, mut at, mut taken) = (Vec::new(), 0, start, 0);
        let mut bad_seen = false;
        loop {
            if !all && taken == count as usize {
                break;
            }
            if at + size + 8 > journal.len() {
                ended = u32::from(!all);
                break;
            }
            let number = word(at);
            let wrong_page = number == 0 || number as usize > lent;
            let bad = self.checksum(nonce, &journal[at + 4..at + 4 + size]) != word(at + 4 + size);
            if wrong_page && ((self.is(Lie::ThirtyFirst) && !bad_seen) || (self.is(Lie::ThirtyBehind) && bad_seen)) {
                return Reply::refused(30);
            }
            taken += 1;
            if bad && !self.is(Lie::PassesOver) {
                bad_seen = true;
                ended = 2;
                if !self.is(Lie::ThirtyBehind) {
                    break;
                }
            }
            if !bad && !bad_seen {
                if number == 0 && self.is(Lie::ZeroEnds) {
                    break;
                }
                if !(wrong_page && self.is(Lie::BeyondPassed)) {
                    restored.push(at);
                }
            }
            at += size + 8;
        }
        if bad_seen {
            ended = 2;
        }
        let from = usize::from(!self.is(Lie::PlayedFromZero));
        let wrong_page = |at: usize| word(at) as usize >= lent + from || (word(at) as usize) < from;
        if !self.is(Lie::LateThirty) && restored.iter().any(|&at| wrong_page(at)) {
            return Reply::refused(30);
        }
        let mut done = vec![false; lent + 1];
        for &at in &restored {
            if wrong_page(at) {
                return Reply::refused(30);
            }
            let number = word(at) as usize - from;
            if !(self.is(Lie::FirstStays) && std::mem::replace(&mut done[number], true)) {
                pages[size * number..][..size].copy_from_slice(&journal[at + 4..at + 4 + size]);
            }
        }
        if self.is(Lie::CutRestores) && ended == 1 && at + 4 < journal.len() && !wrong_page(at) {
            let part = &journal[at + 4..];
            let part = &part[..part.len().min(size)];
            pages[size * (word(at) as usize - 1)..][..part.len()].copy_from_slice(part);
        }
        Reply::done(ended, restored.len() as u32)
    }

    fn write(&self, pages: &[u8], list: &[u32], target: &mut [u8], page_size: u32, nonce: u32, sector: u32) -> Reply {
        let (pages, seen) = (&pages[..self.seen(pages.len())], self.seen(target.len()));
        let (list, target) = (&list[..self.seen(4 * list.len()) / 4], &mut target[..seen]);
        let size = page_size as usize;
        let lent = if size == 0 { usize::MAX } else { pages.len() / size };
        let page = list.iter().any(|&page| page as usize >= lent);
        let parameter = !is_page_size(page_size) || !self.sector_taken(sector);
        let length = !self.length_taken(pages.len(), size);
        let whole = list.len() as u64 * (size as u64 + 8) + u64::from(sector);
        let short = (target.len() as u64) < whole + u64::from(self.is(Lie::WantsMore));
        let empty = list.is_empty();
        let judged = match self.0 {
            Lie::ParameterFirst => [(parameter, 26), (page, 20), (length, 27), (short, 14), (empty, 15)],
            Lie::EmptyFirst => [(page, 20), (parameter, 26), (length, 27), (empty, 15), (short, 14)],
            Lie::LengthFirst => [(page, 20), (length, 27), (parameter, 26), (short, 14), (empty, 15)],
            _ => [(page, 20), (parameter, 26), (length, 27), (short, 14), (empty, 15)],
        };
        if let Some((_, code)) = judged.into_iter().find(|(refused, _)| *refused) {
            return Reply::refused(code);
        }
        if self.is(Lie::ClearsBehind) {
            target.fill(0);
        }
        if !self.is(Lie::PaddingLeft) {
            target[..sector as usize].fill(0);
        }
        let many = list.len() as u32;
        target[..8].copy_from_slice(&FIRST_BYTES);
        put(target, 8, if self.is(Lie::WritesAllOnes) { ALL } else { many });
        put(target, 12, nonce);
        put(target, 16, if self.is(Lie::SizeOfList) { many } else { lent as u32 });
        put(target, 20, sector);
        put(target, 24, page_size);
        let mut at = if self.is(Lie::NoSector) { 28 } else { sector as usize };
        for &number in list {
            let page = &pages[size * number as usize..][..size];
            put(target, at, number + u32::from(!self.is(Lie::WrittenFromZero)));
            target[at + 4..at + 4 + size].copy_from_slice(page);
            put(target, at + 4 + size, self.checksum(nonce, page));
            at += size + 8;
        }
        Reply::done(0, many)
    }
}
