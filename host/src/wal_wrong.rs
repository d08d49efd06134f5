//! Wrong writers and judges of write-ahead logs, each named after the lie it tells. The runs must catch every one.
//!
//! A writer and judge of its own, with a place for each lie; so the second program (wal.rs) stays a plain reading.
//! Without a lie it must agree with the second program everywhere: the runs are held to that too.

use crate::areas::{Areas, Reply};
use crate::journal::put;
use crate::record::Record;
use crate::sound;
use crate::wal::{Found, Given, Judged, Wal, BAD_ORDER, BAD_PAGE};

macro_rules! lies {
    ($($(#[doc = $said:literal])+ $name:ident,)*) => {
        #[derive(Clone, Copy, PartialEq, Eq, Debug)]
        pub enum Lie {
            None,
            $($(#[doc = $said])+ $name,)*
        }
        pub const LIES: &[(Lie, &str)] = &[$((Lie::$name, concat!($($said),+)),)*];
    };
}

lies! {
    /// a frame's salts are summed
    SaltsSummed,
    /// the salts are compared by their sum
    SaltsBySum,
    /// salts are not compared when judging
    SaltsIgnored,
    /// the two sums are written and read in the other order
    SumsSwapped,
    /// the sums are not carried from frame to frame
    NotCarried,
    /// the first frame does not go on from the header's sums
    FirstFromZero,
    /// a bad frame is passed over
    PassesOver,
    /// frames behind the last commit are used
    BehindUsed,
    /// frames behind the last commit are not counted
    BehindNotCounted,
    /// the first image of a page is found instead of the last
    FirstFound,
    /// the end is where the last commit frame begins
    EndBegins,
    /// a place is that of the frame, not of its image
    FrameFound,
    /// the first commit frame ends the log
    FirstCommit,
    /// a log without a commit frame is refused
    CommitWanted,
    /// a part of a frame at the end is refused
    PartRefused,
    /// a frame of page 0 ends the log
    ZeroEnds,
    /// a page beyond the commit's page count is not found
    BeyondHidden,
    /// the sequence number must be a small one
    SequenceJudged,
    /// an uncommitted record is in an image
    Uncommitted,
    /// an image is the stored page alone
    StoredAlone,
    /// an image is taken from the page's frame
    FromFrame,
    /// records are applied in the other order
    Backwards,
    /// page numbers are counted from 0 when written
    WrittenFromZero,
    /// page numbers are counted from 0 when asked
    AskedFromZero,
    /// page size 65,536 is refused
    LargestRefused,
    /// page size 65,536 is written and read as 1
    LargestAsOne,
    /// the page size is kept in 16 bits
    SixteenBits,
    /// page size 256 is taken
    SmallTaken,
    /// every frame is a commit frame
    EachCommits,
    /// the commit frame gives the list's length
    CommitOfList,
    /// every word is read lowest byte first, whatever the magic says
    OneOrder,
    /// the magic numbers are exchanged
    MagicSwapped,
    /// sums are stored lowest byte first
    SumsStoredLow,
    /// the header's own sums are summed with it
    HeaderWhole,
    /// the version is not looked at
    AnyVersion,
    /// the header's sums are not looked at
    HeaderUnsummed,
    /// 17 is judged before 16
    SumFirst,
    /// page 0 is judged after the header
    PageLate,
    /// tables are not checked
    Unchecked,
    /// 14 is judged before 2
    RoomFirst,
    /// 15 is judged before 14
    EmptyFirst,
    /// any byte order is taken
    AnyOrder,
    /// page reads are counted once for a page listed twice
    ReadsOnce,
    /// target bytes past the end are cleared
    ClearsBehind,
    /// lengths are kept in 32 bits
    ThirtyTwoBits,
}

pub struct Wrong(pub Lie);

fn word(bytes: &[u8], at: usize) -> u32 {
    u32::from_be_bytes(bytes[at..at + 4].try_into().unwrap())
}

/// What judging a file's frames gave.
#[derive(Default)]
struct Walk {
    frames: u64,
    end: u64,
    /// Of a page asked: its image up to the last commit, and one behind it.
    at: Option<u64>,
    pending: Option<u64>,
}

impl Wrong {
    fn is(&self, lie: Lie) -> bool {
        self.0 == lie
    }

    /// How much of a slice it sees.
    fn seen(&self, length: usize) -> usize {
        if self.is(Lie::ThirtyTwoBits) {
            length as u32 as usize
        } else {
            length
        }
    }

    fn sum(&self, order: u32, sums: &mut (u32, u32), bytes: &[u8]) {
        let low = order == 0 || self.is(Lie::OneOrder);
        let get = |at: usize| {
            let four: [u8; 4] = bytes[at..at + 4].try_into().unwrap();
            if low {
                u32::from_le_bytes(four)
            } else {
                u32::from_be_bytes(four)
            }
        };
        let mut at = 0;
        while at + 8 <= bytes.len() {
            sums.0 = sums.0.wrapping_add(get(at)).wrapping_add(sums.1);
            sums.1 = sums.1.wrapping_add(get(at + 4)).wrapping_add(sums.0);
            at += 8;
        }
    }

    fn sum_frame(&self, order: u32, sums: &mut (u32, u32), frame: &[u8]) {
        self.sum(order, sums, &frame[..if self.is(Lie::SaltsSummed) { 16 } else { 8 }]);
        self.sum(order, sums, &frame[24..]);
    }

    fn stored(&self, sums: (u32, u32)) -> [u32; 2] {
        let low = |n: u32| if self.is(Lie::SumsStoredLow) { n.swap_bytes() } else { n };
        if self.is(Lie::SumsSwapped) {
            [low(sums.1), low(sums.0)]
        } else {
            [low(sums.0), low(sums.1)]
        }
    }

    fn header_sums(&self, order: u32, bytes: &[u8]) -> (u32, u32) {
        let mut sums = (0, 0);
        self.sum(order, &mut sums, &bytes[..if self.is(Lie::HeaderWhole) { 32 } else { 24 }]);
        sums
    }

    fn magic(&self, order: u32) -> u32 {
        0x377f_0682 + if self.is(Lie::MagicSwapped) { 1 - order } else { order }
    }

    /// The page size and the byte order of a header, or its refusal.
    fn open(&self, file: &[u8]) -> Result<(usize, u32), u32> {
        if file.len() < 32 {
            return Err(16);
        }
        let field = word(file, 8);
        let size = match self.0 {
            Lie::LargestAsOne if field == 1 => 65_536,
            Lie::SixteenBits => field & 0xffff,
            _ => field,
        };
        let smallest = if self.is(Lie::SmallTaken) { 256 } else { 512 };
        let largest = if self.is(Lie::LargestRefused) { 32_768 } else { 65_536 };
        let bad_size = !size.is_power_of_two()
            || !(smallest..=largest).contains(&size)
            || (self.is(Lie::LargestAsOne) && field == 65_536);
        let order = (0..2).find(|&order| self.magic(order) == word(file, 0));
        let bad_version = word(file, 4) != 3_007_000 && !self.is(Lie::AnyVersion);
        let bad_sequence = self.is(Lie::SequenceJudged) && word(file, 12) > 1_000_000;
        let refused = order.is_none() || bad_version || bad_size || bad_sequence;
        let sums = self.stored(self.header_sums(order.unwrap_or(0), file));
        let bad_sums = sums != [word(file, 24), word(file, 28)] && !self.is(Lie::HeaderUnsummed);
        match order {
            _ if self.is(Lie::SumFirst) && bad_sums => Err(17),
            Some(order) if !refused && !bad_sums => Ok((size as usize, order)),
            _ if refused => Err(16),
            _ => Err(17),
        }
    }

    fn walk(&self, file: &[u8], (size, order): (usize, u32), asked: u32) -> Walk {
        let mut walk = Walk::default();
        let mut sums = self.header_sums(order, file);
        if self.is(Lie::FirstFromZero) {
            sums = (0, 0);
        }
        let salts = [word(file, 16), word(file, 20)];
        let mut at = 32;
        while at + 24 + size <= file.len() {
            let frame = &file[at..at + 24 + size];
            if self.is(Lie::NotCarried) {
                sums = self.header_sums(order, file);
            }
            let mut next = sums;
            self.sum_frame(order, &mut next, frame);
            let own = [word(frame, 8), word(frame, 12)];
            let salts_right = match self.0 {
                Lie::SaltsIgnored => true,
                Lie::SaltsBySum => own[0].wrapping_add(own[1]) == salts[0].wrapping_add(salts[1]),
                _ => own == salts,
            };
            let stored = [word(frame, 16), word(frame, 20)];
            let bad = !salts_right || self.stored(next) != stored || (self.is(Lie::ZeroEnds) && word(frame, 0) == 0);
            if bad && !self.is(Lie::PassesOver) {
                break;
            }
            sums = next;
            let start = at as u64;
            at += 24 + size;
            if bad {
                continue;
            }
            walk.frames += 1;
            if word(frame, 0) == asked && !(self.is(Lie::FirstFound) && walk.at.or(walk.pending).is_some()) {
                walk.pending = Some(start + if self.is(Lie::FrameFound) { 0 } else { 24 });
            }
            let commit = word(frame, 4);
            if commit != 0 {
                walk.end = if self.is(Lie::EndBegins) { start } else { at as u64 };
                walk.at = walk.pending.or(walk.at);
                walk.pending = None;
                if self.is(Lie::BeyondHidden) && asked > commit {
                    walk.at = None;
                }
                if self.is(Lie::FirstCommit) {
                    break;
                }
            }
        }
        if self.is(Lie::BehindUsed) {
            walk.at = walk.pending.or(walk.at);
            walk.end = if walk.frames == 0 { 0 } else { 32 + walk.frames * (24 + size as u64) };
        }
        if self.is(Lie::BehindNotCounted) {
            walk.frames = walk.end.saturating_sub(32) / (24 + size as u64);
        }
        walk
    }

    fn refused_whole(&self, file: &[u8], size: usize, walk: &Walk) -> bool {
        (self.is(Lie::CommitWanted) && walk.end == 0)
            || (self.is(Lie::PartRefused) && (file.len() - 32) % (24 + size) != 0)
    }

    fn image(&self, store: &Areas, page: u32) -> Vec<u8> {
        let mut image = store.stored_page(page).to_vec();
        if self.is(Lie::StoredAlone) {
            return image;
        }
        if let (Lie::FromFrame, Some(frame)) = (self.0, store.frame_of(page)) {
            return store.frame(frame).to_vec();
        }
        let mut records: Vec<Record> = store
            .online_rows()
            .filter(|row| row[14] == 0 || self.is(Lie::Uncommitted))
            .map(Record::read)
            .filter(|record| u32::from(record.page) == page)
            .collect();
        if self.is(Lie::Backwards) {
            records.reverse();
        }
        records.iter().for_each(|record| record.apply(&mut image));
        image
    }
}

impl Wal for Wrong {
    fn write(&self, store: &Areas, list: &[u32], target: &mut [u8], given: &Given) -> Reply {
        let seen = self.seen(target.len());
        let (list, target) = (&list[..self.seen(4 * list.len()) / 4], &mut target[..seen]);
        // Where tables are not checked, the areas must be long enough for the rest of this program at least.
        if !sound::broken(store).none() {
            return if self.is(Lie::Unchecked) { Reply::done(list.len() as u32, 0, 0) } else { Reply::refused(1) };
        }
        let sizes = store.sizes();
        let size = sizes.page_size as usize;
        let bad_order = given.order > 1 && !self.is(Lie::AnyOrder);
        let bad_page = list.iter().any(|&page| page >= sizes.pages);
        let whole = 32 + list.len() * (24 + size);
        let (short, empty) = (target.len() < whole, list.is_empty());
        let (page, order) = ((bad_page, BAD_PAGE), (bad_order, BAD_ORDER));
        let judged = match self.0 {
            Lie::RoomFirst => [(short, 14), page, order, (empty, 15)],
            Lie::EmptyFirst => [page, order, (empty, 15), (short, 14)],
            _ => [page, order, (short, 14), (empty, 15)],
        };
        if let Some((_, code)) = judged.into_iter().find(|(refused, _)| *refused) {
            return Reply::refused(code);
        }
        if self.is(Lie::ClearsBehind) {
            target[whole..].fill(0);
        }
        let order = given.order.min(1);
        let [salt_1, salt_2] = given.salts;
        for (i, field) in
            [self.magic(order), 3_007_000, sizes.page_size, given.sequence, salt_1, salt_2].into_iter().enumerate()
        {
            put(target, 4 * i, field);
        }
        let mut sums = self.header_sums(order, target);
        let [s0, s1] = self.stored(sums);
        put(target, 24, s0);
        put(target, 28, s1);
        let first = sums;
        if self.is(Lie::FirstFromZero) {
            sums = (0, 0);
        }
        for (i, &page) in list.iter().enumerate() {
            let frame = &mut target[32 + i * (24 + size)..][..24 + size];
            let last = i + 1 == list.len() || self.is(Lie::EachCommits);
            let count = if self.is(Lie::CommitOfList) { list.len() as u32 } else { sizes.pages };
            put(frame, 0, page + u32::from(!self.is(Lie::WrittenFromZero)));
            put(frame, 4, if last { count } else { 0 });
            put(frame, 8, salt_1);
            put(frame, 12, salt_2);
            frame[24..].copy_from_slice(&self.image(store, page));
            if self.is(Lie::NotCarried) {
                sums = first;
            }
            self.sum_frame(order, &mut sums, frame);
            let [s0, s1] = self.stored(sums);
            put(frame, 16, s0);
            put(frame, 20, s1);
        }
        let mut reads = list.to_vec();
        if self.is(Lie::ReadsOnce) {
            reads.sort();
            reads.dedup();
        }
        Reply::done(reads.len() as u32, 0, 0)
    }

    fn judge(&self, file: &[u8]) -> Judged {
        let file = &file[..self.seen(file.len())];
        match self.open(file) {
            Err(code) => Judged { code, frames: 0, end: 0 },
            Ok(log) => {
                let walk = self.walk(file, log, 0);
                if self.refused_whole(file, log.0, &walk) {
                    return Judged { code: 16, frames: 0, end: 0 };
                }
                Judged { code: 0, frames: walk.frames, end: walk.end }
            }
        }
    }

    fn find(&self, file: &[u8], page: u32) -> Found {
        let file = &file[..self.seen(file.len())];
        let opened = self.open(file);
        if page == 0 && !(self.is(Lie::PageLate) && opened.is_err()) {
            return Found { code: BAD_PAGE, found: 0, at: 0 };
        }
        match opened {
            Err(code) => Found { code, found: 0, at: 0 },
            Ok(log) => {
                let walk = self.walk(file, log, page - u32::from(self.is(Lie::AskedFromZero)));
                if self.refused_whole(file, log.0, &walk) {
                    return Found { code: 16, found: 0, at: 0 };
                }
                walk.at.map_or(Found::default(), |at| Found { code: 0, found: 1, at })
            }
        }
    }
}
