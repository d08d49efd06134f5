//! Wrong stores: each is the second program with one fault, named after the lie it tells. The sessions must catch
//! every one of them, or they are no test.
//!
//! A fault is put on from outside: the right call is made, then its outcome is bent. So the second program itself
//! stays a plain reading of document 01.

use crate::areas::{
    dirty_at, entry_at, get4, put2, put4, stamp_at, Areas, Lent, Reply, LOG_ROW, ONLINE_ROW, TABLES_HEAD,
};
use crate::calls::{Call, Store};
use crate::record::Record;
use crate::sound::{self, Clause, Clauses};
use crate::twin::{self, Twin};
use std::collections::HashMap;

macro_rules! faults {
    ($($(#[doc = $said:literal])+ $name:ident,)*) => {
        #[derive(Clone, Copy, PartialEq, Eq, Debug)]
        pub enum Fault {
            $($(#[doc = $said])+ $name,)*
            /// Takes a store for sound that breaks just this clause. Damage must catch it; sessions cannot.
            Unchecked(Clause),
        }
        impl Fault {
            /// Every fault that sessions must catch, with what it does.
            pub const ALL: &'static [(Fault, &'static str)] = &[$((Fault::$name, concat!($($said),+)),)*];
        }
    };
}

faults! {
    // The faults that tempt, from document 01.
    /// aborting a reissued number deletes older committed records
    AbortTakesCommitted,
    /// abort removes a page's entry while others' records remain
    AbortForgetsOthers,
    /// restart applies an add that the stored page already holds
    RestartIgnoresStamp,
    /// compaction writes a frame holding an uncommitted byte
    CompactWritesUncommitted,
    /// compaction takes frame bytes for an evicted page
    CompactTakesFrameBytes,
    // The stores to try against the promises, from document 01.
    /// refuses all
    RefusesAll,
    /// answers done, whatever is asked
    FixedAnswer,
    /// reads show zeros
    FixedBytes,
    /// answers right and changes nothing
    ChangesNothing,
    /// checkpoint compacts its first page and pretends for the rest
    CheckpointFirstOnly,
    /// evicting a dirty page counts a page write
    InventedCounts,
    // Restart.
    /// restart ignores its first rule (at most K, dirty number 0)
    RestartIgnoresRuleOne,
    /// restart takes nothing when the dirty table is empty
    RestartFromInfinity,
    /// restart ends with a new checkpoint
    RestartCloses,
    /// restart keeps the live set
    RestartKeepsLive,
    /// restart takes at most what fits instead of refusing
    RestartTakesWhatFits,
    /// restart clears the frames
    RestartClearsFrames,
    // Compact, close, checkpoint.
    /// the stamp becomes the smallest number folded
    StampSmallest,
    /// the stamp becomes L
    StampIsLast,
    /// compaction from a frame makes it the latest used
    CompactTouches,
    /// compaction folds in reverse order
    FoldsInReverse,
    /// compaction of a page with uncommitted records keeps its frame
    MixedKeepsFrame,
    /// due only if older than max_age
    AgeOffByOne,
    /// due only if more than min_del
    CountOffByOne,
    /// close drops one record too many
    CloseDropsOneMore,
    /// close leaves K
    CloseKeepsK,
    /// close leaves the dirty table
    CloseKeepsDirty,
    /// close counts no log write when it drops nothing
    CloseSilent,
    /// checkpoint closes first
    CheckpointClosesFirst,
    /// checkpoint goes through the pages downward
    CheckpointDescends,
    /// checkpoint reports "not due"
    CheckpointReportsNote,
    // Commit and abort.
    /// commit keeps the owner
    CommitKeepsOwner,
    /// commit numbers in reverse order
    CommitReversed,
    /// commit of no record makes a log write
    EmptyCommitWrites,
    /// 8 and 9 judged the other way round
    Swap8And9,
    /// 9 one number early
    EndOffByOne,
    /// 8 one record early
    LogFullOffByOne,
    /// abort leaves pages in their frames
    AbortKeepsFrame,
    /// freed online rows keep their bytes
    RowsNotCleared,
    // Read, update, evict, fetch.
    /// 3 and 4 judged the other way round
    Swap3And4,
    /// 6 and 7 judged the other way round
    Swap6And7,
    /// 7 judged after the fetch
    FullAfterFetch,
    /// 7 one record early
    OnlineFullOffByOne,
    /// reads see other owners' bytes
    ReadIgnoresHeld,
    /// committed records hold their bytes
    CommittedHolds,
    /// offset + length judged in 32 bits
    OffsetWraps,
    /// read clears the rest of the buffer
    BufferCleared,
    /// read does not touch
    ReadForgetsTouch,
    /// evict touches the oldest frame left
    EvictTouches,
    /// evicting a dirty page makes it absent
    EvictForgetsDirty,
    /// freeing a frame clears its bytes
    FreedFrameCleared,
    /// the victim is the most recently used
    VictimMostRecent,
    /// the highest free frame is taken
    HighestFreeFrame,
    /// fetching an evicted page shows it without its records
    FetchForgetsRecords,
    /// fetching an evicted page applies its records in reverse order
    FetchReverses,
    /// update leaves a clean page clean
    UpdateForgetsDirty,
    /// an add's carry runs into the next byte
    CarryRunsOn,
    /// set writes the highest byte first
    HighestByteFirst,
    // Format.
    /// format sets stamps to 0
    FormatClearsStamps,
    /// format sets K to 0
    FormatClearsK,
    /// format clears the stored pages
    FormatClearsPages,
    /// format keeps the online table
    FormatKeepsOnline,
}

#[derive(Clone)]
pub struct Wrong {
    fault: Fault,
    /// Who made each committed record: what a store knows that does not clear the owner.
    makers: HashMap<u32, u32>,
}

impl Wrong {
    pub fn new(fault: Fault) -> Wrong {
        Wrong { fault, makers: HashMap::new() }
    }

    /// Bends the outcome of a call. `a` and `buffer` hold the right outcome, `was` the areas before the call.
    fn bend(&mut self, was: &Areas, a: &mut Areas, call: &Call, buffer: &mut Lent, right: Reply) -> Reply {
        use Fault::*;
        let mut reply = right;
        let done = right.accepted() && right.note == 0;
        // Faults of every call.
        match self.fault {
            RefusesAll => {
                *a = was.clone();
                return Reply::refused(1);
            }
            FixedAnswer => return Reply::done(0, 0, 0),
            ChangesNothing => {
                *a = was.clone();
                *buffer = call.buffer();
                return reply;
            }
            RowsNotCleared if done && !matches!(call, Call::Format { .. } | Call::Restart) => {
                let (now, before) = (a.online_count() as usize, was.online_count() as usize);
                if now < before {
                    let gone = ONLINE_ROW * now..ONLINE_ROW * before;
                    a.online[gone.clone()].copy_from_slice(&was.online[gone]);
                }
            }
            Unchecked(clause) if right.code == 1 && sound::broken(was) == Clauses::only(clause) => reply.code = 0,
            _ => (),
        }
        match (*call, self.fault) {
            (Call::Format { sizes, .. }, FormatClearsStamps) if done => {
                a.marks[stamp_at(0)..stamp_at(sizes.pages)].fill(0);
            }
            (Call::Format { .. }, FormatClearsK) if done => put4(&mut a.marks, 4, 0),
            (Call::Format { .. }, FormatClearsPages) if done => a.stored.fill(0),
            (Call::Format { .. }, FormatKeepsOnline) if done => a.online.copy_from_slice(&was.online),

            (Call::Read { length, .. }, FixedBytes) if done => buffer[..length as usize].fill(0),
            (Call::Read { length, .. }, BufferCleared) if done => buffer[length as usize..].fill(0),
            (Call::Read { number, .. }, Swap3And4) if right.code == 3 && !was.is_live(number) => reply.code = 4,
            (Call::Read { offset, length, .. }, OffsetWraps)
                if right.code == 2 && offset.wrapping_add(length) < length =>
            {
                reply.code = 4;
            }
            (Call::Read { page, .. }, ReadForgetsTouch) if done && right.reads == 0 && was.frame_of(page).is_some() => {
                a.tables.copy_from_slice(&was.tables);
            }
            (Call::Read { number, .. }, ReadIgnoresHeld) if right.code == 6 => {
                // As if every record were the reader's own.
                let mut seen = was.clone();
                let rows = seen.online.chunks_exact_mut(ONLINE_ROW).filter(|row| row[14] != 0);
                rows.for_each(|row| row[14] = number as u8);
                reply = Twin.call(&mut seen, call, buffer);
                (a.tables, a.pool) = (seen.tables, seen.pool);
            }
            (Call::Read { page, offset, length, .. }, FetchForgetsRecords) if done && was.entry(page) == 1 => {
                let (frame, size) = (a.frame_of(page).unwrap(), a.sizes().page_size as usize);
                let stored = was.stored_page(page).to_vec();
                buffer[..length as usize].copy_from_slice(&stored[offset as usize..][..length as usize]);
                a.pool[size * frame..][..size].copy_from_slice(&stored);
            }
            (Call::Read { page, .. }, FetchReverses) if done && was.entry(page) == 1 => {
                let mut seen = was.clone();
                let rows: Vec<_> = was.online_rows().map(|row| row.to_vec()).rev().collect();
                seen.online[..ONLINE_ROW * rows.len()].copy_from_slice(&rows.concat());
                Twin.call(&mut seen, call, buffer);
                a.pool = seen.pool;
            }
            (Call::Read { .. } | Call::Update { .. }, VictimMostRecent) if done && right.reads == 1 => {
                // The right call with the use order turned, so that the latest frame stands first.
                if was.in_use() == was.sizes().frames {
                    let mut seen = was.clone();
                    let used = was.in_use() as usize;
                    seen.tables[TABLES_HEAD..][..used].rotate_right(1);
                    Twin.call(&mut seen, call, buffer);
                    (a.tables, a.pool) = (seen.tables, seen.pool);
                }
            }
            (Call::Read { page, .. } | Call::Update { page, .. }, HighestFreeFrame) if done && right.reads == 1 => {
                let taken = a.frame_of(page).unwrap();
                let high = (0..was.sizes().frames as u8).rev().find(|frame| !was.use_order().contains(frame));
                if let Some(high) = high.map(usize::from).filter(|&high| high != taken) {
                    let size = a.sizes().page_size as usize;
                    let bytes = a.frame(taken).to_vec();
                    a.pool[size * taken..][..size].copy_from_slice(was.frame(taken));
                    a.pool[size * high..][..size].copy_from_slice(&bytes);
                    let (last, entry) = (TABLES_HEAD + a.in_use() as usize - 1, entry_at(a.sizes().frames, page));
                    a.tables[last] = high as u8;
                    a.tables[entry] = 2 * (high as u8 + 1) + a.tables[entry] % 2;
                }
            }
            (Call::Read { page, offset, length, .. } | Call::Update { page, offset, length, .. }, CommittedHolds)
                if done
                    && records(was, page)
                        .any(|(record, row)| row[14] == 0 && record.meets(offset, offset + length)) =>
            {
                *a = was.clone();
                *buffer = call.buffer();
                reply = Reply::refused(6);
            }

            (Call::Update { .. }, Swap6And7) if right.code == 6 && was.online_count() == was.sizes().online_size => {
                reply.code = 7;
            }
            (Call::Update { number, page, offset, .. }, FullAfterFetch) if right.code == 7 => {
                twin::read(a, &mut [0], number, page, offset, 1);
            }
            (Call::Update { .. }, OnlineFullOffByOne) if done && a.online_count() == a.sizes().online_size => {
                *a = was.clone();
                reply = Reply::refused(7);
            }
            (Call::Update { page, .. }, UpdateForgetsDirty) if done => {
                let entry = entry_at(a.sizes().frames, page);
                a.tables[entry] -= u8::from(was.entry(page) % 2 == 0);
            }
            (Call::Update { page, offset, length, kind: 1, value, .. }, CarryRunsOn) if done => {
                let next = a.sizes().page_size as usize * a.frame_of(page).unwrap() + (offset + length) as usize;
                let mut sum = [0; 8];
                sum[..length as usize].copy_from_slice(&a.pool[next - length as usize..next]);
                if u64::from_le_bytes(sum) < value && offset + length < a.sizes().page_size {
                    a.pool[next] = a.pool[next].wrapping_add(1);
                }
            }
            (Call::Update { page, offset, length, kind: 0, .. }, HighestByteFirst) if done => {
                let at = a.sizes().page_size as usize * a.frame_of(page).unwrap() + offset as usize;
                a.pool[at..][..length as usize].reverse();
            }

            (Call::Commit { number }, AbortTakesCommitted) if done => {
                self.makers.extend((1..=a.last() - was.last()).map(|i| (was.last() + i, number)));
            }
            (Call::Commit { number }, CommitKeepsOwner) if done => {
                let rows = a.online.chunks_exact_mut(ONLINE_ROW).zip(was.online_rows());
                rows.filter(|(_, was)| u32::from(was[14]) == number).for_each(|(row, _)| row[14] = number as u8);
            }
            (Call::Commit { .. }, CommitReversed) if done => {
                let (old, new) = (was.last(), a.last());
                let rows = a.online.chunks_exact_mut(ONLINE_ROW).filter(|row| row[14] == 0 && get4(row, 15) > old);
                rows.for_each(|row| put4(row, 15, old + (new - get4(row, 15)) + 1));
                let added = LOG_ROW * was.logged() as usize..LOG_ROW * a.logged() as usize;
                let rows: Vec<_> = a.log[added.clone()].chunks_exact(LOG_ROW).rev().collect();
                let rows = rows.concat();
                a.log[added].copy_from_slice(&rows);
            }
            (Call::Commit { .. }, EmptyCommitWrites) if done => reply.logs = 1,
            (Call::Commit { number }, Swap8And9) if right.code == 8 => {
                let own = was.online_rows().filter(|row| u32::from(row[14]) == number).count();
                if u64::from(was.last()) + own as u64 > u32::MAX.into() {
                    reply.code = 9;
                }
            }
            (Call::Commit { .. }, EndOffByOne) if right.logs == 1 && a.last() == u32::MAX => {
                *a = was.clone();
                reply = Reply::refused(9);
            }
            (Call::Commit { .. }, LogFullOffByOne) if right.logs == 1 && a.logged() == a.sizes().log_size => {
                *a = was.clone();
                reply = Reply::refused(8);
            }

            (Call::Abort { number }, AbortTakesCommitted) if done => {
                let made_by = |row: &[u8]| row[14] == 0 && self.makers.get(&get4(row, 15)) == Some(&number);
                let (gone, kept): (Vec<Vec<u8>>, _) =
                    a.online_rows().map(|row| row.to_vec()).partition(|row| made_by(row));
                put_rows(a, &kept);
                for page in gone.iter().map(|row| Record::read(row).page.into()) {
                    let remains = records(a, page).next().is_some();
                    leave_frame(a, page, remains.into());
                }
            }
            (Call::Abort { number }, AbortForgetsOthers) if done => {
                for row in was.online_rows().filter(|row| u32::from(row[14]) == number) {
                    let entry = entry_at(a.sizes().frames, Record::read(row).page.into());
                    a.tables[entry] = 0;
                }
            }
            (Call::Abort { .. }, AbortKeepsFrame) if done => {
                let (used, from) = (was.in_use(), TABLES_HEAD + a.sizes().frames as usize);
                a.tables[2] = used as u8;
                a.tables[TABLES_HEAD..from].copy_from_slice(&was.tables[TABLES_HEAD..from]);
                for page in 0..a.sizes().pages {
                    let entry = entry_at(a.sizes().frames, page);
                    if was.tables[entry] >= 2 {
                        let dirty = records(a, page).next().is_some();
                        a.tables[entry] = was.tables[entry] / 2 * 2 + u8::from(dirty);
                    }
                }
            }

            (Call::Evict { page }, InventedCounts) if done && was.entry(page) % 2 == 1 => reply.writes = 1,
            (Call::Evict { .. }, EvictTouches) if done => {
                let used = a.in_use() as usize;
                a.tables[TABLES_HEAD..][..used].rotate_left(usize::from(used > 0));
            }
            (Call::Evict { page }, EvictForgetsDirty) if done => {
                let entry = entry_at(a.sizes().frames, page);
                a.tables[entry] = 0;
            }
            (Call::Evict { page }, FreedFrameCleared) if done => {
                let (size, frame) = (a.sizes().page_size as usize, was.frame_of(page).unwrap());
                a.pool[size * frame..][..size].fill(0);
            }

            (Call::Compact { page, .. }, CompactWritesUncommitted) if done && was.frame_of(page).is_some() => {
                put_stored(a, page, &was.frame(was.frame_of(page).unwrap()).to_vec());
            }
            (Call::Compact { page, .. }, CompactTakesFrameBytes) if done && was.entry(page) == 1 => {
                put_stored(a, page, &was.frame(0).to_vec());
            }
            (Call::Compact { page, .. }, StampSmallest | StampIsLast) if done => {
                let folded = records(was, page).filter(|(_, row)| row[14] == 0).map(|(_, row)| get4(row, 15));
                let stamp = if self.fault == StampIsLast { a.last() } else { folded.min().unwrap() };
                put4(&mut a.marks, stamp_at(page), stamp);
            }
            (Call::Compact { page, .. }, CompactTouches) if done && right.reads == 0 => {
                let (used, frame) = (a.in_use() as usize, a.frame_of(page).unwrap());
                let order = &mut a.tables[TABLES_HEAD..][..used];
                let at = order.iter().position(|&other| usize::from(other) == frame).unwrap();
                order[at..].rotate_left(1);
            }
            (Call::Compact { page, .. }, FoldsInReverse) if done && right.reads == 1 => {
                let mut bytes = was.stored_page(page).to_vec();
                let folded: Vec<_> =
                    records(was, page).filter(|(_, row)| row[14] == 0).map(|(record, _)| record).collect();
                folded.iter().rev().for_each(|record| record.apply(&mut bytes));
                put_stored(a, page, &bytes);
            }
            (Call::Compact { page, .. }, MixedKeepsFrame) if done && was.entry(page) >= 2 && a.entry(page) == 1 => {
                a.tables[2..].copy_from_slice(&was.tables[2..]);
            }
            (Call::Compact { page, min_del, max_age }, AgeOffByOne | CountOffByOne) if done => {
                let numbers = || records(was, page).filter(|(_, row)| row[14] == 0).map(|(_, row)| get4(row, 15));
                let (count, age) = (numbers().count() as u32, was.last() - numbers().min().unwrap());
                let early = u32::from(self.fault == CountOffByOne);
                let late = u32::from(self.fault == AgeOffByOne);
                if count < min_del + early && u64::from(age) < u64::from(max_age) + u64::from(late) {
                    *a = was.clone();
                    reply = Reply::not_due();
                }
            }

            (Call::Close, CloseDropsOneMore) if done && a.logged() > 0 => {
                let logged = a.logged() - 1;
                a.log.copy_within(LOG_ROW.., 0);
                a.log[LOG_ROW * logged as usize..].fill(0);
                put4(&mut a.marks, 8, logged);
            }
            (Call::Close, CloseKeepsK) if done => put4(&mut a.marks, 4, was.kay()),
            (Call::Close, CloseKeepsDirty) if done => {
                let dirties = dirty_at(a.sizes().pages, 0);
                a.marks[dirties..].copy_from_slice(&was.marks[dirties..]);
            }
            (Call::Close, CloseSilent) if done && a.logged() == was.logged() => reply.logs = 0,

            (Call::Checkpoint { min_del, max_age }, CheckpointFirstOnly) if done => {
                *a = was.clone();
                twin::compact(a, 0, min_del, max_age);
                twin::close(a);
            }
            (Call::Checkpoint { min_del, max_age }, CheckpointClosesFirst) if done => {
                *a = was.clone();
                twin::close(a);
                twin::checkpoint_part(a, min_del, max_age, a.sizes().pages);
            }
            (Call::Checkpoint { .. }, CheckpointReportsNote) if done => reply.note = u32::from(right.writes == 0),

            (Call::Restart, RestartIgnoresStamp | RestartIgnoresRuleOne) if right.code != 1 => {
                // The right restart over marks in which the rule can pass over nothing.
                let mut seen = was.clone();
                let (pages, first) = (was.sizes().pages, was.first());
                for page in 0..pages {
                    if self.fault == RestartIgnoresStamp {
                        put4(&mut seen.marks, stamp_at(page), 0);
                    } else if first <= was.kay().into() && was.dirty(page) == 0 {
                        put4(&mut seen.marks, dirty_at(pages, page), first as u32);
                    }
                }
                reply = twin::restart(&mut seen);
                (a.tables, a.online) = (seen.tables, seen.online);
            }
            (Call::Restart, RestartFromInfinity) if done => {
                if (0..a.sizes().pages).all(|page| a.dirty(page) == 0) {
                    a.tables.fill(0);
                    a.online.fill(0);
                }
            }
            (Call::Restart, RestartCloses) if done => drop(twin::close(a)),
            (Call::Restart, RestartKeepsLive) if done => {
                let live = 3..TABLES_HEAD;
                a.tables[live.clone()].copy_from_slice(&was.tables[live.clone()]);
                a.tables[live].iter_mut().for_each(|byte| *byte = u8::from(*byte == 1));
            }
            (Call::Restart, RestartTakesWhatFits) if right.code == 7 => {
                a.tables.fill(0);
                a.online.fill(0);
                reply.code = 0;
            }
            (Call::Restart, RestartClearsFrames) if done => a.pool.fill(0),
            _ => (),
        }
        reply
    }
}

impl Store for Wrong {
    fn call(&mut self, a: &mut Areas, call: &Call, buffer: &mut Lent) -> Reply {
        let was = a.clone();
        let right = Twin.call(a, call, buffer);
        self.bend(&was, a, call, buffer, right)
    }

    fn page_at(&self, step: u32, pages: u32) -> u32 {
        if self.fault == Fault::CheckpointDescends && step < pages {
            pages - 1 - step
        } else {
            step
        }
    }
}

/// The page's online records with their rows, in table order.
fn records(a: &Areas, page: u32) -> impl Iterator<Item = (Record, &[u8])> {
    a.online_rows().map(|row| (Record::read(row), row)).filter(move |(record, _)| u32::from(record.page) == page)
}

fn put_rows(a: &mut Areas, rows: &[Vec<u8>]) {
    put2(&mut a.tables, 0, rows.len() as u16);
    a.online.fill(0);
    a.online[..ONLINE_ROW * rows.len()].copy_from_slice(&rows.concat());
}

fn put_stored(a: &mut Areas, page: u32, bytes: &[u8]) {
    let size = bytes.len();
    a.stored[size * page as usize..][..size].copy_from_slice(bytes);
}

/// Takes the page's frame out of the use order and gives it the entry.
fn leave_frame(a: &mut Areas, page: u32, entry: u8) {
    if let Some(frame) = a.frame_of(page) {
        let used = a.in_use() as usize;
        let order = &mut a.tables[TABLES_HEAD..][..used];
        let at = order.iter().position(|&other| usize::from(other) == frame).unwrap();
        order[at..].rotate_left(1);
        order[used - 1] = 0;
        a.tables[2] -= 1;
    }
    let at = entry_at(a.sizes().frames, page);
    a.tables[at] = entry;
}
