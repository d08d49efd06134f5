//! Damage: sound stores with each clause of soundness broken alone, with several broken together, with every area
//! cut and lengthened, with random bytes. Every call must answer 1 and change no byte; restart may overlook what is
//! lost anyhow, and format looks at lengths only (2).
//!
//! A wound is a change that breaks one clause. It counts only where the second program says that it broke that clause
//! and no other, so each clause is known to have been tried by itself.

use crate::areas::{
    dirty_at, entry_at, get2, get4, put2, put4, stamp_at, Areas, Sizes, AREA_NAMES, LOG_ROW, ONLINE_ROW, TABLES_HEAD,
};
use crate::calls::{Call, Store};
use crate::coverage::{Coverage, Origin};
use crate::machine::Judges;
use crate::progress::Progress;
use crate::random::Random;
use crate::record::Record;
use crate::session::{self, Profile};
use crate::sound::{self, Clause, Clauses};
use crate::twin::Twin;

struct Wound {
    clause: Clause,
    name: &'static str,
    /// Whether restart must see it.
    durable: bool,
    /// Gives false where this store has no place for it.
    strike: fn(&mut Areas, &mut Random) -> bool,
}

const fn lost(clause: Clause, name: &'static str, strike: fn(&mut Areas, &mut Random) -> bool) -> Wound {
    Wound { clause, name, durable: false, strike }
}

const fn durable(clause: Clause, name: &'static str, strike: fn(&mut Areas, &mut Random) -> bool) -> Wound {
    Wound { clause, name, durable: true, strike }
}

/// Every clause but S1 and S2, which have runs of their own below.
const WOUNDS: &[Wound] = &[
    durable(Clause::Counts, "n one past the log", |a, _| {
        let size = a.sizes().log_size;
        put4(&mut a.marks, 8, size + 1);
        true
    }),
    durable(Clause::Counts, "n is L, far past the log", |a, _| {
        let last = a.last();
        put4(&mut a.marks, 8, last);
        true
    }),
    lost(Clause::Counts, "m one past the online table", |a, _| {
        let size = a.sizes().online_size as u16;
        put2(&mut a.tables, 0, size + 1);
        true
    }),
    lost(Clause::Counts, "m is all ones", |a, _| {
        put2(&mut a.tables, 0, u16::MAX);
        true
    }),
    lost(Clause::Counts, "u one past the frames", |a, _| {
        a.tables[2] = a.sizes().frames as u8 + 1;
        true
    }),
    lost(Clause::Counts, "u is all ones", |a, _| {
        a.tables[2] = u8::MAX;
        true
    }),
    lost(Clause::Entry, "absent page clean in the frame past the last", |a, random| {
        let entry = 2 * (a.sizes().frames as u8 + 1);
        set_entry(a, random, |entry| entry == 0, entry)
    }),
    lost(Clause::Entry, "evicted page dirty in the frame past the last", |a, random| {
        let entry = 2 * (a.sizes().frames as u8 + 1) + 1;
        set_entry(a, random, |entry| entry == 1, entry)
    }),
    lost(Clause::Entry, "entry 254", |a, random| set_entry(a, random, |entry| entry == 0, 254)),
    lost(Clause::Entry, "entry 255", |a, random| set_entry(a, random, |entry| entry == 1, 255)),
    lost(Clause::FrameOnce, "two clean pages in one frame", |a, random| {
        let Some(page) = page_with(a, random, |entry| entry >= 2 && entry % 2 == 0) else { return false };
        set_entry(a, random, |entry| entry == 0, a.entry(page))
    }),
    lost(Clause::FrameOnce, "two dirty pages in one frame", |a, random| {
        let Some(page) = page_with(a, random, |entry| entry >= 2 && entry % 2 == 1) else { return false };
        set_entry(a, random, |entry| entry == 1, a.entry(page))
    }),
    lost(Clause::FrameOnce, "a clean and a dirty page in one frame", |a, random| {
        let Some(page) = page_with(a, random, |entry| entry >= 2 && entry % 2 == 1) else { return false };
        set_entry(a, random, |entry| entry == 0, a.entry(page) - 1)
    }),
    lost(Clause::Order, "a free frame named for one in use", |a, random| {
        let Some(free) = free_frame(a) else { return false };
        set_order(a, random, free)
    }),
    lost(Clause::Order, "a frame named twice for another", |a, random| {
        let Some(&other) = a.use_order().first() else { return false };
        set_order(a, random, other)
    }),
    lost(Clause::Order, "a frame past the last named", |a, random| {
        let past = a.sizes().frames as u8;
        set_order(a, random, past)
    }),
    lost(Clause::Order, "the last frame in use left out", |a, _| {
        let Some(used) = a.in_use().checked_sub(1) else { return false };
        a.tables[2] = used as u8;
        a.tables[TABLES_HEAD + used as usize] = 0;
        true
    }),
    lost(Clause::Order, "a free frame named as well", |a, _| {
        let Some(free) = free_frame(a) else { return false };
        let used = a.in_use() as usize;
        a.tables[2] += 1;
        a.tables[TABLES_HEAD + used] = free;
        true
    }),
    lost(Clause::Record, "online page past the last", |a, random| {
        let pages = a.sizes().pages as u16;
        edit_online(a, random, uncommitted, |row| put2(row, 0, pages))
    }),
    lost(Clause::Record, "online page is all ones", |a, random| {
        edit_online(a, random, uncommitted, |row| put2(row, 0, u16::MAX))
    }),
    lost(Clause::Record, "online offset one too far", |a, random| {
        let size = a.sizes().page_size as u16;
        edit_online(a, random, uncommitted, |row| put2(row, 2, size - u16::from(row[4]) + 1))
    }),
    lost(Clause::Record, "online offset is all ones", |a, random| {
        edit_online(a, random, uncommitted, |row| put2(row, 2, u16::MAX))
    }),
    lost(Clause::Record, "online length 0", |a, random| edit_online(a, random, uncommitted, |row| row[4] = 0)),
    lost(Clause::Record, "online length 3", |a, random| {
        edit_online(a, random, uncommitted, |row| {
            row[4] = 3;
            row[7..14].fill(0);
        })
    }),
    lost(Clause::Record, "online length 16", |a, random| edit_online(a, random, uncommitted, |row| row[4] = 16)),
    lost(Clause::Record, "online kind 2", |a, random| edit_online(a, random, uncommitted, |row| row[5] = 2)),
    lost(Clause::Record, "online value too large for its length", |a, random| {
        edit_online(a, random, |row| uncommitted(row) && row[4] < 8, |row| row[6 + usize::from(row[4])] = 1)
    }),
    lost(Clause::Record, "a row of zeros inside the count", |a, _| {
        let count = a.online_count();
        put2(&mut a.tables, 0, count as u16 + 1);
        count < a.sizes().online_size
    }),
    durable(Clause::Record, "log page past the last", |a, random| {
        let pages = a.sizes().pages as u16;
        edit_log(a, random, |row| put2(row, 0, pages))
    }),
    durable(Clause::Record, "log offset one too far", |a, random| {
        let size = a.sizes().page_size as u16;
        edit_log(a, random, |row| put2(row, 2, size - u16::from(row[4]) + 1))
    }),
    durable(Clause::Record, "log offset is all ones", |a, random| edit_log(a, random, |row| put2(row, 2, u16::MAX))),
    durable(Clause::Record, "log length 0", |a, random| edit_log(a, random, |row| row[4] = 0)),
    durable(Clause::Record, "log length 5", |a, random| {
        edit_log(a, random, |row| {
            row[4] = 5;
            row[7..14].fill(0);
        })
    }),
    durable(Clause::Record, "log kind 255", |a, random| edit_log(a, random, |row| row[5] = 255)),
    durable(Clause::Record, "log value too large for its length", |a, random| {
        edit_log(a, random, |row| {
            row[4] = 4;
            put2(row, 2, 0);
            row[13] = 1;
        })
    }),
    durable(Clause::Record, "log row of zeros inside the count", |a, _| {
        // One number more, on a row that is spare: L and n go up together, so the other numbers stay.
        let (last, logged) = (a.last(), a.logged());
        if last == u32::MAX || logged == a.sizes().log_size {
            return false;
        }
        put4(&mut a.marks, 0, last + 1);
        put4(&mut a.marks, 8, logged + 1);
        true
    }),
    lost(Clause::Owner, "owner 33", |a, random| edit_online(a, random, uncommitted, |row| row[14] = 33)),
    lost(Clause::Owner, "owner 255", |a, random| edit_online(a, random, uncommitted, |row| row[14] = 255)),
    lost(Clause::Owner, "uncommitted with a number", |a, random| {
        edit_online(a, random, uncommitted, |row| row[15] = 1)
    }),
    lost(Clause::Owner, "committed with an owner", |a, random| {
        a.tables[3 + 6] = 1;
        edit_online(a, random, committed, |row| row[14] = 7)
    }),
    lost(Clause::Owner, "neither owner nor number", |a, random| {
        edit_online(a, random, |_| true, |row| row[14..19].fill(0))
    }),
    lost(Clause::Owner, "number L + 1", |a, random| {
        let Some(number) = a.last().checked_add(1) else { return false };
        edit_online(a, random, committed, |row| put4(row, 15, number))
    }),
    lost(Clause::Owner, "an owner not live", |a, random| {
        let Some(row) = row_with(a, random, uncommitted) else { return false };
        let owner = usize::from(a.online[ONLINE_ROW * row + 14]);
        a.tables[2 + owner.min(32)] = 0;
        true
    }),
    lost(Clause::NumberOnce, "a committed record twice", |a, random| {
        let Some(row) = row_with(a, random, committed) else { return false };
        append_copy(a, row).is_some()
    }),
    lost(Clause::InLog, "online value unlike the log's", |a, random| {
        edit_online(a, random, committed, |row| row[6] ^= 1)
    }),
    lost(Clause::InLog, "online kind unlike the log's", |a, random| {
        edit_online(a, random, committed, |row| row[5] ^= 1)
    }),
    lost(Clause::InLog, "log value unlike the online record's", |a, random| edit_log(a, random, |row| row[6] ^= 128)),
    lost(Clause::InLog, "number of another log record", |a, random| {
        let number = (a.first() + u64::from(random.below(a.sizes().log_size))) as u32;
        edit_online(a, random, committed, |row| put4(row, 15, number))
    }),
    lost(Clause::InLog, "number below the log's first", |a, random| {
        let Some(number) = a.first().checked_sub(1).filter(|&number| number >= 1) else { return false };
        edit_online(a, random, committed, |row| put4(row, 15, number as u32))
    }),
    lost(Clause::AboveStamp, "stamp raised to an online record's number", |a, random| {
        let Some(row) = row_with(a, random, committed) else { return false };
        let row = &a.online[ONLINE_ROW * row..];
        let (page, number) = (get2(row, 0).into(), get4(row, 15));
        if page >= a.sizes().pages {
            return false;
        }
        put4(&mut a.marks, stamp_at(page), number);
        true
    }),
    lost(Clause::AboveStamp, "stamp raised to L", |a, random| {
        let (page, last) = (random.below(a.sizes().pages), a.last());
        put4(&mut a.marks, stamp_at(page), last);
        true
    }),
    lost(Clause::DirtyIffRecord, "clean page marked dirty", |a, random| {
        let Some(page) = page_with(a, random, |entry| entry >= 2 && entry % 2 == 0) else { return false };
        put_entry(a, page, a.entry(page) + 1);
        true
    }),
    lost(Clause::DirtyIffRecord, "dirty page marked clean", |a, random| {
        let Some(page) = page_with(a, random, |entry| entry >= 2 && entry % 2 == 1) else { return false };
        put_entry(a, page, a.entry(page) - 1);
        true
    }),
    lost(Clause::DirtyIffRecord, "absent page marked evicted", |a, random| set_entry(a, random, |entry| entry == 0, 1)),
    lost(Clause::DirtyIffRecord, "evicted page marked absent", |a, random| set_entry(a, random, |entry| entry == 1, 0)),
    lost(Clause::NoSharedByte, "the same bytes for another live owner", |a, random| {
        let Some(row) = row_with(a, random, uncommitted) else { return false };
        let Some(copy) = append_copy(a, row) else { return false };
        let owner = a.online[ONLINE_ROW * copy + 14] % 32 + 1;
        a.online[ONLINE_ROW * copy + 14] = owner;
        a.tables[2 + usize::from(owner)] = 1;
        true
    }),
    lost(Clause::NoSharedByte, "the last byte shared with another live owner", |a, random| {
        let Some(row) = row_with(a, random, uncommitted) else { return false };
        let Some(copy) = append_copy(a, row) else { return false };
        let size = a.sizes().page_size as u16;
        let row = &mut a.online[ONLINE_ROW * copy..][..ONLINE_ROW];
        let offset = get2(row, 2).saturating_add(u16::from(row[4]).saturating_sub(1));
        put2(row, 2, offset);
        let (owner, fits) = (row[14] % 32 + 1, offset <= size - u16::from(row[4]));
        row[14] = owner;
        a.tables[2 + usize::from(owner)] = 1;
        fits
    }),
    lost(Clause::RowsZero, "a byte in a spare online row", |a, random| {
        let from = ONLINE_ROW * a.online_count() as usize;
        put_byte(&mut a.online[from..], random)
    }),
    durable(Clause::RowsZero, "a byte in a spare log row", |a, random| {
        let from = LOG_ROW * a.logged() as usize;
        put_byte(&mut a.log[from..], random)
    }),
    lost(Clause::RowsZero, "a byte past the use order", |a, random| {
        let (from, frames) = (TABLES_HEAD + a.in_use() as usize, a.sizes().frames as usize);
        put_byte(&mut a.tables[from..TABLES_HEAD + frames], random)
    }),
    durable(Clause::StampKLeL, "stamp L + 1", |a, random| {
        let (page, Some(stamp)) = (random.below(a.sizes().pages), a.last().checked_add(1)) else { return false };
        put4(&mut a.marks, stamp_at(page), stamp);
        true
    }),
    durable(Clause::StampKLeL, "stamp is all ones", |a, random| {
        let page = random.below(a.sizes().pages);
        put4(&mut a.marks, stamp_at(page), u32::MAX);
        true
    }),
    durable(Clause::StampKLeL, "K is L + 1", |a, _| {
        let Some(kay) = a.last().checked_add(1) else { return false };
        put4(&mut a.marks, 4, kay);
        true
    }),
    durable(Clause::StampKLeL, "K is all ones", |a, _| {
        put4(&mut a.marks, 4, u32::MAX);
        true
    }),
    durable(Clause::NLeL, "n is L + 1", |a, _| {
        let (last, logged) = (a.last(), a.logged());
        if last >= a.sizes().log_size {
            return false;
        }
        for row in logged..=last {
            let record = Record { page: 0, offset: 0, length: 1, kind: 0, value: 1 };
            record.write(&mut a.log[LOG_ROW * row as usize..]);
        }
        put4(&mut a.marks, 8, last + 1);
        true
    }),
    durable(Clause::DirtyLeK, "dirty number K + 1", |a, random| {
        let Some(dirty) = a.kay().checked_add(1) else { return false };
        set_dirty(a, random, dirty)
    }),
    durable(Clause::DirtyLeK, "dirty number is all ones", |a, random| set_dirty(a, random, u32::MAX)),
    durable(Clause::FirstLeK1, "K two below the log's first number", |a, _| {
        let Some(kay) = a.first().checked_sub(2) else { return false };
        put4(&mut a.marks, 4, kay as u32);
        true
    }),
    durable(Clause::FirstLeK1, "K is 0", |a, _| {
        put4(&mut a.marks, 4, 0);
        true
    }),
    durable(Clause::FirstLeDirty, "dirty number one below the log's first", |a, random| {
        let Some(dirty) = a.first().checked_sub(1).filter(|&dirty| dirty >= 1) else { return false };
        set_dirty(a, random, dirty as u32)
    }),
    durable(Clause::FirstLeDirty, "dirty number 1", |a, random| set_dirty(a, random, 1)),
    lost(Clause::LiveByte, "a live byte 2", |a, random| {
        a.tables[3 + random.below(32) as usize] = 2;
        true
    }),
    lost(Clause::LiveByte, "a live byte 255", |a, random| {
        a.tables[3 + random.below(32) as usize] = 255;
        true
    }),
];

fn uncommitted(row: &[u8]) -> bool {
    row[14] != 0
}

fn committed(row: &[u8]) -> bool {
    row[14] == 0
}

/// The place of an online row that has the quality.
fn row_with(a: &Areas, random: &mut Random, quality: impl Fn(&[u8]) -> bool) -> Option<usize> {
    let rows: Vec<_> = a.online_rows().enumerate().filter(|(_, row)| quality(row)).map(|(i, _)| i).collect();
    (!rows.is_empty()).then(|| random.pick(&rows))
}

fn edit_online(a: &mut Areas, random: &mut Random, which: impl Fn(&[u8]) -> bool, edit: impl Fn(&mut [u8])) -> bool {
    let Some(row) = row_with(a, random, which) else { return false };
    edit(&mut a.online[ONLINE_ROW * row..][..ONLINE_ROW]);
    true
}

fn edit_log(a: &mut Areas, random: &mut Random, edit: impl Fn(&mut [u8])) -> bool {
    if a.logged() == 0 {
        return false;
    }
    let row = random.below(a.logged()) as usize;
    edit(&mut a.log[LOG_ROW * row..][..LOG_ROW]);
    true
}

/// Puts a copy of an online row behind the last one. Gives its place, if there is room.
fn append_copy(a: &mut Areas, row: usize) -> Option<usize> {
    let count = a.online_count() as usize;
    if count == a.sizes().online_size as usize {
        return None;
    }
    a.online.copy_within(ONLINE_ROW * row..ONLINE_ROW * (row + 1), ONLINE_ROW * count);
    put2(&mut a.tables, 0, count as u16 + 1);
    Some(count)
}

fn page_with(a: &Areas, random: &mut Random, quality: impl Fn(u8) -> bool) -> Option<u32> {
    let pages: Vec<_> = (0..a.sizes().pages).filter(|&page| quality(a.entry(page))).collect();
    (!pages.is_empty()).then(|| random.pick(&pages))
}

fn put_entry(a: &mut Areas, page: u32, entry: u8) {
    let at = entry_at(a.sizes().frames, page);
    a.tables[at] = entry;
}

fn set_entry(a: &mut Areas, random: &mut Random, which: impl Fn(u8) -> bool, entry: u8) -> bool {
    let Some(page) = page_with(a, random, which) else { return false };
    put_entry(a, page, entry);
    true
}

fn free_frame(a: &Areas) -> Option<u8> {
    (0..a.sizes().frames as u8).find(|frame| !a.use_order().contains(frame))
}

fn set_order(a: &mut Areas, random: &mut Random, frame: u8) -> bool {
    if a.in_use() == 0 {
        return false;
    }
    let at = TABLES_HEAD + random.below(a.in_use()) as usize;
    let changes = a.tables[at] != frame;
    a.tables[at] = frame;
    changes
}

fn set_dirty(a: &mut Areas, random: &mut Random, dirty: u32) -> bool {
    let pages = a.sizes().pages;
    put4(&mut a.marks, dirty_at(pages, random.below(pages)), dirty);
    true
}

/// Makes one byte of these nonzero, if there is one.
fn put_byte(bytes: &mut [u8], random: &mut Random) -> bool {
    if bytes.is_empty() {
        return false;
    }
    let at = random.below(bytes.len() as u32) as usize;
    bytes[at] = random.between(1, 255) as u8;
    true
}

/// Every call, with arguments in range and out of it.
fn every_call(sizes: Sizes) -> Vec<Call> {
    let (page, offset, length) = (0, 0, 1);
    vec![
        Call::Begin { number: 1 },
        Call::Begin { number: 32 },
        Call::Begin { number: 0 },
        Call::Read { number: 1, page, offset, length, room: 1 },
        Call::Read { number: 1, page, offset, length: 8, room: 2 },
        Call::Read { number: 2, page: u32::MAX, offset: u32::MAX, length: u32::MAX, room: 3 },
        Call::Update { number: 1, page, offset, length, kind: 0, value: 1 },
        Call::Update { number: 2, page, offset: 4, length: 8, kind: 1, value: u64::MAX },
        Call::Update { number: 99, page, offset, length: 3, kind: 9, value: 1 },
        Call::Commit { number: 1 },
        Call::Commit { number: 33 },
        Call::Abort { number: 2 },
        Call::Abort { number: 0 },
        Call::Evict { page },
        Call::Evict { page: u32::MAX },
        Call::Compact { page, min_del: 1, max_age: 0 },
        Call::Compact { page, min_del: 0, max_age: 0 },
        Call::Close,
        Call::Checkpoint { min_del: 1, max_age: 0 },
        Call::Checkpoint { min_del: 513, max_age: 0 },
        Call::Restart,
        Call::Format { sizes, last: 5 },
        Call::Format { sizes: Sizes { page_size: 511, ..sizes }, last: 5 },
    ]
}

/// A damage run in progress.
struct Run<'a, S> {
    store: S,
    random: Random,
    coverage: &'a mut Coverage,
    calls: u64,
    failed: u64,
    /// A run that is expected to fail says nothing.
    quiet: bool,
}

impl<S: Store> Run<'_, S> {
    /// Makes a call on a copy of the store, and wants the answer of the second program and its bytes.
    fn call(&mut self, a: &Areas, call: &Call, what: &str) -> u32 {
        let (mut got, mut right) = (a.clone(), a.clone());
        let (mut buffer, mut right_buffer) = (call.buffer(), call.buffer());
        let reply = self.store.call(&mut got, call, &mut buffer);
        let expected = Twin.call(&mut right, call, &mut right_buffer);
        self.calls += 1;
        self.coverage.count(Origin::Tampered, call, &reply);
        let difference = right.difference(&got);
        if reply != expected {
            self.fail(what, call, format!("expected {expected}, got {reply}"));
        } else if let Some(area) = got.stray_write() {
            self.fail(what, call, format!("a byte beside {area} was written"));
        } else if !buffer.guards_hold() || buffer != right_buffer {
            self.fail(what, call, "the buffer is not as it should be".into());
        } else if let Some(difference) = difference {
            self.fail(what, call, difference);
        } else if !reply.accepted() && got != *a {
            self.fail(what, call, "refused, yet a byte changed".into());
        }
        reply.code
    }

    /// Every call on a store that is not sound. `durable`: restart must see it too; None: it may or may not.
    fn every_call(&mut self, a: &Areas, sizes: Sizes, durable: Option<bool>, what: &str) {
        let lengths_fit = sizes.in_range() && sound::lengths_fit(a, &sizes);
        for call in every_call(sizes) {
            let code = self.call(a, &call, what);
            // Said a second time without the second program: the table of refusals, read by hand.
            let right = match call {
                Call::Format { sizes: asked, .. } => {
                    if asked == sizes && lengths_fit {
                        0
                    } else {
                        2
                    }
                }
                Call::Restart => match durable {
                    Some(true) => 1,
                    Some(false) if code == 7 => 7,
                    Some(false) => 0,
                    None => code,
                },
                _ => 1,
            };
            if code != right {
                self.fail(what, &call, format!("expected {right}, got {code}"));
            }
        }
    }

    fn fail(&mut self, what: &str, call: &Call, why: String) {
        self.failed += 1;
        if self.failed <= 10 && !self.quiet {
            println!("  FAILED  {what}: {call}: {why}");
        }
    }
}

/// Sound stores from sessions of many styles, wild ones too, none of them large.
fn sound_stores(random: &mut Random, count: usize) -> Vec<Areas> {
    let judges = Judges { twin: false, history: false, wild: false };
    let mut stores = Vec::new();
    let mut seed = random.next() >> 1;
    while stores.len() < count {
        seed += 1;
        if Profile::of(seed).stored_bytes() > 64 * 1024 {
            continue;
        }
        let most = random.between(10, 200).into();
        let areas = session::run(&Twin, judges, seed, most, &mut Coverage::off()).areas;
        if sound::broken(&areas).none() {
            stores.push(areas);
        }
    }
    stores
}

/// A freshly formatted store of any sizes, in range or not, written by hand.
fn fresh(sizes: &Sizes, last: u32) -> Areas {
    let mut a = Areas::for_sizes(sizes);
    sizes.write(&mut a.fixed);
    put4(&mut a.marks, 0, last);
    put4(&mut a.marks, 4, last);
    (0..sizes.pages).for_each(|page| put4(&mut a.marks, stamp_at(page), last));
    a
}

/// The damage runs, so many percent of what a gate wants. Gives how many passed and failed: a wound, a length, a size,
/// a mixture each counts as one.
pub fn run<S: Store + Clone>(store: &S, seed: u64, percent: u64, coverage: &mut Coverage) -> (u64, u64) {
    let mut random = Random::new(seed);
    println!("  seed {seed}");
    let some = |count: u64| (count * percent).div_ceil(100);
    // However little is asked for, there must be a place for every wound.
    let stores = sound_stores(&mut random, some(600).max(150) as usize);
    let mut run = Run { store: store.clone(), random, coverage, calls: 0, failed: 0, quiet: false };
    let (mut passed, mut failed) = (0, 0);
    let mut progress = Progress::new("damage");
    let mut tally = |run: &mut Run<S>, before: u64, parts: u64| {
        let bad = (run.failed - before).min(parts);
        failed += bad;
        passed += parts - bad;
    };

    for (i, wound) in WOUNDS.iter().enumerate() {
        let before = run.failed;
        let hits = strike(&mut run, wound, &stores, some(8));
        progress.tell(|| format!("{} of {} wounds, {} calls", i + 1, WOUNDS.len(), run.calls));
        if hits == 0 {
            println!("  FAILED  {}: {}: no store has a place for it; add stores", wound.clause.label(), wound.name);
            run.failed += 1;
        }
        tally(&mut run, before, 1);
    }
    println!("  {} wounds, each the only broken clause: {} calls", WOUNDS.len(), run.calls);

    let before = (run.failed, run.calls);
    let parts = sizes_out_of_range(&mut run);
    tally(&mut run, before.0, parts);
    println!("  {parts} sizes out of range (S1): {} calls", run.calls - before.1);

    let before = (run.failed, run.calls);
    let parts = wrong_lengths(&mut run, &stores[..some(12) as usize]);
    tally(&mut run, before.0, parts);
    println!("  {parts} wrong lengths (S2): {} calls", run.calls - before.1);

    let before = (run.failed, run.calls);
    let (parts, without) = two_clauses(&mut run, &stores);
    for (one, two) in &without {
        println!("  FAILED  {} with {}: no store has a place for both; add stores", one.label(), two.label());
        run.failed += 1;
    }
    tally(&mut run, before.0, parts);
    println!("  {parts} pairs of clauses, both broken: {} calls", run.calls - before.1);

    let before = (run.failed, run.calls);
    let parts = several(&mut run, &stores, some(1500));
    tally(&mut run, before.0, parts);
    println!("  {parts} stores with several wounds: {} calls", run.calls - before.1);

    let before = (run.failed, run.calls);
    let parts = random_bytes(&mut run, &stores, some(30_000), &mut progress);
    tally(&mut run, before.0, parts);
    println!("  {parts} stores with random bytes changed");

    let before = run.failed;
    let parts = garbage(&mut run, &stores[..some(100) as usize]);
    tally(&mut run, before, parts);
    println!("  {parts} stores full of garbage");
    if failed > 0 {
        println!("  next: run `damage {seed}` again; each line above names the wound and the call");
    }
    (passed, failed)
}

/// Only the wounds: what a store that forgets one clause must stumble over. Gives whether it did.
pub fn catches<S: Store + Clone>(store: &S, clause: Clause, seed: u64) -> bool {
    let mut random = Random::new(seed);
    let stores = sound_stores(&mut random, 200);
    let mut coverage = Coverage::off();
    let mut run = Run { store: store.clone(), random, coverage: &mut coverage, calls: 0, failed: 0, quiet: true };
    match clause {
        Clause::Params => drop(sizes_out_of_range(&mut run)),
        Clause::Lengths => drop(wrong_lengths(&mut run, &stores[..12])),
        _ => {
            for wound in WOUNDS.iter().filter(|wound| wound.clause == clause) {
                strike(&mut run, wound, &stores, 3);
            }
        }
    }
    run.failed > 0
}

/// A store with one clause broken: for tests of what is said about it.
#[cfg(test)]
pub struct Specimen {
    pub clause: Clause,
    pub name: String,
    /// Whether the durable part alone shows it.
    pub durable: bool,
    pub areas: Areas,
}

/// A store for each wound, and for each kind of wrong size and length.
#[cfg(test)]
pub fn specimens(seed: u64) -> Vec<Specimen> {
    let mut random = Random::new(seed);
    let stores = sound_stores(&mut random, 200);
    let mut found = Vec::new();
    for wound in WOUNDS {
        let areas = stores.iter().find_map(|store| {
            let mut a = store.clone();
            let struck = (wound.strike)(&mut a, &mut random);
            (struck && sound::broken(&a) == Clauses::only(wound.clause)).then_some(a)
        });
        let areas = areas.unwrap_or_else(|| panic!("no store has a place for {}", wound.name));
        found.push(Specimen { clause: wound.clause, name: wound.name.into(), durable: wound.durable, areas });
    }
    for field in 0..5 {
        let mut areas = stores[0].clone();
        put4(&mut areas.fixed, 4 * field, 5000);
        found.push(Specimen { clause: Clause::Params, name: format!("field {field} is 5000"), durable: true, areas });
    }
    for area in 1..7 {
        let mut areas = stores[0].clone();
        let length = areas.each()[area].len();
        areas.each_mut()[area].set_length(length - 1);
        let name = format!("{} a byte short", AREA_NAMES[area]);
        found.push(Specimen { clause: Clause::Lengths, name, durable: true, areas });
    }
    found
}

/// Stores with several wounds and with random bytes changed, sound or not.
#[cfg(test)]
pub fn ruins(seed: u64, count: usize) -> Vec<(Areas, String)> {
    let mut random = Random::new(seed);
    let stores = sound_stores(&mut random, 200);
    let mut found = Vec::new();
    while found.len() < count {
        let mut a = stores[random.below(stores.len() as u32) as usize].clone();
        let mut names = Vec::new();
        for _ in 0..random.between(0, 3) {
            let counted = a.online_count() <= a.sizes().online_size
                && a.logged() <= a.sizes().log_size
                && a.in_use() <= a.sizes().frames;
            let wound = &WOUNDS[random.below(WOUNDS.len() as u32) as usize];
            if counted && (wound.strike)(&mut a, &mut random) {
                names.push(wound.name);
            }
        }
        for _ in 0..random.between(0, 3) {
            let area = random.pick(&[0, 1, 1, 2, 4, 4, 5, 5]);
            let bytes = &mut a.each_mut()[area][..];
            let at = random.below(bytes.len() as u32) as usize;
            bytes[at] = random.next() as u8;
        }
        found.push((a, names.join(" and ")));
    }
    found
}

/// Strikes stores until so many have just this one clause broken. Gives how many there were.
fn strike<S: Store>(run: &mut Run<S>, wound: &Wound, stores: &[Areas], wanted: u64) -> u64 {
    let mut hits = 0;
    for store in stores {
        let mut a = store.clone();
        if !(wound.strike)(&mut a, &mut run.random) || sound::broken(&a) != Clauses::only(wound.clause) {
            continue;
        }
        let what = format!("{}: {}", wound.clause.label(), wound.name);
        run.every_call(&a, a.sizes(), Some(wound.durable), &what);
        hits += 1;
        if hits == wanted {
            break;
        }
    }
    hits
}

/// Stores that are sound but for one size; and sizes that no memory holds, over lengths of others.
fn sizes_out_of_range<S: Store>(run: &mut Run<S>) -> u64 {
    let sound = Sizes { page_size: 512, pages: 3, frames: 2, online_size: 4, log_size: 5 };
    let mut parts = 0;
    let odd = [
        Sizes { page_size: 0, ..sound },
        Sizes { page_size: 1, ..sound },
        Sizes { page_size: 256, ..sound },
        Sizes { page_size: 513, ..sound },
        Sizes { page_size: 1536, ..sound },
        Sizes { page_size: 8192, ..sound },
        Sizes { pages: 0, ..sound },
        Sizes { pages: 1025, ..sound },
        Sizes { frames: 0, ..sound },
        Sizes { frames: 65, ..sound },
        Sizes { frames: 200, ..sound },
        Sizes { online_size: 0, ..sound },
        Sizes { online_size: 513, ..sound },
        Sizes { log_size: 0, ..sound },
        Sizes { log_size: 2049, ..sound },
        Sizes { pages: 0, frames: 0, online_size: 0, log_size: 0, page_size: 0 },
    ];
    for sizes in odd {
        run.every_call(&fresh(&sizes, 7), sizes, Some(true), &format!("S1: {sizes:?}"));
        parts += 1;
    }
    for field in 0..5 {
        for value in [0x8000_0000, u32::MAX] {
            let mut a = fresh(&sound, 7);
            put4(&mut a.fixed, 4 * field, value);
            run.every_call(&a, a.sizes(), Some(true), &format!("S1: field {field} is {value}"));
            parts += 1;
        }
    }
    parts
}

/// Every area cut and lengthened, by a byte, by a row, to nothing, to double.
fn wrong_lengths<S: Store>(run: &mut Run<S>, stores: &[Areas]) -> u64 {
    let largest = Sizes { page_size: 512, pages: 1024, frames: 64, online_size: 512, log_size: 2048 };
    let largest = fresh(&largest, 7);
    let mut parts = 0;
    for store in stores.iter().chain([&largest]) {
        let sizes = store.sizes();
        for (area, name) in AREA_NAMES.iter().enumerate() {
            let length = store.each()[area].len();
            let row = [4, 8, LOG_ROW, sizes.page_size as usize, 1, ONLINE_ROW, sizes.page_size as usize][area];
            for changed in [0, length - 1, length + 1, length - row, length + row, 2 * length] {
                let mut a = store.clone();
                a.each_mut()[area].set_length(changed);
                run.every_call(&a, sizes, Some(true), &format!("S2: {name} of {changed} bytes, not {length}"));
                parts += 1;
            }
        }
    }
    parts
}

/// Every two clauses broken on one store. Gives how many pairs there are, and those that no store had a place for.
fn two_clauses<S: Store>(run: &mut Run<S>, stores: &[Areas]) -> (u64, Vec<(Clause, Clause)>) {
    let (mut parts, mut without) = (0, Vec::new());
    for (i, (one, _)) in Clause::ALL.into_iter().enumerate() {
        for (two, _) in Clause::ALL.into_iter().skip(i + 1) {
            // The earlier clause last: after a wrong count or length there are no rows to look at.
            let broken = stores.iter().find_map(|store| {
                let mut a = store.clone();
                let broke_two = break_clause(&mut a, two, &mut run.random) && sound::broken(&a).has(two);
                let struck_one = broke_two && break_clause(&mut a, one, &mut run.random);
                // With n above L the check looks no further.
                (struck_one && (sound::broken(&a).has(one) || two == Clause::NLeL)).then_some(a)
            });
            parts += 1;
            let Some(a) = broken else {
                without.push((one, two));
                continue;
            };
            let durable = !sound::broken_durable(&a).none();
            run.every_call(&a, a.sizes(), Some(durable), &format!("{} with {}", one.label(), two.label()));
        }
    }
    (parts, without)
}

/// Breaks the clause by one of its wounds. False if this store has no place for any.
fn break_clause(a: &mut Areas, clause: Clause, random: &mut Random) -> bool {
    match clause {
        Clause::Params => {
            let value = random.pick(&[0, 5000, u32::MAX]);
            put4(&mut a.fixed, 4 * random.below(5) as usize, value);
            true
        }
        Clause::Lengths => {
            let area = &mut a.each_mut()[random.between(1, 6) as usize];
            let length = area.len();
            area.set_length(random.pick(&[0, length - 1, length + 1]));
            true
        }
        _ => {
            let wounds: Vec<_> = WOUNDS.iter().filter(|wound| wound.clause == clause).collect();
            let first = random.below(wounds.len() as u32) as usize;
            (0..wounds.len()).any(|i| (wounds[(first + i) % wounds.len()].strike)(a, random))
        }
    }
}

/// Two to four wounds on one store.
fn several<S: Store>(run: &mut Run<S>, stores: &[Areas], wanted: u64) -> u64 {
    let mut parts = 0;
    while parts < wanted {
        let mut a = stores[run.random.below(stores.len() as u32) as usize].clone();
        let mut names = Vec::new();
        for _ in 0..run.random.between(2, 4) {
            let wound = &WOUNDS[run.random.below(WOUNDS.len() as u32) as usize];
            // After counts past their tables there are no rows to look at.
            let counted = a.online_count() <= a.sizes().online_size
                && a.logged() <= a.sizes().log_size
                && a.in_use() <= a.sizes().frames;
            if counted && (wound.strike)(&mut a, &mut run.random) {
                names.push(wound.name);
            }
        }
        if sound::broken(&a).none() {
            continue;
        }
        let durable = !sound::broken_durable(&a).none();
        run.every_call(&a, a.sizes(), Some(durable), &names.join(" and "));
        parts += 1;
    }
    parts
}

/// One to three bytes changed anywhere in the tables; sound or not, the answer is the second program's.
fn random_bytes<S: Store>(run: &mut Run<S>, stores: &[Areas], wanted: u64, progress: &mut Progress) -> u64 {
    for done in 0..wanted {
        let mut a = stores[run.random.below(stores.len() as u32) as usize].clone();
        let sizes = a.sizes();
        for _ in 0..run.random.between(1, 3) {
            let area = run.random.pick(&[0, 1, 1, 2, 4, 4, 5, 5]);
            let bytes = &mut a.each_mut()[area][..];
            let at = run.random.below(bytes.len() as u32) as usize;
            bytes[at] = match run.random.below(4) {
                0 => bytes[at] ^ 1 << run.random.below(8),
                1 => bytes[at].wrapping_add(1),
                2 => run.random.below(4) as u8,
                _ => run.random.next() as u8,
            };
        }
        let calls = every_call(sizes);
        let call = run.random.pick(&calls);
        let code = run.call(&a, &call, "random bytes");
        let unsound = !sound::broken(&a).none();
        if unsound && code != 1 && !matches!(call, Call::Restart | Call::Format { .. }) {
            run.fail("random bytes", &call, format!("expected 1, got {code}"));
        }
        progress.tell(|| format!("random bytes, {done} of {wanted}"));
    }
    wanted
}

/// Whole areas of garbage: all of them, the durable part, the lost part.
fn garbage<S: Store>(run: &mut Run<S>, stores: &[Areas]) -> u64 {
    let mut parts = 0;
    for store in stores {
        for which in [&[0, 1, 2, 3, 4, 5, 6][..], &[1, 2, 3], &[1], &[2], &[4, 5, 6], &[4], &[5]] {
            let mut a = store.clone();
            which.iter().for_each(|&area| run.random.fill(a.each_mut()[area]));
            if !sound::broken(&a).none() {
                run.every_call(&a, store.sizes(), None, "garbage");
            }
            parts += 1;
        }
    }
    parts
}

#[cfg(test)]
mod tests {
    use super::*;
    use crate::wrong::{Fault, Wrong};

    #[test]
    fn a_store_that_forgets_a_clause_is_caught() {
        for (clause, label) in Clause::ALL {
            assert!(catches(&Wrong::new(Fault::Unchecked(clause)), clause, 5), "{label}");
        }
    }

    #[test]
    fn the_second_program_stands_every_wound() {
        for (clause, label) in Clause::ALL {
            assert!(!catches(&Twin, clause, 6), "{label}");
        }
    }
}
