//! The second program: document 01's store in plain Rust, written from the document alone.
//!
//! Every call does the same four things: judge the tables (sound.rs), copy the small tables out, judge the arguments,
//! do the step and write the tables back. Stamps, dirty numbers, stored pages, frames and the log stay where they are.
//! Nothing is written before the last refusal has been passed, so a refusal changes no byte.
//!
//! The proved store's speed is measured by this one's, so no table is walked twice where once is enough.

use crate::areas::{
    dirty_at, get2, get4, put2, put4, stamp_at, Areas, Lent, Reply, Sizes, LOG_ROW, ONLINE_ROW, TABLES_HEAD,
};
use crate::calls::{Call, Store};
use crate::record::{fits, Record, ADD};
use crate::sound;

#[derive(Clone, Copy, PartialEq, Eq)]
enum Entry {
    Absent,
    Evicted,
    Clean(usize),
    Dirty(usize),
}

impl Entry {
    fn of(byte: u8) -> Entry {
        match byte {
            0 => Entry::Absent,
            1 => Entry::Evicted,
            _ if byte % 2 == 0 => Entry::Clean(usize::from(byte / 2 - 1)),
            _ => Entry::Dirty(usize::from(byte / 2 - 1)),
        }
    }

    fn byte(self) -> u8 {
        match self {
            Entry::Absent => 0,
            Entry::Evicted => 1,
            Entry::Clean(frame) => 2 * (frame as u8 + 1),
            Entry::Dirty(frame) => 2 * (frame as u8 + 1) + 1,
        }
    }
}

/// An online row: uncommitted has an owner and number 0, committed has owner 0 and its number.
#[derive(Clone, Copy)]
struct Online([u8; ONLINE_ROW]);

impl Online {
    fn new(record: &Record, owner: u8, number: u32) -> Online {
        let mut row = Online([0; ONLINE_ROW]);
        record.write(&mut row.0);
        row.set(owner, number);
        row
    }
    fn record(&self) -> Record {
        Record::read(&self.0)
    }
    fn page(&self) -> usize {
        get2(&self.0, 0).into()
    }
    fn owner(&self) -> u32 {
        self.0[14].into()
    }
    fn number(&self) -> u32 {
        get4(&self.0, 15)
    }
    fn set(&mut self, owner: u8, number: u32) {
        self.0[14] = owner;
        put4(&mut self.0, 15, number);
    }
}

/// The small tables, copied out.
struct State {
    sizes: Sizes,
    last: u32,
    kay: u32,
    logged: usize,
    /// By transaction number; place 0 is not used.
    live: [bool; 33],
    /// Frames, the least recently used first.
    order: Vec<u8>,
    /// Entries as bytes: most of them are never looked at.
    entries: Vec<u8>,
    online: Vec<Online>,
}

/// What a compaction wants to know of a page's records.
struct Survey {
    committed: u32,
    uncommitted: bool,
    oldest: u32,
    newest: u32,
}

impl State {
    /// The tables, if they are sound.
    fn open(a: &Areas) -> Option<State> {
        sound::broken(a).none().then(|| State::read(a))
    }

    fn read(a: &Areas) -> State {
        let sizes = a.sizes();
        let mut live = [false; 33];
        for (live, &byte) in live[1..].iter_mut().zip(&a.tables[3..TABLES_HEAD]) {
            *live = byte == 1;
        }
        let (rows, _) = a.online.as_chunks::<ONLINE_ROW>();
        State {
            sizes,
            last: a.last(),
            kay: a.kay(),
            logged: a.logged() as usize,
            live,
            order: a.use_order().to_vec(),
            entries: a.tables[TABLES_HEAD + sizes.frames as usize..].to_vec(),
            online: rows[..a.online_count() as usize].iter().map(|row| Online(*row)).collect(),
        }
    }

    /// Writes the head of marks, tables and online whole, every spare byte 0. Who changes the log, a stamp or a dirty
    /// number does that by itself.
    fn write(&self, a: &mut Areas) {
        put4(&mut a.marks, 0, self.last);
        put4(&mut a.marks, 4, self.kay);
        put4(&mut a.marks, 8, self.logged as u32);
        put2(&mut a.tables, 0, self.online.len() as u16);
        a.tables[2] = self.order.len() as u8;
        for (place, &live) in a.tables[3..TABLES_HEAD].iter_mut().zip(&self.live[1..]) {
            *place = live.into();
        }
        let (order, entries) = a.tables[TABLES_HEAD..].split_at_mut(self.sizes.frames as usize);
        let (order, spare) = order.split_at_mut(self.order.len());
        order.copy_from_slice(&self.order);
        spare.fill(0);
        entries.copy_from_slice(&self.entries);
        let (rows, spare) = a.online.split_at_mut(ONLINE_ROW * self.online.len());
        for (row, online) in rows.chunks_exact_mut(ONLINE_ROW).zip(&self.online) {
            row.copy_from_slice(&online.0);
        }
        spare.fill(0);
    }

    fn entry(&self, page: usize) -> Entry {
        Entry::of(self.entries[page])
    }

    fn set_entry(&mut self, page: usize, entry: Entry) {
        self.entries[page] = entry.byte();
    }

    fn frame_of(&self, page: usize) -> Option<usize> {
        match self.entry(page) {
            Entry::Clean(frame) | Entry::Dirty(frame) => Some(frame),
            Entry::Absent | Entry::Evicted => None,
        }
    }

    /// Takes the page's frame, if it has one, and gives it the entry. The frame's bytes stay, the others keep their
    /// order.
    fn leave_frame(&mut self, page: usize, entry: Entry) {
        if let Some(frame) = self.frame_of(page) {
            self.order.retain(|&other| usize::from(other) != frame);
        }
        self.set_entry(page, entry);
    }

    /// Frees the frame of a page that has one: clean becomes absent, dirty becomes evicted.
    fn evict(&mut self, page: usize) {
        let entry = if matches!(self.entry(page), Entry::Clean(_)) { Entry::Absent } else { Entry::Evicted };
        self.leave_frame(page, entry);
    }

    fn page_records(&self, page: usize) -> impl Iterator<Item = &Online> {
        self.online.iter().filter(move |online| online.page() == page)
    }

    /// Brings the page into a frame. Gives the frame and the number of page reads.
    fn fetch(&mut self, page: usize, stored: &[u8], pool: &mut [u8]) -> (usize, u32) {
        if let Some(frame) = self.frame_of(page) {
            return (frame, 0);
        }
        let mut taken = [false; 64];
        self.order.iter().for_each(|&frame| taken[usize::from(frame)] = true);
        let free = (0..self.sizes.frames as usize).find(|&frame| !taken[frame]);
        let frame = free.unwrap_or_else(|| {
            let frame = usize::from(self.order[0]);
            let victim = (0..self.entries.len()).find(|&page| self.frame_of(page) == Some(frame));
            self.evict(victim.expect("each frame in the use order serves a page"));
            frame
        });
        let size = self.sizes.page_size as usize;
        let bytes = &mut pool[size * frame..][..size];
        bytes.copy_from_slice(&stored[size * page..][..size]);
        let evicted = self.entry(page) == Entry::Evicted;
        if evicted {
            self.page_records(page).for_each(|online| online.record().apply(bytes));
        }
        self.set_entry(page, if evicted { Entry::Dirty(frame) } else { Entry::Clean(frame) });
        (frame, 1)
    }

    /// Makes the frame the latest used.
    fn touch(&mut self, frame: usize) {
        self.order.retain(|&other| usize::from(other) != frame);
        self.order.push(frame as u8);
    }

    /// Whether a byte in `from..to` of the page is in a record of another live owner.
    fn held(&self, number: u32, page: usize, from: u32, to: u32) -> bool {
        self.page_records(page)
            .any(|online| online.owner() != 0 && online.owner() != number && online.record().meets(from, to))
    }

    fn survey(&self, page: usize) -> Survey {
        let mut survey = Survey { committed: 0, uncommitted: false, oldest: u32::MAX, newest: 0 };
        for number in self.page_records(page).map(Online::number) {
            if number == 0 {
                survey.uncommitted = true;
            } else {
                survey.committed += 1;
                survey.oldest = survey.oldest.min(number);
                survey.newest = survey.newest.max(number);
            }
        }
        survey
    }

    /// Compacts one page. Gives reads and writes, or nothing if it is not due.
    fn compact(
        &mut self,
        page: usize,
        min_del: u32,
        max_age: u32,
        marks: &mut [u8],
        stored: &mut [u8],
        pool: &[u8],
    ) -> Option<(u32, u32)> {
        if matches!(self.entry(page), Entry::Absent | Entry::Clean(_)) {
            return None; // not dirty, so without a record
        }
        let Survey { committed, uncommitted, oldest, newest } = self.survey(page);
        if committed == 0 || committed < min_del && self.last - oldest < max_age {
            return None;
        }
        let size = self.sizes.page_size as usize;
        let home = &mut stored[size * page..][..size];
        let reads = match self.frame_of(page) {
            Some(frame) if !uncommitted => {
                home.copy_from_slice(&pool[size * frame..][..size]);
                self.set_entry(page, Entry::Clean(frame));
                0
            }
            _ => {
                let committed = self.page_records(page).filter(|online| online.number() != 0);
                committed.for_each(|online| online.record().apply(home));
                self.leave_frame(page, if uncommitted { Entry::Evicted } else { Entry::Absent });
                1
            }
        };
        put4(marks, stamp_at(page as u32), newest);
        self.online.retain(|online| online.page() != page || online.number() == 0);
        Some((reads, 1))
    }

    /// Closes a checkpoint: the dirty table, K, and the log cut to what is still needed.
    fn close(&mut self, marks: &mut [u8], log: &mut [u8]) {
        let pages = self.sizes.pages;
        marks[dirty_at(pages, 0)..].fill(0);
        let mut smallest = None;
        for online in self.online.iter().filter(|online| online.number() != 0) {
            let (at, number) = (dirty_at(pages, online.page() as u32), online.number());
            let dirty = get4(marks, at);
            if dirty == 0 || number < dirty {
                put4(marks, at, number);
            }
            smallest = Some(smallest.map_or(number, |other: u32| other.min(number)));
        }
        self.kay = self.last;
        let first = u64::from(self.last) + 1 - self.logged as u64;
        let dropped = smallest.map_or(self.logged, |number| (u64::from(number) - first) as usize);
        let end = LOG_ROW * self.logged;
        log.copy_within(LOG_ROW * dropped..end, 0);
        self.logged -= dropped;
        log[LOG_ROW * self.logged..end].fill(0);
    }
}

fn is_number(number: u32) -> bool {
    (1..=32).contains(&number)
}

fn in_page(sizes: &Sizes, offset: u32, length: u32) -> bool {
    u64::from(offset) + u64::from(length) <= sizes.page_size.into()
}

pub fn begin(a: &mut Areas, number: u32) -> Reply {
    let Some(mut s) = State::open(a) else { return Reply::refused(1) };
    if !is_number(number) {
        return Reply::refused(2);
    }
    if s.live[number as usize] {
        return Reply::refused(5);
    }
    s.live[number as usize] = true;
    s.write(a);
    Reply::done(0, 0, 0)
}

pub fn read(a: &mut Areas, buffer: &mut [u8], number: u32, page: u32, offset: u32, length: u32) -> Reply {
    let Some(mut s) = State::open(a) else { return Reply::refused(1) };
    let length_fits = (1..=s.sizes.page_size).contains(&length) && in_page(&s.sizes, offset, length);
    if !is_number(number) || page >= s.sizes.pages || !length_fits {
        return Reply::refused(2);
    }
    if buffer.len() < length as usize {
        return Reply::refused(3);
    }
    if !s.live[number as usize] {
        return Reply::refused(4);
    }
    if s.held(number, page as usize, offset, offset + length) {
        return Reply::refused(6);
    }
    let (frame, reads) = s.fetch(page as usize, &a.stored, &mut a.pool);
    s.touch(frame);
    let from = s.sizes.page_size as usize * frame + offset as usize;
    buffer[..length as usize].copy_from_slice(&a.pool[from..][..length as usize]);
    s.write(a);
    Reply::done(reads, 0, 0)
}

pub fn update(a: &mut Areas, number: u32, page: u32, offset: u32, length: u32, kind: u32, value: u64) -> Reply {
    let Some(mut s) = State::open(a) else { return Reply::refused(1) };
    let length_fits = matches!(length, 1 | 2 | 4 | 8) && in_page(&s.sizes, offset, length);
    let record_fits = length_fits && kind <= u32::from(ADD) && fits(value, length);
    if !is_number(number) || page >= s.sizes.pages || !record_fits {
        return Reply::refused(2);
    }
    if !s.live[number as usize] {
        return Reply::refused(4);
    }
    if s.held(number, page as usize, offset, offset + length) {
        return Reply::refused(6);
    }
    // Before the fetch: a full table evicts nothing, reads nothing, touches nothing.
    if s.online.len() >= s.sizes.online_size as usize {
        return Reply::refused(7);
    }
    let record = Record { page: page as u16, offset: offset as u16, length: length as u8, kind: kind as u8, value };
    let (frame, reads) = s.fetch(page as usize, &a.stored, &mut a.pool);
    s.touch(frame);
    let size = s.sizes.page_size as usize;
    record.apply(&mut a.pool[size * frame..][..size]);
    s.online.push(Online::new(&record, number as u8, 0));
    s.set_entry(page as usize, Entry::Dirty(frame));
    s.write(a);
    Reply::done(reads, 0, 0)
}

pub fn commit(a: &mut Areas, number: u32) -> Reply {
    let Some(mut s) = State::open(a) else { return Reply::refused(1) };
    if !is_number(number) {
        return Reply::refused(2);
    }
    if !s.live[number as usize] {
        return Reply::refused(4);
    }
    let count = s.online.iter().filter(|online| online.owner() == number).count();
    // With no record neither can be given: n is at most the log's size and L is a number of 32 bits.
    if s.logged + count > s.sizes.log_size as usize {
        return Reply::refused(8);
    }
    if u64::from(s.last) + count as u64 > u32::MAX.into() {
        return Reply::refused(9);
    }
    for online in s.online.iter_mut().filter(|online| online.owner() == number) {
        s.last += 1;
        online.set(0, s.last);
        a.log[LOG_ROW * s.logged..][..LOG_ROW].copy_from_slice(&online.0[..LOG_ROW]);
        s.logged += 1;
    }
    s.live[number as usize] = false;
    s.write(a);
    Reply::done(0, 0, u32::from(count >= 1))
}

pub fn abort(a: &mut Areas, number: u32) -> Reply {
    let Some(mut s) = State::open(a) else { return Reply::refused(1) };
    if !is_number(number) {
        return Reply::refused(2);
    }
    if !s.live[number as usize] {
        return Reply::refused(4);
    }
    let (gone, kept): (Vec<_>, Vec<_>) = s.online.iter().partition(|online| online.owner() == number);
    s.online = kept;
    let mut remains = vec![false; s.sizes.pages as usize];
    s.online.iter().for_each(|online| remains[online.page()] = true);
    for page in gone.iter().map(Online::page) {
        s.leave_frame(page, if remains[page] { Entry::Evicted } else { Entry::Absent });
    }
    s.live[number as usize] = false;
    s.write(a);
    Reply::done(0, 0, 0)
}

pub fn evict(a: &mut Areas, page: u32) -> Reply {
    let Some(mut s) = State::open(a) else { return Reply::refused(1) };
    if page >= s.sizes.pages {
        return Reply::refused(2);
    }
    if s.frame_of(page as usize).is_none() {
        return Reply::refused(10);
    }
    s.evict(page as usize);
    s.write(a);
    Reply::done(0, 0, 0)
}

pub fn compact(a: &mut Areas, page: u32, min_del: u32, max_age: u32) -> Reply {
    let Some(mut s) = State::open(a) else { return Reply::refused(1) };
    if page >= s.sizes.pages || !(1..=512).contains(&min_del) {
        return Reply::refused(2);
    }
    let Some((reads, writes)) = s.compact(page as usize, min_del, max_age, &mut a.marks, &mut a.stored, &a.pool) else {
        return Reply::not_due();
    };
    s.write(a);
    Reply::done(reads, writes, 0)
}

pub fn close(a: &mut Areas) -> Reply {
    let Some(mut s) = State::open(a) else { return Reply::refused(1) };
    s.close(&mut a.marks, &mut a.log);
    s.write(a);
    Reply::done(0, 0, 1)
}

pub fn checkpoint(a: &mut Areas, min_del: u32, max_age: u32) -> Reply {
    checkpoint_part(a, min_del, max_age, u32::MAX)
}

/// A checkpoint up to its first `steps` steps: compact for each page, ascending, then close, so `pages` + 1 in all.
/// A power loss inside a checkpoint leaves the durable part that this leaves.
pub fn checkpoint_part(a: &mut Areas, min_del: u32, max_age: u32, steps: u32) -> Reply {
    let Some(mut s) = State::open(a) else { return Reply::refused(1) };
    if !(1..=512).contains(&min_del) {
        return Reply::refused(2);
    }
    let mut sum = Reply::done(0, 0, 0);
    for page in 0..s.sizes.pages.min(steps) {
        if let Some((reads, writes)) = s.compact(page as usize, min_del, max_age, &mut a.marks, &mut a.stored, &a.pool)
        {
            sum.reads += reads;
            sum.writes += writes;
        }
    }
    if steps > s.sizes.pages {
        s.close(&mut a.marks, &mut a.log);
        sum.logs = 1;
    }
    s.write(a);
    sum
}

pub fn restart(a: &mut Areas) -> Reply {
    if !sound::broken_durable(a).none() {
        return Reply::refused(1);
    }
    let (sizes, first, kay) = (a.sizes(), a.first(), a.kay());
    let mut online = Vec::new();
    for (i, row) in a.log.chunks_exact(LOG_ROW).take(a.logged() as usize).enumerate() {
        let record = Record::read(row);
        let (page, number) = (record.page.into(), (first + i as u64) as u32);
        let at_close = number <= kay && get4(&a.marks, dirty_at(sizes.pages, page)) == 0;
        let on_page = number <= get4(&a.marks, stamp_at(page));
        if !at_close && !on_page {
            online.push(Online::new(&record, 0, number));
        }
    }
    if online.len() > sizes.online_size as usize {
        return Reply::refused(7);
    }
    // The lost tables may hold anything: they are emptied before they are read.
    a.tables.fill(0);
    a.online.fill(0);
    let mut s = State::read(a);
    for page in online.iter().map(Online::page) {
        s.set_entry(page, Entry::Evicted);
    }
    s.online = online;
    s.write(a);
    Reply::done(0, 0, 0)
}

pub fn format(a: &mut Areas, sizes: &Sizes, last: u32) -> Reply {
    if !sizes.in_range() || !sound::lengths_fit(a, sizes) {
        return Reply::refused(2);
    }
    sizes.write(&mut a.fixed);
    a.marks.fill(0);
    put4(&mut a.marks, 0, last);
    put4(&mut a.marks, 4, last);
    for stamp in a.marks[stamp_at(0)..dirty_at(sizes.pages, 0)].chunks_exact_mut(4) {
        put4(stamp, 0, last);
    }
    a.log.fill(0);
    a.tables.fill(0);
    a.online.fill(0);
    Reply::done(0, 0, 0)
}

/// The store that is right by definition here.
#[derive(Clone)]
pub struct Twin;

impl Store for Twin {
    fn call(&mut self, a: &mut Areas, call: &Call, buffer: &mut Lent) -> Reply {
        match *call {
            Call::Format { sizes, last } => format(a, &sizes, last),
            Call::Begin { number } => begin(a, number),
            Call::Read { number, page, offset, length, .. } => read(a, buffer, number, page, offset, length),
            Call::Update { number, page, offset, length, kind, value } => {
                update(a, number, page, offset, length, kind, value)
            }
            Call::Commit { number } => commit(a, number),
            Call::Abort { number } => abort(a, number),
            Call::Evict { page } => evict(a, page),
            Call::Compact { page, min_del, max_age } => compact(a, page, min_del, max_age),
            Call::Close => close(a),
            Call::Checkpoint { min_del, max_age } => checkpoint(a, min_del, max_age),
            Call::Restart => restart(a),
        }
    }

    fn part(&mut self, a: &mut Areas, min_del: u32, max_age: u32, steps: u32) -> Reply {
        checkpoint_part(a, min_del, max_age, steps)
    }
}
