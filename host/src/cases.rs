//! The named cases of document 01, with their outcomes written by hand from it: P1 to P12 on one store, then every
//! run-only case and some more, each from a fresh store. This is also the shortest example of how the calls are used.

use crate::areas::{get4, put2, put4, Areas, Reply, Sizes, LOG_ROW};
use crate::calls::{Call, Store};
use crate::record::{Record, ADD, SET};

/// The small store of document 01.
pub const SMALL: Sizes = Sizes { page_size: 512, pages: 8, frames: 2, online_size: 4, log_size: 8 };

const END: u32 = u32::MAX;
const DONE: Reply = Reply { code: 0, note: 0, reads: 0, writes: 0, logs: 0 };
const ONE_READ: Reply = Reply { reads: 1, ..DONE };
const ONE_WRITE: Reply = Reply { writes: 1, ..DONE };
const ONE_LOG: Reply = Reply { logs: 1, ..DONE };
const READ_AND_WRITE: Reply = Reply { reads: 1, writes: 1, ..DONE };
const NOT_DUE: Reply = Reply { note: 1, ..DONE };

type Outcome = Result<(), String>;

/// A store and its areas, with the calls as short words. Each word says what must be answered.
struct Desk<S> {
    store: S,
    a: Areas,
    shown: Vec<u8>,
}

impl<S: Store> Desk<S> {
    fn fresh(store: S) -> Result<Desk<S>, String> {
        Desk::from(store, 0)
    }

    fn from(store: S, last: u32) -> Result<Desk<S>, String> {
        let mut desk = Desk { store, a: Areas::for_sizes(&SMALL), shown: Vec::new() };
        desk.format(SMALL, last, DONE)?;
        Ok(desk)
    }

    fn call(&mut self, call: Call, right: Reply) -> Outcome {
        let before = self.a.clone();
        let mut buffer = call.buffer();
        let reply = self.store.call(&mut self.a, &call, &mut buffer);
        self.shown = buffer.to_vec();
        if reply != right {
            return Err(format!("{call}: expected {right}, got {reply}"));
        }
        if let Some(area) = self.a.stray_write() {
            return Err(format!("{call}: a byte beside {area} was written"));
        }
        if !buffer.guards_hold() {
            return Err(format!("{call}: a byte beside the buffer was written"));
        }
        if right.code != 0 && (self.a != before || buffer != call.buffer()) {
            return Err(format!("{call}: refused, yet a byte changed"));
        }
        Ok(())
    }

    fn format(&mut self, sizes: Sizes, last: u32, right: Reply) -> Outcome {
        self.call(Call::Format { sizes, last }, right)
    }
    fn begin(&mut self, number: u32, right: Reply) -> Outcome {
        self.call(Call::Begin { number }, right)
    }
    fn read(&mut self, number: u32, page: u32, offset: u32, length: u32, right: Reply) -> Outcome {
        self.call(Call::Read { number, page, offset, length, room: length }, right)
    }
    /// A read that must be accepted and show these bytes.
    fn shows(&mut self, number: u32, page: u32, offset: u32, bytes: &[u8], right: Reply) -> Outcome {
        self.read(number, page, offset, bytes.len() as u32, right)?;
        let shown = self.shown.clone();
        want(shown == bytes, || format!("page {page}, offset {offset}: expected {bytes:?}, shown {shown:?}"))
    }
    fn set(&mut self, number: u32, page: u32, offset: u32, value: u8, right: Reply) -> Outcome {
        let (kind, value) = (SET.into(), value.into());
        self.call(Call::Update { number, page, offset, length: 1, kind, value }, right)
    }
    fn add(&mut self, number: u32, page: u32, offset: u32, value: u8, right: Reply) -> Outcome {
        let (kind, value) = (ADD.into(), value.into());
        self.call(Call::Update { number, page, offset, length: 1, kind, value }, right)
    }
    fn commit(&mut self, number: u32, right: Reply) -> Outcome {
        self.call(Call::Commit { number }, right)
    }
    fn abort(&mut self, number: u32, right: Reply) -> Outcome {
        self.call(Call::Abort { number }, right)
    }
    fn evict(&mut self, page: u32, right: Reply) -> Outcome {
        self.call(Call::Evict { page }, right)
    }
    fn compact(&mut self, page: u32, min_del: u32, max_age: u32, right: Reply) -> Outcome {
        self.call(Call::Compact { page, min_del, max_age }, right)
    }
    fn close(&mut self) -> Outcome {
        self.call(Call::Close, ONE_LOG)
    }
    fn restart(&mut self) -> Outcome {
        self.call(Call::Restart, DONE)
    }
    fn power_loss(&mut self) {
        self.a.tables.fill(0xff);
        self.a.online.fill(0xff);
        self.a.pool.fill(0xff);
    }
    /// The numbers of the online records, in table order; 0 is uncommitted.
    fn online(&self) -> Vec<u32> {
        self.a.online_rows().map(|row| get4(row, 15)).collect()
    }
    /// The log's records as (page, value).
    fn log(&self) -> Vec<(u16, u64)> {
        let rows = self.a.log.chunks_exact(LOG_ROW).take(self.a.logged() as usize);
        rows.map(Record::read).map(|record| (record.page, record.value)).collect()
    }
}

fn want(holds: bool, else_say: impl FnOnce() -> String) -> Outcome {
    if holds {
        Ok(())
    } else {
        Err(else_say())
    }
}

/// Wants two values equal; the name says what they are.
fn same<T: PartialEq + std::fmt::Debug>(name: &str, got: T, right: T) -> Outcome {
    want(got == right, || format!("{name}: expected {right:?}, got {got:?}"))
}

const fn refused(code: u32) -> Reply {
    Reply { code, ..DONE }
}

type Case<S> = (&'static str, fn(&mut Desk<S>) -> Outcome);

/// P1 to P12: one store, the calls follow one another.
fn proved<S: Store>() -> Vec<Case<S>> {
    vec![
        ("P1 begin 1, begin 1 again, begin 2", |d| {
            d.begin(1, DONE)?;
            d.begin(1, refused(5))?;
            d.begin(2, DONE)
        }),
        ("P2 update 1, page 5, offset 16, set 7: one read, stored byte still 0", |d| {
            d.set(1, 5, 16, 7, ONE_READ)?;
            same("stored byte 16", d.a.stored_page(5)[16], 0)?;
            same("entry: dirty in frame 0", d.a.entry(5), 3)
        }),
        ("P3 read 2 at 16 is held, at 17 shows 0", |d| {
            d.read(2, 5, 16, 1, refused(6))?;
            d.shows(2, 5, 17, &[0], DONE)
        }),
        ("P4 update 2 at 17, add 255, add 2: byte 1", |d| {
            d.add(2, 5, 17, 255, DONE)?;
            d.add(2, 5, 17, 2, DONE)?;
            d.shows(2, 5, 17, &[1], DONE)
        }),
        ("P5 evict 5, read 1 at 16: byte 7, one page read", |d| {
            d.evict(5, DONE)?;
            same("entry: evicted", d.a.entry(5), 1)?;
            d.shows(1, 5, 16, &[7], ONE_READ)
        }),
        ("P6 commit 1, begin 1, abort 1, read 2 at 16: byte 7", |d| {
            d.commit(1, ONE_LOG)?;
            same("L", d.a.last(), 1)?;
            d.begin(1, DONE)?;
            d.abort(1, DONE)?;
            d.shows(2, 5, 16, &[7], DONE)
        }),
        ("P7 compact 5: one read, one write, stored 7 and 0, stamp 1, evicted", |d| {
            d.compact(5, 1, END, READ_AND_WRITE)?;
            same("stored bytes", &d.a.stored_page(5)[16..18], &[7, 0][..])?;
            same("stamp", d.a.stamp(5), 1)?;
            same("entry: evicted", d.a.entry(5), 1)
        }),
        ("P8 commit 2, power loss, restart: 2 and 3 are online, 1 is not", |d| {
            d.commit(2, ONE_LOG)?;
            same("L", d.a.last(), 3)?;
            d.power_loss();
            d.restart()?;
            same("online numbers", d.online(), vec![2, 3])
        }),
        ("P9 restart again: same tables", |d| {
            let before = d.a.clone();
            d.restart()?;
            want(d.a == before, || "a byte changed".into())
        }),
        ("P10 begin 4, read page 5, offset 16, length 2: bytes 7, 1", |d| {
            d.begin(4, DONE)?;
            d.shows(4, 5, 16, &[7, 1], ONE_READ)
        }),
        ("P11 close: K = 3, page 5's dirty number 2, the log holds 2 and 3", |d| {
            d.close()?;
            same("K", d.a.kay(), 3)?;
            same("dirty number", d.a.dirty(5), 2)?;
            same("log's first number", d.a.first(), 2)?;
            same("log", d.log(), vec![(5, 255), (5, 2)])
        }),
        ("P12 compact 5, min_del 16: max_age 2 not due; 1 due, no read, one write, stamp 3, clean", |d| {
            d.compact(5, 16, 2, NOT_DUE)?;
            d.compact(5, 16, 1, ONE_WRITE)?;
            same("stamp", d.a.stamp(5), 3)?;
            same("entry: clean in frame 0", d.a.entry(5), 2)?;
            same("stored bytes", &d.a.stored_page(5)[16..18], &[7, 1][..])
        }),
    ]
}

/// The run-only cases of document 01, each from a fresh store.
fn run_only<S: Store>() -> Vec<Case<S>> {
    vec![
        ("offset 504 length 8 accepted, 505 refused 2", |d| {
            let at = |offset| Call::Update { number: 1, page: 0, offset, length: 8, kind: 0, value: u64::MAX };
            d.begin(1, DONE)?;
            d.call(at(504), ONE_READ)?;
            d.call(at(505), refused(2))
        }),
        ("offset 511 length 1 accepted", |d| {
            d.begin(1, DONE)?;
            d.set(1, 0, 511, 9, ONE_READ)?;
            d.shows(1, 0, 511, &[9], DONE)
        }),
        ("value 256 length 1 refused 2", |d| {
            d.begin(1, DONE)?;
            d.call(Call::Update { number: 1, page: 0, offset: 0, length: 1, kind: 0, value: 256 }, refused(2))
        }),
        ("pages read 0, 1, 0, 2: page 1 is dropped", |d| {
            d.begin(1, DONE)?;
            d.shows(1, 0, 0, &[0], ONE_READ)?;
            d.shows(1, 1, 0, &[0], ONE_READ)?;
            d.shows(1, 0, 0, &[0], DONE)?;
            d.shows(1, 2, 0, &[0], ONE_READ)?;
            same("entries of 0, 1, 2", [0, 1, 2].map(|page| d.a.entry(page)), [2, 0, 4])?;
            same("use order", d.a.use_order(), &[0, 1][..])
        }),
        ("a fifth uncommitted record: 7, and accepted after another owner of some aborts", |d| {
            d.begin(1, DONE)?;
            d.begin(2, DONE)?;
            d.set(1, 0, 0, 1, ONE_READ)?;
            d.set(1, 0, 1, 1, DONE)?;
            d.set(2, 0, 2, 1, DONE)?;
            d.set(2, 0, 3, 1, DONE)?;
            d.set(1, 0, 4, 1, refused(7))?;
            d.abort(2, DONE)?;
            d.set(1, 0, 4, 1, ONE_READ)
        }),
        ("L = 4,294,967,295: commit of one record 9, of none 0", |d| {
            d.format(SMALL, END, DONE)?;
            d.begin(1, DONE)?;
            d.begin(2, DONE)?;
            d.set(1, 0, 0, 1, ONE_READ)?;
            d.commit(1, refused(9))?;
            d.commit(2, DONE)
        }),
        ("full log and L at its end: 8", |d| {
            d.format(SMALL, END - 8, DONE)?;
            for round in 0..2 {
                d.begin(1, DONE)?;
                d.set(1, 0, 0, round, if round == 0 { ONE_READ } else { DONE })?;
                (1..4).try_for_each(|offset| d.set(1, 0, offset, round, DONE))?;
                d.commit(1, ONE_LOG)?;
                d.compact(0, 1, 0, ONE_WRITE)?;
            }
            same("L and n", (d.a.last(), d.a.logged()), (END, 8))?;
            d.begin(1, DONE)?;
            d.set(1, 0, 0, 5, DONE)?;
            d.commit(1, refused(8))
        }),
        ("close with nothing online, commit, restart: the record is online", |d| {
            d.close()?;
            d.begin(1, DONE)?;
            d.set(1, 3, 0, 5, ONE_READ)?;
            d.commit(1, ONE_LOG)?;
            d.restart()?;
            same("online numbers", d.online(), vec![1])?;
            d.begin(1, DONE)?;
            d.shows(1, 3, 0, &[5], ONE_READ)
        }),
    ]
}

/// Each fault that tempts, and the places that the cases above leave open.
fn more<S: Store>() -> Vec<Case<S>> {
    vec![
        ("aborting a reissued number keeps older committed records", |d| {
            d.begin(1, DONE)?;
            d.set(1, 0, 0, 7, ONE_READ)?;
            d.commit(1, ONE_LOG)?;
            d.begin(1, DONE)?;
            d.set(1, 0, 1, 8, DONE)?;
            d.abort(1, DONE)?;
            same("online numbers", d.online(), vec![1])?;
            d.begin(2, DONE)?;
            d.shows(2, 0, 0, &[7, 0], ONE_READ)
        }),
        ("abort keeps a page's entry while others' records remain", |d| {
            d.begin(1, DONE)?;
            d.begin(2, DONE)?;
            d.set(1, 0, 0, 7, ONE_READ)?;
            d.set(2, 0, 1, 8, DONE)?;
            d.abort(1, DONE)?;
            same("entry: evicted", d.a.entry(0), 1)?;
            d.shows(2, 0, 0, &[0, 8], ONE_READ)?;
            d.abort(2, DONE)?;
            same("entry: absent", d.a.entry(0), 0)
        }),
        ("restart does not apply an add that the stored page holds", |d| {
            d.begin(1, DONE)?;
            d.add(1, 0, 0, 5, ONE_READ)?;
            d.commit(1, ONE_LOG)?;
            d.compact(0, 1, 0, ONE_WRITE)?;
            d.power_loss();
            d.restart()?;
            same("online numbers", d.online(), vec![])?;
            d.begin(1, DONE)?;
            d.shows(1, 0, 0, &[5], ONE_READ)
        }),
        ("compaction writes no uncommitted byte", |d| {
            d.begin(1, DONE)?;
            d.begin(2, DONE)?;
            d.set(1, 0, 0, 7, ONE_READ)?;
            d.set(2, 0, 1, 8, DONE)?;
            d.commit(1, ONE_LOG)?;
            d.compact(0, 1, 0, READ_AND_WRITE)?;
            same("stored bytes", &d.a.stored_page(0)[..2], &[7, 0][..])?;
            same("online numbers", d.online(), vec![0])?;
            same("frames in use", d.a.in_use(), 0)
        }),
        ("compaction of an evicted page folds its stored page, not a frame's bytes", |d| {
            d.begin(1, DONE)?;
            d.set(1, 0, 0, 7, ONE_READ)?;
            d.commit(1, ONE_LOG)?;
            d.evict(0, DONE)?;
            d.begin(1, DONE)?;
            d.set(1, 1, 0, 9, ONE_READ)?;
            let pool = d.a.pool.to_vec();
            d.compact(0, 1, 0, READ_AND_WRITE)?;
            same("stored bytes", &d.a.stored_page(0)[..2], &[7, 0][..])?;
            same("entry: absent", d.a.entry(0), 0)?;
            want(d.a.pool[..] == pool[..], || "frame bytes changed".into())
        }),
        ("the stamp is the greatest number folded, neither the smallest nor L", |d| {
            d.begin(1, DONE)?;
            d.set(1, 0, 0, 1, ONE_READ)?;
            d.set(1, 0, 1, 2, DONE)?;
            d.set(1, 1, 0, 3, ONE_READ)?;
            d.commit(1, ONE_LOG)?;
            d.compact(0, 1, 0, ONE_WRITE)?;
            same("stamp and L", (d.a.stamp(0), d.a.last()), (2, 3))?;
            same("online numbers", d.online(), vec![3])
        }),
        ("compaction folds in table order", |d| {
            d.begin(1, DONE)?;
            d.set(1, 0, 0, 1, ONE_READ)?;
            d.set(1, 0, 0, 2, DONE)?;
            d.commit(1, ONE_LOG)?;
            d.evict(0, DONE)?;
            d.compact(0, 1, 0, READ_AND_WRITE)?;
            same("stored byte", d.a.stored_page(0)[0], 2)
        }),
        ("commit numbers in table order, with another's record between", |d| {
            d.begin(1, DONE)?;
            d.begin(2, DONE)?;
            d.set(1, 0, 0, 1, ONE_READ)?;
            d.set(2, 0, 1, 2, DONE)?;
            d.set(1, 0, 0, 3, DONE)?;
            d.commit(1, ONE_LOG)?;
            d.commit(2, ONE_LOG)?;
            same("online numbers", d.online(), vec![1, 3, 2])?;
            same("log", d.log(), vec![(0, 1), (0, 3), (0, 2)])?;
            d.restart()?;
            d.begin(1, DONE)?;
            d.shows(1, 0, 0, &[3, 2], ONE_READ)
        }),
        ("only read and update touch", |d| {
            d.begin(1, DONE)?;
            d.set(1, 0, 0, 1, ONE_READ)?;
            d.shows(1, 1, 0, &[0], ONE_READ)?;
            d.begin(2, DONE)?;
            d.commit(1, ONE_LOG)?;
            d.compact(0, 1, 0, ONE_WRITE)?;
            d.read(2, 0, 512, 1, refused(2))?;
            d.close()?;
            same("use order", d.a.use_order(), &[0, 1][..])?;
            d.set(2, 0, 0, 1, DONE)?;
            same("use order", d.a.use_order(), &[1, 0][..])?;
            d.evict(1, DONE)?;
            same("use order", d.a.use_order(), &[0][..])?;
            same("place past the count", d.a.tables[36], 0)
        }),
        ("an update refused 7 fetches and touches nothing", |d| {
            d.begin(1, DONE)?;
            d.set(1, 0, 0, 1, ONE_READ)?;
            (1..4).try_for_each(|offset| d.set(1, 0, offset, 1, DONE))?;
            d.shows(1, 1, 0, &[0], ONE_READ)?;
            d.set(1, 2, 0, 1, refused(7))?;
            d.set(1, 0, 9, 1, refused(7))
        }),
        ("refusals in their order", |d| {
            d.begin(1, DONE)?;
            d.begin(2, DONE)?;
            d.set(1, 0, 0, 1, ONE_READ)?;
            (1..4).try_for_each(|offset| d.set(1, 0, offset, 1, DONE))?;
            let read = |number, offset, room| Call::Read { number, page: 0, offset, length: 2, room };
            d.call(read(33, 0, 0), refused(2))?;
            d.call(read(3, 511, 0), refused(2))?;
            d.call(read(3, 0, 1), refused(3))?;
            d.call(read(3, 0, 2), refused(4))?;
            d.call(read(2, 3, 2), refused(6))?;
            d.set(3, 0, 0, 1, refused(4))?;
            d.set(2, 0, 0, 1, refused(6))?;
            d.set(2, 0, 9, 1, refused(7))?;
            d.evict(8, refused(2))?;
            d.evict(7, refused(10))
        }),
        ("read leaves the rest of the buffer", |d| {
            d.begin(1, DONE)?;
            d.call(Call::Read { number: 1, page: 0, offset: 0, length: 2, room: 5 }, ONE_READ)?;
            same("buffer", d.shown.clone(), vec![0, 0, 0xb5, 0xb5, 0xb5])
        }),
        ("offset and length at the end of 32 bits: 2", |d| {
            d.begin(1, DONE)?;
            d.read(1, 0, END, 1, refused(2))?;
            d.call(Call::Read { number: 1, page: 0, offset: 1, length: END, room: 1 }, refused(2))?;
            d.call(Call::Read { number: 1, page: 0, offset: 0, length: 0, room: 0 }, refused(2))
        }),
        ("checkpoint folds every page that is due, sums its parts and has no note", |d| {
            d.begin(1, DONE)?;
            d.set(1, 0, 0, 1, ONE_READ)?;
            d.set(1, 3, 0, 2, ONE_READ)?;
            d.set(1, 5, 0, 3, ONE_READ)?;
            d.commit(1, ONE_LOG)?;
            let sum = Reply { reads: 1, writes: 3, logs: 1, ..DONE };
            d.call(Call::Checkpoint { min_del: 1, max_age: 0 }, sum)?;
            same("stored bytes", [0, 3, 5].map(|page| d.a.stored_page(page)[0]), [1, 2, 3])?;
            same("stamps", [0, 3, 5].map(|page| d.a.stamp(page)), [1, 2, 3])?;
            same("K, n, online", (d.a.kay(), d.a.logged(), d.a.online_count()), (3, 0, 0))?;
            d.call(Call::Checkpoint { min_del: 1, max_age: 0 }, ONE_LOG)
        }),
        ("a checkpoint that is cut short has done its first pages, and comes back", |d| {
            d.begin(1, DONE)?;
            d.add(1, 0, 0, 1, ONE_READ)?;
            d.add(1, 3, 0, 2, ONE_READ)?;
            d.commit(1, ONE_LOG)?;
            d.store.part(&mut d.a, 1, 0, 2);
            same("stamps", [0, 3].map(|page| d.a.stamp(page)), [1, 0])?;
            same("K and n", (d.a.kay(), d.a.logged()), (0, 2))?;
            d.power_loss();
            d.restart()?;
            same("online numbers", d.online(), vec![2])?;
            d.begin(1, DONE)?;
            d.shows(1, 0, 0, &[1], ONE_READ)?;
            d.shows(1, 3, 0, &[2], ONE_READ)
        }),
        ("close drops the log below the smallest dirty number", |d| {
            d.begin(1, DONE)?;
            d.set(1, 0, 0, 1, ONE_READ)?;
            d.set(1, 1, 0, 2, ONE_READ)?;
            d.set(1, 0, 1, 3, DONE)?;
            d.commit(1, ONE_LOG)?;
            d.compact(0, 1, 0, ONE_WRITE)?;
            d.close()?;
            same("dirty numbers", [0, 1].map(|page| d.a.dirty(page)), [0, 2])?;
            same("first and n", (d.a.first(), d.a.logged()), (2, 2))?;
            same("log", d.log(), vec![(1, 2), (0, 3)])?;
            d.restart()?;
            same("online numbers: 3 is on its page", d.online(), vec![2])
        }),
        ("restart passes over a record up to K whose page's dirty number is 0", |d| {
            // No history leads here: the stamp is below the record, and the dirty table alone decides.
            d.begin(1, DONE)?;
            d.set(1, 0, 0, 1, ONE_READ)?;
            d.set(1, 1, 0, 2, ONE_READ)?;
            d.commit(1, ONE_LOG)?;
            d.close()?;
            same("dirty numbers", [0, 1].map(|page| d.a.dirty(page)), [1, 2])?;
            let pages = SMALL.pages;
            put4(&mut d.a.marks, crate::areas::dirty_at(pages, 1), 0);
            d.restart()?;
            same("online numbers", d.online(), vec![1])?;
            same("entry: absent", d.a.entry(1), 0)
        }),
        ("restart refuses 7 if more records enter than the table holds, before anything changes", |d| {
            // Five records in the log above every stamp: no history leads here with four online rows.
            for i in 0..5 {
                let record = Record { page: i, offset: 0, length: 1, kind: SET, value: 1 };
                record.write(&mut d.a.log[LOG_ROW * usize::from(i)..]);
            }
            put4(&mut d.a.marks, 0, 5);
            put4(&mut d.a.marks, 8, 5);
            d.a.tables.fill(0xee);
            d.call(Call::Restart, refused(7))?;
            put4(&mut d.a.marks, crate::areas::stamp_at(4), 5);
            d.restart()?;
            same("online numbers", d.online(), vec![1, 2, 3, 4])
        }),
        ("restart looks at lengths and the durable part only", |d| {
            put2(&mut d.a.tables, 0, 999);
            d.begin(1, refused(1))?;
            d.restart()?;
            d.begin(1, DONE)?;
            d.a.log[0] = 1;
            d.call(Call::Restart, refused(1))
        }),
        ("format takes the pages as they are, may lower L, and empties the rest", |d| {
            d.format(SMALL, 100, DONE)?;
            d.begin(1, DONE)?;
            d.set(1, 0, 0, 5, ONE_READ)?;
            d.commit(1, ONE_LOG)?;
            d.compact(0, 1, 0, ONE_WRITE)?;
            let pool = d.a.pool.to_vec();
            d.format(SMALL, 9, DONE)?;
            same("L, K, n", (d.a.last(), d.a.kay(), d.a.logged()), (9, 9, 0))?;
            same("stamps", [0, 7].map(|page| d.a.stamp(page)), [9, 9])?;
            want(d.a.tables.iter().chain(d.a.log.iter()).all(|&byte| byte == 0), || "not emptied".into())?;
            want(d.a.pool[..] == pool[..], || "frame bytes changed".into())?;
            d.begin(1, DONE)?;
            d.shows(1, 0, 0, &[5], ONE_READ)
        }),
        ("format refuses 2 by sizes and by lengths", |d| {
            d.format(Sizes { page_size: 513, ..SMALL }, 0, refused(2))?;
            d.format(Sizes { pages: 0, ..SMALL }, 0, refused(2))?;
            d.format(Sizes { frames: 65, ..SMALL }, 0, refused(2))?;
            d.format(Sizes { online_size: 5, ..SMALL }, 0, refused(2))?;
            d.format(Sizes { log_size: 7, ..SMALL }, 0, refused(2))
        }),
        ("two owners' updates commit in the other order", |d| {
            d.begin(1, DONE)?;
            d.begin(2, DONE)?;
            d.set(1, 0, 0, 1, ONE_READ)?;
            d.set(2, 0, 1, 2, DONE)?;
            d.commit(2, ONE_LOG)?;
            d.commit(1, ONE_LOG)?;
            same("online numbers", d.online(), vec![2, 1])?;
            d.power_loss();
            d.restart()?;
            same("online numbers", d.online(), vec![1, 2])?;
            d.begin(1, DONE)?;
            d.shows(1, 0, 0, &[1, 2], ONE_READ)
        }),
        ("age at the end of 32 bits", |d| {
            d.format(SMALL, END - 2, DONE)?;
            d.begin(1, DONE)?;
            d.set(1, 0, 0, 1, ONE_READ)?;
            d.set(1, 1, 0, 1, ONE_READ)?;
            d.commit(1, ONE_LOG)?;
            d.compact(0, 2, 2, NOT_DUE)?;
            d.compact(0, 2, 1, ONE_WRITE)?;
            d.compact(1, 512, END, NOT_DUE)?;
            d.compact(1, 512, 0, ONE_WRITE)?;
            d.close()?;
            same("K and first", (d.a.kay(), d.a.first()), (END, 1 << 32))?;
            d.restart()
        }),
    ]
}

/// Runs all the cases. Prints each by name and gives how many passed and failed.
pub fn run<S: Store + Clone>(store: &S) -> (u64, u64) {
    let (mut passed, mut failed) = (0, 0);
    let mut tell = |name: &str, outcome: Outcome| match outcome {
        Ok(()) => {
            println!("  ok      {name}");
            passed += 1;
        }
        Err(why) => {
            println!("  FAILED  {name}\n          {why}");
            failed += 1;
        }
    };
    let mut desk = Desk::fresh(store.clone());
    for (name, case) in proved() {
        // After a failure the store is not what the next one of the row expects; they fail with the same words.
        let outcome = desk.as_mut().map_err(|why| why.clone()).and_then(case);
        if let Err(why) = &outcome {
            desk = Err(format!("not run, an earlier one failed: {why}"));
        }
        tell(name, outcome);
    }
    for (name, case) in run_only().into_iter().chain(more()) {
        tell(name, Desk::fresh(store.clone()).and_then(|mut desk| case(&mut desk)));
    }
    (passed, failed)
}

#[cfg(test)]
mod tests {
    use super::*;
    use crate::twin::Twin;

    #[test]
    fn the_second_program_passes() {
        let (passed, failed) = run(&Twin);
        assert!(passed >= 12 + 8 && failed == 0);
    }
}
