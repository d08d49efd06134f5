//! The stores on which calls are measured. All of them come about by calls of the second program from a format, so a
//! history leads to each; both stores are then measured on the same bytes.

use crate::areas::{Areas, Sizes};
use crate::calls::{Call, Store};
use crate::random::Random;
use crate::record::{ADD, SET};
use crate::twin::Twin;
use std::rc::Rc;

/// A store and a call on it. Its name says what the call meets there.
pub struct Situation {
    pub name: String,
    pub before: Rc<Areas>,
    pub call: Call,
    /// The code and the note that it must answer.
    pub right: (u32, u32),
}

/// Owner 1 has all its records on page 0, owner 2 a record a page, owners 3 to 8 the rest; 9 is live and has none.
/// Committed records are 32's.
const ON_A_PAGE: u32 = 1;
const ON_MANY: u32 = 2;
const OTHERS: [u32; 6] = [3, 4, 5, 6, 7, 8];
const WITH_NONE: u32 = 9;
const NOT_LIVE: u32 = 10;
const GONE: u32 = 32;

/// Where owner 1's records begin on page 0; the bytes before it are by owner, those that are read are behind it.
const FIRST_OFFSET: u32 = 128;
const READ_OFFSET: u32 = 256;

/// A store under way. Every call must be accepted. A clone shares the areas until it makes a call.
#[derive(Clone)]
struct Maker {
    areas: Rc<Areas>,
    lengths: Random,
}

impl Maker {
    fn new(sizes: Sizes) -> Maker {
        let mut maker = Maker { areas: Rc::new(Areas::for_sizes(&sizes)), lengths: Random::new(1) };
        maker.make(&[Call::Format { sizes, last: 0 }]);
        maker
    }

    fn make(&mut self, calls: &[Call]) {
        for call in calls {
            let reply = Twin.call(Rc::make_mut(&mut self.areas), call, &mut call.buffer());
            assert!(reply.accepted(), "{call} while a store was made: {reply}");
        }
    }

    fn begin(&mut self, numbers: impl IntoIterator<Item = u32>) {
        numbers.into_iter().for_each(|number| self.make(&[Call::Begin { number }]));
    }

    /// A record of one of the four lengths, by chance: which it is should be no help to a branch.
    fn record(&mut self, number: u32, page: u32, offset: u32) {
        let length = self.lengths.pick(&[1, 2, 4, 8]);
        self.make(&[Call::Update { number, page, offset, length, kind: ADD.into(), value: 3 }]);
    }

    /// Commits so many records, a page after the other of so many, and leaves them online.
    fn commit_spread(&mut self, count: u32, pages: u32) {
        self.begin([GONE]);
        (0..count).for_each(|i| self.record(GONE, 1 + 7 * i % pages, 0));
        self.make(&[Call::Commit { number: GONE }]);
    }

    /// Lets the log grow until it has so many records, without any of them staying online.
    fn fill_log(&mut self, logged: u32) {
        while self.areas.logged() < logged {
            let free = self.areas.sizes().online_size - self.areas.online_count();
            let page = self.areas.sizes().pages - 1;
            self.begin([GONE]);
            (0..free.min(logged - self.areas.logged())).for_each(|_| self.record(GONE, page, 0));
            self.make(&[Call::Commit { number: GONE }, Call::Compact { page, min_del: 1, max_age: 0 }]);
        }
    }

    /// A page in no frame, without a record.
    fn absent(&self) -> u32 {
        (0..self.areas.sizes().pages).find(|&page| self.areas.entry(page) == 0).expect("a page is absent")
    }

    fn then(&self, calls: &[Call]) -> Maker {
        let mut maker = self.clone();
        maker.make(calls);
        maker
    }

    fn at(&self, name: &str, call: Call, right: (u32, u32)) -> Situation {
        Situation { name: name.to_string(), before: Rc::clone(&self.areas), call, right }
    }
}

fn update(page: u32, offset: u32) -> Call {
    Call::Update { number: WITH_NONE, page, offset, length: 8, kind: ADD.into(), value: 3 }
}

fn read(page: u32) -> Call {
    Call::Read { number: WITH_NONE, page, offset: READ_OFFSET, length: 16, room: 16 }
}

const DONE: (u32, u32) = (0, 0);
const NOT_DUE: (u32, u32) = (0, 1);

fn refused(code: u32) -> (u32, u32) {
    (code, 0)
}

/// Makes the situations of a store of some sizes.
pub type Make = fn(Sizes) -> Vec<Situation>;

const LARGEST: Sizes = Sizes { page_size: 4096, pages: 1024, frames: 64, online_size: 512, log_size: 2048 };

/// Small (that of document 01's cases), medium, all tables as large as they can be; and these without a record.
pub const STORES: [(&str, Sizes, Make); 4] = [
    ("Small", Sizes { page_size: 512, pages: 8, frames: 2, online_size: 4, log_size: 8 }, each_call),
    ("Medium", Sizes { page_size: 1024, pages: 128, frames: 16, online_size: 128, log_size: 512 }, each_call),
    ("Full", LARGEST, each_call),
    ("Empty", LARGEST, each_call_on_empty),
];

/// Each call by itself, on tables that are full: one online row is free, and log rows for the commits.
fn each_call(sizes: Sizes) -> Vec<Situation> {
    let on_a_page = (sizes.online_size / 16).clamp(1, 8);
    let on_many = (sizes.online_size / 8).clamp(1, 16);
    let of_none = (sizes.online_size - 2) / 2;
    let mut base = Maker::new(sizes);
    base.fill_log(sizes.log_size - on_a_page - on_many - of_none);
    base.commit_spread(of_none, sizes.pages - 1);
    base.begin([ON_A_PAGE, ON_MANY, WITH_NONE].into_iter().chain(OTHERS));
    (0..on_a_page).for_each(|i| base.record(ON_A_PAGE, 0, FIRST_OFFSET + 8 * i));
    (0..on_many).for_each(|i| base.record(ON_MANY, 1 + i, 8 * ON_MANY));
    for i in 0..sizes.online_size - 1 - base.areas.online_count() {
        let number = OTHERS[i as usize % OTHERS.len()];
        base.record(number, 1 + 5 * i % (sizes.pages - 1), 8 * number);
    }
    let absent = base.absent();
    let (hit, miss) = (update(0, READ_OFFSET), update(absent, READ_OFFSET));
    let in_frame = base.then(&[read(0)]);
    let committed = in_frame.then(&[Call::Commit { number: ON_A_PAGE }]);
    let evicted = committed.then(&[Call::Evict { page: 0 }]);
    let mixed = committed.then(&[hit]);
    let of = |number| (Call::Commit { number }, Call::Abort { number });
    let (commit_none, abort_none) = of(WITH_NONE);
    let (commit_page, abort_page) = of(ON_A_PAGE);
    let (commit_many, abort_many) = of(ON_MANY);
    let compact = Call::Compact { page: 0, min_del: 1, max_age: 0 };
    let not_due = Call::Compact { page: 0, min_del: 512, max_age: u32::MAX };
    let held = Call::Update { number: WITH_NONE, page: 0, offset: FIRST_OFFSET, length: 1, kind: SET.into(), value: 1 };
    let all_due = Call::Checkpoint { min_del: 1, max_age: 0 };
    let some_due = Call::Checkpoint { min_del: 16, max_age: sizes.online_size };
    let none_due = Call::Checkpoint { min_del: 512, max_age: u32::MAX };
    vec![
        base.at("begin, refused 5: the check alone", Call::Begin { number: ON_A_PAGE }, refused(5)),
        base.at("begin", Call::Begin { number: NOT_LIVE }, DONE),
        in_frame.at("read, page in its frame", read(0), DONE),
        base.at("read, page absent", read(absent), DONE),
        evicted.at("read, page evicted", read(0), DONE),
        in_frame.at("update, page in its frame", hit, DONE),
        base.at("update, page absent", miss, DONE),
        evicted.at("update, page evicted", hit, DONE),
        base.at("update, refused 6", held, refused(6)),
        mixed.at("update, refused 7", hit, refused(7)),
        base.at("commit, no record", commit_none, DONE),
        base.at(&format!("commit, {on_a_page} on a page"), commit_page, DONE),
        base.at(&format!("commit, {on_many} on as many pages"), commit_many, DONE),
        base.at("abort, no record", abort_none, DONE),
        base.at(&format!("abort, {on_a_page} on a page"), abort_page, DONE),
        base.at(&format!("abort, {on_many} on as many pages"), abort_many, DONE),
        in_frame.at("evict", Call::Evict { page: 0 }, DONE),
        committed.at("compact, not due", not_due, NOT_DUE),
        committed.at("compact, from its frame", compact, DONE),
        evicted.at("compact, evicted", compact, DONE),
        mixed.at("compact, some uncommitted", compact, DONE),
        base.at("close", Call::Close, DONE),
        base.at("checkpoint, nothing due", none_due, DONE),
        base.at("checkpoint, some pages due", some_due, DONE),
        base.at("checkpoint, every page due", all_due, DONE),
        base.at("restart", Call::Restart, DONE),
        base.at("format", Call::Format { sizes, last: 7 }, DONE),
    ]
}

/// The commonest calls on a store that is new, but for the records that they need.
fn each_call_on_empty(sizes: Sizes) -> Vec<Situation> {
    let mut base = Maker::new(sizes);
    base.begin([WITH_NONE]);
    let in_frame = base.then(&[read(0)]);
    let one = base.then(&[update(0, 0)]);
    vec![
        base.at("begin, refused 5: the check alone", Call::Begin { number: WITH_NONE }, refused(5)),
        base.at("begin", Call::Begin { number: NOT_LIVE }, DONE),
        in_frame.at("read, page in its frame", read(0), DONE),
        in_frame.at("update, page in its frame", update(0, 0), DONE),
        one.at("commit, one record", Call::Commit { number: WITH_NONE }, DONE),
        one.at("abort, one record", Call::Abort { number: WITH_NONE }, DONE),
        one.at("checkpoint, nothing due", Call::Checkpoint { min_del: 1, max_age: 0 }, DONE),
        base.at("restart", Call::Restart, DONE),
    ]
}

/// A page with as many records as there can be, dropped and read again: they are all applied. One kind and length a
/// store, then all of them by chance.
pub fn rebuilds() -> Vec<Situation> {
    let mut all = Vec::new();
    for (kind, verb) in [(SET, "sets"), (ADD, "adds")] {
        for length in [1, 2, 4, 8] {
            all.push(rebuilt(&format!("512 {verb} of {length}"), |_| (kind, length)));
        }
    }
    all.push(rebuilt("512 of either, each length", |chance| (chance.pick(&[SET, ADD]), chance.pick(&[1, 2, 4, 8]))));
    all
}

/// Page 0 has 512 committed records of the kinds and lengths that are given, and is in no frame.
fn rebuilt(name: &str, each: impl Fn(&mut Random) -> (u8, u32)) -> Situation {
    let mut base = Maker::new(LARGEST);
    let mut chance = Random::new(2);
    base.begin([GONE, WITH_NONE]);
    for i in 0..LARGEST.online_size {
        let (kind, length) = each(&mut chance);
        base.make(&[Call::Update { number: GONE, page: 0, offset: 8 * i, length, kind: kind.into(), value: 3 }]);
    }
    base.make(&[Call::Commit { number: GONE }, Call::Evict { page: 0 }]);
    base.at(name, read(0), DONE)
}

/// What the online table holds while it grows.
#[derive(Clone, Copy, PartialEq, Eq)]
pub enum Shape {
    Committed,
    OnePage,
    ManyPages,
}

impl Shape {
    pub const ALL: [(Shape, &'static str); 3] = [
        (Shape::Committed, "committed"),
        (Shape::OnePage, "eight owners, one page"),
        (Shape::ManyPages, "eight owners, many pages"),
    ];
}

/// So many pages have records at each size, where rows alone should grow.
const FEW_PAGES: u32 = 31;

/// Calls on an online table of that size, full but for one row. The other tables stay: 256 pages, 16 frames, 512 log
/// records.
pub fn online_growth(shape: Shape, online_size: u32) -> Vec<Situation> {
    let sizes = Sizes { page_size: 4096, pages: 256, frames: 16, online_size, log_size: 512 };
    let mut base = Maker::new(sizes);
    let mut few = base.clone();
    base.begin([WITH_NONE]);
    if shape == Shape::Committed {
        base.commit_spread(online_size - 1, sizes.pages - 1);
        few.commit_spread(online_size - 1, FEW_PAGES);
    } else {
        base.begin(1..=8);
        for i in 0..online_size - 1 {
            let number = 1 + i % 8;
            match shape {
                Shape::OnePage => base.record(number, 0, 8 * i),
                _ => base.record(number, 7 * i % (sizes.pages - 1), 8 * number),
            }
        }
    }
    let all_due = Call::Checkpoint { min_del: 1, max_age: 0 };
    // A page that no record is on, so that each shape meets the same.
    let page = base.absent();
    let in_frame = base.then(&[read(page)]);
    let mut all = vec![
        base.at("begin, refused 5: the check alone", Call::Begin { number: WITH_NONE }, refused(5)),
        in_frame.at("read", read(page), DONE),
        in_frame.at("update", update(page, 0), DONE),
    ];
    all.extend(match shape {
        Shape::Committed => vec![
            base.at("compact, evicted", Call::Compact { page: 1, min_del: 1, max_age: 0 }, DONE),
            base.at("close", Call::Close, DONE),
            base.at("checkpoint, every page due", all_due, DONE),
            few.at(&format!("checkpoint, {FEW_PAGES} pages due"), all_due, DONE),
            base.at("restart", Call::Restart, DONE),
        ],
        _ => vec![
            base.at("commit, an eighth of the rows", Call::Commit { number: 1 }, DONE),
            base.at("abort, an eighth of the rows", Call::Abort { number: 1 }, DONE),
        ],
    });
    all
}

/// Calls on a log of that size, full but for eight rows; 32 of its records are online, and the oldest of these stands
/// in its middle. The other tables stay: 256 pages, 16 frames, 64 online records.
pub fn log_growth(log_size: u32) -> Vec<Situation> {
    let sizes = Sizes { page_size: 4096, pages: 256, frames: 16, online_size: 64, log_size };
    let mut base = Maker::new(sizes);
    base.fill_log(log_size / 2);
    base.commit_spread(32, sizes.pages - 1);
    base.fill_log(log_size - 8);
    base.begin([WITH_NONE]);
    let one = base.then(&[update(0, 0)]);
    vec![
        base.at("begin, refused 5: the check alone", Call::Begin { number: WITH_NONE }, refused(5)),
        one.at("commit, one record", Call::Commit { number: WITH_NONE }, DONE),
        base.at("close, half of the log dropped", Call::Close, DONE),
        base.at("restart", Call::Restart, DONE),
    ]
}
