//! Random sessions. A session is its seed: the seed fixes the sizes, the style and every step.
//!
//! What a session must do, because milder ones let real faults pass: hold several transactions open over evictions,
//! compactions and checkpoints; reissue numbers at once; lose power after every durable write, each step of a
//! checkpoint too, with the lost part full of garbage, of zeros, of its old bytes; restart without a loss; format
//! anew; bring L to its end; use every page size and the smallest and largest of every table. Wild sessions change
//! bytes behind the store's back and call it in the dark: states that are sound and that no history reaches.

use crate::areas::{dirty_at, put4, stamp_at, Areas, Sizes};
use crate::calls::{Call, Store};
use crate::coverage::Coverage;
use crate::machine::{Fill, Judges, Machine, Step};
use crate::random::Random;
use crate::record::Record;
use crate::sound;
use std::collections::VecDeque;

/// What the seed decides before the first step.
pub struct Profile {
    pub name: &'static str,
    sizes: Sizes,
    last: u32,
    /// How many calls to make.
    length: u64,
    /// Transaction numbers in play: few, so that they are reissued, or all 32.
    numbers: u32,
    /// Of these, how many are seldom ended: they stay open over everything else.
    sitters: u32,
    /// Many updates and few endings, to fill large tables.
    filling: bool,
    /// After every durable write the power is lost, in a copy, and the copy must come back.
    losing: bool,
    pub wild: bool,
}

impl Profile {
    /// Consecutive seeds go through all the styles, so a run of any 64 seeds has each of them.
    pub fn of(seed: u64) -> Profile {
        let mut random = Random::new(seed ^ 0x5eed);
        let sizes = Sizes {
            page_size: random.pick(&[512, 512, 512, 512, 512, 1024, 2048, 4096]),
            pages: random.between(1, 8),
            frames: random.between(1, 4),
            online_size: random.between(1, 10),
            log_size: random.between(1, 14),
        };
        let mut profile = Profile {
            name: "small",
            sizes,
            last: random.pick(&[0, 0, 1, 1000, 4_000_000_000]),
            length: 400,
            numbers: random.between(2, 6),
            sitters: random.between(0, 2),
            filling: false,
            losing: false,
            wild: false,
        };
        match seed % 64 {
            0 => {
                profile.name = "largest of everything";
                profile.sizes = Sizes { page_size: 4096, pages: 1024, frames: 64, online_size: 512, log_size: 2048 };
                profile.numbers = 32;
                profile.filling = true;
                profile.length = 250;
            }
            1 => {
                profile.name = "smallest of everything";
                profile.sizes = Sizes { page_size: 512, pages: 1, frames: 1, online_size: 1, log_size: 1 };
                profile.losing = true;
            }
            2 => {
                profile.name = "largest tables";
                let pages = random.pick(&[3, 40, 200]);
                profile.sizes = Sizes { page_size: 512, pages, frames: 64, online_size: 512, log_size: 2048 };
                profile.numbers = random.pick(&[4, 32]);
                profile.filling = true;
                profile.length = 6000;
            }
            3 => {
                profile.name = "many pages";
                profile.sizes = Sizes { page_size: 512, pages: 1024, frames: 8, online_size: 40, log_size: 100 };
                profile.length = 300;
            }
            4..=5 => {
                profile.name = "many frames";
                profile.sizes = Sizes { pages: 24, frames: 16, online_size: 30, log_size: 60, ..sizes };
                profile.numbers = 32;
            }
            6..=13 => {
                profile.name = "L near its end";
                profile.last = u32::MAX - random.below(30);
            }
            14..=27 => {
                profile.name = "losing power at every durable write";
                profile.sizes = Sizes { page_size: 512, pages: random.between(1, 4), ..sizes };
                profile.last = random.pick(&[0, 7, u32::MAX - 20]);
                profile.losing = true;
                profile.length = 1500;
            }
            28..=39 => {
                profile.name = "wild";
                // Often a log that holds more than the online table, for the restart that refuses.
                let (online_size, log_size) = random.pick(&[(sizes.online_size, sizes.log_size), (2, 12), (3, 14)]);
                profile.sizes = Sizes { online_size, log_size, ..sizes };
                profile.last = random.pick(&[0, 3, 50, u32::MAX - 10]);
                profile.wild = true;
            }
            40 => {
                profile.name = "wild, largest tables";
                let pages = random.pick(&[2, 60]);
                profile.sizes = Sizes { page_size: 512, pages, frames: 64, online_size: 512, log_size: 2048 };
                profile.wild = true;
            }
            41..=44 => {
                profile.name = "smallest beside largest";
                profile.sizes = Sizes {
                    page_size: 512,
                    pages: random.pick(&[1, 3, 1024]),
                    frames: random.pick(&[1, 64]),
                    online_size: random.pick(&[1, 512]),
                    log_size: random.pick(&[1, 2048]),
                };
                profile.last = random.pick(&[0, u32::MAX - 40]);
            }
            _ => (),
        }
        profile
    }

    /// How large its stores are.
    pub fn stored_bytes(&self) -> usize {
        self.sizes.lengths()[3]
    }
}

/// What one session came to.
pub struct Ran {
    pub calls: u64,
    /// The areas at its end.
    pub areas: Areas,
    /// The steps up to the failing one, and why it failed.
    pub failure: Option<(Vec<Step>, String)>,
}

/// Runs the session of a seed, at most `most` calls of it.
pub fn run<S: Store + Clone>(store: &S, judges: Judges, seed: u64, most: u64, coverage: &mut Coverage) -> Ran {
    let profile = Profile::of(seed);
    let judges = Judges { wild: profile.wild, ..judges };
    let length = profile.length.min(most);
    let mut machine = Machine::new(store, judges);
    let mut maker = Maker { random: Random::new(seed), plan: VecDeque::new(), profile };
    let mut steps: Vec<Step> = Vec::new();
    let mut failure = None;
    maker.lend_and_format(maker.profile.sizes, maker.profile.last);
    // A wild session may pass many steps that are no calls: they must not make it endless.
    while machine.calls < length && (steps.len() as u64) < 2 * length && failure.is_none() {
        let step = maker.next(&machine.areas);
        if maker.profile.losing {
            failure = lose_inside(&mut machine, &step, &steps, &mut maker.random, coverage).err();
            if failure.is_some() {
                break;
            }
        }
        let result = machine.step(&step, coverage);
        maker.follow(&machine.areas, &step);
        let formats = matches!(step, Step::Call(Call::Format { .. }));
        steps.push(step);
        match result {
            Err(why) => failure = Some((steps.clone(), why)),
            // A format is a durable write too, though it counts none.
            Ok(Some(reply)) if reply.writes + reply.logs > 0 || (formats && reply.accepted()) => {
                if maker.profile.losing {
                    failure = lose_after(&mut machine, &steps, &mut maker.random, coverage).err();
                }
            }
            Ok(_) => (),
        }
    }
    Ran { calls: machine.calls, areas: machine.areas, failure }
}

fn fills(random: &mut Random) -> [Fill; 3] {
    [Fill::Zeros, Fill::Old, Fill::Garbage(random.next())]
}

/// After a durable write: loses the power, in copies, and the copies must come back.
fn lose_after<S: Store + Clone>(
    machine: &mut Machine<S>,
    steps: &[Step],
    random: &mut Random,
    coverage: &mut Coverage,
) -> Result<(), (Vec<Step>, String)> {
    for fill in fills(random) {
        machine.calls = come_back(machine.clone(), Step::Loss { fill }, steps, coverage)?;
    }
    Ok(())
}

/// Before a checkpoint: loses the power, in copies, after each of its first steps.
fn lose_inside<S: Store + Clone>(
    machine: &mut Machine<S>,
    step: &Step,
    steps: &[Step],
    random: &mut Random,
    coverage: &mut Coverage,
) -> Result<(), (Vec<Step>, String)> {
    let Step::Call(Call::Checkpoint { min_del: min_del @ 1..=512, max_age }) = *step else { return Ok(()) };
    for done in 0..=machine.areas.sizes().pages + 1 {
        for fill in fills(random) {
            let loss = Step::LossInCheckpoint { min_del, max_age, steps: done, fill };
            machine.calls = come_back(machine.clone(), loss, steps, coverage)?;
        }
    }
    Ok(())
}

/// Loses the power, restarts, restarts again, and reads every page whole. Gives the calls made up to there, or the
/// steps that lead to what is wrong.
fn come_back<S: Store + Clone>(
    mut machine: Machine<S>,
    loss: Step,
    steps: &[Step],
    coverage: &mut Coverage,
) -> Result<u64, (Vec<Step>, String)> {
    let sizes = machine.areas.sizes();
    // A wrong store may have taken the format and written no sizes: then there are no pages to read.
    let pages = if sizes.in_range() { sizes.pages } else { 0 };
    let mut tail =
        vec![loss, Step::Call(Call::Restart), Step::Call(Call::Restart), Step::Call(Call::Begin { number: 1 })];
    let (length, room) = (sizes.page_size, sizes.page_size);
    let read = |page| Call::Read { number: 1, page, offset: 0, length, room };
    tail.extend((0..pages).map(|page| Step::Call(read(page))));
    for (i, step) in tail.iter().enumerate() {
        machine.step(step, coverage).map_err(|why| ([steps, &tail[..=i]].concat(), why))?;
    }
    Ok(machine.calls)
}

const OWN_FROM: u32 = 790;
const RESTART_FROM: u32 = 970;

/// Makes the steps. It looks at the tables, so that most calls are about something.
pub struct Maker {
    random: Random,
    profile: Profile,
    /// Steps that must come next.
    plan: VecDeque<Step>,
}

impl Maker {
    /// A maker for a pair of stores (pair.rs), which is asked for single calls.
    pub fn for_pair(seed: u64, sizes: Sizes, last: u32) -> Maker {
        let mut random = Random::new(seed);
        let (numbers, sitters) = (random.between(2, 6), random.between(0, 2));
        let (filling, losing, wild) = (false, false, false);
        let profile = Profile { name: "pair", sizes, last, length: 0, numbers, sitters, filling, losing, wild };
        Maker { random, plan: VecDeque::new(), profile }
    }

    /// A call of a transaction: one that follows from the last, or a new one, sometimes out of its range.
    pub fn transaction(&mut self, a: &Areas) -> Call {
        if let Some(Step::Call(call)) = self.plan.pop_front() {
            return call;
        }
        let nobody_live = !(1..=32).any(|number| a.is_live(number));
        let roll = if nobody_live && self.random.percent(60) { 0 } else { self.random.below(OWN_FROM) };
        let call = self.rolled(a, roll);
        let call = if self.random.percent(4) { self.spoil(a, call) } else { call };
        self.follow(a, &Step::Call(call));
        call
    }

    /// A call that is the store's own affair: evict, compact, close or checkpoint.
    pub fn own(&mut self, a: &Areas) -> Call {
        let roll = self.random.between(OWN_FROM, RESTART_FROM - 1);
        self.rolled(a, roll)
    }

    fn lend_and_format(&mut self, sizes: Sizes, last: u32) {
        let seed = self.random.next();
        let fill = if self.random.percent(50) { Fill::Zeros } else { Fill::Garbage(seed) };
        self.plan.push_back(Step::Lend { sizes, fill });
        self.plan.push_back(Step::Call(Call::Format { sizes, last }));
    }

    /// What must follow a step: a loss wants a restart, an ended number is often reissued at once.
    fn follow(&mut self, a: &Areas, step: &Step) {
        match *step {
            Step::Loss { .. } | Step::LossInCheckpoint { .. } => {
                for _ in 0..if self.profile.wild { 3 } else { 0 } {
                    let in_the_dark = self.call(a);
                    self.plan.push_back(Step::Call(in_the_dark));
                }
                let call = if self.random.percent(8) { self.format() } else { Call::Restart };
                self.plan.push_back(Step::Call(call));
                self.plan.push_back(Step::Call(Call::Restart));
            }
            Step::Call(Call::Commit { number } | Call::Abort { number }) if self.random.percent(40) => {
                self.plan.push_back(Step::Call(Call::Begin { number }));
                if self.random.percent(25) {
                    self.plan.push_back(Step::Call(Call::Abort { number }));
                }
            }
            _ => (),
        }
    }

    fn next(&mut self, a: &Areas) -> Step {
        if let Some(step) = self.plan.pop_front() {
            return step;
        }
        // Tampered lengths or sizes leave nothing to look at.
        if a.fixed.len() != 20 || !a.sizes().in_range() || !sound::lengths_fit(a, &a.sizes()) {
            self.lend_and_format(self.profile.sizes, self.profile.last);
            return self.plan.pop_front().unwrap();
        }
        if self.profile.wild && self.random.percent(8) {
            return Step::Make { sizes: self.profile.sizes, seed: self.random.next() };
        }
        if self.profile.wild && self.random.percent(12) {
            if let Some(step) = self.tamper(a) {
                return step;
            }
        }
        if self.profile.filling && a.online_count() == a.sizes().online_size && self.random.percent(10) {
            self.empty_online(a);
        }
        let nobody_live = !(1..=32).any(|number| a.is_live(number));
        let call =
            if nobody_live && self.random.percent(60) { Call::Begin { number: self.number() } } else { self.call(a) };
        if self.random.percent(4) {
            return Step::Call(self.spoil(a, call));
        }
        match call {
            // One restart in three comes without a loss; the others follow one.
            Call::Restart => self.loss(a),
            call => Step::Call(call),
        }
    }

    /// A power loss, or a restart without one.
    pub fn loss(&mut self, a: &Areas) -> Step {
        let all = fills(&mut self.random);
        let fill = self.random.pick(&all);
        match self.random.below(3) {
            0 => Step::Call(Call::Restart),
            1 => Step::Loss { fill },
            _ => {
                let (min_del, max_age) = self.due();
                let steps = self.random.between(0, a.sizes().pages + 1);
                Step::LossInCheckpoint { min_del, max_age, steps, fill }
            }
        }
    }

    fn call(&mut self, a: &Areas) -> Call {
        let roll = self.random.below(1000);
        if self.profile.filling {
            return match roll {
                0..=39 => Call::Begin { number: self.number() },
                40..=99 => self.read(a),
                100..=899 => self.update(a),
                900..=939 => Call::Commit { number: self.ending(a) },
                940..=942 => Call::Abort { number: self.ending(a) },
                943..=959 => Call::Evict { page: self.page(a) },
                // What empties the log or the tables is rare before the log is full.
                996..=999 if a.logged() == a.sizes().log_size || self.random.percent(8) => {
                    let checkpoint = self.checkpoint();
                    self.random.pick(&[checkpoint, Call::Close, Call::Restart])
                }
                _ => Call::Compact { page: self.page_to_fold(a), min_del: 1, max_age: 0 },
            };
        }
        self.rolled(a, roll)
    }

    /// Calls of transactions first, from OWN_FROM the store's own, from RESTART_FROM what starts anew.
    fn rolled(&mut self, a: &Areas, roll: u32) -> Call {
        match roll {
            0..=119 => Call::Begin { number: self.number() },
            120..=339 => self.read(a),
            340..=639 => self.update(a),
            640..=739 => Call::Commit { number: self.ending(a) },
            740..=789 => Call::Abort { number: self.ending(a) },
            OWN_FROM..=849 => Call::Evict { page: self.page(a) },
            850..=919 => {
                let (min_del, max_age) = self.due();
                Call::Compact { page: self.page_to_fold(a), min_del, max_age }
            }
            920..=944 => Call::Close,
            945..=969 => self.checkpoint(),
            RESTART_FROM..=994 => Call::Restart,
            _ => self.format(),
        }
    }

    /// Commits and folds everything without a close: so a large log comes to its end as well.
    fn empty_online(&mut self, a: &Areas) {
        let live = (1..=32).filter(|&number| a.is_live(number));
        self.plan.extend(live.flat_map(|number| [Call::Commit { number }, Call::Begin { number }]).map(Step::Call));
        let dirty = (0..a.sizes().pages).filter(|&page| a.entry(page) % 2 == 1);
        self.plan.extend(dirty.map(|page| Step::Call(Call::Compact { page, min_del: 1, max_age: 0 })));
    }

    fn number(&mut self) -> u32 {
        self.random.between(1, self.profile.numbers)
    }

    /// A live number, mostly.
    fn live(&mut self, a: &Areas) -> u32 {
        let number = self.number();
        if self.random.percent(7) {
            return number;
        }
        let around = (0..32).map(|i| (number - 1 + i) % 32 + 1).find(|&number| a.is_live(number));
        around.unwrap_or(number)
    }

    /// A number to end. Sitters are seldom chosen.
    fn ending(&mut self, a: &Areas) -> u32 {
        let number = self.live(a);
        if number <= self.profile.sitters && !self.random.percent(15) {
            return self.live(a);
        }
        number
    }

    /// Low pages are hotter.
    fn page(&mut self, a: &Areas) -> u32 {
        let pages = a.sizes().pages;
        let end = if self.random.percent(60) { pages.min(3) } else { pages };
        self.random.below(end)
    }

    /// A page with committed records, mostly.
    fn page_to_fold(&mut self, a: &Areas) -> u32 {
        let pages: Vec<u32> =
            a.online_rows().filter(|row| row[14] == 0).map(|row| Record::read(row).page.into()).collect();
        if pages.is_empty() || self.random.percent(15) {
            return self.page(a);
        }
        self.random.pick(&pages)
    }

    /// A place for so many bytes: often the same few, so that records overlap; sometimes at the page's end.
    fn offset(&mut self, a: &Areas, length: u32) -> u32 {
        let most = a.sizes().page_size - length;
        match self.random.below(10) {
            0..=6 => self.random.below(13).min(most),
            7 => most - self.random.below(4).min(most),
            _ => self.random.below(most + 1),
        }
    }

    fn read(&mut self, a: &Areas) -> Call {
        let size = a.sizes().page_size;
        let length = match self.random.below(10) {
            0..=5 => self.random.between(1, 12),
            6..=7 => size,
            _ => self.random.between(1, size),
        };
        let room = if self.random.percent(4) { self.random.below(length) } else { length + self.random.below(3) };
        Call::Read { number: self.live(a), page: self.page(a), offset: self.offset(a, length), length, room }
    }

    fn update(&mut self, a: &Areas) -> Call {
        let length = self.random.pick(&[1, 2, 4, 8]);
        let most = u64::MAX >> (64 - 8 * length);
        let any = self.random.next() & most;
        let value = self.random.pick(&[any, any, any, most, 0, 1]);
        let page = if self.profile.filling { self.random.below(a.sizes().pages) } else { self.page(a) };
        let (number, offset, kind) = (self.live(a), self.offset(a, length), self.random.below(2));
        Call::Update { number, page, offset, length, kind, value }
    }

    /// Arguments of compact and checkpoint.
    fn due(&mut self) -> (u32, u32) {
        let any = self.random.next() as u32;
        let min_del = self.random.pick(&[1, 1, 1, 2, 3, 16, 512]);
        (min_del, self.random.pick(&[0, 1, 2, 3, 5, 8, u32::MAX, any]))
    }

    fn checkpoint(&mut self) -> Call {
        let (min_del, max_age) = self.due();
        Call::Checkpoint { min_del, max_age }
    }

    /// A new format over the same areas: the stored pages are the new start. One in three gets new areas and sizes.
    fn format(&mut self) -> Call {
        let mut sizes = self.profile.sizes;
        let last = self.random.pick(&[0, 2, self.profile.last, u32::MAX - 3, u32::MAX]);
        if self.random.percent(33) && sizes.pages < 100 {
            sizes.pages = self.random.between(1, 8);
            sizes.frames = self.random.between(1, 4);
            sizes.online_size = self.random.between(1, 10);
            self.profile.sizes = sizes;
            self.lend_and_format(sizes, last);
        }
        // With new areas on their way this one is of the wrong lengths: refused, and nothing changes.
        Call::Format { sizes, last }
    }

    /// The call with one argument out of its range, or at the end of it.
    fn spoil(&mut self, a: &Areas, call: Call) -> Call {
        let s = a.sizes();
        let bad_number = self.random.pick(&[0, 33, 34, 255, 256, 257, u32::MAX]);
        let bad_page = self.random.pick(&[s.pages, s.pages + 1, 65_536, u32::MAX]);
        let which = self.random.below(6);
        match call {
            Call::Begin { .. } => Call::Begin { number: bad_number },
            Call::Commit { .. } => Call::Commit { number: bad_number },
            Call::Abort { .. } => Call::Abort { number: bad_number },
            Call::Evict { .. } => Call::Evict { page: bad_page },
            Call::Read { number, page, offset, length, room } => match which {
                0 => Call::Read { number: bad_number, page, offset, length, room },
                1 => Call::Read { number, page: bad_page, offset, length, room },
                2 => Call::Read { number, page, offset: s.page_size - length + 1, length, room },
                3 => {
                    // A sum of 32 bits that comes round to 0, or to 1.
                    let offset = 0u32.wrapping_sub(length).wrapping_add(self.random.below(2));
                    Call::Read { number, page, offset, length, room }
                }
                4 => Call::Read {
                    number,
                    page,
                    offset: 0,
                    length: self.random.pick(&[0, s.page_size + 1, u32::MAX]),
                    room,
                },
                _ => Call::Read { number, page, offset: s.page_size, length: 0, room },
            },
            Call::Update { number, page, offset, length, kind, value } => match which {
                0 => Call::Update { number: bad_number, page, offset, length, kind, value },
                1 => Call::Update { number, page: bad_page, offset, length, kind, value },
                2 => Call::Update { number, page, offset: s.page_size - length + 1, length, kind, value },
                3 => Call::Update { number, page, offset: 0u32.wrapping_sub(length), length, kind, value },
                4 => {
                    let length = self.random.pick(&[0, 3, 5, 6, 7, 9, 16, 256 + length, u32::MAX]);
                    Call::Update { number, page, offset: 0, length, kind, value: value & 255 }
                }
                _ if length < 8 && self.random.percent(50) => {
                    Call::Update { number, page, offset, length, kind, value: 1 << (8 * length) }
                }
                _ => Call::Update { number, page, offset, length, kind: self.random.pick(&[2, 256, u32::MAX]), value },
            },
            Call::Compact { page, max_age, .. } if which < 3 => {
                Call::Compact { page, min_del: self.random.pick(&[0, 513, u32::MAX]), max_age }
            }
            Call::Compact { min_del, max_age, .. } => Call::Compact { page: bad_page, min_del, max_age },
            Call::Checkpoint { max_age, .. } => {
                Call::Checkpoint { min_del: self.random.pick(&[0, 513, 1 << 16, u32::MAX]), max_age }
            }
            Call::Format { mut sizes, last } => {
                match which {
                    0 => sizes.page_size = self.random.pick(&[0, 256, 511, 513, 768, 8192, u32::MAX]),
                    1 => sizes.pages = self.random.pick(&[0, 1025, u32::MAX, sizes.pages + 1]),
                    2 => sizes.frames = self.random.pick(&[0, 65, u32::MAX, sizes.frames + 1]),
                    3 => sizes.online_size = self.random.pick(&[0, 513, u32::MAX, sizes.online_size + 1]),
                    4 => sizes.log_size = self.random.pick(&[0, 2049, u32::MAX, sizes.log_size + 1]),
                    _ => std::mem::swap(&mut sizes.pages, &mut sizes.frames),
                }
                Call::Format { sizes, last }
            }
            Call::Close | Call::Restart => call,
        }
    }

    /// Changes bytes so that the store stays sound, mostly; else they are put back a few calls later.
    fn tamper(&mut self, a: &Areas) -> Option<Step> {
        let s = a.sizes();
        let (pages, last, kay) = (s.pages, a.last(), a.kay());
        let first = a.first().min(u32::MAX.into()) as u32;
        for _ in 0..8 {
            let page = self.random.below(pages);
            let four = |number: u32| number.to_le_bytes().to_vec();
            let near = |random: &mut Random, low: u32, high: u32| random.between(low.min(high), high.max(low));
            let (area, at, bytes) = match self.random.below(12) {
                0 | 1 => {
                    // One that was not 0, if there is one: then the dirty table alone decides at a restart.
                    let page = (0..pages).map(|i| (page + i) % pages).find(|&page| a.dirty(page) != 0).unwrap_or(page);
                    (1, dirty_at(pages, page), four(0))
                }
                2 => (1, dirty_at(pages, page), four(near(&mut self.random, first, kay))),
                3 => {
                    // All stamps at once: then more records may enter at a restart than the table holds.
                    let mut stamps = vec![0; 4 * pages as usize];
                    let low = first.saturating_sub(1).min(last);
                    (0..pages as usize).for_each(|page| put4(&mut stamps, 4 * page, low));
                    (1, stamp_at(0), stamps)
                }
                4 => (1, stamp_at(page), four(near(&mut self.random, first.saturating_sub(1), last))),
                5 => (1, 4, four(near(&mut self.random, first.saturating_sub(1), last))),
                6 => (6, self.random.below(s.frames * s.page_size) as usize, vec![self.random.next() as u8; 3]),
                7 => (3, self.random.below(pages * s.page_size) as usize, vec![self.random.next() as u8; 3]),
                8 => (4, 3 + self.random.below(32) as usize, vec![self.random.below(2) as u8]),
                9 => (2, self.random.below(14 * s.log_size) as usize, vec![self.random.next() as u8]),
                10 => (5, self.random.below(19 * s.online_size) as usize, vec![self.random.below(9) as u8]),
                _ => (4, self.random.below(35 + s.frames + pages) as usize, vec![self.random.below(12) as u8]),
            };
            let mut changed = a.clone();
            let Some(place) = changed.each_mut()[area].get_mut(at..at + bytes.len()) else { continue };
            let old = place.to_vec();
            place.copy_from_slice(&bytes);
            let sound = sound::broken(&changed).none();
            if sound || self.random.percent(4) {
                if !sound {
                    for _ in 0..3 {
                        let call = self.call(a);
                        self.plan.push_back(Step::Call(call));
                    }
                    self.plan.push_back(Step::Tamper { area, at, bytes: old });
                } else if area == 1 && self.random.percent(40) {
                    // It is a restart that looks at stamps and the dirty table.
                    self.plan.push_back(Step::Call(Call::Restart));
                }
                return Some(Step::Tamper { area, at, bytes });
            }
        }
        None
    }
}

#[cfg(test)]
mod tests {
    use super::*;
    use crate::twin::Twin;

    #[test]
    fn sessions_of_every_style_hold() {
        let judges = Judges { twin: false, history: true, wild: false };
        let mut coverage = Coverage::new();
        for seed in 1..64 {
            let ran = run(&Twin, judges, seed, 300, &mut coverage);
            assert!(ran.failure.is_none(), "seed {seed}: {}", ran.failure.unwrap().1);
        }
    }

    #[test]
    fn a_seed_makes_the_same_session_again() {
        let judges = Judges { twin: false, history: false, wild: false };
        let calls = |seed| run(&Twin, judges, seed, 300, &mut Coverage::new()).calls;
        assert_eq!(calls(41), calls(41));
    }
}
