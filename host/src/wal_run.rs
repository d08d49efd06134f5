//! What a writer and judge of write-ahead logs is held to: the worked examples by their bytes, cases by name, then
//! flipped bytes, cuts, random bytes and chance, beside the second program; stores by chance, with uncommitted records
//! and evicted pages, written as logs and read back.

use crate::areas::{Areas, Lent, Reply, Sizes};
use crate::calls::{Call, Store};
use crate::fence;
use crate::journal::{get, put};
use crate::random::Random;
use crate::states;
use crate::twin::Twin;
use crate::wal::{self, Found, Given, Judged, Second, Wal, BAD_ORDER, BAD_PAGE, FRAME, HEADER};

/// A writer and judge under test: every call is compared, and its guards are looked at.
pub struct Trial<'a> {
    subject: &'a dyn Wal,
    random: Random,
    percent: u64,
    calls: u64,
}

type Outcome = Result<(), String>;
type Phase = fn(&mut Trial) -> Outcome;

pub const PHASES: &[(&str, Phase)] = &[
    ("the worked examples, by their bytes", worked_examples),
    ("cases of judging, by name", cases_of_judging),
    ("cases of writing, by name", cases_of_writing),
    ("several refusals at once: the first stands", order_of_refusals),
    ("each bit of a small log flipped", flips),
    ("each cut of a small log", cuts),
    ("fields at the ends of 32 bits, each page size", ends),
    ("logs by chance, whole and damaged", by_chance),
    ("stores by chance, written and read back", from_stores),
    ("stores that are not sound", not_sound),
];

/// For a subject that is lent the bytes themselves: no copy could be made.
pub const LARGE: (&str, Phase) = ("slices longer than 32 bits can say", longer_than_32_bits);

/// Runs a phase on the subject. Gives how many calls were compared.
pub fn run(subject: &dyn Wal, phase: Phase, seed: u64, percent: u64) -> Result<u64, String> {
    let mut trial = Trial { subject, random: Random::new(seed), percent, calls: 0 };
    phase(&mut trial).map(|()| trial.calls)
}

impl Trial<'_> {
    fn rounds(&self, full: u64) -> u64 {
        (full * self.percent / 100).max(1)
    }

    /// Of the flips and cuts a hundredth is an odd number apart, so that every bit of a byte has its turn.
    fn step(&self) -> usize {
        if self.percent >= 5 {
            1
        } else {
            101
        }
    }

    fn judge(&mut self, file: &[u8]) -> Result<Judged, String> {
        let (got, right) = (self.subject.judge(file), Second.judge(file));
        self.calls += 1;
        if got != right {
            return Err(format!("judge {} bytes: the second program answers {right}, this one {got}", file.len()));
        }
        Ok(got)
    }

    fn find(&mut self, file: &[u8], page: u32) -> Result<Found, String> {
        let (got, right) = (self.subject.find(file, page), Second.find(file, page));
        self.calls += 1;
        if got != right {
            let length = file.len();
            return Err(format!(
                "find page {page} in {length} bytes: the second program answers {right}, this one {got}"
            ));
        }
        Ok(got)
    }

    /// Judges, and finds every page up to one past the highest, and some numbers beside.
    fn all(&mut self, file: &[u8], highest: u32) -> Result<Judged, String> {
        for page in (0..=highest + 1).chain([1 << 31, u32::MAX]) {
            self.find(file, page)?;
        }
        self.judge(file)
    }

    /// Writes to a copy of the target, compares, and gives what came out.
    fn write(&mut self, store: &Areas, list: &[u32], target: &[u8], given: &Given) -> Result<(Reply, Vec<u8>), String> {
        let mut lent = Lent::zeros(target.len());
        lent.copy_from_slice(target);
        let got = self.subject.write(store, list, &mut lent, given);
        let mut right_target = target.to_vec();
        let right = Second.write(store, list, &mut right_target, given);
        self.calls += 1;
        let said = format!("write pages {list:?}, {given:?}, into {} bytes", target.len());
        if got != right {
            return Err(format!("{said}: the second program answers {right}, this one {got}"));
        }
        if lent[..] != right_target {
            let at = (0..lent.len()).find(|&i| lent[i] != right_target[i]).unwrap_or(0);
            return Err(format!("{said}: byte {at} afterwards: expected {}, got {}", right_target[at], lent[at]));
        }
        if !lent.guards_hold() {
            return Err(format!("{said}: a byte beside the target was written"));
        }
        Ok((got, lent.to_vec()))
    }

    fn must_judge(&mut self, name: &str, file: &[u8], right: Judged) -> Outcome {
        match self.judge(file) {
            Ok(got) if got == right => Ok(()),
            Ok(got) => Err(format!("{name}: expected {right}, got {got}")),
            Err(why) => Err(format!("{name}: {why}")),
        }
    }

    fn must_find(&mut self, name: &str, file: &[u8], page: u32, right: Found) -> Outcome {
        match self.find(file, page) {
            Ok(got) if got == right => Ok(()),
            Ok(got) => Err(format!("{name}, page {page}: expected {right}, got {got}")),
            Err(why) => Err(format!("{name}, page {page}: {why}")),
        }
    }

    fn must_write(
        &mut self,
        name: &str,
        store: &Areas,
        list: &[u32],
        room: usize,
        given: &Given,
        right: Reply,
    ) -> Outcome {
        let target = vec![0xa5; room];
        let (got, after) = self.write(store, list, &target, given).map_err(|why| format!("{name}: {why}"))?;
        if got != right {
            return Err(format!("{name}: expected {right}, got {got}"));
        }
        if got.code != 0 && after != target {
            return Err(format!("{name}: refused {}, yet the target was changed", got.code));
        }
        Ok(())
    }
}

fn accepted(frames: u64, end: u64) -> Judged {
    Judged { code: 0, frames, end }
}

fn refused(code: u32) -> Judged {
    Judged { code, frames: 0, end: 0 }
}

fn found(at: u64) -> Found {
    Found { code: 0, found: 1, at }
}

const NONE: Found = Found { code: 0, found: 0, at: 0 };

/// A frame to be made.
#[derive(Clone)]
struct Kept {
    page: u32,
    commit: u32,
    image: Vec<u8>,
    /// Taken instead of the log's own.
    salts: Option<[u32; 2]>,
    /// Added to the first sum after the frame was made; the running sums are not touched.
    wrong: u32,
}

impl Kept {
    fn new(page: u32, commit: u32, image: Vec<u8>) -> Kept {
        Kept { page, commit, image, salts: None, wrong: 0 }
    }
}

/// A log to be made, field by field.
#[derive(Clone)]
struct Made {
    page_size: u32,
    given: Given,
    frames: Vec<Kept>,
}

impl Made {
    fn bytes(&self) -> Vec<u8> {
        let (head, mut sums) = wal::header(self.page_size, &self.given);
        let mut bytes = head.to_vec();
        for kept in &self.frames {
            let mut frame = vec![0; FRAME];
            frame.extend(&kept.image);
            sums = wal::seal(&mut frame, kept.page, kept.commit, &self.given, sums);
            if let Some([salt_1, salt_2]) = kept.salts {
                put(&mut frame, 8, salt_1);
                put(&mut frame, 12, salt_2);
            }
            let s0 = get(&frame, 16);
            put(&mut frame, 16, s0.wrapping_add(kept.wrong));
            bytes.extend(frame);
        }
        bytes
    }

    fn with(&self, change: impl FnOnce(&mut Made)) -> Made {
        let mut made = self.clone();
        change(&mut made);
        made
    }
}

fn page_of(size: usize, first: u8) -> Vec<u8> {
    (0..size).map(|i| (i as u8).wrapping_mul(3).wrapping_add(first)).collect()
}

const GIVEN: [Given; 2] = [
    Given { salts: [0xdead_beef, 0x0102_0304], sequence: 7, order: 0 },
    Given { salts: [0xdead_beef, 0x0102_0304], sequence: 7, order: 1 },
];

/// Five frames: pages 2, 5 and a commit of 2 again, then 3, and 5 once more behind the last commit.
fn small(given: Given) -> Made {
    let image = |first: u8| page_of(512, first);
    let frames = vec![
        Kept::new(2, 0, image(1)),
        Kept::new(5, 0, image(2)),
        Kept::new(2, 6, image(3)),
        Kept::new(3, 0, image(4)),
        Kept::new(5, 0, image(5)),
    ];
    Made { page_size: 512, given, frames }
}

/// Where frame i's image begins in a log of page size 512.
fn at(i: u64) -> u64 {
    32 + 536 * i + 24
}

/// Page size 512, sequence 7, salts deadbeef 01020304; page 6 of 8, byte j = j mod 256: written, judged, found.
fn worked_examples(t: &mut Trial) -> Outcome {
    let sizes = Sizes { page_size: 512, pages: 8, frames: 2, online_size: 4, log_size: 8 };
    let mut store = Areas::for_sizes(&sizes);
    for (j, byte) in store.stored[5 * 512..6 * 512].iter_mut().enumerate() {
        *byte = j as u8;
    }
    let formatted = Twin.call(&mut store, &Call::Format { sizes, last: 0 }, &mut Lent::zeros(0));
    assert!(formatted.accepted());
    let heads = [
        [0x377f0682u32, 0x002de218, 0x200, 7, 0xdeadbeef, 0x01020304, 0xcb89b0f1, 0x8e668a97],
        [0x377f0683, 0x002de218, 0x200, 7, 0xdeadbeef, 0x01020304, 0xf4b289cd, 0x9c8d6691],
    ];
    let frames = [
        [6, 8, 0xdeadbeef, 0x01020304, 0x0717fbdb, 0xf4f9e822],
        [6, 8, 0xdeadbeef, 0x01020304, 0x16ca2140, 0x13d5c45c],
    ];
    for (order, given) in GIVEN.iter().enumerate() {
        let words = heads[order].into_iter().chain(frames[order]);
        let mut right: Vec<u8> = words.flat_map(u32::to_be_bytes).collect();
        right.extend((0..512).map(|j| j as u8));
        let (reply, written) = t.write(&store, &[5], &[0xee; 600], given)?;
        if reply != Reply::done(1, 0, 0) || written[..568] != right || written[568..] != [0xee; 32] {
            return Err(format!("order {order}: written with {reply}, or other bytes than those of the layout"));
        }
        t.must_judge("the worked example", &right, accepted(1, 568))?;
        t.must_find("the worked example", &right, 6, found(56))?;
        t.must_find("the worked example", &right, 5, NONE)?;
        // Bytes behind the log that do not go on with it.
        t.must_judge("the worked example in its target", &written, accepted(1, 568))?;
    }
    Ok(())
}

fn cases_of_judging(t: &mut Trial) -> Outcome {
    for given in GIVEN {
        let small = small(given);
        let whole = small.bytes();
        t.must_judge("five frames, commit in the third", &whole, accepted(5, 32 + 3 * 536))?;
        for (page, right) in
            [(1, NONE), (2, found(at(2))), (3, NONE), (4, NONE), (5, found(at(1))), (6, NONE), (7, NONE)]
        {
            t.must_find("five frames, commit in the third", &whole, page, right)?;
        }
        t.must_find("page 0 asked", &whole, 0, Found { code: BAD_PAGE, ..NONE })?;
        t.must_judge("no byte", &[], refused(16))?;
        t.must_judge("31 bytes", &whole[..31], refused(16))?;
        t.must_judge("a header alone", &whole[..32], accepted(0, 0))?;
        t.must_find("a header alone", &whole[..32], 2, NONE)?;
        t.must_judge("no commit frame", &whole[..32 + 2 * 536], accepted(2, 0))?;
        t.must_find("no commit frame", &whole[..32 + 2 * 536], 2, NONE)?;
        t.must_judge("a part of a frame", &whole[..32 + 4 * 536 - 1], accepted(3, 32 + 3 * 536))?;

        // A frame with a wrong salt or sum ends the log, though the sums of the next one are not disturbed.
        for i in 0..5 {
            let end = if i > 2 { 32 + 3 * 536 } else { 0 };
            let [one, two] = given.salts;
            for salts in [[one ^ 1, two], [one, two ^ 1 << 31], [two, one], [one.wrapping_add(1), two.wrapping_sub(1)]]
            {
                let made = small.with(|made| made.frames[i].salts = Some(salts));
                t.must_judge("a wrong salt", &made.bytes(), accepted(i as u64, end))?;
            }
            for wrong in [1, 1 << 31, u32::MAX] {
                let made = small.with(|made| made.frames[i].wrong = wrong);
                t.must_judge("a wrong sum", &made.bytes(), accepted(i as u64, end))?;
                t.must_find("a wrong sum", &made.bytes(), 2, if i > 2 { found(at(2)) } else { NONE })?;
            }
        }
        let zero = small.with(|made| made.frames[1].page = 0);
        t.must_judge("a frame of page 0", &zero.bytes(), accepted(5, 32 + 3 * 536))?;
        t.must_find("a frame of page 0", &zero.bytes(), 5, NONE)?;
        let beyond = small.with(|made| made.frames[0].page = 7);
        t.must_find("a page beyond the commit's page count", &beyond.bytes(), 7, found(at(0)))?;
        let twice = small.with(|made| made.frames[3].commit = 6);
        t.must_judge("two commits", &twice.bytes(), accepted(5, 32 + 4 * 536))?;
        t.must_find("two commits", &twice.bytes(), 3, found(at(3)))?;
        let last = small.with(|made| made.frames[4].commit = u32::MAX);
        t.must_judge("the last frame a commit", &last.bytes(), accepted(5, 32 + 5 * 536))?;
        t.must_find("the last frame a commit", &last.bytes(), 5, found(at(4)))?;
        // A restarted log: new salts, old frames behind.
        let older = small.with(|made| made.given.salts[0] = made.given.salts[0].wrapping_sub(1)).bytes();
        let mut restarted = small.with(|made| made.frames.truncate(3)).bytes();
        restarted.extend(&older[restarted.len()..]);
        t.must_judge("old frames behind a restarted log", &restarted, accepted(3, 32 + 3 * 536))?;

        // The header. Sums are made right again where another field is the fault.
        let of = |i: usize, word: u32, summed: bool| {
            let mut bytes = whole.clone();
            put(&mut bytes, 4 * i, word);
            if summed {
                let order = get(&bytes, 0) & 1;
                let [s0, s1] = wal::sum(order, [0, 0], &bytes[..24]);
                put(&mut bytes, 24, s0);
                put(&mut bytes, 28, s1);
            }
            bytes
        };
        for summed in [false, true] {
            for magic in [0, 0x377f0680, 0x377f0681, 0x377f0684, 0x82067f37, 0x377f0686, 0x177f0682, u32::MAX] {
                t.must_judge("a wrong magic", &of(0, magic, summed), refused(16))?;
            }
            for version in [0, 3_006_999, 3_007_001, 0x18e22d00, u32::MAX] {
                t.must_judge("a wrong version", &of(1, version, summed), refused(16))?;
            }
            for size in [0, 1, 2, 256, 511, 513, 768, 1000, 3072, 65_535, 65_537, 131_072, 1 << 31, u32::MAX] {
                t.must_judge("no page size", &of(2, size, summed), refused(16))?;
                t.must_find("no page size", &of(2, size, summed), 1, Found { code: 16, ..NONE })?;
            }
        }
        // Where a sum is changed, or what it is taken of.
        for i in [3, 4, 5, 6, 7] {
            t.must_judge("a wrong sum in the header", &of(i, get(&whole, 4 * i) ^ 1, false), refused(17))?;
        }
        // Another sequence number or salt with a right sum: the frames do not go on with it.
        for i in [3, 4, 5] {
            t.must_judge("another header before the frames", &of(i, get(&whole, 4 * i) ^ 1, true), accepted(0, 0))?;
        }
        t.must_judge("the other byte order", &of(0, 0x377f0683 - given.order, true), accepted(0, 0))?;
        t.must_judge("another page size", &of(2, 1024, true), accepted(0, 0))?;
    }
    Ok(())
}

/// A small store by calls: page 1 has a committed and an uncommitted record in a frame, page 2 is evicted with both,
/// page 3 has a committed add over a committed set, page 4 is compacted, page 0 has an uncommitted record only.
fn small_store() -> Areas {
    let sizes = Sizes { page_size: 512, pages: 6, frames: 3, online_size: 16, log_size: 16 };
    let mut store = Areas::for_sizes(&sizes);
    let bytes = page_of(6 * 512, 0x31);
    store.stored.copy_from_slice(&bytes);
    let update = |number, page, offset, length, kind, value| Call::Update { number, page, offset, length, kind, value };
    let calls = [
        Call::Format { sizes, last: 40 },
        Call::Begin { number: 1 },
        Call::Begin { number: 2 },
        update(1, 1, 8, 4, 0, 0x0102_0304),
        update(1, 2, 500, 8, 0, 0x1122_3344_5566_7788),
        update(1, 3, 100, 2, 0, 0xfffe),
        update(1, 3, 100, 2, 1, 3),
        update(1, 4, 0, 1, 0, 0xcc),
        update(2, 1, 13, 1, 0, 0xbb),
        update(2, 2, 0, 8, 0, 0xbbbb_bbbb_bbbb_bbbb),
        update(2, 0, 511, 1, 1, 9),
        Call::Commit { number: 1 },
        Call::Compact { page: 4, min_del: 1, max_age: 0 },
        Call::Read { number: 2, page: 2, offset: 0, length: 1, room: 1 },
        Call::Evict { page: 2 },
        Call::Read { number: 2, page: 1, offset: 0, length: 1, room: 1 },
    ];
    for call in calls {
        let reply = Twin.call(&mut store, &call, &mut call.buffer());
        assert!(reply.accepted(), "{call}: {reply}");
    }
    store
}

/// The pages of that store as a reader of committed updates has them, from the calls above.
fn small_images() -> Vec<u8> {
    let mut pages = page_of(6 * 512, 0x31);
    let mut set = |page: usize, offset: usize, bytes: &[u8]| {
        pages[512 * page + offset..][..bytes.len()].copy_from_slice(bytes);
    };
    set(1, 8, &[4, 3, 2, 1]);
    set(2, 500, &[0x88, 0x77, 0x66, 0x55, 0x44, 0x33, 0x22, 0x11]);
    set(3, 100, &[1, 0]);
    set(4, 0, &[0xcc]);
    pages
}

fn cases_of_writing(t: &mut Trial) -> Outcome {
    let (store, images) = (small_store(), small_images());
    let reply = Reply::refused;
    for given in GIVEN {
        let list = [1, 2, 3, 4, 0, 5, 1];
        let whole = 32 + 7 * 536;
        t.must_write("a target that just fits", &store, &list, whole, &given, Reply::done(7, 0, 0))?;
        for room in [0, 31, 32, 568, whole - 1] {
            t.must_write("a short target", &store, &list, room, &given, reply(14))?;
        }
        t.must_write("an empty list", &store, &[], 1000, &given, reply(15))?;
        t.must_write("an empty list, just a header's room", &store, &[], 32, &given, reply(15))?;
        t.must_write("an empty list, under a header's room", &store, &[], 31, &given, reply(14))?;
        for page in [6, 7, 1024, 1 << 31, u32::MAX] {
            t.must_write("a page past the last", &store, &[0, page, 1], whole, &given, reply(BAD_PAGE))?;
        }
        for order in [2, 3, 256, 1 << 31, u32::MAX] {
            t.must_write("no byte order", &store, &list, whole, &Given { order, ..given }, reply(BAD_ORDER))?;
        }
        let (_, written) = t.write(&store, &list, &vec![0x5a; whole + 100], &given)?;
        if written[whole..] != [0x5a; 100] {
            return Err("bytes past the end were changed".to_string());
        }
        // What the desk reads is what was committed.
        let log = &written[..whole];
        t.must_judge("the written log", log, accepted(7, whole as u64))?;
        for page in 0..6u32 {
            let last = list.iter().rposition(|&listed| listed == page).expect("every page is listed") as u64;
            t.must_find("the written log", log, page + 1, found(at(last)))?;
            let image = &log[at(last) as usize..][..512];
            if *image != images[512 * page as usize..][..512] {
                return Err(format!("page {page}: its image is not what was committed"));
            }
        }
        if get(log, 32 + 6 * 536 + 4) != 6 {
            return Err("the commit frame does not give the store's pages".to_string());
        }
        for (salts, sequence) in [([0, 0], 0), ([u32::MAX; 2], u32::MAX), ([5, 5], 1)] {
            let given = Given { salts, sequence, ..given };
            t.must_write("any salts and sequence number", &store, &[2, 2], 32 + 2 * 536, &given, Reply::done(2, 0, 0))?;
        }
    }
    Ok(())
}

/// Calls with several faults: the one that is judged first is answered.
fn order_of_refusals(t: &mut Trial) -> Outcome {
    let sound = small_store();
    let mut broken = sound.clone();
    broken.tables[2] = 77;
    for faults in 0..32u32 {
        let has = |bit: u32| faults >> bit & 1 == 1;
        let store = if has(0) { &broken } else { &sound };
        let list: &[u32] = if has(3) { &[] } else { &[1, 2] };
        let order = if has(1) { 2 } else { 1 };
        let room = if has(2) { 31 } else { 32 + 2 * 536 };
        // A listed page out of range stands in a list that is not empty.
        if has(4) && has(3) {
            continue;
        }
        let list = if has(4) { &[1, 6] } else { list };
        let given = Given { order, ..GIVEN[0] };
        let first = [(has(0), 1), (has(4), BAD_PAGE), (has(1), BAD_ORDER), (has(2), 14), (has(3), 15)]
            .into_iter()
            .find(|(has, _)| *has);
        let right = first.map_or(Reply::done(2, 0, 0), |(_, code)| Reply::refused(code));
        t.must_write("several faults", store, list, room, &given, right)?;
    }
    let whole = small(GIVEN[0]).bytes();
    for faults in 0..8u32 {
        let has = |bit: u32| faults >> bit & 1 == 1;
        let mut file = whole.clone();
        if has(1) {
            file[4] ^= 1;
            let [s0, s1] = wal::sum(0, [0, 0], &file[..24]);
            put(&mut file, 24, s0);
            put(&mut file, 28, s1);
        }
        if has(2) {
            file[31] ^= 1;
        }
        let first = [(has(0), BAD_PAGE), (has(1), 16), (has(2), 17)].into_iter().find(|(has, _)| *has);
        let right = first.map_or(found(at(2)), |(_, code)| Found { code, ..NONE });
        t.must_find("several faults", &file, if has(0) { 0 } else { 2 }, right)?;
        let first = [(has(1), 16), (has(2), 17)].into_iter().find(|(has, _)| *has);
        let right = first.map_or(accepted(5, 32 + 3 * 536), |(_, code)| refused(code));
        t.must_judge("several faults", &file, right)?;
    }
    t.must_find("no byte, page 0 asked", &[], 0, Found { code: BAD_PAGE, ..NONE })
}

/// Three frames, the second and third of them commits.
fn smallest(given: Given) -> Made {
    small(given).with(|made| {
        made.frames.truncate(3);
        made.frames[1].commit = 6;
    })
}

fn flips(t: &mut Trial) -> Outcome {
    for given in GIVEN {
        let whole = smallest(given).bytes();
        for (i, bit) in (0..whole.len()).flat_map(|i| (0..8).map(move |bit| (i, bit))).step_by(t.step()) {
            let mut flipped = whole.clone();
            flipped[i] ^= 1 << bit;
            let got = t.judge(&flipped).map_err(|why| format!("byte {i}, bit {bit} flipped: {why}"))?;
            t.find(&flipped, 2).map_err(|why| format!("byte {i}, bit {bit} flipped: {why}"))?;
            // No single bit can be wrong and the sums be right. The order is the lowest bit of the magic.
            let frame = (i as u64).saturating_sub(32) / 536;
            let right = match i {
                3 if bit == 0 => refused(17),
                0..12 => refused(16),
                12..32 => refused(17),
                _ => accepted(frame, if frame < 2 { 0 } else { 32 + 2 * 536 }),
            };
            if got != right {
                return Err(format!("byte {i}, bit {bit} flipped: expected {right}, got {got}"));
            }
        }
    }
    Ok(())
}

fn cuts(t: &mut Trial) -> Outcome {
    for given in GIVEN {
        let whole = smallest(given).bytes();
        for length in (0..=whole.len()).step_by(t.step()) {
            let frames = (length as u64).saturating_sub(32) / 536;
            let right = match frames {
                _ if length < 32 => refused(16),
                0 | 1 => accepted(frames, 0),
                _ => accepted(frames, 32 + 536 * frames),
            };
            t.must_judge(&format!("cut to {length} bytes"), &whole[..length], right)?;
            t.find(&whole[..length], 2)?;
            t.find(&whole[..length], 5)?;
        }
    }
    Ok(())
}

fn ends(t: &mut Trial) -> Outcome {
    let numbers = [0, 1, 2, 255, 256, 65_535, 65_536, (1 << 31) - 1, 1 << 31, u32::MAX - 1, u32::MAX];
    for given in GIVEN {
        for (field, number) in (0..5).flat_map(|field| numbers.map(|number| (field, number))) {
            let made = smallest(given).with(|made| match field {
                0 => made.given.salts[0] = number,
                1 => made.given.salts[1] = number,
                2 => made.given.sequence = number,
                3 => made.frames[0].page = number,
                _ => made.frames[2].commit = number,
            });
            let bytes = made.bytes();
            t.all(&bytes, 6)?;
            t.find(&bytes, number)?;
        }
        for power in 9..=16 {
            let page_size = 1 << power;
            let image = |first: u8| page_of(page_size as usize, first);
            let made = Made {
                page_size,
                given,
                frames: vec![Kept::new(1, 0, image(8)), Kept::new(9, 9, image(9)), Kept::new(1, 0, image(7))],
            };
            let (bytes, frame) = (made.bytes(), FRAME as u64 + u64::from(page_size));
            t.must_judge("a page size", &bytes, accepted(3, 32 + 2 * frame))?;
            t.must_find("a page size", &bytes, 1, found(56))?;
            t.must_find("a page size", &bytes, 9, found(56 + frame))?;
            t.must_judge("a page size, a byte short", &bytes[..bytes.len() - 1], accepted(2, 32 + 2 * frame))?;
            t.must_judge("a page size, one frame less a byte", &bytes[..31 + frame as usize], accepted(0, 0))?;
            // A header that promises pages far beyond the file.
            for length in [32, 33, 55, 56, 57, 32 + 512] {
                t.must_judge("a page size, hardly a file", &bytes[..length], Second.judge(&bytes[..length]))?;
            }
        }
    }
    Ok(())
}

fn by_chance(t: &mut Trial) -> Outcome {
    for round in 0..t.rounds(12_000) {
        let r = &mut t.random;
        let page_size: u32 = r.pick(&[512, 512, 512, 1024, 2048, 4096, 8192, 65_536]);
        let salts = [[r.next() as u32, r.next() as u32], [0, 0], [7, 7], [u32::MAX, 0]];
        let given = Given { salts: r.pick(&salts), sequence: r.next() as u32, order: r.below(2) };
        let mut frames = Vec::new();
        let most = if page_size > 4096 { 3 } else { 9 };
        for _ in 0..r.below(most) {
            let mut image = vec![0; page_size as usize];
            if r.percent(80) {
                r.fill(&mut image);
            }
            let strange = [0, u32::MAX, r.next() as u32];
            let page = if r.percent(4) { r.pick(&strange) } else { r.between(1, 5) };
            let commit = if r.percent(40) { r.between(1, 9) } else { 0 };
            let mut kept = Kept::new(page, commit, image);
            if r.percent(4) {
                let [one, two] = given.salts;
                let wrong = [
                    [two, one],
                    [one ^ 1, two],
                    [one, two.wrapping_add(1)],
                    [one.wrapping_sub(1), two.wrapping_add(1)],
                ];
                kept.salts = Some(r.pick(&wrong));
            }
            if r.percent(4) {
                kept.wrong = 1 << r.below(32);
            }
            frames.push(kept);
        }
        let mut bytes = Made { page_size, given, frames }.bytes();
        if r.percent(25) {
            let at = if r.percent(30) { r.below(32) } else { r.below(bytes.len() as u32) } as usize;
            bytes[at] = r.next() as u8;
        }
        if r.percent(20) {
            bytes.truncate(r.below(bytes.len() as u32 + 1) as usize);
        }
        if r.percent(20) {
            let mut tail = vec![0; r.below(2000) as usize];
            if r.percent(50) {
                r.fill(&mut tail);
            }
            bytes.extend(tail);
        }
        if r.percent(2) {
            bytes = vec![0; r.below(3000) as usize];
            r.fill(&mut bytes);
        }
        t.all(&bytes, 5).map_err(|why| format!("round {round}: {why}"))?;
    }
    Ok(())
}

/// Stores by chance (states.rs): committed and uncommitted records of several owners on the same pages, pages in frames
/// and evicted, frames with any bytes.
fn from_stores(t: &mut Trial) -> Outcome {
    for round in 0..t.rounds(6_000) {
        let r = &mut t.random;
        let sizes = Sizes {
            page_size: r.pick(&[512, 512, 512, 1024, 2048, 4096]),
            pages: r.between(1, 6),
            frames: r.pick(&[1, 2, 5]),
            online_size: r.pick(&[1, 4, 20, 60]),
            log_size: r.pick(&[1, 4, 20, 60]),
        };
        let store = states::sound_store(&sizes, r.next());
        let list: Vec<u32> = (0..r.between(1, 7)).map(|_| r.below(sizes.pages)).collect();
        let given = Given { salts: [r.next() as u32, r.next() as u32], sequence: r.next() as u32, order: r.below(2) };
        let whole = wal::length(list.len(), sizes.page_size);
        let mut target = vec![0; whole + r.below(300) as usize];
        r.fill(&mut target);
        let before = store.clone();
        let (reply, written) =
            t.write(&store, &list, &target, &given).map_err(|why| format!("round {round}: {why}"))?;
        if reply != Reply::done(list.len() as u32, 0, 0) || written[whole..] != target[whole..] || store != before {
            return Err(format!("round {round}: {reply}, or bytes past the end or of the store were changed"));
        }
        let log = &written[..whole];
        t.must_judge("a written log", log, accepted(list.len() as u64, whole as u64))?;
        for page in 0..sizes.pages {
            let size = sizes.page_size as usize;
            let last = list.iter().rposition(|&listed| listed == page);
            let right = last.map_or(NONE, |i| found((HEADER + i * (FRAME + size) + FRAME) as u64));
            t.must_find("a written log", log, page + 1, right)?;
        }
    }
    Ok(())
}

fn not_sound(t: &mut Trial) -> Outcome {
    let whole = small_store();
    let target = vec![0x3c; 32 + 2 * 536];
    for area in 0..7 {
        let length = whole.each()[area].len();
        for other in [0, length - 1, length + 1] {
            let mut store = whole.clone();
            store.each_mut()[area].set_length(other);
            t.must_write("an area of another length", &store, &[0, 1], target.len(), &GIVEN[0], Reply::refused(1))?;
        }
    }
    for round in 0..t.rounds(20_000) {
        let r = &mut t.random;
        let mut store = whole.clone();
        let area = r.pick(&[0, 1, 2, 4, 5]);
        let area = store.each_mut()[area].as_mut();
        let at = r.below(area.len() as u32) as usize;
        area[at] ^= 1 << r.below(8);
        let given = Given { order: r.below(2), ..GIVEN[0] };
        t.write(&store, &[1, 3], &target, &given).map_err(|why| format!("round {round}: {why}"))?;
    }
    Ok(())
}

/// Lengths of 2^32 and a little: whoever keeps 32 bits of them sees that little.
fn longer_than_32_bits(t: &mut Trial) -> Outcome {
    const VAST: usize = 1 << 32;
    let whole = smallest(GIVEN[0]).bytes();
    let Some(vast) = fence::vast(VAST + 4096) else { return Err("the system has no 4 GiB of addresses".to_string()) };
    let store = small_store();
    for length in [0, 31, 40, 568] {
        vast[..whole.len()].copy_from_slice(&whole);
        // The zeros behind have other salts.
        let file = &vast[..VAST + length];
        let (judged, page) = (t.subject.judge(file), t.subject.find(file, 2));
        if judged != accepted(3, 32 + 3 * 536) || page != found(at(2)) {
            return Err(format!("2^32 and {length} bytes: {judged}, page 2 {page}"));
        }
        vast[..whole.len()].fill(0);
        let reply = t.subject.write(&store, &[3], &mut vast[..VAST + length], &GIVEN[0]);
        if reply != Reply::done(1, 0, 0) {
            return Err(format!("a target of 2^32 and {length} bytes: {reply}"));
        }
        vast[..568].fill(0);
        t.calls += 3;
    }
    // 2^30 numbers are 2^32 bytes.
    if let Some(list) = fence::vast_list(VAST / 4 + 1) {
        for length in [VAST / 4, VAST / 4 + 1] {
            let reply = t.subject.write(&store, &list[..length], &mut [0; 4000], &GIVEN[0]);
            t.calls += 1;
            if reply != Reply::refused(14) {
                return Err(format!("{length} pages listed: {reply}"));
            }
        }
    }
    Ok(())
}
