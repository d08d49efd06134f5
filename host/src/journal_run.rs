//! What a player and writer of rollback journals is held to: cases by name, each with the answer that the request
//! gives; then flipped bytes, cuts, and chance, beside the second program, byte for byte; and what was written, changed
//! and played back.

use crate::areas::Lent;
use crate::fence;
use crate::journal::{self, put, Header, Journal, Reply, Second, ALL, HEADER};
use crate::random::Random;

/// A journal under test: every call is compared, and its guards are looked at.
pub struct Trial<'a> {
    subject: &'a dyn Journal,
    random: Random,
    percent: u64,
    calls: u64,
}

type Outcome = Result<(), String>;
type Phase = fn(&mut Trial) -> Outcome;

pub const PHASES: &[(&str, Phase)] = &[
    ("the worked example, by its bytes", worked_example),
    ("cases of playing, by name", cases_of_playing),
    ("cases of writing, by name", cases_of_writing),
    ("several refusals at once: the first stands", order_of_refusals),
    ("each bit of a small journal flipped", flips),
    ("each cut of a small journal", cuts),
    ("counts and numbers at the ends of 32 bits", ends),
    ("journals by chance, whole and damaged", by_chance),
    ("written, changed, played back", back_and_forth),
];

/// For a subject that is lent the bytes themselves: no copy could be made.
pub const LARGE: (&str, Phase) = ("slices longer than 32 bits can say", longer_than_32_bits);

/// Runs a phase on the subject. Gives how many calls were compared.
pub fn run(subject: &dyn Journal, phase: Phase, seed: u64, percent: u64) -> Result<u64, String> {
    let mut trial = Trial { subject, random: Random::new(seed), percent, calls: 0 };
    phase(&mut trial).map(|()| trial.calls)
}

impl Trial<'_> {
    fn rounds(&self, full: u64) -> u64 {
        (full * self.percent / 100).max(1)
    }

    /// Of the flips and cuts a hundredth is an odd number apart, so that every bit of a byte has its turn.
    fn step(&self) -> usize {
        if self.percent >= 5 {
            1
        } else {
            101
        }
    }

    /// Plays on a copy of the pages, compares with the second program, and gives what came out.
    fn play(&mut self, journal: &[u8], pages: &[u8], page_size: u32) -> Result<(Reply, Vec<u8>), String> {
        let mut lent = lent_copy(pages);
        let got = self.subject.play(journal, &mut lent, page_size);
        let mut right_pages = pages.to_vec();
        let right = Second.play(journal, &mut right_pages, page_size);
        self.calls += 1;
        let said = || format!("play {} bytes over {} of page size {page_size}", journal.len(), pages.len());
        compare(said, got, right, &lent, &right_pages)?;
        Ok((got, lent.to_vec()))
    }

    /// Writes to a copy of the target, likewise.
    fn write(&mut self, asked: &Asked) -> Result<(Reply, Vec<u8>), String> {
        let mut lent = lent_copy(&asked.target);
        let Asked { pages, list, target, page_size, nonce, sector } = asked;
        let got = self.subject.write(pages, list, &mut lent, *page_size, *nonce, *sector);
        let mut right_target = target.clone();
        let right = Second.write(pages, list, &mut right_target, *page_size, *nonce, *sector);
        self.calls += 1;
        let said = || {
            format!(
                "write pages {list:?} of {} bytes, page size {page_size}, nonce {nonce}, sector {sector}, into {} bytes",
                pages.len(),
                target.len()
            )
        };
        compare(said, got, right, &lent, &right_target)?;
        Ok((got, lent.to_vec()))
    }

    /// A case: what playing must answer is given.
    fn must_play(&mut self, name: &str, journal: &[u8], pages: &[u8], page_size: u32, right: Reply) -> Outcome {
        let (got, after) = self.play(journal, pages, page_size).map_err(|why| format!("{name}: {why}"))?;
        if got != right {
            return Err(format!("{name}: expected {right}, got {got}"));
        }
        if got.code != 0 && after != pages {
            return Err(format!("{name}: refused {}, yet a page was changed", got.code));
        }
        Ok(())
    }

    fn must_write(&mut self, name: &str, asked: &Asked, right: Reply) -> Outcome {
        let (got, after) = self.write(asked).map_err(|why| format!("{name}: {why}"))?;
        if got != right {
            return Err(format!("{name}: expected {right}, got {got}"));
        }
        if got.code != 0 && after != asked.target {
            return Err(format!("{name}: refused {}, yet the target was changed", got.code));
        }
        Ok(())
    }
}

fn lent_copy(bytes: &[u8]) -> Lent {
    let mut lent = Lent::zeros(bytes.len());
    lent.copy_from_slice(bytes);
    lent
}

fn compare(said: impl Fn() -> String, got: Reply, right: Reply, lent: &Lent, bytes: &[u8]) -> Outcome {
    if got != right {
        return Err(format!("{}: the second program answers {right}, this one {got}", said()));
    }
    if lent[..] != *bytes {
        let at = (0..bytes.len()).find(|&i| lent[i] != bytes[i]).unwrap_or(0);
        return Err(format!("{}: byte {at} afterwards: expected {}, got {}", said(), bytes[at], lent[at]));
    }
    if !lent.guards_hold() {
        return Err(format!("{}: a byte beside the slice was written", said()));
    }
    Ok(())
}

/// What write is given.
#[derive(Clone)]
struct Asked {
    pages: Vec<u8>,
    list: Vec<u32>,
    target: Vec<u8>,
    page_size: u32,
    nonce: u32,
    sector: u32,
}

/// A record to be put into a journal.
#[derive(Clone)]
struct Kept {
    number: u32,
    page: Vec<u8>,
    /// Added to the right checksum.
    wrong: u32,
}

/// A journal to be made, field by field.
#[derive(Clone)]
struct Made {
    header: Header,
    padding: u8,
    records: Vec<Kept>,
    tail: Vec<u8>,
}

impl Made {
    fn bytes(&self) -> Vec<u8> {
        let mut bytes = self.header.bytes().to_vec();
        bytes.resize(self.header.sector.clamp(HEADER as u32, 65_536) as usize, self.padding);
        for Kept { number, page, wrong } in &self.records {
            bytes.extend(number.to_be_bytes());
            bytes.extend(page);
            bytes.extend(journal::checksum(self.header.nonce, page).wrapping_add(*wrong).to_be_bytes());
        }
        bytes.extend(&self.tail);
        bytes
    }

    fn with(&self, change: impl FnOnce(&mut Made)) -> Made {
        let mut made = self.clone();
        change(&mut made);
        made
    }
}

/// A page of which no two neighbours are alike.
fn page_of(size: usize, first: u8) -> Vec<u8> {
    (0..size).map(|i| (i as u8).wrapping_mul(3).wrapping_add(first)).collect()
}

/// A journal of pages 2, 1 and 3 of page size 512, and three other pages to play it over.
fn small() -> (Made, Vec<u8>) {
    let records = [2, 1, 3].map(|number| Kept { number, page: page_of(512, number as u8), wrong: 0 });
    let header = Header { count: 3, nonce: 0x1234_5678, size_in_pages: 3, sector: 512, page_size: 512 };
    (Made { header, padding: 0, records: records.to_vec(), tail: Vec::new() }, page_of(3 * 512, 0x77))
}

/// Page size 512, sector 32, nonce fffffff0, one page with byte j = j mod 256.
fn worked_example(t: &mut Trial) -> Outcome {
    let words = [0xd9d505f9u32, 0x20a163d7, 1, 0xfffffff0, 1, 0x20, 0x200, 0, 1];
    let page: Vec<u8> = (0..512).map(|j| j as u8).collect();
    let mut right: Vec<u8> = words.into_iter().flat_map(u32::to_be_bytes).collect();
    right.extend(&page);
    right.extend([0, 0, 0, 0x98]);
    assert_eq!(right.len(), 552);
    let target = vec![0xee; 600];
    let asked = Asked { pages: page.clone(), list: vec![0], target, page_size: 512, nonce: 0xfffffff0, sector: 32 };
    let (reply, written) = t.write(&asked)?;
    if reply != Reply::done(0, 1) || written[..552] != right || written[552..].iter().any(|&byte| byte != 0xee) {
        return Err(format!("written: {reply}, or other bytes than those of the layout"));
    }
    let (reply, played) = t.play(&right, &vec![0; 512], 512)?;
    if reply != Reply::done(0, 1) || played != page {
        return Err(format!("played back: {reply}, or another page"));
    }
    Ok(())
}

fn cases_of_playing(t: &mut Trial) -> Outcome {
    let (small, pages) = small();
    let whole = small.bytes();
    let mut plays = |name: &str, journal: &[u8], right: Reply| t.must_play(name, journal, &pages, 512, right);
    let (counted, cut, bad) = (journal::COUNTED, journal::CUT_SHORT, journal::BAD_CHECKSUM);
    let refused = Reply::refused;

    plays("three records", &whole, Reply::done(counted, 3))?;
    plays("no byte", &[], refused(29))?;
    plays("27 bytes", &whole[..27], refused(29))?;
    plays("28 bytes, count 3", &whole[..28], Reply::done(cut, 0))?;
    plays("a header less than its sector, count 3", &whole[..511], Reply::done(cut, 0))?;
    plays("a header and no record, count 3", &whole[..512], Reply::done(cut, 0))?;
    let of_count = |count: u32| small.with(|made| made.header.count = count).bytes();
    plays("28 bytes, count 0", &of_count(0)[..28], Reply::done(counted, 0))?;
    plays("28 bytes, all ones", &of_count(ALL)[..28], Reply::done(counted, 0))?;
    plays("count 0 before three records", &of_count(0), Reply::done(counted, 0))?;
    plays("count 2 before three records", &of_count(2), Reply::done(counted, 2))?;
    plays("count 4 before three records", &of_count(4), Reply::done(cut, 3))?;
    plays("count all ones but one", &of_count(ALL - 1), Reply::done(cut, 3))?;
    plays("count all ones", &of_count(ALL), Reply::done(counted, 3))?;
    let part = |count: u32, bytes: usize| {
        small.with(|made| {
            made.header.count = count;
            made.tail = whole[512..][..bytes].to_vec();
        })
    };
    plays("all ones and 519 of 520 bytes of a record", &part(ALL, 519).bytes(), Reply::done(counted, 3))?;
    plays("count 4 and 519 of 520 bytes of a record", &part(4, 519).bytes(), Reply::done(cut, 3))?;
    plays("count 4 and all 520 bytes of it", &part(4, 520).bytes(), Reply::done(counted, 4))?;
    plays("all ones and all 520 bytes of it", &part(ALL, 520).bytes(), Reply::done(counted, 4))?;

    for i in 0..8 {
        let mut other = whole.clone();
        other[i] ^= 0x20;
        plays("a wrong first byte", &other, refused(29))?;
    }
    for sector in [0, 1, 16, 31, 33, 48, 96, 511, 513, 1000, 65_535, 65_537, 131_072, 1 << 31, u32::MAX] {
        plays("no sector size", &small.with(|made| made.header.sector = sector).bytes(), refused(29))?;
    }
    for sector in (5..=16).map(|power| 1 << power) {
        let made = small.with(|made| made.header.sector = sector);
        plays("a sector size", &made.bytes(), Reply::done(counted, 3))?;
        plays("padding is not looked at", &made.with(|made| made.padding = 0xd9).bytes(), Reply::done(counted, 3))?;
    }
    for page_size in [0, 1, 256, 511, 1024, 2048, 4096, 65_536, u32::MAX] {
        plays("another page size", &small.with(|made| made.header.page_size = page_size).bytes(), refused(29))?;
    }
    for size_in_pages in [0, 1, 2, 4, u32::MAX] {
        let made = small.with(|made| made.header.size_in_pages = size_in_pages);
        plays("the size in pages is not acted on", &made.bytes(), Reply::done(counted, 3))?;
    }

    for (i, wrong) in (0..3).flat_map(|i| [1, u32::MAX, 1 << 31, 256].map(|wrong| (i, wrong))) {
        let made = small.with(|made| made.records[i].wrong = wrong);
        plays("a wrong checksum", &made.bytes(), Reply::done(bad, i as u32))?;
        plays("a wrong checksum, all ones", &made.with(|m| m.header.count = ALL).bytes(), Reply::done(bad, i as u32))?;
    }
    for (i, number) in (0..3).flat_map(|i| [0, 4, 5, 1025, 1 << 31, u32::MAX].map(|number| (i, number))) {
        let made = small.with(|made| made.records[i].number = number);
        plays("a wrong page, right checksum", &made.bytes(), refused(30))?;
        plays("a wrong page, right checksum, all ones", &made.with(|m| m.header.count = ALL).bytes(), refused(30))?;
        let also = made.with(|made| made.records[i].wrong = 1);
        plays("a wrong page, wrong checksum", &also.bytes(), Reply::done(bad, i as u32))?;
        let before = made.with(|made| made.header.count = i as u32);
        plays("a wrong page behind the count", &before.bytes(), Reply::done(counted, i as u32))?;
        let bytes = made.bytes();
        plays("a wrong page, cut short", &bytes[..512 + 520 * i + 519], Reply::done(cut, i as u32))?;
        if i > 0 {
            let behind = made.with(|made| made.records[0].wrong = 1);
            plays("a wrong page behind a bad record", &behind.bytes(), Reply::done(bad, 0))?;
        }
    }
    let zeros = small.with(|made| {
        made.header.count = ALL;
        made.header.nonce = 0;
        made.tail = vec![0; 520];
    });
    plays("all ones, nonce 0, zeros behind: a record of page 0", &zeros.bytes(), refused(30))?;
    plays("the same with another nonce", &zeros.with(|m| m.header.nonce = 1).bytes(), Reply::done(bad, 3))?;
    plays("zeros at the beginning", &[0; 2048], refused(29))?;

    let twice = small.with(|made| {
        made.records[1].number = 2;
        made.records[2].number = 2;
    });
    let (reply, after) = t.play(&twice.bytes(), &pages, 512)?;
    if reply != Reply::done(counted, 3) || after[512..1024] != small.records[2].page {
        return Err(format!("a page three times: {reply}, or the last one does not stay"));
    }
    for (wrong, length) in [0, 1, 511, 513, 767, 1025 * 512, 1026 * 512 - 1].into_iter().enumerate() {
        t.must_play("lent pages of a wrong length", &whole, &page_of(length, wrong as u8), 512, refused(27))?;
    }
    t.must_play("1,024 lent pages", &whole, &page_of(1024 * 512, 1), 512, Reply::done(counted, 3))?;
    let last = small.with(|made| made.records[2].number = 1024);
    t.must_play("the last of them restored", &last.bytes(), &page_of(1024 * 512, 1), 512, Reply::done(counted, 3))?;
    let past = small.with(|made| made.records[2].number = 1025);
    t.must_play("one past the last", &past.bytes(), &page_of(1024 * 512, 1), 512, refused(30))?;
    t.must_play("two lent pages, the third named", &whole, &pages[..1024], 512, refused(30))?;
    for page_size in [0, 1, 200, 256, 511, 513, 768, 1536, 8192, 65_536, 1 << 31, u32::MAX] {
        t.must_play("no page size", &whole, &pages, page_size, refused(26))?;
    }
    Ok(())
}

fn cases_of_writing(t: &mut Trial) -> Outcome {
    let pages = page_of(4 * 512, 9);
    let asked = Asked {
        pages,
        list: vec![3, 0, 3],
        target: vec![0xa5; 512 + 3 * 520],
        page_size: 512,
        nonce: 0xffff_fff0,
        sector: 512,
    };
    let refused = Reply::refused;
    let of = |change: &dyn Fn(&mut Asked)| {
        let mut asked = asked.clone();
        change(&mut asked);
        asked
    };
    t.must_write("a target that just fits", &asked, Reply::done(0, 3))?;
    t.must_write("a longer one", &of(&|a| a.target.resize(4000, 1)), Reply::done(0, 3))?;
    for length in [0, 27, 28, 511, 512, 1032, 512 + 3 * 520 - 1] {
        t.must_write("a short target", &of(&|a| a.target.truncate(length)), refused(14))?;
    }
    t.must_write("an empty list", &of(&|a| a.list.clear()), refused(15))?;
    t.must_write(
        "an empty list, a target of just a sector",
        &of(&|a| {
            a.list.clear();
            a.target.truncate(512)
        }),
        refused(15),
    )?;
    t.must_write(
        "an empty list, a target under a sector",
        &of(&|a| {
            a.list.clear();
            a.target.truncate(511)
        }),
        refused(14),
    )?;
    for page in [4, 5, 1024, 1 << 31, u32::MAX] {
        for i in 0..3 {
            t.must_write("a page past the lent ones", &of(&|a| a.list[i] = page), refused(20))?;
        }
    }
    for sector in [0, 1, 16, 31, 33, 48, 65_535, 65_537, 131_072, 1 << 31, u32::MAX] {
        t.must_write("no sector size", &of(&|a| a.sector = sector), refused(26))?;
    }
    for sector in (5..=16).map(|power| 1 << power) {
        let whole = sector as usize + 3 * 520;
        let fits = of(&|a| {
            a.sector = sector;
            a.target.resize(whole, 0xa5)
        });
        t.must_write("a sector size", &fits, Reply::done(0, 3))?;
        let short = of(&|a| {
            a.sector = sector;
            a.target.resize(whole - 1, 0xa5)
        });
        t.must_write("a sector size, a byte short", &short, refused(14))?;
    }
    for page_size in [256, 511, 513, 768] {
        t.must_write(
            "no page size",
            &of(&|a| {
                a.page_size = page_size;
                a.list = vec![0, 1]
            }),
            refused(26),
        )?;
    }
    t.must_write("page size 0: no page is too far", &of(&|a| a.page_size = 0), refused(26))?;
    for page_size in [513, 768, 4096, 1 << 31, u32::MAX] {
        t.must_write("a page size by which none of them is lent", &of(&|a| a.page_size = page_size), refused(20))?;
    }
    for page_size in [0, 513, 1 << 31, u32::MAX] {
        t.must_write(
            "no page size, no page listed",
            &of(&|a| {
                a.page_size = page_size;
                a.list.clear()
            }),
            refused(26),
        )?;
    }
    for length in [4 * 512 + 1, 5 * 512 - 1, 1025 * 512] {
        t.must_write("lent pages of a wrong length", &of(&|a| a.pages.resize(length, 0)), refused(27))?;
    }
    t.must_write(
        "no lent page, none listed",
        &of(&|a| {
            a.pages.clear();
            a.list.clear()
        }),
        refused(27),
    )?;
    t.must_write("no lent page, one listed", &of(&|a| a.pages.clear()), refused(20))?;
    for nonce in [0, 1, u32::MAX] {
        let asked = of(&|a| a.nonce = nonce);
        let (_, written) = t.write(&asked)?;
        let (reply, _) = t.play(&written, &asked.pages, 512)?;
        if reply != Reply::done(0, 3) {
            return Err(format!("nonce {nonce}: played back with {reply}"));
        }
    }
    Ok(())
}

/// Calls with several faults: the one that is judged first is answered.
fn order_of_refusals(t: &mut Trial) -> Outcome {
    let (small, pages) = small();
    for faults in 0..16u32 {
        let has = |bit: u32| faults >> bit & 1 == 1;
        let page_size = if has(0) { 513 } else { 512 };
        let length = if has(1) { 3 * 512 - 1 } else { 3 * 512 };
        let made = small.with(|made| {
            made.header.sector = if has(2) { 40 } else { 64 };
            made.records[2].number = if has(3) { 0 } else { 3 };
        });
        let first = [26, 27, 29, 30].into_iter().enumerate().find(|(i, _)| has(*i as u32));
        let right = first.map_or(Reply::done(0, 3), |(_, code)| Reply::refused(code));
        t.must_play("several faults", &made.bytes(), &pages[..length], page_size, right)?;
    }
    for faults in 0..32u32 {
        let has = |bit: u32| faults >> bit & 1 == 1;
        // A page past the lent ones stands in a list that is not empty, so 20 and 15 are never both there.
        if has(0) && has(4) {
            continue;
        }
        let list = if has(4) { vec![] } else { vec![1, if has(0) { 7 } else { 2 }] };
        let asked = Asked {
            pages: page_of(if has(2) { 4 * 512 + 3 } else { 4 * 512 }, 1),
            target: vec![1; if has(3) { 63 } else { 4000 }],
            list,
            page_size: 512,
            nonce: 5,
            sector: if has(1) { 63 } else { 64 },
        };
        let first = [20, 26, 27, 14, 15].into_iter().enumerate().find(|(i, _)| has(*i as u32));
        let right = first.map_or(Reply::done(0, 2), |(_, code)| Reply::refused(code));
        t.must_write("several faults", &asked, right)?;
    }
    Ok(())
}

/// A journal of two records that is as small as can be, and pages to play it over.
fn smallest(count: u32) -> (Vec<u8>, Vec<u8>) {
    let (small, pages) = small();
    let made = small.with(|made| {
        made.header.sector = 32;
        made.header.count = count;
        made.records.truncate(2);
    });
    (made.bytes(), pages)
}

fn flips(t: &mut Trial) -> Outcome {
    let step = t.step();
    for count in [2, ALL, 3] {
        let (whole, pages) = smallest(count);
        for (i, bit) in (0..whole.len()).flat_map(|i| (0..8).map(move |bit| (i, bit))).step_by(step) {
            let mut flipped = whole.clone();
            flipped[i] ^= 1 << bit;
            t.play(&flipped, &pages, 512).map_err(|why| format!("byte {i}, bit {bit} flipped: {why}"))?;
        }
        for (i, byte) in (0..whole.len()).flat_map(|i| [0, 255].map(|byte| (i, byte))).step_by(step) {
            let mut other = whole.clone();
            other[i] = byte;
            t.play(&other, &pages, 512).map_err(|why| format!("byte {i} set to {byte}: {why}"))?;
        }
    }
    Ok(())
}

fn cuts(t: &mut Trial) -> Outcome {
    for count in [2, ALL, 1, 3] {
        let (whole, pages) = smallest(count);
        for length in (0..=whole.len()).step_by(t.step()) {
            let (reply, _) = t.play(&whole[..length], &pages, 512)?;
            let held = length.saturating_sub(32) / 520;
            let right = match length {
                0..28 => Reply::refused(29),
                _ if count == ALL => Reply::done(0, held as u32),
                _ if held < count as usize => Reply::done(1, held as u32),
                _ => Reply::done(0, count),
            };
            if reply != right {
                return Err(format!("count {count}, cut to {length} bytes: expected {right}, got {reply}"));
            }
        }
    }
    Ok(())
}

fn ends(t: &mut Trial) -> Outcome {
    let (small, pages) = small();
    let numbers = [0, 1, 2, 3, 4, 255, 256, 65_535, 65_536, (1 << 31) - 1, 1 << 31, u32::MAX - 1, u32::MAX];
    for (field, number) in (0..6).flat_map(|field| numbers.map(|number| (field, number))) {
        let made = small.with(|made| {
            let header = &mut made.header;
            match field {
                0 => header.count = number,
                1 => header.nonce = number,
                2 => header.size_in_pages = number,
                3 => header.sector = number,
                4 => header.page_size = number,
                _ => made.records[1].number = number,
            }
        });
        t.play(&made.bytes(), &pages, 512)?;
        t.play(&made.bytes(), &pages, number)?;
        let target = vec![3; 4000];
        let asked = Asked { pages: pages.clone(), list: vec![1], target, page_size: 512, nonce: 1, sector: 32 };
        t.write(&match field {
            0 => Asked { list: vec![0, number], ..asked },
            1 => Asked { nonce: number, ..asked },
            2 => Asked { page_size: number, ..asked },
            3 => Asked { sector: number, ..asked },
            4 => Asked { target: vec![3; number.min(5000) as usize], ..asked },
            _ => Asked { pages: vec![5; number.min(5000) as usize], ..asked },
        })?;
    }
    // A journal whose records end where the largest lent set does.
    for page_size in [512, 1024, 2048, 4096] {
        let size = page_size as usize;
        let pages = page_of(1024 * size, 4);
        let list = vec![1023, 0, 512];
        let asked =
            Asked { pages, list, target: vec![0; 65_536 + 3 * (size + 8)], page_size, nonce: 9, sector: 65_536 };
        let (reply, written) = t.write(&asked)?;
        if reply != Reply::done(0, 3) {
            return Err(format!("1,024 pages of {size} bytes: written with {reply}"));
        }
        t.play(&written, &vec![0; 1024 * size], page_size)?;
    }
    Ok(())
}

const SECTORS: [u32; 8] = [32, 32, 64, 128, 512, 512, 4096, 65_536];

fn by_chance(t: &mut Trial) -> Outcome {
    for round in 0..t.rounds(40_000) {
        let r = &mut t.random;
        let page_size: u32 = r.pick(&[512, 512, 512, 1024, 2048, 4096]);
        let size = page_size as usize;
        let lent = r.between(1, 6);
        let mut pages = vec![0; lent as usize * size];
        r.fill(&mut pages);
        let held = r.between(0, 5);
        let counts = [held, held, r.between(0, 6), ALL, ALL, ALL - 1, r.next() as u32];
        let nonces = [r.next() as u32, 0, u32::MAX - r.below(2000)];
        let header = Header {
            count: r.pick(&counts),
            nonce: r.pick(&nonces),
            size_in_pages: r.next() as u32,
            sector: r.pick(&SECTORS),
            page_size,
        };
        let mut records = Vec::new();
        for _ in 0..held {
            let mut page = vec![0; size];
            if r.percent(80) {
                r.fill(&mut page);
            }
            let strange = [0, lent + 1, lent + r.below(2000), u32::MAX, 1 << 31 | 1];
            let number = if r.percent(7) { r.pick(&strange) } else { r.between(1, lent) };
            records.push(Kept { number, page, wrong: u32::from(r.percent(8)) });
        }
        let mut tail = vec![0; if r.percent(30) { r.below(1200) as usize } else { 0 }];
        if r.percent(50) {
            r.fill(&mut tail);
        }
        let mut bytes = Made { header, padding: r.pick(&[0, 0xd9, 0xff]), records, tail }.bytes();
        if r.percent(20) {
            bytes.truncate(r.below(bytes.len() as u32 + 1) as usize);
        }
        if r.percent(20) && !bytes.is_empty() {
            let at = if r.percent(50) { r.below(bytes.len().min(40) as u32) } else { r.below(bytes.len() as u32) };
            bytes[at as usize] = r.next() as u8;
        }
        if r.percent(2) {
            bytes = vec![0; r.below(3000) as usize];
            r.fill(&mut bytes);
        }
        let asked_size = if r.percent(3) { r.pick(&[0, 512, 1024, 4096, 8192, u32::MAX]) } else { page_size };
        if r.percent(3) {
            pages.truncate(r.below(pages.len() as u32 + 1) as usize);
        }
        t.play(&bytes, &pages, asked_size).map_err(|why| format!("round {round}: {why}"))?;
    }
    Ok(())
}

/// Written, then pages changed in any way, then played back: exactly the listed pages are as they were when written.
fn back_and_forth(t: &mut Trial) -> Outcome {
    for round in 0..t.rounds(15_000) {
        let r = &mut t.random;
        let page_size: u32 = r.pick(&[512, 512, 1024, 2048, 4096]);
        let size = page_size as usize;
        let lent = r.between(1, 8);
        let mut pages = vec![0; lent as usize * size];
        r.fill(&mut pages);
        let list: Vec<u32> = (0..r.between(1, 6)).map(|_| r.below(lent)).collect();
        let sector = r.pick(&SECTORS);
        let whole = sector as usize + list.len() * (size + 8);
        let mut target = vec![0; whole + r.below(1500) as usize];
        r.fill(&mut target);
        let nonce = r.pick(&[0, 1, u32::MAX, 0xffff_ff00, 0x8000_0000]).wrapping_add(r.below(3));
        let asked =
            Asked { pages: pages.clone(), list: list.clone(), target: target.clone(), page_size, nonce, sector };
        let (reply, written) = t.write(&asked).map_err(|why| format!("round {round}: {why}"))?;
        let many = list.len() as u32;
        if reply != Reply::done(0, many) || written[whole..] != target[whole..] {
            return Err(format!("round {round}: written with {reply}, or bytes past the end were changed"));
        }
        let r = &mut t.random;
        let mut changed = pages.clone();
        for _ in 0..r.below(40) {
            let at = r.below(changed.len() as u32) as usize;
            changed[at] = r.next() as u8;
        }
        if r.percent(30) {
            r.fill(&mut changed);
        }
        let (reply, after) = t.play(&written, &changed, page_size).map_err(|why| format!("round {round}: {why}"))?;
        if reply != Reply::done(0, many) {
            return Err(format!("round {round}: played back with {reply}"));
        }
        for page in 0..lent {
            let of = |bytes: &[u8]| bytes[size * page as usize..][..size].to_vec();
            let right = if list.contains(&page) { of(&pages) } else { of(&changed) };
            if of(&after) != right {
                return Err(format!("round {round}: page {page} is not as it must be, list {list:?}"));
            }
        }
    }
    Ok(())
}

/// Lengths of 2^32 and a little: whoever keeps 32 bits of them sees that little.
fn longer_than_32_bits(t: &mut Trial) -> Outcome {
    const VAST: usize = 1 << 32;
    let (whole, pages) = smallest(2);
    let Some(vast) = fence::vast(VAST + 4096) else { return Err("the system has no 4 GiB of addresses".to_string()) };
    let mut answers = Vec::new();
    let mut asked = |name: &'static str, got: Reply, right: Reply| {
        answers.push((got == right).then_some(()).ok_or(format!("{name}: expected {right}, got {got}")));
    };
    for (length, name) in
        [(0, "2^32 bytes of journal"), (40, "2^32 and 40 bytes"), (32 + 520, "2^32 bytes and a record")]
    {
        vast[..whole.len()].copy_from_slice(&whole);
        let mut pages = pages.clone();
        asked(name, t.subject.play(&vast[..VAST + length], &mut pages, 512), Reply::done(0, 2));
        // All ones: the zeros behind the two are a record whose checksum is wrong.
        put(vast, 8, ALL);
        asked(name, t.subject.play(&vast[..VAST + length], &mut pages, 512), Reply::done(2, 2));
        vast[..whole.len()].fill(0);
        asked(name, t.subject.write(&pages, &[1], &mut vast[..VAST + length], 512, 7, 32), Reply::done(0, 1));
        vast[..whole.len()].fill(0);
    }
    for length in [0, 512, 3 * 512] {
        asked("2^32 bytes of pages", t.subject.play(&whole, &mut vast[..VAST + length], 512), Reply::refused(27));
        let mut target = vec![0; 4000];
        let got = t.subject.write(&vast[..VAST + length], &[0], &mut target, 512, 7, 32);
        asked("2^32 bytes of pages, written", got, Reply::refused(27));
    }
    // 2^30 numbers are 2^32 bytes.
    let list = fence::vast_list(VAST / 4 + 1);
    if let Some(list) = list {
        let mut target = vec![0; 4000];
        for length in [VAST / 4, VAST / 4 + 1] {
            let got = t.subject.write(&pages, &list[..length], &mut target, 512, 7, 32);
            asked("2^30 pages listed", got, Reply::refused(14));
        }
    }
    t.calls += answers.len() as u64;
    answers.into_iter().collect()
}
