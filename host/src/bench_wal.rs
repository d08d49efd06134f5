//! How fast logs are written and judged: the library beside plain C of the same loops (plain/wal.c, at -O2), in one run
//! and on the same bytes; and beside memcpy of as many bytes.
//!
//! A log is written and judged as it stands, again and again: neither changes what the next call sees. Rounds of the two
//! take turns, as in bench.rs.

use crate::areas::{Areas, Lent, Reply, Sizes};
use crate::bench::{clock, in_turn, micros, Cost, Middle, Rounds};
use crate::calls::{Call, Store};
use crate::sound;
use crate::twin::Twin;
use crate::wal::{self, Given, Judged, Wal};
use std::hint::black_box;
use std::rc::Rc;
use std::time::{Duration, Instant};

const ROUNDS: usize = 21;
/// Through the table, so that whatever slows the machine down for a while is shared by its rows.
const PASSES: usize = 3;
/// How long a round may take, and the least and the greatest number of its calls.
const ROUND: Duration = Duration::from_millis(2);
const CALLS: (usize, usize) = (3, 200);

extern "C" {
    #[allow(clippy::too_many_arguments)]
    fn plain_wal_write(
        fixed: *const u8,
        stored: *const u8,
        tables: *const u8,
        online: *const u8,
        list: *const u32,
        list_len: usize,
        target: *mut u8,
        salt_1: u32,
        salt_2: u32,
        sequence: u32,
        order: u32,
    );
    fn plain_wal_judge(file: *const u8, length: usize) -> Judged;
}

/// The plain C. It trusts what it is lent, so the second program checks the tables for it: both sides do the same work.
struct Plain;

impl Wal for Plain {
    fn write(&self, store: &Areas, list: &[u32], target: &mut [u8], given: &Given) -> Reply {
        assert!(sound::broken(store).none() && target.len() >= wal::length(list.len(), store.sizes().page_size));
        let Given { salts: [salt_1, salt_2], sequence, order } = *given;
        // Safe: the store is sound, every listed page is one of its pages, and the target is long enough.
        unsafe {
            plain_wal_write(
                store.fixed.as_ptr(),
                store.stored.as_ptr(),
                store.tables.as_ptr(),
                store.online.as_ptr(),
                list.as_ptr(),
                list.len(),
                target.as_mut_ptr(),
                salt_1,
                salt_2,
                sequence,
                order,
            )
        }
        Reply::done(list.len() as u32, 0, 0)
    }

    fn judge(&self, file: &[u8]) -> Judged {
        // Safe: the slice is valid for its length.
        unsafe { plain_wal_judge(file.as_ptr(), file.len()) }
    }

    fn find(&self, file: &[u8], page: u32) -> wal::Found {
        wal::Second.find(file, page)
    }
}

/// A store with committed and uncommitted records on its pages, and the list of pages to write.
struct Written {
    name: &'static str,
    sizes: Sizes,
    listed: u32,
}

const WRITTEN: [Written; 3] = [
    Written {
        name: "8 pages of 512 bytes",
        sizes: Sizes { page_size: 512, pages: 8, frames: 2, online_size: 4, log_size: 8 },
        listed: 8,
    },
    Written {
        name: "64 pages of 1,024 bytes",
        sizes: Sizes { page_size: 1024, pages: 128, frames: 16, online_size: 128, log_size: 512 },
        listed: 64,
    },
    Written {
        name: "512 pages of 4,096 bytes",
        sizes: Sizes { page_size: 4096, pages: 1024, frames: 64, online_size: 512, log_size: 2048 },
        listed: 512,
    },
];

/// By calls: half of the online rows committed, the rest of two others; spread over the pages.
fn store_of(sizes: Sizes) -> Areas {
    let mut store = Areas::for_sizes(&sizes);
    crate::random::Random::new(5).fill(&mut store.stored);
    let mut calls = vec![Call::Format { sizes, last: 0 }];
    calls.extend((1..=3).map(|number| Call::Begin { number }));
    for i in 0..sizes.online_size {
        let (number, length) = (if i % 2 == 0 { 1 } else { 2 + i / 2 % 2 }, [1, 2, 4, 8][i as usize % 4]);
        let (page, offset) = (7 * i % sizes.pages, 16 * number);
        calls.push(Call::Update { number, page, offset, length, kind: i / 2 % 2, value: 3 });
    }
    calls.push(Call::Commit { number: 1 });
    for call in calls {
        let reply = Twin.call(&mut store, &call, &mut Lent::zeros(0));
        assert!(reply.accepted(), "{call}: {reply}");
    }
    store
}

/// The median of a round's calls, in microseconds.
fn round(clock: f64, mut call: impl FnMut()) -> f64 {
    let mut once = || {
        let start = Instant::now();
        call();
        micros(start.elapsed())
    };
    let calls = (micros(ROUND) / once().max(0.01)) as usize;
    Middle::of((0..calls.clamp(CALLS.0, CALLS.1)).map(|_| once())).median - clock
}

/// A row of the table: what is measured on the library (0) and on the plain C (1).
struct Row<'a> {
    name: String,
    /// Of the log.
    bytes: usize,
    call: Box<dyn FnMut(usize) + 'a>,
    rounds: Rounds,
    /// The plain C beside itself.
    noise: Rounds,
    /// memcpy of as many bytes.
    copied: Vec<f64>,
}

impl<'a> Row<'a> {
    fn new(name: String, bytes: usize, call: impl FnMut(usize) + 'a) -> Row<'a> {
        Row { name, bytes, call: Box::new(call), rounds: Vec::new(), noise: Vec::new(), copied: Vec::new() }
    }

    fn measure(&mut self, rounds: usize, clock: f64) {
        let (from, mut to) = (vec![7u8; self.bytes], vec![0u8; self.bytes]);
        for i in 0..rounds {
            self.rounds.push(in_turn(i, |which| round(clock, || (self.call)(which))));
            self.noise.push(in_turn(i, |_| round(clock, || (self.call)(1))));
            self.copied.push(round(clock, || {
                to.copy_from_slice(black_box(&from));
                black_box(&mut to);
            }));
        }
    }

    fn text(&self) -> String {
        let Cost { each: [one, two], ratio } = Cost::of(&self.rounds);
        let rate = |micros: f64| (self.bytes as f64 / micros) as u64;
        let copied = Middle::of(self.copied.iter().copied()).median;
        format!(
            "| {} | {one:.2} | {two:.2} | {:.2} | {:.2} to {:.2} | {} | {} |\n",
            self.name,
            ratio.median,
            ratio.from,
            ratio.to,
            rate(one),
            rate(copied)
        )
    }
}

/// The logs that are measured, made by both: they must be the same, and judged the same. Then the table's rows.
fn rows(library: &dyn Wal) -> Result<Vec<Row<'_>>, String> {
    let both: [&dyn Wal; 2] = [library, &Plain];
    let (mut rows, mut logs) = (Vec::new(), Vec::new());
    for Written { name, sizes, listed } in WRITTEN {
        let store = Rc::new(store_of(sizes));
        let list: Vec<u32> = (0..listed).collect();
        let bytes = wal::length(list.len(), sizes.page_size);
        for (order, said) in [(0, "lowest"), (1, "highest")] {
            let given = Given { salts: [0xdead_beef, 0x0102_0304], sequence: 7, order };
            let [one, two] = both.map(|writer| {
                let mut target = vec![0; bytes];
                let reply = writer.write(&store, &list, &mut target, &given);
                (reply, target)
            });
            if one != two {
                return Err(format!("write, {name}: the library and the plain C do not write the same log"));
            }
            logs.push((format!("judge, {name}, {said} byte first"), one.1.clone()));
            let (store, list, mut target) = (Rc::clone(&store), list.clone(), one.1);
            rows.push(Row::new(format!("write, {name}, {said} byte first"), bytes, move |which| {
                black_box(both[which].write(&store, black_box(&list), &mut target, &given));
            }));
        }
    }
    logs.push(("judge, 32 pages of 65,536 bytes, lowest byte first".to_string(), of_large_pages()));
    for (name, log) in logs {
        let [one, two] = both.map(|judge| judge.judge(&log));
        if one != two || one.end != log.len() as u64 {
            return Err(format!("{name}: {one} and {two}"));
        }
        rows.push(Row::new(name, log.len(), move |which| {
            black_box(both[which].judge(black_box(&log)));
        }));
    }
    Ok(rows)
}

/// What `bench quick` looks at: the same logs, nothing measured.
pub fn check(library: &dyn Wal) -> Result<(), String> {
    rows(library).map(drop)
}

/// The table of `bench wal`.
pub fn table(library: &dyn Wal) -> Result<String, String> {
    let mut rows = rows(library)?;
    let clock = clock();
    for _ in 0..PASSES {
        rows.iter_mut().for_each(|row| row.measure(ROUNDS / PASSES, clock));
    }
    let mut text = "| What | Archive, µs | Plain C, µs | Ratio | Middle half | Archive, MB/s | memcpy, MB/s |\n\
                    |---|---|---|---|---|---|---|\n"
        .to_string();
    rows.iter().for_each(|row| text += &row.text());
    let median = |rounds: &Rounds| Cost::of(rounds).ratio.median;
    let most = rows.iter().map(|row| median(&row.noise)).fold(1.0, f64::max);
    let ratios: Vec<f64> = rows.iter().map(|row| median(&row.rounds)).collect();
    let up_to = |most: f64| ratios.iter().filter(|&&ratio| ratio <= most).count();
    text += &format!(
        "\n{} of {} ratios are at most 1.00, {} more within the noise: the plain C beside itself has up to {most:.2}.\n",
        up_to(1.0),
        ratios.len(),
        up_to(most) - up_to(1.0)
    );
    Ok(text)
}

/// A log of the largest pages, which no store has.
fn of_large_pages() -> Vec<u8> {
    let given = Given { salts: [1, 2], sequence: 3, order: 0 };
    let (mut log, mut sums) = (Vec::new(), [0, 0]);
    let (header, first) = wal::header(65_536, &given);
    log.extend(header);
    sums.copy_from_slice(&first);
    for page in 1..=32 {
        let mut frame = vec![0; wal::FRAME + 65_536];
        crate::random::Random::new(page.into()).fill(&mut frame[wal::FRAME..]);
        sums = wal::seal(&mut frame, page, if page == 32 { 32 } else { 0 }, &given, sums);
        log.extend(frame);
    }
    log
}

#[cfg(test)]
mod tests {
    use super::*;

    #[test]
    fn the_plain_c_makes_and_judges_the_same_logs() {
        check(&wal::Second).unwrap();
    }
}
