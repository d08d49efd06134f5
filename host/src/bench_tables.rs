//! The tables of docs/FIGURES.md that are about speed: the proved store beside the second program, both built for
//! release. How a call is measured is in bench.rs, on which stores in bench_stores.rs.

use crate::bench::{clock, in_turn, measure, micros, Cost, Middle, Rounds, Stores, Trial};
use crate::bench_stores::{log_growth, online_growth, rebuilds, Shape, Situation, STORES};
use crate::bench_wal;
use crate::calls::Store;
use crate::flash;
use crate::layouts;
use crate::ledger::{transactions, Layout, Ledger, FRAMES, KS, LAYOUTS, POLICY, SPREAD, TRANSACTIONS};
use crate::plot::{svg, Line, Panel};
use crate::progress::Progress;
use crate::twin::Twin;
use std::process::ExitCode;
use std::time::Instant;

/// Rounds of a call, and over how many passes through a table they are spread: a machine may be slow for a while.
const ROUNDS: usize = 21;
const PASSES: usize = 3;

/// Transactions of the ledger in a round: enough for a checkpoint.
const LEDGER_ROUND: usize = 250;

/// The sizes at which growth is looked at.
const ONLINE_SIZES: [u32; 4] = [64, 128, 256, 512];
const LOG_SIZES: [u32; 4] = [256, 512, 1024, 2048];

/// Runs on the two stores that are compared.
pub struct Bench<S> {
    store: S,
    clock: f64,
    progress: Progress,
}

impl<S: Store + Clone> Bench<S> {
    pub fn new(store: S) -> Bench<S> {
        Bench { store, clock: clock(), progress: Progress::new("benchmark") }
    }

    /// Some rounds of each call, on the proved store and on the second program.
    fn rounds(&mut self, situations: &[&Situation], rounds: usize) -> Result<Vec<Rounds>, String> {
        self.progress.tell(|| situations[0].name.clone());
        let mut stores: Stores = [&mut self.store, &mut Twin];
        let trials: Result<Vec<_>, _> = situations.iter().map(|one| Trial::new(one, &mut stores)).collect();
        Ok(measure(&mut trials?, &mut stores, rounds, self.clock))
    }

    /// The second program beside itself: what a ratio may be by chance.
    fn noise(&mut self, situation: &Situation, rounds: usize) -> Result<Rounds, String> {
        let mut stores: Stores = [&mut Twin.clone(), &mut Twin];
        let trial = Trial::new(situation, &mut stores)?;
        Ok(measure(&mut [trial], &mut stores, rounds, self.clock).remove(0))
    }

    /// Each call by itself, on small, medium and full tables.
    pub fn calls(&mut self) -> Result<String, String> {
        let mut text = String::new();
        for (name, sizes, make) in STORES {
            text += &format!(
                "\n**{name}:** {} pages of {} bytes, {} frames, {} online and {} log records\n\n\
                 | Call | Archive, µs | Twin, µs | Ratio | Middle half |\n|---|---|---|---|---|\n",
                sizes.pages, sizes.page_size, sizes.frames, sizes.online_size, sizes.log_size
            );
            let situations = make(sizes);
            let mut rounds = vec![[Rounds::new(), Rounds::new()]; situations.len()];
            for _ in 0..PASSES {
                for (situation, [cost, noise]) in situations.iter().zip(&mut rounds) {
                    cost.extend(self.rounds(&[situation], ROUNDS / PASSES)?.remove(0));
                    noise.extend(self.noise(situation, ROUNDS / PASSES)?);
                }
            }
            let (mut ratios, mut noise) = (Vec::new(), Vec::new());
            for (situation, [cost, same]) in situations.iter().zip(&rounds) {
                let cost = Cost::of(cost);
                text += &row(&situation.name, &cost);
                ratios.push(cost.ratio.median);
                noise.push(Cost::of(same).ratio.median);
            }
            let low = noise.iter().fold(1.0, |low, &one| f64::min(low, one));
            let high = noise.iter().fold(1.0, |high, &one| f64::max(high, one));
            let up_to = |most: f64| ratios.iter().filter(|&&ratio| ratio <= most).count();
            text += &format!(
                "\n{} of {} ratios are at most 1.00, {} more within the noise: the twin beside itself has {low:.2} to {high:.2}.\n",
                up_to(1.0),
                ratios.len(),
                up_to(high) - up_to(1.0)
            );
        }
        Ok(text)
    }

    /// A read of an evicted page with 512 records: the check, the stored page, and every record applied in its place.
    pub fn rebuild(&mut self) -> Result<String, String> {
        let mut text =
            "| Records | Archive, µs | Twin, µs | Ratio | Middle half |\n|---|---|---|---|---|\n".to_string();
        let situations = rebuilds();
        let mut rounds = vec![Rounds::new(); situations.len()];
        for _ in 0..PASSES {
            for (situation, rounds) in situations.iter().zip(&mut rounds) {
                rounds.extend(self.rounds(&[situation], ROUNDS / PASSES)?.remove(0));
            }
        }
        for (situation, rounds) in situations.iter().zip(&rounds) {
            text += &row(&situation.name, &Cost::of(rounds));
        }
        Ok(text)
    }

    /// The same calls at several sizes.
    fn grown(&mut self, title: &str, sizes: [u32; 4], make: impl Fn(u32) -> Vec<Situation>) -> Result<Growth, String> {
        let made = sizes.map(make);
        let mut rows = Vec::new();
        for (i, situation) in made[0].iter().enumerate() {
            rows.push((situation.name.clone(), self.rounds(&made.each_ref().map(|all| &all[i]), ROUNDS)?));
        }
        Ok(Growth { title: title.to_string(), sizes, rows })
    }

    /// How calls grow with the online table and with the log.
    pub fn growth(&mut self) -> Result<(String, Vec<Panel>), String> {
        let mut all = Vec::new();
        for (shape, title) in Shape::ALL {
            all.push(self.grown(&format!("Online rows: {title}"), ONLINE_SIZES, |size| online_growth(shape, size))?);
        }
        all.push(self.grown("Log rows", LOG_SIZES, log_growth)?);
        Ok((all.iter().map(Growth::text).collect(), all.iter().map(Growth::panel).collect()))
    }

    fn ledgers(&self, layout: Layout) -> (Ledger<S>, Ledger<Twin>) {
        (Ledger::new(self.store.clone(), layout, FRAMES, POLICY), Ledger::new(Twin, layout, FRAMES, POLICY))
    }

    /// The workload: what a transaction takes, with its share of the checkpoints.
    pub fn ledger(&mut self) -> Result<String, String> {
        let mut text =
            "| k | Calls | Archive, µs | Twin, µs | Ratio | Middle half |\n|---|---|---|---|---|---|\n".to_string();
        for k in KS {
            let all = transactions(k, TRANSACTIONS);
            let (mut one, mut two) = self.ledgers(SPREAD);
            let mut rounds = Vec::new();
            for (i, some) in all.chunks(LEDGER_ROUND).enumerate() {
                self.progress.tell(|| format!("ledger, k = {k}"));
                rounds.push(in_turn(i, |which| {
                    let start = Instant::now();
                    if which == 0 {
                        one.run_all(some);
                    } else {
                        two.run_all(some);
                    }
                    micros(start.elapsed()) / some.len() as f64
                }));
                same(&one, &two, k)?;
            }
            let calls = one.costs.calls as f64 / all.len() as f64;
            text += &row(&format!("{k} | {calls:.2}"), &Cost::of(&rounds));
        }
        Ok(text)
    }

    /// Everything once, in a few seconds: the stores agree on every call that is measured, and on the workload's counts.
    /// Gives how often they did, and what was said where they did not.
    pub fn quick(&mut self) -> (u64, Vec<String>) {
        let (mut passed, mut wrong) = (0, Vec::new());
        let mut judge = |outcome: Result<(), String>| match outcome {
            Ok(()) => passed += 1,
            Err(why) => wrong.push(why),
        };
        let mut situations: Vec<_> = STORES.iter().flat_map(|(_, sizes, make)| make(*sizes)).collect();
        for (shape, _) in Shape::ALL {
            situations.extend(ONLINE_SIZES.iter().flat_map(|&size| online_growth(shape, size)));
        }
        situations.extend(LOG_SIZES.iter().flat_map(|&size| log_growth(size)));
        situations.extend(rebuilds());
        for situation in &situations {
            let mut stores: Stores = [&mut self.store, &mut Twin];
            judge(Trial::new(situation, &mut stores).map(|trial| drop(measure(&mut [trial], &mut stores, 1, 0.0))));
        }
        for (layout, k) in LAYOUTS.into_iter().flat_map(|layout| KS.map(|k| (layout, k))) {
            let some = transactions(k, 600);
            let (mut one, mut two) = self.ledgers(layout);
            one.run_all(&some);
            two.run_all(&some);
            judge(same(&one, &two, k));
        }
        judge(bench_wal::check(layouts::log_writer()));
        (passed, wrong)
    }
}

/// The two have cost the same and hold the same bytes.
fn same<S: Store>(one: &Ledger<S>, two: &Ledger<Twin>, k: u32) -> Result<(), String> {
    if (one.costs, &one.areas) == (two.costs, &two.areas) {
        return Ok(());
    }
    let areas = two.areas.difference(&one.areas).unwrap_or("the same bytes".to_string());
    Err(format!("ledger, k = {k}: {:?} and {:?}; {areas}", one.costs, two.costs))
}

/// `bench WHAT [FILE]`: prints the table of WHAT, and puts the plot that belongs to it into the file. Nothing is given
/// where the words say nothing.
pub fn command<S: Store + Clone>(store: &S, linked: bool, words: &[String]) -> Option<ExitCode> {
    let words: Vec<&str> = words.iter().map(String::as_str).collect();
    if !linked {
        eprintln!("NO ARCHIVE WAS LINKED: the second program stands beside itself");
    }
    let mut bench = Bench::new(store.clone());
    let made = match words[..] {
        ["quick"] => {
            let (passed, wrong) = bench.quick();
            wrong.iter().for_each(|why| println!("  FAILED  {why}"));
            println!("{passed} passed, {} failed", wrong.len());
            return Some(ExitCode::from(u8::from(!wrong.is_empty())));
        }
        ["calls"] => bench.calls(),
        ["ledger"] => bench.ledger(),
        ["rebuild"] => bench.rebuild(),
        ["growth"] => bench.growth().map(|(text, _)| text),
        ["growth", file] => bench.growth().and_then(|(text, panels)| {
            write(file, &svg(&panels, 2, "across: rows in the table"))?;
            Ok(text)
        }),
        ["wal"] => bench_wal::table(layouts::log_writer()),
        ["flash"] => Ok(flash::tables(store)),
        ["flash", file] => {
            write(file, &svg(&flash::panels(store), 3, "across: frames; k = 4")).map(|()| flash::tables(store))
        }
        _ => return None,
    };
    match &made {
        Ok(text) => print!("{text}"),
        Err(why) => println!("  FAILED  {why}"),
    }
    Some(ExitCode::from(u8::from(made.is_err())))
}

fn write(file: &str, text: &str) -> Result<(), String> {
    std::fs::write(file, text).map_err(|why| format!("{file} cannot be written: {why}"))
}

/// Calls at several sizes of a table.
struct Growth {
    title: String,
    sizes: [u32; 4],
    /// The call's name, and its rounds at each size.
    rows: Vec<(String, Vec<Rounds>)>,
}

impl Growth {
    fn text(&self) -> String {
        let heads: Vec<_> = self.sizes.iter().map(|size| format!(" {size} |")).collect();
        let linear = f64::from(self.sizes[3]) / f64::from(self.sizes[0]);
        let mut text = format!(
            "\n**{}.** Archive / twin in µs; growth from the first to the last, {linear} is linear\n\n\
             | Call |{} Growth | Ratio at the last |\n|---|---|---|---|---|---|---|\n",
            self.title,
            heads.concat()
        );
        for (name, rounds) in &self.rows {
            let costs: Vec<_> = rounds.iter().map(|rounds| Cost::of(rounds)).collect();
            let cells = costs.iter().map(|cost| format!(" {} / {} |", short(cost.each[0]), short(cost.each[1])));
            let growth = |which: usize| {
                let (first, last) = (&rounds[0], &rounds[3]);
                Middle::of(first.iter().zip(last).map(|(first, last)| last[which] / first[which])).median
            };
            text += &format!(
                "| {name} |{} {:.1} / {:.1} | {:.2} |\n",
                cells.collect::<String>(),
                growth(0),
                growth(1),
                costs[3].ratio.median
            );
        }
        text
    }

    /// The check alone, which is the first row.
    fn panel(&self) -> Panel {
        let costs: Vec<_> = self.rows[0].1.iter().map(|rounds| Cost::of(rounds)).collect();
        let line = |which: usize, name| Line { name, values: costs.iter().map(|cost| cost.each[which]).collect() };
        Panel {
            title: self.title.clone(),
            across: self.sizes.to_vec(),
            up: "µs, the check alone",
            lines: [line(0, "archive"), line(1, "twin")],
            powers: false,
        }
    }
}

fn row(name: &str, cost: &Cost) -> String {
    let Cost { each: [one, two], ratio: Middle { from, median, to } } = cost;
    format!("| {name} | {} | {} | {median:.2} | {from:.2} to {to:.2} |\n", short(*one), short(*two))
}

/// Three digits or so.
fn short(micros: f64) -> String {
    let digits = if micros < 10.0 { 2 } else { usize::from(micros < 100.0) };
    format!("{micros:.digits$}")
}

#[cfg(test)]
mod tests {
    use super::*;

    #[test]
    fn every_measured_call_is_what_its_name_says() {
        let (passed, wrong) = Bench::new(Twin).quick();
        assert!(wrong.is_empty() && passed > 100, "{wrong:#?}");
    }
}
