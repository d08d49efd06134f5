//! The second program and its runs. `ventarico-host all` is what a gate runs; see `usage` for the parts.
//!
//! With the proved store linked (VENTARICO_ARCHIVE_DIR at build time) the runs are on it, held to the second program
//! and to the history. Without it they are on the second program itself, held to the history.

#[cfg(archive)]
mod archive;
mod areas;
mod bench;
mod bench_stores;
mod bench_tables;
mod bench_wal;
mod calls;
mod cases;
mod container;
mod coverage;
mod damage;
mod desk;
mod faults;
mod fence;
mod flash;
mod history;
mod inspect;
mod journal;
mod journal_run;
mod journal_wrong;
mod json;
mod layouts;
#[cfg(any(archive_journal, archive_wal))]
mod layouts_archive;
mod ledger;
mod life;
mod machine;
mod pair;
mod plot;
mod progress;
mod random;
mod record;
mod session;
mod sound;
mod states;
#[cfg(test)]
mod touched;
mod twin;
mod wal;
mod wal_run;
mod wal_wrong;
mod wrong;

use calls::Store;
use coverage::Coverage;
use machine::{Judges, Step};
use progress::Progress;
use session::Profile;
use sound::Clause;
use std::process::ExitCode;
use std::time::Duration;
use twin::Twin;
use wrong::{Fault, Wrong};

#[cfg(archive)]
use archive::Archive as Tested;
#[cfg(not(archive))]
use Twin as Tested;

const LINKED: bool = cfg!(archive);

/// Calls in a gate run.
const CALLS: u64 = 1_000_000;

/// How long a failing session is cut down.
const PATIENCE: Duration = Duration::from_secs(60);

/// Steps that the session of a small fault in the data may have once it is cut down.
const SHORT: usize = 30;

/// Calls in the sessions between fences, on each side.
#[cfg(archive)]
const FENCED_CALLS: u64 = 60_000;

/// Of these, so many to one are transaction calls of pairs.
const PAIRS_PART: u64 = 10;

fn usage() -> ExitCode {
    eprintln!(
        "usage: ventarico-host cases                    the named cases of document 01\n\
         \x20      ventarico-host sessions [calls] [seed]  random sessions (default {CALLS} calls, a new seed)\n\
         \x20      ventarico-host damage [seed]            stores that are not sound\n\
         \x20      ventarico-host fences [percent] [seed]  damage and sessions on slices between fences (default 100)\n\
         \x20      ventarico-host pairs [calls] [seed]     pairs of stores with the same transactions (default {})\n\
         \x20      ventarico-host wrong [seed]             wrong stores, each of which must be caught\n\
         \x20      ventarico-host journal [percent] [seed] rollback journals, played and written (default 100)\n\
         \x20      ventarico-host wal [percent] [seed]     write-ahead logs, written and judged (default 100)\n\
         \x20      ventarico-host coverage [calls] [seed]  sessions and damage, then what they have shown\n\
         \x20      ventarico-host all [calls] [seed]       all of these\n\
         \x20      ventarico-host bench WHAT [FILE]        calls, growth, ledger, rebuild, flash, wal or quick; see host/bench\n\
         \x20      ventarico-host life FILE                the torch's story as a page for a browser; see host/life\n\
         \x20      ventarico-host {}  what a store in a file holds, and whether it is sound\n\
         \n\
         for the service desk:\n\
         \x20      ventarico-host wal-write STORE NAME            a store kept in a file, as the log NAME-wal beside a database\n\
         \x20      ventarico-host wal-judge FILE                  a write-ahead log: frames, commits, where it stops and why\n\
         \x20      ventarico-host journal-play JOURNAL DATABASE   plays a rollback journal over a database file",
        CALLS / PAIRS_PART,
        inspect::WORDS
    );
    ExitCode::from(2)
}

fn main() -> ExitCode {
    let words: Vec<String> = std::env::args().skip(1).collect();
    if words.first().is_some_and(|word| word == "bench") {
        return bench_tables::command(&Tested {}, LINKED, &words[1..]).unwrap_or_else(usage);
    }
    if words.first().is_some_and(|word| word == "inspect") {
        return inspect::command(&words[1..]);
    }
    if let Some(ended) = desk::command(&mut Tested {}, &words) {
        return ended;
    }
    if let [word, file] = &words[..] {
        if word == "life" {
            return picture_of_a_life(file);
        }
    }
    let Some(numbers) =
        words.iter().skip(1).map(|word| word.replace('_', "").parse().ok()).collect::<Option<Vec<u64>>>()
    else {
        return usage();
    };
    let (calls, seed) = (numbers.first().copied().unwrap_or(CALLS), numbers.get(1).copied().unwrap_or_else(new_seed));
    let only_seed = numbers.first().copied().unwrap_or(seed);
    if LINKED {
        println!("the proved store is linked: runs are on it, held to the second program and to the history");
    } else {
        println!("NO ARCHIVE WAS LINKED: runs are on the second program alone, held to the history");
        println!("(build with VENTARICO_ARCHIVE_DIR naming the folder of libventarico.a to run on the proved store)");
    }
    let mut coverage = Coverage::new();
    let (passed, failed) = match (words.first().map(String::as_str), numbers.len()) {
        (Some("cases"), 0) => cases(),
        (Some("sessions"), 0..=2) => sessions(&Tested {}, calls, seed, &mut coverage),
        (Some("pairs"), 0) => pairs(CALLS / PAIRS_PART, seed),
        (Some("pairs"), 1..=2) => pairs(calls, seed),
        (Some("damage"), 0..=1) => damage(&Tested {}, only_seed, 100, &mut coverage),
        (Some("fences"), 0) => fences(100, seed),
        (Some("fences"), 1..=2) => fences(numbers[0], seed),
        // For `fences`, which runs this program anew for each.
        (Some("stray"), 1) => {
            fence::go_astray(numbers[0] as usize);
            (0, 1)
        }
        (Some("wrong"), 0..=1) => wrong(only_seed),
        (Some("wal"), 0) => layouts::wal(100, seed),
        (Some("wal"), 1..=2) => layouts::wal(numbers[0], seed),
        (Some("journal"), 0) => layouts::journal(100, seed),
        (Some("journal"), 1..=2) => layouts::journal(numbers[0], seed),
        (Some("coverage"), 0..=2) => {
            let parts = [
                sessions(&Tested {}, calls, seed, &mut coverage),
                damage(&Tested {}, seed, 100, &mut coverage),
                covered(&coverage),
            ];
            sum(&parts)
        }
        (Some("all"), 0..=2) => {
            let parts = [
                cases(),
                sessions(&Tested {}, calls, seed, &mut coverage),
                damage(&Tested {}, seed, 100, &mut coverage),
                fences(100, seed),
                pairs(calls / PAIRS_PART, seed),
                wrong(seed),
                layouts::journal(100, seed),
                layouts::wal(100, seed),
                covered(&coverage),
            ];
            sum(&parts)
        }
        _ => return usage(),
    };
    println!("{passed} passed, {failed} failed");
    ExitCode::from(u8::from(failed > 0))
}

/// Writes the page of the torch's story.
fn picture_of_a_life(file: &str) -> ExitCode {
    let written = life::page(&mut Tested {}, LINKED)
        .and_then(|(html, steps)| std::fs::write(file, html).map(|()| steps).map_err(|why| format!("{file}: {why}")));
    match written {
        Ok(steps) => {
            println!("{file}: {steps} steps; open it in a browser");
            ExitCode::SUCCESS
        }
        Err(why) => {
            println!("life FAILED: {why}. Next: run the cases, then look at host/src/life.rs");
            ExitCode::FAILURE
        }
    }
}

/// From the clock: each run without a seed goes over new ground.
fn new_seed() -> u64 {
    let now = std::time::SystemTime::now().duration_since(std::time::UNIX_EPOCH);
    now.map_or(1, |time| time.as_millis() as u64)
}

fn sum(parts: &[(u64, u64)]) -> (u64, u64) {
    parts.iter().fold((0, 0), |sum, part| (sum.0 + part.0, sum.1 + part.1))
}

/// How many of a list have passed.
#[derive(Default)]
struct Tally {
    passed: u64,
    failed: u64,
}

impl Tally {
    /// Counts one, and gives the word to print for it.
    fn mark(&mut self, ok: bool) -> &'static str {
        self.passed += u64::from(ok);
        self.failed += u64::from(!ok);
        if ok {
            "ok    "
        } else {
            "FAILED"
        }
    }

    /// Gives both numbers. If some were missed, says what to do next.
    fn end(self) -> (u64, u64) {
        if self.failed > 0 {
            println!("  next: a wrong store that is not caught means that the run above is too gentle: mend that");
        }
        (self.passed, self.failed)
    }
}

fn cases() -> (u64, u64) {
    println!("\ncases");
    let (passed, failed) = cases::run(&Tested {});
    if failed > 0 {
        println!("  next: its calls stand in src/cases.rs under its name; the first one that differs is named above");
    }
    (passed, failed)
}

/// Random sessions, seed after seed, until the calls are made or one fails.
fn sessions<S: Store + Clone>(store: &S, calls: u64, seed: u64, coverage: &mut Coverage) -> (u64, u64) {
    println!("\nsessions: {calls} calls, first seed {seed}");
    let judges = Judges { twin: LINKED, history: true, wild: false };
    let mut progress = Progress::new("sessions");
    let (mut made, mut passed) = (0, 0);
    while made < calls {
        let this = seed.wrapping_add(passed);
        let ran = session::run(store, judges, this, u64::MAX, coverage);
        made += ran.calls;
        if let Some((steps, why)) = ran.failure {
            println!(
                "  FAILED  session of seed {this} ({}), after {} steps: {why}",
                Profile::of(this).name,
                steps.len()
            );
            println!("  cutting it down");
            let judges = Judges { wild: Profile::of(this).wild, ..judges };
            let steps = machine::shrink(store, judges, steps, PATIENCE);
            println!("  its shortest form, {} steps:", steps.len());
            machine::print_failing(store, judges, &steps);
            println!("  next: write these calls down as a case, mend, then run `sessions 1 {this}` and the gate again");
            return (passed, 1);
        }
        passed += 1;
        progress.tell(|| format!("{made} of {calls} calls, {passed} sessions, seed {this} done"));
    }
    let seconds = progress.seconds();
    println!("  seeds {seed} to {}", seed.wrapping_add(passed).wrapping_sub(1));
    println!("  {made} calls in {passed} sessions, {seconds:.1} s, {:.0} calls a second", made as f64 / seconds);
    (passed, 0)
}

/// Random pairs of stores, seed after seed, until the transaction calls are made or one fails. Then wrong stores, each
/// beside the second program, which the pairs must catch.
fn pairs(calls: u64, seed: u64) -> (u64, u64) {
    println!("\npairs: {calls} transaction calls, first seed {seed}");
    // The linked store beside itself, beside the second program on either side; and that one beside itself.
    let stores = |seed: u64| -> pair::Stores {
        match seed % 4 {
            0 => [Box::new(Twin), Box::new(Twin)],
            1 => [Box::new(Tested {}), Box::new(Twin)],
            2 => [Box::new(Twin), Box::new(Tested {})],
            _ => [Box::new(Tested {}), Box::new(Tested {})],
        }
    };
    let mut progress = Progress::new("pairs");
    let mut sum = pair::Ran::default();
    while sum.calls < calls {
        let this = seed.wrapping_add(sum.pairs);
        sum.add(pair::run(stores(this), this));
        if let Some((steps, why)) = sum.failure {
            println!("  FAILED  pair of seed {this}, after {} steps: {why}", steps.len());
            pair::print_failing(|| stores(this), this, steps);
            println!("  next: write these calls down as a case, mend, then run `pairs 1 {this}` and the gate again");
            return (sum.pairs - 1, 1);
        }
        progress.tell(|| format!("{} of {calls} calls, {} pairs, seed {this} done", sum.calls, sum.pairs));
    }
    println!("  seeds {seed} to {}", seed.wrapping_add(sum.pairs).wrapping_sub(1));
    println!(
        "  {} transaction calls compared in {} pairs, {} of them up to a full table or log; {} losses on both, \
         {} calls of one side's own, {:.1} s",
        sum.calls,
        sum.pairs,
        sum.full,
        sum.losses,
        sum.own,
        progress.seconds()
    );
    println!("  wrong stores beside the second program, after how many transaction calls they are caught:");
    let mut tally = Tally { passed: sum.pairs, failed: 0 };
    for (fault, said) in Fault::ALL.iter().filter(|(fault, _)| pair::MUST_CATCH.contains(fault)) {
        let caught = pair::caught(*fault, seed, 100_000);
        let after = caught.map_or("-".to_string(), |calls| calls.to_string());
        println!("  {}{after:>8}  {}", tally.mark(caught.is_some()), said.trim());
        progress.tell(|| said.trim().to_string());
    }
    tally.end()
}

fn damage<S: Store + Clone>(store: &S, seed: u64, percent: u64, coverage: &mut Coverage) -> (u64, u64) {
    println!("\ndamage");
    damage::run(store, seed, percent, coverage)
}

/// Damage and sessions on slices that end at a fence, then on slices that begin at one. First what the fences catch.
fn fences(percent: u64, seed: u64) -> (u64, u64) {
    println!("\nfences: what they must catch, each in a process of its own");
    let (passed, missed) = fence::catch_strays().unwrap_or_else(|why| (0, vec![format!("no process: {why}")]));
    println!(
        "  {passed} strays caught: a byte read or written beside a slice, or written where it is lent for reading"
    );
    missed.iter().for_each(|what| println!("  FAILED  not caught: {what}"));
    let strays = Tally { passed, failed: missed.len() as u64 };
    sum(&[strays.end(), fenced(percent, seed)])
}

#[cfg(archive)]
fn fenced(percent: u64, seed: u64) -> (u64, u64) {
    let runs = [fence::Side::Behind, fence::Side::Before].map(|side| {
        println!("\nfences: each lent slice has one just {}", format!("{side:?}").to_lowercase());
        let store = Tested::fenced(side);
        let damaged = damage(&store, seed, percent, &mut Coverage::off());
        sum(&[damaged, sessions(&store, FENCED_CALLS * percent / 100, seed, &mut Coverage::off())])
    });
    sum(&runs)
}

#[cfg(not(archive))]
fn fenced(_: u64, _: u64) -> (u64, u64) {
    println!("  no store is linked that could go astray");
    (0, 0)
}

/// Wrong stores. Each must be caught by the sessions, held to the second program; those that touch committed data
/// must be caught by the history alone as well; and each clause left unchecked must be caught by damage.
fn wrong(seed: u64) -> (u64, u64) {
    /// Small faults in the data, of which gentle sessions are known to miss half.
    const BY_HISTORY: &[Fault] = &[
        Fault::RestartIgnoresStamp,
        Fault::StampSmallest,
        Fault::CompactWritesUncommitted,
        Fault::AbortForgetsOthers,
        Fault::AbortTakesCommitted,
        Fault::CommitKeepsOwner,
        Fault::CompactTakesFrameBytes,
    ];
    println!(
        "\nwrong stores, seed {seed}: after how many calls each is caught, by the second program and by the history;"
    );
    println!("how many steps its failing session has when it is cut down");
    let mut progress = Progress::new("wrong stores");
    let mut tally = Tally::default();
    let mut shown = None;
    for (i, (fault, said)) in Fault::ALL.iter().enumerate() {
        let by_twin = caught(*fault, Judges { twin: true, history: false, wild: false }, seed, 400_000);
        let by_history = caught(*fault, Judges { twin: false, history: true, wild: false }, seed, 40_000);
        let after =
            |caught: &Option<Caught>| caught.as_ref().map_or("-".to_string(), |caught| caught.after.to_string());
        let (twin_after, history_after) = (after(&by_twin), after(&by_history));
        let short = by_twin.map(|caught| {
            let steps = machine::shrink(&Wrong::new(*fault), caught.judges, caught.steps, PATIENCE);
            Caught { steps, ..caught }
        });
        let steps = short.as_ref().map_or(0, |short| short.steps.len());
        // Where a table must be filled first, the shortest form has as many steps as that takes.
        let known = BY_HISTORY.contains(fault);
        let ok = short.is_some() && (!known || by_history.is_some() && steps <= SHORT);
        println!("  {}{twin_after:>8}{history_after:>8}{steps:>5}  {}", tally.mark(ok), said.trim());
        // One of them in full, as a failing run would print it.
        shown = shown.or(short.map(|short| (*fault, said.trim(), short)));
        progress.tell(|| format!("{} of {}", i + 1, Fault::ALL.len()));
    }
    if let Some((fault, said, short)) = shown {
        println!("  the shortest form of the first, '{said}':");
        machine::print_failing(&Wrong::new(fault), short.judges, &short.steps);
    }
    println!("  clauses left unchecked, caught by damage:");
    for (clause, name) in Clause::ALL {
        let ok = damage::catches(&Wrong::new(Fault::Unchecked(clause)), clause, seed);
        println!("  {}  {name}", tally.mark(ok));
        progress.tell(|| name.to_string());
    }
    tally.end()
}

/// A wrong store that was caught: after how many calls, by whom, and the steps of the session that did it.
struct Caught {
    after: u64,
    judges: Judges,
    steps: Vec<Step>,
}

/// Runs sessions on a store with the fault until one fails, if one does.
fn caught(fault: Fault, judges: Judges, seed: u64, most: u64) -> Option<Caught> {
    let mut coverage = Coverage::off();
    let (mut made, mut seed) = (0, seed);
    while made < most {
        // The largest stores take long and add nothing here.
        if Profile::of(seed).stored_bytes() <= 1 << 20 {
            let ran = session::run(&Wrong::new(fault), judges, seed, u64::MAX, &mut coverage);
            made += ran.calls;
            if let Some((steps, _)) = ran.failure {
                let judges = Judges { wild: Profile::of(seed).wild, ..judges };
                return Some(Caught { after: made, judges, steps });
            }
        }
        seed = seed.wrapping_add(1);
    }
    None
}

fn covered(coverage: &Coverage) -> (u64, u64) {
    println!("\ncoverage");
    let wrong = coverage.print();
    wrong.iter().for_each(|line| println!("  FAILED  {line}"));
    (u64::from(wrong.is_empty()), wrong.len() as u64)
}
