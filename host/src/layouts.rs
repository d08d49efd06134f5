//! The runs of SQLite's two layouts: the library's journals and logs, where they are linked, held to the second
//! program, plainly and between fences; then wrong ones, every one of which must be caught.

use crate::journal;
use crate::journal_run;
use crate::journal_wrong;
use crate::progress::Progress;
use crate::wal;
use crate::wal_run;
use crate::wal_wrong;

/// A part of the rounds is enough to catch a wrong one. A run of less than that is about the library alone.
const WRONG_PERCENT: u64 = 5;

/// What is tested: a name, and how it is called.
type Subjects<T> = Vec<(&'static str, Box<T>)>;

#[cfg(archive_journal)]
fn journals() -> Subjects<dyn journal::Journal> {
    use crate::fence::Side;
    use crate::layouts_archive::{Between, Direct};
    vec![
        ("the library", Box::new(Direct)),
        ("the library, a fence just behind each slice", Box::new(Between::new(Side::Behind))),
        ("the library, a fence just before each slice", Box::new(Between::new(Side::Before))),
    ]
}

#[cfg(not(archive_journal))]
fn journals() -> Subjects<dyn journal::Journal> {
    vec![("THE SECOND PROGRAM ALONE: no archive with a journal was linked", Box::new(journal::Second))]
}

#[cfg(archive_wal)]
fn logs() -> Subjects<dyn wal::Wal> {
    use crate::fence::Side;
    use crate::layouts_archive::{Between, Direct};
    vec![
        ("the library", Box::new(Direct)),
        ("the library, a fence just behind each slice", Box::new(Between::new(Side::Behind))),
        ("the library, a fence just before each slice", Box::new(Between::new(Side::Before))),
    ]
}

#[cfg(not(archive_wal))]
fn logs() -> Subjects<dyn wal::Wal> {
    vec![("THE SECOND PROGRAM ALONE: no archive with a write-ahead log was linked", Box::new(wal::Second))]
}

/// The library's logs where they are linked, without fences: for its speed and for the desk.
#[cfg(archive_wal)]
pub fn log_writer() -> &'static dyn wal::Wal {
    &crate::layouts_archive::Direct
}

#[cfg(not(archive_wal))]
pub fn log_writer() -> &'static dyn wal::Wal {
    &wal::Second
}

#[cfg(archive_journal)]
pub fn journal_player() -> &'static dyn journal::Journal {
    &crate::layouts_archive::Direct
}

#[cfg(not(archive_journal))]
pub fn journal_player() -> &'static dyn journal::Journal {
    &journal::Second
}

/// Counts what was tried: a line for each phase of each subject.
struct Count {
    passed: u64,
    failed: u64,
    progress: Progress,
}

impl Count {
    fn new(what: &'static str) -> Count {
        Count { passed: 0, failed: 0, progress: Progress::new(what) }
    }

    fn phase(&mut self, phase: &str, outcome: Result<u64, String>) {
        match outcome {
            Ok(calls) => {
                self.passed += 1;
                println!("    ok    {calls:>8} calls  {phase}");
            }
            Err(why) => {
                self.failed += 1;
                println!("    FAILED  {phase}: {why}");
            }
        }
        self.progress.tell(|| phase.to_string());
    }

    /// A wrong one, with the phases that caught it.
    fn lie(&mut self, said: &str, caught: &[&str]) {
        if let Some(first) = caught.first() {
            self.passed += 1;
            println!("    ok      {said} ({} phases; the first: {first})", caught.len());
        } else {
            self.failed += 1;
            println!("    FAILED  not caught: {said}");
        }
        self.progress.tell(|| said.to_string());
    }

    fn end(self, command: &str) -> (u64, u64) {
        println!("  {:.1} s", self.progress.seconds());
        if self.failed > 0 {
            println!("  next: `{command} PERCENT SEED` makes the same run again; one that is not caught: the run is too gentle");
        }
        (self.passed, self.failed)
    }
}

pub fn journal(percent: u64, seed: u64) -> (u64, u64) {
    println!("\njournal: rollback journals, seed {seed}");
    let mut count = Count::new("journal");
    let on = |count: &mut Count, name: &str, subject: &dyn journal::Journal, percent: u64| {
        println!("  {name}");
        for (phase, run) in journal_run::PHASES {
            count.phase(phase, journal_run::run(subject, *run, seed, percent));
        }
    };
    journals().iter().for_each(|(name, subject)| on(&mut count, name, &**subject, percent));
    if percent < WRONG_PERCENT {
        return count.end("journal");
    }
    println!("  the first of these once more");
    let (large, run_large) = journal_run::LARGE;
    count.phase(large, journal_run::run(journal_player(), run_large, seed, percent));
    on(&mut count, "the wrong ones without their lies", &journal_wrong::Wrong(journal_wrong::Lie::None), WRONG_PERCENT);
    println!("  wrong ones, each of which must be caught");
    for (lie, said) in journal_wrong::LIES {
        let wrong = journal_wrong::Wrong(*lie);
        // What is large takes long, and only one lie is about it.
        let large = Some(&journal_run::LARGE).filter(|_| *lie == journal_wrong::Lie::ThirtyTwoBits);
        let phases = journal_run::PHASES.iter().chain(large);
        let caught = phases.filter(|(_, run)| journal_run::run(&wrong, *run, seed, WRONG_PERCENT).is_err());
        count.lie(said.trim(), &caught.map(|(phase, _)| *phase).collect::<Vec<_>>());
    }
    count.end("journal")
}

pub fn wal(percent: u64, seed: u64) -> (u64, u64) {
    println!("\nwal: write-ahead logs, seed {seed}");
    let mut count = Count::new("wal");
    let on = |count: &mut Count, name: &str, subject: &dyn wal::Wal, percent: u64| {
        println!("  {name}");
        for (phase, run) in wal_run::PHASES {
            count.phase(phase, wal_run::run(subject, *run, seed, percent));
        }
    };
    logs().iter().for_each(|(name, subject)| on(&mut count, name, &**subject, percent));
    if percent < WRONG_PERCENT {
        return count.end("wal");
    }
    println!("  the first of these once more");
    let (large, run_large) = wal_run::LARGE;
    count.phase(large, wal_run::run(log_writer(), run_large, seed, percent));
    on(&mut count, "the wrong ones without their lies", &wal_wrong::Wrong(wal_wrong::Lie::None), WRONG_PERCENT);
    println!("  wrong ones, each of which must be caught");
    for (lie, said) in wal_wrong::LIES {
        let wrong = wal_wrong::Wrong(*lie);
        // What is large takes long, and only one lie is about it.
        let large = Some(&wal_run::LARGE).filter(|_| *lie == wal_wrong::Lie::ThirtyTwoBits);
        let phases = wal_run::PHASES.iter().chain(large);
        let caught = phases.filter(|(_, run)| wal_run::run(&wrong, *run, seed, WRONG_PERCENT).is_err());
        count.lie(said.trim(), &caught.map(|(phase, _)| *phase).collect::<Vec<_>>());
    }
    count.end("wal")
}
