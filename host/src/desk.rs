//! Tools for the service desk: a store kept in a file written as a write-ahead log beside a database, a log judged in
//! words, and a rollback journal played over a database file. What is written is written whole or not at all. They go
//! by the proved library where it is linked; what they say beside its answers (pages, commits, why it stops) is the
//! second program's reading of the same bytes.

use crate::areas::{Areas, Lent, Sizes};
use crate::calls::{Call, Store};
use crate::container;
use crate::journal::{self, Header, BAD_CHECKSUM, CUT_SHORT};
use crate::layouts;
use crate::wal::{self, Given, Judged, Stop, Wal};
use std::fs::{self, File};
use std::hash::{BuildHasher, RandomState};
use std::io::Write;
use std::path::{Path, PathBuf};
use std::process::ExitCode;

const PLAYED_BY: &str = if cfg!(archive_journal) {
    "by the proved library"
} else {
    "BY THE SECOND PROGRAM: no library with journals was linked"
};
const JUDGED_BY: &str =
    if cfg!(archive_wal) { "by the proved library" } else { "BY THE SECOND PROGRAM: no library with logs was linked" };

/// The words of a tool, or none of them. The store's calls are made on the store that is given.
pub fn command(store: &mut dyn Store, words: &[String]) -> Option<ExitCode> {
    let words: Vec<&str> = words.iter().map(String::as_str).collect();
    let said = match words[..] {
        ["wal-write", file, name] => write_log(store, Path::new(file), Path::new(name)),
        ["wal-judge", file] => judge(Path::new(file)),
        ["journal-play", journal, database] => play(Path::new(journal), Path::new(database)),
        _ => return None,
    };
    Some(match said {
        Ok(()) => ExitCode::SUCCESS,
        Err(why) => {
            println!("{why}");
            ExitCode::FAILURE
        }
    })
}

fn read(file: &Path) -> Result<Vec<u8>, String> {
    fs::read(file).map_err(|why| format!("{} cannot be read: {why}", file.display()))
}

/// "1 frame", "3 frames".
fn many(count: usize, what: &str) -> String {
    format!("{count} {what}{}", if count == 1 { "" } else { "s" })
}

/// Numbers in ascending order, each once, runs drawn together: "page 4", "pages 1, 3 to 7".
fn listed(what: &str, mut numbers: Vec<u32>) -> String {
    numbers.sort_unstable();
    numbers.dedup();
    let mut runs: Vec<(u32, u32)> = Vec::new();
    for number in numbers {
        match runs.last_mut() {
            Some((_, to)) if *to + 1 == number => *to = number,
            _ => runs.push((number, number)),
        }
    }
    let said = runs.iter().map(|&(from, to)| match to - from {
        0 => from.to_string(),
        1 => format!("{from}, {to}"),
        _ => format!("{from} to {to}"),
    });
    let more = if runs.iter().all(|(from, to)| from == to) && runs.len() == 1 { "" } else { "s" };
    format!("{what}{more} {}", said.collect::<Vec<_>>().join(", "))
}

/// The store of a file as a restart leaves it: what is committed, and nothing else.
fn restarted(store: &mut dyn Store, path: &Path) -> Result<Areas, String> {
    let refused = |why: String| format!("refused: {}: {why}; next: host/inspect {}", path.display(), path.display());
    let found = container::file_host(path).map_err(&refused)?;
    if let Some(wrong) = found.checks.iter().find(|check| !check.right) {
        return Err(refused(format!("a check is wrong: {}", wrong.what)));
    }
    let sizes = Sizes::of(&found.areas[0]);
    if !sizes.in_range() {
        return Err(refused("its sizes are out of range".to_string()));
    }
    let mut areas = Areas::for_sizes(&sizes);
    for (area, bytes) in areas.each_mut().into_iter().zip(&found.areas) {
        area.set_length(bytes.len());
        area.copy_from_slice(bytes);
    }
    match store.call(&mut areas, &Call::Restart, &mut Lent::zeros(0)) {
        reply if reply.accepted() => Ok(areas),
        reply => Err(refused(format!("restart answers {}", reply.code))),
    }
}

/// The page size of a database file, if it is one. It keeps 65,536 as 1.
fn page_size_of(database: &[u8]) -> Option<u32> {
    let kept = database.strip_prefix(FIRST_WORDS).and_then(|rest| rest.first_chunk())?;
    Some(match u16::from_be_bytes(*kept) {
        1 => 65_536,
        size => size.into(),
    })
}

/// What a database begins with.
const FIRST_WORDS: &[u8] = b"SQLite format 3\0";

/// Every page of the store in a log beside the database: SQLite opens the database with it, or takes it in.
fn write_log(store: &mut dyn Store, path: &Path, name: &Path) -> Result<(), String> {
    let areas = restarted(store, path)?;
    let Sizes { page_size, pages, .. } = areas.sizes();
    let log = beside(name, "-wal");
    println!("{}: {pages} pages of {page_size} bytes, written {JUDGED_BY}", path.display());
    let refused = |what: &Path, why: &str| Err(format!("refused: {}: {why}", what.display()));
    match fs::read(name).ok().as_deref().and_then(page_size_of) {
        Some(size) if size == page_size => (),
        Some(_) => return refused(name, "its pages are not as large as the store's; next: name the database that they were taken from"),
        None => return refused(name, "no SQLite database; next: put there the one that the store's pages were taken from, for SQLite drops a log beside none"),
    }
    if log.exists() {
        return refused(&log, "a log is there already; next: have SQLite take it in, by PRAGMA wal_checkpoint");
    }
    let list: Vec<u32> = (0..pages).collect();
    let given = Given { salts: by_chance(), sequence: 0, order: 0 };
    let mut bytes = vec![0; wal::length(list.len(), page_size)];
    let library = layouts::log_writer();
    let reply = library.write(&areas, &list, &mut bytes, &given);
    if !reply.accepted() {
        return refused(path, &format!("writing a log answers {}; next: report this store", reply.code));
    }
    let right = Judged { code: 0, frames: pages.into(), end: bytes.len() as u64 };
    same(library.judge(&bytes), right)?;
    if !bytes[wal::HEADER + wal::FRAME..].starts_with(FIRST_WORDS) {
        println!("its page 0 does not begin as a database does: sqlite3 will not open it");
    }
    replace(&log, &bytes)?;
    println!("{}: {}, {} bytes, the last one a commit", log.display(), many(list.len(), "frame"), bytes.len());
    println!("next: sqlite3 {} 'PRAGMA integrity_check; PRAGMA wal_checkpoint;'", name.display());
    Ok(())
}

/// Salts that no earlier log had: the standard library's hasher is keyed anew in each process.
fn by_chance() -> [u32; 2] {
    let number = RandomState::new().hash_one(std::time::SystemTime::now());
    [(number >> 32) as u32, number as u32]
}

fn judge(path: &Path) -> Result<(), String> {
    let file = read(path)?;
    let library = layouts::log_writer();
    println!("{}: {} bytes, judged {JUDGED_BY}", path.display(), file.len());
    let judged = library.judge(&file);
    let log = match wal::Log::open(&file) {
        Ok(log) if judged.code == 0 => log,
        opened => {
            same(judged.code, opened.err().unwrap_or(0))?;
            return Err(match judged.code {
                wal::BAD_SUM => {
                    "refused, 17: the header's checksum is wrong; SQLite takes no frame of such a log".to_string()
                }
                _ if file.len() < wal::HEADER => "refused, 16: it has no whole header of 32 bytes".to_string(),
                _ => "refused, 16: no write-ahead log of version 3007000 with a page size of 512 to 65,536".to_string(),
            });
        }
    };
    let (frames, stop) = wal::valid_frames(&file, &log);
    same(judged.frames, frames.len() as u64)?;
    let used = wal::up_to_commit(&frames);
    same(judged.end, if used == 0 { 0 } else { wal::length(used, log.page_size) as u64 })?;
    let [salt_1, salt_2] = log.given.salts;
    let order = if log.given.order == 0 { "lowest" } else { "highest" };
    println!("page size {}, sequence number {}, salts {salt_1:08x} {salt_2:08x}", log.page_size, log.given.sequence);
    println!("words are summed {order} byte first");
    let commits = frames.iter().filter(|frame| frame.commit != 0).count();
    println!("{} valid, {} among them", many(frames.len(), "frame"), many(commits, "commit"));
    let mut first = 0;
    for (i, frame) in frames.iter().enumerate().filter(|(_, frame)| frame.commit != 0) {
        let pages = frames[first..=i].iter().map(|frame| frame.page).collect();
        let frames = listed("frame", (first as u32 + 1..=i as u32 + 1).collect());
        let end = wal::length(i + 1, log.page_size);
        println!(
            "  {frames}, up to byte {end}: {}; the database has {} then",
            listed("page", pages),
            many(frame.commit as usize, "page")
        );
        first = i + 1;
    }
    if used < frames.len() {
        println!("  {} behind the last commit not used", many(frames.len() - used, "frame"));
    }
    let at = wal::length(frames.len(), log.page_size);
    let next = frames.len() + 1;
    println!(
        "{}",
        match stop {
            Stop::End => format!("it stops at byte {at}: the file ends there"),
            Stop::Cut(left) => format!(
                "it stops at byte {at}: frame {next} is cut short, {left} of {} bytes",
                wal::FRAME + log.page_size as usize
            ),
            Stop::Salt =>
                format!("it stops at byte {at}: frame {next} has other salts; it is of an older log, or damaged"),
            Stop::Sum =>
                format!("it stops at byte {at}: the checksum of frame {next} is wrong; it was not whole, or is damaged"),
        }
    );
    if used == 0 {
        println!("nothing was committed: the database is what its file holds");
        return Ok(());
    }
    // Where each page's last image is.
    let mut pages: Vec<u32> = frames[..used].iter().map(|frame| frame.page).filter(|&page| page > 0).collect();
    pages.sort_unstable();
    pages.dedup();
    for &page in &pages {
        let found = library.find(&file, page);
        same(found, wal::Second.find(&file, page))?;
        println!("  page {page}: its last image begins at byte {}", found.at);
    }
    Ok(())
}

/// The library's answer and the second program's.
fn same<T: PartialEq + std::fmt::Debug>(library: T, second: T) -> Result<(), String> {
    if library == second {
        return Ok(());
    }
    Err(format!("FAILED: the library answers {library:?}, the second program {second:?}; one of them is wrong: report this file"))
}

/// Why a header's records end, in words.
fn why_ended(ended: u32, header: &Header) -> &'static str {
    match ended {
        CUT_SHORT => "the next record is cut short",
        BAD_CHECKSUM => "the next record's checksum is wrong",
        _ if header.count == journal::ALL => "those are all that the file holds",
        _ => "those are all that it counts",
    }
}

fn play(journal_path: &Path, path: &Path) -> Result<(), String> {
    let (journal, database) = (read(journal_path)?, read(path)?);
    let library = layouts::journal_player();
    println!("{}: {} bytes, played {PLAYED_BY}", journal_path.display(), journal.len());
    println!("{}: {} bytes", path.display(), database.len());
    let untouched = format!("{} is as it was", path.display());
    let Some(first) = Header::read(&journal) else {
        let why = match journal.len() {
            0..journal::HEADER => "the journal is shorter than a header",
            _ if journal[0] == 0 => {
                "the journal begins with zeros: it was never synced, or is of a transaction that was done"
            }
            _ => "the journal has other first bytes than SQLite's",
        };
        println!("{why}\nnothing to bring back; {untouched}");
        return Ok(());
    };
    let refused = |code: u32, at: usize| {
        let why = match code {
            journal::BAD_PARAMETER => {
                format!("page size {}: the library plays 512, 1,024, 2,048 and 4,096", first.page_size)
            }
            journal::BAD_LENGTH => "the library plays over 1 to 1,024 whole pages".to_string(),
            journal::BAD_HEADER => {
                format!("its header is damaged: sector size {}, page size {}", first.sector, first.page_size)
            }
            journal::WRONG_PAGE => {
                format!("a record behind the header at byte {at} names page 0, or one that the database has not")
            }
            _ => "an answer that is not known".to_string(),
        };
        format!("refused, {code}: {why}\n{untouched}")
    };
    let size = first.page_size as usize;
    let mut pages = database.clone();
    // Pages that the transaction has cut off are in the journal; so there must be room for them.
    let wanted = (first.size_in_pages as usize).min(journal::MOST_PAGES) * size;
    if journal::is_page_size(first.page_size) && wanted > pages.len() {
        pages.resize(wanted, 0);
    }
    let (mut at, mut restored) = (0, Vec::new());
    loop {
        let left = &journal[at..];
        let reply = library.play(left, &mut pages, first.page_size);
        if reply.code == journal::BAD_HEADER && at > 0 {
            println!("it stops at byte {at}: there is no further header");
            break;
        }
        if reply.code != 0 {
            return Err(refused(reply.code, at));
        }
        let header = Header::read(left).expect("the library has taken it");
        // SQLite takes no header whose sector is not whole, and leaves the database's length then too.
        if left.len() < header.sector as usize {
            println!("it stops at byte {at}: the header's sector is cut short");
            if at > 0 {
                break;
            }
            println!("nothing to bring back; {untouched}");
            return Ok(());
        }
        let numbers: Vec<u32> = left[header.sector as usize..]
            .chunks_exact(size + journal::BESIDE_PAGE)
            .take(reply.records as usize)
            .map(|record| journal::get(record, 0))
            .collect();
        let pages_said =
            if numbers.is_empty() { String::new() } else { format!(", {}", listed("page", numbers.clone())) };
        let counted =
            if header.count == journal::ALL { "no count".to_string() } else { format!("count {}", header.count) };
        println!(
            "header at byte {at}, {counted}: {} restored{pages_said}; {}",
            many(numbers.len(), "record"),
            why_ended(reply.ended, &header)
        );
        restored.extend(numbers);
        let end = at + header.sector as usize + reply.records as usize * (size + journal::BESIDE_PAGE);
        at = end.next_multiple_of(header.sector as usize);
        if reply.ended != journal::COUNTED {
            println!("it stops at byte {end}: {}", why_ended(reply.ended, &header));
            break;
        }
        if at >= journal.len() {
            println!("it stops at byte {end}: the journal ends there");
            break;
        }
    }
    let length = first.size_in_pages as usize * size;
    if length > pages.len() {
        return Err(format!(
            "refused: the database had {} pages, which is more than the library plays over\n{untouched}",
            first.size_in_pages
        ));
    }
    pages.truncate(length);
    if length != database.len() {
        println!(
            "the database had {} before the transaction: {} bytes instead of {}",
            many(length / size, "page"),
            length,
            database.len()
        );
    }
    replace(path, &pages)?;
    let records = restored.len();
    restored.sort_unstable();
    restored.dedup();
    println!("{} restored {} in {}", many(records, "record"), many(restored.len(), "page"), path.display());
    println!("the journal is left where it was; SQLite would play it again, with the same outcome");
    Ok(())
}

/// The file of that name and more.
fn beside(path: &Path, more: &str) -> PathBuf {
    let mut name = path.as_os_str().to_owned();
    name.push(more);
    PathBuf::from(name)
}

/// The new bytes in place of the old, if there are any, whole or not at all: a copy is written and synced, then takes the name.
fn replace(path: &Path, bytes: &[u8]) -> Result<(), String> {
    let copy = beside(path, ".written");
    let folder = match path.parent() {
        Some(folder) if !folder.as_os_str().is_empty() => folder,
        _ => Path::new("."),
    };
    let put = || -> std::io::Result<()> {
        let mut file = File::create(&copy)?;
        file.write_all(bytes)?;
        if let Ok(old) = fs::metadata(path) {
            file.set_permissions(old.permissions())?;
        }
        file.sync_all()?;
        fs::rename(&copy, path)?;
        File::open(folder)?.sync_all()
    };
    put().map_err(|why| {
        // The old file stands as long as the copy has not taken its name.
        let _ = fs::remove_file(&copy);
        format!("{} cannot be written: {why}; next: make room beside it, or see who may write there", path.display())
    })
}

#[cfg(test)]
mod tests {
    use super::*;

    #[test]
    fn numbers_are_drawn_together() {
        assert_eq!(listed("page", vec![5, 1, 2, 3, 7, 8, 3]), "pages 1 to 3, 5, 7, 8");
        assert_eq!(listed("page", vec![4, 4]), "page 4");
    }
}
