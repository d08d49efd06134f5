//! Looks inside a store that stands in a file: what it holds in words, whether it is sound and, if not, which clause is
//! broken and where. Nothing is written.
//!
//! A file holds the durable part; what a restart would make of it is shown beside it. A dump of all seven areas shows
//! the lost part as it was.

use crate::areas::{get4, Areas, Lent, Reply, LOG_ROW};
use crate::container::{self, Check, Found};
use crate::faults::{entry_in_words, faults, Fault};
use crate::json::Json;
use crate::record::Record;
use crate::sound::Clause;
use crate::twin;
use std::fmt::Write;
use std::path::Path;
use std::process::ExitCode;

/// The statuses for a script.
const SOUND: u8 = 0;
const NOT_SOUND: u8 = 1;
const UNREADABLE: u8 = 2;
const USAGE: u8 = 3;

/// Faults of one clause that are printed; `--json` has all of them.
const SHOWN: usize = 8;

pub const WORDS: &str = "inspect [--json] [--areas] FILE";

/// The command. Its words are those behind `inspect`.
pub fn command(words: &[String]) -> ExitCode {
    let (mut json, mut bare, mut file) = (false, false, None);
    for word in words {
        match &word[..] {
            "--json" => json = true,
            "--areas" => bare = true,
            option if option.starts_with("--") => return wrong_words(),
            _ if file.is_some() => return wrong_words(),
            name => file = Some(name),
        }
    }
    let Some(file) = file else { return wrong_words() };
    let found = if bare { container::bare(Path::new(file)) } else { container::file_host(Path::new(file)) };
    let (said, status) = match found {
        Ok(found) => {
            let report = Report::of(file, found);
            (if json { report.json().to_string() + "\n" } else { report.text() }, report.status())
        }
        Err(why) if json => {
            let fields =
                vec![("file", Json::text(file)), ("status", u32::from(UNREADABLE).into()), ("why", Json::text(why))];
            (Json::Object(fields).to_string() + "\n", UNREADABLE)
        }
        Err(why) => (format!("unreadable: {why}\nstatus {UNREADABLE}\n"), UNREADABLE),
    };
    print!("{said}");
    ExitCode::from(status)
}

fn wrong_words() -> ExitCode {
    eprintln!("usage: {WORDS}");
    eprintln!("  FILE      a file of examples/filestore.c, its journal beside it");
    eprintln!("  --areas   FILE is the bare areas one behind the other: the four durable ones, or all seven");
    eprintln!("  --json    one JSON object instead of words");
    eprintln!("  status    0 sound; 1 not sound, a check is wrong, or a restart would be refused; 2 unreadable; 3 wrong words");
    ExitCode::from(USAGE)
}

/// Where the lost part comes from.
#[derive(Clone, Copy, PartialEq)]
enum Lost {
    /// It was in the file.
    Dumped,
    /// A restart made it, on a copy.
    Restarted,
    /// The durable part is not sound, or restart refuses it.
    None,
}

struct Report {
    file: String,
    what: String,
    checks: Vec<Check>,
    areas: Areas,
    faults: Vec<Fault>,
    lost: Lost,
    /// What restart answers where the durable part is sound.
    restart: Option<Reply>,
}

impl Report {
    fn of(file: &str, found: Found) -> Report {
        let mut areas = Areas::none();
        let whole = found.areas.len() == 7;
        for (area, bytes) in areas.each_mut().into_iter().zip(&found.areas) {
            *area = lent(bytes);
        }
        if !whole && areas.fixed.len() == crate::areas::FIXED_LENGTH && areas.sizes().in_range() {
            let lengths = areas.sizes().lengths();
            for (area, length) in areas.each_mut().into_iter().zip(lengths).skip(4) {
                *area = Lent::zeros(length);
            }
        }
        let faults = faults(&areas, whole);
        let durable = if whole { crate::faults::faults(&areas, false).is_empty() } else { faults.is_empty() };
        let mut restarted = areas.clone();
        let restart = durable.then(|| twin::restart(&mut restarted));
        let accepted = restart.is_some_and(|reply| reply.accepted());
        let lost = match (whole, accepted) {
            (true, _) => Lost::Dumped,
            (false, true) => Lost::Restarted,
            (false, false) => Lost::None,
        };
        if lost == Lost::Restarted {
            areas = restarted;
        }
        Report { file: file.into(), what: found.what, checks: found.checks, areas, faults, lost, restart }
    }

    fn status(&self) -> u8 {
        let refused = self.restart.is_some_and(|reply| !reply.accepted());
        let wrong = !self.faults.is_empty() || refused || self.checks.iter().any(|check| !check.right);
        if wrong {
            NOT_SOUND
        } else {
            SOUND
        }
    }

    /// Whether sizes and counts hold, so that rows can be told apart.
    fn has_rows(&self) -> bool {
        let shape = [Clause::Params, Clause::Lengths, Clause::Counts, Clause::NLeL];
        self.faults.iter().all(|fault| !shape.contains(&fault.clause))
    }

    fn log_rows(&self) -> Vec<(u64, Record)> {
        let rows = self.areas.log.chunks_exact(LOG_ROW).take(self.areas.logged() as usize);
        rows.map(Record::read).enumerate().map(|(i, record)| (self.areas.first() + i as u64, record)).collect()
    }

    fn online_rows(&self) -> Vec<(u8, u32, Record)> {
        self.areas.online_rows().map(|row| (row[14], get4(row, 15), Record::read(row))).collect()
    }

    fn live(&self) -> Vec<u32> {
        (1..=32).filter(|&number| self.areas.is_live(number)).collect()
    }

    fn text(&self) -> String {
        let mut out = String::new();
        let a = &self.areas;
        let s = a.sizes();
        writeln!(out, "{}: {}", self.file, self.what).unwrap();
        self.checks_in_words(&mut out);
        writeln!(
            out,
            "page size {}, pages {}, frames {}, online size {}, log size {}",
            s.page_size, s.pages, s.frames, s.online_size, s.log_size
        )
        .unwrap();
        if self.has_rows() {
            let (last, first) = (a.last(), a.first());
            let held = match a.logged() {
                0 => "nothing".to_string(),
                1 => format!("number {last}"),
                _ => format!("{first} to {last}"),
            };
            writeln!(out, "L {last}, K {}, n {}: the log holds {held}", a.kay(), a.logged()).unwrap();
        }
        self.soundness_in_words(&mut out);
        if self.has_rows() {
            self.lost_in_words(&mut out);
            self.pages_in_words(&mut out);
            writeln!(out, "\nlog, {} of {} rows", a.logged(), s.log_size).unwrap();
            for (number, record) in self.log_rows() {
                writeln!(out, "  number {number}: {record}").unwrap();
            }
        }
        writeln!(out, "\nstatus {}", self.status()).unwrap();
        out
    }

    fn checks_in_words(&self, out: &mut String) {
        if self.checks.is_empty() {
            writeln!(out, "checks: bare areas have none").unwrap();
            return;
        }
        let right = self.checks.iter().filter(|check| check.right).count();
        writeln!(out, "checks: {right} of {} right", self.checks.len()).unwrap();
        for check in self.checks.iter().filter(|check| !check.right) {
            writeln!(out, "  WRONG: {}", check.what).unwrap();
        }
    }

    fn soundness_in_words(&self, out: &mut String) {
        let of = if self.lost == Lost::Dumped { "tables" } else { "durable part" };
        if self.faults.is_empty() {
            writeln!(out, "{of}: sound").unwrap();
        } else {
            let but = if self.restart.is_some() { "restart and format" } else { "format" };
            writeln!(out, "{of}: NOT SOUND, every call but {but} answers 1").unwrap();
        }
        for (clause, _) in Clause::ALL {
            let here: Vec<_> = self.faults.iter().filter(|fault| fault.clause == clause).collect();
            if here.is_empty() {
                continue;
            }
            writeln!(out, "  {}: {}", clause.label(), clause.sentence()).unwrap();
            for fault in here.iter().take(SHOWN) {
                writeln!(out, "    {}", fault.place).unwrap();
            }
            if here.len() > SHOWN {
                writeln!(out, "    and {} more; --json has all", here.len() - SHOWN).unwrap();
            }
        }
        if let Some(reply) = self.restart.filter(|reply| !reply.accepted()) {
            let why = "more records enter than the online table holds, which no honest use comes to";
            writeln!(out, "restart: REFUSED, {}: {why}", reply.code).unwrap();
        } else if self.restart.is_some() && !self.faults.is_empty() {
            writeln!(out, "restart: accepted, for the durable part is sound; what is lost would be made anew").unwrap();
        }
    }

    fn lost_in_words(&self, out: &mut String) {
        let a = &self.areas;
        match self.lost {
            Lost::None => return,
            Lost::Dumped => writeln!(out, "\nlost part, as it was dumped").unwrap(),
            Lost::Restarted => writeln!(out, "\nlost part, as a restart makes it").unwrap(),
        }
        let list = |numbers: Vec<u32>| match &numbers[..] {
            [] => "none".to_string(),
            some => some.iter().map(u32::to_string).collect::<Vec<_>>().join(", "),
        };
        writeln!(out, "  live numbers: {}", list(self.live())).unwrap();
        let order: Vec<u32> = a.use_order().iter().map(|&frame| frame.into()).collect();
        writeln!(out, "  use order: {}", list(order)).unwrap();
        writeln!(out, "  online, {} of {} rows", a.online_count(), a.sizes().online_size).unwrap();
        for (i, (owner, number, record)) in self.online_rows().into_iter().enumerate() {
            let whose = match (owner, number) {
                (0, number) => format!("committed, number {number}"),
                (owner, 0) => format!("uncommitted, owner {owner}"),
                (owner, number) => format!("owner {owner}, number {number}"),
            };
            writeln!(out, "    row {i}: {whose}: {record}").unwrap();
        }
    }

    /// What the line of a page says. Neighbours that say the same stand in one line.
    fn page_in_words(&self, page: u32) -> String {
        let a = &self.areas;
        let bytes = a.stored_page(page);
        let used = bytes.iter().filter(|&&byte| byte != 0).count();
        let dirty = match a.dirty(page) {
            0 => String::new(),
            number => format!(", dirty number {number}"),
        };
        let entry = match self.lost {
            Lost::None => String::new(),
            _ => format!(", {}", entry_in_words(a.entry(page))),
        };
        let held = match used {
            0 => "all bytes 0".to_string(),
            1 => "1 byte not 0".to_string(),
            _ => format!("{used} bytes not 0"),
        };
        format!("stamp {}{dirty}{entry}, {held}", a.stamp(page))
    }

    fn pages_in_words(&self, out: &mut String) {
        let pages = self.areas.sizes().pages;
        writeln!(out, "\npages, {pages}").unwrap();
        let mut first = 0;
        while first < pages {
            let words = self.page_in_words(first);
            let mut last = first;
            while last + 1 < pages && self.page_in_words(last + 1) == words {
                last += 1;
            }
            let which = if first == last { format!("page {first}") } else { format!("pages {first} to {last}") };
            writeln!(out, "  {which}: {words}").unwrap();
            first = last + 1;
        }
    }

    fn json(&self) -> Json {
        let a = &self.areas;
        let s = a.sizes();
        let record = |record: &Record| {
            vec![
                ("page", Json::Number(record.page.into())),
                ("offset", Json::Number(record.offset.into())),
                ("length", Json::Number(record.length.into())),
                (
                    "kind",
                    Json::text(if record.kind == 0 {
                        "set"
                    } else if record.kind == 1 {
                        "add"
                    } else {
                        "?"
                    }),
                ),
                // As text: a number of 64 bits is more than many readers of JSON keep.
                ("value", Json::text(record.value.to_string())),
            ]
        };
        let mut fields = vec![
            ("file", Json::text(&self.file)),
            ("what", Json::text(&self.what)),
            ("status", u32::from(self.status()).into()),
            ("sound", Json::Flag(self.faults.is_empty())),
            (
                "checks",
                Json::list(&self.checks, |check| {
                    Json::Object(vec![("what", Json::text(&check.what)), ("right", Json::Flag(check.right))])
                }),
            ),
            (
                "faults",
                Json::list(&self.faults, |fault| {
                    Json::Object(vec![
                        ("clause", Json::text(fault.clause.label())),
                        ("says", Json::text(fault.clause.sentence())),
                        ("place", Json::text(&fault.place)),
                    ])
                }),
            ),
            ("restart", self.restart.map_or(Json::Null, |reply| reply.code.into())),
            (
                "sizes",
                Json::Object(vec![
                    ("page_size", s.page_size.into()),
                    ("pages", s.pages.into()),
                    ("frames", s.frames.into()),
                    ("online_size", s.online_size.into()),
                    ("log_size", s.log_size.into()),
                ]),
            ),
        ];
        if self.has_rows() {
            let logged = self.log_rows();
            fields.extend([
                ("L", a.last().into()),
                ("K", a.kay().into()),
                ("n", a.logged().into()),
                (
                    "log",
                    Json::list(&logged, |(number, row)| {
                        Json::Object([vec![("number", Json::Number(*number))], record(row)].concat())
                    }),
                ),
                (
                    "pages",
                    Json::list(0..s.pages, |page| {
                        let used = a.stored_page(page).iter().filter(|&&byte| byte != 0).count();
                        let mut fields = vec![
                            ("stamp", a.stamp(page).into()),
                            ("dirty", a.dirty(page).into()),
                            ("bytes_not_zero", Json::Number(used as u64)),
                        ];
                        if self.lost != Lost::None {
                            fields.push(("entry", Json::text(entry_in_words(a.entry(page)))));
                        }
                        Json::Object(fields)
                    }),
                ),
            ]);
        }
        if self.has_rows() && self.lost != Lost::None {
            let from = if self.lost == Lost::Dumped { "dump" } else { "restart" };
            fields.extend([
                ("lost_from", Json::text(from)),
                ("live", Json::numbers(self.live())),
                ("use_order", Json::numbers(a.use_order().iter().copied())),
                (
                    "online",
                    Json::list(self.online_rows(), |(owner, number, row)| {
                        let whose = vec![("owner", Json::Number(owner.into())), ("number", number.into())];
                        Json::Object([whose, record(&row)].concat())
                    }),
                ),
            ]);
        }
        Json::Object(fields)
    }
}

fn lent(bytes: &[u8]) -> Lent {
    let mut lent = Lent::zeros(bytes.len());
    lent.copy_from_slice(bytes);
    lent
}

#[cfg(test)]
mod tests {
    use super::*;
    use crate::container::tests::Made;
    use crate::damage;

    fn report(found: Found) -> Report {
        Report::of("store", found)
    }

    fn whole(areas: &Areas) -> Report {
        let areas = areas.each().iter().map(|area| area.to_vec()).collect();
        report(Found { what: "a dump".into(), areas, checks: Vec::new() })
    }

    #[test]
    fn each_damage_is_told_with_its_sentence() {
        for specimen in damage::specimens(3) {
            let (clause, name) = (specimen.clause, &specimen.name);
            let report = whole(&specimen.areas);
            let (text, json) = (report.text(), report.json().to_string());
            assert_eq!(report.status(), NOT_SOUND, "{name}");
            assert!(text.contains(&format!("  {}: {}\n", clause.label(), clause.sentence())), "{name}: {text}");
            assert!(json.contains(&format!("\"clause\":\"{}\"", clause.label())), "{name}: {json}");
            assert!(text.contains(&report.faults[0].place), "{name}: {text}");
            for (other, _) in Clause::ALL.into_iter().filter(|(other, _)| *other != clause) {
                assert!(!text.contains(&format!("  {}: ", other.label())), "{name} shows {}", other.label());
            }
        }
    }

    #[test]
    fn durable_damage_is_told_of_a_file() {
        for specimen in damage::specimens(4).iter().filter(|specimen| specimen.clause != Clause::Lengths) {
            let mut made = Made::of(&specimen.areas);
            made.sum();
            let found = container::file_host(&made.write("damage")).unwrap();
            assert!(found.checks.iter().all(|check| check.right), "{}", specimen.name);
            let report = report(found);
            assert_eq!(!report.faults.is_empty(), specimen.durable, "{}", specimen.name);
            let shown = report.faults.iter().any(|fault| fault.clause == specimen.clause);
            assert_eq!(shown, specimen.durable, "{}", specimen.name);
        }
    }

    #[test]
    fn a_sound_store_is_shown_whole() {
        for (areas, _) in damage::ruins(9, 300) {
            let report = whole(&areas);
            // Stores by chance, sound as they are, may hold more committed records than a restart has room for.
            let refused = report.restart.is_some_and(|reply| reply.code == 7);
            assert_eq!(report.status() == SOUND, report.faults.is_empty() && !refused);
            assert_eq!(report.text().contains("restart: REFUSED, 7"), refused);
            if !report.faults.is_empty() {
                continue;
            }
            let text = report.text();
            for i in 0..areas.online_count() {
                assert!(text.contains(&format!("    row {i}: ")), "{text}");
            }
            for (number, record) in report.log_rows() {
                assert!(text.contains(&format!("  number {number}: {record}\n")), "{text}");
            }
            let json = report.json().to_string();
            assert_eq!(json.matches("\"stamp\":").count(), areas.sizes().pages as usize);
            assert!(json.contains(&format!("\"L\":{}", areas.last())));
        }
    }

    #[test]
    fn a_wrong_check_alone_is_not_sound() {
        let (areas, _) = damage::ruins(9, 300).into_iter().find(|(areas, _)| whole(areas).faults.is_empty()).unwrap();
        let mut made = Made::of(&areas);
        assert_eq!(report(container::file_host(&made.write("check")).unwrap()).status(), SOUND);
        let at = made.place(4) + 9;
        made.file[at] ^= 1;
        let report = report(container::file_host(&made.write("check")).unwrap());
        assert_eq!(report.status(), NOT_SOUND);
        assert!(report.text().contains("  WRONG: page 0\n"), "{}", report.text());
    }

    #[test]
    fn what_a_restart_makes_is_shown() {
        let (areas, _) = damage::ruins(21, 400)
            .into_iter()
            .find(|(areas, _)| whole(areas).faults.is_empty() && areas.online_rows().any(|row| row[14] == 0))
            .unwrap();
        let durable = areas.each().iter().take(4).map(|area| area.to_vec()).collect();
        let report = report(Found { what: "four areas".into(), areas: durable, checks: Vec::new() });
        assert!(report.lost == Lost::Restarted && report.live().is_empty());
        let committed: Vec<u32> = areas.online_rows().map(|row| get4(row, 15)).filter(|&number| number != 0).collect();
        let mut shown: Vec<u32> = report.online_rows().iter().map(|row| row.1).collect();
        shown.retain(|number| committed.contains(number));
        assert!(!shown.is_empty());
        assert!(report.text().contains("lost part, as a restart makes it"));
    }
}
