//! Where tables are not sound: each broken clause with its place, in words. For whoever looks at a store from the field.
//!
//! It says what sound.rs says, clause for clause (a test holds the two together), and walks the tables slowly, by rows
//! and pairs of rows, since here the place matters and the time does not.

use crate::areas::{get4, Areas, Sizes, AREA_NAMES, LOG_ROW, ONLINE_ROW, TABLES_HEAD};
use crate::record::Record;
use crate::sound::Clause;

pub struct Fault {
    pub clause: Clause,
    /// The row or page, and what is wrong there.
    pub place: String,
}

/// A list of faults that grows.
struct Found(Vec<Fault>);

impl Found {
    fn ask(&mut self, clause: Clause, holds: bool, place: impl FnOnce() -> String) {
        if !holds {
            self.0.push(Fault { clause, place: place() });
        }
    }
}

/// The faults of a store; of its durable part alone, where the lost areas are not there. The fixed area has 20 bytes.
pub fn faults(a: &Areas, whole: bool) -> Vec<Fault> {
    let mut found = Found(Vec::new());
    let sizes = a.sizes();
    shape(a, &sizes, &mut found);
    if !found.0.is_empty() {
        return found.0;
    }
    counts(a, &sizes, whole, &mut found);
    if !found.0.is_empty() {
        return found.0;
    }
    durable(a, &sizes, &mut found);
    if whole {
        frames(a, &sizes, &mut found);
        rows(a, &sizes, &mut found);
    }
    found.0
}

/// S1, S2.
fn shape(a: &Areas, s: &Sizes, found: &mut Found) {
    let ranges = [
        ("page size", s.page_size, matches!(s.page_size, 512 | 1024 | 2048 | 4096), "512, 1,024, 2,048 or 4,096"),
        ("pages", s.pages, (1..=1024).contains(&s.pages), "1 to 1,024"),
        ("frames", s.frames, (1..=64).contains(&s.frames), "1 to 64"),
        ("online size", s.online_size, (1..=512).contains(&s.online_size), "1 to 512"),
        ("log size", s.log_size, (1..=2048).contains(&s.log_size), "1 to 2,048"),
    ];
    for (name, value, holds, range) in ranges {
        found.ask(Clause::Params, holds, || format!("{name} is {value}; it may be {range}"));
    }
    if found.0.is_empty() {
        for ((name, area), right) in AREA_NAMES.iter().zip(a.each()).zip(s.lengths()) {
            let length = area.len();
            found
                .ask(Clause::Lengths, length == right, || format!("{name} has {length} bytes; the sizes give {right}"));
        }
    }
}

/// S3, S16.
fn counts(a: &Areas, s: &Sizes, whole: bool, found: &mut Found) {
    let (n, last) = (a.logged(), a.last());
    found.ask(Clause::Counts, n <= s.log_size, || format!("n is {n}; the log size is {}", s.log_size));
    if whole {
        let (m, u) = (a.online_count(), a.in_use());
        found.ask(Clause::Counts, m <= s.online_size, || format!("m is {m}; the online size is {}", s.online_size));
        found.ask(Clause::Counts, u <= s.frames, || format!("u is {u}; the frames are {}", s.frames));
    }
    found.ask(Clause::NLeL, n <= last, || format!("n is {n}; L is {last}"));
}

/// S7 and S14 of the log, S15, S17 to S19.
fn durable(a: &Areas, s: &Sizes, found: &mut Found) {
    let (last, kay, first, logged) = (a.last(), a.kay(), a.first(), a.logged() as usize);
    found.ask(Clause::StampKLeL, kay <= last, || format!("K is {kay}; L is {last}"));
    found.ask(Clause::FirstLeK1, first <= u64::from(kay) + 1, || {
        format!("the log's first number is {first}; K is {kay}")
    });
    for page in 0..s.pages {
        let (stamp, dirty) = (a.stamp(page), a.dirty(page));
        found.ask(Clause::StampKLeL, stamp <= last, || format!("page {page}: its stamp is {stamp}; L is {last}"));
        if dirty != 0 {
            let said = format!("page {page}: its dirty number is {dirty}");
            found.ask(Clause::DirtyLeK, dirty <= kay, || format!("{said}; K is {kay}"));
            found.ask(Clause::FirstLeDirty, first <= dirty.into(), || format!("{said}; the log begins with {first}"));
        }
    }
    for (i, row) in a.log.chunks_exact(LOG_ROW).take(logged).enumerate() {
        let record = Record::read(row);
        found.ask(Clause::Record, record.well_formed(s), || {
            format!("log row {i} (number {}): {}", first + i as u64, malformed(&record, s))
        });
    }
    spare("log", &a.log, LOG_ROW, logged, "n", found);
}

/// S4 to S6, S14 of the use order, S20.
fn frames(a: &Areas, s: &Sizes, found: &mut Found) {
    for (number, &byte) in (1..).zip(&a.tables[3..TABLES_HEAD]) {
        found.ask(Clause::LiveByte, byte <= 1, || format!("the live byte of number {number} is {byte}"));
    }
    let frames = s.frames as usize;
    let mut serves: Vec<Option<u32>> = vec![None; frames];
    for page in 0..s.pages {
        let Some(frame) = a.frame_of(page) else { continue };
        let entry = a.entry(page);
        found.ask(Clause::Entry, frame < frames, || {
            format!("page {page}: its entry is {entry}, which is frame {frame}; there are {frames} frames")
        });
        if let Some(serves) = serves.get_mut(frame) {
            found.ask(Clause::FrameOnce, serves.is_none(), || {
                format!("frame {frame} serves page {} and page {page}", serves.unwrap_or(0))
            });
            *serves = serves.or(Some(page));
        }
    }
    let mut named = vec![false; frames];
    for (place, &frame) in a.use_order().iter().enumerate() {
        let frame = usize::from(frame);
        let within = frame < frames;
        found.ask(Clause::Order, within, || format!("place {place} names frame {frame}; there are {frames} frames"));
        if within {
            found.ask(Clause::Order, !named[frame], || format!("place {place} names frame {frame} a second time"));
            named[frame] = true;
        }
    }
    for frame in 0..frames {
        match (serves[frame], named[frame]) {
            (Some(page), false) => found.ask(Clause::Order, false, || {
                format!("frame {frame} serves page {page}, and the use order does not name it")
            }),
            (None, true) => {
                found.ask(Clause::Order, false, || format!("the use order names frame {frame}, which serves no page"))
            }
            _ => (),
        }
    }
    let order = &a.tables[TABLES_HEAD..][..frames];
    spare("use order", order, 1, a.in_use() as usize, "u", found);
}

/// S7 to S14 of the online rows.
fn rows(a: &Areas, s: &Sizes, found: &mut Found) {
    let (last, first) = (a.last(), a.first());
    let rows: Vec<_> = a.online_rows().map(|row| (Record::read(row), row[14], get4(row, 15), row)).collect();
    // Rows that the clauses on pairs look at: well formed, with an owner and a number that go together.
    let (mut open, mut numbered): (Vec<usize>, Vec<usize>) = (Vec::new(), Vec::new());
    for (i, (record, owner, number, row)) in rows.iter().enumerate() {
        let (owner, number, page) = (*owner, *number, u32::from(record.page));
        if !record.well_formed(s) {
            found.ask(Clause::Record, false, || format!("online row {i}: {}", malformed(record, s)));
            continue;
        }
        match (owner, number) {
            (1..=32, 0) => {
                found.ask(Clause::Owner, a.is_live(owner.into()), || {
                    format!("online row {i}: its owner {owner} is not live")
                });
                open.push(i);
            }
            (0, number) if number >= 1 && number <= last => {
                let stamp = a.stamp(page);
                found.ask(Clause::AboveStamp, number > stamp, || {
                    format!("online row {i}: its number is {number}, the stamp of page {page} is {stamp}")
                });
                if u64::from(number) < first {
                    found.ask(Clause::InLog, false, || {
                        format!("online row {i}: its number is {number}, the log begins with {first}")
                    });
                    continue;
                }
                let logged = &a.log[LOG_ROW * (u64::from(number) - first) as usize..][..LOG_ROW];
                found.ask(Clause::InLog, row[..LOG_ROW] == *logged, || {
                    let other = Record::read(logged);
                    format!("online row {i}, number {number}: it is {record}; the log's is {other}")
                });
                numbered.push(i);
            }
            _ => found.ask(Clause::Owner, false, || format!("online row {i}: {}", unowned(owner, number, last))),
        }
    }
    for (k, &i) in numbered.iter().enumerate() {
        let twin = numbered[..k].iter().find(|&&j| rows[j].2 == rows[i].2);
        found.ask(Clause::NumberOnce, twin.is_none(), || {
            format!("online rows {} and {i} have the same number, {}", twin.map_or(0, |&j| j), rows[i].2)
        });
    }
    for (k, &i) in open.iter().enumerate() {
        for &j in &open[..k] {
            let ((one, owner, ..), (two, other, ..)) = (&rows[j], &rows[i]);
            let from = u32::from(two.offset);
            let shares = one.page == two.page && one.meets(from, from + u32::from(two.length));
            found.ask(Clause::NoSharedByte, owner == other || !shares, || {
                let byte = one.offset.max(two.offset);
                format!(
                    "online rows {j} (owner {owner}) and {i} (owner {other}) share byte {byte} of page {}",
                    one.page
                )
            });
        }
    }
    for page in 0..s.pages {
        let dirty = a.entry(page) & 1 == 1;
        let row = rows.iter().position(|(record, ..)| u32::from(record.page) == page);
        found.ask(Clause::DirtyIffRecord, dirty == row.is_some(), || match row {
            Some(row) => format!("page {page} is {}, and online row {row} is for it", entry_in_words(a.entry(page))),
            None => format!("page {page} is {}, and no online row is for it", entry_in_words(a.entry(page))),
        });
    }
    spare("online", &a.online, ONLINE_ROW, rows.len(), "m", found);
}

/// S14: the first byte behind the rows that is not zero, and how many there are.
fn spare(name: &str, table: &[u8], width: usize, count: usize, sign: &str, found: &mut Found) {
    let rest = &table[width * count..];
    let many = rest.iter().filter(|&&byte| byte != 0).count();
    let first = rest.iter().position(|&byte| byte != 0).map(|at| width * count + at);
    found.ask(Clause::RowsZero, many == 0, || {
        let at = first.unwrap_or(0);
        let place = if width == 1 { format!("place {at}") } else { format!("row {}, byte {}", at / width, at % width) };
        let more = if many == 1 { String::new() } else { format!(", and {} more are not 0", many - 1) };
        format!("{name}, {place} is {}; {sign} is {count}{more}", table[at])
    });
}

fn malformed(record: &Record, s: &Sizes) -> String {
    let Record { page, offset, length, kind, value } = *record;
    if u32::from(page) >= s.pages {
        return format!("its page is {page}; there are {} pages", s.pages);
    }
    if !matches!(length, 1 | 2 | 4 | 8) {
        return format!("its length is {length}");
    }
    if u32::from(offset) + u32::from(length) > s.page_size {
        return format!("offset {offset} and length {length} go past the page's end, {}", s.page_size);
    }
    if kind > 1 {
        return format!("its kind is {kind}");
    }
    format!("its value {value} does not fit {length} byte{}", if length == 1 { "" } else { "s" })
}

fn unowned(owner: u8, number: u32, last: u32) -> String {
    match (owner, number) {
        (0, 0) => "it has neither an owner nor a number".into(),
        (0, _) => format!("its number is {number}; L is {last}"),
        (1..=32, _) => format!("it has the owner {owner} and the number {number}"),
        _ => format!("its owner is {owner}"),
    }
}

pub fn entry_in_words(entry: u8) -> String {
    match entry {
        0 => "absent".into(),
        1 => "evicted".into(),
        _ => format!("{} in frame {}", if entry % 2 == 0 { "clean" } else { "dirty" }, entry / 2 - 1),
    }
}

#[cfg(test)]
mod tests {
    use super::*;
    use crate::damage;
    use crate::sound::{self, Clauses};

    fn labels(faults: &[Fault]) -> Vec<&'static str> {
        let mut labels: Vec<_> = faults.iter().map(|fault| fault.clause as usize).collect();
        labels.sort_unstable();
        labels.dedup();
        labels.into_iter().map(|i| Clause::ALL[i].0.label()).collect()
    }

    fn same(faults: &[Fault], broken: Clauses, what: &str) {
        let said = labels(faults).join(" ");
        let right = if broken.none() { String::new() } else { broken.to_string() };
        assert_eq!(said, right, "{what}: {:?}", faults.iter().map(|fault| &fault.place).collect::<Vec<_>>());
    }

    #[test]
    fn each_damage_shows_its_clause() {
        let specimens = damage::specimens(11);
        for (clause, _) in Clause::ALL {
            assert!(specimens.iter().any(|specimen| specimen.clause == clause), "{}", clause.label());
        }
        for specimen in &specimens {
            let found = faults(&specimen.areas, true);
            assert_eq!(labels(&found), [specimen.clause.label()], "{}", specimen.name);
            assert!(found.iter().all(|fault| !fault.place.is_empty()));
            let durable = faults(&specimen.areas, false);
            assert_eq!(!durable.is_empty(), specimen.durable, "{}", specimen.name);
        }
    }

    #[test]
    fn any_bytes_show_the_clauses_that_are_broken() {
        for (areas, what) in damage::ruins(5, 4000) {
            same(&faults(&areas, true), sound::broken(&areas), &what);
            same(&faults(&areas, false), sound::broken_durable(&areas), &what);
        }
    }
}
