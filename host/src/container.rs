//! Where the areas of a store stand in a file, and what the file's checks say. The one module that knows how a file is
//! laid out; nothing is ever written.
//!
//! Two kinds of files: that of examples/filestore.c with its journal beside it (examples/filestore.h has the layout),
//! and the bare areas, one behind the other: the four durable ones, or all seven.

use crate::areas::{get4, Sizes, FIXED_LENGTH};
use std::path::Path;

/// A check of the file: what it is over, and whether it is right.
pub struct Check {
    pub what: String,
    pub right: bool,
}

/// What a file holds.
pub struct Found {
    /// What kind of file it is, in words.
    pub what: String,
    /// The areas in their order: four, or seven where the file has the lost ones too.
    pub areas: Vec<Vec<u8>>,
    pub checks: Vec<Check>,
}

/// No store is longer: the largest has 4.5 MB.
const LONGEST: u64 = 1 << 26;

fn read(path: &Path) -> Result<Vec<u8>, String> {
    let length = std::fs::metadata(path).map_err(|why| format!("{}: {why}", path.display()))?.len();
    if length > LONGEST {
        return Err(format!("{} has {length} bytes: no store is so long", path.display()));
    }
    std::fs::read(path).map_err(|why| format!("{}: {why}", path.display()))
}

/// The bare areas, one behind the other. The sizes say where each ends; what is left over is the last one's.
pub fn bare(path: &Path) -> Result<Found, String> {
    let bytes = read(path)?;
    if bytes.len() < FIXED_LENGTH {
        return Err(format!("{} has {} bytes: not even the sizes are there", path.display(), bytes.len()));
    }
    let sizes = Sizes::of(&bytes);
    // With sizes out of range nothing else can be told apart.
    let lengths = if sizes.in_range() { sizes.lengths() } else { [FIXED_LENGTH, 0, 0, 0, 0, 0, 0] };
    let durable: usize = lengths[..4].iter().sum();
    let count = if bytes.len() <= durable || !sizes.in_range() { 4 } else { 7 };
    let (mut rest, mut areas) = (&bytes[..], Vec::new());
    for (i, &length) in lengths[..count].iter().enumerate() {
        let here = if i + 1 == count { rest.len() } else { length.min(rest.len()) };
        areas.push(rest[..here].to_vec());
        rest = &rest[here..];
    }
    let what = if count == 4 { "the bare durable areas" } else { "all seven areas, bare" };
    Ok(Found { what: what.into(), areas, checks: Vec::new() })
}

/// CRC-32 as zlib has it, over several pieces.
fn crc32(pieces: &[&[u8]]) -> u32 {
    let mut crc = u32::MAX;
    for byte in pieces.iter().flat_map(|piece| piece.iter()) {
        crc ^= u32::from(*byte);
        for _ in 0..8 {
            crc = crc >> 1 ^ if crc & 1 == 1 { 0xedb8_8320 } else { 0 };
        }
    }
    !crc
}

/// The checksum of a journal's record, which is no CRC: docs/FILESTORE.md, "F.journal, byte by byte".
fn record_sum(pieces: &[&[u8]]) -> u32 {
    let step = |sum: u64, group: &[u8]| {
        let mut word = [0; 8];
        word[..group.len()].copy_from_slice(group);
        let product = (sum ^ u64::from_le_bytes(word)).wrapping_mul(0x9e37_79b9_7f4a_7c15);
        product ^ product >> 32
    };
    pieces.concat().chunks(8).fold(0, step) as u32
}

fn get8(bytes: &[u8], at: usize) -> u64 {
    u64::from_le_bytes(bytes[at..at + 8].try_into().unwrap())
}

/// A slot of two at 0 and 4096.
const SLOT: usize = 4096;
/// Where the body of the file, and the records of a journal, begin.
const BODY: usize = 8192;

/// The head of the file.
struct Head<'a> {
    identity: &'a [u8],
    written: u64,
    generation: u64,
    tie: &'a [u8],
    state: u32,
    applying: u32,
    length: u32,
    /// Place and length of fixed, marks, log, the sums, stored.
    places: [(usize, usize); 5],
}

const FILE_WORD: &[u8] = b"ventfil2";
const REST: u32 = 0;
const IN_USE: u32 = 1;
const APPLYING: u32 = 2;

fn heads(file: &[u8]) -> [Option<Head<'_>>; 2] {
    [0, SLOT].map(|at| {
        let head = file.get(at..at + 128)?;
        if !head.starts_with(FILE_WORD) || get4(head, 124) != crc32(&[&head[..124]]) {
            return None;
        }
        Some(Head {
            identity: &head[8..24],
            written: get8(head, 24),
            generation: get8(head, 32),
            tie: &head[40..48],
            state: get4(head, 48),
            applying: get4(head, 52),
            length: get4(head, 56),
            places: [60, 68, 76, 84, 92].map(|at| (get4(head, at) as usize, get4(head, at + 4) as usize)),
        })
    })
}

/// A record of the journal: its kind and its pieces, each a place in the file and bytes.
struct Record<'a> {
    kind: u32,
    pieces: Vec<(usize, &'a [u8])>,
}

const KINDS: [&str; 8] = ["?", "commit", "compact", "close", "checkpoint", "format", "sums", "mend"];

/// The generation in question of a journal, with its records.
struct Journal<'a> {
    generation: u64,
    tie: &'a [u8],
    records: Vec<Record<'a>>,
    /// A later record says that more were synced than are whole.
    damaged: bool,
}

/// The newest generation of the journal that is of this identity.
fn journal<'a>(bytes: &'a [u8], identity: &[u8]) -> Option<Journal<'a>> {
    let slots = [0, SLOT].into_iter().filter_map(|at| {
        let head = bytes.get(at..at + 64)?;
        let whole = head.starts_with(b"ventjrn2") && get4(head, 60) == crc32(&[&head[..60]]);
        (whole && &head[8..24] == identity).then_some(head)
    });
    let head = slots.max_by_key(|head| get8(head, 24))?;
    let generation = get8(head, 24);
    let tie = &head[32..40];
    let whole = |at: usize| {
        let head = bytes.get(at..at + 24)?;
        let record = bytes.get(at + 4..at + 24 + get4(head, 4) as usize)?;
        (get4(head, 0) == record_sum(&[identity, &generation.to_le_bytes(), tie, record])).then_some(record)
    };
    let (mut records, mut at, mut before) = (Vec::new(), BODY, 0);
    // `record` begins behind the checksum: 0 length, 4 number, 8 synced, 12 the one before, 16 kind, 20 pieces.
    while let Some(record) = whole(at) {
        if get4(record, 4) as usize != records.len() + 1 || get4(record, 12) != before {
            break;
        }
        let Some(pieces) = pieces_of(&record[20..]) else { break };
        before = get4(bytes, at);
        records.push(Record { kind: get4(record, 16), pieces });
        at = (at + 4 + record.len()).next_multiple_of(8);
    }
    let count = records.len() as u32;
    let later = (at..bytes.len().saturating_sub(24)).step_by(8).any(|at| {
        // Most places are told by these two numbers, without a checksum over half the journal.
        let (number, synced) = (get4(bytes, at + 8), get4(bytes, at + 12));
        synced > count && synced < number && number < count + 100_000 && whole(at).is_some()
    });
    Some(Journal { generation, tie, records, damaged: later })
}

fn pieces_of(mut rest: &[u8]) -> Option<Vec<(usize, &[u8])>> {
    let mut pieces = Vec::new();
    while !rest.is_empty() {
        let head = rest.get(..8)?;
        let bytes = rest.get(8..8 + get4(head, 4) as usize)?;
        pieces.push((get4(head, 0) as usize, bytes));
        rest = &rest[8 + bytes.len()..];
    }
    Some(pieces)
}

/// How many records of the journal belong on top of the file: the table of examples/filestore.h. Else why none can be
/// told, as words between the names of the two files.
fn on_top(head: &Head, journal: Option<&Journal>) -> Result<usize, &'static str> {
    let newest = journal.map(|journal| journal.generation);
    let tied = journal.is_some_and(|journal| journal.generation == head.generation && journal.tie == head.tie);
    let records = journal.map_or(0, |journal| journal.records.len());
    match head.state {
        REST => match newest {
            Some(newest) if newest > head.generation + 1 || newest == head.generation + 1 && records > 0 => {
                Err("is an older copy than")
            }
            _ => Ok(0),
        },
        IN_USE if tied => Ok(records),
        IN_USE => Err("was left in use, and lacks its journal; it does not belong to, or there is no,"),
        APPLYING if tied && records >= head.applying as usize => Ok(head.applying as usize),
        APPLYING => {
            Err("was cut while a save was applied, and lacks its journal; it does not belong to, or there is no,")
        }
        _ => Err("has a state that this program does not know; beside it"),
    }
}

/// The file of examples/filestore.c.
pub fn file_host(path: &Path) -> Result<Found, String> {
    let mut file = read(path)?;
    let beside = {
        let mut name = path.as_os_str().to_owned();
        name.push(".journal");
        std::path::PathBuf::from(name)
    };
    let journal_bytes = if beside.exists() { read(&beside)? } else { Vec::new() };
    let original = file.clone();
    let slots = heads(&original);
    let heads_right = slots.iter().map(Option::is_some).collect::<Vec<_>>();
    let Some(head) = slots.into_iter().flatten().max_by_key(|head| head.written) else {
        return Err(format!(
            "{} is no file of examples/filestore.c: neither of its heads is whole (bare areas: --areas)",
            path.display()
        ));
    };
    let journal = journal(&journal_bytes, head.identity);
    let count = on_top(&head, journal.as_ref())
        .map_err(|why| format!("{} {why} {}: bring the two that belong together", path.display(), beside.display()))?;
    let places = head.places;
    if places.iter().any(|&(place, length)| place + length > file.len()) || head.length as usize != file.len() {
        return Err(format!("{} has {} bytes; its head says {}", path.display(), file.len(), head.length));
    }
    let applied = journal.as_ref().map_or(&[][..], |journal| &journal.records[..count]);
    let mut checks = Vec::new();
    for (i, right) in heads_right.into_iter().enumerate() {
        // A file that was opened once has used one slot only; the other is zero.
        let used = original.get(SLOT * i..SLOT * i + 128).is_some_and(|head| head.iter().any(|&byte| byte != 0));
        if used {
            checks.push(Check { what: format!("head {i}"), right });
        }
    }
    if let Some(journal) = journal.as_ref().filter(|_| head.state != REST) {
        checks.push(Check { what: format!("journal, {} records", journal.records.len()), right: !journal.damaged });
    }
    if head.state != APPLYING {
        checks.extend(sums(&file, &places));
    }
    for (place, bytes) in applied.iter().flat_map(|record| &record.pieces) {
        let Some(part) = file.get_mut(*place..*place + bytes.len()) else {
            return Err(format!("{}: a record goes past the file's end", beside.display()));
        };
        part.copy_from_slice(bytes);
    }
    if head.state == APPLYING {
        checks.extend(sums(&file, &places));
    }
    let state = match head.state {
        REST => "at rest".to_string(),
        IN_USE => format!("in use, {}", on_top_in_words(applied)),
        _ => format!("cut while a save was applied, {}", on_top_in_words(applied)),
    };
    let what = format!("a file of examples/filestore.c, generation {}, {state}", head.generation);
    let [fixed, marks, log, _, stored] = places.map(|(place, length)| file[place..place + length].to_vec());
    Ok(Found { what, areas: vec![fixed, marks, log, stored], checks })
}

fn on_top_in_words(records: &[Record]) -> String {
    if records.is_empty() {
        return "nothing in its journal".into();
    }
    let counts: Vec<_> = (0..KINDS.len())
        .map(|kind| (KINDS[kind], records.iter().filter(|r| r.kind as usize == kind).count()))
        .filter(|(_, count)| *count > 0)
        .map(|(name, count)| format!("{count} {name}"))
        .collect();
    format!("with {} records of its journal on top ({})", records.len(), counts.join(", "))
}

/// The sums of the body: fixed with marks, log, each page with its stamp, the sums themselves.
fn sums(file: &[u8], places: &[(usize, usize); 5]) -> Vec<Check> {
    let [fixed, marks, log, sums, stored] = places.map(|(place, length)| &file[place..place + length]);
    let pages = (sums.len() / 4).saturating_sub(3);
    let size = if pages == 0 { 0 } else { stored.len() / pages };
    if sums.len() % 4 != 0 || pages == 0 || stored.len() != size * pages || marks.len() < 12 + 4 * pages {
        return vec![Check { what: "the sums fit the areas".into(), right: false }];
    }
    let right = |i: usize, pieces: &[&[u8]]| get4(sums, 4 * i) == crc32(pieces);
    let mut checks = vec![
        Check { what: "fixed and marks".into(), right: right(0, &[fixed, marks]) },
        Check { what: "log".into(), right: right(1, &[log]) },
    ];
    for page in 0..pages {
        let (number, stamp) = ((page as u32).to_le_bytes(), &marks[12 + 4 * page..][..4]);
        let right = right(2 + page, &[&number, stamp, &stored[size * page..][..size]]);
        checks.push(Check { what: format!("page {page}"), right });
    }
    checks.push(Check { what: "the sums".into(), right: right(2 + pages, &[&sums[..4 * (2 + pages)]]) });
    checks
}

#[cfg(test)]
pub mod tests {
    use super::*;
    use crate::areas::{put4, Areas, MARKS_HEAD};

    /// A file of the layout above: places, state, and the sums of the body as it stands.
    pub struct Made {
        pub file: Vec<u8>,
        pub journal: Vec<u8>,
        places: [(usize, usize); 5],
    }

    const IDENTITY: [u8; 16] = *b"identity of one.";
    const TIE: [u8; 8] = *b"one tie.";
    pub const GENERATION: u64 = 5;

    impl Made {
        /// A file of these durable areas, at rest, with no journal.
        pub fn of(areas: &Areas) -> Made {
            let parts = [&areas.fixed, &areas.marks, &areas.log];
            let pages = (areas.marks.len() - MARKS_HEAD) / 8;
            let mut file = vec![0; BODY];
            let mut places = [(0, 0); 5];
            for (i, part) in parts.into_iter().enumerate() {
                places[i] = (file.len(), part.len());
                file.extend_from_slice(part);
            }
            places[3] = (file.len(), 4 * (3 + pages));
            file.resize((file.len() + 4 * (3 + pages)).next_multiple_of(SLOT), 0);
            places[4] = (file.len(), areas.stored.len());
            file.extend_from_slice(&areas.stored);
            let mut made = Made { file, journal: Vec::new(), places };
            made.sum();
            made.head(REST, 0);
            made
        }

        pub fn sum(&mut self) {
            let [fixed, marks, log, sums, stored] = self.places;
            let pages = sums.1 / 4 - 3;
            let size = stored.1 / pages;
            let part = |(place, length): (usize, usize)| self.file[place..place + length].to_vec();
            let mut all = vec![crc32(&[&part(fixed), &part(marks)]), crc32(&[&part(log)])];
            for page in 0..pages {
                let stamp = &part(marks)[MARKS_HEAD + 4 * page..][..4];
                let bytes = &part(stored)[size * page..][..size];
                all.push(crc32(&[&(page as u32).to_le_bytes(), stamp, bytes]));
            }
            let bytes: Vec<u8> = all.iter().flat_map(|sum| sum.to_le_bytes()).collect();
            self.file[sums.0..sums.0 + bytes.len()].copy_from_slice(&bytes);
            put4(&mut self.file, sums.0 + bytes.len(), crc32(&[&bytes]));
        }

        pub fn head(&mut self, state: u32, applying: u32) {
            let length = self.file.len() as u32;
            let head = &mut self.file[..128];
            head.fill(0);
            head[..8].copy_from_slice(FILE_WORD);
            head[8..24].copy_from_slice(&IDENTITY);
            head[24] = 9;
            head[32..40].copy_from_slice(&GENERATION.to_le_bytes());
            head[40..48].copy_from_slice(&TIE);
            put4(head, 48, state);
            put4(head, 52, applying);
            put4(head, 56, length);
            for (i, (place, length)) in self.places.into_iter().enumerate() {
                put4(head, 60 + 8 * i, place as u32);
                put4(head, 64 + 8 * i, length as u32);
            }
            let sum = crc32(&[&head[..124]]);
            put4(head, 124, sum);
        }

        /// The place of an area in the file: fixed, marks, log, the sums, stored.
        pub fn place(&self, area: usize) -> usize {
            self.places[area].0
        }

        /// Puts a journal of a generation beside it, with one record a list of pieces.
        pub fn records(&mut self, generation: u64, records: &[Vec<(usize, Vec<u8>)>]) {
            let mut journal = vec![0; BODY];
            let slot = SLOT * (generation % 2) as usize;
            let head = &mut journal[slot..slot + 64];
            head[..8].copy_from_slice(b"ventjrn2");
            head[8..24].copy_from_slice(&IDENTITY);
            head[24..32].copy_from_slice(&generation.to_le_bytes());
            head[32..40].copy_from_slice(&TIE);
            let sum = crc32(&[&head[..60]]);
            put4(head, 60, sum);
            let mut before = 0;
            for (i, pieces) in records.iter().enumerate() {
                let mut body = Vec::new();
                for (place, bytes) in pieces {
                    body.extend_from_slice(&(*place as u32).to_le_bytes());
                    body.extend_from_slice(&(bytes.len() as u32).to_le_bytes());
                    body.extend_from_slice(bytes);
                }
                let numbers = [body.len() as u32, i as u32 + 1, i as u32, before, 1];
                let mut record: Vec<u8> = numbers.iter().flat_map(|number| number.to_le_bytes()).collect();
                record.extend_from_slice(&body);
                before = record_sum(&[&IDENTITY, &generation.to_le_bytes(), &TIE, &record]);
                journal.extend_from_slice(&before.to_le_bytes());
                journal.extend_from_slice(&record);
                journal.resize(journal.len().next_multiple_of(8), 0);
            }
            self.journal = journal;
        }

        /// Writes both to a folder of the test's own.
        pub fn write(&self, name: &str) -> Written {
            let folder = std::env::temp_dir().join(format!("ventarico-inspect-{}-{name}", std::process::id()));
            std::fs::create_dir_all(&folder).unwrap();
            std::fs::write(folder.join("store"), &self.file).unwrap();
            if !self.journal.is_empty() {
                std::fs::write(folder.join("store.journal"), &self.journal).unwrap();
            }
            Written(folder.join("store"))
        }
    }

    /// A file that goes with its folder when the test lets go of it.
    pub struct Written(std::path::PathBuf);

    impl std::ops::Deref for Written {
        type Target = Path;
        fn deref(&self) -> &Path {
            &self.0
        }
    }

    impl Drop for Written {
        fn drop(&mut self) {
            let _ = self.0.parent().map(std::fs::remove_dir_all);
        }
    }

    fn fresh() -> Areas {
        let sizes = Sizes { page_size: 512, pages: 3, frames: 2, online_size: 4, log_size: 8 };
        let mut areas = Areas::for_sizes(&sizes);
        crate::twin::format(&mut areas, &sizes, 7);
        areas
    }

    fn wrong(found: &Found) -> Vec<&str> {
        found.checks.iter().filter(|check| !check.right).map(|check| &check.what[..]).collect()
    }

    #[test]
    fn the_checksum_is_the_usual_one() {
        assert_eq!(crc32(&[b"1234", b"56789"]), 0xcbf4_3926);
        // The example of docs/FILESTORE.md.
        let identity: Vec<u8> = (0..16).collect();
        let (generation, tie) = (5u64.to_le_bytes(), 0x1122_3344_5566_7788u64.to_le_bytes());
        let record: Vec<u8> = [0u32, 1, 0, 0, 3].iter().flat_map(|number| number.to_le_bytes()).collect();
        assert_eq!(record_sum(&[&identity, &generation, &tie, &record]), 0xc41a_f3b4);
    }

    #[test]
    fn a_file_at_rest_has_its_areas_and_checks() {
        let areas = fresh();
        let mut made = Made::of(&areas);
        let found = file_host(&made.write("rest")).unwrap();
        let durable = [&areas.fixed, &areas.marks, &areas.log, &areas.stored];
        assert!(durable.iter().zip(&found.areas).all(|(right, got)| right[..] == got[..]));
        assert_eq!((found.checks.len(), wrong(&found).len()), (1 + 2 + 3 + 1, 0));
        // Each part has a check of its own.
        for (area, at, name) in
            [(0, 4, "fixed and marks"), (1, 0, "fixed and marks"), (2, 9, "log"), (4, 512, "page 1")]
        {
            let at = made.place(area) + at;
            made.file[at] ^= 16;
            assert_eq!(wrong(&file_host(&made.write("rest")).unwrap()), [name]);
            made.file[at] ^= 16;
        }
    }

    #[test]
    fn a_stamp_alone_is_seen() {
        let mut made = Made::of(&fresh());
        let at = made.place(1) + MARKS_HEAD + 4;
        made.file[at] ^= 1;
        assert_eq!(wrong(&file_host(&made.write("stamp")).unwrap()), ["fixed and marks", "page 1"]);
    }

    #[test]
    fn records_of_the_journal_are_on_top() {
        let mut made = Made::of(&fresh());
        let (marks, stored) = (made.place(1), made.place(4));
        let pieces = vec![vec![(marks, vec![8, 0, 0, 0])], vec![(marks, vec![9, 0, 0, 0]), (stored + 3, vec![77])]];
        made.head(IN_USE, 0);
        made.records(GENERATION, &pieces);
        let found = file_host(&made.write("use")).unwrap();
        assert_eq!((found.areas[1][0], found.areas[3][3], wrong(&found).len()), (9, 77, 0));
        assert!(found.what.contains("with 2 records"), "{}", found.what);
        // A record that is cut takes those behind it away.
        let end = made.journal.len() - 8;
        made.journal[end] ^= 1;
        let found = file_host(&made.write("use")).unwrap();
        assert_eq!((found.areas[1][0], found.areas[3][3]), (8, 0));
        // The first one cut, though a later one says that it was synced: damage.
        made.journal[end] ^= 1;
        made.records(GENERATION, &[pieces.clone(), pieces.clone(), pieces].concat());
        made.journal[BODY + 4] ^= 1;
        assert_eq!(wrong(&file_host(&made.write("use")).unwrap()), ["journal, 0 records"]);
    }

    #[test]
    fn a_journal_that_does_not_belong_is_refused() {
        let mut made = Made::of(&fresh());
        let piece = vec![vec![(made.place(1), vec![8])]];
        made.records(GENERATION + 1, &piece);
        assert!(file_host(&made.write("other")).is_err(), "an older copy of the file");
        made.records(GENERATION + 1, &[]);
        assert!(file_host(&made.write("other")).is_ok(), "a new generation without a record");
        made.head(IN_USE, 0);
        assert!(file_host(&made.write("other")).is_err(), "in use with another generation");
        made.journal.clear();
        assert!(file_host(&made.write("other")).is_err(), "in use without a journal");
        made.head(APPLYING, 2);
        made.records(GENERATION, &piece);
        assert!(file_host(&made.write("other")).is_err(), "applying more records than there are");
        made.head(APPLYING, 1);
        assert!(file_host(&made.write("other")).is_ok());
    }

    #[test]
    fn what_is_no_store_is_told() {
        let made = Made { file: b"ventfil2 and nothing more".to_vec(), journal: Vec::new(), places: [(0, 0); 5] };
        assert!(file_host(&made.write("none")).is_err());
        assert!(file_host(Path::new("/there/is/no/such/file")).is_err());
        let empty = Made { file: vec![0; 19], journal: Vec::new(), places: [(0, 0); 5] };
        assert!(bare(&empty.write("none")).is_err());
    }

    #[test]
    fn bare_areas_are_four_or_seven() {
        let areas = fresh();
        let mut bytes: Vec<u8> = areas.each().iter().take(4).flat_map(|area| area.to_vec()).collect();
        let of = |bytes: &[u8]| Made { file: bytes.to_vec(), journal: Vec::new(), places: [(0, 0); 5] };
        assert_eq!(bare(&of(&bytes).write("bare")).unwrap().areas.len(), 4);
        areas.each().iter().skip(4).for_each(|area| bytes.extend_from_slice(area));
        let found = bare(&of(&bytes).write("bare")).unwrap();
        assert!(areas.each().iter().zip(&found.areas).all(|(right, got)| right[..] == got[..]));
        bytes.push(0);
        assert_eq!(bare(&of(&bytes).write("bare")).unwrap().areas[6].len(), areas.pool.len() + 1);
    }
}
