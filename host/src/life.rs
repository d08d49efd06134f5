//! A picture of a life: the story of the torch, call by call, as a page that needs nothing but a browser.
//!
//! The story is that of examples/torch.c. Its calls are made here on the store, each answer is the one that the story
//! needs, and after each call the second program's bytes must be the same. What the page shows is read from the areas
//! then: nothing of it is written down by hand but the words of the story.

use crate::areas::{get4, Areas, Lent, Reply, Sizes, LOG_ROW};
use crate::calls::{Call, Store, CALL_NAMES};
use crate::faults::entry_in_words;
use crate::json::Json;
use crate::machine::{lose, Fill};
use crate::record::{Record, ADD, SET};
use crate::twin::Twin;
use std::cmp::Ordering;
use std::fmt::Write;

const SIZES: Sizes = Sizes { page_size: 512, pages: 4, frames: 2, online_size: 16, log_size: 16 };

/// A row of the battery screen: 8 bytes holder, 8 bytes charge.
const ROW: u32 = 16;
/// The row that the story is about.
const ITS_ROW: u32 = 2;

const NOBODY: u64 = 0;
const SCREEN: u64 = 1001;
const RADIO: u64 = 1002;
const GAME: u64 = 7001;
const TORCH: u64 = 9002;

fn who(number: u64) -> String {
    match number {
        NOBODY => "nobody".into(),
        SCREEN => "the screen".into(),
        RADIO => "the radio".into(),
        GAME => "the game".into(),
        TORCH => "the torch".into(),
        other => format!("number {other}"),
    }
}

enum Scene {
    Chapter(&'static str),
    /// A call, and the code that the story needs.
    Call(Call, u32),
    /// A read of a row that must show this holder and charge.
    Shows {
        number: u32,
        row: u32,
        who: u64,
        used: u64,
    },
    Loss,
}

/// The story, as scenes.
fn story() -> Vec<Scene> {
    let mut scenes = Vec::new();
    let mut add = |more: Vec<Scene>| scenes.extend(more);
    let chapter = Scene::Chapter;
    let done = |call| Scene::Call(call, 0);
    let begin = |number| done(Call::Begin { number });
    let commit = |number| done(Call::Commit { number });
    let cancel = |number| done(Call::Abort { number });
    let update = |number, place, kind: u8, value| {
        let (page, offset) = (place / SIZES.page_size, place % SIZES.page_size);
        done(Call::Update { number, page, offset, length: 8, kind: kind.into(), value })
    };
    let holder = |number, value| update(number, ITS_ROW * ROW, SET, value);
    let charge = |number, kind, value| update(number, ITS_ROW * ROW + 8, kind, value);
    let row = |row, who, used| vec![update(1, row * ROW, SET, who), update(1, row * ROW + 8, SET, used)];
    let shows = |row, who, used| Scene::Shows { number: 4, row, who, used };
    let look = |who, used| vec![begin(4), shows(ITS_ROW, who, used), cancel(4)];
    let checkpoint = || done(Call::Checkpoint { min_del: 1, max_age: 0 });
    let power = || vec![Scene::Loss, done(Call::Restart)];

    add(vec![chapter("A new store"), done(Call::Format { sizes: SIZES, last: 0 })]);
    add(vec![chapter("The screen has row 0 and has used a charge of 310, the radio has row 1 and 120"), begin(1)]);
    add(row(0, SCREEN, 310));
    add(row(1, RADIO, 120));
    add(vec![commit(1)]);
    add(vec![chapter("The game takes row 2 and uses a charge of 700. A checkpoint puts it into its page")]);
    add(vec![begin(1), holder(1, GAME), charge(1, SET, 700), commit(1), checkpoint()]);
    add(look(GAME, 700));
    add(vec![chapter("The game is deleted: its row is cleared, under number 3")]);
    add(vec![begin(3), holder(3, NOBODY), charge(3, SET, 0), commit(3)]);
    add(vec![chapter(
        "Number 3 is given out again. The torch claims the row; meanwhile nobody else may read it; the torch cancels",
    )]);
    add(vec![begin(3), holder(3, TORCH), charge(3, ADD, 5), begin(5)]);
    let read = Call::Read { number: 5, page: 0, offset: ITS_ROW * ROW, length: ROW, room: ROW };
    add(vec![
        Scene::Call(read, 6),
        cancel(3),
        Scene::Shows { number: 5, row: ITS_ROW, who: NOBODY, used: 0 },
        cancel(5),
    ]);
    add(vec![chapter("First loss. The row must be free: no game, and nothing of the cancelled claim")]);
    add(power());
    add(look(NOBODY, 0));
    add(vec![chapter("The torch claims the row, under number 3 once more, and uses 40")]);
    add(vec![begin(3), holder(3, TORCH), charge(3, ADD, 40), commit(3)]);
    add(vec![chapter("Second loss, after the commit: the claim is kept")]);
    add(power());
    add(look(TORCH, 40));
    add(vec![chapter("The torch uses 2. Third loss, before the commit: these 2 are gone, and are charged again")]);
    add(vec![begin(3), charge(3, ADD, 2)]);
    add(power());
    add(look(TORCH, 40));
    add(vec![begin(3), charge(3, ADD, 2), commit(3)]);
    add(vec![chapter(
        "A checkpoint is begun. Fourth loss, when the page is written and the log still has its records: no add counts twice",
    )]);
    add(vec![done(Call::Compact { page: 0, min_del: 1, max_age: 0 })]);
    add(power());
    add(look(TORCH, 42));
    add(vec![chapter("The torch uses 8. Its page is evicted unwritten and comes back right")]);
    add(vec![begin(3), charge(3, ADD, 8), commit(3), done(Call::Evict { page: 0 })]);
    add(look(TORCH, 50));
    add(vec![chapter("A whole checkpoint, and the fifth loss"), checkpoint()]);
    add(power());
    add(look(TORCH, 50));
    add(vec![chapter("Every page is read: with two frames, the page used least recently makes room"), begin(6)]);
    for page in 0..SIZES.pages {
        add(vec![done(Call::Read { number: 6, page, offset: 0, length: SIZES.page_size, room: SIZES.page_size })]);
    }
    add(vec![
        cancel(6),
        chapter("The torch has used 40 + 2 + 8 = 50, the game's 700 are gone, the others have what they had"),
    ]);
    add(vec![begin(4), shows(0, SCREEN, 310), shows(1, RADIO, 120), shows(2, TORCH, 50), cancel(4)]);
    scenes
}

/// One step of the picture: what was done, what came of it, and the store then.
struct Shot {
    chapter: usize,
    /// The call, or the loss, in words.
    said: String,
    /// "begin", .. or "loss".
    kind: &'static str,
    reply: Option<Reply>,
    /// What came of it, a sentence each.
    came: Vec<String>,
    /// Page reads, page writes and log writes up to here.
    sums: [u32; 3],
    store: Json,
}

/// Plays the story. Gives the chapters and the shots, or what went wrong.
fn play<S: Store>(store: &mut S) -> Result<(Vec<&'static str>, Vec<Shot>), String> {
    let (mut areas, mut right) = (Areas::for_sizes(&SIZES), Areas::for_sizes(&SIZES));
    let (mut chapters, mut shots) = (Vec::new(), Vec::new());
    let mut sums = [0; 3];
    let mut noise = 1;
    for scene in story() {
        let before = areas.clone();
        let chapter = chapters.len().saturating_sub(1);
        let (call, code, wanted) = match scene {
            Scene::Chapter(words) => {
                chapters.push(words);
                continue;
            }
            Scene::Loss => {
                lose(&mut areas, Fill::Garbage(noise));
                lose(&mut right, Fill::Garbage(noise));
                noise += 1;
                let came = vec![
                    "Frames, page entries, use order, online records and live numbers are noise now.".to_string(),
                    "The stored pages, their stamps, the log, L and K stand.".to_string(),
                ];
                let (said, store) = ("the power goes, and comes back".to_string(), picture(&areas, true));
                shots.push(Shot { chapter, said, kind: "loss", reply: None, came, sums, store });
                continue;
            }
            Scene::Call(call, code) => (call, code, None),
            Scene::Shows { number, row, who, used } => {
                let (page, offset) = (row * ROW / SIZES.page_size, row * ROW % SIZES.page_size);
                (Call::Read { number, page, offset, length: ROW, room: ROW }, 0, Some((who, used)))
            }
        };
        let (mut buffer, mut right_buffer) = (call.buffer(), call.buffer());
        let reply = store.call(&mut areas, &call, &mut buffer);
        let expected = Twin.call(&mut right, &call, &mut right_buffer);
        if reply != expected || reply.code != code {
            return Err(format!("{call}: the story needs {code}, the second program answers {expected}, got {reply}"));
        }
        if let Some(difference) = right.difference(&areas) {
            return Err(format!("{call}: {difference}"));
        }
        if buffer != right_buffer {
            return Err(format!("{call}: the buffer does not hold what it should"));
        }
        let mut came = changes(&before, &areas, &call, &reply);
        if let (Call::Read { .. }, true, [row, ..]) = (&call, reply.accepted(), &shown_rows(&call, &buffer)[..]) {
            came.insert(0, format!("It shows row {}: {}, charge {}.", row.0, who(row.1), row.2));
            if wanted.is_some_and(|wanted| wanted != (row.1, row.2)) {
                return Err(format!("{call}: {}", came[0]));
            }
        }
        for (sum, count) in sums.iter_mut().zip([reply.reads, reply.writes, reply.logs]) {
            *sum += count;
        }
        let kind = CALL_NAMES[call.kind()];
        let store = picture(&areas, false);
        shots.push(Shot { chapter, said: in_words(&call), kind, reply: Some(reply), came, sums, store });
    }
    Ok((chapters, shots))
}

/// The rows of the screen that a read shows: number, holder, charge. Of a whole page those that are not free.
fn shown_rows(call: &Call, buffer: &Lent) -> Vec<(u32, u64, u64)> {
    let Call::Read { page, offset, length, .. } = *call else { return Vec::new() };
    let first = (page * SIZES.page_size + offset) / ROW;
    let rows = buffer[..length as usize].chunks_exact(ROW as usize).zip(first..);
    let rows = rows.map(|(row, number)| (number, eight(row, 0), eight(row, 8)));
    if length == ROW {
        rows.collect()
    } else {
        rows.filter(|row| row.1 != 0 || row.2 != 0).collect()
    }
}

fn eight(bytes: &[u8], at: usize) -> u64 {
    u64::from_le_bytes(bytes[at..at + 8].try_into().unwrap())
}

/// The call with the numbers that matter to the story in words.
fn in_words(call: &Call) -> String {
    match *call {
        Call::Update { number, page, offset, kind, value, .. } => {
            format!("update {number}: {}", record_in_words(page, offset, kind as u8, value))
        }
        Call::Read { number, page, offset, length, .. } => {
            format!("read {number}: page {page}, {length} bytes from {offset}")
        }
        Call::Abort { number } => format!("abort {number}"),
        Call::Compact { page, min_del, max_age } => {
            format!("compact page {page}: min_del {min_del}, max_age {max_age}")
        }
        Call::Checkpoint { min_del, max_age } => format!("checkpoint: min_del {min_del}, max_age {max_age}"),
        Call::Evict { page } => format!("evict page {page}"),
        Call::Format { sizes, last } => {
            format!("format: {} pages of {} bytes, {} frames, L = {last}", sizes.pages, sizes.page_size, sizes.frames)
        }
        _ => call.to_string(),
    }
}

fn record_in_words(page: u32, offset: u32, kind: u8, value: u64) -> String {
    let place = page * SIZES.page_size + offset;
    let (row, charge) = (place / ROW, place % ROW == 8);
    match (charge, kind) {
        (false, _) => format!("row {row}, holder = {}", who(value)),
        (true, ADD) => format!("row {row}, charge + {value}"),
        (true, _) => format!("row {row}, charge = {value}"),
    }
}

/// What a step has changed, a sentence each, told from the areas before and after.
fn changes(before: &Areas, after: &Areas, call: &Call, reply: &Reply) -> Vec<String> {
    let mut came = Vec::new();
    let mut say = |words: String| came.push(words);
    if reply.code == 6 {
        say("Another open transaction has changed these bytes. Nothing was changed.".into());
    }
    if !reply.accepted() {
        return came;
    }
    match call {
        Call::Format { .. } => return vec!["The store is empty; the pages are taken as they are.".into()],
        Call::Restart => {
            let (count, tables) = (after.online_count(), "Nobody is live, no page is in a frame.");
            return vec![match count {
                0 => format!("{tables} No record enters: the stored pages have all of them."),
                1 => format!("{tables} One log record enters the online table: its page lacks it."),
                _ => format!("{tables} {count} log records enter the online table: their pages lack them."),
            }];
        }
        _ => (),
    }
    for number in 1..=32 {
        match (before.is_live(number), after.is_live(number)) {
            (false, true) => say(format!("Number {number} is live.")),
            (true, false) => say(format!("Number {number} is free again.")),
            _ => (),
        }
    }
    for page in 0..SIZES.pages {
        let (was, is) = (before.entry(page), after.entry(page));
        if was != is {
            say(format!("Page {page} was {}, is {}.", entry_in_words(was), entry_in_words(is)));
        }
    }
    if after.last() > before.last() {
        let (first, last) = (before.last() + 1, after.last());
        say(match last - first {
            0 => format!("Its record got the number {last}, lost its owner, and is in the log."),
            _ => format!("Its records got the numbers {first} to {last}, lost their owner, and are in the log."),
        });
    }
    for page in 0..SIZES.pages {
        if after.stamp(page) != before.stamp(page) {
            say(format!("Page {page} is written, with the stamp {}.", after.stamp(page)));
        }
    }
    let (was, is) = (before.online_count(), after.online_count());
    match is.cmp(&was) {
        Ordering::Less if matches!(call, Call::Abort { .. }) => {
            say(format!("{} of its left the online table; the log never had any.", records(was - is)));
        }
        Ordering::Less => say(format!("{} left the online table.", records(was - is))),
        Ordering::Greater => say("Its record is in the online table; the stored page is as it was.".into()),
        Ordering::Equal => (),
    }
    if after.logged() < before.logged() {
        say(format!("The log is cut from {} to {}; K is {}.", records(before.logged()), after.logged(), after.kay()));
    }
    came
}

fn records(count: u32) -> String {
    format!("{count} record{}", if count == 1 { "" } else { "s" })
}

/// The store as the page shows it. After a loss the lost part is not looked at.
fn picture(a: &Areas, lost: bool) -> Json {
    let record = |row: &[u8], owner: u32, number: u32| {
        let record = Record::read(row);
        Json::Object(vec![
            ("number", number.into()),
            ("owner", owner.into()),
            ("page", Json::Number(record.page.into())),
            ("text", Json::text(record_in_words(record.page.into(), record.offset.into(), record.kind, record.value))),
        ])
    };
    // The rows that somebody holds, and the one that the story is about, with its bytes.
    let rows = |page: u32, bytes: &[u8]| {
        let first = page * SIZES.page_size / ROW;
        let all = (first..).zip(bytes.chunks_exact(ROW as usize));
        let all = all.filter(|(number, row)| *number == ITS_ROW || row.iter().any(|&byte| byte != 0));
        Json::list(all, |(number, row)| {
            let mut fields = vec![
                ("row", number.into()),
                ("holder", Json::text(who(eight(row, 0)))),
                ("charge", Json::Number(eight(row, 8))),
            ];
            if number == ITS_ROW {
                fields.push(("hex", Json::List(vec![Json::text(hex(&row[..8])), Json::text(hex(&row[8..]))])));
            }
            Json::Object(fields)
        })
    };
    let pages = Json::list(0..SIZES.pages, |page| {
        Json::Object(vec![
            ("stamp", a.stamp(page).into()),
            ("dirty", a.dirty(page).into()),
            ("rows", rows(page, a.stored_page(page))),
        ])
    });
    let first = a.first() as u32;
    let logged = a.log.chunks_exact(LOG_ROW).take(a.logged() as usize);
    let log = Json::list(logged.zip(first..), |(row, number)| record(row, 0, number));
    let rest = if lost {
        Json::Object(vec![("noise", Json::text(hex(&a.tables)))])
    } else {
        let frames = Json::list(0..SIZES.frames, |frame| {
            let page = (0..SIZES.pages).find(|&page| a.frame_of(page) == Some(frame as usize));
            Json::Object(vec![
                ("page", page.map_or(Json::Null, Json::from)),
                ("rows", page.map_or(Json::List(Vec::new()), |page| rows(page, a.frame(frame as usize)))),
            ])
        });
        Json::Object(vec![
            ("live", Json::numbers((1..=32u32).filter(|&number| a.is_live(number)))),
            ("order", Json::numbers(a.use_order().iter().copied())),
            ("entries", Json::list(0..SIZES.pages, |page| Json::text(entry_in_words(a.entry(page))))),
            ("online", Json::list(a.online_rows(), |row| record(row, row[14].into(), get4(row, 15)))),
            ("frames", frames),
        ])
    };
    Json::Object(vec![
        ("L", a.last().into()),
        ("K", a.kay().into()),
        ("n", a.logged().into()),
        ("pages", pages),
        ("log", log),
        ("lost", rest),
    ])
}

fn hex(bytes: &[u8]) -> String {
    let pairs: Vec<_> = bytes.iter().map(|byte| format!("{byte:02x}")).collect();
    pairs.join(" ")
}

const TEMPLATE: &str = include_str!("life.html");

/// The page, and how many steps it has.
pub fn page<S: Store>(store: &mut S, linked: bool) -> Result<(String, usize), String> {
    let (chapters, shots) = play(store)?;
    let by = if linked { "the proved archive, held to the second program" } else { "the second program" };
    let mut list = String::new();
    let mut told = usize::MAX;
    for (i, shot) in shots.iter().enumerate() {
        if shot.chapter != told {
            told = shot.chapter;
            writeln!(list, "<li class=\"chapter\">{}</li>", plain(chapters[told])).unwrap();
        }
        let answer = shot.reply.map_or(String::new(), |reply| format!(" → {}", answer(&reply)));
        writeln!(list, "<li class=\"step\"><a href=\"#{}\">{}{answer}</a></li>", i + 1, plain(&shot.said)).unwrap();
    }
    let steps = Json::list(&shots, |shot| {
        let reply = shot.reply.map_or(Json::Null, |reply| {
            Json::Object(vec![
                ("code", reply.code.into()),
                ("reads", reply.reads.into()),
                ("writes", reply.writes.into()),
                ("logs", reply.logs.into()),
            ])
        });
        Json::Object(vec![
            ("chapter", Json::Number(shot.chapter as u64)),
            ("kind", Json::text(shot.kind)),
            ("said", Json::text(&shot.said)),
            ("reply", reply),
            ("came", Json::list(&shot.came, Json::text)),
            ("sums", Json::numbers(shot.sums)),
            ("store", shot.store.clone()),
        ])
    });
    let data = Json::Object(vec![
        ("chapters", Json::list(chapters, Json::text)),
        ("onlineSize", SIZES.online_size.into()),
        ("logSize", SIZES.log_size.into()),
        ("steps", steps),
    ]);
    let html = TEMPLATE.replace("{{BY}}", by).replace("{{LIST}}", &list).replace("{{DATA}}", &data.to_string());
    Ok((html, shots.len()))
}

fn answer(reply: &Reply) -> String {
    if reply.accepted() {
        return format!("done, {} / {} / {}", reply.reads, reply.writes, reply.logs);
    }
    format!("refused, {}", reply.code)
}

fn plain(words: &str) -> String {
    words.replace('&', "&amp;").replace('<', "&lt;")
}

#[cfg(test)]
mod tests {
    use super::*;
    use crate::wrong::{Fault, Wrong};

    #[test]
    fn the_page_has_every_step() {
        let scenes = story().iter().filter(|scene| !matches!(scene, Scene::Chapter(_))).count();
        let (html, steps) = page(&mut Twin, false).unwrap();
        assert_eq!(steps, scenes);
        assert_eq!(html.matches("<li class=\"step\">").count(), scenes);
        assert_eq!(html.matches("\"came\":").count(), scenes);
        assert_eq!(html.matches("\"kind\":\"loss\"").count(), 5);
        assert!(html.contains("It shows row 2: the torch, charge 50."));
        assert!(!html.contains("{{"), "a place of the template was not filled");
    }

    #[test]
    fn the_page_needs_no_network() {
        let (html, _) = page(&mut Twin, false).unwrap();
        for word in ["http:", "https:", "//cdn", "src=", "@import", "url(", "fetch(", "XMLHttp", "<link"] {
            assert!(!html.contains(word), "{word}");
        }
    }

    #[test]
    fn the_story_catches_the_old_fault() {
        // A cancel under a reissued number that takes what was committed: the torch's own bug.
        let wrong = page(&mut Wrong::new(Fault::AbortTakesCommitted), false);
        assert!(wrong.is_err(), "the story does not show the fault that it is about");
    }

    #[test]
    fn it_is_the_story_of_the_example() {
        let example = include_str!("../../examples/torch.c");
        for number in [GAME, TORCH] {
            assert!(example.contains(&number.to_string()));
        }
        assert_eq!(example.matches("power_loss();").count(), 5);
    }
}
