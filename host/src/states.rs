//! Sound stores by chance: every table is drawn at random among the values that soundness allows, so most of them
//! are stores that no history leads to. What a call must do is said of all sound stores, so it is tried on these too.

use crate::areas::{dirty_at, entry_at, put2, put4, stamp_at, Areas, Sizes, LOG_ROW, ONLINE_ROW, TABLES_HEAD};
use crate::random::Random;
use crate::record::Record;

/// The sound store of a seed.
pub fn sound_store(sizes: &Sizes, seed: u64) -> Areas {
    let mut random = Random::new(seed);
    let mut a = Areas::for_sizes(sizes);
    sizes.write(&mut a.fixed);
    random.fill(&mut a.stored);
    random.fill(&mut a.pool);
    let log = durable_part(&mut a, sizes, &mut random);
    let mut rows = committed_rows(&a, &log, &mut random);
    rows.truncate(random.between(0, sizes.online_size) as usize);
    uncommitted_rows(&mut a, &mut rows, &mut random);
    put2(&mut a.tables, 0, rows.len() as u16);
    for (place, row) in a.online.chunks_exact_mut(ONLINE_ROW).zip(&rows) {
        place.copy_from_slice(row);
    }
    page_table(&mut a, &rows, &mut random);
    a
}

/// Marks and log. Gives the log's records with their numbers.
fn durable_part(a: &mut Areas, sizes: &Sizes, random: &mut Random) -> Vec<(u32, Record)> {
    let some = [random.below(3), random.below(40), random.next() as u32, u32::MAX - random.below(20), u32::MAX];
    let last = random.pick(&some);
    let most = sizes.log_size.min(last);
    let logged = if random.percent(30) { most } else { random.between(0, most) };
    // The first number may be 2 to the 32nd, the one before it not.
    let before_first = last - logged;
    let kay = random.between(before_first, last);
    put4(&mut a.marks, 0, last);
    put4(&mut a.marks, 4, kay);
    put4(&mut a.marks, 8, logged);
    for page in 0..sizes.pages {
        let some = [0, before_first, random.between(before_first, last), random.between(0, last), last];
        put4(&mut a.marks, stamp_at(page), random.pick(&some));
        if before_first < kay && random.percent(50) {
            put4(&mut a.marks, dirty_at(sizes.pages, page), random.between(before_first + 1, kay));
        }
    }
    let mut log = Vec::new();
    for i in 0..logged {
        let record = any_record(sizes, random);
        record.write(&mut a.log[LOG_ROW * i as usize..]);
        log.push((before_first + 1 + i, record));
    }
    log
}

/// A well-formed record, often on the same few bytes.
fn any_record(sizes: &Sizes, random: &mut Random) -> Record {
    let length = random.pick(&[1, 2, 4, 8]);
    let most = sizes.page_size - u32::from(length);
    let offset = if random.percent(70) { random.below(14) } else { random.between(0, most) };
    Record {
        page: random.below(sizes.pages) as u16,
        offset: offset as u16,
        length,
        kind: random.below(2) as u8,
        value: random.next() >> (64 - 8 * u32::from(length)),
    }
}

/// Some of the log's records that stand above their page's stamp, in any order.
fn committed_rows(a: &Areas, log: &[(u32, Record)], random: &mut Random) -> Vec<[u8; ONLINE_ROW]> {
    let mut rows = Vec::new();
    for (number, record) in log {
        if *number > a.stamp(record.page.into()) && random.percent(80) {
            let mut row = [0; ONLINE_ROW];
            record.write(&mut row);
            put4(&mut row, 15, *number);
            rows.push(row);
        }
    }
    if random.percent(50) {
        shuffle(&mut rows, random);
    }
    rows
}

/// Puts uncommitted records anywhere among the rows, and makes their owners live. No byte gets two owners.
fn uncommitted_rows(a: &mut Areas, rows: &mut Vec<[u8; ONLINE_ROW]>, random: &mut Random) {
    let sizes = a.sizes();
    for _ in 0..random.below(4) {
        a.tables[3 + random.below(32) as usize] = 1;
    }
    let room = sizes.online_size - rows.len() as u32;
    let wanted = if random.percent(30) { room } else { random.between(0, room) };
    for _ in 0..wanted {
        let record = any_record(&sizes, random);
        let owner = random.pick(&[1, 2, 3, 32]);
        let (from, to) = (u32::from(record.offset), u32::from(record.offset) + u32::from(record.length));
        let clashes = rows.iter().any(|row| {
            let other = Record::read(row);
            row[14] != 0 && row[14] != owner && other.page == record.page && other.meets(from, to)
        });
        if !clashes {
            let mut row = [0; ONLINE_ROW];
            record.write(&mut row);
            row[14] = owner;
            a.tables[2 + usize::from(owner)] = 1;
            rows.insert(random.below(rows.len() as u32 + 1) as usize, row);
        }
    }
}

/// Entries and use order: frames given out at random, dirty exactly where there is a record.
fn page_table(a: &mut Areas, rows: &[[u8; ONLINE_ROW]], random: &mut Random) {
    let sizes = a.sizes();
    let mut free: Vec<u8> = (0..sizes.frames as u8).collect();
    shuffle(&mut free, random);
    let mut pages: Vec<u32> = (0..sizes.pages).collect();
    shuffle(&mut pages, random);
    let share = random.pick(&[20, 60, 100]);
    let mut order = Vec::new();
    for page in pages {
        let dirty = rows.iter().any(|row| u32::from(Record::read(row).page) == page);
        let frame = if random.percent(share) { free.pop() } else { None };
        order.extend(frame);
        a.tables[entry_at(sizes.frames, page)] = frame.map_or(0, |frame| 2 * (frame + 1)) + u8::from(dirty);
    }
    shuffle(&mut order, random);
    a.tables[2] = order.len() as u8;
    a.tables[TABLES_HEAD..][..order.len()].copy_from_slice(&order);
}

pub fn shuffle<T>(items: &mut [T], random: &mut Random) {
    for i in (1..items.len()).rev() {
        items.swap(i, random.below(i as u32 + 1) as usize);
    }
}

#[cfg(test)]
mod tests {
    use super::*;
    use crate::sound;

    #[test]
    fn they_are_sound() {
        let mut random = Random::new(3);
        for seed in 0..2000 {
            let sizes = Sizes {
                page_size: random.pick(&[512, 4096]),
                pages: random.between(1, 9),
                frames: random.pick(&[1, 2, 5, 64]),
                online_size: random.pick(&[1, 4, 20, 512]),
                log_size: random.pick(&[1, 4, 20]),
            };
            let broken = sound::broken(&sound_store(&sizes, seed));
            assert!(broken.none(), "seed {seed}, {sizes:?}: {broken}");
        }
    }
}
