//! What each call changes, as include/ventarico.h says it in section 5: a port copies these bytes to its medium and no
//! others. Tried on sound stores by chance, all calls, many arguments.

use crate::areas::{dirty_at, entry_at, stamp_at, Areas, AREA_NAMES, LOG_ROW, ONLINE_ROW, TABLES_HEAD};
use crate::calls::{Call, Store};
use crate::damage;
use crate::random::Random;
use crate::record::fits;
use crate::sound;
use crate::twin::Twin;
use std::ops::Range;

const M: Range<usize> = 0..2;

/// The bytes of each area that the call may change; `a` is the store before it.
fn named(a: &Areas, call: &Call) -> [Vec<Range<usize>>; 7] {
    let s = a.sizes();
    let (size, pages, frames) = (s.page_size as usize, s.pages, s.frames);
    let [fixed, marks, log, _, tables, online, pool] = s.lengths().map(|length| 0..length);
    let live = |number: u32| 2 + number as usize..3 + number as usize;
    // u and the places of the use order.
    let order = || vec![2..3, TABLES_HEAD..TABLES_HEAD + frames as usize];
    let entries = || entry_at(frames, 0)..entry_at(frames, 0) + pages as usize;
    let entry = |page: u32| entry_at(frames, page)..entry_at(frames, page) + 1;
    let page_at = |page: u32| size * page as usize..size * (page as usize + 1);
    let row = ONLINE_ROW * a.online_count() as usize;
    let mut named: [Vec<Range<usize>>; 7] = Default::default();
    match *call {
        Call::Begin { number } => named[4] = vec![live(number)],
        Call::Read { .. } => {
            named[4] = [order(), vec![entries()]].concat();
            named[6] = vec![pool];
        }
        Call::Update { .. } => {
            named[4] = [order(), vec![M, entries()]].concat();
            named[5] = vec![row..row + ONLINE_ROW];
            named[6] = vec![pool];
        }
        Call::Commit { number } => {
            let owned = a.online_rows().filter(|row| u32::from(row[14]) == number).count();
            let first = LOG_ROW * a.logged() as usize;
            named[1] = vec![0..4, 8..12];
            named[2] = vec![first..first + LOG_ROW * owned];
            named[4] = vec![live(number)];
            named[5] = (0..a.online_count() as usize).map(|i| ONLINE_ROW * i + 14..ONLINE_ROW * (i + 1)).collect();
        }
        Call::Abort { number } => {
            named[4] = [order(), vec![M, live(number), entries()]].concat();
            named[5] = vec![online];
        }
        Call::Evict { page } => named[4] = [order(), vec![entry(page)]].concat(),
        Call::Compact { page, .. } => {
            named[1] = vec![stamp_at(page)..stamp_at(page) + 4];
            named[3] = vec![page_at(page)];
            named[4] = [order(), vec![M, entry(page)]].concat();
            named[5] = vec![online];
        }
        Call::Close => {
            named[1] = vec![4..12, dirty_at(pages, 0)..marks.end];
            named[2] = vec![log];
        }
        Call::Checkpoint { .. } => {
            named[1] = vec![4..12, stamp_at(0)..marks.end];
            named[2] = vec![log];
            named[3] = (0..pages).map(page_at).collect();
            named[4] = [order(), vec![M, entries()]].concat();
            named[5] = vec![online];
        }
        Call::Restart => (named[4], named[5]) = (vec![tables], vec![online]),
        Call::Format { .. } => {
            (named[0], named[1], named[2]) = (vec![fixed], vec![marks], vec![log]);
            (named[4], named[5]) = (vec![tables], vec![online]);
        }
    }
    named
}

fn some_call(a: &Areas, random: &mut Random) -> Call {
    let s = a.sizes();
    // Most calls want a live number, evict a page in a frame.
    let pick = |random: &mut Random, from: Vec<u32>, other: u32| {
        if from.is_empty() || random.percent(20) {
            other
        } else {
            random.pick(&from)
        }
    };
    let (any_number, any_page) = (random.between(1, 32), random.below(s.pages));
    let number = pick(random, (1..=32).filter(|&number| a.is_live(number)).collect(), any_number);
    let page = pick(random, (0..s.pages).filter(|&page| a.frame_of(page).is_some()).collect(), any_page);
    let length = random.pick(&[1, 2, 4, 8]);
    let offset = random.below(s.page_size - length + 1);
    let value = random.next();
    let value = if fits(value, length) { value } else { value >> (64 - 8 * length) };
    let (min_del, max_age) = (random.pick(&[1, 2, 8]), random.pick(&[0, 3, u32::MAX]));
    match random.below(11) {
        0 => Call::Begin { number: any_number },
        1 => Call::Read { number, page, offset, length, room: length },
        2 => Call::Update { number, page, offset, length, kind: random.below(2), value },
        3 => Call::Commit { number },
        4 => Call::Abort { number },
        5 => Call::Evict { page },
        6 => Call::Compact { page, min_del, max_age },
        7 => Call::Close,
        8 => Call::Checkpoint { min_del, max_age },
        9 => Call::Restart,
        _ => Call::Format { sizes: s, last: random.next() as u32 },
    }
}

#[test]
fn a_call_changes_what_the_header_names() {
    let mut random = Random::new(8);
    let mut accepted = [0; 11];
    let stores = damage::ruins(12, 1500).into_iter().map(|(areas, _)| areas).filter(|a| sound::broken(a).none());
    for before in stores {
        for _ in 0..60 {
            let call = some_call(&before, &mut random);
            let (mut after, mut buffer) = (before.clone(), call.buffer());
            let reply = Twin.call(&mut after, &call, &mut buffer);
            accepted[call.kind()] += u32::from(reply.accepted());
            let named = if reply.accepted() { named(&before, &call) } else { Default::default() };
            for (i, (was, is)) in before.each().into_iter().zip(after.each()).enumerate() {
                let stray =
                    (0..was.len()).find(|&at| was[at] != is[at] && !named[i].iter().any(|some| some.contains(&at)));
                assert_eq!(stray, None, "{call} changed a byte of {} that the header does not name", AREA_NAMES[i]);
            }
            // reply.logs 0, reply.note 1: nothing durable. A page is written exactly if its stamp grows.
            if reply.writes == 0 && reply.logs == 0 && !matches!(call, Call::Format { .. }) {
                assert!(before.each()[..4] == after.each()[..4], "{call}");
            }
            if reply.accepted() && !matches!(call, Call::Format { .. }) {
                let pages = 0..before.sizes().pages;
                assert!(pages.clone().all(|page| before.stamp(page) <= after.stamp(page)), "{call}");
                let grown: Vec<_> = pages.clone().filter(|&page| before.stamp(page) != after.stamp(page)).collect();
                assert_eq!(grown.len(), reply.writes as usize, "{call}");
                let written = pages.filter(|&page| before.stored_page(page) != after.stored_page(page));
                assert!(written.into_iter().all(|page| grown.contains(&page)), "{call}");
            }
        }
    }
    assert!(accepted.iter().all(|&count| count > 50), "some call was seldom accepted: {accepted:?}");
}
