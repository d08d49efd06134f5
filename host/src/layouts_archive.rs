//! SQLite's two layouts behind the library's C interface. The declarations are those of include/ventarico_journal.h and
//! include/ventarico_wal.h, one for one; each part is there where the archive has it.
//!
//! The caller's duties are those that archive.rs names, and hold here for the same reason: every slice is borrowed for
//! the call, those that are written for writing.

use crate::fence::{Rooms, Side, Slice};

#[cfg(archive_journal)]
mod of_journals {
    use super::{as_bytes, bytes, const_bytes, Between, Direct};
    use crate::fence::{Piece, Slice};
    use crate::journal::{Journal, Reply};

    extern "C" {
        fn ventarico_journal_play(
            journal: *const u8,
            journal_len: usize,
            pages: *mut u8,
            pages_len: usize,
            page_size: u32,
        ) -> Reply;
        fn ventarico_journal_write(
            pages: *const u8,
            pages_len: usize,
            list: *const u32,
            list_len: usize,
            target: *mut u8,
            target_len: usize,
            page_size: u32,
            nonce: u32,
            sector: u32,
        ) -> Reply;
    }

    unsafe fn play(journal: Slice, pages: Slice, page_size: u32) -> Reply {
        ventarico_journal_play(journal.0, journal.1, pages.0, pages.1, page_size)
    }

    unsafe fn write(pages: Slice, list: Slice, target: Slice, [page_size, nonce, sector]: [u32; 3]) -> Reply {
        let (list, listed) = (list.0.cast_const().cast(), list.1 / 4);
        ventarico_journal_write(pages.0, pages.1, list, listed, target.0, target.1, page_size, nonce, sector)
    }

    impl Journal for Direct {
        fn play(&self, journal: &[u8], pages: &mut [u8], page_size: u32) -> Reply {
            // Safe: as said above.
            unsafe { play(const_bytes(journal), bytes(pages), page_size) }
        }

        fn write(
            &self,
            pages: &[u8],
            list: &[u32],
            target: &mut [u8],
            page_size: u32,
            nonce: u32,
            sector: u32,
        ) -> Reply {
            let list = as_bytes(list);
            // Safe: as said above.
            unsafe { write(const_bytes(pages), const_bytes(list), bytes(target), [page_size, nonce, sector]) }
        }
    }

    impl Journal for Between {
        fn play(&self, journal: &[u8], pages: &mut [u8], page_size: u32) -> Reply {
            let said = format!("play {} bytes of journal, page size {page_size}", journal.len());
            let mut pieces = [Piece::Read("the journal", journal), Piece::Write("the pages", pages)];
            // Safe: each slice stands in a room of its own.
            self.0.call(said, &mut pieces, |slices| unsafe { play(slices[0], slices[1], page_size) })
        }

        fn write(
            &self,
            pages: &[u8],
            list: &[u32],
            target: &mut [u8],
            page_size: u32,
            nonce: u32,
            sector: u32,
        ) -> Reply {
            let said = format!("write a journal of pages {list:?}, page size {page_size}, sector {sector}");
            let list = Piece::Read("the list", as_bytes(list));
            let mut pieces = [Piece::Read("the pages", pages), list, Piece::Write("the target", target)];
            let numbers = [page_size, nonce, sector];
            // Safe: each slice stands in a room of its own.
            self.0.call(said, &mut pieces, |slices| unsafe { write(slices[0], slices[1], slices[2], numbers) })
        }
    }
}

#[cfg(archive_wal)]
mod of_logs {
    use super::{as_bytes, bytes, const_bytes, Between, Direct};
    use crate::areas::{Areas, Reply, AREA_NAMES};
    use crate::fence::{Piece, Slice};
    use crate::wal::{Found, Given, Judged, Wal};

    extern "C" {
        fn ventarico_wal_write(
            fixed: *const u8,
            fixed_len: usize,
            marks: *const u8,
            marks_len: usize,
            log: *const u8,
            log_len: usize,
            stored: *const u8,
            stored_len: usize,
            tables: *const u8,
            tables_len: usize,
            online: *const u8,
            online_len: usize,
            pool: *const u8,
            pool_len: usize,
            list: *const u32,
            list_len: usize,
            target: *mut u8,
            target_len: usize,
            salt_1: u32,
            salt_2: u32,
            sequence: u32,
            order: u32,
        ) -> Reply;
        fn ventarico_wal_judge(file: *const u8, file_len: usize) -> Judged;
        fn ventarico_wal_find(file: *const u8, file_len: usize, page: u32) -> Found;
    }

    /// The seven areas, the list, the target.
    unsafe fn write(slices: [Slice; 9], given: &Given) -> Reply {
        let [fixed, marks, log, stored, tables, online, pool, list, target] = slices;
        let Given { salts: [salt_1, salt_2], sequence, order } = *given;
        ventarico_wal_write(
            fixed.0,
            fixed.1,
            marks.0,
            marks.1,
            log.0,
            log.1,
            stored.0,
            stored.1,
            tables.0,
            tables.1,
            online.0,
            online.1,
            pool.0,
            pool.1,
            list.0.cast_const().cast(),
            list.1 / 4,
            target.0,
            target.1,
            salt_1,
            salt_2,
            sequence,
            order,
        )
    }

    impl Wal for Direct {
        fn write(&self, store: &Areas, list: &[u32], target: &mut [u8], given: &Given) -> Reply {
            let [fixed, marks, log, stored, tables, online, pool] = store.each().map(|area| const_bytes(area));
            let (list, target) = (const_bytes(as_bytes(list)), bytes(target));
            // Safe: as said above.
            unsafe { write([fixed, marks, log, stored, tables, online, pool, list, target], given) }
        }

        fn judge(&self, file: &[u8]) -> Judged {
            let file = const_bytes(file);
            // Safe: as said above.
            unsafe { ventarico_wal_judge(file.0, file.1) }
        }

        fn find(&self, file: &[u8], page: u32) -> Found {
            let file = const_bytes(file);
            // Safe: as said above.
            unsafe { ventarico_wal_find(file.0, file.1, page) }
        }
    }

    impl Wal for Between {
        fn write(&self, store: &Areas, list: &[u32], target: &mut [u8], given: &Given) -> Reply {
            let said = format!("write a log of pages {list:?}, {given:?}");
            let areas = store.each().into_iter().zip(AREA_NAMES);
            let mut pieces: Vec<Piece> = areas.map(|(area, name)| Piece::Read(name, area)).collect();
            pieces.push(Piece::Read("the list", as_bytes(list)));
            pieces.push(Piece::Write("the target", target));
            // Safe: each slice stands in a room of its own.
            let called = |slices: &[Slice]| unsafe { write(slices.try_into().expect("nine slices"), given) };
            self.0.call(said, &mut pieces, called)
        }

        fn judge(&self, file: &[u8]) -> Judged {
            let mut pieces = [Piece::Read("the file", file)];
            // Safe: the slice stands in a room of its own.
            let called = |slices: &[Slice]| unsafe { ventarico_wal_judge(slices[0].0, slices[0].1) };
            self.0.call(format!("judge {} bytes", file.len()), &mut pieces, called)
        }

        fn find(&self, file: &[u8], page: u32) -> Found {
            let mut pieces = [Piece::Read("the file", file)];
            // Safe: the slice stands in a room of its own.
            let called = |slices: &[Slice]| unsafe { ventarico_wal_find(slices[0].0, slices[0].1, page) };
            self.0.call(format!("find page {page} in {} bytes", file.len()), &mut pieces, called)
        }
    }
}

/// The library on the caller's own bytes.
pub struct Direct;

/// The library on slices between fences; what is lent as const may be read only.
pub struct Between(pub Rooms);

impl Between {
    pub fn new(side: Side) -> Between {
        Between(Rooms::new(side, 9))
    }
}

/// A slice as C sees it. An empty one is NULL: the header allows it, so it is tried.
fn bytes(slice: &mut [u8]) -> Slice {
    let start = if slice.is_empty() { std::ptr::null_mut() } else { slice.as_mut_ptr() };
    (start, slice.len())
}

/// The same for one that is lent as const.
fn const_bytes(slice: &[u8]) -> Slice {
    let start = if slice.is_empty() { std::ptr::null_mut() } else { slice.as_ptr().cast_mut() };
    (start, slice.len())
}

/// The numbers of a list as the bytes that they are in memory.
fn as_bytes(list: &[u32]) -> &[u8] {
    // Safe: any number is four bytes, and the slice is borrowed as long.
    unsafe { std::slice::from_raw_parts(list.as_ptr().cast(), 4 * list.len()) }
}
