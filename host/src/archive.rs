//! The proved store behind its C interface. The declarations are those of include/ventarico.h, one for one.
//!
//! Here, in layouts_archive.rs, bench_wal.rs and fence.rs alone is `unsafe`. What a caller owes the store is said there: each pointer valid for its
//! length, no overlap. Both hold here because every area is a buffer of its own (areas.rs), borrowed for the call.
//! The guard bytes around each buffer are looked at after the call by whoever made it.

use crate::areas::{Areas, Lent, Reply};
use crate::calls::{Call, Store, CALL_NAMES};
use crate::fence::{Fenced, Side, Slice};

/// Declares a call: for each of the seven areas whether it is const or mut, then what else the call takes.
macro_rules! declare {
    ($($name:ident[$fixed:tt $marks:tt $log:tt $stored:tt $tables:tt $online:tt $pool:tt]
        ($($more:ident: $kind:ty),*);)*) => {
        extern "C" {
            $(fn $name(
                fixed: *$fixed u8, fixed_len: usize, marks: *$marks u8, marks_len: usize,
                log: *$log u8, log_len: usize, stored: *$stored u8, stored_len: usize,
                tables: *$tables u8, tables_len: usize, online: *$online u8, online_len: usize,
                pool: *$pool u8, pool_len: usize, $($more: $kind),*
            ) -> Reply;)*
        }

        /// Which areas each call is lent for writing: those that are mut above.
        const MUT: &[(&str, [bool; 7])] = &[$((
            stringify!($name),
            [is_mut!($fixed), is_mut!($marks), is_mut!($log), is_mut!($stored), is_mut!($tables), is_mut!($online),
             is_mut!($pool)],
        )),*];
    };
}

macro_rules! is_mut {
    (const) => {
        false
    };
    (mut) => {
        true
    };
}

declare! {
    //                   fixed marks log   stored tables online pool
    ventarico_begin     [const const const const  mut    const  const](number: u32);
    ventarico_read      [const const const const  mut    const  mut  ](
        buffer: *mut u8, buffer_len: usize, number: u32, page: u32, offset: u32, length: u32);
    ventarico_update    [const const const const  mut    mut    mut  ](
        number: u32, page: u32, offset: u32, length: u32, kind: u32, value: u64);
    ventarico_commit    [const mut   mut   const  mut    mut    const](number: u32);
    ventarico_abort     [const const const const  mut    mut    const](number: u32);
    ventarico_evict     [const const const const  mut    const  const](page: u32);
    ventarico_compact   [const mut   const mut    mut    mut    const](page: u32, min_del: u32, max_age: u32);
    ventarico_close     [const mut   mut   const  const  const  const]();
    ventarico_checkpoint[const mut   mut   mut    mut    mut    const](min_del: u32, max_age: u32);
    ventarico_restart   [const const const const  mut    mut    const]();
    ventarico_format    [mut   mut   mut   const  mut    mut    const](
        page_size: u32, pages: u32, frames: u32, online_size: u32, log_size: u32, last: u32);
}

#[derive(Clone)]
pub struct Archive;

impl Archive {
    /// The same store on slices between fences.
    pub fn fenced(side: Side) -> Fenced {
        // Safe: each slice stands in a room of its own.
        Fenced::new(side, |call, slices| unsafe { call_on(call, slices) }, writes)
    }
}

fn writes(call: &Call) -> [bool; 7] {
    let name = CALL_NAMES[call.kind()];
    let found = MUT.iter().find(|(declared, _)| declared.strip_prefix("ventarico_") == Some(name));
    found.expect("every call is declared above").1
}

/// A slice as C sees it. An empty one is NULL: the header allows it, so it is tried.
#[inline(always)]
fn lend(slice: &mut [u8]) -> Slice {
    let start = if slice.is_empty() { std::ptr::null_mut() } else { slice.as_mut_ptr() };
    (start, slice.len())
}

impl Store for Archive {
    fn call(&mut self, areas: &mut Areas, call: &Call, buffer: &mut Lent) -> Reply {
        let [fixed, marks, log, stored, tables, online, pool] = areas.each_mut().map(|area| lend(area));
        // Safe: seven buffers and read's, each its own, all borrowed until the call has returned.
        unsafe { call_on(call, [fixed, marks, log, stored, tables, online, pool, lend(buffer)]) }
    }
}

/// Makes the call on the seven areas and read's buffer. Each slice must be valid, and none may overlap another.
/// Inlined, so that the slices go to C without a stay in memory: a short call would be measured with that.
#[inline(always)]
unsafe fn call_on(call: &Call, slices: [Slice; 8]) -> Reply {
    let [fixed, marks, log, stored, tables, online, pool, buffer] = slices;
    macro_rules! with_areas {
        ($name:ident($($more:expr),*)) => {
            $name(
                fixed.0, fixed.1, marks.0, marks.1, log.0, log.1, stored.0, stored.1,
                tables.0, tables.1, online.0, online.1, pool.0, pool.1, $($more),*
            )
        };
    }
    match *call {
        Call::Format { sizes: s, last } => {
            with_areas!(ventarico_format(s.page_size, s.pages, s.frames, s.online_size, s.log_size, last))
        }
        Call::Begin { number } => with_areas!(ventarico_begin(number)),
        Call::Read { number, page, offset, length, .. } => {
            with_areas!(ventarico_read(buffer.0, buffer.1, number, page, offset, length))
        }
        Call::Update { number, page, offset, length, kind, value } => {
            with_areas!(ventarico_update(number, page, offset, length, kind, value))
        }
        Call::Commit { number } => with_areas!(ventarico_commit(number)),
        Call::Abort { number } => with_areas!(ventarico_abort(number)),
        Call::Evict { page } => with_areas!(ventarico_evict(page)),
        Call::Compact { page, min_del, max_age } => with_areas!(ventarico_compact(page, min_del, max_age)),
        Call::Close => with_areas!(ventarico_close()),
        Call::Checkpoint { min_del, max_age } => with_areas!(ventarico_checkpoint(min_del, max_age)),
        Call::Restart => with_areas!(ventarico_restart()),
    }
}
