//! Lent slices between fences, memory that nobody may touch: a call that reads or writes a single byte beside a slice,
//! or writes to an area that the C header lends for reading, dies at once, and a line says where and in which call.
//!
//! Guard bytes (areas.rs) show a stray write after the call, and no stray read. Here each of the eight slices has a
//! room of its own and ends exactly where the fence behind it begins; in a second run it begins exactly where the
//! fence before it ends. Linux on x86-64, without any crate: hence the declarations below.

use crate::areas::{Areas, Lent, Reply, Sizes, AREA_NAMES};
use crate::calls::{Call, Store};
use std::cell::RefCell;

/// A slice as C sees it.
pub type Slice = (*mut u8, usize);

extern "C" {
    fn mmap(at: *mut u8, length: usize, may: i32, flags: i32, file: i32, offset: i64) -> *mut u8;
    fn mprotect(at: *mut u8, length: usize, may: i32) -> i32;
    fn sigaction(signal: i32, new: *const OnSignal, old: *mut OnSignal) -> i32;
    fn _exit(status: i32) -> !;
}

const MAY_NOTHING: i32 = 0;
const MAY_READ: i32 = 1;
const MAY_READ_AND_WRITE: i32 = 3;
const PRIVATE_AND_OF_NO_FILE: i32 = 0x22;
/// No memory is set aside before it is written.
const NOT_RESERVED: i32 = 0x4000;
const SEGMENTATION_FAULT: i32 = 11;
const BUS_ERROR: i32 = 7;
/// The handler is told the address.
const WITH_INFO: i32 = 4;
/// Where the address stands in what it is told.
const ADDRESS_AT: usize = 16;

#[repr(C)]
struct OnSignal {
    handler: extern "C" fn(i32, *const u8, *const u8),
    mask: [u64; 16],
    flags: i32,
    restorer: usize,
}

/// Twice the largest area: damage lends some at double length.
const ROOM: usize = 8 << 20;
/// On both sides of a room: wide, so that a wrong page number ends in it as well.
const FENCE: usize = 64 << 20;
const PAGE: usize = 4096;

/// The fence that the slices touch.
#[derive(Clone, Copy, PartialEq, Eq, Debug)]
pub enum Side {
    Behind,
    Before,
}

/// A slice to lend between fences, by its name.
pub enum Piece<'a> {
    /// Lent as const: a write to it dies.
    Read(&'static str, &'a [u8]),
    Write(&'static str, &'a mut [u8]),
}

impl Piece<'_> {
    fn name(&self) -> &'static str {
        match self {
            Piece::Read(name, _) | Piece::Write(name, _) => name,
        }
    }

    fn bytes(&self) -> &[u8] {
        match self {
            Piece::Read(_, bytes) => bytes,
            Piece::Write(_, bytes) => bytes,
        }
    }
}

/// Rooms for the slices of a call. They are never given back: a run makes few of them.
#[derive(Clone)]
pub struct Rooms {
    starts: Vec<*mut u8>,
    side: Side,
}

/// The call between fences, for the line that is printed if it dies.
struct UnderWay {
    call: String,
    slices: Vec<(&'static str, Slice)>,
}

thread_local! {
    static UNDER_WAY: RefCell<Option<UnderWay>> = const { RefCell::new(None) };
}

impl Rooms {
    pub fn new(side: Side, count: usize) -> Rooms {
        let on = OnSignal { handler: died, mask: [0; 16], flags: WITH_INFO, restorer: 0 };
        for signal in [SEGMENTATION_FAULT, BUS_ERROR] {
            // Safe: the struct is the C library's, and the handler only prints and ends the process.
            unsafe { sigaction(signal, &on, std::ptr::null_mut()) };
        }
        Rooms { starts: (0..count).map(|_| new_room()).collect(), side }
    }

    fn place(&self, i: usize, length: usize) -> Slice {
        assert!(length <= ROOM, "a slice of {length} bytes has no room: make fence::ROOM larger");
        let skip = if self.side == Side::Behind { ROOM - length } else { 0 };
        // Safe: within the room, by the assertion.
        (unsafe { self.starts[i].add(skip) }, length)
    }

    /// Makes the call on the pieces, each in its room, and brings back what it wrote. An empty piece is NULL.
    pub fn call<R>(&self, said: String, pieces: &mut [Piece], called: impl FnOnce(&[Slice]) -> R) -> R {
        let mut slices = vec![(std::ptr::null_mut(), 0); pieces.len()];
        for (i, piece) in pieces.iter().enumerate().filter(|(_, piece)| !piece.bytes().is_empty()) {
            slices[i] = self.place(i, piece.bytes().len());
            // Safe: the room is open, its bytes are nobody else's.
            unsafe { std::slice::from_raw_parts_mut(slices[i].0, slices[i].1) }.copy_from_slice(piece.bytes());
            if matches!(piece, Piece::Read(..)) {
                allow(slices[i], MAY_READ);
            }
        }
        let named = pieces.iter().map(Piece::name).zip(slices.iter().copied()).collect();
        UNDER_WAY.set(Some(UnderWay { call: said, slices: named }));
        let reply = called(&slices);
        UNDER_WAY.set(None);
        for (piece, &slice) in pieces.iter_mut().zip(&slices).filter(|(_, slice)| slice.1 > 0) {
            match piece {
                Piece::Read(..) => allow(slice, MAY_READ_AND_WRITE),
                // Safe: as above, and the call has returned.
                Piece::Write(_, bytes) => {
                    bytes.copy_from_slice(unsafe { std::slice::from_raw_parts(slice.0, slice.1) })
                }
            }
        }
        reply
    }
}

/// A store that is called on slices between fences: the seven areas, then read's buffer.
#[derive(Clone)]
pub struct Fenced {
    rooms: Rooms,
    called: fn(&Call, [Slice; 8]) -> Reply,
    /// Which of the seven areas the call is lent for writing.
    writes: fn(&Call) -> [bool; 7],
}

impl Fenced {
    pub fn new(side: Side, called: fn(&Call, [Slice; 8]) -> Reply, writes: fn(&Call) -> [bool; 7]) -> Fenced {
        Fenced { rooms: Rooms::new(side, 8), called, writes }
    }
}

fn new_room() -> *mut u8 {
    let all = FENCE + ROOM + FENCE;
    // Safe: new memory at no place that is asked for, of which the middle is opened.
    unsafe {
        let start = mmap(std::ptr::null_mut(), all, MAY_NOTHING, PRIVATE_AND_OF_NO_FILE, -1, 0);
        assert!(start as isize != -1, "no room for {all} bytes of fences; next: raise the limit on virtual memory");
        let room = start.add(FENCE);
        assert!(mprotect(room, ROOM, MAY_READ_AND_WRITE) == 0, "a room could not be opened");
        room
    }
}

/// That many zero bytes, more than there may be memory for: only those that are written take some. None where the system
/// has no room for the addresses. They are never given back.
pub fn vast(length: usize) -> Option<&'static mut [u8]> {
    let flags = PRIVATE_AND_OF_NO_FILE | NOT_RESERVED;
    // Safe: new memory at no place that is asked for, open as a whole.
    unsafe {
        let start = mmap(std::ptr::null_mut(), length, MAY_READ_AND_WRITE, flags, -1, 0);
        (start as isize != -1).then(|| std::slice::from_raw_parts_mut(start, length))
    }
}

/// The same for numbers, all of them 0.
pub fn vast_list(length: usize) -> Option<&'static [u32]> {
    // Safe: the bytes are zero, nobody else's, and aligned to a page.
    vast(4 * length).map(|bytes| unsafe { std::slice::from_raw_parts(bytes.as_ptr().cast(), length) })
}

/// Allows so much of the pages on which the slice stands.
fn allow(slice: Slice, may: i32) {
    let from = slice.0 as usize / PAGE * PAGE;
    let to = (slice.0 as usize + slice.1).div_ceil(PAGE) * PAGE;
    // Safe: a room begins and ends with a page, so these are pages of the room.
    let done = unsafe { mprotect(from as *mut u8, to - from, may) };
    assert!(done == 0, "a room's pages could not be changed");
}

impl Store for Fenced {
    fn call(&mut self, areas: &mut Areas, call: &Call, buffer: &mut Lent) -> Reply {
        let writes = (self.writes)(call);
        let areas = areas.each_mut().into_iter().zip(AREA_NAMES).zip(writes);
        let mut pieces: Vec<Piece> = areas
            .map(|((area, name), writes)| if writes { Piece::Write(name, area) } else { Piece::Read(name, area) })
            .collect();
        pieces.push(Piece::Write("the buffer", buffer));
        let called = |slices: &[Slice]| (self.called)(call, slices.try_into().expect("eight slices"));
        self.rooms.call(call.to_string(), &mut pieces, called)
    }
}

/// Says what died, and ends the process. The store holds no lock when it dies, so there is no harm in printing.
extern "C" fn died(_: i32, info: *const u8, _: *const u8) {
    // Safe: the kernel hands over a struct in which the address stands there.
    let at = unsafe { info.add(ADDRESS_AT).cast::<usize>().read() };
    UNDER_WAY.with_borrow(|under_way| match under_way {
        Some(under_way) => println!("  FAILED  {}: {}", under_way.call, strayed(at, &under_way.slices)),
        None => println!("  FAILED  this program touched address {at:#x}, between two calls"),
    });
    println!("  next: the seeds above make the same run again; under gdb it stops at the instruction that strayed");
    println!("0 passed, 1 failed");
    // Safe: it does not return.
    unsafe { _exit(1) }
}

/// Where a touched address lies, in words.
fn strayed(at: usize, slices: &[(&'static str, Slice)]) -> String {
    for &(name, (start, length)) in slices.iter().filter(|(_, slice)| slice.1 > 0) {
        let byte = at as isize - start as isize;
        if (-(FENCE as isize)..(length + FENCE) as isize).contains(&byte) {
            return touched(name, byte, length);
        }
    }
    format!("address {at:#x} was touched, near no slice")
}

fn touched(name: &str, byte: isize, length: usize) -> String {
    if (0..length as isize).contains(&byte) {
        format!("byte {byte} of {name} was written, which is lent for reading")
    } else {
        format!("byte {byte} of {name} was touched, which has {length}")
    }
}

/// A store that does one thing which the fences must catch. Each is tried in a process of its own.
#[derive(Clone, Copy)]
struct Stray {
    /// Which of the eight slices.
    slice: usize,
    deed: Deed,
}

#[derive(Clone, Copy)]
enum Deed {
    ReadBehind,
    WriteBehind,
    ReadBefore,
    WriteBefore,
    /// Into an area that is lent for reading.
    WriteInto,
}

/// All strays. Read's buffer is always lent for writing.
fn strays() -> Vec<Stray> {
    let all = [Deed::ReadBehind, Deed::WriteBehind, Deed::ReadBefore, Deed::WriteBefore, Deed::WriteInto];
    let strays = all.into_iter().flat_map(|deed| (0..8).map(move |slice| Stray { slice, deed }));
    strays.filter(|stray| stray.slice < 7 || !matches!(stray.deed, Deed::WriteInto)).collect()
}

fn lengths_for_strays() -> Sizes {
    Sizes { page_size: 512, pages: 3, frames: 2, online_size: 4, log_size: 5 }
}

/// Makes a stray, in this process. It comes back if there is no such stray, or if nothing caught it.
pub fn go_astray(which: usize) {
    let Some(stray) = strays().get(which).copied() else { return };
    let side = match stray.deed {
        Deed::ReadBefore | Deed::WriteBefore => Side::Before,
        _ => Side::Behind,
    };
    let mut store = Fenced::new(side, astray, |_| [false; 7]);
    // The number tells the store what to do.
    let call = Call::Read { number: which as u32, page: 0, offset: 0, length: 8, room: 8 };
    store.call(&mut Areas::for_sizes(&lengths_for_strays()), &call, &mut call.buffer());
}

fn astray(call: &Call, slices: [Slice; 8]) -> Reply {
    let Call::Read { number, .. } = *call else { return Reply::default() };
    let stray = strays()[number as usize];
    let (start, length) = slices[stray.slice];
    // Not safe, on purpose: that is what is tried.
    unsafe {
        match stray.deed {
            Deed::ReadBehind => drop(start.add(length).read_volatile()),
            Deed::WriteBehind => start.add(length).write_volatile(0),
            Deed::ReadBefore => drop(start.sub(1).read_volatile()),
            Deed::WriteBefore => start.sub(1).write_volatile(0),
            Deed::WriteInto => start.write_volatile(0),
        }
    }
    Reply::default()
}

/// Runs every stray in a process of its own. Gives how many were caught where they strayed, and what the others said.
pub fn catch_strays() -> std::io::Result<(u64, Vec<String>)> {
    let lengths = lengths_for_strays().lengths();
    let (mut caught, mut missed) = (0, Vec::new());
    for (which, stray) in strays().into_iter().enumerate() {
        let length = *lengths.get(stray.slice).unwrap_or(&8);
        let byte = match stray.deed {
            Deed::ReadBehind | Deed::WriteBehind => length as isize,
            Deed::ReadBefore | Deed::WriteBefore => -1,
            Deed::WriteInto => 0,
        };
        let name = AREA_NAMES.get(stray.slice).unwrap_or(&"the buffer");
        let right = touched(name, byte, length);
        let ran = std::process::Command::new(std::env::current_exe()?).args(["stray", &which.to_string()]).output()?;
        if ran.status.code() == Some(1) && String::from_utf8_lossy(&ran.stdout).contains(&right) {
            caught += 1;
        } else {
            missed.push(right);
        }
    }
    Ok((caught, missed))
}
