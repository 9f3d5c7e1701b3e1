//! Memory between pages that can't be touched, so that whoever leaves it by one byte faults.

use std::fs::File;
use std::io;
use std::os::fd::{AsRawFd, FromRawFd};
use std::ptr;

const PAGE: usize = 4096;

// Of the C library, as x86-64 Linux has them.
const PROT_NONE: i32 = 0;
const PROT_READ: i32 = 1;
const PROT_WRITE: i32 = 2;
const MAP_SHARED: i32 = 0x1;
const MAP_PRIVATE: i32 = 0x2;
const MAP_FIXED: i32 = 0x10;
const MAP_ANONYMOUS: i32 = 0x20;
const MAP_NORESERVE: i32 = 0x4000;

extern "C" {
    fn mmap(at: *mut u8, length: usize, prot: i32, flags: i32, fd: i32, offset: i64) -> *mut u8;
    fn memfd_create(name: *const u8, flags: u32) -> i32;
}

fn map(at: *mut u8, length: usize, prot: i32, flags: i32, fd: i32) -> io::Result<*mut u8> {
    // SAFETY: a new mapping, or one over pages that `between_guards` reserved and nothing uses yet.
    let mapped = unsafe { mmap(at, length, prot, flags, fd, 0) };
    if mapped as isize == -1 {
        return Err(io::Error::last_os_error());
    }
    Ok(mapped)
}

/// Pages that nothing can read or write; none of them takes memory.
pub fn untouchable(length: usize) -> io::Result<*const u8> {
    let flags = MAP_PRIVATE | MAP_ANONYMOUS | MAP_NORESERVE;
    Ok(map(ptr::null_mut(), length, PROT_NONE, flags, -1)?)
}

/// Zeros that can only be read; none of them takes memory.
pub fn zeros(length: usize) -> io::Result<*const u8> {
    let flags = MAP_PRIVATE | MAP_ANONYMOUS | MAP_NORESERVE;
    Ok(map(ptr::null_mut(), length, PROT_READ, flags, -1)?)
}

/// Maps a file's pages between two guard pages.
fn between_guards(file: &File, room: usize, prot: i32) -> io::Result<*mut u8> {
    let guard = untouchable(room + 2 * PAGE)? as *mut u8;
    let inner = guard.wrapping_add(PAGE);
    map(inner, room, prot, MAP_SHARED | MAP_FIXED, file.as_raw_fd())
}

/// Pages of memory that can be mapped more than once.
fn memory(room: usize) -> io::Result<File> {
    // SAFETY: the name is a C string, and the descriptor is new and ours.
    let file = unsafe {
        let fd = memfd_create(b"guarded\0".as_ptr(), 0);
        if fd < 0 {
            return Err(io::Error::last_os_error());
        }
        File::from_raw_fd(fd)
    };
    file.set_len(room as u64)?;
    Ok(file)
}

/// Where bytes or words lie in their pages.
#[derive(Clone, Copy)]
pub enum Place {
    Start,
    End,
}

impl Place {
    pub const ALL: [Place; 2] = [Place::Start, Place::End];

    fn offset(self, room: usize, length: usize) -> usize {
        match self {
            Place::Start => 0,
            Place::End => room - length,
        }
    }
}

/// Pages that a callee can read and not write. They are filled through a second mapping.
pub struct Lent {
    filled: *mut u8,
    lent: *const u8,
}

impl Lent {
    const ROOM: usize = 64 * PAGE;

    pub fn new() -> io::Result<Self> {
        let file = memory(Self::ROOM)?;
        let filled = between_guards(&file, Self::ROOM, PROT_READ | PROT_WRITE)?;
        let lent = between_guards(&file, Self::ROOM, PROT_READ)?;
        Ok(Lent { filled, lent })
    }

    /// The bytes where a callee can only read them.
    pub fn lend(&mut self, bytes: &[u8], place: Place) -> *const u8 {
        assert!(bytes.len() <= Self::ROOM);
        let offset = place.offset(Self::ROOM, bytes.len());
        // SAFETY: they fit, and nothing else refers to these pages.
        unsafe { ptr::copy_nonoverlapping(bytes.as_ptr(), self.filled.add(offset), bytes.len()) };
        self.lent.wrapping_add(offset)
    }
}

/// Pages of words or bytes that a callee can write to.
pub struct Room<T> {
    first: *mut T,
    count: usize,
    untouched: T,
}

impl<T: Copy + PartialEq> Room<T> {
    /// So many pages. This is what they hold throughout before a call.
    pub fn new(pages: usize, untouched: T) -> io::Result<Self> {
        let length = pages * PAGE;
        let memory = memory(length)?;
        Ok(Room {
            first: between_guards(&memory, length, PROT_READ | PROT_WRITE)? as *mut T,
            count: length / size_of::<T>(),
            untouched,
        })
    }

    fn all(&mut self) -> &mut [T] {
        // SAFETY: the pages are mapped as long as the process lives, and `self` is borrowed.
        unsafe { std::slice::from_raw_parts_mut(self.first, self.count) }
    }

    /// Room for so many, untouched.
    pub fn lend(&mut self, length: usize, place: Place) -> *mut T {
        let untouched = self.untouched;
        self.all().fill(untouched);
        self.first.wrapping_add(place.offset(self.count, length))
    }

    /// Those lent last, and whether they begin with what was expected and all else in the pages is as it was.
    pub fn lent(&mut self, length: usize, place: Place, expected: &[T]) -> (&[T], bool) {
        let untouched = self.untouched;
        let offset = place.offset(self.count, length);
        let (before, rest) = self.all().split_at(offset);
        let is_untouched = |rest: &[T]| rest.iter().all(|&value| value == untouched);
        let as_expected = expected.len() <= length && rest.starts_with(expected);
        let same = as_expected && is_untouched(before) && is_untouched(&rest[expected.len()..]);
        (&rest[..length], same)
    }
}
