//! Memory between two pages that nobody may touch, so that a read or a write outside a lent area stops the program.

use std::ffi::c_void;

const PAGE: usize = 4096;
/// Bytes kept around an area where it does not end at a fence.
const GUARD: usize = 64;
const GUARD_BYTE: u8 = 0xa7;

extern "C" {
    fn mmap(address: *mut c_void, length: usize, protection: i32, flags: i32, file: i32, offset: i64) -> *mut c_void;
    fn mprotect(address: *mut c_void, length: usize, protection: i32) -> i32;
}

/// Which end of the memory an area touches.
#[derive(Clone, Copy)]
pub enum Side {
    Left,
    Right,
}

/// Room for one area at a time.
pub struct Fence {
    start: *mut u8,
    room: usize,
    at: usize,
    length: usize,
}

impl Fence {
    /// Takes areas of up to `longest` bytes.
    pub fn new(longest: usize) -> Fence {
        let room = (longest + GUARD).next_multiple_of(PAGE);
        const NONE: i32 = 0;
        const READ_WRITE: i32 = 3;
        const PRIVATE_ANONYMOUS: i32 = 0x22;
        // A new mapping of our own; the middle is opened, the first and the last page stay shut.
        let start = unsafe {
            let mapped = mmap(std::ptr::null_mut(), room + 2 * PAGE, NONE, PRIVATE_ANONYMOUS, -1, 0);
            assert!(mapped as isize != -1, "no memory");
            let open = mapped.add(PAGE);
            assert_eq!(mprotect(open, room, READ_WRITE), 0, "no memory");
            open as *mut u8
        };
        Fence { start, room, at: 0, length: 0 }
    }

    fn bytes(&mut self, from: usize, to: usize) -> &mut [u8] {
        assert!(from <= to && to <= self.room);
        // Inside our own mapping, and borrowed as long as the fence is.
        unsafe { std::slice::from_raw_parts_mut(self.start.add(from), to - from) }
    }

    /// Lays the bytes against one side, with guard bytes at the other, and answers where they stand.
    pub fn lay(&mut self, bytes: &[u8], side: Side) -> *mut u8 {
        assert!(bytes.len() + GUARD <= self.room, "an area of {} bytes is too long for the fence", bytes.len());
        self.length = bytes.len();
        self.at = match side {
            Side::Left => 0,
            Side::Right => self.room - bytes.len(),
        };
        let (from, to) = self.guarded();
        self.bytes(from, to).fill(GUARD_BYTE);
        let (at, end) = (self.at, self.at + self.length);
        self.bytes(at, end).copy_from_slice(bytes);
        // A pointer into the middle of the mapping.
        unsafe { self.start.add(self.at) }
    }

    /// The area with the guard bytes at its open side.
    fn guarded(&self) -> (usize, usize) {
        (self.at.saturating_sub(GUARD), (self.at + self.length + GUARD).min(self.room))
    }

    /// The area as it is now.
    pub fn area(&mut self) -> &[u8] {
        let (at, end) = (self.at, self.at + self.length);
        self.bytes(at, end)
    }

    /// Whether every guard byte is as it was.
    pub fn kept(&mut self) -> bool {
        let (from, to) = self.guarded();
        let (at, end) = (self.at, self.at + self.length);
        let is_guard = |bytes: &[u8]| bytes.iter().all(|&byte| byte == GUARD_BYTE);
        is_guard(self.bytes(from, at)) && is_guard(self.bytes(end, to))
    }
}
