//! Lent buffers that end where memory ends: a call that reads or writes past one ends the test.
//! (Linux on x86-64, as the static library.)
use std::ffi::c_void;

extern "C" {
    fn mmap(
        at: *mut c_void,
        length: usize,
        protection: i32,
        flags: i32,
        file: i32,
        offset: i64,
    ) -> *mut c_void;
    fn mprotect(at: *mut c_void, length: usize, protection: i32) -> i32;
}

const NO_ACCESS: i32 = 0;
const READ_AND_WRITE: i32 = 3;
const PRIVATE_AND_ANONYMOUS: i32 = 0x22;
pub(crate) const PAGE: usize = 4096;
const FRONT: usize = 64;
const FRONT_BYTE: u8 = 0xA5;

pub struct Fence {
    memory: &'static mut [u8],
}

/// Memory of this many bytes, whole pages, of which the page at an offset cannot be touched.
pub(crate) fn fenced(length: usize, fence_at: usize) -> *mut u8 {
    unsafe {
        let start =
            mmap(std::ptr::null_mut(), length, READ_AND_WRITE, PRIVATE_AND_ANONYMOUS, -1, 0);
        assert_ne!(start as isize, -1, "no memory");
        let start = start as *mut u8;
        assert_eq!(mprotect(start.add(fence_at).cast(), PAGE, NO_ACCESS), 0);
        start
    }
}

impl Fence {
    /// Memory for buffers of up to so many pages less one, with a page behind it that cannot be
    /// touched.
    pub fn new(pages: usize) -> Fence {
        let length = pages * PAGE;
        let start = fenced(length + PAGE, length);
        Fence { memory: unsafe { std::slice::from_raw_parts_mut(start, length) } }
    }

    /// The bytes, at the end of the memory.
    pub fn lend(&mut self, bytes: &[u8]) -> &mut [u8] {
        let start = self.memory.len() - bytes.len();
        self.memory[start - FRONT..start].fill(FRONT_BYTE);
        let lent = &mut self.memory[start..];
        lent.copy_from_slice(bytes);
        lent
    }

    /// What stands there now.
    pub fn lent(&self, length: usize) -> &[u8] {
        &self.memory[self.memory.len() - length..]
    }

    /// Whether the bytes that were lent, and those in front of them, are as they were.
    pub fn holds(&self, bytes: &[u8]) -> bool {
        self.lent(bytes.len()) == bytes && self.front_holds(bytes.len())
    }

    /// Whether the bytes in front of a buffer of this length are as they were.
    pub fn front_holds(&self, length: usize) -> bool {
        let start = self.memory.len() - length;
        self.memory[start - FRONT..start].iter().all(|b| *b == FRONT_BYTE)
    }
}
