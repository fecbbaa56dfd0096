//! Buffers whose end, or start, touches a page that traps, or that begin at an odd address.

use calls::TaskRecord;

extern "C" {
    fn mmap(
        at: *mut u8,
        len: usize,
        protection: i32,
        flags: i32,
        file: i32,
        offset: i64,
    ) -> *mut u8;
    fn mprotect(at: *mut u8, len: usize, protection: i32) -> i32;
    fn munmap(at: *mut u8, len: usize) -> i32;
}

const NONE: i32 = 0;
const READ: i32 = 1;
const READ_WRITE: i32 = 3;
const PRIVATE_ANONYMOUS: i32 = 0x22;
const PAGE: usize = 4096;

#[derive(Clone, Copy, PartialEq)]
pub enum Side {
    Start,
    End,
    Odd,
}

/// Usable pages between two trapping ones, and which of their bytes are lent.
pub struct Lane {
    base: *mut u8,
    usable: usize,
    lent: (usize, Side),
}

impl Lane {
    pub fn new(pages: usize) -> Lane {
        let usable = pages * PAGE;
        let base = unsafe {
            mmap(
                std::ptr::null_mut(),
                usable + 2 * PAGE,
                NONE,
                PRIVATE_ANONYMOUS,
                -1,
                0,
            )
        };
        assert!(base as isize != -1, "mmap failed");
        let lane = Lane {
            base,
            usable,
            lent: (0, Side::End),
        };
        lane.protect(READ_WRITE);
        lane
    }

    fn start(&self) -> *mut u8 {
        unsafe { self.base.add(PAGE) }
    }

    fn protect(&self, protection: i32) {
        let done = unsafe { mprotect(self.start(), self.usable, protection) };
        assert!(done == 0, "mprotect failed");
    }

    /// Where the lent bytes begin among the usable ones.
    pub fn offset(&self) -> usize {
        let (len, side) = self.lent;
        match side {
            Side::Start => 0,
            Side::End => self.usable - len,
            Side::Odd => (self.usable - len).min(3),
        }
    }

    /// A buffer of length 0 points into a trapping page.
    fn pointer(&self) -> *mut u8 {
        match self.lent {
            (0, Side::Start) => unsafe { self.start().sub(1) },
            _ => unsafe { self.start().add(self.offset()) },
        }
    }

    /// All usable bytes.
    pub fn bytes(&self) -> &[u8] {
        unsafe { std::slice::from_raw_parts(self.start(), self.usable) }
    }

    /// Only while the lane is writable.
    pub fn bytes_mut(&mut self) -> &mut [u8] {
        unsafe { std::slice::from_raw_parts_mut(self.start(), self.usable) }
    }

    /// Lays an input down and makes its pages read-only.
    pub fn lend(&mut self, input: &[u8], side: Side) {
        self.protect(READ_WRITE);
        self.lend_out(input.len(), side);
        self.lent_mut().copy_from_slice(input);
        self.protect(READ);
    }

    pub fn lent(&self) -> &[u8] {
        unsafe { std::slice::from_raw_parts(self.pointer(), self.lent.0) }
    }

    /// The lent bytes as numbers of two bytes, which lie at an even address.
    pub fn lent_numbers(&self) -> &[u16] {
        unsafe { std::slice::from_raw_parts(self.pointer() as *const u16, self.lent.0 / 2) }
    }

    /// The lent bytes as records of a task set, which lie at an address that four divides.
    pub fn lent_records(&self) -> &[TaskRecord] {
        let count = self.lent.0 / size_of::<TaskRecord>();
        unsafe { std::slice::from_raw_parts(self.pointer() as *const TaskRecord, count) }
    }

    /// Says which bytes are an output.
    pub fn lend_out(&mut self, len: usize, side: Side) {
        assert!(len <= self.usable);
        self.lent = (len, side);
    }

    /// Only while the lane is writable.
    pub fn lent_mut(&mut self) -> &mut [u8] {
        unsafe { std::slice::from_raw_parts_mut(self.pointer(), self.lent.0) }
    }
}

impl Drop for Lane {
    fn drop(&mut self) {
        unsafe { munmap(self.base, self.usable + 2 * PAGE) };
    }
}
