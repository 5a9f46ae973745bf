//! Memory between two inaccessible pages: reading or writing before a slice that begins with it, or past one that ends
//! with it, ends the program.
use std::ffi::{c_int, c_void};
use std::mem::size_of;
use std::{ptr, slice};

extern "C" {
    fn mmap(address: *mut c_void, length: usize, access: c_int, flags: c_int, file: c_int, offset: i64) -> *mut c_void;
    fn mprotect(address: *mut c_void, length: usize, access: c_int) -> c_int;
    fn sysconf(name: c_int) -> i64;
}

const PAGE_SIZE_NAME: c_int = 30;
const NO_ACCESS: c_int = 0;
const READ_AND_WRITE: c_int = 1 | 2;
const PRIVATE_AND_ANONYMOUS: c_int = 0x02 | 0x20;

/// What stands around a slice, and how many bytes of it are looked at after a call.
const FILL: u8 = 0xA5;
const MARGIN: usize = 64;

/// Where a slice lies: right behind the first inaccessible page, or right before the second.
#[derive(Clone, Copy, PartialEq, Eq, Debug)]
pub enum Side {
    Start,
    End,
}

impl Side {
    pub const BOTH: [Side; 2] = [Side::Start, Side::End];
}

/// Pages that can be read and written, between two that cannot.
pub struct Area {
    start: *mut u8,
    size: usize,
}

impl Area {
    /// An area of this many pages.
    pub fn new(pages: usize) -> Area {
        // SAFETY: a new mapping of two pages more; the access of all but the first and the last is changed.
        unsafe {
            let page = sysconf(PAGE_SIZE_NAME) as usize;
            let size = pages * page;
            let mapping = mmap(ptr::null_mut(), size + 2 * page, NO_ACCESS, PRIVATE_AND_ANONYMOUS, -1, 0) as *mut u8;
            assert!(mapping as isize != -1, "mmap failed");
            let start = mapping.add(page);
            assert!(mprotect(start as *mut c_void, size, READ_AND_WRITE) == 0, "mprotect failed");
            Area { start, size }
        }
    }

    /// The byte of the margin that is nearest to a slice of bytes.
    pub fn nearest(&self, side: Side, count: usize) -> *mut u8 {
        match side {
            Side::Start => self.start.wrapping_add(count),
            Side::End => self.start.wrapping_add(self.size - count - 1),
        }
    }

    /// The first byte before the area and the first byte after it: neither can be read or written.
    pub fn bytes_outside(&self) -> [*mut u8; 2] {
        [self.start.wrapping_sub(1), self.start.wrapping_add(self.size)]
    }

    /// The first and the last byte of the area.
    pub fn bytes_inside(&self) -> [*mut u8; 2] {
        [self.start, self.start.wrapping_add(self.size - 1)]
    }

    fn offset<T>(&self, side: Side, count: usize) -> usize {
        let length = count * size_of::<T>();
        assert!(length + MARGIN <= self.size, "the slice is too long for the area");
        match side {
            Side::Start => 0,
            Side::End => self.size - length,
        }
    }

    /// Where the margin of a slice begins: before a slice at the end, behind one at the start.
    fn margin<T>(&self, side: Side, count: usize) -> *mut u8 {
        let offset = self.offset::<T>(side, count);
        let begins = match side {
            Side::Start => offset + count * size_of::<T>(),
            Side::End => offset - MARGIN,
        };
        self.start.wrapping_add(begins)
    }

    /// Copies the items to one side of the area and fills the margin beside them.
    pub fn place<T: Copy>(&self, side: Side, items: &[T]) -> *mut T {
        let place = self.start.wrapping_add(self.offset::<T>(side, items.len())) as *mut T;
        // SAFETY: `offset` keeps the items and the margin inside the area, at a multiple of the item's size from one
        // of its ends.
        unsafe {
            ptr::copy_nonoverlapping(items.as_ptr(), place, items.len());
            ptr::write_bytes(self.margin::<T>(side, items.len()), FILL, MARGIN);
        }
        place
    }

    /// The items as a call left them, and whether the margin beside them is as it was.
    pub fn take<T: Copy>(&self, side: Side, count: usize) -> (Vec<T>, bool) {
        let (items, margin) = self.look(side, count);
        (items.to_vec(), margin)
    }

    /// Whether the items and the margin beside them are as `place` left them.
    pub fn unaltered<T: Copy + PartialEq>(&self, side: Side, items: &[T]) -> bool {
        self.look(side, items.len()) == (items, true)
    }

    fn look<T: Copy>(&self, side: Side, count: usize) -> (&[T], bool) {
        let place = self.start.wrapping_add(self.offset::<T>(side, count)) as *const T;
        // SAFETY: as in `place`, which filled both.
        unsafe {
            let margin = slice::from_raw_parts(self.margin::<T>(side, count), MARGIN);
            (slice::from_raw_parts(place, count), margin.iter().all(|byte| *byte == FILL))
        }
    }
}
