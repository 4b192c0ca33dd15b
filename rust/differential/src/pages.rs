//! Memory of whole pages, of which the machine guards what it is told to: a call that touches it
//! ends the tests with a segmentation fault.

use std::ffi::c_void;
use std::marker::PhantomData;
use std::ops::Range;

pub const PAGE: usize = 4096;

/// What is allowed on a page.
#[derive(Clone, Copy, Debug, PartialEq, Eq)]
pub enum Access {
    None = 0,
    Read = 1,
    ReadAndWrite = 3,
}

extern "C" {
    fn mmap(
        at: *mut c_void,
        size: usize,
        access: i32,
        flags: i32,
        file: i32,
        offset: i64,
    ) -> *mut c_void;
    fn mprotect(at: *mut c_void, size: usize, access: i32) -> i32;
    fn munmap(at: *mut c_void, size: usize) -> i32;
}

/// Memory of its own, on which everything is allowed at first.
pub struct Pages {
    mapped: *mut u8,
    size: usize,
}

impl Pages {
    /// The size is to be one of whole pages.
    pub fn new(size: usize) -> Pages {
        const PRIVATE_AND_ANONYMOUS: i32 = 0x22;
        assert_eq!(size % PAGE, 0);
        let access = Access::ReadAndWrite as i32;
        // SAFETY: asks for memory of its own.
        let mapped =
            unsafe { mmap(std::ptr::null_mut(), size, access, PRIVATE_AND_ANONYMOUS, -1, 0) };
        assert_ne!(mapped as isize, -1, "no memory for pages");
        Pages { mapped: mapped.cast(), size }
    }

    pub fn size(&self) -> usize {
        self.size
    }

    /// The byte at this distance from the first, or the end.
    pub fn at(&self, distance: usize) -> *mut u8 {
        assert!(distance <= self.size);
        // SAFETY: within what was mapped, or at its end.
        unsafe { self.mapped.add(distance) }
    }

    /// Allows this and no more on these bytes, which are to be whole pages.
    pub fn allow(&mut self, bytes: Range<usize>, access: Access) {
        assert!([bytes.start, bytes.end].iter().all(|end| end.is_multiple_of(PAGE)));
        assert!(bytes.end <= self.size);
        // SAFETY: pages of this memory.
        let done = unsafe { mprotect(self.at(bytes.start).cast(), bytes.len(), access as i32) };
        assert_eq!(done, 0);
    }
}

impl Drop for Pages {
    fn drop(&mut self) {
        // SAFETY: what `new` mapped.
        unsafe { munmap(self.mapped.cast(), self.size) };
    }
}

/// A slice on pages of its own, with a page before and one after them that must not be touched.
pub struct Guarded<T> {
    pages: Pages,
    first: usize,
    length: usize,
    entries: PhantomData<T>,
}

impl<T: Copy> Guarded<T> {
    /// The slice ends where its pages end, or begins where they begin.
    pub fn new(content: &[T], at_end: bool) -> Guarded<T> {
        let bytes = size_of_val(content);
        let inner = bytes.next_multiple_of(PAGE);
        let mut pages = Pages::new(inner + 2 * PAGE);
        pages.allow(0..PAGE, Access::None);
        pages.allow(PAGE + inner..inner + 2 * PAGE, Access::None);
        let first = if at_end { PAGE + inner - bytes } else { PAGE };
        let mut guarded = Guarded { pages, first, length: content.len(), entries: PhantomData };
        guarded.slice_mut().copy_from_slice(content);
        guarded
    }

    /// Allows this on the slice.
    pub fn allow(&mut self, access: Access) {
        let end = self.pages.size() - PAGE;
        self.pages.allow(PAGE..end, access);
    }

    pub fn slice(&self) -> &[T] {
        // SAFETY: so many entries, aligned, as whole pages hold whole entries, and copied in `new`.
        unsafe { std::slice::from_raw_parts(self.pages.at(self.first).cast(), self.length) }
    }

    /// Also where writing is not allowed, for calls that are not to write.
    pub fn slice_mut(&mut self) -> &mut [T] {
        // SAFETY: as above, and nothing else refers to it meanwhile.
        unsafe { std::slice::from_raw_parts_mut(self.pages.at(self.first).cast(), self.length) }
    }
}
