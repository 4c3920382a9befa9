//! Buffers between two pages that cannot be read, directly before the one or
//! directly after the other, so that an access past that end is a crash. Where a
//! buffer is lent to be read only, a write to it is one, too.

use std::ffi::c_void;
use std::fmt::Debug;
use std::ops::{Deref, DerefMut, Range};
use std::slice;

mod system {
    use std::ffi::{c_int, c_void};

    extern "C" {
        pub fn mmap(
            at: *mut c_void,
            size: usize,
            access: c_int,
            kind: c_int,
            file: c_int,
            offset: i64,
        ) -> *mut c_void;
        pub fn mprotect(at: *mut c_void, size: usize, access: c_int) -> c_int;
        pub fn munmap(at: *mut c_void, size: usize) -> c_int;
    }
}

const PAGE: usize = 4096;
const READ: i32 = 1;
const READ_WRITE: i32 = 3;
const PRIVATE_ANONYMOUS: i32 = 0x22;

/// What a buffer holds: bytes or words.
pub trait Unit: Copy + PartialEq + Debug {
    /// Stands before a buffer and must stay.
    const MARK: Self;
}

impl Unit for u8 {
    const MARK: u8 = 0xD7;
}

impl Unit for u16 {
    const MARK: u16 = 0xD7C3;
}

/// Bytes or words that end where a page begins that cannot be read. Another such
/// page ends where their first page begins.
pub struct Guarded<T: Unit = u16> {
    pages: *mut c_void,
    size: usize,
    start: *mut T,
    length: usize,
}

impl<T: Unit> Guarded<T> {
    pub fn new(held: &[T]) -> Guarded<T> {
        let pages_for_held = size_of_val(held).div_ceil(PAGE);
        let size = (pages_for_held + 2) * PAGE;
        unsafe {
            let pages = system::mmap(
                std::ptr::null_mut(),
                size,
                READ_WRITE,
                PRIVATE_ANONYMOUS,
                -1,
                0,
            );
            assert!(!pages.is_null() && pages as isize != -1, "no memory");
            let end = pages.cast::<u8>().add((pages_for_held + 1) * PAGE);
            assert_eq!(system::mprotect(pages, PAGE, 0), 0);
            assert_eq!(system::mprotect(end.cast(), PAGE, 0), 0);
            let start = end.sub(size_of_val(held)).cast::<T>();
            let guarded = Guarded {
                pages,
                size,
                start,
                length: held.len(),
            };
            slice::from_raw_parts_mut(start, held.len()).copy_from_slice(held);
            guarded
        }
    }

    /// Lets the pages between be read, or read and written.
    fn allow(&mut self, access: i32) {
        let between = self.size - 2 * PAGE;
        unsafe {
            let first = self.pages.cast::<u8>().add(PAGE);
            assert_eq!(system::mprotect(first.cast(), between, access), 0);
        }
    }
}

impl<T: Unit> Deref for Guarded<T> {
    type Target = [T];

    fn deref(&self) -> &[T] {
        unsafe { slice::from_raw_parts(self.start, self.length) }
    }
}

impl<T: Unit> DerefMut for Guarded<T> {
    fn deref_mut(&mut self) -> &mut [T] {
        unsafe { slice::from_raw_parts_mut(self.start, self.length) }
    }
}

impl<T: Unit> Drop for Guarded<T> {
    fn drop(&mut self) {
        unsafe {
            system::munmap(self.pages, self.size);
        }
    }
}

/// Which unreadable page a buffer stands at: directly, or one unit from it. Of a
/// buffer of bytes that is the way to an odd address.
#[derive(Clone, Copy, Debug)]
pub enum End {
    After,
    Before,
    OneAfter,
    OneBefore,
}

impl End {
    pub const ALL: [End; 4] = [End::After, End::Before, End::OneAfter, End::OneBefore];
}

/// A place for one buffer after another between two unreadable pages, with marks
/// on the sides where no page is, which must stay.
pub struct Room<T: Unit = u16> {
    pages: Guarded<T>,
}

/// The marks watched beside a buffer.
const MARGIN: usize = 16;

impl<T: Unit> Room<T> {
    /// For buffers of up to so many bytes or words. It fills whole pages.
    pub fn new(most: usize) -> Room<T> {
        let units = (most + MARGIN).next_multiple_of(PAGE / size_of::<T>());
        Room {
            pages: Guarded::new(&vec![T::MARK; units]),
        }
    }

    /// Where a buffer of this length stands.
    fn place(&self, end: End, length: usize) -> Range<usize> {
        let last = self.pages.len() - length;
        let start = match end {
            End::After => 0,
            End::OneAfter => 1,
            End::OneBefore => last - 1,
            End::Before => last,
        };
        start..start + length
    }

    /// The marks before it and after it, as many as there is room for.
    fn marks(&self, end: End, length: usize) -> [Range<usize>; 2] {
        let Range { start, end } = self.place(end, length);
        let all = self.pages.len();
        [
            start.saturating_sub(MARGIN)..start,
            end..all.min(end + MARGIN),
        ]
    }

    /// A buffer that holds this.
    pub fn lend_at(&mut self, end: End, held: &[T]) -> &mut [T] {
        for marks in self.marks(end, held.len()) {
            self.pages[marks].fill(T::MARK);
        }
        let place = self.place(end, held.len());
        let lent = &mut self.pages[place];
        lent.copy_from_slice(held);
        lent
    }

    /// A call with a buffer that holds this and that cannot be written meanwhile.
    pub fn lend_to_read<A>(&mut self, end: End, held: &[T], call: impl FnOnce(&[T]) -> A) -> A {
        self.lend_at(end, held);
        self.pages.allow(READ);
        let answer = call(&self.pages[self.place(end, held.len())]);
        self.pages.allow(READ_WRITE);
        answer
    }

    /// A buffer directly before the page after it.
    pub fn lend(&mut self, held: &[T]) -> &mut [T] {
        self.lend_at(End::Before, held)
    }

    /// What a buffer of this length holds there.
    pub fn held_at(&self, end: End, length: usize) -> &[T] {
        &self.pages[self.place(end, length)]
    }

    /// What the last buffer holds, which had this length.
    pub fn held(&self, length: usize) -> &[T] {
        self.held_at(End::Before, length)
    }

    /// Whether the marks beside a buffer of this length stayed.
    pub fn kept_at(&self, end: End, length: usize) -> bool {
        let marks = self.marks(end, length).into_iter().flatten();
        marks.into_iter().all(|at| self.pages[at] == T::MARK)
    }

    pub fn kept_before(&self, length: usize) -> bool {
        self.kept_at(End::Before, length)
    }
}
