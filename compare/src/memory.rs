//! The memory that the library is handed: each buffer of a call in a region of its own, with marks around it that have to stay.
//! Guarded, a buffer ends directly before a page that cannot be touched, or begins directly after one.

use std::ffi::c_void;

/// The longest buffer and the marks around it fit into a region.
const REGION: usize = 1 << 18;
/// As much as any machine's page.
const GUARD: usize = 1 << 16;
/// The most buffers of one call.
const REGIONS: usize = 20;
/// The bytes before and after a buffer that are looked at again after the call.
const MARGIN: usize = 64;
const MARK: u8 = 0xA5;

const PROT_NONE: i32 = 0;
const PROT_READ_WRITE: i32 = 3;
const MAP_PRIVATE_ANONYMOUS: i32 = 0x22;

extern "C" {
    fn mmap(
        address: *mut c_void,
        length: usize,
        protection: i32,
        flags: i32,
        file: i32,
        offset: i64,
    ) -> *mut c_void;
    fn mprotect(address: *mut c_void, length: usize, protection: i32) -> i32;
}

/// Where a buffer stands in its region.
#[derive(Clone, Copy, PartialEq, Eq)]
pub enum Placing {
    /// Away from both ends.
    Inside,
    /// Directly after the page before the region.
    AtStart,
    /// Directly before the page after the region.
    AtEnd,
}

/// The regions. They are never given back.
pub struct Memory {
    regions: [*mut u8; REGIONS],
    used: usize,
    placing: Placing,
}

impl Memory {
    /// Regions with pages around them that cannot be touched.
    pub fn new() -> Memory {
        let mut regions = [std::ptr::null_mut(); REGIONS];
        for region in &mut regions {
            let length = REGION + 2 * GUARD;
            // SAFETY: a new mapping, which overlaps nothing; its middle is made readable and writable.
            unsafe {
                let start = mmap(
                    std::ptr::null_mut(),
                    length,
                    PROT_NONE,
                    MAP_PRIVATE_ANONYMOUS,
                    -1,
                    0,
                );
                assert!(start as isize != -1, "no memory");
                *region = start.cast::<u8>().add(GUARD);
                assert_eq!(mprotect(region.cast(), REGION, PROT_READ_WRITE), 0);
            }
        }
        Memory {
            regions,
            used: 0,
            placing: Placing::Inside,
        }
    }

    /// Begins a call, whose buffers are all placed alike.
    pub fn begin(&mut self, placing: Placing) {
        self.used = 0;
        self.placing = placing;
    }

    /// A copy of a buffer in the next region.
    pub fn place<T: Copy>(&mut self, content: &[T]) -> Placed<T> {
        let region = self.regions[self.used];
        self.used += 1;
        let size = std::mem::size_of_val(content);
        assert!(size + 2 * MARGIN <= REGION);
        let (before, after) = match self.placing {
            Placing::Inside => (MARGIN, MARGIN),
            Placing::AtStart => (0, MARGIN),
            Placing::AtEnd => (MARGIN, 0),
        };
        let offset = match self.placing {
            Placing::AtEnd => REGION - size,
            _ => before,
        };
        // SAFETY: all of it lies within the region, and a region holds one buffer at a time. `offset` is a multiple of the alignment,
        // since REGION, MARGIN and the size of a `T` are.
        unsafe {
            let start = region.add(offset);
            start.sub(before).write_bytes(MARK, before + size + after);
            let start = start.cast::<T>();
            start.copy_from_nonoverlapping(content.as_ptr(), content.len());
            Placed {
                start,
                length: content.len(),
                before,
                after,
            }
        }
    }
}

/// A buffer in its region.
pub struct Placed<T> {
    start: *mut T,
    length: usize,
    before: usize,
    after: usize,
}

impl<T: Copy> Placed<T> {
    pub fn start(&self) -> *mut T {
        self.start
    }

    pub fn length(&self) -> usize {
        self.length
    }

    /// Takes the content back; says whether the marks around it are still there.
    pub fn take_back(&self, content: &mut [T]) -> bool {
        assert_eq!(content.len(), self.length);
        // SAFETY: what `place` has written, which the call has left or changed.
        unsafe {
            content
                .as_mut_ptr()
                .copy_from_nonoverlapping(self.start, self.length);
            let before = self.start.cast::<u8>().sub(self.before);
            let after = self.start.add(self.length).cast::<u8>();
            let marks = std::slice::from_raw_parts(before, self.before)
                .iter()
                .chain(std::slice::from_raw_parts(after, self.after));
            marks.into_iter().all(|&byte| byte == MARK)
        }
    }
}
