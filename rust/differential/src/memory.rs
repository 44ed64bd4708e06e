//! Where lent buffers lie, so that a step outside them shows.

/// How many slots a case needs.
pub const SLOTS: usize = 5;

/// A place for one lent buffer.
pub trait Slot {
    /// Lends bytes with this content.
    fn bytes(&mut self, content: &[u8]) -> &mut [u8];
}

/// Heap blocks of exactly the buffer's length, made anew for each buffer, as
/// valgrind likes them.
#[derive(Default)]
pub struct Heap {
    bytes: Box<[u8]>,
}

impl Heap {
    /// Slots on the heap.
    pub fn slots() -> [Heap; SLOTS] {
        Default::default()
    }
}

impl Slot for Heap {
    fn bytes(&mut self, content: &[u8]) -> &mut [u8] {
        self.bytes = content.into();
        &mut self.bytes
    }
}

#[cfg(target_os = "linux")]
pub use guarded::{Guarded, Side};

/// Pages between two that no access is allowed to.
#[cfg(target_os = "linux")]
#[allow(unsafe_code)]
mod guarded {
    use super::{Slot, SLOTS};
    use std::ffi::c_void;

    extern "C" {
        fn mmap(
            address: *mut c_void,
            length: usize,
            protection: i32,
            flags: i32,
            file: i32,
            offset: i64,
        ) -> *mut c_void;
        fn mprotect(address: *mut c_void, length: usize, protection: i32) -> i32;
        fn munmap(address: *mut c_void, length: usize) -> i32;
    }

    // Linux's numbers.
    const NO_ACCESS: i32 = 0;
    const READ_WRITE: i32 = 1 | 2;
    const PRIVATE_ANONYMOUS: i32 = 2 | 0x20;

    /// A multiple of every page size in use.
    const PAGE: usize = 1 << 16;
    /// Room for the largest plan.
    const ROOM: usize = 16 * PAGE;

    /// Which end of a buffer touches a page without access.
    #[derive(Clone, Copy, PartialEq, Eq, Debug)]
    pub enum Side {
        /// The buffer begins right after the page.
        Begin,
        /// The buffer ends right before the page.
        End,
    }

    /// One stretch of memory between two pages without access.
    pub struct Guarded {
        whole: *mut c_void,
        side: Side,
    }

    impl Guarded {
        /// Slots with the buffers at one side.
        pub fn slots(side: Side) -> [Guarded; SLOTS] {
            std::array::from_fn(|_| Guarded::new(side))
        }

        fn new(side: Side) -> Guarded {
            let length = ROOM + 2 * PAGE;
            let nowhere = std::ptr::null_mut();
            // A fresh mapping that nothing else refers to.
            let whole = unsafe { mmap(nowhere, length, NO_ACCESS, PRIVATE_ANONYMOUS, -1, 0) };
            assert_ne!(whole as isize, -1, "no memory for guarded buffers");
            let status = unsafe { mprotect(whole.byte_add(PAGE), ROOM, READ_WRITE) };
            assert_eq!(status, 0, "the room cannot be opened");
            Guarded { whole, side }
        }
    }

    impl Drop for Guarded {
        fn drop(&mut self) {
            unsafe { munmap(self.whole, ROOM + 2 * PAGE) };
        }
    }

    impl Slot for Guarded {
        fn bytes(&mut self, content: &[u8]) -> &mut [u8] {
            let length = content.len();
            assert!(length <= ROOM, "a buffer above the room");
            let before = match self.side {
                Side::Begin => 0,
                Side::End => ROOM - length,
            };
            // Inside the room, and borrowed as long as the slot is.
            unsafe {
                let first: *mut u8 = self.whole.byte_add(PAGE + before).cast();
                let lent = std::slice::from_raw_parts_mut(first, length);
                lent.copy_from_slice(content);
                lent
            }
        }
    }
}
