//! Memory by the page from the system, prefetches, and an end that frees nothing.

use std::alloc::{Layout, handle_alloc_error};
use std::ptr::NonNull;

unsafe extern "C" {
    fn mmap(at: *mut u8, len: usize, prot: i32, flags: i32, fd: i32, offset: i64) -> *mut u8;
    fn madvise(at: *mut u8, len: usize, advice: i32) -> i32;
    fn _exit(status: i32) -> !;
}

/// Bytes of a huge page.
const HUGE: usize = 2 << 20;
const READ_WRITE: i32 = 3;
const PRIVATE_ANONYMOUS: i32 = 0x22;
const WANT_HUGE_PAGES: i32 = 14;

/// A block of zeros that is never given back: `len` bytes, rounded up to huge pages, which are
/// asked for.
fn block(len: usize) -> NonNull<u8> {
    let len = len.next_multiple_of(HUGE);
    // SAFETY: an anonymous private mapping, whose unaligned front stays unused.
    unsafe {
        let at = mmap(
            std::ptr::null_mut(),
            len + HUGE,
            READ_WRITE,
            PRIVATE_ANONYMOUS,
            -1,
            0,
        );
        if at as isize == -1 {
            handle_alloc_error(Layout::from_size_align_unchecked(len, HUGE));
        }
        let at = at.add((HUGE - at as usize % HUGE) % HUGE);
        madvise(at, len, WANT_HUGE_PAGES);
        NonNull::new_unchecked(at)
    }
}

/// Hands out chunks of `COUNT` items, from blocks of `BYTES`. Each thread has an arena of its own;
/// a chunk lives as long as the process, and bytes of zero must be a valid `T`.
pub struct Arena<T, const COUNT: usize, const BYTES: usize> {
    at: *mut T,
    /// Chunks left in the block.
    left: usize,
}

// SAFETY: an arena owns what is left of its block.
unsafe impl<T: Send, const COUNT: usize, const BYTES: usize> Send for Arena<T, COUNT, BYTES> {}

impl<T, const COUNT: usize, const BYTES: usize> Arena<T, COUNT, BYTES> {
    pub fn new() -> Self {
        Arena {
            at: std::ptr::null_mut(),
            left: 0,
        }
    }

    pub fn chunk(&mut self) -> *mut T {
        if self.left == 0 {
            self.at = block(BYTES).as_ptr().cast();
            self.left = BYTES / size_of::<T>() / COUNT;
        }
        let at = self.at;
        // SAFETY: the block has `left` chunks from `at` on.
        self.at = unsafe { at.add(COUNT) };
        self.left -= 1;
        at
    }
}

/// Asks the processor for a line of memory.
#[inline(always)]
pub fn prefetch<T>(at: *const T) {
    #[cfg(target_arch = "x86_64")]
    // SAFETY: a prefetch of any address does nothing but load a line of the cache.
    unsafe {
        std::arch::x86_64::_mm_prefetch::<{ std::arch::x86_64::_MM_HINT_T0 }>(at as *const i8)
    }
}

/// Ends the process at once: nothing is freed piece by piece.
pub fn exit_now(status: i32) -> ! {
    // SAFETY: nothing is buffered.
    unsafe { _exit(status) }
}
