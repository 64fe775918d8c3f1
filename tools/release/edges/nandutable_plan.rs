// ---- of the plain Rust edition alone: what the header says of sizes, and what an archive without `std` needs

use core::alloc::{GlobalAlloc, Layout};
use core::ffi::c_void;

const _: () = assert!(size_of::<WrittenPlan>() == 4336);

unsafe extern "C" {
    fn malloc(size: usize) -> *mut c_void;
    fn realloc(place: *mut c_void, size: usize) -> *mut c_void;
    fn free(place: *mut c_void);
}

/// The C library's heap. What it gives is aligned to 16; nothing here asks for more.
struct Heap;

/// What `malloc` keeps.
const ALIGNMENT: usize = 16;

// SAFETY: `malloc`, `realloc` and `free` keep what is asked of an allocator for this alignment, and no other is given.
unsafe impl GlobalAlloc for Heap {
    unsafe fn alloc(&self, layout: Layout) -> *mut u8 {
        if layout.align() > ALIGNMENT {
            return core::ptr::null_mut();
        }
        unsafe { malloc(layout.size()).cast() }
    }

    unsafe fn dealloc(&self, place: *mut u8, _: Layout) {
        unsafe { free(place.cast()) }
    }

    unsafe fn realloc(&self, place: *mut u8, _: Layout, size: usize) -> *mut u8 {
        unsafe { realloc(place.cast(), size).cast() }
    }
}

#[global_allocator]
static HEAP: Heap = Heap;

/// Stops: a demand on the caller was broken.
#[panic_handler]
fn stop(_: &core::panic::PanicInfo<'_>) -> ! {
    loop {}
}
