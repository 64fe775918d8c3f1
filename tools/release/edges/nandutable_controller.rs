// ---- of the plain Rust edition alone: what the header says of sizes, and what an archive without `std` needs

/// Octets of a room, and its alignment.
const ROOM: usize = 40_960;
const ALIGNMENT: usize = 16;

const _: () = assert!(size_of::<Port>() <= ROOM && align_of::<Port>() <= ALIGNMENT);
const _: () = assert!(size_of::<Op>() == 1680 && size_of::<WrittenPlan>() == 4336);
const _: () = assert!(size_of::<Search>() == 268 && size_of::<WrittenTool>() == 16 && size_of::<WrittenTarget>() == 14);

/// There is no heap: nothing here takes memory. `uuid` names an allocator without using it.
struct NoHeap;

// SAFETY: it gives no memory.
unsafe impl core::alloc::GlobalAlloc for NoHeap {
    unsafe fn alloc(&self, _: core::alloc::Layout) -> *mut u8 {
        core::ptr::null_mut()
    }

    unsafe fn dealloc(&self, _: *mut u8, _: core::alloc::Layout) {}
}

#[global_allocator]
static NO_HEAP: NoHeap = NoHeap;

/// Stops: a demand on the caller was broken.
#[panic_handler]
fn stop(_: &core::panic::PanicInfo<'_>) -> ! {
    loop {}
}
