//! A world takes memory for the frames that are sent, and no more: room for a million frames with each move would keep every clause.
use crate::exchanging;
use frame_codec::Frame;
use network_world::{End, Move};
use rattle_std::alloc::Global;
use std::alloc::{GlobalAlloc, Layout, System};
use std::cell::Cell;

/// The allocator of the machine, and the octets that each thread took of it.
struct Counting;

thread_local! {
    static TAKEN: Cell<usize> = const { Cell::new(0) };
}

/// Octets are taken.
fn count(octets: usize) {
    let _ = TAKEN.try_with(|taken| taken.set(taken.get().saturating_add(octets)));
}

// SAFETY: each call is the one of `System`.
unsafe impl GlobalAlloc for Counting {
    unsafe fn alloc(&self, layout: Layout) -> *mut u8 {
        count(layout.size());
        unsafe { System.alloc(layout) }
    }

    unsafe fn dealloc(&self, place: *mut u8, layout: Layout) {
        unsafe { System.dealloc(place, layout) }
    }

    unsafe fn realloc(&self, place: *mut u8, layout: Layout, size: usize) -> *mut u8 {
        count(size);
        unsafe { System.realloc(place, layout, size) }
    }
}

#[global_allocator]
static COUNTING: Counting = Counting;

// A start-up, and then a second with nothing but units at both ends. A list that doubles its room takes less than four times what its
// frames take, with the rooms that it had before; four frames more are the room for the next event. The plan is read of a text, which
// takes less than a mebibyte.
#[test]
fn a_world_takes_room_for_its_frames_alone() {
    let before = TAKEN.get();
    let mut net = exchanging(Global);
    for _ in 0..32_000 {
        net.play(&[Move::Tick(End::Device), Move::Tick(End::Controller)])
            .unwrap();
    }
    let sent = (0..)
        .take_while(|number| net.sent(*number).is_some())
        .count();
    assert!(sent > 4);
    let most = 4 * (sent + 4) * size_of::<Frame>() + 1_048_576;
    let taken = TAKEN.get() - before;
    assert!(taken <= most, "{taken} octets for {sent} frames");
}
