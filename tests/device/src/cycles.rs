//! A cycle of the device, and the start after it.
use pn_values::demo_identity;
use device_core::{Event, Sink, cycle};
use flash_model::{MemoryFlash, Sector};
use frame_codec::Frame;
use rattle_std::Vec;
use rattle_std::alloc::Global;
use test_stations::{DONE, IDENTIFY, frame, no_modules, set_pump};

// What is handed on, kept in memory.
struct Taken {
    frames: Vec<Frame>,
}

impl Sink for Taken {
    fn take(&mut self, frame: &Frame) {
        let mut copy = Frame::new();
        copy.copy(frame);
        self.frames.push(copy).expect("memory");
    }
}

#[test]
fn a_cycle_with_a_loss() {
    let mut sink = Taken {
        frames: Vec::new(Global),
    };
    let mut flash = MemoryFlash::<768>::blank();
    // The last call of the second commit: the gate of its slot.
    flash.fuse(4, [0x55; 8]);
    let (one, two) = (set_pump(b'1'), set_pump(b'2'));
    let events = [frame(&one), Event::Tick, frame(&two), frame(&IDENTIFY)];
    let device = cycle(
        demo_identity(),
        no_modules(),
        flash,
        &events,
        &mut sink,
        |mut flash| {
            flash.power_up();
            flash
        },
    )
    .ok()
    .expect("starts again");
    assert_eq!(device.running().name.as_bytes(), b"pump-1".as_slice());
    let first = device.flash().sector(Sector::First);
    assert_eq!(first.get(767).copied(), Some(0xAA));
    assert_eq!(device.lamp(), 0);
    assert_eq!(sink.frames.len(), 1);
    let sent = sink.frames.first();
    assert!(sent.is_some_and(|sent| sent.as_slice().starts_with(&DONE)));
}
