//! The reference host over a chip in memory: a name is set, and each call of the chip is struck in turn.
use crate::stations::booted;
use pn_values::demo_identity;
use device_core::{Device, Event, Octets, Sink};
use device_abi::{Operation, play};
use flash_model::MemoryFlash;
use frame_codec::Frame;
use test_stations::{DONE, SET, plugged};

type Chip = MemoryFlash<4096>;

/// How many frames were sent, and the last one.
struct Sent {
    count: usize,
    last: Frame,
}

impl Sink for Sent {
    fn take(&mut self, frame: &Frame) {
        self.count += 1;
        self.last.copy(frame);
    }
}

/// The host sets the name "pump-1", then lets a unit pass.
fn set_a_name(chip: &mut Chip) -> (bool, Sent) {
    let mut port = booted();
    let mut sent = Sent {
        count: 0,
        last: Frame::new(),
    };
    let operations = [
        Operation::Happens(Event::Frame(Octets::of(&SET))),
        Operation::Happens(Event::Tick),
    ];
    let done = play(&mut port, chip, &operations, &mut sent).is_ok();
    (done, sent)
}

/// The name under which a device starts from the chip.
fn name_on(mut chip: Chip) -> Vec<u8> {
    chip.power_up();
    let device = Device::boot(demo_identity(), plugged(), chip)
        .ok()
        .expect("starts");
    device.running().name.as_bytes().to_vec()
}

#[test]
fn a_name_that_is_answered_is_on_the_chip() {
    let mut chip = Chip::blank();
    let (done, sent) = set_a_name(&mut chip);
    assert!(done);
    assert_eq!(sent.count, 1);
    assert!(sent.last.as_slice().starts_with(&DONE));
    assert_eq!(name_on(chip), b"pump-1");
}

// The first commit has three calls: erase, base, gate. Only the gate makes it count.
#[test]
fn a_call_that_is_struck_is_not_answered() {
    for call in 0..3 {
        for (mask, is_kept) in [(0x00, false), (0x55, false), (0xFF, call == 2)] {
            let mut chip = Chip::blank();
            chip.fuse(call, [mask; 8]);
            let (done, sent) = set_a_name(&mut chip);
            assert!(!done);
            assert_eq!(sent.count, 0);
            let wanted: &[u8] = if is_kept { b"pump-1" } else { b"" };
            assert_eq!(name_on(chip), wanted, "call {call}, mask {mask:02x}");
        }
    }
}
