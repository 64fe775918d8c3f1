//! The lamp that a Signal of DCP makes flash, for 3 seconds: 96,000 units of 31.25 microseconds.
use crate::Tried;
use device_core::{Event, Note};
use test_stations::frame;

// A Set of a Signal, and its answer 'done'.
const SIGNAL: [u8; 34] =
    *b"\x02\x00\x00\x00\x00\x01\x02\x00\x00\x00\x00\x02\x88\x92\xfe\xfd\x04\x00\x00\x00\x00\x02\x00\x00\x00\x08\
    \x05\x03\x00\x04\x00\x00\x01\x00";

const SIGNALLED: [u8; 34] =
    *b"\x02\x00\x00\x00\x00\x02\x02\x00\x00\x00\x00\x01\x88\x92\xfe\xfd\x04\x01\x00\x00\x00\x02\x00\x00\x00\x08\
    \x05\x04\x00\x03\x05\x03\x00\x00";

// That many units go by.
fn wait(device: &mut Tried, units: u32) {
    for _ in 0..units {
        device.sends_none(&Event::Tick, Note::Done);
    }
}

#[test]
fn the_lamp_flashes_for_three_seconds() {
    let mut device = Tried::blank();
    assert_eq!(device.station.lamp(), 0);
    wait(&mut device, 1);
    assert_eq!(device.station.lamp(), 0);
    device.sends(&frame(&SIGNAL), &SIGNALLED);
    assert_eq!(device.station.lamp(), 96_000);
    wait(&mut device, 1);
    assert_eq!(device.station.lamp(), 95_999);
    wait(&mut device, 95_998);
    assert_eq!(device.station.lamp(), 1);
    wait(&mut device, 2);
    assert_eq!(device.station.lamp(), 0);
}

#[test]
fn a_second_signal_starts_the_time_again() {
    let mut device = Tried::blank();
    device.sends(&frame(&SIGNAL), &SIGNALLED);
    wait(&mut device, 32_000);
    assert_eq!(device.station.lamp(), 64_000);
    device.sends(&frame(&SIGNAL), &SIGNALLED);
    assert_eq!(device.station.lamp(), 96_000);
}
