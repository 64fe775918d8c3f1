//! A unit that sends as many frames as the outbox holds, as a call that is asked is over: it is refused with the next unit.

use asked_records::RecordName;
use device_core::{Device, Event, Note};
use flash_model::MemoryFlash;
use frame_codec::Outbox;
use pn_values::{RealSubmodule, demo_identity, demo_modules};
use relations::{DeviceOptions, Phase};
use test_stations::{BLOCKS, CONNECT, CONTROL, PRM_END, READ, Station, call, frame, response, set_address};

use crate::samples::named;

/// Record 0x1234 of slot 1.
const NAME: RecordName = RecordName {
    slot: 1,
    subslot: 1,
    index: 0x1234,
    greatest_length: 8,
    is_readable: true,
    is_writable: true,
};

/// A Read of it in the relation.
fn read() -> Vec<u8> {
    let mut blocks = vec![0, 9, 0, 60, 1, 0, 0, 9];
    blocks.extend([0x11; 16]);
    blocks.extend([0, 0, 0, 0, 0, 1, 0, 1, 0, 0, 0x12, 0x34, 0, 0, 0, 8]);
    blocks.extend([0; 24]);
    blocks
}

/// The AlarmAck for an alarm of this type and this number, of slot 2, as data of the next number.
fn confirms(alarm_type: u8, number: u8) -> Vec<u8> {
    let sequence = u16::from(number).wrapping_sub(1).to_be_bytes();
    let mut bytes = vec![2, 0, 0, 0, 0, 1, 2, 0, 0, 0, 0, 2, 0x88, 0x92, 0xFE, 1, 0, 1, 0, 1, 0x11, 0x11, sequence[0], sequence[1], 0xFF, 0xFE, 0, 22];
    bytes.extend([0x80, 2, 0, 18, 1, 0, 0, alarm_type, 0, 0, 0, 0, 0, 2, 0, 1, 0, number, 0, 0, 0, 0]);
    bytes
}

/// A cyclic frame of the controller with this CycleCounter.
fn outputs(counter: u16) -> Vec<u8> {
    let mut bytes = vec![2, 0, 0, 0, 0, 1, 2, 0, 0, 0, 0, 2, 0x81, 0, 0xC0, 0, 0x88, 0x92, 0xC0, 0, 0xAA, 0x55, 0x80, 0x80, 0x80, 0x80, 0x80];
    bytes.resize(60, 0);
    bytes.extend(counter.to_be_bytes());
    bytes.extend([0x35, 0]);
    bytes
}

/// The submodule of slot 2 of the demo station.
fn plug() -> Event<'static> {
    let part = RealSubmodule {
        subslot: 1,
        ident: 32,
        output: 2,
        ..RealSubmodule::default()
    };
    Event::plug(2, 32, part)
}

/// A step that is done. Returns the lengths of the frames that it sends.
fn step(device: &mut Station, event: &Event<'_>) -> Vec<usize> {
    let mut outbox = Outbox::new();
    assert_eq!(device.step(event, &mut outbox), Note::Done);
    outbox.as_slice().iter().map(|frame| frame.as_slice().len()).collect()
}

/// A station that exchanges data, in whose unit 0 ApplicationReady of a plug was sent, and a record is asked.
fn asked() -> Station {
    let booted = Device::boot_named(demo_identity(), demo_modules(), DeviceOptions::default(), named(&[NAME]), MemoryFlash::blank());
    let mut device = booted.ok().expect("it starts");
    let mut ends = PRM_END;
    ends[1] = 0x11;
    ends[27] = 1;
    step(&mut device, &set_address());
    for bytes in [call(CONNECT, 7, 0, &BLOCKS), call(CONTROL, 7, 1, &PRM_END), response()] {
        step(&mut device, &frame(&bytes));
    }
    step(&mut device, &Event::pull(2, 1));
    step(&mut device, &plug());
    step(&mut device, &frame(&confirms(3, 0)));
    step(&mut device, &frame(&confirms(4, 1)));
    assert_eq!(step(&mut device, &frame(&call(CONTROL, 7, 2, &ends))), [174, 174]);
    assert!(step(&mut device, &frame(&call(READ, 7, 3, &read()))).is_empty());
    assert_eq!(device.phase(), Some(Phase::Exchanging));
    device
}

/// Units from this one to that one, with a cyclic frame of the controller before each 32nd. Returns what the last one sends.
fn passes(device: &mut Station, from: u32, to: u32) -> Vec<usize> {
    let mut sent = Vec::new();
    for unit in from..to {
        if unit % 32 == 0 {
            assert!(step(device, &frame(&outputs(unit as u16))).is_empty());
        }
        sent = step(device, &Event::Tick);
    }
    sent
}

#[test]
fn a_question_is_over_with_its_unit() {
    let mut device = asked();
    passes(&mut device, 0, 63_999);
    assert!(device.asked().is_some());
    // ApplicationReady again, inputs, and the refusal.
    assert_eq!(passes(&mut device, 63_999, 64_000), [174, 64, 142]);
    assert!(device.asked().is_none());
}

#[test]
fn a_question_waits_for_a_unit_with_four_frames() {
    let mut device = asked();
    passes(&mut device, 0, 60_800);
    assert_eq!(step(&mut device, &Event::alarm(1, 1, &[1])).len(), 1);
    assert_eq!(step(&mut device, &Event::diagnosis(1, 1, 0, 2, true)).len(), 1);
    passes(&mut device, 60_800, 63_999);
    assert_eq!(device.due(), 1);
    assert_eq!(passes(&mut device, 63_999, 64_000).len(), 4);
    assert!(device.asked().is_some());
    assert_eq!(device.due(), 1);
    assert_eq!(passes(&mut device, 64_000, 64_001), [142]);
    assert!(device.asked().is_none());
    assert_eq!(device.phase(), Some(Phase::Exchanging));
}
