//! Answers to the ApplicationReady of a plug: only one with its sequence counts, positive or negative, and of a positive one only
//! the block with its number.

use device_core::{Device, Event, Note};
use expected_places::Progress;
use flash_model::MemoryFlash;
use frame_codec::{Bytes, Outbox};
use pn_values::{RealSubmodule, demo_identity, demo_modules};
use test_stations::{BLOCKS, CONNECT, CONTROL, PRM_END, call, frame, octets, response, set, set_address};

/// The demo device.
type Demo = Device<MemoryFlash<768>, 768>;

/// A step, whose note is this one. Returns how many frames it sends.
fn step(device: &mut Demo, event: &Event<'_>, note: Note) -> usize {
    let mut outbox = Outbox::new();
    assert_eq!(device.step(event, &mut outbox), note);
    outbox.as_slice().len()
}

/// The device exchanges data.
fn exchanging() -> Demo {
    let mut device = match Device::boot(demo_identity(), demo_modules(), MemoryFlash::blank()) {
        Ok(device) => device,
        Err(_) => panic!("it starts"),
    };
    step(&mut device, &set_address(), Note::Done);
    step(&mut device, &frame(&call(CONNECT, 7, 0, &BLOCKS)), Note::Done);
    step(&mut device, &frame(&call(CONTROL, 7, 1, &PRM_END)), Note::Done);
    step(&mut device, &frame(&response()), Note::Done);
    device
}

/// The AlarmAck for an alarm of this type and sequence at a place, as data of the next number.
fn confirms(alarm_type: u8, slot: u8, subslot: u8, sequence: u8) -> Bytes {
    let number = if sequence == 0 { 0xFFFF } else { u16::from(sequence) - 1 };
    let mut bytes = octets(
        b"\x02\x00\x00\x00\x00\x01\x02\x00\x00\x00\x00\x02\x88\x92\xfe\x01\x00\x01\x00\x01\x11\x11\x00\x00\xff\xfe\x00\x16\
          \x80\x02\x00\x12\x01\x00\x00\x00\x00\x00\x00\x00\x00\x00\x00\x00\x00\x00\x00\x00\x00\x00",
    );
    set(&mut bytes, 22, (number >> 8) as u8);
    set(&mut bytes, 23, number as u8);
    for (place, value) in [(35, alarm_type), (41, slot), (43, subslot), (45, sequence)] {
        set(&mut bytes, place, value);
    }
    bytes
}

/// The submodule in slot 1 or 2 of the demo station is plugged.
fn plug(slot: u16) -> Event<'static> {
    let mut part = RealSubmodule {
        subslot: 1,
        ident: u32::from(slot) * 16,
        ..RealSubmodule::default()
    };
    if slot == 1 {
        part.input = 2;
    } else {
        part.output = 2;
    }
    Event::plug(slot, u32::from(slot) * 16, part)
}

/// A PrmEnd after the plug whose alarm had this sequence.
fn prm_end(call_number: u16, sequence: u8) -> Bytes {
    let mut block = PRM_END;
    block[1] = 0x11;
    block[27] = sequence;
    call(CONTROL, 7, call_number, &block)
}

/// The answer to the call with this sequence: the block of the plug with this number, or a status that refuses it.
fn answer(sequence: u16, number: Option<u8>) -> Bytes {
    let mut bytes = response();
    set(&mut bytes, 109, sequence as u8);
    match number {
        Some(number) => {
            set(&mut bytes, 143, 0x13);
            set(&mut bytes, 169, number);
        }
        None => {
            for (place, value) in [(122, 0xDD), (123, 0x81), (124, 0x40), (125, 0x06)] {
                set(&mut bytes, place, value);
            }
        }
    }
    bytes
}

/// How far subslot 1 of slots 1 and 2 is.
fn progress(device: &Demo) -> [Progress; 2] {
    let places = device.expected().expect("a relation");
    let at = |slot| places.iter().find(|place| place.is_for(slot, 1)).expect("a place").progress();
    [at(1), at(2)]
}

/// Both submodules were pulled and plugged again, and their parameters ended: ApplicationReady for slot 1 is sent with sequence 1,
/// that for slot 2 waits. The alarms had the sequences 0 to 3: those of the plugs are 2 and 3.
fn both_ended() -> Demo {
    let mut device = exchanging();
    assert_eq!(step(&mut device, &Event::pull(1, 1), Note::Done), 1);
    assert_eq!(step(&mut device, &Event::pull(2, 1), Note::Done), 0);
    assert_eq!(step(&mut device, &plug(1), Note::Done), 0);
    assert_eq!(step(&mut device, &plug(2), Note::Done), 0);
    // Each AlarmAck is acknowledged, and then the next alarm goes out.
    for (place, (alarm_type, slot)) in [(3, 1), (3, 2), (4, 1), (4, 2)].into_iter().enumerate() {
        let sent = step(&mut device, &frame(&confirms(alarm_type, slot, 1, place as u8)), Note::Done);
        assert_eq!(sent, if place < 3 { 2 } else { 1 });
    }
    assert_eq!(progress(&device), [Progress::Told, Progress::Told]);
    assert_eq!(step(&mut device, &frame(&prm_end(2, 2)), Note::Done), 2);
    assert_eq!(step(&mut device, &frame(&prm_end(3, 3)), Note::Done), 1);
    assert_eq!(progress(&device), [Progress::Ended, Progress::Ended]);
    device
}

#[test]
fn an_answer_counts_by_its_sequence_and_its_number() {
    let mut device = both_ended();
    for stranger in [answer(0, Some(2)), answer(2, Some(2)), answer(1, Some(3)), answer(0, None), answer(2, None)] {
        assert_eq!(step(&mut device, &frame(&stranger), Note::NoRelation), 0);
        assert_eq!(progress(&device), [Progress::Ended, Progress::Ended]);
    }
    // The block of ApplicationReady of the start-up is none of a plug.
    let mut other = answer(1, Some(2));
    set(&mut other, 143, 0x12);
    assert_eq!(step(&mut device, &frame(&other), Note::Fault), 0);
    // Then the next one is sent.
    assert_eq!(step(&mut device, &frame(&answer(1, Some(2))), Note::Done), 1);
    assert_eq!(progress(&device), [Progress::Good, Progress::Ended]);
    // Once more, it is for no call that waits.
    assert_eq!(step(&mut device, &frame(&answer(1, Some(2))), Note::NoRelation), 0);
    assert_eq!(step(&mut device, &frame(&answer(2, Some(3))), Note::Done), 0);
    assert_eq!(progress(&device), [Progress::Good, Progress::Good]);
}

#[test]
fn a_refusal_of_an_earlier_call_refuses_nothing() {
    let mut device = both_ended();
    // A pull ends the call of its place; behind the alarm of the pull the next call goes out, with sequence 2.
    assert_eq!(step(&mut device, &Event::pull(1, 1), Note::Done), 2);
    assert_eq!(step(&mut device, &frame(&answer(1, None)), Note::NoRelation), 0);
    assert_eq!(progress(&device), [Progress::Differs, Progress::Ended]);
    assert_eq!(step(&mut device, &frame(&answer(2, None)), Note::Done), 0);
    assert_eq!(progress(&device), [Progress::Differs, Progress::Refused]);
}
