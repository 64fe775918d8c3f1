//! PDUs of alarms with other lengths, with another block, and under the other of the two FrameIDs.

use super::frames::{ACK, ALARM_ACK, ERR, NACK, NUMBERS, bent, elsewhere};
use super::stations::{PHASES, alarm, at, is_in, is_noted, is_untouched, takes};
use device_core::Note;
use frame_codec::Outbox;
use relations::Phase;
use test_stations::{Station, frame, octets, set};

// VarPartLen, and BlockLength of the AlarmAck.
const LENGTHS: [(&[u8], usize); 5] = [
    (&ALARM_ACK, 30),
    (&ALARM_ACK, 34),
    (&ACK, 30),
    (&NACK, 30),
    (&ERR, 30),
];

/// A PDU is a fault, under either FrameID.
fn is_fault(device: &mut Station, bytes: &[u8]) {
    is_noted(device, &octets(bytes), Note::Fault);
    is_noted(device, &elsewhere(bytes), Note::Fault);
}

/// A PDU is a fault with each other number at a place.
fn is_bound(device: &mut Station, (bytes, place): (&[u8], usize)) {
    for number in NUMBERS {
        let other = bent(bytes, place, 2, number);
        if other.as_slice() != bytes {
            is_fault(device, other.as_slice());
        }
    }
}

fn are_lengths_bound(phase: Option<Phase>) {
    let mut device = at(phase);
    for length in LENGTHS {
        is_bound(&mut device, length);
    }
    is_untouched(device, phase)
}

#[test]
fn lengths_of_alarm_frames() {
    for phase in PHASES {
        are_lengths_bound(phase);
    }
}

// The device's own first alarm, as if the controller had raised it.
const NOTIFICATION: [u8; 62] =
    *b"\x02\x00\x00\x00\x00\x01\x02\x00\x00\x00\x00\x02\x81\x00\xc0\x00\x88\x92\xfc\x01\
    \x00\x01\x00\x01\x11\x11\xff\xff\xff\xfe\x00\x1e\
    \x00\x01\x00\x1a\x01\x00\x00\x02\x00\x00\x00\x00\x00\x01\x00\x01\x00\x00\x00\x10\x00\x00\x00\x10\x00\x00\
    \x00\x01\xaa\xbb";

fn are_no_alarm_acks(phase: Option<Phase>) {
    let mut version = octets(&ALARM_ACK);
    set(&mut version, 36, 2);
    let mut kind = octets(&ALARM_ACK);
    set(&mut kind, 33, 2);
    let mut device = at(phase);
    is_fault(&mut device, &NOTIFICATION);
    is_fault(&mut device, version.as_slice());
    is_fault(&mut device, kind.as_slice());
    is_untouched(device, phase)
}

// Data of a controller is an AlarmAck, and nothing else. An AlarmAck with octets after its block in VarPartLen is refused too.
#[test]
fn data_that_is_no_alarm_ack() {
    for phase in PHASES {
        are_no_alarm_acks(phase);
    }
}

// The device's ACK of the AlarmAck, which goes by the FrameID of alarms high.
const TAKEN: [u8; 32] =
    *b"\x02\x00\x00\x00\x00\x02\x02\x00\x00\x00\x00\x01\x81\x00\xc0\x00\x88\x92\xfc\x01\
    \x00\x01\x00\x01\x13\x01\xff\xff\xff\xff\x00\x00";

// Each PDU is read under either FrameID.
#[test]
fn alarms_under_the_other_frame_id() {
    let mut device = at(Some(Phase::Exchanging));
    let mut outbox = Outbox::new();
    takes(&mut device, &alarm(), &mut outbox);
    is_noted(&mut device, &elsewhere(&NACK), Note::Filter);
    is_noted(&mut device, &elsewhere(&ACK), Note::Done);
    takes(&mut device, &frame(&elsewhere(&ALARM_ACK)), &mut outbox);
    let sent = outbox.as_slice().first().expect("is answered");
    assert!(sent.as_slice().starts_with(&TAKEN));
    takes(&mut device, &alarm(), &mut outbox);
    is_noted(&mut device, &elsewhere(&ERR), Note::Done);
    is_in(&device, None);
}
