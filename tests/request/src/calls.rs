//! The octets are those of a reference model that shares no line with this repository.

use super::blocks::with;
use arrayvec::ArrayVec;
use frame_codec::Frame;
use rpc_core::{
    CallCache, CallHeader, Datagram, Interface, Looked, RpcFault, Status, Uuid, read_call,
    read_response, write_request, write_response,
};

/// A Read Implicit of a record, as it is in the datagram.
const CALL: [u8; 164] = [
    0x04, 0x00, 0x20, 0x00, 0x00, 0x00, 0x00, 0x00, 0xDE, 0xA0, 0x00, 0x00, 0x6C, 0x97, 0x11, 0xD1,
    0x82, 0x71, 0x00, 0x01, 0x04, 0x56, 0x01, 0x23, 0xDE, 0xA0, 0x00, 0x01, 0x6C, 0x97, 0x11, 0xD1,
    0x82, 0x71, 0x00, 0xA0, 0x24, 0x42, 0xDF, 0x7D, 0x03, 0x03, 0x03, 0x03, 0x03, 0x03, 0x03, 0x03,
    0x03, 0x03, 0x03, 0x03, 0x03, 0x03, 0x03, 0x03, 0x00, 0x00, 0x00, 0x00, 0x00, 0x00, 0x00, 0x01,
    0x00, 0x00, 0x00, 0x02, 0x00, 0x05, 0xFF, 0xFF, 0xFF, 0xFF, 0x00, 0x54, 0x00, 0x00, 0x00, 0x00,
    0x00, 0x00, 0x05, 0x5C, 0x00, 0x00, 0x00, 0x40, 0x00, 0x00, 0x05, 0x5C, 0x00, 0x00, 0x00, 0x00,
    0x00, 0x00, 0x00, 0x40, 0x00, 0x09, 0x00, 0x3C, 0x01, 0x00, 0x00, 0x02, 0x00, 0x00, 0x00, 0x00,
    0x00, 0x00, 0x00, 0x00, 0x00, 0x00, 0x00, 0x00, 0x00, 0x00, 0x00, 0x00, 0x00, 0x00, 0x00, 0x00,
    0x00, 0x01, 0x00, 0x01, 0x00, 0x00, 0xAF, 0xF3, 0x00, 0x00, 0x00, 0x0A, 0x00, 0x00, 0x00, 0x00,
    0x00, 0x00, 0x00, 0x00, 0x00, 0x00, 0x00, 0x00, 0x00, 0x00, 0x00, 0x00, 0x00, 0x00, 0x00, 0x00,
    0x00, 0x00, 0x00, 0x00,
];

/// A Read of another activity, in little endian.
const LITTLE: [u8; 164] = [
    0x04, 0x00, 0x20, 0x00, 0x10, 0x00, 0x00, 0x00, 0x00, 0x00, 0xA0, 0xDE, 0x97, 0x6C, 0xD1, 0x11,
    0x82, 0x71, 0x00, 0x01, 0x04, 0x56, 0x01, 0x23, 0x01, 0x00, 0xA0, 0xDE, 0x97, 0x6C, 0xD1, 0x11,
    0x82, 0x71, 0x00, 0xA0, 0x24, 0x42, 0xDF, 0x7D, 0x66, 0x66, 0x66, 0x66, 0x77, 0x77, 0x88, 0x88,
    0x99, 0x99, 0xAA, 0xAA, 0xAA, 0xAA, 0xAA, 0xAA, 0x00, 0x00, 0x00, 0x00, 0x01, 0x00, 0x00, 0x00,
    0x00, 0x00, 0x00, 0x00, 0x02, 0x00, 0xFF, 0xFF, 0xFF, 0xFF, 0x54, 0x00, 0x00, 0x00, 0x00, 0x00,
    0x5C, 0x05, 0x00, 0x00, 0x40, 0x00, 0x00, 0x00, 0x5C, 0x05, 0x00, 0x00, 0x00, 0x00, 0x00, 0x00,
    0x40, 0x00, 0x00, 0x00, 0x00, 0x09, 0x00, 0x3C, 0x01, 0x00, 0x00, 0x00, 0x11, 0x11, 0x11, 0x11,
    0x22, 0x22, 0x33, 0x33, 0x44, 0x44, 0x55, 0x55, 0x55, 0x55, 0x55, 0x55, 0x00, 0x00, 0x00, 0x00,
    0x00, 0x00, 0x00, 0x01, 0x00, 0x00, 0xAF, 0xF0, 0x00, 0x00, 0x10, 0x00, 0x00, 0x00, 0x00, 0x00,
    0x00, 0x00, 0x00, 0x00, 0x00, 0x00, 0x00, 0x00, 0x00, 0x00, 0x00, 0x00, 0x00, 0x00, 0x00, 0x00,
    0x00, 0x00, 0x00, 0x00,
];

/// The negative response to the first: there is no such record.
const ANSWER: [u8; 100] = [
    0x04, 0x02, 0x0A, 0x00, 0x00, 0x00, 0x00, 0x00, 0xDE, 0xA0, 0x00, 0x00, 0x6C, 0x97, 0x11, 0xD1,
    0x82, 0x71, 0x00, 0x01, 0x04, 0x56, 0x01, 0x23, 0xDE, 0xA0, 0x00, 0x01, 0x6C, 0x97, 0x11, 0xD1,
    0x82, 0x71, 0x00, 0xA0, 0x24, 0x42, 0xDF, 0x7D, 0x03, 0x03, 0x03, 0x03, 0x03, 0x03, 0x03, 0x03,
    0x03, 0x03, 0x03, 0x03, 0x03, 0x03, 0x03, 0x03, 0x00, 0x00, 0x00, 0x00, 0x00, 0x00, 0x00, 0x01,
    0x00, 0x00, 0x00, 0x02, 0x00, 0x05, 0xFF, 0xFF, 0xFF, 0xFF, 0x00, 0x14, 0x00, 0x00, 0x00, 0x00,
    0xDE, 0x80, 0xB0, 0x00, 0x00, 0x00, 0x00, 0x00, 0x00, 0x00, 0x05, 0x5C, 0x00, 0x00, 0x00, 0x00,
    0x00, 0x00, 0x00, 0x00,
];

/// The activity of the call.
const ACTIVITY: [u8; 16] = [3; 16];

/// The activity of the call in little endian, in big endian.
const OTHER_ACTIVITY: [u8; 16] = [
    0x66, 0x66, 0x66, 0x66, 0x77, 0x77, 0x88, 0x88, 0x99, 0x99, 0xAA, 0xAA, 0xAA, 0xAA, 0xAA, 0xAA,
];

/// The object of both.
const OBJECT: [u8; 16] = [
    0xDE, 0xA0, 0x00, 0x00, 0x6C, 0x97, 0x11, 0xD1, 0x82, 0x71, 0x00, 0x01, 0x04, 0x56, 0x01, 0x23,
];

/// ErrorCode 0xDE, ErrorDecode 0x80, ErrorCode1 0xB0.
const INVALID_INDEX: Status = Status {
    code: 0xDE,
    decode: 0x80,
    code1: 0xB0,
    code2: 0,
};

/// The fault of a call to a device, or 0.
fn call_fault(bytes: &[u8]) -> u8 {
    match read_call(Interface::Device, bytes) {
        Ok(_) => 0,
        Err(fault) => fault.number(),
    }
}

/// The fault of a response, or 0.
fn response_fault(bytes: &[u8]) -> u8 {
    match read_response(bytes) {
        Ok(_) => 0,
        Err(fault) => fault.number(),
    }
}

/// A frame of these octets.
fn frame_of(octets: &[u8; 4]) -> Frame {
    let mut frame = Frame::new();
    frame.append(octets);
    frame
}

/// The first octet of the kept frame, or 0 of a new call, or 1 of an old one.
fn seen<const N: usize>(cache: &CallCache<N>, activity: u8, sequence: u32) -> u8 {
    match cache.look(&Uuid::from_bytes([activity; 16]), sequence) {
        Looked::New => 0,
        Looked::Old => 1,
        Looked::Again(frame) => match frame.as_slice() {
            [first, ..] => *first,
            [] => 2,
        },
    }
}

/// Whether a call was read, and has this header, this many octets of blocks, and this first block.
fn is_read(bytes: &[u8], header: &CallHeader, carried: usize) -> bool {
    match read_call(Interface::Device, bytes) {
        Ok(call) => match call.blocks {
            Some(blocks) => {
                call.header == *header
                    && call.args_maximum == 1372
                    && blocks.len() == carried
                    && blocks.starts_with(&[0x00, 0x09, 0x00, 0x3C])
            }
            None => false,
        },
        Err(_) => false,
    }
}

#[test]
fn reads_a_call() {
    let header = CallHeader {
        object: Uuid::from_bytes(OBJECT),
        interface: Interface::Device.uuid(),
        activity: Uuid::from_bytes(ACTIVITY),
        sequence: 2,
        operation: 5,
    };
    assert!(is_read(&CALL, &header, 64));
}

#[test]
fn reads_a_call_in_little_endian() {
    let header = CallHeader {
        object: Uuid::from_bytes(OBJECT),
        interface: Interface::Device.uuid(),
        activity: Uuid::from_bytes(OTHER_ACTIVITY),
        sequence: 0,
        operation: 2,
    };
    assert!(is_read(&LITTLE, &header, 64));
}

/// Each has one octet of the call changed: at which place, to what, and the fault.
const CHANGED: [(usize, u8, u8); 24] = [
    (0, 5, 2),
    (1, 2, 2),
    (1, 1, 2),
    (2, 0x24, 4),
    (2, 0xFB, 0),
    (3, 0xFF, 0),
    (4, 0x20, 3),
    (4, 0x0F, 0),
    (4, 0x10, 1),
    (7, 0xFF, 0),
    (8, 0xFF, 0),
    (27, 2, 5),
    (59, 0xFF, 0),
    (63, 0xFF, 0),
    (70, 0, 0),
    (74, 1, 1),
    (75, 0x55, 1),
    (75, 0x53, 0),
    (75, 20, 0),
    (75, 19, 1),
    (76, 1, 4),
    (77, 1, 4),
    (78, 1, 2),
    (79, 1, 0),
];

/// The fault of the call with another octet at a place.
fn fault_with(place: usize, octet: u8) -> u8 {
    call_fault(with(&CALL, place, octet).as_slice())
}

#[test]
fn faults_in_their_order() {
    for (place, octet, fault) in CHANGED {
        let found = fault_with(place, octet);
        assert_eq!((place, octet, found), (place, octet, fault));
    }
}

#[test]
fn each_length() {
    for length in 0..164 {
        assert_eq!(call_fault(&CALL[..length]), 1);
    }
    assert_eq!(call_fault(&CALL), 0);
}

/// Whether a call that can be read has blocks, and its ArgsMaximum.
fn blocks_of(octets: &[u8]) -> Option<(bool, u32)> {
    match read_call(Interface::Device, octets) {
        Ok(call) => Some((call.blocks.is_some(), call.args_maximum)),
        Err(_) => None,
    }
}

/// The same of the call whose ArgsLength and ActualCount are this number.
fn counted(number: u8) -> Option<(bool, u32)> {
    let octets = with(&CALL, 87, number);
    blocks_of(with(octets.as_slice(), 99, number).as_slice())
}

#[test]
fn blocks_are_counted_well() {
    // ArgsLength, Offset and ActualCount, each raised by one, and all of them at their greatest.
    for place in [87, 95, 99] {
        let octets = with(&CALL, place, 0x41);
        assert_eq!(blocks_of(octets.as_slice()), Some((false, 1372)));
    }
    assert_eq!(counted(0x41), Some((false, 1372)));
    assert_eq!(counted(0x3F), Some((true, 1372)));
}

/// A call that was read, as it is written.
fn written(octets: &[u8]) -> Datagram {
    let mut datagram: Datagram = ArrayVec::new();
    if let Ok(call) = read_call(Interface::Device, octets) {
        if let Some(blocks) = call.blocks {
            if blocks.len() <= 1372 {
                write_request(&call, &mut datagram);
            }
        }
    }
    datagram
}

#[test]
fn writes_a_call() {
    assert_eq!(written(&CALL).as_slice(), CALL.as_slice());
}

#[test]
fn writes_a_response() {
    let mut datagram: Datagram = ArrayVec::new();
    if let Ok(call) = read_call(Interface::Device, &CALL) {
        write_response(&call.response(INVALID_INDEX, &[]), &mut datagram);
    }
    assert_eq!(datagram.as_slice(), ANSWER.as_slice());
}

/// The status of a response that can be read.
fn status_of(octets: &[u8]) -> Option<Status> {
    match read_response(octets) {
        Ok(response) => Some(response.status),
        Err(_) => None,
    }
}

#[test]
fn reads_a_response() {
    assert_eq!(status_of(&ANSWER), Some(INVALID_INDEX));
    assert_eq!(response_fault(&CALL), 2);
    assert_eq!(call_fault(&ANSWER), 2);
    // to whatever interface
    let other = with(&ANSWER, 27, 7);
    assert_eq!(response_fault(other.as_slice()), 0);
    let longer = with(other.as_slice(), 99, 1);
    assert_eq!(response_fault(longer.as_slice()), 6);
}

#[test]
fn a_status_turns_round() {
    let mut bytes = ANSWER;
    bytes[4] = 0x10;
    bytes[74] = 20;
    bytes[75] = 0;
    bytes[80] = 0;
    bytes[81] = 0xB0;
    bytes[82] = 0x80;
    bytes[83] = 0xDE;
    assert_eq!(status_of(&bytes), Some(INVALID_INDEX));
}

#[test]
fn numbers_of_faults() {
    assert_eq!(RpcFault::Short.number(), 1);
    assert_eq!(RpcFault::Version.number(), 2);
    assert_eq!(RpcFault::Representation.number(), 3);
    assert_eq!(RpcFault::Fragment.number(), 4);
    assert_eq!(RpcFault::Interface.number(), 5);
    assert_eq!(RpcFault::Args.number(), 6);
}

/// Keeps a frame that begins with this octet as the answer to a call.
fn keep(cache: &mut CallCache<2>, activity: u8, sequence: u32, first: u8) {
    let frame = frame_of(&[first, 0, 0, 0]);
    cache.keep(&Uuid::from_bytes([activity; 16]), sequence, &frame);
}

#[test]
fn answers_are_kept() {
    let mut cache: CallCache<2> = CallCache::new();
    assert_eq!(seen(&cache, 7, 5), 0);
    keep(&mut cache, 7, 5, 70);
    assert_eq!(seen(&cache, 7, 5), 70);
    assert_eq!(seen(&cache, 7, 4), 1);
    assert_eq!(seen(&cache, 7, 6), 0);
    assert_eq!(seen(&cache, 8, 5), 0);
    keep(&mut cache, 8, 1, 80);
    keep(&mut cache, 7, 9, 79);
    assert_eq!(seen(&cache, 7, 5), 1);
    assert_eq!(seen(&cache, 7, 9), 79);
    assert_eq!(seen(&cache, 8, 1), 80);
}

#[test]
fn the_oldest_is_replaced() {
    let mut cache: CallCache<2> = CallCache::new();
    keep(&mut cache, 7, 5, 70);
    keep(&mut cache, 8, 1, 80);
    keep(&mut cache, 7, 6, 71);
    keep(&mut cache, 9, 0, 90);
    assert_eq!(seen(&cache, 7, 6), 71);
    assert_eq!(seen(&cache, 8, 1), 0);
    assert_eq!(seen(&cache, 9, 0), 90);
}

#[test]
fn a_place_for_one_answer() {
    let mut cache: CallCache<1> = CallCache::new();
    cache.keep(&Uuid::from_bytes([7; 16]), 5, &frame_of(&[70, 0, 0, 0]));
    cache.keep(&Uuid::from_bytes([8; 16]), 5, &frame_of(&[80, 0, 0, 0]));
    assert_eq!(seen(&cache, 7, 5), 0);
    assert_eq!(seen(&cache, 8, 5), 80);
}
