//! Frames of a controller, worked out by hand from IEC 61158-6-10, and the ways in which they are broken.
use frame_codec::Bytes;
pub(crate) use test_stations::BLOCKS;
use test_stations::{CONNECT, CONTROL, END, PRM_END, READ, RELEASE, WRITE, octets, set};

/// A Read of I&M2, the date of installation, and a Write of a date.
pub(crate) const ASKED: [u8; 64] = *b"\x00\x09\x00\x3c\x01\x00\x00\x00\
    \x11\x11\x11\x11\x11\x11\x11\x11\x11\x11\x11\x11\x11\x11\x11\x11\x00\x00\x00\x00\x00\x00\x00\x01\x00\x00\xaf\xf2\x00\x00\x00\x40\
    \x00\x00\x00\x00\x00\x00\x00\x00\x00\x00\x00\x00\x00\x00\x00\x00\x00\x00\x00\x00\x00\x00\x00\x00";

pub(crate) const GIVEN: [u8; 86] = *b"\x00\x08\x00\x3c\x01\x00\x00\x00\
    \x11\x11\x11\x11\x11\x11\x11\x11\x11\x11\x11\x11\x11\x11\x11\x11\x00\x00\x00\x00\x00\x00\x00\x01\x00\x00\xaf\xf2\x00\x00\x00\x16\
    \x00\x00\x00\x00\x00\x00\x00\x00\x00\x00\x00\x00\x00\x00\x00\x00\x00\x00\x00\x00\x00\x00\x00\x00\
    \x00\x22\x00\x12\x01\x002024-05-06 07:08";

/// A call of each operation: its number, the first octet of the status of a negative answer, and its blocks.
pub(crate) const CALLS: [(u8, u8, &[u8]); 5] = [
    (CONNECT, 0xDB, &BLOCKS),
    (RELEASE, 0xDC, &END),
    (READ, 0xDE, &ASKED),
    (WRITE, 0xDF, &GIVEN),
    (CONTROL, 0xDD, &PRM_END),
];

/// A cyclic frame: the output aa 55, with the CycleCounter 32.
pub(crate) const OUTPUTS: [u8; 64] =
    *b"\x02\x00\x00\x00\x00\x01\x02\x00\x00\x00\x00\x02\x81\x00\xc0\x00\x88\x92\xc0\x00\
    \xaa\x55\x80\x80\x80\x80\x80\x00\x00\x00\x00\x00\x00\x00\x00\x00\x00\x00\x00\x00\
    \x00\x00\x00\x00\x00\x00\x00\x00\x00\x00\x00\x00\x00\x00\x00\x00\x00\x00\x00\x00\x00\x20\x35\x00";

/// The ACK of the device's first alarm, a NACK, and the AlarmAck of the application.
pub(crate) const ACK: [u8; 32] =
    *b"\x02\x00\x00\x00\x00\x01\x02\x00\x00\x00\x00\x02\x81\x00\xc0\x00\x88\x92\xfc\x01\
    \x00\x01\x00\x01\x13\x01\xff\xff\xff\xff\x00\x00";

pub(crate) const NACK: [u8; 32] =
    *b"\x02\x00\x00\x00\x00\x01\x02\x00\x00\x00\x00\x02\x81\x00\xc0\x00\x88\x92\xfc\x01\
    \x00\x01\x00\x01\x12\x01\xff\xff\xff\xff\x00\x00";

pub(crate) const ALARM_ACK: [u8; 54] =
    *b"\x02\x00\x00\x00\x00\x01\x02\x00\x00\x00\x00\x02\x81\x00\xc0\x00\x88\x92\xfc\x01\
    \x00\x01\x00\x01\x11\x11\xff\xff\xff\xff\x00\x16\
    \x80\x01\x00\x12\x01\x00\x00\x02\x00\x00\x00\x00\x00\x01\x00\x01\x00\x00\x00\x00\x00\x00";

/// The ERR by which the controller ends the relation.
pub(crate) const ERR: [u8; 36] =
    *b"\x02\x00\x00\x00\x00\x01\x02\x00\x00\x00\x00\x02\x81\x00\xa0\x00\x88\x92\xfe\x01\
    \x00\x01\x00\x01\x14\x01\xff\xff\xff\xfe\x00\x04\xcf\x81\xfd\x06";

/// PDUs of alarms, none of them filled up.
pub(crate) const PDUS: [&[u8]; 4] = [&ALARM_ACK, &ACK, &NACK, &ERR];

/// 0, 1 and the greatest number: the last octet, and those in front of it.
pub(crate) const NUMBERS: [(u8, u8); 3] = [(0, 0), (0, 1), (0xFF, 0xFF)];

/// A call of the activity 0707..07, with these blocks.
pub(crate) fn call(operation: u8, sequence: u16, blocks: &[u8]) -> Bytes {
    test_stations::call(operation, 7, sequence, blocks)
}

/// A frame with another number, of this many octets, at a place.
pub(crate) fn bent(bytes: &[u8], place: usize, size: usize, (front, last): (u8, u8)) -> Bytes {
    let mut bent = octets(bytes);
    let end = place.wrapping_add(size);
    for at in place..end {
        set(&mut bent, at, front);
    }
    set(&mut bent, end.wrapping_sub(1), last);
    bent
}

/// A frame without its tag.
pub(crate) fn untagged(bytes: &[u8]) -> Bytes {
    let mut rest = octets(bytes.get(..12).unwrap_or(&[]));
    let _ = rest.try_extend_from_slice(bytes.get(16..).unwrap_or(&[]));
    rest
}

/// A PDU of alarms under the other FrameID of the two.
pub(crate) fn elsewhere(bytes: &[u8]) -> Bytes {
    let mut other = octets(bytes);
    let high = match bytes.get(18) {
        Some(0xFC) => 0xFE,
        _ => 0xFC,
    };
    set(&mut other, 18, high);
    other
}
