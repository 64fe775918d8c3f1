//! Frames as they are on the wire.

use super::reads;
use frame_codec::{
    ALARM_HIGH, ALARM_LOW, DCP_GET_SET, DCP_IDENTIFY_REQUEST, DCP_IDENTIFY_RESPONSE, Frame,
    FrameFault, Layered, Outbox, Payload, RPC_PORT, is_alarm, is_cyclic, read, write,
};
use pn_values::Mac;

/// A DCP Identify request for all stations, as it is sent on the wire before padding.
const IDENTIFY: [u8; 30] = [
    0x01, 0x0E, 0xCF, 0x00, 0x00, 0x00, 0x02, 0x00, 0x00, 0x00, 0x00, 0x02, 0x88, 0x92, 0xFE, 0xFE,
    0x05, 0x00, 0x00, 0x00, 0x00, 0x01, 0x00, 0x01, 0x00, 0x04, 0xFF, 0xFF, 0x00, 0x00,
];

/// The same with a VLAN tag of priority 0.
const TAGGED: [u8; 34] = [
    0x01, 0x0E, 0xCF, 0x00, 0x00, 0x00, 0x02, 0x00, 0x00, 0x00, 0x00, 0x02, 0x81, 0x00, 0x00, 0x00,
    0x88, 0x92, 0xFE, 0xFE, 0x05, 0x00, 0x00, 0x00, 0x00, 0x01, 0x00, 0x01, 0x00, 0x04, 0xFF, 0xFF,
    0x00, 0x00,
];

/// What both carry after the FrameID.
const BODY: [u8; 14] = [
    0x05, 0x00, 0x00, 0x00, 0x00, 0x01, 0x00, 0x01, 0x00, 0x04, 0xFF, 0xFF, 0x00, 0x00,
];

/// The layers of an Identify request with this tag and this body.
fn identify(tag: Option<u16>, body: &[u8]) -> Layered<'_> {
    Layered {
        destination: Mac {
            octets: [0x01, 0x0E, 0xCF, 0x00, 0x00, 0x00],
        },
        source: Mac {
            octets: [0x02, 0x00, 0x00, 0x00, 0x00, 0x02],
        },
        tag,
        payload: Payload::RealTime {
            frame_id: DCP_IDENTIFY_REQUEST,
            body,
        },
    }
}

#[test]
fn reads_with_and_without_tag() {
    reads(&IDENTIFY, Ok(identify(None, &BODY)));
    reads(&TAGGED, Ok(identify(Some(0), &BODY)));
    // Only the Ethernet header is judged here.
    reads(&IDENTIFY[..20], Ok(identify(None, &BODY[..4])));
    reads(&IDENTIFY[..16], Ok(identify(None, &[])));
}

#[test]
fn short_frames() {
    for length in [0, 5, 13, 14, 15] {
        reads(&IDENTIFY[..length], Err(FrameFault::TooShort));
    }
    for length in [13, 14, 15, 17, 18, 19] {
        reads(&TAGGED[..length], Err(FrameFault::TooShort));
    }
}

/// Whether there is no fault in a frame.
fn is_read(frame: &[u8]) -> bool {
    read(frame).is_ok()
}

#[test]
fn long_frames() {
    let mut long = [0; 1520];
    long[12] = 0x88;
    long[13] = 0x92;
    assert!(is_read(&long[..1514]));
    reads(&long[..1515], Err(FrameFault::TooLong));
    // The length is judged before the EtherType.
    long[13] = 0x93;
    reads(&long[..1515], Err(FrameFault::TooLong));
    long[12] = 0x81;
    long[13] = 0x00;
    long[16] = 0x88;
    long[17] = 0x92;
    assert!(is_read(&long[..1518]));
    reads(&long[..1519], Err(FrameFault::TooLong));
}

#[test]
fn two_tags() {
    let mut long = [0; 1520];
    long[12] = 0x81;
    long[16] = 0x81;
    reads(&long, Err(FrameFault::TooLong));
    reads(&long[..1518], Err(FrameFault::Tag));
    // Nothing follows the second.
    reads(&long[..18], Err(FrameFault::Tag));
}

#[test]
fn other_ether_types() {
    for [high, low] in [
        [0x88, 0x93],
        [0x08, 0x01],
        [0x06, 0x08],
        [0x92, 0x88],
        [0x00, 0x01],
    ] {
        let mut frame = IDENTIFY;
        frame[12] = high;
        frame[13] = low;
        reads(&frame, Err(FrameFault::EtherType));
        // It is judged before its FrameID.
        reads(&frame[..15], Err(FrameFault::EtherType));
    }
}

/// An Identify request with this tag and this body, for which a frame has room, as it is written.
fn written(tag: Option<u16>, body: &[u8]) -> Frame {
    if body.len() > 1498 {
        panic!("{} octets", body.len());
    }
    write(&identify(tag, body))
}

#[test]
fn writes_padded() {
    let mut padded = [0; 60];
    padded[..30].copy_from_slice(&IDENTIFY);
    assert!(written(None, &BODY).as_slice() == padded.as_slice());
    padded[..34].copy_from_slice(&TAGGED);
    assert!(written(Some(0), &BODY).as_slice() == padded.as_slice());
    let body = [7; 1498];
    assert_eq!(written(None, &body[..44]).len(), 60);
    assert_eq!(written(None, &body[..45]).len(), 61);
    assert_eq!(written(None, &body).len(), 1514);
    assert_eq!(written(Some(0xC000), &body).len(), 1518);
}

/// Puts an Identify request with this tag and this body into a box, which has room for it.
fn put(outbox: &mut Outbox, tag: Option<u16>, body: &[u8]) {
    if outbox.len() >= 4 || body.len() > 1498 {
        panic!("{} octets", body.len());
    }
    outbox.put(&identify(tag, body));
}

/// The frame at this place of a box is read as an Identify request with this tag and this body.
fn holds(outbox: &Outbox, place: usize, (tag, body): (Option<u16>, &[u8])) {
    match outbox.as_slice().get(place) {
        Some(frame) => reads(frame.as_slice(), Ok(identify(tag, body))),
        None => panic!("no frame at {place}"),
    }
}

#[test]
fn four_frames_in_a_box() {
    let body = [7; 100];
    let mut outbox = Outbox::new();
    assert_eq!(outbox.len(), 0);
    put(&mut outbox, None, &body[..90]);
    put(&mut outbox, Some(0), &body[..91]);
    put(&mut outbox, None, &body[..92]);
    assert!(!outbox.is_full());
    put(&mut outbox, Some(7), &body);
    assert!(outbox.is_full());
    holds(&outbox, 0, (None, &body[..90]));
    holds(&outbox, 1, (Some(0), &body[..91]));
    holds(&outbox, 2, (None, &body[..92]));
    holds(&outbox, 3, (Some(7), &body));
    assert!(outbox.as_slice().get(4).is_none());
}

#[test]
fn a_box_that_is_used_again() {
    let body = [7; 100];
    let mut outbox = Outbox::new();
    put(&mut outbox, Some(0), &body);
    put(&mut outbox, None, &body);
    outbox.clear();
    assert!(outbox.as_slice().get(0).is_none());
    put(&mut outbox, None, &body[..45]);
    assert_eq!(outbox.len(), 1);
    holds(&outbox, 0, (None, &body[..45]));
}

#[test]
fn faults_of_frames_are_numbered() {
    let faults = [
        (FrameFault::TooShort, 1),
        (FrameFault::TooLong, 2),
        (FrameFault::Tag, 3),
        (FrameFault::EtherType, 4),
        (FrameFault::IpHeader, 5),
        (FrameFault::IpChecksum, 6),
        (FrameFault::UdpLength, 7),
        (FrameFault::UdpChecksum, 8),
        (FrameFault::Arp, 9),
    ];
    for (fault, number) in faults {
        assert_eq!(fault.number(), number);
    }
}

// As Wireshark names them: the FrameIDs of alarms and of DCP (packet-pn-rt.c), and the port of the calls (IANA, profinet-cm).
#[test]
fn numbers_of_the_standard() {
    for (number, wanted) in [
        (ALARM_HIGH, [0xFC, 0x01]),
        (ALARM_LOW, [0xFE, 0x01]),
        (DCP_GET_SET, [0xFE, 0xFD]),
        (DCP_IDENTIFY_REQUEST, [0xFE, 0xFE]),
        (DCP_IDENTIFY_RESPONSE, [0xFE, 0xFF]),
        (RPC_PORT, [0x88, 0x94]),
    ] {
        assert_eq!(number.to_be_bytes(), wanted);
    }
    for (number, alarm, cyclic) in [
        (0xFC01, true, false),
        (0xFE01, true, false),
        (0xFE02, false, false),
        (0x7FFF, false, false),
        (0x8000, false, true),
        (0xBBFF, false, true),
        (0xBC00, false, false),
        (0xC000, false, true),
        (0xF7FF, false, true),
        (0xF800, false, false),
    ] {
        assert_eq!((is_alarm(number), is_cyclic(number)), (alarm, cyclic));
    }
}
