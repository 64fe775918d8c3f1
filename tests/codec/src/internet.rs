//! Frames of ARP, and of UDP in IPv4, as they are on the wire.

use super::reads;
use frame_codec::{
    Arp, ArpOperation, Endpoint, Frame, FrameFault, Holder, Layered, Payload, RPC_PORT, Udp,
    ones_sum, write,
};
use pn_values::Mac;

/// The address of a device, and of who asks it.
const DEVICE: Mac = Mac {
    octets: [0x02, 0x00, 0x00, 0x00, 0x00, 0x01],
};

const ASKER: Mac = Mac {
    octets: [0x02, 0x00, 0x00, 0x00, 0x00, 0x02],
};

/// Who has 192.168.0.2? 192.168.0.1 asks.
const REQUEST: [u8; 42] = [
    0xFF, 0xFF, 0xFF, 0xFF, 0xFF, 0xFF, 0x02, 0x00, 0x00, 0x00, 0x00, 0x02, 0x08, 0x06, 0x00, 0x01,
    0x08, 0x00, 0x06, 0x04, 0x00, 0x01, 0x02, 0x00, 0x00, 0x00, 0x00, 0x02, 0xC0, 0xA8, 0x00, 0x01,
    0x00, 0x00, 0x00, 0x00, 0x00, 0x00, 0xC0, 0xA8, 0x00, 0x02,
];

/// 192.168.0.2 is at the device.
const REPLY: [u8; 42] = [
    0x02, 0x00, 0x00, 0x00, 0x00, 0x02, 0x02, 0x00, 0x00, 0x00, 0x00, 0x01, 0x08, 0x06, 0x00, 0x01,
    0x08, 0x00, 0x06, 0x04, 0x00, 0x02, 0x02, 0x00, 0x00, 0x00, 0x00, 0x01, 0xC0, 0xA8, 0x00, 0x02,
    0x02, 0x00, 0x00, 0x00, 0x00, 0x02, 0xC0, 0xA8, 0x00, 0x01,
];

/// The IPv4 header of a datagram of 108 octets from 192.168.0.2 to 192.168.0.1.
const HEADER: [u8; 20] = [
    0x45, 0x00, 0x00, 0x80, 0x00, 0x00, 0x40, 0x00, 0x40, 0x11, 0xB9, 0x19, 0xC0, 0xA8, 0x00, 0x02,
    0xC0, 0xA8, 0x00, 0x01,
];

/// A datagram of ten octets from 192.168.0.2 to 192.168.0.1 that has no checksum.
const UNSUMMED: [u8; 52] = [
    0x02, 0x00, 0x00, 0x00, 0x00, 0x02, 0x02, 0x00, 0x00, 0x00, 0x00, 0x01, 0x08, 0x00, 0x45, 0x00,
    0x00, 0x26, 0x00, 0x00, 0x40, 0x00, 0x40, 0x11, 0xB9, 0x73, 0xC0, 0xA8, 0x00, 0x02, 0xC0, 0xA8,
    0x00, 0x01, 0x88, 0x94, 0xC0, 0x00, 0x00, 0x12, 0x00, 0x00, 0x00, 0x01, 0x02, 0x03, 0x04, 0x05,
    0x06, 0x07, 0x08, 0x09,
];

/// The asker, who holds 192.168.0.1.
fn asker() -> Holder {
    Holder {
        mac: ASKER,
        address: [192, 168, 0, 1],
    }
}

/// A packet for all that asks for 192.168.0.2.
fn request() -> Layered<'static> {
    Layered {
        destination: Mac { octets: [0xFF; 6] },
        source: ASKER,
        tag: None,
        payload: Payload::Arp(Arp {
            operation: ArpOperation::Request,
            sender: asker(),
            target: Holder {
                mac: Mac { octets: [0; 6] },
                address: [192, 168, 0, 2],
            },
        }),
    }
}

/// What the device answers.
fn reply() -> Layered<'static> {
    Layered {
        destination: ASKER,
        source: DEVICE,
        tag: None,
        payload: Payload::Arp(Arp {
            operation: ArpOperation::Reply,
            sender: Holder {
                mac: DEVICE,
                address: [192, 168, 0, 2],
            },
            target: asker(),
        }),
    }
}

/// A datagram from the device to the asker.
fn datagram(tag: Option<u16>, body: &[u8]) -> Layered<'_> {
    Layered {
        destination: ASKER,
        source: DEVICE,
        tag,
        payload: Payload::Udp(Udp {
            source: Endpoint {
                address: [192, 168, 0, 2],
                port: RPC_PORT,
            },
            destination: Endpoint {
                address: [192, 168, 0, 1],
                port: 49152,
            },
            body,
        }),
    }
}

/// The packets of ARP, as they are written.
fn written_request() -> Frame {
    write(&request())
}

fn written_reply() -> Frame {
    write(&reply())
}

/// A datagram from the device to the asker, for which a frame has room, as it is written.
fn written(tag: Option<u16>, body: &[u8]) -> Frame {
    if body.len() > 1472 {
        panic!("{} octets", body.len());
    }
    write(&datagram(tag, body))
}

#[test]
fn reads_address_resolution() {
    reads(&REQUEST, Ok(request()));
    reads(&REPLY, Ok(reply()));
}

#[test]
fn writes_address_resolution() {
    let mut padded = [0; 60];
    padded[..42].copy_from_slice(&REQUEST);
    assert!(written_request().as_slice() == padded.as_slice());
    padded[..42].copy_from_slice(&REPLY);
    assert!(written_reply().as_slice() == padded.as_slice());
}

/// A frame holds these octets at a place.
fn holds(frame: &Frame, place: usize, octets: &[u8]) {
    let rest = frame.as_slice().get(place..).unwrap_or(&[]);
    assert_eq!(rest.get(..octets.len()), Some(octets), "at {place}");
}

#[test]
fn writes_a_header_of_the_internet() {
    let body = [7; 100];
    let frame = written(None, &body);
    holds(&frame, 12, &[0x08, 0x00]);
    holds(&frame, 14, &HEADER);
    holds(&frame, 34, &[0x88, 0x94, 0xC0, 0x00, 0x00, 0x6C]);
    assert!(frame.as_slice().get(42..) == Some(body.as_slice()));
}

/// A datagram is read as it was written.
fn is_read_back(tag: Option<u16>, body: &[u8]) {
    let frame = written(tag, body);
    reads(frame.as_slice(), Ok(datagram(tag, body)));
}

#[test]
fn reads_what_it_writes() {
    let body = [7; 1472];
    for length in [0, 1, 2, 17, 18, 19, 100, 1471, 1472] {
        is_read_back(None, &body[..length]);
        is_read_back(Some(0xC000), &body[..length]);
    }
}

#[test]
fn sends_all_ones_for_no_checksum() {
    // The complement of the sum of this datagram is 0.
    let frame = written(None, &[0x35, 0xF1]);
    holds(&frame, 40, &[0xFF, 0xFF, 0x35, 0xF1]);
}

#[test]
fn reads_without_a_checksum() {
    let body = [0, 1, 2, 3, 4, 5, 6, 7, 8, 9];
    reads(&UNSUMMED, Ok(datagram(None, &body)));
    let mut octets = UNSUMMED;
    octets[41] = 1;
    reads(&octets, Err(FrameFault::UdpChecksum));
}

// A datagram with other flags and another fragment offset, each with the right checksum of its header. Only a whole one is read: neither
// 'more fragments' is set nor an offset.
#[test]
fn reads_no_fragment() {
    let with = |flags: [u8; 2], checksum: [u8; 2]| {
        let mut octets = UNSUMMED;
        octets[20..22].copy_from_slice(&flags);
        octets[24..26].copy_from_slice(&checksum);
        octets
    };
    let body = [0, 1, 2, 3, 4, 5, 6, 7, 8, 9];
    reads(&with([0x00, 0x00], [0xF9, 0x73]), Ok(datagram(None, &body)));
    for fragment in [
        with([0x20, 0x00], [0xD9, 0x73]),
        with([0x00, 0x01], [0xF9, 0x72]),
        with([0x40, 0x01], [0xB9, 0x72]),
    ] {
        reads(&fragment, Err(FrameFault::IpHeader));
    }
}

/// The sum of these octets is this one.
fn sums(octets: &[u8], sum: u16) {
    assert_eq!(ones_sum(octets), sum, "{octets:?}");
}

#[test]
fn sums_of_words() {
    sums(&[], 0);
    sums(&[0, 0, 0], 0);
    sums(&[1], 0x0100);
    sums(&[0xFF, 0xFF], 0xFFFF);
    sums(&[0xFF, 0xFF, 0, 1], 1);
    // The worked example of RFC 1071, section 3.
    let worked = [0x00, 0x01, 0xF2, 0x03, 0xF4, 0xF5, 0xF6, 0xF7];
    sums(&worked, 0xDDF2);
    sums(&HEADER, 0xFFFF);
}
