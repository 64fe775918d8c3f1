//! What frames are by the RFCs, computed from the places of their fields, against what is read of them.

use frame_codec::{Arp, ArpOperation, Endpoint, FrameFault, Holder, Layered, Payload, Udp, read};
use pn_values::Mac;

/// The octet at a place, and 0 past the end.
fn octet(frame: &[u8], place: usize) -> u8 {
    frame.get(place).copied().unwrap_or(0)
}

/// The word of two octets at a place.
fn word(frame: &[u8], place: usize) -> u16 {
    u16::from_be_bytes([octet(frame, place), octet(frame, place + 1)])
}

/// The Ethernet address at a place.
fn mac(frame: &[u8], place: usize) -> Mac {
    Mac {
        octets: [
            octet(frame, place),
            octet(frame, place + 1),
            octet(frame, place + 2),
            octet(frame, place + 3),
            octet(frame, place + 4),
            octet(frame, place + 5),
        ],
    }
}

/// The IPv4 address at a place.
fn address(frame: &[u8], place: usize) -> [u8; 4] {
    [
        octet(frame, place),
        octet(frame, place + 1),
        octet(frame, place + 2),
        octet(frame, place + 3),
    ]
}

/// Whether these words and those of the octets from one place to another make a multiple of 65,535 (RFC 1071).
fn is_all_ones(words: u64, frame: &[u8], start: usize, end: usize) -> bool {
    let mut sum = words;
    let mut is_high = true;
    for place in start..end {
        let octet = octet(frame, place) as u64;
        sum = sum.wrapping_add(if is_high { 256 * octet } else { octet });
        is_high = !is_high;
    }
    sum % 65535 == 0
}

/// A packet of ARP (RFC 826) from this place on.
fn reckoned_arp(frame: &[u8], start: usize) -> Result<Payload<'_>, FrameFault> {
    let is_whole = frame.len() >= start + 28;
    let is_of_ethernet = word(frame, start) == 1 && word(frame, start + 2) == 0x0800;
    let are_lengths_right = octet(frame, start + 4) == 6 && octet(frame, start + 5) == 4;
    let operation = match word(frame, start + 6) {
        1 => ArpOperation::Request,
        2 => ArpOperation::Reply,
        _ => return Err(FrameFault::Arp),
    };
    if !(is_whole && is_of_ethernet && are_lengths_right) {
        return Err(FrameFault::Arp);
    }
    Ok(Payload::Arp(Arp {
        operation,
        sender: Holder {
            mac: mac(frame, start + 8),
            address: address(frame, start + 14),
        },
        target: Holder {
            mac: mac(frame, start + 18),
            address: address(frame, start + 24),
        },
    }))
}

/// A packet of IPv4 (RFC 791) with a datagram of UDP (RFC 768) from this place on.
fn reckoned_datagram(frame: &[u8], start: usize) -> Result<Payload<'_>, FrameFault> {
    let total = word(frame, start + 2) as usize;
    let is_header = frame.len() >= start + 20 && octet(frame, start) == 0x45;
    let is_total_right = total >= 28 && start + total <= frame.len();
    let is_fragment = word(frame, start + 6) & 0x3FFF != 0;
    if !is_header || !is_total_right || is_fragment || octet(frame, start + 9) != 17 {
        return Err(FrameFault::IpHeader);
    }
    if !is_all_ones(0, frame, start, start + 20) {
        return Err(FrameFault::IpChecksum);
    }
    let size = word(frame, start + 24) as usize;
    if size < 8 || size + 20 > total {
        return Err(FrameFault::UdpLength);
    }
    // The addresses stand in front of the datagram, and are of the pseudo header as they stand.
    let rest_of_pseudo = 17 + size as u64;
    if word(frame, start + 26) != 0
        && !is_all_ones(rest_of_pseudo, frame, start + 12, start + 20 + size)
    {
        return Err(FrameFault::UdpChecksum);
    }
    Ok(Payload::Udp(Udp {
        source: Endpoint {
            address: address(frame, start + 12),
            port: word(frame, start + 20),
        },
        destination: Endpoint {
            address: address(frame, start + 16),
            port: word(frame, start + 22),
        },
        body: frame.get(start + 28..start + 20 + size).unwrap_or(&[]),
    }))
}

/// What a frame is, or its first fault, the outermost layer first.
fn reckoned(frame: &[u8]) -> Result<Layered<'_>, FrameFault> {
    let is_tagged = frame.len() >= 14 && word(frame, 12) == 0x8100;
    let start = if is_tagged { 18 } else { 14 };
    if frame.len() < start {
        return Err(FrameFault::TooShort);
    }
    if frame.len() > 1500 + start {
        return Err(FrameFault::TooLong);
    }
    let payload = match word(frame, start - 2) {
        0x8100 => return Err(FrameFault::Tag),
        0x8892 if frame.len() < start + 2 => return Err(FrameFault::TooShort),
        0x8892 => Payload::RealTime {
            frame_id: word(frame, start),
            body: frame.get(start + 2..).unwrap_or(&[]),
        },
        0x0806 => reckoned_arp(frame, start)?,
        0x0800 => reckoned_datagram(frame, start)?,
        _ => return Err(FrameFault::EtherType),
    };
    Ok(Layered {
        destination: mac(frame, 0),
        source: mac(frame, 6),
        tag: is_tagged.then_some(word(frame, 14)),
        payload,
    })
}

/// A frame of up to 64 octets.
struct Sample {
    octets: [u8; 64],
    length: usize,
}

/// A packet of ARP that asks, not padded.
const ASKS: Sample = Sample {
    octets: [
        0xFF, 0xFF, 0xFF, 0xFF, 0xFF, 0xFF, 0x02, 0x00, 0x00, 0x00, 0x00, 0x02, 0x08, 0x06, 0x00,
        0x01, 0x08, 0x00, 0x06, 0x04, 0x00, 0x01, 0x02, 0x00, 0x00, 0x00, 0x00, 0x02, 0xC0, 0xA8,
        0x00, 0x01, 0x00, 0x00, 0x00, 0x00, 0x00, 0x00, 0xC0, 0xA8, 0x00, 0x02, 0x00, 0x00, 0x00,
        0x00, 0x00, 0x00, 0x00, 0x00, 0x00, 0x00, 0x00, 0x00, 0x00, 0x00, 0x00, 0x00, 0x00, 0x00,
        0x00, 0x00, 0x00, 0x00,
    ],
    length: 42,
};

/// A datagram of five octets, and three octets after its packet.
const PLAIN: Sample = Sample {
    octets: [
        0x02, 0x00, 0x00, 0x00, 0x00, 0x02, 0x02, 0x00, 0x00, 0x00, 0x00, 0x01, 0x08, 0x00, 0x45,
        0x00, 0x00, 0x21, 0x00, 0x00, 0x40, 0x00, 0x40, 0x11, 0xB9, 0x78, 0xC0, 0xA8, 0x00, 0x02,
        0xC0, 0xA8, 0x00, 0x01, 0x88, 0x94, 0xC0, 0x00, 0x00, 0x0D, 0x2C, 0xE5, 0x01, 0x02, 0x03,
        0x04, 0x05, 0xAA, 0xBB, 0xCC, 0x00, 0x00, 0x00, 0x00, 0x00, 0x00, 0x00, 0x00, 0x00, 0x00,
        0x00, 0x00, 0x00, 0x00,
    ],
    length: 50,
};

/// A datagram of six octets after a tag.
const TAGGED: Sample = Sample {
    octets: [
        0x02, 0x00, 0x00, 0x00, 0x00, 0x02, 0x02, 0x00, 0x00, 0x00, 0x00, 0x01, 0x81, 0x00, 0xC0,
        0x00, 0x08, 0x00, 0x45, 0x00, 0x00, 0x22, 0x00, 0x00, 0x40, 0x00, 0x40, 0x11, 0xB9, 0x77,
        0xC0, 0xA8, 0x00, 0x02, 0xC0, 0xA8, 0x00, 0x01, 0x88, 0x94, 0xC0, 0x00, 0x00, 0x0E, 0x20,
        0xD7, 0x09, 0x08, 0x07, 0x06, 0x05, 0x04, 0x00, 0x00, 0x00, 0x00, 0x00, 0x00, 0x00, 0x00,
        0x00, 0x00, 0x00, 0x00,
    ],
    length: 52,
};

/// A datagram of ten octets that has no checksum.
const UNSUMMED: Sample = Sample {
    octets: [
        0x02, 0x00, 0x00, 0x00, 0x00, 0x02, 0x02, 0x00, 0x00, 0x00, 0x00, 0x01, 0x08, 0x00, 0x45,
        0x00, 0x00, 0x26, 0x00, 0x00, 0x40, 0x00, 0x40, 0x11, 0xB9, 0x73, 0xC0, 0xA8, 0x00, 0x02,
        0xC0, 0xA8, 0x00, 0x01, 0x88, 0x94, 0xC0, 0x00, 0x00, 0x12, 0x00, 0x00, 0x00, 0x01, 0x02,
        0x03, 0x04, 0x05, 0x06, 0x07, 0x08, 0x09, 0x00, 0x00, 0x00, 0x00, 0x00, 0x00, 0x00, 0x00,
        0x00, 0x00, 0x00, 0x00,
    ],
    length: 52,
};

/// A DCP Identify request after a tag.
const REAL_TIME: Sample = Sample {
    octets: [
        0x01, 0x0E, 0xCF, 0x00, 0x00, 0x00, 0x02, 0x00, 0x00, 0x00, 0x00, 0x02, 0x81, 0x00, 0x00,
        0x00, 0x88, 0x92, 0xFE, 0xFE, 0x05, 0x00, 0x00, 0x00, 0x00, 0x01, 0x00, 0x01, 0x00, 0x04,
        0xFF, 0xFF, 0x00, 0x00, 0x00, 0x00, 0x00, 0x00, 0x00, 0x00, 0x00, 0x00, 0x00, 0x00, 0x00,
        0x00, 0x00, 0x00, 0x00, 0x00, 0x00, 0x00, 0x00, 0x00, 0x00, 0x00, 0x00, 0x00, 0x00, 0x00,
        0x00, 0x00, 0x00, 0x00,
    ],
    length: 34,
};

/// Whether a frame is read as computed.
fn is_read(frame: &[u8]) -> bool {
    read(frame) == reckoned(frame)
}

/// What a word is set to in turn: 0, 1, its greatest, and what is beside its own value.
fn others(own: u16) -> [u16; 11] {
    [
        0,
        1,
        0xFFFF,
        own.wrapping_add(1),
        own.wrapping_sub(1),
        own & 0x00FF,
        own & 0x00FF | 0x0100,
        own | 0xFF00,
        own.wrapping_add(0x0100),
        own.wrapping_sub(0x0100),
        own & 0xFF00,
    ]
}

/// Whether a frame with another word at a place is read as computed. If `sealed` says so, its IPv4 header gets the right
/// checksum.
fn is_read_with(sample: &Sample, sealed: Option<usize>, place: usize, value: u16) -> bool {
    let mut octets = sample.octets;
    let [high, low] = value.to_be_bytes();
    octets[place] = high;
    octets[place + 1] = low;
    if let Some(start) = sealed {
        seal(&mut octets, start);
    }
    is_read(octets.get(..sample.length).unwrap_or(&[]))
}

/// The first place at which a changed frame is not read as computed: each octet and each word in turn.
fn first_misread(sample: &Sample, sealed: Option<usize>) -> Option<usize> {
    for place in 0..63 {
        let own = u16::from_be_bytes([sample.octets[place], sample.octets[place + 1]]);
        for value in others(own) {
            if !is_read_with(sample, sealed, place, value) {
                return Some(place);
            }
        }
    }
    None
}

/// Puts the checksum of a header of IPv4 that begins at this place.
fn seal(octets: &mut [u8; 64], start: usize) {
    if start > 20 {
        return;
    }
    octets[start + 10] = 0;
    octets[start + 11] = 0;
    let mut sum = 0u64;
    for pair in 0..10 {
        let place = start + 2 * pair;
        sum = sum.wrapping_add(u16::from_be_bytes([octets[place], octets[place + 1]]) as u64);
    }
    let checksum = 0xFFFF - (sum % 0xFFFF) as u16;
    let [high, low] = checksum.to_be_bytes();
    octets[start + 10] = high;
    octets[start + 11] = low;
}

/// The first length at which a prefix of a frame is not read as computed.
fn first_miscut(sample: &Sample) -> Option<usize> {
    (0..65).find(|length| !is_read(sample.octets.get(..*length).unwrap_or(&[])))
}

#[test]
fn samples_are_read() {
    for sample in &[ASKS, PLAIN, TAGGED, UNSUMMED, REAL_TIME] {
        let frame = sample.octets.get(..sample.length).unwrap_or(&[]);
        assert!(read(frame).is_ok());
    }
}

#[test]
fn cut_frames() {
    for sample in &[ASKS, PLAIN, TAGGED, UNSUMMED, REAL_TIME] {
        assert_eq!(first_miscut(sample), None);
    }
}

#[test]
fn changed_packets_of_arp() {
    assert_eq!(first_misread(&ASKS, None), None);
}

#[test]
fn changed_datagrams() {
    assert_eq!(first_misread(&PLAIN, None), None);
    assert_eq!(first_misread(&TAGGED, None), None);
    assert_eq!(first_misread(&UNSUMMED, None), None);
}

#[test]
fn changed_datagrams_under_a_right_header() {
    assert_eq!(first_misread(&PLAIN, Some(14)), None);
    assert_eq!(first_misread(&TAGGED, Some(18)), None);
    assert_eq!(first_misread(&UNSUMMED, Some(14)), None);
}

#[test]
fn changed_frames_of_real_time() {
    assert_eq!(first_misread(&REAL_TIME, None), None);
}
