//! What of a frame concerns the services: each kind of frame, and what makes it concern nothing.

use super::calls::CALLS;
use super::stations::PING;
use super::{ADDRESS, RIVAL, STATION, answer_of, controller, device, octets};
use services::{Concern, Role, Services};

/// What kind of concern a frame is.
#[derive(Clone, Copy, Debug, PartialEq, Eq)]
pub enum Kind {
    Nothing,
    OtherType,
    Packet,
    Call,
    Echo,
}

/// What kind of concern a frame is to these services.
pub fn kind_of(services: &Services, frame: &[u8]) -> Kind {
    match services.concern(frame) {
        Concern::Nothing => Kind::Nothing,
        Concern::OtherType => Kind::OtherType,
        Concern::Packet { .. } => Kind::Packet,
        Concern::Call(_) => Kind::Call,
        Concern::Echo(_) => Kind::Echo,
    }
}

/// A message of LLDP, of a switch.
const LLDP: &str = "0180c200000e0200000000aa88cc02050773772d31040907706f72742d303033060200780000";

/// An Identify.
const IDENTIFY: &str = "010ecf0000000200000000028892fefe05000000000100010004ffff0000";

/// The frame with another octet at a place.
fn with(digits: &str, place: usize, octet: u8) -> Vec<u8> {
    let mut frame = octets(digits);
    frame[place] = octet;
    frame
}

/// The frame with a tag behind its addresses.
fn tagged(digits: &str) -> Vec<u8> {
    octets(&format!("{}8100c000{}", &digits[..24], &digits[24..]))
}

#[test]
fn each_kind_of_frame_has_its_concern() {
    for (what, digits, kind) in [
        ("an echo request", PING, Kind::Echo),
        ("a call", CALLS[0].1, Kind::Call),
        ("a packet of ARP", RIVAL, Kind::Packet),
        ("LLDP", LLDP, Kind::OtherType),
        ("an Identify", IDENTIFY, Kind::Nothing),
    ] {
        assert_eq!(kind_of(&device(), &octets(digits)), kind, "{what}");
        assert_eq!(kind_of(&device(), &tagged(digits)), kind, "{what}, tagged");
        // Neither a frame that is cut off in its header, nor one that is too long.
        assert_eq!(kind_of(&device(), &octets(digits)[..13]), Kind::Nothing, "{what}");
        let mut long = octets(digits);
        long.resize(1515, 0);
        assert_eq!(kind_of(&device(), &long), Kind::Nothing, "{what}, too long");
    }
    // A second tag, of any type.
    let twice = format!("{}8100c0008100c000{}", &LLDP[..24], &LLDP[24..]);
    assert_eq!(answer_of(&mut device(), &octets(&twice)), None);
}

#[test]
fn a_packet_that_is_not_for_the_station_concerns_nothing() {
    for (what, digits) in [("an echo request", PING), ("a call", CALLS[0].1)] {
        for (changed, place, octet) in [
            ("MAC address", 5, 3),
            ("group", 0, 3),
            ("IP address", 33, 3),
            ("checksum of the header", 24, 1),
            ("protocol", 23, 6),
            ("octet of the body", 45, 0xEE),
        ] {
            let frame = with(digits, place, octet);
            assert_eq!(kind_of(&device(), &frame), Kind::Nothing, "{what}: another {changed}");
            assert_eq!(answer_of(&mut device(), &frame), None, "{what}: another {changed}");
        }
    }
    let moved = Services::new(Role::Device, STATION, [192, 168, 0, 9]);
    assert_eq!(kind_of(&moved, &octets(PING)), Kind::Nothing);
    // A controller's answer no calls.
    assert_eq!(kind_of(&controller(), &octets(CALLS[0].1)), Kind::Nothing);
    assert_eq!(kind_of(&controller(), &octets(PING)), Kind::Echo);
}

/// Only a packet of ARP is a conflict. Its type is read before anything else.
#[test]
fn only_a_packet_of_arp_is_a_conflict() {
    for (digits, is_conflict) in [
        (RIVAL, true),
        (PING, false),
        (CALLS[0].1, false),
        (LLDP, false),
        (IDENTIFY, false),
    ] {
        let services = device();
        let frame = octets(digits);
        assert_eq!(services.disputes(&frame), is_conflict, "{digits}");
        assert_eq!(services.is_disputed(&services.concern(&frame)), is_conflict, "{digits}");
    }
    let other = Services::new(Role::Device, STATION, [ADDRESS[0], ADDRESS[1], ADDRESS[2], 9]);
    assert!(!other.disputes(&octets(RIVAL)));
    assert!(!device().disputes(&with(RIVAL, 13, 0)));
}
