//! What a station says of itself.

use super::{STATION, known, octets};
use lldp::{Heard, Link, Neighbours, announcement};
use pn_values::{Mac, StationName};

/// A station name.
fn name(text: &str) -> StationName {
    station_names::check(text.as_bytes()).expect("a station name")
}

#[test]
fn a_name_and_an_address() {
    let frame = announcement(STATION, &name("pump-1"), [192, 168, 0, 2], None);
    assert_eq!(
        frame.as_slice(),
        octets(
            "0180c200000e02000000000188cc02070770756d702d31040907706f72742d30303106020014fe08000ecf02\
             00000000fe0a000ecf05020000000001100c0501c0a800020200000001000000"
        )
    );
}

#[test]
fn neither_name_nor_address() {
    let frame = announcement(STATION, &StationName::none(), [0; 4], None);
    assert_eq!(
        frame.as_slice(),
        octets(
            "0180c200000e02000000000188cc020704020000000001040907706f72742d30303106020014fe08000ecf02\
             00000000fe0a000ecf050200000000010000"
        )
    );
}

/// The TLV of the link was composed by hand from IEEE 802.3, 79.3.1: autonegotiation supported and enabled, 100BASE-TX in full
/// duplex.
#[test]
fn a_link() {
    let link = Link {
        support: 3,
        capability: 0x6c00,
        mau_type: 16,
    };
    let with = announcement(STATION, &name("pump-1"), [192, 168, 0, 2], Some(link));
    let without = announcement(STATION, &name("pump-1"), [192, 168, 0, 2], None);
    let place = without.as_slice().len() - 16;
    assert_eq!(with.as_slice()[..place], without.as_slice()[..place]);
    assert_eq!(
        with.as_slice()[place..place + 11],
        octets("fe0900120f01036c000010")
    );
    assert_eq!(with.as_slice()[place + 11..], without.as_slice()[place..]);
}

/// Octets that Scapy built from the names of the fields (`tests/interoperation/scapy_fields.py`).
#[test]
fn as_scapy_names_it() {
    let named = |name: &str| {
        let lines = include_str!("../../interoperation/named.txt").lines();
        octets(lines.filter_map(|line| line.strip_prefix(name)?.strip_prefix(' ')).next().expect("is listed"))
    };
    let link = Link { support: 3, capability: 0x8036, mau_type: 16 };
    let station = Mac { octets: [2, 0, 0, 0, 0, 1] };
    let frame = announcement(station, &name("pump-1"), [192, 168, 0, 2], Some(link));
    assert_eq!(frame.as_slice(), named("ANNOUNCEMENT"));
    let frame = announcement(station, &StationName::none(), [0; 4], None);
    assert_eq!(frame.as_slice(), named("ANNOUNCEMENT_WITHOUT_A_NAME"));
}

/// The shortest frame of Ethernet has 60 octets without its check sequence.
#[test]
fn a_short_frame_is_padded() {
    let frame = announcement(STATION, &name("a"), [0; 4], None);
    assert_eq!(frame.as_slice().len(), 60);
    assert_eq!(frame.as_slice()[14..19], octets("0202076104")[..]);
    assert_eq!(frame.as_slice()[55..], [0; 5]);
}

/// Another station reads each announcement as it is meant.
#[test]
fn another_station_hears_it() {
    let long = format!("{}.{}", "a".repeat(63), "b".repeat(63));
    let longest = format!("{long}.{long}")[..240].to_string();
    for text in ["a", "pump-1", "pump-1.line-2", &long, &longest] {
        for address in [[0; 4], [10, 0, 0, 1]] {
            let frame = announcement(STATION, &name(text), address, None);
            let mut other = Neighbours::new(Mac {
                octets: [2, 0, 0, 0, 0, 9],
            });
            assert_eq!(other.hear(frame.as_slice()), Heard::Changed);
            assert_eq!(
                known(&other),
                Some((text.to_string(), "port-001".to_string(), STATION.octets))
            );
        }
    }
}

#[test]
fn the_station_does_not_hear_itself() {
    let frame = announcement(STATION, &name("pump-1"), [10, 0, 0, 1], None);
    let mut own = Neighbours::new(STATION);
    assert_eq!(own.hear(frame.as_slice()), Heard::Nothing);
    assert_eq!(known(&own), None);
}
