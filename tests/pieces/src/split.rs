//! What is split, and joined again.

use super::writer::{DEVICE, Packet};
use super::{Did, body_of, calls, did};
use rpc_core::{Extent, Head, Names, Opening, Turn};
use rpc_services::{pieces_in, put_piece};
use rpc_core::Datagram;

/// A header of a call.
fn head() -> Head {
    Head {
        opening: Opening {
            packet_type: 0,
            flags: 0x20,
            representation: 0,
        },
        names: Names {
            object: [0xDE; 16],
            interface: DEVICE,
            activity: [1; 16],
        },
        turn: Turn {
            version: [0, 0, 0, 1],
            sequence: [0, 0, 0, 7],
            operation: 3,
        },
        extent: Extent {
            length: 0,
            fragment: 0,
            authentication: 0,
        },
    }
}

/// The same header by the other writer.
fn packet(flags: u8, number: u16, body: &[u8]) -> Packet {
    Packet {
        little: false,
        packet_type: 0,
        flags,
        serial: 0,
        interface: DEVICE,
        activity: 1,
        sequence: 7,
        operation: 3,
        number,
        body: body.to_vec(),
    }
}

/// The fragment of this number.
fn piece(wanted: bool, number: u16, body: &[u8]) -> Vec<u8> {
    let mut datagram = Datagram::new();
    put_piece(&head(), wanted, number, body, &mut datagram);
    datagram.as_slice().to_vec()
}

#[test]
fn a_body_has_so_many_fragments() {
    for (length, count) in [
        (1, 1),
        (1392, 1),
        (1393, 2),
        (2784, 2),
        (2785, 3),
        (4152, 3),
    ] {
        assert_eq!(pieces_in(length), count, "{length}");
    }
}

#[test]
fn fragments_are_written_octet_by_octet() {
    let body = body_of(4152);
    for (wanted, quiet) in [(true, 0), (false, 8)] {
        for (number, flags, part) in [
            (0, 0x24, &body[..1392]),
            (1, 0x24, &body[1392..2784]),
            (2, 0x26, &body[2784..]),
        ] {
            let expected = packet(flags + quiet, number, part).octets();
            assert_eq!(piece(wanted, number, &body), expected);
        }
    }
    assert_eq!(
        piece(true, 0, &body[..5]),
        packet(0x26, 0, &body[..5]).octets()
    );
}

#[test]
fn what_is_split_is_joined() {
    for length in [1, 1391, 1392, 1393, 2784, 2785, 4000, 4152] {
        let body = body_of(length);
        let count = u16::try_from(pieces_in(length)).expect("a number");
        for wanted in [true, false] {
            let mut joiner = calls();
            for number in 0..count - 1 {
                assert!(matches!(
                    did(&mut joiner, &piece(wanted, number, &body)),
                    Did::Waits(_)
                ));
                assert!(matches!(
                    did(&mut joiner, &piece(wanted, 0, &body)),
                    Did::Dropped(_)
                ));
            }
            let flags = if wanted { 0x20 } else { 0x28 };
            let whole = packet(flags, 0, &body).octets();
            assert_eq!(
                did(&mut joiner, &piece(wanted, count - 1, &body)),
                Did::Joined(whole)
            );
        }
    }
}
