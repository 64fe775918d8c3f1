//! A call in fragments at a station: each but the last one is acknowledged, and the last one is answered by the device.

use super::passes::{body, connect, write};
use super::writer::{Packet, fragment};
use device_core::Note;
use device_station::{IoStation, StationOutbox};
use flash_model::MemoryFlash;
use frame_codec::{Bytes, Outbox, ones_sum};
use test_stations::{addressed, frame as heard};

/// The frame that takes the body of a datagram from 192.168.0.1 to the station.
fn frame(datagram: &[u8]) -> Bytes {
    frame_from([192, 168, 0, 1], datagram)
}

/// The same from another IP address.
fn frame_from(address: [u8; 4], datagram: &[u8]) -> Bytes {
    let length = u16::try_from(datagram.len()).expect("a length");
    let mut packet = vec![0x45, 0];
    packet.extend((length + 28).to_be_bytes());
    packet.extend([0, 0, 0x40, 0, 0x40, 0x11, 0, 0]);
    packet.extend(address);
    packet.extend([192, 168, 0, 2]);
    let sum = !ones_sum(&packet);
    packet[10..12].copy_from_slice(&sum.to_be_bytes());
    packet.extend([0xC0, 0x02, 0x88, 0x94]);
    packet.extend((length + 8).to_be_bytes());
    packet.extend([0, 0]);
    let mut bytes = Bytes::new();
    for part in [
        &[2, 0, 0, 0, 0, 1, 2, 0, 0, 0, 0, 2, 8, 0],
        packet.as_slice(),
        datagram,
    ] {
        bytes.try_extend_from_slice(part).expect("room");
    }
    bytes
}

/// Gives a station the fragments of a call, whose sender wants acknowledgements or not. All fragments but the last one may be known
/// already: then each acknowledgement says so. Returns the device's answer to the last one.
fn answered(
    station: &mut IoStation<MemoryFlash<768>, 768>,
    (sequence, operation): (u32, u16),
    whole: &[u8],
    wanted: bool,
    known: bool,
) -> Vec<u8> {
    let mut outbox = StationOutbox::new();
    let parts: Vec<&[u8]> = whole.chunks(1392).collect();
    for (number, part) in parts.iter().enumerate() {
        let last = number + 1 == parts.len();
        let number = u16::try_from(number).expect("a number");
        let piece = fragment(1, sequence, number, part, last);
        let flags = if wanted { piece.flags } else { piece.flags + 8 };
        let piece = Packet {
            operation,
            flags,
            ..piece
        };
        assert_eq!(
            station.step(&heard(&frame(&piece.octets())), &mut outbox),
            Note::Done
        );
        if last {
            assert!(outbox.services().is_empty());
        } else {
            assert!(outbox.device().is_empty());
            let facks: Vec<&[u8]> = outbox
                .services()
                .iter()
                .map(|fack| &fack.as_slice()[42..138])
                .collect();
            let joined = if known {
                parts.len() - 2
            } else {
                number.into()
            };
            let expected = piece.fack(u16::try_from(joined).expect("a number"));
            assert_eq!(
                facks,
                if wanted {
                    vec![expected.as_slice()]
                } else {
                    Vec::new()
                }
            );
        }
    }
    let [answer] = outbox.device() else {
        panic!("one answer");
    };
    answer.as_slice().to_vec()
}

#[test]
fn a_connect_of_64_modules_in_fragments_is_answered() {
    let mut station = IoStation::new(addressed().expect("a device"));
    let whole = body(&connect());
    let first = answered(&mut station, (1, 0), &whole, true, false);
    assert_eq!(first[122..126], [0; 4]);
    assert!(station.device().phase().is_some());
    // The same call again gets the same answer, and so does its last fragment alone.
    assert_eq!(answered(&mut station, (1, 0), &whole, true, true), first);
    let last = Packet {
        operation: 0,
        ..fragment(1, 1, 2, &whole[2784..], true)
    };
    let mut outbox = StationOutbox::new();
    assert_eq!(
        station.step(&heard(&frame(&last.octets())), &mut outbox),
        Note::Done
    );
    assert_eq!(outbox.device()[0].as_slice(), first);
}

#[test]
fn a_write_of_4068_octets_in_fragments_is_answered() {
    let mut station = IoStation::new(addressed().expect("a device"));
    answered(&mut station, (1, 0), &body(&connect()), false, false);
    let blocks = write();
    let first = answered(&mut station, (2, 3), &body(&blocks), false, false);
    // No record of this station is so long: IODWriteRes, and an error of Write.
    assert_eq!(first[122..124], [0xDF, 0x80]);
    assert_eq!(
        answered(&mut station, (2, 3), &body(&blocks), true, true),
        first
    );
}

/// The frames of the services in the last step, from the bodies of their datagrams on.
fn bodies(outbox: &StationOutbox) -> Vec<Vec<u8>> {
    assert!(outbox.device().is_empty());
    let frames = outbox.services().iter();
    frames.map(|frame| frame.as_slice()[42..].to_vec()).collect()
}

#[test]
fn an_unknown_operation_in_fragments_is_rejected_as_one_in_a_datagram() {
    for operation in [6, 0x0600, 0xFFFF] {
        for little in [false, true] {
            let piece = |number: u16, last: bool| Packet {
                operation,
                little,
                ..fragment(1, 7, number, &[1, 2, 3], last)
            };
            let mut station = IoStation::new(addressed().expect("a device"));
            let mut outbox = StationOutbox::new();
            let single = Packet {
                flags: 0x20,
                ..piece(0, false)
            };
            assert_eq!(
                station.step(&heard(&frame(&single.octets())), &mut outbox),
                Note::Done
            );
            let rejection = bodies(&outbox);
            let status: [u8; 4] = if little {
                [0x02, 0, 0x01, 0x1C]
            } else {
                [0x1C, 0x01, 0, 0x02]
            };
            assert_eq!(rejection[0][..3], [4, 6, 8]);
            assert_eq!(rejection[0][80..84], status);
            assert_eq!(
                station.step(&heard(&frame(&piece(0, false).octets())), &mut outbox),
                Note::Done
            );
            assert_eq!(bodies(&outbox), [piece(0, false).fack(0)]);
            // A repeat of the last fragment is rejected again.
            for _ in 0..2 {
                assert_eq!(
                    station.step(&heard(&frame(&piece(1, true).octets())), &mut outbox),
                    Note::Done
                );
                assert_eq!(bodies(&outbox), rejection);
            }
        }
    }
}

#[test]
fn a_fragment_that_is_neither_joined_nor_acknowledged_has_the_note_of_the_device() {
    let mut station = IoStation::new(addressed().expect("a device"));
    let mut outbox = StationOutbox::new();
    let quiet = |number: u16| Packet {
        flags: 0x2C,
        ..fragment(1, 7, number, &[1, 2, 3], false)
    };
    let mut note = |datagram: &[u8]| {
        let note = station.step(&heard(&frame(datagram)), &mut outbox);
        assert!(bodies(&outbox).len() <= 1);
        note
    };
    let alone = addressed()
        .expect("a device")
        .step(&heard(&frame(&quiet(1).octets())), &mut Outbox::new());
    assert_ne!(alone, Note::Done);
    // It has no call here.
    assert_eq!(note(&quiet(1).octets()), alone);
    // It is joined.
    assert_eq!(note(&quiet(0).octets()), Note::Done);
    // It came before, and its sender wants no acknowledgement.
    assert_eq!(note(&quiet(0).octets()), alone);
    // It comes too early.
    assert_eq!(note(&quiet(2).octets()), alone);
    // It came before, and is acknowledged.
    let loud = fragment(1, 7, 0, &[1, 2, 3], false);
    assert_eq!(note(&loud.octets()), Note::Done);
    // There is no room for it.
    for number in 1..3 {
        let large = Packet {
            body: vec![1; 1390],
            ..quiet(number)
        };
        assert_eq!(note(&large.octets()), Note::Done);
    }
    let large = Packet {
        body: vec![1; 1390],
        ..fragment(1, 7, 3, &[], false)
    };
    assert_eq!(note(&large.octets()), alone);
    assert_eq!(note(&large.octets()), alone);
}

#[test]
fn fragments_are_joined_only_if_another_station_may_have_sent_them() {
    let first = fragment(1, 7, 0, &[1, 2, 3], false).octets();
    for (address, facks) in [
        ([0, 0, 0, 0], 0),
        ([127, 0, 0, 1], 0),
        ([224, 0, 0, 1], 0),
        ([255, 255, 255, 255], 0),
        ([192, 168, 0, 2], 0),
        ([192, 168, 0, 3], 1),
    ] {
        let mut station = IoStation::new(addressed().expect("a device"));
        let mut outbox = StationOutbox::new();
        station.step(&heard(&frame_from(address, &first)), &mut outbox);
        assert_eq!(bodies(&outbox).len(), facks, "{address:?}");
    }
}
