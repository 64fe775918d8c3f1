//! Frames of each kind in which one number is another: 0, 1, its greatest, and those beside its own.

use super::numbers::{Order, mend, number_at, put};
use super::samples::{ARP, DATAGRAMS, TAGS, frame};
use super::stations::Trial;
use rattle_std::Vec;
use rattle_std::alloc::Global;

/// The place of a number, counted from the end of the Ethernet header, and how many octets it has.
type Field = (usize, usize);

/// Hardware, protocol, lengths, operation, target address.
const OF_ARP: [Field; 6] = [(0, 2), (2, 2), (4, 1), (5, 1), (6, 2), (24, 4)];

/// Of IPv4 version and header length, total length, flags and offset, protocol, checksum, destination; of UDP port, length,
/// checksum.
const OF_DATAGRAM: [Field; 9] = [
    (0, 1),
    (2, 2),
    (6, 2),
    (9, 1),
    (10, 2),
    (16, 4),
    (22, 2),
    (24, 2),
    (26, 2),
];

/// Of RPC version, packet type, flags, representation, interface (first and last), sequence number, operation, length,
/// fragment, authentication; ArgsMaximum, ArgsLength, MaximumCount, Offset, ActualCount.
const OF_CALL: [Field; 16] = [
    (28, 1),
    (29, 1),
    (30, 1),
    (32, 1),
    (52, 4),
    (67, 1),
    (92, 4),
    (96, 2),
    (102, 2),
    (104, 2),
    (106, 1),
    (108, 4),
    (112, 4),
    (116, 4),
    (120, 4),
    (124, 4),
];

/// Of the block BlockType, BlockLength, version, API, SlotNumber, SubslotNumber, Index, RecordDataLength.
const OF_BLOCK: [Field; 9] = [
    (128, 2),
    (130, 2),
    (132, 1),
    (133, 1),
    (152, 4),
    (156, 2),
    (158, 2),
    (162, 2),
    (164, 4),
];

/// A frame with this number at a place counted from the end of its Ethernet header.
fn bent(
    (good, head): (&Vec<u8>, usize),
    order: Order,
    (place, size): Field,
    number: u32,
) -> Vec<u8> {
    let mut octets = good.clone().unwrap();
    let packet = octets.as_mut_slice().get_mut(head..).expect("a packet");
    put(order, packet, place, size, number);
    octets
}

/// Makes the checksums of a frame's packet right.
fn mend_frame(octets: &mut Vec<u8>, head: usize) {
    mend(octets.as_mut_slice().get_mut(head..).expect("a packet"));
}

/// The number at a place of a frame, if the frame is so long.
fn own_of((good, head): (&Vec<u8>, usize), order: Order, (place, size): Field) -> Option<u32> {
    let packet = good.as_slice().get(head..)?;
    if packet.len() > place {
        Some(number_at(order, packet, place, size))
    } else {
        None
    }
}

/// Hands in a frame with other numbers at a place, with the checksums as they were and, of a packet, right again.
fn bend(
    trial: &mut Trial,
    frame: (&Vec<u8>, usize),
    order: Order,
    field: Field,
    has_checksums: bool,
) {
    let Some(own) = own_of(frame, order, field) else {
        return;
    };
    for number in [0, 1, u32::MAX, own.wrapping_sub(1), own.wrapping_add(1)] {
        let mut octets = bent(frame, order, field, number);
        trial.judge(octets.as_slice());
        if has_checksums {
            mend_frame(&mut octets, frame.1);
            trial.judge(octets.as_slice());
        }
    }
}

#[test]
fn bent_arp() {
    let alloc = Global;
    let mut trial = Trial::new(alloc);
    for tag in TAGS {
        let (good, head) = frame(alloc, ARP, tag);
        for field in OF_ARP {
            bend(&mut trial, (&good, head), Order::Big, field, false);
        }
    }
    trial.end()
}

/// Hands in a datagram with other numbers at each place.
fn bend_each(trial: &mut Trial, frame: (&Vec<u8>, usize), order: Order) {
    for field in OF_DATAGRAM {
        bend(trial, frame, Order::Big, field, true);
    }
    for field in OF_CALL {
        bend(trial, frame, order, field, true);
    }
    for field in OF_BLOCK {
        bend(trial, frame, Order::Big, field, true);
    }
}

#[test]
fn bent_datagrams() {
    let alloc = Global;
    let mut trial = Trial::new(alloc);
    for sample in &DATAGRAMS {
        for tag in TAGS {
            let (good, head) = frame(alloc, sample.hex, tag);
            bend_each(&mut trial, (&good, head), sample.order);
        }
    }
    trial.end()
}
