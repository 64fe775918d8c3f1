//! Pings, and calls that nobody serves. The octets are those of a reference model that shares no line with the product;
//! tshark reads each answer.

use super::concerns::{Kind, kind_of};
use super::{
    OTHERS, Role, STATION, STRANGERS, Services, answer_of, controller, device, octets, sent_from,
};

/// What is called, the call, and its answer.
pub const CALLS: [(&str, &str, &str); 6] = [
    (
        "a request of the controller's interface",
        "020000000001020000000002080045000080000040004011b919c0a80001c0a80002c0028894006ce1d60400200000000000dea000006c9711d18271000104560123dea000026c9711d1827100a02442df7d66666666777788889999aaaaaaaaaaaa0000000000000001000000030004ffffffff0014000000000000000000000000000000000000000000000000",
        "020000000002020000000001080045000070000040004011b929c0a80002c0a800018894c002005cddfc0406080000000000dea000006c9711d18271000104560123dea000026c9711d1827100a02442df7d66666666777788889999aaaaaaaaaaaa0000000000000001000000030004ffffffff0004000000001c010003",
    ),
    (
        "operation 6 of the device's interface",
        "020000000001020000000002080045000080000040004011b919c0a80001c0a80002c0028894006ce1d50400200000000000dea000006c9711d18271000104560123dea000016c9711d1827100a02442df7d66666666777788889999aaaaaaaaaaaa0000000000000001000000030006ffffffff0014000000000000000000000000000000000000000000000000",
        "020000000002020000000001080045000070000040004011b929c0a80002c0a800018894c002005cddfc0406080000000000dea000006c9711d18271000104560123dea000016c9711d1827100a02442df7d66666666777788889999aaaaaaaaaaaa0000000000000001000000030006ffffffff0004000000001c010002",
    ),
    (
        "a ping",
        "02000000000102000000000208004500006c000040004011b92dc0a80001c0a80002c00288940058e2160401200000000000dea000006c9711d18271000104560123dea000016c9711d1827100a02442df7d66666666777788889999aaaaaaaaaaaa0000000000000001000000030000ffffffff000000000000",
        "02000000000202000000000108004500006c000040004011b92dc0a80002c0a800018894c0020058fa120405080000000000dea000006c9711d18271000104560123dea000016c9711d1827100a02442df7d66666666777788889999aaaaaaaaaaaa0000000000000001000000030000ffffffff000000000000",
    ),
    (
        "the same interface, little endian",
        "020000000001020000000002080045000080000040004011b919c0a80001c0a80002c0028894006c5b4d04002000100000000000a0de976cd11182710001045601230200a0de976cd111827100a02442df7d66666666777788889999aaaaaaaaaaaa0000000001000000030000000400ffffffff1400000000000000000000000000000000000000000000000000",
        "020000000002020000000001080045000070000040004011b929c0a80002c0a800018894c002005c7f4b04060800100000000000a0de976cd11182710001045601230200a0de976cd111827100a02442df7d66666666777788889999aaaaaaaaaaaa0000000001000000030000000400ffffffff0400000000000300011c",
    ),
    (
        "the same operation, little endian",
        "020000000001020000000002080045000080000040004011b919c0a80001c0a80002c0028894006c5a4d04002000100000000000a0de976cd11182710001045601230100a0de976cd111827100a02442df7d66666666777788889999aaaaaaaaaaaa0000000001000000030000000600ffffffff1400000000000000000000000000000000000000000000000000",
        "020000000002020000000001080045000070000040004011b929c0a80002c0a800018894c002005c7f4b04060800100000000000a0de976cd11182710001045601230100a0de976cd111827100a02442df7d66666666777788889999aaaaaaaaaaaa0000000001000000030000000600ffffffff0400000000000200011c",
    ),
    (
        "a ping, little endian",
        "02000000000102000000000208004500006c000040004011b92dc0a80001c0a80002c00288940058747404012000100000000000a0de976cd11182710001045601230100a0de976cd111827100a02442df7d66666666777788889999aaaaaaaaaaaa0000000001000000030000000000ffffffff000000000000",
        "02000000000202000000000108004500006c000040004011b92dc0a80002c0a800018894c00200588c7004050800100000000000a0de976cd11182710001045601230100a0de976cd111827100a02442df7d66666666777788889999aaaaaaaaaaaa0000000001000000030000000000ffffffff000000000000",
    ),
];

/// A cancel, packet type 8, and a request that is a fragment.
const DROPPED: [(&str, &str); 2] = [
    (
        "a cancel",
        "02000000000102000000000208004500006c000040004011b92dc0a80001c0a80002c00288940058e20f0408200000000000dea000006c9711d18271000104560123dea000016c9711d1827100a02442df7d66666666777788889999aaaaaaaaaaaa0000000000000001000000030000ffffffff000000000000",
    ),
    (
        "a fragment",
        "020000000001020000000002080045000080000040004011b919c0a80001c0a80002c0028894006cfdda0400040000000000dea000006c9711d18271000104560123dea000026c9711d1827100a02442df7d66666666777788889999aaaaaaaaaaaa0000000000000001000000030000ffffffff0014000000000000000000000000000000000000000000000000",
    ),
];

#[test]
fn a_call_that_nobody_serves_is_answered() {
    for (what, call, answer) in CALLS {
        assert_eq!(
            answer_of(&mut device(), &octets(call)),
            Some(octets(answer)),
            "{what}"
        );
    }
}

#[test]
fn other_packets_are_dropped() {
    for (what, call) in DROPPED {
        assert_eq!(answer_of(&mut device(), &octets(call)), None, "{what}");
    }
}

/// Neither the rejections nor what depends on `concern` (the endpoint mapper, and calls in fragments) hear such a call.
#[test]
fn a_call_is_heard_only_if_another_station_may_have_sent_it() {
    for (what, call, _) in CALLS {
        for address in STRANGERS {
            let call = sent_from(octets(call), address);
            assert_eq!(
                answer_of(&mut device(), &call),
                None,
                "{what} of {address:?}"
            );
            assert_eq!(kind_of(&device(), &call), Kind::Nothing, "{what} of {address:?}");
        }
        for address in OTHERS {
            let call = sent_from(octets(call), address);
            let answer = answer_of(&mut device(), &call).expect("an answer");
            assert_eq!(answer[30..34], address, "{what}");
            assert_eq!(kind_of(&device(), &call), Kind::Call, "{what} of {address:?}");
        }
    }
}

/// The operations 0 to 5 of the device's interface are the device's own.
#[test]
fn a_call_that_the_device_serves_is_not_answered() {
    for operation in 0..=6 {
        let mut call = octets(CALLS[1].1);
        call[111] = operation;
        // A datagram without a checksum.
        call[40..42].fill(0);
        assert_eq!(
            answer_of(&mut device(), &call).is_some(),
            operation > 5,
            "{operation}"
        );
    }
}

/// A call without a checksum, with one octet changed.
fn with(place: usize, octet: u8) -> Vec<u8> {
    let mut call = octets(CALLS[0].1);
    call[40..42].fill(0);
    call[place] = octet;
    call
}

#[test]
fn a_call_that_is_not_read_is_dropped() {
    assert!(answer_of(&mut device(), &with(42, 4)).is_some());
    for (what, place, octet) in [
        ("version 5", 42, 5),
        ("packet type 2", 43, 2),
        ("the fragment flag", 44, 0x24),
        ("representation 2", 46, 0x20),
        ("a body that is not present", 117, 21),
        ("a fragment number", 119, 1),
        ("authentication", 120, 1),
    ] {
        assert_eq!(
            answer_of(&mut device(), &with(place, octet)),
            None,
            "{what}"
        );
    }
}

#[test]
fn a_call_to_another_station_or_port_is_dropped() {
    for (what, place, octet) in [("MAC address", 5, 3), ("port", 37, 0x95)] {
        assert_eq!(
            answer_of(&mut device(), &with(place, octet)),
            None,
            "{what}"
        );
    }
    let mut moved = Services::new(Role::Device, STATION, [192, 168, 0, 3]);
    assert_eq!(answer_of(&mut moved, &octets(CALLS[0].1)), None);
}

#[test]
fn a_controller_answers_none() {
    assert_eq!(answer_of(&mut controller(), &octets(CALLS[0].1)), None);
}
