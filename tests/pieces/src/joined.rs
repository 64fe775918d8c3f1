//! What is joined.

use super::writer::{Packet, fragment};
use super::{Did, body_of, calls, did, octets};
use rpc_services::{Joiner, Kind};

/// The headers of three fragments of 1,392, 1,392 and 216 octets, that of the whole, and that of an acknowledgement, by Scapy: in
/// big endian, and in little endian.
const SCAPY: [[&str; 5]; 2] = [
    [
        "0400240000000000dea000006c9711d18271000104560123dea000016c9711d1827100a02442df7d66666666777788889999aaaaaaaaaaaa0000000000000001000000030000ffffffff057000000000",
        "0400240000000000dea000006c9711d18271000104560123dea000016c9711d1827100a02442df7d66666666777788889999aaaaaaaaaaaa0000000000000001000000030000ffffffff057000010000",
        "0400260000000000dea000006c9711d18271000104560123dea000016c9711d1827100a02442df7d66666666777788889999aaaaaaaaaaaa0000000000000001000000030000ffffffff00d800020000",
        "0400200000000000dea000006c9711d18271000104560123dea000016c9711d1827100a02442df7d66666666777788889999aaaaaaaaaaaa0000000000000001000000030000ffffffff0bb800000000",
        "0409080000000000dea000006c9711d18271000104560123dea000016c9711d1827100a02442df7d66666666777788889999aaaaaaaaaaaa0000000000000001000000030000ffffffff001000000000",
    ],
    [
        "04002400100000000000a0de976cd11182710001045601230100a0de976cd111827100a02442df7d66666666777788889999aaaaaaaaaaaa0000000001000000030000000000ffffffff700500000000",
        "04002400100000000000a0de976cd11182710001045601230100a0de976cd111827100a02442df7d66666666777788889999aaaaaaaaaaaa0000000001000000030000000000ffffffff700501000000",
        "04002600100000000000a0de976cd11182710001045601230100a0de976cd111827100a02442df7d66666666777788889999aaaaaaaaaaaa0000000001000000030000000000ffffffffd80002000000",
        "04002000100000000000a0de976cd11182710001045601230100a0de976cd111827100a02442df7d66666666777788889999aaaaaaaaaaaa0000000001000000030000000000ffffffffb80b00000000",
        "04090800100000000000a0de976cd11182710001045601230100a0de976cd111827100a02442df7d66666666777788889999aaaaaaaaaaaa0000000001000000030000000000ffffffff100000000000",
    ],
];

#[test]
fn fragments_of_scapy_are_joined() {
    let body = body_of(3000);
    let parts = [&body[..1392], &body[1392..2784], &body[2784..]];
    for headers in SCAPY {
        let mut joiner = calls();
        let part = |number: usize| [octets(headers[number]), parts[number].to_vec()].concat();
        for number in 0..2 {
            let Did::Waits(Some(fack)) = did(&mut joiner, &part(number)) else {
                panic!("fragment {number} is not acknowledged");
            };
            let mut header = octets(headers[4]);
            header[76] = if headers[0].starts_with("04002400000") {
                0
            } else {
                fack[76]
            };
            assert_eq!(fack.len(), 96);
            assert_eq!(fack[..76], header[..76]);
            assert_eq!(usize::from(fack[76]) + usize::from(fack[77]), number);
            // tshark reads such a body: version 0, a window of 4, datagrams and fragments of 1,472 octets, serial number 0, and no list.
            let body = if headers[0].starts_with("04002400000") {
                "00000004000005c0000005c000000000"
            } else {
                "00000400c0050000c005000000000000"
            };
            assert_eq!(fack[80..], octets(body));
        }
        let whole = [octets(headers[3]), body.clone()].concat();
        assert_eq!(did(&mut joiner, &part(2)), Did::Joined(whole));
    }
}

#[test]
fn fragments_come_in_any_order() {
    let body = body_of(30);
    let part = |number: usize| {
        let number_is = u16::try_from(number).expect("a number");
        fragment(
            1,
            7,
            number_is,
            &body[number * 10..number * 10 + 10],
            number == 2,
        )
    };
    let whole = Did::Joined(part(0).whole(&body));
    // Each row: what comes, and after which of them the whole is joined.
    for (order, joined) in [
        (vec![0, 1, 2], vec![2]),
        (vec![0, 0, 1, 1, 2, 2], vec![4, 5]),
        (vec![2, 1, 0, 2, 1, 2], vec![5]),
        (vec![1, 2, 0, 0, 1, 0, 2], vec![6]),
        (vec![0, 2, 1, 0, 1, 2], vec![5]),
        (vec![0, 1, 2, 0, 1, 2], vec![2, 5]),
        (vec![2, 2, 1, 1], vec![]),
        (vec![0, 2, 2], vec![]),
    ] {
        let mut joiner = calls();
        for (turn, number) in order.iter().enumerate() {
            let got = did(&mut joiner, &part(*number).octets());
            if joined.contains(&turn) {
                assert_eq!(got, whole, "{order:?} at {turn}");
            } else {
                assert!(
                    matches!(got, Did::Waits(_) | Did::Dropped(_)),
                    "{order:?} at {turn}"
                );
            }
        }
    }
}

#[test]
fn the_last_fragment_in_order_is_acknowledged() {
    let mut joiner = calls();
    let part = |number: u16| Packet {
        serial: 0x1234,
        ..fragment(1, 7, number, &[1, 2, 3], number == 3)
    };
    // A gap before anything came is not acknowledged: nothing is known of this call.
    assert_eq!(did(&mut joiner, &part(1).octets()), Did::Dropped(None));
    assert_eq!(
        did(&mut joiner, &part(0).octets()),
        Did::Waits(Some(part(0).fack(0)))
    );
    assert_eq!(
        did(&mut joiner, &part(2).octets()),
        Did::Dropped(Some(part(2).fack(0)))
    );
    assert_eq!(
        did(&mut joiner, &part(1).octets()),
        Did::Waits(Some(part(1).fack(1)))
    );
    assert_eq!(
        did(&mut joiner, &part(0).octets()),
        Did::Dropped(Some(part(0).fack(1)))
    );
    // A sender that wants none gets none.
    let quiet = Packet {
        flags: 0x2C,
        ..part(2)
    };
    assert_eq!(did(&mut joiner, &quiet.octets()), Did::Waits(None));
    // The last one is acknowledged by the answer.
    assert!(matches!(
        did(&mut joiner, &part(3).octets()),
        Did::Joined(_)
    ));
    // In little endian the acknowledgement is too.
    let little = Packet {
        little: true,
        ..fragment(9, 7, 0, &[1], false)
    };
    assert_eq!(
        did(&mut joiner, &little.octets()),
        Did::Waits(Some(little.fack(0)))
    );
}

#[test]
fn one_call_of_each_activity() {
    let mut joiner = calls();
    let part = |activity: u8, sequence: u32, number: u16| {
        fragment(
            activity,
            sequence,
            number,
            &[activity, number as u8],
            number == 1,
        )
    };
    for activity in 1..=4 {
        let first = part(activity, 1, 0);
        assert_eq!(
            did(&mut joiner, &first.octets()),
            Did::Waits(Some(first.fack(0)))
        );
        joiner.tick();
    }
    // A fragment of another sequence is not joined to it.
    assert_eq!(did(&mut joiner, &part(2, 2, 1).octets()), Did::Dropped(None));
    // Another sequence begins in the place of the first one.
    let second = part(2, 2, 0);
    assert_eq!(
        did(&mut joiner, &second.octets()),
        Did::Waits(Some(second.fack(0)))
    );
    assert_eq!(did(&mut joiner, &part(2, 1, 1).octets()), Did::Dropped(None));
    // A fifth activity takes the place of the one that began longest ago.
    let fifth = part(5, 1, 0);
    assert_eq!(
        did(&mut joiner, &fifth.octets()),
        Did::Waits(Some(fifth.fack(0)))
    );
    assert_eq!(did(&mut joiner, &part(1, 1, 1).octets()), Did::Dropped(None));
    for (activity, sequence) in [(2, 2), (3, 1), (4, 1), (5, 1)] {
        let whole = part(activity, sequence, 0).whole(&[activity, 0, activity, 1]);
        assert_eq!(
            did(&mut joiner, &part(activity, sequence, 1).octets()),
            Did::Joined(whole)
        );
    }
}

#[test]
fn a_whole_has_at_most_4152_octets() {
    for (length, joins) in [(4152, true), (4153, false)] {
        let body = body_of(length);
        let mut joiner = calls();
        let parts = [&body[..2000], &body[2000..4000], &body[4000..]];
        for (number, part) in parts.iter().enumerate() {
            let number = u16::try_from(number).expect("a number");
            let packet = fragment(1, 1, number, part, number == 2);
            let got = did(&mut joiner, &packet.octets());
            if number < 2 {
                assert_eq!(got, Did::Waits(Some(packet.fack(number))));
            } else if joins {
                assert_eq!(got, Did::Joined(packet.whole(&body)));
            } else {
                assert_eq!(got, Did::Dropped(None));
                // The call is given up: nothing of it is acknowledged any more, until it begins again.
                let before = fragment(1, 1, 1, parts[1], false);
                assert_eq!(did(&mut joiner, &before.octets()), Did::Dropped(None));
                let first = fragment(1, 1, 0, parts[0], false);
                assert_eq!(
                    did(&mut joiner, &first.octets()),
                    Did::Waits(Some(first.fack(0)))
                );
            }
        }
    }
}

#[test]
fn other_packets_are_no_fragments() {
    let good = fragment(1, 1, 0, &[1, 2, 3], false);
    assert_ne!(did(&mut calls(), &good.octets()), Did::Nothing);
    let mut other_version = good.octets();
    other_version[0] = 5;
    let mut authenticated = good.octets();
    authenticated[78] = 1;
    let mut unknown_order = good.octets();
    unknown_order[4] = 0x20;
    let short = good.octets();
    let mut interface = good.clone();
    interface.interface[3] = 2;
    for (packet, why) in [
        (
            Packet {
                flags: 0x20,
                ..good.clone()
            }
            .octets(),
            "no fragment",
        ),
        (
            Packet {
                flags: 0x22,
                ..good.clone()
            }
            .octets(),
            "the last one of no fragments",
        ),
        (
            Packet {
                packet_type: 2,
                ..good.clone()
            }
            .octets(),
            "an answer",
        ),
        (
            Packet {
                packet_type: 1,
                ..good.clone()
            }
            .octets(),
            "a ping",
        ),
        (
            Packet {
                body: Vec::new(),
                ..good.clone()
            }
            .octets(),
            "an empty one",
        ),
        (interface.octets(), "the controller's interface"),
        (other_version, "another version"),
        (authenticated, "authentication"),
        (unknown_order, "an unknown byte order"),
        (short[..82].to_vec(), "a body that is missing"),
        (short[..79].to_vec(), "a header that is missing"),
        (Vec::new(), "nothing"),
    ] {
        assert_eq!(did(&mut calls(), &packet), Did::Nothing, "{why}");
    }
    // What follows the length is ignored.
    let more = [good.octets(), vec![9, 9]].concat();
    assert_eq!(did(&mut calls(), &more), Did::Waits(Some(good.fack(0))));
}

#[test]
fn answers_are_joined_at_a_controller() {
    let mut joiner = Joiner::new(Kind::Answers);
    let call = fragment(1, 1, 0, &[1], true);
    assert_eq!(did(&mut joiner, &call.octets()), Did::Nothing);
    let mut first = Packet {
        packet_type: 2,
        flags: 0x0C,
        ..fragment(1, 1, 0, &[1, 2], false)
    };
    first.interface[3] = 2;
    let last = Packet {
        flags: 0x0E,
        number: 1,
        body: vec![3],
        ..first.clone()
    };
    assert_eq!(did(&mut joiner, &first.octets()), Did::Waits(None));
    assert_eq!(
        did(&mut joiner, &last.octets()),
        Did::Joined(first.whole(&[1, 2, 3]))
    );
}

#[test]
fn one_fragment_may_be_a_whole() {
    let only = fragment(1, 1, 0, &[1, 2, 3], true);
    assert_eq!(
        did(&mut calls(), &only.octets()),
        Did::Joined(only.whole(&[1, 2, 3]))
    );
}
