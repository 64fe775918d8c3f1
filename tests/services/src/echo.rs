//! Echo requests and their replies (RFC 792).

use super::{
    ADDRESS, OTHERS, STATION, STRANGERS, answer_of, controller, device, octets, padded, sent_from,
};
use frame_codec::ones_sum;
use services::{Role, Services};

/// An echo request of eight octets of data, with identifier 0x1234 and sequence number 7.
const REQUEST: &str = "020000000001020000000002080045000024000100004001f984c0a80001c0a800020800542f123400076162636465666768";

/// Its reply.
const REPLY: &str = "020000000002020000000001080045000024000040004001b985c0a80002c0a8000100005c2f123400076162636465666768";

/// An echo request of one octet of data, but for its Ethernet addresses.
const SMALL: &str = "08004500001d000100004001f98bc0a80001c0a8000208007ffc0001000278";

/// The frame with one octet changed.
fn with(frame: &str, place: usize, octet: u8) -> Vec<u8> {
    let mut frame = octets(frame);
    frame[place] = octet;
    frame
}

#[test]
fn an_echo_request_is_answered() {
    assert_eq!(
        answer_of(&mut device(), &octets(REQUEST)),
        Some(padded(REPLY))
    );
    assert_eq!(
        answer_of(&mut controller(), &octets(REQUEST)),
        Some(padded(REPLY))
    );
}

#[test]
fn a_request_of_an_odd_number_of_octets_is_answered() {
    let request = "020000000001020000000002080045000023000100004001f985c0a80001c0a80002080054961234000861626364656667";
    let reply = "020000000002020000000001080045000023000040004001b986c0a80002c0a8000100005c961234000861626364656667";
    assert_eq!(
        answer_of(&mut device(), &octets(request)),
        Some(padded(reply))
    );
}

#[test]
fn a_request_without_data_in_a_tagged_frame_is_answered_by_an_untagged_one() {
    let request = "0200000000010200000000028100c00008004500001c000100004001f98cc0a80001c0a800020800f7fc00010002";
    let reply =
        "02000000000202000000000108004500001c000040004001b98dc0a80002c0a800010000fffc00010002";
    assert_eq!(
        answer_of(&mut device(), &octets(request)),
        Some(padded(reply))
    );
}

/// The longest frame: the reply has the same data, and its checksum fits.
#[test]
fn a_request_of_1472_octets_is_answered() {
    let mut request = octets("02000000000102000000000208004500");
    request.extend(octets(
        "05dc000040004001b3cdc0a80001c0a8000208000000aabb0001",
    ));
    request.extend((0..1472u32).map(|number| number as u8));
    let header = ones_sum(&request[14..34]);
    assert_eq!(header, 0xFFFF, "the header's checksum");
    let message = 0xFFFF - ones_sum(&request[34..]);
    request[36..38].copy_from_slice(&message.to_be_bytes());
    let reply = answer_of(&mut device(), &request).expect("an answer");
    assert_eq!(reply.len(), 1514);
    assert_eq!(
        reply[..24],
        octets("0200000000020200000000010800450005dc000040004001")
    );
    assert_eq!(reply[26..34], octets("c0a80002c0a80001"));
    assert_eq!(ones_sum(&reply[14..34]), 0xFFFF);
    assert_eq!(reply[34..36], [0, 0]);
    assert_eq!(ones_sum(&reply[34..]), 0xFFFF);
    assert_eq!(reply[38..], request[38..]);
}

#[test]
fn what_follows_the_total_length_is_ignored() {
    let mut request = octets(REQUEST);
    request.extend([0xA5; 11]);
    assert_eq!(answer_of(&mut device(), &request), Some(padded(REPLY)));
}

#[test]
fn a_wrong_checksum_is_not_answered() {
    // The header's checksum, the message's checksum, and an octet of the data.
    for (place, octet) in [(25, 0x85), (36, 0x55), (49, 0x69)] {
        assert_eq!(
            answer_of(&mut device(), &with(REQUEST, place, octet)),
            None,
            "octet {place}"
        );
    }
}

#[test]
fn a_request_is_answered_only_if_another_station_may_have_sent_it() {
    for address in STRANGERS {
        let request = sent_from(octets(REQUEST), address);
        assert_eq!(answer_of(&mut device(), &request), None, "{address:?}");
        assert_eq!(answer_of(&mut controller(), &request), None, "{address:?}");
    }
    for address in OTHERS {
        let request = sent_from(octets(REQUEST), address);
        let reply = answer_of(&mut device(), &request).expect("an answer");
        assert_eq!(reply[30..34], address);
        assert!(answer_of(&mut controller(), &request).is_some());
    }
}

#[test]
fn other_messages_are_not_answered() {
    for (what, message) in [
        (
            "timestamp",
            "020000000001020000000002080045000028000100004001f980c0a80001c0a800020d00f2f600010002000000010000000200000003",
        ),
        (
            "unreachable",
            "020000000001020000000002080045000024000100004001f984c0a80001c0a8000203032c28000000003132333435363738",
        ),
        (
            "code 1",
            "02000000000102000000000208004500001c000100004001f98cc0a80001c0a800020801f7fb00010002",
        ),
        (
            "reply",
            "02000000000102000000000208004500001d000100004001f98bc0a80001c0a80002000087fc0001000278",
        ),
        (
            "more fragments",
            "02000000000102000000000208004500001d000120004001d98bc0a80001c0a8000208007ffc0001000278",
        ),
        (
            "last fragment",
            "02000000000102000000000208004500001d000100014001f98ac0a80001c0a8000208007ffc0001000278",
        ),
        (
            "options",
            "020000000001020000000002080046000021000100004001f685c0a80001c0a800020101010108007ffc0001000278",
        ),
    ] {
        assert_eq!(answer_of(&mut device(), &octets(message)), None, "{what}");
    }
}

#[test]
fn a_frame_for_or_from_a_group_or_for_another_station_is_not_answered() {
    for addresses in [
        "ffffffffffff020000000002",
        "010ecf000000020000000002",
        "020000000003020000000002",
        "020000000001030000000002",
        "020000000001ffffffffffff",
    ] {
        let frame = octets(&format!("{addresses}{SMALL}"));
        assert_eq!(answer_of(&mut device(), &frame), None, "{addresses}");
    }
    assert!(
        answer_of(
            &mut device(),
            &octets(&format!("020000000001020000000002{SMALL}"))
        )
        .is_some()
    );
}

#[test]
fn another_address_is_not_answered() {
    for packet in [
        "08004500001d000100004001f98ac0a80001c0a8000308007ffc0001000278",
        "08004500001d000100004001ba36c0a80001ffffffff08007ffc0001000278",
        "08004500001d000100004001ba36c0a800010000000008007ffc0001000278",
    ] {
        let frame = octets(&format!("020000000001020000000002{packet}"));
        assert_eq!(answer_of(&mut device(), &frame), None, "{packet}");
    }
}

#[test]
fn a_station_without_an_address_answers_no_request_for_zeros() {
    let mut services = Services::new(Role::Device, STATION, [0; 4]);
    let frame = octets(
        "02000000000102000000000208004500001d000100004001ba36c0a800010000000008007ffc0001000278",
    );
    assert_eq!(answer_of(&mut services, &frame), None);
}

#[test]
fn each_prefix_of_a_request_is_dropped() {
    let request = octets(REQUEST);
    for length in 0..request.len() {
        assert_eq!(
            answer_of(&mut device(), &request[..length]),
            None,
            "{length} octets"
        );
    }
}

#[test]
fn a_frame_that_is_too_long_is_dropped() {
    let mut request = octets(REQUEST);
    request.resize(1514, 0);
    assert!(answer_of(&mut device(), &request).is_some());
    request.push(0);
    assert_eq!(answer_of(&mut device(), &request), None);
}

/// An echo request changes nothing: neither the count of conflicts nor what the next ticks send.
#[test]
fn a_request_changes_nothing() {
    let mut services = Services::new(Role::Device, STATION, ADDRESS);
    answer_of(&mut services, &octets(REQUEST));
    assert_eq!(services.conflicts(), 0);
    assert_eq!(super::sent_in(&mut services, 64_002), [1, 64_001]);
}
