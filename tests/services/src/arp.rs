//! Requests of ARP (RFC 826) and conflicts (RFC 5227).

use super::{RIVAL, STATION, answer_of, controller, device, octets, padded, sent_in};
use services::{Role, Services};

/// Who has the station's address? Another station asks all.
const REQUEST: &str =
    "ffffffffffff02000000000208060001080006040001020000000002c0a80001000000000000c0a80002";

/// The reply to it.
const REPLY: &str =
    "02000000000202000000000108060001080006040002020000000001c0a80002020000000002c0a80001";

#[test]
fn a_controller_answers_who_has_its_address() {
    assert_eq!(
        answer_of(&mut controller(), &octets(REQUEST)),
        Some(padded(REPLY))
    );
}

#[test]
fn it_answers_a_request_to_its_own_address() {
    let request = REQUEST.replacen("ffffffffffff", "020000000001", 1);
    assert_eq!(
        answer_of(&mut controller(), &octets(&request)),
        Some(padded(REPLY))
    );
}

#[test]
fn it_answers_a_probe() {
    let probe =
        "ffffffffffff0200000000020806000108000604000102000000000200000000000000000000c0a80002";
    let reply =
        "02000000000202000000000108060001080006040002020000000001c0a8000202000000000200000000";
    let mut services = controller();
    assert_eq!(
        answer_of(&mut services, &octets(probe)),
        Some(padded(reply))
    );
    assert_eq!(services.conflicts(), 0);
}

#[test]
fn a_device_answers_by_itself() {
    assert_eq!(answer_of(&mut device(), &octets(REQUEST)), None);
}

#[test]
fn other_packets_are_not_answered() {
    for (what, packet) in [
        (
            "another address",
            "ffffffffffff02000000000208060001080006040001020000000002c0a80001000000000000c0a80003",
        ),
        (
            "to another station",
            "02000000000302000000000208060001080006040001020000000002c0a80001000000000000c0a80002",
        ),
        (
            "to a group",
            "01005e00000102000000000208060001080006040001020000000002c0a80001000000000000c0a80002",
        ),
        (
            "a reply",
            "02000000000102000000000208060001080006040002020000000002c0a80001020000000001c0a80002",
        ),
    ] {
        let mut services = controller();
        assert_eq!(answer_of(&mut services, &octets(packet)), None, "{what}");
        assert_eq!(services.conflicts(), 0, "{what}");
    }
}

#[test]
fn a_controller_without_an_address_answers_none() {
    let mut services = Services::new(Role::Controller, STATION, [0; 4]);
    let request =
        "ffffffffffff02000000000208060001080006040001020000000002c0a8000100000000000000000000";
    assert_eq!(answer_of(&mut services, &octets(request)), None);
}

/// A conflict counts whatever the destination of its frame: here another station, all stations, and a group.
#[test]
fn a_conflict_is_counted() {
    for destination in [
        "020000000044",
        "ffffffffffff",
        "01005e000001",
        "020000000001",
    ] {
        let mut services = device();
        let packet = RIVAL.replacen("020000000044", destination, 1);
        assert_eq!(
            answer_of(&mut services, &octets(&packet)),
            None,
            "{destination}"
        );
        assert_eq!(services.conflicts(), 1, "{destination}");
    }
}

#[test]
fn a_controller_answers_a_rival_that_asks_and_counts_it() {
    let rival =
        "ffffffffffff02000000003308060001080006040001020000000033c0a80002000000000000c0a80002";
    let reply =
        "02000000003302000000000108060001080006040002020000000001c0a80002020000000033c0a80002";
    let mut services = controller();
    assert_eq!(
        answer_of(&mut services, &octets(rival)),
        Some(padded(reply))
    );
    assert_eq!(services.conflicts(), 1);
    assert_eq!(sent_in(&mut services, 3), [1]);
}

/// A station's own announcement that comes back is no conflict, and another station's probe of zeros is none.
#[test]
fn a_packet_of_the_station_itself_is_no_conflict() {
    let mut services = device();
    services.hear(&octets(super::ANNOUNCEMENT));
    assert_eq!(services.conflicts(), 0);
    assert_eq!(sent_in(&mut services, 3), []);
    let mut services = Services::new(Role::Device, STATION, [0; 4]);
    services.hear(&octets(
        "ffffffffffff0200000000020806000108000604000102000000000200000000000000000000c0a80002",
    ));
    assert_eq!(services.conflicts(), 0);
}

#[test]
fn a_packet_that_cannot_be_read_is_no_conflict() {
    let rival = octets(RIVAL);
    for length in 0..rival.len() {
        let mut services = device();
        assert_eq!(answer_of(&mut services, &rival[..length]), None);
        assert_eq!(services.conflicts(), 0, "{length} octets");
    }
}
