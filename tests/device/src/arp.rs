//! Who holds the device's address.
use crate::Tried;
use device_core::Note;
use test_stations::{addressed, frame};

// The station 02-00-00-00-00-02 at 192.168.0.1 asks all stations who holds 192.168.0.2.
const REQUEST: [u8; 42] = *b"\xff\xff\xff\xff\xff\xff\x02\x00\x00\x00\x00\x02\x08\x06\
    \x00\x01\x08\x00\x06\x04\x00\x01\x02\x00\x00\x00\x00\x02\xc0\xa8\x00\x01\x00\x00\x00\x00\x00\x00\xc0\xa8\x00\x02";

// The device does.
const REPLY: [u8; 42] = *b"\x02\x00\x00\x00\x00\x02\x02\x00\x00\x00\x00\x01\x08\x06\
    \x00\x01\x08\x00\x06\x04\x00\x02\x02\x00\x00\x00\x00\x01\xc0\xa8\x00\x02\x02\x00\x00\x00\x00\x02\xc0\xa8\x00\x01";

#[test]
fn the_running_address_is_told() {
    let mut device = Tried::new(addressed());
    device.sends(&frame(&REQUEST), &REPLY);
}

#[test]
fn a_request_to_the_device_alone_is_answered() {
    let mut device = Tried::new(addressed());
    let mut request = REQUEST;
    request[..6].copy_from_slice(&[2, 0, 0, 0, 0, 1]);
    device.sends(&frame(&request), &REPLY);
}

#[test]
fn packets_that_are_not_answered() {
    let mut device = Tried::new(addressed());
    // for another address, a reply, and to another station
    for (place, octet) in [(41, 3), (21, 2), (5, 0xFEu8)] {
        let mut packet = REQUEST;
        if let Some(there) = packet.get_mut(place) {
            *there = octet;
        }
        device.sends_none(&frame(&packet), Note::NotMine);
    }
}

#[test]
fn without_an_address_none_is_told() {
    let mut device = Tried::blank();
    let mut zero = REQUEST;
    zero[38..].copy_from_slice(&[0; 4]);
    device.notes(&frame(&zero), Note::NotMine);
    device.notes(&frame(&REQUEST), Note::NotMine);
}
