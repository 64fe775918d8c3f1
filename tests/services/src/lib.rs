//! Tests of the services' public calls: echo, ARP, announcements, conflicts and calls. The octets of each frame are those
//! that Scapy 2.5 makes of its fields, unless the test says otherwise.
#![cfg(test)]

use frame_codec::{Outbox, ones_sum};
use pn_values::Mac;
use services::{Role, Services};

mod arp;
mod calls;
mod concerns;
mod echo;
mod mapper;
mod readme;
mod stations;
mod times;

/// The station.
const STATION: Mac = Mac {
    octets: [0x02, 0x00, 0x00, 0x00, 0x00, 0x01],
};

/// Its running IP address.
const ADDRESS: [u8; 4] = [192, 168, 0, 2];

/// IP addresses from which no request of another station comes: that of no station, the loopback, groups, reserved ones, all stations,
/// and the station's own.
const STRANGERS: [[u8; 4]; 11] = [
    [0, 0, 0, 0],
    [0, 0, 0, 1],
    [127, 0, 0, 1],
    [127, 255, 255, 255],
    [224, 0, 0, 1],
    [239, 255, 255, 255],
    [240, 0, 0, 1],
    [255, 255, 255, 254],
    [255, 255, 255, 255],
    [255, 0, 0, 0],
    ADDRESS,
];

/// IP addresses that another station may have.
const OTHERS: [[u8; 4]; 6] = [
    [1, 0, 0, 0],
    [126, 255, 255, 255],
    [128, 0, 0, 1],
    [192, 168, 0, 3],
    [10, 0, 0, 2],
    [223, 255, 255, 255],
];

/// The announcement of the address, padded to 60 octets.
const ANNOUNCEMENT: &str =
    "ffffffffffff02000000000108060001080006040001020000000001c0a80002000000000000c0a80002";

/// A reply of ARP by another station, to yet another one, that says that it holds the station's address.
const RIVAL: &str =
    "02000000004402000000003308060001080006040002020000000033c0a80002020000000002c0a80001";

/// The octets that these hexadecimal digits spell.
fn octets(digits: &str) -> Vec<u8> {
    assert_eq!(digits.len() % 2, 0, "two digits for each octet");
    (0..digits.len())
        .step_by(2)
        .map(|place| u8::from_str_radix(&digits[place..place + 2], 16).expect("a digit"))
        .collect()
}

/// A packet of IPv4 as this IP address sends it: with its checksum, and without that of UDP.
fn sent_from(mut frame: Vec<u8>, address: [u8; 4]) -> Vec<u8> {
    frame[26..30].copy_from_slice(&address);
    frame[24..26].fill(0);
    let sum = !ones_sum(&frame[14..34]);
    frame[24..26].copy_from_slice(&sum.to_be_bytes());
    if frame[23] == 17 {
        frame[40..42].fill(0);
    }
    frame
}

/// The octets, padded with zeros to 60.
fn padded(digits: &str) -> Vec<u8> {
    let mut frame = octets(digits);
    if frame.len() < 60 {
        frame.resize(60, 0);
    }
    frame
}

/// The services of a device with the address, after both of its announcements.
fn device() -> Services {
    settled(Role::Device)
}

/// The services of a controller with the address, after both of its announcements.
fn controller() -> Services {
    settled(Role::Controller)
}

/// The services with the address, after both of its announcements.
fn settled(role: Role) -> Services {
    let mut services = Services::new(role, STATION, ADDRESS);
    let mut outbox = Outbox::new();
    for _ in 0..64_001 {
        outbox.clear();
        services.tick(&mut outbox);
    }
    services
}

/// The answer to these octets.
fn answer_of(services: &mut Services, frame: &[u8]) -> Option<Vec<u8>> {
    services
        .hear(frame)
        .map(|answer| answer.as_slice().to_vec())
}

/// What a tick sends.
fn tick(services: &mut Services) -> Option<Vec<u8>> {
    let mut outbox = Outbox::new();
    services.tick(&mut outbox);
    assert!(outbox.len() <= 1, "at most one frame in a tick");
    outbox
        .as_slice()
        .first()
        .map(|frame| frame.as_slice().to_vec())
}

/// The ticks among this many in which the announcement is sent. Nothing else is.
fn sent_in(services: &mut Services, ticks: u32) -> Vec<u32> {
    let mut sent = Vec::new();
    for number in 1..=ticks {
        if let Some(frame) = tick(services) {
            assert_eq!(frame, padded(ANNOUNCEMENT));
            sent.push(number);
        }
    }
    sent
}
