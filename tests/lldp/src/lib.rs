//! Tests of the public calls of `lldp`. Frames come from a model of the station that shares no line with the product, or from
//! the standard (IEEE 802.1AB), unless the test says otherwise.
#![cfg(test)]

use lldp::{Heard, Neighbours};
use pn_values::Mac;

mod announced;
mod heard;
mod random;
mod reader;
mod times;

/// The station.
const STATION: Mac = Mac {
    octets: [0x02, 0x00, 0x00, 0x00, 0x00, 0x01],
};

/// The announcement of a switch, `sw-1` at `port-003`, for 20 seconds.
const SWITCH: &str = "0180c200000e0200000000aa88cc02050773772d31040907706f72742d303033060200140000";

/// The octets that these hexadecimal digits spell.
fn octets(digits: &str) -> Vec<u8> {
    assert_eq!(digits.len() % 2, 0, "two digits for each octet");
    (0..digits.len())
        .step_by(2)
        .map(|place| u8::from_str_radix(&digits[place..place + 2], 16).expect("a digit"))
        .collect()
}

/// The chassis, port and MAC address of the known neighbour, as texts.
fn known(neighbours: &Neighbours) -> Option<(String, String, [u8; 6])> {
    neighbours.neighbour().map(|neighbour| {
        let text = |octets: &[u8]| String::from_utf8(octets.to_vec()).expect("a text");
        (
            text(neighbour.chassis.as_slice()),
            text(neighbour.port.as_slice()),
            neighbour.mac.octets,
        )
    })
}

/// What a frame of these digits does to a station that knows no neighbour, and the neighbour after it.
fn after(digits: &str) -> (Heard, Option<(String, String, [u8; 6])>) {
    let mut neighbours = Neighbours::new(STATION);
    let heard = neighbours.hear(&octets(digits));
    (heard, known(&neighbours))
}
