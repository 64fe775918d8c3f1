//! A call in fragments at a device: joined, and handed to it as one call.

use super::passes::{body, connect, joined};
use device_core::{Caller, Event, Note, Octets};
use frame_codec::{Endpoint, Outbox};
use pn_values::Mac;
use test_stations::{addressed, step};

const CALLER: Caller = Caller {
    mac: Mac {
        octets: [2, 0, 0, 0, 0, 2],
    },
    endpoint: Endpoint {
        address: [192, 168, 0, 1],
        port: 0xC002,
    },
};

/// The event of a joined call.
fn event(octets: &[u8]) -> Event<'_> {
    Event::Call(CALLER, [192, 168, 0, 2], Octets::of(octets))
}

#[test]
fn a_connect_of_64_modules_is_accepted() {
    let mut device = addressed().expect("a station");
    let mut outbox = Outbox::new();
    let whole = joined(0, &body(&connect()), 1392);
    assert_eq!(step(&mut device, &event(&whole), &mut outbox), Note::Done);
    let [answer] = outbox.as_slice() else {
        panic!("one answer");
    };
    let answer = answer.as_slice().to_vec();
    // PNIOStatus is 0, and the relation exists.
    assert_eq!(answer[122..126], [0; 4]);
    assert!(device.phase().is_some());
    // A repeat gets the same answer.
    assert_eq!(
        step(&mut device, &event(&whole), &mut outbox),
        Note::Done
    );
    assert_eq!(outbox.as_slice()[0].as_slice(), answer.as_slice());
    // To another address it is not the device's.
    let elsewhere = Event::Call(CALLER, [192, 168, 0, 3], Octets::of(&whole));
    assert_eq!(step(&mut device, &elsewhere, &mut outbox), Note::NotMine);
    assert!(outbox.as_slice().is_empty());
}
