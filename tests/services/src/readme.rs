//! The example of the README, as it is printed there: `ci/documents` compares them.

use super::stations::{PING, PINGED, SET_ADDRESS};
use super::octets;
use device_core::{Device, Event, Note, Octets};
use device_station::{IoStation, StationOutbox};
use flash_model::MemoryFlash;
use pn_values::{Identity, Real, demo_identity, demo_modules};

/// The host of the example, until its events end. It hands on the frames to be sent, and what its application learns.
fn host<'a>(
    identity: Identity,
    real: Real,
    flash: MemoryFlash<4096>,
    mut next_event: impl FnMut() -> Option<Event<'a>>,
    mut send: impl FnMut(&[u8]),
    mut act: impl FnMut(Note, Option<&[u8]>),
) {
    let Ok(device) = Device::boot(identity, real, flash) else {
        return;
    };
    let mut station = IoStation::new(device);
    let mut outbox = StationOutbox::new();
    while let Some(event) = next_event() {
        let note = station.step(&event, &mut outbox);
        for frame in outbox.device().iter().chain(outbox.services()) {
            send(frame.as_slice());
        }
        act(note, station.device().output(2, 1));
    }
}

#[test]
fn the_example_of_the_readme_sets_an_address_and_answers_a_ping() {
    let came = [octets(SET_ADDRESS), octets(PING)];
    let mut events = came.iter().map(|octets| Event::Frame(Octets::of(octets)));
    let (mut sent, mut notes) = (Vec::new(), Vec::new());
    host(
        demo_identity(),
        demo_modules(),
        MemoryFlash::blank(),
        || events.next(),
        |frame| sent.push(frame.to_vec()),
        |note, valve| notes.push((note == Note::Done, valve.map(<[u8]>::to_vec))),
    );
    // The answer to the Set, and the echo reply. The output of slot 2 is zeros, since no controller has given it a value.
    assert_eq!(sent.len(), 2);
    assert_eq!(sent[1], octets(PINGED));
    assert_eq!(notes, vec![(true, Some(vec![0, 0])); 2]);
}
