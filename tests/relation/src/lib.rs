//! Tests of a relation at the device: how it is made, given its records, made ready and ended, and what it exchanges.
//!
//! What no contract says: octets that other programs know. What the tests share is here and in the modules below, mostly without
//! contracts, so that what a station promises is read in one function each, and not again in each test.
#![cfg(test)]

use device_core::{Event, Note};
use frame_codec::{Bytes, Outbox};
use relations::Phase;
use test_stations::{Station, frame, is_padded, step};

mod connects;
mod exchange;
mod listings;
mod log;
mod options;
mod readiness;
mod records;
mod relation;
mod requests;
mod several;
mod statuses;

/// A station that is tried, and what it sent last.
struct Tried {
    station: Station,
    last: Outbox,
}

impl Tried {
    /// A station that started.
    fn new(station: Option<Station>) -> Tried {
        let station = station.expect("starts");
        Tried {
            station,
            last: Outbox::new(),
        }
    }

    /// This becomes of an event.
    fn notes(&mut self, event: &Event<'_>, note: Note) {
        assert_eq!(step(&mut self.station, event, &mut self.last), note);
    }

    /// An event is accepted, and one frame is sent: these octets, filled up.
    fn sends(&mut self, event: &Event<'_>, octets: &[u8]) {
        self.notes(event, Note::Done);
        assert!(is_padded(&self.last, octets));
    }

    /// This becomes of an event, and nothing is sent.
    fn sends_none(&mut self, event: &Event<'_>, note: Note) {
        self.notes(event, note);
        assert_eq!(self.last.len(), 0);
    }

    /// This many frames are sent in this many units of time.
    fn passes(&mut self, units: u32, frames: usize) {
        assert_eq!(requests::sent_in(&mut self.station, units), frames);
    }

    /// Its relation waits for this. `None`: it has no relation.
    fn is_at(&self, phase: Option<Phase>) {
        assert_eq!(self.station.phase(), phase);
    }

    /// A call is served so: how many frames are sent, how long the first of them is, and its status.
    fn serves(&mut self, call: &Bytes, wanted: (usize, usize, [u8; 4])) {
        let _ = step(&mut self.station, &frame(call.as_slice()), &mut self.last);
        assert_eq!(requests::answer_in(&self.last), wanted);
    }
}
