//! Tests of the device: frames that were worked out by hand, over a flash in memory.
//!
//! What no contract says: octets that other programs know. What the tests share is here; none of it has a contract, so that what a
//! station promises is read in one function each, and not again in each test.
#![cfg(test)]

use device_core::{Event, Note};
use flash_model::MemoryFlash;
use frame_codec::Outbox;
use test_stations::{Station, is_padded, restart, start, step};

mod arp;
mod calls;
mod cycles;
mod faults;
mod frames;
mod full;
mod lamp;
mod losses;

/// A station that is tried, and what it sent last.
struct Tried {
    station: Station,
    last: Outbox,
}

impl Tried {
    /// A station that started.
    fn new(station: Option<Station>) -> Tried {
        let station = station.expect("starts");
        Tried {
            station,
            last: Outbox::new(),
        }
    }

    /// One that nothing was ever stored in.
    fn blank() -> Tried {
        Tried::new(start(MemoryFlash::blank()))
    }

    /// Power comes back to it.
    fn restart(self) -> Tried {
        let Tried { station, last } = self;
        let station = restart(station).expect("starts again");
        Tried { station, last }
    }

    /// It takes an event, whatever becomes of it.
    fn take(&mut self, event: &Event<'_>) {
        let _ = step(&mut self.station, event, &mut self.last);
    }

    /// This becomes of an event.
    fn notes(&mut self, event: &Event<'_>, note: Note) {
        assert_eq!(step(&mut self.station, event, &mut self.last), note);
    }

    /// An event is accepted, and one frame is sent: these octets, filled up.
    fn sends(&mut self, event: &Event<'_>, octets: &[u8]) {
        self.notes(event, Note::Done);
        self.sent(octets);
    }

    /// The one frame that it sent last is these octets, filled up.
    fn sent(&self, octets: &[u8]) {
        assert!(is_padded(&self.last, octets));
    }

    /// The first frame that it sent last.
    fn first(&self) -> &[u8] {
        let first = self.last.as_slice().first().expect("is answered");
        first.as_slice()
    }

    /// This becomes of an event, and nothing is sent.
    fn sends_none(&mut self, event: &Event<'_>, note: Note) {
        self.notes(event, note);
        assert_eq!(self.last.len(), 0);
    }

    /// The name under which it runs.
    fn is_named(&self, name: &[u8]) {
        assert_eq!(self.station.running().name.as_bytes(), name);
    }

    /// The name that it keeps.
    fn keeps(&self, name: &[u8]) {
        assert_eq!(self.station.stored().name.as_bytes(), name);
    }
}
