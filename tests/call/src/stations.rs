//! A station that has answered calls, what becomes of a frame there, and whether a frame left it as it was.
use super::fates::{Fate, fate_of};
use super::numbers::{Order, mend, number_at, ones_sum, put, u32_at, udp_sum};
use super::samples::{CALL, frame};
use device_core::{Event, Note};
use flash_model::MemoryFlash;
use frame_codec::Outbox;
use rattle_std::Vec;
use rattle_std::alloc::{AllocError, Global};
use test_stations::{Station, frame as heard, plugged, station, step};

/// A Read Implicit of I&M0 by the activity whose octets are all this number.
fn call(alloc: Global, activity: u8, sequence: u32) -> Vec<u8> {
    let (mut octets, head) = frame(alloc, CALL, &[]);
    let packet = octets.as_mut_slice().get_mut(head..).expect("a packet");
    for octet in packet.iter_mut().skip(68).take(16) {
        *octet = activity;
    }
    put(Order::Big, packet, 92, 4, sequence);
    put(Order::Big, packet, 162, 2, 0xAFF0);
    mend(packet);
    octets
}

/// Calls by activity and sequence number at a station that has answered the activities 1 to 4 under 5: each of those again;
/// a new one, which takes the place of the first; whether the next to be replaced are the second, the third and the fourth.
const PROBES: [(u8, u32, Note); 11] = [
    (1, 5, Note::Done),
    (2, 5, Note::Done),
    (3, 5, Note::Done),
    (4, 5, Note::Done),
    (5, 1, Note::Done),
    (2, 4, Note::OldCall),
    (1, 4, Note::Done),
    (3, 4, Note::OldCall),
    (2, 4, Note::Done),
    (4, 4, Note::OldCall),
    (3, 4, Note::Done),
];

/// A station with an address that has answered four calls, and is handed frames that it has to refuse.
pub(crate) struct Trial {
    alloc: Global,
    station: Station,
    /// The second of the calls, and its answer.
    again: Vec<u8>,
    kept: Vec<u8>,
}

impl Trial {
    pub(crate) fn new(alloc: Global) -> Trial {
        let mut outbox = Outbox::new();
        let mut station = called(alloc);
        let again = call(alloc, 2, 5);
        let _ = step(&mut station, &heard(again.as_slice()), &mut outbox);
        let kept = octets_of(alloc, &outbox).unwrap();
        Trial {
            alloc,
            station,
            again,
            kept,
        }
    }

    /// What becomes of a frame is what has to. Behind one that is not answered the second call gets the same octets again;
    /// one that is answered goes to another station.
    pub(crate) fn judge(&mut self, octets: &[u8]) {
        let wanted = fate_of(octets);
        if matches!(wanted, Fate::Answered { .. }) {
            let came = fate_at(&mut called(self.alloc), octets);
            assert_eq!((octets, came), (octets, Some(wanted)));
        } else {
            let came = fate_at(&mut self.station, octets);
            assert_eq!((octets, came), (octets, Some(wanted)));
            self.calls_again(octets);
        }
    }

    /// The second call is answered as it was, after these octets.
    fn calls_again(&mut self, octets: &[u8]) {
        let mut outbox = Outbox::new();
        let note = step(&mut self.station, &heard(self.again.as_slice()), &mut outbox);
        let kept = octets_of(self.alloc, &outbox).unwrap();
        assert!(
            note == Note::Done && kept.as_slice() == self.kept.as_slice(),
            "behind {octets:?}"
        );
    }

    /// The station is as it was before all that it refused: it answers each probe as one that heard nothing of it does.
    pub(crate) fn end(mut self) {
        let mut other = called(self.alloc);
        for (activity, sequence, note) in PROBES {
            let octets = call(self.alloc, activity, sequence);
            let event = heard(octets.as_slice());
            let (found, came) = answer_at(self.alloc, &mut self.station, &event).unwrap();
            let (_note, wanted) = answer_at(self.alloc, &mut other, &event).unwrap();
            assert_eq!((activity, found), (activity, note));
            assert_eq!(came.as_slice(), wanted.as_slice());
        }
    }
}

/// What a station makes of an event, and all octets that it sends.
fn answer_at(
    alloc: Global,
    station: &mut Station,
    event: &Event<'_>,
) -> Result<(Note, Vec<u8>), AllocError> {
    let mut outbox = Outbox::new();
    let note = step(station, event, &mut outbox);
    Ok((note, octets_of(alloc, &outbox)?))
}

/// What becomes of a frame at a station.
fn fate_at(station: &mut Station, octets: &[u8]) -> Option<Fate> {
    let mut outbox = Outbox::new();
    let note = step(station, &heard(octets), &mut outbox);
    outcome(note, &outbox)
}

/// A station with an address that has answered calls of the activities 1 to 4, each under the sequence number 5.
fn called(alloc: Global) -> Station {
    let mut outbox = Outbox::new();
    let mut station = station(plugged(), MemoryFlash::blank()).expect("starts");
    for activity in 1..5 {
        let _ = step(&mut station, &heard(call(alloc, activity, 5).as_slice()), &mut outbox);
    }
    station
}

/// All octets that are sent.
fn octets_of(alloc: Global, outbox: &Outbox) -> Result<Vec<u8>, AllocError> {
    let mut octets = Vec::new(alloc);
    for sent in outbox.as_slice() {
        octets.extend_from_slice(sent.as_slice())?;
    }
    Ok(octets)
}

/// What became of a frame, or None where a note and what is sent do not go together or a checksum is wrong.
fn outcome(note: Note, outbox: &Outbox) -> Option<Fate> {
    match (note, outbox.as_slice()) {
        (Note::Done, [sent]) => answered(sent.as_slice()),
        (Note::Fault, []) => Some(Fate::Fault),
        (Note::NotMine, []) => Some(Fate::NotMine),
        (Note::OldCall, []) => Some(Fate::OldCall),
        (Note::NoRelation, []) => Some(Fate::NoRelation),
        _ => None,
    }
}

/// A reply of ARP, or an answer to a call.
fn answered(sent: &[u8]) -> Option<Fate> {
    let length = sent.len();
    let (link, packet) = sent.split_at_checked(14)?;
    if link.ends_with(&[0x08, 0x06]) {
        return Some(Fate::Answered { status: 0, length });
    }
    let (header, datagram) = packet.split_at_checked(20)?;
    let counted = number_at(Order::Big, datagram, 4, 2) as usize;
    if ones_sum(0, header) != 0xFFFF
        || udp_sum(header, datagram) != 0xFFFF
        || datagram.len() != counted
    {
        return None;
    }
    let status = u32_at(Order::Big, datagram, 88)?;
    Some(Fate::Answered { status, length })
}
