//! Frames that are no calls, cut at each length.

use super::frames::{OUTPUTS, PDUS, elsewhere, untagged};
use super::stations::{PHASES, at, front, is_noted, is_untouched};
use device_core::Note;
use frame_codec::Bytes;
use relations::Phase;
use test_stations::{Station, octets, set};

// No frame that is cut is accepted. From this length on each has this note; shorter ones are faults.
fn are_cut(device: &mut Station, bytes: &Bytes, (from, note): (usize, Note)) {
    for length in 0..bytes.len() {
        let part = front(bytes.as_slice(), length);
        let wanted = if length < from { Note::Fault } else { note };
        is_noted(device, &part, wanted);
    }
}

// The note of a cyclic frame that is too short. Without a relation it belongs to no relation.
fn note_of_short(phase: Option<Phase>) -> Note {
    match phase {
        None => Note::NoRelation,
        Some(_) => Note::Fault,
    }
}

fn are_cyclic_frames_cut(phase: Option<Phase>) {
    let mut device = at(phase);
    let note = note_of_short(phase);
    are_cut(&mut device, &octets(&OUTPUTS), (20, note));
    are_cut(&mut device, &untagged(&OUTPUTS), (16, note));
    is_untouched(device, phase)
}

#[test]
fn cyclic_frames_cut_short() {
    for phase in PHASES {
        are_cyclic_frames_cut(phase);
    }
}

/// No part of a PDU is accepted, with a tag or without, under either FrameID.
fn is_whole_or_fault(device: &mut Station, bytes: &[u8]) {
    are_cut(device, &octets(bytes), (0, Note::Fault));
    are_cut(device, &untagged(bytes), (0, Note::Fault));
    are_cut(device, &elsewhere(bytes), (0, Note::Fault))
}

fn are_alarm_frames_cut(phase: Option<Phase>) {
    let mut device = at(phase);
    for bytes in PDUS {
        is_whole_or_fault(&mut device, bytes);
    }
    is_untouched(device, phase)
}

// A PDU that is not whole is a fault, be there a relation or none, under either FrameID.
#[test]
fn alarm_frames_cut_short() {
    for phase in PHASES {
        are_alarm_frames_cut(phase);
    }
}

/// A PDU from another station, or for another endpoint, belongs to no relation where it is whole.
fn is_foreign(device: &mut Station, bytes: &[u8]) {
    // the source, and either endpoint
    for place in [11, 21, 23usize] {
        let mut other = octets(bytes);
        set(&mut other, place, 3);
        are_cut(device, &other, (0, Note::Fault));
        is_noted(device, &other, Note::NoRelation);
    }
}

fn are_foreign(phase: Option<Phase>) {
    let mut device = at(phase);
    let mut cyclic = octets(&OUTPUTS);
    set(&mut cyclic, 11, 3);
    are_cut(&mut device, &cyclic, (20, Note::NoRelation));
    is_noted(&mut device, &cyclic, Note::NoRelation);
    for bytes in PDUS {
        is_foreign(&mut device, bytes);
    }
    is_untouched(device, phase)
}

// Broken or whole, what another station sends belongs to no relation; but a PDU that is not whole is a fault, whoever sent it.
#[test]
fn frames_of_another_station() {
    for phase in PHASES {
        are_foreign(phase);
    }
}

// Without a relation a whole one belongs to no relation.
#[test]
fn frames_of_no_relation() {
    let mut device = at(None);
    is_noted(&mut device, &octets(&OUTPUTS), Note::NoRelation);
    for bytes in PDUS {
        is_noted(&mut device, &octets(bytes), Note::NoRelation);
        is_noted(&mut device, &elsewhere(bytes), Note::NoRelation);
    }
    is_untouched(device, None)
}
