//! Cyclic frames with another FrameID, CycleCounter or status, and with other octets after it.

use super::frames::{BLOCKS, OUTPUTS};
use super::stations::{PHASES, asked_for, at, front, is_noted, is_untouched};
use device_core::Note;
use frame_codec::Bytes;
use relations::Phase;
use test_stations::{Station, octets, set};

// DataStatus without its bit 'valid', and TransferStatus.
const STATUSES: [(usize, u8); 5] = [(62, 0), (62, 1), (62, 0xFB), (63, 1), (63, 0xFF)];

fn are_statuses_stale(phase: Option<Phase>) {
    let mut device = at(phase);
    let note = match phase {
        None => Note::NoRelation,
        Some(_) => Note::StaleCycle,
    };
    for (place, octet) in STATUSES {
        let mut bytes = octets(&OUTPUTS);
        set(&mut bytes, place, octet);
        is_noted(&mut device, &bytes, note);
    }
    is_untouched(device, phase)
}

#[test]
fn statuses_of_cyclic_frames() {
    for phase in PHASES {
        are_statuses_stale(phase);
    }
}

// The cyclic frame under another FrameID.
fn named(high: u8, low: u8) -> Bytes {
    let mut bytes = octets(&OUTPUTS);
    set(&mut bytes, 18, high);
    set(&mut bytes, 19, low);
    bytes
}

// Other FrameIDs than that of the relation, and what becomes of a frame under each.
const OTHER_IDS: [(u8, u8, Note); 8] = [
    (0x7F, 0xFF, Note::NotMine),
    (0x80, 0, Note::NoRelation),
    (0xBB, 0xFF, Note::NoRelation),
    (0xBC, 0, Note::NotMine),
    (0xBF, 0xFF, Note::NotMine),
    (0xC0, 1, Note::NoRelation),
    (0xF7, 0xFF, Note::NoRelation),
    (0xF8, 0, Note::NotMine),
];

fn are_ids_of_others(phase: Option<Phase>) {
    let mut device = at(phase);
    for (high, low, note) in OTHER_IDS {
        let bytes = named(high, low);
        is_noted(&mut device, &bytes, note);
        is_noted(&mut device, &front(bytes.as_slice(), 20), note);
    }
    is_untouched(device, phase)
}

// Those of cyclic data belong to no relation, be they whole or not, and the others are for nobody.
#[test]
fn other_frame_ids() {
    for phase in PHASES {
        are_ids_of_others(phase);
    }
}

/// The output of the module in slot 2.
fn shows(device: &Station, output: [u8; 2]) {
    assert_eq!(device.output(2, 1), Some(output.as_slice()));
}

// In a relation of RT class 2 the device chooses the FrameID 0x8000.
#[test]
fn frames_of_class_2() {
    let mut blocks = octets(&BLOCKS);
    // IOCRProperties
    set(&mut blocks, 76, 2);
    set(&mut blocks, 160, 2);
    let mut device = asked_for(blocks.as_slice(), Some(Phase::Exchanging));
    is_noted(&mut device, &octets(&OUTPUTS), Note::NoRelation);
    let whole = named(0x80, 0);
    for length in 20..64 {
        is_noted(&mut device, &front(whole.as_slice(), length), Note::Fault);
    }
    shows(&device, [0, 0]);
    is_noted(&mut device, &whole, Note::Done);
    shows(&device, [0xAA, 0x55]);
}

fn is_counted(device: &mut Station, counter: u16, note: Note) {
    let [high, low] = counter.to_be_bytes();
    let mut bytes = octets(&OUTPUTS);
    set(&mut bytes, 60, high);
    set(&mut bytes, 61, low);
    is_noted(device, &bytes, note);
}

// A first CycleCounter, two with which the next frame is stale, and one with which it is newer.
const COUNTERS: [(u16, [u16; 2], u16); 3] = [
    (0, [0, 65_535], 1),
    (1, [1, 0], 61_441),
    (65_535, [61_440, 65_535], 0),
];

/// A relation in this phase takes a first CycleCounter, then neither of two stale ones, and then a newer one.
fn are_counted(phase: Phase, (first, stale, newer): (u16, [u16; 2], u16)) {
    let mut device = at(Some(phase));
    is_counted(&mut device, first, Note::Done);
    for counter in stale {
        is_counted(&mut device, counter, Note::StaleCycle);
    }
    is_counted(&mut device, newer, Note::Done);
}

// The first CycleCounter is newer, and then those that are 1 to 61,440 ahead.
#[test]
fn first_cycle_counters() {
    for phase in [Phase::Started, Phase::Awaiting, Phase::Exchanging] {
        for counters in COUNTERS {
            are_counted(phase, counters);
        }
    }
}

/// The cyclic frame, filled up to this many octets.
fn filled(length: usize) -> Bytes {
    let mut bytes = octets(&OUTPUTS);
    for _ in 64..length {
        let _ = bytes.try_push(0xFF);
    }
    assert_eq!(bytes.len(), length);
    bytes
}

/// The cyclic frame, filled up to this many octets, is accepted, and after it only a newer one.
fn is_taken(length: usize) {
    let mut device = at(Some(Phase::Exchanging));
    is_noted(&mut device, &filled(length), Note::Done);
    is_counted(&mut device, 32, Note::StaleCycle);
    is_counted(&mut device, 33, Note::Done);
}

// What trails DataLength and the statuses is not looked at, up to the length of the longest frame.
#[test]
fn octets_behind_a_cyclic_frame() {
    for length in [65, 164, 1518] {
        is_taken(length);
    }
    let mut device = at(Some(Phase::Exchanging));
    is_noted(&mut device, &filled(1519), Note::Fault);
    is_untouched(device, Some(Phase::Exchanging))
}
