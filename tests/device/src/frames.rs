//! Frames that are answered, and frames that are not accepted.
use crate::Tried;
use device_core::Note;
use frame_codec::Bytes;
use test_stations::{DONE, IDENTIFY, PUMP_1, SET, UNNAMED, frame};

#[test]
fn a_name_is_set_kept_and_found() {
    let mut device = Tried::blank();
    device.sends(&frame(&IDENTIFY), &UNNAMED);
    device.sends(&frame(&SET), &DONE);
    let mut device = device.restart();
    device.sends(&frame(&IDENTIFY), &PUMP_1);
}

#[test]
fn frames_that_are_not_taken() {
    let mut device = Tried::blank();
    let mut elsewhere = IDENTIFY;
    elsewhere[..6].copy_from_slice(&[2, 0, 0, 0, 0, 3]);
    let cases: [(&[u8], Note); 3] = [
        (&IDENTIFY[..13], Note::Fault),
        (&IDENTIFY[..20], Note::Fault),
        (&elsewhere, Note::NotMine),
    ];
    for (bytes, note) in cases {
        device.sends_none(&frame(bytes), note);
    }
}

#[test]
fn a_tagged_request_gets_the_untagged_answer() {
    let mut device = Tried::blank();
    let mut tagged = [0; 34];
    tagged[..12].copy_from_slice(&IDENTIFY[..12]);
    tagged[12..16].copy_from_slice(&[0x81, 0, 0, 0]);
    tagged[16..].copy_from_slice(&IDENTIFY[12..]);
    device.sends(&frame(&tagged), &UNNAMED);
}

#[test]
fn numbers_of_notes() {
    for (note, number) in [
        (Note::Done, 0u8),
        (Note::NotMine, 1),
        (Note::Fault, 2),
        (Note::Filter, 3),
        (Note::OldCall, 4),
        (Note::NoRelation, 5),
        (Note::StaleCycle, 6),
        (Note::Refused, 7),
    ] {
        assert_eq!(note as u8, number);
    }
}

// A device without a name or an address, which meets these octets.
fn is_noted(bytes: &[u8], note: Note) {
    let mut device = Tried::blank();
    device.notes(&frame(bytes), note);
    assert_eq!(device.last.len(), usize::from(note == Note::Done));
}

#[test]
fn a_request_with_other_lengths() {
    let mut long = [0; 1515];
    long[..30].copy_from_slice(&IDENTIFY);
    is_noted(&long[..1514], Note::Done);
    is_noted(&long, Note::Fault);
    let mut tagged = [0; 38];
    tagged[..12].copy_from_slice(&IDENTIFY[..12]);
    tagged[12..20].copy_from_slice(&[0x81, 0, 0xC0, 0, 0x81, 0, 0xC0, 0]);
    tagged[20..].copy_from_slice(&IDENTIFY[12..]);
    is_noted(&tagged, Note::Fault);
    for (length, note) in [(0, Note::Filter), (5, Note::Fault)] {
        let mut other = IDENTIFY;
        other[25] = length;
        is_noted(&other, note);
    }
}

// A Set of this many Signals.
fn signals(count: u8) -> Bytes {
    let mut bytes = Bytes::new();
    let _ = bytes.try_extend_from_slice(&SET[..25]);
    let _ = bytes.try_push(count.wrapping_mul(8));
    for _ in 0..count {
        let _ = bytes.try_extend_from_slice(&[5, 3, 0, 4, 0, 0, 1, 0]);
    }
    bytes
}

// Sixteen blocks of an answer to Signals, each of them done.
fn are_done(blocks: &[u8]) {
    assert_eq!(blocks.len(), 128);
    for block in blocks.chunks_exact(8) {
        assert_eq!(block, [5, 4, 0, 3, 5, 3, 0, 0].as_slice());
    }
}

#[test]
fn sixteen_blocks_are_answered_and_seventeen_are_not_read() {
    let mut device = Tried::blank();
    device.notes(&frame(signals(16).as_slice()), Note::Done);
    let (head, blocks) = device.first().split_at_checked(26).expect("whole");
    assert!(head.ends_with(&[0, 0, 0, 0x80]));
    are_done(blocks);
    is_noted(signals(17).as_slice(), Note::Fault)
}
