//! The first fault of a Connect, each once, and of two at a time the one that comes first.

use super::blocks::{
    ALARM, AR, Blocks, EXPECTED_0, EXPECTED_1, EXPECTED_2, INPUT, OUTPUT, all, joined, request_of,
    with,
};
use connects::refuse;
use records::CallFault;
use uuid::Uuid;

/// The first fault of these blocks, if there is one.
fn fault(parts: &[&[u8]]) -> Option<CallFault> {
    request_of(joined(parts).as_slice()).err()
}

/// The first fault of the controller's blocks with this octet at a place.
fn changed(place: usize, octet: u8) -> Option<CallFault> {
    fault(&[with(all().as_slice(), place, octet).as_slice()])
}

#[test]
fn blocks_that_do_not_belong_there() {
    let release = [0x01, 0x14, 0x00, 0x1c];
    let cases = [
        (fault(&[]), CallFault::BlockMissing),
        (fault(&[&AR[..3]]), CallFault::BlockHeader),
        (fault(&[&AR, &INPUT[..1]]), CallFault::BlockHeader),
        (fault(&[&INPUT, &AR]), CallFault::BlockType),
        (fault(&[&INPUT[..9]]), CallFault::BlockType),
        (fault(&[&AR, &AR]), CallFault::BlockType),
        (fault(&[&AR, &AR[..4]]), CallFault::BlockType),
        (fault(&[&AR, &release]), CallFault::BlockType),
        (fault(&[&AR, &ALARM, &ALARM]), CallFault::AlarmCrRepeated),
        (
            fault(&[&AR, &ALARM, &ALARM[..5]]),
            CallFault::AlarmCrRepeated,
        ),
        (fault(&[&AR, &INPUT, &INPUT]), CallFault::IocrField(4)),
        (
            fault(&[&AR, &OUTPUT, &INPUT, &OUTPUT]),
            CallFault::IocrField(4),
        ),
        (
            fault(&[&AR, &EXPECTED_1, &EXPECTED_1]),
            CallFault::ExpectedField(6),
        ),
    ];
    for (found, wanted) in cases {
        assert_eq!(found, Some(wanted));
    }
}

#[test]
fn fields_that_are_not_accepted() {
    // the IOCRBlockReq of inputs begins with the octet 61
    let cases = [
        (changed(3, 0xff), CallFault::ArField(1)),
        (changed(4, 2), CallFault::ArField(2)),
        (changed(5, 1), CallFault::ArField(3)),
        (changed(26, 3), CallFault::ArField(7)),
        (changed(61 + 4, 0), CallFault::IocrField(2)),
        (changed(61 + 7, 3), CallFault::IocrField(4)),
        (changed(61 + 3, 0), CallFault::IocrField(1)),
        (fault(&[&AR, &ALARM[..10]]), CallFault::AlarmCrField(1)),
        (
            fault(&[&AR, &EXPECTED_1[..20]]),
            CallFault::ExpectedField(1),
        ),
        // of a fault of its form and a SlotNumber that an earlier block has, the form comes first
        (
            fault(&[&AR, &EXPECTED_1, &EXPECTED_1[..20]]),
            CallFault::ExpectedField(1),
        ),
    ];
    for (found, wanted) in cases {
        assert_eq!(found, Some(wanted));
    }
}

#[test]
fn blocks_that_are_missing() {
    let cases = [
        (fault(&[&AR]), CallFault::BlockMissing),
        (
            fault(&[&AR, &INPUT, &OUTPUT, &ALARM]),
            CallFault::BlockMissing,
        ),
        (fault(&[&AR, &EXPECTED_0]), CallFault::IocrMissing),
        (
            fault(&[&AR, &INPUT, &ALARM, &EXPECTED_0]),
            CallFault::IocrMissing,
        ),
        (
            fault(&[&AR, &OUTPUT, &ALARM, &EXPECTED_0]),
            CallFault::IocrMissing,
        ),
        // before the layouts, which do not exist
        (
            fault(&[&AR, &INPUT, &OUTPUT, &EXPECTED_0]),
            CallFault::AlarmCrMissing,
        ),
    ];
    for (found, wanted) in cases {
        assert_eq!(found, Some(wanted));
    }
}

/// The first fault with these blocks for the two communication relations.
fn layout_fault(first: &Blocks, second: &Blocks) -> Option<CallFault> {
    let (first, second) = (first.as_slice(), second.as_slice());
    fault(&[
        &AR,
        first,
        second,
        &ALARM,
        &EXPECTED_0,
        &EXPECTED_1,
        &EXPECTED_2,
    ])
}

#[test]
fn layouts_that_are_none() {
    let (input, output) = (joined(&[&INPUT]), joined(&[&OUTPUT]));
    // the FrameOffset of the input's fourth data object, and the slot of the output's one
    let outside = with(&INPUT, 75, 38);
    let overlap = with(&INPUT, 75, 2);
    let unknown = with(&OUTPUT, 53, 3);
    // one more input, in slot 3
    let third = with(&EXPECTED_1, 13, 3);
    let cases = [
        (layout_fault(&input, &output), None),
        (
            layout_fault(&outside, &output),
            Some(CallFault::LayoutOutside),
        ),
        (
            layout_fault(&overlap, &output),
            Some(CallFault::LayoutOverlap),
        ),
        (
            layout_fault(&input, &unknown),
            Some(CallFault::LayoutUnknown),
        ),
        (
            layout_fault(&outside, &unknown),
            Some(CallFault::LayoutOutside),
        ),
        (
            layout_fault(&unknown, &outside),
            Some(CallFault::LayoutUnknown),
        ),
        (
            fault(&[&AR, &INPUT, &OUTPUT, &ALARM, &EXPECTED_1, &EXPECTED_2]),
            Some(CallFault::LayoutUnknown),
        ),
        (
            fault(&[
                &AR,
                &INPUT,
                &OUTPUT,
                &ALARM,
                &EXPECTED_0,
                &EXPECTED_1,
                &EXPECTED_2,
                third.as_slice(),
            ]),
            Some(CallFault::LayoutMissing),
        ),
    ];
    for (found, wanted) in cases {
        assert_eq!(found, wanted);
    }
}

/// Why these blocks are refused while the relation of this ARUUID is active.
fn refused(standing: &Uuid, blocks: &[u8]) -> CallFault {
    refuse(standing, blocks)
}

#[test]
fn a_relation_that_stands() {
    let standing = Uuid::from_bytes([
        0x11, 0x11, 0x11, 0x11, 0x22, 0x22, 0x33, 0x33, 0x44, 0x44, 0x55, 0x55, 0x55, 0x55, 0x55,
        0x55,
    ]);
    let other = Uuid::from_bytes([7; 16]);
    assert_eq!(
        refused(&standing, all().as_slice()),
        CallFault::RelationExists
    );
    assert_eq!(
        refused(&other, all().as_slice()),
        CallFault::OtherRelationExists
    );
    // before any fault of a later block, and after those of its own
    assert_eq!(
        refused(&standing, joined(&[&AR, &AR]).as_slice()),
        CallFault::RelationExists
    );
    assert_eq!(
        refused(&standing, with(&AR, 26, 3).as_slice()),
        CallFault::ArField(7)
    );
    assert_eq!(refused(&standing, &INPUT), CallFault::BlockType);
    assert_eq!(refused(&standing, &[]), CallFault::BlockMissing);
    assert_eq!(refused(&other, &AR[..2]), CallFault::BlockHeader);
}
