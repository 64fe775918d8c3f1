//! What is read of a Connect.

use super::blocks::{
    ALARM, AR, EXPECTED_0, EXPECTED_1, EXPECTED_2, INPUT, OUTPUT, all, joined, request_of, with,
};
use arrayvec::ArrayVec;
use connects::{ConnectRequest, Iocr};
use cyclic_data::{Place, PlaceKind};
use records::CallFault;

/// A place as its kind, slot, subslot, offset and size.
fn place(kind: PlaceKind, slot: u16, subslot: u16, offset: u16, size: u16) -> Place {
    Place {
        kind,
        slot,
        subslot,
        offset,
        size,
    }
}

/// The numbers of a communication relation: reference, FrameID, SendClockFactor, ReductionRatio, DataHoldFactor and tag.
fn numbers(iocr: &Iocr) -> [u16; 6] {
    [
        iocr.reference,
        iocr.frame_id,
        iocr.send_clock_factor,
        iocr.reduction_ratio,
        iocr.data_hold_factor,
        iocr.tag,
    ]
}

#[test]
fn the_relation_is_as_asked_for() {
    let Ok(request) = request_of(all().as_slice()) else {
        panic!("refused");
    };
    let ar = request.ar();
    assert_eq!(&ar.uuid.into_bytes()[..], &AR[8..24]);
    assert_eq!(ar.session_key, 1);
    assert_eq!(ar.initiator.octets, [2, 0, 0, 0, 0, 2]);
    assert_eq!(&ar.object.into_bytes()[..], &AR[32..48]);
    assert_eq!(ar.timeout_factor, 600);
}

#[test]
fn frames_and_alarms_are_as_asked_for() {
    let Ok(request) = request_of(all().as_slice()) else {
        panic!("refused");
    };
    assert!(request.input_first());
    assert_eq!(numbers(request.input()), [1, 0xC001, 32, 1, 3, 0xC000]);
    assert_eq!(numbers(request.output()), [2, 0xC000, 32, 1, 3, 0xC000]);
    let alarm = request.alarm();
    assert_eq!(
        [alarm.timeout_factor, alarm.retries, alarm.reference],
        [1, 3, 1]
    );
    assert_eq!([alarm.tag_high, alarm.tag_low], [0xC000, 0xA000]);
}

#[test]
fn each_submodule_has_its_places() {
    let Ok(request) = request_of(all().as_slice()) else {
        panic!("refused");
    };
    let wanted = [
        place(PlaceKind::Data, 0, 1, 0, 1),
        place(PlaceKind::Data, 0, 0x8000, 1, 1),
        place(PlaceKind::Data, 0, 0x8001, 2, 1),
        place(PlaceKind::Data, 1, 1, 3, 3),
        place(PlaceKind::Iocs, 2, 1, 6, 1),
    ];
    assert_eq!(request.input().layout.data_length(), 40);
    assert_eq!(request.input().layout.places(), &wanted[..]);
    let wanted = [
        place(PlaceKind::Data, 2, 1, 0, 3),
        place(PlaceKind::Iocs, 0, 1, 3, 1),
        place(PlaceKind::Iocs, 0, 0x8000, 4, 1),
        place(PlaceKind::Iocs, 0, 0x8001, 5, 1),
        place(PlaceKind::Iocs, 1, 1, 6, 1),
    ];
    assert_eq!(request.output().layout.data_length(), 40);
    assert_eq!(request.output().layout.places(), &wanted[..]);
}

/// Slot, ident number and number of submodules of each module that is expected.
fn modules_of(request: &ConnectRequest) -> ArrayVec<(u16, u32, u16), 64> {
    let mut list = ArrayVec::new();
    for module in request.expected().modules.as_slice() {
        let _ = list.try_push((
            module.slot_number,
            module.module_ident_number,
            module.number_of_submodules,
        ));
    }
    list
}

/// Subslot and ident number of each submodule that is expected.
fn submodules_of(request: &ConnectRequest) -> ArrayVec<(u16, u32), 64> {
    let mut list = ArrayVec::new();
    for submodule in request.expected().submodules.as_slice() {
        let _ = list.try_push((submodule.subslot_number, submodule.submodule_ident_number));
    }
    list
}

/// What is read of a second Connect with these blocks, over what the controller's left.
fn read_again(blocks: &[u8]) -> Result<ConnectRequest, CallFault> {
    let mut request = request_of(all().as_slice())?;
    request.read(1, blocks)?;
    Ok(request)
}

#[test]
fn all_that_is_expected_stands_in_the_order_of_the_blocks() {
    // the blocks in another order, and read over what another Connect left
    let blocks = joined(&[
        &AR,
        &EXPECTED_2,
        &OUTPUT,
        &EXPECTED_0,
        &ALARM,
        &INPUT,
        &EXPECTED_1,
    ]);
    let Ok(request) = read_again(blocks.as_slice()) else {
        panic!("refused");
    };
    assert!(!request.input_first());
    let modules = [(2, 32, 1), (0, 1, 3), (1, 16, 1)];
    assert_eq!(modules_of(&request).as_slice(), modules.as_slice());
    let submodules = [(1, 32), (1, 1), (0x8000, 2), (0x8001, 3), (1, 16)];
    assert_eq!(submodules_of(&request).as_slice(), submodules.as_slice());
}

/// FrameIDs of the input and the output of a Connect with this IOCRBlockReq of outputs.
fn frame_ids(output: &[u8]) -> Result<(u16, u16), CallFault> {
    let blocks = joined(&[
        &AR,
        &INPUT,
        output,
        &ALARM,
        &EXPECTED_0,
        &EXPECTED_1,
        &EXPECTED_2,
    ]);
    let request = request_of(blocks.as_slice())?;
    Ok((request.input().frame_id, request.output().frame_id))
}

#[test]
fn the_frame_id_of_an_output_is_given() {
    // IOCRProperties ends with the octet 15 of the block, and FrameID is 18 and 19
    let class_2 = with(&OUTPUT, 15, 2);
    let kept = with(with(&OUTPUT, 18, 0xC1).as_slice(), 19, 0x02);
    assert_eq!(frame_ids(&OUTPUT), Ok((0xC001, 0xC000)));
    assert_eq!(frame_ids(class_2.as_slice()), Ok((0xC001, 0x8000)));
    assert_eq!(frame_ids(kept.as_slice()), Ok((0xC001, 0xC102)));
}
