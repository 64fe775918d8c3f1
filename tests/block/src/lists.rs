//! Lists of blocks, where they lie: in the octets that were read, or in lists that are lent to be written.

use arrayvec::ArrayVec;
use block_codec::{
    Block, ExpectedModule, ExpectedModules, ExpectedSubmodule, ExpectedSubmoduleBlockReq, IoObject,
    IoObjects, IocrBlockReq, IocrType, RtClass, SubmoduleData, block_len, read_block, write_block,
};
use pn_values::Mac;

/// An input with two data objects and one IOCS.
const IOCR: [u8; 72] = [
    0x01, 0x02, 0x00, 0x44, 0x01, 0x00, 0x00, 0x01, 0x00, 0x01, 0x88, 0x92, 0x00, 0x00, 0x00, 0x01,
    0x00, 0x28, 0xc0, 0x01, 0x00, 0x20, 0x00, 0x01, 0x00, 0x01, 0x00, 0x00, 0xff, 0xff, 0xff, 0xff,
    0x00, 0x03, 0x00, 0x03, 0xc0, 0x00, 0x00, 0x00, 0x00, 0x00, 0x00, 0x00, 0x00, 0x01, 0x00, 0x00,
    0x00, 0x00, 0x00, 0x02, 0x00, 0x00, 0x80, 0x00, 0x00, 0x01, 0x00, 0x01, 0x00, 0x01, 0x00, 0x03,
    0x00, 0x01, 0x00, 0x02, 0x00, 0x01, 0x00, 0x06,
];

/// A module with an input of two octets, which is described with bits that are not looked at.
const EXPECTED: [u8; 36] = [
    0x01, 0x04, 0x00, 0x20, 0x01, 0x00, 0x00, 0x01, 0x00, 0x00, 0x00, 0x00, 0x00, 0x01, 0x00, 0x00,
    0x00, 0x10, 0x00, 0x00, 0x00, 0x01, 0x00, 0x01, 0x00, 0x00, 0x00, 0x10, 0x00, 0x05, 0x80, 0x01,
    0x00, 0x02, 0x01, 0x01,
];

/// The place of a slot, a subslot and an offset.
fn place(slot_number: u16, subslot_number: u16, frame_offset: u16) -> IoObject {
    IoObject {
        slot_number,
        subslot_number,
        frame_offset,
    }
}

/// The slot, the subslot and the offset of a place.
fn numbers(place: Option<IoObject>) -> Option<[u16; 3]> {
    let place = place?;
    Some([place.slot_number, place.subslot_number, place.frame_offset])
}

/// The data objects of an IOCRBlockReq, by their numbers.
fn data_object(octets: &[u8], index: usize) -> Option<[u16; 3]> {
    match read_block(octets) {
        Ok((Block::IocrBlockReq(block), _)) => numbers(block.io_data_objects.get(index)),
        _ => None,
    }
}

#[test]
fn places_are_given_by_their_numbers() {
    assert_eq!(data_object(&IOCR, 0), Some([0, 0x8000, 1]));
    assert_eq!(data_object(&IOCR, 1), Some([1, 1, 3]));
    assert_eq!(data_object(&IOCR, 2), None);
}

#[test]
fn a_list_of_one_place_is_not_empty() {
    let mut list = ArrayVec::new();
    assert!(IoObjects::lent(&list).is_empty());
    list.push(place(1, 1, 0));
    assert!(!IoObjects::lent(&list).is_empty());
}

/// The block of IOCR, of lists that are lent.
fn input<'a>(io_data_objects: IoObjects<'a>, iocs: IoObjects<'a>) -> Block<'a> {
    Block::IocrBlockReq(IocrBlockReq {
        iocr_type: IocrType::Input,
        iocr_reference: 1,
        iocr_properties: RtClass::Class1,
        data_length: 40,
        frame_id: 0xc001,
        send_clock_factor: 32,
        reduction_ratio: 1,
        phase: 1,
        sequence: 0,
        frame_send_offset: 0xffff_ffff,
        watchdog_factor: 3,
        data_hold_factor: 3,
        iocr_tag_header: 0xc000,
        iocr_multicast_mac_add: Mac { octets: [0; 6] },
        io_data_objects,
        iocs,
    })
}

/// A block as it is written, if it is not too long.
fn written(block: &Block) -> ArrayVec<u8, 72> {
    let mut out = ArrayVec::new();
    if block_len(block) <= 72 {
        write_block(&mut out, block);
    }
    out
}

#[test]
fn places_that_are_lent_are_written() {
    let mut data = ArrayVec::new();
    data.push(place(0, 0x8000, 1));
    data.push(place(1, 1, 3));
    let mut statuses = ArrayVec::new();
    statuses.push(place(2, 1, 6));
    let block = input(IoObjects::lent(&data), IoObjects::lent(&statuses));
    assert_eq!(written(&block).as_slice(), IOCR.as_slice());
}

/// Slot and input of the one module and its one submodule that are copied of an ExpectedSubmoduleBlockReq.
fn copied(octets: &[u8]) -> Option<(u16, Option<u16>)> {
    let mut modules = ArrayVec::new();
    let mut submodules = ArrayVec::new();
    if let Ok((Block::ExpectedSubmoduleBlockReq(block), _)) = read_block(octets) {
        block.modules.copy_to(&mut modules, &mut submodules);
    }
    match (modules.as_slice(), submodules.as_slice()) {
        ([module], [submodule]) => Some((module.slot_number, submodule.io_data.input)),
        _ => None,
    }
}

#[test]
fn modules_that_were_read_are_copied() {
    assert_eq!(copied(&EXPECTED), Some((1, Some(2))));
}

#[test]
fn modules_that_are_lent_are_written() {
    let mut modules: ArrayVec<ExpectedModule, 64> = ArrayVec::new();
    modules.push(ExpectedModule {
        slot_number: 1,
        module_ident_number: 0x10,
        module_properties: 0,
        number_of_submodules: 1,
    });
    let mut submodules: ArrayVec<ExpectedSubmodule, 64> = ArrayVec::new();
    submodules.push(ExpectedSubmodule {
        subslot_number: 1,
        submodule_ident_number: 0x10,
        io_data: SubmoduleData {
            input: Some(2),
            output: None,
        },
    });
    let block = Block::ExpectedSubmoduleBlockReq(ExpectedSubmoduleBlockReq {
        modules: ExpectedModules::lent(&modules, &submodules),
    });
    // the bits that are not looked at are written 0
    let mut wanted = EXPECTED;
    wanted[29] = 0x01;
    wanted[30] = 0x00;
    assert_eq!(written(&block).as_slice(), wanted.as_slice());
}
