//! PROFINET blocks, by the tables of IEC 61158-6-10, 5.2. The program table_block compares what each kind is with results of
//! a reference model; here is what its lines do not show.

use super::reads::IM0;
use super::records::IM2;
use arrayvec::ArrayVec;
use block_codec::{
    AlarmData, AlarmNotification, Block, BlockFault, BlockReader, BlockType, block_len, read_block,
    write_block,
};

/// An ARBlockReq of station `plc`.
const AR_BLOCK_REQ: [u8; 61] = [
    0x01, 0x01, 0x00, 0x39, 0x01, 0x00, 0x00, 0x01, 0x11, 0x11, 0x11, 0x11, 0x11, 0x11, 0x11, 0x11,
    0x11, 0x11, 0x11, 0x11, 0x11, 0x11, 0x11, 0x22, 0x00, 0x01, 0x02, 0x00, 0x00, 0x00, 0x00, 0x02,
    0x33, 0x33, 0x33, 0x33, 0x33, 0x33, 0x33, 0x33, 0x33, 0x33, 0x33, 0x33, 0x33, 0x33, 0x33, 0x33,
    0x00, 0x00, 0x00, 0x11, 0x02, 0x58, 0x88, 0x92, 0x00, 0x03, 0x70, 0x6c, 0x63,
];

/// An input with four data objects and one IOCS.
const IOCR_BLOCK_REQ: [u8; 84] = [
    0x01, 0x02, 0x00, 0x50, 0x01, 0x00, 0x00, 0x01, 0x00, 0x01, 0x88, 0x92, 0x00, 0x00, 0x00, 0x01,
    0x00, 0x28, 0xc0, 0x01, 0x00, 0x20, 0x00, 0x01, 0x00, 0x01, 0x00, 0x00, 0xff, 0xff, 0xff, 0xff,
    0x00, 0x03, 0x00, 0x03, 0xc0, 0x00, 0x00, 0x00, 0x00, 0x00, 0x00, 0x00, 0x00, 0x01, 0x00, 0x00,
    0x00, 0x00, 0x00, 0x04, 0x00, 0x00, 0x00, 0x01, 0x00, 0x00, 0x00, 0x00, 0x80, 0x00, 0x00, 0x01,
    0x00, 0x00, 0x80, 0x01, 0x00, 0x02, 0x00, 0x01, 0x00, 0x01, 0x00, 0x03, 0x00, 0x01, 0x00, 0x02,
    0x00, 0x01, 0x00, 0x06,
];

/// An AlarmCRBlockReq.
const ALARM_CR_BLOCK_REQ: [u8; 26] = [
    0x01, 0x03, 0x00, 0x16, 0x01, 0x00, 0x00, 0x01, 0x88, 0x92, 0x00, 0x00, 0x00, 0x00, 0x00, 0x01,
    0x00, 0x03, 0x00, 0x01, 0x00, 0xc8, 0xc0, 0x00, 0xa0, 0x00,
];

/// An AlarmCRBlockRes.
const ALARM_CR_BLOCK_RES: [u8; 12] = [
    0x81, 0x03, 0x00, 0x08, 0x01, 0x00, 0x00, 0x01, 0x00, 0x01, 0x00, 0xc8,
];

/// A module with an input of two octets, and one without data.
const EXPECTED: [u8; 64] = [
    0x01, 0x04, 0x00, 0x3c, 0x01, 0x00, 0x00, 0x02, 0x00, 0x00, 0x00, 0x00, 0x00, 0x01, 0x00, 0x00,
    0x00, 0x10, 0x00, 0x00, 0x00, 0x01, 0x00, 0x01, 0x00, 0x00, 0x00, 0x10, 0x00, 0x01, 0x00, 0x01,
    0x00, 0x02, 0x01, 0x01, 0x00, 0x00, 0x00, 0x00, 0x00, 0x02, 0x00, 0x00, 0x00, 0x30, 0x00, 0x00,
    0x00, 0x01, 0x00, 0x01, 0x00, 0x00, 0x00, 0x30, 0x00, 0x00, 0x00, 0x01, 0x00, 0x00, 0x01, 0x01,
];

/// A wrong submodule and an empty slot.
pub(crate) const MODULE_DIFF: [u8; 50] = [
    0x81, 0x04, 0x00, 0x2e, 0x01, 0x00, 0x00, 0x01, 0x00, 0x00, 0x00, 0x00, 0x00, 0x02, 0x00, 0x02,
    0x00, 0x00, 0x00, 0x20, 0x00, 0x01, 0x00, 0x01, 0x00, 0x01, 0x00, 0x00, 0x00, 0x20, 0x90, 0x00,
    0x00, 0x03, 0x00, 0x00, 0x00, 0x00, 0x00, 0x00, 0x00, 0x01, 0x00, 0x01, 0x00, 0x00, 0x00, 0x00,
    0x98, 0x00,
];

/// ApplicationReady.
const APPLICATION_READY: [u8; 32] = [
    0x01, 0x12, 0x00, 0x1c, 0x01, 0x00, 0x00, 0x00, 0x11, 0x11, 0x11, 0x11, 0x11, 0x11, 0x11, 0x11,
    0x11, 0x11, 0x11, 0x11, 0x11, 0x11, 0x11, 0x22, 0x00, 0x01, 0x00, 0x00, 0x00, 0x02, 0x00, 0x00,
];

/// A PrmEnd's answer.
const PRM_END_RES: [u8; 32] = [
    0x81, 0x10, 0x00, 0x1c, 0x01, 0x00, 0x00, 0x00, 0x11, 0x11, 0x11, 0x11, 0x11, 0x11, 0x11, 0x11,
    0x11, 0x11, 0x11, 0x11, 0x11, 0x11, 0x11, 0x22, 0x00, 0x01, 0x00, 0x00, 0x00, 0x08, 0x00, 0x00,
];

/// I&M0FilterData of the device.
const FILTER_DEVICE: [u8; 28] = [
    0x00, 0x32, 0x00, 0x18, 0x01, 0x00, 0x00, 0x01, 0x00, 0x00, 0x00, 0x00, 0x00, 0x01, 0x00, 0x00,
    0x00, 0x00, 0x00, 0x01, 0x00, 0x01, 0x00, 0x01, 0x00, 0x00, 0x00, 0x01,
];

/// PrmEnd.
const PRM_END: [u8; 32] = [
    0x01, 0x10, 0x00, 0x1c, 0x01, 0x00, 0x00, 0x00, 0x11, 0x11, 0x11, 0x11, 0x11, 0x11, 0x11, 0x11,
    0x11, 0x11, 0x11, 0x11, 0x11, 0x11, 0x11, 0x22, 0x00, 0x01, 0x00, 0x00, 0x00, 0x01, 0x00, 0x00,
];

/// A process alarm with four octets of data.
const ALARM_NOTIFICATION: [u8; 32] = [
    0x00, 0x01, 0x00, 0x1c, 0x01, 0x00, 0x00, 0x02, 0x00, 0x00, 0x00, 0x00, 0x00, 0x01, 0x00, 0x02,
    0x00, 0x00, 0x00, 0x10, 0x00, 0x00, 0x00, 0x30, 0x00, 0x07, 0x00, 0x01, 0xde, 0xad, 0xbe, 0xef,
];

/// What a reader gives next: a type, or the fault of the block. `None` at the end.
fn next_of(reader: &mut BlockReader) -> Option<Result<BlockType, BlockFault>> {
    match reader.next() {
        Some(Ok(block)) => Some(Ok(block.block_type())),
        Some(Err(fault)) => Some(Err(fault)),
        None => None,
    }
}

/// Two blocks, and octets of no known type.
fn three() -> ArrayVec<u8, 64> {
    let mut bytes = ArrayVec::new();
    let _ = bytes.try_extend_from_slice(&IM2);
    let _ = bytes.try_extend_from_slice(&PRM_END);
    let _ = bytes.try_extend_from_slice(&[0xff, 0xff, 0, 0]);
    bytes
}

#[test]
fn blocks_are_read_one_behind_the_other() {
    let bytes = three();
    let mut reader = BlockReader::new(bytes.as_slice());
    assert_eq!(next_of(&mut reader), Some(Ok(BlockType::Im2)));
    assert_eq!(reader.rest().len(), 36);
    assert_eq!(next_of(&mut reader), Some(Ok(BlockType::PrmEnd)));
    assert_eq!(reader.rest().len(), 4);
}

#[test]
fn a_reader_stays_at_a_fault() {
    let mut reader = BlockReader::new(&[0xff, 0xff, 0, 0, 1, 2, 3]);
    assert_eq!(next_of(&mut reader), Some(Err(BlockFault::Kind)));
    assert_eq!(reader.rest().len(), 7);
    assert_eq!(next_of(&mut reader), None);
    assert_eq!(reader.rest().len(), 7);
}

#[test]
fn a_reader_ends_where_the_octets_do() {
    let mut reader = BlockReader::new(&PRM_END);
    assert_eq!(next_of(&mut reader), Some(Ok(BlockType::PrmEnd)));
    assert_eq!(next_of(&mut reader), None);
}

/// A process alarm with this data.
fn alarm(alarm_data: AlarmData) -> AlarmNotification {
    AlarmNotification {
        alarm_type: 2,
        api: 0,
        slot_number: 1,
        subslot_number: 2,
        module_ident_number: 0x10,
        submodule_ident_number: 0x30,
        alarm_specifier: 7,
        alarm_data,
    }
}

#[test]
fn an_alarm_is_written() {
    let block = Block::AlarmNotification(alarm(AlarmData::new(&[0xde, 0xad, 0xbe, 0xef])));
    let mut out: ArrayVec<u8, 32> = ArrayVec::new();
    if block_len(&block) <= 32 {
        write_block(&mut out, &block);
    }
    assert_eq!(out.as_slice(), ALARM_NOTIFICATION.as_slice());
}

#[test]
fn an_alarm_has_at_most_65511_octets_of_data() {
    let octets = [0xa5; 65511];
    let block = Block::AlarmNotification(alarm(AlarmData::new(&octets)));
    assert_eq!(block_len(&block), 65539);
}

/// A PrmEnd with this BlockLength, followed by these octets.
fn cut(length: u8, body: &[u8]) -> Option<BlockFault> {
    let mut bytes: ArrayVec<u8, 64> = ArrayVec::new();
    let _ = bytes.try_extend_from_slice(&[1, 0x10, 0, length]);
    let _ = bytes.try_extend_from_slice(body);
    read_block(bytes.as_slice()).err()
}

#[test]
fn a_version_is_judged_before_what_is_missing_behind_it() {
    assert_eq!(cut(1, &[2]), Some(BlockFault::Version(2)));
    assert_eq!(cut(1, &[1]), Some(BlockFault::Length));
    assert_eq!(cut(2, &[1, 7]), Some(BlockFault::Version(3)));
    assert_eq!(cut(2, &[1]), Some(BlockFault::Truncated));
}

/// Why octets are no block.
fn fault_of(bytes: &[u8]) -> Option<BlockFault> {
    read_block(bytes).err()
}

/// Why a block is not valid if the two octets at a place are this number.
fn with_number(bytes: &[u8], place: usize, number: u16) -> Option<BlockFault> {
    let mut changed: ArrayVec<u8, 128> = ArrayVec::new();
    let _ = changed.try_extend_from_slice(bytes);
    for (octet, value) in changed.iter_mut().skip(place).zip(number.to_be_bytes()) {
        *octet = value;
    }
    fault_of(changed.as_slice())
}

/// Whether a number at a place, if there is one, is refused by the number of its field.
fn is_refused(bytes: &[u8], place: usize, number: Option<u16>, field: u8) -> bool {
    match number {
        Some(number) => with_number(bytes, place, number) == Some(BlockFault::Field(field)),
        None => true,
    }
}

/// Whether the field at a place is accepted from the least to the greatest number, and refused by its number beside them.
fn is_ranged(bytes: &[u8], place: usize, least: u16, greatest: u16, field: u8) -> bool {
    with_number(bytes, place, least).is_none()
        && with_number(bytes, place, greatest).is_none()
        && is_refused(bytes, place, least.checked_sub(1), field)
        && is_refused(bytes, place, greatest.checked_add(1), field)
}

#[test]
fn ranges_of_a_relation() {
    for (place, least, greatest, field) in [(6, 1, 1, 4), (52, 1, 1000, 10)] {
        assert!(
            is_ranged(&AR_BLOCK_REQ, place, least, greatest, field),
            "{field}"
        );
    }
    assert!(is_ranged(&APPLICATION_READY, 28, 2, 2, 8));
    assert!(is_ranged(&PRM_END_RES, 28, 8, 8, 8));
}

#[test]
fn ranges_of_cyclic_frames() {
    for (place, least, greatest, field) in [
        (6, 1, 2, 4),
        (10, 0x8892, 0x8892, 6),
        (16, 40, 1440, 8),
        (18, 0x8000, 0xBBFF, 9),
        (18, 0xC000, 0xF7FF, 9),
        (20, 1, 128, 10),
        (22, 1, 512, 11),
        (34, 1, 7680, 16),
        (44, 1, 1, 19),
        (46, 0, 0, 20),
        (48, 0, 0, 20),
    ] {
        assert!(
            is_ranged(&IOCR_BLOCK_REQ, place, least, greatest, field),
            "{field}"
        );
    }
}

#[test]
fn ranges_of_alarms() {
    for (place, least, greatest, field) in [
        (6, 1, 1, 4),
        (8, 0x8892, 0x8892, 5),
        (14, 1, 0xFFFF, 7),
        (16, 1, 15, 8),
        (20, 200, 1432, 10),
    ] {
        assert!(
            is_ranged(&ALARM_CR_BLOCK_REQ, place, least, greatest, field),
            "{field}"
        );
    }
    assert!(is_ranged(&ALARM_CR_BLOCK_RES, 8, 1, 1, 5));
    assert!(is_ranged(&ALARM_CR_BLOCK_RES, 10, 200, 200, 6));
    assert!(is_ranged(&ALARM_NOTIFICATION, 26, 1, 1, 11));
}

#[test]
fn ranges_of_modules() {
    for (place, least, greatest, field) in [
        (8, 0, 0, 5),
        (10, 0, 0, 5),
        (32, 0, 1440, 14),
        (60, 0, 0, 14),
    ] {
        assert!(
            is_ranged(&EXPECTED, place, least, greatest, field),
            "{field}"
        );
    }
    assert!(is_ranged(&MODULE_DIFF, 6, 1, 1, 4));
    assert!(is_ranged(&FILTER_DEVICE, 6, 1, 1, 4));
}

#[test]
fn ranges_of_identification() {
    assert!(is_ranged(&IM0, 50, 0, 0, 9));
    assert!(is_ranged(&IM0, 56, 0x0101, 0x0101, 12));
    assert!(is_ranged(&IM0, 58, 0x003E, 0x003E, 13));
}

/// Numbers at places that are refused by the number of their field.
const REFUSED: [(&[u8], usize, u16, u8); 8] = [
    (&AR_BLOCK_REQ, 26, 0x0300, 7),
    (&AR_BLOCK_REQ, 56, 241, 12),
    (&IOCR_BLOCK_REQ, 14, 0, 7),
    (&IOCR_BLOCK_REQ, 14, 3, 7),
    (&EXPECTED, 40, 1, 6),
    (&EXPECTED, 30, 2, 13),
    (&EXPECTED, 34, 0x0201, 15),
    (&EXPECTED, 62, 0x0100, 16),
];

#[test]
fn fields_that_are_no_ranges() {
    for (bytes, place, number, field) in REFUSED {
        let found = with_number(bytes, place, number);
        assert_eq!(found, Some(BlockFault::Field(field)));
    }
}

/// An ARBlockReq for the ARUUID of zeros.
fn without_uuid() -> [u8; 61] {
    let mut bytes = AR_BLOCK_REQ;
    for octet in &mut bytes[8..24] {
        *octet = 0;
    }
    bytes
}

/// A module in slot 1 with the subslot 1, twice.
const REPEATED: [u8; 50] = [
    0x01, 0x04, 0x00, 0x2e, 0x01, 0x00, 0x00, 0x01, 0x00, 0x00, 0x00, 0x00, 0x00, 0x01, 0x00, 0x00,
    0x00, 0x10, 0x00, 0x00, 0x00, 0x02, 0x00, 0x01, 0x00, 0x00, 0x00, 0x10, 0x00, 0x00, 0x00, 0x01,
    0x00, 0x00, 0x01, 0x01, 0x00, 0x01, 0x00, 0x00, 0x00, 0x10, 0x00, 0x00, 0x00, 0x01, 0x00, 0x00,
    0x01, 0x01,
];

#[test]
fn no_uuid_of_zeros_and_no_subslot_twice() {
    assert_eq!(fault_of(&without_uuid()), Some(BlockFault::Field(5)));
    assert_eq!(fault_of(&REPEATED), Some(BlockFault::Field(10)));
    assert_eq!(with_number(&REPEATED, 36, 2), None);
}

/// An input IOCRBlockReq with this many data objects and no IOCS.
fn input_of(objects: u16) -> ArrayVec<u8, 2048> {
    let mut bytes = ArrayVec::new();
    let length = 50u16.wrapping_add(objects.wrapping_mul(6));
    let _ = bytes.try_extend_from_slice(&[0x01, 0x02]);
    let _ = bytes.try_extend_from_slice(&length.to_be_bytes());
    let _ = bytes.try_extend_from_slice(&IOCR_BLOCK_REQ[4..50]);
    let _ = bytes.try_extend_from_slice(&objects.to_be_bytes());
    for place in 0..objects {
        let _ = bytes.try_extend_from_slice(&[0, 1, 0, 1]);
        let _ = bytes.try_extend_from_slice(&place.to_be_bytes());
    }
    let _ = bytes.try_extend_from_slice(&[0, 0]);
    bytes
}

#[test]
fn a_257th_data_object_is_one_too_many() {
    assert_eq!(fault_of(input_of(256).as_slice()), None);
    let fault = fault_of(input_of(257).as_slice());
    assert_eq!(fault, Some(BlockFault::Count));
}
