//! What passes in fragments: a Connect of 64 modules, and a record of 4,068 octets.

use super::writer::{Packet, fragment};
use super::{Did, body_of, calls, did};
use connects::ConnectRequest;
use rpc_core::{Interface, read_call};

/// Numbers of two octets, the highest octet first.
fn words(numbers: &[u16]) -> Vec<u8> {
    numbers
        .iter()
        .flat_map(|number| number.to_be_bytes())
        .collect()
}

/// A block of this type, version 1.0.
fn block(block_type: u16, fields: &[Vec<u8>]) -> Vec<u8> {
    let fields = fields.concat();
    let length = u16::try_from(fields.len() + 2).expect("a length");
    [words(&[block_type, length]), vec![1, 0], fields].concat()
}

/// An IOCRBlockReq: its type, its reference, its FrameID, the offsets of its data objects and those of its IOCS.
fn iocr(kind: u16, frame_id: u16, objects: &[u16], statuses: &[u16]) -> Vec<u8> {
    let places = |offsets: &[u16]| {
        let count = u16::try_from(offsets.len()).expect("a count");
        let each = (0..count)
            .zip(offsets)
            .flat_map(|(slot, offset)| words(&[slot, 1, *offset]));
        [words(&[count]), each.collect()].concat()
    };
    block(
        0x0102,
        &[
            words(&[kind, kind, 0x8892, 0, 1, 200, frame_id, 32, 32, 1, 0]),
            vec![0xFF; 4],
            words(&[3, 3, 0xC000]),
            vec![0; 6],
            words(&[1, 0, 0]),
            places(objects),
            places(statuses),
        ],
    )
}

/// The blocks of a Connect that expects a module with one octet of input in each of 64 slots.
pub(crate) fn connect() -> Vec<u8> {
    let ar = block(
        0x0101,
        &[
            words(&[1]),
            (1..17).collect(),
            words(&[1]),
            vec![2, 0, 0, 0, 0, 2],
            vec![0xDE; 16],
            words(&[0, 0x11, 600, 0x8892, 10]),
            b"controller".to_vec(),
        ],
    );
    let data: Vec<u16> = (0..64).map(|slot| slot * 2).collect();
    let statuses: Vec<u16> = (0..64).collect();
    let alarm = block(
        0x0103,
        &[words(&[1, 0x8892, 0, 0, 1, 3, 1, 200, 0xC000, 0xA000])],
    );
    let expected = (0..64_u16).flat_map(|slot| {
        block(
            0x0104,
            &[
                words(&[1, 0, 0, slot, 0, slot + 1, 0, 1]),
                words(&[1, 0, slot + 1, 1, 1, 1]),
                vec![1, 1],
            ],
        )
    });
    let expected: Vec<u8> = expected.collect();
    let (input, output) = (iocr(1, 0xC001, &data, &[]), iocr(2, 0xFFFF, &[], &statuses));
    [ar, input, output, alarm, expected].concat()
}

/// The body of a call with these blocks.
pub(crate) fn body(blocks: &[u8]) -> Vec<u8> {
    let length = u32::try_from(blocks.len()).expect("a length").to_be_bytes();
    [
        vec![0, 0, 16, 0],
        length.to_vec(),
        vec![0, 0, 16, 0],
        vec![0; 4],
        length.to_vec(),
        blocks.to_vec(),
    ]
    .concat()
}

/// The call that comes in fragments of these many octets, as the joiner gives it.
pub(crate) fn joined(operation: u16, body: &[u8], size: usize) -> Vec<u8> {
    let mut joiner = calls();
    let parts: Vec<&[u8]> = body.chunks(size).collect();
    let mut got = Did::Nothing;
    for (number, part) in parts.iter().enumerate() {
        let number_is = u16::try_from(number).expect("a number");
        let first = fragment(1, 1, number_is, part, number + 1 == parts.len());
        got = did(&mut joiner, &Packet { operation, ..first }.octets());
    }
    match got {
        Did::Joined(whole) => whole,
        other => panic!("{other:?}"),
    }
}

#[test]
fn a_connect_of_64_modules_passes() {
    let blocks = connect();
    assert_eq!(blocks.len(), 3274);
    for size in [1392, 1000, 512, 8] {
        let whole = joined(0, &body(&blocks), size);
        let call = read_call(Interface::Device, &whole).expect("a call");
        assert_eq!(call.header.operation, 0);
        let mut request = ConnectRequest::new();
        assert!(request.read(1, call.blocks.expect("blocks")).is_ok());
        assert_eq!(request.expected().modules.len(), 64);
        assert_eq!(request.expected().submodules.len(), 64);
    }
}

/// The blocks of a Write of a record of 4,068 octets.
pub(crate) fn write() -> Vec<u8> {
    let record = body_of(4068);
    let header = block(
        0x0008,
        &[
            words(&[0]),
            (1..17).collect(),
            words(&[0, 0, 0, 1, 0, 7, 0, 4068]),
            vec![0; 24],
        ],
    );
    assert_eq!(header.len(), 64);
    [header, record].concat()
}

#[test]
fn a_record_of_4068_octets_passes() {
    let blocks = write();
    let whole = joined(3, &body(&blocks), 1392);
    assert_eq!(whole.len(), 4232);
    let call = read_call(Interface::Device, &whole).expect("a call");
    assert_eq!(call.blocks, Some(blocks.as_slice()));
}
