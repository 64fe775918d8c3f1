//! A device with a smallest interval: which Connects it refuses, and with which status.

use super::blocks::{
    ALARM, AR, EXPECTED_0, EXPECTED_1, EXPECTED_2, INPUT, OUTPUT, all, joined, request_within, with,
};
use records::{CallFault, Operation};

/// The status of an interval that is too small.
const TOO_SMALL: [u8; 4] = [0xdb, 0x81, 0x02, 0x0a];

/// The status of a Connect with these blocks, if it is refused.
fn status(smallest: u32, blocks: &[u8]) -> Option<[u8; 4]> {
    let fault: CallFault = request_within(smallest, blocks).err()?;
    let status = fault.number(Operation::Connect);
    Some([status.code, status.decode, status.code1, status.code2])
}

/// A Connect with these two IOCRBlockReq.
fn connect(input: &[u8], output: &[u8]) -> Vec<u8> {
    joined(&[
        &AR,
        input,
        output,
        &ALARM,
        &EXPECTED_0,
        &EXPECTED_1,
        &EXPECTED_2,
    ])
    .as_slice()
    .to_vec()
}

#[test]
fn the_smallest_interval_itself_is_accepted() {
    // 32 x 1 units
    assert_eq!(status(0, all().as_slice()), None);
    assert_eq!(status(1, all().as_slice()), None);
    assert_eq!(status(32, all().as_slice()), None);
    assert_eq!(status(33, all().as_slice()), Some(TOO_SMALL));
    assert_eq!(status(65_536, all().as_slice()), Some(TOO_SMALL));
}

#[test]
fn either_direction_is_checked() {
    // SendClockFactor 64: 64 units
    let (input, output) = (with(&INPUT, 21, 64), with(&OUTPUT, 21, 64));
    assert_eq!(
        status(64, &connect(input.as_slice(), output.as_slice())),
        None
    );
    assert_eq!(
        status(64, &connect(input.as_slice(), &OUTPUT)),
        Some(TOO_SMALL)
    );
    assert_eq!(
        status(64, &connect(&INPUT, output.as_slice())),
        Some(TOO_SMALL)
    );
    // ReductionRatio 2 does the same
    let (input, output) = (with(&INPUT, 23, 2), with(&OUTPUT, 23, 2));
    assert_eq!(
        status(64, &connect(input.as_slice(), output.as_slice())),
        None
    );
    assert_eq!(
        status(65, &connect(input.as_slice(), output.as_slice())),
        Some(TOO_SMALL)
    );
}

#[test]
fn the_largest_interval_is_accepted() {
    // 128 x 512 units
    let long = |block: &[u8]| {
        let block = with(block, 21, 128);
        let block = with(block.as_slice(), 22, 2);
        with(block.as_slice(), 23, 0)
    };
    let (input, output) = (long(&INPUT), long(&OUTPUT));
    assert_eq!(
        status(65_536, &connect(input.as_slice(), output.as_slice())),
        None
    );
    assert_eq!(
        status(65_537, &connect(input.as_slice(), output.as_slice())),
        Some(TOO_SMALL)
    );
}

#[test]
fn other_faults_of_the_block_come_first() {
    // IOCRType 3 is field 4
    let input = with(&INPUT, 7, 3);
    assert_eq!(
        status(33, &connect(input.as_slice(), &OUTPUT)),
        Some([0xdb, 0x81, 0x02, 0x04])
    );
    // so is a second IOCRBlockReq of inputs, whose own interval is too small as well
    let first = with(&INPUT, 21, 64);
    assert_eq!(
        status(33, &connect(first.as_slice(), &INPUT)),
        Some([0xdb, 0x81, 0x02, 0x04])
    );
}

#[test]
fn faults_of_later_blocks_come_later() {
    // the output has a wrong type, and the AlarmCRBlockReq is missing
    let output = with(&OUTPUT, 7, 3);
    let blocks = joined(&[&AR, &INPUT, output.as_slice()]);
    assert_eq!(status(33, blocks.as_slice()), Some(TOO_SMALL));
    assert_eq!(
        status(32, blocks.as_slice()),
        Some([0xdb, 0x81, 0x02, 0x04])
    );
    // a fault of the ARBlockReq comes before: its version is field 2
    let ar = with(&AR, 4, 2);
    let blocks = joined(&[ar.as_slice(), &INPUT]);
    assert_eq!(
        status(33, blocks.as_slice()),
        Some([0xdb, 0x81, 0x01, 0x02])
    );
}
