//! Which calls are asked, and which are refused or are of the device's own records.

use super::samples::{NAME, header, named};
use arrayvec::ArrayVec;
use asked_records::{RecordName, judge_asked_read, judge_asked_write};
use block_codec::{IodReadReq, IodWriteReq, RecordHeader};
use pn_values::{ParameterRecord, Real, RealModule, RealSubmodule};
use records::CallFault;
use wire::Uuid;

/// A submodule in this subslot, with these parameter records.
fn submodule(subslot: u16, parameters: &[ParameterRecord]) -> RealSubmodule {
    RealSubmodule {
        subslot,
        parameters: parameters.iter().copied().collect(),
        ..RealSubmodule::default()
    }
}

/// What is plugged: two submodules in slot 2, the second one with parameter record 1.
fn plugged() -> Real {
    let mut modules = ArrayVec::new();
    modules.push(RealModule {
        slot: 2,
        ident: 32,
        submodules: [
            submodule(1, &[]),
            submodule(
                2,
                &[ParameterRecord {
                    index: 1,
                    length: 4,
                }],
            ),
        ]
        .into_iter()
        .collect(),
    });
    Real { modules }
}

/// Record 1 of the submodule with a parameter record of that index.
const SHADOWED: RecordName = RecordName {
    slot: 2,
    subslot: 2,
    index: 1,
    ..NAME
};

/// Records of slot 2, subslot 1: one for each way of access, and one of a submodule that is not plugged.
const NAMES: [RecordName; 5] = [
    NAME,
    RecordName {
        index: 0x1235,
        is_readable: false,
        ..NAME
    },
    RecordName {
        index: 0x1236,
        is_writable: false,
        ..NAME
    },
    RecordName { slot: 9, ..NAME },
    SHADOWED,
];

fn read(header: RecordHeader) -> Result<Option<RecordName>, CallFault> {
    let request = IodReadReq {
        header,
        target_ar_uuid: Uuid::from_bytes([0; 16]),
    };
    judge_asked_read(&named(&NAMES), &plugged(), &request)
}

fn write(header: RecordHeader, behind: &[u8]) -> Result<Option<RecordName>, CallFault> {
    judge_asked_write(&named(&NAMES), &plugged(), &IodWriteReq { header }, behind)
}

#[test]
fn judges_reads() {
    assert_eq!(read(header(1)), Ok(Some(NAME)));
    assert_eq!(
        read(RecordHeader {
            index: 0x1235,
            ..header(1)
        }),
        Err(CallFault::Access)
    );
    assert_eq!(
        read(RecordHeader {
            index: 0x1236,
            ..header(1)
        }),
        Ok(Some(NAMES[2]))
    );
    assert_eq!(
        read(RecordHeader {
            index: 0x1237,
            ..header(1)
        }),
        Ok(None)
    );
    assert_eq!(
        read(RecordHeader {
            api: 1,
            ..header(1)
        }),
        Err(CallFault::Api)
    );
    assert_eq!(
        read(RecordHeader {
            slot_number: 9,
            ..header(1)
        }),
        Err(CallFault::Place)
    );
    assert_eq!(
        read(RecordHeader {
            subslot_number: 2,
            index: 1,
            ..header(1)
        }),
        Ok(None)
    );
}

#[test]
fn judges_writes() {
    assert_eq!(write(header(2), &[1, 2]), Ok(Some(NAME)));
    assert_eq!(write(header(0), &[]), Ok(Some(NAME)));
    assert_eq!(write(header(2), &[1, 2, 3]), Ok(Some(NAME)));
    assert_eq!(write(header(2), &[1]), Err(CallFault::WriteLength));
    assert_eq!(write(header(20), &[0; 20]), Ok(Some(NAME)));
    assert_eq!(write(header(21), &[0; 21]), Err(CallFault::WriteLength));
    assert_eq!(
        write(
            RecordHeader {
                index: 0x1236,
                ..header(21)
            },
            &[]
        ),
        Err(CallFault::Access)
    );
    assert_eq!(
        write(
            RecordHeader {
                api: 1,
                index: 0x1236,
                ..header(21)
            },
            &[]
        ),
        Err(CallFault::Api)
    );
    assert_eq!(
        write(
            RecordHeader {
                index: 0x1237,
                ..header(21)
            },
            &[]
        ),
        Ok(None)
    );
    assert_eq!(
        write(
            RecordHeader {
                subslot_number: 2,
                index: 1,
                ..header(4)
            },
            &[0; 4]
        ),
        Ok(None)
    );
}
